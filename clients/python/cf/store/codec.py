"""Values and exceptions as bytes that other processes read: JSON, and never pickle."""
import builtins
import json
from concurrent.futures import CancelledError
from typing import Any, Dict, Type


class Abandoned(RuntimeError):
    """The process that ran a stage's function is gone. The function may have had its effect or not; nobody calls it
    again."""


class RemoteError(RuntimeError):
    """An exception that was raised in another process, of a class that isn't known here. `kind` is its class's name."""

    def __init__(self, kind: str, text: str) -> None:
        super().__init__(kind, text)
        self.kind: str = kind
        self.text: str = text

    def __str__(self) -> str:
        return f"{self.kind}: {self.text}"


def json_of(value: Any, **style: Any) -> str:
    """The JSON of a value, as `json.dumps`. What JSON hasn't raises `TypeError`, also NaN and infinities, which other
    languages can't read."""
    try:
        return json.dumps(value, allow_nan=False, **style)
    except ValueError as error:
        raise TypeError(f"JSON has nothing for it: {error}") from None


class Json:
    """Makes bytes of values and exceptions, and reads them back.

    Values are what JSON has. A tuple comes back as a list; what JSON hasn't, such as NaN, raises `TypeError`. An exception comes
    back as its class if that is one of Python's own or was added, with its arguments if JSON has these. Any other
    exception comes back as a `RemoteError`."""

    def __init__(self) -> None:
        self._kinds: Dict[str, Type[BaseException]] = {"Abandoned": Abandoned, "TimeoutError": TimeoutError, "CancelledError": CancelledError}

    def add(self, kind: Type[BaseException]) -> Type[BaseException]:
        """Lets exceptions of a class come back as this class, and not as `RemoteError`. It returns the class, so that it
        can be a decorator.

            codec = Json()

            @codec.add
            class Declined(Exception): ...

            service = DurableService(connect("sqlite:///orders.db"), codec=codec)    # or: cf.worker --codec MODULE:codec
        """
        self._kinds[kind.__name__] = kind
        return kind

    def write(self, value: Any) -> bytes:
        """Writes a value as bytes."""
        text = json_of(value, separators=(",", ":"), ensure_ascii=False)
        try:
            return text.encode()
        except UnicodeEncodeError:  # half of a pair, as in the name of a file that isn't UTF-8
            return json_of(value, separators=(",", ":")).encode()

    def read(self, given: bytes) -> Any:
        """Reads a value from bytes."""
        return json.loads(given.decode())

    def write_error(self, error: BaseException) -> bytes:
        """Writes an exception as bytes."""
        if isinstance(error, RemoteError):
            return self.write({"error": error.kind, "text": error.text})
        try:
            text = str(error)
        except Exception:
            text = "(it can't be shown)"
        said: Dict[str, Any] = {"error": type(error).__name__, "text": text}
        args = list(error.args)
        if isinstance(error, OSError) and error.filename is not None and len(args) == 2:
            args.append(error.filename)  # (which its arguments leave out)
        try:
            return self.write({**said, "args": args})
        except Exception:
            return self.write(said)

    def read_error(self, given: bytes) -> BaseException:
        """Reads an exception from bytes."""
        said = self.read(given)
        kind = self._kinds.get(said["error"]) or getattr(builtins, said["error"], None)
        if isinstance(kind, type) and issubclass(kind, BaseException):
            try:
                made: BaseException = kind(*said.get("args", [said["text"]]))
                return made
            except Exception:
                pass
        return RemoteError(said["error"], said["text"])
