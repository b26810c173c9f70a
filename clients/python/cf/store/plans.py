"""Plans of requests as a store keeps them: a JSON text that each process builds the same graph of."""
import json
from typing import Any, Dict, List, Optional, Sequence, Tuple

from ..plan import Plan
from ..service.flow import Flow
from ..service.words import COMPOSE_FORMS, FORMS, FORMS_WITHOUT_FUNCTION, OutcomeNumbers
from ..values import Form, Refused
from .codec import json_of
from .contexts import Carrier, capture_all
from .functions import Functions, definition_of
from .replica import Replica
from .rows import Broken

FORMAT = 3  # of plans in stores, beside those of scripts


class SharedPlan:
    """A plan that was read: what it says of each stage, and the same for the library.

    Attributes:
        rows: Form, sources, function or None, and name of each stage.
        library_plan: The same for the library.
        start: How far each has come before any word, and what it came to."""

    def __init__(self, text: str, name: str) -> None:
        try:
            read = json.loads(text)
            if read["cf"] != FORMAT:
                raise ValueError(f"it is of version {read['cf']}")
            self.flow = str(read["flow"])
            self.carried_context: Dict[str, Any] = dict(read.get("context", {}))
            self.definitions: List[Dict[str, Any]] = [checked_definition(it, number) for number, it in enumerate(read["stages"])]
            forms = [FORMS.index(it["form"]) for it in self.definitions]
            self.rows: List[Tuple[int, Tuple[int, ...], Any, str]] = [
                (form, tuple(it.get("of", [])), None if form in FORMS_WITHOUT_FUNCTION else _nobody, str(it["name"]))
                for form, it in zip(forms, self.definitions)
            ]
            self.library_plan = Plan()
            for number, (form, of, call, _) in enumerate(self.rows):
                self.library_plan.stage(Form(form), *of, function=None if call is None else number)
            fresh = self.new_replica(0, 0, 0)
            self.start: List[Tuple[int, OutcomeNumbers]] = [fresh.stage(number) for number in range(len(self.rows))]
        except (ValueError, KeyError, TypeError, Refused) as error:
            raise Broken(name, 0, f"its plan can't be read: {error!r}") from None

    def is_plan_of(self, flow: Flow) -> bool:
        """Whether it is a flow's: it has the flow's name and steps, be their functions of another version."""
        its = [(int(form), of, name) for form, of, _, name in self.rows]
        return self.flow == flow.name and its == [(int(form), of, name) for form, of, _, name in flow._rows]

    def new_replica(self, room: int, session: int, first: int) -> Replica:
        """What a session has seen of a row of it before the first word, with room for so many stages more. Its tokens
        count from `first` on."""
        return Replica(self.library_plan, len(self.rows), room, session, first)


def checked_definition(read: Any, number: int) -> Dict[str, Any]:
    """What was read of a stage of this number, if it is something of the kind: its name, its function's name,
    version and arguments, and the lower stages that it speaks of."""
    kinds = {"name": str, "fn": str, "version": int, "args": list, "kwargs": dict, "again": int, "to": int, "by": int, "context": dict}
    if not isinstance(read, dict) or "name" not in read or any(name in read and not isinstance(read[name], kind) for name, kind in kinds.items()):
        raise ValueError(f"it says nothing of a stage: {str(read)[:80]}")
    if any(not 0 <= read.get(name, 0) < max(number, 1) for name in ("again", "to", "by")):
        raise ValueError(f"it names a stage that isn't lower: {str(read)[:80]}")
    return read


def _nobody(*_: Any) -> None:
    """Stands for a function in a plan: what is called is found by its name."""


def text_of(flow: Optional[Flow], functions: Functions, carriers: Sequence[Carrier] = ()) -> str:
    """The text of a flow's plan, or of one without stages, with the context that its functions are to have.
    `TypeError` where a function isn't registered, or a stage composes: the promise for what its function gives would
    be a stage more; or where JSON hasn't what a carrier gives."""
    stages = []
    for form, of, call, name in [] if flow is None else flow._rows:
        if form in COMPOSE_FORMS:
            raise TypeError(f"{name}: a flow in a store has no compose; a stage of a request has")
        stages.append({"form": FORMS[form], "of": list(of), "name": name, **definition_of(functions, call, (), {})})
    return json_of({"cf": FORMAT, "flow": "" if flow is None else flow.name, "stages": stages, **capture_all(carriers)}, separators=(",", ":"))


def are_alike(text: str, other: str) -> bool:
    """Whether two texts are of one plan, wherever it was begun."""
    return text == other or _bare(text) == _bare(other)


def _bare(text: str) -> Any:
    try:
        read = json.loads(text)
    except ValueError:
        return text
    return {name: it for name, it in read.items() if name != "context"} if isinstance(read, dict) else read


def comparable_definition(said: Dict[str, Any]) -> Dict[str, Any]:
    """What is said of a stage that is the same where its function is to do the same."""
    return {name: it for name, it in said.items() if name not in ("context", "to")}
