"""The HTTP server: which address gives what, and how changes are sent on."""
import base64
import contextlib
import hashlib
import html
import json
import logging
import re
import socket
import socketserver
import subprocess
import threading
import time
from http.server import BaseHTTPRequestHandler, ThreadingHTTPServer
from pathlib import Path
from typing import Any, Callable, Dict, List, Mapping, Optional, Tuple
from urllib.parse import parse_qs, urlsplit

from ...service.exposition import CONTENT_TYPE
from ..rows import Broken, Gone, Store, StoreError, Unknown
from . import lists, metrics
from .actions import Actions, Misused
from .board import Board
from .detail import Details
from .lists import Filter
from .reading import Readings
from .safety import AROUND, COMMON, NOTHING, WITHIN, Door, origin_of
from .wording import PAGE, TEXTS

LOGGER = logging.getLogger("cf.requests")
LARGEST = 1_000_000  # bytes of an action
MOST_LIVE = 64  # pages that are sent what changes
MOST_CONNECTIONS = 256  # each has a thread
PATIENCE = 10.0  # seconds in which a request has to be there as a whole
BETWEEN = 0.1  # seconds between two sends of a list to a page, or so many times what the last took of a processor:
SHARE = 4
BETWEEN_ASKED = 0.25  # the same of what the store is asked for, or twice what the last one took by the clock
FIRST_WITHIN = 0.5  # seconds for which a page waits for the first requests, so that it has them
AT_FIRST = 0.02  # the same while nothing is known
ALIVE = 10.0  # seconds after which a page is told that the server is there
STILL = 1.0  # seconds after which a page is asked for anew even where nothing is known to have changed
MOMENT = ("now", "rate")  # what is other at each moment, and isn't sent by itself
BUSY = (
    b"HTTP/1.1 503 Service Unavailable\r\nContent-Type: text/plain; charset=utf-8\r\nConnection: close\r\n"
    b"Retry-After: 1\r\n\r\n" + TEXTS["busy"].encode()
)
Answer = Dict[str, Any]
Asked = Mapping[str, str]


class Page:
    """The text of page.html, and the policy that lets its own script and style run, and no other."""

    def __init__(self) -> None:
        self._text = Path(__file__).with_name("page.html").read_text(encoding="utf-8")
        script, style = (re.search(rf"<{name}>(.*?)</{name}>", self._text, re.S) for name in ("script", "style"))
        assert script is not None and style is not None
        self.policy: str = AROUND.format(_hash_of(script[1]), _hash_of(style[1]))

    def text(self, said: Dict[str, Any]) -> bytes:
        """The page, with what it is handed as JSON, in which nothing can end the element that it stands in."""
        data = json.dumps(said).replace("&", "\\u0026").replace("<", "\\u003c").replace(">", "\\u003e")
        return self._text.replace("{{said}}", data).encode()


def _hash_of(text: str) -> str:
    return "'sha256-" + base64.b64encode(hashlib.sha256(text.encode()).digest()).decode() + "'"


class Server(ThreadingHTTPServer):
    """Serves the requests of a store until `shutdown`.

    Args:
        store: The store. Who made it closes it.
        host, port: Where it listens; port 0 for any that is free.
        names: By which it may be called besides.
        public: The address at which a proxy serves it, such as https://ops.example.
        token: That of the printed address. By default one by chance.
        is_read_only: Whether nothing may be done.
        who: What whoever acts is called at first.
        cf_look: The path of the program, or None.
        lease: After how many seconds without a sign of life a session is gone.
        title: What the page calls the store."""

    daemon_threads, request_queue_size = True, 64

    def __init__(
        self,
        store: Store,
        host: str = "127.0.0.1",
        port: int = 0,
        *,
        names: Tuple[str, ...] = (),
        public: str = "",
        token: Optional[str] = None,
        is_read_only: bool = False,
        who: str = "",
        cf_look: Optional[str] = None,
        lease: float = 10,
        title: str = "",
    ) -> None:
        origin = origin_of(public) if public else ""
        self.board = Board(store, Readings(store), lease, is_read_only)
        self.address_family = socket.AF_INET6 if ":" in host else socket.AF_INET
        self._reading: Dict[socket.socket, float] = {}  # which connections a request is awaited on, and since when
        self._free = threading.BoundedSemaphore(MOST_CONNECTIONS)
        super().__init__((host, port), Handler)
        self.door = Door(self.server_address[1], [host, *names], token, origin)
        # (with views of its own: the board doesn't wait while a long history is told)
        self.details = Details(self.board, Readings(store), cf_look)
        self.actions = Actions(store, self.board)
        self.page, self.is_read_only, self.who, self.title = Page(), is_read_only, who, title
        self._host = f"[{host}]" if ":" in host else host
        self.live = threading.BoundedSemaphore(MOST_LIVE)
        self.board.start()

    @property
    def address(self) -> str:
        """What a browser opens."""
        origin = self.door.public or f"http://{self._host}:{self.server_address[1]}"
        return f"{origin}/?token={self.door.token}"

    def server_bind(self) -> None:
        """Takes the port. (HTTPServer's own asks for the machine's name then, which may take long.)"""
        socketserver.TCPServer.server_bind(self)
        self.server_name, self.server_port = self.server_address[:2]  # type: ignore[assignment]

    def server_close(self) -> None:
        """Lets the port go, and looks at the store no more."""
        self.board.stop()
        super().server_close()

    def process_request(self, request: Any, client_address: Any) -> None:
        """Has a thread answer a connection, or refuses one too many."""
        if not self._free.acquire(blocking=False):
            with contextlib.suppress(OSError):
                request.sendall(BUSY)
            self.shutdown_request(request)
            return
        try:
            self.awaits(request)
            super().process_request(request, client_address)
        except BaseException:  # no thread could be started
            self._end(request)
            raise

    def process_request_thread(self, request: Any, client_address: Any) -> None:
        """Answers a connection, and then has room for another."""
        try:
            super().process_request_thread(request, client_address)
        finally:
            self._end(request)

    def _end(self, request: Any) -> None:
        self.has_request(request)
        self._free.release()

    def awaits(self, request: socket.socket) -> None:
        """Notes that a connection's next request is awaited from now on."""
        self._reading[request] = time.monotonic()

    def has_request(self, request: socket.socket) -> None:
        """Notes that it is there, as a whole."""
        self._reading.pop(request, None)

    def service_actions(self) -> None:
        """Ends the connections whose request isn't there in time, however slowly it comes. The server's loop calls it."""
        before = time.monotonic() - PATIENCE
        for request, since in list(self._reading.items()):
            if since < before:
                with contextlib.suppress(OSError):
                    request.shutdown(socket.SHUT_RDWR)

    def handle_error(self, request: Any, client_address: Any) -> None:
        """A browser that has left is no fault."""
        LOGGER.debug("a request has failed", exc_info=True)

    def asked(self, given: Asked) -> Answer:
        """What a page shows."""
        view = given.get("view", "requests")
        if view == "request":
            return self.details.request(given.get("name", ""), _number(given, "number"), _number(given, "before"))
        if view in ("sessions", "queues"):
            return lists.sessions(self.board) if view == "sessions" else lists.queues(self.board)
        session = given.get("session")
        return lists.requests(
            self.board,
            Filter(
                given.get("state", ""),
                given.get("flow"),
                given.get("part", ""),
                None if session is None else _number(given, "session", 16),
                given.get("behind", ""),
            ),
        )


class Handler(BaseHTTPRequestHandler):
    """Answers one browser's requests."""

    server: Server
    protocol_version, timeout, disable_nagle_algorithm = "HTTP/1.1", 60, True
    server_version, sys_version = "cf", ""

    def handle_one_request(self) -> None:
        """Reads one request and answers it."""
        self.server.awaits(self.connection)
        super().handle_one_request()

    def do_GET(self) -> None:
        """A page, or what it shows."""
        self.server.has_request(self.connection)
        url = urlsplit(self.path)
        given = {name: values[-1] for name, values in parse_qs(url.query, keep_blank_values=True).items()}
        refusal = self.server.door.refusal(self.headers, is_entry=url.path == "/")
        if refusal is not None:
            self._say(*refusal)
        elif url.path == "/" and "token" in given:
            self._enter(given["token"])
        elif not self.server.door.is_known(self.headers):
            self._say(401, TEXTS["no_token"])
        else:
            self._get(url.path, given)

    def do_POST(self) -> None:
        """An action."""
        door, length = self.server.door, self.headers.get("Content-Length", "")
        refusal = door.refusal(self.headers) or door.may_post(self.headers)
        if refusal is not None:
            self._say(*refusal)
        elif not door.is_known(self.headers):
            self._say(401, TEXTS["no_token"])
        elif self.path != "/act":
            self._say(404, TEXTS["unknown_page"])
        elif self.server.is_read_only:
            self._say(403, TEXTS["read_only"])
        elif not length.isdecimal() or int(length) > LARGEST:
            self._say(413, TEXTS["too_large"])
        else:
            body = self.rfile.read(int(length))
            self.server.has_request(self.connection)
            self._act(body)

    def _enter(self, token: str) -> None:
        """Changes the token for a cookie, together with the page. What the page asks for is its own, so that it has the
        cookie."""
        if self.server.door.is_token(token):
            self._page({"Set-Cookie": self.server.door.set_cookie()})
        else:
            self._say(401, TEXTS["no_token"])

    def _page(self, more: Optional[Mapping[str, str]] = None) -> None:
        """The page, with the list of all requests as it is known. So a browser can show it without another request."""
        server = self.server
        server.board.wait_for_first(FIRST_WITHIN)
        said = {
            "texts": PAGE,
            "token": server.door.post_token,
            "readOnly": server.is_read_only,
            "who": server.who,
            "title": server.title,
            "first": server.asked({}),
        }
        self._send(200, "text/html", server.page.text(said), server.page.policy, more)

    def _get(self, path: str, given: Asked) -> None:
        server = self.server
        pages: Dict[str, Callable[[], None]] = {
            "/": self._page,
            "/data": lambda: self._json(200, server.asked(given)),
            "/live": lambda: self._live(given),
            "/payload": lambda: self._json(200, server.details.payload(given.get("name", ""), _number(given, "number"), _number(given, "place"))),
            "/picture": lambda: self._picture(given),
            "/metrics": lambda: self._send(200, CONTENT_TYPE, metrics.text_of(server.board).encode()),
        }
        answer = pages.get(path)
        if answer is None:
            self._say(404, TEXTS["unknown_page"])
            return
        status, why = self._tried(answer)
        if why:
            self._say(status, why)

    @staticmethod
    def _tried(call: Callable[[], None], away: str = "silent") -> Tuple[int, str]:
        """Does it, and says with which status and why that failed; no reason where it didn't. `away` names what is said
        where the store doesn't answer."""
        try:
            call()
            return 200, ""
        except Misused as error:
            return 400, str(error)
        except Gone:
            return 404, TEXTS["gone"]
        except Broken as error:
            return 409, TEXTS["broken"].format(f"place {error.place}: {error.why}")
        except Unknown:
            return 503, TEXTS[away]
        except StoreError as error:
            return 409, TEXTS["refused"].format(error)

    def _act(self, body: bytes) -> None:
        told: List[Any] = []

        def act() -> None:
            try:
                asked = json.loads(body.decode())
            except (ValueError, RecursionError):
                raise Misused(TEXTS["misused"]) from None
            if not isinstance(asked, dict):
                raise Misused(TEXTS["misused"])
            told.extend(self.server.actions.do(asked))

        status, why = self._tried(act, "away")
        self._json(status, {"done": False, "said": why} if why else {"done": told[0], "said": told[1]})

    def _picture(self, given: Asked) -> None:
        details = self.server.details
        if details.cf_look is None:
            self._say(404, PAGE["noPicture"])
            return
        try:
            picture = details.picture(given.get("name", ""), _number(given, "number"))
        except (OSError, subprocess.SubprocessError) as error:
            if isinstance(error, Unknown):
                raise
            self._say(500, TEXTS["no_picture"].format(error))
            return
        if "ready" in given:  # whether it can be had: who shows a frame doesn't see what became of it
            self._json(200, {})
            return
        # (as the page's own button does it)
        theme = given.get("theme", "") if given.get("theme") in ("light", "dark") else ""
        text = picture.text.replace(b"<html ", f'<html data-theme="{theme}" '.encode(), 1) if theme else picture.text
        self._send(200, "text/html", text, WITHIN.format(" ".join(picture.scripts) or "'none'"))

    # Changes.

    def _live(self, given: Asked) -> None:
        """Sends what a page shows, and again each time it is another, until the page is left."""
        if not self.server.live.acquire(blocking=False):
            self._say(503, TEXTS["too_many"])
            return
        try:
            self.close_connection = True
            self._head(200, "text/event-stream", NOTHING)
            self.end_headers()
            self._send_changes(given)
        except OSError:  # the page was left
            pass
        finally:
            self.server.live.release()

    def _send_changes(self, given: Asked) -> None:
        board, version, sent, sent_at = self.server.board, -1, "", 0.0
        is_asked = given.get("view") == "request" or given.get("state") == "closed"
        while not board.is_stopped:
            version = board.wait(version, STILL)
            now, began = time.monotonic(), time.thread_time()
            told: List[Answer] = []
            status, why = self._tried(lambda: told.append(self.server.asked(given)))
            its = {"view": "failed", "status": status, "said": why, "now": time.time()} if why else told[0]
            data = json.dumps({key: it for key, it in its.items() if key not in MOMENT})
            if data != sent:
                moment = json.dumps({key: its[key] for key in MOMENT if key in its})
                self.wfile.write(f"data: {data[:-1]}, {moment[1:]}\n\n".encode())
                sent, sent_at = data, now
            elif now - sent_at > ALIVE:
                self.wfile.write(b": here\n\n")
                sent_at = now
            # (what takes long is asked for less often, and the first requests are sent as soon as they are known)
            if is_asked:
                time.sleep(max(BETWEEN_ASKED, 2 * (time.monotonic() - now)))
            else:
                is_known = board.is_known or board.many
                time.sleep(max(BETWEEN if is_known else AT_FIRST, SHARE * (time.thread_time() - began)))

    # Answers.

    def _head(self, status: int, kind: str, policy: str) -> None:
        self.send_response(status)
        self.send_header("Content-Type", f"{kind}; charset=utf-8")
        self.send_header("Content-Security-Policy", policy)
        for name, value in COMMON.items():
            self.send_header(name, value)
        if self.close_connection or status >= 400:
            self.close_connection = True
            self.send_header("Connection", "close")

    def _send(self, status: int, kind: str, body: bytes, policy: str = NOTHING, more: Optional[Mapping[str, str]] = None) -> None:
        self._head(status, kind, policy)
        for name, value in (more or {}).items():
            self.send_header(name, value)
        self.send_header("Content-Length", str(len(body)))
        self.end_headers()
        self.wfile.write(body)

    def _json(self, status: int, it: Answer) -> None:
        self._send(status, "application/json", json.dumps(it).encode())

    def _say(self, status: int, why: str) -> None:
        """Says in a sentence why there is nothing else."""
        self._send(status, "text/html", f"<!doctype html><title>cf</title><p>{html.escape(why)}</p>".encode())

    def log_message(self, format: str, *args: Any) -> None:
        """Says nothing: addresses have tokens."""


def _number(given: Asked, name: str, base: int = 10) -> int:
    try:
        return int(given.get(name) or "0", base)
    except ValueError:
        raise Misused(TEXTS["misused"]) from None
