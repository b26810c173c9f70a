"""Who may ask: the token of the printed address, the cookie that it is changed for, and what a request has to carry.

A page of another site can make a browser send requests here. Such a request has another Origin or Sec-Fetch-Site, and
no cookie, since that is SameSite=Strict. A name of another site that is made to lead here has another Host. An action
is a POST, and has a token that stands in the page, which no other site can read.

Behind a proxy browsers know another address than the server does, its public one. Their Origin is that one, and the
Host is either its host or the server's own, as the proxy sends it on.
"""
import hmac
import secrets
from email.message import Message
from http.cookies import CookieError, SimpleCookie
from typing import Any, Dict, Iterable, NamedTuple, Optional, Set
from urllib.parse import urlsplit

from .wording import TEXTS

OWN = ("same-origin", "none")  # what Sec-Fetch-Site says of requests that people and this page make
COMMON = {
    "X-Content-Type-Options": "nosniff",
    "Referrer-Policy": "no-referrer",
    "Cache-Control": "no-store",
    "Cross-Origin-Opener-Policy": "same-origin",
    "Cross-Origin-Resource-Policy": "same-origin",
}
NOTHING = "default-src 'none'; base-uri 'none'; form-action 'none'; frame-ancestors 'none'"
AROUND = (
    "default-src 'none'; script-src {}; style-src {}; connect-src 'self'; frame-src 'self'; img-src data:; "
    "base-uri 'none'; form-action 'none'; frame-ancestors 'none'"
)
# A picture has an origin of its own, so that even a script that got into it could ask for nothing here.
WITHIN = (
    "sandbox allow-scripts; default-src 'none'; script-src {}; style-src 'unsafe-inline'; base-uri 'none'; "
    "form-action 'none'; frame-ancestors 'self'"
)


PORTS: Dict[str, int] = {"http": 80, "https": 443}  # that an address needn't name


class Refusal(NamedTuple):
    """Why a request isn't answered."""

    status: int
    why: str


class Door:
    """What requests are let in by.

    Args:
        port: That of the server.
        names: By which the server may be called, besides this machine's own.
        token: That of the printed address. By default one by chance.
        public: The origin of the address at which a proxy serves it, or nothing. Browsers get the cookie by TLS alone
            where that is https."""

    def __init__(self, port: int, names: Iterable[str], token: Optional[str] = None, public: str = "") -> None:
        self.token: str = token or secrets.token_urlsafe(32)
        self.post_token: str = secrets.token_urlsafe(32)
        self._cookie = secrets.token_urlsafe(32)
        self.cookie_name: str = f"cf-requests-{port}"  # (a browser sends a machine's cookies to all its ports)
        named = ["127.0.0.1", "localhost", "[::1]", *(f"[{it}]" if ":" in it else it for it in names)]
        own = {f"{it.lower()}:{port}" for it in named} | ({it.lower() for it in named} if port == 80 else set())
        self._origins: Dict[str, Set[str]] = {host: {f"http://{host}"} for host in own}  # which may come with a Host
        self.public: str = public
        if public:
            scheme, host = urlsplit(public)[:2]
            for origins in self._origins.values():
                origins.add(public)
            self._origins.update({it: {public} for it in (host, f"{host}:{PORTS[scheme]}")})

    def set_cookie(self) -> str:
        """The header that gives a browser its cookie."""
        secure = "; Secure" if self.public.startswith("https:") else ""
        return f"{self.cookie_name}={self._cookie}; Path=/; HttpOnly; SameSite=Strict{secure}"

    def is_token(self, given: str) -> bool:
        """Whether it is the token of the printed address."""
        return _same(given, self.token)

    def refusal(self, headers: Message, is_entry: bool = False) -> Optional[Refusal]:
        """Why a request isn't let in, by its headers, or None. One for the page itself may come from a link."""
        origins = self._origins.get(headers.get("Host", "").lower())
        if origins is None:
            return Refusal(421, TEXTS["wrong_host"])
        origin = headers.get("Origin")
        if origin is not None and origin not in origins:
            return Refusal(403, TEXTS["wrong_origin"])
        mode, dest = headers.get("Sec-Fetch-Mode"), headers.get("Sec-Fetch-Dest")
        is_link = is_entry and mode == "navigate" and dest == "document"
        if headers.get("Sec-Fetch-Site", "none") not in OWN and not is_link:
            return Refusal(403, TEXTS["wrong_origin"])
        return None

    def is_known(self, headers: Message) -> bool:
        """Whether it has the cookie, or the token as a program sends it."""
        kind, _, given = headers.get("Authorization", "").partition(" ")
        if kind.lower() == "bearer" and self.is_token(given.strip()):
            return True
        cookie: Any = SimpleCookie()  # (its type has a parameter in some versions)
        try:
            cookie.load(headers.get("Cookie", ""))
        except CookieError:
            return False
        found = cookie.get(self.cookie_name)
        return found is not None and _same(found.value, self._cookie)

    def may_post(self, headers: Message) -> Optional[Refusal]:
        """Why a request may do nothing, or None: it has to come from the page, and to have its token."""
        if headers.get("Origin") is None:
            return Refusal(403, TEXTS["wrong_origin"])
        if not _same(headers.get("X-CF-Token", ""), self.post_token):
            return Refusal(403, TEXTS["no_post_token"])
        return None


def origin_of(address: str) -> str:
    """An address as a browser's Origin has it: in small letters, and without the port that its scheme has anyway.

    Raises:
        ValueError: It isn't http:// or https:// and a host, or has more than these and a port."""
    parts = urlsplit(address)
    if parts.scheme not in PORTS or not parts.hostname or parts.path.strip("/") or parts.query or parts.fragment or (parts.username is not None):
        raise ValueError(f"{address!r} is no public address: it is http:// or https://, a host, and perhaps a port")
    host = f"[{parts.hostname}]" if ":" in parts.hostname else parts.hostname
    port = "" if parts.port in (None, PORTS[parts.scheme]) else f":{parts.port}"
    return f"{parts.scheme}://{host}{port}"


def _same(given: str, wanted: str) -> bool:
    return hmac.compare_digest(given.encode("utf-8", "replace"), wanted.encode())
