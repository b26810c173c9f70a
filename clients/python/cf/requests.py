"""Requests of a store, for who runs a service: python3 -m cf.requests --store ADDRESS COMMAND ..

    list [--closed]             each open request: name, age, words, how many stages wait, and for what the first ones
                                wait
    show NAME [--account]       its words as sentences, one a line; with --account what `cf_look check` judges
    show NAME --page [CF_LOOK]  a page for a browser, which the program `cf_look` writes
    end NAME [--cancel]         closes it, also one that is broken, so that workers look at it no more; with --cancel
                                its stages are cancelled first
    drop --days N [NAME ..]     forgets those that were closed more than N days ago, or of these names; prints how many
    serve [--port N] ..         all of that in a browser, at the address that it prints, until SIGTERM or SIGINT; a store
                                that doesn't answer is waited for. With --read-only nothing can be changed there.
                                `serve --help` has more

Status 0, 1 where a request isn't there or is broken, 2 where the words or the address are wrong, or no store is there
yet. Control characters of names are printed as JSON writes them. Nothing runs here.
"""
import argparse
import getpass
import logging
import shutil
import subprocess
import sys
import threading
from pathlib import Path
from typing import List, Optional
from urllib.parse import urlsplit

from .service.history import escaped
from .service.words import IS_CLAIMED, IS_PENDING, IS_READY
from .store import Broken, RowView, Json, Store, StoreError, Unknown, connect, new_session
from .store.rows import Gone

MOST_NAMED = 3  # stages that a line of the list names
LEAST_TOKEN = 20  # characters


def main(words: Optional[List[str]] = None) -> int:
    """Runs a command."""
    at = _parser().parse_args(words)
    if at.command == "serve":
        return _serve(at)
    try:
        store = connect(at.store, may_create=False)
    except (ValueError, StoreError, Unknown) as error:
        print(f"cf.requests: {error}", file=sys.stderr)
        return 2
    try:
        lines = {"list": _list, "show": _show, "end": _end, "drop": _drop}[at.command](store, at)
    except (StoreError, Unknown, OSError, subprocess.CalledProcessError) as error:
        print(f"cf.requests: {escaped(str(error))}", file=sys.stderr)
        return 1
    finally:
        store.close()
    print(*lines, sep="\n")
    return 0


def _parser() -> argparse.ArgumentParser:
    parser = argparse.ArgumentParser(prog="python3 -m cf.requests", description="Requests of a store.")
    parser.add_argument("--store", required=True)
    commands = parser.add_subparsers(dest="command", required=True)
    commands.add_parser("list").add_argument("--closed", action="store_true")
    show, end, drop = commands.add_parser("show"), commands.add_parser("end"), commands.add_parser("drop")
    show.add_argument("name")
    show.add_argument("--account", action="store_true")
    show.add_argument("--page", nargs="?", const="cf_look", metavar="CF_LOOK")
    end.add_argument("name")
    end.add_argument("--cancel", action="store_true")
    drop.add_argument("names", nargs="*", metavar="name")
    drop.add_argument("--days", type=float, required=True)
    serve = commands.add_parser("serve")
    serve.add_argument("--port", type=int, default=0, help="by default one that is free")
    serve.add_argument("--listen", default="127.0.0.1", metavar="HOST", help="by default this machine alone")
    serve.add_argument("--name", action="append", default=[], help="another name that browsers may call it by")
    serve.add_argument("--public", default="", metavar="URL", help="at which a proxy serves it to browsers, such as https://ops.example")
    serve.add_argument("--read-only", action="store_true", help="nothing can be changed")
    serve.add_argument("--who", default="", help="what the history calls who acts, unless they say otherwise")
    serve.add_argument("--token-file", type=Path, help="has the token of the address, in place of one by chance")
    serve.add_argument("--cf-look", metavar="PROGRAM", help="draws the graph; by default cf_look, if it is on the path")
    serve.add_argument("--lease", type=float, default=10, help="after how many seconds without a sign of life a process is gone")
    return parser


def _serve(at: argparse.Namespace) -> int:
    """Shows the requests in a browser, until the process is told to end."""
    from .store.web.server import Server
    from .store.web.wording import TEXTS
    from .store.worker import end_signal
    from .worker import connect_when_reached

    logging.basicConfig(level=logging.WARNING, format="%(asctime)s %(name)s %(message)s")
    ends = end_signal()
    cf_look = shutil.which(at.cf_look or "cf_look")
    try:
        if at.cf_look and cf_look is None:
            raise ValueError(f"there is no program {at.cf_look}")
        token = at.token_file.read_text(encoding="utf-8").strip() if at.token_file else None
        if token is not None and len(token) < LEAST_TOKEN:
            raise ValueError(f"{at.token_file}: a token has {LEAST_TOKEN} characters at least")
        store = connect_when_reached(at.store, ends, may_create=False)
        if store is None:
            return 0
        title = _without_secrets(at.store)
        server = Server(
            store,
            at.listen,
            at.port,
            names=tuple(at.name),
            public=at.public,
            token=token,
            is_read_only=at.read_only,
            who=at.who or _user(),
            cf_look=cf_look,
            lease=at.lease,
            title=title,
        )
    except (ValueError, StoreError, OSError, OverflowError) as error:
        print(f"cf.requests: {error}", file=sys.stderr)
        return 2
    if at.listen not in ("127.0.0.1", "::1", "localhost"):
        print("cf.requests: " + TEXTS["all_may"].format(at.listen), file=sys.stderr)
    print(TEXTS["address"].format(title, server.address), flush=True)
    serving = threading.Thread(target=server.serve_forever, name="cf-serve", daemon=True)
    serving.start()
    ends.wait()
    server.shutdown()
    server.server_close()
    store.close()
    return 0


def _without_secrets(address: str) -> str:
    """The address of a store without the user's name and password."""
    parts = urlsplit(address)
    return f"{parts.scheme}://{parts.netloc.rpartition('@')[2]}{parts.path}"


def _user() -> str:
    try:
        return getpass.getuser()
    except Exception:  # nobody is known by this number
        return ""


def _view(store: Store, name: str) -> RowView:
    found = store.find(name)
    if found is None:
        raise Gone(name)
    view = RowView(store, found, new_session(), patience=5)
    view.catch_up()
    return view


def _list(store: Store, at: argparse.Namespace) -> List[str]:
    lines, now = [], store.now()
    for it in store.listing():
        if it.closed is not None and not at.closed:
            continue
        try:
            state = _state(_view(store, it.name)) if it.closed is None else "closed"
        except Gone:  # it was dropped meanwhile
            continue
        except Broken as error:
            state = f"broken at place {error.place}: {error.why}"
        lines.append(f"{escaped(it.name)}  {now - it.opened:.0f} s  {it.words} words  {escaped(state)}")
    return lines


def _state(view: RowView) -> str:
    """What a request waits for."""
    kinds = {IS_READY: "ready", IS_CLAIMED: "at work", IS_PENDING: "pending"}
    waits = [(kind, number) for kind in (IS_CLAIMED, IS_READY, IS_PENDING) for number, is_now in enumerate(view.kinds) if is_now == kind]
    named = [f"{number} {view.definition(number)['name']} {kinds[kind]}" for kind, number in waits[:MOST_NAMED]]
    return f"{len(waits)} of {len(view.kinds)} stages wait{': ' if named else ''}{', '.join(named)}"


def _show(store: Store, at: argparse.Namespace) -> List[str]:
    history = _view(store, at.name).history(Json())
    if at.page:
        return [history.page(at.page)]
    return [history.account()] if at.account else history.lines()


def _end(store: Store, at: argparse.Namespace) -> List[str]:
    many, words, found = 0, next((it.words for it in store.listing() if it.name == at.name), None), store.find(at.name)
    if words is None or found is None:
        raise Gone(at.name)
    if at.cancel:
        view = _view(store, at.name)
        many = view.cancel_all()
        words = view.words_seen
    store.end(at.name, words, found.number)
    if at.name in store.ends():
        raise StoreError(f"request {at.name!r} isn't closed: words were put meanwhile")
    return [f"{escaped(at.name)} is closed, {many} stages were cancelled"]


def _drop(store: Store, at: argparse.Namespace) -> List[str]:
    before, dropped = store.now() - at.days * 86400, 0
    for it in store.listing():
        if it.closed is not None and it.closed <= before and (not at.names or it.name in at.names):
            dropped += store.drop(it.name, it.words)  # (unless it goes on meanwhile)
    return [f"{dropped} dropped"]


if __name__ == "__main__":
    sys.exit(main())
