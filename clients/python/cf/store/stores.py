"""Stores by their addresses."""
import re
from urllib.parse import parse_qs, urlsplit

from .rows import Memory, Store, StoreError


def connect(address: str, may_create: bool = True) -> Store:
    """Opens the store of an address, and makes it where there is none:

        memory://                                   in this process, for tests
        sqlite:///relative.db, sqlite:////at/a.db   a file
        postgresql://user@host:5432/database        a database, by psycopg2
        etcd://host:2379,host:2379                  a cluster, by its JSON gateway

    `?unsafe=1` lets an engine answer before it has written, for tests that want losses. With `may_create=False` the
    file has to hold a store already.

    Raises:
        ValueError: The address is none of these.
        StoreError: The engine can't keep words, psycopg2 isn't installed, or the file is no store.
        Unknown: The engine doesn't answer."""
    parts = urlsplit(address)
    options = parse_qs(parts.query)
    is_unsafe = options.pop("unsafe", ["0"]) == ["1"]
    if parts.scheme == "memory":
        return Memory()
    if parts.scheme == "sqlite" and parts.path[1:]:
        from .sqlite import SQLite

        return SQLite(parts.path[1:], is_unsafe, may_create)
    if parts.scheme in ("postgresql", "postgres"):
        try:
            from .postgres import Postgres
        except ImportError as error:
            raise StoreError(f"PostgreSQL takes psycopg2: {error}") from None

        return Postgres(address.split("?")[0] if is_unsafe else address, is_unsafe)
    if parts.scheme == "etcd" and all(re.fullmatch(r".+:\d{1,5}", it) for it in parts.netloc.split(",")):
        from .etcd import Etcd

        return Etcd(parts.netloc)
    raise ValueError(f"{address!r} is no address of a store: memory://, sqlite:///FILE, postgresql://.., etcd://HOST:PORT,..")
