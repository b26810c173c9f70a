"""A network to PostgreSQL that lets nothing through any more: silent.py FOLDER, in a network of its own. FOLDER/told says what came of it."""
import subprocess
import sys
import time
from pathlib import Path

import process  # noqa: F401 (for the path)
import servers

from cf.store import Put, Unknown, connect

PLAN = '{"cf":3,"flow":"","stages":[]}'


def cut(port):
    """Drops all that goes to the port or comes from it."""
    rules = "add table ip cf; add chain ip cf in { type filter hook input priority 0; }; "
    subprocess.run(["nft", rules + "; ".join(f"add rule ip cf in tcp {end} {port} drop" for end in ("sport", "dport"))], check=True)


def mend():
    subprocess.run(["nft", "flush ruleset"], check=True)


def main(folder):
    server = servers.Postgres(folder)
    try:
        store, put = connect(server.address), Put("r", 1, [(2, 2)], {})
        store.open("r", PLAN)
        store.append(Put("r", 0, [(1, 1)], {}))
        cut(server.port)
        began = time.monotonic()
        try:
            store.append(put)
            told = False
        except Unknown:
            told = True
        seconds = time.monotonic() - began
        mend()
        goes_on = store.append(put) in (None, [(2, 2)])
        Path(folder, "told").write_text(f"{'unknown' if told else 'done'} is told after {seconds:.0f} s, and it goes on: {goes_on}")
        store.close()
        return 0 if told and seconds < 40 and goes_on else 1
    finally:
        mend()
        server.stop()


if __name__ == "__main__":
    sys.exit(main(sys.argv[1]))
