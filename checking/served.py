"""Asks a server and prints what it answers, whatever the status:

    checking/served.py PATH .. -- COMMAND ..

The command begins the server, whose first line is its address. The server is ended in the end.
"""
import subprocess
import sys
from typing import List
from urllib.error import HTTPError
from urllib.request import urlopen


def answer(address: str) -> str:
    try:
        return str(urlopen(address, timeout=60).read(), "utf-8")
    except HTTPError as error:
        return str(error.read(), "utf-8")


def main(paths: List[str], command: List[str]) -> None:
    with subprocess.Popen(command, stdout=subprocess.PIPE, text=True) as server:
        try:
            address = server.stdout.readline().strip()  # type: ignore[union-attr]
            print(*[answer(address + path) for path in paths], sep="", end="")
        finally:
            server.kill()


if __name__ == "__main__":
    at = sys.argv.index("--")
    main(sys.argv[1:at], sys.argv[at + 1 :])
