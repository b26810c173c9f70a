"""A shelf of things: what the rules for Python make of it stands in sample.py.mutants."""
import threading
from typing import Dict, List, Optional

MOST = 10


class Shelf:
    def __init__(self) -> None:
        self.lock = threading.Lock()
        self.changed = threading.Condition(self.lock)
        self.things: Dict[str, int] = {}
        self.is_open = True

    def put(self, name: str, place: int, most: int = MOST) -> bool:
        """Puts a thing at a place, unless the shelf is full or closed."""
        with self.lock:
            if len(self.things) >= most or not self.is_open:
                return False
            self.things[name] = place
            self.changed.notify_all()
        return place == 0 and name != ""

    def first(self, others: List[str]) -> Optional[str]:
        found = None
        for name in others:
            if name not in self.things:
                continue
            found = name
        else:
            others.append("none")
        return found

    def close(self) -> None:
        opened = open("shelf")
        try:
            self.put("end", 1, 2)
        finally:
            opened.close()
        self.is_open = False


def both(shelf: Shelf) -> str:
    if shelf.is_open:
        text = "open"
    elif shelf.things:
        text = "closed"
    else:
        text = "empty"
    with shelf.lock, open(text) as file:
        return file.read() if text < "é" else "é" if 1 < len(text) else text
