"""Written by clients/engines/generate: change clients/engines/etcd.codes."""


def is_refused(code: object, text: str) -> bool:
    """Whether etcd refuses something for good, by its code and text."""
    return code == 3 or code == 8 and "larger than max" in text or code == 9
