"""Prometheus's text format, version 0.0.4."""
from typing import Iterable, Iterator, Mapping, NamedTuple, Sequence, Tuple

CONTENT_TYPE = "text/plain; version=0.0.4; charset=utf-8"


class Sample(NamedTuple):
    """A line: a value with its labels, and what is added to the metric's name."""

    value: float
    labels: Sequence[Tuple[str, str]] = ()
    suffix: str = ""


class Metric(NamedTuple):
    """A metric of a kind: `gauge`, `counter` or `histogram`."""

    name: str
    kind: str
    samples: Iterable[Sample]


def text_of(metrics: Iterable[Metric], helps: Mapping[str, str]) -> str:
    """The text of metrics. `helps` says by its name what each is."""
    return "".join(_lines(metrics, helps))


def _lines(metrics: Iterable[Metric], helps: Mapping[str, str]) -> Iterator[str]:
    for name, kind, samples in metrics:
        yield f"# HELP {name} {helps[name]}\n# TYPE {name} {kind}\n"
        for value, labels, suffix in samples:
            said = ",".join(f'{label}="{_quoted(it)}"' for label, it in labels)
            yield f"{name}{suffix}{{{said}}} {value:.15g}\n" if said else f"{name}{suffix} {value:.15g}\n"


def _quoted(text: str) -> str:
    """As the format wants the value of a label."""
    return text.replace("\\", "\\\\").replace('"', '\\"').replace("\n", "\\n").encode("utf-8", "replace").decode()
