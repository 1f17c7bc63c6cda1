"""Traces of 100,000 random calls, for the benchmarks of `simulate` and `load`."""
import random
from collections.abc import Iterable, Iterator, Sequence

CALLS = 100_000
MILLISECOND = 1_000_000
# All entries of each trace are kept: no call adds more than five.
KEEP = "keep 1000000"


def calls(classes: Sequence[str], between: float, duration: float, ending: str = "") -> Iterator[str]:
    """Calls of these classes in turn, so many milliseconds apart and so long, both by chance."""
    drawn, now = random.Random(1), 0.0
    for place in range(CALLS):
        now += drawn.expovariate(1 / (between * MILLISECOND))
        took = int(drawn.expovariate(1 / (duration * MILLISECOND)))
        outcome = "dropped" if drawn.random() < 0.02 else "success"
        yield f"arrive {classes[place % len(classes)]} {int(now)} {took} {outcome}{ending}"


def text_of(settings: Iterable[str], lines: Iterable[str]) -> bytes:
    """A trace."""
    return ("\n".join([KEEP, *settings, *lines]) + "\n").encode()


TWO = ["class live 60", "class batch 20"]
CLASSES = ["live", "batch", "unknown"]
ALL = ["promote all"]
TRACES = [
    ("10 in flight at a time, and room for 20", text_of(["limit fixed 20"], calls(["unknown"], 10, 100))),
    ("15 want in where 10 fit; the others are refused", text_of(["limit fixed 10", *TWO], calls(CLASSES, 10, 150))),
    (
        "15 want in where 10 fit; the others wait for 50 ms",
        text_of(["limit fixed 10", "timeout 50000000", *TWO], calls(CLASSES, 10, 150, " wait")),
    ),
    (
        "the same, and all who have room are promoted",
        text_of(["limit fixed 10", "timeout 50000000", *TWO, *ALL], calls(CLASSES, 10, 150, " wait")),
    ),
    (
        "15 want in where 2 to 20 fit; all who have room are promoted",
        text_of(["limit aimd 2 10 20 500 300000000", "timeout 50000000", *TWO, *ALL], calls(CLASSES, 10, 150, " wait")),
    ),
    ("8,000 in flight at a time, and room for 10,000", text_of(["limit fixed 10000"], calls(["unknown"], 0.0125, 100))),
    (
        "8,000 wait behind 10",
        text_of(["limit fixed 10", "backlog 10000", "timeout 100000000"], calls(["unknown"], 0.0125, 100, " wait")),
    ),
    (
        "8,000 of two classes wait behind 10; all who have room are promoted",
        text_of(
            ["limit fixed 10", "backlog 10000", "timeout 100000000", *TWO, *ALL], calls(CLASSES, 0.0125, 100, " wait")
        ),
    ),
]
