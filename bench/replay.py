#!/usr/bin/env -S python3 -B
"""How fast is `admission replay`, beside a plain Rust program on the same scripts? bench/replay.py PROGRAM

Each script is run by both programs in turn, five times; the least time of each counts, and both must write the same
text. Needs rustc for the plain program, `plain.rs`.
"""
import pathlib
import random
import subprocess
import tempfile
from collections.abc import Callable, Iterable

from sides import timed
from words import program_of

HERE = pathlib.Path(__file__).resolve().parent
TURNS = 5
IN_FLIGHT = 10
CROWD = 8_000
# Lines, and how many entries they add.
Turn = tuple[list[str], int]


def looks(number: int, now: int) -> Turn:
    """One call with a look at it: three entries."""
    return [f"acquire unknown {now}", "look unknown", f"end {number} success {now + 5}"], 3


def promotions(number: int, now: int) -> Turn:
    """A full limit, and one more call, which waits, is promoted, gets its permit and ends it."""
    last = number + IN_FLIGHT
    lines = [f"acquire unknown {now} wait" for _ in range(IN_FLIGHT + 1)]
    lines += [f"end {number} success {now + 5}", f"claim {last}", f"end {last} success {now + 9}"]
    lines += [f"end {number + place} success {now + 9}" for place in range(1, IN_FLIGHT)]
    return lines, len(lines) + 1


def raised(number: int, now: int) -> Turn:
    """A limit of 1, and nine more calls, which wait until it is set to 10, are promoted at once, claim and end."""
    waiters = range(number + 1, number + IN_FLIGHT)
    lines = [f"acquire unknown {now} wait" for _ in range(IN_FLIGHT)] + [f"set {IN_FLIGHT} {now}"]
    lines += [f"claim {it}" for it in waiters] + [f"end {it} success {now + 9}" for it in (number, *waiters)]
    return lines + [f"set 1 {now + 9}"], len(lines) + len(waiters) + 1


def timeouts(number: int, now: int) -> Turn:
    """A full limit, and five more calls, which wait, are asked for once, and give up oldest first."""
    waiters = range(number + IN_FLIGHT, number + IN_FLIGHT + 5)
    lines = [f"acquire unknown {now} wait" for _ in range(IN_FLIGHT + 5)]
    lines += [f"claim {it}" for it in waiters] + [f"giveup {it}" for it in waiters]
    lines += [f"end {number + place} success {now + 9}" for place in range(IN_FLIGHT)]
    return lines, len(lines)


def crowds(most: int) -> list[str]:
    """A full limit; one of those in flight ends, drawn at random, and another comes in its place."""
    drawn, out, open_now = random.Random(1), ["acquire unknown 0"] * CROWD, list(range(CROWD))
    for number in range(CROWD, most - CROWD, 2):
        place = drawn.randrange(CROWD)
        out += [f"end {open_now[place]} success {number}", f"acquire unknown {number}"]
        open_now[place] = number + 1
    return out


def late(most: int, order: Callable[[list[int]], Iterable[int]]) -> list[str]:
    """A full limit, behind which a crowd waits and gives up again in this order."""
    out, number = [f"backlog {CROWD}"] + ["acquire unknown 0"] * IN_FLIGHT, IN_FLIGHT
    while number + 2 * CROWD <= most:
        waiting = list(range(number, number + CROWD))
        out += ["acquire unknown 0 wait"] * CROWD
        out += [f"giveup {waiter}" for waiter in order(waiting)]
        number += 2 * CROWD
    return out


def in_drawn_order(waiting: list[int]) -> list[int]:
    """The same in an order of chance."""
    return random.Random(1).sample(waiting, len(waiting))


def repeated(turn: Callable[[int, int], Turn], most: int) -> list[str]:
    """Turns of one kind, of so many lines in all at most."""
    out: list[str] = []
    number, now = 0, 0
    lines, entries = turn(number, now)
    while len(out) + len(lines) <= most:
        out += lines
        number, now = number + entries, now + 10
        lines, entries = turn(number, now)
    return out


SCRIPTS = [
    ("acquire, look, end; all entries kept", IN_FLIGHT, repeated(looks, 99_000)),
    ("the same, past the entries that are kept", IN_FLIGHT, repeated(looks, 600_000)),
    ("waiting, promotions and claims", IN_FLIGHT, repeated(promotions, 90_000)),
    ("the same, and all who have room are promoted", IN_FLIGHT, ["promote all"] + repeated(promotions, 90_000)),
    (
        "a limit set by hand, and all who have room are promoted",
        IN_FLIGHT,
        [f"limit settable 1 1 {IN_FLIGHT}", "promote all"] + repeated(raised, 70_000),
    ),
    ("waiting, claims and timeouts", IN_FLIGHT, repeated(timeouts, 99_000)),
    ("thousands in flight, ended in a drawn order", CROWD, crowds(99_000)),
    ("thousands wait, and give up oldest first", IN_FLIGHT, late(99_000, list)),
    ("thousands wait, and give up in a drawn order", IN_FLIGHT, late(99_000, in_drawn_order)),
]


def main() -> None:
    program = program_of(__doc__)
    with tempfile.TemporaryDirectory() as folder:
        plain = f"{folder}/plain"
        subprocess.run(["rustc", "-O", "--edition", "2021", "-o", plain, HERE / "plain.rs"], check=True)
        for name, limit, lines in SCRIPTS:
            text = ("\n".join(lines) + "\n").encode()
            ours: list[float] = []
            theirs: list[float] = []
            for _ in range(TURNS):
                took, wrote = timed([program, "replay", "--limit", str(limit)], text)
                ours.append(took)
                took, wanted = timed([plain, str(limit)], text)
                theirs.append(took)
                assert wrote == wanted, f"{name}: the texts differ"
            ratio = min(ours) / min(theirs)
            print(
                f"{name}: {len(lines)} lines, admission {min(ours):.3f} s, plain {min(theirs):.3f} s, ratio {ratio:.2f}"
            )


main()
