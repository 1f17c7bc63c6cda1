#!/usr/bin/env -S python3 -B
"""Do sleeping waiters slow an ending at a shared gate down? bench/wakes.py [--pairs N] [--promotions N] [--turns N]

The program is wakes/, over `shared_gate`; each waiter has a thread. With 0, 1, 10, 100 and 1,000 callers that sleep as
they wait without room, it makes pairs of acquire and end that promote no waiter. With 10 and more it makes endings of
which each promotes the newest waiter, which ends its permit in turn and waits again: with fewer, a permit is mostly
acquired again before anybody waits for it. It prints the time of a pair and the time from one ending to the next, and
their ratios to those with no waiter, or with 10, by medians of the turns. Needs rt.
"""
import pathlib
import statistics
import sys
from collections.abc import Sequence

from sides import TURNS, Bench, run
from words import above_zero, reader_of

WAITING, FEW = (0, 1, 10, 100, 1_000), 10
PAIRS, PROMOTIONS = 200_000, 20_000


def each(program: pathlib.Path, waiting: int, times: int, promotes: bool) -> float:
    """The nanoseconds of a pair, or of an ending that promotes a waiter, as all of them did."""
    took, _, did = run(program, (waiting, times, int(promotes)))
    promoted = int(did.split()[1])
    assert not promotes or promoted >= times, f"{promoted} of {times} promoted a waiter"
    return took / times


def ratio(turns: Sequence[float], peers: Sequence[float]) -> str:
    """The median of the ratios of the turns."""
    return f"{statistics.median(it / peer for it, peer in zip(turns, peers)):.2f}"


def main() -> None:
    reader = reader_of(__doc__)
    reader.add_argument("--pairs", type=above_zero(int), default=PAIRS)
    reader.add_argument("--promotions", type=above_zero(int), default=PROMOTIONS)
    reader.add_argument("--turns", type=above_zero(int), default=TURNS)
    given = reader.parse_args()
    bench = Bench("wakes", "shared_gate", ["aimd"])
    with open(bench.tree / "build.log", "w", encoding="utf-8") as log:
        print(f"building, some minutes at most; {log.name} tells how far it is", file=sys.stderr)
        program = bench.product((1, 10, 1), b"", log)
    pairs: dict[int, list[float]] = {waiting: [] for waiting in WAITING}
    endings: dict[int, list[float]] = {waiting: [] for waiting in WAITING if waiting >= FEW}
    for _ in range(given.turns):
        for waiting in WAITING:
            pairs[waiting].append(each(program, waiting, given.pairs, False))
            if waiting in endings:
                endings[waiting].append(each(program, waiting, given.promotions, True))
    print(f"| waiters | a pair, none promoted | of none | an ending, one promoted | of {FEW} |")
    print("|---|---|---|---|---|")
    for waiting in WAITING:
        cells = [f"{statistics.median(pairs[waiting]):.0f} ns", ratio(pairs[waiting], pairs[0])]
        if waiting in endings:
            ending = endings[waiting]
            cells += [f"{statistics.median(ending) / 1000:.1f} us", ratio(ending, endings[FEW])]
        else:
            cells += ["", ""]
        print(f"| {waiting:,} | {' | '.join(cells)} |")


main()
