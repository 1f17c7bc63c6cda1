#!/usr/bin/env -S python3 -B
"""What if the backend refuses by itself, under several rules for drops? bench/shedders.py [--seed SEED]

Backends refuse above so many calls in flight, above so many a second of which a tenth may come at once, and above so
many in each second; others answer a part of the calls 503 at once, whatever their load. In virtual time they meet calls
at twice what they serve, evenly, or with --seed drawn at random. The limits are that of tests/reference.py and the
forms of forms.py. A cell has the part of the calls that the backend refused by itself, and the good answers once the
limit had a third of the time, as a part of those under the best of the fixed limits around what the backend serves.
Where a backend takes less than one call at a time no limit holds it back, and it is left out. No clock is used, so it
prints the same each time.
"""
import concurrent.futures
import math

from backends import Backend
from forms import AllTheWay, ServedDown, Trials, WhereMet
from simulation import Simulated
from virtual import reference
from wayward import Faults
from words import above_zero, reader_of

FORMS = {
    "as packaged": reference.Auto,
    "rounded down": ServedDown,
    "all the way": AllTheWay,
    "no comparison where met": WhereMet,
    "trials": Trials,
}
RATES = [
    Backend(64, seconds, 5 * seconds, faults=Faults(pace=rate, by_seconds=by_seconds))
    for by_seconds in (False, True)
    for rate in (50, 100, 1000)
    for seconds in (0.005, 0.02, 0.1)
    if 1 <= rate * seconds < 53
]
FULL = [
    Backend(slots, seconds, 5 * seconds, faults=Faults(most=slots))
    for slots, seconds in ((4, 0.02), (8, 0.1), (16, 0.5), (30, 0.1))
]
BROKEN = [
    Backend(slots, seconds, 5 * seconds, faults=Faults(broken=part))
    for part in (0.1, 0.3)
    for slots, seconds in ((8, 0.05), (30, 0.1))
]


def best(backend: Backend, seed: int | None) -> float:
    """The most good answers under a fixed limit."""
    pace = backend.faults.pace
    right = backend.slots if pace is None else min(backend.slots, math.ceil(pace * backend.seconds))
    limits = [reference.Fixed(right + more) for more in (0, 1, 2)]
    return max(Simulated(it, backend, seed=seed).run().reached()[1] for it in limits)


def cells(backend: Backend, seed: int | None) -> list[str]:
    found, most = [], best(backend, seed)
    for form in FORMS.values():
        run = Simulated(form(1, 4, 53), backend, seed=seed).run()
        found.append(f"{run.refused():.0%}, {run.reached()[1] / most:.2f}")
    return found


def main() -> None:
    reader = reader_of(__doc__)
    reader.add_argument("--seed", type=above_zero(int), metavar="SEED", help="draws the calls' times, by this seed")
    seed = reader.parse_args().seed
    backends = [*RATES, *FULL, *BROKEN]
    print("| Backend | " + " | ".join(FORMS) + " |\n" + "|---" * (1 + len(FORMS)) + "|")
    with concurrent.futures.ProcessPoolExecutor() as pool:
        for it, row in zip(backends, pool.map(cells, backends, [seed] * len(backends))):
            print(f"| {it} | " + " | ".join(row) + " |", flush=True)


main()
