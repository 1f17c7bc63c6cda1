#!/usr/bin/env -S python3 -B
"""What if the backend refuses by itself, and no rule was made on it? bench/held_out.py [--seed SEED] [--only WORD..]

The limits are that of tests/reference.py, two of forms.py, and the first once more with a `max`: the rate that a
backend takes times what an answer takes, or what it takes in flight. Backends refuse above so many calls a second, of
which a part may arrive at once, above so many in each second, or above so many in flight; others answer a part of the
calls 503 at once, whatever their load. Then follow the backends of bench/adapts, and those of their bad days that have
quick answers. In virtual time they get calls at twice what they serve, or at 0.75 of it if the row says so and on the
days; evenly, or with --seed drawn at random.

A row is of one kind of backends. A cell has the part of the calls that the backend refused by itself, on average and at
most; and the good answers once the limit had a third of the time, as a part of those under the best of the fixed limits
around what the backend serves, on average and at least. For days it has what wasn't answered 200 from 8 to 13 seconds
after them instead, on average and at most. No clock is used, so it prints the same each time. --only takes the rows
whose name has one of the words in it. --jobs says how many run at once. The whole takes some six minutes of one
processor.
"""
import concurrent.futures
import functools
import math
import statistics
import typing

from backends import DAYS, FURTHER, PLAIN, WORN, Backend, Day
from forms import MilderTrials, Trials
from simulation import SOON, Simulated
from virtual import reference
from wayward import Faults
from words import above_zero, reader_of

FORMS: dict[str, type[reference.Auto]] = {
    "as packaged": reference.Auto,
    "trials": Trials,
    "milder trials": MilderTrials,
}
BOUNDED, MOST = "with max", 53
TWICE, CARRIED = 2.0, 0.75
SERVING = ((3, 0.05), (6, 0.2), (12, 0.04), (24, 0.3), (45, 0.15))


class Case(typing.NamedTuple):
    """Calls at so many times what a backend serves, or its bad day."""

    backend: Backend
    load: float = TWICE
    day: Day | None = None


def rates(**more: typing.Any) -> list[Case]:
    """Backends that refuse above a rate, which is one call at a time or more."""
    rows = ((rate, takes) for rate in (30, 80, 200, 400, 700) for takes in (0.01, 0.05, 0.2) if 1 <= rate * takes < 50)
    return [Case(Backend(64, takes, 5 * takes, faults=Faults(pace=rate, **more))) for rate, takes in rows]


def kinds() -> dict[str, list[Case]]:
    rows = {f"429 above a rate, {part:.0%} of it at once": rates(at_once=part) for part in (0.02, 0.1, 0.4)}
    rows["429 above so many in each second"] = rates(by_seconds=True)
    for load in (TWICE, CARRIED):
        rows[f"429 above so many in flight, at {load:g}"] = [
            Case(Backend(slots, takes, 5 * takes, faults=Faults(most=slots)), load) for slots, takes in SERVING
        ]
    for part in (0.05, 0.1, 0.2, 0.3, 0.5):
        for load in (TWICE, CARRIED):
            rows[f"503 to {part:.0%} at once, at {load:g}"] = [
                Case(Backend(slots, takes, 5 * takes, faults=Faults(broken=part)), load) for slots, takes in SERVING[:4]
            ]
    rows["those of bench/adapts"] = [Case(it) for it in (*PLAIN, *FURTHER) if it.slots < 64]
    for day in DAYS[1:5]:
        rows[f"after {day.name}"] = [Case(it, CARRIED, day) for it in WORN]
    return rows


def bound(backend: Backend) -> int:
    """The greatest limit under which a backend refuses nothing, where its operator knows what it takes."""
    it = backend.faults
    return it.most or (math.floor(it.pace * backend.seconds) if it.pace else MOST)


def best(case: Case, seed: int | None) -> float:
    """The most good answers under a fixed limit."""
    it, pace = case.backend, case.backend.faults.pace
    right = it.slots if pace is None else min(it.slots, math.ceil(pace * it.seconds))
    limits = [reference.Fixed(right + more) for more in (0, 1, 2)]
    return max(Simulated(limit, it, case.load, seed=seed).run().reached()[1] for limit in limits)


def carried_out(case: Case, seed: int | None) -> list[tuple[float, float]]:
    """What was refused and reached under each form, or wasn't served after the day."""
    limits = [form(1, 4, MOST) for form in FORMS.values()]
    if case.backend.faults.refuses:
        limits.append(reference.Auto(1, min(4, bound(case.backend)), bound(case.backend)))
    runs = [Simulated(it, case.backend, case.load, case.day, seed).run() for it in limits]
    if case.day:
        return [(it.unserved(SOON), 0.0) for it in runs]
    most = best(case, seed)
    return [(it.refused(), it.reached()[1] / most) for it in runs]


def cell(found: list[tuple[float, float]], is_day: bool) -> str:
    refused, reached = zip(*found)
    first = f"{statistics.mean(refused):.1%}, {max(refused):.0%}"
    return first if is_day else f"{first}; {statistics.mean(reached):.3f}, {min(reached):.2f}"


def main() -> None:
    reader = reader_of(__doc__)
    reader.add_argument("--seed", type=above_zero(int), metavar="SEED", help="draws the calls' times, by this seed")
    reader.add_argument("--only", nargs="+", default=[""], metavar="WORD", help="rows with such a word")
    reader.add_argument("--jobs", type=above_zero(int), metavar="N", help="one for each processor")
    given = reader.parse_args()
    print("| Backends | " + " | ".join([*FORMS, BOUNDED]) + " |\n" + "|---" * (2 + len(FORMS)) + "|")
    with concurrent.futures.ProcessPoolExecutor(given.jobs) as pool:
        for name, cases in kinds().items():
            if any(word in name for word in given.only):
                found = list(pool.map(functools.partial(carried_out, seed=given.seed), cases))
                cells = [cell(list(each), cases[0].day is not None) for each in zip(*found)]
                cells += [""] * (1 + len(FORMS) - len(cells))
                print(f"| {name} | " + " | ".join(cells) + " |", flush=True)


main()
