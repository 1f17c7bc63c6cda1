#!/usr/bin/env -S python3 -B
"""What is each rule of the packaged limit worth? bench/rules.py [--results FILE] [--only WORD..] [--seed SEED]

The limit is that of tests/reference.py, once with all of its rules and then without one of them at a time, in front of
the backends of bench/adapts in virtual time (simulation.py). Calls arrive at twice what a backend can serve, and at
0.75 of it on the bad days; evenly, or with --seed drawn at random. A row has the part of the best fixed limit's good
answers, on average and at least, and the number of backends with too little: once the limit had a third of the time
(0.9), and from the cold start (0.85); the part of the calls that the two backends which refuse by themselves refused;
and the part that wasn't answered 200 from 8 to 13 seconds after the bad days, on average and at most, with the number
of days above a twentieth. No clock is used, so it prints the same each time. The backend of 64 slots is omitted, since
it fills all 64 workers.

A line for each run goes to --results, and a run that is there isn't repeated. --only takes the rows whose name has one
of the words in it. The whole takes about four minutes of one processor.
"""
import concurrent.futures
import json
import pathlib
import statistics
import typing

from backends import DAYS, FURTHER, PLAIN, WORN, Backend, Day
from simulation import SOON, Simulated, fixed
from virtual import reference
from words import above_zero, reader_of

CARRIED, WANTED, AT_FIRST, ABOVE = 0.75, 0.9, 0.85, 0.05
BOUNDS = 1, 4, 53


class CountsAtOnce(reference.Auto):
    """Without what is left out behind a fall."""

    def fall(self, wanted: int, most: int) -> None:
        super().fall(wanted, most)
        self.left_out = 0


class DipsAtOnce(reference.Auto):
    """Without what is left out as a dip begins."""

    def begin_dip(self, most: int) -> None:
        super().begin_dip(most)
        self.left_out = 0


class AllTheWay(reference.Auto):
    def half_way(self, wanted: int) -> int:
        return min(self.top, wanted)


class EvenWindows(reference.Auto):
    def needed(self) -> int:
        return max(2, self.limit)


class WithoutDips(reference.Auto):
    def begin_dip(self, most: int) -> None:
        self.calm = 0


class DipsOften(reference.Auto):
    """A dip behind each window that may have one."""

    def end_dip(self, mean: int) -> None:
        super().end_dip(mean)
        self.every = 1


class DipsWithoutQueue(reference.Auto):
    def has_queue(self, queue: int, room: int) -> bool:
        return True


class ShallowDips(reference.Auto):
    def low(self) -> int:
        return max(1, self.top - self.headroom() - -(-self.headroom() // 2))


class WithoutLowBase(reference.Auto):
    def is_base(self, mean: int) -> bool:
        return not self.base or 2 * mean < self.base


class WithoutQuickBase(reference.Auto):
    def is_base(self, mean: int) -> bool:
        return not self.base or self.top <= self.base_top


class RisesUnmet(reference.Auto):
    def may_rise(self, most: int) -> bool:
        return True


class WithoutDoubling(reference.Auto):
    def rise(self, missing: int, count: int) -> None:
        self.pace = 0
        super().rise(missing, count)


class WithoutDrops(reference.Auto):
    def is_quick(self, rtt: int) -> bool:
        return False


class CountsSlowDrops(reference.Auto):
    def is_quick(self, rtt: int) -> bool:
        return True


class ComparesNothing(reference.Auto):
    def found_more(self) -> bool:
        return True


class WithoutRoof(reference.Auto):
    def shed(self, served: int) -> None:
        super().shed(served)
        self.roof_left = 0


class ShortRoofs(reference.Auto):
    def shed(self, served: int) -> None:
        super().shed(served)
        self.roof_left = self.roof_every = 4


class WithoutEarlyEnd(reference.Auto):
    def ends_early(self) -> bool:
        return False


ALL = "all rules"
RULES: dict[str, type[reference.Auto]] = {
    ALL: reference.Auto,
    "behind a fall, answers as many as were in flight are left out": CountsAtOnce,
    "as a dip begins, the same": DipsAtOnce,
    "a fall goes half way": AllTheWay,
    "a window is longer the more answers differ": EvenWindows,
    "the limit dips": WithoutDips,
    "dips come behind 1, 4, 16 and 64 windows": DipsOften,
    "a dip comes where there is half a headroom of queue": DipsWithoutQueue,
    "a dip goes to half the limit while the base moves": ShallowDips,
    "the base is taken under a limit as low as before": WithoutLowBase,
    "the base is taken of less than half of it": WithoutQuickBase,
    "only a limit that was met rises": RisesUnmet,
    "a raise is doubled with each in a row": WithoutDoubling,
    "drops lower the limit": WithoutDrops,
    "only quick drops count": CountsSlowDrops,
    "only where they found more in flight than answers": ComparesNothing,
    "no raise above a roof behind that": WithoutRoof,
    "the roof stays longer where it comes back": ShortRoofs,
    "drops end a window early": WithoutEarlyEnd,
}


class Case(typing.NamedTuple):
    """A run: without this rule, before this backend, on this day; with even calls, or with drawn ones of a seed."""

    rule: str
    backend: Backend
    day: Day | None
    seed: int | None

    def __str__(self) -> str:
        drawn = [f"drawn {self.seed}"] if self.seed else []
        return " | ".join([self.rule, str(self.backend), self.day.name if self.day else "twice", *drawn])


class Found(typing.NamedTuple):
    """The parts of the best fixed limit's good answers, from the start on and once the limit was found; what the
    backend refused by itself; and what wasn't served after the day."""

    cold: float = 0.0
    settled: float = 0.0
    own: float = 0.0
    soon: float = 0.0


def carried_out(case: Case, best: tuple[float, float] | None) -> Found:
    limit = RULES[case.rule](*BOUNDS)
    if case.day or not best:
        return Found(soon=Simulated(limit, case.backend, CARRIED, case.day, case.seed).run().unserved(SOON))
    run = Simulated(limit, case.backend, seed=case.seed).run()
    cold, settled = run.reached()
    return Found(cold / best[0], settled / best[1], run.refused())


def cases_of(rule: str, seed: int | None) -> list[Case]:
    """The runs without a rule: at twice what a backend can serve, and the bad days."""
    met = [(it, None) for it in (*PLAIN, *FURTHER) if it.slots < 64]
    days = [(it, day) for it in WORN for day in DAYS]
    return [Case(rule, it, day, seed) for it, day in (*met, *days)]


def row(rule: str, cases: list[Case], found: dict[str, Found]) -> str:
    twice = [(it.backend, found[str(it)]) for it in cases if not it.day]
    cells = [rule]
    for name, wanted in (("settled", WANTED), ("cold", AT_FIRST)):
        parts = [getattr(it, name) for _, it in twice]
        below = sum(it < wanted for it in parts)
        cells.append(f"{statistics.mean(parts):.3f}, {min(parts):.2f}; {below}")
    for shedder in (it for it in FURTHER if it.faults.refuses):
        cells += [f"{it.own:.0%}" for backend, it in twice if backend == shedder]
    days = [found[str(it)].soon for it in cases if it.day]
    cells.append(f"{statistics.mean(days):.1%}, {max(days):.0%}; {sum(it > ABOVE for it in days)}")
    return "| " + " | ".join(cells) + " |"


def read(file: pathlib.Path | None) -> dict[str, Found]:
    if not file or not file.exists():
        return {}
    lines = map(json.loads, file.read_text(encoding="utf-8").splitlines())
    return {it.pop("run"): Found(**it) for it in lines}


def fill(cases: list[Case], found: dict[str, Found], file: pathlib.Path | None) -> None:
    """Carries out what hasn't been found yet."""
    waiting = [it for it in cases if str(it) not in found]
    met = list(dict.fromkeys((it.backend, it.seed) for it in waiting if not it.day))
    with concurrent.futures.ProcessPoolExecutor() as pool:
        best = dict(zip(met, pool.map(fixed, *zip(*met)))) if met else {}
        started = {pool.submit(carried_out, it, best.get((it.backend, it.seed))): it for it in waiting}
        for done in concurrent.futures.as_completed(started):
            name, it = str(started[done]), done.result()
            found[name] = it
            if file:
                with file.open("a", encoding="utf-8") as to:
                    to.write(json.dumps({"run": name, **it._asdict()}, ensure_ascii=False) + "\n")


def main() -> None:
    reader = reader_of(__doc__)
    reader.add_argument("--results", type=pathlib.Path, metavar="FILE", help="where a line goes for each run")
    reader.add_argument("--only", nargs="+", default=[""], metavar="WORD", help="rows with such a word")
    reader.add_argument("--seed", type=above_zero(int), metavar="SEED", help="draws the calls' times, by this seed")
    given = reader.parse_args()
    rules = [it for it in RULES if any(word in it for word in given.only)]
    found = read(given.results)
    cases = {rule: cases_of(rule, given.seed) for rule in rules}
    fill([it for each in cases.values() for it in each], found, given.results)
    heads = ["Without this", "once found", "from the start", *map(str, (it for it in FURTHER if it.faults.refuses))]
    print("| " + " | ".join([*heads, "after bad days"]) + " |\n" + "|---" * (len(heads) + 1) + "|")
    for rule in rules:
        print(row(rule, cases[rule], found), flush=True)


main()
