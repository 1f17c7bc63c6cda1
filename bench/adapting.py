"""The runs of bench/adapts and bench/beside: calls through the gateway, or through a rival, to a backend."""
import argparse
import concurrent.futures
import dataclasses
import json
import multiprocessing
import pathlib
import re
import sys
import time
import typing
from collections.abc import Callable, Mapping, Sequence

from backends import Backend, Day
from rivals import QUEUES, RULES, Queue, Rival
from traffic import Call, Gateway, Limited, allow_many_sockets, percentile, tables_of
from wayward import Callers, Wayward
from words import above_zero, add_earlier, reader_with_program

DRAG = 0.1
OWN, PACKAGED = "packaged", "packaging/admission.toml"
CARRIED = 0.75
SOON, LATER = (8, 13), (30, 40)
STEP = 0.1
MOST_AT_ONCE = 24
# What 64 workers leave over, beside the packaged backlog and one that refuses.
LEFT_OVER = 53
Named = typing.TypeVar("Named")


class Programs(typing.NamedTuple):
    """The built gateway, and the built `rivals.rs` where rivals are run."""

    gateway: str
    rivals: str = ""


def fixed(limit: int) -> str:
    """A fixed limit, with the packaged backlog."""
    backlog = re.findall(r"^backlog *=.*\n", tables_of(PACKAGED), re.MULTILINE)
    return f'{backlog[0]}[limit]\nkind = "fixed"\ninitial = {limit}\n'


@dataclasses.dataclass(frozen=True)
class Run:
    """One stretch of calls through a gateway, or through a rival: the backend, what the gateway's tables are called and
    what they say, or the rival's name; and a day if it has one."""

    backend: Backend
    name: str
    tables: str
    length: float
    rate: float
    day: Day | None = None
    begins: float = 0.0

    def __str__(self) -> str:
        if not self.day:
            return f"{self.backend} | {self.name}"
        return f"{self.backend} | {self.day.name}" + ("" if self.name == OWN else f", {self.name}")

    @property
    def slots_before(self) -> int:
        """How many slots its backend has until the day."""
        return int(self.backend.slots * self.day.before) if self.day else self.backend.slots

    @property
    def is_alone(self) -> bool:
        """Whether nothing may run beside it: what it measures are short times."""
        return self.day is None and self.backend.is_quick


@dataclasses.dataclass
class Found:
    """What a run came to: its calls; the good answers a second, of all and since a third of the time; which part of the
    calls was answered 429, and refused by the backend itself; the 99th percentile of answers; the limit in the end; the
    parts that weren't served soon and later after the day; and how far the callers fell behind."""

    calls: int
    good: float
    settled: float
    refused: float
    own: float
    p99: float
    limit: int
    soon: float
    later: float
    late: float


def good(run: Run, calls: list[Call], since: float = 0.0) -> float:
    """Good answers a second, to the calls since a moment."""
    there = [it for it in calls if it.at >= since and it.status == 200 and it.seconds <= run.backend.bound]
    return len(there) / (run.length - since)


def unserved(run: Run, calls: list[Call], stretch: tuple[float, float]) -> float:
    """The part of the calls of a stretch after the day that wasn't answered 200."""
    over = run.begins + (run.day.lasts if run.day else 0.0)
    there = [it for it in calls if over + stretch[0] <= it.at < over + stretch[1]]
    return sum(it.status != 200 for it in there) / max(1, len(there))


def found_of(run: Run, calls: list[Call], limit: int, own: int) -> Found:
    many = max(1, len(calls))
    return Found(
        len(calls),
        good(run, calls),
        good(run, calls, run.length / 3),
        sum(it.status == 429 for it in calls) / many,
        own / many,
        percentile([it.seconds for it in calls if it.status == 200], 0.99),
        limit,
        unserved(run, calls, SOON),
        unserved(run, calls, LATER),
        max((it.at for it in calls), default=0.0) / run.length - 1,
    )


def spend(run: Run, day: Day, backend: Wayward, callers: Callers) -> None:
    """Has a backend's bad day."""
    callers.wait_until(run.begins)
    day.begin(backend)
    for step in range(1, round(day.lasts / STEP) + 1):
        day.course(backend, step * STEP / day.lasts)
        callers.wait_until(run.begins + step * STEP)
    day.end(backend)


def stop_each_ten(run: Run, backend: Wayward, callers: Callers) -> None:
    for ten in range(1, int(run.length / 10)):
        callers.wait_until(10 * ten)
        backend.stop()
        callers.wait_until(10 * ten + run.backend.stops)
        backend.resume()


def limited(programs: Programs, run: Run, backend: Wayward) -> Limited | Queue:
    """What stands in front of a run's backend."""
    if run.name in RULES:
        return Rival(programs.rivals, run.name, backend)
    if run.name in QUEUES:
        return Queue(backend, run.slots_before, QUEUES[run.name](run.backend.bound))
    return Gateway(programs.gateway, backend, run.tables, report_seconds=1)


def carried_out(programs: Programs, run: Run) -> Found:
    """A run, on loopback alone; all that it started has ended."""
    allow_many_sockets()
    it = run.backend
    with Wayward(run.slots_before, it.seconds, DRAG, it.times, it.faults) as backend, limited(
        programs, run, backend
    ) as gateway:
        callers = Callers(gateway.port, run.rate, run.length, patience=2 * it.bound + 1)
        if run.day:
            spend(run, run.day, backend, callers)
        if it.stops:
            stop_each_ten(run, backend, callers)
        calls = callers.calls()
        return found_of(run, calls, gateway.limits[-1][1] if gateway.limits else 0, backend.refused.value)


def fixed_limits(backend: Backend, more: Sequence[int] = (0, 1, 2)) -> dict[str, str]:
    """The tables of fixed limits from a backend's slots on, by their names."""
    # a limit above what the workers leave over would leave nobody to refuse the others
    first = min(backend.slots, LEFT_OVER - 2)
    return {f"fixed {first + it}": fixed(first + it) for it in more}


def best_of(row: Sequence[Run], found: Mapping[str, Found]) -> tuple[Found, int]:
    """What the fixed limit came to that had the most good answers, and that limit."""
    named = [it for it in row if it.name.startswith("fixed ")]
    best = max(named, key=lambda it: found[str(it)].good)
    return found[str(best)], int(best.name.split()[1])


def day_of(backend: Backend, day: Day, name: str = OWN) -> Run:
    begins = 10.0 if backend.seconds < 0.1 else 30.0
    length = begins + day.lasts + LATER[1]
    tables = tables_of(PACKAGED) if name == OWN else ""
    return Run(backend, name, tables, length, CARRIED * backend.capacity, day, begins)


def next_of(waiting: list[Run], free: float, is_idle: bool) -> Run | None:
    """The next run that may begin beside those that go on: the first that its calls leave room for."""
    for run in waiting:
        if is_idle or (run.rate <= free and not run.is_alone):
            return run
    return None


def carry_out(programs: Programs, runs: list[Run], rate: float, note: Callable[[Run, Found], None]) -> None:
    """Carries out all runs, as many at once as their rates allow."""
    waiting = sorted(runs, key=lambda it: (not it.is_alone, -it.length, -it.rate))
    going: dict[concurrent.futures.Future[Found], Run] = {}
    with concurrent.futures.ProcessPoolExecutor(MOST_AT_ONCE, multiprocessing.get_context("fork")) as pool:
        while waiting or going:
            alone = any(it.is_alone for it in going.values())
            free = rate - sum(it.rate for it in going.values())
            run = None if alone or len(going) == MOST_AT_ONCE else next_of(waiting, free, not going)
            if run:
                waiting.remove(run)
                going[pool.submit(carried_out, programs, run)] = run
                # the next one starts once this one's processes are there
                time.sleep(0.3)
                continue
            for done in concurrent.futures.wait(going, return_when=concurrent.futures.FIRST_COMPLETED).done:
                note(going.pop(done), done.result())


def written(text: str) -> pathlib.Path:
    return pathlib.Path(text)


def read_results(file: pathlib.Path) -> dict[str, Found]:
    lines = map(json.loads, file.read_text(encoding="utf-8").splitlines())
    return {it.pop("run"): Found(**it) for it in lines}


class Measured:
    """What runs came to, by their names: those of a file, and those that are carried out, which are added to it."""

    def __init__(self, earlier: pathlib.Path | None, file: pathlib.Path | None) -> None:
        self.file, self.found = file, {}
        earlier = earlier or file
        if earlier and earlier.exists():
            lines = map(json.loads, earlier.read_text(encoding="utf-8").splitlines())
            self.found = {it.pop("run"): Found(**it) for it in lines}

    def carry_out(self, programs: Programs, runs: Sequence[Run], rate: float) -> None:
        """Carries out those that aren't there yet."""
        allow_many_sockets()
        waiting = [it for it in {str(it): it for it in runs}.values() if str(it) not in self.found]
        count = 0

        def note(run: Run, it: Found) -> None:
            nonlocal count
            self.found[str(run)] = it
            count += 1
            print(f"{pathlib.Path(sys.argv[0]).name}: {count} of {len(waiting)}: {run}", file=sys.stderr)
            if self.file:
                line = json.dumps({"run": str(run), **dataclasses.asdict(it)}, ensure_ascii=False)
                with self.file.open("a", encoding="utf-8") as file:
                    file.write(line + "\n")

        carry_out(programs, waiting, rate, note)

    def whole(self, rows: Sequence[Sequence[Run]]) -> list[Sequence[Run]]:
        """The rows of which all runs are there."""
        return [row for row in rows if all(str(it) in self.found for it in row)]


def reader_of_runs(text: str | None) -> argparse.ArgumentParser:
    """A reader of the words that both scripts have."""
    reader = reader_with_program(text)
    reader.add_argument(
        "--rate", type=above_zero(float), default=600.0, help="how many calls a second go on at once: 600"
    )
    reader.add_argument("--only", nargs="+", default=[""], metavar="WORD", help="backends, or days, with such a word")
    reader.add_argument("--table", choices=("first", "second", "both"), default="both")
    reader.add_argument(
        "--results", type=pathlib.Path, metavar="FILE", help="where a line of figures goes for each run"
    )
    add_earlier(reader)
    return reader


def chosen(of: Sequence[Named], only: Sequence[str]) -> Sequence[Named]:
    """Those whose name has one of these words in it; all where none has."""
    return [it for it in of if any(word.replace("x", "×") in str(it) for word in only)] or of


def cell_of(best: Found, it: Found) -> str:
    own = f", its own {it.own:.0%}" if it.own else ""
    parts = (getattr(it, name) / max(0.01, getattr(best, name)) for name in ("good", "settled"))
    return ", ".join(f"{part:.2f}" for part in parts) + f", limit {it.limit}{own}"
