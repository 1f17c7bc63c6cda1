"""The backends and the bad days of bench/adapts in virtual time, behind one limit of tests/reference.py.

No clock is used, so what is worked out is the same each time. A way through the gateway and back takes half a
millisecond.
"""
import dataclasses
import heapq
import itertools
import random
import typing

from backends import Backend, Day
from virtual import DRAG, SECOND, reference
from wayward import AS_EVER, ONE_AT_ONCE, ONE_IN_A_TENTH, REFUSING

WAY = SECOND // 2000
STEP = SECOND // 10
# Of a day the calls are counted in these seconds after it.
SOON, LATER = (8, 13), (30, 40)
# What the limit learns of what came of a call; anything else is a drop.
OUTCOMES = {"served": "success", "early": "success", "lost": "ignored"}


class Gate(reference.Limiter):
    """A limiter without classes, which counts those who wait instead of looking at each."""

    def __init__(self, limit: reference.Fixed) -> None:
        super().__init__(["backlog 10", "keep 1 rolling"])
        self.limit = limit

    def has_room(self, _part: str) -> bool:
        return self.total() < self.limit.limit

    def has_place(self, _part: str) -> bool:
        return len(self.waiting) < self.backlog


@dataclasses.dataclass
class Number:
    """What can be changed while a backend serves."""

    value: float


def arrivals(rate: float, length: float, seed: int | None) -> typing.Iterator[int]:
    """When calls come: so many a second, evenly, or drawn at random."""
    if seed is None:
        yield from (int(it * SECOND / rate) for it in range(int(rate * length)))
        return
    draw, at = random.Random(-seed), 0.0
    while (at := at + draw.expovariate(rate)) < length:
        yield int(at * SECOND)


class Simulated:
    """Calls at so many times what a backend can serve, even or drawn at random, with its times, its faults, its stops,
    and a bad day."""

    def __init__(
        self,
        limit: reference.Fixed,
        backend: Backend,
        load: float = 2.0,
        day: Day | None = None,
        seed: int | None = None,
    ) -> None:
        self.gate, self.it, self.day, self.rate = Gate(limit), backend, day, load * backend.capacity
        self.begins = 10 if backend.seconds < 0.1 else 30
        self.length = self.begins + day.lasts + LATER[1] if day else backend.length
        self.most, self.now, self.draw = int(self.length * SECOND), 0, random.Random(seed or 1)
        self.asked = [*arrivals(self.rate, self.length, seed)]
        self.events: list[tuple[int, int, str, int]] = []
        self.numbers = itertools.count()
        self.came: dict[int, int] = {}
        # When the calls came that were answered 200, and how long that took; and how many the backend refused itself.
        self.answers: list[tuple[int, int]] = []
        self.own = 0
        self.queue: list[int] = []
        self.inside: set[int] = set()
        self.pace = backend.faults.counting()
        self.slots = Number(int(backend.slots * day.before) if day else backend.slots)
        self.speed, self.ahead = Number(1.0), Number(AS_EVER)
        self.is_up, self.hangs = True, False
        self.held_back: list[tuple[str, int]] = []

    def plan(self, at: float, what: str, number: int = 0) -> None:
        heapq.heappush(self.events, (int(at), next(self.numbers), what, number))

    def kill(self) -> None:
        """The backend ends at once, with all that it serves."""
        for number in [*self.inside, *self.queue]:
            self.plan(self.now + WAY, "broken", number)
        self.is_up = False
        self.inside.clear()
        self.queue.clear()

    def start(self) -> None:
        self.is_up = True

    def stop(self) -> None:
        self.hangs = True

    def resume(self) -> None:
        self.hangs = False
        for what, number in self.held_back:
            self.plan(self.now, what, number)
        self.held_back.clear()

    def stopped(self, at: int) -> int:
        """The moment, or the end of the stop that it lies in."""
        ten, within = divmod(at, 10 * SECOND)
        is_in = ten > 0 and within < self.it.stops * SECOND and at < self.most - 10 * SECOND
        return ten * 10 * SECOND + int(self.it.stops * SECOND) if is_in else at

    def is_too_many(self) -> bool:
        """Whether the backend refuses the next call by itself."""
        most = self.it.faults.most
        is_full = most is not None and len(self.inside) + len(self.queue) >= most
        return is_full or bool(self.pace and not self.pace.takes(self.now / SECOND))

    def forward(self, number: int) -> None:
        """The backend takes a call, or answers it at once."""
        at, ahead = self.stopped(self.now + WAY), self.ahead.value
        if not self.is_up:
            self.plan(at, "lost", number)
        elif ahead == REFUSING or self.draw.random() < self.it.faults.broken:
            self.plan(at, "refused", number)
        elif self.is_too_many():
            self.own += 1
            self.plan(at, "refused", number)
        elif ahead in (ONE_AT_ONCE, ONE_IN_A_TENTH):
            self.ahead.value = AS_EVER
            self.plan(at + (0 if ahead == ONE_AT_ONCE else self.it.seconds * SECOND / 10), "early", number)
        else:
            self.queue.append(number)

    def begin(self) -> None:
        """The backend begins to serve as many as it has slots for."""
        while self.queue and not self.hangs and len(self.inside) < self.slots.value:
            slower = (1 + DRAG * len(self.queue) / self.slots.value) * self.it.times.draw(self.draw) / self.speed.value
            number = self.queue.pop(0)
            self.inside.add(number)
            self.plan(self.stopped(self.now + int(self.it.seconds * SECOND * slower) + WAY), "served", number)

    def ask(self) -> None:
        answer = self.gate.acquire("unknown", str(self.now), "wait")[0]
        number, self.gate.entries = self.gate.entries, self.gate.entries + 1
        self.came[number] = self.now
        if answer.startswith("admitted"):
            self.forward(number)
        elif answer == "waiting":
            self.plan(self.now + SECOND, "tire", number)

    def ended(self, number: int, what: str) -> None:
        """A call has its answer, and the newest of those who wait may be let in."""
        came = self.came.pop(number)
        if what in ("served", "early"):
            self.answers.append((came, self.now - came))
        for it in self.gate.end(str(number), OUTCOMES.get(what, "dropped"), str(self.now))[1:]:
            waiter = int(it.split()[1])
            self.gate.giveup(str(waiter))
            self.forward(waiter)

    def answer(self, what: str, number: int) -> None:
        """What comes back from the backend, unless it hangs or was killed meanwhile."""
        if self.hangs and what != "lost":
            self.held_back.append((what, number))
            return
        if what == "served":
            if number not in self.inside:
                return
            self.inside.remove(number)
            what = "served" if self.draw.random() >= self.it.faults.cut else "cut"
        self.ended(number, what)

    def have_day(self, step: int) -> None:
        """What the day does at one of its steps."""
        day = typing.cast(Day, self.day)
        steps = round(day.lasts * SECOND / STEP)
        if step == 0:
            day.begin(self)
        if 0 < step <= steps:
            day.course(self, step / steps)
        if step == steps:
            day.end(self)
        else:
            self.plan(self.now + STEP, "day", step + 1)

    def step(self, what: str, number: int) -> None:
        if what == "ask":
            self.ask()
        elif what == "tire":
            if number in self.gate.waiting:
                self.gate.giveup(str(number))
        elif what == "day":
            self.have_day(number)
        else:
            self.answer(what, number)
        self.begin()

    def run(self) -> "Simulated":
        for it in self.asked:
            self.plan(it, "ask")
        if self.day:
            self.plan(self.begins * SECOND, "day")
        while self.events and self.events[0][0] < self.most + 2 * self.it.bound * SECOND:
            self.now, _, what, number = heapq.heappop(self.events)
            self.step(what, number)
        return self

    def reached(self) -> tuple[float, float]:
        """Good answers a second, to all calls and to those since a third of the time."""
        good = [came for came, took in self.answers if took <= self.it.bound * SECOND]
        settled = sum(came >= self.most / 3 for came in good)
        return len(good) / self.length, settled * 3 / 2 / self.length

    def refused(self) -> float:
        """The part of all calls that the backend refused by itself."""
        return self.own / max(1, len(self.asked))

    def unserved(self, stretch: tuple[int, int]) -> float:
        """The part of the calls of a stretch after the day that wasn't answered 200."""
        over = self.begins + (self.day.lasts if self.day else 0)
        first, last = ((over + it) * SECOND for it in stretch)
        came = sum(first <= it < last for it in self.asked)
        return 1 - sum(first <= it < last for it, _ in self.answers) / max(1, came)


def fixed(backend: Backend, seed: int | None = None) -> tuple[float, float]:
    """What the best of the fixed limits around the slots comes to."""
    limits = (backend.slots, backend.slots + 1, backend.slots + 2)
    return max(Simulated(reference.Fixed(it), backend, seed=seed).run().reached() for it in limits)
