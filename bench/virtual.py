"""A minute of virtual time before one backend, through gateways whose limits are those of tests/reference.py.

No clock is used, so what is worked out is the same each time.
"""
import dataclasses
import heapq
import itertools
import pathlib
import random
import sys

sys.path.insert(0, str(pathlib.Path(__file__).resolve().parent.parent / "tests"))
import reference  # noqa: E402  pylint: disable=wrong-import-position

SECOND = 1_000_000_000
MINUTE, FOUND = 60 * SECOND, 20 * SECOND
DRAG = 0.1


@dataclasses.dataclass(frozen=True)
class Backend:
    """So many slots of so many nanoseconds, by which part of them an answer varies, which part of the answers breaks
    off behind its whole time, and how many times as long each class takes. It slows down by a tenth where as many wait
    as it has slots."""

    slots: int
    takes: int
    spread: float = 0.0
    broken: float = 0.0
    longer: tuple[tuple[str, float], ...] = (("unknown", 1.0),)

    def __str__(self) -> str:
        varied = f", ±{self.spread:.0%}" if self.spread else ""
        return f"{self.slots} × {self.takes // 1_000_000} ms{varied}"

    @property
    def rate(self) -> float:
        """How many answers a second it can give, where as many calls come of each class."""
        mean = sum(times for _, times in self.longer) / len(self.longer)
        return self.slots / (self.takes * mean / SECOND)


class Run:
    """A minute of even calls, at so many times what the backend can serve, in turns through each gateway."""

    def __init__(self, gateways: list[list[str]], backend: Backend, load: float = 2.0) -> None:
        self.limiters = [reference.Limiter([*it, "backlog 10", "keep 1 rolling"]) for it in gateways]
        self.backend, self.load, self.longer = backend, load, dict(backend.longer)
        self.draw, self.numbers = random.Random(1), itertools.count()
        self.queue: list[tuple[int, int]] = []
        self.parts: dict[tuple[int, int], str] = {}
        self.busy = 0
        self.events: list[tuple[int, int, str, tuple[int, int]]] = []
        self.good = {part: 0 for part in self.longer}
        self.limits: list[list[int]] = [[] for _ in gateways]

    def plan(self, at: int, what: str, call: tuple[int, int]) -> None:
        heapq.heappush(self.events, (at, next(self.numbers), what, call))

    def begin(self, now: int) -> None:
        """The backend takes as many of those at it as it has slots for."""
        it = self.backend
        while self.queue and self.busy < it.slots:
            self.busy += 1
            slower = (1 + DRAG * len(self.queue) / it.slots) * (1 + it.spread * self.draw.uniform(-1, 1))
            call = self.queue.pop(0)
            self.plan(now + int(it.takes * slower * self.longer[self.parts[call]]), "end", call)

    def ask(self, now: int, gateway: int) -> None:
        limiter = self.limiters[gateway]
        part = self.draw.choice([*self.longer]) if len(self.longer) > 1 else "unknown"
        answer = limiter.acquire(part, str(now), "wait")[0]
        call, limiter.entries = (gateway, limiter.entries), limiter.entries + 1
        self.parts[call] = part
        if answer.startswith("admitted"):
            self.queue.append(call)
        elif answer == "waiting":
            self.plan(now + SECOND, "tire", call)

    def end(self, now: int, call: tuple[int, int]) -> None:
        gateway, number = call
        limiter, is_good = self.limiters[gateway], self.draw.random() >= self.backend.broken
        self.busy -= 1
        if now >= FOUND:
            self.good[self.parts[call]] += is_good
            self.limits[gateway].append(limiter.limit.limit)
        told = limiter.end(str(number), "success" if is_good else "dropped", str(now))
        for it in told[1:]:
            waiter = int(it.split()[1])
            limiter.giveup(str(waiter))
            self.queue.append((gateway, waiter))

    def tire(self, call: tuple[int, int]) -> None:
        limiter = self.limiters[call[0]]
        if call[1] in limiter.waiting:
            limiter.giveup(str(call[1]))

    def run(self) -> tuple[float, list[float]]:
        """The part of the good answers that were to be had, once the limits had 20 seconds to find the backend, and
        their means then."""
        rate = self.load * self.backend.rate
        for it in range(int(rate * MINUTE / SECOND)):
            self.plan(int(it * SECOND / rate), "ask", (it % len(self.limiters), 0))
        while self.events and self.events[0][0] < MINUTE:
            now, _, what, call = heapq.heappop(self.events)
            if what == "ask":
                self.ask(now, call[0])
            elif what == "end":
                self.end(now, call)
            else:
                self.tire(call)
            self.begin(now)
        had = (1 - self.backend.broken) * min(rate, self.backend.rate) * (MINUTE - FOUND) / SECOND
        return sum(self.good.values()) / had, [sum(it) / max(1, len(it)) for it in self.limits]
