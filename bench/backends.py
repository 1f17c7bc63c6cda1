"""The backends and the bad days of bench/adapts."""
import dataclasses
import typing

from wayward import AS_EVER, ONE_AT_ONCE, ONE_IN_A_TENTH, REFUSING, Faults, Times

QUICK, SLOW, LARGE = (f"examples/vegas_{it}.toml" for it in ("quick", "slow", "large"))
MOST_SMALL, LEAST_SLOW = 16, 0.1
# How many times slower the first answers behind a deploy are.
COLD = 10


@dataclasses.dataclass(frozen=True)
class Backend:
    """So many slots of so many seconds, whose answers are good within a bound; how their times vary, what it does wrong
    at any time, and for how long it stops in each ten seconds."""

    slots: int
    seconds: float
    bound: float
    times: Times = Times()
    faults: Faults = Faults()
    stops: float = 0.0

    def __str__(self) -> str:
        spread, sigma, (part, longer) = self.times
        it = self.faults
        more = [
            f"±{spread:.0%}" if spread else "",
            f"lognormal, sigma {sigma:g}" if sigma else "",
            f"{part:.0%} of {told(self.seconds * longer)}" if part else "",
            f"{it.cut:.0%} cut off" if it.cut else "",
            f"503 to {it.broken:.0%} at once" if it.broken else "",
            f"its own 429 above {it.most}" if it.most is not None else "",
            f"its own 429 above {it.pace:g} {'in each' if it.by_seconds else 'a'} second"
            if it.pace is not None
            else "",
            f"{it.at_once:.0%} of them at once" if it.pace is not None and it.at_once != Faults().at_once else "",
            f"stops for {told(self.stops)} each 10 s" if self.stops else "",
        ]
        return ", ".join([f"{self.slots} × {told(self.seconds)}", *filter(None, more)])

    @property
    def capacity(self) -> float:
        """How many good answers a second it can give."""
        most = (1 - self.stops / 10) * self.slots / (self.seconds * self.times.mean())
        return (1 - self.faults.cut) * (most if self.faults.pace is None else min(most, self.faults.pace))

    @property
    def fitting(self) -> str:
        return LARGE if self.slots > MOST_SMALL else SLOW if self.seconds >= LEAST_SLOW else QUICK

    @property
    def other(self) -> str:
        return LARGE if self.fitting == QUICK else QUICK

    @property
    def length(self) -> float:
        """How long a run takes, in seconds."""
        if self.seconds >= 2:
            return 300
        return 30 if self.seconds <= 0.1 and not self.stops else 60

    @property
    def is_quick(self) -> bool:
        """Whether it answers so soon that what else runs beside it shows in its times."""
        return self.seconds <= 0.02


def told(seconds: float) -> str:
    return f"{seconds * 1000:g} ms" if seconds < 1 else f"{seconds:g} s"


def lognormal(slots: int, sigma: float, bound: float) -> Backend:
    return Backend(slots, 0.2, bound, Times(sigma=sigma))


# Those that are met under other kinds of limits too.
PLAIN = (
    Backend(4, 0.005, 0.05),
    Backend(4, 0.02, 0.1),
    Backend(8, 0.05, 0.25),
    Backend(16, 0.05, 0.25),
    Backend(4, 0.5, 2.0),
    Backend(16, 0.5, 2.0),
    Backend(16, 2.0, 6.0),
    Backend(20, 0.08, 0.4),
    Backend(30, 0.1, 0.5),
    Backend(30, 1.0, 3.0),
    Backend(50, 2.0, 6.0),
    Backend(8, 0.05, 0.25, Times(spread=0.5)),
    Backend(16, 0.5, 2.0, Times(spread=0.5)),
    Backend(50, 2.0, 6.0, Times(spread=0.5)),
)
FURTHER = (
    Backend(1, 0.1, 0.5),
    Backend(2, 5.0, 20.0),
    Backend(64, 0.5, 2.0),
    lognormal(16, 0.7, 1.5),
    lognormal(16, 1.2, 3.0),
    lognormal(8, 1.0, 2.0),
    lognormal(12, 1.0, 2.0),
    lognormal(16, 1.0, 2.0),
    lognormal(30, 1.0, 2.0),
    Backend(16, 0.02, 1.2, Times(slow=(0.1, 20.0))),
    Backend(8, 0.05, 0.25, faults=Faults(cut=0.05)),
    Backend(8, 0.05, 0.25, faults=Faults(cut=0.1)),
    Backend(8, 0.05, 0.25, faults=Faults(broken=0.1)),
    Backend(8, 0.1, 0.5, faults=Faults(most=8)),
    Backend(8, 0.1, 0.5, faults=Faults(pace=50)),
    Backend(8, 0.05, 0.5, stops=1),
)
# Those that the limits of others are met before too.
BESIDE = (
    Backend(1, 0.1, 0.5),
    Backend(8, 0.05, 0.25),
    Backend(16, 0.5, 2.0),
    Backend(30, 1.0, 3.0),
    lognormal(8, 1.0, 2.0),
    lognormal(12, 1.0, 2.0),
    lognormal(16, 1.0, 2.0),
    lognormal(30, 1.0, 2.0),
    Backend(16, 0.02, 1.2, Times(slow=(0.1, 20.0))),
    Backend(8, 0.05, 0.25, faults=Faults(cut=0.05)),
    Backend(8, 0.1, 0.5, faults=Faults(most=8)),
    Backend(8, 0.05, 0.5, stops=1),
)
WORN = (
    Backend(4, 0.02, 0.1),
    Backend(8, 0.05, 0.25),
    Backend(16, 0.5, 2.0),
    Backend(20, 0.08, 0.4),
    Backend(30, 1.0, 3.0),
    Backend(50, 2.0, 6.0),
)


class Troubled(typing.Protocol):
    """A backend that can have a bad day, whether it is measured or simulated."""

    slots: typing.Any
    speed: typing.Any
    ahead: typing.Any

    def kill(self) -> None:
        ...

    def start(self) -> None:
        ...

    def stop(self) -> None:
        ...

    def resume(self) -> None:
        ...


def nothing(_: Troubled) -> None:
    pass


def unchanged(_: Troubled, __: float) -> None:
    pass


@dataclasses.dataclass(frozen=True)
class Day:
    """A bad day: how many seconds it lasts, what begins and what ends it, what is done at each part of it, and how many
    slots there are before, as a part of those afterwards."""

    name: str
    lasts: float
    begin: typing.Callable[[Troubled], None]
    end: typing.Callable[[Troubled], None] = nothing
    course: typing.Callable[[Troubled, float], None] = unchanged
    before: float = 1.0

    def __str__(self) -> str:
        return self.name


def refuse(backend: Troubled) -> None:
    backend.ahead.value = REFUSING


def at_once(backend: Troubled) -> None:
    backend.ahead.value = ONE_AT_ONCE


def in_a_tenth(backend: Troubled) -> None:
    backend.ahead.value = ONE_IN_A_TENTH


def as_ever(backend: Troubled) -> None:
    backend.ahead.value, backend.speed.value = AS_EVER, 1.0


def kill(backend: Troubled) -> None:
    backend.kill()


def start(backend: Troubled) -> None:
    backend.start()


def stop(backend: Troubled) -> None:
    backend.stop()


def resume(backend: Troubled) -> None:
    backend.resume()


def slow_down(backend: Troubled) -> None:
    backend.speed.value = 0.25


def warm_up(backend: Troubled, part: float) -> None:
    backend.speed.value = 1 / (COLD - (COLD - 1) * part)


def double(backend: Troubled) -> None:
    backend.slots.value *= 2


def halve(backend: Troubled) -> None:
    backend.slots.value //= 2


DAYS = (
    Day("none", 0, nothing),
    Day("503 at once for 2 s", 2, refuse, as_ever),
    Day("503 at once for 12 s", 12, refuse, as_ever),
    Day("one answer at once", 0, at_once),
    Day("one answer in a tenth", 0, in_a_tenth),
    Day("killed, back after 5 s", 5, kill, start),
    Day("four times slower for 15 s", 15, slow_down, as_ever),
    Day("hangs for 5 s", 5, stop, resume),
    Day("a deploy, ten times slower at first, warm in 20 s", 20, nothing, as_ever, warm_up),
    Day("a deploy doubles the slots", 0, double, before=0.5),
    Day("half of the slots lost", 0, halve, before=2.0),
)
# The days, and the backends that have them, before which the limits of others are met.
DAYS_BESIDE = (
    tuple(
        it
        for it in DAYS
        if it.name in ("none", "503 at once for 12 s", "killed, back after 5 s", "four times slower for 15 s")
    )
    + DAYS[-3:]
)
WORN_BESIDE = (Backend(8, 0.05, 0.25), Backend(16, 0.5, 2.0), Backend(30, 1.0, 3.0))
