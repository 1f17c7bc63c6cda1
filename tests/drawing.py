"""Random scripts and traces without faults; the same seed gives the same text.

A script is drawn line by line, from what the limiter of tests/reference.py then has open, granted and waiting, so most
of its numbers name something.
"""
import itertools
import random
from collections.abc import Callable, Collection, Iterator

from kind_rows import HOUR, TIMES, drawn_limit
from reference import LAST_MOMENT, SHARES, Limiter

# How often each event is drawn while many come, and while few do; these alternate after PHASE lines.
BUSY = {
    "acquire": 400,
    "wait": 500,
    "bypass": 50,
    "end": 450,
    "claim": 300,
    "giveup": 100,
    "set": 40,
    "reset": 4,
    "look": 100,
}
SLACK = BUSY | {"acquire": 250, "wait": 50, "end": 600}
PHASE = 1_000

OUTCOMES = ["success"] * 15 + ["dropped", "ignored", "ignored"]
SET_TO = [0, 1, 2, 3, 5, 8, 9, 10, 20, 40, 41, 60, 100, 9_999, 10_000, 10_001, 2**32 - 1]
NAMES = ["a", "b-2", "c_3", "a-name_of-32-letters-and-figures"]
THOUSANDTHS = [1, 2, 10, 20, 125, 200, 330, 333, 500, 970, 999, 1_000]
LIMITS = [1, 1, 2, 3, 5, 8, 20, 100, 9_999, 10_000]
MOMENTS = [
    0,
    1,
    2,
    100,
    HOUR,
    HOUR + 1,
    HOUR + 2,
    LAST_MOMENT - HOUR,
    LAST_MOMENT - 1,
    LAST_MOMENT,
    LAST_MOMENT + 1,
    2**64 - 1,
]


# Moments by what they are drawn with.
Moments = Callable[[random.Random], Iterator[int]]


def flowing(step: int, start: int = 0) -> Moments:
    """Moments that rise by so much in the mean, with one now and then that lies before."""

    def moments(draw: random.Random) -> Iterator[int]:
        now = start
        while True:
            now += int(draw.random() * (2 * step + 1))
            yield now if draw.random() < 0.98 else max(0, now - draw.randrange(100 * step + 1))

    return moments


def random_moments(seed: object) -> Moments:
    """Moments that flow fast or slowly, up to the last one too, or that leap."""
    draw = random.Random(f"moments of {seed}")
    step = draw.choice([0, 1, 10, 1_000, HOUR // 10])
    if draw.random() < 0.2:
        return lambda draw: (draw.choice(MOMENTS) for _ in itertools.count())
    return flowing(step, draw.choice([0, 0, 0, LAST_MOMENT - 150 * step]))


class Draw:
    """Lines of a script, drawn by what the reference has."""

    def __init__(self, seed: int | str, settings: list[str], moments: Moments) -> None:
        self.random = random.Random(seed)
        self.limiter = Limiter(settings)
        self.parts = [*self.limiter.thousandths, "unknown"]
        self.moments = moments(self.random)

    def script(self, count: int) -> tuple[list[str], list[str]]:
        """So many lines, and what each is answered."""
        lines: list[str] = []
        answers: list[str] = []
        for event in self.events(count):
            lines.append(self.line(event))
            answers.append(self.limiter.answer(lines[-1]))
        return lines, answers

    def events(self, count: int) -> Iterator[str]:
        """What is drawn, one after the other: in two of three phases many come."""
        for start in range(0, count, PHASE):
            weights = SLACK if start // PHASE % 3 == 2 else BUSY
            yield from self.random.choices([*weights], [*weights.values()], k=min(PHASE, count - start))

    def line(self, event: str) -> str:
        """A line of this event."""
        limiter, draw, now = self.limiter, self.random, next(self.moments)
        match event:
            case "acquire":
                return f"acquire {draw.choice(self.parts)} {now}"
            case "wait":
                return f"acquire {draw.choice(self.parts)} {now} wait"
            case "end":
                return f"end {self.number(limiter.open)} {draw.choice(OUTCOMES)} {now}"
            case "claim":
                return f"claim {self.number(limiter.granted, limiter.waiting)}"
            case "giveup":
                return f"giveup {self.number(limiter.waiting, limiter.granted)}"
            case "set":
                return f"set {draw.choice(SET_TO)} {now}"
            case "look":
                return f"look {draw.choice(self.parts)}"
        return f"{event} {now}"

    def number(self, *preferred: Collection[int]) -> int:
        """A number of the first of these that has any, most often, or any that was given out or soon will be."""
        for numbers in preferred:
            if numbers and self.random.random() < 0.8:
                return self.random.choice([*numbers])
        return self.random.randrange(self.limiter.entries + 3)


def random_settings(seed: object) -> list[str]:
    """Setting lines with numbers at the ends of their ranges, in any order; any of them may be left out."""
    draw = random.Random(f"settings of {seed}")
    low, first, high = sorted(draw.choices(LIMITS, k=3))
    shortest, longest = sorted(draw.choices(TIMES, k=2))
    limit = drawn_limit(draw, low, first, high)
    size, threshold = draw.choice([1, 1, 2, 3, 10, 1_000_000]), draw.choice([0, 0, 0, *TIMES])
    window = f"window {size} {shortest} {longest} {threshold}"
    keep = f"keep {draw.choice([1, 2, 3, 7, 50, 1_000_000])}" + draw.choice(["", " rolling"])
    lines = [
        f"limit {limit}",
        f"backlog {draw.choice([0, 1, 2, 3, 100, 10_000])}",
        keep,
        window,
        f"timeout {draw.choice(TIMES)}",
    ]
    lines = [it for it in lines if draw.random() < 0.8 and (it != window or draw.random() < 0.5)]
    promotions: list[list[str]] = [[], ["promote newest"], ["promote all"], ["promote all"]]
    lines += draw.choice(promotions)
    draw.shuffle(lines)
    return with_shares(draw, lines)


def with_shares(draw: random.Random, lines: list[str]) -> list[str]:
    """Setting lines with those of classes among them, in any order, and the places of a class behind its own."""
    shares = random_shares(draw)
    lines = [*lines, *shares]
    draw.shuffle(lines)
    backlog = next((int(it.split()[1]) for it in lines if it.startswith("backlog")), 0)
    left = 10_000 - backlog
    for name in [it.split()[1] for it in shares if draw.random() < 0.5]:
        behind = next(at for at, it in enumerate(lines) if it.split()[0] in SHARES and it.split()[1] == name)
        places = min(draw.choice([0, 1, 1, 2, 3, 10_000]), left)
        left -= places
        lines.insert(draw.randrange(behind + 1, len(lines) + 1), f"places {name} {places}")
    return lines


def random_shares(draw: random.Random) -> list[str]:
    """Lines of classes, in percent or in thousandths, as far as the limit suffices."""
    lines: list[str] = []
    left = 1_000
    for name in draw.sample(NAMES, draw.randrange(5)):
        kind = draw.choice([*SHARES])
        number = min(draw.choice(THOUSANDTHS), left) // SHARES[kind]
        left -= SHARES[kind] * number
        lines += [f"{kind} {name} {number}"] if number else []
    return lines


def random_trace(seed: int | str, most: int, settings: list[str] | None = None) -> tuple[list[str], list[str]]:
    """Setting lines, where none are given, and up to so many calls of a trace."""
    draw = random.Random(seed)
    settings = settings or random_settings(seed)
    calls: list[str] = []
    parts = [it.split()[1] for it in settings if it.split()[0] in SHARES] + ["unknown"]
    span, hold = draw.choice([1, 100, 1_000, 10_000]), draw.choice([1, 10, 100, HOUR])
    start = draw.choice([0, 0, 0, LAST_MOMENT - span // 2])
    for _ in range(draw.randrange(most + 1)):
        at, held = start + draw.randrange(span), draw.randrange(hold + 1)
        wait = draw.choice(["", " wait", " wait"])
        calls.append(
            f"bypass {at}"
            if draw.random() < 0.05
            else f"arrive {draw.choice(parts)} {at} {held} {draw.choice(OUTCOMES)}{wait}"
        )
    return settings, calls
