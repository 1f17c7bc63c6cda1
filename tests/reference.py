"""A limiter over plain lists, written from docs/DEFINITIONS.md and docs/FORMATS.md: what `replay` and `simulate` should
answer to lines without faults.

It is written to be read: each quantity is counted where it is needed, and nothing is shared with the program. Permits
and waiters are ordered by number, the newest last.
"""
import collections
import math
import re
import typing
from collections.abc import Callable, Sequence

LAST_MOMENT = 2**62
HOUR = 3_600_000_000_000
MOST_SAMPLES = 1_000_000
SETTINGS = ("limit", "window", "backlog", "keep", "timeout", "promote", "class", "share", "places")
# How many thousandths of the limit are one in the number of such a line.
SHARES = {"class": 10, "share": 1}


class Permit(typing.NamedTuple):
    """A permit: its part, when it was given, and how many were out then."""

    part: str
    start: int
    inflight: int


class Sample(typing.NamedTuple):
    """What a limit learns of an ending."""

    start: int
    rtt: int
    inflight: int
    dropped: bool


def moment(number: int) -> int:
    """A moment, which is the last one where it would be later."""
    return min(number, LAST_MOMENT)


def within(least: int, number: int, most: int) -> int:
    """The number, brought between two others."""
    return min(max(number, least), most)


def sample_of(permit: Permit, now: int, dropped: bool) -> Sample:
    """What the ending of a permit teaches."""
    return Sample(permit.start, within(1, moment(now) - permit.start, HOUR), permit.inflight, dropped)


class Fixed:
    """A limit that neither learns nor is set."""

    def __init__(self, first: int) -> None:
        self.limit = self.first = first

    def learn(self, sample: Sample) -> None:
        """Moves the limit by a sample."""

    def put(self, _number: int) -> str:
        """What is answered where the limit is set by hand."""
        return "refused not settable"

    def reset(self) -> None:
        self.limit = self.first


class Settable(Fixed):
    """A limit that is set by hand."""

    def __init__(self, least: int, first: int, most: int) -> None:
        super().__init__(first)
        self.least, self.most = least, most

    def put(self, number: int) -> str:
        if not self.least <= number <= self.most:
            return "refused out of range"
        self.limit = number
        return "limit set"


class Aimd(Fixed):
    """A limit that rises by one, and falls to a part of itself."""

    def __init__(self, least: int, first: int, most: int, ratio: int, timeout: int) -> None:
        super().__init__(first)
        self.least, self.most, self.ratio, self.timeout = least, most, ratio, timeout

    def learn(self, sample: Sample) -> None:
        wanted = self.limit
        if sample.dropped or sample.rtt > self.timeout:
            wanted = self.limit * self.ratio // 1000
        elif 2 * sample.inflight >= self.limit:
            wanted = self.limit + 1
        self.limit = within(self.least, wanted, self.most)


class Vegas(Fixed):
    """A limit that moves by the queue which round trips tell of, beside the least of them."""

    base: int | None

    def __init__(self, least: int, first: int, most: int, alpha: int, beta: int, probe: int) -> None:
        super().__init__(first)
        self.least, self.most, self.alpha, self.beta, self.probe = least, most, alpha, beta, probe
        self.base, self.samples = None, 0

    def learn(self, sample: Sample) -> None:
        self.samples += 1
        is_probe = self.probe > 0 and self.samples % self.probe == 0
        if is_probe or self.base is None or sample.rtt < self.base:
            self.base = sample.rtt
        else:
            self.limit = within(self.least, self.limit + self.change(sample, self.base), self.most)

    def change(self, sample: Sample, base: int) -> int:
        """One more, one less or none, of a sample that is measured against the base."""
        if sample.dropped:
            return -1
        if 2 * sample.inflight < self.limit:
            return 0
        # The least whole number that is no less than this fraction.
        queue = -(-self.limit * (sample.rtt - base) // sample.rtt)
        return 1 if queue < self.alpha else -1 if queue > self.beta else 0

    def reset(self) -> None:
        super().reset()
        self.base, self.samples = None, 0


class Auto(Fixed):
    """A limit without numbers: by the queue that a window of answers shows above the time of an answer without one."""

    # What is known of the backend: nothing at first.
    top = base = base_top = calm = rough = left_out = last = roof = roof_left = 0
    every, pace, roof_every, dips = 1, 4, 4, False

    def __init__(self, least: int, first: int, most: int) -> None:
        super().__init__(first)
        self.least, self.most = least, most
        self.answers: list[tuple[int, int, int]] = []
        self.drops: list[int] = []
        self.forget()

    def forget(self) -> None:
        """Nothing is known of the backend."""
        self.top = self.first
        self.base = self.base_top = self.calm = self.rough = self.left_out = self.last = 0
        self.roof = self.roof_left = 0
        self.every, self.pace, self.roof_every, self.dips = 1, 4, 4, False
        self.clear()

    def clear(self) -> None:
        """A window begins: its answers, each with the step from the one before, and its quick drops."""
        self.answers, self.drops = [], []
        self.see()

    def see(self) -> None:
        """The limit that callers see."""
        self.limit = within(self.least, self.low() if self.dips else self.top, self.most)

    def headroom(self) -> int:
        return math.isqrt(self.top)

    def low(self) -> int:
        """The limit in a dip: a headroom and a half below, or half where the base still moves."""
        below = max(1, self.top - self.headroom() - -(-self.headroom() // 2))
        return min(below, max(1, self.top // 2)) if self.every == 1 else below

    def needed(self) -> int:
        """How many answers a window has."""
        weight = 16 if self.dips else 8
        return max(2, self.limit * max(2**20, weight * self.rough**2) // 2**20)

    def learn(self, sample: Sample) -> None:
        if sample.dropped:
            if not self.dips and not self.left_out and self.is_quick(sample.rtt):
                self.drops.append(sample.inflight)
                if self.ends_early():
                    self.look(early=True)
        elif self.left_out:
            self.left_out -= 1
            self.last = sample.rtt
        else:
            step = abs(sample.rtt - self.last) if self.last else 0
            self.answers.append((sample.rtt, sample.inflight, step))
            self.last = sample.rtt
            if len(self.answers) >= self.needed():
                self.look(early=False)

    def is_quick(self, rtt: int) -> bool:
        """Whether a drop took less than half of the base."""
        return 2 * rtt < self.base

    def found_more(self) -> bool:
        """Whether drops found more in flight than answers did."""
        return sum(self.drops) * len(self.answers) > sum(it[1] for it in self.answers) * len(self.drops)

    def sheds(self) -> bool:
        """Of each four calls the backend sheds more than one, of those that find more in flight than answers do."""
        count, drops = len(self.answers), len(self.drops)
        return drops >= 3 and 3 * drops > count and self.found_more()

    def ends_early(self) -> bool:
        count = len(self.answers)
        if not count or not self.sheds() or 3 * len(self.drops) < self.needed() + 6:
            return False
        return sum(it[1] for it in self.answers) // count < self.limit

    def look(self, early: bool) -> None:
        """The window is over."""
        answers, sheds = self.answers, self.sheds()
        count = len(answers)
        total, held, steps = (sum(part) for part in zip(*answers))
        mean = total // count
        self.rough = (7 * self.rough + min(2048, 1024 * steps // total)) // 8
        if self.dips:
            self.end_dip(mean)
        else:
            self.measure(mean)
            self.roof_left = max(0, self.roof_left - 1)
            served = max(self.least, -(-held // count))
            if sheds and served < self.top:
                self.shed(served)
            elif not early:
                self.move(count, held, max(it[1] for it in answers), mean)
        self.clear()

    def end_dip(self, mean: int) -> None:
        """What answers took in the dip is the base."""
        moved = not self.base or abs(mean - self.base) * self.top > self.base * self.headroom()
        low, self.every = self.limit, 1 if moved else min(64, 4 * self.every)
        self.base, self.base_top, self.calm, self.dips = mean, low, 0, False

    def is_base(self, mean: int) -> bool:
        """Whether the limit is as low as when the base was measured, or answers take less than half of it."""
        return not self.base or self.top <= self.base_top or 2 * mean < self.base

    def measure(self, mean: int) -> None:
        if self.is_base(mean):
            self.base_top = min(self.base_top or self.top, self.top)
            self.base, self.every, self.calm = mean, 1, 0

    def shed(self, served: int) -> None:
        """Half way to what was served, and no raise above it for some windows."""
        same = served <= self.roof <= served + self.headroom()
        self.left_out, self.pace = self.top, 0
        self.top = self.half_way(served)
        self.roof = served
        self.roof_left = self.roof_every = min(64, 4 * self.roof_every) if same else 4

    def half_way(self, wanted: int) -> int:
        """Half way down to a lower limit."""
        return self.top - -(-max(0, self.top - wanted) // 2)

    def move(self, count: int, held: int, most: int, mean: int) -> None:
        """By the queue that the window shows; a dip begins behind enough windows with a queue that didn't raise it."""
        before, room = self.top, self.headroom() * count
        queue = held * max(0, mean - self.base) // mean
        if queue >= room:
            self.fall((held - queue + count // 2) // count + self.headroom(), most)
        elif self.may_rise(most):
            self.rise(room - queue, count)
        if most >= before >= self.top > 1 and self.has_queue(queue, room):
            self.calm += 1
            if self.calm >= self.every:
                self.begin_dip(most)

    def may_rise(self, most: int) -> bool:
        """Whether the window met the limit."""
        return most >= self.top

    def has_queue(self, queue: int, room: int) -> bool:
        """Whether the queue of a window is half a headroom."""
        return 2 * queue >= room

    def fall(self, wanted: int, most: int) -> None:
        """Half way down to what was in flight without the queue, and a headroom."""
        before, self.pace = self.top, 0
        self.top = min(self.top, max(self.least, self.half_way(wanted)))
        self.left_out = most if self.top < before else self.left_out

    def rise(self, missing: int, count: int) -> None:
        """Up by what is missing to the headroom, doubled with each raise in a row, and at most to twice the limit."""
        added = (missing * 2**self.pace + count // 2) // count
        roof = max(self.top, self.roof) if self.roof_left else self.most
        self.top = min(roof, self.most, self.top + min(self.top, added))
        self.pace = min(4, self.pace + 1) if added else 0

    def begin_dip(self, most: int) -> None:
        self.calm, self.dips, self.left_out = 0, True, most

    def reset(self) -> None:
        self.forget()


class Windows:
    """A limit that learns the means of windows."""

    window: list[Sample]

    def __init__(self, inner: Fixed, size: int, shortest: int, longest: int, threshold: int) -> None:
        self.inner, self.size, self.threshold = inner, size, threshold
        self.shortest, self.longest = shortest, longest
        self.window, self.due = [], 0

    @property
    def limit(self) -> int:
        return self.inner.limit

    def learn(self, sample: Sample) -> None:
        if sample.rtt < self.threshold:
            return
        self.window.append(sample)
        end = sample.start + sample.rtt
        if end > self.due or len(self.window) == MOST_SAMPLES:
            window, self.window = self.window, []
            rtts = [it.rtt for it in window]
            self.due = end + within(self.shortest, 2 * min(rtts), self.longest)
            if len(window) >= self.size:
                self.inner.learn(
                    Sample(
                        sample.start,
                        sum(rtts) // len(window),
                        max(it.inflight for it in window),
                        any(it.dropped for it in window),
                    )
                )

    def put(self, number: int) -> str:
        return self.inner.put(number)

    def reset(self) -> None:
        self.inner.reset()
        self.window, self.due = [], 0


KINDS: dict[str, Callable[..., Fixed]] = {
    "fixed": Fixed,
    "settable": Settable,
    "aimd": Aimd,
    "vegas": Vegas,
    "auto": Auto,
}


def limit_of(limit: Sequence[str], window: Sequence[str] | None) -> Fixed | Windows:
    """The limit of the words behind `limit` and `window`."""
    kind, *numbers = limit
    made = KINDS[kind](*map(int, numbers))
    return Windows(made, *map(int, window)) if window else made


class Limiter:
    """What is answered to a script, line by line, behind its settings."""

    def __init__(self, settings: Sequence[str]) -> None:
        rows = [line.split() for line in settings]
        words = {kind: rest for kind, *rest in rows}
        self.thousandths = {rest[0]: SHARES[kind] * int(rest[1]) for kind, *rest in rows if kind in SHARES}
        self.limit = limit_of(words.get("limit", ["fixed", "20"]), words.get("window"))
        # How many places of the backlog are each class's own, and everybody's.
        self.places = {rest[0]: int(rest[1]) for kind, *rest in rows if kind == "places" and int(rest[1])}
        usual = min(100, 10_000 - sum(self.places.values()))
        self.backlog = int(words.get("backlog", [str(usual)])[0])
        self.timeout = int(words.get("timeout", ["1000000000"])[0])
        kept, *rolling = words.get("keep", ["100000"])
        self.kept: float = math.inf if rolling else int(kept)
        self.promotes_all = words.get("promote") == ["all"]
        self.entries = 0
        self.open: dict[int, Permit] = {}
        self.granted: dict[int, Permit] = {}
        # The parts of those who wait.
        self.waiting: dict[int, str] = {}

    def total(self) -> int:
        return len(self.open) + len(self.granted)

    def inflight(self, part: str) -> int:
        return sum(it.part == part for held in (self.open, self.granted) for it in held.values())

    def share(self, part: str) -> int:
        if part not in self.thousandths:
            return 0
        return max(1, -(-self.limit.limit * self.thousandths[part] // 1000))

    def has_room(self, part: str) -> bool:
        return self.total() < self.limit.limit or self.inflight(part) < self.share(part)

    def answer(self, line: str) -> str:
        """The text of a line: nothing, `- not open`, `- exhausted`, or its entries."""
        word, *rest = line.split() or ["#"]
        if word.startswith("#"):
            return ""
        if word == "end" and int(rest[0]) not in self.open:
            return "- not open\n"
        if self.entries >= self.kept and not self.is_owed(word, rest):
            return "- exhausted\n"
        return "".join(map(self.entry, ANSWERS[word](self, *rest)))

    def is_owed(self, word: str, rest: Sequence[str]) -> bool:
        """Whether this is an ending, or a giving up of what waits or is granted."""
        return word == "end" or word == "giveup" and (int(rest[0]) in self.waiting or int(rest[0]) in self.granted)

    def entry(self, text: str) -> str:
        """The next entry, of this text."""
        number, self.entries = self.entries, self.entries + 1
        return f"{number} {text}\n"

    def acquire(self, part: str, now: str, wait: str | None = None) -> list[str]:
        if self.has_room(part):
            permit = self.open[self.entries] = Permit(part, moment(int(now)), self.total() + 1)
            return [f"admitted {part} inflight {permit.inflight}"]
        if wait is None:
            return ["refused full"]
        if not self.has_place(part):
            return ["refused backlog"]
        self.waiting[self.entries] = part
        return ["waiting"]

    def has_place(self, part: str) -> bool:
        """Whether one of the class's own places of the backlog is free, or one of everybody's: those of each class who
        are past its own stand there."""
        waiting = collections.Counter(self.waiting.values())
        past = sum(max(0, count - self.places.get(it, 0)) for it, count in waiting.items())
        return waiting[part] < self.places.get(part, 0) or past < self.backlog

    def bypass(self, _now: str) -> list[str]:
        return ["bypassed"]

    def end(self, number: str, outcome: str, now: str) -> list[str]:
        """The sample is learnt before any waiter is looked at."""
        permit = self.open.pop(int(number))
        if outcome != "ignored":
            self.limit.learn(sample_of(permit, int(now), outcome == "dropped"))
        told = self.promote_all(now) if self.promotes_all else self.promote_newest(now)
        return [f"ended promoted {len(told)}", *told]

    def promote_newest(self, now: str) -> list[str]:
        """The newest waiter is promoted where it has room, and nobody else is looked at."""
        newest = next(reversed(self.waiting), None)
        if newest is None or not self.has_room(self.waiting[newest]):
            return []
        return [self.promote(newest, now)]

    def promote_all(self, now: str) -> list[str]:
        """The newest of the waiters that have room is promoted, again and again until none has room; under `newest`
        none is."""
        told = []
        while self.promotes_all and (waiter := self.newest_with_room()) is not None:
            told.append(self.promote(waiter, now))
        return told

    def newest_with_room(self) -> int | None:
        parts = {part for part in {*self.waiting.values()} if self.has_room(part)}
        return next((waiter for waiter, part in reversed(self.waiting.items()) if part in parts), None)

    def promote(self, waiter: int, now: str) -> str:
        """Has a waiter's permit are granted, and tells of it."""
        got = self.granted[waiter] = Permit(self.waiting.pop(waiter), moment(int(now)), self.total() + 1)
        return f"promoted {waiter} inflight {got.inflight}"

    def claim(self, number: str) -> list[str]:
        return self.handed_out(int(number)) or ["still waiting" if int(number) in self.waiting else "lost"]

    def giveup(self, number: str) -> list[str]:
        return self.handed_out(int(number)) or ["timed out" if self.waiting.pop(int(number), None) else "lost"]

    def handed_out(self, number: int) -> list[str]:
        """Hands a permit out that is granted, and tells of it."""
        if number not in self.granted:
            return []
        permit = self.open[number] = self.granted.pop(number)
        return [f"granted inflight {permit.inflight}"]

    def set(self, number: str, now: str) -> list[str]:
        told = self.limit.put(int(number))
        return [told, *(self.promote_all(now) if told == "limit set" else [])]

    def reset(self, now: str) -> list[str]:
        self.limit.reset()
        return ["reset", *self.promote_all(now)]

    def look(self, part: str) -> list[str]:
        return [
            f"seen limit {self.limit.limit} total {self.total()} waiting {len(self.waiting)} "
            f"granted {len(self.granted)} inflight {self.inflight(part)} share {self.share(part)}"
        ]


ANSWERS: dict[str, Callable[..., list[str]]] = {
    word: getattr(Limiter, word) for word in ("acquire", "bypass", "end", "claim", "giveup", "set", "reset", "look")
}


def parted(lines: Sequence[str]) -> tuple[Sequence[str], Sequence[str]]:
    """The settings of a script or a trace, and the lines behind them, with those that say nothing."""
    said = [line for line in lines if line.split() and not line.split()[0].startswith("#")]
    settings = [line for line in said if line.split()[0] in SETTINGS]
    return settings, said[len(settings) :]


def replayed(lines: Sequence[str]) -> str:
    """What `replay` answers to the lines of a script."""
    settings, events = parted(lines)
    limiter = Limiter(settings)
    return "".join(map(limiter.answer, events))


# What comes first of one moment.
ENDING, GIVING_UP, ARRIVING = range(3)


class Course:
    """The calls of a trace in virtual time. Of each call, by its place, at most one action is pending: its moment, its
    kind, its place, and the line of a script that does it."""

    def __init__(self, lines: Sequence[str]) -> None:
        settings, calls = parted(lines)
        self.limiter = Limiter(settings)
        self.calls = [call.split() for call in calls]
        self.places: dict[int, int] = {}
        self.out: list[str] = []
        self.pending: dict[int, tuple[int, int, int, str]] = {}
        for place, (kind, *words) in enumerate(self.calls):
            at = moment(int(words[0 if kind == "bypass" else 1]))
            wait = "wait" if len(words) == 5 else ""
            line = f"bypass {at}" if kind == "bypass" else f"acquire {words[0]} {at} {wait}"
            self.pending[place] = (at, ARRIVING, place, line)

    def run(self) -> str:
        """All that is written, once nothing is pending."""
        while self.pending:
            at, _, place, line = min(self.pending.values())
            self.do(at, place, line)
        return "".join(self.out)

    def do(self, at: int, place: int, line: str) -> None:
        """Does what is pending at a place."""
        del self.pending[place]
        answer = self.limiter.answer(line)
        self.out.append(answer)
        number, told, *_ = answer.split()
        if told == "admitted":
            self.holds(at, place, int(number))
        elif told == "waiting":
            self.places[int(number)] = place
            late = moment(at + self.limiter.timeout)
            self.pending[place] = (late, GIVING_UP, place, f"giveup {number}")
        elif told == "granted":
            self.holds(at, place, int(line.split()[1]))
        # Each promoted waiter gives up at once, and so is granted its permit.
        for waiter in re.findall(r"^\d+ promoted (\d+) ", answer, re.MULTILINE):
            self.do(at, self.places[int(waiter)], f"giveup {waiter}")

    def holds(self, at: int, place: int, number: int) -> None:
        """The call at this place got the permit of this number."""
        duration, outcome = self.calls[place][3:5]
        end = moment(at + int(duration))
        self.pending[place] = (end, ENDING, place, f"end {number} {outcome} {end}")


def simulated(lines: Sequence[str]) -> str:
    """What `simulate` answers to the lines of a trace."""
    return Course(lines).run()
