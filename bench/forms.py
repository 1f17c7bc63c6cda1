"""Forms of the rule for drops beside that of the packaged limit, for bench/shedders.py and bench/held_out.py. None of
them is in the program.

What the packaged limit does is in tests/reference.py: where drops found more in flight than answers did, the limit goes
half way to what answers found.
"""
import math

from virtual import reference

# What a quick drop adds to the score, from which each answer takes one, and the score that asks for a trial.
ADDED, ASKING = 4, 48
# A roof that holds nothing back: for so many windows drops teach nothing.
NO_ROOF, DEAF = 10_000, 64


class ServedDown(reference.Auto):
    """What answers found in flight is rounded down."""

    def shed(self, served: int) -> None:
        is_more = sum(it[1] for it in self.answers) % len(self.answers) > 0
        super().shed(max(self.least, served - is_more))


class AllTheWay(reference.Auto):
    """Down to what answers found in flight at once, and at most to half."""

    def shed(self, served: int) -> None:
        before = self.top
        super().shed(served)
        self.top = max(before - before // 2, served)


class WhereMet(reference.Auto):
    """Drops aren't compared with answers where they met the limit, and then it falls by one at least."""

    def found_more(self) -> bool:
        return max(self.drops) >= self.top or super().found_more()

    def shed(self, served: int) -> None:
        super().shed(max(self.least, min(served, self.top - 1)))

    def look(self, early: bool) -> None:
        met = bool(self.drops) and max(self.drops) >= self.top
        if met and not self.dips and self.sheds() and self.top > self.least:
            held = sum(it[1] for it in self.answers)
            if -(-held // len(self.answers)) >= self.top:
                self.shed(self.top - 1)
                self.clear()
                return
        super().look(early)


class Trials(reference.Auto):
    """Where drops are many and found no more in flight than answers, the limit falls, and dips to try whether they end.

    A quick drop adds 4 to a score, and an answer takes one away. At 48 the limit goes to what answers found in flight,
    or falls by one where that is no less; no raise goes above it for 4, 16 or 64 windows; and a dip begins. Where the
    dip has drops too, more than one and a sixth of its answers, they have nothing to do with the limit: for 64 windows
    drops teach nothing, and no roof holds.
    """

    score = 0

    def forget(self) -> None:
        super().forget()
        self.score = 0

    def low(self) -> int:
        """In a dip below a roof it is the roof that the limit goes below."""
        top = max(1, min(self.top, self.roof)) if self.roof_left else self.top
        headroom = math.isqrt(top)
        below = max(1, top - headroom - -(-headroom // 2))
        return min(below, max(1, top // 2)) if self.every == 1 else below

    def is_deaf(self) -> bool:
        return self.roof_left > 0 and self.roof > self.top

    def learn(self, sample: reference.Sample) -> None:
        if not sample.dropped:
            self.score -= bool(self.score and not self.dips and not self.left_out)
            super().learn(sample)
        elif not self.left_out and self.is_quick(sample.rtt) and not self.is_deaf():
            self.drops.append(sample.inflight)
            if not self.dips:
                self.hear(sample.inflight)

    def hear(self, inflight: int) -> None:
        """A quick drop outside a dip."""
        self.score = min(ASKING, self.score + ADDED)
        if self.ends_early():
            self.look(early=True)
        elif self.answers and self.score == ASKING and self.top > self.least and not self.found_more():
            self.try_lower(inflight)

    def try_lower(self, inflight: int) -> None:
        served = -(-sum(it[1] for it in self.answers) // len(self.answers))
        to = max(self.least, served if served < self.top else self.top - 1)
        same = to <= self.roof <= to + self.headroom()
        self.roof, self.top = to, max(self.top - self.top // 2, to)
        self.roof_left = self.roof_every = min(64, 4 * self.roof_every) if same else 4
        self.pace = self.calm = self.score = 0
        self.every, self.dips, self.left_out = 1, True, inflight
        self.clear()

    def end_dip(self, mean: int) -> None:
        super().end_dip(mean)
        if 6 * len(self.drops) > len(self.answers) + 6:
            self.roof, self.roof_left, self.roof_every, self.score = NO_ROOF, DEAF, 4, 0


class MilderTrials(reference.Auto):
    """Trials whose dips are as deep as any, and behind which as many answers are left out as were in flight there.

    What a dip leaves free is asked for at once when it ends, which is more than a backend takes of which little may
    come at once: its drops then find more in flight than the answers of the dip did. One drop in the dip says that
    drops have nothing to do with the limit, and for 64 windows they teach nothing.
    """

    score = deaf = 0

    def forget(self) -> None:
        super().forget()
        self.score = self.deaf = 0

    def is_trial(self) -> bool:
        return self.dips and self.score == ASKING

    def learn(self, sample: reference.Sample) -> None:
        if not sample.dropped:
            self.score -= bool(self.score and not self.dips and not self.left_out)
            super().learn(sample)
        elif not self.left_out and not self.deaf and self.is_quick(sample.rtt):
            if not self.dips or self.is_trial():
                self.drops.append(sample.inflight)
            if not self.dips:
                self.hear()

    def hear(self) -> None:
        """A quick drop outside a dip."""
        self.score = min(ASKING, self.score + ADDED)
        if self.ends_early():
            self.look(early=True)
        elif self.answers and self.score == ASKING and self.top > self.least and not self.found_more():
            self.try_lower()

    def try_lower(self) -> None:
        served = -(-sum(it[1] for it in self.answers) // len(self.answers))
        to = max(self.least, min(served, self.top - 1))
        same = to <= self.roof <= to + self.headroom()
        self.left_out, self.roof, self.top = self.top, to, max(self.top - self.top // 2, to)
        self.roof_left = self.roof_every = min(64, 4 * self.roof_every) if same else 4
        self.pace = self.calm = 0
        self.dips = True
        self.clear()

    def look(self, early: bool) -> None:
        self.deaf = max(0, self.deaf - (not self.dips))
        super().look(early)

    def end_dip(self, mean: int) -> None:
        low, is_trial = self.limit, self.is_trial()
        super().end_dip(mean)
        if is_trial and self.drops:
            self.score, self.deaf, self.roof, self.roof_left, self.roof_every = 0, DEAF, 0, 0, 4
        elif is_trial:
            self.score, self.left_out = 0, low
