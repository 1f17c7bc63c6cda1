"""Rows of the kinds of limit, for `tests/lines`, `limits`, `keys` and `model`: whatever one kind alone needs."""
import pathlib
import random
import re

from config_texts import limit_of

TOP = pathlib.Path(__file__).resolve().parent.parent

HOUR = 3_600_000_000_000
# The kinds, as --explain lists what may follow `limit` and what `limit.kind` holds.
BEHIND_LIMIT = "fixed, settable, auto, aimd or vegas"
OF_THE_KEY = '"fixed", "settable", "aimd", "vegas" or, in version 2, "auto"; required'


def kinds() -> list[str]:
    """The words of all kinds, as the program's definitions have them: each has rows below."""
    text = (TOP / "crates/limit_kinds/specs/Kinds.antt").read_text(encoding="utf-8")
    return re.findall(r'^kind_word kind\.\w+ = codes "(\w+)"$', text, re.MULTILINE)


def kinds_of(lines: list[str]) -> set[str]:
    """The kinds of which there are such lines."""
    return {line.split()[1] for line in lines if " " in line}


# Lines that give a limit: taken, with wrong words, and with a number outside its range.
# fmt: off
TAKEN_LINES = [
    "limit fixed 1", "limit fixed 10000", "limit settable 1 1 1", "limit settable 1 5 10000",
    "limit aimd 1 20 100 500 1", "limit aimd 1 20 100 999 3600000000000", "limit vegas 1 20 100 1 1 0",
    "limit vegas 1 20 100 3 100 1000000", "limit auto 1 1 1", "limit auto 1 4 10000",
]
WRONG_LINES = [
    "limit fixed", "limit fixed x", "limit fixed 1 2", "limit settable 1 2", "limit settable 1 2 3 4",
    "limit aimd 1 2 3 900", "limit aimd 1 2 3 900 x", "limit vegas 1 2 3 4 5", "limit vegas 1 2 3 4 5 6 7",
    "limit auto", "limit auto 1 2", "limit auto 1 2 3 4", "limit auto 1 x 3",
]
OUTSIDE_LINES = [
    "limit fixed 0", "limit fixed 10001", "limit fixed 4294967297", "limit settable 0 1 1", "limit settable 3 2 4",
    "limit settable 1 3 2", "limit settable 1 2 10001", "limit settable 1 2 4294967298", "limit aimd 1 20 10 900 1",
    "limit aimd 1 5 10 499 1", "limit aimd 1 5 10 1000 1", "limit aimd 1 5 10 900 0",
    "limit aimd 1 5 10 900 3600000000001", "limit aimd 1 5 10 4294968196 1", "limit vegas 1 5 10 0 3 0",
    "limit vegas 1 5 10 4 3 0", "limit vegas 1 5 10 4 101 0", "limit vegas 1 5 10 3 6 1000001", "limit auto 0 1 1",
    "limit auto 3 2 4", "limit auto 1 3 2", "limit auto 1 2 10001", "limit auto 1 2 4294967298",
]
# Behind a request they come too late, whatever their numbers.
LATE_LINES = [
    "limit fixed 0", "limit settable 1 2 3", "limit aimd 1 2 3 4 5", "limit vegas 1 2 3 4 5 6", "limit auto 1 2 3",
]
# fmt: on
# The word that is wrong in such a line, and what is wanted there: each form is cut at each place.
WORDS_OF_LIMITS = [
    ("limit", "2 isn't there", BEHIND_LIMIT),
    ("limit slow 1", '2, "slow"', BEHIND_LIMIT),
    ("limit fixed", "3 isn't there", "N in digits, permits, 1 to 10000"),
    ("limit fixed -1", '3, "-1"', "N in digits, permits, 1 to 10000"),
    ("limit fixed 1 2", '4, "2"', "nothing more"),
    ("limit fixed 0", '3, "0"', "N, permits, 1 to 10000"),
    ("limit fixed 10001", '3, "10001"', "N, permits, 1 to 10000"),
    ("limit settable", "3 isn't there", "LO in digits, permits, 1 to 10000"),
    ("limit settable 1", "4 isn't there", "N in digits, permits, LO to 10000"),
    ("limit settable 1 2 x", '5, "x"', "HI in digits, permits, N to 10000"),
    ("limit settable 1 2 3 4", '6, "4"', "nothing more"),
    ("limit settable 0 1 1", '3, "0"', "LO, permits, 1 to 10000"),
    ("limit settable 3 2 4", '4, "2"', "N, permits, LO to 10000, here 3 to 10000"),
    ("limit settable 1 3 2", '5, "2"', "HI, permits, N to 10000, here 3 to 10000"),
    ("limit aimd 1 2 3", "6 isn't there", "RATIO in digits, what a drop leaves in thousandths, 500 to 999"),
    (
        "limit aimd 1 2 3 900 1s",
        '7, "1s"',
        f"TIMEOUT in digits, a longer round trip is a drop, nanoseconds, 1 to {HOUR}",
    ),
    ("limit aimd 1 2 3 499 1", '6, "499"', "RATIO, what a drop leaves in thousandths, 500 to 999"),
    ("limit aimd 1 2 3 1000 1", '6, "1000"', "RATIO, what a drop leaves in thousandths, 500 to 999"),
    ("limit aimd 1 2 3 900 0", '7, "0"', f"TIMEOUT, a longer round trip is a drop, nanoseconds, 1 to {HOUR}"),
    ("limit auto 1 4", "5 isn't there", "HI in digits, permits, N to 10000"),
    ("limit auto 1 4 5 6", '6, "6"', "nothing more"),
    ("limit auto 0 4 5", '3, "0"', "LO, permits, 1 to 10000"),
    ("limit auto 5 4 6", '4, "4"', "N, permits, LO to 10000, here 5 to 10000"),
    ("limit vegas 1 2 3", "6 isn't there", "ALPHA in digits, the limit rises below this queue, permits, 1 to 100"),
    ("limit vegas 1 2 3 4 x 0", '7, "x"', "BETA in digits, the limit falls above this queue, permits, ALPHA to 100"),
    (
        "limit vegas 1 2 3 4 5",
        "8 isn't there",
        "PROBE in digits, samples until the base is measured anew, 0 to 1000000",
    ),
    ("limit vegas 1 2 3 0 1 0", '6, "0"', "ALPHA, the limit rises below this queue, permits, 1 to 100"),
    (
        "limit vegas 1 2 3 4 3 0",
        '7, "3"',
        "BETA, the limit falls above this queue, permits, ALPHA to 100, here 4 to 100",
    ),
    ("limit vegas 1 2 3 4 5 1000001", '8, "1000001"', "PROBE, samples until the base is measured anew, 0 to 1000000"),
]

# Times at the ends of their ranges, which lines are drawn with.
TIMES = [1, 2, 50, 100, 1_000, HOUR - 1, HOUR]


def drawn_limit(draw: random.Random, low: int, first: int, high: int) -> str:
    """What follows `limit` in a line that is drawn: any kind between these limits, its numbers at the ends of their
    ranges."""
    alpha, beta = sorted(draw.choices([1, 2, 3, 6, 99, 100], k=2))
    return draw.choice(
        [
            f"fixed {first}",
            f"settable {low} {first} {high}",
            f"aimd {low} {first} {high} {draw.choice([500, 501, 900, 999])} {draw.choice(TIMES)}",
            f"vegas {low} {first} {high} {alpha} {beta} {draw.choice([0, 0, 1, 2, 10, 1_000_000])}",
            f"auto {low} {first} {high}",
        ]
    )


# Samples by which a limit learns. A row has a `limit` line, samples, and the limit after each of them.
RESET = "reset 0"
Sample = tuple[int, int, int, str]


def good(start: int, end: int, inflight: int) -> Sample:
    """A sample: when its permit was got and ended, and how many were in flight with it."""
    return start, end, inflight, "success"


def drop(start: int, end: int, inflight: int) -> Sample:
    """The same of a permit that was dropped."""
    return start, end, inflight, "dropped"


AIMD = "limit aimd 1 20 100 900 1000"
OF_AIMD = [
    # A drop and a slow answer lower the limit; half of it in use raises it, and less keeps it.
    (AIMD, [drop(0, 1_000, 10)], [18]),
    (AIMD, [good(0, 1_000, 9)], [20]),
    (AIMD, [good(0, 1_000, 10)], [21]),
    (AIMD, [good(0, 1_001, 10)], [18]),
    (AIMD, [(0, 1_001, 10, "ignored")], [20]),
    # 3 * 900 is 2,700; 7 * 500 is 3,500, 3 * 500 is 1,500 and 1 * 500 is below the least limit.
    ("limit aimd 1 3 100 900 1000", [drop(0, 5, 1)], [2]),
    ("limit aimd 1 7 100 500 1000", [drop(0, 5, 1)] * 3, [3, 1, 1]),
    ("limit aimd 1 10000 10000 999 1", [drop(0, 1, 1)] * 2, [9_990, 9_980]),
    (f"limit aimd 20 20 100 500 {HOUR}", [drop(0, 5, 1)], [20]),
    ("limit aimd 1 10000 10000 999 1", [good(0, 1, 5_000)], [10_000]),
]


def vegas(low: int = 1, first: int = 10, high: int = 100, alpha: int = 3, beta: int = 6, probe: int = 0) -> str:
    """The line of a limit by the queue, with other numbers than the usual ones."""
    return f"limit vegas {low} {first} {high} {alpha} {beta} {probe}"


BASE, SLOW = good(0, 100, 8), good(0, 300, 8)
OF_VEGAS = [
    # Of a limit of 10 and a base of 100 ns 2 wait at 125 ns, 3 at 126, 4 at 150 and 7 at 300.
    (vegas(), [BASE, good(0, 125, 8)], [10, 11]),
    (vegas(), [BASE, good(0, 126, 8)], [10, 10]),
    (vegas(), [BASE, good(0, 150, 8)], [10, 10]),
    (vegas(alpha=4), [BASE, good(0, 150, 8)], [10, 10]),
    (vegas(alpha=5), [BASE, good(0, 150, 8)], [10, 11]),
    (vegas(alpha=3, beta=3), [BASE, good(0, 150, 8)], [10, 9]),
    (vegas(alpha=4, beta=4), [BASE, good(0, 150, 8)], [10, 10]),
    (vegas(), [BASE, SLOW], [10, 9]),
    (vegas(low=10), [BASE, SLOW], [10, 10]),
    (vegas(high=10), [BASE, good(0, 125, 8)], [10, 10]),
    # Each second sample is a probe, which becomes the base however slow it was.
    (vegas(probe=2), [BASE, SLOW, SLOW], [10, 10, 11]),
    (vegas(probe=1), [BASE, SLOW, SLOW], [10, 10, 10]),
    # Less than half in use keeps the limit, and a drop lowers it all the same; a lesser round trip becomes the base.
    (vegas(), [good(0, 100, 4), good(0, 100, 4), drop(0, 100, 4), good(0, 90, 8)], [10, 10, 9, 9]),
    (vegas(), [good(0, 100, 5), good(0, 100, 5)], [10, 11]),
    (vegas(), [drop(0, 100, 8), drop(0, 90, 8), drop(0, 90, 8)], [10, 10, 9]),
    # A reset forgets the base, and how many samples came since a probe.
    (vegas(), [BASE, BASE, RESET, SLOW, SLOW], [10, 11, 10, 10, 11]),
    (vegas(probe=3), [BASE, BASE, RESET, BASE, SLOW, SLOW, SLOW], [10, 11, 10, 10, 9, 9, 10]),
]

AUTO = "limit auto 1 4 50"
# Four that met the limit of 4, without a queue: the base is 100 ns, and 2 missing to the headroom, times 16, are 32, of
# which a raise takes no more than the limit.
MET = [good(0, 100, 4)] * 4
TO_EIGHT = [4, 4, 4, 8]
# Of 8 a half waits at 200 ns, above the headroom of 2: half way to 4 and 2 is 7. As 8 met the limit and it didn't rise,
# it dips a headroom and a half below 7, and to half of it where the base may still move. As many as were in flight are
# left out, and then three answers are the base.
QUEUED = [good(0, 200, 8)] * 8
DIPPED = [3] * 8 + [3, 3, 7]
# Three answers that found 4 in flight, and quick drops, which took less than half of the base.
SERVED = [good(0, 100, 4)] * 3
OF_AUTO = [
    (AUTO, MET, TO_EIGHT),
    (AUTO, [good(0, 100, 3)] * 4, [4] * 4),
    (AUTO, [drop(0, 100, 4)] * 8, [4] * 8),
    (AUTO, MET[:3] + [(0, 100, 4, "ignored")] + MET[3:], [4, 4, 4, 4, 8]),
    ("limit auto 3 5 8", [good(0, 100, 5)] * 5, [5, 5, 5, 5, 8]),
    ("limit auto 4 4 4", MET, [4] * 4),
    (AUTO, MET + QUEUED, TO_EIGHT + [8] * 7 + [3]),
    (AUTO, MET + QUEUED + [good(0, 200, 3)] * 8 + [good(0, 100, 3)] * 3, TO_EIGHT + [8] * 7 + [3] + DIPPED),
    # At 120 ns 10 of the 64 that eight answers found in flight wait, and the headroom has room for 16: 6 are missing.
    (AUTO, MET + [good(0, 120, 8)] * 8, TO_EIGHT + [8] * 7 + [16]),
    # Fifteen thirds are 14 or more, so the fifth drop ends the window: half way from 8 to the 4 that were served.
    (AUTO, MET + SERVED + [drop(0, 49, 8)] * 5, TO_EIGHT + [8] * 7 + [6]),
    (AUTO, MET + SERVED + [drop(0, 50, 8)] * 5, TO_EIGHT + [8] * 8),
    (AUTO, MET + SERVED + [drop(0, 49, 4)] * 5, TO_EIGHT + [8] * 8),
    # A reset forgets the base and the window.
    (AUTO, MET + [RESET] + MET, [*TO_EIGHT, 4, *TO_EIGHT]),
    (AUTO, MET[:3] + [RESET] + MET, [4, 4, 4, 4, *TO_EIGHT]),
]
OF_SAMPLES = OF_AIMD + OF_VEGAS + OF_AUTO
# Each kind with the limit after a first sample, a drop, a setting and a reset, without windows and over those of one.
KINDS = [
    ("fixed 20", [20, 20, 20, 20]),
    ("settable 1 20 100", [20, 20, 30, 20]),
    ("aimd 1 20 100 900 1000", [20, 18, 18, 20]),
    ("vegas 1 20 100 3 6 0", [20, 19, 19, 20]),
    ("auto 1 20 100", [20, 20, 20, 20]),
]

# Tables `[limit]` of configurations: behind the addresses of any version, and behind those of version 2 and of version
# 1. A row of ranges has the lines before a number and behind it, its key, and the ends of its range.
PLAIN, SETTABLE, AIMD_TABLE, VEGAS_TABLE, AUTO_TABLE = map(limit_of, ("fixed", "settable", "aimd", "vegas", "auto"))
OF_TABLES = [
    (PLAIN + "initial = 0\n", "value limit.initial"),
    (PLAIN + "ratio = 900\n", "unknown limit.ratio"),
    (PLAIN + 'promote = "all"\n', "unknown limit.promote"),
    (SETTABLE + "min = 0\n", "value limit.min"),
    (SETTABLE + 'min = ""\n', "kind limit.min"),
    (SETTABLE + "min = 9\nmax = 8\n", "value limit.max"),
    (SETTABLE + "max = 10001\n", "value limit.max"),
    (SETTABLE + "min = 9\ninitial = 8\n", "value limit.initial"),
    (SETTABLE + "min = 300\n", "ok"),
    (AIMD_TABLE + "ratio = 499\n", "value limit.ratio"),
    (AIMD_TABLE + "ratio = 1000\n", "value limit.ratio"),
    (AIMD_TABLE + "timeout_us = 0\n", "value limit.timeout_us"),
    (AIMD_TABLE + "alpha = 1\n", "unknown limit.alpha"),
    (VEGAS_TABLE + "alpha = 0\n", "value limit.alpha"),
    (VEGAS_TABLE + "alpha = 7\nbeta = 6\n", "value limit.beta"),
    (VEGAS_TABLE + "alpha = 7\n", "ok"),
    (VEGAS_TABLE + "probe_every = 1000001\n", "value limit.probe_every"),
]
# A limit without numbers, behind the addresses of version 2.
OF_NO_NUMBERS = [
    (AUTO_TABLE, "ok"),
    (AUTO_TABLE + "min = 1\nmax = 1\ninitial = 1\n", "ok"),
    (AUTO_TABLE + "min = 0\n", "value limit.min"),
    (AUTO_TABLE + "min = 9\nmax = 8\n", "value limit.max"),
    (AUTO_TABLE + "max = 10001\n", "value limit.max"),
    (AUTO_TABLE + "min = 9\ninitial = 8\n", "value limit.initial"),
    (AUTO_TABLE + "max = 9\ninitial = 10\n", "value limit.initial"),
    (AUTO_TABLE + "min = 5\n", "ok"),
    (AUTO_TABLE + "max = 3\n", "ok"),
    (AUTO_TABLE + 'max = "9"\n', "kind limit.max"),
    (AUTO_TABLE + "alpha = 1\n", "unknown limit.alpha"),
    (AUTO_TABLE + "ratio = 900\n", "unknown limit.ratio"),
    (AUTO_TABLE + "[window]\n", "unknown window"),
    (AUTO_TABLE + "[window]\nsize = 0\n", "value window.size"),
    (AUTO_TABLE + "[window]\nzebra = 0\n", "unknown window"),
    ("apple = 1\n" + AUTO_TABLE + "[window]\n", "unknown apple"),
    (AUTO_TABLE + '[[class]]\nname = "live"\nshare = 600\n', "ok"),
    (PLAIN + "[window]\n", "ok"),
    (VEGAS_TABLE + "[window]\n", "ok"),
]
# In version 1 its word names no kind.
OF_AUTO_BEFORE = [(AUTO_TABLE, "value limit.kind"), (AUTO_TABLE + "max = 0\n[window]\nsize = 0\n", "value limit.kind")]
RANGES = [
    (PLAIN, "", "limit.initial", 1, 10_000),
    (SETTABLE, "max = 10000\n", "limit.min", 1, 10_000),
    (SETTABLE + "min = 7\n", "", "limit.max", 7, 10_000),
    (SETTABLE + "min = 7\nmax = 9\n", "", "limit.initial", 7, 9),
    (AIMD_TABLE, "", "limit.ratio", 500, 999),
    (AIMD_TABLE, "", "limit.timeout_us", 1, 3_600_000_000),
    (VEGAS_TABLE, "", "limit.alpha", 1, 100),
    (VEGAS_TABLE, "", "limit.beta", 3, 100),
    (VEGAS_TABLE + "alpha = 50\n", "", "limit.beta", 50, 100),
    (VEGAS_TABLE, "", "limit.probe_every", 0, 1_000_000),
]
RANGES_OF_AUTO = [
    (AUTO_TABLE, "", "limit.min", 1, 10_000),
    (AUTO_TABLE + "min = 7\n", "", "limit.max", 7, 10_000),
    (AUTO_TABLE + "min = 7\n", "", "limit.initial", 7, 10_000),
    (AUTO_TABLE + "min = 7\nmax = 9\n", "", "limit.initial", 7, 9),
]
