#!/usr/bin/env -S python3 -B
"""What does overload cost, with and without the gateway? bench/overload.py PROGRAM [SECONDS]

The origin answers 4 requests at a time in 20 ms, so 200 a second. Callers arrive four times as often, at a fixed rate,
for SECONDS (10), and wait for up to a second. The gateway has a fixed limit of 4 and a backlog of 4, in which callers
wait for up to 50 ms. It prints the share of calls answered with 200, the time of such an answer, and the time of a
refusal.
"""
import asyncio
from collections.abc import Sequence

from traffic import Call, Gateway, Origin, allow_many_sockets, offer, percentile
from words import above_zero, built, reader_of

SLOTS, PAUSE = 4, 0.020
TIMES = 4
TABLES = 'backlog = 4\ntimeout_ms = 50\n[limit]\nkind = "fixed"\ninitial = 4\n'


def row(name: str, calls: Sequence[Call]) -> None:
    """Prints what calls came to."""
    good = [it.seconds * 1000 for it in calls if it.status == 200]
    refused = [it.seconds * 1000 for it in calls if it.status == 429]
    within = sum(it <= 100 for it in good)
    times = " | ".join(
        f"{percentile(part, 0.5):.1f} / {percentile(part, 0.99):.1f} ms" if part else "none" for part in (good, refused)
    )
    none = sum(it.status == 0 for it in calls)
    print(
        f"| {name} | {len(calls)} | {len(good) / len(calls):.0%} | {within / len(calls):.0%} | {times} | "
        f"{none / len(calls):.0%} |",
        flush=True,
    )


def main() -> None:
    reader = reader_of(__doc__)
    reader.add_argument("program", type=built, metavar="PROGRAM")
    reader.add_argument("seconds", type=above_zero(float), nargs="?", default=10.0, metavar="SECONDS")
    given = reader.parse_args()
    seconds = given.seconds
    allow_many_sockets()
    rate = TIMES * SLOTS / PAUSE
    print(
        "| | calls | answered 200 | within 100 ms | time of a 200, p50 / p99 | time of a 429, p50 / p99 | unanswered |"
    )
    print("|---|---|---|---|---|---|---|")
    with Origin(SLOTS, PAUSE) as origin:
        row("without", asyncio.run(offer(origin.port, rate, seconds)))
    with Origin(SLOTS, PAUSE) as origin, Gateway(given.program, origin, TABLES) as gateway:
        row("with the gateway", asyncio.run(offer(gateway.port, rate, seconds)))


main()
