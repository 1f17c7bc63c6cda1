#!/usr/bin/env -S python3 -B
"""What does a call of a shared gate cost, beside a plain Rust gate in the same run?

Usage: bench/gate.py [--still] [--rolling] [--history | --all] [--seen]. The product's side is gate/, a program over
`shared_gate`; the peer is plain_gate.rs. They run in turn and must do the same work: pairs of acquire and end, with
each number of threads and of permits that stay out meanwhile, and givings up, with each number of
callers that wait at a time, oldest first and in a drawn order. Printed are the median time of a pair, or
of a giving up, on either side, the median ratio of the turns, and that of the processor time that the
programs took. With --still calls tell the moment 0 and read no clock. With --rolling the product's gate
rolls at 4,096 entries, and runs beside the same gate that keeps all of them; nobody waits then. With
--history the peer keeps a history too, of events and replies, and makes receipts; with both flags the
product's gate rolls and the peer begins its history anew at 4,096 entries. With --all others wait meanwhile
that have no room, under either rule of promotion, and endings are timed that promote a waiter past them.
With --seen the peer has an atomic word beside its lock, which each call raises under the lock and its caller
reads before that and after. Needs rt and rustc.
"""
import sys
from collections.abc import Iterator

from sides import Bench, row
from words import reader_of

THREADS = (1, 2, 4)
HELD = (10, 1_000, 10_000)
WAITING = (10, 1_000, 10_000)
# Who waits and has no room; beside those who are promoted past them there is room for so many.
PASSED = (10, 9_900)
PROMOTIONS = 10_000
TIMES = 400_000
LIMIT = 10_000
ROLLS_AT = 4_096
MOST_ENTRIES = 1_000_000
Words = tuple[int, ...]
Row = tuple[str, int, Words, Words]


def rows(is_still: bool, is_rolling: bool, has_history: bool, is_seen: int) -> Iterator[Row]:
    """What each row is called, how many times it does what is timed, and the words of the program on either side."""
    kept = (ROLLS_AT if is_rolling else MOST_ENTRIES) if has_history else 0
    for threads in THREADS:
        for held in HELD:
            name = f"pairs, threads {threads}, permits out {held:,}"
            words: Words = (threads, held, TIMES, 0 if is_still else 1)
            yield name, TIMES, (*words, 1 if is_rolling else 0, 0, 0), (*words, 0, 0, 0, kept, is_seen)
    for waiting in () if is_rolling else WAITING:
        for is_drawn, order in ((0, "oldest first"), (1, "drawn order")):
            name = f"givings up, {order}, of {waiting:,} who wait"
            words = (0, LIMIT, TIMES, waiting, is_drawn)
            yield name, TIMES, words, (*words, 0, 0, kept, is_seen)


def rows_past_waiters(is_seen: int) -> Iterator[Row]:
    """The same of endings while others wait that have no room."""
    for promotes_all, rule in ((0, "newest"), (1, "all")):
        for waiting in (0, 10, LIMIT):
            words: Words = (1, LIMIT, TIMES, 0, 0, waiting, promotes_all)
            yield f"pairs, under {rule}, {waiting:,} wait without room", TIMES, words, (*words, 0, is_seen)
    for waiting in PASSED:
        words = (3, LIMIT, PROMOTIONS, waiting)
        yield f"promotions past {waiting:,} who wait without room", PROMOTIONS, words, (*words, 0, 0, 0, 0, is_seen)


def main() -> None:
    reader = reader_of(__doc__)
    for flag in ("--still", "--rolling", "--history", "--all", "--seen"):
        reader.add_argument(flag, action="store_true")
    given = reader.parse_args()
    is_rolling, has_history, is_seen = given.rolling, given.history, int(given.seen)
    if given.all and (given.still or is_rolling or has_history):
        reader.error("--all goes with --seen alone")
    if given.seen and is_rolling and not has_history:
        reader.error("--seen is for the plain peer")
    bench = Bench("gate", "shared_gate", ["aimd"])
    with open(bench.tree / "build.log", "w", encoding="utf-8") as log:
        print(f"building, some minutes at most; {log.name} tells how far it is", file=sys.stderr)
        program, plain = bench.product((1, 10, 10, 1, 0, 0, 0), b"", log), bench.peer(log)
    peers = {
        (False, False): (plain, "plain"),
        (True, False): (program, "not rolling"),
        (False, True): (plain, "plain with a history"),
        (True, True): (plain, "plain with a history"),
    }
    other, name = peers[is_rolling, has_history]
    name += " and a word" if is_seen else ""
    print(f"| calls | admission | {name} | ratio | of processor time |")
    print("|---|---|---|---|---|")
    timed = rows_past_waiters(is_seen) if given.all else rows(given.still, is_rolling, has_history, is_seen)
    for calls, times, ours, theirs in timed:
        took, least, ratio, used = row((program, ours), (other, theirs))
        print(f"| {calls} | {took / times:.0f} ns | {least / times:.0f} ns | {ratio:.2f} | {used:.2f} |", flush=True)


main()
