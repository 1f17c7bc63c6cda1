#!/usr/bin/env -S python3 -B
"""What does closing a shared gate cost, by how many receipts its caller kept? bench/close.py

The program is close/, over `shared_gate`: one caller makes pairs of acquire and end, keeps their receipts in one list,
and closes the gate, which audits them. It prints the time of closing alone, in nanoseconds a receipt: the median, the
least and the greatest of nine runs. Needs rt.
"""
import pathlib
import statistics
import sys

from sides import TURNS, Bench, run
from words import reader_of

RECEIPTS = (10_000, 100_000, 1_000_000)


def closing(program: pathlib.Path, receipts: int) -> int:
    """The nanoseconds that one closing took, which accepted a history of all calls."""
    took, _, did = run(program, (receipts,))
    assert did == f"entries {receipts}\n", did
    return took


def main() -> None:
    reader_of(__doc__).parse_args()
    bench = Bench("close", "shared_gate")
    with open(bench.tree / "build.log", "w", encoding="utf-8") as log:
        print(f"building, some minutes at most; {log.name} shows the progress", file=sys.stderr)
        program = bench.product((10,), b"", log)
    print("| receipts | ns a receipt | least | greatest |")
    print("|---|---|---|---|")
    for receipts in RECEIPTS:
        each = [closing(program, receipts) / receipts for _ in range(TURNS)]
        print(f"| {receipts:,} | {statistics.median(each):.0f} | {min(each):.0f} | {max(each):.0f} |", flush=True)


main()
