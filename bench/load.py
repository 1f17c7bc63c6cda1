#!/usr/bin/env -S python3 -B
"""How fast is `admission load`, by 1, 2 and 4 workers on the same traces? bench/load.py PROGRAM

Each trace is run with each number of workers in turn, nine times. It prints the calls a second, from the calls in the
history and the median time of the whole run: reading the trace, the calls, the audit and the two lines.
"""
import re
import statistics

from sides import timed
from traces import CALLS, calls, text_of
from words import program_of

TURNS = 9
WORKERS = (1, 2, 4)
TRACES = [
    ("nobody waits", text_of(["limit fixed 20"], calls(["unknown"], 10, 100))),
    ("who finds the one permit out waits", text_of(["limit fixed 1"], calls(["unknown"], 10, 100, " wait"))),
]


def rate(program: str, workers: int, text: bytes) -> float:
    """The calls a second of a run."""
    took, wrote = timed([program, "load", "--workers", str(workers)], text)
    (calls_made,) = re.findall(rb"^audit ok calls (\d+)\n", wrote)
    return int(calls_made) / took


def main() -> None:
    program = program_of(__doc__)
    print(f"| Trace of {CALLS:,} calls | {' | '.join(f'workers {workers}' for workers in WORKERS)} |")
    print("|---" * (1 + len(WORKERS)) + "|")
    for name, text in TRACES:
        turns = [[rate(program, workers, text) for workers in WORKERS] for _ in range(TURNS)]
        rates = [statistics.median(column) for column in zip(*turns)]
        print(f"| {name} | {' | '.join(f'{it:,.0f}/s' for it in rates)} |", flush=True)


main()
