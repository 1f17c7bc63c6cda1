#!/usr/bin/env -S python3 -B
"""How fast is `admission simulate`, beside a plain Rust program on the same traces? bench/simulate.py PROGRAM

Each trace of `traces.py` is run by both programs, which must write the same text, and then by both in turn, nine times.
It prints the median times, and the median of the ratios. Needs rustc for the plain program, `plain_simulate.rs`.
"""
import pathlib
import statistics
import subprocess
import tempfile

from sides import timed
from traces import CALLS, TRACES
from words import program_of

HERE = pathlib.Path(__file__).resolve().parent
TURNS = 9


def main() -> None:
    ours = [program_of(__doc__), "simulate"]
    with tempfile.TemporaryDirectory() as folder:
        theirs = [f"{folder}/plain"]
        subprocess.run(["rustc", "-O", "--edition", "2021", "-o", *theirs, HERE / "plain_simulate.rs"], check=True)
        print(f"| Trace of {CALLS:,} calls | entries | admission | plain | ratio |")
        print("|---|---|---|---|---|")
        for name, text in TRACES:
            told = timed(ours, text)[1]
            assert told == timed(theirs, text)[1], f"{name}: the texts differ"
            turns = [(timed(ours, text)[0], timed(theirs, text)[0]) for _ in range(TURNS)]
            took, needed = (statistics.median(column) for column in zip(*turns))
            ratio = statistics.median(own / peer for own, peer in turns)
            entries = told.count(b"\n")
            print(f"| {name} | {entries:,} | {took:.3f} s | {needed:.3f} s | {ratio:.2f} |", flush=True)


main()
