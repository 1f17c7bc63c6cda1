#!/usr/bin/env -S python3 -B
"""How often does an exchange allocate? bench/allocations.py PROGRAM

One worker of `admission serve` (PROGRAM, built) runs under gdb, which counts its calls of malloc, realloc and free. A
request and its answer have 5 header lines each, then 40, and the answer 13 bytes. It prints the allocations of one
exchange after the start: the difference of two runs, divided by the difference of their exchanges. Needs gdb.
"""
import pathlib
import re
import shutil
import sys
import tempfile

from one_worker import said_of
from words import program_of

CALLS = ("malloc", "realloc", "free")
FEW, MANY = 10, 60


def lines(count: int) -> bytes:
    """So many header lines."""
    return b"".join(b"X-Field-%d: a value of some length, number %d\r\n" % (at, at) for at in range(count))


def gdb(program: str, run: str) -> list[str]:
    """The words of a gdb that counts the calls of a program with these words."""
    words = ["gdb", "-q", "-batch", "-ex", "set breakpoint pending on", "-ex", "set startup-with-shell off"]
    for number, name in enumerate(CALLS, 1):
        words += ["-ex", f"break {name}", "-ex", f"ignore {number} 1000000000"]
    return [*words, "-ex", f"run {run}", "-ex", "info breakpoints", program]


def calls_of(program: str, room: pathlib.Path, count: int, exchanges: int) -> list[int]:
    """The calls of one run with so many exchanges of so many lines."""
    request = b"GET /articles/today?page=2 HTTP/1.1\r\nHost: h\r\n%s\r\n" % lines(count - 1)
    text = b"HTTP/1.1 200 OK\r\n%sContent-Length: 13\r\n\r\nhello, world\n" % lines(count - 1)
    told = said_of(lambda run: gdb(program, run), room, request, text, exchanges)
    found = [int(hits) for hits in re.findall(r"already hit (\d+) time", told)]
    return found if len(found) == len(CALLS) else sys.exit(f"allocations.py: gdb says\n{told}")


def main() -> None:
    program = program_of(__doc__)
    if not shutil.which("gdb"):
        sys.exit("allocations.py: gdb isn't installed")
    print(f"| Header lines each way | {' | '.join(CALLS)} |\n|---|---|---|---|")
    with tempfile.TemporaryDirectory(prefix="admission-bench-") as folder:
        for count in (5, 40):
            few, many = (calls_of(program, pathlib.Path(folder), count, times) for times in (FEW, MANY))
            each = [(more - less) / (MANY - FEW) for less, more in zip(few, many)]
            print(f"| {count} | {' | '.join(f'{calls:.1f}' for calls in each)} |", flush=True)


main()
