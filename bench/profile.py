#!/usr/bin/env -S python3 -B
"""What does an exchange cost in instructions? bench/profile.py PROGRAM [--top N] [--keep FOLDER]

One worker of `admission serve` (PROGRAM, built) runs under valgrind's callgrind, which counts instructions. A small
client asks as `wrk` does, with a connection for each request, and an origin answers as nginx does: 5 header lines and
13 bytes. It prints the instructions of one exchange by function, those of the function itself and those with all that
it calls: the difference of two runs, divided by the difference of their exchanges, so that the start doesn't count.
What the kernel does isn't counted. With --keep the files of callgrind stay in FOLDER. Needs valgrind.
"""
import collections
import pathlib
import re
import shutil
import sys
import tempfile

from one_worker import said_of
from words import built, reader_of

FEW, MANY = 200, 2_200
REQUEST = b"GET / HTTP/1.1\r\nHost: 127.0.0.1:40000\r\nConnection: close\r\n\r\n"
ANSWER = (
    b"HTTP/1.1 200 OK\r\nServer: nginx/1.22.1\r\nDate: Thu, 01 Jan 2026 00:00:00 GMT\r\n"
    b"Content-Type: text/plain\r\nContent-Length: 13\r\nConnection: close\r\n\r\nhello, world\n"
)
COSTS = ("alone", "with calls")


def instructions_in(file: pathlib.Path) -> tuple[collections.Counter, collections.Counter]:
    """The instructions by function that callgrind wrote to a file: of functions alone, and with all that they call."""
    names: dict[str, str] = {}
    alone: collections.Counter = collections.Counter()
    whole: collections.Counter = collections.Counter()
    caller = callee = None

    def named(text: str) -> str:
        """A function's name, which the file has once, and then its number alone."""
        number, _, name = text.partition(" ")
        return names.setdefault(number, name)

    for line in file.read_text().splitlines():
        key, _, rest = line.partition("=")
        if key == "fn":
            caller = named(rest)
        elif key == "cfn":
            callee = named(rest)
        elif re.match(r"[\d+*-]", line):
            count = int(line.split()[1])
            alone[caller] += count if callee is None else 0
            whole[caller] += count if callee != caller else 0
            callee = None
    return alone, whole


def run(program: str, room: pathlib.Path, exchanges: int) -> tuple[collections.Counter, collections.Counter]:
    """The instructions of one run with so many exchanges: of the functions alone, and with their calls."""
    out = room / f"callgrind.{exchanges}"
    valgrind = ["valgrind", "-q", "--tool=callgrind", f"--callgrind-out-file={out}", program]
    said = said_of(lambda run: [*valgrind, *run.split()], room, REQUEST, ANSWER, exchanges)
    return instructions_in(out) if out.exists() else sys.exit(f"profile.py: valgrind says\n{said}")


def main() -> None:
    reader = reader_of(__doc__)
    reader.add_argument("program", type=built, metavar="PROGRAM")
    reader.add_argument("--top", type=int, default=40)
    reader.add_argument("--keep", type=pathlib.Path)
    given = reader.parse_args()
    if not shutil.which("valgrind"):
        sys.exit("profile.py: valgrind isn't installed")
    with tempfile.TemporaryDirectory(prefix="admission-bench-") as folder:
        room = given.keep or pathlib.Path(folder)
        room.mkdir(parents=True, exist_ok=True)
        few, many = (run(given.program, room, times) for times in (FEW, MANY))
    for cost, less, more in zip(COSTS, few, many):
        each = {name: (more[name] - less[name]) / (MANY - FEW) for name in more}
        print(f"\nInstructions of one exchange by function, {cost}")
        if cost == COSTS[0]:
            print(f"{sum(each.values()):>10,.1f}  all functions together")
        for name, number in sorted(each.items(), key=lambda row: -row[1])[: given.top]:
            print(f"{number:>10,.1f}  {name}", flush=True)


main()
