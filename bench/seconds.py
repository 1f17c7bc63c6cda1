#!/usr/bin/env python3
"""What do proofs cost the gate, in processor seconds of each crate? bench/seconds.py [--log FILE] [--] COMMAND..

Runs a command of the toolchain, `rt ci` or `rt must-fail clocks`, and looks at all processes below it each half second.
What a process has taken of the processors, as /proc told it last, counts for the crate that it names behind
--crate-name, as

- proof: a check or a build in the crate's folder, and what ran for it,
- tests: the same with --test,
- wrong bodies: a check of the crate in another folder, which is a copy with an edit,
- running: a program out of crates/NAME/out.

Printed are rows as docs/gate_times.txt has them, where a crate's tests count as its proof, and then the whole: the
minutes of each kind, processor minutes and minutes by the clock, on how many processors, and what the machine's host
took of these meanwhile (`stolen`, of all processors together). What a process does between the last look at it and its
end is missed; the whole is what the system counted, so how much that was is told too, with what the command itself
took.
--log writes a line for each process of a crate as it ended. The status is that of the command.
"""
import argparse
import collections
import ctypes
import os
import pathlib
import resource
import subprocess
import sys
import time
import typing
from collections.abc import Iterator

TOP = pathlib.Path(__file__).resolve().parent.parent
PAUSE = 0.5
TICKS = os.sysconf("SC_CLK_TCK")
KINDS = ("proof", "tests", "wrong bodies", "running")
# prctl's number for: processes whose parent ended come to this one, and not to the first of the system
SUBREAPER = 36


# A number of a process and the moment at which it began; and the crate and the kind that one is for.
Key = tuple[int, bytes]
Purpose = tuple[str, str]


class Process:
    """A process: its parent, what it is for, and the seconds that it has taken."""

    def __init__(self, parent: Key) -> None:
        self.parent, self.seconds, self.began = parent, 0.0, time.monotonic()
        self.purpose: Purpose | None = None


def read(path: str) -> bytes:
    """A file of /proc, or nothing where its process has ended."""
    try:
        return pathlib.Path(path).read_bytes()
    except OSError:
        return b""


def link(path: str) -> str:
    """What a link of /proc leads to, or nothing where its process has ended."""
    try:
        return os.readlink(path)
    except OSError:
        return ""


def crate_in(path: str) -> str | None:
    """The crate in whose folder a path lies, or nothing."""
    parts = pathlib.PurePath(path).parts
    places = [at for at, part in enumerate(parts[:-1]) if part == "crates"]
    return parts[places[-1] + 1] if places else None


def purpose(number: int) -> Purpose | None:
    """The crate and the kind that a process is for, by its own words, or nothing where its parent tells it."""
    words = read(f"/proc/{number}/cmdline").decode(errors="replace").split("\0")
    if "--crate-name" in words[:-1]:
        name = words[words.index("--crate-name") + 1]
        if crate_in(link(f"/proc/{number}/cwd")) != name:
            return name, "wrong bodies"
        return name, "tests" if "--test" in words else "proof"
    program = link(f"/proc/{number}/exe").removesuffix(" (deleted)")
    crate = crate_in(program)
    return (crate, "running") if crate and pathlib.PurePath(program).parent.name == "out" else None


# The seconds of each crate and kind.
Sums = collections.defaultdict[Purpose, float]


class Watch:
    """The processes below this one."""

    def __init__(self, log: typing.IO[str] | None) -> None:
        self.running: dict[Key, Process] = {}
        self.log, self.sums = log, Sums(float)

    def look(self) -> None:
        """Looks at all processes once. One that isn't there any more counts with what it had at the look before."""
        found: dict[int, tuple[int, float, bytes]] = {}
        for entry in os.scandir("/proc"):
            if entry.name.isdigit():
                fields = read(f"/proc/{entry.name}/stat").rpartition(b")")[2].split()
                if fields:
                    # the parent, the seconds in user and in system mode, and the moment at which it began
                    found[int(entry.name)] = int(fields[1]), (int(fields[11]) + int(fields[12])) / TICKS, fields[19]
        self.end_others({(number, began) for number, (_, _, began) in found.items()})
        below = {os.getpid()}
        # a parent may have a greater number than its child, so once more until none is added
        while True:
            added = [number for number, (parent, _, _) in found.items() if parent in below and number not in below]
            if not added:
                break
            below.update(added)
        for number in below - {os.getpid()}:
            parent, seconds, began = found[number]
            process = self.running.setdefault((number, began), Process((parent, found[parent][2])))
            # one that has ended and isn't waited for yet has no words any more; before an exec it has its parent's
            process.purpose = purpose(number) or process.purpose
            process.seconds = seconds

    def purpose_of(self, process: Process | None) -> Purpose | None:
        """What a process is for: by its own words, or else by those of the nearest above it."""
        while process and not process.purpose:
            process = self.running.get(process.parent)
        return process.purpose if process else None

    def end_others(self, left: set[Key]) -> None:
        """Adds up those that have ended. Their parents may have ended with them, so all are looked at first."""
        ended = {key: self.purpose_of(self.running[key]) for key in self.running.keys() - left}
        for key, what in ended.items():
            process = self.running.pop(key)
            if what:
                self.sums[what] += process.seconds
                if self.log:
                    told = f"{process.seconds:.1f} of {time.monotonic() - process.began:.1f}"
                    print(f"{what[0]}: {what[1]}, {told} seconds", file=self.log, flush=True)


def stolen() -> float:
    """The seconds that the host took of the processors since the machine began."""
    return int(read("/proc/stat").split()[8]) / TICKS


def edits_of(crate: str) -> int:
    """How many wrong bodies a crate has."""
    return len([*TOP.glob(f"crates/{crate}/must-fail/*.edit")])


def rows(sums: Sums) -> Iterator[str]:
    """The rows of docs/gate_times.txt, in the order of crates.txt."""
    text = (TOP / "crates.txt").read_text(encoding="utf-8")
    order = [line.partition(":")[0] for line in text.splitlines() if ":" in line]
    seen = {name for name, _ in sums}
    for name in [name for name in order if name in seen] + sorted(seen - {*order}):
        proof, bodies = round(sums[name, "proof"] + sums[name, "tests"]), round(sums[name, "wrong bodies"])
        yield f"{name:<16} {proof:>4} {edits_of(name):>3} {bodies:>4}"


def minutes(sums: Sums) -> str:
    """The minutes of each kind, in words."""
    spent = {kind: sum(seconds for (_, it), seconds in sums.items() if it == kind) for kind in KINDS}
    return ", ".join(f"{kind} {seconds / 60:.1f}" for kind, seconds in spent.items())


def run(command: list[str], log: typing.IO[str] | None) -> tuple[int, Sums, float]:
    """Runs a command under watch. Returns its status, the sums by crate and kind, and the seconds by the clock."""
    ctypes.CDLL(None).prctl(SUBREAPER, 1, 0, 0, 0)
    began, watch = time.monotonic(), Watch(log)
    started = subprocess.Popen(command)
    while started.poll() is None:
        watch.look()
        time.sleep(PAUSE)
    watch.end_others(set())
    return started.returncode, watch.sums, time.monotonic() - began


def main() -> None:
    parser = argparse.ArgumentParser(usage=__doc__)
    parser.add_argument("--log", type=argparse.FileType("w"))
    parser.add_argument("command", nargs=argparse.REMAINDER)
    given = parser.parse_args()
    command = given.command[1:] if given.command[:1] == ["--"] else given.command
    if not command:
        sys.exit(__doc__)
    taken = stolen()
    status, sums, clock = run(command, given.log)
    taken = stolen() - taken
    used = resource.getrusage(resource.RUSAGE_CHILDREN)
    spent = used.ru_utime + used.ru_stime
    print("", *rows(sums), "", f"minutes of {minutes(sums)}", sep="\n")
    print(
        f"{spent / 60:.1f} processor minutes, {clock / 60:.1f} by the clock, on {os.cpu_count()} processors; "
        f"{taken / 60:.1f} stolen"
    )
    missed = (spent - sum(sums.values())) / 60
    print(f"{missed:.1f} of these are of no crate: missed at the ends, or of the command itself")
    sys.exit(status if status >= 0 else 128 - status)


main()
