"""How far a run of the toolchain's gate has come, and about how long what is left will take."""
from __future__ import annotations

import os
import re
import shutil
import sys
import threading
import time
from pathlib import Path

# How often a line is written where it can't be rewritten in place, in seconds.
EVERY = 10
# At first a second of docs/gate_times.txt is taken for two of a processor here, for so many seconds.
PRIOR = 60
SLOWNESS = 2
# A row of that file: a crate, the seconds of its proof, how many wrong bodies it has, and their seconds.
TIMES = r"^(\w+) +(\d+) +(\d+) +(\d+)$"


class Work:
    """What a run has to do: seconds of docs/gate_times.txt for each crate, and the crates that wait for others."""

    def __init__(self, top: Path, names: list[str], with_edits: bool) -> None:
        times = top / "docs/gate_times.txt"
        found = re.findall(TIMES, times.read_text(encoding="utf-8") if times.exists() else "", re.M)
        rows = {name: (int(proof), int(count), int(edits)) for name, proof, count, edits in found}
        lines = re.findall(r"^(\w+):([^#\n]*)", (top / "crates.txt").read_text(encoding="utf-8"), re.M)
        self.names = names
        self.below = {name: [it for it in rest.split() if it in names] for name, rest in lines if name in names}
        self.proofs = {name: float(rows.get(name, (10, 0, 0))[0]) for name in names}
        self.edits = {name: rows[name][2] / rows[name][1] for name in names if with_edits and rows.get(name, (0, 0))[1]}
        self.edits_left = {name: rows[name][1] for name in self.edits}
        self.done = 0.0

    def proved(self, name: str, is_kept: bool) -> None:
        """A crate is proved, or was by an earlier run: then its wrong bodies were tried as well."""
        seconds = self.proofs.pop(name, 0.0)
        if is_kept:
            self.edits_left.pop(name, None)
        else:
            self.done += seconds

    def refused(self, name: str) -> None:
        """A wrong body of a crate was tried."""
        if self.edits_left.get(name):
            self.edits_left[name] -= 1
            self.done += self.edits[name]

    def chain(self) -> float:
        """The seconds of those crates that wait longest for one another."""
        longest: dict[str, float] = {}
        for name in self.names:  # each behind those that it stands on
            below = max((longest.get(it, 0.0) for it in self.below.get(name, [])), default=0.0)
            longest[name] = below + self.proofs.get(name, 0.0)
        return max(longest.values(), default=0.0)

    def left(self, passed: float) -> float:
        """About how many seconds are left after so many, by what was done meanwhile on all processors."""
        processors = min(len(os.sched_getaffinity(0)), 4)
        rate = (self.done + PRIOR * processors / SLOWNESS) / (passed + PRIOR)
        whole = sum(self.proofs.values()) + sum(self.edits[it] * n for it, n in self.edits_left.items())
        return max(whole / rate, self.chain() / (rate / processors))


def minutes(seconds: float) -> str:
    """So many seconds, in the words of a person who waits."""
    return f"{seconds:.0f} seconds" if seconds < 90 else f"{seconds / 60:.0f} minutes"


class Progress:
    """Tells what is done, rewritten in place on a terminal and else by a line every ten seconds, until its end."""

    def __init__(self, prefix: str, what: str) -> None:
        self.prefix, self.what, self.began = prefix, what, time.monotonic()
        self.expected: float | None = None
        self.work: Work | None = None
        self.is_terminal = sys.stderr.isatty()
        self.lock, self.ended = threading.Lock(), threading.Event()
        self.ticking = threading.Thread(target=self.tick, daemon=True)

    def passed(self) -> float:
        """The seconds since it began."""
        return time.monotonic() - self.began

    def line(self) -> str:
        """What is told now."""
        passed = self.passed()
        left = self.work.left(passed) if self.work else None if self.expected is None else self.expected - passed
        told = f"{self.prefix}{self.what}; {minutes(passed)} so far"
        return told if left is None or left <= 0 else f"{told}, about {minutes(left)} left"

    def tell(self) -> None:
        """Writes the line."""
        with self.lock:
            if self.is_terminal:
                columns = shutil.get_terminal_size().columns
                sys.stderr.write(f"\r{self.line()[: columns - 1]}\x1b[K")
            else:
                sys.stderr.write(f"{self.line()}\n")
            sys.stderr.flush()

    def tick(self) -> None:
        """Writes the line again and again."""
        while not self.ended.wait(1 if self.is_terminal else EVERY):
            self.tell()

    def __enter__(self) -> Progress:
        self.ticking.start()
        return self

    def __exit__(self, *_: object) -> None:
        self.ended.set()
        self.ticking.join(1)
        if self.is_terminal:
            with self.lock:
                sys.stderr.write("\r\x1b[K")
                sys.stderr.flush()


class Gate:
    """Follows the lines of a run of the gate over these crates."""

    def __init__(self, progress: Progress, top: Path, names: list[str], with_edits: bool) -> None:
        self.progress, self.count, self.ended = progress, len(names), 0
        progress.work = Work(top, names, with_edits)

    def read(self, line: str) -> str | None:
        """Takes a line; the name of a crate that isn't proved, if it tells of one."""
        crate = re.match(r"rt: (\w+) (NOT PROVED|proved|is kept)\b", line)
        edit = re.match(r"rt: must-fail (\w+)/.*: refused", line)
        assert self.progress.work
        if edit:
            self.progress.work.refused(edit[1])
        if not crate:
            return None
        if crate[2] == "NOT PROVED":
            return crate[1]
        self.ended += 1
        self.progress.work.proved(crate[1], crate[2] == "is kept")
        self.progress.what = f"{self.ended} of {self.count}: {crate[1]}"
        return None
