"""Compares what is expected of the built program with what was found; and its line of counters."""
import os
import pathlib
import re
import sys
import typing

COUNTERS = "admitted bypassed full backlog waiting promoted timed-out success ignored dropped".split()


def counters_line(**counts: int) -> str:
    """The line of these counters, with `timed_out` for `timed-out`; all others are 0."""
    named = {name.replace("_", "-"): count for name, count in counts.items()}
    assert named.keys() <= {*COUNTERS}
    return " ".join(f"{name} {named.get(name, 0)}" for name in COUNTERS) + "\n"


def counts_of(line: str) -> dict[str, int] | None:
    """The counters of a line that aren't 0, by name, or None if it isn't such a line."""
    found = re.fullmatch(" ".join(rf"{it} (\d+)" for it in COUNTERS) + "\n", line)
    if found is None:
        return None
    return {name: int(count) for name, count in zip(COUNTERS, found.groups()) if count != "0"}


def program_of(words: list[str], doc: str | None) -> str:
    """The program that a script is to try, by its words. The script ends with its own text where these are others, and
    with a sentence where there is no such program."""
    if len(words) != 1:
        sys.exit(doc)
    program = pathlib.Path(words[0]).resolve()
    if not program.is_file() or not os.access(program, os.X_OK):
        sys.exit(f"{pathlib.Path(sys.argv[0]).name}: {words[0]} is no program that can be started")
    return str(program)


def short_or_whole(words: list[str]) -> tuple[bool, list[str]]:
    """Whether long cases are left out, and the other words."""
    return words[:1] == ["--short"], words[words[:1] == ["--short"] :]


class Judge:
    """Counts the cases that passed and those that failed, and prints both."""

    def __init__(self) -> None:
        self.passed, self.failed = 0, 0

    def judge(self, what: object, wanted: object, found: object) -> None:
        """Counts a case, and tells of it where what was found isn't what was wanted."""
        if wanted == found:
            self.passed += 1
            return
        self.failed += 1
        print(f"{what}\n  wanted {wanted!r:.400}\n  got    {found!r:.400}")

    def end(self, name: str) -> typing.NoReturn:
        """Tells the count, and ends with status 1 where a case failed."""
        print(f"{name}: {self.passed} passed, {self.failed} failed")
        sys.exit(1 if self.failed else 0)
