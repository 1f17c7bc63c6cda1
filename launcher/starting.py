"""Starts the program that is wanted, and answers for it where there is none."""
from __future__ import annotations

import contextlib
import os
import re
import shutil
import signal
import subprocess
import sys
import tempfile
from pathlib import Path

from building import OUT, PROGRAM, PROVED, TIME, TOP, UNPROVED, build, fail, say, stands, told_of

STOPS = (signal.SIGINT, signal.SIGTERM, signal.SIGHUP)
HELPS, VERSIONS = (["--help"], ["-h"], ["help"]), (["--version"], ["-V"])
# What is told where nothing is built and nothing can be.
HELP = """\
admission decides, before a request is forwarded, whether the backend can take one more.

Usage: ./admission [--prove|--unproved] COMMAND [WORDS..]

Commands:
  replay    answers a script of calls on standard input
  simulate  carries out a trace on standard input in virtual time
  load      has the calls of a trace on standard input made by threads, and audits them
  check     says whether a configuration is right, before anything is served
  serve     stands before a backend, and forwards what the limit admits

docs/OPERATING.md has the options.
"""


def stop(number: int, _: object) -> None:
    """Ends this start once: what is under way is ended and removed whatever comes meanwhile."""
    for it in STOPS:
        signal.signal(it, signal.SIG_IGN)
    sys.exit(128 + number)


def answer_alone(words: list[str]) -> None:
    """Answers for help or the version where no program stands and none can be built; then ends."""
    if words not in (*HELPS, *VERSIONS) or shutil.which("rt") or stands(*PROVED) or stands(*UNPROVED):
        return
    if words in VERSIONS:
        text = (TOP / "crates/release/src/lib.rt").read_text(encoding="utf-8")
        found = re.search(r'^    "(.*)"$', text, re.M)
        print(PROGRAM, found[1] if found else "of an unknown version")
    else:
        print(HELP, end="")
    say("the program isn't built, and rt, the toolchain's command, isn't on the path to build it")
    sys.exit(0)


def find(way: str | None) -> Path:
    """The program for a way, built where it doesn't stand."""
    while way == "--unproved" or not stands(*PROVED):
        if way == "--prove":
            build(True, *PROVED)
        elif stands(*UNPROVED):
            say(
                "this program isn't proved, and some hundred times slower: for trying things out. "
                f"./admission --prove proves it, in {TIME}"
            )
            return OUT / "unproved" / PROGRAM
        else:
            build(False, *UNPROVED)
    return OUT / PROGRAM


def yield_to_others() -> None:
    """Changes to the scheduling policy batch, as the packaged unit has it (docs/OPERATING.md): who is woken doesn't
    interrupt whoever runs. A policy that was chosen stays, and so does the usual one where a sandbox wants it."""
    with contextlib.suppress(OSError):
        if os.sched_getscheduler(0) == os.SCHED_OTHER:
            os.sched_setscheduler(0, os.SCHED_BATCH, os.sched_param(0))


def main(words: list[str]) -> None:
    """Starts the program with these words."""
    way = words.pop(0) if words[:1] in (["--prove"], ["--unproved"]) else "--prove" if words[:1] == ["serve"] else None
    kept = {it: signal.signal(it, stop) for it in STOPS if signal.getsignal(it) != signal.SIG_IGN}
    try:
        answer_alone(words)
        program = find(way)
    except (OSError, subprocess.SubprocessError) as error:
        places = [OUT if OUT.exists() else TOP, Path(tempfile.gettempdir())]
        fail(told_of(error, places) if isinstance(error, OSError) else f"the program can't be built: {error}")
    if way == "--prove" and not words:
        say(f"the proved program is {program}")
        return
    # the program is to meet its signals as they were, and what Python ignores by itself
    for it, was in kept.items():
        signal.signal(it, was)
    for it in (signal.SIGPIPE, signal.SIGXFSZ):
        signal.signal(it, signal.SIG_DFL)
    if words[:1] == ["serve"]:
        yield_to_others()
    try:
        os.execv(program, [str(program), *words])
    except OSError as error:
        fail(f"{program} can't be started: {error.strerror}")
