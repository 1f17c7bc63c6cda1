"""Passes the tests: ./test [--quick|--all] [--from STAGE]

  (no word)     all proofs, the tests of the crates and those of the built program: 34 minutes
  --all         the wrong bodies too, which the prover must refuse, as .ci/run has it: some 75 minutes
  --quick       no proofs: the layout, the program compiled without them, and scripts that it passes: some 4 minutes
  --from STAGE  begins at a stage: layout, proofs, program or overload. From program on the proved program has to stand
  --help        prints this

The times are those of 4 slow processors (2.5 GHz) with nothing kept; what the toolchain keeps on a machine makes a
later run shorter. The status is 0 where all is as it is to be, 1 where something isn't, and 2 after wrong words.
"""
from __future__ import annotations

import re
import resource
import shutil
import subprocess
import sys
import threading
import time
from pathlib import Path

from building import OUT, PROGRAM, PROVED, TOP, UNPROVED, all_rows, in_turn, prove, put, room, sources, stands
from progress import Gate, Progress

STAGES = ("layout", "proofs", "program", "overload")
WHAT = {
    "layout": "the layout of the sources",
    "proofs": "the proofs and the tests of the crates",
    "program": "the built program, by files, streams, clients and threads",
    "overload": "five seconds of an overload",
}
# What is tried side by side, each list one script after the other.
SCRIPTS = (
    ("program", "lines", "keys", "limits", "load", "manual", "documents", "page"),
    ("messages", "exchanges", "classes", "serve", "memory"),
    ("model", "launcher", "install", "hosts", "alerts", "packaged"),
    ("days",),
)
# What the program without proofs passes, and those scripts whose long cases are left out then.
QUICK = (
    ("program", "load", "lines", "keys"),
    ("messages", "exchanges", "page"),
    ("serve", "classes", "limits", "manual", "documents", "alerts", "packaged"),
    ("days",),
)
SHORT = ("program", "load", "messages", "serve", "days")
# Scripts that take no program.
ALONE = ("launcher", "install", "alerts", "days")


class Failed(Exception):
    """Something isn't as it is to be."""


def tell(text: str) -> None:
    """Tells a line on standard output."""
    print(f"test: {text}", flush=True)


def read_words(words: list[str]) -> tuple[str, str]:
    """Which tests, and the first stage; ends where they ask for help or are wrong."""
    kind, first = "proofs", STAGES[0]
    while words:
        word = words.pop(0)
        if word == "--help":
            print((__doc__ or "").rstrip())
            sys.exit(0)
        if word in ("--quick", "--all") and kind == "proofs":
            kind = word[2:]
        elif word == "--from" and words and words[0] in STAGES:
            first = words.pop(0)
        else:
            sys.stderr.write(f"test: {word} isn't known here, or lacks a stage after it; see ./test --help\n")
            sys.exit(2)
    if kind == "quick" and first == "overload":
        sys.stderr.write("test: --quick has no overload; see ./test --help\n")
        sys.exit(2)
    return kind, first


def need_tools(kind: str) -> None:
    """What only the last tests need is looked for before the first hour."""
    if not shutil.which("rt"):
        raise Failed("the toolchain's command rt isn't on the path")
    if kind != "quick" and not any(map(shutil.which, ("cc", "gcc", "clang"))):
        raise Failed("a C compiler is needed")


def prove_in_place() -> None:
    """Runs the whole gate, the wrong bodies too. The sources are named as they were before, and none while it is under
    way: of sources that are edited meanwhile the launcher builds a program of its own."""
    named, names = sources(), list(all_rows())
    (OUT / "proof").unlink(missing_ok=True)
    with Progress("test: ", f"proving {len(names)} crates") as progress:
        gate = Gate(progress, TOP, names, with_edits=True)
        with subprocess.Popen(
            ["rt", "ci"],
            cwd=TOP,
            text=True,
            errors="replace",
            stdin=subprocess.DEVNULL,
            stdout=subprocess.PIPE,
            stderr=subprocess.STDOUT,
        ) as ran:
            for line in ran.stdout or ():
                gate.read(line)
                print(line, end="", flush=True)
    if ran.returncode:
        raise Failed("the gate didn't pass")
    version = subprocess.run(["rt", "version"], stdout=subprocess.PIPE, check=True, text=True).stdout
    (OUT / "proof").write_text(f"proved by {version}{named}")


def prove_copied() -> None:
    """Has all crates proved and tested in a copy that has no wrong bodies, and keeps the program."""
    OUT.mkdir(parents=True, exist_ok=True)
    with in_turn(TOP / ".ci"), room() as here:
        told, program = prove(here, OUT / "build.log", all_rows(), "test: ")
        put(told, program, *PROVED)
    last = (OUT / "build.log").read_text(errors="replace").rstrip().splitlines()
    tell(next((it for it in reversed(last) if re.fullmatch(r"\d+ passed, 0 failed", it)), "proved"))


def compile_it() -> None:
    """Compiles the program without its proofs, where it doesn't stand."""
    if not stands(*UNPROVED):
        ran = subprocess.run([TOP / PROGRAM, "--unproved", "--version"], stdout=subprocess.DEVNULL, check=False)
        if ran.returncode:
            raise Failed("the program couldn't be compiled")


def try_one(name: str, words: list[str]) -> bool:
    """Runs a script, prints what it printed once it has ended, and says whether it passed."""
    began = time.monotonic()
    ran = subprocess.run(
        [TOP / "tests" / name, *words], stdout=subprocess.PIPE, stderr=subprocess.STDOUT, errors="replace", check=False
    )
    lines = ran.stdout.splitlines() or ["no output"]
    passed = "" if ran.returncode == 0 else f", status {ran.returncode}"
    tell("\n".join([f"{name}, {time.monotonic() - began:.0f} seconds{passed}", *lines]))
    return ran.returncode == 0


def try_scripts(lists: tuple[tuple[str, ...], ...], program: Path, short: tuple[str, ...]) -> None:
    """Runs lists of scripts side by side; all are seen to their end."""
    failed: list[str] = []

    def try_list(names: tuple[str, ...]) -> None:
        for name in names:
            words = [*(["--short"] if name in short else []), *([] if name in ALONE else [str(program)])]
            if not try_one(name, words):
                failed.append(name)

    running = [threading.Thread(target=try_list, args=[names]) for names in lists]
    for it in running:
        it.start()
    for it in running:
        it.join()
    if failed:
        raise Failed(f"these failed: {' '.join(sorted(failed))}")


def run(stage: str, kind: str) -> None:
    """Passes a stage."""
    if stage == "layout":
        passed = subprocess.run([TOP / "tests/layout"], check=False).returncode == 0
        if not passed:
            raise Failed("the sources aren't laid out as they are to be")
    elif stage == "proofs":
        {"all": prove_in_place, "proofs": prove_copied, "quick": compile_it}[kind]()
    elif kind == "quick":
        try_scripts(QUICK, UNPROVED[0] / PROGRAM, SHORT)
    elif not stands(*PROVED):
        raise Failed("the proved program of today's sources doesn't stand: begin at the stage proofs")
    elif stage == "program":
        try_scripts(SCRIPTS, OUT / PROGRAM, ())
    elif subprocess.run([TOP / "demo/run", "--brief"], check=False).returncode:
        raise Failed("the overload didn't end as it is to")


def main(words: list[str]) -> None:
    """Passes the stages that the words ask for."""
    kind, first = read_words(words)
    stages = STAGES[STAGES.index(first) : 3 if kind == "quick" else 4]
    began = time.monotonic()
    try:
        need_tools(kind)
        for stage in stages:
            what = "the program, compiled without its proofs" if (stage, kind) == ("proofs", "quick") else WHAT[stage]
            and_wrong = ", and the wrong bodies" if (stage, kind) == ("proofs", "all") else ""
            tell(f"stage {STAGES.index(stage) + 1} of {STAGES.index(stages[-1]) + 1}, {stage}: {what}{and_wrong}")
            run(stage, kind)
    except (Failed, OSError) as why:
        sys.stdout.flush()
        sys.stderr.write(f"test: {why}\n")
        sys.exit(1)
    took = resource.getrusage(resource.RUSAGE_CHILDREN)
    processors = (took.ru_utime + took.ru_stime) / 60
    tell(f"passed: {(time.monotonic() - began) / 60:.0f} minutes, {processors:.0f} processor minutes")
