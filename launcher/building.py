"""The program of today's sources: where it stands, and how it is built with its proofs and without."""
from __future__ import annotations

import contextlib
import errno
import fcntl
import os
import re
import shutil
import signal
import subprocess
import sys
import tempfile
import time
from collections.abc import Iterable, Iterator
from pathlib import Path
from typing import IO

from progress import Gate, Progress

TOP = Path(__file__).resolve().parent.parent
PROGRAM = "admission"
OUT = TOP / "crates" / PROGRAM / "out"
PROVED, UNPROVED = (OUT, "proof"), (OUT / "unproved", "sources")
# As docs/GATE.md has them.
TIME = "30 to 50 minutes on 4 slow processors"
COMPILING = 67


def say(text: str) -> None:
    """Tells a line on standard error."""
    print(f"launcher: {text}", file=sys.stderr, flush=True)


def fail(why: str, log: Path | None = None) -> None:
    """Tells why there is no program, with the end of the log where there is one, and ends."""
    told = log.read_text(errors="replace").splitlines()[-20:] if log else []
    say("\nlauncher: ".join([f"{why}; the end of {log}:" if log else why, *told]))
    sys.exit(125)


def told_of(error: OSError, places: list[Path]) -> str:
    """What a fault of the system is told as: a full disk by its folder, whatever met it."""
    for place in places:
        with contextlib.suppress(OSError):
            if shutil.disk_usage(place).free < 1 << 20:
                return f"the disk is full: {place} has no room left"
    if error.errno == errno.ENOSPC:
        return f"the disk is full: {error.filename or tempfile.gettempdir()} has no room left"
    return f"the program can't be built: {error}"


def sources() -> str:
    """The line that names today's sources."""
    return "sources " + subprocess.run([TOP / ".ci/sources"], stdout=subprocess.PIPE, check=True, text=True).stdout


def stands(out: Path, named: str) -> bool:
    """Whether a folder has a program of today's sources: the last line of a file beside it names them."""
    return (out / PROGRAM).exists() and (out / named).exists() and (out / named).read_text().endswith(sources())


@contextlib.contextmanager
def in_turn(place: Path) -> Iterator[None]:
    """Holds the lock of a folder that no other command locks; waits while another start holds it."""
    held = os.open(place, os.O_RDONLY)
    try:
        try:
            fcntl.flock(held, fcntl.LOCK_EX | fcntl.LOCK_NB)
        except BlockingIOError:
            say("another start is building the program; waiting for it")
            fcntl.flock(held, fcntl.LOCK_EX)
        yield
    finally:
        os.close(held)


@contextlib.contextmanager
def room() -> Iterator[Path]:
    """A folder for the copy and for what is made meanwhile, which goes with it."""
    made = Path(tempfile.mkdtemp(prefix=f"{PROGRAM}-build-"))
    try:
        (made / "tmp").mkdir()
        for it in (made, made / "tmp"):
            # the toolchain runs programs as nobody, who has to reach them
            it.chmod(0o711)
        yield made
    finally:
        end = time.monotonic() + 5
        while made.exists() and time.monotonic() < end:
            # again, since what was stopped may still write for a moment
            shutil.rmtree(made, ignore_errors=True)


def all_rows() -> dict[str, str]:
    """The line of crates.txt for each crate."""
    text = (TOP / "crates.txt").read_text(encoding="utf-8")
    return {it[1]: it[0] for it in re.finditer(r"^(\w+):.*\n?", text, re.M)}


def program_rows(names: Iterable[str] = (PROGRAM,)) -> dict[str, str]:
    """Those of the crates that the program stands on, or other crates, and their own, in the file's order."""
    rows, found, rest = all_rows(), set(), [*names]
    while rest:
        name = rest.pop()
        if name in rows and name not in found:
            found.add(name)
            rest += re.findall(r"\w+", rows[name].partition(":")[2].partition("#")[0])
    return {name: row for name, row in rows.items() if name in found}


def copy(to: Path, rows: dict[str, str]) -> str:
    """Copies these crates without their wrong bodies, as a repository, and returns the line of the sources then."""
    told = ""
    while told != sources():
        told = sources()
        shutil.rmtree(to, ignore_errors=True)
        (to / ".git").mkdir(parents=True)
        for name in rows:
            crate = TOP / "crates" / name
            shutil.copytree(
                crate,
                to / "crates" / name,
                ignore=lambda at, _, top=crate: ("out", "must-fail") if Path(at) == top else (),
            )
        (to / "crates.txt").write_text("".join(rows.values()))
        shutil.copy(TOP / "HANDLES", to)
    return told


@contextlib.contextmanager
def running(words: list[str], here: Path, at: Path, output: int | IO[str]) -> Iterator[subprocess.Popen[str]]:
    """Runs a command of the toolchain at a place, and ends it and all that it started as the block ends."""
    ran = subprocess.Popen(
        words,
        text=True,
        errors="replace",
        env={**os.environ, "TMPDIR": str(here / "tmp")},
        cwd=at,
        stdin=subprocess.DEVNULL,
        stdout=output,
        stderr=subprocess.STDOUT,
        start_new_session=True,
    )
    try:
        yield ran
    finally:
        # by force behind that, since what the caller ignores they ignore too
        for number in (signal.SIGTERM, signal.SIGKILL):
            with contextlib.suppress(ProcessLookupError):
                os.killpg(ran.pid, number)
            with contextlib.suppress(subprocess.TimeoutExpired):
                ran.wait(5)
        ran.wait()


def prove(here: Path, log: Path, rows: dict[str, str], prefix: str = "launcher: ") -> tuple[str, Path]:
    """Has the gate prove these crates and build the program; a crate that isn't proved is told at once."""
    copied, line, unproved = here / "repository", "", None
    told = copy(copied, rows)
    with Progress(prefix, f"proving {len(rows)} crates") as progress:
        gate = Gate(progress, TOP, list(rows), with_edits=False)
        with log.open("w") as kept, running(["rt", "ci"], here, copied, subprocess.PIPE) as ran:
            for line in ran.stdout or ():
                print(line, end="", file=kept, flush=True)
                unproved = gate.read(line)
                if unproved:
                    break
            status = 1 if unproved else ran.wait()
    if unproved:
        fail(f"{unproved} couldn't be proved", log)
    if status or not re.fullmatch(r"\d+ passed, 0 failed\n", line):
        fail("the program couldn't be proved", log)
    folder = copied / "crates" / PROGRAM
    if not (folder / "out" / PROGRAM).exists():
        # a gate that leaves no program has its proofs at hand
        with log.open("a") as kept, running(["rt", "run", "--", "--version"], here, folder, kept) as ran:
            ran.wait()
    return told, folder / "out" / PROGRAM


def program_that_reads(pipe: Path, below: Path) -> str | None:
    """The program below a folder whose process has a pipe open."""
    for held in Path("/proc").glob("[0-9]*/fd/*"):
        with contextlib.suppress(OSError):
            if os.readlink(held) == str(pipe):
                maps = (held.parent.parent / "maps").read_text()
                found = re.search(rf"^\S+ ..x. .* ({below}/.*)$", maps, re.M)
                if found:
                    return found[1]
    return None


def compile_unproved(here: Path, log: Path) -> tuple[str, Path]:
    """Compiles the program without its proofs. The toolchain runs what it compiled and then removes it, so the program
    is copied while it waits for the text that it was told to read."""
    told, pipe, made = copy(here / "repository", program_rows()), here / "pipe", here / PROGRAM
    os.mkfifo(pipe)
    words, at = ["rt", "try", "--", "check", str(pipe)], here / "repository/crates" / PROGRAM
    with Progress("launcher: ", "compiling") as progress:
        progress.expected = COMPILING
        with log.open("w") as kept, running(words, here, at, kept) as ran:
            while not made.exists() and ran.poll() is None:
                time.sleep(0.1)
                with contextlib.suppress(OSError):
                    # there is no way to open it so before it is read
                    text = os.open(pipe, os.O_WRONLY | os.O_NONBLOCK)
                    while not (program := program_that_reads(pipe, here / "tmp")) and ran.poll() is None:
                        time.sleep(0.1)
                    if program:
                        shutil.copyfile(program, made)
                    os.close(text)
    return told, made


def put(told: str, program: Path, out: Path, named: str) -> None:
    """Puts the program in its place, whole or not at all, and then the file that names what it was built from."""
    (out / named).unlink(missing_ok=True)
    shutil.copyfile(program, out / f"{PROGRAM}.new")
    (out / f"{PROGRAM}.new").chmod(0o755)
    os.replace(out / f"{PROGRAM}.new", out / PROGRAM)
    if named == "proof":
        version = subprocess.run(["rt", "version"], stdout=subprocess.PIPE, check=True, text=True).stdout
        told = f"proved by {version.strip()}\n{told}"
    (out / f"{named}.new").write_text(told)
    os.replace(out / f"{named}.new", out / named)


def build(is_proved: bool, out: Path, named: str) -> None:
    """Builds the program that is wanted, where another start hasn't meanwhile."""
    if not shutil.which("rt"):
        fail("rt isn't on the path, so nothing can be built: it is the toolchain's command")
    with in_turn(TOP / (".ci" if is_proved else "crates")):
        if stands(out, named):
            return
        out.mkdir(parents=True, exist_ok=True)
        log = out / "build.log"
        with room() as here:
            if is_proved:
                rows = program_rows()
                say(f"proving {len(rows)} crates and building the program: {TIME}; later starts take none")
                told, program = prove(here, log, rows)
            else:
                say("compiling the program without its proofs: one to three minutes; later starts take none")
                told, program = compile_unproved(here, log)
            if not program.exists():
                fail("the program couldn't be " + ("built" if is_proved else "compiled"), log)
            put(told, program, out, named)
