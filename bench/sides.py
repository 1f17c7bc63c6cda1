"""The two sides of a benchmark: a program over the repository's crates, and a plain Rust peer.

A benchmark's own program is in a folder here, with `.in` at the end of each file's name, and isn't in crates.txt. It is
copied beside the repository's libraries, into a folder that no check reads, and proved and built as the product's
program is. The peer is built by rustc -O.
"""
import os
import pathlib
import resource
import shutil
import statistics
import subprocess
import time
import typing
from collections.abc import Iterable, Mapping, Sequence

HERE = pathlib.Path(__file__).resolve().parent
TOP = HERE.parent
TURNS = 9
# A program, its words, and its input where it has one.
Side = tuple[pathlib.Path, Sequence[object]] | tuple[pathlib.Path, Sequence[object], bytes]


class Bench:
    """A benchmark's name, the library that it is about, and the libraries that its program names."""

    def __init__(self, name: str, library: str, others: Sequence[str] = ()) -> None:
        self.name, self.libraries = name, (library, *others)
        self.tree = TOP / "crates" / library / "out/bench"
        self.tree.mkdir(parents=True, exist_ok=True)

    def needs(self) -> dict[str, list[str]]:
        """The line of each crate of crates.txt, as its libraries."""
        lines = (TOP / "crates.txt").read_text().splitlines()
        return {name: rest.split() for name, rest in (line.split(":") for line in lines if ":" in line)}

    def below(self, crates: Mapping[str, Sequence[str]], names: Iterable[str]) -> set[str]:
        """All crates that these stand on, themselves among them, and the kit's."""
        found: set[str] = set()
        for name in names:
            found |= {name} | self.below(crates, crates.get(name, []))
        return found

    def link(self, crate: str) -> None:
        """What a crate above reads of a crate: its sources and its built library."""
        for part in ("src", "specs", "proofs", "out/rlib"):
            if (TOP / "crates" / crate / part).is_dir():
                shutil.copytree(
                    TOP / "crates" / crate / part, self.tree / "crates" / crate / part, copy_function=os.link
                )

    def product(self, words: Sequence[object], given: bytes, log: typing.IO[str]) -> pathlib.Path:
        """Proves and builds the product's side, and runs it once with these words and this input."""
        for library in self.libraries:
            subprocess.run(["rt", "lib"], cwd=TOP / "crates" / library, stdout=log, stderr=log, check=True)
        own = self.tree / "crates" / f"{self.name}_bench"
        for folder in self.tree.glob("crates/*"):
            if folder != own:
                shutil.rmtree(folder)
        for path in (HERE / self.name).rglob("*.in"):
            copy = own / path.relative_to(HERE / self.name).with_suffix("")
            copy.parent.mkdir(parents=True, exist_ok=True)
            shutil.copyfile(path, copy)
        crates = self.needs()
        used = sorted(self.below(crates, self.libraries))
        lines = []
        for crate in (crate for crate in used if crate in crates):
            self.link(crate)
            lines.append(f"{crate}: {' '.join(crates[crate])}\n")
        lines.append(f"{self.name}_bench: {' '.join(used)}\n")
        (self.tree / "crates.txt").write_text("".join(lines))
        command = ["rt", "run", "--", *map(str, words)]
        subprocess.run(command, cwd=own, input=given, stdout=log, stderr=log, check=True)
        return own / f"out/{self.name}_bench"

    def peer(self, log: typing.IO[str], *flags: str) -> pathlib.Path:
        """Builds the peer, `plain_NAME.rs`."""
        program = self.tree / f"plain_{self.name}"
        words: list[str | pathlib.Path] = [
            "rustc",
            "-O",
            "--edition",
            "2021",
            *flags,
            "-o",
            program,
            HERE / f"plain_{self.name}.rs",
        ]
        subprocess.run(words, stdout=log, stderr=log, check=True)
        return program


def processor_time() -> float:
    """The seconds of a processor that all that was run took so far."""
    used = resource.getrusage(resource.RUSAGE_CHILDREN)
    return used.ru_utime + used.ru_stime


def run(program: pathlib.Path, words: Sequence[object], given: bytes = b"") -> tuple[int, float, str]:
    """The nanoseconds that were timed, the processor seconds of the whole run, and what was done."""
    before = processor_time()
    done = subprocess.run([program, *map(str, words)], input=given, capture_output=True, check=True)
    took, _, did = done.stdout.decode().partition(" ")
    return int(took), processor_time() - before, did


def timed(words: Sequence[str], given: bytes) -> tuple[float, bytes]:
    """The seconds of the whole run of a program with this input, and what it wrote."""
    began = time.monotonic()
    done = subprocess.run(words, input=given, capture_output=True, check=True)
    return time.monotonic() - began, done.stdout


def row(ours: Side, theirs: Side) -> list[float]:
    """The medians of the turns: either side's nanoseconds, their ratio, and that of processor times."""
    turns = []
    for _ in range(TURNS):
        (took, used, did), (plain, needed, same) = run(*ours), run(*theirs)
        assert did == same, f"not the same work: {did}{same}"
        turns.append((took, plain, took / plain, used / needed))
    return [statistics.median(column) for column in zip(*turns)]
