"""The command lines of the benchmarks: `--help`, and the built program that they run."""
import argparse
import contextlib
import os
import pathlib
import typing
from collections.abc import Callable

PROVED = pathlib.Path(__file__).resolve().parent.parent / "crates/admission/out/admission"
Number = typing.TypeVar("Number", int, float)


def reader_of(text: str | None) -> argparse.ArgumentParser:
    """A reader of words whose `--help` is this text."""
    return argparse.ArgumentParser(description=text, formatter_class=argparse.RawDescriptionHelpFormatter)


def reader_with_program(text: str | None) -> argparse.ArgumentParser:
    """The same with `--program`, which is the proved program where none is named."""
    reader = reader_of(text)
    reader.add_argument("--program", type=built, default=str(PROVED), metavar="PROGRAM")
    return reader


class Earlier(argparse.Action):
    """`--from FILE`, the file of an earlier run, which needs no program."""

    def __call__(
        self,
        parser: argparse.ArgumentParser,
        namespace: argparse.Namespace,
        values: typing.Any,
        option_string: str | None = None,
    ) -> None:
        namespace.earlier, namespace.program = values, None


def add_earlier(reader: argparse.ArgumentParser) -> None:
    """Adds `--from` to a reader with `--program`."""
    told = "prints the tables of such a file, and runs nothing"
    reader.add_argument("--from", type=pathlib.Path, metavar="FILE", dest="earlier", action=Earlier, help=told)


def reader_with_results(text: str | None) -> argparse.ArgumentParser:
    """A reader of PROGRAM, of the file that a line of figures goes to for each visit, and of one whose tables are
    printed in place of a run."""
    reader = reader_of(text)
    reader.add_argument("program", type=built, nargs="?", metavar="PROGRAM")
    reader.add_argument("--results", type=pathlib.Path)
    reader.add_argument("--from", type=pathlib.Path, dest="earlier")
    return reader


def given_to(reader: argparse.ArgumentParser) -> argparse.Namespace:
    """What such a reader is given: PROGRAM, or the file of an earlier run."""
    given = reader.parse_intermixed_args()
    if not given.program and not given.earlier:
        reader.error("PROGRAM is missing")
    return given


def built(word: str) -> str:
    """The path of a built program."""
    path = pathlib.Path(word).resolve()
    if not path.is_file() or not os.access(path, os.X_OK):
        raise argparse.ArgumentTypeError(
            f"{word} isn't a built program: run ./admission --prove, and take crates/admission/out/admission"
        )
    return str(path)


def above_zero(kind: Callable[[str], Number]) -> Callable[[str], Number]:
    """Numbers of this kind above 0."""

    def number(word: str) -> Number:
        with contextlib.suppress(ValueError):
            if (found := kind(word)) > 0:
                return found
        raise argparse.ArgumentTypeError(f"{word} isn't a number above 0")

    return number


def program_of(text: str | None) -> str:
    """The one word of a benchmark that takes the built program."""
    reader = reader_of(text)
    reader.add_argument("program", type=built, metavar="PROGRAM")
    return reader.parse_args().program
