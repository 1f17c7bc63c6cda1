#!/usr/bin/env -S python3 -B
"""How fast is a request read, beside a plain Rust reader over `httparse`? bench/messages.py [FOLDER]

The product's side is messages/, a program over `wire`; the peer is plain_messages.rs over the crate `httparse`, whose
sources are in FOLDER, or where Debian's `librust-httparse-dev` puts them. Both read the same request from memory over
and over, and must find bodies of the same length. At the peer the parts of a head share its bytes, as hyper's do. It
prints the median time of a reading on both sides, the median ratio of the turns, and that of the processor time. Needs
rt and rustc.
"""
import argparse
import pathlib
import subprocess
import sys
import typing

from sides import Bench, row
from words import reader_of

HEADS = (5, 40)
KIB, MIB = 1_024, 1_048_576
CHUNK = 4_096
# How long a body is, and how often the request with it is read in a run.
BODIES = ((0, 100_000), (KIB, 100_000), (MIB, 300))


def request(lines: int, body: int, is_chunked: bool) -> bytes:
    """A request with so many header lines, and its body in chunks or with a length."""
    out = [b"POST /articles/today?page=2 HTTP/1.1", b"Host: www.example.com"]
    out += [f"X-Field-{number}: a value of some length, number {number}".encode() for number in range(lines - 2)]
    if is_chunked:
        out.append(b"Transfer-Encoding: chunked")
    else:
        out.append(b"Content-Length: %d" % body)
    return b"\r\n".join(out) + b"\r\n\r\n" + (chunks(body) if is_chunked else b"x" * body)


def chunks(body: int) -> bytes:
    """A body of so many bytes in chunks."""
    sizes = [CHUNK] * (body // CHUNK) + [body % CHUNK] * (body % CHUNK > 0)
    return b"".join(b"%x\r\n%s\r\n" % (size, b"x" * size) for size in sizes) + b"0\r\n\r\n"


def sources(word: str) -> pathlib.Path:
    """A folder with the sources of httparse."""
    if not (pathlib.Path(word) / "src/lib.rs").is_file():
        raise argparse.ArgumentTypeError(f"{word} has no src/lib.rs")
    return pathlib.Path(word)


def httparse(given: list[pathlib.Path], folder: pathlib.Path, log: typing.IO[str]) -> str:
    """The peer's library, built from its sources."""
    words = "rustc -O --edition 2018 --crate-type rlib --crate-name httparse --cap-lints allow -o".split()
    library = folder / "libhttparse.rlib"
    found = given or sorted(pathlib.Path("/usr/share/cargo/registry").glob("httparse-*"))
    if not found:
        sys.exit("no sources of httparse: install Debian's librust-httparse-dev, or name their folder")
    subprocess.run([*words, library, found[0] / "src/lib.rs"], stdout=log, stderr=log, check=True)
    return f"httparse={library}"


def main() -> None:
    reader = reader_of(__doc__)
    reader.add_argument("folder", type=sources, nargs="?", metavar="FOLDER")
    folder = reader.parse_args().folder
    bench = Bench("messages", "wire", ["counted_io"])
    with open(bench.tree / "build.log", "w", encoding="utf-8") as log:
        print(f"building, some minutes at most; {log.name} shows the progress", file=sys.stderr)
        library = httparse([folder] if folder else [], bench.tree, log)
        plain = bench.peer(log, "--extern", library)
        program = bench.product((10,), request(5, 0, False), log)
    print("| request | bytes | admission | plain | ratio | of processor time |")
    print("|---|---|---|---|---|---|")
    for lines in HEADS:
        for body, times in BODIES:
            for is_chunked, kind in ((False, "a length"), (True, "chunks")):
                text = request(lines, body, is_chunked)
                took, least, ratio, used = row((program, (times,), text), (plain, (times,), text))
                name = f"{lines} lines, a body of {body:,} with {kind}"
                times_ns = f"{took / times:,.0f} ns | {least / times:,.0f} ns"
                print(f"| {name} | {len(text):,} | {times_ns} | {ratio:.2f} | {used:.2f} |", flush=True)


main()
