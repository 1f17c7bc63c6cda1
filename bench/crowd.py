#!/usr/bin/env -S python3 -B
"""What do idle and silent clients cost, and new ones, beside busy ones with keepalive?

    bench/crowd.py PROGRAM [--seconds S] [--rounds N] [--workers W,..] [--results FILE] [--further PROXY]
                   [--only WORD,..]
    bench/crowd.py --from FILE

It starts what bench/proxy.py has with keepalive on both sides: nginx, HAProxy, a bare proxy (`bare_kept.rs`) and
PROGRAM with each number of workers, all on one processor with their callers. For each it prints

- the requests a second of 64 busy clients alone, and beside 1,000 that have asked once and are idle since, with how
  many of these were kept to the end;
- how long a new client waits for its answer beside 9,000 that have sent nothing, of 100 new clients one after the
  other, and how long it takes until one is answered within 20 ms once all of the 9,000 have left at once;
- the times of four new clients at a time, each with one request, beside 64 busy ones.

Rounds go from proxy to proxy in turns, and figures are medians of them; the longest waits are of all. The whole takes
about seven minutes.

The figures of each round are a line of --results, from which --from prints the table. Needs Debian's nginx-light,
haproxy and wrk, and rustc.
"""
import argparse
import collections
import contextlib
import json
import os
import pathlib
import re
import resource
import select
import socket
import statistics
import struct
import subprocess
import sys
import tempfile
import time
import typing
from collections.abc import Iterator, Sequence

from proxies import Servers, Started, Target, first_port, in_turns, kept_targets, milliseconds, numbers, placed
from proxies import table_of, words_of
from words import above_zero, built, given_to, reader_with_results

BUSY, IDLE, SILENT, NEXT, NEW = 64, 1_000, 9_000, 100, 4
# So many places for clients that are kept or silent.
PLACES = "clients = 10000\nbackends = 64\n"
ASKING = b"GET / HTTP/1.1\r\nHost: h\r\n\r\n"
CLOSING = b"GET / HTTP/1.1\r\nHost: h\r\nConnection: close\r\n\r\n"
PATIENCE, QUICK = 20, 0.02
HEADS = [
    *("Proxy", f"{BUSY} busy, requests/s", f"beside {IDLE:,} idle", "ratio", "idle ones kept"),
    *(
        f"next client beside {SILENT:,} silent, median and longest",
        "back after they went",
        f"{NEW} new at a time: p50, p99",
        "they and the busy",
    ),
]

Figures = dict[str, typing.Any]


def connect(port: int) -> socket.socket:
    """A connection that leaves nothing behind in the system when it is closed."""
    client = socket.create_connection(("127.0.0.1", port), timeout=PATIENCE)
    client.setsockopt(socket.SOL_SOCKET, socket.SO_LINGER, struct.pack("ii", 1, 0))
    return client


def ask(client: socket.socket, text: bytes) -> bytes:
    """The answer's status over a connection."""
    client.sendall(text)
    said = b""
    while not said.endswith(b"world\n"):
        more = client.recv(4_096)
        if not more:
            break
        said += more
    return said[9:12]


@contextlib.contextmanager
def connected(port: int, count: int, is_asking: bool) -> Iterator[list[socket.socket]]:
    """So many clients, who ask once and then no more, or never."""
    with contextlib.ExitStack() as stack:
        clients = [stack.enter_context(connect(port)) for _ in range(count)]
        for client in clients if is_asking else ():
            ask(client, ASKING)
        yield clients


def open_ones(clients: Sequence[socket.socket]) -> int:
    """How many of these the other side hasn't closed."""
    looked = select.poll()
    for client in clients:
        looked.register(client, select.POLLIN | select.POLLRDHUP)
    return len(clients) - len(looked.poll(0))


def wrk(servers: Servers, port: int, clients: int, seconds: int, is_closing: bool = False) -> subprocess.Popen[str]:
    words = ["wrk", "-t1", f"-c{clients}", f"-d{seconds}s", "--latency"]
    words += ["-H", "Connection: close"] if is_closing else []
    words = placed(servers.processors, *words, f"http://127.0.0.1:{port}/")
    return subprocess.Popen(words, stdout=subprocess.PIPE, text=True)


def said_of(process: subprocess.Popen[str]) -> tuple[float, float, float]:
    """The requests a second that wrk tells, and the 50th and the 99th percentile in milliseconds."""
    said = process.communicate()[0]
    found = [
        re.findall(pattern, said) for pattern in (r"Requests/sec:\s+([\d.]+)", r"\n\s+50%\s+(\S+)", r"\n\s+99%\s+(\S+)")
    ]
    if not all(found):
        raise RuntimeError(f"wrk said {said!r}")
    return float(found[0][0]), milliseconds(found[1][0]), milliseconds(found[2][0])


def waits(port: int) -> list[float]:
    """The milliseconds that clients take, from before they connect to their whole answer, one after the other."""
    took = []
    for _ in range(NEXT):
        begun = time.perf_counter()
        with connect(port) as client:
            status = ask(client, CLOSING)
        took.append(1000 * (time.perf_counter() - begun))
        assert status == b"200", f"answered {status!r}"
    return took


def recovered(port: int) -> float:
    """The seconds until a client is answered within QUICK again, once the silent ones have gone."""
    begun = time.perf_counter()
    while time.perf_counter() - begun < PATIENCE:
        with connect(port) as client:
            asked = time.perf_counter()
            ask(client, CLOSING)
        if time.perf_counter() - asked < QUICK:
            break
    return time.perf_counter() - begun


def visit(servers: Servers, it: Target, seconds: int) -> Figures:
    """All figures of a proxy, once."""
    alone = said_of(wrk(servers, it.port, BUSY, seconds))
    with connected(it.port, IDLE, True) as idle:
        beside = said_of(wrk(servers, it.port, BUSY, seconds))
        kept = open_ones(idle)
    with connected(it.port, SILENT, False) as silent:
        time.sleep(0.5)
        took = waits(it.port)
        stayed = open_ones(silent)
    back = recovered(it.port)
    busy = wrk(servers, it.port, BUSY, seconds)
    new = said_of(wrk(servers, it.port, NEW, seconds, is_closing=True))
    return {
        "alone": alone[0],
        "beside": beside[0],
        "kept": kept,
        "wait": statistics.median(took),
        "longest": max(took),
        "silent": stayed,
        "back": back,
        "new": new[0],
        "p50": new[1],
        "p99": new[2],
        "busy": said_of(busy)[0],
    }


def row_of(name: str, rounds: Sequence[Figures]) -> list[str]:
    it = {key: statistics.median(one[key] for one in rounds) for key in rounds[0]}
    ratio = statistics.median(one["beside"] / one["alone"] for one in rounds)
    return [
        name,
        f"{it['alone']:,.0f}",
        f"{it['beside']:,.0f}",
        f"{ratio:.2f}",
        f"{min(one['kept'] for one in rounds):,}",
        f"{it['wait']:.2f}, {max(one['longest'] for one in rounds):.2f} ms",
        f"{it['back']:.2f} s",
        f"{it['p50']:.2f}, {it['p99']:.2f} ms",
        f"{it['new']:,.0f}/s, {it['busy']:,.0f}/s",
    ]


def measure(servers: Servers, given: argparse.Namespace, found: dict[str, list[Figures]]) -> None:
    given.refused = given.answer = given.upload = 0
    started = Started(servers, given.program, first_port(4 + 3 * len(given.workers)), given)
    kept_targets(started, PLACES)
    targets = {
        name: it for name, it in started.found.items() if "kept" in name and any(word in name for word in given.only)
    }
    time.sleep(1.5)
    gone = [name for name, it in targets.items() if it.process.poll() is not None]
    if gone:
        sys.exit(f"crowd.py: {', '.join(gone)} didn't start")
    for turn in range(given.rounds):
        for name in in_turns([*targets], turn):
            figures = visit(servers, targets[name], given.seconds)
            found[name].append(figures)
            if given.results:
                with given.results.open("a", encoding="utf-8") as file:
                    file.write(json.dumps({"proxy": name, **figures}) + "\n")
        print(f"crowd.py: round {turn + 1}", file=sys.stderr)


def given_words() -> argparse.Namespace:
    reader = reader_with_results(__doc__)
    reader.add_argument("--seconds", type=above_zero(int), default=3)
    reader.add_argument("--rounds", type=above_zero(int), default=4)
    reader.add_argument("--workers", type=numbers, default=[16, 64])
    reader.add_argument("--further", type=built)
    reader.add_argument("--only", type=words_of, default=[""])
    return given_to(reader)


def main() -> None:
    given = given_words()
    found: dict[str, list[Figures]] = collections.defaultdict(list)
    if given.earlier:
        for line in given.earlier.read_text(encoding="utf-8").splitlines():
            it = json.loads(line)
            found[it.pop("proxy")].append(it)
    else:
        _, most = resource.getrlimit(resource.RLIMIT_NOFILE)
        resource.setrlimit(resource.RLIMIT_NOFILE, (most, most))
        if most < SILENT + 1_000:
            sys.exit(f"crowd.py: {SILENT + 1_000:,} descriptors are needed, and {most:,} may be open")
        with tempfile.TemporaryDirectory(prefix="admission-bench-") as room:
            os.chmod(room, 0o755)
            servers = Servers(pathlib.Path(room), sorted(os.sched_getaffinity(0))[-1:], ())
            os.sched_setaffinity(0, servers.processors)
            try:
                measure(servers, given, found)
            finally:
                servers.end()
    print(table_of(HEADS, [row_of(name, rounds) for name, rounds in found.items()]))


main()
