#!/usr/bin/env -S python3 -B
"""Does it serve thousands of requests at once, as nginx and HAProxy do in the same run?

    bench/exchanges.py PROGRAM [--seconds S] [--rounds N] [--exchanges N] [--part P] [--results FILE] [--only WORD,..]
    bench/exchanges.py --from FILE

PROGRAM serves with `--exchanges N` (2,048 by default) in front of backends of 200 slots that take 100 ms for an answer,
of 500 × 200 ms and of 1,000 × 1 s (`slots.rs`): with the limit `auto`, with `auto` and a backlog of 10, and with fixed
limits of half of the slots, of as many and of half as many again. The backlog is the default one otherwise. Beside it
are nginx, whose `limit_conn` is the backend's slots, and HAProxy with such a `maxconn` and a queue in which a request
waits for as long as an answer takes. All have keepalive on both sides. PROGRAM runs under the policy batch, as it is
packaged.

Calls arrive at fixed moments, whether or not earlier calls are answered (`open_loop.rs`), at half of what the backend
serves and at twice that. A time counts from the moment when a call was due. An answer is good within five times the
backend's time, or three times one second. Each visit takes half as long again as S seconds, or as four answers if these
take longer, and its first third isn't counted. Nor is a first round at either rate, so that a limit is found by then. A
refusal that took 0.9 seconds or more waited in the backlog until `timeout_ms`; the others are immediate.

A last table has the memory of nginx, HAProxy and PROGRAM with a fixed limit of N less one: when it is idle, the most
with a quick backend and up to 256 clients, and the most with one of 50 ms and as many clients as that limit; and how
long the start takes, until it listens and until it answers.

Everything runs on the processors that the script has. Rounds go from proxy to proxy in turns; figures are medians of
them, and ratios medians of those of each round. --part takes that part of the slots and the calls, for a program that
is too slow for all of them. --only has those of the backends and the memory whose names begin with one of these words:
200, 500, 1000, memory. The figures of each visit are a line of --results, from which --from prints the tables. Needs
Debian's nginx-light, haproxy and wrk, and rustc.
"""
import argparse
import contextlib
import dataclasses
import functools
import json
import os
import pathlib
import re
import statistics
import sys
import tempfile
import time
import urllib.request
from collections.abc import Callable, Iterator, Sequence

from backends import Backend
from proxies import ANY_SIZE, ONE_AT_A_TIME, Origin, Servers, Started, Target, asked, first_port, in_turns
from proxies import start_origin, table_of, words_of
from traffic import allow_many_sockets, percentile
from visits import Figures, by_wrk, calls_at, resident
from words import above_zero, given_to, reader_with_results

BACKENDS = (Backend(200, 0.1, 0.5), Backend(500, 0.2, 1.0), Backend(1_000, 1.0, 3.0))
# The parts of what a backend serves at which calls come, and of its slots at which a limit is fixed.
HALF, TWICE = 0.5, 2.0
FIXED = (0.5, 1.0, 1.5)
CONFIG = """version = 2
listen = "127.0.0.1:{port}"
backend = "127.0.0.1:{origin}"
clients = 10_000
backends = 64
"""
AUTO = '[limit]\nkind = "auto"\n'
# The greatest backlog where none is written; and how many milliseconds callers may be late without being told of.
BACKLOG, LATE = 100, 20
# A refusal that takes so many seconds waited in the backlog for the usual `timeout_ms`, a second.
WAITED = 0.9
MEMORY = "memory"
QUICK_CLIENTS = 256
# A backend that takes its time and has room for everybody, and how long a start may take.
SLOW = Backend(100_000, 0.05, 1.0)
STARTING, SETTLING = 20, 0.5
HEADS = [
    *("Backend", "Proxy", "at half: not 200", "p50, p99", "p99 of nginx's", "of HAProxy's"),
    *("at twice: good a second", "of the best fixed limit", "429", "429 after a wait", "neither 200 nor 429"),
    *("a 429, p50, p99", "p99 of nginx's", "a 429 at once, p99", "of nginx's", "limit in the end"),
]
MEMORY_HEADS = ["Proxy", "listens after", "answers after", "idle", "quick backend", "all used", "not 200", "of nginx's"]

# What starts a proxy by its name.
Starter = Callable[[Started, str], None]


def fixed(limit: int) -> str:
    return f'[limit]\nkind = "fixed"\ninitial = {limit}\n'


def started_slots(it: Backend, servers: Servers, port: int, _: argparse.Namespace) -> dict[str, Target]:
    """A backend of so many slots, of which nothing is timed alone."""
    servers.start(servers.built("slots"), f"127.0.0.1:{port}", str(it.slots), f"{1000 * it.seconds:.0f}")
    return {}


def starters(it: Backend, exchanges: int) -> dict[str, Starter]:
    """What starts the proxies before a backend, by their names."""
    queue = f"timeout queue {1000 * it.seconds:.0f}ms"

    def gateway(tables: str, started: Started, name: str) -> None:
        words = ("--exchanges", str(exchanges), "--status", f"127.0.0.1:{next(started.ports)}")
        started.gateway(name, CONFIG + tables, words)

    limits = {part: round(part * it.slots) for part in FIXED}
    return {
        "nginx": lambda started, name: started.nginx(name, f"limit_conn all {it.slots};", ONE_AT_A_TIME, is_kept=True),
        "HAProxy": lambda started, name: started.haproxy(name, is_kept=True, most=it.slots, queue=queue),
        "admission, auto": functools.partial(gateway, AUTO),
        "admission, auto, backlog 10": functools.partial(gateway, "backlog = 10\n" + AUTO),
        **{
            f"admission, fixed at {part:g} of the slots": functools.partial(gateway, fixed(limit))
            for part, limit in limits.items()
        },
    }


def memory_starters(exchanges: int) -> dict[str, Starter]:
    """What starts the proxies whose memory is told."""
    text = f"{CONFIG}wait = false\n{fixed(exchanges - 1)}"
    return {
        "nginx": lambda started, name: started.nginx(name, ANY_SIZE, is_kept=True),
        "HAProxy": lambda started, name: started.haproxy(name, is_kept=True, most=exchanges),
        f"admission, {exchanges:,} exchanges": lambda started, name: started.gateway(
            name, text, ("--exchanges", str(exchanges))
        ),
    }


def await_answer(target: Target, name: str, begun: float) -> tuple[float, float]:
    """How many milliseconds a start takes, until connections are accepted and until something is answered."""
    while True:
        with contextlib.suppress(ConnectionError, TimeoutError), asked(target.port) as caller:
            listens = time.perf_counter() - begun
            caller.settimeout(STARTING)
            if caller.recv(12).startswith(b"HTTP/1.1 "):
                return 1000 * listens, 1000 * (time.perf_counter() - begun)
        if target.process.poll() is not None or time.perf_counter() - begun > STARTING:
            sys.exit(f"exchanges.py: {name} didn't start")
        time.sleep(0.001)


def begin(started: Started, name: str, start: Starter) -> tuple[Target, tuple[float, float]]:
    """A proxy, and the milliseconds that its start took."""
    begun = time.perf_counter()
    start(started, name)
    target = started.found[name]
    return target, await_answer(target, name, begun)


def limit_of(target: Target) -> int:
    """The limit that a gateway reports at its address for status, which is the port before its own."""
    with urllib.request.urlopen(f"http://127.0.0.1:{target.port - 1}/metrics", timeout=STARTING) as said:
        found = re.search(rb"(?m)^admission_limit (\d+)", said.read())
    return int(found[1]) if found else 0


def visit(servers: Servers, target: Target, it: Backend, part: float, seconds: float) -> Figures:
    """One visit, at a part of what the backend serves."""
    length = 1.5 * max(seconds, 4 * it.seconds)
    threads = 128 + round(4 * min(1.0, part) * it.slots)
    calls, late = calls_at(servers, target, part * it.capacity, length, threads)
    calls = [call for call in calls if call.at >= length / 3]
    served = [call.seconds for call in calls if call.status == 200]
    refused = [call.seconds for call in calls if call.status == 429]
    return {
        "good": sum(it.bound >= seconds for seconds in served) / (length * 2 / 3),
        "calls": len(calls),
        "served": len(served),
        "refused": len(refused),
        "lost": len(calls) - len(served) - len(refused),
        "p50": 1000 * percentile(served or [0.0], 0.5),
        "p99": 1000 * percentile(served or [0.0], 0.99),
        "refused_p50": 1000 * percentile(refused or [0.0], 0.5),
        "refused_p99": 1000 * percentile(refused or [0.0], 0.99),
        "waited": sum(seconds >= WAITED for seconds in refused),
        "at_once_p99": 1000 * percentile([seconds for seconds in refused if seconds < WAITED] or [0.0], 0.99),
        "late": 1000 * late,
    }


class Noted:
    """All visits so far, by the table and the proxy, each a line of a file where there is one."""

    def __init__(self, file: pathlib.Path | None) -> None:
        self.file = file
        self.found: dict[str, dict[str, list[Figures]]] = {}

    def add(self, table: str, name: str, figures: Figures) -> None:
        self.found.setdefault(table, {}).setdefault(name, []).append(figures)
        if self.file:
            with self.file.open("a", encoding="utf-8") as file:
                file.write(json.dumps({"table": table, "proxy": name, **figures}, ensure_ascii=False) + "\n")

    def read(self, file: pathlib.Path) -> None:
        for line in file.read_text(encoding="utf-8").splitlines():
            it = json.loads(line)
            self.add(it.pop("table"), it.pop("proxy"), it)

    def rounds(self, table: str, name: str) -> list[Figures]:
        """The rounds of a proxy that count."""
        return [it for it in self.found.get(table, {}).get(name, []) if it["round"]]


def median(rounds: Sequence[Figures], name: str) -> float:
    return statistics.median(it[name] for it in rounds)


def ratio(rounds: Sequence[Figures], peers: Sequence[Figures], name: str) -> str:
    """The median of the ratios to a peer's figures, round by round."""
    found = [it[name] / peer[name] for it, peer in zip(rounds, peers) if peer[name]]
    return f"{statistics.median(found):.2f}" if found else ""


def share(rounds: Sequence[Figures], *names: str) -> str:
    """The part of all calls that came to one of these."""
    part = sum(it[name] for it in rounds for name in names) / max(1, sum(it["calls"] for it in rounds))
    return f"{part:.1%}"


def table_at(backend: str, part: float) -> str:
    return f"{backend}, {part:g} of what it serves"


def best_fixed(noted: Noted, table: str) -> Sequence[Figures]:
    """The rounds of the fixed limit that had the most good answers."""
    rounds = [noted.rounds(table, name) for name in noted.found[table] if "fixed" in name]
    return max(filter(None, rounds), key=lambda it: median(it, "good"), default=[])


def calm_cells(rounds: Sequence[Figures], nginx: Sequence[Figures], haproxy: Sequence[Figures]) -> list[str]:
    """What was found of a proxy at half of what the backend serves."""
    return [
        share(rounds, "refused", "lost"),
        f"{median(rounds, 'p50'):.0f}, {median(rounds, 'p99'):.0f} ms",
        *(ratio(rounds, peer, "p99") for peer in (nginx, haproxy)),
    ]


def full_cells(rounds: Sequence[Figures], nginx: Sequence[Figures], best: Sequence[Figures]) -> list[str]:
    """The same at twice that, beside nginx and the best fixed limit."""
    cells = [f"{median(rounds, 'good'):,.0f}", ratio(rounds, best, "good")]
    cells += [share(rounds, "refused"), share(rounds, "waited"), share(rounds, "lost")]
    if any(it["refused"] for it in rounds):
        cells += [f"{median(rounds, 'refused_p50'):.1f}, {median(rounds, 'refused_p99'):.1f} ms"]
        cells += [ratio(rounds, nginx, "refused_p99")]
        cells += [f"{median(rounds, 'at_once_p99'):.1f} ms", ratio(rounds, nginx, "at_once_p99")]
    else:
        cells += [""] * 4
    return [*cells, f"{rounds[-1]['limit']:,}" if "limit" in rounds[-1] else ""]


def row_of(noted: Noted, backend: str, name: str) -> list[str]:
    """What was found of a proxy before a backend."""
    half, twice = (table_at(backend, part) for part in (HALF, TWICE))
    calm, full = noted.rounds(half, name), noted.rounds(twice, name)
    late = max((median(it, "late") for it in (calm, full) if it), default=0)
    cells = [backend, f"{name} (callers late by {late:.0f} ms)" if late > LATE else name]
    cells += calm_cells(calm, *(noted.rounds(half, peer) for peer in ("nginx", "HAProxy"))) if calm else [""] * 4
    cells += full_cells(full, noted.rounds(twice, "nginx"), best_fixed(noted, twice)) if full else []
    return cells + [""] * (len(HEADS) - len(cells))


def memory_row(noted: Noted, name: str) -> list[str]:
    rounds = noted.rounds(MEMORY, name)
    return [
        name,
        *(f"{median(rounds, key):.0f} ms" for key in ("listens", "answers")),
        *(f"{median(rounds, key):.1f} MB" for key in ("idle", "quick", "used")),
        share(rounds, "wrong"),
        ratio(rounds, noted.rounds(MEMORY, "nginx"), "used"),
    ]


def tell(noted: Noted) -> None:
    """All tables."""
    backends = dict.fromkeys(table.rpartition(", ")[0] for table in noted.found if table != MEMORY)
    rows = []
    for backend in backends:
        names = dict.fromkeys(name for part in (HALF, TWICE) for name in noted.found.get(table_at(backend, part), {}))
        rows += [row_of(noted, backend, name) for name in names]
    if rows:
        print(table_of(HEADS, rows) + "\n")
    if MEMORY in noted.found:
        print(table_of(MEMORY_HEADS, [memory_row(noted, name) for name in noted.found[MEMORY]]))


class Run:
    """What all tables are measured with."""

    def __init__(self, given: argparse.Namespace, room: pathlib.Path, noted: Noted) -> None:
        self.given, self.room, self.noted = given, room, noted
        given.refused = given.answer = given.upload = 0

    @contextlib.contextmanager
    def before(self, count: int, start: Origin = start_origin) -> Iterator[Started]:
        """So many proxies before an origin; all that was started is ended."""
        servers = Servers(self.room, sorted(os.sched_getaffinity(0)), ())
        try:
            yield Started(servers, self.given.program, first_port(1 + count), self.given, start)
        finally:
            servers.end()

    def slots(self, it: Backend) -> None:
        """All visits before a backend."""
        backend = str(it)
        it = dataclasses.replace(it, slots=max(2, round(it.slots * self.given.part)))
        proxies = starters(it, self.given.exchanges)
        with self.before(2 * len(proxies), functools.partial(started_slots, it)) as started:
            targets = {name: begin(started, name, start)[0] for name, start in proxies.items()}
            for part, names in ((HALF, [name for name in targets if "fixed" not in name]), (TWICE, [*targets])):
                for turn in range(self.given.rounds + 1):
                    for name in in_turns(names, turn):
                        figures = visit(started.servers, targets[name], it, part, self.given.seconds)
                        if "admission" in name:
                            figures["limit"] = limit_of(targets[name])
                        self.noted.add(table_at(backend, part), name, figures | {"round": turn})
                    print(f"exchanges.py: {backend} at {part:g}, round {turn}", file=sys.stderr)

    def memory(self) -> None:
        """Each round starts each proxy twice, before a quick backend and before a slow one."""
        proxies, clients = memory_starters(self.given.exchanges), self.given.exchanges - 1
        for turn in range(self.given.rounds):
            for name in in_turns([*proxies], turn):
                with self.before(1) as started:
                    target, (listens, answers) = begin(started, name, proxies[name])
                    time.sleep(SETTLING)
                    idle = resident(target.process.pid)
                    by_wrk(started.servers, target, min(QUICK_CLIENTS, clients), self.given.seconds, ())
                    quick = resident(target.process.pid, "VmHWM")
                with self.before(1, functools.partial(started_slots, SLOW)) as started:
                    target, _ = begin(started, name, proxies[name])
                    asked_all = by_wrk(started.servers, target, clients, self.given.seconds, ())
                    used = resident(target.process.pid, "VmHWM")
                figures = {"listens": listens, "answers": answers, "idle": idle, "quick": quick, "used": used}
                asked_of = {"calls": asked_all["requests"], "wrong": asked_all["wrong"], "rate": asked_all["rate"]}
                self.noted.add(MEMORY, name, figures | asked_of | {"round": turn + 1})
            print(f"exchanges.py: memory, round {turn + 1}", file=sys.stderr)


def given_words() -> argparse.Namespace:
    reader = reader_with_results(__doc__)
    reader.add_argument("--seconds", type=above_zero(int), default=10)
    reader.add_argument("--rounds", type=above_zero(int), default=4)
    reader.add_argument("--exchanges", type=above_zero(int), default=2_048)
    reader.add_argument("--part", type=above_zero(float), default=1.0)
    reader.add_argument("--only", type=words_of, default=[""])
    return given_to(reader)


def main() -> None:
    given = given_words()
    noted = Noted(None if given.earlier else given.results)
    if given.earlier:
        noted.read(given.earlier)
        tell(noted)
        return
    allow_many_sockets()
    backends = [it for it in BACKENDS if str(it).startswith(tuple(given.only))]
    wanted = max((round(FIXED[-1] * it.slots * given.part) + BACKLOG + 1 for it in backends), default=2)
    if given.exchanges < wanted:
        sys.exit(f"exchanges.py: --exchanges {wanted} or more is wanted by these backends")
    with tempfile.TemporaryDirectory(prefix="admission-bench-") as room:
        os.chmod(room, 0o755)
        run = Run(given, pathlib.Path(room), noted)
        for it in backends:
            run.slots(it)
        if MEMORY.startswith(tuple(given.only)):
            run.memory()
    tell(noted)


main()
