#!/usr/bin/env -S python3 -B
"""How many requests a second does `admission serve` answer, beside nginx and HAProxy in the same run?

    bench/proxy.py PROGRAM [--seconds S] [--rounds N] [--workers W,..] [--processors P,..] [--results FILE]
                   [--answer BYTES] [--upload BYTES] [--refused] [--open PART,..] [--further PROXY] [--before PROGRAM]
                   [--only WORD,..] [CLIENTS ..]
    bench/proxy.py --from FILE

It starts an origin (nginx, which answers 13 bytes from memory), nginx and HAProxy as proxies, PROGRAM (built), once for
each number of workers W (by default 64; above that, exchanges at once), and a bare proxy of as many threads
(`bare_proxy.rs`, plain Rust, which checks nothing: the limit of this form, and no competitor), on loopback ports below
the ephemeral range. Every request has its own connection on both sides, but for those that are called kept, which keep
both (a bare one is `bare_kept.rs`), and those with the origin kept, which keep that side. --further names one more
proxy that keeps both: its words are where it listens, where the origin is, and the number of workers. --before names an
earlier build of `admission`, which has rows of its own. --only has the rows whose name has one of these words.

Everything runs on the same processors, since on a shared machine a program with more threads gets more of it: on one of
them, or on those of --processors. For each number of clients every round runs `wrk` against each proxy in turn, for S
seconds. It prints the medians of requests a second, the ratio to nginx by round with its spread, the times of an
answer, the user and system time of an exchange and its voluntary switches over all rounds, overflows of the accept
queues, and the resident memory after the last round.

`admission` runs under the scheduling policy batch, as it is packaged and as ./admission starts it, and under the usual
one; so do nginx and HAProxy. With --answer the origin answers with BYTES bytes; with --upload each request
is a POST of BYTES bytes, all of which the origin reads before it answers. With either one more nginx runs without
buffering. With --refused the limit is one and an exchange without an answer holds it; the refusals of `admission` with
429 and those of nginx's `limit_conn` are timed, and the others aren't there. The ratios are round by round.

With --open calls come at fixed moments, whether or not those before are answered, at such parts of what each proxy
serves where far too many come; a time then counts from the moment that a call was due. The callers (`open_loop.rs`) are
on a processor of their own then, where there is another one.

The figures of each visit are a line of --results, from which --from prints the tables, and bench/plots draws. It ends
all processes that it starts. Needs Debian's nginx-light, haproxy and wrk, and rustc.
"""
import argparse
import json
import os
import pathlib
import re
import shutil
import statistics
import subprocess
import sys
import tempfile
import time
import typing
from collections.abc import Mapping, Sequence

from proxies import Servers, Target, first_port, held, in_turns, numbers, table_of, targets_of, words_of
from traffic import percentile
from visits import Figures, by_wrk, calls_at, family, resident, told
from words import built, given_to, reader_with_results

TICK = os.sysconf("SC_CLK_TCK")
PACKAGES = {"nginx": "nginx-light", "haproxy": "haproxy", "wrk": "wrk", "taskset": "util-linux", "rustc": "rustc"}
# What each proxy is compared with, and what its column is called.
PEERS = {
    "nginx": "of nginx's",
    "nginx, batch": "of nginx's, batch",
    "nginx, kept": "of nginx's, kept",
    "nginx, kept, batch": "of nginx's, kept, batch",
    "nginx, unbuffered": "of nginx's, unbuffered",
    "bare, 64 threads, batch": "of the bare one's",
    "admission before, 64 workers": "of the earlier one's",
    "admission before, 64 workers, batch": "of the earlier one's, batch",
}


def spent(pid: int) -> tuple[float, float, int]:
    """The user and the system seconds of a process and its children, and their voluntary switches."""
    user, system, switches = 0, 0, 0
    for one in family(pid):
        fields = pathlib.Path(f"/proc/{one}/stat").read_text(encoding="utf-8").rpartition(")")[2].split()
        user, system = user + int(fields[11]), system + int(fields[12])
        threads = os.listdir(f"/proc/{one}/task")
        switches += sum(told(f"{one}/task/{thread}", "voluntary_ctxt_switches")[0] for thread in threads)
    return user / TICK, system / TICK, switches


def overflows() -> int:
    """How often an accept queue was full, since the machine began."""
    lines = pathlib.Path("/proc/net/netstat").read_text(encoding="ascii").splitlines()
    names, counts = (line.split() for line in lines[:2])
    return int(counts[names.index("ListenOverflows")])


def stolen() -> int:
    """The hundredths of a second that the host took from this machine so far."""
    return int(pathlib.Path("/proc/stat").read_text(encoding="ascii").split()[8])


def by_moments(servers: Servers, target: Target, rate: float, seconds: int) -> Figures:
    """What so many calls a second get, whether or not those before them are answered."""
    calls, _ = calls_at(servers, target, rate, seconds)
    took = [it.seconds * 1000 for it in calls if it.status == 200]
    return {
        "rate": len(took) / max(it.at + it.seconds for it in calls),
        "p50": percentile(took or [0.0], 0.5),
        "p99": percentile(took or [0.0], 0.99),
        "requests": max(1, len(took)),
        "wrong": len(calls) - len(took),
        "faults": "",
    }


def visit(target: Target, call: typing.Callable[..., Figures], *words: object) -> Figures:
    """One visit to a target, by a call with these words: its figures by name."""
    before, dropped, took = spent(target.process.pid), overflows(), stolen()
    found = call(*words)
    user, system, switches = (after - earlier for after, earlier in zip(spent(target.process.pid), before))
    return found | {
        "user": user * 1e6,
        "system": system * 1e6,
        "switches": switches,
        "resident": resident(target.process.pid),
        "overflows": overflows() - dropped,
        "stolen": (stolen() - took) / 100,
    }


def compared(runs: Sequence[Figures], peers: Sequence[Figures]) -> list[float]:
    """The ratios of the rates to a peer's, round by round."""
    return [run["rate"] / peer["rate"] for run, peer in zip(runs, peers)]


def row_of(name: str, found: Mapping[str, Sequence[Figures]], peers: Sequence[str]) -> list[str]:
    """What was found of a proxy: medians, and sums of all rounds by exchange; the spread is of the last ratio."""
    runs = found[name]
    middle = {key: statistics.median(run[key] for run in runs) for key in ("rate", "p50", "p99")}
    requests = sum(run["requests"] for run in runs)
    each = {key: sum(run[key] for run in runs) / requests for key in ("user", "system", "switches")}
    ratios = [compared(runs, found[peer]) if peer in found else [] for peer in peers]
    last = ratios[-1] if ratios else []
    return [
        name,
        f"{middle['rate']:,.0f}",
        *(f"{statistics.median(it):.2f}" if it else "" for it in ratios),
        f"{min(last):.2f} to {max(last):.2f}" if last else "",
        f"{middle['p50']:.2f} ms",
        f"{middle['p99']:.2f} ms",
        f"{each['user']:.1f} us",
        f"{each['system']:.1f} us",
        f"{each['switches']:.2f}",
        f"{runs[-1]['resident']:.1f} MB",
        f"{sum(run['wrong'] for run in runs)}, {sum(run['overflows'] for run in runs)}",
    ]


def tell(heads: Sequence[str], tables: Mapping[str, Mapping[str, Sequence[Figures]]]) -> None:
    """One table of some numbers of clients."""
    peers = [it for it in PEERS if any(it in tables[head] for head in heads)]
    columns = ["Clients", "Proxy", "requests/s", *(PEERS[peer] for peer in peers), "spread", "p50", "p99"]
    columns += ["user time", "system time", "switches", "resident", "not 200, overflows"]
    asked = {head: re.sub(r" clients?", "", head.rpartition(", ")[0]) for head in heads}
    rows = [[asked[head], *row_of(name, tables[head], peers)] for head in heads for name in tables[head]]
    print("\n" + table_of(columns, rows), flush=True)
    for head in heads:
        for name, runs in tables[head].items():
            for fault in sorted({run["faults"] for run in runs} - {""}):
                print(f"  {head}, {name}: {fault}", file=sys.stderr)


def tell_open(heads: Sequence[str], tables: Mapping[str, Mapping[str, Sequence[Figures]]]) -> None:
    """One table of the times where calls come at fixed moments: by the part of what each serves at most. The origin
    serves more than the callers can ask for, and isn't in it."""
    columns = ["Proxy", "at most", *(f"p50, p99 at {head.split()[0]}" for head in heads if head[0].isdigit())]
    rows = []
    for name in (it for it in tables[heads[0]] if it != "origin alone"):
        cells = [name]
        for head in heads:
            middle = {key: statistics.median(run[key] for run in tables[head][name]) for key in ("rate", "p50", "p99")}
            late = f"{middle['p50']:.2f}, {middle['p99']:.2f} ms"
            cells.append(late if head[0].isdigit() else f"{middle['rate']:,.0f}/s")
        rows.append(cells)
    print("\n" + table_of(columns, rows), flush=True)


class Noted:
    """The visits so far, by the processors, then by the clients or the part, then by the proxy."""

    def __init__(self, file: pathlib.Path | None = None) -> None:
        self.file = file
        self.tables: dict[str, dict[str, list[Figures]]] = {}

    def add(self, head: str, name: str, figures: Figures) -> None:
        self.tables.setdefault(head, {}).setdefault(name, []).append(figures)
        if self.file:
            with self.file.open("a", encoding="utf-8") as file:
                file.write(json.dumps({"table": head, "proxy": name, **figures}) + "\n")

    def tell(self) -> None:
        """All tables, by the processors."""
        for processors in dict.fromkeys(head.rpartition(", ")[2] for head in self.tables):
            heads = [head for head in self.tables if head.endswith(f", {processors}")]
            of_clients = [head for head in heads if " client" in head]
            print(f"\n{processors}")
            tell(of_clients, self.tables)
            if rest := [head for head in heads if head not in of_clients]:
                tell_open(rest, self.tables)

    def rate(self, head: str, name: str) -> float:
        return statistics.median(it["rate"] for it in self.tables[head][name])


def read_results(file: pathlib.Path) -> Noted:
    noted = Noted()
    for line in file.read_text(encoding="utf-8").splitlines():
        it = json.loads(line)
        if "table" in it:
            noted.add(it.pop("table"), it.pop("proxy"), it)
    return noted


def asking_of(servers: Servers, upload: int) -> list[str]:
    """The script of wrk that sends bodies."""
    script = f'wrk.method = "POST"\nwrk.body = string.rep("x", {upload})\n'
    return ["-s", servers.written("upload.lua", script)] if upload else []


def head_of(processors: Sequence[int], what: str) -> str:
    count = len(processors)
    return f"{what}, {count} processor" + ("s" if count > 1 else "")


def load_of(given: argparse.Namespace) -> str:
    """What is asked for, where it isn't the origin's 13 bytes."""
    if given.refused:
        return ", refused"
    what, size = ("upload", given.upload) if given.upload else ("answer", given.answer)
    return f", {what} of {size / 1000:g} KB" if size else ""


def measure(servers: Servers, targets: dict[str, Target], given: argparse.Namespace, noted: Noted) -> None:
    """All visits to what was started on some processors."""
    asking, last = asking_of(servers, given.upload), ""
    for clients in given.clients:
        last = head_of(servers.processors, f"{clients} client" + ("s" if clients > 1 else "") + load_of(given))
        for turn in range(given.rounds):
            for name in in_turns([*targets], turn):
                it = targets[name]
                with held(it.port, given.refused):
                    noted.add(last, name, visit(it, by_wrk, servers, it, clients, given.seconds, asking))
        print(f"proxy.py: {last}", file=sys.stderr)
    most = head_of(servers.processors, "at most")
    for name, it in targets.items() if given.open else ():
        noted.add(most, name, visit(it, by_moments, servers, it, 2 * noted.rate(last, name), given.seconds))
    for part in given.open:
        head = head_of(servers.processors, f"{part:g} of what each serves")
        for turn in range(given.rounds):
            for name in in_turns([*targets], turn):
                it, rate = targets[name], part * noted.rate(most, name)
                noted.add(head, name, visit(it, by_moments, servers, it, rate, given.seconds))
        print(f"proxy.py: {head}", file=sys.stderr)


def run(processors: Sequence[int], given: argparse.Namespace, noted: Noted) -> None:
    """Starts everything on some processors, measures it and ends it."""
    with tempfile.TemporaryDirectory(prefix="admission-bench-") as folder:
        os.chmod(folder, 0o755)
        others = sorted(os.sched_getaffinity(0) - {*processors})
        servers = Servers(pathlib.Path(folder), processors, others[-1:])
        try:
            first = first_port(9 + 8 * len(given.workers))
            targets = targets_of(servers, given.program, first, given)
            time.sleep(1.5)
            gone = [name for name, it in targets.items() if it.process.poll() is not None]
            if gone:
                sys.exit(f"proxy.py: {', '.join(gone)} didn't start; is a port from {first} on taken?")
            measure(servers, targets, given, noted)
        finally:
            servers.end()


def versions() -> dict[str, str]:
    """What was measured on what."""
    said = {
        name: subprocess.run(words, stdout=subprocess.PIPE, stderr=subprocess.STDOUT, text=True).stdout
        for name, words in {"nginx": ("nginx", "-v"), "HAProxy": ("haproxy", "-v"), "wrk": ("wrk", "-v")}.items()
    }
    found = {name: re.findall(r"[\d.]+\d\S*", text)[0] for name, text in said.items()}
    model = re.findall(
        r"^model name\s*: (.*)$", pathlib.Path("/proc/cpuinfo").read_text(encoding="utf-8"), re.MULTILINE
    )
    return found | {"kernel": os.uname().release, "processor": model[0] if model else os.uname().machine}


def parts(text: str) -> list[float]:
    return [float(word) for word in text.split(",")]


def given_words() -> argparse.Namespace:
    reader = reader_with_results(__doc__)
    reader.add_argument("--seconds", type=int, default=3)
    reader.add_argument("--rounds", type=int, default=8)
    reader.add_argument("--workers", type=numbers, default=[64])
    reader.add_argument("--processors", type=numbers, default=[1])
    reader.add_argument("--open", type=parts, default=[])
    reader.add_argument("--further", type=built)
    reader.add_argument("--before", type=built)
    reader.add_argument("--only", type=words_of, default=[""])
    one_of = reader.add_mutually_exclusive_group()
    one_of.add_argument("--answer", type=int, default=0)
    one_of.add_argument("--upload", type=int, default=0)
    one_of.add_argument("--refused", action="store_true")
    reader.add_argument("clients", type=int, nargs="*", default=[16, 64, 256])
    return given_to(reader)


def main() -> None:
    given = given_words()
    if given.earlier:
        read_results(given.earlier).tell()
        return
    missing = [package for name, package in PACKAGES.items() if not shutil.which(name)]
    if missing:
        sys.exit(f"proxy.py: {', '.join(missing)} isn't installed")
    if given.results:
        given.results.write_text(json.dumps(versions()) + "\n", encoding="utf-8")
    print(", ".join(f"{name} {version}" for name, version in versions().items()))
    noted = Noted(given.results)
    may = sorted(os.sched_getaffinity(0))
    for count in given.processors:
        if count > len(may):
            sys.exit(f"proxy.py: there aren't {count} processors")
        run(may[-count:], given, noted)
    noted.tell()


main()
