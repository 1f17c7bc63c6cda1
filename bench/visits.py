"""Visits to a proxy: clients that ask it, and what its processes have in memory."""
import os
import pathlib
import re
import subprocess
import typing
from collections.abc import Sequence

from proxies import Servers, Target, milliseconds, placed
from traffic import Call, percentile

# The figures of a visit by their names.
Figures = dict[str, typing.Any]


def family(pid: int) -> list[int]:
    """A process with its children."""
    found = [pid]
    for entry in filter(str.isdigit, os.listdir("/proc")):
        try:
            stat = pathlib.Path(f"/proc/{entry}/stat").read_text(encoding="utf-8")
        except OSError:
            continue
        if int(stat.rpartition(")")[2].split()[1]) == pid:
            found.append(int(entry))
    return found


def told(pid: int | str, *names: str) -> list[int]:
    """Numbers of a process or a thread, by their names in its status; 0 where it is gone."""
    try:
        lines = pathlib.Path(f"/proc/{pid}/status").read_text(encoding="utf-8").splitlines()
    except OSError:
        return [0 for _ in names]
    found = {line.partition(":")[0]: line.split()[1] for line in lines if len(line.split()) > 1}
    return [int(found.get(name, 0)) for name in names]


def resident(pid: int, name: str = "VmRSS") -> float:
    """The megabytes that a process and its children have in memory; or had at most, by `VmHWM`."""
    return sum(told(one, name)[0] for one in family(pid)) / 1024


def group_of(pattern: str, said: str) -> str:
    """What the group of a pattern is in a text."""
    return re.findall(pattern, said)[0]


def by_wrk(servers: Servers, target: Target, clients: int, seconds: int, asking: Sequence[str]) -> Figures:
    """What so many clients get, each of whom asks once it is answered."""
    threads = min(clients, len(servers.processors))
    wrk = placed(servers.processors, "wrk", f"-t{threads}", f"-c{clients}", f"-d{seconds}s", "--latency", *asking)
    closing = [] if target.is_kept else ["-H", "Connection: close"]
    words = [*wrk, *closing, f"http://127.0.0.1:{target.port}/"]
    said = subprocess.run(words, capture_output=True, text=True, check=True).stdout
    wrong = re.search(r"Non-2xx or 3xx responses: (\d+)", said)
    faults = re.search(r"Socket errors: (.*)", said)
    return {
        "rate": float(group_of(r"Requests/sec:\s+([\d.]+)", said)),
        "p50": milliseconds(group_of(r"\n\s+50%\s+(\S+)", said)),
        "p99": milliseconds(group_of(r"\n\s+99%\s+(\S+)", said)),
        "requests": max(1, int(group_of(r"(\d+) requests in", said))),
        "wrong": int(wrong[1]) if wrong else 0,
        "faults": faults[1] if faults else "",
    }


def calls_at(
    servers: Servers, target: Target, rate: float, seconds: float, threads: int = 128
) -> tuple[list[Call], float]:
    """So many calls a second, whether or not those before them are answered, by so many threads, with their times since
    they were due; and how many seconds late the 99th of 100 began."""
    how = "kept" if target.is_kept else "closed"
    words = [str(target.port), f"{rate:.3f}", f"{seconds:.3f}", how, str(threads)]
    words = placed(servers.others or servers.processors, servers.built("open_loop"), *words)
    said = subprocess.run(words, capture_output=True, text=True, check=True).stdout
    rows = [[int(word) for word in line.split()] for line in said.splitlines()]
    calls = [Call(due / 1e6, "", status, took / 1e6) for due, status, took, _ in rows]
    return calls, percentile([late / 1e6 for *_, late in rows], 0.99)
