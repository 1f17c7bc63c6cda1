#!/usr/bin/env -S python3 -B
"""Does virtual time agree with what bench/adapts measured? bench/simulated.py [RESULTS]

The limit is that of tests/reference.py, which is written from the documents alone. Calls arrive evenly at twice what a
backend can serve, and a way through the gateway and back takes half a millisecond. A row has the part of the best fixed
limit's good answers: from the cold start, and once the limit had a third of the time. Beside it is what a run of
bench/adapts measured, if its RESULTS are named, and how far the second figure is from that. No clock is used, so it
prints the same each time. The backend of 64 slots is omitted, since it fills all 64 workers.
"""
import concurrent.futures
import json
import pathlib

from backends import FURTHER, PLAIN, Backend
from simulation import Simulated, fixed
from virtual import reference
from words import reader_of

AGREES = 0.05


def part_of(ours: tuple[float, float], best: tuple[float, float]) -> tuple[float, float]:
    return ours[0] / best[0], ours[1] / best[1]


def row_of(backend: Backend) -> tuple[float, float]:
    """The parts of the best fixed limit's good answers, from the start on and once the limit was found."""
    return part_of(Simulated(reference.Auto(1, 4, 53), backend).run().reached(), fixed(backend))


def measured(file: pathlib.Path) -> dict[str, tuple[float, float]]:
    """Such parts of a run of bench/adapts, by the backend."""
    found: dict[str, dict[str, tuple[float, float]]] = {}
    for it in map(json.loads, file.read_text(encoding="utf-8").splitlines()):
        backend, _, name = it["run"].partition(" | ")
        found.setdefault(backend, {})[name] = it["good"], it["settled"]
    parts = {}
    for backend, rows in found.items():
        best = max((it for name, it in rows.items() if name.startswith("fixed ")), default=None)
        if best and "packaged" in rows:
            parts[backend] = part_of(rows["packaged"], best)
    return parts


def main() -> None:
    reader = reader_of(__doc__)
    reader.add_argument("results", type=pathlib.Path, nargs="?", metavar="RESULTS")
    given = reader.parse_args()
    found = measured(given.results) if given.results else {}
    backends = [it for it in (*PLAIN, *FURTHER) if it.slots < 64]
    print("| Backend | simulated | measured | |\n|---|---|---|---|")
    with concurrent.futures.ProcessPoolExecutor() as pool:
        for backend, (whole, settled) in zip(backends, pool.map(row_of, backends)):
            beside = found.get(str(backend))
            cells = [f"{backend}", f"{whole:.2f}, {settled:.2f}"]
            cells.append(f"{beside[0]:.2f}, {beside[1]:.2f}" if beside else "")
            cells.append(f"{beside[1] - settled:+.2f}" if beside and abs(beside[1] - settled) > AGREES else "")
            print("| " + " | ".join(cells) + " |", flush=True)


main()
