#!/usr/bin/env -S python3 -B
"""What do answers cost that break off, by the kind of limit? bench/broken.py

Some of a backend's answers break off after their whole time, whatever its load, and each is a drop. Calls arrive evenly
at twice the rate that the backend can serve, for a minute of virtual time. A backend is a tenth slower while as many
requests wait at it as it has slots. The limits are those of tests/reference.py. A cell has the good answers of the last
40 seconds as a part of those that the backend would give at its slots, less what breaks off; and the mean limit then.
No clock is used, so it prints the same each time. It takes about two minutes.
"""
import dataclasses

from virtual import Backend, Run
from words import reader_of

PARTS = (0.0, 0.01, 0.02, 0.05, 0.1)
BACKENDS = (
    Backend(8, 50_000_000),
    Backend(16, 50_000_000),
    Backend(16, 50_000_000, spread=0.5),
    Backend(30, 100_000_000),
)
SMALL, LARGE = "vegas 3 6 32 2 8 3000", "vegas 16 30 53 12 20 1000"


def limits(slots: int, takes: int) -> dict[str, list[str]]:
    """The setting lines by their names."""
    large = slots > 16
    vegas, window = (LARGE, "2 50000000 250000000 20000000") if large else (SMALL, "3 50000000 2000000000 3000000")
    least, most = (16, 53) if large else (3, 32)
    return {
        "fixed at the slots": [f"limit fixed {slots}"],
        "as packaged: auto": ["limit auto 1 4 53"],
        "Vegas over windows": [f"limit {vegas}", f"window {window}"],
        "Vegas over windows of a quarter of an answer": [
            f"limit {vegas}",
            f"window 1 {takes // 4} {takes // 4} 3000000",
        ],
        "Vegas without windows": [f"limit {vegas}"],
        "AIMD 900 over windows": [f"limit aimd {least} {least} {most} 900 {2 * takes}", f"window {window}"],
        "AIMD 900 without windows": [f"limit aimd {least} {least} {most} 900 {2 * takes}"],
        "AIMD 999 without windows": [f"limit aimd {least} {least} {most} 999 {2 * takes}"],
    }


def main() -> None:
    reader_of(__doc__).parse_args()
    for backend in BACKENDS:
        print(f"\n| {backend} | " + " | ".join(f"{it:.0%} broken" for it in PARTS) + " |")
        print("|---" * (1 + len(PARTS)) + "|")
        for name, settings in limits(backend.slots, backend.takes).items():
            found = [Run([settings], dataclasses.replace(backend, broken=part)).run() for part in PARTS]
            print(f"| {name} | " + " | ".join(f"{part:.2f}, limit {mean:.0f}" for part, (mean,) in found) + " |")


main()
