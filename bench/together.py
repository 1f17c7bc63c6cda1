#!/usr/bin/env -S python3 -B
"""Can several gateways share a backend, and classes a gateway, in virtual time? bench/together.py

Each limit is `auto`, beside it one that is fixed at what is right. The first table has several gateways in front of one
backend, each with a limit of its own, beside those whose `max` is its part of the slots and a headroom. The second has
one gateway whose two classes take different times, with a share of 600 thousandths for the quick one and without. Calls
arrive evenly at twice what the backend can serve. A cell has the good answers of the last 40 seconds of a minute as a
part of those that the backend would give, and the mean limits then. No clock is used, so it prints the same each time.
"""
from virtual import Backend, Run
from words import reader_of

BACKENDS = (
    Backend(8, 50_000_000),
    Backend(16, 50_000_000),
    Backend(16, 500_000_000),
    Backend(30, 100_000_000),
    Backend(16, 50_000_000, spread=0.5),
)
SHARE = "share quick 600"


def cell(gateways: list[list[str]], backend: Backend) -> str:
    part, means = Run(gateways, backend).run()
    return f"{part:.2f}, limit {', '.join(f'{it:.0f}' for it in means)}"


def print_row(name: object, *cells: str) -> None:
    print(f"| {name} | " + " | ".join(cells) + " |", flush=True)


def print_heads(*heads: str) -> None:
    print_row(*heads)
    print("|---" * len(heads) + "|")


def main() -> None:
    reader_of(__doc__).parse_args()
    print_heads("Backend", "one", "two", "two, each with its part as `max`", "three", "two, fixed at halves")
    for it in BACKENDS:
        half = it.slots // 2
        auto, part = "limit auto 1 4 53", f"limit auto 1 {min(4, half)} {half + 2}"
        print_row(
            it,
            *(cell([[line]] * count, it) for line, count in ((auto, 1), (auto, 2), (part, 2), (auto, 3))),
            cell([[f"limit fixed {half}"]] * 2, it),
        )
    print()
    print_heads(
        "16 × 20 ms, the other class", "auto", "fixed at the slots", "auto, with a share", "fixed, with a share"
    )
    for times in (2, 4, 10, 20):
        plain = Backend(16, 20_000_000, longer=(("quick", 1.0), ("unknown", float(times))))
        lines = ("limit auto 1 4 53", "limit fixed 16")
        print_row(
            f"{times} times as long",
            *(cell([[line, share]], plain) for share in ("share quick 1", SHARE) for line in lines),
        )


main()
