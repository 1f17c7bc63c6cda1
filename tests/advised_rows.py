"""Rows of `tests/keys`: what `check --explain` says of configurations without a fault."""
from config_texts import (
    ADDRESSES,
    AIMD,
    AUTO,
    BY_METHOD,
    BY_ROUTE,
    BYPASS,
    FIXED,
    LIVE_OF_TWO,
    OF_TWO,
    PLAIN,
    SETTABLE,
    VEGAS,
)

# What it says last of connections that aren't kept, and of which are.
KEEPALIVE_OFF = "keepalive=off: each connection carries one request; clients and backends of version 2 keep them\n"
OF_KEEPALIVE = [
    (
        addresses,
        f"backlog = 0\n{lines}{FIXED}",
        "greatest limit 4, shares of it 0 and backlog 0 are 4 together\n"
        "serve it with --workers 5 or more, at most 64\n" + words,
    )
    for addresses, lines, words in [
        (ADDRESSES, "", KEEPALIVE_OFF),
        (OF_TWO, "clients = 0\nbackends = 0\n", KEEPALIVE_OFF),
        (OF_TWO, "client_idle_ms = 1\nbackend_idle_ms = 1\n", KEEPALIVE_OFF),
        (
            OF_TWO,
            "clients = 1\n",
            "keepalive=clients: each connection to the backend carries one request; backends keeps them\n",
        ),
        (
            OF_TWO,
            "backends = 1\n",
            "keepalive=backend: each connection of a client carries one request; clients keeps them\n",
        ),
        (OF_TWO, "clients = 1\nbackends = 1\n", ""),
    ]
]
# Lines behind the version and the addresses, and what it says of them before that.
OF_NO_FAULT = [
    (
        "backlog = 9\n" + PLAIN + "initial = 40\n",
        "greatest limit 40, shares of it 0 and backlog 9 are 49 together\n"
        "serve it with --workers 50 or more, at most 64\n",
    ),
    (
        "backlog = 9\n" + AIMD + "max = 40\ninitial = 4\n" + LIVE_OF_TWO,
        "greatest limit 40, shares of it 24 and backlog 9 are 73 together\n"
        "too few workers: there are at most 64, and callers past them wait unseen; serve it with --exchanges, or lower "
        "the limit or the backlog\n"
        "limit.timeout_us = 5000000 is above a second: answers up to that only raise the limit, however long the "
        "queue at the backend\n",
    ),
    (
        "backlog = 9\nwait = false\n" + FIXED,
        "greatest limit 4, shares of it 0 and backlog 0 are 4 together\n"
        "serve it with --workers 5 or more, at most 64\nwait = false: nobody waits, so backlog = 9 has no effect\n",
    ),
    (
        "backlog = 23\n" + PLAIN + "initial = 40\n",
        "greatest limit 40, shares of it 0 and backlog 23 are 63 together\n"
        "serve it with --workers 64 or more, at most 64\n",
    ),
    (
        "backlog = 24\n" + PLAIN + "initial = 40\n",
        "greatest limit 40, shares of it 0 and backlog 24 are 64 together\n"
        "too few workers: there are at most 64, and callers past them wait unseen; serve it with --exchanges, or lower "
        "the limit or the backlog\n",
    ),
    (
        "wait = false\n" + FIXED,
        "greatest limit 4, shares of it 0 and backlog 0 are 4 together\n"
        "serve it with --workers 5 or more, at most 64\n",
    ),
]
# What it says of a limit that may not adapt, and of callers who may not be told apart, behind the words on workers.
FEW = "backlog = 9\n"
ON_WORKERS = (
    "greatest limit 40, shares of it 0 and backlog 9 are 49 together\n"
    "serve it with --workers 50 or more, at most 64\n"
)
NO_PROBES = "limit.probe_every = 0: one quick answer, or a drop, can keep the limit low for good\n"
SLOW_TIMEOUT = (
    "limit.timeout_us = {} is above a second: answers up to that only raise the limit, however long the queue "
    "at the backend\n"
)
MANY = "window.size = {} is above twice limit.min = {}: a limit that fell to min can stay there for good\n"
SHORT = (
    "window.max_us = {}: where an answer takes a second, {} at once make fewer than {} in a window, and a limit "
    "that fell to min can stay there for good\n"
)
LEARNING, PROBING = AIMD + "max = 40\ntimeout_us = {}\n", VEGAS + "max = 40\nprobe_every = 1\n"
OF_NO_FAULT += [
    (FEW + lines, ON_WORKERS + words)
    for lines, words in [
        (VEGAS + "max = 40\n", NO_PROBES),
        (PROBING, ""),
        (LEARNING.format(1_000_000), ""),
        (LEARNING.format(1_000_001), SLOW_TIMEOUT.format(1_000_001)),
        (PROBING + "min = 5\n[window]\nsize = 11\nmax_us = 2_000_000\n", MANY.format(11, 5)),
        (PROBING + "min = 5\n[window]\nsize = 10\nmax_us = 2_000_000\n", ""),
        (PROBING + "min = 5\n[window]\nsize = 10\nmax_us = 1_999_999\n", SHORT.format(1_999_999, 5, 10)),
        (PROBING + "min = 5\n[window]\n", SHORT.format(1_000_000, 5, 10)),
        (PROBING + "[window]\nsize = 1\nmin_us = 1\nmax_us = 1\n", ""),
        (PROBING + "[window]\n", MANY.format(10, 1)),
        (PROBING + "min = 16\n[window]\nsize = 2\nmin_us = 50_000\nmax_us = 125_000\n", ""),
        (PROBING + "min = 16\n[window]\nsize = 2\nmin_us = 50_000\nmax_us = 124_999\n", SHORT.format(124_999, 16, 2)),
        (VEGAS + "max = 40\n[window]\n", NO_PROBES + MANY.format(10, 1)),
        (LEARNING.format(9_000_000) + "[window]\n", SLOW_TIMEOUT.format(9_000_000) + MANY.format(10, 1)),
        (PLAIN + "initial = 40\n[window]\n", ""),
        (SETTABLE + "max = 40\n[window]\n", ""),
        (
            PLAIN + 'initial = 40\n[[resolver]]\nkind = "header"\nheader = "A"\n',
            "resolver 1 tells a class by a header, and there is no class\n",
        ),
        (
            PLAIN + "initial = 40\n" + BYPASS + '[[bypass]]\nkind = "method"\nmethod = "Get"\n',
            'bypass 2 has the method "Get" with small letters: methods are compared byte for byte, and clients send '
            "capitals\n",
        ),
        (PLAIN + 'initial = 40\n[[bypass]]\nkind = "method"\nmethod = "M-SEARCH"\n', ""),
        # of two resolvers the one that is meant is named
        (
            PLAIN + "initial = 40\n" + BY_ROUTE + '[[resolver]]\nkind = "header"\nheader = "A"\n',
            "resolver 2 tells a class by a header, and there is no class\n",
        ),
        (
            PLAIN + 'initial = 40\n[[resolver]]\nkind = "header"\nheader = "A"\n' + BY_ROUTE,
            "resolver 1 tells a class by a header, and there is no class\n",
        ),
        # an empty table of routes does nothing, and isn't told
        (PLAIN + "initial = 40\n" + BY_ROUTE, ""),
    ]
]
TOO_FEW = (
    "too few workers: there are at most 64, and callers past them wait unseen; serve it with --exchanges, or lower the "
    "limit or the backlog\n"
)
OF_NO_FAULT += [
    (
        "backlog = 0\n" + PLAIN + "initial = 64\n",
        "greatest limit 64, shares of it 0 and backlog 0 are 64 together\n" + TOO_FEW,
    ),
    (
        "backlog = 0\n" + PLAIN + "initial = 65\n",
        "greatest limit 65, shares of it 0 and backlog 0 are 65 together\n"
        + TOO_FEW
        + "a limit above 64 is never reached: there are at most as many workers\n",
    ),
    (
        "backlog = 0\n" + FIXED + LIVE_OF_TWO + BY_METHOD.replace("GET", "get"),
        "greatest limit 4, shares of it 3 and backlog 0 are 7 together\n"
        "serve it with --workers 8 or more, at most 64\n"
        'resolver 1 has the method "get" with small letters: methods are compared byte for byte, and clients send '
        "capitals\n",
    ),
]
OF_NO_FAULT += [
    (
        "backlog = 0\n" + FIXED + LIVE_OF_TWO + rules,
        "greatest limit 4, shares of it 3 and backlog 0 are 7 together\n"
        "serve it with --workers 8 or more, at most 64\n"
        f'resolver {number} has the method "get" with small letters: methods are compared byte for byte, and clients '
        "send capitals\n",
    )
    for number, rules in (
        (1, BY_METHOD.replace("GET", "get") + BY_METHOD),
        (2, BY_METHOD + BY_METHOD.replace("GET", "get")),
    )
]
# Routes that don't match what they seem to are told, of each resolver in the order of their bytes; braces name what
# varies, and a colon within a segment is a sign like any other.
NO_PATH = "matches no path: each path begins with /"
ITSELF = "matches this path alone: {name} stands for one segment, and {*rest} for the rest"
HEADER = '[[resolver]]\nkind = "header"\nheader = "A"\n'
OF_ROUTES: list[tuple[str, int, list[tuple[str, str | None]]]] = [
    (BY_ROUTE, 1, [("a", NO_PATH), ("/b/:id", ITSELF)]),
    (HEADER + BY_ROUTE, 2, [("/live/*", ITSELF), ("live/..", NO_PATH), ("/:a/b", ITSELF), ("x/:y", NO_PATH)]),
    (BY_ROUTE, 1, [("*", ITSELF), ("**", NO_PATH), ("/a/b*c/d", ITSELF), ("/*rest", ITSELF), ("{name}", NO_PATH)]),
    (BY_ROUTE, 1, [("/a/{id}", None), ("/b/{*rest}", None), ("/c:d/e", None), ("/f/:", None), ("/", None)]),
    (BY_ROUTE, 1, [("{*rest}", None)]),
    (BY_ROUTE, 1, [("/{{*}}/a", None), ("/a/{id}/*", ITSELF)]),
]
OF_NO_FAULT += [
    (
        "backlog = 0\n" + FIXED + LIVE_OF_TWO + rules + "".join(f'"{it}" = "live"\n' for it, _ in routes),
        "greatest limit 4, shares of it 3 and backlog 0 are 7 together\n"
        "serve it with --workers 8 or more, at most 64\n"
        + "".join(
            f'resolver {number} has the route "{it}": it {flaw}\n'
            for it, flaw in sorted(routes, key=lambda it: it[0])
            if flaw
        ),
    )
    for rules, number, routes in OF_ROUTES
]
# The same of addresses that are one.
OF_ONE_ADDRESS = [
    ("127.0.0.1:8080", "127.0.0.1:8080", "backend is listen: each request comes back to this gateway\n"),
    ("127.0.0.1:8080", "127.0.0.1:8081", ""),
    ("127.0.0.1:8080", "127.0.0.2:8080", ""),
]
FITTING = "serve it with --workers 64 or more, at most 64\n"
WITHOUT_EFFECT = FITTING + "wait = false: nobody waits, so backlog = 10 has no effect\n"
# Of a limit without numbers.
OF_AUTO = [
    (
        lines,
        'limit.kind = "auto": it goes up to what the workers leave over, at most limit.max; '
        f"with --workers 64 to {most}\ngreatest limit {most}, shares of it {shares} and backlog {waiting} are "
        f"{most + shares + waiting} together\n" + on_workers,
    )
    for lines, most, shares, waiting, on_workers in [
        ("backlog = 10\n" + AUTO, 53, 0, 10, FITTING),
        ("backlog = 10\n" + AUTO + "max = 20\n", 20, 0, 10, "serve it with --workers 31 or more, at most 64\n"),
        ("backlog = 10\n" + AUTO + LIVE_OF_TWO, 32, 20, 10, "serve it with --workers 63 or more, at most 64\n"),
        ("backlog = 10\nwait = false\n" + AUTO, 63, 0, 0, WITHOUT_EFFECT),
        ("backlog = 40\n" + AUTO, 32, 0, 40, TOO_FEW),
        ("backlog = 10\n" + AUTO + "min = 60\n", 60, 0, 10, TOO_FEW),
    ]
]
# Places of a class's own are counted too.
OF_AUTO += [
    (
        "backlog = 5\n" + FIXED + LIVE_OF_TWO + "places = 10\n",
        "greatest limit 4, shares of it 3, backlog 5 and places of classes 10 are 22 together\n"
        "serve it with --workers 23 or more, at most 64\n",
    ),
    (
        "backlog = 5\n" + AUTO + LIVE_OF_TWO + "places = 5\n",
        'limit.kind = "auto": it goes up to what the workers leave over, at most limit.max; with --workers 64 to 32\n'
        "greatest limit 32, shares of it 20, backlog 5 and places of classes 5 are 62 together\n"
        "serve it with --workers 63 or more, at most 64\n",
    ),
    (
        "backlog = 0\n" + FIXED + LIVE_OF_TWO + "places = 60\n",
        "greatest limit 4, shares of it 3, backlog 0 and places of classes 60 are 67 together\n" + TOO_FEW,
    ),
    (
        "backlog = 9\nwait = false\n" + FIXED + LIVE_OF_TWO + "places = 2\n",
        "greatest limit 4, shares of it 3 and backlog 0 are 7 together\n"
        "serve it with --workers 8 or more, at most 64\n"
        "wait = false: nobody waits, so backlog = 9 has no effect\n"
        "wait = false: nobody waits, so the places of classes have no effect\n",
    ),
]
# What fits into a number of exchanges: the number, lines behind the version and the addresses, what the line tells from
# the backlog on, and the limit at the start.
OF_EXCHANGES = [
    (4096, AUTO, 100, 3995, 4),
    (1024, AUTO, 100, 923, 4),
    (4, AUTO, 1, 2, 2),
    (2, AUTO, 0, 1, 1),
    (267, PLAIN + "initial = 200\n", 66, 200, 200),
    (5, "backlog = 9\nwait = false\n" + FIXED, 9, 4, 4),
    (1024, "backlog = 10\n" + AUTO + "max = 20\n", 10, 20, 4),
    (30, "backlog = 10\n" + AUTO + "max = 20\n", 10, 19, 4),
    (64, "backlog = 10\n" + AUTO + LIVE_OF_TWO, 10, 33, 4),
    (64, "backlog = 5\n" + AUTO + LIVE_OF_TWO + "places = 5\n", 10, 33, 4),
    (1024, "backlog = 10\n" + AIMD, 10, 1013, 20),
    (20, "backlog = 10\n" + AIMD, 10, 9, 9),
    (20, "backlog = 10\n" + VEGAS, 10, 9, 9),
    (211, "backlog = 10\n" + AIMD + "max = 200\n", 10, 200, 20),
    (211, "backlog = 10\n" + SETTABLE, 10, 200, 20),
]
# What doesn't fit: the number, the lines, and how many are wanted.
OF_TOO_FEW = [
    (1, AUTO, 2),
    (64, PLAIN + "initial = 200\n", 267),
    (266, PLAIN + "initial = 200\n", 267),
    (4, "backlog = 9\nwait = false\n" + FIXED, 5),
    (64, "backlog = 10\n" + AUTO + "min = 60\n", 71),
    (210, "backlog = 10\n" + AIMD + "max = 200\n", 211),
    (210, "backlog = 10\n" + SETTABLE, 211),
    (4096, PLAIN + "initial = 10_000\n", 10_101),
]
# What is said of a configuration that is to fit.
OTHERS_HOLD = (
    "left over of --exchanges {}: {}, for requests that are refused\n"
    "bypassed requests and slow clients hold threads too: if you expect them, write these numbers into the "
    "configuration, and take more exchanges\n"
)
BODIES = "bodies_mib = 1024, derived from --exchanges {}\n"
OF_ADVISED_EXCHANGES = [
    (
        1024,
        AUTO,
        "backlog = 100, derived from --exchanges 1024\n"
        + BODIES.format(1024)
        + "limit.max = 923, derived from --exchanges 1024\n"
        "greatest limit 923, shares of it 0 and backlog 100 are 1023 together\n" + OTHERS_HOLD.format(1024, 1),
    ),
    (
        20,
        "backlog = 10\n" + AIMD + "timeout_us = 1_000_000\n",
        BODIES.format(20) + "limit.max = 9, derived from --exchanges 20\nlimit.initial = 9, lowered to limit.max\n"
        "greatest limit 9, shares of it 0 and backlog 10 are 19 together\n" + OTHERS_HOLD.format(20, 1),
    ),
    (
        100,
        "backlog = 10\n" + AUTO + "max = 20\n",
        BODIES.format(100)
        + "greatest limit 20, shares of it 0 and backlog 10 are 30 together\n"
        + OTHERS_HOLD.format(100, 70),
    ),
    (
        64,
        PLAIN + "initial = 200\n",
        "too few exchanges: 267 are wanted; with --exchanges 267:\n"
        "backlog = 66, derived from --exchanges 267\n"
        + BODIES.format(267)
        + "greatest limit 200, shares of it 0 and backlog 66 are 266 together\n"
        + OTHERS_HOLD.format(267, 1),
    ),
    (
        100,
        "backlog = 10\nbodies_mib = 16\n" + AUTO + "max = 20\n",
        "greatest limit 20, shares of it 0 and backlog 10 are 30 together\n" + OTHERS_HOLD.format(100, 70),
    ),
]
