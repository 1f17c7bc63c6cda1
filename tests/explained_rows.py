"""Rows of `tests/keys`: what `check --explain` says of configurations at fault."""
from config_texts import (
    AIMD,
    AUTO,
    BY_METHOD,
    BY_ROUTE,
    BYPASS,
    CLASSES,
    FIXED,
    LIVE,
    LIVE_OF_TWO,
    PLAIN,
    SETTABLE,
    WINDOW,
    kept_keys,
    top_keys,
)
from kind_rows import OF_THE_KEY

# What `--explain` says of a configuration, behind the version, the addresses and what stands before: its lines but that
# which shows the text. `{}` stands for the number of the line.
OF_FAULTS = [
    (
        "",
        "backlog = 10001\n",
        FIXED,
        "line 4: backlog = 10001\nbacklog: how many callers may wait for a permit, 0 to 10000; default 100\n",
        "value backlog",
    ),
    (
        "",
        "keep = []\n",
        FIXED,
        "line 4: keep = []\nkeep: entries of the history that are kept, 1 to 1000000; default 4096\n",
        "kind keep",
    ),
    ("", "backlog = 5s\n", FIXED, "TOML parse error at line 4, column 11\n", "toml"),
    ("", "", "", "limit isn't there: a table, [limit]; required\n", "missing limit"),
    (
        "",
        "[limit]\ninitial = 1\n",
        "",
        f"line 4: [limit]\nlimit.kind isn't there: {OF_THE_KEY}\n",
        "missing limit.kind",
    ),
    (
        SETTABLE,
        "min = 9\nmax = 8\n",
        "",
        "line 7: max = 8\nlimit.max: permits, min to 10000; default 200, of auto what the workers leave over\n"
        "here from 9 to 10000\n",
        "value limit.max",
    ),
    (
        SETTABLE,
        "# max = 200\nmin = 9\n#max = 3\n  # min = 1\nmax = 8 # max = 9\n# max = 5\n",
        "",
        "line 10: max = 8 # max = 9\n"
        "limit.max: permits, min to 10000; default 200, of auto what the workers leave over\n"
        "here from 9 to 10000\n",
        "value limit.max",
    ),
    (
        PLAIN,
        "initial = 0\n",
        "",
        "line 6: initial = 0\nlimit.initial: permits, min to max, of fixed 1 to 10000; default 20, of auto 4\n"
        "here from 1 to 10000\n",
        "value limit.initial",
    ),
    (
        'limit.kind = "vegas"\n',
        "limit.alpha = 9\nlimit.beta = 8\n",
        "",
        "line 6: limit.beta = 8\nlimit.beta: the limit falls above this queue, permits, alpha to 100; default 6\n"
        "here from 9 to 100\n",
        "value limit.beta",
    ),
    (
        "",
        'limit = { kind = "none" }\n',
        "",
        f'line 4: limit = {{ kind = "none" }}\nlimit.kind: {OF_THE_KEY}\n',
        "value limit.kind",
    ),
    (
        WINDOW,
        "min_us = 8\nmax_us = 7\n",
        "",
        "line 8: max_us = 7\nwindow.max_us: the longest window in microseconds, min_us to 3600000000; default 1000000\n"
        "here from 8 to 3600000000\n",
        "value window.max_us",
    ),
    (
        FIXED + LIVE_OF_TWO,
        '[[class]]\nname = "b"\nshare = 401\n',
        "",
        "class 2 of 2\nline 12: share = 401\n"
        "class.share: thousandths, 1 to what the classes before leave of 1000; required\n"
        "here from 1 to 400\n",
        "value class.share",
    ),
    (
        FIXED + LIVE_OF_TWO,
        "[[class]]\nshare = 4\n",
        "",
        "class 2 of 2\nline 10: [[class]]\n"
        "class.name isn't there: 1 to 32 of a-z 0-9 - _, not unknown, not given before; required\n",
        "missing class.name",
    ),
    (
        FIXED + LIVE_OF_TWO,
        '[[resolver]]\nkind = "header"\nheader = "A"\n[[resolver]]\nkind = "path"\n',
        "",
        'resolver 2 of 2\nline 14: kind = "path"\nresolver.kind: "header", "method" or "route"; required\n',
        "value resolver.kind",
    ),
    (
        FIXED + LIVE_OF_TWO,
        '[[resolver]]\nkind = "route"\n[resolver.routes]\n"/{a}" = "live"\n"/{b}" = "live"\n',
        "",
        "resolver 1 of 1\nline 12: [resolver.routes]\n"
        'the pattern "/{b}": Insertion failed due to conflict with previously registered route: /{a}\n',
        "route",
    ),
    (
        FIXED,
        '[[bypass]]\nkind = "prefix"\nprefix = "/a"\n[[bypass]]\nkind = "prefix"\nprefix = "a"\n',
        "",
        'bypass 2 of 2\nline 12: prefix = "a"\n'
        "bypass.prefix: paths that begin with this text, itself beginning with /; required\n",
        "value bypass.prefix",
    ),
    (
        FIXED,
        '[[bypass]]\nkind = "method"\nmethod = "GET"\nzebra = 1\n',
        "",
        "bypass 1 of 1\nline 10: zebra = 1\nbypass.zebra isn't a key here; those that are: kind method\n",
        "unknown bypass.zebra",
    ),
    (
        "",
        "zebra = 1\n",
        FIXED,
        f"line 4: zebra = 1\nzebra isn't a key here; those that are: {top_keys()}\n",
        "unknown zebra",
    ),
    (
        PLAIN,
        "ratio = 900\n",
        "",
        "line 6: ratio = 900\nlimit.ratio isn't a key here; those that are: kind initial\n",
        "unknown limit.ratio",
    ),
]
# The same of keys whose ranges hang on others, and of the member that is at fault: `tests/keys` asks for the words of
# each number at both ends of its range.
OF_FAULTS += [
    (
        "",
        'promote = ""\n',
        FIXED,
        'line 4: promote = ""\n'
        'promote: which waiters get room that falls free, "newest" or "all"; default "newest"\n',
        "value promote",
    ),
    (
        "",
        "wait = 1\n",
        FIXED,
        "line 4: wait = 1\nwait: whether refused callers wait at all, true or false; default true\n",
        "kind wait",
    ),
    (
        SETTABLE,
        "max = 0\n",
        "",
        "line 6: max = 0\nlimit.max: permits, min to 10000; default 200, of auto what the workers leave over\n"
        "here from 1 to 10000\n",
        "value limit.max",
    ),
    (
        SETTABLE,
        "initial = 201\n",
        "",
        "line 6: initial = 201\nlimit.initial: permits, min to max, of fixed 1 to 10000; default 20, of auto 4\n"
        "here from 1 to 200\n",
        "value limit.initial",
    ),
    (
        AIMD,
        "min = 7\nmax = 40\ninitial = 41\n",
        "",
        "line 8: initial = 41\nlimit.initial: permits, min to max, of fixed 1 to 10000; default 20, of auto 4\n"
        "here from 7 to 40\n",
        "value limit.initial",
    ),
    (
        WINDOW,
        "max_us = 5\n",
        "",
        "line 7: max_us = 5\nwindow.max_us: the longest window in microseconds, min_us to 3600000000; default 1000000\n"
        "here from 1000000 to 3600000000\n",
        "value window.max_us",
    ),
    (
        FIXED,
        CLASSES + "[[class]]\n",
        "",
        "line 7: [[class]]\nclass: an array of at most four tables, [[class]]; default none\n",
        "value class",
    ),
    (
        FIXED + LIVE_OF_TWO,
        BY_METHOD * 33,
        "",
        "line 10: [[resolver]]\nresolver: an array of at most 32 tables, [[resolver]]; default none\n",
        "value resolver",
    ),
    (
        FIXED,
        BYPASS * 33,
        "",
        "line 7: [[bypass]]\nbypass: an array of at most 32 tables, [[bypass]]; default none\n",
        "value bypass",
    ),
    (
        FIXED,
        '[[class]]\nname = "a"\nshare = 0\n' + LIVE_OF_TWO,
        "",
        "class 1 of 2\nline 9: share = 0\n"
        "class.share: thousandths, 1 to what the classes before leave of 1000; required\n"
        "here from 1 to 1000\n",
        "value class.share",
    ),
    (
        FIXED + LIVE_OF_TWO,
        '[[resolver]]\nkind = "path"\n' + BY_METHOD,
        "",
        'resolver 1 of 2\nline 11: kind = "path"\nresolver.kind: "header", "method" or "route"; required\n',
        "value resolver.kind",
    ),
    (
        FIXED,
        '[[bypass]]\nkind = "path"\n' + BYPASS,
        "",
        'bypass 1 of 2\nline 8: kind = "path"\nbypass.kind: "method", "prefix" or "header"; required\n',
        "value bypass.kind",
    ),
    (
        FIXED + LIVE_OF_TWO,
        BY_METHOD * 16 + '[[resolver]]\nkind = "path"\n',
        "",
        'resolver 17 of 17\nline 75: kind = "path"\nresolver.kind: "header", "method" or "route"; required\n',
        "value resolver.kind",
    ),
    (
        FIXED,
        BYPASS * 31 + '[[bypass]]\nkind = "path"\n',
        "",
        'bypass 32 of 32\nline 101: kind = "path"\nbypass.kind: "method", "prefix" or "header"; required\n',
        "value bypass.kind",
    ),
    (
        FIXED + LIVE_OF_TWO,
        BY_METHOD * 16 + BY_ROUTE + '"/{a" = "live"\n',
        "",
        "resolver 17 of 17\nline 76: [resolver.routes]\n"
        'the pattern "/{a": Parameters must be registered with a valid name\n',
        "route",
    ),
    (
        FIXED + LIVE_OF_TWO,
        BY_ROUTE + '"/a/{b}" = "live"\n' + BY_ROUTE + '"/{a}" = "live"\n"/c" = "live"\n"/{d}" = "live"\n',
        "",
        "resolver 2 of 2\nline 16: [resolver.routes]\n"
        'the pattern "/{d}": Insertion failed due to conflict with previously registered route: /{a}\n',
        "route",
    ),
    (
        FIXED + LIVE_OF_TWO,
        BY_METHOD * 16 + BY_METHOD + "zebra = 1\n",
        "",
        "resolver 17 of 17\nline 78: zebra = 1\nresolver.zebra isn't a key here; those that are: kind method class\n",
        "unknown resolver.zebra",
    ),
]
# No character that a terminal obeys is shown.
OF_FAULTS += [
    (
        "",
        f'backlog = "{chr(code)}2J{chr(code)}"\n',
        FIXED,
        'line 4: backlog = " 2J "\nbacklog: how many callers may wait for a permit, 0 to 10000; default 100\n',
        "kind backlog",
    )
    for code in (9, *range(0x80, 0xA0))
]
# The same in version 1, whose shares are in percent, and which lacks keys.
OF_FAULTS_OF_ONE = [
    (
        "",
        "zebra = 1\n",
        FIXED,
        f"line 4: zebra = 1\nzebra isn't a key here; those that are: {top_keys(kept_keys())}\n",
        "unknown zebra",
    ),
    (
        "",
        "clients = 1\n",
        FIXED,
        f"line 4: clients = 1\nclients isn't a key here; those that are: {top_keys(kept_keys())}\n",
        "unknown clients",
    ),
    (
        FIXED,
        '[[class]]\nname = "b"\npercent = 1\nplaces = 1\n',
        "",
        "class 1 of 1\nline 10: places = 1\nclass.places isn't a key here; those that are: name percent\n",
        "unknown class.places",
    ),
    (
        FIXED + LIVE,
        '[[class]]\nname = "b"\npercent = 41\n',
        "",
        "class 2 of 2\nline 12: percent = 41\n"
        "class.percent: percent, 1 to what the classes before leave of 100; required\n"
        "here from 1 to 40\n",
        "value class.percent",
    ),
    (
        FIXED,
        '[[class]]\nname = "b"\npercent = 101\n',
        "",
        "class 1 of 1\nline 9: percent = 101\n"
        "class.percent: percent, 1 to what the classes before leave of 100; required\n"
        "here from 1 to 100\n",
        "value class.percent",
    ),
]
# The same of keys that version 1 lacks.
OF_FAULTS_OF_TWO = [
    (
        AUTO,
        "[window]\n",
        "",
        f"line 6: [window]\nwindow isn't a key here; those that are: {top_keys({'window'})}\n"
        'limit.kind = "auto" counts windows of its own, of as many answers as the limit\n',
        "unknown window",
    ),
    (
        AUTO,
        "beta = 1\n",
        "",
        "line 6: beta = 1\nlimit.beta isn't a key here; those that are: kind min max initial\n",
        "unknown limit.beta",
    ),
    (
        FIXED,
        '[[class]]\nname = "b"\nshare = 1\nplaces = 9_901\n',
        "",
        "class 1 of 1\nline 10: places = 9_901\n"
        "class.places: own places, 0 to what backlog and those before leave of 10000; default 0\n"
        "here from 0 to 9900\n",
        "value class.places",
    ),
    (
        "backlog = 4\n" + FIXED + LIVE_OF_TWO + "places = 6\n",
        '[[class]]\nname = "b"\nshare = 1\nplaces = 9_991\n',
        "",
        "class 2 of 2\nline 15: places = 9_991\n"
        "class.places: own places, 0 to what backlog and those before leave of 10000; default 0\n"
        "here from 0 to 9990\n",
        "value class.places",
    ),
    (
        FIXED,
        '[[class]]\nname = "b"\nshare = 1\nplaces = []\n',
        "",
        "class 1 of 1\nline 10: places = []\n"
        "class.places: own places, 0 to what backlog and those before leave of 10000; default 0\n"
        "here from 0 to 9900\n",
        "kind class.places",
    ),
    (
        FIXED + LIVE_OF_TWO,
        "place = 1\n",
        "",
        "class 1 of 1\nline 10: place = 1\nclass.place isn't a key here; those that are: name share places\n",
        "unknown class.place",
    ),
    (
        AUTO,
        "min = 9\nmax = 8\n",
        "",
        "line 7: max = 8\nlimit.max: permits, min to 10000; default 200, of auto what the workers leave over\n"
        "here from 9 to 10000\n",
        "value limit.max",
    ),
    (
        AUTO,
        "max = 9\ninitial = 10\n",
        "",
        "line 7: initial = 10\nlimit.initial: permits, min to max, of fixed 1 to 10000; default 20, of auto 4\n"
        "here from 1 to 9\n",
        "value limit.initial",
    ),
]
