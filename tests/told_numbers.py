"""Numbers that documents tell in sentences, and where each is from: a constant of the sources, or what is packaged."""
import pathlib
import re
from collections.abc import Callable

TOP = pathlib.Path(__file__).resolve().parent.parent
WORDS = {"a": 1, "one": 1, "two": 2, "three": 3, "four": 4, "five": 5, "ten": 10, "half": 0.5}
UNIT = "packaging/admission.service"


def number_of(word: str) -> float:
    """A number in digits or as a word."""
    return WORDS[word.lower()] if word.lower() in WORDS else float(word.replace(",", ""))


def constant(file: str, name: str, unit: float = 1) -> Callable[[], float]:
    """A constant of a file of the sources, divided by a unit."""

    def value() -> float:
        text = (TOP / "crates" / file).read_text(encoding="utf-8")
        found = re.search(rf"const {name}: \w+ = ([\d_]+);", text)
        return int(found[1]) / unit if found else float("nan")

    return value


def packaged(pattern: str, file: str = UNIT) -> Callable[[], float]:
    """A number of what is packaged, by a pattern."""

    def value() -> float:
        found = re.search(pattern, (TOP / file).read_text(encoding="utf-8"))
        return float(found[1].replace("_", "")) if found else float("nan")

    return value


OPERATING, FORMATS, RUNBOOK = "docs/OPERATING.md", "docs/FORMATS.md", "docs/RUNBOOK.md"
KUBERNETES, MANUAL = "docs/KUBERNETES.md", "packaging/admission.1"
BODY = constant("message_fields/src/length.rt", "MOST_BODY", 2**20)
HEAD = constant("message_reading/src/head_cut.rt", "MOST_HEAD")
LINES = constant("message_reading/src/head_lines.rt", "MOST_LINES")
INTERIM = constant("message_reading/src/final_head.rt", "MOST_INTERIM")
LINGERS = constant("timed_io/src/lingering.rt", "LONGEST_NS", 1e9)
PLACES = constant("serve_command/src/context.rt", "CLIENT_PLACES")
OTHERS = constant("serving/src/workers.rt", "OTHER_DESCRIPTORS")
NEWCOMER = constant("listening/src/bound_listener.rt", "NEWCOMER_MS", 1e3)
OPEN = constant("listening/src/bound_listener.rt", "OPEN_TO_ALL_MS", 1e3)
AT_ONCE = constant("serve_command/src/admin.rt", "AT_ONCE")
OPERATOR = constant("serve_command/src/admin.rt", "TIMEOUT_NS", 1e9)
BODIES = constant("gateway_settings/src/exchanges.rt", "BODIES_OF_EXCHANGES_MIB")
SPELL = constant("serve_reports/src/spell.rt", "LENGTH_NS", 1e9)
DELAY = constant("operator_calls/src/query.rt", "LONGEST_MS")
AFTER, WAIT, RESTARTS = packaged(r"AFTER=(\d+)"), packaged(r"--wait (\d+)"), packaged(r"RestartSec=(\d+)s")
ADMIN, STATUS = packaged(r"ADMIN=127\.0\.0\.1:(\d+)"), packaged(r"STATUS=127\.0\.0\.1:(\d+)")
LISTEN, BACKEND = (
    packaged(rf'(?m)^{it} = "127\.0\.0\.1:(\d+)"', "packaging/admission.toml") for it in ("listen", "backend")
)
CLIENTS, BACKENDS = (packaged(rf"(?m)^{it} = ([\d_]+)", "packaging/admission.toml") for it in ("clients", "backends"))
EXCHANGES, LIMIT_MS = packaged(r"EXCHANGES=(\d+)"), packaged(r"BACKEND_MS=(\d+)")
MEMORY, TASKS, FILES = packaged(r"MemoryMax=(\d+)M"), packaged(r"TasksMax=(\d+)"), packaged(r"LimitNOFILE=(\d+)")
CONTAINER = "packaging/Containerfile"
LAME, PATIENCE = packaged(r'"--after", "(\d+)"', CONTAINER), packaged(r'"--wait", "(\d+)"', CONTAINER)


def minutes_kept() -> float:
    """How long the page keeps what it saw."""
    return packaged(r"KEPT_SECONDS = (\d+)", "crates/metrics/src/page.rt")() / 60


def seconds_unasked() -> float:
    """When a peer that is gone is noticed: the first question, and those that follow."""
    keeping = "timed_io/src/keeping.rt"
    idle, between, questions = (constant(keeping, it)() for it in ("IDLE_SECONDS", "BETWEEN_SECONDS", "QUESTIONS"))
    return idle + between * questions


def days_of_the_default() -> float:
    return EXCHANGES() * 1e9 // (7_000 * 86_400)


def slowest_upload() -> float:
    """The kB a second of the largest body in the default time of a client, in tens."""
    return -(-BODY() * 2**20 // 10_000 // 10) * 10


def descriptors_wanted() -> float:
    """The descriptors that a start wants for the packaged exchanges and connections to the backend."""
    return 2 * EXCHANGES() + constant("serve_command/src/descriptors.rt", "OWN")() + BACKENDS()


def descriptors_of_clients() -> float:
    """The descriptors with which the packaged number of idle clients is kept too."""
    return 2 * EXCHANGES() + BACKENDS() + OTHERS() + CLIENTS()


def threads() -> float:
    """The threads of the program with both addresses, and `admission-run`."""
    return 1 + EXCHANGES() + 2 * AT_ONCE() + 1


def greatest_bodies() -> float:
    """The GiB of all bodies without a bound."""
    return EXCHANGES() * 2 * BODY() / 1024


def number_of_body() -> int:
    """The MiB of the largest body."""
    return int(BODY())


def longest_call() -> float:
    """The seconds that a call may take with its wait for a permit, as the unit and the configuration have it."""
    return (LIMIT_MS() + packaged(r"(?m)^# timeout_ms = ([\d_]+)$", "packaging/admission.toml")()) / 1_000


# A document, a sentence with a number in each of its groups, and what the numbers are.
NUMBERS: tuple[tuple[str, str, tuple[Callable[[], float], ...]], ...] = (
    (OPERATING, r"serves up to ([\d,]+) exchanges at once as an unprivileged user", (EXCHANGES,)),
    (OPERATING, r"`admission serve CONFIG --exchanges (\d+)` \|", (EXCHANGES,)),
    (OPERATING, r"The unit and the container set ([\d,]+)\. \|", (EXCHANGES,)),
    (OPERATING, r"The manifests for Kubernetes set N to ([\d,]+)", (EXCHANGES,)),
    (OPERATING, r"`TasksMax` \| N \+ 64 \| ([\d,]+) \| ([\d,]+) \|", (lambda: EXCHANGES() + 64, TASKS)),
    (
        OPERATING,
        r"`LimitNOFILE` \| 2 N \+ `clients` \+ `backends` \+ (\d+) \| ([\d,]+) \| ([\d,]+) \|",
        (lambda: OTHERS() + 2 * AT_ONCE(), lambda: descriptors_of_clients() + 2 * AT_ONCE(), FILES),
    ),
    (
        OPERATING,
        r"`MemoryMax` \| twice `bodies_mib`, and 512 KiB for each exchange \| ([\d,]+) MiB \| ([\d,]+) MiB \|",
        (lambda: 2 * BODIES() + EXCHANGES() / 2, MEMORY),
    ),
    (OPERATING, r"With ([\d,]+) exchanges and a backlog of 10 that is ([\d,]+)", (EXCHANGES, lambda: EXCHANGES() - 11)),
    (OPERATING, r"for the client timeout: ([\d,]+) of them would hold", (EXCHANGES,)),
    (OPERATING, r"starts the program again (\w+) seconds after any end", (RESTARTS,)),
    (
        OPERATING,
        r"With ([\d,]+) exchanges at once and 7,000 requests a second the default lasts ([\d,]+) days",
        (EXCHANGES, days_of_the_default),
    ),
    (OPERATING, r"The unit sets ([\d,]+); `docs/TUNING.md`", (LIMIT_MS,)),
    (OPERATING, r"up to (\d+) MiB each way. A slow upload of (\d+) MiB needs (\d+) kB/s", (BODY, BODY, slowest_upload)),
    (OPERATING, r"They\s+share ([\d,]+) places", (PLACES,)),
    (OPERATING, r"fewer\s+descriptors than these, two for\s+each\s+worker, (\d+), and `backends`", (OTHERS,)),
    ("docs/TUNING.md", r"Then none is kept, and ([\d,]+)\s+may wait", (PLACES,)),
    (OPERATING, r"connected within the last (\w+) second may still", (NEWCOMER,)),
    (OPERATING, r"may go on sending for the client timeout, (\w+) seconds at most", (LINGERS,)),
    (OPERATING, r"is noticed in about (\w+) seconds", (seconds_unasked,)),
    (
        OPERATING,
        r"doesn't read for (\w+) seconds, once the system's buffers",
        (constant("tcp_backend/src/dialing.rt", "UNTAKEN_MS", 1e3),),
    ),
    (OPERATING, r"draws the last (\w+) minutes", (minutes_kept,)),
    (OPERATING, r"and so are new ones in the first (\w+) second", (OPEN,)),
    (MANUAL, r"\[\[class\]\], at most (\w+)", (constant("partitions/src/table.rt", "MOST_KNOWN"),)),
    (MANUAL, r"\[\[resolver\]\], at most (\w+)", (constant("gate_config/src/document.rt", "MOST_RULES"),)),
    (MANUAL, r"\[\[bypass\]\], at most (\w+)", (constant("gate_config/src/document.rt", "MOST_RULES"),)),
    (MANUAL, r"a table of at most (\d+) patterns", (constant("gate_config/src/resolver.rt", "MOST_ROUTES"),)),
    (MANUAL, r"answer is unreadable, cut off or above (\d+) MiB", (BODY,)),
    (MANUAL, r"the request's body is above (\d+) MiB", (BODY,)),
    (MANUAL, r"the request's head is above (\d+) KiB or (\d+) lines", (lambda: HEAD() / 1024, LINES)),
    (MANUAL, r"The text has more than (\d+) MiB", (constant("load_driver/src/driver.rt", "MOST_BYTES", 2**20),)),
    (MANUAL, r"be read, or has more than (\d+) MiB", (constant("config_file/src/reading.rt", "MOST_CONFIG", 2**20),)),
    (MANUAL, r"Heads with 100 or 102 to 199 in front of an answer, (\d+) at most", (INTERIM,)),
    (FORMATS, r"at most one line comes in (\w+) seconds", (SPELL,)),
    (
        FORMATS,
        r"TOML 1.1 in UTF-8, at most (\d+) MiB \(([\d,]+) bytes\)",
        (
            constant("config_file/src/reading.rt", "MOST_CONFIG", 2**20),
            constant("config_file/src/reading.rt", "MOST_CONFIG"),
        ),
    ),
    (FORMATS, r"or `too slow` after ([\d,]+) reads", (constant("wire/src/request_reading.rt", "MOST_READS"),)),
    (FORMATS, r"isn't `after-ms=N` with N from (\d+) to ([\d,]+) \|", (lambda: 1.0, DELAY)),
    (
        FORMATS,
        r"(\w+) callers are served at once, each within (\w+) second for its request and (\w+) for",
        (AT_ONCE, OPERATOR, OPERATOR),
    ),
    (FORMATS, r"at most ([\d,]+) bytes, and ([\d,]+) lines after the first", (HEAD, LINES)),
    (FORMATS, r"At most (\d+) heads with 100", (INTERIM,)),
    (FORMATS, r"one string of digits; at most ([\d,]+)", (constant("message_fields/src/length.rt", "MOST_BODY"),)),
    (
        FORMATS,
        r"up to its LF, at most ([\d,]+) bytes, and `httparse`",
        (constant("message_reading/src/size_line.rt", "MOST_SIZE_LINE"),),
    ),
    (FORMATS, r"all sizes together at most ([\d,]+)", (constant("message_fields/src/length.rt", "MOST_BODY"),)),
    (
        FORMATS,
        r"up to an empty one, at most ([\d,]+) bytes",
        (constant("message_reading/src/trailers.rt", "MOST_TRAILERS"),),
    ),
    (FORMATS, r"all bytes to the end, at most ([\d,]+)", (constant("message_fields/src/length.rt", "MOST_BODY"),)),
    (
        FORMATS,
        r"`TurnLimit` \(([\d,]+) reads for one message\)",
        (constant("wire/src/request_reading.rt", "MOST_READS"),),
    ),
    (FORMATS, r"A script has at most (\d+) MiB", (constant("load_driver/src/driver.rt", "MOST_BYTES", 2**20),)),
    (RUNBOOK, r"`/health` is 503 for (\w+) seconds while clients are still", (AFTER,)),
    (
        RUNBOOK,
        r"in progress after (\d+) seconds are cut off, and the status is (\d+)",
        (WAIT, packaged(r"SuccessExitStatus=(\d+)")),
    ),
    (RUNBOOK, r"`--after (\d)` for the (\w+) seconds\)", (AFTER, AFTER)),
    (RUNBOOK, r"says `draining` there for (\w+) seconds", (AFTER,)),
    (RUNBOOK, r"an upgrade \(101\), or above (\d+) MiB", (BODY,)),
    (RUNBOOK, r"come at most once in (\w+) seconds each", (SPELL,)),
    (RUNBOOK, r"draws the last (\w+) minutes\.", (minutes_kept,)),
    (RUNBOOK, r"After `most=(\d+)` no number", (constant("serve_command/src/startup_lines.rt", "MOST_EXCHANGES"),)),
    (RUNBOOK, r"`admission-drain 127\.0\.0\.1:(\d+)`", (ADMIN,)),
    (RUNBOOK, r"restart admission && curl [^:]*://127\.0\.0\.1:(\d+)/health", (ADMIN,)),
    (RUNBOOK, r"restart admission-second && curl [^:]*://127\.0\.0\.1:(\d+)/health", (lambda: ADMIN() + 10,)),
    (RUNBOOK, r"established dst 127\.0\.0\.1:(\d+) \|", (BACKEND,)),
    (RUNBOOK, r"'sport = :(\d+)'", (LISTEN,)),
    (RUNBOOK, r"`http://127\.0\.0\.1:(\d+)/`", (ADMIN,)),
    (RUNBOOK, r"curl -s http://127\.0\.0\.1:(\d+)/metrics", (ADMIN,)),
    (
        OPERATING,
        r"operator's address is 127\.0\.0\.1:(\d+), and its address for status 127\.0\.0\.1:(\d+)",
        (ADMIN, STATUS),
    ),
    (OPERATING, r"ADMIN=127\.0\.0\.1:(\d+) STATUS=127\.0\.0\.1:(\d+)", (lambda: ADMIN() + 10, lambda: STATUS() + 10)),
    (OPERATING, r"With `--admin 127\.0\.0\.1:(\d+)`, which the unit has", (ADMIN,)),
    (OPERATING, r"`http://127\.0\.0\.1:(\d+)/`", (ADMIN,)),
    (OPERATING, r"ssh -L (\d+):127\.0\.0\.1:(\d+)", (ADMIN, ADMIN)),
    (OPERATING, r"`localhost:(\d+)` as a target", (ADMIN,)),
    (OPERATING, r"targets: \['127\.0\.0\.1:(\d+)'\]", (ADMIN,)),
    (OPERATING, r"`--status 0\.0\.0\.0:(\d+)`", (STATUS,)),
    (FORMATS, r"So for `localhost:(\d+)`", (ADMIN,)),
    (OPERATING, r"`admission: descriptors: (\d+) are wanted, (\d+) are given`", (descriptors_wanted, EXCHANGES)),
    (
        KUBERNETES,
        r"With ([\d,]+) exchanges and `backends = (\d+)` the gateway needs ([\d,]+) descriptors, and ([\d,]+) to keep "
        r"([\d,]+) idle clients",
        (EXCHANGES, BACKENDS, descriptors_wanted, descriptors_of_clients, CLIENTS),
    ),
    (KUBERNETES, r"([\d,]+) exchanges need ([\d,]+) threads", (EXCHANGES, threads)),
    (OPERATING, r"so ([\d,]+) exchanges may hold (\d+) GiB", (EXCHANGES, greatest_bodies)),
    (KUBERNETES, r"The manifests' limit, (\d+)Mi, is that of the unit", (MEMORY,)),
    (KUBERNETES, r"(\d+)` fits (\d+)Mi", (lambda: 128.0, lambda: 2 * 128 + EXCHANGES() / 2)),
    (KUBERNETES, r"--exchanges (\d+) --status", (EXCHANGES,)),
    ("README.md", r"([\d,]+) as packaged, and up to", (EXCHANGES,)),
    ("README.md", r"divided by the time of one: ([\d,]+) of 100 ms each", (lambda: EXCHANGES() * 10,)),
    ("README.md", r"--exchanges (\d+) --admin", (EXCHANGES,)),
    ("docs/TUNING.md", r"gateway with \*\*`--exchanges (\d+)`\*\*", (EXCHANGES,)),
    ("docs/TUNING.md", r"what `--exchanges` leaves over,\s+([\d,]+) as packaged", (lambda: EXCHANGES() - 11,)),
    (KUBERNETES, r"`--after (\d+) --wait (\d+) /etc", (LAME, PATIENCE)),
    (KUBERNETES, r"- `--after (\d+)` is enough where endpoints come through in (\w+) seconds", (LAME, LAME)),
    (KUBERNETES, r"- `--wait (\d+)` bounds the whole", (PATIENCE,)),
    (KUBERNETES, r"at 127\.0\.0\.1:(\d+)\. Mount another one", (BACKEND,)),
    (KUBERNETES, r"ports \| (\d+) for requests, (\d+) for health checks and metrics; (\d+),", (LISTEN, STATUS, ADMIN)),
)
