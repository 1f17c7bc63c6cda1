"""Cases of `tests/serve` on the operator's address: what it answers, what it shows, what it changes, and a drain."""

import copy
import pathlib
import re
import shutil
import socket
import subprocess
import threading
import time
import typing
from collections.abc import Callable, Sequence

from loopback import BODY, Backend, Gateway, Later, Listener, answered, read_all
from operator_rows import (
    CLOSING,
    DONE,
    DRAINED,
    FAMILIES,
    MARK,
    NOT_SETTABLE,
    OUT_OF_RANGE,
    UNMEASURED,
    families_of,
    refusals,
    request,
    told,
    unread,
)
from running import PATIENCE, free_port, until
from served import Served
from sockets import PLAIN, passed_on
from telling import OF_EACH_ANSWER

TOP = pathlib.Path(__file__).resolve().parent.parent
HELD = b"GET /held HTTP/1.1\r\nHost: h\r\n\r\n"
# More exchanges than any case has: workers end by a drain alone.
ALWAYS = 1_000_000
CLASSES = "\n".join(
    (
        '[[class]]\nname = "live"\npercent = 60',
        '[[class]]\nname = "batch"\npercent = 30',
        '[[resolver]]\nkind = "header"\nheader = "X-Class"',
        '[[bypass]]\nkind = "prefix"\nprefix = "/health"',
    )
)
PLACED = "\n".join(
    (
        # Its backend closes behind each answer without saying so.
        'backlog = 1\ntimeout_ms = 60_000\n\n[limit]\nkind = "fixed"\ninitial = 1',
        '[[class]]\nname = "live"\nshare = 1\nplaces = 2',
        '[[class]]\nname = "batch"\nshare = 1',
        '[[resolver]]\nkind = "header"\nheader = "X-Class"',
    )
)
HELD_BY = b"GET /held HTTP/1.1\r\nHost: h\r\nX-Class: %s\r\n\r\n"
SETTABLE = '[limit]\nkind = "settable"\nmin = 1\nmax = 8\ninitial = {}\n'


def or_refused(call: Callable[..., bytes], *given: object) -> bytes | str:
    """What a call gives, or that nobody listens."""
    try:
        return call(*given)
    except ConnectionRefusedError:
        return "refused"


def without_zeros(found: typing.Any) -> typing.Any:
    """The number of a family, or those by their label that aren't 0."""
    return {label: value for label, value in found.items() if value} if isinstance(found, dict) else found


class Operated(Gateway):
    """A gateway with an address for its operator."""

    def __init__(
        self, *given: typing.Any, words: Sequence[str] = (), loopback: str = "127.0.0.1", **how: typing.Any
    ) -> None:
        self.operator, self.loopback = free_port(), loopback
        super().__init__(*given, words=("--admin", f"{loopback}:{self.operator}", *words), **how)

    def again(self) -> "Operated":
        """Another run of the program, by the same words and so at the same addresses."""
        other = copy.copy(self)
        other.log, other.is_listening = [], threading.Event()
        words, piped = self.process.args, subprocess.PIPE
        other.process = subprocess.Popen(words, stdout=piped, stderr=piped, text=True)
        other.reader = other.followed()
        return other

    def tell(self, *pieces: bytes) -> bytes:
        """All that comes back of a text that is sent to the operator's address."""
        return answered(lambda: socket.create_connection((self.loopback, self.operator), timeout=PATIENCE), pieces)

    def call(self, words: str, body: str | None = None) -> bytes:
        """The answer to a call, with the lines that it needs."""
        lines = [f"Host: {self.loopback}:{self.operator}"] + ([MARK] if words.startswith("POST") else [])
        return self.tell(request(f"{words} HTTP/1.1", *lines, body=body))

    def metrics(self) -> dict[str, typing.Any]:
        """The numbers of /metrics: of each family one, or those by their label."""
        found = families_of(self.call("GET /metrics").partition(b"\r\n\r\n")[2].decode())
        numbers = {name: {label: value for (_, label), value in it.items()} for name, (_, it) in found.items()}
        return {name.removeprefix("admission_"): it.get(None, it) for name, it in numbers.items()}

    def shows(self, **wanted: object) -> bool:
        """Whether /metrics comes to have these numbers; of a family with labels those that aren't 0. How often all
        workers were taken depends on how quickly each is free again, so it isn't compared."""

        def holds() -> bool:
            found = self.metrics()
            found["troubles_total"].pop("all-taken")
            return wanted == {name: without_zeros(found[name]) for name in wanted}

        return until(holds)


class Operating(Served):
    """Cases on the operator's address."""

    def operated(self, backend: Listener, settings: str = "", workers: int = 4, **how: typing.Any) -> Operated:
        """A gateway before this backend, whose workers end by a drain alone."""
        return Operated(self.program, self.room, backend.port, settings, each=ALWAYS, workers=workers, **how)

    def answers_its_operator(self, backend: Backend) -> None:
        """Each path and method has its answer, each refusal comes in its place, and no refusal changes anything."""
        gate = self.operated(backend, "\n\n" + SETTABLE.format(2))
        for what, words, wanted in (*refusals(gate.operator), *unread(gate.operator)):
            self.judge(f"an operator's request {what}", wanted, gate.tell(words))
        self.judge("the limit behind refusals", (True, 2), (gate.shows(in_flight=0), gate.metrics()["limit"]))
        self.judge("a request behind refusals", passed_on(BODY), gate.ask(PLAIN))
        self.judge("health", told(DONE), gate.call("GET /health"))
        for first in ("GET /health?from=check HTTP/1.1", f"GET http://127.0.0.1:{gate.operator}/health HTTP/1.1"):
            self.judge(first, told(DONE), gate.tell(request(first, f"Host: 127.0.0.1:{gate.operator}")))
        in_pieces = [bytes([it]) for it in request("GET /health HTTP/1.1", f"hOST:127.0.0.1:{gate.operator} ")]
        self.judge("health, asked for in pieces", told(DONE), gate.tell(*in_pieces))
        source = (TOP / "crates/metrics/src/page.rt").read_text(encoding="utf-8")
        page = source[source.index('"\\\n') + 3 : source.rindex('";')].replace('\\"', '"').replace("\\\\", "\\")
        self.judge("the page", told((200, page), "text/html; charset=utf-8"), gate.call("GET /"))
        self.judge(
            "what it names elsewhere", [], re.findall(r"(?:https?:)?//[\w.]+\.\w+|<link[^>]*href=\"(?!data:)", page)
        )
        media = b"\r\nContent-Type: text/plain; version=0.0.4; charset=utf-8\r\nCache-Control: no-store\r\n"
        self.judge("lines of the metrics", True, media in gate.call("GET /metrics"))
        self.judge("changes that the log tells", [], [it for it in gate.log if "operator" in it and "WARN" in it])

    def shows_its_metrics(self, backend: Backend) -> None:
        """What /metrics shows is what clients met: in flight by class, decisions, outcomes, answers, workers."""
        gate = self.operated(backend, f'wait = false\n\n[limit]\nkind = "fixed"\ninitial = 2\n{CLASSES}', workers=5)
        text = gate.call("GET /metrics").partition(b"\r\n\r\n")[2].decode()
        found = families_of(text)
        self.judge(
            "families", FAMILIES, {name: (kind, next(iter(it), (None,))[0]) for name, (kind, it) in found.items()}
        )
        self.judge("their order", [*FAMILIES], [*found])
        version = subprocess.run(
            [self.program, "--version"], capture_output=True, text=True, check=True
        ).stdout.split()[1]
        self.judge("the version", {("version", version): 1}, found["admission_build_info"][1])
        if shutil.which("promtool"):
            linted = subprocess.run(["promtool", "check", "metrics"], input=text, capture_output=True, text=True)
            self.judge("promtool", (0, "", ""), (linted.returncode, linted.stdout, linted.stderr))
        held = [Later(gate.ask, b"GET /held HTTP/1.1\r\nHost: h\r\nX-Class: live\r\n\r\n") for _ in range(2)]
        for _ in held:
            self.judge("one is at the backend", True, backend.held.acquire(timeout=PATIENCE))
        for words in OF_EACH_ANSWER:
            gate.ask(words)
        wanted: dict[str, typing.Any] = {
            "limit": 2,
            "limit_least": 2,
            "limit_greatest": 2,
            "limit_info": {"fixed": 1},
            **UNMEASURED,
            "in_flight": 2,
            "waiting": 0,
            "granted": 0,
            "class_in_flight": {"live": 2},
            "class_share": {"live": 2, "batch": 1},
            "class_waiting": {},
            "class_refused_total": {"unknown,full": 1},
            "class_outcomes_total": {},
            "class_promoted_total": {},
            "decisions_total": {"admitted": 2, "bypassed": 1, "full": 1},
            "outcomes_total": {},
            "answers_total": {"400": 1, "413": 1, "429": 1, "431": 1, "501": 1},
            "workers": 5,
            "busy_workers": 2,
        }
        self.judge("the numbers while two are inside", True, gate.shows(**wanted))
        classes = ["live", "batch", "unknown"]
        found = gate.metrics()
        self.judge("classes of the numbers", [classes] * 2, [[*found["class_in_flight"]], [*found["class_waiting"]]])
        causes = [f"{name},{cause}" for name in classes for cause in ("full", "backlog", "timed-out")]
        self.judge("causes of the refusals", causes, [*found["class_refused_total"]])
        backend.release.set()
        self.judge("those who were inside", [passed_on(BODY)] * 2, [it.result() for it in held])
        for path in (b"/closes", b"/garbage", b"/busy"):
            gate.ask(b"GET %s HTTP/1.1\r\nHost: h\r\n\r\n" % path)
        wanted |= {
            "in_flight": 0,
            "class_in_flight": {},
            "class_outcomes_total": {"live,success": 2, "unknown,dropped": 3},
            "decisions_total": {"admitted": 5, "bypassed": 1, "full": 1},
            "outcomes_total": {"success": 2, "dropped": 3},
            "answers_total": wanted["answers_total"] | {"502": 2},
            "troubles_total": {"broken": 2},
            "busy_workers": 0,
        }
        self.judge("the numbers behind them", True, gate.shows(**wanted))
        before = gate.metrics()["uptime_seconds"]
        self.judge("its seconds go on", True, until(lambda: gate.metrics()["uptime_seconds"] > before))
        backend.close()
        gate.ask(PLAIN)
        more = {
            "troubles_total": {"broken": 2, "unreached": 1},
            "outcomes_total": {"success": 2, "dropped": 3, "ignored": 1},
        }
        self.judge("a backend that can't be reached", True, gate.shows(**more))

    def sets_its_limit(self, backend: Backend) -> None:
        """A number that is set acts at once, one out of the range changes nothing, and a reset goes back."""
        gate = self.operated(backend, 'timeout_ms = 60_000\npromote = "all"\n\n' + SETTABLE.format(1), workers=6)
        held = [Later(gate.ask, HELD) for _ in range(3)]
        self.judge("one is at the backend", True, backend.held.acquire(timeout=PATIENCE))
        self.judge("two wait", True, gate.shows(limit=1, in_flight=1, waiting=2, busy_workers=3))
        for body in ("0", "9", "4294967295"):
            self.judge(f"a limit of {body}", told(OUT_OF_RANGE), gate.call("POST /limit", body))
        self.judge("they wait as before", (1, 2), (gate.metrics()["limit"], gate.metrics()["waiting"]))
        self.judge("a limit of 3", told(DONE), gate.call("POST /limit", "3"))
        for _ in range(2):
            self.judge("a waiter is at the backend", True, backend.held.acquire(timeout=PATIENCE))
        self.judge(
            "nobody waits",
            True,
            gate.shows(limit=3, in_flight=3, waiting=0, decisions_total={"admitted": 1, "waiting": 2, "promoted": 2}),
        )
        chunks = request("POST /limit HTTP/1.1", f"Host: 127.0.0.1:{gate.operator}", MARK, "Transfer-Encoding: chunked")
        self.judge("a limit in chunks", told(DONE), gate.tell(chunks + b"1\r\n0\r\n2\r\n08\r\n0\r\n\r\n"))
        self.judge("its limit", 8, gate.metrics()["limit"])
        self.judge("a reset", told(DONE), gate.call("POST /reset"))
        self.judge(
            "the limit at its beginning, with three inside",
            (1, 3),
            (gate.metrics()["limit"], gate.metrics()["in_flight"]),
        )
        backend.release.set()
        self.judge("all are served", [passed_on(BODY)] * 3, [it.result() for it in held])
        wanted = ["set the limit limit=3", "set the limit limit=8", "reset the limit"]
        lines = [f"[WARN  admission] the operator {it}" for it in wanted]
        self.judge(
            "what the log tells", True, until(lambda: [it for it in gate.log if "the operator " in it][1:] == lines)
        )

    def keeps_own_places(self, backend: Backend) -> None:
        """Who finds a place of its own class waits while others fill everybody's, and each class is told by itself."""
        gate = self.operated(backend, PLACED, workers=12, version=2)
        later: list[Later] = []
        for name, inside, wanted in (
            *(("live", 1, {}), ("batch", 2, {}), ("batch", 2, {"batch": 1})),
            *(("live", 2, {"batch": 1, "live": 1}), ("live", 2, {"batch": 1, "live": 2})),
        ):
            later.append(Later(gate.ask, HELD_BY % name.encode()))
            self.judge(f"{wanted} wait", True, gate.shows(in_flight=inside, class_waiting=wanted))
        for one in (b"live", b"batch", b"unknown", b"batch"):
            refused = gate.ask(HELD_BY.replace(b"/held", b"/") % one)
            self.judge(f"one more of {one!r}", b"HTTP/1.1 429 ", refused[:13])
        told_of = {"live,backlog": 1, "batch,backlog": 2, "unknown,backlog": 1}
        numbers = {"decisions_total": {"admitted": 2, "waiting": 3, "backlog": 4}, "answers_total": {"429": 4}}
        self.judge("who was refused", True, gate.shows(waiting=3, class_refused_total=told_of, **numbers))
        backend.release.set()
        self.judge("all others are served", [passed_on(BODY)] * 5, [it.result() for it in later])
        self.judge("nobody waits", True, gate.shows(waiting=0, class_waiting={}, class_refused_total=told_of))

    def resets_what_was_learned(self, backend: Backend) -> None:
        """A limit that learned goes back to its beginning; and it isn't set by hand."""
        gate = self.operated(backend, '\n\n[limit]\nkind = "aimd"\ninitial = 40\nmax = 50\nratio = 500')
        for wanted in (20, 10, 5):
            gate.ask(b"GET /busy HTTP/1.1\r\nHost: h\r\n\r\n")
            self.judge("the limit behind a drop", True, gate.shows(limit=wanted))
        for body in ("0", "7", "4294967295"):
            self.judge(f"a limit of {body} by hand", told(NOT_SETTABLE), gate.call("POST /limit", body))
        self.judge("the limit behind that", 5, gate.metrics()["limit"])
        self.judge("a reset", told(DONE), gate.call("POST /reset"))
        self.judge("the limit behind it", 40, gate.metrics()["limit"])
        self.judge(
            "counters behind it", {"admitted": 3}, {k: v for k, v in gate.metrics()["decisions_total"].items() if v}
        )
        gate = self.operated(backend)
        self.judge("a fixed limit by hand", told(NOT_SETTABLE), gate.call("POST /limit", "7"))
        self.judge("a reset of a fixed limit", told(DONE), gate.call("POST /reset"))
        self.judge("a fixed limit behind both", 20, gate.metrics()["limit"])

    def drains(self, backend: Backend) -> None:
        """Nobody comes any more, who is inside is served, workers in accept are woken, and it ends with counters."""
        gate = self.operated(backend, words=("--client-timeout-ms", "60000"))
        self.judge("a request before a drain", passed_on(BODY), gate.ask(PLAIN))
        held = Later(gate.ask, HELD)
        self.judge("one is at the backend", True, backend.held.acquire(timeout=PATIENCE))
        self.judge("health before a drain", told(DONE), gate.call("GET /health"))
        for turn in range(2):
            self.judge(f"a drain, {turn}", told(DRAINED), gate.call("POST /drain"))
            self.judge(f"health behind a drain, {turn}", told(CLOSING), gate.call("GET /health"))
        self.judge("who comes then", "refused", or_refused(gate.ask, PLAIN))
        self.judge("what is inside", True, gate.shows(in_flight=1, busy_workers=1))
        self.judge("it hasn't ended", None, gate.process.poll())
        backend.release.set()
        self.judge("who was inside", passed_on(BODY), held.result())
        self.judge("counters of a drain", {"admitted": 2, "success": 2}, gate.ending())
        self.judge("the operator's address then", "refused", or_refused(gate.call, "GET /health"))
        self.judge(
            "what the log tells of a drain", True, "[WARN  admission] the operator drains the gateway" in gate.log
        )
        gate = self.operated(backend, workers=64, words=("--client-timeout-ms", "60000", "--report-seconds", "3600"))
        self.judge("a drain of an idle gateway", told(DRAINED), gate.call("POST /drain"))
        self.judge("counters of an idle gateway", {}, gate.ending())

    def drains_in_its_time(self, backend: Backend) -> None:
        """Clients in their heads, and silent ones of the operator's address, hold up a drain for their time alone;
        silent clients hold up none."""
        gate = self.operated(backend, words=("--client-timeout-ms", "5000"))
        with gate.connect() as silent, gate.connect() as half:
            half.sendall(HELD[:9])
            self.judge("one holds a worker", True, gate.shows(busy_workers=1))
            self.judge("a drain beside silent clients", told(DRAINED), gate.call("POST /drain"))
            with socket.create_connection(("127.0.0.1", gate.operator), timeout=PATIENCE):
                self.judge("counters of silent clients", {}, gate.ending())
            self.judge("silent clients get nothing", [b"", b""], [read_all(it) for it in (silent, half)])

    def holds_its_own_threads_alone(self, backend: Backend) -> None:
        """Silent clients of the address hold up other operators for a second, and no client of the gateway."""
        gate = self.operated(backend, workers=1, words=("--client-timeout-ms", "60000"))
        begun = time.monotonic()
        silent = [socket.create_connection(("127.0.0.1", gate.operator), timeout=PATIENCE) for _ in range(4)]
        late = Later(gate.call, "GET /metrics")
        for turn in range(3):
            self.judge(f"one beside silent operators, {turn}", passed_on(BODY), gate.ask(PLAIN))
        self.judge("another operator then", True, b" 200 OK" in late.result())
        self.judge("it had to wait for a second", True, 1 <= time.monotonic() - begun < 6)
        self.judge("silent ones get nothing", [b""] * 4, [read_all(it) for it in silent])
        with socket.create_connection(("127.0.0.1", gate.operator), timeout=PATIENCE) as deaf:
            deaf.sendall(request("GET / HTTP/1.1", f"Host: 127.0.0.1:{gate.operator}"))
            self.judge("one behind who reads nothing", told(DONE), gate.call("GET /health"))
        for turn in range(3):
            self.judge(f"one behind both, {turn}", passed_on(BODY), gate.ask(PLAIN))

    def refuses_other_addresses(self, backend: Backend) -> None:
        """Only a loopback address is taken; one that is taken is reported with its reason."""
        path = pathlib.Path(self.room) / "operated.toml"
        front = free_port()
        path.write_text(
            f'version = 2\nlisten = "127.0.0.1:{front}"\nbackend = "127.0.0.1:{backend.port}"\n'
            '[limit]\nkind = "fixed"\n'
        )

        def served(address: str) -> tuple[int, str, str]:
            words = [self.program, "serve", str(path), "--workers", "1", "--admin", address]
            done = subprocess.run(words, capture_output=True, text=True, timeout=PATIENCE)
            return done.returncode, done.stdout, done.stderr

        for address in (
            "0.0.0.0:9901",
            "192.0.2.1:9901",
            "128.0.0.1:9901",
            "126.255.255.255:9901",
            "localhost:9901",
            "127.0.0.1",
            "127.0.0.1:",
            "127.0.0.1:0",
            "127.0.0.1:65536",
            "127.1:9901",
            "127.0.0.01:9901",
            ":9901",
            "9901",
            "[::1]:9901",
            "127.0.0.1:9901 ",
            "http://127.0.0.1:9901",
            "",
        ):
            status, out, said = served(address)
            self.judge(f"at {address!r}", (2, "", True), (status, out, "--admin" in said and address in said))
        with socket.create_server(("127.0.0.1", 0)) as taken:
            address = f"127.0.0.1:{taken.getsockname()[1]}"
            status, out, said = served(address)
            wanted = (
                f"[ERROR admission] the address can't be bound address={address} "
                "error=Address already in use (os error 98)\nadmission: listen\n"
            )
            self.judge("at an address that is taken, before anything is told", (1, "", wanted), (status, out, said))
        status, out, said = served(f"127.0.0.1:{front}")
        self.judge("at its own front", (1, "", wanted.replace(address, f"127.0.0.1:{front}")), (status, out, said))
        other = self.operated(backend, loopback="127.255.255.254")
        self.judge("at another loopback address", told(DONE), other.call("GET /health"))
        other.loopback = "127.0.0.1"
        self.judge("at the same port of this one", "refused", or_refused(other.call, "GET /health"))
        gate = self.gateway(backend)
        self.judge("an operator's address that nobody asked for", [], [it for it in gate.log if "operator" in it])
        self.judge("without one", passed_on(BODY), gate.ask(PLAIN))
        self.judge("counters without one", {"admitted": 1, "success": 1}, gate.ending())
