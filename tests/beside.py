"""Cases of `tests/serve` on the addresses beside that of clients: several served at once, HEAD, who left, a drain that
is to come, and what whoever looks may see."""

import contextlib
import functools
import pathlib
import re
import socket
import subprocess
import threading
import time
import typing
from collections.abc import Callable

from ending import timers
from loopback import BODY, Backend, Gateway, Later, Scripted, read_all, read_head
from operating import ALWAYS, HELD, SETTABLE, Operated, Operating, or_refused
from operator_rows import BUSY, CLOSING, DONE, DRAINED, LEFT, MARK, NOTHING, OTHER, OTHER_QUERY, UNREACHED
from operator_rows import request, told
from running import PATIENCE, free_port, until
from sockets import PLAIN, passed_on, standing_still, timed, tried
from wires import reset

# Queries of a drain that aren't a delay of 1 to 3,600,000 milliseconds.
WRONG_QUERIES = (
    *("?", "?after-ms", "?after-ms=", "?after-ms=0", "?after-ms=3600001", "?after-ms=4294967296", "?after-ms=-1"),
    *("?after-ms=+1", "?after-ms=1.5", "?after-ms=1%20", "?after-ms=1&x=2", "?after-ms=1?", "?After-ms=1", "?x=1"),
    *("?after-ms=1s", "?after=1", "?after-ms==1", "??after-ms=1", "?after-ms=1#"),
)
# How long a client of these addresses is waited for, in seconds, and how long at most where the machine is slow.
A_SECOND, SLOWLY = 1.0, 2.5


class Looked(Gateway):
    """A gateway with an address for whoever looks."""

    def __init__(
        self, *given: typing.Any, at: str = "127.0.0.1", words: tuple[str, ...] = (), **how: typing.Any
    ) -> None:
        self.status = free_port()
        super().__init__(*given, words=("--status", f"{at}:{self.status}", *words), **how)

    def tell(self, words: bytes, host: str = "127.0.0.1") -> bytes:
        """All that comes back of a text that is sent to that address."""
        with socket.create_connection((host, self.status), timeout=PATIENCE) as client:
            client.sendall(words)
            return read_all(client)

    def look(self, path: str) -> bytes:
        return self.tell(request(f"GET {path} HTTP/1.1", "Host: pod.example"))


class Beside(Operating):
    """Cases on the addresses beside that of clients."""

    def looked(self, backend: Backend, settings: str = "", workers: int = 4, **how: typing.Any) -> Looked:
        return Looked(self.program, self.room, backend.port, settings, each=ALWAYS, workers=workers, **how)

    def answers_head(self, backend: Backend) -> None:
        """HEAD is answered as GET is, without the text; where nothing is, or another method is wanted, too."""
        gate = self.operated(backend)
        for path in ("/", "/health", "/nothing", "/drain"):
            whole = gate.call(f"GET {path}")
            lines = whole.partition(b"\r\n\r\n")[0] + b"\r\n\r\n"
            self.judge(f"HEAD {path}", lines, gate.call(f"HEAD {path}"))
        length = re.compile(rb"(?<=Content-Length: )\d+(?=\r\n)")
        lines = gate.call("GET /metrics").partition(b"\r\n\r\n")[0] + b"\r\n\r\n"
        asked = gate.call("HEAD /metrics")
        self.judge("HEAD /metrics", length.sub(b"", lines), length.sub(b"", asked))
        self.judge("its length", True, abs(int(length.findall(lines)[0]) - int(length.findall(asked)[0])) < 9)
        self.judge("health behind HEAD /drain", told(DONE), gate.call("GET /health"))

    def hears_nobody_who_left(self, backend: Backend) -> None:
        """A change whose caller has closed its side, or broken its connection, isn't made, though it was heard late; a
        look is answered."""
        gate = self.operated(backend, "\n\n" + SETTABLE.format(2))
        own = f"Host: 127.0.0.1:{gate.operator}"

        def left(words: bytes, leave: Callable[[socket.socket], object]) -> socket.socket:
            # The end has come behind the request before either is heard, also where the system is late with it.
            with standing_still(gate.process):
                client = socket.create_connection(("127.0.0.1", gate.operator), timeout=PATIENCE)
                client.sendall(words)
                leave(client)
                until(lambda: not timers(gate.operator, 1))
            return client

        def half_closed(words: bytes) -> bytes:
            with left(words, lambda client: client.shutdown(socket.SHUT_WR)) as client:
                return read_all(client)

        for path, body in (("/limit", "3"), ("/reset", None), ("/drain", None), ("/drain?after-ms=1", None)):
            words = request(f"POST {path} HTTP/1.1", own, MARK, body=body)
            for leave in (socket.socket.close, reset):
                left(words, leave)
            self.judge(f"POST {path} of who ends its side", told(LEFT), half_closed(words))
        self.judge("a look of who ends its side", told(DONE), half_closed(request("GET /health HTTP/1.1", own)))
        self.judge("the limit behind them", 2, gate.metrics()["limit"])
        self.judge("health behind them", told(DONE), gate.call("GET /health"))
        self.judge("what the log tells", [], [it for it in gate.log if "the operator " in it and "WARN" in it])
        more = request("POST /limit HTTP/1.1", own, MARK, body="3") + b"more"
        self.judge("who has sent more has not left", told(DONE), gate.tell(more))
        self.judge("its limit", 3, gate.metrics()["limit"])

    def is_busy(self, backend: Backend) -> None:
        """It isn't healthy while all workers are held, and is again once one is free; a drain is told first."""
        gate = self.operated(backend, workers=2)
        held: list[Later] = []
        for wanted in (DONE, DONE, BUSY):
            self.judge(f"health with {len(held)} of 2 workers held", told(wanted), gate.call("GET /health"))
            if len(held) < 2:
                held.append(Later(gate.ask, HELD))
                self.judge("one is at the backend", True, backend.held.acquire(timeout=PATIENCE))
        self.judge("the numbers meanwhile", True, gate.shows(busy_workers=2, workers=2))
        backend.release.set()
        self.judge("both are served", [passed_on(BODY)] * 2, [it.result() for it in held])
        self.judge("health behind them", True, until(lambda: gate.call("GET /health") == told(DONE)))
        with gate.connect(), gate.connect() as one, gate.connect() as other:
            for begun in (one, other):
                begun.sendall(HELD[:9])
            self.judge("who has begun holds a worker", True, until(lambda: gate.call("GET /health") == told(BUSY)))
            self.judge("a drain beside them", told(DRAINED), gate.call("POST /drain"))
            self.judge("health behind it", told(CLOSING), gate.call("GET /health"))
        self.judge("counters of both", {"admitted": 2, "success": 2}, gate.ending())

    def tells_its_oldest(self, backend: Backend) -> None:
        """The oldest permit that is out is told, in seconds, and none once it has ended; who only waits has none."""
        gate = self.operated(backend, 'timeout_ms = 60_000\n\n[limit]\nkind = "fixed"\ninitial = 1')
        self.judge("with none", 0, gate.metrics()["oldest_permit_seconds"])
        asked = time.monotonic()
        first = Later(gate.ask, HELD)
        self.judge("one is at the backend", True, backend.held.acquire(timeout=PATIENCE))
        got = time.monotonic()
        second = Later(gate.ask, PLAIN)
        self.judge("another one waits", True, gate.shows(waiting=1))
        # Each look with the least and the greatest seconds that it may tell, by when it began and ended.
        looks: list[tuple[float, int, float]] = []

        def is_old() -> bool:
            begun = time.monotonic()
            found = gate.metrics()["oldest_permit_seconds"]
            looks.append((begun - got - 1.5, found, time.monotonic() - asked))
            return found >= 2

        self.judge("it is old", True, until(is_old))
        self.judge("by the seconds since it was got", [], [it for it in looks if not it[0] <= it[1] <= it[2]])
        backend.release.set()
        self.judge("both are served", [passed_on(BODY)] * 2, [first.result(), second.result()])
        self.judge("with none again", True, gate.shows(in_flight=0, oldest_permit_seconds=0))

    def warns_of_old_permits(self, _: Backend) -> None:
        """Once a minute the log tells how many permits are out for a minute or longer, and since when the oldest is."""
        release = threading.Event()
        hangs = Scripted(lambda client: (client.recv(65536), release.wait(5 * PATIENCE)))
        gate = self.operated(hangs, workers=8, words=("--report-seconds", "1"))
        clients = [gate.connect() for _ in range(2)]
        asked = time.monotonic()
        for it in clients:
            it.sendall(PLAIN)
        self.judge("two are at the backend", True, gate.shows(in_flight=2))
        got = time.monotonic()

        def warnings() -> list[str]:
            return [it for it in gate.log if "older" in it]

        self.judge("before a minute is over", False, until(warnings, seconds=55 - (got - asked)))
        # It looks each second. The first look from here on is to find both old, however far apart they were got.
        with standing_still(gate.process):
            until(lambda: time.monotonic() - got > 60, seconds=90)
            both_old = time.monotonic()
        self.judge("once it is", True, until(warnings, seconds=30))
        told_of = r"\[WARN  admission\] permits are older than a minute count=2 oldest_seconds=(\d+)"
        found = re.fullmatch(told_of, warnings()[0])
        least, most = int(both_old - got), int(both_old - asked) + 3
        is_so = found is not None and least <= int(found[1]) <= most
        self.judge("what it says", True, is_so or (warnings(), least, most))
        time.sleep(3)
        self.judge("how often", 1, len(warnings()))
        release.set()
        for it in clients:
            it.close()
        hangs.close()

    def drains_later(self, backend: Backend) -> None:
        """Clients come until a drain's delay is over, though it isn't healthy, and other operators are served."""
        gate = self.operated(backend)
        begun = time.monotonic()
        later = Later(gate.call, "POST /drain?after-ms=6000")
        self.judge("health at once", True, until(lambda: gate.call("GET /health") == told(CLOSING), seconds=2))
        served = 0
        while time.monotonic() - begun < 2.5:
            self.judge("a client meanwhile", passed_on(BODY), gate.ask(PLAIN))
            served += 1
            self.judge("health meanwhile", told(CLOSING), gate.call("GET /health"))
            time.sleep(0.1)
        self.judge("metrics meanwhile", served, gate.metrics()["decisions_total"]["admitted"])
        self.judge("the drain's answer", (told(DRAINED), True), (later.result(), time.monotonic() - begun >= 6))
        self.judge("who comes then", "refused", or_refused(gate.ask, PLAIN))
        self.judge("counters of a drain", {"admitted": served, "success": served}, gate.ending())
        lines = [it for it in gate.log if "drains" in it]
        self.judge("the log", ["[WARN  admission] the operator drains the gateway after_ms=6000"], lines)

    def drains_before_its_delay(self, backend: Backend) -> None:
        """A drain that is to come is brought forward by another one, and by the end of all workers."""
        for words, most in (("POST /drain", 2.5), ("POST /drain?after-ms=1000", 3.5)):
            gate = self.operated(backend)
            later = Later(gate.call, "POST /drain?after-ms=3600000")
            self.judge("health before", True, until(lambda gate=gate: gate.call("GET /health") == told(CLOSING)))
            self.judge("a client before", passed_on(BODY), gate.ask(PLAIN))
            answer, took = timed(gate.call, words)
            self.judge(f"{words} behind a drain that is to come", (told(DRAINED), True), (answer, took < most))
            self.judge("the first one's answer", told(DRAINED), later.result())
            self.judge("counters of both", {"admitted": 1, "success": 1}, gate.ending())
        gate = self.operated(backend)
        begun = time.monotonic()
        first = Later(gate.call, "POST /drain?after-ms=5000")
        self.judge("health before", True, until(lambda: gate.call("GET /health") == told(CLOSING)))
        later = Later(gate.call, "POST /drain?after-ms=3600000")
        self.judge("the log of both", True, until(lambda: any("after_ms=3600000" in it for it in gate.log)))
        self.judge(
            "one that isn't put off", ([told(DRAINED)] * 2, {}), ([first.result(), later.result()], gate.ending())
        )
        self.judge("nor comes before", True, time.monotonic() - begun >= 5)
        gate = Operated(self.program, self.room, backend.port, each=1, workers=1)
        later = Later(gate.call, "POST /drain?after-ms=3600000")
        self.judge("health before", True, until(lambda: gate.call("GET /health") == told(CLOSING)))
        self.judge("its last client", passed_on(BODY), gate.ask(PLAIN))
        self.judge("its end", ({"admitted": 1, "success": 1}, told(DRAINED)), (gate.ending(), later.result()))

    def refuses_other_queries(self, backend: Backend) -> None:
        """A drain by a query that isn't a delay drains nothing, and says what is wanted."""
        gate = self.operated(backend)
        for query in WRONG_QUERIES:
            self.judge(f"a drain by {query}", told(OTHER_QUERY), gate.call(f"POST /drain{query}"))
        absolute = f"POST http://127.0.0.1:{gate.operator}/drain?after-ms=0 HTTP/1.1"
        words = request(absolute, f"Host: 127.0.0.1:{gate.operator}", MARK)
        self.judge("one by an absolute target", told(OTHER_QUERY), gate.tell(words))
        unmarked = request("POST /drain?x HTTP/1.1", f"Host: 127.0.0.1:{gate.operator}")
        self.judge("one without a mark", (403,), (int(gate.tell(unmarked)[9:12]),))
        self.judge("health behind them", told(DONE), gate.call("GET /health"))
        self.judge("a client behind them", passed_on(BODY), gate.ask(PLAIN))
        self.judge("what the log tells", [], [it for it in gate.log if "drains" in it])

    def is_held_up_for_a_second(self, backend: Backend) -> None:
        """Silent clients of either address hold up the others there for a second at most, and a drain comes through."""
        gate = self.operated(backend, words=("--client-timeout-ms", "60000"))
        silent = [socket.create_connection(("127.0.0.1", gate.operator), timeout=PATIENCE) for _ in range(6)]
        for turn in range(3):
            answer, took = timed(gate.call, "GET /metrics")
            self.judge(f"metrics beside six silent ones, {turn}", (True, True), (b" 200 OK" in answer, took < SLOWLY))
        self.judge("silent ones get nothing", [b""] * 6, [read_all(it) for it in silent])
        slow = tried(functools.partial(self.time_of_a_slow_operator, gate), SLOWLY)
        self.judge("after a second", True, A_SECOND <= min(slow) < SLOWLY or slow)
        silent = [socket.create_connection(("127.0.0.1", gate.operator), timeout=PATIENCE) for _ in range(6)]
        answer, took = timed(gate.call, "POST /drain")
        self.judge("a drain beside six silent ones", (told(DRAINED), True), (answer, took < SLOWLY))
        self.judge("counters of a drain", {}, gate.ending())
        other = self.looked(backend)
        silent += [socket.create_connection(("127.0.0.1", other.status), timeout=PATIENCE) for _ in range(6)]
        answer, took = timed(other.look, "/health")
        self.judge("a look beside six silent ones", (told(DONE), True), (answer, took < SLOWLY))

    def time_of_a_slow_operator(self, gate: Operated) -> float:
        """When a caller that sends a byte now and then is cut off. Its time begins as it is accepted, which may be
        before it knows that it is connected."""
        begun = time.monotonic()
        with socket.create_connection(("127.0.0.1", gate.operator), timeout=PATIENCE) as slow:
            with contextlib.suppress(OSError):
                for byte in b"GET /he":
                    slow.sendall(bytes([byte]))
                    time.sleep(0.1)
            self.judge("who is slow gets nothing", b"", read_all(slow))
            return time.monotonic() - begun

    def is_looked_at(self, backend: Backend) -> None:
        """Whoever looks sees health and metrics, by whatever name it calls the address, and can change nothing."""
        gate = self.looked(backend, "\n\n" + SETTABLE.format(2), workers=2, at="0.0.0.0")
        for host in ("127.0.0.1", "127.0.0.2"):
            for lines in (("Host: h",), ("Host: 10.0.0.7:9902",), ("Host:",)):
                self.judge(f"{lines} at {host}", told(DONE), gate.tell(request("GET /health HTTP/1.1", *lines), host))
        self.judge("of no host", told(DONE), gate.tell(request("GET /health HTTP/1.0")))
        for path in ("/health?from=probe", "http://elsewhere/health"):
            self.judge(path, told(DONE), gate.look(path))
        self.judge("metrics", True, b"\nadmission_limit 2\n" in gate.look("/metrics"))
        head = told(DONE).partition(b"ok\n")[0]
        self.judge("HEAD", head, gate.tell(request("HEAD /health HTTP/1.1", "Host: h")))
        for method in ("POST", "PUT", "DELETE", "OPTIONS", "get"):
            for path in ("/health", "/metrics"):
                words = request(f"{method} {path} HTTP/1.1", "Host: h", MARK)
                self.judge(f"{method} {path} of who looks", told(OTHER, allow="GET, HEAD"), gate.tell(words))
        for path in ("/", "/limit", "/reset", "/drain", "/drain?after-ms=1", "/nothing", "/health/"):
            for method in ("GET", "POST", "HEAD"):
                words = request(f"{method} {path} HTTP/1.1", "Host: h", MARK, body=None if method != "POST" else "3")
                has_body = method != "HEAD"
                self.judge(f"{method} {path} of who looks", told(NOTHING, has_body=has_body), gate.tell(words))
        self.judge("the limit behind them", True, b"\nadmission_limit 2\n" in gate.look("/metrics"))
        self.judge("a client behind them", passed_on(BODY), gate.ask(PLAIN))
        with gate.connect() as one, gate.connect() as other:
            for begun in (one, other):
                begun.sendall(PLAIN[:9])
            self.judge("while all workers are held", True, until(lambda: gate.look("/health") == told(BUSY)))
        wanted = f"[INFO  admission] listening for looks at the state address=0.0.0.0:{gate.status}"
        self.judge("what the log tells", [wanted], [it for it in gate.log if "looks" in it])

    def tells_whether_its_backend_is_reached(self, _: Backend) -> None:
        """`/health?deep` is 503 once connections were tried for ten seconds and none was made, and ok with one that was
        made, or with nobody who tries."""
        with socket.socket() as listener:
            listener.bind(("127.0.0.1", 0))
            gate = Looked(self.program, self.room, listener.getsockname()[1], each=ALWAYS, workers=4)
            self.judge("of who has tried nothing", told(DONE), gate.look("/health?deep"))
            began, found = time.monotonic(), set()
            while time.monotonic() < began + 9:
                gate.ask(PLAIN)
                found.add(gate.look("/health?deep"))
                time.sleep(0.1)
            self.judge("within ten seconds", {told(DONE)}, found)
            is_told = until(lambda: gate.ask(PLAIN) and gate.look("/health?deep") == told(UNREACHED), seconds=6)
            self.judge("behind them, and no sooner", (True, True), (is_told, time.monotonic() - began > 10))
            for path in ("/health", "/health?", "/health?deep=1", "/health?Deep", "/health?from=probe&deep"):
                self.judge(f"at {path}", told(DONE), gate.look(path))
            head = told(UNREACHED, has_body=False)
            self.judge("by HEAD", head, gate.tell(request("HEAD /health?deep HTTP/1.1", "Host: h")))
            time.sleep(10.5)
            self.judge("with nobody who tries", told(DONE), gate.look("/health?deep"))
            gate.ask(PLAIN)
            self.judge("with one who tries again", told(UNREACHED), gate.look("/health?deep"))
            listener.listen()
            served = Later(gate.ask, PLAIN)
            with listener.accept()[0] as connection:
                read_head(connection)
                self.judge("with a connection that is made", told(DONE), gate.look("/health?deep"))
                connection.sendall(b"HTTP/1.1 200 OK\r\nContent-Length: %d\r\n\r\n%s" % (len(BODY), BODY))
            self.judge("its client", passed_on(BODY), served.result())

    def is_looked_at_beside_its_operator(self, backend: Backend) -> None:
        """Both addresses are served to the end of the gateway, each by its own rules, and are closed with it."""
        port = free_port()
        gate = self.operated(backend, words=("--status", f"127.0.0.1:{port}"))

        def look(path: str) -> bytes:
            with socket.create_connection(("127.0.0.1", port), timeout=PATIENCE) as client:
                client.sendall(request(f"GET {path} HTTP/1.1", "Host: h"))
                return read_all(client)

        self.judge("health of both", [told(DONE)] * 2, [look("/health"), gate.call("GET /health")])
        self.judge("the page of who looks", told(NOTHING), look("/"))
        self.judge("the page of the operator", True, b"<!doctype html>" in gate.call("GET /"))
        held = Later(gate.ask, HELD)
        self.judge("one is at the backend", True, backend.held.acquire(timeout=PATIENCE))
        self.judge("a drain", told(DRAINED), gate.call("POST /drain"))
        self.judge("health of both then", [told(CLOSING)] * 2, [look("/health"), gate.call("GET /health")])
        backend.release.set()
        self.judge("who was inside", passed_on(BODY), held.result())
        self.judge("counters", {"admitted": 1, "success": 1}, gate.ending())
        self.judge("who looks then", "refused", or_refused(look, "/health"))
        alone = Looked(self.program, self.room, backend.port, each=1, workers=1)
        self.judge("health of one without an operator", told(DONE), alone.look("/health"))
        self.judge("its last client", passed_on(BODY), alone.ask(PLAIN))
        self.judge("its counters", {"admitted": 1, "success": 1}, alone.ending())
        with socket.create_server(("127.0.0.1", 0)) as taken:
            address = f"127.0.0.1:{taken.getsockname()[1]}"
            words = [self.program, "serve", str(pathlib.Path(self.room) / f"{gate.port}.toml"), "--status", address]
            done = subprocess.run(words, capture_output=True, text=True, timeout=PATIENCE)
            wanted = (
                f"[ERROR admission] the address can't be bound address={address} "
                "error=Address already in use (os error 98)\nadmission: listen\n"
            )
            self.judge("at one that is taken", (1, "", wanted), (done.returncode, done.stdout, done.stderr))

    def begins_its_lines(self, backend: Backend) -> None:
        """Each line of the log begins as is asked for, whoever writes it, and a fault's line as ever."""
        starts = {"plain": "", "journal": "<{}>", "time": r"\d\d\d\d-\d\d-\d\dT\d\d:\d\d:\d\dZ "}
        for form, start in starts.items():
            gate = self.operated(backend, words=("--log-lines", form))
            gate.ask(b"GET /closes HTTP/1.1\r\nHost: h\r\n\r\n")
            gate.call("POST /reset")
            self.judge("it has logged", True, until(lambda gate=gate: len(gate.log) >= 4))
            for line in gate.log:
                level = re.search(r"\[(INFO |WARN |ERROR) admission\] ", line)
                number = {"INFO ": 6, "WARN ": 4}.get(level[1] if level else "", 0)
                shown = re.fullmatch(start.format(number) + r"\[(INFO |WARN ) admission\] \S.*", line)
                self.judge(f"a line of {form}: {line}", True, bool(shown))
            with socket.create_server(("127.0.0.1", 0)) as taken:
                path, address = f"{self.room}/{gate.port}.toml", f"127.0.0.1:{taken.getsockname()[1]}"
                words = [self.program, "serve", path, "--admin", address, "--log-lines", form]
                said = subprocess.run(words, capture_output=True, text=True, timeout=PATIENCE).stderr.splitlines()
            error = re.match(start.format(3) + r"\[ERROR admission\] the address can't be bound ", said[-2])
            self.judge(f"an error of {form}", True, bool(error))
            self.judge(f"the line of a fault, of {form}", "admission: listen", said[-1])
            if form == "time":
                seconds = time.mktime(time.strptime(gate.log[-1][:20], "%Y-%m-%dT%H:%M:%SZ")) - time.timezone
                self.judge("the time of a line", True, abs(time.time() - seconds) < PATIENCE)
