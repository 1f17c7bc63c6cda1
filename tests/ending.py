"""Cases of `tests/serve` on calls and connections that come to an end, whatever their peer does or leaves undone."""
import contextlib
import pathlib
import socket
import threading
import time
from collections.abc import Callable

from loopback import BODY, WHOLE, Backend, Gateway, Later, Scripted, read_all, read_head
from running import PATIENCE, closed_port, until
from sockets import LONG_TIME, MUCH, PLAIN, TRIES, Sockets, drips, passed_on, timed, tried, unbroken
from telling import BROKEN, reports, troubles
from wires import local

ONE = 'wait = false\n\n[limit]\nkind = "fixed"\ninitial = 1'
# How long a call may take, in milliseconds, where it is limited; and in how many seconds it has to be over.
LIMIT, IN_TIME = 600, (0.55, 2.5)
POST = b"POST /plain HTTP/1.1\r\nHost: h\r\nContent-Length: %d\r\n\r\n%s" % (len(MUCH), MUCH)
LATE = "[WARN  admission] the backend didn't answer in time count=1"
# From this connect on a backend's queue is full, which accepts nobody.
QUEUE = 3
# Answers of which a client takes nothing for a while: the system has the first whole by then, and not the second.
RESTED = (300_000, 6_000_000)


def is_between(seconds: float, bounds: tuple[float, float]) -> bool:
    return bounds[0] <= seconds <= bounds[1]


def timers(port: int, column: int) -> list[tuple[int, float]]:
    """Of each connection whose own (1) or other (2) end has this port: its kind of timer, and when that ends."""
    found = []
    for line in pathlib.Path("/proc/net/tcp").read_text("ascii").splitlines()[1:]:
        words = line.split()
        kind, _, ticks = words[5].partition(":")
        if words[column].endswith(f":{port:04X}") and words[3] == "01":
            found.append((int(kind, 16), int(ticks, 16) / 100))
    return found


class Ending(Sockets):
    """Cases on calls and connections that end."""

    def ends_calls_in_time(self, _: Backend) -> None:
        """Wherever a backend stops, a call is over at its time: 504, dropped, its permit back, and told."""
        stays = threading.Event()

        def stops_behind(text: bytes) -> Callable[[socket.socket], object]:
            def script(client: socket.socket) -> None:
                if text:
                    read_head(client)
                client.sendall(text)
                stays.wait(PATIENCE)

            return script

        def goes_on(client: socket.socket) -> None:
            client.sendall(WHOLE["length"].replace(b"13", b"9999"))
            drips(client)

        cases = (
            ("before its answer", stops_behind(b""), PLAIN),
            ("in its head", stops_behind(b"HTTP/1.1 200 OK\r\nConte"), PLAIN),
            ("in its body", stops_behind(WHOLE["length"][:-3]), PLAIN),
            ("behind an interim response", stops_behind(b"HTTP/1.1 100 Continue\r\n\r\n"), PLAIN),
            ("and reads nothing", stops_behind(b""), POST),
            ("in an answer that came early", stops_behind(WHOLE["length"][:-3]), POST),
            ("never, byte by byte", goes_on, PLAIN),
        )
        for what, script, text in cases:
            backend = Scripted(script)
            gate = self.gateway(backend, ONE, each=1, words=("--backend-timeout-ms", str(LIMIT)))
            answer, seconds = timed(gate.ask, text)
            # To read six megabytes first takes a program that isn't proved some seconds.
            bounds = (IN_TIME[0], PATIENCE) if text == POST else IN_TIME
            self.judge(f"a backend that stops {what}", (local(504), True), (answer, is_between(seconds, bounds)))
            self.judge(f"counters of one that stops {what}", {"admitted": 1, "dropped": 1}, gate.ending())
            self.judge(f"what is told of one that stops {what}", [LATE], [it for it in gate.log if "in time" in it])
            backend.close()
        stays.set()

    def gives_a_late_permit_back(self, _: Backend) -> None:
        """Behind a call that was late the only permit is there again, and the late one's connection is closed."""
        ends: list[bytes] = []

        def first_stops(client: socket.socket) -> None:
            text = read_head(client)
            if b"/held" in text:
                ends.append(client.recv(1))
            else:
                client.sendall(WHOLE["length"])

        stopping = Scripted(first_stops)
        # The call between two late ones is in time on a machine with other work too.
        gate = self.gateway(stopping, ONE, each=3, words=("--backend-timeout-ms", "3000"))
        held = b"GET /held HTTP/1.1\r\nHost: h\r\n\r\n"
        found = [gate.ask(it) for it in (held, PLAIN, held)]
        self.judge("a late call, another and a late one", [local(504), passed_on(BODY), local(504)], found)
        self.judge("the late ones were closed", True, until(lambda: ends == [b"", b""]))
        self.judge("counters of two late ones", {"admitted": 3, "success": 1, "dropped": 2}, gate.ending())
        stopping.close()

    def limits_nothing_else(self, backend: Backend) -> None:
        """What ends in time is as without a limit; and without one a call takes as long as its backend."""
        rests = b"GET /rests HTTP/1.1\r\nHost: h\r\n\r\n"
        for words in ((), ("--backend-timeout-ms", "3600000"), ("--backend-timeout-ms", "5000")):
            gate = self.gateway(backend, ONE, each=4, words=words)
            answer, seconds = timed(gate.ask, rests)
            self.judge(f"a rest with {words}", (passed_on(BODY), True), (answer, seconds >= 1.5))
            for path in (b"/closes", b"/garbage", b"/closes/length/50"):
                text = b"GET %s HTTP/1.1\r\nHost: h\r\n\r\n" % path
                self.judge(f"{path!r} with {words}", local(502), gate.ask(text))
            self.judge(f"counters with {words}", {"admitted": 4, "success": 1, "dropped": 3}, gate.ending())
            self.judge(f"nothing is late with {words}", [], [it for it in gate.log if "in time" in it])
        gate = Gateway(self.program, self.room, closed_port(), ONE, words=("--backend-timeout-ms", "5000"))
        self.judge("nobody there", local(502), gate.ask(PLAIN))
        self.judge("counters of nobody there", {"admitted": 1, "ignored": 1}, gate.ending())

    def ends_connects(self, _: Backend) -> None:
        """A connect that nobody answers ends: by the limit with 504, dropped, or in five seconds with 502, ignored."""
        for words, status, kind, bounds in (
            (("--backend-timeout-ms", str(LIMIT)), 504, "dropped", IN_TIME),
            ((), 502, "ignored", (4.5, 8.0)),
            (("--backend-timeout-ms", "60000"), 502, "ignored", (4.5, 8.0)),
        ):
            with socket.create_server(("127.0.0.1", 0), backlog=0) as full, contextlib.ExitStack() as waiting:
                for _place in range(QUEUE):
                    one = waiting.enter_context(socket.socket())
                    one.setblocking(False)
                    with contextlib.suppress(BlockingIOError):
                        one.connect(full.getsockname())
                time.sleep(0.2)
                gate = Gateway(self.program, self.room, full.getsockname()[1], ONE, words=words)
                answer, seconds = timed(gate.ask, PLAIN)
                self.judge(f"a full queue with {words}", (local(status), True), (answer, is_between(seconds, bounds)))
                self.judge(f"counters of it with {words}", {"admitted": 1, kind: 1}, gate.ending())

    def gives_up_who_reads_nothing(self, _: Backend) -> None:
        """A backend that takes nothing of its request is given up behind five seconds, and at once where it has ended
        what it sends: 502, dropped, and told."""
        apart = tried(lambda: abs(self.time_between_them() - 5), 2.5)
        self.judge("a silent backend has five seconds more than one that ends", True, min(apart) < 2.5 or apart)

    def time_between_them(self) -> float:
        """How much later a call is answered where the backend is silent, than where it ends what it sends: both at
        once, since other work on the machine makes both late."""
        ends = [Later(self.time_of_who_reads_nothing, it) for it in (False, True)]
        silent, ended = (it.result(5 * PATIENCE) or 0.0 for it in ends)
        self.judge("how long a silent backend has", True, silent >= 4.5 or silent)
        return silent - ended

    def time_of_who_reads_nothing(self, ends_first: bool) -> float:
        """When a call is answered whose backend reads nothing, from when that has its connection on."""
        begun: list[float] = []
        stays = threading.Event()

        def reads_nothing(client: socket.socket) -> None:
            begun.append(time.monotonic())
            if ends_first:
                client.shutdown(socket.SHUT_WR)
            stays.wait(5 * PATIENCE)

        backend = Scripted(reads_nothing)
        gate = self.gateway(backend, ONE, words=LONG_TIME)
        try:
            with gate.connect() as client:
                client.settimeout(3 * PATIENCE)
                client.sendall(POST)
                self.judge(f"who reads nothing, {ends_first}", local(502), read_all(client))
                took = time.monotonic() - begun[0]
        finally:
            # Where it isn't given up, the gateway ends by this.
            stays.set()
            backend.close()
        self.judge(f"counters of who reads nothing, {ends_first}", {"admitted": 1, "dropped": 1}, gate.ending())
        told = f"{BROKEN}count=1 cause=closed before the request was written"
        self.judge(f"what is told of who reads nothing, {ends_first}", [told], troubles(gate, 1))
        return took

    def lets_its_clients_rest(self, _: Backend) -> None:
        """A client that takes nothing of its answer for seven seconds gets all of it within its own time, whether the
        gateway still writes it or its system has all of it."""
        for body in RESTED:

            def answers(client: socket.socket, body: int = body) -> None:
                read_head(client)
                client.sendall(b"HTTP/1.1 200 OK\r\nContent-Length: %d\r\n\r\n" % body + b"y" * body)

            backend = Scripted(answers)
            gate = self.gateway(backend, words=LONG_TIME)
            with socket.socket() as client:
                client.setsockopt(socket.SOL_SOCKET, socket.SO_RCVBUF, 4096)
                client.settimeout(3 * PATIENCE)
                client.connect(("127.0.0.1", gate.port))
                client.sendall(PLAIN)
                begun = client.recv(1)
                time.sleep(7)
                found, why = unbroken(client, b"")
            length = len((begun + found).partition(b"\r\n\r\n")[2])
            self.judge(f"{body} bytes behind a rest", (body, None), (length, why))
            self.judge(f"counters of {body} bytes behind a rest", {"admitted": 1, "success": 1}, gate.ending())
            backend.close()

    def waits_for_no_end(self, _: Backend) -> None:
        """A client is answered, and let go, before it is looked whether its backend closes, which never does here."""

        def answers(client: socket.socket) -> None:
            read_head(client)
            client.sendall(WHOLE["length"])
            drips(client)

        backend = Scripted(answers)
        gate = self.gateway(backend, ONE, workers=2, each=TRIES)
        took = []
        for _turn in range(2 * TRIES):
            answer, seconds = timed(gate.ask, PLAIN)
            took.append(seconds)
            self.judge("a backend that goes on behind its answer", passed_on(BODY), answer)
        # To look for the end takes a quarter of a second.
        self.judge("it isn't waited for", True, min(took) < 0.15)
        self.judge("counters of it", {"admitted": 2 * TRIES, "success": 2 * TRIES}, gate.ending())
        backend.close()

    def counts_nobody_who_sends_nothing(self, backend: Backend) -> None:
        """Who connects and closes without a byte is answered as ever, and isn't counted among the answers."""
        gate = self.gateway(backend, each=4, words=("--report-seconds", "1"))
        with gate.connect() as client:
            client.shutdown(socket.SHUT_WR)
            self.judge("who ends before a byte", local(400), read_all(client))
        gate.connect().close()
        with gate.connect() as client:
            client.sendall(b"G")
            client.shutdown(socket.SHUT_WR)
            self.judge("who ends behind a byte", local(400), read_all(client))
        self.judge("a report of the one", True, until(lambda: [it["400"] for it in reports(gate)][-1:] == ["1"]))
        self.judge("another one", passed_on(BODY), gate.ask(PLAIN))
        self.judge("counters of who sends nothing", {"admitted": 1, "success": 1}, gate.ending())

    def lets_slow_heads_go(self, backend: Backend) -> None:
        """Where no worker is free, who has begun its head is let go after a second; one whose head is whole isn't."""
        took = tried(lambda: self.time_of_a_slow_head(backend, ()), 2.5)
        self.judge("a slow one is let go after a second", True, is_between(min(took), (0.9, 2.5)) or took)
        words = ("--head-timeout-ms", "3000")
        took = tried(lambda: self.time_of_a_slow_head(backend, words), 4.5)
        self.judge("one is let go after the time of a head", True, is_between(min(took), (2.9, 4.5)) or took)

    def time_of_a_slow_head(self, backend: Backend, words: tuple[str, ...]) -> float:
        """When a client that is slow with its head was let go, and one that is served behind it: the later of both."""
        gate = self.gateway(backend, workers=2, each=2, words=("--client-timeout-ms", "60000", *words))
        began = time.monotonic()

        def since(ask: Callable[..., bytes], *given: object) -> tuple[bytes, float]:
            """What was answered, and how long after the beginning: a thread or a wait may come late, and not early."""
            return ask(*given), time.monotonic() - began

        with gate.connect() as slow, gate.connect() as whole:
            slow.sendall(PLAIN[:9])
            whole.sendall(b"POST /plain HTTP/1.1\r\nHost: h\r\nContent-Length: 3\r\n\r\n")
            told_slow = Later(since, read_all, slow)
            time.sleep(0.3)
            answer, seconds = since(gate.ask, PLAIN)
            told, later = told_slow.result() or (None, 0.0)
            self.judge("one behind both, and the slow one", (passed_on(BODY), b""), (answer, told))
            self.judge("not before a second is over", True, min(seconds, later) >= 0.9)
            whole.sendall(b"abc")
            self.judge("whose head was whole", passed_on(BODY), read_all(whole))
        self.judge("another one behind them", passed_on(BODY), gate.ask(PLAIN))
        self.judge("counters of slow ones", {"admitted": 3, "success": 3}, gate.ending())
        return max(seconds, later)

    def asks_after_its_peers(self, backend: Backend) -> None:
        """The system asks after a client and a backend that are silent, two seconds after their last sign."""
        gate = self.gateway(backend)
        held = Later(gate.ask, b"GET /held HTTP/1.1\r\nHost: h\r\n\r\n")
        self.judge("it is at the backend", True, backend.held.acquire(timeout=PATIENCE))
        for who, port, column in (("client", gate.port, 1), ("backend", backend.port, 2)):
            self.judge(
                f"the timers towards the {who}",
                [(2, True)],
                [(kind, ends <= 2.0) for kind, ends in timers(port, column)],
            )
        backend.release.set()
        self.judge("its answer", passed_on(BODY), held.result())
        self.judge("counters of one that was asked after", {"admitted": 1, "success": 1}, gate.ending())
