"""Cases of `tests/serve` on connections: early answers, resets, signals, descriptors and slow ends."""
import contextlib
import functools
import os
import pathlib
import resource
import signal
import socket
import subprocess
import threading
import time
import typing
from collections.abc import Callable, Iterator
from concurrent.futures import ThreadPoolExecutor

from loopback import BODY, FIVE, LARGE, WHOLE, Backend, Gateway, Later, Scripted, read_all, read_head
from running import PATIENCE, until
from served import Served
from wires import CONTINUE, local

PLAIN = b"GET /plain HTTP/1.1\r\nHost: h\r\n\r\n"
# What is still to come of a request as its backend answers and closes.
MUCH = b"x" * 6_000_000
EARLY = {
    "length": b"HTTP/1.1 403 Forbidden\r\nContent-Length: 13\r\n\r\n" + BODY,
    "chunks": b"HTTP/1.1 403 Forbidden\r\nTransfer-Encoding: chunked\r\n\r\nd\r\n" + BODY + b"\r\n0\r\n\r\n",
}
# More behind an answer than buffers of the system hold.
FLOOD = b"x" * 20_000_000
# How often a gateway is stopped and goes on while the same reads and writes wait.
STOPS = 12
# How often a case is tried whose mistake shows in most of its tries.
TRIES = 5
# A client whose machine has other work takes its time.
LONG_TIME = ("--client-timeout-ms", "60000")
# For how many seconds a case is tried again that other work on the machine may make late.
AGAIN = 3 * PATIENCE


def passed_on(body: bytes, status: bytes = b"200 OK") -> bytes:
    """A response with this body, as it is passed on."""
    return b"HTTP/1.1 %s\r\nContent-Length: %d\r\nConnection: close\r\n\r\n%s" % (status, len(body), body)


def timed(call: Callable, *given: object) -> tuple[typing.Any, float]:
    """What a call gives, and how many seconds it took."""
    begun = time.monotonic()
    return call(*given), time.monotonic() - begun


def time_of_one(gate: Gateway) -> float:
    """How many seconds one takes to be served."""
    return timed(gate.ask, PLAIN)[1]


def tried(measure: Callable[[], float], most: float) -> list[float]:
    """The seconds that a measure gives, taken again until they are below this: other work on the machine may make any
    one of them late. What is late each time is late for as long as it is tried."""
    end, found = time.monotonic() + AGAIN, [measure()]
    while found[-1] >= most and time.monotonic() < end:
        found.append(measure())
    return found


def unbroken(client: socket.socket, text: bytes) -> tuple[bytes, str | None]:
    """All that comes of a client that sends a text, and how its connection broke: a reset may take the answer."""
    found = b""
    try:
        client.sendall(text)
        while piece := client.recv(65536):
            found += piece
    except OSError as why:
        return found, type(why).__name__
    return found, None


def drips(client: socket.socket) -> None:
    """Sends a byte after another, for longer than anybody should listen."""
    for _ in range(500):
        time.sleep(0.015)
        client.sendall(b"x")


def processor_time(process: subprocess.Popen[str]) -> float:
    """The seconds of a processor that a process took so far."""
    with open(f"/proc/{process.pid}/stat", encoding="ascii") as file:
        user, system = file.read().rpartition(")")[2].split()[11:13]
    return (int(user) + int(system)) / os.sysconf("SC_CLK_TCK")


def states_of(process: subprocess.Popen[str]) -> dict[str, str]:
    """The state of each thread of a process, as proc(5) names them; none where it has ended."""
    states = {}
    for it in pathlib.Path(f"/proc/{process.pid}/task").glob("*/stat"):
        with contextlib.suppress(OSError):
            states[it.parent.name] = it.read_text().rpartition(")")[2].split()[0]
    return states


def comes_to_rest(process: subprocess.Popen[str]) -> bool:
    """Whether each thread of a process is found to wait for something, sooner or later."""
    waited: set[str] = set()

    def have_waited() -> bool:
        states = states_of(process)
        waited.update(thread for thread, state in states.items() if state == "S")
        return waited >= states.keys()

    return until(have_waited)


@contextlib.contextmanager
def standing_still(process: subprocess.Popen[str]) -> Iterator[None]:
    """A process does nothing meanwhile: each of its threads is stopped, and then goes on."""
    process.send_signal(signal.SIGSTOP)
    until(lambda: {*states_of(process).values()} == {"T"})
    try:
        yield
    finally:
        process.send_signal(signal.SIGCONT)


class Sockets(Served):
    """Cases on connections."""

    def answers_early(self, _: Backend) -> None:
        """A backend that answers and closes at the head is told as it answered; one without an answer is 502."""
        by_length = b"POST /plain HTTP/1.1\r\nHost: h\r\nContent-Length: %d\r\n\r\n%s" % (len(MUCH), MUCH)
        in_chunks = b"POST /plain HTTP/1.1\r\nHost: h\r\nTransfer-Encoding: chunked\r\n\r\n%x\r\n%s\r\n0\r\n\r\n" % (
            len(MUCH),
            MUCH,
        )
        told = passed_on(BODY, b"403 Forbidden")
        for what, said, wanted, outcome in (
            ("by a length", EARLY["length"], told, "success"),
            ("in chunks", EARLY["chunks"], told, "success"),
            ("without a length", b"HTTP/1.1 403 Forbidden\r\n\r\n" + BODY, local(502), "dropped"),
            ("in part", EARLY["length"][:-1], local(502), "dropped"),
            ("with nothing", b"", local(502), "dropped"),
        ):

            def closes_at_the_head(client: socket.socket, said: bytes = said) -> None:
                read_head(client)
                client.sendall(said)

            backend = Scripted(closes_at_the_head)
            gate = self.gateway(backend, workers=2, each=3)
            for turn, request in enumerate((by_length, in_chunks) * 3):
                self.judge(f"an early answer {what}, {turn}", wanted, gate.ask(request))
            self.judge(f"connections for early answers {what}", 6, backend.accepted)
            self.judge(f"counters of early answers {what}", {"admitted": 6, outcome: 6}, gate.ending())
            backend.close()

    def resets_nobody(self, backend: Backend) -> None:
        """A client that has sent a second request by the time that its large answer is written gets all of it."""
        gate = self.gateway(backend, workers=4, each=5)

        def asks_twice(_: int) -> tuple[int, str | None]:
            with gate.connect() as client:
                client.sendall(b"GET /five HTTP/1.1\r\nHost: h\r\n\r\n")
                time.sleep(0.05)
                found, why = unbroken(client, PLAIN)
                return len(found.partition(b"\r\n\r\n")[2]), why

        with ThreadPoolExecutor(4) as pool:
            self.judge("large answers before second requests", [(FIVE, None)] * 20, [*pool.map(asks_twice, range(20))])
        self.judge("counters of second requests", {"admitted": 20, "success": 20}, gate.ending())

    def is_stopped(self, backend: Backend) -> None:
        """A gateway that is stopped and goes on loses nobody inside a head, a body, an answer, or before a
        connection."""
        gate = self.gateway(backend, workers=4, each=1, words=("--client-timeout-ms", "60000"))
        with gate.connect() as head, gate.connect() as body, socket.socket() as deaf:
            head.sendall(PLAIN[:9])
            body.sendall(b"POST /plain HTTP/1.1\r\nHost: h\r\nContent-Length: 3\r\n\r\na")
            deaf.setsockopt(socket.SOL_SOCKET, socket.SO_RCVBUF, 4096)
            deaf.connect(("127.0.0.1", gate.port))
            deaf.sendall(b"GET /large HTTP/1.1\r\nHost: h\r\n\r\n")
            begun = deaf.recv(1)
            for _ in range(STOPS):
                time.sleep(0.1)
                gate.process.send_signal(signal.SIGSTOP)
                time.sleep(0.1)
                gate.process.send_signal(signal.SIGCONT)
            time.sleep(0.2)
            head.sendall(PLAIN[9:])
            body.sendall(b"bc")
            self.judge("inside a head", passed_on(BODY), read_all(head))
            self.judge("inside a body", passed_on(BODY), read_all(body))
            self.judge("inside an answer", LARGE, len((begun + read_all(deaf)).partition(b"\r\n\r\n")[2]))
        self.judge("before a connection", passed_on(BODY), gate.ask(PLAIN))
        self.judge("counters of a gateway that was stopped", {"admitted": 4, "success": 4}, gate.ending())

    def listens_where_it_is_told(self, backend: Backend) -> None:
        """It binds the configured address alone."""
        gate = self.gateway(backend, listen="127.0.0.2")
        try:
            socket.create_connection(("127.0.0.1", gate.port), timeout=PATIENCE).close()
            found = "somebody listens"
        except ConnectionRefusedError:
            found = "refused"
        self.judge("another address at its port", "refused", found)
        self.judge("its own address", passed_on(BODY), gate.ask(PLAIN))
        self.judge("counters of its own address", {"admitted": 1, "success": 1}, gate.ending())

    def begins_anew_behind_a_continue(self, backend: Backend) -> None:
        """The time to take an answer isn't that of the text which asked for the body."""
        gate = self.gateway(backend, words=("--client-timeout-ms", "3000"))
        with gate.connect() as client:
            client.sendall(b"POST /rests HTTP/1.1\r\nHost: h\r\nExpect: 100-continue\r\nContent-Length: 3\r\n\r\n")
            self.judge("asked for its body", CONTINUE, client.recv(65536))
            time.sleep(2)
            client.sendall(b"abc")
            self.judge("answered 3.5 seconds later", passed_on(BODY), read_all(client))
        self.judge("counters of who was asked", {"admitted": 1, "success": 1}, gate.ending())

    def is_short_of_descriptors(self, backend: Backend) -> None:
        """A worker that gets no connection rests and tries again: it serves once there are descriptors."""
        front = ("sh", "-c", 'ulimit -Sn 7 && exec "$@"', "sh")
        gate = self.gateway(backend, workers=3, each=1_000_000, front=front, words=("--client-timeout-ms", "60000"))
        self.judge("descriptors of a gateway without clients", 5, len(os.listdir(f"/proc/{gate.process.pid}/fd")))
        with gate.connect(), gate.connect():
            time.sleep(0.2)
            waiting = [Later(gate.ask, PLAIN) for _ in range(3)]
            begun = processor_time(gate.process)
            time.sleep(1)
            self.judge("it rests meanwhile", True, processor_time(gate.process) - begun < 0.08)
            self.judge("nobody is served meanwhile", [None] * 3, [it.found for it in waiting])
            hard = resource.prlimit(gate.process.pid, resource.RLIMIT_NOFILE)[1]
            resource.prlimit(gate.process.pid, resource.RLIMIT_NOFILE, (64, hard))
            self.judge("all are served then", [passed_on(BODY)] * 3, [it.result() for it in waiting])

    def lingers_a_while(self, backend: Backend) -> None:
        """Whoever is answered early sees the end of its answer, and holds a worker for two seconds; others for none."""
        found: list[tuple[float, ...]] = []

        def lingers() -> float:
            """The greatest of three times, each as a part of what it may be."""
            gate = self.gateway(backend, each=4, words=("--client-timeout-ms", "60000"))
            with gate.connect() as early, gate.connect() as served:
                early.sendall(b"GET /plain HTTP/1.1\r\n\r\n")
                answer, ended = timed(read_all, early)
                self.judge("an early answer and its end", local(400), answer)
                served.sendall(PLAIN)
                answer, waited = timed(read_all, served)
                self.judge("one behind a client that stays", passed_on(BODY), answer)
                answer, took = timed(gate.ask, PLAIN)
                self.judge("one behind a client that was served and stays", passed_on(BODY), answer)
            self.judge("another one", passed_on(BODY), gate.ask(PLAIN))
            self.judge("counters of who lingers", {"admitted": 3, "success": 3}, gate.ending())
            found.append((ended, waited, took))
            return max(ended, waited / 4, took)

        self.judge("an end, a wait of two seconds, and none", True, tried(lingers, 1)[-1] < 1 or found)

    def ends_with_its_backend(self, _: Backend) -> None:
        """A backend's end is waited for after its answer, for a moment; behind a fault it isn't."""
        seen: list[bytes | None] = []
        ended: list[bytes | str] = []
        swallowed: list[int] = []
        done = threading.Event()

        def stays(_: socket.socket) -> None:
            done.wait(PATIENCE)

        def looks(client: socket.socket) -> None:
            time.sleep(0.012)
            client.setblocking(False)
            try:
                seen.append(client.recv(1))
            except BlockingIOError:
                seen.append(None)

        def floods(client: socket.socket) -> None:
            client.sendall(FLOOD)
            swallowed.append(len(FLOOD))

        def ends(client: socket.socket) -> None:
            try:
                ended.append(client.recv(1))
            except ConnectionResetError:
                ended.append("reset")

        # More than one read takes: what isn't read resets the connection as it is closed.
        whole, garbage = WHOLE["length"], b"no answer at all\r\n\r\n" + b"x" * 30_000
        for what, said, then, most in (
            ("stays", whole, stays, 0.5),
            ("drips bytes", whole, drips, 2),
            ("goes on sending", whole, floods, 2),
            ("looks whether it closes first", whole, looks, 0.5),
            ("answers garbage", garbage, ends, 0.2),
        ):

            def answers(
                client: socket.socket, said: bytes = said, then: Callable[[socket.socket], None] = then
            ) -> None:
                read_head(client)
                client.sendall(said)
                then(client)

            backend = Scripted(answers)
            gate = self.gateway(backend, each=1_000_000)
            wanted = passed_on(BODY) if said == whole else local(502)
            found = [timed(gate.ask, PLAIN) for _ in range(TRIES)]
            self.judge(f"answers of a backend that {what}", [wanted] * TRIES, [it[0] for it in found])
            took = [it[1] for it in found]
            if min(took) >= most:
                took += tried(functools.partial(time_of_one, gate), most)
            self.judge(f"in less than {most} seconds where it {what}", True, min(took) < most or took)
            backend.close()
        done.set()
        self.judge("a backend that closes first", True, None in seen)
        self.judge("what is sent behind an answer is read for a moment alone", [], swallowed)
        self.judge("what is sent behind a fault is left unread", {"reset"}, {*ended})
