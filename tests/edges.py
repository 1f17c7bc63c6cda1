"""Cases of `tests/serve` on what no proof covers at the edges, each a table of all that may happen there: descriptors
that run out, how each exchange ends, what each trouble is called, and how long each part may take."""
import contextlib
import fcntl
import functools
import os
import pathlib
import resource
import select
import socket
import threading
import time
import typing
from collections.abc import Callable, Iterator
from concurrent.futures import ThreadPoolExecutor

from beside import Beside
from ending import is_between
from large import LINGERS, MEGABYTE, post
from large import answer as response
from lingering import breaks_behind
from loopback import BODY, Backend, Gateway, Later, Scripted, read_all, read_head
from operating import HELD, Operated
from operator_rows import DONE, NOTHING, request, told
from running import PATIENCE, free_port, until
from sockets import (
    AGAIN,
    LONG_TIME,
    PLAIN,
    TRIES,
    comes_to_rest,
    passed_on,
    processor_time,
    standing_still,
    timed,
    tried,
    unbroken,
)
from telling import BROKEN, REPORT, fill, lines_of, troubles, waits_to_write
from wires import local, reset

HEAD = b"HTTP/1.1 200 OK\r\n"
# Answers of a backend that aren't passed on, and what the log calls the cause.
BROKEN_ANSWERS = (
    ("nothing", b"", "cut off"),
    ("half a head", HEAD + b"Content-Le", "cut off"),
    ("half a body", HEAD + b"Content-Length: 3\r\n\r\nab", "cut off"),
    ("half a chunk", HEAD + b"Transfer-Encoding: chunked\r\n\r\n3\r\nab", "cut off"),
    ("no last chunk", HEAD + b"Transfer-Encoding: chunked\r\n\r\n3\r\nabc\r\n", "cut off"),
    ("no head", b"no answer at all\r\n\r\n", "malformed"),
    ("a status of 99", b"HTTP/1.1 099 X\r\n\r\n", "malformed"),
    ("both lengths", HEAD + b"Content-Length: 3\r\nTransfer-Encoding: chunked\r\n\r\n", "malformed"),
    ("another coding", HEAD + b"Transfer-Encoding: gzip\r\n\r\n", "malformed"),
    ("a length that is none", HEAD + b"Content-Length: x\r\n\r\n", "malformed"),
    ("a size that is none", HEAD + b"Transfer-Encoding: chunked\r\n\r\nx\r\n", "malformed"),
    ("101 lines", HEAD + b"X: y\r\n" * 101 + b"\r\n", "too large"),
    ("a head above 64 KiB", HEAD + b"X: " + b"y" * 65_536 + b"\r\n\r\n", "too large"),
    ("a length above 8 MiB", HEAD + b"Content-Length: 8388609\r\n\r\n", "too large"),
    ("a chunk above 8 MiB", HEAD + b"Transfer-Encoding: chunked\r\n\r\n800001\r\n", "too large"),
)
# How many are served at once at an address beside that of clients.
AT_ONCE = 4
# Clients that come at once while no worker is free: more than std's own accept queue of 128 holds.
CROWD = 300
# How many silent callers wait at an operator's address as the last worker ends.
OPERATORS = 40
# Bodies that lie with the gateway's system while a client reads them late.
LATE = (30_000, 300_000, 1_500_000)


def answers_of(body: int) -> Callable[[socket.socket], object]:
    """A backend whose answer has so many bytes."""

    def script(client: socket.socket) -> None:
        read_head(client)
        client.sendall(HEAD + b"Content-Length: %d\r\n\r\n" % body + b"y" * body)

    return script


def cut_off(gate: Gateway, text: bytes) -> float:
    """How long a client has that stops behind this text. Its time begins as it is accepted, which may be before it
    knows that it is connected."""
    begun = time.monotonic()
    with gate.connect() as client:
        client.sendall(text)
        read_all(client)
        return time.monotonic() - begun


class Edges(Beside):
    """Cases on the edges."""

    def rests_without_descriptors(self, backend: Backend) -> None:
        """Who serves an operator, or whoever looks, rests where no descriptor is free, keeps no processor busy, and
        serves all who waited once there is one, however often that was so."""
        status = free_port()
        gate = self.operated(backend, words=("--status", f"127.0.0.1:{status}"))
        most, hard = resource.prlimit(gate.process.pid, resource.RLIMIT_NOFILE)

        def look() -> bytes:
            with socket.create_connection(("127.0.0.1", status), timeout=PATIENCE) as client:
                client.sendall(request("GET /health HTTP/1.1", "Host: h"))
                return read_all(client)

        for turn in range(2):
            for what, ask in (("the operator", lambda: gate.call("GET /health")), ("who looks", look)):
                resource.prlimit(gate.process.pid, resource.RLIMIT_NOFILE, (3, hard))
                asked = [Later(ask) for _ in range(AT_ONCE + 6)]
                begun = processor_time(gate.process)
                is_busy = until(lambda it=begun: processor_time(gate.process) - it > 0.3, seconds=2)
                self.judge(f"its processor without descriptors for {what}, {turn}", False, is_busy)
                # One that tries again and again never waits, however little of a processor it gets.
                self.judge(f"its threads without descriptors for {what}, {turn}", True, comes_to_rest(gate.process))
                # Who waited for a client by then had a descriptor for it already.
                served = sum(it.found is not None for it in asked)
                self.judge(f"how many of {what} meanwhile, {turn}", True, served <= AT_ONCE or served)
                resource.prlimit(gate.process.pid, resource.RLIMIT_NOFILE, (most, hard))
                found = [it.result() for it in asked]
                self.judge(f"{what} then, {turn}", [told(DONE)] * (AT_ONCE + 6), found)
        self.judge("a client behind that", passed_on(BODY), gate.ask(PLAIN))

    def counts_each_trouble(self, backend: Backend) -> None:
        """Each trouble is counted by its own name, and the seconds since the start are seconds."""
        begun = time.monotonic()
        # Both addresses have a socket, and then each call of the backend has one.
        refused = {"LD_PRELOAD": self.library, "SOCKET_REFUSED": "5"}
        gate = self.operated(backend, workers=1, words=("--backend-timeout-ms", "600"), variables=refused)
        listening = time.monotonic()
        self.judge("an answer that is cut", local(502), gate.ask(b"GET /closes HTTP/1.1\r\nHost: h\r\n\r\n"))
        backend.release.clear()
        self.judge("an answer that is late", local(504), gate.ask(HELD))
        backend.release.set()
        self.judge("without a descriptor for the backend", local(502), gate.ask(PLAIN))
        backend.close()
        self.judge("without a backend", [local(502)] * 2, [gate.ask(PLAIN) for _ in range(2)])
        wanted = {"unreached": 2, "broken": 1, "backend-timeout": 1, "without-descriptor": 1, "all-taken": 5}
        self.judge("its troubles", True, until(lambda: gate.metrics()["troubles_total"] == wanted))
        until(lambda: time.monotonic() - listening > 1.2)
        least = int(time.monotonic() - listening) - 1
        found = gate.metrics()["uptime_seconds"]
        self.judge("its seconds", True, max(1, least) <= found <= time.monotonic() - begun)

    def frees_its_workers(self, backend: Backend) -> None:
        """However an exchange ends, its worker is free again, for /health and in the numbers."""
        gate = self.operated(backend, workers=3, words=("--client-timeout-ms", "1000"))
        half = b"POST /plain HTTP/1.1\r\nHost: h\r\nContent-Length: 3\r\n\r\na"

        def ends(text: bytes, how: Callable[[socket.socket], object]) -> Callable[[], object]:
            def script() -> None:
                with gate.connect() as client:
                    client.sendall(text)
                    how(client)

            return script

        def leaves_the_backend(client: socket.socket) -> None:
            backend.held.acquire(timeout=PATIENCE)
            reset(client)
            backend.release.set()

        for what, script in (
            ("an answer", lambda: gate.ask(PLAIN)),
            ("a fault of reading", lambda: gate.ask(b"GET / HTTP/1.1\r\n\r\n")),
            ("a backend that closes", lambda: gate.ask(b"GET /closes HTTP/1.1\r\nHost: h\r\n\r\n")),
            ("who closes before a byte", ends(b"", lambda client: None)),
            ("who resets before a byte", ends(b"", reset)),
            ("who resets in its head", ends(PLAIN[:9], reset)),
            ("who resets in its body", ends(half, reset)),
            ("who is silent for too long", ends(b"", read_all)),
            ("who stops in its head", ends(PLAIN[:9], read_all)),
            ("who stops in its body", ends(half, read_all)),
            ("who leaves before its answer", ends(HELD, leaves_the_backend)),
            ("who leaves in its answer", ends(b"GET /five HTTP/1.1\r\nHost: h\r\n\r\n", reset)),
        ):
            backend.release.clear()
            with contextlib.suppress(OSError):
                script()
            self.judge(f"busy workers behind {what}", True, gate.shows(busy_workers=0))
            self.judge(f"health behind {what}", told(DONE), gate.call("GET /health"))

    def tells_each_cause(self, _: Backend) -> None:
        """Each answer that can't be passed on becomes 502, a drop, and a line with its cause."""
        for what, text, cause in BROKEN_ANSWERS:

            def answers(client: socket.socket, text: bytes = text) -> None:
                read_head(client)
                client.sendall(text)

            scripted = Scripted(answers)
            gate = self.gateway(scripted)
            self.judge(f"an answer of {what}", local(502), gate.ask(PLAIN))
            self.judge(f"the cause of {what}", [f"{BROKEN}count=1 cause={cause}"], troubles(gate, 1))
            self.judge(f"counters of {what}", {"admitted": 1, "dropped": 1}, gate.ending())
            scripted.close()

    @contextlib.contextmanager
    def with_a_full_log(self, backend: int, *words: str) -> Iterator[Gateway]:
        """A gateway that listens, and whose log then takes no more."""
        read_end, write_end = os.pipe()
        fcntl.fcntl(write_end, fcntl.F_SETPIPE_SZ, 4096)
        gate = Gateway(self.program, self.room, backend, workers=8, each=1_000_000, log_to=write_end, words=words)
        text = b""
        while b"] listening " not in text and (piece := os.read(read_end, 4096)):
            text += piece
        fill(write_end)
        try:
            yield gate
        finally:
            gate.process.kill()
            os.close(read_end)
            os.close(write_end)

    def serves_beside_a_report_that_waits(self, backend: Backend) -> None:
        """A report that the log doesn't take holds whoever reports, and no worker, whatever is counted meanwhile."""
        with self.with_a_full_log(backend.port, "--report-seconds", "1") as gate:
            self.judge("a report waits", True, until(lambda: waits_to_write(gate.process)))
            # More than there are workers, since what is counted is counted behind its answer.
            asked = [PLAIN, b"GET / HTTP/1.1\r\n\r\n", b"TRACE / HTTP/1.1\r\nHost: h\r\n\r\n"] * 8
            # Never all workers at once, which is a trouble: who tells of one waits for the log.
            with ThreadPoolExecutor(3) as pool:
                found = [*pool.map(gate.ask, asked)]
            self.judge("clients meanwhile", [passed_on(BODY), local(400), local(501)] * 8, found)

    def reported(self, backend: Backend, **how: typing.Any) -> tuple[Gateway, list[float]]:
        """A gateway that reports each second, and when each of its reports was seen."""
        gate = self.gateway(backend, each=1_000_000, words=("--report-seconds", "1"), **how)
        moments: list[float] = []

        def follow() -> None:
            while gate.process.poll() is None:
                moments.extend([time.monotonic()] * (len(lines_of(gate, REPORT)) - len(moments)))
                time.sleep(0.02)

        threading.Thread(target=follow, daemon=True).start()
        return gate, moments

    def reports_by_the_clock(self, backend: Backend) -> None:
        """Reports come each second by the clock, however long each takes, which is 0.3 seconds here."""
        late = tried(functools.partial(self.drift_of_reports, backend), 0.5)
        self.judge("ten reports don't drift", True, late[-1] < 0.5 or late)

    def drift_of_reports(self, backend: Backend) -> float:
        """How many seconds one of the last of ten reports is late, by the first one."""
        slowly = {"LD_PRELOAD": self.library, "WRITES_TAKE": "300"}
        gate, moments = self.reported(backend, variables=slowly)
        self.judge("ten reports", True, until(lambda: len(moments) >= 10))
        gate.process.kill()
        return min(at - moments[0] - place for place, at in [*enumerate(moments[:10])][-3:])

    def reports_once_behind_a_pause(self, backend: Backend) -> None:
        """Behind a pause one report comes, not all that were missed."""
        gate, moments = self.reported(backend)
        self.judge("two reports", True, until(lambda: len(moments) >= 2))
        with standing_still(gate.process):
            time.sleep(4.5)
            count = len(moments)
            begun = time.monotonic()
        self.judge("a report behind a pause", True, until(lambda: len(moments) > count))
        until(lambda: time.monotonic() - begun > 0.8)
        more, seconds = len(moments) - count, time.monotonic() - begun
        self.judge("how many at once", True, more <= 2 or more <= 1 + seconds or (more, seconds))
        self.judge("they go on", True, until(lambda: len(moments) >= count + 3))

    def lets_many_wait(self, backend: Backend) -> None:
        """Many more clients than workers are connected at once: none of them has to try again a second later."""
        somaxconn = int(pathlib.Path("/proc/sys/net/core/somaxconn").read_text(encoding="ascii"))
        gate = self.gateway(backend, each=1_000_000, words=("--client-timeout-ms", "60000"))
        held = Later(gate.ask, HELD)
        self.judge("one is at the backend", True, backend.held.acquire(timeout=PATIENCE))
        with contextlib.ExitStack() as stack:
            poll, wanted = select.poll(), min(CROWD, somaxconn)
            for _ in range(wanted):
                client = stack.enter_context(socket.socket())
                client.setblocking(False)
                with contextlib.suppress(BlockingIOError):
                    client.connect(("127.0.0.1", gate.port))
                poll.register(client, select.POLLOUT)
            self.judge("who is connected at once", wanted, len(poll.poll(500)))
        backend.release.set()
        self.judge("who was inside", passed_on(BODY), held.result())

    def cuts_off_in_time(self, backend: Backend) -> None:
        """However short a client's time is, it is cut off then, wherever it stops."""
        head = b"POST /plain HTTP/1.1\r\nHost: h\r\nContent-Length: 3\r\n\r\n"
        for millis in (100, 400):
            words = ("--client-timeout-ms", str(millis))
            gate = self.gateway(backend, workers=4, each=1_000_000, words=words)
            for what, text in (
                ("silent", b""),
                ("in its head", PLAIN[:9]),
                ("before its body", head),
                ("in it", head + b"a"),
            ):
                least, most = millis / 1000, millis / 1000 + 0.4
                took = tried(functools.partial(cut_off, gate, text), most)
                # The system waits by its ticks, and where other work makes some late, a wait is shorter by these.
                while took[-1] < least and len(took) < TRIES:
                    took += tried(functools.partial(cut_off, gate, text), most)
                self.judge(f"one of {millis} ms that is {what}", True, is_between(took[-1], (least, most)) or took)

    def gives_answers_their_time(self, backend: Backend) -> None:
        """A client that doesn't read its answer has its whole time for it, and then no more."""
        gate = self.gateway(backend, each=1_000_000, words=("--client-timeout-ms", "12000"))
        took: list[float] = []
        # Less than half is far below, where other work makes the next one late.
        while len(took) < 3 and max(took, default=0) < 9.8:
            with socket.socket() as deaf:
                deaf.setsockopt(socket.SOL_SOCKET, socket.SO_RCVBUF, 4096)
                deaf.connect(("127.0.0.1", gate.port))
                deaf.sendall(b"GET /large HTTP/1.1\r\nHost: h\r\n\r\n")
                deaf.recv(1)
                answer, rest = timed(gate.ask, PLAIN)
                self.judge("one behind a deaf client", passed_on(BODY), answer)
                took.append(rest)
        self.judge("how long the deaf one had", True, max(took) >= 9.8 or took)

    def looks_after_its_answers(self, _: Backend) -> None:
        """A client that reads nothing of an answer holds its worker for two seconds more where some kilobytes are left
        to be taken, so that none are lost; of a smaller answer nothing is waited for."""
        for body, is_waited in ((6_000, False), (100_000, True)):
            scripted = Scripted(answers_of(body))
            took: list[float] = []
            gate = self.gateway(scripted, each=1_000_000, words=("--client-timeout-ms", "10000"))
            while len(took) < TRIES and not any(1.5 <= it if is_waited else it < 1 for it in took):
                with socket.socket() as deaf:
                    deaf.setsockopt(socket.SOL_SOCKET, socket.SO_RCVBUF, 1)
                    deaf.connect(("127.0.0.1", gate.port))
                    deaf.sendall(PLAIN)
                    deaf.recv(1)
                    took.append(timed(gate.ask, PLAIN)[1])
            self.judge(
                f"{body} bytes are waited for",
                is_waited,
                any(it >= 1.5 for it in took) if is_waited else min(took) >= 1,
            )
            scripted.close()

    def loses_nothing_of_any_size(self, _: Backend) -> None:
        """A client that sends more while it reads an answer of any size late gets all of it."""
        for body in LATE:
            length, why, took = self.who_reads_late(body)
            end = time.monotonic() + AGAIN
            # On a machine with other work it may read on when the two seconds are over, and then loses what is left.
            while why and took >= LINGERS and time.monotonic() < end:
                length, why, took = self.who_reads_late(body)
            self.judge(f"an answer of {body} bytes that is read late", (body, None), (length, why))

    def who_reads_late(self, body: int) -> tuple[int, str | None, float]:
        """How much such a client gets of an answer, how its connection breaks, and how long it takes."""
        scripted = Scripted(answers_of(body))
        gate = self.gateway(scripted, each=1_000_000, words=("--client-timeout-ms", "60000"))
        begins = time.monotonic()
        with socket.socket() as client:
            client.setsockopt(socket.SOL_SOCKET, socket.SO_RCVBUF, 4096)
            client.connect(("127.0.0.1", gate.port))
            client.sendall(PLAIN)
            begun = client.recv(1)
            # Who doesn't look after it has closed it by then; who does goes on for two seconds.
            time.sleep(0.7)
            found, why = unbroken(client, PLAIN)
        scripted.close()
        return len((begun + found).partition(b"\r\n\r\n")[2]), why, time.monotonic() - begins

    def goes_on_once_it_is_told(self, _: Backend) -> None:
        """A backend that rests in its early answer is told behind two seconds that no more comes, and not before; what
        it then still answers is passed on."""
        rested: list[float] = []
        whole = response(8 * MEGABYTE, False)

        def rests(client: socket.socket) -> None:
            read_head(client)
            # The gateway reads this once it writes no more.
            client.sendall(whole[:-2])
            begun = time.monotonic()
            client.sendall(whole[-2:-1])
            read_all(client)
            rested.append(time.monotonic() - begun)
            client.sendall(whole[-1:])

        scripted = Scripted(rests)
        gate = self.gateway(scripted, words=LONG_TIME)
        with socket.create_connection(("127.0.0.1", gate.port), timeout=3 * PATIENCE) as client:
            client.sendall(post(8 * MEGABYTE, False))
            told_whole = read_all(client) == passed_on(whole.partition(b"\r\n\r\n")[2])
        self.judge(
            "an early answer with a rest, and how long that was",
            (True, [True]),
            (told_whole, [it >= 2 for it in rested]),
        )
        self.judge("counters of it", {"admitted": 1, "success": 1}, gate.ending())
        scripted.close()

    def lets_operators_read(self, backend: Backend) -> None:
        """Who sends more than its request to an address beside that of clients reads its answer to the end."""
        status = free_port()
        gate = self.operated(backend, words=("--status", f"127.0.0.1:{status}"))
        for port in (gate.operator, status):
            for words, wanted in (
                (request("GET /health HTTP/1.1", f"Host: 127.0.0.1:{port}"), told(DONE)),
                (request("GET /nothing HTTP/1.1", f"Host: 127.0.0.1:{port}"), told(NOTHING)),
                (b"GET /health HTTP/1.1\r\n\r\n", local(400)),
            ):
                for more in (b"", b"x", b"x" * 50_000):
                    with socket.create_connection(("127.0.0.1", port), timeout=PATIENCE) as client:
                        client.sendall(words + more)
                        # By now it is answered, and what wasn't lingered for was reset.
                        time.sleep(0.1)
                        self.judge(f"{words!r} and {len(more)} bytes", (wanted, None), unbroken(client, b""))
                        if more:
                            # It goes on sending behind its answer, and isn't reset for that.
                            self.judge(f"{words!r} and {len(more)} bytes, and then more", None, breaks_behind(client))

    def ends_before_its_operators(self, backend: Backend) -> None:
        """Behind the last exchange of its workers it ends, whoever waits at its operator's address."""
        gate = Operated(self.program, self.room, backend.port, each=1, workers=1)
        with contextlib.ExitStack() as stack:
            for _ in range(OPERATORS):
                stack.enter_context(socket.create_connection(("127.0.0.1", gate.operator), timeout=PATIENCE))
            self.judge("its last client", passed_on(BODY), gate.ask(PLAIN))
            counters, took = timed(gate.ending)
            self.judge("its end", ({"admitted": 1, "success": 1}, True), (counters, took < 6))
