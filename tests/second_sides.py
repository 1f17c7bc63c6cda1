"""Cases of `tests/serve` on times by both bounds, on what is left behind a burst, on options at a second setting, and
on the second condition where one alone would do in most cases."""
import contextlib
import functools
import select
import socket
import statistics
import threading
import time

from ending import is_between
from edges import answers_of
from keeping import NEXT, Talkative
from kept_clients import GET, KEPT, asked
from large import rests
from loopback import BODY, WHOLE, Backend, Gateway, Later, Listener, Scripted, keepalive, read_all, read_head
from operating import HELD, Operated, Operating
from operator_rows import DRAINED, told
from running import PATIENCE, closed_port, until
from sockets import LONG_TIME, PLAIN, passed_on, timed, tried
from telling import reports
from waiting import has_ended
from wires import local

# So many clients come at once, in so many rounds; and how often the gateway is found at rest, a twentieth of a second
# after another, before it is sure that nothing goes on in it.
AT_ONCE, ROUNDS, RESTS = 3, 700, 6
# It is answered without a backend.
WITHOUT_A_HOST = b"GET / HTTP/1.1\r\n\r\n"
# How many connections a burst has open, and how many requests follow it one at a time.
BURST, FEW = 8, 60
# An answer of more than one write, and the seconds within which its second part follows the first: a client that
# doesn't confirm the first at once does so 40 milliseconds later.
TWO_WRITES, FOLLOWS = 20_000, 0.03


class Bursting(Talkative):
    """A backend that keeps its connections, and answers some requests only once a burst of them is there."""

    def __init__(self) -> None:
        self.all_there = threading.Barrier(BURST)
        super().__init__()

    def answers(self, client: socket.socket, request: bytes) -> bool:
        if b"/burst" in request:
            self.all_there.wait(PATIENCE)
        return super().answers(client, request)


class Releasing(Listener):
    """A backend that holds each request back until it is released, one by one in the order in which they came."""

    def __init__(self) -> None:
        self.held: list[threading.Event] = []
        super().__init__()

    def serve(self, client: socket.socket) -> None:
        release = threading.Event()
        read_head(client)
        self.held.append(release)
        release.wait(2 * PATIENCE)
        client.sendall(WHOLE["length"])

    def holds(self, count: int) -> bool:
        """Whether so many requests have come."""
        return len(self.held) == count


class SecondSides(Operating):
    """Cases on second sides."""

    def serves_all_who_come_at_once(self, backend: Backend) -> None:
        """Of clients who come at once none lies at the listener until another one comes, while all workers rest: who
        accepts was told of all of them."""
        gate = self.gateway(backend, workers=8, each=1_000_000)
        begun, left, turns = time.monotonic(), 0, 0
        while turns < ROUNDS and time.monotonic() - begun < PATIENCE:
            left, turns = left + self.left_behind(gate), turns + 1
        self.judge("who is left behind", 0, left)
        gate.process.kill()

    def left_behind(self, gate: Gateway) -> int:
        """How many of some clients, who come at once, have no answer while nothing in the gateway goes on."""
        left = 0
        with contextlib.ExitStack() as stack:
            clients = [stack.enter_context(gate.connect()) for _ in range(AT_ONCE)]
            for it in clients:
                it.sendall(WITHOUT_A_HOST)
            for it in clients:
                looks = 0
                while looks < RESTS and not select.select([it], [], [], 0.05)[0]:
                    looks = looks + 1 if rests(gate.process) else 0
                left += looks == RESTS
        return left

    def gives_a_head_one_time(self, backend: Backend) -> None:
        """A head that comes byte by byte has the time of one head in all, where no worker is free."""
        took = tried(lambda: self.time_of_a_head_in_drips(backend), 3.5)
        self.judge("a head in drips", True, is_between(took[-1], (1.95, 3.5)) or took)

    def time_of_a_head_in_drips(self, backend: Backend) -> float:
        """When a client is let go whose head comes in drips, each of them in time."""
        words = (*LONG_TIME, "--head-timeout-ms", "2000")
        gate = self.gateway(backend, workers=1, each=1_000_000, words=words)
        begun = time.monotonic()
        with gate.connect() as slow:
            slow.sendall(PLAIN[:9])
            ended = Later(read_all, slow)
            while ended.thread.is_alive() and time.monotonic() - begun < 10:
                try:
                    slow.sendall(b"x")
                except OSError:
                    break
                time.sleep(0.2)
            ended.result()
            took = time.monotonic() - begun
        self.judge("one behind a head in drips", passed_on(BODY), gate.ask(PLAIN))
        gate.process.kill()
        return took

    def idles_longer_than_a_client_may_take(self, _: Backend) -> None:
        """A client that is kept has its idle time, where that is longer than the time of a client too."""
        backend = Talkative()
        settings = keepalive("client_idle_ms = 5000")
        for millis in (500, 1500):
            gate = self.gateway(backend, settings, version=2, each=50, words=("--client-timeout-ms", str(millis)))
            with gate.connect() as client:
                begun = time.monotonic()
                self.judge(f"an answer with {millis} ms", KEPT, asked(client, GET, len(KEPT)))
                ended = until(lambda it=client: has_ended(it), seconds=2 * PATIENCE)
                took = time.monotonic() - begun
                self.judge(f"its idle time with {millis} ms", (True, True), (ended, is_between(took, (4.9, 9)) or took))
            gate.process.kill()
        backend.close()

    def keeps_no_more_than_it_needs(self, _: Backend) -> None:
        """Behind a burst, requests one at a time use one connection again and again, and the others are closed once
        they have been idle for too long."""
        backend = Bursting()
        gate = self.operated(backend, keepalive("backend_idle_ms = 2000"), workers=BURST, version=2)
        burst = [Later(gate.ask, NEXT.replace(b"/next", b"/burst")) for _ in range(BURST)]
        answers = {it.result() for it in burst}
        self.judge("answers of a burst", 1, len(answers))
        self.judge("connections of a burst", True, gate.shows(open_backend_connections=BURST))
        begun = time.monotonic()
        turns = 0
        while turns < FEW or time.monotonic() - begun < 4:
            gate.ask(NEXT)
            turns += 1
            time.sleep(0.05)
        self.judge("connections behind it", True, gate.shows(open_backend_connections=1, idle_backend_connections=1))
        gate.process.kill()
        backend.close()

    def closes_its_backend_behind_an_answer(self, _: Backend) -> None:
        """Without `backends` a connection to the backend ends behind its answer, though no other request comes."""
        ends: list[bytes] = []

        def stays(client: socket.socket) -> None:
            read_head(client)
            client.sendall(WHOLE["length"])
            ends.append(client.recv(1))

        for version, settings in ((1, ""), (2, "clients = 9")):
            ends.clear()
            backend = Scripted(stays)
            gate = self.gateway(backend, settings, version=version, each=1_000_000)
            text = PLAIN.replace(b"\r\n\r\n", b"\r\nConnection: close\r\n\r\n")
            self.judge(f"an answer by version {version}", passed_on(BODY), gate.ask(text))
            ended = until(lambda: ends == [b""])
            self.judge(f"the end of its connection by version {version}", True, ended)
            gate.process.kill()
            backend.close()

    def sends_at_once(self, _: Backend) -> None:
        """The second part of an answer, and of a request, doesn't wait until the first was confirmed."""
        later: list[float] = []

        def answers(client: socket.socket) -> None:
            while read_whole(client, later):
                client.sendall(b"HTTP/1.1 200 OK\r\nContent-Length: %d\r\n\r\n%s" % (TWO_WRITES, b"x" * TWO_WRITES))

        backend = Scripted(answers)
        gate = self.gateway(backend, keepalive(""), version=2, workers=2, each=1_000_000)
        text = b"POST /next HTTP/1.1\r\nHost: h\r\nContent-Length: %d\r\n\r\n%s" % (TWO_WRITES, b"y" * TWO_WRITES)
        with gate.connect() as client:

            def usual_rest() -> float:
                """The usual seconds from the first part of an answer to its last."""
                found: list[float] = []
                for _ in range(15):
                    client.sendall(text)
                    read_whole(client, found)
                return statistics.median(found[5:])

            took = tried(usual_rest, FOLLOWS)
            self.judge("the second part of an answer", True, took[-1] < FOLLOWS or took)
            usual = min(statistics.median(later[it : it + 10]) for it in range(5, len(later) - 9, 15))
            self.judge("the second part of a request", True, usual < FOLLOWS or usual)
        gate.process.kill()
        backend.close()

    def gives_calls_their_time(self, backend: Backend) -> None:
        """A call has the time that was given, and not half or twice as much, at two settings."""
        for millis in (1500, 3000):
            least, most = millis / 1000 - 0.01, millis * 1.8 / 1000
            gate = self.gateway(backend, each=1_000_000, words=("--backend-timeout-ms", str(millis)))
            took = tried(functools.partial(self.time_of_a_late_call, gate), most)
            self.judge(f"a call of {millis} ms", True, is_between(took[-1], (least, most)) or took)
            gate.process.kill()

    def time_of_a_late_call(self, gate: Gateway) -> float:
        answer, took = timed(gate.ask, HELD)
        self.judge("a call that is late", local(504), answer)
        return took

    def drains_behind_who_has_asked(self, _: Backend) -> None:
        """A drain, at once or later, waits for a client that has sent its request: one who waited silently before, and
        one that wasn't accepted yet. All workers are busy meanwhile."""
        for words in ("POST /drain", "POST /drain?after-ms=300"):
            for is_accepted in (True, False):
                self.drains_behind(words, is_accepted)

    def drains_behind(self, words: str, is_accepted: bool) -> None:
        what = f"by {words}, of one that {'waited' if is_accepted else 'is queued'}"
        backend = Backend()
        gate = self.operated(backend, workers=1, words=LONG_TIME)
        other = gate.connect() if is_accepted else None
        if other:
            self.judge(f"it waits, {what}", True, gate.shows(silent_client_connections=1))
        busy = Later(gate.ask, HELD)
        self.judge(f"one is at the backend, {what}", True, backend.held.acquire(timeout=PATIENCE))
        # Longer than a client is waited for that has only just come.
        time.sleep(1)
        other = other or gate.connect()
        with other:
            other.sendall(PLAIN)
            drain = Later(gate.call, words)
            until(lambda: b" 503 " in gate.call("GET /health"))
            time.sleep(1)
            backend.release.set()
            self.judge(f"who was at the backend, {what}", passed_on(BODY), busy.result())
            self.judge(f"who had asked, {what}", passed_on(BODY), read_all(other))
        self.judge(f"the drain, {what}", told(DRAINED), drain.result())
        self.judge(f"counters, {what}", {"admitted": 2, "success": 2}, gate.ending())
        backend.close()

    def notes_each_worker(self, _: Backend) -> None:
        """The oldest permit is told whichever worker has it, of one worker and of two."""
        for workers in (1, 2):
            backend = Releasing()
            gate = self.operated(backend, workers=workers)
            held: list[Later] = []
            for turn in range(workers):
                # It is served by another worker than the one before it, which then ends.
                held.append(Later(gate.ask, PLAIN))
                self.judge(f"{turn} of {workers} is held", True, until(backend.holds, turn + 1))
                for it in backend.held[:-1]:
                    it.set()
                self.judge(f"{turn} of {workers} alone", True, gate.shows(in_flight=1))
                old = until(lambda it=gate: it.metrics()["oldest_permit_seconds"] >= 1)
                self.judge(f"its age, {turn} of {workers}", True, old)
            for it in backend.held:
                it.set()
            self.judge(f"answers of {workers}", {passed_on(BODY)}, {it.result() for it in held})
            gate.process.kill()
            backend.close()

    def reports_at_its_pace(self, backend: Backend) -> None:
        """Reports come each so many seconds, the first one as long behind the start, at two settings."""
        for seconds in (2, 3):
            late = tried(functools.partial(self.pace_of, backend, seconds), 1.5)
            self.judge(f"reports each {seconds} s", True, is_between(late[-1], (0, 1.5)) or late)

    def pace_of(self, backend: Backend, seconds: int) -> float:
        """How much later than in time the later of two reports was seen; or how much earlier, if one was."""
        begun = time.monotonic()
        gate = self.gateway(backend, each=1_000_000, words=("--report-seconds", str(seconds)))
        late = []
        for count in (1, 2):
            until(lambda it=count: len(reports(gate)) >= it)
            late.append(time.monotonic() - begun - count * seconds)
        gate.process.kill()
        return min(late) if min(late) < 0 else max(late)

    def warns_of_kept_descriptors(self, _: Backend) -> None:
        """Connections to the backend that are kept want descriptors too, beside those of workers."""
        for kept, soft, count in ((64, 199, 1), (64, 200, 0), (14, 149, 1), (14, 150, 0), (0, 135, 1), (0, 136, 0)):
            front = ("sh", "-c", f'ulimit -Sn {soft} && exec "$@"', "sh")
            settings = f"backlog = 0\nbackends = {kept}"
            gate = Gateway(self.program, self.room, closed_port(), settings, version=2, workers=64, front=front)
            wanted = [
                "[WARN  admission] too few descriptors for the workers: requests are answered 502, or not at all "
                f"descriptors={soft} wanted={136 + kept}"
            ] * count
            found = [it for it in gate.log if "WARN" in it]
            self.judge(f"warnings at {soft} descriptors with {kept} kept", wanted, found)
            gate.process.kill()

    def opens_none_that_fail(self, _: Backend) -> None:
        """Connections that can't be had aren't counted as open, with those that are kept and without."""
        for version, settings in ((1, ""), (2, keepalive(""))):
            gate = Operated(
                self.program, self.room, closed_port(), settings, version=version, workers=2, each=1_000_000
            )
            for _turn in range(3):
                gate.ask(PLAIN.replace(b"\r\n\r\n", b"\r\nConnection: close\r\n\r\n"))
            self.judge("troubles", True, gate.shows(troubles_total={"unreached": 3}))
            found = gate.metrics()
            shown = (found["open_backend_connections"], found["backend_connections_total"]["opened"])
            self.judge(f"connections by version {version}", (0, 0), shown)
            gate.process.kill()

    def waits_for_who_takes_its_answer(self, _: Backend) -> None:
        """A client that takes its answer late holds its worker until then, and no longer; one that doesn't take an
        answer which is on its way as a whole holds it for nothing."""
        for body, rest in ((100_000, 0.6), (10_000, 3.0)):
            scripted = Scripted(answers_of(body))
            gate = self.gateway(scripted, each=1_000_000, words=LONG_TIME)
            took = tried(functools.partial(self.time_behind, gate, rest), 1.6)
            self.judge(f"one behind {body} bytes", True, took[-1] < 1.6 or took)
            gate.process.kill()
            scripted.close()

    def time_behind(self, gate: Gateway, rest: float) -> float:
        """The seconds until one is answered behind a client that takes its answer after a rest, and then stays."""
        with socket.socket() as late:
            late.setsockopt(socket.SOL_SOCKET, socket.SO_RCVBUF, 1)
            late.connect(("127.0.0.1", gate.port))
            late.sendall(PLAIN)
            late.recv(1)
            other = Later(timed, gate.ask, PLAIN)
            other.thread.join(rest)
            read_all(late)
            _, took = other.result()
        return float(took)


def read_whole(client: socket.socket, later: list[float]) -> bytes:
    """A text with the body that its length says, each of whose parts is confirmed late; and the seconds from its first
    part to its last, which are added to these."""
    client.setsockopt(socket.IPPROTO_TCP, socket.TCP_QUICKACK, 0)
    text, begun = client.recv(65_536), time.monotonic()
    while text and len(text) < TWO_WRITES + text.find(b"\r\n\r\n") + 4:
        text += client.recv(65_536)
    later.append(time.monotonic() - begun)
    return text
