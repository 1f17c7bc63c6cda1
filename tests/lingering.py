"""Cases of `tests/serve` on what follows an answer: a client that sends more, goes on or stays, and a rest."""
import functools
import math
import resource
import signal
import socket
import time

from loopback import BODY, Backend, read_all
from served import Served
from sockets import PLAIN, TRIES, passed_on, timed, tried
from wires import local

# How often a case is tried that takes a while.
MANY = 8
NO_HOST = b"GET /plain HTTP/1.1\r\n\r\n"


def breaks_behind(client: socket.socket) -> str | None:
    """How a connection that was answered to its end breaks where its client sends more."""
    for _ in range(2):
        time.sleep(0.1)
        try:
            client.sendall(b"x")
            if client.recv(1):
                return "answered again"
        except OSError as why:
            return type(why).__name__
    return None


class Lingering(Served):
    """Cases on what follows an answer."""

    def hears_what_was_read_ahead(self, backend: Backend) -> None:
        """A client whose second request was read with its first may go on sending, and isn't reset."""
        gate = self.gateway(backend, each=2)
        with gate.connect() as client:
            client.sendall(PLAIN + PLAIN)
            self.judge("who sends two at once", passed_on(BODY), read_all(client))
            self.judge("it may send more", None, breaks_behind(client))
        self.judge("another one", passed_on(BODY), gate.ask(PLAIN))
        self.judge("counters of who sends two at once", {"admitted": 2, "success": 2}, gate.ending())

    def lingers_through_a_stop(self, backend: Backend) -> None:
        """A gateway that is stopped and goes on while it lingers goes on lingering."""
        broke: list[str | None] = []
        # On a machine with other work the two seconds may be over by then.
        while len(broke) < TRIES and None not in broke:
            gate = self.gateway(backend)
            with gate.connect() as client:
                client.sendall(NO_HOST)
                self.judge("a request without a host", local(400), read_all(client))
                for _ in range(3):
                    time.sleep(0.1)
                    gate.process.send_signal(signal.SIGSTOP)
                    time.sleep(0.1)
                    gate.process.send_signal(signal.SIGCONT)
                broke.append(breaks_behind(client))
            self.judge("counters of who was answered early", {}, gate.ending())
        self.judge("it may send more behind a stop", True, None in broke or broke)

    def lingers_no_longer_than_a_client_may(self, backend: Backend) -> None:
        """The client's own time bounds how long it holds a worker, where that is less than two seconds."""
        took = tried(functools.partial(self.time_behind_a_short_one, backend), 1.5)
        self.judge("it waited for less than two seconds", True, min(took) < 1.5 or took)

    def time_behind_a_short_one(self, backend: Backend) -> float:
        """How long one waits behind a client that was answered early and stays, and may take 600 ms; for ever where it
        took these before it had sent its request."""
        gate = self.gateway(backend, each=2, words=("--client-timeout-ms", "600"))
        begun = time.monotonic()
        with gate.connect() as client:
            client.sendall(NO_HOST)
            is_late = time.monotonic() - begun > 0.5
            found = read_all(client)
            if found or not is_late:
                self.judge("a request without a host", local(400), found)
            answer, rest = timed(gate.ask, PLAIN)
        self.judge("one behind it", passed_on(BODY), answer)
        self.judge("counters of short times", {"admitted": 1, "success": 1}, gate.ending())
        return rest if found else math.inf

    def lingers_for_nobody_who_took_nothing(self, backend: Backend) -> None:
        """Behind an answer that its client didn't take in time a worker serves the next one at once."""
        gate = self.gateway(backend, each=2 * MANY, words=("--client-timeout-ms", "2000"))
        took: list[float] = []
        # Who lingers takes four seconds each time; a machine with other work may take as long at times.
        while len(took) < MANY and min(took, default=4) >= 3.5:
            with socket.socket() as deaf:
                deaf.setsockopt(socket.SOL_SOCKET, socket.SO_RCVBUF, 4096)
                deaf.connect(("127.0.0.1", gate.port))
                deaf.sendall(b"GET /large HTTP/1.1\r\nHost: h\r\n\r\n" + PLAIN)
                begun = deaf.recv(1)
                answer, rest = timed(gate.ask, PLAIN)
                self.judge("one behind a deaf client", (b"H", passed_on(BODY)), (begun, answer))
                took.append(rest)
        self.judge("it waited for the deaf one's time alone", True, min(took) < 3.5)
        for _ in range(2 * (MANY - len(took))):
            gate.ask(PLAIN)
        self.judge("counters of deaf clients", {"admitted": 2 * MANY, "success": 2 * MANY}, gate.ending())

    def rests_for_a_moment(self, backend: Backend) -> None:
        """A connection that can't be had counts as an exchange of a worker, and the next is tried a moment later."""
        gate = self.gateway(backend, each=100)
        hard = resource.prlimit(gate.process.pid, resource.RLIMIT_NOFILE)[1]
        resource.prlimit(gate.process.pid, resource.RLIMIT_NOFILE, (3, hard))
        with gate.connect():
            self.judge("counters of connections that can't be had", {}, gate.ending())
