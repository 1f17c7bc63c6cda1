"""Cases of `tests/serve` on clients that send the bodies of their requests slowly."""
import contextlib
import functools
import select
import socket
import time

from loopback import BODY, Backend, Gateway, Later, read_all
from operating import Operating
from running import until
from sockets import PLAIN, passed_on

# A body of 400 bytes takes four seconds at this rate.
RATE = ("--body-rate", "100")
HEAD = b"POST /plain HTTP/1.1\r\nHost: h\r\nContent-Length: 400\r\n\r\n"
# The settings of eight exchanges at once.
EIGHT = 'backlog = 2\n\n[limit]\nkind = "fixed"\ninitial = 5'
# For so long a gateway may not look at a client whose body is slow, in seconds, while few others read.
UNSEEN = 0.25


def closed_of(clients: list[socket.socket]) -> list[int]:
    """The numbers of the clients that have been closed, or were sent something."""
    ready = select.select(clients, [], [], 0)[0]
    return [number for number, it in enumerate(clients) if it in ready]


def has_closed(clients: list[socket.socket], count: int) -> bool:
    """Whether so many of the clients have been closed, or were sent something."""
    return len(closed_of(clients)) >= count


class SlowBodies(Operating):
    """Cases on `--body-rate`. Six of eight threads are three quarters of them."""

    def closes_the_slowest_bodies(self, backend: Backend) -> None:
        """While three quarters of the threads read requests, the clients are closed whose bodies are furthest behind,
        and as many as there are too many; while fewer read, none is."""
        gate = self.operated(backend, workers=8, words=RATE)
        with contextlib.ExitStack() as stack:
            slow = [self.begins(stack, gate, sent) for sent in (b"x" * 250, b"", b"", b"", b"")]
            time.sleep(4 * UNSEEN)
            self.judge("five of eight threads that read", [], closed_of(slow))
            for closed in ([1], [1, 2]):
                slow.append(self.begins(stack, gate, b""))
                enough = functools.partial(has_closed, slow, len(closed))
                self.judge("one more is one too many", True, until(enough))
                time.sleep(2 * UNSEEN)
                self.judge("and closes the one that is furthest behind", closed, closed_of(slow))
            self.judge("what closed clients get", [b"", b""], [read_all(slow[1]), read_all(slow[2])])
            self.judge("another client", passed_on(BODY), gate.ask(PLAIN))
            self.answers_the_rest(slow[:1], 150)
            self.answers_the_rest(slow[3:], 400)
        Later(gate.call, "POST /drain").result()
        self.judge("counters of slow bodies", {"admitted": 6, "success": 6}, gate.ending())

    def spares_bodies_at_their_rate(self, backend: Backend) -> None:
        """While all threads but one read requests, no client is closed whose body arrives at its rate."""
        gate = self.operated(backend, workers=8, words=RATE)
        with contextlib.ExitStack() as stack:
            steady = [self.begins(stack, gate, b"x" * 100) for _ in range(7)]
            for _ in range(5):
                time.sleep(0.1)
                for client in steady:
                    client.sendall(b"x" * 40)
            self.judge("seven that keep to the rate", [], closed_of(steady))
            self.answers_the_rest(steady, 100)
        Later(gate.call, "POST /drain").result()
        self.judge("counters of steady bodies", {"admitted": 7, "success": 7}, gate.ending())

    def begins_at_the_body(self, backend: Backend) -> None:
        """A rate counts from the beginning of a body: the time that its head takes doesn't count."""
        words = ("--body-rate", "1000", "--head-timeout-ms", "10000")
        gate = self.operated(backend, workers=2, words=words)
        with gate.connect() as other, gate.connect() as slow:
            # Both threads read requests.
            other.sendall(HEAD[:20])
            slow.sendall(HEAD[:20])
            time.sleep(0.6)
            slow.sendall(HEAD[20:] + b"x" * 399)
            time.sleep(0.1)
            self.judge("one whose head took longer", [], closed_of([slow]))
            slow.sendall(b"x")
            self.judge("its answer", passed_on(BODY), read_all(slow))
        Later(gate.call, "POST /drain").result()
        self.judge("its counters", {"admitted": 1, "success": 1}, gate.ending())

    def has_a_rate_with_exchanges(self, backend: Backend) -> None:
        """With a number of exchanges the rate is 500 bytes per second where none is given, and 0 sets none."""
        for words, is_closed in ((), True), (("--body-rate", "0"), False):
            gate = self.operated(backend, EIGHT, exchanges=8, words=words)
            with contextlib.ExitStack() as stack:
                slow = [self.begins(stack, gate, b"") for _ in range(7)]
                found = until(functools.partial(has_closed, slow, 1), seconds=8 * UNSEEN)
                self.judge(f"seven slow ones of eight with {words}", is_closed, found)
            Later(gate.call, "POST /drain").result()
            self.judge("counters of none", {}, gate.ending())

    def begins(self, stack: contextlib.ExitStack, gate: Gateway, sent: bytes) -> socket.socket:
        """A client that has sent the head of its request and this much of its body; and a while later."""
        client: socket.socket = stack.enter_context(gate.connect())
        client.sendall(HEAD + sent)
        time.sleep(0.1)
        return client

    def answers_the_rest(self, clients: list[socket.socket], left: int) -> None:
        """These clients send what is left of their bodies, and are answered."""
        for client in clients:
            client.sendall(b"x" * left)
        self.judge("slow ones that go on", [passed_on(BODY)] * len(clients), [read_all(it) for it in clients])
