"""Cases of `tests/serve` on large bodies: a backend that answers before it reads, and a client that reads late."""
import itertools
import socket
import struct
import subprocess
import time
from concurrent.futures import ThreadPoolExecutor

from loopback import FIVE, Backend, Gateway, Scripted, read_all, read_head
from running import until
from served import Served
from sockets import AGAIN, LONG_TIME, PLAIN, passed_on, states_of, unbroken
from wires import local

MEGABYTE = 1_000_000
STEPS = range(1, 9)
HOW = {False: "by a length", True: "in chunks"}
# How much of a large answer is read at once.
HALF = 2_500_000
# The protocol of netlink that tells of sockets, and its one kind of message.
SOCK_DIAG, BY_FAMILY = 4, 20
# For how many seconds a worker looks after an answer that its client hasn't read.
LINGERS = 2
INTERIM = b"HTTP/1.1 103 Early Hints\r\nLink: </a>\r\n\r\n"


def in_chunks(body: bytes) -> bytes:
    """A body in one chunk."""
    return b"%x\r\n%s\r\n0\r\n\r\n" % (len(body), body)


def framed(body: bytes, is_chunked: bool) -> bytes:
    """The last line of a head and what follows it: a body by its length, or in chunks."""
    if is_chunked:
        return b"Transfer-Encoding: chunked\r\n\r\n" + in_chunks(body)
    return b"Content-Length: %d\r\n\r\n" % len(body) + body


def post(count: int, is_chunked: bool) -> bytes:
    """A request with a body of so many bytes."""
    return b"POST /%d HTTP/1.1\r\nHost: h\r\n" % count + framed(b"x" * count, is_chunked)


def answer(count: int, is_chunked: bool) -> bytes:
    """A response with such a body."""
    return b"HTTP/1.1 200 OK\r\n" + framed(b"y" * count, is_chunked)


def posted(gate: Gateway, how: tuple[int, bool]) -> bytes:
    """What comes back for such a request."""
    return gate.ask(post(*how))


def length_of(request: bytes) -> int:
    """How many bytes the body of a request is to have, by its path."""
    return int(request.split(b" ")[1][1:])


def queues(here: int, there: int) -> tuple[int, int]:
    """How many bytes lie at an end of a connection on loopback, by its ports, unread and not yet confirmed: asked of
    the kernel by socket (sock_diag(7)), since the list of all of them may be long."""
    ends = struct.pack("!HH", here, there) + 2 * (socket.inet_aton("127.0.0.1") + bytes(12))
    # a request for one connection (struct inet_diag_req_v2), whatever its state, its device and its cookie
    which = struct.pack("=BBBBI", socket.AF_INET, socket.IPPROTO_TCP, 0, 0, 0xFFFFFFFF) + ends + bytes(4) + b"\xff" * 8
    with socket.socket(socket.AF_NETLINK, socket.SOCK_RAW, SOCK_DIAG) as asker:
        asker.send(struct.pack("=IHHII", 16 + len(which), BY_FAMILY, 1, 0, 0) + which)
        told = asker.recv(4096)
    (kind,) = struct.unpack_from("=H", told, 4)
    # behind a struct nlmsghdr, and the first 56 bytes of a struct inet_diag_msg
    unread, unconfirmed = struct.unpack_from("=II", told, 16 + 56) if kind == BY_FAMILY else (0, 0)
    return unread, unconfirmed


def on_the_way(port: int, client: socket.socket) -> int:
    """How many bytes of what was sent from a port the system holds, at both ends of a client's connection."""
    here = client.getsockname()[1]
    return queues(here, port)[0] + queues(port, here)[1]


def rests(process: subprocess.Popen[str]) -> bool:
    """Whether each thread of a process waits for something, or it has ended."""
    return {*states_of(process).values()} <= set("SZX")


class Large(Served):
    """Cases on large bodies."""

    def answers_before_it_reads(self, _: Backend) -> None:
        """A backend that writes a large answer before it reads a large request is read meanwhile: nobody waits."""
        for is_chunked, reads_on in itertools.product((False, True), repeat=2):

            def answers_first(client: socket.socket, is_chunked: bool = is_chunked, reads_on: bool = reads_on) -> None:
                count = length_of(read_head(client))
                client.sendall(answer(count, is_chunked))
                if not reads_on:
                    client.shutdown(socket.SHUT_WR)
                read_all(client)

            backend = Scripted(answers_first)
            gate = self.gateway(backend, workers=8, each=2, words=LONG_TIME)
            asked = [(step * MEGABYTE, sends_chunks) for step in STEPS for sends_chunks in (False, True)]
            with ThreadPoolExecutor(8) as pool:
                found = [*pool.map(posted, itertools.repeat(gate), asked)]
            what = f"{HOW[is_chunked]}, from a backend that {'reads on' if reads_on else 'ends'}"
            for (count, sends_chunks), text in zip(asked, found):
                name = f"{count} bytes up, {HOW[sends_chunks]}, and down, {what}"
                self.judge(name, True, text == passed_on(b"y" * count))
            self.judge(f"counters of answers {what}", {"admitted": 16, "success": 16}, gate.ending())
            backend.close()

    def is_told_that_no_more_comes(self, _: Backend) -> None:
        """A backend that stops in its early answer, to wait for the rest of its request, is told that there is none."""
        heard = []

        def echoes(client: socket.socket) -> None:
            count = length_of(read_head(client))
            whole = answer(count, False)
            client.sendall(whole[:-1])
            heard.append(len(read_all(client)) < count)

        backend = Scripted(echoes)
        gate = self.gateway(backend, workers=2)
        with ThreadPoolExecutor(2) as pool:
            self.judge(
                "answers that wait for their requests",
                [local(502)] * 2,
                [*pool.map(gate.ask, [post(8 * MEGABYTE, False)] * 2)],
            )
        self.judge("counters of what waits for its request", {"admitted": 2, "dropped": 2}, gate.ending())
        self.judge("both were told", [True] * 2, heard)
        backend.close()

    def goes_on_behind_an_interim_response(self, _: Backend) -> None:
        """An interim response is no answer: a backend that sends one, and reads on late, gets the whole request."""
        given = []

        def hints(client: socket.socket) -> None:
            head = read_head(client)
            client.sendall(INTERIM)
            time.sleep(1.5)
            left = length_of(head) - len(head.partition(b"\r\n\r\n")[2])
            while left > 0 and (piece := client.recv(65536)):
                left -= len(piece)
            given.append(left)
            client.sendall(answer(3, False))

        backend = Scripted(hints)
        gate = self.gateway(backend)
        self.judge("behind an interim response", passed_on(b"yyy"), gate.ask(post(8 * MEGABYTE, False)))
        self.judge("all of that request came", [0], given)
        self.judge("counters behind an interim response", {"admitted": 1, "success": 1}, gate.ending())
        backend.close()

    def is_read_late(self, backend: Backend) -> None:
        """A client that sends more while it still reads a large answer, which is written by then, gets all of it."""
        found: list[tuple[int, str | None, float]] = []
        end = time.monotonic() + AGAIN
        # On a machine with other work a client may read on when the two seconds are over, and then loses what is left.
        while not found or (any(it[1] and it[2] >= LINGERS for it in found) and time.monotonic() < end):
            found = self.who_read_late(backend)
        self.judge("large answers that are read late", [(FIVE, None)] * 3, [it[:2] for it in found])

    def who_read_late(self, backend: Backend) -> list[tuple[int, str | None, float]]:
        """Of three such clients at once how much each got, how its connection broke, and how long it took."""
        gate = self.gateway(backend, workers=3, words=LONG_TIME)

        def reads_late(_: int) -> tuple[int, str | None, float]:
            begins = time.monotonic()
            with socket.socket() as client:
                # What isn't read lies with the gateway's system.
                client.setsockopt(socket.SOL_SOCKET, socket.SO_RCVBUF, 65_536)
                client.connect(("127.0.0.1", gate.port))
                client.sendall(b"GET /five HTTP/1.1\r\nHost: h\r\n\r\n")
                begun = client.recv(HALF, socket.MSG_WAITALL)
                whole = len(passed_on(b"")) + len(str(FIVE)) - 1 + FIVE
                is_written = until(lambda: len(begun) + on_the_way(gate.port, client) >= whole)
                # Who doesn't linger has mostly closed it then; who does goes on for two seconds.
                until(lambda: rests(gate.process), seconds=0.5)
                found, why = unbroken(client, PLAIN) if is_written else (b"", "it isn't written")
                return len((begun + found).partition(b"\r\n\r\n")[2]), why, time.monotonic() - begins

        with ThreadPoolExecutor(3) as pool:
            read = [*pool.map(reads_late, range(3))]
        self.judge("counters of what is read late", {"admitted": 3, "success": 3}, gate.ending())
        return read
