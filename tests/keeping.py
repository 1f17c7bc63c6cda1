"""Cases of `tests/serve` on connections to the backend that are kept: what is used again, and what isn't."""
import dataclasses
import re
import socket
import threading
import time
import typing

from loopback import FIVE, Backend, Gateway, Listener, keepalive
from operating import Operated, Operating
from running import PATIENCE
from wires import local, reset, whole_request

GET = b"GET /first HTTP/1.1\r\nHost: h\r\nConnection: close\r\n\r\n"
HEAD = GET.replace(b"GET", b"HEAD")
POST = b"POST /first HTTP/1.1\r\nHost: h\r\nConnection: close\r\nContent-Length: %d\r\n\r\n"
UPLOAD, LARGE_UPLOAD = (POST % size + b"x" * size for size in (4_000, FIVE))
NEXT = b"GET /next HTTP/1.1\r\nHost: h\r\nConnection: close\r\n\r\n"
OTHER = b"HTTP/1.1 200 OK\r\nContent-Length: 4\r\n\r\nnext"
# What somebody would have the next client read.
EVIL = b"HTTP/1.1 200 OK\r\nContent-Length: 4\r\n\r\nevil"
ONE_CHUNK = b"HTTP/1.1 200 OK\r\nTransfer-Encoding: chunked\r\n\r\n3\r\nabc\r\n0\r\n\r\n"


def passed(status: bytes, body: bytes | None, length: bytes | None = None) -> bytes:
    """An answer as a client gets it that asked for the end of its connection."""
    told = b"%d" % len(body or b"") if length is None and body is not None else length
    line = b"" if told is None else b"Content-Length: %s\r\n" % told
    return b"HTTP/1.1 %s\r\n%sConnection: close\r\n\r\n%s" % (status, line, body or b"")


@dataclasses.dataclass(frozen=True)
class Row:
    """What the backend says to a first request, which then ends or stays, what its client gets, and over how many
    connections two requests come."""

    what: str
    says: bytes
    wanted: bytes
    connections: int
    request: bytes = GET
    # What it says a moment later, and whether it closes the connection then.
    later: bytes = b""
    closes: bool = False
    # Whether it answers before it has read the request.
    is_early: bool = False


ROWS = [
    Row("a length", b"HTTP/1.1 200 OK\r\nContent-Length: 3\r\n\r\nabc", passed(b"200 OK", b"abc"), 1),
    Row("no body by its length", b"HTTP/1.1 200 OK\r\nContent-Length: 0\r\n\r\n", passed(b"200 OK", b""), 1),
    Row(
        "chunks",
        b"HTTP/1.1 200 OK\r\nTransfer-Encoding: chunked\r\n\r\n3\r\nabc\r\n0\r\nX: y\r\n\r\n",
        passed(b"200 OK", b"abc"),
        1,
    ),
    Row(
        "a body that is longer than told",
        b"HTTP/1.1 200 OK\r\nContent-Length: 3\r\n\r\nabcdef",
        passed(b"200 OK", b"abc"),
        2,
    ),
    Row(
        "an answer behind an answer",
        b"HTTP/1.1 200 OK\r\nContent-Length: 3\r\n\r\nabc" + EVIL,
        passed(b"200 OK", b"abc"),
        2,
    ),
    Row(
        "an answer behind an answer, later",
        b"HTTP/1.1 200 OK\r\nContent-Length: 3\r\n\r\nabc",
        passed(b"200 OK", b"abc"),
        2,
        later=EVIL,
    ),
    Row(
        "an answer behind chunks",
        b"HTTP/1.1 200 OK\r\nTransfer-Encoding: chunked\r\n\r\n0\r\n\r\n" + EVIL,
        passed(b"200 OK", b""),
        2,
    ),
    Row("a wrong length", b"HTTP/1.1 200 OK\r\nContent-Length: +3\r\n\r\nabc", local(502), 2),
    Row("both lengths", ONE_CHUNK.replace(b"Tr", b"Content-Length: 3\r\nTr"), local(502), 2),
    Row("another coding", ONE_CHUNK.replace(b"chunked", b"gzip, chunked"), local(502), 2),
    Row("chunks in HTTP/1.0", ONE_CHUNK.replace(b"HTTP/1.1", b"HTTP/1.0"), local(502), 2),
    Row("a body that is shorter", b"HTTP/1.1 200 OK\r\nContent-Length: 30\r\n\r\nabc", local(502), 2, closes=True),
    Row(
        "chunks that end early",
        b"HTTP/1.1 200 OK\r\nTransfer-Encoding: chunked\r\n\r\n3\r\nabc\r\n",
        local(502),
        2,
        closes=True,
    ),
    Row("a head that ends early", b"HTTP/1.1 200 OK\r\nContent-Le", local(502), 2, closes=True),
    Row("no answer", b"", local(502), 2, closes=True),
    Row(
        "HEAD with a body",
        b"HTTP/1.1 200 OK\r\nContent-Length: 4\r\n\r\nevil",
        passed(b"200 OK", None, b"4"),
        2,
        request=HEAD,
    ),
    Row(
        "HEAD without one",
        b"HTTP/1.1 200 OK\r\nContent-Length: 4\r\n\r\n",
        passed(b"200 OK", None, b"4"),
        2,
        request=HEAD,
    ),
    Row("204 with a body", b"HTTP/1.1 204 No Content\r\n\r\n" + EVIL, passed(b"204 No Content", None), 2),
    Row(
        "304 with a length",
        b"HTTP/1.1 304 Not Modified\r\nContent-Length: 4\r\n\r\n",
        passed(b"304 Not Modified", None, b"4"),
        2,
    ),
    Row(
        "304 with a body",
        b"HTTP/1.1 304 Not Modified\r\nContent-Length: 4\r\n\r\nevil",
        passed(b"304 Not Modified", None, b"4"),
        2,
    ),
    Row(
        "an interim answer before",
        b"HTTP/1.1 103 Early Hints\r\n\r\nHTTP/1.1 200 OK\r\nContent-Length: 3\r\n\r\nabc",
        passed(b"200 OK", b"abc"),
        2,
    ),
    Row(
        "an answer that closes",
        b"HTTP/1.1 200 OK\r\nContent-Length: 3\r\nConnection: Close\r\n\r\nabc",
        passed(b"200 OK", b"abc"),
        2,
    ),
    Row(
        "close among options",
        b"HTTP/1.1 200 OK\r\nContent-Length: 3\r\nConnection: x, close\r\n\r\nabc",
        passed(b"200 OK", b"abc"),
        2,
    ),
    Row("HTTP/1.0", b"HTTP/1.0 200 OK\r\nContent-Length: 3\r\n\r\nabc", passed(b"200 OK", b"abc"), 2),
    Row("a body to the end", b"HTTP/1.1 200 OK\r\n\r\nabc", passed(b"200 OK", b"abc"), 2, closes=True),
    Row(
        "an end while it is idle",
        b"HTTP/1.1 200 OK\r\nContent-Length: 3\r\n\r\nabc",
        passed(b"200 OK", b"abc"),
        2,
        closes=True,
    ),
    Row(
        "an early answer to a request that was written",
        b"HTTP/1.1 200 OK\r\nContent-Length: 3\r\n\r\nabc",
        passed(b"200 OK", b"abc"),
        1,
        request=UPLOAD,
        is_early=True,
    ),
]
PATIENT = "backend_idle_ms = 20000"
# With a body of megabytes, which the backend doesn't take before it answers.
CUT = Row(
    "an early answer to a request that wasn't written",
    b"HTTP/1.1 200 OK\r\nContent-Length: 3\r\n\r\nabc",
    passed(b"200 OK", b"abc"),
    2,
    request=LARGE_UPLOAD,
    is_early=True,
)


class Talkative(Listener):
    """A backend that keeps its connections: it answers a first request by a row, and each other one alike. It notes the
    requests of each connection."""

    def __init__(self, row: Row | None = None) -> None:
        self.row = row
        self.given: list[list[bytes]] = []
        # Whether all was said of the row, and the connection closed where it closes.
        self.is_through = threading.Event()
        super().__init__()

    def serve(self, client: socket.socket) -> None:
        given: list[bytes] = []
        self.given.append(given)
        while True:
            if self.row is not None and self.row.is_early and given is self.given[0] and not given:
                self.answers_early(client, given)
                continue
            request = whole_request(client)
            if not request.strip():
                return
            given.append(request)
            if not self.answers(client, request):
                return

    def answers_early(self, client: socket.socket, given: list[bytes]) -> None:
        """Answers a request once its head has come, and reads the rest a while later."""
        head = b""
        while b"\r\n\r\n" not in head:
            head += client.recv(1)
        given.append(head)
        client.sendall(self.row.says if self.row else b"")
        time.sleep(1.5)
        missing = int(head.split(b"Content-Length: ")[1].split(b"\r\n")[0])
        while missing and (piece := client.recv(min(missing, 65_536))):
            missing -= len(piece)

    def answers(self, client: socket.socket, request: bytes) -> bool:
        """Answers a request, and says whether the connection goes on."""
        if self.row is None or not request.split(b" ")[1] == b"/first":
            client.sendall(OTHER)
            return True
        client.sendall(self.row.says)
        if self.row.later:
            time.sleep(0.05)
            client.sendall(self.row.later)
        if self.row.closes:
            client.shutdown(socket.SHUT_RDWR)
        self.is_through.set()
        return not self.row.closes

    def requests(self) -> list[int]:
        """How many requests came over each connection."""
        return [len(it) for it in self.given]


class Keeping(Operating):
    """Cases on connections to the backend that are kept."""

    def kept(self, backend: Listener, settings: str = PATIENT, **how: typing.Any) -> Gateway:
        """A gateway that keeps connections: for longer than a busy machine takes for a case."""
        return self.gateway(backend, keepalive(settings), version=2, **how)

    def keeps_its_backends(self, _unused: Backend) -> None:
        """One connection serves one client after the other, and no request asks for its end."""
        backend = Talkative()
        gate = self.kept(backend, each=8)
        for _ in range(8):
            self.judge("an answer over a kept connection", passed(b"200 OK", b"next"), gate.ask(NEXT))
        self.judge("counters of kept connections", {"admitted": 8, "success": 8}, gate.ending())
        self.judge("requests of each connection", [8], backend.requests())
        told = {re.search(rb"(?mi)^connection:.*$", it) for given in backend.given for it in given}
        self.judge("what they say of their connection", {None}, told)
        backend.close()

    def keeps_none_that_are_not_wanted(self, _unused: Backend) -> None:
        """Without `backends`, and by `backends = 0`, the end of each connection is asked for."""
        for version, settings in ((1, ""), (2, ""), (2, "clients = 9"), (2, "backends = 0\nbackend_idle_ms = 9000")):
            backend = Talkative()
            gate = self.gateway(backend, settings, version=version, each=3)
            for _ in range(3):
                gate.ask(NEXT)
            what = f"version {version}, {settings!r}"
            self.judge(f"counters of {what}", {"admitted": 3, "success": 3}, gate.ending())
            self.judge(f"requests of each connection in {what}", [1, 1, 1], backend.requests())
            told = [b"\r\nConnection: close\r\n" in it for given in backend.given for it in given]
            self.judge(f"those of {what} that ask for the end", [True] * 3, told)
            backend.close()

    def tells_what_it_keeps(self, _unused: Backend) -> None:
        """The line of a start names which connections are kept."""
        auto = '\n\n[limit]\nkind = "auto"'
        for version, settings, wanted in (
            (1, "", "limit=fixed keepalive=off"),
            (2, "", "limit=fixed keepalive=off"),
            (2, "clients = 1", "limit=fixed keepalive=clients"),
            (2, "backends = 1", "limit=fixed keepalive=backend"),
            (2, "clients = 1\nbackends = 1", "limit=fixed keepalive=on"),
            (2, "backlog = 1" + auto, "limit=auto max=2 keepalive=off"),
            (2, "backlog = 1\nclients = 1\nbackends = 1" + auto, "limit=auto max=2 keepalive=on"),
        ):
            backend = Talkative()
            gate = self.gateway(backend, settings, version=version, workers=4)
            line = f"[INFO  admission] listening address=127.0.0.1:{gate.port} workers=4 {wanted}"
            told = [it for it in gate.log if "] listening address" in it]
            self.judge(f"the line of a start by {settings!r}", [line], told)
            gate.process.kill()
            backend.close()

    def tells_answers_apart(self, _: Backend) -> None:
        """Whatever a backend says to one request, the next client gets the answer to its own; and what may be more of
        an answer, or an end, is met by no other request."""
        for row in ROWS:
            self.tells_apart(row)

    def keeps_none_that_was_cut(self, _: Backend) -> None:
        """A connection whose request wasn't written whole is used for no other."""
        self.tells_apart(CUT)

    def tells_apart(self, row: Row) -> None:
        """What two clients get, of whom the first is answered as a row has it, and over how many connections."""
        backend = Talkative(row)
        gate = self.kept(backend, each=2)
        first = gate.ask(row.request)
        if row.later or row.closes:
            backend.is_through.wait(PATIENCE)
        time.sleep(0.1)
        second = gate.ask(NEXT)
        self.judge(f"{row.what}: the answer", row.wanted, first)
        self.judge(f"{row.what}: the next answer", passed(b"200 OK", b"next"), second)
        gate.ending()
        self.judge(f"{row.what}: connections", row.connections, len([it for it in backend.given if it]))
        backend.close()

    def sends_nothing_again(self, _: Backend) -> None:
        """A client's first request whose kept connection breaks under it gets 502, and no other connection gets it."""
        for ends in (lambda client: None, reset):

            class Breaking(Talkative):
                """A backend that ends its connection at the second request."""

                def answers(self, client: socket.socket, request: bytes, ends: typing.Any = ends) -> bool:
                    if len(self.given) == 1 and len(self.given[0]) == 2:
                        ends(client)
                        return False
                    return super().answers(client, request)

            backend = Breaking()
            gate = self.kept(backend, each=3)
            wanted = [passed(b"200 OK", b"next"), local(502), passed(b"200 OK", b"next")]
            self.judge("answers where one breaks", wanted, [gate.ask(NEXT) for _ in range(3)])
            self.judge("counters where one breaks", {"admitted": 3, "success": 2, "dropped": 1}, gate.ending())
            self.judge("requests of each connection where one breaks", [2, 1], backend.requests())
            backend.close()

    def keeps_them_for_a_while(self, _: Backend) -> None:
        """One that is idle for too long isn't used again, and is closed."""
        backend = Talkative()
        gate = self.kept(backend, "backend_idle_ms = 1500", each=3)
        gate.ask(NEXT)
        time.sleep(2)
        gate.ask(NEXT)
        gate.ask(NEXT)
        self.judge("counters of idle ones", {"admitted": 3, "success": 3}, gate.ending())
        self.judge("requests of each connection where one was idle", [1, 2], backend.requests())
        backend.close()

    def counts_its_backends(self, _: Backend) -> None:
        """The metrics tell how many connections there are, and what became of those that there were."""
        backend = Talkative()
        gate = self.operated(backend, keepalive("backend_idle_ms = 1500"), workers=1, version=2)
        gate.ask(NEXT)
        gate.ask(NEXT)
        self.judge(
            "one connection, which is idle", (1, 1, {"opened": 1, "reused": 1, "stale": 0}), self.connections(gate)
        )
        time.sleep(2)
        gate.ask(NEXT)
        self.judge("a new one behind it", (1, 1, {"opened": 2, "reused": 1, "stale": 1}), self.connections(gate))
        backend.close()

    @staticmethod
    def connections(gate: Operated) -> tuple[object, object, object]:
        """How many connections are open and idle, and what became of those that there were."""
        told = gate.metrics()
        counts = told["backend_connections_total"]
        return told["open_backend_connections"], told["idle_backend_connections"], counts
