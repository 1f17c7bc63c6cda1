"""Cases of `tests/serve` on clients that are kept: what they are told, how their requests are told apart, and when they
have to go."""
import contextlib
import dataclasses
import select
import socket
import time
import typing

from keeping import OTHER, PATIENT, Talkative
from loopback import BODY, Backend, Gateway, Later, Listener, keepalive, read_all
from operating import Operating
from operator_rows import DRAINED, told
from running import PATIENCE, until
from sockets import passed_on, timed, tried
from telling import reports
from waiting import AT_ONCE, MANY, has_ended, raised_descriptors
from wires import CONTINUE, local, reset

GET = b"GET /next HTTP/1.1\r\nHost: h\r\n\r\n"
LAST = b"GET /next HTTP/1.1\r\nHost: h\r\nConnection: close\r\n\r\n"
POST = b"POST /next HTTP/1.1\r\nHost: h\r\nContent-Length: %d\r\n\r\n%s"
# What a client gets of a backend that answers alike, one who is kept, and one who is not.
KEPT = b"HTTP/1.1 200 OK\r\nContent-Length: 4\r\n\r\nnext"
ENDED = b"HTTP/1.1 200 OK\r\nContent-Length: 4\r\nConnection: close\r\n\r\nnext"
# So many idle at once: fewer than there are places.
CROWD = 900
# So many ask again and again, and so many come at once beside them.
BUSY, NEW = 32, 16
# One who waits for its next request is met within this.
SOON = 0.3
FIRST = b"HTTP/1.1 200 OK\r\nContent-Length: 13\r\n\r\n" + BODY
UNREACHABLE = local(502).replace(b"Connection: close\r\n", b"")
# What a client that stays gets of a backend that ends its connection in an answer, or at a request of a new one.
BROKEN = UNREACHABLE


@dataclasses.dataclass(frozen=True)
class Row:
    """What a client sends over one connection, one piece behind the answer to the one before, with what it gets for
    each; and the bodies of the requests that the backend is given. Without a piece it ends what it sends."""

    what: str
    steps: tuple[tuple[bytes, bytes], ...]
    given: tuple[bytes, ...]


CHUNKED = b"POST /next HTTP/1.1\r\nHost: h\r\nTransfer-Encoding: chunked\r\n\r\n%s"
EXPECTING = b"POST /next HTTP/1.1\r\nHost: h\r\nExpect: 100-continue\r\nContent-Length: %d\r\n\r\n"
HEAD = b"HEAD /next HTTP/1.1\r\nHost: h\r\nContent-Length: 3\r\n\r\nabc"
BOTH = POST.replace(b"Host", b"Transfer-Encoding: chunked\r\nHost") % (3, b"abc")
OLD = b"GET /next HTTP/1.0\r\nHost: h\r\nConnection: keep-alive\r\n\r\n"
OLD_CHUNKS = OLD.replace(b"Host", b"Transfer-Encoding: chunked\r\nHost") + b"0\r\n\r\n"
CODED = CHUNKED.replace(b"chunked", b"gzip, chunked") % b"0\r\n\r\n"
WRONG = POST.replace(b"%d", b"+%d") % (3, b"abc")
CLOSING = GET.replace(b"\r\n\r\n", b"\r\nConnection: x, Close\r\n\r\n")
ROWS = [
    Row("one request behind the other", ((GET, KEPT), (GET, KEPT), (LAST, ENDED)), (b"", b"", b"")),
    Row("a body", ((POST % (3, b"abc"), KEPT), (LAST, ENDED)), (b"abc", b"")),
    Row("a body in two pieces", ((POST % (3, b"a"), b""), (b"bc", KEPT), (LAST, ENDED)), (b"abc", b"")),
    Row("chunks", ((CHUNKED % b"3\r\nabc\r\n0\r\n\r\n", KEPT), (LAST, ENDED)), (b"abc", b"")),
    Row("chunks with trailers", ((CHUNKED % b"0\r\nX: y\r\n\r\n", KEPT), (LAST, ENDED)), (b"", b"")),
    Row("a request behind another in one piece", ((GET + LAST, ENDED),), (b"",)),
    Row("a body longer than told", ((POST % (3, b"abcd"), ENDED), (LAST, b"")), (b"abc",)),
    Row("one longer than told, later", ((POST % (3, b"abc"), KEPT), (b"d" + LAST, ENDED)), (b"abc", b"")),
    Row("a body shorter than told", ((POST % (len(LAST), b""), b""), (LAST, KEPT), (b"", b"")), (LAST,)),
    Row("a body that ends early", ((GET, KEPT), (POST % (3, b"a"), b""), (b"", local(400))), (b"",)),
    Row("chunks that end early", ((CHUNKED % b"3\r\nab", b""), (b"", local(400))), ()),
    Row("something behind chunks", ((CHUNKED % b"0\r\n\r\nGET", ENDED), (LAST, b"")), (b"",)),
    Row("HEAD with a body", ((HEAD, KEPT[:-4]), (LAST, ENDED)), (b"abc", b"")),
    Row("a body that is asked for", ((EXPECTING % 3, CONTINUE), (b"abc", KEPT), (LAST, ENDED)), (b"abc", b"")),
    Row("a body that isn't asked for", ((EXPECTING % 99_999_999, local(413)), (LAST, b"")), ()),
    Row("no request at all", ((GET, KEPT), (b"\x16\x03\x01\r\n\r\n", local(400))), (b"",)),
    Row("both lengths", ((GET, KEPT), (BOTH, local(400))), (b"",)),
    Row("a wrong length", ((GET, KEPT), (WRONG, local(400))), (b"",)),
    Row("another coding", ((GET, KEPT), (CODED, local(501))), (b"",)),
    Row("HTTP/1.0", ((OLD, ENDED), (LAST, b"")), (b"",)),
    Row("chunks in HTTP/1.0", ((GET, KEPT), (OLD_CHUNKS, local(400))), (b"",)),
    Row("close among options", ((CLOSING, ENDED), (LAST, b"")), (b"",)),
    Row("an end behind an answer", ((GET, KEPT), (b"", b"")), (b"",)),
]


def body_of(text: bytes) -> bytes:
    """The body of a request that came whole."""
    return text.partition(b"\r\n\r\n")[2]


def asked(client: socket.socket, piece: bytes, length: int) -> bytes:
    """So many bytes of what comes for a piece, or what comes before the end."""
    with contextlib.suppress(BrokenPipeError, ConnectionResetError):
        if piece:
            client.sendall(piece)
        else:
            client.shutdown(socket.SHUT_WR)
    if not length:
        time.sleep(SOON)
    text = b""
    with contextlib.suppress(ConnectionResetError):
        while len(text) < length and (more := client.recv(length - len(text))):
            text += more
    return text


@dataclasses.dataclass(frozen=True)
class End:
    """How a backend ends each connection at its second and its fourth request, what a client gets then whose request is
    a later one, and how many requests come over each connection."""

    what: str
    wanted: bytes
    settings: str = PATIENT
    # What it says before, and how it ends.
    says: bytes = b""
    ends: typing.Callable[[socket.socket], None] = socket.socket.close
    requests: tuple[int, ...] = (2, 2)


ENDS = [
    End("a kept connection that ends", b""),
    End("a kept connection that is reset", b"", ends=reset),
    End("a kept connection that ends in an answer", BROKEN, says=b"H"),
    End("a kept connection that ends in an interim answer", BROKEN, says=b"HTTP/1.1 103 Early Hints\r\n\r\n"),
    End("a new connection that ends", BROKEN, settings="backends = 0", requests=(1, 1, 1, 1)),
]


class Ending(Talkative):
    """A backend that keeps its connections, and ends them so."""

    def __init__(self, end: End) -> None:
        self.end = end
        super().__init__()

    def answers(self, client: socket.socket, request: bytes) -> bool:
        if sum(self.requests()) not in (2, 4):
            client.sendall(OTHER)
            return True
        client.sendall(self.end.says)
        self.end.ends(client)
        return False


class Beside:
    """Busy clients, each of which asks again once it is answered, and others who come beside them; and how often a busy
    one was answered until each of the others was."""

    def __init__(self, busy: list[socket.socket]) -> None:
        self.poll, self.clients = select.poll(), {it.fileno(): it for it in busy}
        self.texts: dict[int, bytes] = dict.fromkeys(self.clients, b"")
        self.answered = 0
        self.found: dict[int, int] = {}
        for client in busy:
            self.poll.register(client, select.POLLIN)
            client.sendall(GET)

    def come(self, others: list[socket.socket]) -> None:
        """Others come, and ask once."""
        for client in others:
            client.sendall(LAST)
            self.clients[client.fileno()] = client
            self.texts[client.fileno()] = b""
            self.found[client.fileno()] = -1
            self.poll.register(client, select.POLLIN)

    def go_on(self, most: int) -> None:
        """Has the busy ones ask until they were answered so often, or all others were, or nothing comes any more."""
        while self.answered < most and (not self.found or -1 in self.found.values()):
            ready = self.poll.poll(1000 * PATIENCE)
            for file, _ in ready:
                self.hear(file)
            if not ready:
                return

    def hear(self, file: int) -> None:
        """Takes what came of an answer to one of them. Who gets another one, or its end, isn't heard any more."""
        piece = self.clients[file].recv(65_536)
        self.texts[file] += piece
        if self.texts[file] == KEPT and file not in self.found:
            self.answered, self.texts[file] = self.answered + 1, b""
            self.clients[file].sendall(GET)
        elif self.texts[file] == ENDED and file in self.found:
            self.found[file] = self.answered
            self.poll.unregister(file)
        elif not piece:
            self.poll.unregister(file)


class KeptClients(Operating):
    """Cases on clients that are kept."""

    def keeping(self, backend: Listener, settings: str = "", **how: typing.Any) -> Gateway:
        """A gateway that keeps connections."""
        return self.gateway(backend, keepalive(settings), version=2, **how)

    def counts_its_clients(self, _unused: Backend) -> None:
        """The metrics tell how many clients wait, and what became of those that there were."""
        backend = Talkative()
        settings = keepalive("clients = 2\nclient_idle_ms = 1500")
        gate = self.operated(backend, settings, workers=2, version=2)
        with gate.connect() as client:
            for _ in range(3):
                asked(client, GET, len(KEPT))
            counted = {"opened": 1, "reused": 2}
            shown = {"client_connections_total": counted, "idle_client_connections": 1}
            self.judge("one that waits", True, gate.shows(silent_client_connections=0, **shown))
            counted = {"opened": 1, "reused": 2, "late": 1}
            shown = {"client_connections_total": counted, "idle_client_connections": 0}
            self.judge("one that was dropped", True, gate.shows(**shown))
        backend.close()

    def reports_its_clients(self, _unused: Backend) -> None:
        """A report ends with the clients that wait, and with what became of those that there were."""
        backend = Talkative()
        gate = self.keeping(backend, "clients = 2", workers=2, each=50, words=("--report-seconds", "1"))

        def tells(**wanted: int) -> bool:
            ends = [(f"clients.{name}", str(number)) for name, number in wanted.items()]
            return until(lambda: ends in [[*it.items()][-6:] for it in reports(gate)])

        with gate.connect(), gate.connect() as client:
            for _ in range(3):
                asked(client, GET, len(KEPT))
            told_so = tells(silent=1, idle=1, opened=2, reused=2, late=0, displaced=0)
            self.judge("one that is silent and one that is kept", True, told_so)
            with gate.connect():
                told_so = tells(silent=1, idle=1, opened=3, reused=2, late=0, displaced=1)
                self.judge("another one in the place of the first", True, told_so)
        backend.close()

    def keeps_its_clients(self, _unused: Backend) -> None:
        """One connection carries one request after the other, and each is an exchange of its own."""
        backend = Talkative()
        gate = self.keeping(backend, workers=2, each=50)
        with gate.connect() as client, gate.connect() as other:
            for _ in range(24):
                self.judge("an answer to one who is kept", KEPT, asked(client, GET, len(KEPT)))
                self.judge("an answer to another one", KEPT, asked(other, GET, len(KEPT)))
            self.judge("both stay", [False, False], [has_ended(client), has_ended(other)])
            self.judge("the last answer", ENDED, asked(client, LAST, len(ENDED)))
            self.judge("and it is closed", True, until(lambda: has_ended(client)))
        gate.process.terminate()
        backend.close()

    def tells_requests_apart(self, _unused: Backend) -> None:
        """Whatever a client sends, its connection's bytes are cut into requests in one way: what was left of one
        request is never the beginning of another."""
        for row in ROWS:
            backend = Talkative()
            gate = self.keeping(backend, each=len(row.steps) + 1)
            with gate.connect() as client:
                found = [asked(client, piece, len(answer)) for piece, answer in row.steps]
                with contextlib.suppress(OSError):
                    client.shutdown(socket.SHUT_WR)
                found.append(read_all(client))
            self.judge(f"{row.what}: the answers", [*(answer for _, answer in row.steps), b""], found)
            given = tuple(body_of(it) for one in backend.given for it in one)
            self.judge(f"{row.what}: what the backend got", row.given, given)
            backend.close()

    def drops_the_idle(self, _unused: Backend) -> None:
        """One that is idle for too long is closed, and not before."""
        backend = Talkative()
        gate = self.keeping(backend, "client_idle_ms = 5000", each=50, words=("--client-timeout-ms", "60000"))
        with gate.connect() as kept, gate.connect() as silent:
            self.judge("an answer before it idles", KEPT, asked(kept, GET, len(KEPT)))
            time.sleep(0.7)
            self.judge("an answer in between", KEPT, asked(kept, GET, len(KEPT)))
            time.sleep(1)
            self.judge("it stays", False, has_ended(kept))
            self.judge("and is dropped", True, until(lambda: has_ended(kept)))
            self.judge("one that has sent nothing has its own time", False, has_ended(silent))
            self.judge("and is served", KEPT, asked(silent, GET, len(KEPT)))
        gate.process.terminate()
        backend.close()

    def has_so_many_places(self, _unused: Backend) -> None:
        """Where all places are taken, who is idle longest goes."""
        backend = Talkative()
        gate = self.keeping(backend, "clients = 2", each=50)
        with contextlib.ExitStack() as stack:
            clients = []
            for _ in range(2):
                clients.append(stack.enter_context(gate.connect()))
                self.judge("an answer with a place", KEPT, asked(clients[-1], GET, len(KEPT)))
                time.sleep(SOON)
            self.judge("the first one again", KEPT, asked(clients[0], GET, len(KEPT)))
            time.sleep(SOON)
            clients.append(stack.enter_context(gate.connect()))
            self.judge("who idles longest goes", True, until(lambda: has_ended(clients[1])))
            self.judge("one that came then", KEPT, asked(clients[2], GET, len(KEPT)))
            time.sleep(SOON)
            self.judge("both stay", [False, False], [has_ended(clients[0]), has_ended(clients[2])])
        gate.process.terminate()
        backend.close()

    def keeps_a_crowd(self, _unused: Backend) -> None:
        """Many clients that idle keep nobody waiting, and are served once they ask again."""
        backend = Talkative()
        raised_descriptors(CROWD + 500)
        gate = self.keeping(backend, workers=8, each=1_000_000, front=MANY)
        with contextlib.ExitStack() as stack:
            idle = []
            for _ in range(CROWD):
                idle.append(stack.enter_context(gate.connect()))
                if asked(idle[-1], GET, len(KEPT)) != KEPT:
                    break
            took = tried(lambda: timed(gate.ask, LAST)[1], AT_ONCE)
            self.judge("one beside a crowd that idles", True, took[-1] < AT_ONCE or took)
            self.judge("all of them stay", (CROWD, []), (len(idle), [it for it in idle if has_ended(it)]))
            again = [asked(it, GET, len(KEPT)) for it in idle[:: CROWD // 20]]
            self.judge("some that ask again", [KEPT] * 20, again)
        gate.process.terminate()
        backend.close()

    def serves_new_ones_beside_busy_ones(self, _unused: Backend) -> None:
        """Clients who come at once wait for a turn or two of those who are busy, and not for one turn each."""
        backend = Talkative()
        gate = self.keeping(backend, workers=1, each=1_000_000)
        with contextlib.ExitStack() as stack:
            beside = Beside([stack.enter_context(gate.connect()) for _ in range(BUSY)])
            beside.go_on(3 * BUSY)
            begun = beside.answered
            beside.come([stack.enter_context(gate.connect()) for _ in range(NEW)])
            beside.go_on(begun + BUSY * NEW)
            before = [it - begun for it in beside.found.values()]
            self.judge("each new one is answered", True, min(before) >= 0)
            self.judge("how many are served before it", True, max(before) < 4 * BUSY or before)
        gate.process.terminate()
        backend.close()

    def keeps_no_client_unasked(self, _unused: Backend) -> None:
        """Without `clients`, and by `clients = 0`, each connection is closed."""
        for version, settings in ((1, ""), (2, ""), (2, "backends = 9"), (2, "clients = 0\nclient_idle_ms = 9000")):
            backend = Talkative()
            gate = self.gateway(backend, settings, version=version, each=2)
            what = f"one who asks in version {version}, {settings!r}"
            self.judge(what, [ENDED] * 2, [gate.ask(GET) for _ in range(2)])
            gate.ending()
            backend.close()

    def goes_on_behind_its_own_answers(self, _unused: Backend) -> None:
        """A client that is turned away, or whose backend can't be reached, is kept all the same."""
        backend = Talkative()
        backend.close()
        gate = self.keeping(backend, each=50)
        with gate.connect() as client:
            for _ in range(2):
                answer = asked(client, GET, len(UNREACHABLE))
                self.judge("a backend that can't be reached", UNREACHABLE, answer)
        gate.process.terminate()

    def ends_with_a_stale_backend(self, _unused: Backend) -> None:
        """A later request over a connection that its backend ends before its answer gets none, and its client's
        connection is closed; a first one gets 502. Neither is sent twice, and the metrics agree."""
        for end in ENDS:
            backend = Ending(end)
            gate = self.operated(backend, keepalive(end.settings), version=2)
            with gate.connect() as client:
                self.judge(f"{end.what}: an answer before", KEPT, asked(client, GET, len(KEPT)))
                if end.wanted:
                    self.judge(f"{end.what}: a later request", end.wanted, asked(client, GET, len(end.wanted)))
                else:
                    client.sendall(GET)
                    self.judge(f"{end.what}: a later request", b"", read_all(client))
            self.judge(f"{end.what}: the next client", ENDED, gate.ask(LAST))
            self.judge(f"{end.what}: a first request", local(502), gate.ask(LAST))
            shown = {
                "answers_total": {"502": 2 if end.wanted else 1},
                "outcomes_total": {"success": 2, "dropped": 2},
                "troubles_total": {"broken": 2},
            }
            self.judge(f"{end.what}: the metrics", True, gate.shows(**shown))
            self.judge(f"{end.what}: requests of each connection", list(end.requests), backend.requests())
            gate.call("POST /drain")
            self.judge(f"{end.what}: counters", {"admitted": 4, "success": 2, "dropped": 2}, gate.ending())
            backend.close()

    def drains_its_clients(self, backend: Backend) -> None:
        """A drain closes those who wait, and who is served then is told that its connection ends."""
        gate = self.operated(backend, keepalive("backends = 0"), workers=2, version=2)
        with gate.connect() as idle, gate.connect() as busy:
            self.judge("one before", FIRST, asked(idle, GET, len(FIRST)))
            busy.sendall(b"GET /held HTTP/1.1\r\nHost: h\r\n\r\n")
            backend.held.acquire()
            drain = Later(gate.call, "POST /drain")
            self.judge("who waits is closed", True, until(lambda: has_ended(idle)))
            backend.release.set()
            self.judge("who is served is told", passed_on(BODY), read_all(busy))
            self.judge("a drain beside kept ones", told(DRAINED), drain.result())
        self.judge("counters behind it", {"admitted": 2, "success": 2}, gate.ending())
