"""Raw bytes on both sides of a gateway: what a client sends, what the backend gets and answers, and what comes back."""
import contextlib
import dataclasses
import itertools
import queue
import socket
import struct
import threading
import time
from collections.abc import Callable, Iterable, Sequence
from concurrent.futures import ThreadPoolExecutor

from loopback import Gateway, read_all
from running import PATIENCE

# How many gateways stand side by side, each with one worker and a backend of its own.
LANES = 8
# A backend's address, where a row names it.
BACKEND = b"127.0.0.1:9000"
# How long nothing may come before a client ends what it sends, and how long it rests between two pieces.
MOMENT, REST = 0.02, 0.001
OK = b"HTTP/1.1 200 OK\r\nContent-Length: 0\r\n\r\n"
CONTINUE = b"HTTP/1.1 100 Continue\r\n\r\n"
PASSED_OK = b"HTTP/1.1 200 OK\r\nContent-Length: 0\r\nConnection: close\r\n\r\n"
PHRASES = {
    400: "Bad Request",
    413: "Payload Too Large",
    429: "Too Many Requests",
    431: "Request Header Fields Too Large",
    500: "Internal Server Error",
    501: "Not Implemented",
    502: "Bad Gateway",
    503: "Service Unavailable",
    504: "Gateway Timeout",
}


def local(status: int) -> bytes:
    """The answer of this status that the gateway makes itself."""
    return bytes_of(f"HTTP/1.1 {status} {PHRASES[status]}|Content-Length: 0|Connection: close||")


def bytes_of(row: str) -> bytes:
    """The bytes of a row: `|` is CR LF, and a lone surrogate stands for a byte that is no text."""
    return row.replace("|", "\r\n").encode("utf-8", "surrogateescape")


def in_pieces(text: bytes, size: int) -> tuple[bytes, ...]:
    """A text in pieces of so many bytes."""
    return tuple(text[at : at + size] for at in range(0, len(text), size))


def reset(client: socket.socket) -> None:
    """Breaks a connection: its other end finds no end of what was sent but a fault."""
    client.setsockopt(socket.SOL_SOCKET, socket.SO_LINGER, struct.pack("ii", 1, 0))
    client.close()


def send(client: socket.socket, pieces: Iterable[bytes]) -> None:
    """Sends pieces that come one by one, up to where nobody takes them any more."""
    client.setsockopt(socket.IPPROTO_TCP, socket.TCP_NODELAY, 1)
    with contextlib.suppress(ConnectionResetError, BrokenPipeError):
        for place, piece in enumerate(pieces):
            if place:
                time.sleep(REST)
            client.sendall(piece)


@dataclasses.dataclass(frozen=True)
class Case:
    """A client's bytes, what the backend then gets and says, all in pieces, and what the client gets."""

    what: object
    sent: tuple[bytes, ...]
    wanted: bytes
    # Nothing where nothing is forwarded.
    forwarded: bytes | None = None
    # What the gate counts of it; nothing where it isn't asked.
    outcome: str | None = None
    says: tuple[bytes, ...] = (OK,)
    # How the backend ends what it says: it `closes`, `resets`, or `stays` until the gateway closes; or it says nothing
    # and `breaks` while it is given the request.
    ends: str = "closes"
    # Whether the client ends what it sends, once nothing came for a moment.
    shuts: bool = False


# What is judged: what it is, what is wanted and what was found.
Found = tuple[object, object, object]


class Raw:
    """A backend that is told beforehand what it says to the next request, and keeps what it got."""

    def __init__(self) -> None:
        self.case, self.release = Case("", (), b""), threading.Event()
        self.given: queue.SimpleQueue[bytes] = queue.SimpleQueue()
        self.release.set()
        self.socket = socket.create_server(("127.0.0.1", 0), backlog=128)
        self.port = self.socket.getsockname()[1]
        threading.Thread(target=self.serve, daemon=True).start()

    def serve(self) -> None:
        with contextlib.suppress(OSError):
            while True:
                client, _ = self.socket.accept()
                with client, contextlib.suppress(OSError):
                    client.settimeout(PATIENCE)
                    self.answer(client)

    def answer(self, client: socket.socket) -> None:
        case = self.case
        if case.ends == "breaks":
            client.recv(1024)
            reset(client)
            return
        self.given.put(whole_request(client))
        self.release.wait(PATIENCE)
        send(client, case.says)
        if case.ends == "resets":
            reset(client)
        elif case.ends == "stays":
            read_all(client)

    def got(self, patience: float = 0.0) -> bytes | list[bytes] | None:
        """What came since this was asked last, or comes in so many seconds: nothing, a request, or a list of them."""
        found = []
        with contextlib.suppress(queue.Empty):
            found.append(self.given.get(timeout=patience))
            while True:
                found.append(self.given.get_nowait())
        return found if len(found) > 1 else found[0] if found else None

    def close(self) -> None:
        # Only this wakes the thread that accepts.
        self.socket.shutdown(socket.SHUT_RDWR)
        self.socket.close()


def whole_request(client: socket.socket) -> bytes:
    """A request as a gateway forwards it: its head, and as many bytes as its one length says."""
    text = b""
    while b"\r\n\r\n" not in text and (piece := client.recv(1_048_576)):
        text += piece
    head, _, body = text.partition(b"\r\n\r\n")
    lengths = [line for line in head.split(b"\r\n") if line.startswith(b"Content-Length: ")]
    most = int(lengths[0].split()[1]) if lengths else 0
    pieces, missing = [body], most - len(body)
    while missing > 0 and (piece := client.recv(1_048_576)):
        pieces.append(piece)
        missing -= len(piece)
    return head + b"\r\n\r\n" + b"".join(pieces)


def asked(port: int, case: Case) -> bytes:
    """What a client gets that sends the bytes of a case, in its pieces."""
    with socket.create_connection(("127.0.0.1", port), timeout=PATIENCE) as client:
        send(client, case.sent)
        if case.shuts:
            client.settimeout(MOMENT)
            # Who is asked for the body hears that much before.
            early = b""
            with contextlib.suppress(TimeoutError):
                while len(early) < len(case.wanted) and (piece := client.recv(65536)):
                    early += piece
            if early not in (b"", CONTINUE):
                return b"answered before its end: " + early
            client.settimeout(PATIENCE)
            client.shutdown(socket.SHUT_WR)
            return early + read_all(client)
        return read_all(client)


def at_address(case: Case, port: int) -> Case:
    """A case whose rows name the backend that it has."""
    address = b"127.0.0.1:%d" % port
    sent = tuple(piece.replace(BACKEND, address) for piece in case.sent)
    return dataclasses.replace(case, sent=sent, forwarded=case.forwarded and case.forwarded.replace(BACKEND, address))


def carried_out(program: str, room: str, cases: Sequence[Case], words: Sequence[str], version: int) -> list[Found]:
    """What each of these cases wants and what is found, by one gateway; and what it counts."""
    backend = Raw()
    gate = Gateway(program, room, backend.port, "wait = false", each=len(cases), words=words, version=version)
    found: list[Found] = []
    for case in (at_address(case, backend.port) for case in cases):
        backend.case = case
        answer: object
        try:
            answer = asked(gate.port, case)
        except OSError as why:
            answer = repr(why)
        found.append((case.what, (case.forwarded, case.wanted), (backend.got(), answer)))
    outcomes = {case.outcome for case in cases}
    assert len(outcomes) == 1
    outcome = outcomes.pop()
    counts = {"admitted": len(cases), outcome: len(cases)} if outcome else {}
    found.append((f"counters of {len(cases)} cases like {cases[0].what!r:.80}", counts, gate.ending()))
    backend.close()
    return found


def carry_out(
    judge: Callable[[object, object, object], None],
    program: str,
    room: str,
    cases: Iterable[Case],
    words: Sequence[str] = (),
    version: int = 1,
) -> None:
    """Carries cases out in several lanes; a lane's cases have one outcome, so that its counters show that of each. The
    version is that of the configuration."""
    groups = [list(group) for _, group in itertools.groupby(sorted(cases, key=outcome_of), outcome_of)]
    lanes = [group[lane::LANES] for group in groups for lane in range(min(LANES, len(group)))]
    with ThreadPoolExecutor(LANES) as pool:
        for found in pool.map(lambda lane: carried_out(program, room, lane, words, version), lanes):
            for row in found:
                judge(*row)


def outcome_of(case: Case) -> str:
    return case.outcome or ""
