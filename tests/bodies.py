"""Cases of `tests/serve` on the bound that all bodies share."""
import re
import socket
from typing import Any

from large import HALF, framed
from loopback import Backend, Gateway, Later, Listener
from measuring import marked
from operating import Operated, Operating
from running import PATIENCE, until
from sockets import LONG_TIME, PLAIN, passed_on

# The least bound, and the greatest body.
BOUND = "bodies_mib = 16"
EIGHT = 8 * 1024 * 1024
EMPTY = passed_on(b"")
UNHELD = marked(503, "bodies")


def post(path: str, count: int, is_chunked: bool = False) -> bytes:
    """A request with a body of so many bytes."""
    return f"POST {path} HTTP/1.1\r\nHost: h\r\n".encode() + framed(b"x" * count, is_chunked)


def get(count: int) -> bytes:
    """A request for so many bytes."""
    return b"GET /%d HTTP/1.1\r\nHost: h\r\n\r\n" % count


class Sized(Backend):
    """A backend that answers with as many bytes as the path says, by a length or in chunks, and else with none."""

    def serve(self, client: socket.socket) -> None:
        text = self.request(client)
        self.given.append(text)
        if text.startswith(b"POST /held "):
            self.held.release()
            self.release.wait(PATIENCE)
        asked = re.match(rb"GET /(\d+)(c?) ", text)
        body = b"y" * int(asked[1]) if asked else b""
        client.sendall(b"HTTP/1.1 200 OK\r\n" + framed(body, bool(asked and asked[2])))


class Bodies(Operating):
    """Cases on `bodies_mib`."""

    def bounded(self, backend: Listener, limit: str = "", **how: Any) -> Operated:
        """A gateway with the least bound, whose own answers have marks."""
        return self.operated(backend, BOUND + limit, version=2, words=("--mark", *LONG_TIME), **how)

    def full_but(self, gate: Gateway, backend: Backend, left: int) -> list[Later]:
        """Two requests that are at the backend, with all bytes of the bound but so many."""
        held = [Later(gate.ask, post("/held", count)) for count in (EIGHT, EIGHT - left)]
        for _ in held:
            self.judge("one is at the backend", True, backend.held.acquire(timeout=PATIENCE))
        return held

    def bounds_its_requests(self, _backend: Backend) -> None:
        """A request above the bound is answered 503 at once and takes no permit; one at the bound is served, and so is
        one without a body; and once the others have ended, all bytes are free again."""
        backend = Sized()
        gate = self.bounded(backend)
        held = self.full_but(gate, backend, 10)
        for is_chunked in (False, True):
            self.judge("a byte above the bound", UNHELD, gate.ask(post("/", 11, is_chunked)))
        at_bound = [gate.ask(post("/", 10, is_chunked)) for is_chunked in (False, True)]
        self.judge("at the bound", [EMPTY] * 2, at_bound)
        self.judge("without a body", EMPTY, gate.ask(PLAIN))
        shown = gate.shows(in_flight=2, answers_total={"503": 2})
        self.judge("what was counted", (True, 2), (shown, gate.metrics()["troubles_total"]["bodies"]))
        backend.release.set()
        self.judge("those who held the rest", [EMPTY] * 2, [it.result() for it in held])
        again = [Later(gate.ask, post("/", EIGHT)) for _ in range(2)]
        self.judge("as many bytes again", [EMPTY] * 2, [it.result() for it in again])
        gate.call("POST /drain")
        self.judge("counters of requests at the bound", {"admitted": 7, "success": 7}, gate.ending())
        told = [line for line in gate.log if "bodies are at their bound" in line]
        self.judge("what the log tells", ["[WARN  admission] bodies are at their bound count=1"], told[:1])
        backend.close()

    def bounds_its_answers(self, _backend: Backend) -> None:
        """A response above the bound becomes a 502 that the limit ignores, by a length as in chunks; one at the bound
        is passed on, and its bytes are free once its client was left."""
        backend = Sized()
        limit = '\n\n[limit]\nkind = "aimd"\ninitial = 4\nmax = 4'
        gate = self.bounded(backend, limit)
        held = self.full_but(gate, backend, 10)
        unheld = marked(502, "bodies")
        for path in (b"/11", b"/11c"):
            self.judge(f"an answer above the bound, {path!r}", unheld, gate.ask(get(11).replace(b"/11", path)))
        for path in (b"/10", b"/10c"):
            asked = get(10).replace(b"/10", path)
            is_whole = until(lambda asked=asked: gate.ask(asked) == passed_on(b"y" * 10))
            self.judge(f"an answer at the bound, {path!r}", True, is_whole)
        found = gate.metrics()
        self.judge("the limit", (4, 0), (found["limit"], found["outcomes_total"]["dropped"]))
        self.judge("ignored answers", True, found["outcomes_total"]["ignored"] >= 2)
        backend.release.set()
        self.judge("those who held the rest", [EMPTY] * 2, [it.result() for it in held])
        whole = until(lambda: gate.ask(get(EIGHT)) == passed_on(b"y" * EIGHT))
        self.judge("the greatest answer", True, whole)
        backend.close()

    def counts_what_arrives(self, _backend: Backend) -> None:
        """A body that is announced takes nothing, one that has come takes its bytes while the rest is waited for, and
        who leaves in the middle gives them back."""
        backend = Sized()
        gate = self.bounded(backend, workers=6)
        whole = post("/", EIGHT)
        slow = [gate.connect() for _ in range(4)]
        for client in slow:
            client.sendall(whole[: -EIGHT + 1])
        self.judge("beside four who only announce", EMPTY, gate.ask(whole))
        for client in slow[:2]:
            client.sendall(whole[-EIGHT + 1 : -HALF])
        # Each of them has all but the last bytes of its body with the gateway.
        left = 2 * HALF
        self.judge("more than they leave", True, until(lambda: gate.ask(post("/", left)) == UNHELD))
        for client in slow:
            client.close()
        self.judge("once they have left", True, until(lambda: gate.ask(whole) == EMPTY))
        again = [Later(gate.ask, whole) for _ in range(2)]
        self.judge("as many bytes again", [EMPTY] * 2, [it.result() for it in again])
        backend.close()
