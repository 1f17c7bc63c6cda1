"""Cases of `tests/serve` on what is measured of exchanges, compared with what callers saw under load; and on the marks
of the gateway's own answers."""
import re
import socket
import time
from collections import Counter
from collections.abc import Callable
from concurrent.futures import ThreadPoolExecutor
from functools import partial

from loopback import BODY, Backend, Gateway, Later, Listener, keepalive, read_head
from operating import CLASSES, HELD, Operated, Operating
from operator_rows import BOUNDS, UNMEASURED, histogram_faults
from running import PATIENCE, closed_port, until
from sockets import PLAIN, passed_on
from wires import local

OUTCOMES = {200: "success", 500: "ignored", 503: "dropped"}
TIMES = ("permit_wait_seconds", "round_trip_seconds", "exchange_seconds")
# How much longer a caller may count than the gateway does, or shorter, on a machine with other work.
SLACK = 0.2
# A gateway that doesn't mark its answers, and one that does.
WORDS: tuple[list[str], ...] = ([], ["--mark"])


class Timed(Listener):
    """A backend that answers a path of a status and a number of milliseconds so, and then."""

    def serve(self, client: socket.socket) -> None:
        found = re.search(rb"GET (?:/health)?/(\d+)/(\d+) ", read_head(client))
        if found:
            time.sleep(int(found[2]) / 1000)
            client.sendall(b"HTTP/1.1 %s X\r\nContent-Length: 2\r\n\r\nok" % found[1])


def timed_call(gate: Gateway, name: str, status: int, millis: int) -> tuple[int, float]:
    """The status that a caller of a class gets, and how long it took."""
    begun = time.monotonic()
    head = f"GET /{status}/{millis} HTTP/1.1\r\nHost: h\r\nConnection: close\r\nX-Class: {name}\r\n\r\n"
    answer = gate.ask(head.encode())
    return int(answer.split(b" ")[1]), time.monotonic() - begun


def marked(status: int, word: str) -> bytes:
    """The gateway's own answer of this status, with its mark."""
    first, rest = local(status).split(b"\r\n", 1)
    return first + b"\r\nX-Admission: " + word.encode() + b"\r\n" + rest


def unmarked(status: int, _word: str) -> bytes:
    """The same without a mark."""
    return local(status)


class Measuring(Operating):
    """Cases on measures and marks."""

    def measures_what_it_serves(self, _backend: Backend) -> None:
        """Outcomes by class, and histograms of waits, round trips and exchanges, are those that callers saw."""
        slow = Timed()
        limits = f'timeout_ms = 60_000\n\n[limit]\nkind = "fixed"\ninitial = 3\n{CLASSES}'
        gate = self.operated(slow, limits, workers=8)
        fresh = gate.metrics()
        self.judge("times before the first call", [0] * 3, [sum(fresh[it].values()) for it in TIMES])
        calls = [
            (name, status, 30 if place % 3 else 120)
            for place, (name, status) in enumerate(
                (name, status) for _ in range(4) for name in ("live", "batch", "other") for status in OUTCOMES
            )
        ]
        with ThreadPoolExecutor(8) as pool:
            came = list(pool.map(lambda call: timed_call(gate, *call), calls))
        self.judge("statuses under load", [status for _, status, _ in calls], [status for status, _ in came])
        ends = Counter(f"{name.replace('other', 'unknown')},{OUTCOMES[status]}" for name, status, _ in calls)
        wanted = {"busy_workers": 0, "class_outcomes_total": dict(ends)}
        self.judge("outcomes by class", True, gate.shows(**wanted))
        found = gate.metrics()
        waited = (sum(found["class_promoted_total"].values()), True)
        promoted = found["decisions_total"]["promoted"]
        self.judge("those who waited, by class and in all", (promoted, 0 < promoted), waited)
        self.judge("times of so many", [len(calls)] * 3, [found[it]["count"] for it in TIMES])
        self.judge("what is wrong in a histogram", [[]] * 3, [histogram_faults(found[it]) for it in TIMES])
        self.compare_times(found, [millis / 1000 for _, _, millis in calls], [seconds for _, seconds in came])
        gate.ask(b"GET /health/200/30 HTTP/1.1\r\nHost: h\r\n\r\n")
        self.judge("who bypasses has no permit", True, gate.shows(busy_workers=0, class_outcomes_total=dict(ends)))
        counts = [gate.metrics()[it]["count"] for it in TIMES]
        self.judge("but an exchange", [len(calls), len(calls), len(calls) + 1], counts)
        slow.close()

    def counts_who_was_promoted(self, backend: Backend) -> None:
        """A permit that was waited for is counted in the class of its caller, whatever its outcome, and no other is."""
        gate = self.operated(backend, f'timeout_ms = 60_000\n\n[limit]\nkind = "fixed"\ninitial = 1\n{CLASSES}')
        held = Later(gate.ask, b"GET /held HTTP/1.1\r\nHost: h\r\nX-Class: live\r\n\r\n")
        self.judge("one is at the backend", True, backend.held.acquire(timeout=PATIENCE))
        others = []
        for place, path in enumerate((b"X-Class: live", b"X-Class: none", b"X-Class: live")):
            others.append(Later(gate.ask, b"GET / HTTP/1.1\r\nHost: h\r\n%s\r\n\r\n" % path))
            self.judge("one more waits", True, gate.shows(waiting=place + 1))
        self.judge("nobody was promoted", True, gate.shows(class_promoted_total={}))
        backend.release.set()
        self.judge("all are answered", [passed_on(BODY)] * 4, [held.result(), *(it.result() for it in others)])
        ends = {"live,success": 3, "unknown,success": 1}
        counts = {"live": 2, "unknown": 1}
        told = gate.shows(class_promoted_total=counts, class_outcomes_total=ends)
        self.judge("who waited, by class", True, told)

    def tells_what_its_limit_reckons(self, _backend: Backend) -> None:
        """The base, the last window and the queue are those of the answers that came, where the limit knows them."""
        slow = Timed()
        unknown = UNMEASURED | {"limit_set_by_hand": 0}
        vegas = '\n\n[limit]\nkind = "vegas"\ninitial = 8\nmax = 8\n'
        windows = "[window]\nsize = {}\n"
        one = keepalive('\n\n[limit]\nkind = "auto"\ninitial = 1\nmax = 1')
        gate = self.operated(slow, one, workers=4, version=2)
        self.judge("a limit without answers", True, gate.shows(**unknown))
        means = [sum(self.round_trips(gate, 30, 60)) // 2, sum(self.round_trips(gate, 5, 5)) // 2]
        wanted = unknown | {"limit_window_calls": 2, "limit_window_mean_seconds": means[1], "limit_queue": 0}
        self.judge("a limit of two windows", True, gate.shows(**wanted | {"limit_base_seconds": means[1]}))
        gate.call("POST /reset")
        self.judge("a limit that was reset", True, gate.shows(**unknown))
        gate = self.operated(slow, vegas)
        trips = self.round_trips(gate, 30, 120)
        queue = -(-8 * (trips[1] - trips[0]) // trips[1])
        wanted = unknown | {"limit_base_seconds": trips[0], "limit_queue": queue}
        self.judge("a queue before a slow backend", True, gate.shows(**wanted))
        for size in (1, 2):
            gate = self.operated(slow, vegas + windows.format(size))
            first = self.round_trips(gate, 30)[0]
            wanted = unknown | {"limit_window_calls": 1, "limit_window_mean_seconds": first}
            wanted |= {"limit_base_seconds": first, "limit_queue": 0} if size == 1 else {}
            self.judge(f"a window of one answer, of {size} that are wanted", True, gate.shows(**wanted))
        slow.close()

    def round_trips(self, gate: Operated, *millis: int) -> list[int]:
        """How long calls took at the backend, in nanoseconds: one after the other, each answered after so long."""
        found = []
        for each in millis:
            before = gate.metrics()["round_trip_seconds"]
            timed_call(gate, "live", 200, each)
            self.judge("it was measured", True, until(partial(self.has_measured, gate, before["count"] + 1)))
            found.append(gate.metrics()["round_trip_seconds"]["sum"] - before["sum"])
        return found

    def has_measured(self, gate: Operated, count: int) -> bool:
        """Whether so many round trips were measured."""
        return gate.metrics()["round_trip_seconds"]["count"] == count

    def compare_times(self, found: dict[str, dict[str, int]], delays: list[float], seen: list[float]) -> None:
        """The times of a gateway, by the backend's delays and by how long its callers waited in all."""
        waits, trips, exchanges = (found[it] for it in TIMES)
        for bound in BOUNDS:
            most = sum(delay <= float(bound) for delay in delays)
            least = sum(delay <= float(bound) - SLACK for delay in delays)
            within = least <= trips[bound] <= most
            self.judge(f"round trips within {bound} s", True, within or (least, trips[bound], most))
            least = sum(seconds <= float(bound) - SLACK for seconds in seen)
            within = least <= exchanges[bound] <= most
            self.judge(f"exchanges within {bound} s", True, within or (least, exchanges[bound], most))
        sums = [it["sum"] / 1e9 for it in (waits, trips, exchanges)]
        self.judge("round trips as long as the delays", True, sum(delays) <= sums[1] or (sum(delays), sums))
        self.judge("exchanges as long as both", True, sums[0] + sums[1] <= sums[2] or sums)
        self.judge("and no longer than their callers'", True, sums[2] <= sum(seen) + SLACK or (sums, sum(seen)))
        at_once = found["decisions_total"]["admitted"]
        self.judge("who got a permit at once didn't wait", True, at_once <= waits["0.0005"] or (at_once, waits))
        self.judge("others did", True, 0 < found["decisions_total"]["promoted"] and 0.01 < sums[0] or (found, sums))

    def marks_its_answers(self, backend: Backend) -> None:
        """With `--mark` each of the gateway's own answers has its word, and without it none; a backend's has none."""
        limits = f'wait = false\n\n[limit]\nkind = "fixed"\ninitial = 1\n{CLASSES}'
        waiting = 'backlog = 1\ntimeout_ms = 300\n\n[limit]\nkind = "fixed"\ninitial = 1'
        for words in WORDS:
            answer = marked if words else unmarked
            gate = self.operated(backend, limits, workers=3, words=words)
            self.tells_why(gate, words, answer)
            self.holds_one(backend, gate)
            self.judge(f"a full gate {words}", answer(429, "full"), gate.ask(PLAIN))
            self.lets_go(backend)
            gate = self.operated(backend, waiting, workers=3, words=words)
            self.holds_one(backend, gate)
            first = Later(gate.ask, PLAIN)
            self.judge(f"one waits {words}", True, gate.shows(waiting=1))
            self.judge(f"a full backlog {words}", answer(429, "backlog"), gate.ask(PLAIN))
            self.judge(f"one that waited in vain {words}", answer(429, "waited"), first.result())
            self.lets_go(backend)
            late = Backend()
            gate = self.operated(late, "", workers=2, words=[*words, "--backend-timeout-ms", "200"])
            self.judge(f"an answer that is late {words}", answer(504, "late"), gate.ask(HELD))
            late.close()
            alone = Gateway(self.program, self.room, closed_port(), "", each=1, words=words)
            self.judge(f"no backend {words}", answer(502, "unreached"), alone.ask(PLAIN))

    def tells_why(self, gate: Operated, words: list[str], answer: Callable[[int, str], bytes]) -> None:
        """The answers of a gateway with room, before a backend that is there."""
        self.judge(f"a response {words}", passed_on(BODY), gate.ask(PLAIN))
        for path in (b"/closes", b"/garbage"):
            request = b"GET %s HTTP/1.1\r\nHost: h\r\n\r\n" % path
            self.judge(f"a broken answer {words} {path!r}", answer(502, "broken"), gate.ask(request))
        for status, request in (
            (400, b"GET / HTTP/1.1\r\n\r\n"),
            (501, b"TRACE / HTTP/1.1\r\nHost: h\r\n\r\n"),
            (413, b"POST / HTTP/1.1\r\nHost: h\r\nContent-Length: 8388609\r\n\r\n"),
            (431, b"GET / HTTP/1.1\r\nHost: h\r\n" + b"X: y\r\n" * 101 + b"\r\n"),
        ):
            self.judge(f"a request that can't be read {words} {status}", answer(status, "unread"), gate.ask(request))
        own = b"X-Admission: mine\r\n"
        sent = passed_on(BODY).replace(b"\r\n", b"\r\n" + own, 1)
        asked = b"GET /marked HTTP/1.1\r\nHost: h\r\n\r\n"
        self.judge(f"a backend's own line {words}", sent, gate.ask(asked))

    def holds_one(self, backend: Backend, gate: Operated) -> None:
        """One call is held at the backend."""
        backend.release.clear()
        Later(gate.ask, HELD)
        self.judge("one is held", True, backend.held.acquire(timeout=PATIENCE))

    def lets_go(self, backend: Backend) -> None:
        """Those that are held are answered."""
        backend.release.set()
