"""Cases of `tests/serve` and `tests/fronts` on a drain and a start while clients come: none of them is lost."""

import collections
import contextlib
import functools
import http.client
import itertools
import re
import shutil
import socket
import subprocess
import threading
import time
import typing
from collections.abc import Callable

from fronting import TOP, Fronts, Origin, status
from judging import counts_of
from loopback import BODY, Backend, Later, read_all
from operating import HELD, Operated, Operating, or_refused
from operator_rows import DRAINED, told
from running import PATIENCE, free_port, until
from sockets import PLAIN, TRIES, passed_on, timed, tried, unbroken

# Clients that wait to be accepted as a gateway drains, and callers that come across drains and starts.
QUEUED, CALLERS = 20, 8
# How often a gateway is drained and started anew while callers come, and how many calls come before each drain.
RESTARTS, CALLS = 3, 50
# For how long requests come behind a front meanwhile.
SECONDS = 10
# How many requests come across a restart behind HAProxy, how long each caller rests between two, for how many seconds
# the gateway that is stopped accepts requests, and for how many it is then away, as the unit's RestartSec has it.
ACROSS, REST, AFTER, AWAY = 420, 0.12, 3, 2
# How often a case is tried that may fail by chance, seldom.
FEW = 3


def is_let_in(port: int) -> bool:
    """Whether a client comes to be connected within a moment."""
    try:
        socket.create_connection(("127.0.0.1", port), timeout=0.5).close()
    except TimeoutError:
        return False
    return True


class Callers:
    """Threads that call one after the other, each call with its number, up to so many or to the end; `answers` has what
    each was answered, but for calls that were answered None."""

    def __init__(self, call: Callable[[int], object], most: int | None = None) -> None:
        self.call, self.most = call, most
        self.answers: list[object] = []
        self.numbers, self.is_over = itertools.count(), threading.Event()
        self.callers = [Later(self.run) for _ in range(CALLERS)]

    def run(self) -> None:
        for number in self.numbers:
            if self.is_over.is_set() or (self.most is not None and number >= self.most):
                return
            answer = self.call(number)
            if answer is not None:
                self.answers.append(answer)

    def have(self, more: int) -> bool:
        """Whether so many more calls come to be answered."""
        before = len(self.answers)
        return until(lambda: len(self.answers) >= before + more)

    def counted(self) -> dict[object, int]:
        """How often there was each answer, once no caller calls any more."""
        if self.most is None:
            self.is_over.set()
        for it in self.callers:
            it.thread.join(10 * PATIENCE)
        return dict(collections.Counter(self.answers))


class Restarting(Operating):
    """Cases on drains and starts."""

    def serves_its_queue(self, backend: Backend) -> None:
        """Who waits to be accepted as a drain begins is served, also where that takes longer than half a second, from
        which on nobody joins them. A client that came to be let in before has left by then."""
        gate = self.operated(backend, workers=1, words=("--client-timeout-ms", "60000"))
        held = Later(gate.ask, HELD)
        self.judge("one is at the backend", True, backend.held.acquire(timeout=PATIENCE))
        with contextlib.ExitStack() as stack:
            queued = [stack.enter_context(gate.connect()) for _ in range(QUEUED)]
            for client in queued:
                client.sendall(PLAIN)
            drain = Later(gate.call, "POST /drain")
            self.judge("nobody joins them in the end", True, until(lambda: not is_let_in(gate.port)))
            self.judge("the drain waits with the queue", None, drain.found)
            backend.release.set()
            self.judge("who was inside", passed_on(BODY), held.result())
            self.judge("who was queued", [passed_on(BODY)] * QUEUED, [read_all(it) for it in queued])
        self.judge("the drain behind them", told(DRAINED), drain.result())
        self.judge("counters of the queue", {"admitted": QUEUED + 1, "success": QUEUED + 1}, gate.ending())

    def waits_no_longer_for_its_queue(self, backend: Backend) -> None:
        """For a queue that stays a drain waits as long as a client may take: five seconds by the clock."""
        took = tried(functools.partial(self.time_of_a_drain, backend), 5.9)
        self.judge("it waited for five seconds", True, 5 <= min(took) < 5.9 or took)

    def time_of_a_drain(self, backend: Backend) -> float:
        """How long a drain takes before a queue that stays, where a client may take five seconds."""
        gate = self.operated(backend, workers=1, words=("--client-timeout-ms", "5000"))
        backend.release.clear()
        held = Later(gate.ask, HELD)
        self.judge("one is at the backend", True, backend.held.acquire(timeout=PATIENCE))
        with gate.connect() as queued:
            queued.sendall(PLAIN)
            answer, took = timed(gate.call, "POST /drain")
            self.judge("a drain before a queue that stays", told(DRAINED), answer)
            backend.release.set()
            self.judge("who was inside then", passed_on(BODY), held.result())
        self.judge("counters behind that", {"admitted": 1, "success": 1}, gate.ending())
        return took

    def takes_who_comes_at_once(self, backend: Backend) -> None:
        """Within the half second that the queue is left alone whoever comes is served; who comes later is refused."""
        found = [self.answer_of_a_late_client(backend) for _ in range(TRIES)]
        self.judge("who came", True, passed_on(BODY) in found and {*found} <= {passed_on(BODY), "refused"})

    def answer_of_a_late_client(self, backend: Backend) -> bytes | str:
        """What a client is answered that comes while a drain waits with another one, whom no worker has accepted."""
        gate = self.operated(backend, workers=1, words=("--client-timeout-ms", "60000"))
        backend.release.clear()
        held = Later(gate.ask, HELD)
        self.judge("one is at the backend", True, backend.held.acquire(timeout=PATIENCE))
        with gate.connect() as queued:
            queued.sendall(PLAIN)
            drain = Later(gate.call, "POST /drain")
            self.judge("it drains", True, until(lambda: any("the operator drains" in it for it in gate.log)))
            late = Later(or_refused, gate.ask, PLAIN)
            # Nothing outside shows that it has come.
            time.sleep(0.1)
            backend.release.set()
            self.judge("those before it", [passed_on(BODY)] * 2, [held.result(), read_all(queued)])
        self.judge("the drain behind them", told(DRAINED), drain.result())
        count = 2 + (late.result() != "refused")
        self.judge("counters of who came", {"admitted": count, "success": count}, gate.ending())
        return late.result()

    def loses_nobody_across_starts(self, backend: Backend) -> None:
        """Callers who try again where nobody listens are all served, once each, while the gateway is drained and
        started anew at its address. Who connects between a drain's last look and its close is reset, which is seldom.
        """
        served = (passed_on(BODY), None)
        for _ in range(FEW):
            before = len(backend.given)
            answers, counted = self.answers_across_starts(backend)
            count = answers.pop(served, 0)
            self.judge("what was forwarded, and counted", (count, count), (len(backend.given) - before, counted))
            if not answers:
                break
        self.judge("what callers were answered but that, in the last of a few tries", {}, answers)

    def answers_across_starts(self, backend: Backend) -> tuple[dict[object, int], int]:
        """How often callers got each answer across a few drains and starts, and how many were counted as served."""
        gate, counted = self.operated(backend), 0
        address = ("127.0.0.1", gate.port)

        def call(_: int) -> object:
            time.sleep(0.002)
            with contextlib.suppress(ConnectionRefusedError):
                with socket.create_connection(address, timeout=PATIENCE) as client:
                    return unbroken(client, PLAIN)
            return None

        callers = Callers(call)
        for turn in range(RESTARTS):
            self.judge(f"calls before a drain, {turn}", True, callers.have(CALLS))
            counted += self.drained(gate)
            gate = gate.again()
        self.judge("calls behind the last start", True, callers.have(CALLS))
        answers = callers.counted()
        return answers, counted + self.drained(gate)

    def drained(self, gate: Operated) -> int:
        """How many a gateway served by its counters, once it was drained."""
        self.judge("a drain while callers come", told(DRAINED), gate.call("POST /drain"))
        found: typing.Any = gate.ending()
        self.judge("its counters", True, found.get("admitted") == found.get("success"))
        return found.get("success", 0)


class Pair:
    """Two gateways with addresses for their operators behind examples/front/fleet.conf, and what they served so far."""

    def __init__(self, fronts: Fronts) -> None:
        self.fronts, self.origin, self.served = fronts, Origin(), 0
        self.operators = [f"127.0.0.1:{free_port()}" for _ in range(2)]
        self.gateways = [self.started(it) for it in self.operators]
        self.port, servers = free_port(), fronts.room / "drained-servers.conf"
        servers.write_text("".join(f"server 127.0.0.1:{it} max_fails=0;\n" for _, it in self.gateways))
        swaps = {"127.0.0.1:8000": f"127.0.0.1:{self.port}", "/etc/nginx/gateways.conf": servers}
        fronts.nginx("fleet.conf", self.port, swaps)

    def started(self, operator: str, port: int | None = None) -> tuple[subprocess.Popen, int]:
        tables = 'wait = false\n[limit]\nkind = "fixed"\ninitial = 40\n'
        return self.fronts.gateway(self.origin.port, tables, port, words=("--admin", operator))

    def drain(self, place: int) -> tuple[int, str, int, bool]:
        """Drains one of them as its unit does, and says how that and the gateway ended."""
        process, _ = self.gateways[place]
        words = [str(TOP / "packaging/admission-drain"), self.operators[place], "--pid", str(process.pid)]
        done = subprocess.run(words, capture_output=True, text=True)
        written, _ = process.communicate(timeout=PATIENCE)
        ended, counts = process.returncode, counts_of(written) or {}
        self.served += counts.get("success", 0)
        return done.returncode, done.stderr, ended, counts.get("admitted") == counts.get("success")

    def restart(self, place: int) -> tuple[int, str, int, bool]:
        """Drains one, and starts another one at its addresses."""
        found = self.drain(place)
        self.gateways[place] = self.started(self.operators[place], self.gateways[place][1])
        return found

    def ask(self, number: int) -> int | str:
        """The status of a request through the front, or the name of what went wrong."""
        method, body = (("GET", None), ("POST", b"a"))[number % 2]
        try:
            return status(self.port, "/a", method, body, None, False)
        except (OSError, http.client.HTTPException) as why:
            return type(why).__name__


def requests_across_drains(fronts: Fronts, requests: int | None) -> dict[object, int]:
    """How often requests got another answer than 200 while two gateways behind a front are drained and started anew in
    turn: so many requests, or some seconds of them, and each gateway is drained once at least."""
    pair, end = Pair(fronts), time.monotonic() + SECONDS
    callers = Callers(pair.ask, requests)
    ends: list[tuple[int, str, int, bool]] = []
    while len(ends) < 2 or (len(callers.answers) < requests * 9 // 10 if requests else time.monotonic() < end):
        ends.append(pair.restart(len(ends) % 2))
    answers, drains = callers.counted(), len(ends)
    ends += [pair.drain(place) for place in range(2)]
    count = answers.pop(200, 0)
    fronts.judge("how each drain ended", {(0, "", 0, True)}, {*ends})
    fronts.judge(
        f"of {len(callers.answers)} requests across {drains} drains, each that was served was sent and counted once",
        (count, count),
        (len(pair.origin.paths()), pair.served),
    )
    pair.origin.close()
    return answers


def across_drains(fronts: Fronts, requests: int | None = None) -> None:
    """No request is lost behind a front, but for a POST that comes between a drain's last look and its close."""
    fronts.group = "drain"
    for _ in range(FEW):
        lost = requests_across_drains(fronts, requests)
        if not lost:
            break
        fronts.stop_all()
    fronts.judge("none was lost, in the last of a few tries", {}, lost)


class Balanced:
    """Gateways behind examples/front/haproxy.cfg: the first one is stopped and started as its unit does it."""

    def __init__(self, fronts: Fronts, count: int) -> None:
        self.fronts, self.origin = fronts, Origin()
        self.folder = fronts.room / f"balanced-{free_port()}"
        self.folder.mkdir()
        for name in ("admission-run", "admission-drain"):
            shutil.copy(TOP / "packaging" / name, self.folder)
        (self.folder / "admission").symlink_to(fronts.program)
        # Of each its port, its operator's address and its port for balancers.
        self.places = [(free_port(), f"127.0.0.1:{free_port()}", free_port()) for _ in range(count)]
        self.gateways = [self.started(it) for it in self.places]
        self.port = free_port()
        self.start_front()

    def started(self, place: tuple[int, str, int]) -> subprocess.Popen:
        port, operator, checked = place
        config = self.folder / f"{port}.toml"
        config.write_text(
            f'version = 2\nlisten = "127.0.0.1:{port}"\nbackend = "127.0.0.1:{self.origin.port}"\n'
            '[limit]\nkind = "fixed"\ninitial = 20\n',
            encoding="utf-8",
        )
        run = [self.folder / "admission-run", "--after", str(AFTER), "--wait", "50", config, "--exchanges", "1024"]
        words = [str(it) for it in (*run, "--admin", operator, "--status", f"127.0.0.1:{checked}")]
        process = self.fronts.start(*words, stdout=subprocess.PIPE, text=True)
        self.fronts.wait_for(port, process)
        return process

    def start_front(self) -> None:
        lines = [f"server gateway{port} 127.0.0.1:{port} check port {checked}" for port, _, checked in self.places]
        swaps = {
            "bind :443 ssl crt /etc/haproxy/www.example.com.pem alpn h2,http/1.1": f"bind 127.0.0.1:{self.port}",
            "log /dev/log local0": "",
            "server gateway 127.0.0.1:8080 check port 9902": "\n    ".join(lines),
            "server unchecked 127.0.0.1:8080": f"server unchecked 127.0.0.1:{self.places[0][0]}",
        }
        front = self.fronts.start("haproxy", "-f", str(self.fronts.configured("haproxy.cfg", swaps)), "-db")
        self.fronts.wait_for(self.port, front)

    def ask(self, number: int) -> int | str:
        """The status of a request through the front, or the name of what went wrong."""
        time.sleep(REST)
        method, body = (("GET", None), ("POST", b"a"))[number % 2]
        try:
            return status(self.port, "/a", method, body, None, False)
        except (OSError, http.client.HTTPException) as why:
            return type(why).__name__

    def admitted(self) -> str:
        """How many the first gateway has let in, at its address for balancers."""
        with socket.create_connection(("127.0.0.1", self.places[0][2]), timeout=PATIENCE) as client:
            client.sendall(b"GET /metrics HTTP/1.0\r\n\r\n")
            (count,) = re.findall(rb'_total\{decision="admitted"\} (\d+)', read_all(client))
            return count.decode()

    def restart(self) -> tuple[int | None, float, bool, bool]:
        """Stops the first gateway by a signal, and starts it again: its status, how long the stop took, whether each of
        its requests was served, and whether it was left alone in the end, while it still accepted requests."""
        begun, process = time.monotonic(), self.gateways[0]
        process.terminate()
        time.sleep(AFTER - 1)
        before = self.admitted()
        time.sleep(0.7)
        is_alone = before == self.admitted()
        written, _ = process.communicate(timeout=3 * PATIENCE)
        took, counts = time.monotonic() - begun, counts_of(written) or {}
        time.sleep(AWAY)
        self.gateways[0] = self.started(self.places[0])
        return process.returncode, took, counts.get("admitted") == counts.get("success"), is_alone


def requests_across_a_stop(fronts: Fronts, count: int) -> dict[object, int]:
    """How often requests got another answer than 200 while the first of so many gateways was stopped and started."""
    balanced = Balanced(fronts, count)
    callers = Callers(balanced.ask)
    fronts.judge("requests before", True, callers.have(ACROSS // 4))
    ended, took, is_served, is_alone = balanced.restart()
    fronts.judge("requests behind", True, until(lambda: len(callers.answers) >= ACROSS))
    answers = callers.counted()
    served = answers.pop(200, 0)
    fronts.judge("how it ended, by itself", (0, True), (ended, is_served))
    fronts.judge("whether it was left alone before, since another one served", count > 1, is_alone)
    fronts.judge("how long that took", True, AFTER <= took < AFTER + 10)
    fronts.judge(f"{served} requests were sent once", served, len(balanced.origin.paths()))
    balanced.origin.close()
    fronts.stop_all()
    return answers


def lame_duck(fronts: Fronts) -> None:
    """No request is lost behind HAProxy as its only gateway, or one of two, is stopped and back two seconds later, but
    for one that comes to the only gateway between a drain's last look and its close."""
    for count in (1, 2):
        fronts.group = f"a stop of one gateway of {count}"
        for _ in range(FEW):
            lost = requests_across_a_stop(fronts, count)
            if not lost:
                break
        fronts.judge("none was lost, in the last of a few tries", {}, lost)
