"""Cases of `tests/serve` on what the log tells while a gateway serves: reports, and troubles once a spell."""
import contextlib
import fcntl
import os
import pathlib
import re
import signal
import socket
import subprocess
import threading
import time
import typing

from loopback import BODY, Backend, Gateway, Later, Scripted, read_head
from running import PATIENCE, closed_port, until
from served import Served
from sockets import MUCH, PLAIN, TRIES, passed_on
from wires import local, reset

# At a full gateway one that is refused, one that passes the limit, and one for each status of a fault of reading.
OF_EACH_ANSWER = (
    PLAIN,
    b"GET /health HTTP/1.1\r\nHost: h\r\n\r\n",
    b"GET / HTTP/1.1\r\n\r\n",
    b"TRACE / HTTP/1.1\r\nHost: h\r\n\r\n",
    b"POST / HTTP/1.1\r\nHost: h\r\nContent-Length: 8388609\r\n\r\n",
    b"GET / HTTP/1.1\r\nHost: h\r\n" + b"X: y\r\n" * 101 + b"\r\n",
)
REPORT = "[INFO  admission] report "
UNREACHED = "[WARN  admission] the backend can't be reached "
BROKEN = "[WARN  admission] the backend broke an answer "
NO_DESCRIPTOR = "[WARN  admission] no descriptor was free "
# Words of the warnings on workers and on what they may have.
OF_WORKERS = ("exceed", "are taken", "too few")
# The names of a report's numbers, those of two classes among them.
NAMES = (
    "limit inflight waiters granted busy class.live class.batch class.unknown admitted bypassed full backlog "
    "waiting promoted timed-out success ignored dropped 400 413 429 431 500 501 502 504 open idle opened reused stale "
    "clients.silent clients.idle clients.opened clients.reused clients.late clients.displaced"
).split()


def lines_of(gate: Gateway, begin: str) -> list[str]:
    """The lines of a gateway's log that begin so."""
    return [line for line in gate.log if line.startswith(begin)]


def reports(gate: Gateway) -> list[dict[str, str]]:
    """The reports of a gateway's log, each by the names of its numbers in their order."""
    return [dict(it.split("=") for it in line[len(REPORT) :].split()) for line in lines_of(gate, REPORT)]


def told_of(gate: Gateway, begin: str) -> list[tuple[int, str]]:
    """How often a trouble came whose lines begin so, by each of them, with the words behind that."""
    found = [re.fullmatch(rf"{re.escape(begin)}count=(\d+) (.*)", it) for it in lines_of(gate, begin)]
    return [(int(it[1]), it[2]) for it in found if it]


def ends_of(gate: Gateway) -> list[tuple[str, int]]:
    """The troubles that are told to be over, each with how often it came since its last line."""
    found = [re.fullmatch(r"\[INFO  admission\] a trouble is over trouble=(\S+) count=(\d+)", it) for it in gate.log]
    return [(it[1], int(it[2])) for it in found if it]


def troubles(gate: Gateway, count: int) -> list[str]:
    """The warnings of a gateway's log, but those of its workers, once there are so many."""

    def found() -> list[str]:
        return [it for it in gate.log if "WARN" in it and not any(words in it for words in OF_WORKERS)]

    until(lambda: len(found()) >= count)
    return found()


def waits_to_write(process: subprocess.Popen[str]) -> bool:
    """Whether a thread of a process waits for a pipe that takes no more."""
    with contextlib.suppress(OSError):
        return any("pipe" in it.read_text() for it in pathlib.Path(f"/proc/{process.pid}/task").glob("*/wchan"))
    return False


def fill(write_end: int) -> None:
    """Writes into a pipe until it takes no more."""
    os.set_blocking(write_end, False)
    with contextlib.suppress(BlockingIOError):
        while os.write(write_end, b"x" * 4096):
            pass
    os.set_blocking(write_end, True)


class Telling(Served):
    """Cases on what the log tells."""

    def reports(self, backend: Backend) -> None:
        """Every second a line tells the state, whose numbers add up with what was asked; it ends with the workers."""
        settings = "\n".join(
            (
                "wait = false",
                "",
                '[limit]\nkind = "fixed"\ninitial = 2',
                '[[class]]\nname = "live"\npercent = 60',
                '[[class]]\nname = "batch"\npercent = 30',
                '[[resolver]]\nkind = "header"\nheader = "X-Class"',
                '[[bypass]]\nkind = "prefix"\nprefix = "/health"',
            )
        )
        gate = self.gateway(backend, settings, workers=4, each=6, words=("--report-seconds", "1"))
        held = [Later(gate.ask, b"GET /held HTTP/1.1\r\nHost: h\r\nX-Class: live\r\n\r\n") for _ in range(2)]
        for _ in held:
            self.judge("one is at the backend", True, backend.held.acquire(timeout=PATIENCE))
        for text in OF_EACH_ANSWER:
            gate.ask(text)
        wanted = dict.fromkeys(NAMES, "0") | {
            "limit": "2",
            "inflight": "2",
            "busy": "2/4",
            "class.live": "2/2",
            "class.batch": "0/1",
            "admitted": "2",
            "bypassed": "1",
            "full": "1",
            "400": "1",
            "413": "1",
            "429": "1",
            "431": "1",
            "501": "1",
            "open": "2",
            "opened": "3",
            "clients.opened": "8",
        }
        self.judge("a report with all of it", True, until(lambda: wanted in reports(gate)))
        self.judge("the names in their order", [NAMES], [list(it) for it in reports(gate)[-1:]])
        backend.release.set()
        self.judge("those who were at the backend", [passed_on(BODY)] * 2, [it.result() for it in held])
        for path in (b"/closes", b"/garbage", b"/busy"):
            gate.ask(b"GET %s HTTP/1.1\r\nHost: h\r\n\r\n" % path)
        wanted |= {
            "inflight": "0",
            "busy": "0/4",
            "class.live": "0/2",
            "admitted": "5",
            "success": "2",
            "dropped": "3",
            "502": "2",
            "open": "0",
            "opened": "6",
            "clients.opened": "11",
        }
        self.judge("a report after that", True, until(lambda: wanted in reports(gate)))
        begun, count = time.monotonic(), len(reports(gate))
        time.sleep(3)
        more, seconds = len(reports(gate)) - count, time.monotonic() - begun
        self.judge("a report a second", True, 2 <= more <= seconds + 1 or (more, seconds))
        for _ in range(13):
            gate.ask(PLAIN)
        self.judge(
            "counters of what was reported",
            {"admitted": 18, "bypassed": 1, "full": 1, "success": 15, "dropped": 3},
            gate.ending(),
        )
        self.judge("it ended with its workers", True, time.monotonic() - begun < PATIENCE)

    def reports_until_a_stop(self, backend: Backend) -> None:
        """A stop loses at most a second of counters; without the option nothing is reported."""
        gate = self.gateway(backend, workers=2, each=1_000_000, words=("--report-seconds", "1"))
        quiet = self.gateway(backend, workers=1, each=1_000_000)
        for _ in range(5):
            gate.ask(PLAIN)
            quiet.ask(PLAIN)
        time.sleep(1.5)
        gate.process.send_signal(signal.SIGTERM)
        gate.process.wait(PATIENCE)
        gate.reader.join(PATIENCE)
        self.judge("what was counted before the stop", ["5"], [it["success"] for it in reports(gate)[-1:]])
        self.judge("reports that nobody asked for", [], reports(quiet))

    def tells_troubles(self, backend: Backend) -> None:
        """Refused connections and broken answers are told once in ten seconds, with their count, and at their end."""
        gate = Gateway(self.program, self.room, closed_port(), workers=2, each=1_000_000)
        other = self.gateway(backend, workers=2, each=1_000_000)
        began, asked_for = time.monotonic(), 0
        while time.monotonic() < began + 10.5:
            gate.ask(PLAIN)
            other.ask(b"GET /garbage HTTP/1.1\r\nHost: h\r\n\r\n")
            asked_for += 1
            time.sleep(0.2)
        for it in (gate, other):
            self.judge("what is over while it comes", [], ends_of(it))
        for _ in range(3):
            gate.ask(PLAIN)
            other.ask(b"GET /closes HTTP/1.1\r\nHost: h\r\n\r\n")
        for what, it, line, word, causes in (
            ("refused connections", gate, UNREACHED, "unreached", {"error=Connection refused (os error 111)"}),
            ("broken answers", other, BROKEN, "broken", {"cause=malformed", "cause=cut off"}),
        ):
            ended = time.monotonic()
            until(lambda it=it: ends_of(it), seconds=20)
            told, ends = told_of(it, line), ends_of(it)
            counts = [count for count, _ in told]
            # The first one, and one for each ten seconds.
            most = 1 + (ended - began) // 10
            self.judge(f"how often {what} are told", (1, True), (counts[0], 2 <= len(told) <= most))
            self.judge(f"the causes of {what}", True, causes >= {why for _, why in told})
            self.judge(f"what is over of {what}", [word], [word for word, _ in ends])
            self.judge(f"how many {what} are told", asked_for + 3, sum(counts) + sum(count for _, count in ends))
        gate.ask(PLAIN)
        until(lambda: told_of(gate, UNREACHED)[-1][0] == 1)
        self.judge("the first one behind the end", 1, told_of(gate, UNREACHED)[-1][0])
        self.judge("what is over then", 1, len(ends_of(gate)))

    def tells_each_trouble(self, backend: Backend) -> None:
        """A trouble is reported whatever else was told a moment ago; and one that doesn't come isn't."""

        def breaks(client: socket.socket) -> None:
            client.recv(1024)
            reset(client)

        scripted = Scripted(backend.serve)
        gate = self.gateway(scripted, each=1_000_000)
        gate.ask(b"GET /garbage HTTP/1.1\r\nHost: h\r\n\r\n")
        scripted.close()
        gate.ask(PLAIN)
        self.judge(
            "troubles of two kinds",
            [f"{BROKEN}count=1 cause=malformed", f"{UNREACHED}count=1 error=Connection refused (os error 111)"],
            troubles(gate, 2),
        )
        scripted = Scripted(breaks)
        gate = self.gateway(scripted)
        gate.ask(b"POST / HTTP/1.1\r\nHost: h\r\nContent-Length: %d\r\n\r\n%s" % (len(MUCH), MUCH))
        self.judge(
            "a request that isn't taken",
            [f"{BROKEN}count=1 cause=closed before the request was written"],
            troubles(gate, 1),
        )
        scripted.close()

    def counts_answers_that_nobody_reads(self, _: Backend) -> None:
        """An answer of the gateway's own is reported also where its client has gone."""
        held, release = threading.Event(), threading.Event()

        def closes_late(client: socket.socket) -> None:
            read_head(client)
            held.set()
            release.wait(PATIENCE)

        scripted = Scripted(closes_late)
        gate = self.gateway(scripted, each=1_000_000, words=("--report-seconds", "1"))
        client = gate.connect()
        client.sendall(PLAIN)
        self.judge("one is at the backend", True, held.wait(PATIENCE))
        reset(client)
        release.set()
        self.judge("a report of its answer", True, until(lambda: [it["502"] for it in reports(gate)][-1:] == ["1"]))
        scripted.close()

    def serves_beside_a_full_log(self, _: Backend) -> None:
        """A log that takes no more holds whoever tells of a trouble, and no other worker. There are more workers than
        clients, since who takes the last free one tells that too."""
        read_end, write_end = os.pipe()
        fcntl.fcntl(write_end, fcntl.F_SETPIPE_SZ, 4096)
        gate = Gateway(self.program, self.room, closed_port(), workers=8, each=1_000_000, log_to=write_end)
        told = b""
        while b"listening" not in told and (piece := os.read(read_end, 4096)):
            told += piece
        fill(write_end)
        first = Later(gate.ask, PLAIN)
        until(lambda: waits_to_write(gate.process))
        others = [gate.ask(b"GET / HTTP/1.1\r\n\r\n") for _ in range(20)]
        self.judge("others meanwhile", [local(400)] * 20, others)
        self.judge("who tells of it waits", None, first.found)
        drain = Later(os.read, read_end, 65536)
        self.judge("it is served behind that", local(502), first.result())
        drain.result()
        gate.process.kill()
        os.close(read_end)
        os.close(write_end)

    def reports_in_time(self, backend: Backend) -> None:
        """Nothing is reported before the first time has gone by, and the last worker's end ends the reports at once."""
        took = []
        for turn in range(TRIES):
            gate = self.gateway(backend, words=("--report-seconds", "3600"))
            begun = time.monotonic()
            self.judge(f"one of a gateway that reports seldom, {turn}", passed_on(BODY), gate.ask(PLAIN))
            self.judge(
                f"counters of a gateway that reports seldom, {turn}", {"admitted": 1, "success": 1}, gate.ending()
            )
            took.append(time.monotonic() - begun)
            self.judge(f"reports in its first hour, {turn}", [], reports(gate))
        self.judge("it ended in less than a second", True, min(took) < 0.9)

    def warns_of_descriptors(self, _: Backend) -> None:
        """Whether workers exceed the descriptors is told by the limit that holds."""
        for soft, count in ((135, 1), (136, 0)):
            front = ("sh", "-c", f'ulimit -Sn {soft} && exec "$@"', "sh")
            gate = Gateway(self.program, self.room, closed_port(), "backlog = 0", workers=64, front=front)
            wanted = [
                "[WARN  admission] too few descriptors for the workers: requests are answered 502, or not at all "
                f"descriptors={soft} wanted=136"
            ] * count
            self.judge(f"warnings at {soft} descriptors", wanted, [it for it in gate.log if "WARN" in it])

    def warns_of_routes(self, backend: Backend) -> None:
        """Routes that don't match what they seem to are told as it begins, each with its resolver, and no others."""
        rules = '[[class]]\nname = "live"\npercent = 10\n[[resolver]]\nkind = "header"\nheader = "A"\n'
        rules += '[[resolver]]\nkind = "route"\nroutes = { "/live/*" = "live", "/{a}" = "live", "live/.." = "live" }\n'
        gate = self.gateway(backend, f'backlog = 0\n\n[limit]\nkind = "fixed"\ninitial = 1\n{rules}', workers=4)
        wanted = [
            f"[WARN  admission] a route doesn't match what it seems to resolver=2 route={route} why=matches {why}"
            for route, why in (
                ("/live/*", "this path alone: {name} stands for one segment, and {*rest} for the rest"),
                ("live/..", "no path: each path begins with /"),
            )
        ]
        self.judge("warnings of its routes", wanted, [it for it in gate.log if "WARN" in it])
        gate.process.kill()

    def tells_of_descriptors(self, backend: Backend) -> None:
        """That no descriptor was free for the backend is reported as that, whosever the limit is."""
        few: dict[str, typing.Any] = {"front": ("sh", "-c", 'ulimit -Sn 6 && exec "$@"', "sh")}
        none: dict[str, typing.Any] = {"variables": {"LD_PRELOAD": self.library, "SOCKET_REFUSED": "2"}}
        for what, how, error in (
            ("of its own", few, "Too many open files (os error 24)"),
            ("of the system", none, "Too many open files in system (os error 23)"),
        ):
            gate = self.gateway(backend, each=1_000_000, **how)
            self.judge(f"without a descriptor {what} for the backend", local(502), gate.ask(PLAIN))
            self.judge(
                f"what is told of a descriptor {what}", [f"{NO_DESCRIPTOR}count=1 error={error}"], troubles(gate, 1)
            )

    def tells_of_clients_without_descriptors(self, backend: Backend) -> None:
        """That no descriptor was free is told, for clients and for the backend alike, and once."""
        front = ("sh", "-c", 'ulimit -Sn 7 && exec "$@"', "sh")
        gate = self.gateway(backend, workers=3, each=1_000_000, front=front, words=("--client-timeout-ms", "60000"))
        with gate.connect(), gate.connect(), gate.connect():
            self.judge("it is told", True, until(lambda: lines_of(gate, NO_DESCRIPTOR)))
            time.sleep(0.5)
        self.judge(
            "with the system's words",
            [f"{NO_DESCRIPTOR}count=1 error=Too many open files (os error 24)"],
            lines_of(gate, NO_DESCRIPTOR),
        )
