"""Cases of `tests/serve` on clients that have sent nothing: they wait, and hold no worker."""
import contextlib
import resource
import select
import socket
import time

from loopback import BODY, Backend, Gateway, Later, read_all
from operating import Operated, Operating
from operator_rows import DRAINED, told
from running import PATIENCE, until
from sockets import PLAIN, passed_on, timed, tried
from wires import reset

# As many as a front may hold, and how many of them a gateway keeps at most.
CROWD, PLACES = 9_000, 1_000
WORKERS = 64
# As many as may connect before one of them is accepted.
BURST = 300
# Well within the second for which a silent client held a worker once.
AT_ONCE = 0.5
PATIENT = ("--client-timeout-ms", "60000")
# More descriptors than places and workers want.
MANY = ("sh", "-c", 'ulimit -Sn 4096 && exec "$@"', "sh")


def has_ended(client: socket.socket) -> bool:
    """Whether a connection was closed by the other side, which has sent nothing."""
    poll = select.poll()
    poll.register(client, select.POLLIN)
    if not poll.poll(0):
        return False
    with contextlib.suppress(ConnectionResetError):
        return not client.recv(1)
    return True


def crowd_of(gate: Gateway, stack: contextlib.ExitStack, count: int) -> list[socket.socket]:
    """So many clients that send nothing, in the order in which they came."""
    return [stack.enter_context(gate.connect()) for _ in range(count)]


def raised_descriptors(wanted: int) -> int:
    """How many descriptors this script may have now, of so many that it wants."""
    soft, hard = resource.getrlimit(resource.RLIMIT_NOFILE)
    most = wanted if hard == resource.RLIM_INFINITY else min(wanted, hard)
    if soft < most:
        resource.setrlimit(resource.RLIMIT_NOFILE, (most, hard))
    return max(soft, most)


class Waiting(Operating):
    """Cases on clients that have sent nothing."""

    def keeps_nobody_out(self, backend: Backend) -> None:
        """As many silent clients as workers, and many more, keep nobody waiting, and are served once they ask."""
        gate = self.gateway(backend, workers=WORKERS, each=1_000_000, words=PATIENT)
        with contextlib.ExitStack() as stack:
            silent = crowd_of(gate, stack, WORKERS)
            took = tried(lambda: timed(gate.ask, PLAIN)[1], AT_ONCE)
            self.judge("one beside as many silent ones", True, took[-1] < AT_ONCE or took)
            silent += crowd_of(gate, stack, WORKERS)
            self.judge("one beside more", passed_on(BODY), gate.ask(PLAIN))
            time.sleep(1.5)
            self.judge("none was let go", [], [it for it in silent if has_ended(it)])
            for client in silent[:: WORKERS // 2]:
                client.sendall(PLAIN)
                self.judge("one that asks at last", passed_on(BODY), read_all(client))
            # A head in pieces, of one that waited.
            for piece in (PLAIN[:5], PLAIN[5:20], PLAIN[20:]):
                silent[1].sendall(piece)
                time.sleep(0.05)
            self.judge("one that asks in pieces", passed_on(BODY), read_all(silent[1]))
            silent[2].shutdown(socket.SHUT_WR)
            self.judge("one that ends without a byte", b"HTTP/1.1 400 ", read_all(silent[2])[:13])

    def serves_a_burst(self, backend: Backend) -> None:
        """All who connect at once are served, whether they ask before they are accepted or a while later."""
        gate = self.gateway(backend, workers=4, each=1_000_000, words=PATIENT)
        with contextlib.ExitStack() as stack:
            clients = []
            for number in range(BURST):
                clients += crowd_of(gate, stack, 1)
                if number % 3:
                    clients[-1].sendall(PLAIN)
            for client in clients[::3]:
                client.sendall(PLAIN)
            found = [read_all(it) for it in clients]
            self.judge("all of a burst", BURST, found.count(passed_on(BODY)))

    def serves_nobody_who_broke_off(self, backend: Backend) -> None:
        """Clients whose connection breaks before they have sent anything take no turn of a worker."""
        gate = Operated(self.program, self.room, backend.port, workers=1, each=1, words=PATIENT)
        with contextlib.ExitStack() as stack:
            silent = crowd_of(gate, stack, BURST)
            self.judge("all of them wait", True, gate.shows(silent_client_connections=BURST))
            for client in silent:
                reset(client)
            self.judge("none of them is left", True, gate.shows(silent_client_connections=0))
        self.judge("one behind them", passed_on(BODY), gate.ask(PLAIN))
        self.judge("counters behind them", {"admitted": 1, "success": 1}, gate.ending())

    def lets_the_longest_go(self, backend: Backend) -> None:
        """Where all places are taken, who has waited longest goes; and a crowd keeps nobody waiting."""
        most = raised_descriptors(CROWD + 500) - 500
        gate = self.gateway(backend, workers=WORKERS, each=1_000_000, words=PATIENT, front=MANY)
        with contextlib.ExitStack() as stack:
            silent = crowd_of(gate, stack, min(CROWD, most))
            kept = min(PLACES, len(silent))
            self.judge("who came first has to go", True, until(lambda: has_ended(silent[0])))
            took = tried(lambda: timed(gate.ask, PLAIN)[1], AT_ONCE)
            self.judge("one beside a crowd", True, took[-1] < AT_ONCE or took)
            until(lambda: sum(not has_ended(it) for it in silent) <= kept)
            stay = [not has_ended(it) for it in silent]
            # One that is served needs a place too, where it is accepted before its request comes.
            self.judge("how many stay", True, kept - len(took) <= sum(stay) <= kept or sum(stay))
            # Workers accept side by side, so those who came one behind the other may change places.
            self.judge("who came last stays", True, all(stay[-kept + 2 * WORKERS :]))
            silent[-1].sendall(PLAIN)
            self.judge("who came last", passed_on(BODY), read_all(silent[-1]))

    def fits_its_descriptors(self, backend: Backend) -> None:
        """There are as many places as descriptors that workers don't want: a crowd takes none of theirs."""
        front = ("sh", "-c", 'ulimit -Sn 50 && exec "$@"', "sh")
        gate = self.gateway(backend, workers=8, each=1_000_000, words=PATIENT, front=front)
        with contextlib.ExitStack() as stack:
            silent = crowd_of(gate, stack, 60)
            self.judge("one beside them", passed_on(BODY), gate.ask(PLAIN))
            until(lambda: sum(not has_ended(it) for it in silent) <= 10)
            stay = sum(not has_ended(it) for it in silent)
            # The one that is served may have needed a place too.
            self.judge("how many stay", True, stay in (9, 10) or stay)
            self.judge("what the log tells", [], [it for it in gate.log if "no descriptor" in it])

    def drains_who_waits(self, backend: Backend) -> None:
        """A drain closes those who wait, and still serves one that has only just come."""
        gate = self.operated(backend, workers=2, words=PATIENT)
        with contextlib.ExitStack() as stack:
            silent = crowd_of(gate, stack, 3)
            time.sleep(1)
            (newcomer,) = crowd_of(gate, stack, 1)
            drain = Later(gate.call, "POST /drain")
            time.sleep(0.2)
            newcomer.sendall(PLAIN)
            self.judge("one that came just before", passed_on(BODY), read_all(newcomer))
            self.judge("a drain beside silent ones", told(DRAINED), drain.result())
            found, took = timed(lambda: [read_all(it) for it in silent])
            self.judge("silent ones get nothing", ([b""] * 3, True), (found, took < PATIENCE / 4))
        self.judge("counters of it", {"admitted": 1, "success": 1}, gate.ending())
