#!/usr/bin/env -S python3 -B
"""What a slow client costs: how long a new client waits beside clients that send their bodies slowly, with nginx and
HAProxy in the same run:

    bench/slow_clients.py PROGRAM [--slow N] [--again S] [--rate BYTES] [--exchanges N] [--seconds S]

N clients (2,000 by default) each send the head of a request with a body of 100,000 bytes, and then one byte a second. A
client that was closed reconnects a second later, or after the S seconds of --again, which may be 0. Beside them a new
client asks for a small answer every 10 ms, for the S seconds of --seconds (10). For each proxy it prints the median,
the 99th percentile and the greatest of their times in milliseconds, counted from before the connect, how many got no
answer within ten seconds, and how many slow clients were closed. PROGRAM serves with `--exchanges` (1,024) and
`--body-rate` (500), and once more with a rate of 0, which closes none. nginx and HAProxy close none, because one of
their threads serves many slow clients. It takes about a minute.

Needs Debian's nginx-light and haproxy.
"""
import argparse
import collections
import contextlib
import os
import pathlib
import selectors
import socket
import tempfile
import threading
import time

from proxies import ANY_SIZE, KEEPALIVE, Servers, Started, Target, first_port, start_origin, table_of
from traffic import allow_many_sockets, percentile
from words import above_zero, built, reader_of

HEAD = b"POST / HTTP/1.1\r\nHost: h\r\nContent-Length: 100000\r\n\r\n"
ASKING = b"GET / HTTP/1.1\r\nHost: h\r\nConnection: close\r\n\r\n"
TEXT = f"""version = 2
listen = "127.0.0.1:{{port}}"
backend = "127.0.0.1:{{origin}}"
{KEEPALIVE}
[limit]
kind = "auto"
"""
PATIENCE = 10.0
BETWEEN = 0.01


class SlowClients(threading.Thread):
    """Clients that send a byte of their bodies each second, on a thread of their own."""

    def __init__(self, port: int, count: int, again: float) -> None:
        super().__init__(daemon=True)
        self.port, self.count, self.again, self.closed, self.refused = port, count, again, 0, 0
        # When those that were closed come again, the first one first.
        self.coming: collections.deque[float] = collections.deque()
        self.all_there, self.is_over = threading.Event(), threading.Event()
        self.looked = selectors.DefaultSelector()
        self.clients: set[socket.socket] = set()

    def begin_one(self) -> None:
        """One more client, which has sent its head."""
        try:
            client = socket.create_connection(("127.0.0.1", self.port), timeout=PATIENCE)
            client.sendall(HEAD)
        except OSError:
            self.refused += 1
            return
        client.setblocking(False)
        self.looked.register(client, selectors.EVENT_READ)
        self.clients.add(client)

    def end_one(self, client: socket.socket) -> None:
        self.looked.unregister(client)
        self.clients.discard(client)
        client.close()

    def replace_closed(self, seconds: float) -> None:
        """Waits for so long, and lets a new client come for each that was closed long enough ago."""
        for key, _ in self.looked.select(seconds):
            assert isinstance(key.fileobj, socket.socket)
            self.end_one(key.fileobj)
            self.closed += 1
            self.coming.append(time.monotonic() + self.again)
        while self.coming and self.coming[0] <= time.monotonic():
            self.coming.popleft()
            self.begin_one()

    def run(self) -> None:
        for _ in range(self.count):
            self.begin_one()
        self.all_there.set()
        due = time.monotonic()
        while not self.is_over.is_set():
            if time.monotonic() >= due:
                due += 1.0
                for client in list(self.clients):
                    with contextlib.suppress(OSError):
                        client.send(b"x")
            self.replace_closed(max(0.0, min(0.01, due - time.monotonic())))
        for client in list(self.clients):
            self.end_one(client)


def time_of_one(port: int) -> float | None:
    """The milliseconds until a new client has its answer; None if it gets none."""
    began = time.monotonic()
    try:
        with socket.create_connection(("127.0.0.1", port), timeout=PATIENCE) as client:
            client.sendall(ASKING)
            said = b""
            while piece := client.recv(4_096):
                said += piece
    except OSError:
        return None
    return (time.monotonic() - began) * 1000 if said[9:12] == b"200" else None


def figures_of(target: Target, given: argparse.Namespace) -> list[str]:
    """What new clients meet beside slow ones: the cells of a row."""
    clients = SlowClients(target.port, given.slow, given.again)
    clients.start()
    clients.all_there.wait()
    time.sleep(1.0)
    end, took = time.monotonic() + given.seconds, []
    while time.monotonic() < end:
        took.append(time_of_one(target.port))
        time.sleep(BETWEEN)
    clients.is_over.set()
    clients.join()
    times = sorted(it for it in took if it is not None)
    cells = [f"{percentile(times, share):.1f}" for share in (0.5, 0.99, 1.0)] if times else ["-"] * 3
    return [*cells, f"{len(took) - len(times)} of {len(took)}", str(clients.closed)]


def words_of_run() -> argparse.Namespace:
    reader = reader_of(__doc__)
    reader.add_argument("program", type=built, metavar="PROGRAM")
    reader.add_argument("--slow", type=above_zero(int), default=2_000, metavar="N")
    reader.add_argument("--again", type=float, default=1.0, metavar="S")
    reader.add_argument("--rate", type=above_zero(int), default=500, metavar="BYTES")
    reader.add_argument("--exchanges", type=above_zero(int), default=1_024, metavar="N")
    reader.add_argument("--seconds", type=above_zero(float), default=10.0, metavar="S")
    found = reader.parse_args()
    # The origin reads whole bodies before it answers.
    found.upload, found.refused, found.answer = 1, False, 0
    return found


def main() -> None:
    given = words_of_run()
    allow_many_sockets()
    processors = sorted(os.sched_getaffinity(0))
    with tempfile.TemporaryDirectory() as folder:
        servers = Servers(pathlib.Path(folder), processors, processors)
        try:
            it = Started(servers, given.program, first_port(8), given, start_origin)
            it.nginx("nginx", ANY_SIZE, is_kept=True)
            it.haproxy("HAProxy", is_kept=True, most=4_000)
            for rate in (given.rate, 0):
                words = ("--exchanges", str(given.exchanges), "--body-rate", str(rate))
                it.gateway(f"admission, a rate of {rate}", TEXT, words)
            time.sleep(1.0)
            rows = [[name, *figures_of(target, given)] for name, target in it.found.items() if name != "origin alone"]
        finally:
            servers.end()
    columns = ["Proxy", "p50, ms", "p99, ms", "greatest, ms", "without an answer", "slow clients closed"]
    print(table_of(columns, rows))


main()
