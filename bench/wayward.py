"""A backend that has bad days, and callers in processes of their own, for bench/adapts. All on loopback."""
import asyncio
import collections
import concurrent.futures
import multiprocessing
import os
import random
import signal
import time
import typing
from multiprocessing.synchronize import Event

from programs import free_port
from traffic import ANSWER, STARTING, Call, allow_many_sockets, offer

BUSY = b"HTTP/1.1 503 Service Unavailable\r\nContent-Length: 0\r\nConnection: close\r\n\r\n"
CLOSING = b"Connection: close\r\n"
TOO_MANY = BUSY.replace(b"503 Service Unavailable", b"429 Too Many Requests")
# What `ahead` says: serve all, answer all of them 503 at once, or serve the next one at once or in a tenth of its time.
AS_EVER, REFUSING, ONE_AT_ONCE, ONE_IN_A_TENTH = range(4)
# A process that makes more calls a second is late with them.
CALLS_A_PROCESS = 300
WATCH = 0.02


class Times(typing.NamedTuple):
    """How the times of answers vary about the backend's own: evenly by a part of it more or less; as a lognormal
    distribution of this sigma, whose mean it is; or so that a part of them takes so many times as long."""

    spread: float = 0.0
    sigma: float = 0.0
    slow: tuple[float, float] = (0.0, 1.0)

    def mean(self) -> float:
        return 1 + self.slow[0] * (self.slow[1] - 1)

    def draw(self, draw: random.Random) -> float:
        factor = 1 + self.spread * (2 * draw.random() - 1)
        if self.sigma:
            factor *= draw.lognormvariate(-self.sigma * self.sigma / 2, self.sigma)
        return factor * (self.slow[1] if draw.random() < self.slow[0] else 1)


class Faults(typing.NamedTuple):
    """What a backend does wrong at any time: a part of its answers is cut off, and a part of the calls is answered 503
    at once; and it refuses the next by a 429 of its own where more than `most` are inside, or above so many a second,
    of which a part may come at once, or all of each second.
    """

    cut: float = 0.0
    broken: float = 0.0
    most: int | None = None
    pace: float | None = None
    by_seconds: bool = False
    at_once: float = 0.1

    @property
    def refuses(self) -> bool:
        return self.most is not None or self.pace is not None

    def counting(self) -> "Pace | None":
        """What counts the calls of each second, where it refuses above a rate."""
        return None if self.pace is None else Pace(self.pace, self.by_seconds, self.at_once)


class Pace:
    """So many calls a second, and a part of a second's at once; or so many in each second, and all of them at once."""

    def __init__(self, rate: float, by_seconds: bool, at_once: float) -> None:
        self.rate, self.by_seconds, self.most = rate, by_seconds, 1 + rate * at_once
        self.free = self.since = 0.0

    def takes(self, now: float) -> bool:
        """Whether one more is taken at this second."""
        if not self.by_seconds:
            self.free = min(self.most, self.free + (now - self.since) * self.rate)
        elif int(now) > int(self.since) or not self.since:
            self.free = self.rate
        self.since = now
        is_taken = self.free >= 1
        self.free -= is_taken
        return is_taken


class Exchange(asyncio.Protocol):
    """One connection to the backend, with one request on it at a time, which comes in one piece. It is kept where the
    request doesn't ask for its end."""

    transport: asyncio.Transport
    is_kept = False

    def __init__(self, backend: "Wayward") -> None:
        self.backend = backend

    def connection_made(self, transport: asyncio.BaseTransport) -> None:
        self.transport = typing.cast(asyncio.Transport, transport)

    def data_received(self, data: bytes) -> None:
        if data.endswith(b"\r\n\r\n"):
            self.is_kept = CLOSING not in data
            self.backend.take(self)

    def answer(self, text: bytes, is_cut: bool = False) -> None:
        text = text.replace(CLOSING, b"") if self.is_kept else text
        self.transport.write(text[:-1] if is_cut else text)
        if is_cut or not self.is_kept:
            self.transport.close()


class Wayward:
    """A backend in a process of its own: it serves `slots` requests at a time, first come first served, each in
    `seconds` divided by its speed, as `times` vary, and slower by `drag` of it where as many wait as it has slots; and
    it has its faults. Its slots, its speed and what is ahead can be changed while it serves, and it can be killed or
    stopped.
    """

    process: multiprocessing.Process
    loop: asyncio.AbstractEventLoop

    def __init__(
        self, slots: int, seconds: float, drag: float, times: Times = Times(), faults: Faults = Faults()
    ) -> None:
        self.seconds, self.drag, self.times, self.faults, self.port = seconds, drag, times, faults, free_port()
        self.slots: typing.Any = multiprocessing.Value("i", slots)
        self.speed: typing.Any = multiprocessing.Value("d", 1.0)
        self.ahead: typing.Any = multiprocessing.Value("i", AS_EVER)
        self.refused: typing.Any = multiprocessing.Value("i", 0)
        self.held: typing.Any = multiprocessing.Value("i", 0)
        self.served = 0
        self.queue: collections.deque[Exchange] = collections.deque()
        self.draw = random.Random(1)
        self.pace = faults.counting()

    def __enter__(self) -> "Wayward":
        self.start()
        return self

    def __exit__(self, *_: object) -> None:
        self.kill()

    def start(self) -> None:
        is_up = multiprocessing.Event()
        self.process = multiprocessing.Process(target=self.run, args=(is_up,))
        self.process.start()
        if not is_up.wait(STARTING):
            self.kill()
            raise RuntimeError("the backend didn't start")

    def kill(self) -> None:
        """Ends it at once, with all that it serves."""
        self.process.kill()
        self.process.join()

    def stop(self) -> None:
        """Has it hang, with all that it serves."""
        if self.process.pid:
            os.kill(self.process.pid, signal.SIGSTOP)

    def resume(self) -> None:
        if self.process.pid:
            os.kill(self.process.pid, signal.SIGCONT)

    def run(self, is_up: Event) -> None:
        signal.signal(signal.SIGINT, signal.SIG_IGN)
        allow_many_sockets()
        asyncio.run(self.serve(is_up))

    async def serve(self, is_up: Event) -> None:
        self.loop = asyncio.get_running_loop()
        await self.loop.create_server(lambda: Exchange(self), "127.0.0.1", self.port, backlog=4096)
        is_up.set()
        while True:
            await asyncio.sleep(WATCH)
            self.fill()

    def is_too_many(self) -> bool:
        """Whether it refuses the next call by itself."""
        most = self.faults.most
        is_full = most is not None and self.served + len(self.queue) >= most
        return is_full or bool(self.pace and not self.pace.takes(self.loop.time()))

    def take(self, exchange: Exchange) -> None:
        ahead = self.ahead.value
        if ahead == REFUSING or self.draw.random() < self.faults.broken:
            exchange.answer(BUSY)
        elif self.is_too_many():
            self.refused.value += 1
            exchange.answer(TOO_MANY)
        elif ahead in (ONE_AT_ONCE, ONE_IN_A_TENTH):
            self.ahead.value = AS_EVER
            self.loop.call_later(0 if ahead == ONE_AT_ONCE else self.seconds / 10, exchange.answer, ANSWER)
        else:
            self.queue.append(exchange)
            self.fill()

    def fill(self) -> None:
        """Begins to serve as many as there are slots for, and tells how many are inside."""
        while self.queue and self.served < self.slots.value:
            exchange, self.served = self.queue.popleft(), self.served + 1
            varied = self.times.draw(self.draw)
            slower = 1 + self.drag * len(self.queue) / self.slots.value
            self.loop.call_later(self.seconds / self.speed.value * varied * slower, self.end, exchange)
        self.held.value = self.served + len(self.queue)

    def end(self, exchange: Exchange) -> None:
        self.served -= 1
        exchange.answer(ANSWER, self.draw.random() < self.faults.cut)
        self.fill()


def offered(port: int, rate: float, seconds: float, patience: float) -> list[Call]:
    """Calls of one process."""
    allow_many_sockets()
    return asyncio.run(offer(port, rate, seconds, patience=patience))


class Callers:
    """So many calls a second for so many seconds, whether or not those before are answered."""

    def __init__(self, port: int, rate: float, seconds: float, patience: float) -> None:
        parts = 1 + int(rate // CALLS_A_PROCESS)
        self.pool = concurrent.futures.ProcessPoolExecutor(parts, multiprocessing.get_context("fork"))
        self.begun = time.perf_counter()
        self.parts = []
        for part in range(parts):
            # one after the other, so that their calls lie between each other's
            time.sleep(max(0.0, self.begun + part / rate - time.perf_counter()))
            self.parts.append(self.pool.submit(offered, port, rate / parts, seconds, patience))

    def wait_until(self, at: float) -> None:
        time.sleep(max(0.0, self.begun + at - time.perf_counter()))

    def calls(self) -> list[Call]:
        """All calls, once the last one has ended."""
        with self.pool:
            return [it for part in self.parts for it in part.result()]
