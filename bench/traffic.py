"""Traffic for overload: an origin that serves few requests at a time, callers that arrive at a fixed rate, and a
gateway between them. All run on loopback, and everything that is started is ended.
"""
import asyncio
import contextlib
import dataclasses
import multiprocessing
import pathlib
import re
import resource
import signal
import socket
import subprocess
import tempfile
import threading
import time
import typing
from collections.abc import Iterator, Sequence

from programs import free_port

TOP = pathlib.Path(__file__).resolve().parent.parent
ANSWER = b"HTTP/1.1 200 OK\r\nContent-Length: 13\r\nConnection: close\r\n\r\nhello, world\n"
STARTING = 10
# Two classes, told apart by a header.
CLASSES = """[[class]]
name = "live"
share = 600
[[class]]
name = "batch"
share = 300
[[resolver]]
kind = "header"
header = "X-Class"
"""
# A gateway that keeps connections with both, where some wait, and one path is neither limited nor counted.
MIXED = (
    """version = 2
listen = "127.0.0.1:{port}"
backend = "127.0.0.1:{origin}"
clients = 1_000
backends = 64
backlog = 8
timeout_ms = 20
[limit]
kind = "aimd"
initial = {initial}
max = {most}
"""
    + CLASSES
    + """[[bypass]]
kind = "prefix"
prefix = "/health"
"""
)


def allow_many_sockets() -> None:
    """Lets this process have as many sockets as it may."""
    _, most = resource.getrlimit(resource.RLIMIT_NOFILE)
    resource.setrlimit(resource.RLIMIT_NOFILE, (min(most, 65_536), most))


def tables_of(file: str) -> str:
    """What a configuration of version 2 of the repository says below its addresses."""
    text = (TOP / file).read_text(encoding="utf-8")
    return re.sub(r"^(version|listen|backend) *=.*\n", "", text, flags=re.MULTILINE)


def told_to_aimd(tables: str, timeout: float) -> str:
    """The same tables with AIMD in the place of Vegas, which is told a timeout in seconds."""
    tables = re.sub(r"^(alpha|beta|probe_every) *=.*\n", "", tables, flags=re.MULTILINE)
    return tables.replace('kind = "vegas"', f'kind = "aimd"\ntimeout_us = {timeout * 1_000_000:.0f}')


class Origin:
    """A backend in a process of its own: it serves `slots` requests at a time, each in `seconds` divided by its
    speed, and slower by `drag` of that for each request that waits."""

    def __init__(self, slots: int, seconds: float, drag: float = 0.0) -> None:
        self.slots, self.seconds, self.drag, self.port = slots, seconds, drag, free_port()
        self.free = asyncio.Semaphore(slots)
        self.speed: typing.Any = multiprocessing.Value("d", 1.0)
        self.held: typing.Any = multiprocessing.Value("i", 0)
        self.is_up = multiprocessing.Event()
        self.process = multiprocessing.Process(target=self.run, daemon=True)

    def __enter__(self) -> "Origin":
        self.process.start()
        if not self.is_up.wait(STARTING):
            raise RuntimeError("the origin didn't start")
        return self

    def __exit__(self, *_: object) -> None:
        self.process.terminate()
        self.process.join()

    def run(self) -> None:
        signal.signal(signal.SIGINT, signal.SIG_IGN)
        allow_many_sockets()
        asyncio.run(self.serve())

    async def serve(self) -> None:
        server = await asyncio.start_server(self.answer, "127.0.0.1", self.port, backlog=4096)
        self.is_up.set()
        async with server:
            await server.serve_forever()

    async def answer(self, reader: asyncio.StreamReader, writer: asyncio.StreamWriter) -> None:
        self.held.value += 1
        try:
            await reader.readuntil(b"\r\n\r\n")
            async with self.free:
                queue = max(0, self.held.value - self.slots)
                await asyncio.sleep(self.seconds / self.speed.value * (1 + self.drag * queue))
            writer.write(ANSWER)
            await writer.drain()
        except (OSError, asyncio.IncompleteReadError):
            pass
        finally:
            self.held.value -= 1
            writer.close()


class Listens(typing.Protocol):
    """A backend on loopback."""

    port: int


class Limited:
    """A program with a limit that says on its standard error when it listens and then what the limit is: `limits` gets
    pairs of a moment of time.perf_counter and the limit then, and `told` the lines that are no reports."""

    process: subprocess.Popen[str]
    log: typing.IO[str]

    def __init__(self, words: Sequence[str], port: int) -> None:
        self.words, self.port = words, port
        self.limits: list[tuple[float, int]] = []
        self.told: list[str] = []
        self.reader = threading.Thread(target=self.note)

    def __enter__(self) -> "Limited":
        self.process = subprocess.Popen(self.words, stdout=subprocess.DEVNULL, stderr=subprocess.PIPE, text=True)
        assert self.process.stderr
        self.log, said = self.process.stderr, ""
        for line in self.log:
            if "listening" in line:
                self.reader.start()
                return self
            said = f": {line.strip()}"
        status = self.process.wait()
        self.log.close()
        self.clear()
        raise RuntimeError(f"{self.words[0]} ended with status {status}{said}")

    def note(self) -> None:
        """Notes the limit of each report, and reads the log to its end."""
        for line in self.log:
            if found := re.search(r"\breport limit=(\d+)", line):
                self.limits.append((time.perf_counter(), int(found[1])))
            else:
                self.told.append(line)

    def __exit__(self, *_: object) -> None:
        self.process.terminate()
        self.process.wait()
        self.reader.join()
        self.log.close()
        self.clear()

    def clear(self) -> None:
        """Removes what it left."""


class Gateway(Limited):
    """The program over a configuration of its own. `tables` is what stands below the addresses. It tells its limit
    where it reports every `report_seconds`. With `exchanges` it has so many at once, in place of workers."""

    def __init__(
        self,
        program: str,
        origin: Listens,
        tables: str,
        workers: int = 64,
        report_seconds: int | None = None,
        version: int = 2,
        exchanges: int | None = None,
    ) -> None:
        self.room = tempfile.TemporaryDirectory(prefix="admission-")
        self.file = pathlib.Path(self.room.name) / "gateway.toml"
        at_once = ("--workers", workers) if exchanges is None else ("--exchanges", exchanges)
        words = [program, "serve", str(self.file), *map(str, at_once)]
        super().__init__([*words, "--report-seconds", str(report_seconds)] if report_seconds else words, free_port())
        addresses = f'listen = "127.0.0.1:{self.port}"\nbackend = "127.0.0.1:{origin.port}"\n'
        self.file.write_text(f"version = {version}\n{addresses}{tables}")

    def clear(self) -> None:
        self.room.cleanup()


@dataclasses.dataclass
class Call:
    """One call: when it came, of which class, the status of its answer (0: none in time), and how long that took."""

    at: float
    name: str
    status: int
    seconds: float


def request_of(path: str, lines: str = "") -> bytes:
    """A request for the only answer on its connection, with these lines of its head."""
    return f"GET {path} HTTP/1.1\r\nHost: h\r\n{lines}Connection: close\r\n\r\n".encode()


async def answer_of(port: int, text: bytes) -> bytes:
    """What is answered to a text over a connection of its own, to its end."""
    loop, said = asyncio.get_running_loop(), b""
    with socket.socket() as sock:
        sock.setblocking(False)
        await loop.sock_connect(sock, ("127.0.0.1", port))
        await loop.sock_sendall(sock, text)
        while more := await loop.sock_recv(sock, 65_536):
            said += more
    return said


async def call(port: int, name: str, patience: float, found: list[Call], begun: float) -> None:
    """Makes one call of a class, and adds it to what was found since a moment."""
    at = time.perf_counter()
    status = 0
    with contextlib.suppress(OSError, TimeoutError, ValueError):
        async with asyncio.timeout(patience):
            text = await answer_of(port, request_of("/", f"X-Class: {name}\r\n"))
        status = int(text[9:12]) if text[:5] == b"HTTP/" else 0
    found.append(Call(at - begun, name, status, time.perf_counter() - at))


async def offer(
    port: int, rate: float, seconds: float, names: Sequence[str] = ("unknown",), patience: float = 1.0
) -> list[Call]:
    """So many calls a second, whether or not those before are answered: of these classes in turns."""
    found: list[Call] = []
    begun, calls = time.perf_counter(), []
    for number in range(int(rate * seconds)):
        pause = begun + number / rate - time.perf_counter()
        if pause > 0:
            await asyncio.sleep(pause)
        calls.append(asyncio.create_task(call(port, names[number % len(names)], patience, found, begun)))
    await asyncio.gather(*calls)
    return found


def percentile(values: Sequence[float], part: float) -> float:
    """The value that such a part of the values lie below."""
    ordered = sorted(values)
    return ordered[min(len(ordered) - 1, int(len(ordered) * part))] if ordered else float("nan")


class Holds(typing.Protocol):
    """A backend that tells how many requests it holds."""

    held: typing.Any


@contextlib.contextmanager
def watched(origin: Holds, pause: float = 0.1) -> Iterator[list[tuple[float, int]]]:
    """How many requests the origin holds, sampled every so often: pairs of a time and a number."""
    found: list[tuple[float, int]] = []
    is_done = False

    async def watch() -> None:
        begun = time.perf_counter()
        while not is_done:
            found.append((time.perf_counter() - begun, origin.held.value))
            await asyncio.sleep(pause)

    task = asyncio.get_running_loop().create_task(watch())
    try:
        yield found
    finally:
        is_done = True
        task.cancel()
