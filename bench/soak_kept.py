#!/usr/bin/env -S python3 -B
"""Do the counts agree after 200,000 exchanges? bench/soak_kept.py PROGRAM [EXCHANGES] [--at-once N]

It sends EXCHANGES exchanges, by default 200,000, through a gateway with two classes and a bypass rule, over connections
that callers keep as long as they may: with and without bodies, by a length and by chunks, HEAD, two requests in one
piece, a request byte by byte, one that can't be read, answers of overload, and callers that leave before their answer.
Each request has a number that the backend answers with, so that a caller sees whether an answer is of its own request.
At the end the counts of /metrics are compared with those of callers and backend. The status is 1 if they don't agree,
if an answer was another request's, or if connections weren't kept. The gateway has 16 workers and 72 callers at a time;
with --at-once it serves with `--exchanges N`, a limit of up to half of N, and nine callers for ten exchanges. With
--at-once 1024 the proved program takes 16 seconds.
"""
import asyncio
import collections
import contextlib
import multiprocessing
import pathlib
import random
import re
import subprocess
import sys
import tempfile
import time
import typing
import urllib.request
from collections.abc import Iterator

from programs import free_port
from traffic import MIXED, allow_many_sockets
from words import above_zero, built, reader_of

WORKERS, CALLERS, AT_ONCE = 16, 3, 24
EXCHANGES = 200_000
PATIENCE = 30
GARBAGE = b"GET / HTTP/1.1\r\nHost: h\r\nContent-Length: 3\r\nTransfer-Encoding: chunked\r\n\r\n"
# What is asked: the method and path, further lines, and the body.
KINDS = (
    (b"GET /a", b"X-Class: live\r\n", b""),
    (b"GET /a", b"X-Class: batch\r\n", b""),
    (b"GET /busy", b"X-Class: live\r\n", b""),
    (b"GET /health", b"", b""),
    (b"HEAD /a", b"", b""),
    (b"POST /a", b"Content-Length: 5\r\n", b"hello"),
    (b"POST /a", b"Transfer-Encoding: chunked\r\n", b"3\r\nabc\r\n0\r\n\r\n"),
)
LENGTH, NUMBER = re.compile(rb"(?i)\r\ncontent-length: *(\d+)"), re.compile(rb"(?i)\r\nx-number: *(\S+)")

Counts = collections.Counter[typing.Any]


async def read_body(reader: asyncio.StreamReader, head: bytes) -> bytes:
    if found := LENGTH.search(head):
        return await reader.readexactly(int(found[1]))
    body = b""
    while b"transfer-encoding" in head.lower():
        size = int(await reader.readuntil(b"\r\n"), 16)
        body += (await reader.readexactly(size + 2))[:-2]
        if size == 0:
            break
    return body


async def answer(given: typing.Any, reader: asyncio.StreamReader, writer: asyncio.StreamWriter) -> None:
    """The backend: it counts what it was given, answers with its number, has no time for some, and keeps."""
    with contextlib.suppress(OSError, asyncio.IncompleteReadError):
        while True:
            head = await reader.readuntil(b"\r\n\r\n")
            await read_body(reader, head)
            given.value += 1
            found = NUMBER.search(head)
            number, status = found[1] if found else b"", b"503 Busy" if b" /busy" in head else b"200 OK"
            text = b"HTTP/1.1 %s\r\nX-Number: %s\r\nContent-Length: %d\r\n\r\n" % (status, number, len(number))
            writer.write(text if head.startswith(b"HEAD") else text + number)
            await writer.drain()
    writer.close()


def backend(port: int, given: typing.Any, is_up: typing.Any) -> None:
    async def serve() -> None:
        server = await asyncio.start_server(lambda *both: answer(given, *both), "127.0.0.1", port, backlog=4096)
        is_up.set()
        await server.serve_forever()

    allow_many_sockets()
    asyncio.run(serve())


class Caller:
    """One caller, over one connection after the other."""

    reader: asyncio.StreamReader
    writer: asyncio.StreamWriter | None = None

    def __init__(self, port: int, name: str, seen: Counts) -> None:
        self.port, self.name, self.seen, self.draw, self.number = port, name, seen, random.Random(name), 0

    def request(self) -> tuple[bytes, bytes, bool]:
        """A request, its number, and whether its answer has no body."""
        self.number += 1
        asked, lines, body = self.draw.choice(KINDS)
        number = f"{self.name}-{self.number}".encode()
        text = b"%s HTTP/1.1\r\nHost: h\r\nX-Number: %s\r\n%s\r\n%s" % (asked, number, lines, body)
        return text, number, asked.startswith(b"HEAD")

    async def read(self, number: bytes, is_head: bool) -> bool:
        """Reads an answer; whether another may follow it."""
        head = await self.reader.readuntil(b"\r\n\r\n")
        status = int(head[9:12])
        body = b"" if is_head else await read_body(self.reader, head)
        self.seen[status] += 1
        if status in (200, 503):
            told = NUMBER.search(head)
            is_own = told is not None and told[1] == number and (is_head or body == number)
            self.seen["another's"] += not is_own
        return b"\r\nconnection: close" not in head.lower()

    async def ask(self, writer: asyncio.StreamWriter) -> bool:
        """One exchange, or two; whether the connection may be used again."""
        kind = self.draw.random()
        if kind < 0.005:
            writer.write(GARBAGE)
            self.seen["calls"] += 1
            return await self.read(b"", False)
        asked = [self.request() for _ in range(2 if kind > 0.97 else 1)]
        self.seen["calls"] += len(asked)
        text = b"".join(it[0] for it in asked)
        for piece in [text[at : at + 1] for at in range(len(text))] if kind < 0.01 else [text]:
            writer.write(piece)
            await writer.drain()
        if kind < 0.02:
            self.seen["gone"] += len(asked)
            return False
        for place, (_, number, is_head) in enumerate(asked):
            if not await self.read(number, is_head):
                # those behind an answer that ends the connection weren't read
                self.seen["behind"] += len(asked) - place - 1
                return False
        return kind > 0.04

    async def exchange(self) -> None:
        if self.writer is None:
            self.reader, self.writer = await asyncio.open_connection("127.0.0.1", self.port)
            self.seen["connections"] += 1
        before, goes_on = self.seen["calls"] - self.answered(), False
        try:
            goes_on = await asyncio.wait_for(self.ask(self.writer), PATIENCE)
        except (OSError, asyncio.IncompleteReadError, TimeoutError):
            self.seen["nothing"] += self.seen["calls"] - self.answered() - before
        if not goes_on:
            self.writer.close()
            self.writer = None

    def answered(self) -> int:
        """How many calls have an end so far."""
        return sum(count for what, count in self.seen.items() if what not in ("calls", "connections", "another's"))


async def calls(port: int, number: int, count: int, callers: int) -> Counts:
    async def one_after_the_other(place: int) -> Counts:
        caller = Caller(port, f"{number}-{place}", collections.Counter())
        while caller.seen["calls"] < count // callers:
            await caller.exchange()
        if caller.writer:
            caller.writer.close()
        return caller.seen

    found = await asyncio.gather(*map(one_after_the_other, range(callers)))
    return sum(found, collections.Counter())


def called(port: int, number: int, count: int, callers: int, results: typing.Any) -> None:
    allow_many_sockets()
    results.put(asyncio.run(calls(port, number, count, callers)))


def scraped(port: int) -> dict[str, int]:
    """The counters of /metrics, by their family and label."""
    with urllib.request.urlopen(f"http://127.0.0.1:{port}/metrics", timeout=PATIENCE) as said:
        text = said.read().decode()
    return {name: int(value) for name, value in re.findall(r"^admission_(\S+) (\d+)$", text, re.MULTILINE)}


def agree(told: dict[str, int], seen: Counts, given: int) -> Iterator[tuple[str, bool]]:
    """What has to hold of the counts, with whether it does."""
    decided = {name: told[f'decisions_total{{decision="{name}"}}'] for name in re.findall(r"[\w-]+", DECISIONS)}
    refused = decided["full"] + decided["backlog"] + decided["timed-out"]
    permits = decided["admitted"] + decided["promoted"]
    ended = sum(told[f'outcomes_total{{outcome="{name}"}}'] for name in ("success", "ignored", "dropped"))
    own = {status: told[f'answers_total{{status="{status}"}}'] for status in (400, 429, 502, 504)}
    lines = {name: told[f'backend_connections_total{{event="{name}"}}'] for name in ("opened", "reused")}
    loose = seen["gone"]
    yield "each answer was that of its own request", not seen["another's"]
    yield "no permit was lost: admitted and promoted are all endings", permits == ended
    yield "the backend was given what was admitted, promoted or bypassed", given == permits + decided["bypassed"]
    yield "each of these had a connection that was opened or used again", given == lines["opened"] + lines["reused"]
    yield "callers saw the refusals, or had gone", seen[429] <= refused <= seen[429] + loose
    yield "/metrics has as many answers of its own", all(seen[it] <= own[it] <= seen[it] + loose for it in own)
    good = seen[200] + seen[503]
    yield "callers saw the answers, or had gone", good <= given <= good + loose
    yield "all others heard something", not seen["nothing"]
    yield "connections were kept, four exchanges and more on each", 4 * seen["connections"] <= seen["calls"]


DECISIONS = "admitted bypassed full backlog waiting promoted timed-out"


def main() -> None:
    reader = reader_of(__doc__)
    reader.add_argument("program", type=built, metavar="PROGRAM")
    reader.add_argument("exchanges", type=above_zero(int), nargs="?", default=EXCHANGES, metavar="EXCHANGES")
    reader.add_argument("--at-once", type=above_zero(int), metavar="N")
    asked = reader.parse_args()
    threads = ("--exchanges", asked.at_once) if asked.at_once else ("--workers", WORKERS)
    most, at_once = (asked.at_once // 2, asked.at_once * 9 // 10 // CALLERS) if asked.at_once else (12, AT_ONCE)
    allow_many_sockets()
    given: typing.Any = multiprocessing.Value("q", 0)
    is_up, results = multiprocessing.Event(), multiprocessing.get_context().SimpleQueue()
    port, origin, admin = free_port(), free_port(), free_port()
    behind = multiprocessing.Process(target=backend, args=(origin, given, is_up), daemon=True)
    behind.start()
    with tempfile.TemporaryDirectory() as room:
        file = pathlib.Path(room) / "gateway.toml"
        file.write_text(MIXED.format(port=port, origin=origin, initial=8, most=most))
        words = [asked.program, "serve", str(file), *map(str, threads), "--admin", f"127.0.0.1:{admin}"]
        with subprocess.Popen(words, stdout=subprocess.DEVNULL, stderr=subprocess.PIPE, text=True) as gateway:
            assert gateway.stderr
            if not is_up.wait(10) or not any("listening" in line for line in gateway.stderr):
                gateway.kill()
                sys.exit("soak_kept: the gateway or its backend didn't start")
            begun, each = time.monotonic(), asked.exchanges // CALLERS
            callers = [
                multiprocessing.Process(target=called, args=(port, number, each, at_once, results))
                for number in range(CALLERS)
            ]
            for it in callers:
                it.start()
            seen: Counts = sum((results.get() for _ in callers), collections.Counter())
            time.sleep(1)
            told = scraped(admin)
            print(f"{seen['calls']:,} exchanges over {seen['connections']:,} connections", end="")
            print(f" in {time.monotonic() - begun:.0f} s; callers: {dict(sorted(seen.items(), key=str))}")
            print(
                f"backend: {given.value}; gateway:", {name: it for name, it in told.items() if "_total{" in name and it}
            )
            gateway.terminate()
            gateway.stderr.read()
    behind.terminate()
    verdicts = [*agree(told, seen, given.value)]
    for what, holds in verdicts:
        print(f"{'yes' if holds else 'NO '} {what}")
    sys.exit(0 if all(holds for _, holds in verdicts) else 1)


main()
