"""Days of a gateway in memory as they are drawn, for `tests/days`: settings, clients, and what each of them sends."""
import dataclasses
import random

# What requests are to begin with: good, one that ends its connection, one whose body isn't as long as told, and those
# that can't be read.
GOOD, ENDING, MISTOLD = ("good",), ("close", "old"), ("longer", "shorter")
REFUSED = ("no_host", "two_lengths", "connect", "coding", "large", "words")
KINDS = GOOD + ENDING + MISTOLD + REFUSED
# How often each comes, of clients with one request, and of those with more.
ONCE, OFTEN = (12, 1, 1, 1, 1, *[1] * 6), (32, 2, 2, 3, 2, *[0.5] * 6)
# What a backend says beside a status: it isn't there, breaks off, is late, has no memory, or its connection was stale.
ABSENT, BROKEN, LATE, MEMORY, STALE = range(5)
STATUSES = (200, 204, 304, 399, 404, 428, 429, 430, 499, 500, 502, 503, 504, 505, 999)
# How clients end: by an end, by a break, or by nothing more.
CLOSES, BREAKS, STALLS = range(3)
# What is more than a client may take for a request, where it comes for a second time, in nanoseconds.
SLOW = 600_000_000
LIVE = 600
ALL, NEVER = 1 << 20, 1 << 32
# The number of a turn of the door at which nobody is kept.
UNKEPT = 9
CHUNKS = (1, 2, 7, 100, 65_536)


@dataclasses.dataclass(frozen=True)
class Part:
    """Bytes of a client that come in pieces: how long one is at most, and by how many nanoseconds the clock goes on
    with each."""

    chunk: int
    pause: int
    text: bytes


class Asked:
    """A request as it is drawn: its bytes, what the backend says to it, and how much is taken of an answer."""

    def __init__(self, dice: random.Random, number: int, is_often: bool) -> None:
        self.number, self.kind = number, dice.choices(KINDS, OFTEN if is_often else ONCE)[0]
        self.is_live, self.bypasses = dice.random() < 0.3, dice.random() < 0.15
        self.text = self.drawn(dice)
        self.says = dice.choice((ABSENT, BROKEN, LATE, MEMORY, STALE, STALE, *STATUSES))
        self.has_body = dice.random() < 0.8
        self.takes = dice.choice((0, 5, 11, 12, 40)) if dice.random() < (0.04 if is_often else 0.1) else ALL

    def drawn(self, dice: random.Random) -> bytes:
        path = f"/health/{self.number}" if self.bypasses else f"/jobs/{self.number}"
        lines = [f"GET {path} HTTP/1.1", "Host: h"]
        if self.is_live:
            lines.append("X-Class: live")
        body = b""
        if self.kind in GOOD + MISTOLD and (self.kind in MISTOLD or dice.random() < 0.4):
            lines[0] = lines[0].replace("GET", "POST")
            line, body = self.body(dice)
            lines.append(line)
        elif self.kind == "good" and dice.random() < 0.1:
            lines[0] = lines[0].replace("GET", "HEAD")
        elif self.kind == "close":
            lines.append(dice.choice(("Connection: close", "Connection: keep-alive, Close")))
        elif self.kind == "old":
            lines[0] = lines[0].replace("1.1", "1.0")
            lines.append("Connection: keep-alive")
        elif self.kind == "no_host":
            del lines[1]
        elif self.kind == "two_lengths":
            lines += ["Content-Length: 3", "Content-Length: 4"]
        elif self.kind == "connect":
            lines[0] = "CONNECT h:80 HTTP/1.1"
        elif self.kind == "coding":
            lines.append("Transfer-Encoding: gzip")
        elif self.kind == "large":
            lines.append("Content-Length: 8388609")
        elif self.kind == "words":
            lines[0] = f"GET {path} and more HTTP/1.1"
        return "\r\n".join([*lines, "", ""]).encode() + body

    def body(self, dice: random.Random) -> tuple[str, bytes]:
        """The line that tells how long a body is, and the body."""
        body = bytes(dice.randrange(256) for _ in range(dice.randrange(40)))
        more = dice.choice((b"\r\n", b"\n", b"x", b"0123456789abcdef")) if self.kind == "longer" else b""
        if dice.random() < 0.5:
            length = len(body) + (dice.choice((1, 5, 20, 60, 200)) if self.kind == "shorter" else 0)
            return f"Content-Length: {length}", body + more
        last = b"" if self.kind == "shorter" else b"0\r\n\r\n"
        text = b"%x\r\n%s\r\n%s" % (len(body), body, last) if body else last
        return "Transfer-Encoding: chunked", text + more


class Client:
    """A client as it is drawn: its requests, what it sends and how, and how it ends."""

    def __init__(self, dice: random.Random, place: int, first: int, is_often: bool) -> None:
        self.place = place
        self.asked = [Asked(dice, first + it, is_often) for it in range(dice.randint(1, 4) if is_often else 1)]
        self.parts = self.cut_off(dice, self.in_parts(dice, is_often))
        self.sent = b"".join(it.text for it in self.parts)
        self.ending, self.bite = dice.choice((CLOSES, BREAKS, STALLS)), dice.choice(CHUNKS)

    def in_parts(self, dice: random.Random, is_often: bool) -> list[Part]:
        """The requests in pieces of their own, but where one comes with what was sent before it."""
        parts: list[Part] = []
        for asked in self.asked:
            if parts and dice.random() < 0.2:
                parts[-1] = dataclasses.replace(parts[-1], text=parts[-1].text + asked.text)
                continue
            pause = SLOW if dice.random() < (0.05 if is_often else 0.1) else dice.choice((0, 1_000))
            parts.append(Part(dice.choice(CHUNKS), pause, asked.text))
        return parts

    @staticmethod
    def cut_off(dice: random.Random, parts: list[Part]) -> list[Part]:
        """The same up to a place where the client stops short of the whole, if it does."""
        if dice.random() >= 0.2:
            return parts
        last = dice.randrange(len(parts))
        part = parts[last]
        return [*parts[:last], dataclasses.replace(part, text=part.text[: dice.randrange(len(part.text))])]

    def pieces(self, at: int) -> list[tuple[int, int]]:
        """Where each of the pieces ends that come from a place on, and by how much the clock goes on with it."""
        ends, start = [], 0
        for part in self.parts:
            stop = start + len(part.text)
            ends += [(min(it + part.chunk, stop), part.pause) for it in range(start, stop, part.chunk)]
            start = stop
        return [it for it in ends if it[0] > at]

    def lines(self) -> list[str]:
        return [
            f"v {self.ending} {self.bite}",
            *(f"p {it.chunk} {it.pause} {it.text.hex()}" for it in self.parts),
            *(f"q {it.says} {int(it.has_body)} {it.takes}" for it in self.asked),
        ]


class Day:
    """A day by its seed: its settings, its clients, none of them somebody who couldn't be accepted, and its door: how
    many may wait there, who comes at which turn and may be kept, and at which turn a drain begins."""

    def __init__(self, seed: int) -> None:
        dice = random.Random(seed)
        self.seed, self.workers = seed, dice.choice((1, 1, 2))
        self.limit, self.backlog = dice.randint(1, 4), dice.choice((0, 3))
        self.held = dice.choice((0, 0, self.limit - 1, self.limit))
        self.is_fixed, self.is_busy = dice.random() < 0.8, dice.random() < 0.5
        self.promotes_all = dice.random() < 0.5
        # Without `clients`, or by `clients = 0`, nobody is kept, whatever the door says.
        self.keeps = dice.choice((None, 0, 1, 3, 1_000, 1_000))
        self.places = self.keeps or 5
        self.drain = dice.randrange(80) if dice.random() < 0.3 else NEVER
        self.order = [dice.randrange(UNKEPT + 1) for _ in range(dice.randint(1, 20))]
        is_often = bool(self.keeps) or dice.random() < 0.2
        self.clients: list[Client | None] = []
        self.asked: list[Asked] = []
        for place in range(30):
            client = Client(dice, place, len(self.asked), is_often) if dice.random() < 0.97 else None
            self.clients.append(client)
            self.asked += client.asked if client else []

    def settings(self) -> str:
        kind = f'kind = "fixed"\ninitial = {self.limit}'
        if not self.is_fixed:
            kind = f'kind = "aimd"\nmin = 1\ninitial = {self.limit}\nmax = 8\ntimeout_us = 100_000'
        clients = "" if self.keeps is None else f"\nclients = {self.keeps}"
        return f"""version = 2{clients}
listen = "127.0.0.1:8080"
backend = "127.0.0.1:9000"
backlog = {self.backlog}
timeout_ms = 1
promote = "{"all" if self.promotes_all else "newest"}"
keep = 16
[limit]
{kind}
[[class]]
name = "live"
share = {LIVE}
[[resolver]]
kind = "header"
header = "X-Class"
[[bypass]]
kind = "prefix"
prefix = "/health"
"""

    def text(self) -> str:
        lines = [f"day {self.workers} {self.held} {int(self.is_busy)} {self.places} {self.drain}"]
        lines.append("o " + " ".join(str(it) for it in self.order))
        lines += [f"s {it}" for it in self.settings().splitlines()]
        for client in self.clients:
            lines += client.lines() if client else ["n"]
        return "\n".join(lines) + "\n"
