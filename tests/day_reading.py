"""How the bytes of a client are cut into requests, written from `docs/FORMATS.md` for what `day_drawing.py` draws."""
import dataclasses
import re

from day_drawing import CLOSES, SLOW, Client

EMPTY_LINES = re.compile(rb"(?:\r?\n)*")
HEAD_END = re.compile(rb"\n\r?\n")
FIRST = re.compile(rb"([!#$%&'*+.^_`|~0-9A-Za-z-]+) (\S+) HTTP/1\.([01])\r\n")
SIZE = re.compile(rb"([0-9A-Fa-f]+)\r\n")
MOST_BODY = 8_388_608
# What ends a client's request where a clock is looked at: so many pieces that are slow.
MOST_SLOW = 2


@dataclasses.dataclass(frozen=True)
class Request:
    """A request that was read."""

    method: bytes
    path: bytes
    body: bytes
    is_live: bool
    goes_on: bool

    @property
    def number(self) -> int:
        return int(self.path.rpartition(b"/")[2])

    @property
    def bypasses(self) -> bool:
        return self.path.startswith(b"/health")

    def given(self) -> bytes:
        """What the backend notes of it."""
        return b" ".join((self.method, self.path, self.body))


@dataclasses.dataclass(frozen=True)
class Reading:
    """What one exchange reads of its client: up to which of its bytes, whether a request ends there, the request or the
    status of the fault, 0 where no answer comes; and whether the client ended before a byte."""

    end: int
    is_drained: bool
    found: Request | int
    is_empty: bool = False


def cut(text: bytes) -> tuple[int, Request | int] | None:
    """The request or the fault's status that these bytes begin with, and how many they are; None where they don't tell
    it."""
    begin = EMPTY_LINES.match(text).end()  # type: ignore[union-attr]
    found = HEAD_END.search(text, begin)
    if not found:
        return None
    end, head = found.end(), text[begin : found.end()]
    first = FIRST.match(head)
    if not first:
        return end, 400
    method, target, minor = first.groups()
    lines = [it.partition(b": ") for it in head[first.end() :].splitlines() if it]
    status = fault_of(method, target, minor, lines)
    if status:
        return end, status
    options = [it.strip().lower() for value in values(lines, b"connection") for it in value.split(b",")]
    whole = body_of(text, end, lines)
    if not whole:
        return None
    end, body = whole
    if isinstance(body, int):
        return end, body
    is_live = b"live" in values(lines, b"x-class")
    return end, Request(method, target, body, is_live, minor == b"1" and b"close" not in options)


def values(lines: list[tuple[bytes, bytes, bytes]], name: bytes) -> list[bytes]:
    return [value for it, _, value in lines if it.lower() == name]


def fault_of(method: bytes, target: bytes, minor: bytes, lines: list[tuple[bytes, bytes, bytes]]) -> int:
    """The status of the first fault of a head, and 0 without one."""
    hosts, codings = len(values(lines, b"host")), values(lines, b"transfer-encoding")
    lengths = {*values(lines, b"content-length")}
    if method in (b"CONNECT", b"TRACE"):
        return 501
    if not target.startswith(b"/") or hosts > 1 or hosts == 0 and minor == b"1" or codings and lengths:
        return 400
    if codings and (minor == b"0" or codings != [b"chunked"]):
        return 400 if minor == b"0" else 501
    if len(lengths) > 1:
        return 400
    return 413 if lengths and int(lengths.pop()) > MOST_BODY else 0


def body_of(text: bytes, at: int, lines: list[tuple[bytes, bytes, bytes]]) -> tuple[int, bytes | int] | None:
    """The body that comes from here on, or the status of its fault, and where it ends; None where it isn't whole."""
    if values(lines, b"transfer-encoding"):
        return chunks(text, at)
    lengths = values(lines, b"content-length")
    end = at + int(lengths[0]) if lengths else at
    return (end, text[at:end]) if end <= len(text) else None


def chunks(text: bytes, at: int) -> tuple[int, bytes | int] | None:
    body = b""
    while (stop := text.find(b"\n", at) + 1) > 0:
        size = SIZE.fullmatch(text, at, stop)
        if not size:
            return stop, 400
        length = int(size[1], 16)
        end = stop + length + 2
        if end > len(text):
            return None
        body += text[stop : stop + length]
        # What follows the last chunk is an empty line here.
        if not length:
            return end, body
        at = end
    return None


def read_from(client: Client, at: int) -> Reading:
    """What an exchange reads that comes to the client when so many of its bytes are read."""
    whole = cut(client.sent[at:])
    end, slow = at, 0
    for stop, pause in client.pieces(at):
        if slow == MOST_SLOW:
            return Reading(end, True, 0)
        end, slow = stop, slow + (pause == SLOW)
        if whole and at + whole[0] <= end:
            return Reading(end, at + whole[0] == end, whole[1])
    # The end within a request is malformed; a break and silence are answered by nothing.
    is_told = client.ending == CLOSES and slow < MOST_SLOW
    return Reading(end, True, 400 if is_told else 0, client.ending == CLOSES and end == at)
