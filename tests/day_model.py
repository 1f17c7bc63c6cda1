"""What comes of a day in memory: of each exchange on every day, and of all of it by one worker under a fixed limit."""
import dataclasses
import http.client
import typing

from day_drawing import ABSENT, ALL, BROKEN, LATE, MEMORY, STALE, STALLS, UNKEPT, Asked, Client, Day
from day_reading import Reading, Request, read_from
from wires import PHRASES

COUNTERS = "admitted bypassed full backlog waiting promoted timed_out success ignored dropped".split()
# What the reports count: the gateway's own answers, clients who sent nothing, and how permits ended.
OWN = (400, 413, 429, 431, 500, 501, 502, 504)
OUTCOMES = ("success", "ignored", "dropped")
TOLD = [*(str(it) for it in OWN), "empty", *OUTCOMES]
# What a backend that gives no response comes to: what the client gets, and what the gate counts.
SAID = {
    ABSENT: (502, "ignored"),
    BROKEN: (502, "dropped"),
    LATE: (504, "dropped"),
    MEMORY: (500, "ignored"),
    STALE: (502, "dropped"),
}


class Step(typing.NamedTuple):
    """An exchange as it ended: what is told of it, whether its client is kept, how many of the client's bytes were read
    by then, and what was written to it."""

    told: int
    is_kept: bool
    read: int
    text: bytes


@dataclasses.dataclass(frozen=True)
class Answer:
    """What a client gets: a status, 0 for nothing, whether it is the gateway's own, the length that it tells, its body,
    whether that tells where it ends, and what the gate counts of it."""

    status: int
    is_own: bool = False
    length: int | None = None
    body: bytes = b""
    is_delimited: bool = True
    outcome: str | None = None

    def text(self, is_kept: bool) -> bytes:
        if not self.status:
            return b""
        phrase = {**http.client.responses, **PHRASES}.get(self.status, "")
        lines = [f"HTTP/1.1 {self.status} {phrase}"]
        if self.length is not None:
            lines.append(f"Content-Length: {self.length}")
        if not is_kept:
            lines.append("Connection: close")
        return "\r\n".join([*lines, "", ""]).encode() + self.body


def own(status: int, outcome: str | None = None) -> Answer:
    """The gateway's own answer."""
    return Answer(status, status > 0, 0, outcome=outcome)


def counted_of(status: int) -> str:
    """What the gate counts of a response."""
    if status in (429, 503, 504):
        return "dropped"
    return "success" if status < 500 else "ignored"


def answer_of(asked: Asked, request: Request, is_later: bool) -> Answer:
    """What comes of a request that is forwarded, on the first turn of its client or on a later one."""
    if asked.says == STALE and is_later:
        return Answer(0, is_delimited=False, outcome=SAID[STALE][1])
    if asked.says in SAID:
        return own(*SAID[asked.says])
    outcome = counted_of(asked.says)
    if request.method == b"HEAD" or asked.says in (204, 304):
        return Answer(asked.says, outcome=outcome)
    if not asked.has_body:
        return Answer(asked.says, is_delimited=False, outcome=outcome)
    return Answer(asked.says, False, len(request.path), request.path, outcome=outcome)


def takes(client: Client, place: int) -> int:
    """How much a client takes of its answer of this place."""
    return client.asked[place].takes if place < len(client.asked) else ALL


def may_keep(reading: Reading, answer: Answer) -> bool:
    """Whether a client may be told that its connection goes on."""
    found = reading.found
    return isinstance(found, Request) and found.goes_on and reading.is_drained and answer.is_delimited


def step_of(client: Client, place: int, reading: Reading, answer: Answer, keeps: bool) -> Step:
    """An exchange with this answer, where the door keeps clients or doesn't."""
    is_told = keeps and may_keep(reading, answer)
    text, most = answer.text(is_told), takes(client, place)
    return Step(answer.status, is_told and len(text) <= most, reading.end, text[:most])


class Tally:
    """What the reports count, all together."""

    def __init__(self) -> None:
        self.counts = dict.fromkeys(TOLD, 0)

    def count(self, reading: Reading, answer: Answer) -> None:
        """Counts an exchange."""
        if reading.is_empty:
            self.counts["empty"] += 1
        elif answer.is_own:
            self.counts[str(answer.status)] += 1
        if answer.outcome and isinstance(reading.found, Request) and not reading.found.bypasses:
            self.counts[answer.outcome] += 1


class Visit:
    """A client on its way through a day: how many of its bytes are read, and its exchanges."""

    def __init__(self, client: Client) -> None:
        self.client, self.at = client, 0
        self.steps: list[Step] = []

    def has_more(self) -> bool:
        return self.at < len(self.client.sent)

    def reading(self) -> Reading:
        """What its next exchange reads."""
        return read_from(self.client, self.at)

    def note(self, step: Step) -> None:
        self.steps.append(step)
        self.at = step.read


class Model:
    """What one worker makes of a day under a fixed limit: each client's exchanges, what is forwarded, the turns of the
    door, the counters of the gate and those of the reports."""

    def __init__(self, day: Day) -> None:
        self.day, self.counts, self.tally = day, dict.fromkeys(COUNTERS, 0), Tally()
        self.counts["admitted"] = self.counts["ignored"] = day.held
        self.visits = [Visit(it) if it else None for it in day.clients]
        self.given: list[bytes | None] = [None] * len(day.asked)
        self.unaccepted = self.kept = 0
        self.waiting: list[Visit] = []
        self.is_drained = False
        self.serve_all()

    def serve_all(self) -> None:
        """Has the clients come in the order of the day."""
        visit: Visit | None
        turn, new = 0, [*self.visits]
        while True:
            if turn >= self.day.drain:
                self.is_drained, self.waiting = True, []
            self.waiting = [it for it in self.waiting if it.has_more() or it.client.ending == STALLS]
            begun = [it for it in self.waiting if it.has_more()]
            count = len(begun) + bool(new)
            if not count:
                self.unaccepted += 1
                return
            number = self.day.order[turn % len(self.day.order)]
            turn += 1
            if number % count < len(begun):
                visit = begun[number % count]
                self.waiting.remove(visit)
            else:
                visit = new.pop(0)
            if visit:
                self.serve(visit, number != UNKEPT)
            else:
                self.unaccepted += 1

    def serve(self, visit: Visit, keeps: bool) -> None:
        """Has a client served by one exchange, and kept where it may be: of those who wait the first one goes where all
        places are taken."""
        reading, place = visit.reading(), len(visit.steps)
        answer = self.answer(reading, place > 0)
        self.tally.count(reading, answer)
        keeps = keeps and bool(self.day.keeps) and not self.is_drained
        step = step_of(visit.client, place, reading, answer, keeps)
        visit.note(step)
        if step.is_kept:
            self.kept += 1
            self.waiting = [*self.waiting, visit][-self.day.places :]

    def answer(self, reading: Reading, is_later: bool) -> Answer:
        """What a client gets, by what was read of it."""
        found = reading.found
        if isinstance(found, int):
            return own(found)
        if not self.is_let_in(found):
            return own(429)
        self.given[found.number] = found.given()
        answer = answer_of(self.day.asked[found.number], found, is_later)
        if not found.bypasses:
            self.counts[answer.outcome or ""] += 1
        return answer

    def is_let_in(self, request: Request) -> bool:
        """By the reply rule: nobody but the holder is in flight, and of `live` nobody is."""
        if request.bypasses:
            self.counts["bypassed"] += 1
        elif self.day.held < self.day.limit or request.is_live:
            self.counts["admitted"] += 1
        elif self.day.backlog:
            self.counts["waiting"] += 1
            self.counts["timed_out"] += 1
            return False
        else:
            self.counts["backlog"] += 1
            return False
        return True
