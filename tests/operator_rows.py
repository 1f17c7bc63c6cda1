"""The operator's address, call by call, for `tests/serve`: its answers, its refusals in their order, and the format of
its metrics.
"""

import re
from collections.abc import Iterator

from wires import local

MARK = "X-Admission: yes"
PHRASES = {
    200: "OK",
    400: "Bad Request",
    403: "Forbidden",
    404: "Not Found",
    405: "Method Not Allowed",
    409: "Conflict",
    503: "Service Unavailable",
}
FOREIGN = (403, "the host isn't this address\n")
NOTHING = (404, "nothing is here\n")
OTHER = (405, "another method is wanted\n")
UNMARKED = (403, "a POST wants the line X-Admission: yes\n")
NO_NUMBER = (400, "the body isn't a number\n")
OUT_OF_RANGE = (400, "the number is out of the limit's range\n")
NOT_SETTABLE = (409, "the limit isn't of the kind settable\n")
DONE = (200, "ok\n")
CLOSING = (503, "draining\n")
BUSY = (503, "busy\n")
UNREACHED = (503, "the backend can't be reached\n")
OTHER_QUERY = (400, "the query isn't after-ms=N with N from 1 to 3600000\n")
LEFT = (400, "the caller has left: nothing was changed\n")
DRAINED = (200, "draining\n")
# The families of /metrics in their order, with their kinds, and of those with labels the label. The times of a limit
# are told as those of a histogram are, and like its queue only where it knows them.
FAMILIES = {
    "admission_limit": ("gauge", None),
    "admission_in_flight": ("gauge", None),
    "admission_waiting": ("gauge", None),
    "admission_granted": ("gauge", None),
    "admission_limit_least": ("gauge", None),
    "admission_limit_greatest": ("gauge", None),
    "admission_limit_info": ("gauge", "kind"),
    "admission_limit_base_seconds": ("gauge", None),
    "admission_limit_window_mean_seconds": ("gauge", None),
    "admission_limit_window_calls": ("gauge", None),
    "admission_limit_queue": ("gauge", None),
    "admission_limit_set_by_hand": ("gauge", None),
    "admission_class_in_flight": ("gauge", "class"),
    "admission_class_share": ("gauge", "class"),
    "admission_class_waiting": ("gauge", "class"),
    "admission_class_refused_total": ("counter", "class,cause"),
    "admission_class_outcomes_total": ("counter", "class,outcome"),
    "admission_class_promoted_total": ("counter", "class"),
    "admission_decisions_total": ("counter", "decision"),
    "admission_outcomes_total": ("counter", "outcome"),
    "admission_responses_total": ("counter", "status"),
    "admission_answers_total": ("counter", "status"),
    "admission_empty_connections_total": ("counter", None),
    "admission_troubles_total": ("counter", "trouble"),
    "admission_backend_connections_total": ("counter", "event"),
    "admission_open_backend_connections": ("gauge", None),
    "admission_idle_backend_connections": ("gauge", None),
    "admission_backend_unreached": ("gauge", None),
    "admission_client_connections_total": ("counter", "event"),
    "admission_silent_client_connections": ("gauge", None),
    "admission_idle_client_connections": ("gauge", None),
    "admission_workers": ("gauge", None),
    "admission_busy_workers": ("gauge", None),
    "admission_oldest_permit_seconds": ("gauge", None),
    "admission_permit_wait_seconds": ("histogram", "le"),
    "admission_round_trip_seconds": ("histogram", "le"),
    "admission_exchange_seconds": ("histogram", "le"),
    "admission_uptime_seconds": ("gauge", None),
    "admission_build_info": ("gauge", "version"),
}

# What a limit tells that changes by hand at most.
UNMEASURED = {
    "limit_base_seconds": {},
    "limit_window_mean_seconds": {},
    "limit_window_calls": {},
    "limit_queue": {},
    "limit_set_by_hand": 1,
}


def told(
    answer: tuple[int, str], media: str = "text/plain; charset=utf-8", allow: str | None = None, has_body: bool = True
) -> bytes:
    """What the address answers: a status with a text."""
    status, text = answer
    lines = [f"HTTP/1.1 {status} {PHRASES[status]}", f"Content-Type: {media}", "Cache-Control: no-store"]
    lines += [f"Allow: {allow}"] if allow else []
    lines += [f"Content-Length: {len(text.encode())}"]
    return "\r\n".join([*lines, "Connection: close", "", text if has_body else ""]).encode()


def request(first: str, *lines: str, body: str | None = None) -> bytes:
    """The bytes of a request; a body has its length in front of it."""
    length = () if body is None else (f"Content-Length: {len(body)}",)
    return "\r\n".join([first, *lines, *length, "", body or ""]).encode()


def refusals(port: int) -> Iterator[tuple[str, bytes, bytes]]:
    """Requests that are no calls, each with what is told of it: every one has the faults of those behind it, too."""
    own, get, post = f"Host: 127.0.0.1:{port}", "GET /health HTTP/1.1", "POST /limit HTTP/1.1"
    for host in ("h", f"localhost:{port}", "127.0.0.1", f"127.0.0.1:{port + 1}", f"127.0.0.2:{port}", ""):
        yield f"of the host {host!r}", request("PUT /nothing HTTP/1.1", f"Host: {host}"), told(FOREIGN)
        yield f"a look of the host {host!r}", request(get, f"Host: {host}"), told(FOREIGN)
        yield f"a POST of the host {host!r}", request("POST /drain HTTP/1.1", f"Host: {host}", MARK), told(FOREIGN)
    yield "of no host", request("GET /health HTTP/1.0"), told(FOREIGN)
    absolute = f"POST http://localhost:{port}/drain HTTP/1.1"
    yield "of a target elsewhere", request(absolute, own, MARK), told(FOREIGN)
    for path in ("/nothing", "/health/", "/Health", "//health", "/metrics/x", "/%68ealth"):
        yield f"of the path {path}", request(f"PUT {path} HTTP/1.1", own), told(NOTHING)
    yield "of no path", request("OPTIONS * HTTP/1.1", own), told(NOTHING)
    for path in ("/", "/metrics", "/health"):
        for method in ("POST", "PUT", "DELETE", "OPTIONS", "get"):
            yield f"{method} {path}", request(f"{method} {path} HTTP/1.1", own), told(OTHER, allow="GET, HEAD")
    for path in ("/limit", "/reset", "/drain"):
        for method in ("GET", "PUT", "OPTIONS", "post"):
            yield f"{method} {path}", request(f"{method} {path} HTTP/1.1", own), told(OTHER, allow="POST")
        yield f"HEAD {path}", request(f"HEAD {path} HTTP/1.1", own), told(OTHER, allow="POST", has_body=False)
        for lines in ((), ("X-Admission: no",), ("X-Admission: Yes",), ("X-Admission: no", MARK), ("X-Other: yes",)):
            words = request(f"POST {path} HTTP/1.1", own, *lines, body="no number")
            yield f"POST {path} with {lines}", words, told(UNMARKED)
    for body in (None, "", "no number", "-1", "+3", " 3", "3\n", "3.0", "0x3", "4294967296", "9" * 40):
        yield f"a limit of {body!r}", request(post, own, MARK, body=body), told(NO_NUMBER)


def unread(port: int) -> Iterator[tuple[str, bytes, bytes]]:
    """What can't be read is answered as at the front, by a status alone."""
    own = f"Host: 127.0.0.1:{port}"
    yield "without a host", request("GET /health HTTP/1.1"), local(400)
    yield "with two hosts", request("GET /health HTTP/1.1", own, own), local(400)
    yield "that is none", b"no request at all\r\n\r\n", local(400)
    yield "of two lengths", request("POST /limit HTTP/1.1", own, MARK, "Transfer-Encoding: chunked", body="3"), local(
        400
    )
    yield "to connect", request("CONNECT h:1 HTTP/1.1", own), local(501)
    yield "of many lines", request("GET /health HTTP/1.1", own, *["X: y"] * 100), local(431)
    yield "of a large body", request("POST /limit HTTP/1.1", own, MARK, "Content-Length: 8388609"), local(413)


# The kind of a family, and its samples by a label with its value.
Family = tuple[str, dict[tuple[str | None, str | None], int]]


# Gauges in seconds that are told by nanoseconds.
NANOSECONDS = ("admission_limit_base_seconds", "admission_limit_window_mean_seconds")
# The bounds of a histogram, in seconds.
BOUNDS = ("0.0005", "0.001", "0.0025", "0.005", "0.01", "0.025", "0.05", "0.1", "0.25", "0.5", "1", "2.5", "5", "10")
LABEL = r'[a-zA-Z_]\w*="[^"\\\n]*"'


def families_of(text: str) -> dict[str, Family]:
    """The families of a text in Prometheus's format: by name the kind, and the samples by the names and the values of
    their labels, each joined by commas, or by nothing where they have none. A histogram has its buckets by their
    bounds, and `sum`, in nanoseconds, and `count` in place of a bound. A text of another form is an error."""
    found: dict[str, Family] = {}
    name = ""
    if not text.endswith("\n"):
        raise ValueError("the last line isn't ended")
    lines = iter(text[:-1].split("\n"))
    for line in lines:
        if head := re.fullmatch(r"# HELP ([a-zA-Z_:][\w:]*) (\S.*)", line):
            name = head[1]
            kind = re.fullmatch(rf"# TYPE {name} (gauge|counter|histogram)", next(lines))
            if name in found or not kind:
                raise ValueError(f"a family a second time, or without its kind: {line}")
            found[name] = (kind[1], {})
            continue
        kinds, samples = found[name]
        parts = r"(_bucket|_sum|_count)" if kinds == "histogram" else "()"
        sample = re.fullmatch(rf"{name}{parts}(?:\{{({LABEL}(?:,{LABEL})*)\}})? (\d+)(e-9)?", line)
        is_exact = kinds == "gauge" and name in NANOSECONDS
        if not sample or bool(sample[4]) != (is_exact or sample[1] == "_sum"):
            raise ValueError(f"no sample of {name}: {line}")
        if kinds == "histogram" and bool(sample[2]) != (sample[1] == "_bucket"):
            raise ValueError(f"no sample of {name}: {line}")
        labels = re.findall(r'(\w+)="([^"]*)"', sample[2] or "")
        key = (",".join(it[0] for it in labels) or None, ",".join(it[1] for it in labels) or None)
        if sample[1] in ("_sum", "_count"):
            key = ("le", sample[1][1:])
        if key in samples:
            raise ValueError(f"a second sample of {name}: {line}")
        samples[key] = int(sample[3])
    return found


def histogram_faults(samples: dict[str, int]) -> list[str]:
    """What is wrong in a histogram by its bounds, `sum` and `count`: its bounds are those that are documented, in their
    order, the counts rise, the last is that of all, and the sum lies between those of the lowest and the highest times
    that the buckets allow."""
    wrong = [] if [*samples] == [*BOUNDS, "+Inf", "sum", "count"] else ["the bounds"]
    counts = [samples.get(it, 0) for it in (*BOUNDS, "+Inf")]
    wrong += [] if counts == sorted(counts) else ["a count that falls"]
    wrong += [] if counts[-1] == samples.get("count") else ["the count of all"]
    ends = [0, *(round(float(it) * 1e9) for it in BOUNDS)]
    each = [count - below for below, count in zip([0, *counts], counts)]
    least = sum(count * end for count, end in zip(each, ends))
    wrong += [] if least <= samples.get("sum", -1) + counts[-1] else ["a sum below its buckets"]
    if not each[-1]:
        most = sum(count * end for count, end in zip(each, ends[1:]))
        wrong += [] if samples.get("sum", most) <= most else ["a sum above its buckets"]
    return wrong
