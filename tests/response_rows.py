"""Responses as a backend sends them, each with what the client gets; some give 502.

`|` is CR LF, and `>` is the line at the end of each head that is passed on. The rows come from the profile of
`docs/FORMATS.md` and from RFC 9110 and RFC 9112.
"""

# A response that says where it ends, and the one form that it is passed on in.
PASSED_ON = [
    ("HTTP/1.1 503 Busy|Content-Length: 2||no", "HTTP/1.1 503 Service Unavailable|Content-Length: 2|>no"),
    ("HTTP/1.1 200 OK|Transfer-Encoding: chunked||3|abc|0|X: y||", "HTTP/1.1 200 OK|Content-Length: 3|>abc"),
    ("HTTP/1.1 200 OK|Content-Length: 3, 3||abcd", "HTTP/1.1 200 OK|Content-Length: 3|>abc"),
    ("HTTP/1.0 404 OK|Content-Length: 3||abc", "HTTP/1.1 404 Not Found|Content-Length: 3|>abc"),
    ("||HTTP/1.1 200|Content-Length: 0||", "HTTP/1.1 200 OK|Content-Length: 0|>"),
    ("HTTP/1.1 200 |Content-Length: 0||", "HTTP/1.1 200 OK|Content-Length: 0|>"),
    ("HTTP/1.1 299 A\tB|Content-Length: 0||", "HTTP/1.1 299 |Content-Length: 0|>"),
    ("HTTP/1.1 999 A|Content-Length: 1||a", "HTTP/1.1 999 |Content-Length: 1|>a"),
    ("HTTP/1.1 200 \xe9\nX: 1\nContent-Length: 1\n\na", "HTTP/1.1 200 OK|X: 1|Content-Length: 1|>a"),
    (
        "HTTP/1.1 200 OK|Connection: x|X: 1|Expect: a|Via: b|Content-Length: 0||",
        "HTTP/1.1 200 OK|Expect: a|Via: b|Content-Length: 0|>",
    ),
    (
        "HTTP/1.1 200 OK|Upgrade: a|Trailer: b|Keep-Alive: c|Host: h|TE: d|Content-Length: 0||",
        "HTTP/1.1 200 OK|Host: h|Content-Length: 0|>",
    ),
    ("HTTP/1.1 100 Continue||HTTP/1.1 200 OK|Content-Length: 0||", "HTTP/1.1 200 OK|Content-Length: 0|>"),
    (
        "HTTP/1.1 103 A|Content-Length: 3||\n|HTTP/1.1 199 B||HTTP/1.1 200 OK|Content-Length: 0||",
        "HTTP/1.1 200 OK|Content-Length: 0|>",
    ),
]
# Responses without lengths, which the end of the connection ends.
TO_THEIR_END = [
    ("HTTP/1.1 200 OK||abc", "HTTP/1.1 200 OK|Content-Length: 3|>abc"),
    ("HTTP/1.1 200 OK||", "HTTP/1.1 200 OK|Content-Length: 0|>"),
    ("HTTP/1.0 200 OK||abc", "HTTP/1.1 200 OK|Content-Length: 3|>abc"),
]
# Responses of statuses that have no body, whatever their lengths say.
WITHOUT_BODY = [
    ("HTTP/1.1 204 No Content|Content-Length: 5||", "HTTP/1.1 204 No Content|>"),
    ("HTTP/1.1 204 A|Transfer-Encoding: gzip|Content-Length: a||", "HTTP/1.1 204 No Content|>"),
    ("HTTP/1.1 304 A||abc", "HTTP/1.1 304 Not Modified|>"),
    ("HTTP/1.1 304 A|Content-Length: 007|X: 1||abc", "HTTP/1.1 304 Not Modified|X: 1|Content-Length: 007|>"),
    (
        "HTTP/1.1 304 A|Content-Length: 5, 5|Connection: content-length||",
        "HTTP/1.1 304 Not Modified|Content-Length: 5|>",
    ),
    (
        "HTTP/1.1 304 A|Content-Length: 99999999999999999999||",
        "HTTP/1.1 304 Not Modified|Content-Length: 99999999999999999999|>",
    ),
    ("HTTP/1.1 304 A|Content-Length: 5|Content-Length: 6||", "HTTP/1.1 304 Not Modified|>"),
    ("HTTP/1.1 304 A|Content-Length: +5||", "HTTP/1.1 304 Not Modified|>"),
]
# Responses to HEAD.
TO_HEAD = [
    ("HTTP/1.1 200 OK|Content-Length: 5||", "HTTP/1.1 200 OK|Content-Length: 5|>"),
    ("HTTP/1.1 200 OK|Content-Length: 8388609||", "HTTP/1.1 200 OK|Content-Length: 8388609|>"),
    ("HTTP/1.1 200 OK||abc", "HTTP/1.1 200 OK|>"),
    ("HTTP/1.1 200 OK|Transfer-Encoding: chunked||3|abc|0||", "HTTP/1.1 200 OK|>"),
    ("HTTP/1.1 200 OK|Transfer-Encoding: gzip||", "HTTP/1.1 200 OK|>"),
    ("HTTP/1.1 200 OK|Content-Length: 3|Content-Length: 4||", "HTTP/1.1 200 OK|>"),
    ("HTTP/1.1 204 A|Content-Length: 5||", "HTTP/1.1 204 No Content|>"),
]
# What is no response to HEAD either.
MALFORMED_TO_HEAD = ["HTTP/1.1 101 A||", "HTTP/1.1 200 OK|X : a||"]
# What is no response: heads, lengths and chunks.
MALFORMED = [
    "HTTP/1.1 101 Switching Protocols||",
    "HTTP/1.1 100 Continue||HTTP/1.1 101 A||",
    "HTTP/1.1 099 A||",
    "HTTP/1.1 000 A||",
    "HTTP/1.1 20 A||",
    "HTTP/1.1 2000 A||",
    "HTTP/1.1 +20 A||",
    "HTTP/1.1 2x0 A||",
    "HTTP/1.1  200 A||",
    "HTTP/1.1\t200 A||",
    "HTTP/1.2 200 A||",
    "HTTP/2.0 200 A||",
    "HTTP/2 200 A||",
    "http/1.1 200 A||",
    "ICY 200 OK||",
    " HTTP/1.1 200 A||",
    "X: a|HTTP/1.1 200 A||",
    "HTTP/1.1 200 A\x00||",
    "HTTP/1.1 200 A\rB||",
    "HTTP/1.1 200 A|X : a||",
    "HTTP/1.1 200 A|X: a| b||",
    "HTTP/1.1 200 A| X: a||",
    "HTTP/1.1 200 A|: a||",
    "HTTP/1.1 200 A|Transfer-Encoding : chunked||0||",
    "HTTP/1.1 200 A|Content-Length: 3|Content-Length: 4||abcd",
    "HTTP/1.1 200 A|Content-Length: +3||abc",
    "HTTP/1.1 200 A|Content-Length:||",
    "HTTP/1.0 200 A|Transfer-Encoding: chunked||3|abc|0||",
    "HTTP/1.1 200 A|Transfer-Encoding: chunked||3|abcd",
]
# A coding beside a length.
BOTH_LENGTHS = [
    "HTTP/1.1 200 A|Transfer-Encoding: chunked|Content-Length: 3||3|abc|0||",
    "HTTP/1.0 200 A|Content-Length: 3|Transfer-Encoding: chunked||abc",
]
# Codings but chunked alone.
UNKNOWN_CODINGS = [
    "HTTP/1.1 200 A|Transfer-Encoding: gzip, chunked||0||",
    "HTTP/1.1 200 A|Transfer-Encoding: chunked|Transfer-Encoding: chunked||0||",
]
# Bodies that are too large.
TOO_LARGE = ["HTTP/1.1 200 A|Content-Length: 8388609||", "HTTP/1.1 200 A|Transfer-Encoding: chunked||3|abc|7ffffe|"]
# Responses that are cut short.
CUT = [
    "",
    "HTTP/1.1 100 Continue||",
    "HTTP/1.1 200 A|",
    "HTTP/1.1 200 A|Content-Length: 3||ab",
    "HTTP/1.1 200 A|Transfer-Encoding: chunked||3|abc|",
]
