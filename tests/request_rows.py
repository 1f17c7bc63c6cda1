"""Requests as clients send them, each with what is forwarded or the status that refuses it.

`|` is CR LF, and `>` is the two lines at the end of each forwarded head. The rows come from the profile of
`docs/FORMATS.md` and from RFC 9110 and RFC 9112; most of them are known to be read in two ways by other programs.
"""

# A request, and the one form that it is forwarded in: first without a body, in chunks, and of HTTP/1.0.
USUAL = [
    ("GET /a HTTP/1.1|Host: h|X-Class: live|Connection: x-y|X-Y: 1||", "GET /a HTTP/1.1|Host: h|X-Class: live|>"),
    (
        "POST /a HTTP/1.1|Host: h|Transfer-Encoding: chunked||3|abc|0||",
        "POST /a HTTP/1.1|Host: h|Content-Length: 3|>abc",
    ),
    (
        "POST /a HTTP/1.0|Content-Length: 3|Content-Length: 3||abc",
        "POST /a HTTP/1.1|Host: 127.0.0.1:9000|Content-Length: 3|Via: 1.0 admission|Connection: close||abc",
    ),
]
FORWARDED = [
    *USUAL,
    ("POST /a HTTP/1.1|Host: h|Content-Length: 3, 3||abc", "POST /a HTTP/1.1|Host: h|Content-Length: 3|>abc"),
    ("GET HTTP://h2?b HTTP/1.1|Host: h||", "GET /?b HTTP/1.1|Host: h2|>"),
    ("GET http://h2:80/a?b HTTP/1.1|X: 1|HOST: h|Y: 2||", "GET /a?b HTTP/1.1|X: 1|HOST: h2:80|Y: 2|>"),
    ("GET http://h2 HTTP/1.0|X: 1||", "GET / HTTP/1.1|X: 1|Host: h2|Via: 1.0 admission|Connection: close||"),
    ("OPTIONS * HTTP/1.1|Host: h||", "OPTIONS * HTTP/1.1|Host: h|>"),
    ("OPTIONS http://h2 HTTP/1.1|Host: h||", "OPTIONS * HTTP/1.1|Host: h2|>"),
    ("OPTIONS http://h2/ HTTP/1.1|Host: h||", "OPTIONS / HTTP/1.1|Host: h2|>"),
    ("POST / HTTP/1.1|Host: h|Content-Length: 0||", "POST / HTTP/1.1|Host: h|Content-Length: 0|>"),
    ("POST / HTTP/1.1|Host: h||", "POST / HTTP/1.1|Host: h|>"),
    ("GET / HTTP/1.0|Host: h||", "GET / HTTP/1.1|Host: h|Via: 1.0 admission|Connection: close||"),
]
# Lines of one connection, which are dropped.
OF_ONE_CONNECTION = [
    ("GET / HTTP/1.1|Host: h|Connection: close, X-Y ,x-z|X-Y: 1|X-Z: 2|X: 3||", "GET / HTTP/1.1|Host: h|X: 3|>"),
    ("GET / HTTP/1.1|Host: h|X-Y: 1|Connection: a|CONNECTION: x-y||", "GET / HTTP/1.1|Host: h|>"),
    ("GET / HTTP/1.1|Host: h|Connection: host||", "GET / HTTP/1.1|Host: h|>"),
    ("GET / HTTP/1.1|Host: h|Connection: X|X-Y: 1||", "GET / HTTP/1.1|Host: h|X-Y: 1|>"),
    (
        "POST / HTTP/1.1|Host: h|Connection: content-length|Content-Length: 3||abc",
        "POST / HTTP/1.1|Host: h|Content-Length: 3|>abc",
    ),
    ("GET / HTTP/1.1|Host: h|Proxy-Connection: a|Keep-Alive: b||", "GET / HTTP/1.1|Host: h|>"),
    ("GET / HTTP/1.1|Host: h|TE: trailers|Trailer: X||", "GET / HTTP/1.1|Host: h|>"),
    ("GET / HTTP/1.1|Host: h|Connection: upgrade|Upgrade: h2c|Expect: a||", "GET / HTTP/1.1|Host: h|>"),
    ("GET / HTTP/1.1|Host: h|Via: 1.0 a||", "GET / HTTP/1.1|Host: h|Via: 1.0 a|>"),
]
# Targets and hosts.
TARGETS = [
    ("GET / HTTP/1.1|Host: a, b||", "GET / HTTP/1.1|Host: a, b|>"),
    ("GET / HTTP/1.1|Host: u@h||", "GET / HTTP/1.1|Host: u@h|>"),
    ("GET / HTTP/1.1|Host:||", "GET / HTTP/1.1|Host: |>"),
    ("GET / HTTP/1.1|HOST: H||", "GET / HTTP/1.1|HOST: H|>"),
    ("GET /a#f HTTP/1.1|Host: h||", "GET /a#f HTTP/1.1|Host: h|>"),
    ("GET http://h2#f HTTP/1.1|Host: h||", "GET / HTTP/1.1|Host: h2#f|>"),
    ("GET http://h2/a#f HTTP/1.1|Host: h||", "GET /a#f HTTP/1.1|Host: h2|>"),
    ("GET http://h2/u@h HTTP/1.1|Host: h||", "GET /u@h HTTP/1.1|Host: h2|>"),
    ("GET http://h2?u@h HTTP/1.1|Host: h||", "GET /?u@h HTTP/1.1|Host: h2|>"),
    ("GET http://h2//a HTTP/1.1|Host: h||", "GET //a HTTP/1.1|Host: h2|>"),
    ("GET //h2/a HTTP/1.1|Host: h||", "GET //h2/a HTTP/1.1|Host: h|>"),
    ("GET /http://u@h HTTP/1.1|Host: h||", "GET /http://u@h HTTP/1.1|Host: h|>"),
    ("GET /a/../b HTTP/1.1|Host: h||", "GET /a/../b HTTP/1.1|Host: h|>"),
    ("GET /%2e%2E/%00 HTTP/1.1|Host: h||", "GET /%2e%2E/%00 HTTP/1.1|Host: h|>"),
    ("GET /\xe9 HTTP/1.1|Host: h||", "GET /\xe9 HTTP/1.1|Host: h|>"),
    ("OPTIONS http://h2?a HTTP/1.1|Host: h||", "OPTIONS /?a HTTP/1.1|Host: h2|>"),
]
# First lines and header lines, with methods in any case and values past ASCII.
LINES = [
    ("||GET / HTTP/1.1|Host: h||", "GET / HTTP/1.1|Host: h|>"),
    ("\n|\nGET / HTTP/1.1|Host: h||", "GET / HTTP/1.1|Host: h|>"),
    ("GET / HTTP/1.1\nHost: h\n\n", "GET / HTTP/1.1|Host: h|>"),
    ("GET / HTTP/1.1|Host: h\n|", "GET / HTTP/1.1|Host: h|>"),
    ("GET / HTTP/1.1\nHost: h|\n", "GET / HTTP/1.1|Host: h|>"),
    ("POST / HTTP/1.1\nHost: h\nContent-Length: 3\n\nabc", "POST / HTTP/1.1|Host: h|Content-Length: 3|>abc"),
    ("POST / HTTP/1.1|Host:\th\t|Content-Length: \t3\t ||abc", "POST / HTTP/1.1|Host: h|Content-Length: 3|>abc"),
    ("GET / HTTP/1.1|Host:h||", "GET / HTTP/1.1|Host: h|>"),
    ("GET / HTTP/1.1|Host: h|X:||", "GET / HTTP/1.1|Host: h|X: |>"),
    ("GET / HTTP/1.1|Host: h|X: a \tb ||", "GET / HTTP/1.1|Host: h|X: a \tb|>"),
    ("GET / HTTP/1.1|Host: h|X: : a||", "GET / HTTP/1.1|Host: h|X: : a|>"),
    ("GET / HTTP/1.1|Host: h|X: \xe9||", "GET / HTTP/1.1|Host: h|X: \xe9|>"),
    ("GET / HTTP/1.1|Host: h|!#$%&'*+-.^_`~9: a||", "GET / HTTP/1.1|Host: h|!#$%&'*+-.^_`~9: a|>"),
    ("POST / HTTP/1.1|Host: h|Content_Length: 3||", "POST / HTTP/1.1|Host: h|Content_Length: 3|>"),
    ("POST / HTTP/1.1|Host: h|Transfer_Encoding: chunked||", "POST / HTTP/1.1|Host: h|Transfer_Encoding: chunked|>"),
    (
        "POST / HTTP/1.1|Host: h|X-Transfer-Encoding: chunked||",
        "POST / HTTP/1.1|Host: h|X-Transfer-Encoding: chunked|>",
    ),
    ("get / HTTP/1.1|Host: h||", "get / HTTP/1.1|Host: h|>"),
    ("trace / HTTP/1.1|Host: h||", "trace / HTTP/1.1|Host: h|>"),
    ("!#$%&'*+-.^_`~ / HTTP/1.1|Host: h||", "!#$%&'*+-.^_`~ / HTTP/1.1|Host: h|>"),
    ("GET / HTTP/1.1|Host: h|Content-Length: 3||abc", "GET / HTTP/1.1|Host: h|Content-Length: 3|>abc"),
    ("HEAD / HTTP/1.1|Host: h|Content-Length: 3||abc", "HEAD / HTTP/1.1|Host: h|Content-Length: 3|>abc"),
    ("GET / HTTP/1.1|Host: h|Transfer-Encoding: chunked||3|abc|0||", "GET / HTTP/1.1|Host: h|Content-Length: 3|>abc"),
    ("GET / HTTP/1.1|Host: h|X: a\udcff\udc80||", "GET / HTTP/1.1|Host: h|X: a\udcff\udc80|>"),
]
# Lengths and codings.
LENGTHS = [
    ("POST / HTTP/1.1|Host: h|Content-Length: 3,3 ,\t3||abc", "POST / HTTP/1.1|Host: h|Content-Length: 3|>abc"),
    ("POST / HTTP/1.1|Host: h|Content-Length: 003||abc", "POST / HTTP/1.1|Host: h|Content-Length: 3|>abc"),
    ("POST / HTTP/1.1|Host: h|Content-Length: 003, 003||abc", "POST / HTTP/1.1|Host: h|Content-Length: 3|>abc"),
    (
        "POST / HTTP/1.1|Host: h|content-length: 3|CONTENT-LENGTH: 3, 3||abc",
        "POST / HTTP/1.1|Host: h|Content-Length: 3|>abc",
    ),
    (
        "POST / HTTP/1.1|Host: h|Content-Length: 00000000000000000000000000003||abc",
        "POST / HTTP/1.1|Host: h|Content-Length: 3|>abc",
    ),
    (
        "POST / HTTP/1.0|Host: h|Content-Length: 3||abc",
        "POST / HTTP/1.1|Host: h|Content-Length: 3|Via: 1.0 admission|Connection: close||abc",
    ),
    ("POST / HTTP/1.1|Host: h|Transfer-Encoding: Chunked||3|abc|0||", "POST / HTTP/1.1|Host: h|Content-Length: 3|>abc"),
    ("POST / HTTP/1.1|Host: h|TRANSFER-ENCODING:CHUNKED||3|abc|0||", "POST / HTTP/1.1|Host: h|Content-Length: 3|>abc"),
    (
        "POST / HTTP/1.1|Host: h|Transfer-Encoding: \tchunked\t ||3|abc|0||",
        "POST / HTTP/1.1|Host: h|Content-Length: 3|>abc",
    ),
]
# Clients that are told nothing in front, whatever they expect.
NOT_ASKED = [
    (
        "POST / HTTP/1.0|Host: h|Expect: 100-continue|Content-Length: 3||abc",
        "POST / HTTP/1.1|Host: h|Content-Length: 3|Via: 1.0 admission|Connection: close||abc",
    ),
    ("POST / HTTP/1.1|Host: h|Expect: 100-continue|Content-Length: 0||", "POST / HTTP/1.1|Host: h|Content-Length: 0|>"),
    ("GET / HTTP/1.1|Host: h|Expect: 100-continue||", "GET / HTTP/1.1|Host: h|>"),
    (
        "POST / HTTP/1.1|Host: h|Expect: 100-continued|Content-Length: 3||abc",
        "POST / HTTP/1.1|Host: h|Content-Length: 3|>abc",
    ),
    ("POST / HTTP/1.1|Host: h|Content-Length: 3||abc", "POST / HTTP/1.1|Host: h|Content-Length: 3|>abc"),
]
# Clients that wait to be asked for a body, and are.
ASKED = [
    (
        "POST /a HTTP/1.1|Host: h|Expect: 100-continue|Content-Length: 3||abc",
        "POST /a HTTP/1.1|Host: h|Content-Length: 3|>abc",
    ),
    (
        "POST / HTTP/1.1|Host: h|expect:100-CONTINUE|Transfer-Encoding: chunked||3|abc|0||",
        "POST / HTTP/1.1|Host: h|Content-Length: 3|>abc",
    ),
    (
        "POST / HTTP/1.1|Host: h|Expect: 100-continue|Transfer-Encoding: chunked||0||",
        "POST / HTTP/1.1|Host: h|Content-Length: 0|>",
    ),
    (
        "POST / HTTP/1.1|Host: h|Expect: a|Expect: 100-continue|Content-Length: 3||abc",
        "POST / HTTP/1.1|Host: h|Content-Length: 3|>abc",
    ),
]
# A head whose body comes in chunks.
HEAD = "POST / HTTP/1.1|Host: h|Transfer-Encoding: chunked||"
# Bodies in chunks behind that head, and what is forwarded behind `Content-Length: `.
CHUNKS = [
    ("3;a=b|abc|0||", "3|>abc"),
    ('3;a="b c";d|abc|0;e||', "3|>abc"),
    ("3;\x00\xe9|abc|0||", "3|>abc"),
    ("3 |abc|0\t||", "3|>abc"),
    ("3 \t;a|abc|0||", "3|>abc"),
    ("a|0123456789|A|abcdefghij|0||", "20|>0123456789abcdefghij"),
    ("00b|0123456789A|0B|0123456789B|000||", "22|>0123456789A0123456789B"),
    ("0000000000000003|abc|0000000000000000||", "3|>abc"),
    ("6|a||b|0||", "6|>a||b"),
    ("5|0|||0||", "5|>0||"),
    ("0||", "0|>"),
    ("3|abc|0|X: y|Content-Length: 9|Transfer-Encoding: gzip||", "3|>abc"),
    ("3|abc|0|X y\n z|: |\x00\n\n", "3|>abc"),
]

# fmt: off
# Requests that are refused at once: a status, and what stands in front of the rows and behind each.
REFUSED = [
    # Methods.
    (501, "", "", [
        "TRACE / HTTP/1.1|Host: h||", "CONNECT h:80 HTTP/1.1|Host: h||", "TRACE http://u@h HTTP/1.1||",
    ]),
    # The first fault of several.
    (400, "", "", [
        "GET http://u@h HTTP/1.1|Transfer-Encoding: a|Content-Length: b||",
        "GET / HTTP/1.1|Transfer-Encoding: a|Content-Length: b||",
        "POST / HTTP/1.0|Transfer-Encoding: chunked||3|abc|0||",
        "POST / HTTP/1.0|Transfer-Encoding: gzip|Transfer-Encoding: chunked||0||",
        "GET / HTTP/1.1|Host: h|Host: h||", "POST / HTTP/1.1|Host: h|Content-Length: 3|Content-Length: 4||abcd",
        "POST / HTTP/1.1|Host: h|Content-Length: 8388609, 8388610||",
        "POST / HTTP/1.1|Host: h|Transfer-Encoding: chunked||3|abcd",
    ]),
    (400, "", "", [
        "GET / HTTP/1.1|Host: h|Transfer-Encoding: a|Content-Length: b||",
        "POST /a HTTP/1.1|Host: h|Transfer-Encoding: chunked|Content-Length: 3||3|abc|0||",
        "POST /a HTTP/1.1|Host: h|Content-Length: 3|Transfer-Encoding: chunked||3|abc|0||",
        "POST / HTTP/1.0|Transfer-Encoding: chunked|Content-Length: 3||abc",
    ]),
    (413, "", "", [
        "POST / HTTP/1.1|Host: h|Content-Length: 8388609||",
    ]),
    (501, "", "", [
        "POST / HTTP/1.1|Host: h|Transfer-Encoding: gzip, chunked||0||",
    ]),
    # Targets of no form, or with a user, or that are no text.
    (400, "GET ", " HTTP/1.1|Host: h||", [
        "http://u@h/", "http://u:p@h/", "http://@h", "http://h@", "http:///a", "http://", "http://?a", "HTTP:///",
        "https://h/", "ftp://h/", "http:/h/a", "http:h", "h:80", "a/b", "?a", "#a", "\\a", "*", "*/", "/\x00",
        "/\x7f", "/a\x0b", "/\x1f", "http://h/\x00", "/\udcff",
    ]),
    # No host, or two, or the form of another method.
    (400, "", "", [
        "GET / HTTP/1.1||", "GET / HTTP/1.1|X: h||", "GET http://h/ HTTP/1.1||", "GET / HTTP/1.1|Host: h|Host: h||",
        "GET / HTTP/1.1|Host: h|X: a|hOST: i||", "GET / HTTP/1.0|Host: h|Host: h||",
        "GET http://h/ HTTP/1.1|Host: h|Host: h||", "OPTIONS * HTTP/1.1||", "options * HTTP/1.1|Host: h||",
        "OPTIONS ** HTTP/1.1|Host: h||", "GET / HTTP/1.1|Host: h|Host:||", "GET / HTTP/1.1|Connection: host|X: h||",
    ]),
    # First lines.
    (400, "", "", [
        "Host: h|GET / HTTP/1.1||", "X: a|GET / HTTP/1.1|Host: h||", " GET / HTTP/1.1|Host: h||",
        "\rGET / HTTP/1.1|Host: h||", "GET  / HTTP/1.1|Host: h||", "GET /  HTTP/1.1|Host: h||",
        "GET /a b HTTP/1.1|Host: h||", "GET\t/ HTTP/1.1|Host: h||", "GET /\tHTTP/1.1|Host: h||",
        "GET / HTTP/1.1 |Host: h||", "GET / HTTP/1.1\rHost: h||", "GET / HTTP/1.2|Host: h||",
        "GET / HTTP/2.0|Host: h||", "GET / HTTP/0.9|Host: h||", "GET / HTTP/1.10|Host: h||",
        "GET / HTTP/01.1|Host: h||", "GET / http/1.1|Host: h||", "GET / HTTP/1,1|Host: h||", "GET /|Host: h||",
        "GET|Host: h||", "/ HTTP/1.1|Host: h||", " / HTTP/1.1|Host: h||", "G@T / HTTP/1.1|Host: h||",
        "G\x00T / HTTP/1.1|Host: h||", "GET: / HTTP/1.1|Host: h||", "PRI * HTTP/2.0||SM||",
    ]),
    # Header lines that can be read in two ways.
    (400, "POST / HTTP/1.1|Host: h|", "|3|abc|0||", [
        "Host : h|", "X : a|", "X\t: a|", "Content-Length : 3|", "Transfer-Encoding : chunked|",
        "Transfer-Encoding\t: chunked|", "X: a| b|", "X: a|\tb|", "Transfer-Encoding:| chunked|",
        "Content-Length: 3| ,3|", " X: a|", " |", "X: a\rb|", "X\r: a|", "X: a\r|",
        "X: a\rTransfer-Encoding: chunked|", "X: a\r\r|", "X: a\x00|", "X\x00: a|", "\x00X: a|", "X: a\x0b|",
        "X: \x0ba|", "X: \x0ca|", "X: \x7f|", "X: \x01|", "X: \x1f|", "Content-Length: \x0b3|",
        "Transfer-Encoding: \x0bchunked|", "Transfer-Encoding: chunked\x00|", "Transfer-Encoding\xa0: chunked|",
        "X\xe9: a|", ": a|", ":|", "X|", "X a|", "X Y: a|", "X(): a|", "\"X\": a|", "X/Y: a|", "X[0]: a|", "X@: a|",
        "X,Y: a|", "X;: a|", "X=Y: a|", "X\\: a|", "{X}: a|",
    ]),
    # Lengths that are no string of digits, or two.
    (400, "POST / HTTP/1.1|Host: h|Content-Length: ", "||abc", [
        "+3", "-0", "-3", "0x3", "3x", "", "3 3", "3\t3", "3,", "\t,3", ",", ", 3", "3,,3", "3, 4", "3, 03", "03, 3",
        "3;a=b", "3.0", "3e0", "1_0", "\"3\"", "\u0663", "\xb3", "3, +3", "3|Content-Length: 4", "3|Content-Length:",
        "|Content-Length: 3", "3|content-length: 03", "chunked",
    ]),
    # Lengths that aren't cut to a machine's number.
    (413, "POST / HTTP/1.1|Host: h|Content-Length: ", "||abc", [
        "8388609", "08388609", "4294967296", "4294967299", "18446744073709551616", "18446744073709551619",
        "99999999999999999999999999999999999999999", "8388609, 8388609",
    ]),
    # Codings but chunked alone.
    (501, "POST / HTTP/1.1|Host: h|Transfer-Encoding: ", "||3|abc|0||", [
        "xchunked", "chunkedx", "chunked, chunked", "chunked,", "chunked ,", ",chunked", "gzip, chunked",
        "chunked, gzip", "gzip", "identity", "", "\"chunked\"", "chunked;q=1", "chunked;", "chunked\xa0",
        "chun\u212aed", "chunke", "chunked chunked", "chunked|Transfer-Encoding: chunked",
        "gzip|Transfer-Encoding: chunked", "chunked|transfer-encoding: identity", "chunked|Transfer-Encoding:",
        "|Transfer-Encoding: chunked",
    ]),
    # Chunks.
    (400, HEAD, "", [
        " 3|abc|0||", "\t3|abc|0||", "0x3|abc|0||", "+3|abc|0||", "-3|abc|0||", "3.0|abc|0||", "3g|abc|0||",
        "g|abc|0||", "3 3|abc|0||", "3,3|abc|0||", "3_|abc|0||", "|abc|0||", ";a|abc|0||", " |abc|0||", "3\nabc|0||",
        "3;a\nabc|0||", "3\rabc|0||", "3;a\rb|abc|0||", "3\r|abc|0||", "3\x00|abc|0||", "3\x0b|abc|0||",
        "\u0663|abc|0||", "00000000000000003|abc|0||", "10000000000000000|abc|0||", "00000000000000000||",
        "3|abcd|0||", "3|ab|0||", "3|abc0||", "3|abc\n0||", "3|abc\r0||", "3|abc\n\n0||", "3|abc\r\r\n0||",
        "3|abc|-1||", "3|abc|0x||", "3|abc|||",
    ]),
    # Bodies that are too large at the size line that says so.
    (413, HEAD, "", [
        "800001|", "ffffffff|", "FFFFFFFFFFFFFFFF|", "8000000000000000|", "3|abc|7ffffe|", "3|abc|ffffffffffffffff|",
        "1|a|fffffffffffffffe|",
    ]),
    # Clients that wait to be asked for a body, and are told this alone.
    (413, "", "", [
        "POST / HTTP/1.1|Host: h|Expect: 100-continue|Content-Length: 8388609||",
    ]),
    (501, "", "", [
        "POST / HTTP/1.1|Host: h|Expect: 100-continue|Transfer-Encoding: gzip||",
        "TRACE / HTTP/1.1|Host: h|Expect: 100-continue|Content-Length: 3||abc",
    ]),
    (400, "", "", [
        "POST / HTTP/1.1|Expect: 100-continue|Content-Length: 3||abc",
    ]),
]
# fmt: on
# The rows that stand in front of this back: codings, and lengths.
CODINGS, WRONG_LENGTHS = (
    next(rows for _, _, ends, rows in REFUSED if ends == back and len(rows) > 20) for back in ("||3|abc|0||", "||abc")
)
# A coding beside a length is refused whatever they say: each of these rows, between its front and its back.
BOTH = [
    ("POST / HTTP/1.1|Host: h|Content-Length: 3|Transfer-Encoding: ", "||3|abc|0||", CODINGS),
    ("POST / HTTP/1.1|Host: h|Transfer-Encoding: chunked|Content-Length: ", "||abc", WRONG_LENGTHS),
]
# Requests that their client ends too soon: refused then, and not before.
EARLY = [
    "POST / HTTP/1.1|Host: h|Transfer-Encoding: chunked||3|a",
    "",
    "|||\n",
    "GET / HTTP/1.1|Host: h|",
    "CONNECT HTTP/1.3|",
]
# The same behind the head of a body in chunks.
EARLY_CHUNKS = [
    "",
    "3",
    "3|",
    "3|a",
    "3|abc",
    "3|abc\r",
    "3|abc|",
    "3|abc|0",
    "3|abc|0|",
    "3|abc|0|X",
    "3|abc|0|X: y|",
    "3|abc|0|\r",
    "800000|abc",
    "3;a",
]
# Clients that are asked for a body, and send no chunk, or end it too soon.
ASKED_FOR_NO_CHUNK = "POST / HTTP/1.1|Host: h|Expect: 100-continue|Transfer-Encoding: chunked||x|"
ASKED_AND_CUT = "POST / HTTP/1.1|Host: h|Expect: 100-continue|Content-Length: 3||ab"
