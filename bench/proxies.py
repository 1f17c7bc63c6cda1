"""The origin and the proxies of bench/proxy.py, each a process on the processors that all share."""
import argparse
import contextlib
import dataclasses
import itertools
import os
import pathlib
import re
import socket
import subprocess
import sys
import threading
import time
from collections.abc import Callable, Iterator, Sequence

from one_worker import CONFIG
from programs import stop

HERE = pathlib.Path(__file__).resolve().parent
NGINX = """{first} daemon off; worker_processes {count}; pid {room}/{name}.pid; error_log {room}/{name}.log;
events {{ worker_connections 16384; }}
http {{ access_log off; keepalive_timeout 60; keepalive_requests 100000000; {http}
server {{ listen 127.0.0.1:{port} backlog=4096; {server} }} }}
"""
HAPROXY = """global
  nbthread {count}
defaults
  mode http
  timeout connect 5s
  timeout client 30s
  timeout server 30s
  {option}
  {queue}
frontend clients
  bind 127.0.0.1:{port} backlog 4096
  default_backend origin
backend origin
  {reuse}
  server origin 127.0.0.1:{origin} maxconn {most}
"""
CLOSES, KEEPS = ("option httpclose", ""), ("option http-keep-alive", "http-reuse always")
# What an nginx passes on with, over a connection for each request and over kept ones.
CLOSED = "proxy_pass http://127.0.0.1:{origin}; proxy_set_header Connection close;"
KEPT = 'proxy_pass http://origins; proxy_http_version 1.1; proxy_set_header Connection "";'
ORIGINS = "upstream origins {{ server 127.0.0.1:{origin}; keepalive 256; keepalive_requests 100000000; }}"
# What nginx needs to pass on bodies of any size, and so that it passes them on as they come.
ANY_SIZE = "client_max_body_size 0;"
UNBUFFERED = f"{ANY_SIZE} proxy_buffering off; proxy_request_buffering off; proxy_http_version 1.1;"
# An origin that answers once it has read the whole body. By `return` nginx answers before that, and a proxy that passes
# a body on as it comes needn't pass on all of it.
READS_ALL = """client_body_buffer_size 16m; chunked_transfer_encoding off; add_header Content-Length 13;
echo_read_request_body; echo "hello, world";"""
ECHO = "load_module modules/ngx_http_echo_module.so;"
# Connections to the backend are kept as the packaged configuration has it, and those of clients too.
BACKENDS = "backends = 64\n"
KEEPALIVE = "clients = 1_000\n" + BACKENDS
# The scheduling policy of the packaged unit.
BATCH = ("chrt", "--batch", "0")
ONE_AT_A_TIME = "limit_conn_zone $server_port zone=all:1m; limit_conn_status 429; limit_conn_log_level info;"


def first_port(count: int) -> int:
    """The first of so many free ports in a row, below the ephemeral range as it mostly is."""
    for first in range(20_000 + os.getpid() * 7 % 10_000, 32_000, count):
        with contextlib.suppress(OSError), contextlib.ExitStack() as taken:
            for port in range(first, first + count):
                taken.enter_context(socket.create_server(("127.0.0.1", port)))
            return first
    sys.exit(f"proxy.py: no {count} ports in a row are free")


def in_turns(names: Sequence[str], turn: int) -> Sequence[str]:
    return [*names[turn % len(names) :], *names[: turn % len(names)]]


def numbers(text: str) -> list[int]:
    """Numbers with commas between them."""
    return [int(word) for word in text.split(",")]


def words_of(text: str) -> list[str]:
    """Words with commas between them."""
    return text.split(",")


def milliseconds(text: str) -> float:
    """The milliseconds of a time with its unit."""
    ((number, unit),) = re.findall(r"^([\d.]+)(us|ms|s|m)", text)
    return float(number) * {"us": 0.001, "ms": 1, "s": 1000, "m": 60_000}[unit]


def table_of(columns: Sequence[str], rows: Sequence[Sequence[str]]) -> str:
    lines = [columns, ["---" for _ in columns], *rows]
    return "\n".join("| " + " | ".join(it) + " |" for it in lines)


def placed(processors: Sequence[int], *words: str) -> list[str]:
    """Words that are run on these processors."""
    return ["taskset", "-c", ",".join(map(str, processors)), *words]


@dataclasses.dataclass(frozen=True)
class Target:
    """A port, its process, and whether the connections to it are kept."""

    port: int
    process: subprocess.Popen
    is_kept: bool = False


class Servers:
    """The processes of one run, on the processors that all share; and another processor, where there is one."""

    def __init__(self, room: pathlib.Path, processors: Sequence[int], others: Sequence[int]) -> None:
        self.room, self.processors, self.others = room, processors, others
        self.started: list[subprocess.Popen] = []

    def start(self, *words: str) -> subprocess.Popen:
        process = subprocess.Popen(
            placed(self.processors, *words), stdout=subprocess.DEVNULL, stderr=subprocess.DEVNULL
        )
        self.started.append(process)
        return process

    def nginx(
        self, name: str, port: int, server: str, http: str = "", first: str = "", policy: Sequence[str] = ()
    ) -> subprocess.Popen:
        """An nginx with these lines of its server, before it, and before all."""
        count = len(self.processors)
        text = NGINX.format(name=name, room=self.room, port=port, server=server, http=http, first=first, count=count)
        return self.start(*policy, "nginx", "-c", self.written(name, text))

    def written(self, name: str, text: str) -> str:
        """The path of a file with this text."""
        file = self.room / name
        file.write_text(text, encoding="utf-8")
        return str(file)

    def built(self, name: str) -> str:
        """A program of this folder, built."""
        program = self.room / name
        if not program.exists():
            subprocess.run(["rustc", "-O", "--edition", "2021", "-o", program, HERE / f"{name}.rs"], check=True)
        return str(program)

    def end(self) -> None:
        for process in reversed(self.started):
            process.terminate()
        for process in self.started:
            stop(process)


@contextlib.contextmanager
def asked(port: int) -> Iterator[socket.socket]:
    """A connection over which something was asked for."""
    with socket.create_connection(("127.0.0.1", port)) as caller:
        caller.sendall(b"GET / HTTP/1.1\r\nHost: h\r\nConnection: close\r\n\r\n")
        yield caller


@contextlib.contextmanager
def held(port: int, is_refused: bool) -> Iterator[None]:
    """Somebody's request at a port that isn't answered meanwhile, where the others are to be refused, and are."""
    if not is_refused:
        yield
        return
    with asked(port):
        time.sleep(0.2)
        with asked(port) as other:
            status = other.recv(12)[-3:]
        assert status == b"429", f"answered {status!r} in place of 429"
        yield


def silent_origin(port: int) -> None:
    """Takes connections and answers none, until it is closed."""
    listener = socket.create_server(("127.0.0.1", port), backlog=64)

    def accept() -> None:
        kept = []
        with contextlib.suppress(OSError):
            while True:
                kept.append(listener.accept()[0])

    threading.Thread(target=accept, daemon=True).start()


def start_origin(servers: Servers, port: int, given: argparse.Namespace) -> dict[str, Target]:
    """What stands behind all proxies, and is timed alone as well where it answers."""
    if given.refused:
        silent_origin(port)
        return {}
    answer, first = 'return 200 "hello, world\\n";', ""
    if given.upload:
        answer, first = READS_ALL, ECHO
    elif given.answer:
        servers.written("answer", "x" * given.answer)
        answer = f"root {servers.room}; rewrite ^ /answer break;"
    servers.nginx("origin", port, f"{ANY_SIZE} location / {{ {answer} }}", first=first)
    return {"origin alone": Target(port, servers.started[-1])}


# What starts an origin at a port, and what of it is timed alone.
Origin = Callable[[Servers, int, argparse.Namespace], dict[str, Target]]


class Started:
    """The proxies by name, as they are started one after the other before an origin."""

    def __init__(
        self, servers: Servers, program: str, port: int, given: argparse.Namespace, start: Origin = start_origin
    ) -> None:
        self.servers, self.program, self.given = servers, program, given
        self.ports = itertools.count(port)
        self.origin = next(self.ports)
        self.found = start(servers, self.origin, given)

    def nginx(self, name: str, server: str, http: str = "", policy: Sequence[str] = (), is_kept: bool = False) -> None:
        own = next(self.ports)
        pass_on = (KEPT if is_kept else CLOSED).format(origin=self.origin)
        http += ORIGINS.format(origin=self.origin) if is_kept else ""
        server = f"{server} location / {{ {pass_on} }}"
        process = self.servers.nginx(f"proxy_{own}", own, server, http, policy=policy)
        self.found[name] = Target(own, process, is_kept)

    def haproxy(
        self, name: str, policy: Sequence[str] = (), is_kept: bool = False, most: int = 400, queue: str = ""
    ) -> None:
        """An HAProxy that has so many requests at the origin at once, with this line on those that wait."""
        own, count = next(self.ports), len(self.servers.processors)
        option, reuse = KEEPS if is_kept else CLOSES
        numbers_of = {"port": own, "origin": self.origin, "count": count, "most": most}
        text = HAPROXY.format(option=option, reuse=reuse, queue=queue, **numbers_of)
        process = self.servers.start(*policy, "haproxy", "-f", self.servers.written(f"haproxy_{own}", text), "-db")
        self.found[name] = Target(own, process, is_kept)

    def bare(self, name: str, count: int, policy: Sequence[str] = ()) -> None:
        self.called(name, self.servers.built("bare_proxy"), count, policy)

    def called(self, name: str, program: str, count: int, policy: Sequence[str] = (), is_kept: bool = False) -> None:
        """A proxy whose words are where it listens, where the origin is, and how many workers it has."""
        own = next(self.ports)
        places = (f"127.0.0.1:{own}", f"127.0.0.1:{self.origin}")
        self.found[name] = Target(own, self.servers.start(*policy, program, *places, str(count)), is_kept)

    def admission(
        self,
        name: str,
        count: int,
        policy: Sequence[str] = (),
        keys: str = "",
        is_kept: bool = False,
        program: str = "",
    ) -> None:
        """A gateway of so many workers, or of exchanges above 64, with these keys of connections that are kept."""
        option, most = ("--workers", 64) if count <= 64 else ("--exchanges", count // 2)
        text = CONFIG.replace("{limit}", "1" if self.given.refused else str(most))
        text = text.replace("version = 1\n", f"version = 2\n{keys}", 1) if keys else text
        self.gateway(name, text, (option, str(count)), policy, is_kept, program)

    def gateway(
        self,
        name: str,
        text: str,
        words: Sequence[str],
        policy: Sequence[str] = BATCH,
        is_kept: bool = True,
        program: str = "",
    ) -> None:
        """A gateway with this configuration, in which the ports are filled in, and these words of `serve`."""
        own = next(self.ports)
        file = self.servers.written(f"admission_{own}.toml", text.format(port=own, origin=self.origin))
        process = self.servers.start(*policy, program or self.program, "serve", file, *words)
        self.found[name] = Target(own, process, is_kept)


def kept_targets(it: Started, keys: str = KEEPALIVE) -> None:
    """Those that keep their connections on both sides."""
    it.nginx("nginx, kept", ANY_SIZE, is_kept=True)
    it.nginx("nginx, kept, batch", ANY_SIZE, policy=BATCH, is_kept=True)
    it.haproxy("HAProxy, kept", is_kept=True)
    for count in it.given.workers:
        it.called(f"bare, {count} threads, kept", it.servers.built("bare_kept"), count, is_kept=True)
        if it.given.further:
            it.called(
                f"{pathlib.Path(it.given.further).name}, {count} threads, kept", it.given.further, count, is_kept=True
            )
        it.admission(f"admission, {count} workers, kept", count, keys=keys, is_kept=True)
        it.admission(f"admission, {count} workers, kept, batch", count, BATCH, keys=keys, is_kept=True)


def targets_of(servers: Servers, program: str, port: int, given: argparse.Namespace) -> dict[str, Target]:
    """The origin and the proxies by name."""
    it = Started(servers, program, port, given)
    alone = ("limit_conn all 1;", ONE_AT_A_TIME) if given.refused else (ANY_SIZE, "")
    it.nginx("nginx", *alone)
    it.nginx("nginx, batch", *alone, BATCH)
    if not given.refused:
        it.haproxy("HAProxy")
        it.haproxy("HAProxy, batch", BATCH)
        for count in given.workers:
            it.bare(f"bare, {count} threads, batch", count, BATCH)
        kept_targets(it)
    if given.answer or given.upload:
        it.nginx("nginx, unbuffered", UNBUFFERED)
    for count in given.workers:
        it.admission(f"admission, {count} workers, batch", count, BATCH)
        it.admission(f"admission, {count} workers", count)
        if given.before:
            it.admission(f"admission before, {count} workers, batch", count, BATCH, program=given.before)
            it.admission(f"admission before, {count} workers", count, program=given.before)
        if not given.refused:
            it.admission(f"admission, {count} workers, origin kept", count, keys=BACKENDS)
    return {name: target for name, target in it.found.items() if any(word in name for word in given.only)}
