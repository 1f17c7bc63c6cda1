"""A client and an origin around one worker of `admission serve`, for tools that count what an exchange takes: every
request has a connection of its own on both sides.
"""
import contextlib
import pathlib
import socket
import subprocess
import sys
import threading
import time
from collections.abc import Callable, Iterator

from programs import free_port

WAITING = 120
# A gateway where nobody waits.
CONFIG = """version = 1
listen = "127.0.0.1:{port}"
backend = "127.0.0.1:{origin}"
wait = false
backlog = 0
[limit]
kind = "fixed"
initial = {limit}
"""


def answer(listener: socket.socket, text: bytes) -> None:
    """Answers each connection once its head has come, until the listener is closed."""
    while True:
        with listener.accept()[0] as caller:
            head = b""
            while b"\r\n\r\n" not in head:
                more = caller.recv(65_536)
                if not more:
                    break
                head += more
            caller.sendall(text)


def ask(port: int, request: bytes) -> None:
    """One exchange, once the program listens."""
    begun = time.monotonic()
    while True:
        try:
            with socket.create_connection(("127.0.0.1", port)) as server:
                server.sendall(request)
                with server.makefile("rb") as said:
                    status = said.read().split(b" ")[1]
                assert status == b"200", f"answered {status!r}"
                return
        except ConnectionError:
            if time.monotonic() - begun > WAITING:
                sys.exit("the program doesn't listen")
            time.sleep(0.2)


@contextlib.contextmanager
def between(room: pathlib.Path, text: bytes) -> Iterator[tuple[int, pathlib.Path]]:
    """The port and the configuration, in a folder, of a gateway before an origin that answers each request so."""
    with socket.create_server(("127.0.0.1", 0)) as origin:
        port, behind = free_port(), origin.getsockname()[1]
        threading.Thread(target=answer, args=(origin.dup(), text), daemon=True).start()
        config = room / "gateway.toml"
        config.write_text(CONFIG.format(port=port, origin=behind, limit=64), encoding="utf-8")
        yield port, config


def said_of(tool: Callable[[str], list[str]], room: pathlib.Path, request: bytes, text: bytes, exchanges: int) -> str:
    """What a tool says that has run one worker of so many exchanges, each with this request and this answer. It is
    called with the words behind the program's path, which run the worker."""
    with between(room, text) as (port, config):
        words = tool(f"serve {config} --workers 1 --per-worker {exchanges}")
        process = subprocess.Popen(words, stdout=subprocess.PIPE, stderr=subprocess.STDOUT, text=True)
        for _ in range(exchanges):
            ask(port, request)
        return process.communicate(timeout=WAITING)[0]
