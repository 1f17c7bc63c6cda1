"""A backend, gateways and their clients on loopback, for the tests of the built program."""
import contextlib
import os
import pathlib
import queue
import re
import selectors
import socket
import struct
import subprocess
import threading
import time
import typing
from collections.abc import Callable, Sequence

from judging import counts_of
from running import PATIENCE, free_port

BODY = b"hello, world\n"
LARGE, FIVE = 8_000_000, 5_000_000
# Who was silent for less than so many seconds isn't let go for that.
SILENT = 0.9
# The same body by a length, and in chunks.
WHOLE = {
    "length": b"HTTP/1.1 200 OK\r\nContent-Length: 13\r\n\r\nhello, world\n",
    "chunks": b"HTTP/1.1 200 OK\r\nTransfer-Encoding: chunked\r\n\r\n6\r\nhello,\r\n7\r\n world\n\r\n0\r\n\r\n",
}


# The keys of connections that are kept, as the packaged configuration has them.
KEEPALIVE = {"clients": "1_000", "backends": "64"}


def keepalive(settings: str) -> str:
    """These settings with the keys of connections that are kept, but for those that they have."""
    lines = [f"{key} = {number}" for key, number in KEEPALIVE.items() if f"{key} = " not in settings]
    return "\n".join((*lines, settings))


def read_all(client: socket.socket) -> bytes:
    """All that comes up to the end of a connection, or up to its reset."""
    pieces = []
    with contextlib.suppress(ConnectionResetError):
        while piece := client.recv(65536):
            pieces.append(piece)
    return b"".join(pieces)


def read_head(client: socket.socket) -> bytes:
    """What comes up to an empty line; what follows it soon may stay unread."""
    text = b""
    while b"\r\n\r\n" not in text and (piece := client.recv(64)):
        text += piece
    return text


def answered(connect: Callable[[], socket.socket], pieces: Sequence[bytes], pause: float = 0.0) -> bytes:
    """All that comes back over a connection for a text, which is sent in these pieces. Who is silent for a second may
    be let go without an answer, and a machine with other work can make a caller so: then it asks again."""
    while True:
        begun, sent = time.monotonic(), []
        with connect() as client:
            for piece in pieces:
                client.sendall(piece)
                sent.append(time.monotonic())
                time.sleep(pause)
            found = read_all(client)
        if found or not sent or sent[0] - begun < SILENT:
            return found


class Listener:
    """A backend that serves each of its connections on a thread, and counts them."""

    # What ends a connection and is no fault of the backend's.
    usual: tuple[type[Exception], ...] = (OSError,)

    def __init__(self, port: int = 0, backlog: int = 128) -> None:
        self.accepted = 0
        self.socket = socket.create_server(("127.0.0.1", port), backlog=backlog)
        self.port: int = self.socket.getsockname()[1]
        self.accepting = threading.Thread(target=self.accept, daemon=True)
        self.accepting.start()

    def accept(self) -> None:
        with contextlib.suppress(OSError):
            while True:
                client, _ = self.socket.accept()
                self.accepted += 1
                threading.Thread(target=self.answer, args=(client,), daemon=True).start()

    def answer(self, client: socket.socket) -> None:
        with client, contextlib.suppress(*self.usual):
            self.serve(client)

    def serve(self, client: socket.socket) -> None:
        """What is done with a connection, before it is closed."""
        raise NotImplementedError

    def close(self) -> None:
        """Accepts nobody any more. The descriptor is given back behind the last accept alone: one that is just being
        made would otherwise be made of whatever has its number next, such as the next backend."""
        with contextlib.suppress(OSError):
            self.socket.shutdown(socket.SHUT_RDWR)
        self.accepting.join(PATIENCE)
        self.socket.close()


class Scripted(Listener):
    """A backend that does the same with each of its connections."""

    def __init__(self, script: Callable[[socket.socket], object], port: int = 0) -> None:
        self.script = script
        super().__init__(port)

    def serve(self, client: socket.socket) -> None:
        self.script(client)


class Backend(Listener):
    """A backend which answers by the path, and keeps what it was given."""

    usual = (OSError, threading.BrokenBarrierError)
    # For how many seconds it holds an answer back at most.
    holds = PATIENCE

    def __init__(self, backlog: int = 128) -> None:
        self.given: list[bytes] = []
        self.release, self.held = threading.Event(), threading.Semaphore(0)
        self.both = threading.Barrier(2)
        self.stayed: queue.SimpleQueue[bool] = queue.SimpleQueue()
        super().__init__(backlog=backlog)

    def request(self, client: socket.socket) -> bytes:
        """A request with the body that its length says, or what comes of one that ends before."""
        text = b""
        while b"\r\n\r\n" not in text:
            piece = client.recv(65536)
            if not piece:
                return text
            text += piece
        length = re.search(rb"\r\nContent-Length: (\d+)\r\n", text)
        whole = text.index(b"\r\n\r\n") + 4 + (int(length[1]) if length else 0)
        while len(text) < whole and (piece := client.recv(65536)):
            text += piece
        return text

    def serve(self, client: socket.socket) -> None:
        text = self.request(client)
        self.given.append(text)
        path = text.split(b" ")[1] if b" " in text else b""
        if path == b"/held":
            self.held.release()
            self.release.wait(self.holds)
        elif path == b"/both":
            self.both.wait(PATIENCE)
        elif path == b"/rests":
            time.sleep(1.5)
        if path == b"/closes":
            return
        if cut := re.fullmatch(rb"/(closes|resets)/(\w+)/(\d+)", path):
            client.sendall(WHOLE[cut[2].decode()][: int(cut[3])])
            if cut[1] == b"resets":
                client.setsockopt(socket.SOL_SOCKET, socket.SO_LINGER, struct.pack("ii", 1, 0))
            return
        if path == b"/busy":
            client.sendall(b"HTTP/1.1 503 Busy\r\nContent-Length: 2\r\n\r\nno")
        elif path == b"/garbage":
            client.sendall(b"no answer at all\r\n\r\n")
        else:
            body = {b"/large": b"x" * LARGE, b"/five": b"x" * FIVE}.get(path, BODY)
            mine = b"X-Admission: mine\r\n" if path == b"/marked" else b""
            client.sendall(b"HTTP/1.1 200 OK\r\n%sContent-Length: %d\r\n\r\n%s" % (mine, len(body), body))
            if path == b"/stays":
                self.stayed.put(self.release.wait(PATIENCE))

    def close(self) -> None:
        self.release.set()
        super().close()


class Crowded:
    """A backend that holds many requests back until it is told to answer them, all on one thread. With a thread for
    each, a thousand answers wait one behind another for the interpreter and for a processor: on two processors that
    takes 6 seconds beside four busy programs, and 24 beside sixteen."""

    def __init__(self, backlog: int) -> None:
        self.held = threading.Semaphore(0)
        self.socket = socket.create_server(("127.0.0.1", 0), backlog=backlog)
        self.port: int = self.socket.getsockname()[1]
        self.word, self.heard = socket.socketpair()
        self.thread = threading.Thread(target=self.serve, daemon=True)
        self.thread.start()

    def serve(self) -> None:
        with contextlib.ExitStack() as stack, selectors.DefaultSelector() as ready:
            for it in (self.socket, self.heard):
                ready.register(it, selectors.EVENT_READ, it)
            asked: dict[socket.socket, bytes] = {}
            while self.heard not in (chosen := [key.data for key, _ in ready.select()]):
                for it in chosen:
                    if it is self.socket:
                        client = stack.enter_context(self.socket.accept()[0])
                        asked[client] = b""
                        ready.register(client, selectors.EVENT_READ, client)
                    elif self.is_over(it, asked):
                        ready.unregister(it)
            for client, text in asked.items():
                if text.endswith(b"\r\n\r\n"):
                    with contextlib.suppress(OSError):
                        client.sendall(WHOLE["length"])

    def is_over(self, client: socket.socket, asked: dict[socket.socket, bytes]) -> bool:
        """Reads on from a client, and says whether it has sent its request, or sends no more."""
        piece = client.recv(65536)
        asked[client] += piece
        if is_whole := asked[client].endswith(b"\r\n\r\n"):
            self.held.release()
        return is_whole or not piece

    def answer(self) -> None:
        """Answers all requests that are held back; no further one is."""
        self.word.close()

    def close(self) -> None:
        self.answer()
        self.thread.join(PATIENCE)
        self.socket.close()
        self.heard.close()


class Gateway:
    """One run of the program, whose log is read as it comes."""

    running: list[tuple[threading.Thread, subprocess.Popen[str]]] = []
    # Of the run that is under way: its process, its log, who reads that, and whether it came to listen.
    process: subprocess.Popen[str]
    log: list[str]
    reader: threading.Thread
    is_listening: threading.Event

    @classmethod
    def end_all(cls, of_any_thread: bool = False) -> None:
        """No gateway is left that this thread started, or any."""
        for owner, process in [*cls.running]:
            if of_any_thread or owner is threading.current_thread():
                cls.running.remove((owner, process))
                process.kill()
                process.wait()

    def __init__(self, *given: typing.Any, **how: typing.Any) -> None:
        # Another program may take a port between its choice and its binding.
        for _ in range(3):
            self.start(*given, **how)
            if "admission: listen" not in self.log:
                return

    def start(
        self,
        program: str,
        room: str,
        backend: int | None,
        settings: str = "",
        workers: int = 1,
        each: int = 1,
        words: Sequence[str] = (),
        listen: str = "127.0.0.1",
        version: int = 1,
        front: Sequence[str] = (),
        behind: str = "127.0.0.1",
        log_to: int | None = None,
        variables: dict[str, str] | None = None,
        exchanges: int | None = None,
    ) -> None:
        """`backend` is its port at the address `behind`, or nothing for a gateway that forwards to itself; `front` runs
        the words behind it. With `log_to` its log goes there, and isn't read. With `exchanges` it has so many at once,
        in place of workers."""
        self.port, self.is_listening = free_port(), threading.Event()
        self.log: list[str] = []
        self.host = "127.0.0.1" if listen == "0.0.0.0" else listen
        path = pathlib.Path(room) / f"{self.port}.toml"
        top, _, tables = settings.partition("\n\n")
        path.write_text(
            f'version = {version}\nlisten = "{listen}:{self.port}"\n'
            f'backend = "{behind}:{backend or self.port}"\n'
            f"{top}\n{tables or '[limit]' + chr(10) + 'kind = ' + chr(34) + 'fixed' + chr(34)}\n"
        )
        at_once = ("--workers", workers) if exchanges is None else ("--exchanges", exchanges)
        given = ["serve", str(path), *map(str, at_once), "--per-worker", str(each), *words]
        self.process = subprocess.Popen(
            [*front, program, *given],
            stdout=subprocess.PIPE,
            text=True,
            stderr=subprocess.PIPE if log_to is None else log_to,
            env={**os.environ, **(variables or {})},
        )
        self.reader = self.followed()

    def followed(self) -> threading.Thread:
        """Who reads the log of the process that was started, once it listens."""
        Gateway.running.append((threading.current_thread(), self.process))
        reader = threading.Thread(target=self.read_log, daemon=True)
        reader.start()
        self.is_listening.wait(PATIENCE)
        return reader

    def read_log(self) -> None:
        for line in self.process.stderr or ():
            self.log.append(line.rstrip("\n"))
            # The last of its addresses: those beside it are told of before.
            if "] listening address" in line:
                self.is_listening.set()
        self.is_listening.set()

    def connect(self) -> socket.socket:
        return socket.create_connection((self.host, self.port), timeout=PATIENCE)

    def ask(self, *pieces: bytes, pause: float = 0.0) -> bytes:
        """All that comes back for a request, which is sent in these pieces."""
        return answered(self.connect, pieces, pause)

    def ending(self) -> typing.Any:
        """The counters that it printed, by name, once it has ended with status 0."""
        try:
            self.process.wait(timeout=PATIENCE)
        except subprocess.TimeoutExpired:
            self.process.kill()
            return "didn't end"
        self.reader.join(PATIENCE)
        out = self.process.stdout.read() if self.process.stdout else ""
        counts = counts_of(out)
        if counts is None or self.process.returncode:
            return out, self.process.returncode, self.log
        return counts


class Later:
    """A call on a thread of its own, whose result is asked for later."""

    def __init__(self, call: Callable, *given: object) -> None:
        self.found: typing.Any = None
        self.thread = threading.Thread(target=self.run, args=(call, given), daemon=True)
        self.thread.start()

    def run(self, call: Callable, given: Sequence[object]) -> None:
        with contextlib.suppress(OSError):
            self.found = call(*given)

    def result(self, seconds: float = PATIENCE) -> typing.Any:
        """What the call gives, waited for so long at most; nothing where it doesn't come, or its connection fails."""
        self.thread.join(seconds)
        return self.found
