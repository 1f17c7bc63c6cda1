"""A headless Chromium that is driven over a pipe by its own protocol, and a server whose answers a test chooses."""
import contextlib
import fcntl
import json
import os
import queue
import shutil
import socket
import subprocess
import threading
import time
import typing
from collections.abc import Callable

from loopback import Listener, read_head
from running import PATIENCE, until

NAMES = ("chromium", "chromium-browser", "google-chrome")
WORDS = (
    "--headless=new --no-sandbox --disable-gpu --disable-dev-shm-usage --no-first-run --remote-debugging-pipe "
    "--disable-background-timer-throttling --disable-renderer-backgrounding --disable-backgrounding-occluded-windows"
).split()


def command_of() -> str | None:
    """The browser's command, where there is one."""
    return next((name for name in NAMES if shutil.which(name)), None)


def moved(descriptor: int) -> int:
    """The same file by another descriptor, above those that have a meaning."""
    other = fcntl.fcntl(descriptor, fcntl.F_DUPFD_CLOEXEC, 10)
    os.close(descriptor)
    return other


class Browser:
    """A browser whose tabs are driven side by side; it ends with the block."""

    def __init__(self, program: str, room: str) -> None:
        # The protocol is spoken over the descriptors 3 and 4, so those that become them have other numbers.
        given, self.to, self.answers, told = (moved(it) for it in (*os.pipe(), *os.pipe()))
        script = f'exec 3<&{given} 4>&{told} {given}<&- {told}>&-; exec "$@"'
        words = ["bash", "-c", script, "bash", program, *WORDS, f"--user-data-dir={room}", "about:blank"]
        null = subprocess.DEVNULL
        self.process = subprocess.Popen(words, stdin=null, stdout=null, stderr=null, pass_fds=(given, told))
        os.close(given)
        os.close(told)
        self.calls, self.lock = 0, threading.Lock()
        self.waiting: dict[int, queue.SimpleQueue[dict[str, typing.Any]]] = {}
        self.events: list[dict[str, typing.Any]] = []
        threading.Thread(target=self.listen, daemon=True).start()

    def __enter__(self) -> "Browser":
        return self

    def __exit__(self, *_: object) -> None:
        with contextlib.suppress(OSError, RuntimeError, queue.Empty):
            self.call("Browser.close")
        with contextlib.suppress(subprocess.TimeoutExpired):
            self.process.wait(PATIENCE)
        self.process.kill()
        self.process.wait()

    def listen(self) -> None:
        """Hands each answer to whoever waits for it, and keeps all else that is told."""
        rest = b""
        while piece := os.read(self.answers, 1 << 16):
            *whole, rest = (rest + piece).split(b"\0")
            for told in map(json.loads, whole):
                if told.get("id") in self.waiting:
                    self.waiting[told["id"]].put(told)
                else:
                    self.events.append(told)

    def call(self, method: str, session: str | None = None, **params: object) -> dict[str, typing.Any]:
        """What a call of the protocol gives."""
        with self.lock:
            self.calls += 1
            number, answer = self.calls, queue.SimpleQueue[dict[str, typing.Any]]()
            self.waiting[number] = answer
            words = {"id": number, "method": method, "params": params} | ({"sessionId": session} if session else {})
            os.write(self.to, json.dumps(words).encode() + b"\0")
        told = answer.get(timeout=3 * PATIENCE)
        if "error" in told:
            raise RuntimeError(f"{method}: {told['error']}")
        return told["result"]

    def open(self, url: str) -> "Tab":
        return Tab(self, url)


class Tab:
    """A page in a window of its own, 1000 points wide."""

    def __init__(self, browser: Browser, url: str) -> None:
        self.browser = browser
        target = browser.call("Target.createTarget", url="about:blank", newWindow=True)["targetId"]
        self.session = browser.call("Target.attachToTarget", targetId=target, flatten=True)["sessionId"]
        for method in ("Runtime.enable", "Log.enable", "Page.enable"):
            browser.call(method, self.session)
        self.resize(1000)
        browser.call("Page.navigate", self.session, url=url)

    def resize(self, width: int) -> None:
        size = {"width": width, "height": 1000, "deviceScaleFactor": 1, "mobile": False}
        self.browser.call("Emulation.setDeviceMetricsOverride", self.session, **size)

    def value(self, expression: str) -> typing.Any:
        """The value of an expression in the page; an error's words where it has none."""
        told = self.browser.call("Runtime.evaluate", self.session, expression=expression, returnByValue=True)
        thrown = told.get("exceptionDetails")
        return thrown["exception"]["description"] if thrown else told["result"].get("value")

    def comes_to(self, expression: str, wanted: object, seconds: float = 3 * PATIENCE) -> object:
        """The value of an expression once it is the wanted one, or as it is after so long."""
        until(lambda: self.value(expression) == wanted, seconds=seconds)
        return self.value(expression)

    def complaints(self) -> list[str]:
        """What scripts threw, and what the browser says was kept from the page."""
        said = []
        for told in self.browser.events:
            if told.get("sessionId") == self.session:
                if told["method"] == "Runtime.exceptionThrown":
                    said.append(str(told["params"]["exceptionDetails"].get("exception", {}).get("description")))
                entry = told["params"].get("entry", {})
                if entry.get("level") == "error" and entry["source"] != "network":
                    said.append(entry["text"])
        return said


class Told(Listener):
    """A server of a page, whose /metrics are what a call gives for the number of the look, from 0 on: a text, a status
    alone, or None where the connection is closed. What it was asked stays, and when each look was answered."""

    def __init__(self, page: bytes, tells: Callable[[int], str | int | None], port: int = 0) -> None:
        self.page, self.tells = page, tells
        self.asked: list[str] = []
        self.moments: list[float] = []
        super().__init__(port)

    def serve(self, client: socket.socket) -> None:
        first = read_head(client).split(b"\r\n")[0].decode()
        if not first:
            return
        looks = self.asked.count("GET /metrics HTTP/1.1")
        self.asked.append(first)
        path = first.split(" ")[1]
        told = self.tells(looks) if path == "/metrics" else self.page if path == "/" else 404
        if told is None:
            return
        status, body = (
            (told, b"") if isinstance(told, int) else (200, told if isinstance(told, bytes) else told.encode())
        )
        kind = "text/html; charset=utf-8" if path == "/" else "text/plain; version=0.0.4; charset=utf-8"
        head = (
            f"HTTP/1.1 {status} X\r\nContent-Type: {kind}\r\nContent-Length: {len(body)}\r\nConnection: close\r\n\r\n"
        )
        client.sendall(head.encode() + body)
        if path == "/metrics":
            self.moments.append(time.monotonic())

    def looks(self) -> int:
        return self.asked.count("GET /metrics HTTP/1.1")
