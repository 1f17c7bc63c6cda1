"""Fronts, gateways, backends and clients on loopback, for the test of examples/front/."""
import contextlib
import http.client
import pathlib
import re
import socket
import ssl
import subprocess
import threading
import time
import typing
from collections.abc import Callable, Mapping, Sequence

from judging import Judge
from loopback import Listener
from running import PATIENCE, free_port, stop

TOP = pathlib.Path(__file__).resolve().parent.parent
FRONT = TOP / "examples/front"


class Origin(Listener):
    """A backend that records its requests and answers by the path; it may hang, or give an answer set before."""

    usual = (OSError, ValueError)

    def __init__(self, port: int = 0) -> None:
        self.given: list[tuple[str, bytes]] = []
        self.release, self.held = threading.Event(), threading.Semaphore(0)
        super().__init__(port, backlog=512)

    def serve(self, client: socket.socket) -> None:
        text = client.makefile("rb")
        head = [text.readline()]
        while (line := text.readline()) not in (b"\r\n", b""):
            head.append(line)
        size = next((int(it.split(b":")[1]) for it in head if it.lower().startswith(b"content-length:")), 0)
        self.given.append((b"".join(head).decode("latin1"), text.read(size)))
        path = head[0].split(b" ")[1]
        if path == b"/held":
            self.held.release()
            self.release.wait(2 * PATIENCE)
        if path == b"/slowly":
            time.sleep(4)
        if path == b"/breaks":
            return
        number, more = (429, "Retry-After: 7\r\n") if path == b"/own" else (200, "")
        client.sendall(f"HTTP/1.1 {number} X\r\nContent-Length: 3\r\n{more}\r\nok\n".encode())

    def asked(self) -> list[tuple[str, bytes]]:
        """What it was given, but health checks."""
        return [it for it in self.given if it[0].split(" ")[1] != "/health"]

    def paths(self) -> list[str]:
        """The paths of what it was given, but those of health checks."""
        return [head.split(" ")[1] for head, _ in self.asked()]

    def close(self) -> None:
        self.release.set()
        super().close()


class Fronts(Judge):
    """The processes of one run, and what they came to."""

    def __init__(self, program: str, room: pathlib.Path) -> None:
        super().__init__()
        self.program, self.room, self.group = program, room, ""
        self.started: list[subprocess.Popen] = []

    def judge(self, what: object, wanted: object, found: object) -> None:
        before = self.failed
        super().judge(f"{self.group}: {what}", wanted, found)
        if self.failed == before:
            print(f"ok {self.group}: {what}", flush=True)

    def start(self, *words: str, **how: typing.Any) -> subprocess.Popen:
        """A process that says nothing, unless it is told where to."""
        streams: dict[str, typing.Any] = {"stdout": subprocess.DEVNULL, "stderr": subprocess.DEVNULL}
        process = subprocess.Popen(words, **streams | how)
        self.started.append(process)
        return process

    def stop(self, process: subprocess.Popen) -> None:
        self.started.remove(process)
        stop(process)

    def stop_all(self) -> None:
        while self.started:
            self.stop(self.started[-1])

    def configured(self, name: str, swaps: Mapping[str, object]) -> pathlib.Path:
        """The path of a file of examples/front/, in which each of these texts was found and replaced."""
        text = (FRONT / name).read_text()
        for old, new in swaps.items():
            if old not in text:
                raise RuntimeError(f"{name} has no {old!r}")
            text = text.replace(old, str(new))
        path = self.room / f"{free_port()}-{name}"
        path.write_text(text)
        return path

    def nginx(self, name: str, port: int, swaps: Mapping[str, object]) -> tuple[subprocess.Popen, pathlib.Path]:
        """An nginx by a file of examples/front/, once it listens."""
        own = self.room / f"nginx-{port}"
        own.mkdir()
        kinds = ("client_body", "proxy", "fastcgi", "uwsgi", "scgi")
        folders = "".join(f"    {kind}_temp_path {own}/{kind};\n" for kind in kinds)
        (pid,) = re.findall("^pid (.*);$", (FRONT / name).read_text(), re.MULTILINE)
        swaps = {
            pid: own / "pid",
            "/var/log/nginx/": f"{own}/",
            "http {\n": "http {\n" + folders,
            "worker_processes auto;": "worker_processes 2;",
            **swaps,
        }
        file = self.configured(name, swaps)
        process = self.start("nginx", "-c", str(file), "-e", str(own / "early.log"), "-g", "daemon off;")
        self.wait_for(port, process, own)
        return process, own

    def wait_for(self, port: int, process: subprocess.Popen, own: pathlib.Path | None = None) -> None:
        """Waits until a process listens at a port; `own` has its log."""
        until = time.monotonic() + PATIENCE
        while time.monotonic() < until and process.poll() is None:
            with contextlib.suppress(OSError), socket.create_connection(("127.0.0.1", port), timeout=1):
                return
            time.sleep(0.05)
        said = (own / "early.log").read_text() if own and (own / "early.log").exists() else ""
        raise RuntimeError(f"nothing listens at {port}; {said}")

    def gateway(
        self, backend: int, tables: str, port: int | None = None, workers: int = 64, words: Sequence[str] = ()
    ) -> tuple[subprocess.Popen, int]:
        """A gateway, once it listens, with its port."""
        port = port or free_port()
        file = self.room / f"{port}.toml"
        file.write_text(f'version = 1\nlisten = "127.0.0.1:{port}"\nbackend = "127.0.0.1:{backend}"\n{tables}')
        serve = [self.program, "serve", str(file), "--workers", str(workers), *words]
        process = self.start(*serve, stdout=subprocess.PIPE, stderr=subprocess.PIPE, text=True)
        for line in process.stderr or ():
            if "] listening address" in line:
                return process, port
        raise RuntimeError("the gateway didn't start")

    def certificate(self) -> tuple[pathlib.Path, ...]:
        """A certificate and its key, and a file of both."""
        key, certificate, both = (self.room / it for it in ("key.pem", "certificate.pem", "both.pem"))
        words = "openssl req -x509 -newkey rsa:2048 -nodes -days 2 -subj /CN=www.example.com".split()
        subprocess.run([*words, "-keyout", key, "-out", certificate], check=True, capture_output=True)
        both.write_text(certificate.read_text() + key.read_text())
        return certificate, key, both

    def run(self, case: Callable[..., None], *given: object) -> None:
        """One case, behind which nothing is left that it started."""
        try:
            case(*given)
        except (OSError, RuntimeError, AssertionError, http.client.HTTPException) as why:
            self.judge(f"{case.__name__}, to its end", None, f"{type(why).__name__}: {why}")
        finally:
            self.stop_all()


def trusting() -> ssl.SSLContext:
    """A context that takes any certificate."""
    context = ssl.create_default_context()
    context.check_hostname, context.verify_mode = False, ssl.CERT_NONE
    return context


def connected(port: int, tls: bool) -> http.client.HTTPConnection:
    if tls:
        return http.client.HTTPSConnection("127.0.0.1", port, timeout=PATIENCE, context=trusting())
    return http.client.HTTPConnection("127.0.0.1", port, timeout=PATIENCE)


def asked(
    port: int,
    path: str,
    method: str = "GET",
    body: bytes | None = None,
    headers: Mapping[str, str] | None = None,
    tls: bool = True,
) -> tuple[int, http.client.HTTPResponse, bytes]:
    """The status, headers and body of one request over a connection of its own."""
    client = connected(port, tls)
    with contextlib.closing(client):
        client.putrequest(method, path, skip_host=True)
        sent = {"Host": "www.example.com", **(headers or {})}
        if body is not None:
            sent["Content-Length"] = str(len(body))
        for name, value in sent.items():
            client.putheader(name, value)
        client.endheaders(body)
        answer = client.getresponse()
        text = answer.read()
        return answer.status, answer, text


def status(*given: typing.Any, **how: typing.Any) -> int:
    """The status of one request."""
    return asked(*given, **how)[0]


def header_of(head: str, name: str) -> list[str]:
    """The values of a header in the head that a backend was given."""
    return re.findall(rf"^{name}: (.*?)\r?$", head, re.MULTILINE | re.IGNORECASE)
