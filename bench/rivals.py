"""What bench/beside has in the gateway's place: programs with the limits of others. All on loopback."""
import pathlib
import socket
import subprocess
import tempfile
import time
from collections.abc import Callable

from programs import free_port, stop
from traffic import STARTING, Limited, Listens

HERE = pathlib.Path(__file__).resolve().parent
# The rules of rivals.rs, by what they are called in the tables.
RULES = {"Gradient2": "gradient2", "Vegas of concurrency-limits": "vegas", "Envoy's gradient": "envoy"}
# How many seconds a request may wait at an HAProxy whose `maxconn` is the backend's slots, by the bound of answers.
# Where `timeout queue` isn't set it is `timeout connect`; half of the bound is set by somebody who knows it.
QUEUES: dict[str, Callable[[float], float]] = {
    "HAProxy, maxconn": lambda _: 5.0,
    "HAProxy, maxconn, a short queue": lambda bound: bound / 2,
}
HAPROXY = """global
  nbthread 1
defaults
  mode http
  timeout connect 5s
  timeout client 50s
  timeout server 50s
  timeout queue {milliseconds}ms
listen clients
  bind 127.0.0.1:{port} backlog 4096
  server backend 127.0.0.1:{backend} maxconn {most}
"""


def built_rivals(room: pathlib.Path) -> str:
    """The path of rivals.rs, built in a folder."""
    program = room / "rivals"
    subprocess.run(["rustc", "-O", "--edition", "2021", "-o", program, HERE / "rivals.rs"], check=True)
    return str(program)


class Rival(Limited):
    """The built rivals.rs under the rule of this name."""

    def __init__(self, program: str, name: str, backend: Listens) -> None:
        port = free_port()
        super().__init__([program, f"127.0.0.1:{port}", f"127.0.0.1:{backend.port}", RULES[name]], port)


class Queue:
    """An HAProxy that has so many requests at a backend at once, and lets others wait for so many seconds."""

    process: subprocess.Popen[bytes]

    def __init__(self, backend: Listens, most: int, seconds: float) -> None:
        self.port, self.limits = free_port(), [(0.0, most)]
        self.room = tempfile.TemporaryDirectory(prefix="admission-")
        self.file = pathlib.Path(self.room.name) / "haproxy.cfg"
        milliseconds = round(1000 * seconds)
        text = HAPROXY.format(milliseconds=milliseconds, port=self.port, backend=backend.port, most=most)
        self.file.write_text(text, encoding="utf-8")

    def __enter__(self) -> "Queue":
        words = ["haproxy", "-f", str(self.file), "-db"]
        self.process = subprocess.Popen(words, stdout=subprocess.DEVNULL, stderr=subprocess.DEVNULL)
        begun = time.monotonic()
        while True:
            try:
                socket.create_connection(("127.0.0.1", self.port)).close()
                return self
            except OSError as fault:
                if time.monotonic() - begun > STARTING or self.process.poll() is not None:
                    self.__exit__()
                    raise RuntimeError("haproxy didn't start") from fault
                time.sleep(0.05)

    def __exit__(self, *_: object) -> None:
        self.process.terminate()
        stop(self.process)
        self.room.cleanup()
