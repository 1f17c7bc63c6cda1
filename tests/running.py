"""Programs that a script runs on loopback: a port for each, a wait for what comes of them, and their end."""
import contextlib
import pathlib
import random
import socket
import subprocess
import sys
import threading
import time
from collections.abc import Callable

if sys.version_info < (3, 11):
    sys.exit(f"{sys.argv[0]}: Python 3.11 or later is needed")

# The seconds that a script waits for anything.
PATIENCE = 20
# Clients on loopback get their own ports from this range: the system may hand one out, which was free a moment ago,
# before the program that is to listen there has started.
OF_CLIENTS = range(*map(int, pathlib.Path("/proc/sys/net/ipv4/ip_local_port_range").read_text("ascii").split()))
PORTS = [it for it in range(10_000, 65_536) if it not in OF_CLIENTS]

chosen: set[int] = set()
taken: list[socket.socket] = []
choosing = threading.Lock()


def free_port() -> int:
    """A port that was free a moment ago, another one at each call: programs that start side by side share none."""
    with choosing:
        while True:
            port = random.choice(PORTS)
            with socket.socket() as found, contextlib.suppress(OSError):
                found.bind(("127.0.0.1", port))
                if port not in chosen:
                    chosen.add(port)
                    return port


def closed_port() -> int:
    """A port that refuses connections for as long as this process runs: it is taken, and nobody listens at it."""
    held = socket.socket()
    held.bind(("127.0.0.1", 0))
    taken.append(held)
    port: int = held.getsockname()[1]
    return port


def until(holds: Callable[..., object], *given: object, seconds: float = PATIENCE) -> bool:
    """Waits until a call holds, for so many seconds at most, and says whether it does."""
    end = time.monotonic() + seconds
    while not (found := holds(*given)) and time.monotonic() < end:
        time.sleep(0.05)
    return bool(found)


def stop(process: subprocess.Popen) -> None:
    """Ends a process, with force where it doesn't end in five seconds."""
    process.terminate()
    try:
        process.wait(5)
    except subprocess.TimeoutExpired:
        process.kill()
        process.wait()
