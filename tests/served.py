"""What the cases of `tests/serve` have: the program, a gateway for each, and one judge that their threads share."""
import pathlib
import shutil
import subprocess
import threading
import typing

from judging import Judge
from loopback import Gateway, Listener

TOP = pathlib.Path(__file__).resolve().parent.parent


class Served(Judge):
    """Cases of a program. Each of them is given a backend of its own, and names itself in `main` of `tests/serve`."""

    def __init__(self, program: str, room: str) -> None:
        super().__init__()
        self.program, self.room, self.judging = program, room, threading.Lock()
        self.library = str(pathlib.Path(room) / "refuse.so")
        compiler = shutil.which("cc") or shutil.which("gcc") or shutil.which("clang") or "cc"
        subprocess.run([compiler, "-shared", "-fPIC", "-o", self.library, TOP / "tests/refuse.c", "-ldl"], check=True)

    def judge(self, what: object, wanted: object, found: object) -> None:
        with self.judging:
            super().judge(what, wanted, found)

    def gateway(self, backend: Listener, settings: str = "", **how: typing.Any) -> Gateway:
        """A gateway before this backend, with these settings."""
        return Gateway(self.program, self.room, backend.port, settings, **how)
