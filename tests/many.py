"""Cases of `tests/serve` on a gateway that is started with a number of exchanges at once."""
import contextlib
import pathlib
import socket
import subprocess

from loopback import BODY, Backend, Later, read_all
from operating import HELD, Operating
from running import PATIENCE, free_port, until
from sockets import PLAIN, passed_on
from waiting import raised_descriptors

AUTO = '\n\n[limit]\nkind = "auto"'
FULL = b"HTTP/1.1 429 "


class ManyExchanges(Operating):
    """Cases on `--exchanges`."""

    def begins_with_what_fits(self, backend: Backend) -> None:
        """The line of a start shows the numbers that follow from the exchanges, and no warning comes before it."""
        half = '\n\n[limit]\nkind = "auto"\n[[class]]\nname = "live"\nshare = 500'
        for version, exchanges, settings, wanted in (
            (1, 27, "", "limit=fixed max=20 backlog=6"),
            (1, 22, "backlog = 1", "limit=fixed max=20 backlog=1"),
            (1, 21, "wait = false", "limit=fixed max=20 backlog=0"),
            (1, 64, '\n\n[limit]\nkind = "aimd"', "limit=aimd max=47 backlog=16"),
            (1, 300, '\n\n[limit]\nkind = "vegas"\nmax = 90', "limit=vegas max=90 backlog=75"),
            (2, 2, "wait = false" + AUTO, "limit=auto max=1 backlog=0"),
            (2, 80, AUTO, "limit=auto max=59 backlog=20"),
            (2, 80, AUTO + "\nmax = 30", "limit=auto max=30 backlog=20"),
            # The class has half of 39, rounded up: 39 and 20 in flight, 20 that wait, and one.
            (2, 80, half, "limit=auto max=39 backlog=20"),
        ):
            gate = self.gateway(backend, settings, version=version, exchanges=exchanges)
            line = f"[INFO  admission] listening address=127.0.0.1:{gate.port} exchanges={exchanges} {wanted}"
            self.judge(f"the log of {settings!r} for {exchanges}", [line + " keepalive=off"], gate.log)
            gate.process.kill()

    def ends_where_too_few(self, backend: Backend) -> None:
        """Exchanges that don't suffice are a fault behind those of the configuration, and before any address is
        bound."""
        with socket.socket() as taken:
            taken.bind(("127.0.0.1", 0))
            taken.listen()
            listen = f'listen = "127.0.0.1:{taken.getsockname()[1]}"\nbackend = "127.0.0.1:{backend.port}"\n'
            for top, limit, exchanges, fault in (
                ("version = 1", "", 26, "exchanges: 27 are wanted"),
                ("version = 1", "", 27, "listen"),
                ("version = 1\nbacklog = 5", "", 25, "exchanges: 26 are wanted"),
                ("version = 1\nbacklog = 5\nwait = false", "", 20, "exchanges: 21 are wanted"),
                ("version = 1\nnone = 1", "", 1, "config: unknown none"),
                ("version = 3", "", 1, "config: version"),
                ("version = 1", "initial = 10000", 4096, "exchanges: 10101 are wanted"),
            ):
                path = pathlib.Path(self.room) / f"few{free_port()}.toml"
                path.write_text(f'{top}\n{listen}\n[limit]\nkind = "fixed"\n{limit}\n')
                words = [self.program, "serve", str(path), f"--exchanges={exchanges}"]
                ended = subprocess.run(words, capture_output=True, text=True, timeout=PATIENCE)
                told = (ended.returncode, ended.stdout, ended.stderr.splitlines()[-1:])
                self.judge(f"{top!r}, {limit!r} for {exchanges}", (1, "", [f"admission: {fault}"]), told)

    def leaves_one_for_refusals(self, backend: Backend) -> None:
        """While every permit is out and every place of the backlog is taken, one thread is left, which refuses at once;
        and an operator is answered."""
        settings = 'backlog = 20\ntimeout_ms = 60000\n\n[limit]\nkind = "fixed"\ninitial = 70'
        gate = self.operated(backend, settings, exchanges=91)
        with contextlib.ExitStack() as stack:
            inside = []
            for _ in range(90):
                inside.append(stack.enter_context(gate.connect()))
                inside[-1].sendall(HELD)
            self.judge("all permits are out, and all places taken", True, gate.shows(in_flight=70, waiting=20))
            refused = [gate.ask(PLAIN)[: len(FULL)] for _ in range(5)]
            self.judge("who comes beside them", [FULL] * 5, refused)
            # The last thread may still look after the last of them.
            healthy = until(lambda: gate.call("GET /health")[:13] == b"HTTP/1.1 200 ")
            self.judge("an operator beside them", True, healthy)
            backend.release.set()
            self.judge("those inside", [passed_on(BODY)] * 90, [read_all(it) for it in inside])
        drain = Later(gate.call, "POST /drain")
        drain.result()
        wanted = {"admitted": 70, "waiting": 20, "promoted": 20, "success": 90, "backlog": 5}
        self.judge("counters of all of them", wanted, gate.ending())

    def ends_where_descriptors_are_few(self, backend: Backend) -> None:
        """Exchanges that want more descriptors than there are end with both numbers, behind the faults of the
        configuration and before any address is bound; by the limit that holds."""
        with socket.socket() as taken:
            taken.bind(("127.0.0.1", 0))
            taken.listen()
            listen = f'listen = "127.0.0.1:{taken.getsockname()[1]}"\nbackend = "127.0.0.1:{backend.port}"\n'
            for version, top, soft, exchanges, fault in (
                (1, "", 135, 64, "descriptors: 136 are wanted, 135 are given"),
                (1, "", 136, 64, "listen"),
                (2, "backends = 64", 199, 64, "descriptors: 200 are wanted, 199 are given"),
                (2, "backends = 64", 200, 64, "listen"),
                (2, "backends = 64", 1024, 1024, "descriptors: 2120 are wanted, 1024 are given"),
                (1, "", 61, 26, "exchanges: 27 are wanted"),
                (1, "", 61, 27, "descriptors: 62 are wanted, 61 are given"),
            ):
                path = pathlib.Path(self.room) / f"descriptors{free_port()}.toml"
                path.write_text(f'version = {version}\n{top}\n{listen}\n[limit]\nkind = "fixed"\n')
                words = [self.program, "serve", str(path), f"--exchanges={exchanges}"]
                limited = ["sh", "-c", f'ulimit -Sn {soft} && exec "$@"', "sh", *words]
                ended = subprocess.run(limited, capture_output=True, text=True, timeout=PATIENCE)
                told = (ended.returncode, ended.stdout, ended.stderr.splitlines()[-1:])
                self.judge(f"{top!r}, {exchanges} with {soft}", (1, "", [f"admission: {fault}"]), told)

    def tells_memory_from_threads(self, backend: Backend) -> None:
        """Without memory for the stacks of all threads it ends with that, and the log has how much was asked for."""
        admin, status = (f"127.0.0.1:{free_port()}" for _ in range(2))
        for stack, kib, words, threads in (
            ("8192", 8_192, (), 1_024),
            ("8192", 8_192, ("--admin", admin), 1_028),
            ("8192", 8_192, ("--admin", admin, "--status", status), 1_032),
            ("4096", 4_096, ("--status", status), 1_028),
            ("unlimited", 2_048, (), 1_024),
        ):
            front = ["sh", "-c", f'ulimit -s {stack} && ulimit -v 1500000 && exec "$@"', "sh"]
            if subprocess.run([*front, self.program, "--version"], capture_output=True).returncode:
                # A program that is compiled with checks of its memory takes terabytes of addresses by itself, and the
                # system may not allow such a stack.
                continue
            path = pathlib.Path(self.room) / f"stacks{free_port()}.toml"
            text = f'version = 2\nlisten = "127.0.0.1:{free_port()}"\nbackend = "127.0.0.1:{backend.port}"\n{AUTO}\n'
            path.write_text(text)
            command = [*front, self.program, "serve", str(path), "--exchanges", "1024", *words]
            ended = subprocess.run(command, capture_output=True, text=True, timeout=PATIENCE)
            said = f"there is no memory for the stacks of all threads threads={threads} stack_kib={kib}"
            told = [it for it in ended.stderr.splitlines() if "[INFO " not in it]
            wanted = (1, "", [f"[ERROR admission] {said}", "admission: memory"])
            self.judge(f"no memory for {threads} stacks of {stack}", wanted, (ended.returncode, ended.stdout, told))
            gate = self.gateway(backend, AUTO, version=2, exchanges=64, front=front)
            self.judge(f"memory for 64 stacks of {stack}", passed_on(BODY), gate.ask(PLAIN))
            gate.process.kill()

    def serves_with_the_most(self, backend: Backend) -> None:
        """A gateway of 4,096 exchanges serves, or of as many as there are descriptors for, and ends where it is
        drained."""
        most = min(4_096, (raised_descriptors(10_000) - 100) // 2)
        gate = self.operated(backend, AUTO, version=2, exchanges=most)
        self.judge("its answer", passed_on(BODY), gate.ask(PLAIN))
        self.judge("its threads", True, gate.shows(workers=most))
        Later(gate.call, "POST /drain").result()
        self.judge("its counters", {"admitted": 1, "success": 1}, gate.ending())
