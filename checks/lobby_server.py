"""The server in a process of its own, and clients that connect to it: what the checks over real connections share.

It is no check itself. The program is $LOBBY_MAIN, else bin/lobby_main, as `make build` leaves it. Its files are made in a
temporary folder, it listens at 127.0.0.1 on a free port below 32768, and it ends when its input is closed. Nothing here waits
longer than a given time."""
import contextlib
import os
import random
import re
import resource
import select
import socket
import struct
import subprocess
import sys
import tempfile
import time
from pathlib import Path

ROOT = Path(__file__).resolve().parent.parent
ADDRESS = "127.0.0.1"
WORD = "X03MO1qnZdYdgyfeuILPmQ=="
GREETING = b"TASSERVER 0.38 * 8201 0\n"
# Nothing that a server does at once takes this long, also on a busy machine.
PATIENCE = 30.0


class Difference(Exception):
    """Something is other than the protocol says."""


def program(variable, name):
    """The path of a built program."""
    path = Path(os.environ.get(variable) or ROOT / "bin" / name)
    if not os.access(path, os.X_OK):
        sys.exit(f"there is no {path}: make build builds it, or {variable} names another")
    return str(path.resolve())


def use_programs(folder, *names):
    """Names programs in the environment, each as its variable: those of a folder, or those that the gate built where there is none."""
    for name in names:
        path = Path(folder).resolve() / name if folder else ROOT / "crates" / name / "out" / name
        if not os.access(path, os.X_OK):
            sys.exit(f"there is no {path}: make test builds it")
        os.environ[name.upper()] = str(path)


def free_port():
    """A port below those that the system gives to clients, on which nothing listens now."""
    for _ in range(100):
        port = random.randrange(10_000, 32_000)
        with socket.socket() as trial, contextlib.suppress(OSError):
            trial.bind((ADDRESS, port))
            return port
    raise Difference("no port is free")


class Account:
    """One who may log in, and how a log in shows it."""

    def __init__(self, name, number, rank=0, country="??"):
        self.name, self.number, self.rank, self.country = name, number, rank, country

    def table(self):
        keys = f'name = "{self.name}"\npassword = "{WORD}"\nid = {self.number}\nrank = {self.rank}\n'
        return f'[[account]]\n{keys}country = "{self.country}"\n'

    def status(self):
        """The status word of one who set none of its own bits."""
        return self.rank << 2

    def arrival(self):
        """What all are told when it logs in."""
        told = f"ADDUSER {self.name} {self.country} 0 {self.number}\n"
        return told + (f"CLIENTSTATUS {self.name} {self.status()}\n" if self.status() else "")

    def login(self):
        return f"LOGIN {self.name} {WORD} 0 * Checks 1.0\n"


def limit(files, addresses):
    """Limits the files that this process may open, and the bytes of its addresses, where a number is given."""
    for what, most in ((resource.RLIMIT_NOFILE, files), (resource.RLIMIT_AS, addresses)):
        if most:
            resource.setrlimit(what, (most, resource.getrlimit(what)[1]))


class Server:
    """A server that runs until `stop`, in an environment that has these words more. One with an output of its own is not read. It may open
    so many `files`, and have so many megabytes of `addresses`. It tells operators as much as `log` says, and to the file `errors`, if there
    is one."""

    def __init__(self, workers, accounts, settings="", port=0, files=0, output=None, log="none", errors=None, addresses=0, **words):
        self.folder = tempfile.TemporaryDirectory(prefix="lobby-check-")
        self.port, self.is_stopped, self.workers, self.counts, self.log = port or free_port(), False, workers, [], log
        room = Path(self.folder.name)
        head = f'address = "{ADDRESS}:{self.port}"\nworkers = {workers}\nstop_at_input_end = true\n'
        head += f'log = "{log}"\n' if log else ""
        (room / "settings.toml").write_text(head + settings)
        (room / "accounts.toml").write_text("\n".join(it.table() for it in accounts))
        call = [program("LOBBY_MAIN", "lobby_main"), "serve", str(room / "settings.toml"), str(room / "accounts.toml")]
        self.errors = errors or (room / "errors").open("w+b")
        how = {"env": {**os.environ, **words}, "preexec_fn": lambda: limit(files, addresses * 1_048_576)}
        self.process = subprocess.Popen(call, stdin=subprocess.PIPE, stdout=output or subprocess.PIPE, stderr=self.errors, **how)
        if not self.listens():
            self.process.kill()
            raise Difference(f"the server does not listen: {self.told()}")

    def listens(self):
        """Whether it says that it listens, or takes a connection where its output is not read."""
        if self.process.stdout:
            return select.select([self.process.stdout], [], [], PATIENCE)[0] and self.process.stdout.readline() == b"listening\n"
        until = time.monotonic() + PATIENCE
        while time.monotonic() < until:
            with contextlib.suppress(ConnectionRefusedError):
                socket.create_connection((ADDRESS, self.port), PATIENCE).close()
                return True
            time.sleep(0.01)
        return False

    def told(self):
        if not self.errors.seekable():
            return ""
        # Not by a seek: the server writes at the same place of the file.
        return os.pread(self.errors.fileno(), os.fstat(self.errors.fileno()).st_size, 0).decode(errors="replace")

    def __enter__(self):
        return self

    def __exit__(self, kind, *_):
        try:
            if kind is None and not self.is_stopped:
                self.stop()
        finally:
            self.process.kill()
            self.process.wait()
            self.errors.close()
            self.folder.cleanup()

    def end_input(self):
        """Ends its input, by which it stops."""
        self.check_runs()
        self.is_stopped = True
        self.process.stdin.close()

    def wait(self, patience=PATIENCE):
        """Waits for its end, within so many seconds. It is in order."""
        try:
            status = self.process.wait(patience)
        except subprocess.TimeoutExpired:
            raise Difference("the server does not end with its input") from None
        if status != 0 or (self.log == "none" and self.told()):
            raise Difference(f"the server ends with status {status}, and told: {self.told()}")

    def stop(self):
        """Ends the server by the end of its input, and gives how long that took. `counts` has then the events of each worker."""
        begun = time.monotonic()
        if not self.is_stopped:
            self.end_input()
        self.wait()
        lines = self.process.stdout.read().decode().splitlines()
        told = [re.fullmatch(f"worker {worker}: ([0-9]+) events", line) for worker, line in enumerate(lines)]
        if not all(told) or len(told) != self.workers:
            raise Difference(f"the server told at its end: {lines}")
        self.counts = [int(it[1]) for it in told]
        return time.monotonic() - begun

    def check_runs(self):
        if self.process.poll() is not None:
            raise Difference(f"the server has ended with status {self.process.returncode}: {self.told()}")

    def memory(self):
        """How much memory it has now, and had at most, in megabytes."""
        lines = Path(f"/proc/{self.process.pid}/status").read_text().splitlines()
        sizes = dict(line.split(":", 1) for line in lines)
        return tuple(int(sizes[it].split()[0]) / 1024 for it in ("VmRSS", "VmHWM"))

    def allow_more(self, megabytes):
        """From now on the system gives it no more than so much memory besides what it has."""
        pages = int(Path(f"/proc/{self.process.pid}/statm").read_text().split()[0])
        most = pages * resource.getpagesize() + megabytes * 1_048_576
        resource.prlimit(self.process.pid, resource.RLIMIT_AS, (most, most))

    def waits(self):
        """How often its threads have waited for something."""
        count = 0
        for thread in Path(f"/proc/{self.process.pid}/task").iterdir():
            with contextlib.suppress(FileNotFoundError):
                found = re.search("^voluntary_ctxt_switches:(.*)", (thread / "status").read_text(), re.M)
                count += int(found[1])
        return count

    def sockets(self):
        """How many sockets it has open."""
        count = 0
        for link in Path(f"/proc/{self.process.pid}/fd").iterdir():
            with contextlib.suppress(FileNotFoundError):
                count += os.readlink(link).startswith("socket:")
        return count

    def seconds(self):
        """How many seconds of processors it took."""
        fields = Path(f"/proc/{self.process.pid}/stat").read_text().rpartition(")")[2].split()
        return (int(fields[11]) + int(fields[12])) / os.sysconf("SC_CLK_TCK")


class Client:
    """One connection, which is read only when it is asked to be, and all bytes that it was sent."""

    def __init__(self, server, source=ADDRESS, room=None):
        self.socket = socket.socket()
        if room:
            self.socket.setsockopt(socket.SOL_SOCKET, socket.SO_RCVBUF, room)
        self.socket.bind((source, 0))
        self.socket.settimeout(PATIENCE)
        self.socket.connect((ADDRESS, server.port))
        self.socket.setsockopt(socket.IPPROTO_TCP, socket.TCP_NODELAY, 1)
        self.heard = bytearray()
        self.checked = 0
        self.is_ended = False

    def send(self, text):
        self.socket.sendall(text.encode("latin-1") if isinstance(text, str) else text)

    def receive(self):
        """Takes what comes next; False where the stream has ended."""
        try:
            piece = self.socket.recv(65_536)
        except ConnectionResetError:
            piece = b""
        except socket.timeout:
            raise Difference(f"nothing comes behind {bytes(self.heard[-200:])}") from None
        self.heard += piece
        self.is_ended = self.is_ended or not piece
        return bool(piece)

    def expect(self, text):
        """Takes as many bytes as these, and compares."""
        wanted = text.encode("latin-1") if isinstance(text, str) else text
        end = self.checked + len(wanted)
        while len(self.heard) < end and self.receive():
            pass
        found = bytes(self.heard[self.checked : end])
        if found != wanted:
            raise Difference(f"wanted:\n{wanted[:2000].decode('latin-1')}\nfound:\n{found[:2000].decode('latin-1')}")
        self.checked = end

    def expect_end(self):
        """Nothing more comes, and the stream ends."""
        while self.receive():
            pass
        if len(self.heard) > self.checked:
            raise Difference(f"wanted the end, found {bytes(self.heard[self.checked:][:500])}")

    def expect_nothing_more(self, number=77):
        """What came was all: an answer of the server comes next."""
        self.send(f"#{number} PING\n")
        self.expect(f"#{number} PONG\n")

    def close(self):
        self.socket.close()

    def reset(self):
        """Breaks the connection off, so that the server's next call on it fails."""
        self.socket.setsockopt(socket.SOL_SOCKET, socket.SO_LINGER, struct.pack("ii", 1, 0))
        self.socket.close()


def greeted(server, **how):
    """A client that was greeted. One that is closed without a byte met a full inbox, and tries again."""
    for _ in range(100):
        client = Client(server, **how)
        if client.receive():
            client.expect(GREETING)
            return client
        client.close()
        time.sleep(0.01)
    raise Difference("no client is greeted in 100 tries")


def logged_in(server, account, others, **how):
    """A client that is logged in beside these others, who set no bits of their own status and are in no battle."""
    client = greeted(server, **how)
    client.send(account.login())
    users = sorted([account, *others], key=lambda it: it.name)
    told = [it.arrival().splitlines(True) for it in users]
    lines = [f"ACCEPTED {account.name}\n", *(it[0] for it in told), *(it[1] for it in told if it[1:]), "LOGININFOEND\n"]
    client.expect("".join(lines))
    return client


def run(check, arguments):
    """Runs a check, and ends the process with status 1 where something differs."""
    begun = time.monotonic()
    try:
        check(*arguments)
    except Difference as difference:
        print(f"DIFFERS: {difference}")
        sys.exit(1)
    print(f"passed in {time.monotonic() - begun:.1f} s")
