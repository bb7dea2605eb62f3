#!/usr/bin/env python3
"""A server records what happens, and lobby_play plays it: what each client received over its connection has to be a front of what
is put for it then. Some users say lines of all commands, good and bad ones, at a given rate, and now and then one leaves, by EXIT,
a close or a reset, and comes again.

    checks/record.py                                     what the gate runs on its programs: the first four, short
    checks/record.py long [WORKERS [SECONDS [USERS [RATE [SEED]]]]]
    checks/record.py killed [TIMES [WORKERS]]            the server is killed at a random time
    checks/record.py files                               numbers and modes, and with standard descriptors closed
    checks/record.py faults                              no folder, no permission, a full disk, a folder that goes
    checks/record.py cost [RUNS [SECONDS [USERS [RATE]]]]  what the server takes of processors with a record and without, in turn

`long` is 4 workers, 1,200 seconds, 300 users and 100 lines a second if left out. In the record of `long` it also searches each word
of an account: some are sent where no password belongs. $LOBBY_MAIN and $LOBBY_PLAY name other builds of the programs."""
import base64
import contextlib
import errno
import hashlib
import os
import random
import select
import shutil
import signal
import socket
import subprocess
import sys
import tempfile
import time
from pathlib import Path

from crowd import Crowd, Peer
from lobby_server import ADDRESS, ROOT, Account, Difference, Server, free_port, greeted, program, run
from mixed import VALUES, Mixed, Speaker

class Owner(Account):
    """An account with a word of its own."""

    def __init__(self, name, number):
        super().__init__(name, number, number % 8)
        self.word = base64.b64encode(hashlib.md5(f"{name} of the checks".encode()).digest()).decode()

    def table(self):
        return super().table().replace(Account("", 0).table().split('"')[3], self.word)

    def login(self, word=None):
        flags = "\t0\tsp b" if self.number % 2 else ""
        return f"LOGIN {self.name} {word or self.word} 0 * Checks 1.0{flags}\n"

    def astray(self, choice):
        """A login with the word where it does not belong."""
        word = self.word
        return choice.choice((f"LOGIN {word} {self.name} 0 * Checks 1.0\n", f"LOGIN {self.name} {word} 0 {word} {word}\t{word}\t{word} b\n"))


class Sources(Crowd):
    """Connections of which each comes from an address of its own, by which the record tells it."""

    def __init__(self, server):
        super().__init__(server)
        self.made = 0

    def connect(self, peer):
        self.made += 1
        peer.source = f"127.{1 + self.made // 62_500}.{1 + self.made // 250 % 250}.{1 + self.made % 250}"
        peer.link = socket.socket()
        peer.link.setblocking(False)
        peer.link.bind((peer.source, 0))
        if peer.link.connect_ex((ADDRESS, self.server.port)) not in (0, errno.EINPROGRESS):
            raise Difference("a connection is refused")
        self.open[peer.link.fileno()] = peer
        self.poll.register(peer.link, select.EPOLLIN)


class Session(Mixed):
    """Users who talk at a rate; all connections that there were are kept."""

    def __init__(self, server, count, seed):
        self.all = []
        owners = [Owner(f"User{number:03}", number) for number in range(count)]
        super().__init__(Sources(server), owners, random.Random(seed))

    def enter(self, account):
        peer = Peer(account.number)
        peer.account = account
        self.all.append(peer)
        self.crowd.connect(peer)
        peer.unsent = self.login(account).encode()
        self.crowd.want_to_send(peer)
        return peer

    def login(self, account):
        """Now and then with the word of another, or with its own out of its place."""
        if self.choice.random() < 0.1:
            return account.astray(self.choice)
        other = self.choice.choice(self.accounts) if self.choice.random() < 0.1 else account
        return account.login(other.word)

    def speak(self):
        at = self.choice.randrange(len(self.peers))
        peer = self.peers[at]
        if peer.is_ended or self.choice.random() < 0.004:
            return self.comes_again(at)
        if b"\nLOGININFOEND\n" not in peer.heard and b"DENIED " in peer.heard[-2_000:]:
            self.crowd.send(peer, self.login(peer.account))
        is_key = self.choice.random() < 0.01
        channel = self.choice.choice(VALUES["channel"])
        self.crowd.send(peer, f"JOIN {channel} {peer.account.word}\n" if is_key else self.speaker.line())
        self.lines += 1
        return None

    def comes_again(self, at):
        if self.peers[at].is_ended:
            self.peers[at] = self.enter(self.accounts[at])
        else:
            self.leave(at)

    def talk_at(self, rate, seconds):
        begun, had = time.monotonic(), self.lines
        while time.monotonic() < begun + seconds:
            due = had + int((time.monotonic() - begun) * rate) - self.lines
            told = self.peers[0].heard
            last = told.rfind(b"\nBATTLEOPENED ")
            self.speaker.battles = int(told[last:].split(b" ", 2)[1]) if last >= 0 else self.speaker.battles
            for _ in range(min(due, 200)):
                self.speak()
            self.crowd.pump(0.005)

    def leave_all(self):
        """All that is on its way comes, and then each leaves."""
        for _ in range(200):
            self.crowd.pump(0.01)
        for peer in self.peers:
            if not peer.is_ended:
                self.crowd.forget(peer)


def files_of(folder):
    return [it.read_bytes() for it in sorted(folder.iterdir()) if it.name.isdigit()]


def labels_of(folder):
    """The label of a client by its address, and how many events there are."""
    labels, events = {}, 0
    for text in files_of(folder):
        for line in text.split(b"\n")[:-1]:
            words = line.split(b" ")
            if words[1] == b"open":
                labels[words[3].decode()] = int(words[2])
            events += words[1] in (b"open", b"send", b"read", b"shut")
    return labels, events


def played(folder, labels):
    """What is put for each client, by its label."""
    questions = b"".join(b"show %d\n" % it for it in labels)
    begun = time.monotonic()
    ran = subprocess.run([program("LOBBY_PLAY", "lobby_play"), "--record", folder], input=questions, capture_output=True, timeout=600)
    if ran.returncode:
        raise Difference(f"lobby_play ends with status {ran.returncode}, and told: {ran.stderr.decode()}")
    put = {}
    for line in ran.stdout.split(b"\n")[:-1]:
        label, _, text = line.partition(b"> ")
        put.setdefault(int(label), []).append(text + b"\n")
    return {label: b"".join(lines) for label, lines in put.items()}, time.monotonic() - begun


def compare(session, folder, is_whole):
    """Of a record that is whole, what a client received is a front of what is put for it; else one of the two is a front of the other."""
    labels, events = labels_of(folder)
    put, seconds = played(folder, labels.values())
    compared = 0
    for peer in session.all:
        heard = bytes(peer.heard)
        label = labels.get(peer.source)
        told = put.get(label, b"")
        if is_whole and len(heard) > len(told):
            raise Difference(f"client {label} of {peer.source} received {len(heard)} bytes, and {len(told)} are put for it")
        size = min(len(heard), len(told))
        if heard[:size] != told[:size]:
            at = next(it for it in range(size) if heard[it] != told[it])
            raise Difference(f"client {label} received {heard[at - 40 : at + 60]} where {told[at - 40 : at + 60]} is put for it")
        compared += size
    print(f"  {len(session.all)} clients, {events} events, {compared / 1e6:.1f} MB compared, 0 differ; played in {seconds:.1f} s", flush=True)
    return events


def search_words(session, folder):
    """No word of an account stands in the record."""
    for file in folder.iterdir():
        text = file.read_bytes()
        for owner in session.accounts:
            if owner.word.encode() in text:
                raise Difference(f"{file.name} has the word of {owner.name}")
    print(f"  none of {len(session.accounts)} words stands in it", flush=True)


def settings(folder):
    return f'record = "{folder}"\noutbox_limit = 67108864\n'


def check_long(workers="4", seconds="1200", users="300", rate="100", seed="1"):
    with tempfile.TemporaryDirectory() as folder:
        owners = [Owner(f"User{number:03}", number) for number in range(int(users))]
        with Server(int(workers), owners, settings(folder)) as server:
            session = Session(server, int(users), int(seed))
            session.talk_at(float(rate), float(seconds))
            session.leave_all()
            server.stop()
        record = Path(folder) / "1"
        for text in files_of(record):
            if not text.endswith(b"end stop\n"):
                raise Difference(f"a file ends with {text[-60:]}")
        compare(session, record, True)
        search_words(session, record)


def check_killed(times="20", workers="4"):
    choice = random.Random()
    for number in range(int(times)):
        with tempfile.TemporaryDirectory() as folder:
            owners = [Owner(f"User{it:03}", it) for it in range(60)]
            server = Server(int(workers), owners, settings(folder))
            session = Session(server, 60, number)
            session.talk_at(1_000, 0.5 + choice.random() * 5)
            server.process.send_signal(signal.SIGKILL)
            server.process.wait()
            server.is_stopped = True
            with contextlib.suppress(Difference, OSError):
                for _ in range(20):
                    session.crowd.pump(0.01)
            server.folder.cleanup()
            compare(session, Path(folder) / "1", False)


def nanoseconds(server):
    """What its threads took of processors."""
    return sum(int(it.read_text().split()[0]) for it in Path(f"/proc/{server.process.pid}/task").glob("*/schedstat"))


def taken_in(seconds, users, rate, seed, head):
    """Nanoseconds of processors and events in so many seconds, in which as many lines are said; the users log in before."""
    owners = [Owner(f"User{it:03}", it) for it in range(users)]
    with Server(1, owners, head + "outbox_limit = 67108864\n") as server:
        session = Session(server, users, seed)
        session.talk_at(rate, 3)
        begun, said = nanoseconds(server), session.lines
        session.talk_at(rate, seconds)
        taken, said = nanoseconds(server) - begun, session.lines - said
        session.leave_all()
        server.stop()
        return taken / seconds, server.counts[0], said


def check_cost(runs="5", seconds="10", users="300", rate="150"):
    """The same lines with a record and without, in turn."""
    ratios = []
    for run_number in range(int(runs)):
        with tempfile.TemporaryDirectory() as folder:
            call = float(seconds), int(users), float(rate), run_number
            heads = ["", f'record = "{folder}"\n']
            plain, recorded = (taken_in(*call, it) for it in (heads if run_number % 2 else reversed(heads)))
            if run_number % 2 == 0:
                plain, recorded = recorded, plain
        ratios.append(recorded[0] / plain[0])
        print(f"  {recorded[1]} events: {plain[0] / 1e6:.1f} ms of a processor a second, {recorded[0] / 1e6:.1f} with a record", flush=True)
    print(f"  with a record {sorted(ratios)[len(ratios) // 2]:.3f} times without, the median of {len(ratios)} runs", flush=True)


def refuses(folder, why, **how):
    """A server does not start with this folder, and says so."""
    with tempfile.TemporaryDirectory() as room:
        os.chmod(room, 0o755)
        (Path(room) / "settings.toml").write_text(f'address = "{ADDRESS}:{free_port()}"\nrecord = "{folder}"\n')
        (Path(room) / "accounts.toml").write_text("")
        call = [program("LOBBY_MAIN", "lobby_main"), "serve", f"{room}/settings.toml", f"{room}/accounts.toml"]
        try:
            ran = subprocess.run(call, input=b"", capture_output=True, timeout=60, **how)
        except PermissionError:
            print(f"  {why}: nobody else may run the program", flush=True)
            return
        if ran.returncode != 2 or b"cannot make a record" not in ran.stderr:
            raise Difference(f"{why}: status {ran.returncode}, told: {ran.stderr.decode()}")
    print(f"  {why}: {ran.stderr.decode().strip()}", flush=True)


@contextlib.contextmanager
def small_disk():
    """A folder on a disk of 256 KiB, where this user may mount one; else None."""
    with tempfile.TemporaryDirectory() as folder:
        if subprocess.run(["mount", "-t", "tmpfs", "-o", "size=256k", "tmpfs", folder], capture_output=True, check=False).returncode:
            yield None
            return
        try:
            yield folder
        finally:
            subprocess.run(["umount", folder], check=True)


def goes_on(folder, workers, why, spoil=lambda record: None, line=None):
    """The record ends, and clients notice nothing. Gives the last lines of its files. With a line the users say that alone."""
    owners = [Owner(f"User{it:03}", it) for it in range(20)]
    with Server(workers, owners, settings(folder)) as server:
        session = Session(server, 20, 1)
        if line:
            session.speaker.line = lambda: line
        session.talk_at(1_000 if line is None else 20, 1)
        spoil(Path(folder) / "1")
        session.talk_at(1_000, 4)
        greeted(server).expect_nothing_more()
        session.leave_all()
        server.stop()
    record = Path(folder) / "1"
    ends = [it.split(b"\n")[-2].decode() for it in files_of(record)] if record.exists() else []
    print(f"  {why}, {workers} workers: the files end with {ends}", flush=True)
    if record.exists():
        compare(session, record, False)
    return ends


def check_files():
    """Each start has a folder of its own by the greatest number and one, that its owner alone may read, whatever the umask."""
    with tempfile.TemporaryDirectory() as folder:
        umask = os.umask(0)
        try:
            for number, deleted in ("1", None), ("2", "1"), ("3", None), ("12", None), ("13", "1"):
                for name in "11", "12.old", "notes", os.fsdecode(b"\xff"):
                    if number == "12":
                        (Path(folder) / name).mkdir()
                with Server(2, [Owner("User000", 0)], settings(folder)) as server:
                    greeted(server)
                    server.stop()
                made = Path(folder) / number
                modes = {it.name: it.stat().st_mode & 0o777 for it in [made, *made.iterdir()]}
                if modes != {number: 0o700, **dict.fromkeys(("0", "1", "settings.toml", "accounts.toml", "spare"), 0o600)}:
                    raise Difference(f"the record {number} has {modes}")
                if deleted and (Path(folder) / deleted).exists():
                    shutil.rmtree(Path(folder) / deleted)
        finally:
            os.umask(umask)
    print("  five records are numbered by the greatest and one, and only their owner may read them", flush=True)


def check_closed():
    """Without standard descriptors the files of a record have none of what the server prints."""
    for closed in (0,), (1,), (2,), (0, 1, 2):
        with tempfile.TemporaryDirectory() as folder:
            port = free_port()
            (Path(folder) / "settings.toml").write_text(f'address = "{ADDRESS}:{port}"\nrecord = "{folder}"\nlog = "all"\n')
            (Path(folder) / "accounts.toml").write_text(Owner("User000", 0).table())
            call = [program("LOBBY_MAIN", "lobby_main"), "serve", f"{folder}/settings.toml", f"{folder}/accounts.toml"]
            server = subprocess.Popen(call, stdin=subprocess.DEVNULL, stdout=subprocess.DEVNULL, stderr=subprocess.DEVNULL,
                                      preexec_fn=lambda shut=closed: [os.close(it) for it in shut])
            try:
                for _ in range(200):
                    with contextlib.suppress(OSError), socket.create_connection((ADDRESS, port), 1) as link:
                        link.sendall(Owner("User000", 0).login().encode())
                        while b"LOGININFOEND" not in link.recv(65_536):
                            pass
                        break
                    time.sleep(0.05)
                time.sleep(0.5)
            finally:
                server.kill()
                server.wait()
            text = b"".join(files_of(Path(folder) / "1"))
            heads = (Path(folder) / "1/settings.toml").read_bytes() + (Path(folder) / "1/accounts.toml").read_bytes()
            lines = text.split(b"\n")[:-1]
            if not any(b" send 1 LOGIN " in it for it in lines) or not all(it.split(b" ")[0].isdigit() for it in lines):
                raise Difference(f"with {closed} closed the record has {text}")
            if b"listening" in heads or b"started" in heads:
                raise Difference(f"with {closed} closed the head of a record has {heads}")
    print("  with standard descriptors closed nothing else is in the record", flush=True)


def check_faults():
    with tempfile.TemporaryDirectory() as folder:
        refuses(f"{folder}/nowhere", "a folder that is not there")
        os.chmod(folder, 0o555)
        how = {"preexec_fn": lambda: os.setuid(65_534)} if os.geteuid() == 0 else {}
        refuses(folder, "a folder that takes no files", **how)
        os.chmod(folder, 0o755)
        (Path(folder) / "file").write_text("")
        refuses(f"{folder}/file", "a file in place of a folder")
    for workers in 1, 2:
        with small_disk() as disk:
            if disk is None:
                print("  a full disk: this user may not mount one", flush=True)
            elif set(goes_on(disk, workers, "a full disk")) != {"end disk"}:
                raise Difference("not every file says that the disk is full")
    with small_disk() as disk:
        # A line of which some 8,000 bytes may be missing, twice what the spare file keeps room for.
        if disk and goes_on(disk, 1, "a full disk and long lines", line=f"SAY nowhere {'x' * 8_000}\n") != ["end disk"]:
            raise Difference("the file does not say that the disk is full")
    with tempfile.TemporaryDirectory() as folder:
        goes_on(folder, 2, "a folder that goes", shutil.rmtree)


def check(what="short", *words):
    if what != "short":
        {"long": check_long, "killed": check_killed, "files": lambda: (check_files(), check_closed()), "faults": check_faults,
         "cost": check_cost}[what](*words)
        return
    for name in "lobby_main", "lobby_play":
        os.environ.setdefault(name.upper(), str(ROOT / "crates" / name / "out" / name))
    check_long("2", "6", "40", "600")
    check_killed("2")
    check_files()
    check_closed()
    check_faults()


if __name__ == "__main__":
    run(check, sys.argv[1:])
