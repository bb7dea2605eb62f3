#!/usr/bin/env python3
"""wakes.py [PROGRAM]: counts how often workers of the server wake others by the system, and how often they poll, with the server as the
gate built it, or another build of it. What is wanted stands here by hand: who is at work is not woken, others are woken behind each
second round of one who says much, everything arrives all the same, and who has nothing to do does not poll."""
import collections
import os
import struct
import subprocess
import sys
import tempfile
import time
from pathlib import Path

from lobby_server import Account, Difference, Server, greeted

HERE = Path(__file__).resolve().parent
WORKERS = 4
ACCOUNTS = [Account(f"P{number}", number) for number in range(1, 41)]
# So many lines a speaker sends at once. A turn hears 64 of them.
LINES, HEARD = 2_000, 64

Calls = collections.namedtuple("Calls", "wakes polls sends")


class Counts:
    """The calls that a server has made so far, in a file that it shares."""

    def __init__(self, folder):
        self.path = Path(folder) / "counts"
        self.path.write_bytes(bytes(24))
        library = Path(folder) / "count.so"
        subprocess.run([HERE / "build_library.sh", HERE / "count_calls.c", library], check=True)
        self.words = {"LD_PRELOAD": str(library), "COUNTED": str(self.path)}

    def read(self):
        return Calls(*struct.unpack("=QQQ", self.path.read_bytes()))


def members(server):
    """All accounts, logged in and in one channel. They have read what they were told."""
    clients = []
    for account in ACCOUNTS:
        client = greeted(server)
        client.send(account.login() + "JOIN main\n")
        clients.append(client)
    settle(clients)
    return clients


def settle(clients):
    """Each reads until all have been answered, and then what it was told before that."""
    for number in (1, 2):
        for client in clients:
            client.send(f"#{number} PING\n")
        for client in clients:
            while b"#%d PONG\n" % number not in client.heard:
                if not client.receive():
                    raise Difference(f"the server has ended a connection behind {bytes(client.heard[-200:])}")
    for client in clients:
        client.heard.clear()


def speak(clients, speakers):
    """The speakers say their lines at once, and all clients read all of them."""
    wanted = {it: b"".join(b"SAID main P%d %d\n" % (it, line) for line in range(LINES)) for it in speakers}
    for number in speakers:
        clients[number - 1].send("".join(f"SAY main {line}\n" for line in range(LINES)))
    size = sum(map(len, wanted.values()))
    for client in clients:
        while len(client.heard) < size and client.receive():
            pass
        lines = client.heard.splitlines(True)
        for number in speakers:
            if b"".join(it for it in lines if it.startswith(b"SAID main P%d " % number)) != wanted[number]:
                raise Difference(f"what P{number} says does not arrive as it was said")
        client.heard.clear()


def check_quiet(counts, server):
    """A worker that accepts for itself wakes nobody, nor does one whose clients ask for themselves; and who has nothing to do waits."""
    clients = [greeted(server) for _ in range(50)]
    for number, client in enumerate(clients):
        client.send(f"#{number} PING\n" * 20)
        client.expect(f"#{number} PONG\n" * 20)
    if counts.read().wakes:
        raise Difference(f"a worker alone was woken {counts.read().wakes} times")
    check_idle(counts)


def check_idle(counts):
    """Nothing is asked of the server, and it polls no more."""
    # All that was done is over by then.
    time.sleep(0.3)
    polls = counts.read().polls
    time.sleep(0.3)
    more = counts.read().polls - polls
    if more:
        raise Difference(f"{more} polls while nothing happens")


def check_speakers(counts, server):
    """Others are woken behind each second round at most, and who is at work is not."""
    clients = members(server)
    for speakers in ([1], [1, 2, 3, 4]):
        time.sleep(0.1)
        before = counts.read()
        speak(clients, speakers)
        after = counts.read()
        wakes, turns = after.wakes - before.wakes, len(speakers) * LINES / HEARD
        lines = len(speakers) * LINES * len(clients) / (after.sends - before.sends)
        print(f"wakes: {wakes} for {len(speakers)} speakers of {LINES} lines, {lines:.0f} of which go out at once")
        if wakes > 0.75 * turns * (WORKERS - 1):
            raise Difference(f"{wakes} wakes for about {turns:.0f} turns of {len(speakers)} speakers")
    check_idle(counts)


def main():
    built = sys.argv[1] if len(sys.argv) > 1 else HERE.parent / "crates/lobby_main/out/lobby_main"
    os.environ["LOBBY_MAIN"] = str(built)
    passed = failed = 0
    for workers, check in ((1, check_quiet), (WORKERS, check_speakers)):
        with tempfile.TemporaryDirectory(prefix="lobby-check-") as folder:
            counts = Counts(folder)
            try:
                with Server(workers, ACCOUNTS, **counts.words) as server:
                    check(counts, server)
                passed += 1
            except Difference as difference:
                print(f"DIFFERS with {workers} workers: {difference}")
                failed += 1
    print(f"wakes: {passed} passed, {failed} failed")
    sys.exit(1 if failed else 0)


if __name__ == "__main__":
    main()
