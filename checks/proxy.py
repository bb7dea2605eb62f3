#!/usr/bin/env python3
"""proxy.py [PROGRAM]: connects to the server as the gate built it, or another build of it, as a front would: with good lines, whole and
byte by byte, with wrong ones, and with lines that do not go on. A client logs in behind each good line, hosts a battle, and another
client is told its address; and with a system that tells nothing of a new registration but what came by it. What is wanted stands here by
hand."""
import contextlib
import os
import socket
import subprocess
import sys
import tempfile
import time
from pathlib import Path

from lobby_server import ADDRESS, GREETING, Account, Client, Difference, Server, greeted

HERE = Path(__file__).resolve().parent
FRONT = f'proxies = ["192.0.2.1", "{ADDRESS}"]\n'
# An address of this machine that is no front's.
ELSEWHERE = "127.0.0.2"
ANNA, BERT = Account("Anna", 1), Account("Bert", 2)
OPEN = "OPENBATTLE 0 0 * 8452 8 -1 0 123 Spring\t104.0\tComet Catcher\tEve's game\tBA 9.46\n"
GOOD = "PROXY TCP4 203.0.113.7 192.0.2.8 56324 8200\r\n"
UNKNOWN_COMMAND = "SERVERMSG Unknown command\n"

# Each is closed without a byte.
WRONG = [
    "\r\n",
    "PING\r\n",
    "PROXY\r\n",
    "PROXY TCP4\r\n",
    "proxy TCP4 203.0.113.7 192.0.2.8 56324 8200\r\n",
    " PROXY TCP4 203.0.113.7 192.0.2.8 56324 8200\r\n",
    "PROXY TCP6 ::1 ::1 56324 8200\r\n",
    "PROXY TCP4 203.0.113.7 192.0.2.8 56324 8200\n",
    "PROXY TCP4 203.0.113.7 192.0.2.8 56324\r\n",
    "PROXY TCP4 203.0.113.7 192.0.2.8 56324 8200 1\r\n",
    "PROXY TCP4 203.0.113.7 192.0.2.8 56324 8200 \r\n",
    "PROXY TCP4  203.0.113.7 192.0.2.8 56324 8200\r\n",
    "PROXY TCP4\t203.0.113.7\t192.0.2.8\t56324\t8200\r\n",
    "PROXY TCP4 203.0.113.07 192.0.2.8 56324 8200\r\n",
    "PROXY TCP4 203.0.113.7 192.0.2.08 56324 8200\r\n",
    "PROXY TCP4 203.0.113.256 192.0.2.8 56324 8200\r\n",
    "PROXY TCP4 203.0.113 192.0.2.8 56324 8200\r\n",
    "PROXY TCP4 203.0.113.7 192.0.2.8 65536 8200\r\n",
    "PROXY TCP4 203.0.113.7 192.0.2.8 56324 65536\r\n",
    "PROXY TCP4 203.0.113.7 192.0.2.8 056324 8200\r\n",
    "PROXY TCP4 203.0.113.7 192.0.2.8 56324 +8200\r\n",
    "PROXY TCP4 203.0.113.7 192.0.2.8 56324 8200\r\r\n",
    "PROXY UNKNOWN\n",
    "PROXY UNKNOWNx\r\n",
    "PROXY UNKNOWN a\nb\r\n",
    "PROXY UNKNOWN" + " " * 93 + "\r\n",
    "x" * 107,
    "\r\n\r\n\0\r\nQUIT\n",
]
# The longest line has 107 bytes.
LONGEST = "PROXY UNKNOWN" + " " * 92 + "\r\n"
# Each good line, and the address that it gives.
RIGHT = [
    (GOOD, "203.0.113.7"),
    ("PROXY TCP4 255.255.255.255 255.255.255.255 65535 65535\r\n", "255.255.255.255"),
    ("PROXY TCP4 0.0.0.0 0.0.0.0 0 0\r\n", "0.0.0.0"),
    ("PROXY UNKNOWN\r\n", ADDRESS),
    ("PROXY UNKNOWN \r\n", ADDRESS),
    ("PROXY UNKNOWN ffff::1 ffff::2 1 2\r\n", ADDRESS),
    (LONGEST, ADDRESS),
]


class Front(Client):
    """A connection of a front, which begins with these bytes: at once, or each on its own."""

    def __init__(self, server, text, cut=False, **how):
        super().__init__(server, **how)
        # What is refused may be closed before the last byte is sent.
        with contextlib.suppress(ConnectionResetError, BrokenPipeError):
            for piece in text if cut else [text]:
                self.send(piece)
                time.sleep(0.0005 if cut else 0)


def check_address(client, watcher, number, address):
    """A client that logs in behind its greeting hosts a battle, and all are told this address."""
    client.expect(f"ACCEPTED Bert\n{ANNA.arrival()}{BERT.arrival()}LOGININFOEND\n")
    watcher.expect(BERT.arrival())
    client.send(OPEN)
    opened = f"BATTLEOPENED {number} 0 0 Bert {address} 8452 8 0 0 123 Spring\t104.0\tComet Catcher\tEve's game\tBA 9.46\n"
    watcher.expect(opened)
    client.expect(opened + f"OPENBATTLE {number}\nREQUESTBATTLESTATUS\n")
    client.send("EXIT\n")
    watcher.expect(f"BATTLECLOSED {number}\nREMOVEUSER Bert\n")
    client.close()


def check_right(server):
    """Good lines open a client with their address, in one piece with what the client sends first, and byte by byte."""
    watcher = Front(server, GOOD + ANNA.login())
    watcher.expect(GREETING)
    watcher.expect(f"ACCEPTED Anna\n{ANNA.arrival()}LOGININFOEND\n")
    number = 0
    for line, address in RIGHT:
        for cut, behind in [(False, ""), (False, BERT.login()), (True, BERT.login())]:
            client = Front(server, line + behind, cut)
            client.expect(GREETING)
            if not behind:
                client.send(BERT.login())
            number += 1
            check_address(client, watcher, number, address)
    # Who is no front has its own address, and its line is one like any other.
    client = greeted(server, source=ELSEWHERE)
    client.send(GOOD)
    client.expect(UNKNOWN_COMMAND)
    client.send(BERT.login())
    check_address(client, watcher, number + 1, ELSEWHERE)
    watcher.close()


def check_wrong(server):
    for line in WRONG:
        for cut in (False, True):
            client = Front(server, line, cut)
            client.expect_end()
            client.close()


def check_halves(server, workers):
    """Lines that do not go on keep nobody out: of 300 at one worker the first lose their place, and all others go on."""
    halves = [Front(server, GOOD[: 1 + k % (len(GOOD) - 1)]) for k in range(300)]
    client = Front(server, GOOD + "#5 PING\n")
    client.expect(GREETING.decode() + "#5 PONG\n")
    client.close()
    greeted(server, source=ELSEWHERE).close()
    lost = 44 if workers == 1 else 0
    for half in halves[:lost]:
        half.expect_end()
    # The client takes the place of one more, where it is accepted before its line has come.
    stays = lost + 1 if lost else 0
    for k, half in enumerate(halves[stays:], stays):
        half.send(GOOD[1 + k % (len(GOOD) - 1) :] + "#6 PING\n")
    for half in halves[stays:]:
        half.expect(GREETING.decode() + "#6 PONG\n")
    for half in halves:
        half.close()
    # One that ends, or is broken off, in the midst of its line.
    for end in (Client.close, Client.reset):
        end(Front(server, GOOD[:20]))
    client = Front(server, GOOD[:20])
    client.socket.shutdown(socket.SHUT_WR)
    client.expect_end()
    client.close()


def check_quiet_registration(workers):
    """Who comes is greeted though the system does not say that a new registration can be written to: behind a front, and without one."""
    with tempfile.TemporaryDirectory(prefix="lobby-check-") as folder:
        library = Path(folder) / "quiet.so"
        subprocess.run([HERE / "build_library.sh", HERE / "quiet_registration.c", library], check=True)
        with Server(workers, [ANNA, BERT], FRONT, LD_PRELOAD=str(library)) as server:
            # Each worker gets some.
            for _ in range(2 * workers):
                behind_front = Front(server, GOOD[:-1])
                for client in (Client(server, source=ELSEWHERE), behind_front):
                    # The server waits by now.
                    time.sleep(0.05)
                    client.send(GOOD[-1:] if client is behind_front else "")
                    client.expect(GREETING)
                    client.send("#7 PING\n")
                    client.expect("#7 PONG\n")
                    client.close()


def check_without(workers):
    """Without the setting a front's line is a client's line like any other."""
    with Server(workers, [ANNA, BERT]) as server:
        client = greeted(server)
        client.send(GOOD + "#5 PING\n")
        client.expect(UNKNOWN_COMMAND + "#5 PONG\n")
        client.close()


def main():
    built = sys.argv[1] if len(sys.argv) > 1 else HERE.parent / "crates/lobby_main/out/lobby_main"
    os.environ["LOBBY_MAIN"] = str(built)
    passed = failed = 0
    for workers in (1, 4):
        with Server(workers, [ANNA, BERT], FRONT) as server:
            for check in (check_wrong, check_right, lambda it: check_halves(it, workers)):
                try:
                    check(server)
                    passed += 1
                except Difference as difference:
                    print(f"DIFFERS with {workers} workers: {difference}")
                    failed += 1
        for check in (check_without, check_quiet_registration):
            try:
                check(workers)
                passed += 1
            except Difference as difference:
                print(f"DIFFERS with {workers} workers: {difference}")
                failed += 1
    print(f"proxy: {passed} passed, {failed} failed")
    sys.exit(1 if failed else 0)


if __name__ == "__main__":
    main()
