#!/usr/bin/env python3
"""Plays the rows and examples over real connections, and compares all bytes of each client with what lobby_play shows for the
same script. Left out are rows that read a part or lower the outbox limit, which a client cannot say to a server, those that
end badly, and those with more than 100 connections. Each script gets a server of its own. Run by hand, behind `make build`:

    checks/played.py [WORKERS [ROW ..]]

WORKERS is 4 if left out. $LOBBY_MAIN and $LOBBY_PLAY name other builds of the programs.

An order of the script takes whole lines from those that a client was to send; just these are sent then, in pieces, and behind
them `#1999999999 PING`. Then each client has to be told what lobby_play shows of it up to there, without saying anything: its
worker has to be woken by the others."""
import random
import re
import subprocess
import sys
import tempfile
import time
from pathlib import Path

from lobby_server import ROOT, Account, Client, Difference, Server, program, run

ASKED = b"#1999999999 PING\n"
ANSWER = b"#1999999999 PONG\n"
MOST_OPEN = 100
# The label of a client that says only where an order ends.
MARKER = 4_000_000_000
LONGEST = 8_192
ESCAPE = re.compile(rb"\\(?:x([0-9a-fA-F]{2})|(.))", re.S)
PLAIN = {b"n": b"\n", b"t": b"\t", b"r": b"\r", b"\\": b"\\"}


def unescaped(text):
    return ESCAPE.sub(lambda it: bytes.fromhex(it[1].decode()) if it[1] else PLAIN[it[2]], text)


def escaped(data):
    return "".join(chr(it) if 32 <= it < 127 and it != 92 else f"\\x{it:02x}" for it in data).encode()


class Script:
    """A script as orders of which each sends whole lines: (what, label, bytes)."""

    def __init__(self, text):
        self.head, self.orders, self.labels, self.waiting = [], [], [], {}
        for line in text.split(b"\n"):
            words = line.split(b" ", 2)
            if words[0] in (b"account", b"motd"):
                self.head.append(line)
            elif words[0] in (b"open", b"send", b"all", b"take", b"shut"):
                self.order(words[0].decode(), int(words[1]), words[2] if words[2:] else b"")

    def order(self, what, label, text):
        if what == "open":
            self.labels.append(label)
            self.waiting[label] = b""
            self.orders.append(("open", label, text.replace(b"10.0.0.", b"127.0.0.")))
        elif what == "send":
            self.waiting[label] += unescaped(text)
        elif what == "shut":
            self.orders.append(("shut", label, b""))
        else:
            self.serve(label, what == "take")

    def serve(self, label, is_one):
        """Whole lines are taken, and bytes without an LF only where they are too many."""
        waiting = self.waiting[label]
        end = (waiting.find(b"\n") if is_one else waiting.rfind(b"\n")) + 1
        if len(waiting) - end > LONGEST and not (is_one and end):
            end = len(waiting)
        self.waiting[label] = waiting[end:]
        if end:
            self.orders.append(("send", label, waiting[:end]))

    def text(self):
        """The script for lobby_play. Behind each order it shows all clients, and then the answer to a marker."""
        lines, opened = [*self.head, b"open %d 127.0.0.99" % MARKER], []
        for number, (what, label, data) in enumerate(self.orders):
            place = b"%d " % label
            if what == "open":
                lines.append(b"open " + place + data)
                opened.append(label)
            else:
                said = data if what == "shut" else data + ASKED
                lines += [b"send " + place + escaped(said), b"all %d" % label] if said else []
            lines += [b"shut %d" % label] if what == "shut" else []
            lines += [b"show %d" % it for it in opened]
            lines += [b"send %d #%d PING\\n" % (MARKER, number), b"all %d" % MARKER, b"show %d" % MARKER]
        return b"\n".join(lines) + b"\n"


def shown(script):
    """What lobby_play puts to each client behind each order; None where the script ends badly."""
    ran = subprocess.run([program("LOBBY_PLAY", "lobby_play")], input=script.text(), stdout=subprocess.PIPE, stderr=subprocess.PIPE, timeout=120)
    if ran.returncode:
        return None
    steps, step = [], {}
    for line in ran.stdout.split(b"\n")[:-1]:
        label, _, text = line.partition(b"> ")
        if int(label) != MARKER:
            step[int(label)] = step.get(int(label), b"") + text + b"\n"
        elif text.endswith(b" PONG"):
            steps.append(step)
            step = {}
    if len(steps) != len(script.orders):
        raise Difference(f"lobby_play shows {len(steps)} of {len(script.orders)} orders")
    return steps


class Play:
    """A script played over connections."""

    def __init__(self, server):
        self.server, self.clients, self.choice = server, {}, random.Random(1)

    def send(self, client, data):
        """Sends in pieces."""
        while data:
            size = self.choice.choice((1, 7, 60, len(data)))
            client.send(data[:size])
            data = data[size:]

    def shut(self, label):
        client = self.clients.pop(label, None)
        if client:
            client.close()
            # Of one who is not logged in nobody is told.
            time.sleep(0.05)

    def step(self, order, wanted):
        """Does one order, and then each client has to be told what is wanted."""
        what, label, data = order
        if what == "open":
            self.clients[label] = Client(self.server, source=data.decode())
        elif what == "shut":
            self.shut(label)
        elif label in self.clients:
            self.send(self.clients[label], data + ASKED)
        for each, client in list(self.clients.items()):
            text = wanted.get(each, b"")
            try:
                client.expect(text)
            except Difference as difference:
                raise Difference(f"client {each} behind {order}: {difference}") from None
            if what == "send" and each == label and not text.endswith(ANSWER):
                client.expect_end()
                del self.clients[label]

    def finish(self):
        for client in self.clients.values():
            client.expect_nothing_more(1_888_888_888)


def accounts_of(script):
    found = []
    for line in script.head:
        words = line.decode("latin-1").split(" ")
        if words[0] == "account":
            found.append(Account(words[1], int(words[3]), int(words[4]), words[5] if words[5:] else "??"))
    return found


def settings_of(script):
    texts = [it[5:].decode("latin-1") for it in script.head if it.startswith(b"motd ")]
    return "motd = [" + ", ".join('"' + "".join(c if c.isalnum() else f"\\u{ord(c):04x}" for c in it) + '"' for it in texts) + "]\n"


def play_row(name, text, workers):
    """Plays one script; False where it is left out."""
    if re.search(rb"(?m)^(read|limit) ", text) or text.count(b"\nopen ") > MOST_OPEN:
        return False
    try:
        script = Script(text)
    except (ValueError, KeyError, IndexError):
        # A bad step.
        return False
    wanted = shown(script)
    if wanted is None:
        return False
    with Server(workers, accounts_of(script), settings_of(script)) as server:
        play = Play(server)
        try:
            for order, step in zip(script.orders, wanted):
                play.step(order, step)
            play.finish()
        except Difference as difference:
            raise Difference(f"{name}: {difference}") from None
    return True


def check(workers="4", *names):
    rows = [Path(it).resolve() for it in names] or sorted([*ROOT.glob("rows/*/*.row"), *ROOT.glob("examples/*.play")])
    passed, left = 0, []
    with tempfile.TemporaryDirectory() as folder:
        for row in rows:
            parts = Path(folder) / row.parent.name / row.stem
            parts.mkdir(parents=True)
            if row.suffix == ".row":
                subprocess.run(["awk", "-v", f"FOLDER={parts}", "-f", ROOT / "checks/row.awk", row], check=True)
            else:
                (parts / "1.script").write_bytes(row.read_bytes())
            for script in sorted(parts.glob("*.script")):
                is_played = play_row(f"{row.parent.name}/{row.name}", script.read_bytes(), int(workers))
                passed += is_played
                left += [] if is_played else [f"{row.parent.name}/{row.stem}"]
    print(f"{passed} scripts are played the same, {len(left)} were left out: {', '.join(sorted(set(left)))}")


if __name__ == "__main__":
    run(check, sys.argv[1:])
