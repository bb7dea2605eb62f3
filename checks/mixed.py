#!/usr/bin/env python3
"""Some dozens of users say lines of all commands, good and bad ones, at once and without waiting, and now and then one leaves
and comes again. At the end the bytes of each are folded by view_show, whole and one by one: all have to know the same users and
battles, which one who logs in then is told at once; the members of a battle the same room; those of a channel the same members.
Run by hand, behind `make build`:

    checks/mixed.py [WORKERS [SECONDS [USERS [SEED]]]]

They are 4, 20, 48 and 1 if left out. $LOBBY_MAIN and $VIEW_SHOW name other builds of the programs."""
import collections
import random
import socket
import struct
import subprocess
import sys
import time

from crowd import Crowd, Peer
from lobby_server import ROOT, Account, Difference, Server, program, run

sys.path.insert(0, str(ROOT / "tools"))
from written.lines import printed  # noqa: E402
from written.table import Tables  # noqa: E402

NAMES = [f"User{number:02}" for number in range(100)]
WORDS = ["Robo", "Rex", "Kai", "Max"]
# What some arguments may be, by their names; others are any number within their bounds, or one of WORDS.
VALUES = {"channel": "abcd", "password": ["*", "*", "word"], "locked": [0, 0, 0, 0, 1],
          "keys": ["game/mode", "game/units", "map/start", "x", "y"],
          "units": ["armcom", "corcom", "armflash", "armpw", "corak"]}
# How often a command is said beside the others, where not as often as each of them. Who logs in or out is for Mixed to say.
OFTEN = {"LOGIN": 0, "EXIT": 0, "OPENBATTLE": 0.4, "JOINBATTLEACCEPT": 2, "LEAVEBATTLE": 0.1, "KICKFROMBATTLE": 0.4,
         "ENABLEALLUNITS": 0.2}


def login(account):
    """Who joins a battle of every other user asks it first."""
    return account.login().replace("\n", "\t0\tsp b\n" if account.number % 2 else "\n")


class Speaker:
    """Makes lines of all commands in the table, most of them such as are served."""

    def __init__(self, choice, names):
        self.choice, self.names, self.battles = choice, names, 1
        self.commands = Tables().commands.lines
        self.weights = [OFTEN.get(it.word, 1) for it in self.commands]
        self.faults = ["NOTHING", "  ", *(line for it in self.commands for line, _ in it.bad)]

    def line(self):
        number = f"#{self.choice.randrange(99)} " if self.choice.random() < 0.2 else ""
        said = self.said(self.choice.choices(self.commands, self.weights)[0])
        if self.choice.random() < 0.04:
            said = self.choice.choice(self.faults)
        return number + said + self.choice.choice(("\n", "\r\n"))

    def said(self, command):
        """A line of this command. What stands behind an argument that is left out is left out too."""
        values = []
        for it in command.kept:
            is_left_out = it.is_optional and (self.choice.random() < 0.3 or values[-1:] == [None])
            values.append(None if is_left_out else self.value(it))
        return command.word + printed(command.kept, values)

    def value(self, it):
        some = self.values(it)
        if it.kind == "pairs":
            return [(self.choice.choice(VALUES["keys"]), value) for value in self.choice.choices(some, k=self.few())]
        return self.choice.choices(some, k=self.few()) if it.is_list else self.choice.choice(some)

    def few(self):
        return self.choice.randrange(1, 4)

    def values(self, it):
        """What an argument may be, or a part of a list."""
        if it.name == "battleID":
            return range(max(1, self.battles - 5), self.battles + 1)
        if it.name in VALUES:
            return VALUES[it.name]
        if it.bounds:
            return range(it.bounds[0], it.bounds[1] + 1)
        if it.kind in ("sentence", "text", "pairs"):
            return [f"{it.name} {self.choice.randrange(1 << 32)}"]
        return self.names if it.kind == "name" else WORDS


class Mixed:
    """All users, of whom each is logged in most of the time."""

    def __init__(self, crowd, accounts, choice):
        self.crowd, self.choice, self.accounts = crowd, choice, accounts
        self.speaker = Speaker(choice, [it.name for it in accounts])
        self.peers = [self.enter(it) for it in accounts]
        self.lines = self.returns = 0

    def enter(self, account):
        peer = Peer(account.number)
        peer.account = account
        self.crowd.connect(peer)
        # A connection that is not made yet takes no line.
        peer.unsent = login(account).encode()
        self.crowd.want_to_send(peer)
        return peer

    def leave(self, at):
        """One leaves, by EXIT, a close or a reset, and comes again."""
        peer = self.peers[at]
        how = self.choice.randrange(3)
        if how == 0:
            self.crowd.send(peer, "EXIT\n")
        else:
            if how == 1:
                peer.link.setsockopt(socket.SOL_SOCKET, socket.SO_LINGER, struct.pack("ii", 1, 0))
            self.crowd.forget(peer)
        self.returns += 1
        self.peers[at] = self.enter(self.accounts[at])

    def talk(self, seconds):
        end = time.monotonic() + seconds
        while time.monotonic() < end:
            told = self.peers[0].heard
            last = told.rfind(b"\nBATTLEOPENED ")
            self.speaker.battles = int(told[last:].split(b" ", 2)[1]) if last >= 0 else self.speaker.battles
            for at in range(len(self.peers)):
                peer = self.peers[at]
                if len(peer.unsent) > 10_000:
                    continue
                if b"\nLOGININFOEND\n" not in peer.heard and b"\nDENIED " in peer.heard[-2_000:]:
                    self.crowd.send(peer, login(peer.account))
                count = self.choice.randrange(40)
                self.crowd.send(peer, "".join(self.speaker.line() for _ in range(count)))
                self.lines += count
                if self.choice.random() < 0.01:
                    self.leave(at)
            self.crowd.pump(0.001)

    def all_in(self):
        """Waits until each is logged in."""
        for number in range(100, 200, 2):
            self.crowd.barrier(self.peers, number)
            out = [it for it in self.peers if b"\nLOGININFOEND\n" not in it.heard]
            if not out:
                return
            for peer in out:
                self.crowd.send(peer, login(peer.account))
        raise Difference(f"{len(out)} cannot log in, one as {bytes(out[0].heard[-300:])}")


def view(heard):
    """What a client knows: of all, and by channel and room."""
    shower = program("VIEW_SHOW", "view_show")
    texts = [subprocess.run([shower, how], input=bytes(heard), stdout=subprocess.PIPE, timeout=120, check=True).stdout for how in ("whole", "1")]
    if texts[0] != texts[1]:
        raise Difference("a view folds bytes one by one to something else")
    parts, key = collections.defaultdict(list), "me"
    for line in texts[0].decode().splitlines():
        words = line.split()
        if not line.startswith(" "):
            key = {"me": "me", "user": "all", "battle": "all"}.get(words[0]) or f"{words[0]} {words[1]}"
        parts[key].append(line)
    return parts


def compare(peers):
    """All that more than one knows has to be the same. The last peer is the onlooker, who logged in behind all else."""
    shared, holders = {}, collections.Counter()
    for peer in reversed(peers):
        for key, lines in view(peer.heard).items():
            if key == "me":
                continue
            if shared.setdefault(key, lines) != lines:
                other = [it for it in zip(shared[key], lines) if it[0] != it[1]][:3]
                raise Difference(f"{peer.account.name} knows {key} otherwise: {other}, {len(shared[key])} and {len(lines)} lines")
            holders[key] += 1
    if holders["all"] != len(peers):
        raise Difference("some know no users")
    for key, lines in shared.items():
        # Each who knows a channel or a room is one of its members.
        if key != "all" and holders[key] != sum(it.startswith("  member ") for it in lines):
            raise Difference(f"{holders[key]} know {key}: {lines}")
    rooms = sum(it.startswith("room") for it in shared)
    print(f"  {len(peers)} clients know the same; {rooms} rooms and {len(shared) - 1 - rooms} channels are known by all of their members")


def check(workers="4", seconds="20", users="48", seed="1"):
    accounts = [Account(NAMES[number], number, number % 8) for number in range(int(users))]
    watcher = Account("Watcher", 1_000)
    with Server(int(workers), [*accounts, watcher], "outbox_limit = 67108864\n") as server:
        mixed = Mixed(Crowd(server), accounts, random.Random(int(seed)))
        mixed.talk(float(seconds))
        mixed.all_in()
        mixed.accounts.append(watcher)
        mixed.peers.append(mixed.enter(watcher))
        mixed.all_in()
        size = sum(len(it.heard) for it in mixed.peers)
        print(f"  {mixed.lines} lines were said, {mixed.returns} left and came again, {size / 1e6:.0f} MB are compared", flush=True)
        print(f"  the server: {server.memory()[1]:.0f} MB at most, {server.seconds():.1f} s of processors", flush=True)
        compare(mixed.peers)


if __name__ == "__main__":
    run(check, sys.argv[1:])
