#!/usr/bin/env python3
"""Ten thousand clients at once: 2,000 log in, 200 battles of 8 are opened, and for a minute statuses are set, all talk and some
move from battle to battle; then some hundreds leave, by EXIT, by a close, by a reset. The bytes of each client are kept, and
compared with what was said: see crowd_told.py. Between, one client more than there may be is closed without a byte. Run by
hand, behind `make build`, with `ulimit -n 20000`:

    checks/crowd.py [WORKERS [SECONDS [CONNECTIONS [USERS [BATTLES]]]]]

They are 4, 60, 10000, 2000 and 200 if left out. $LOBBY_MAIN and $VIEW_SHOW name other builds of the programs."""
import errno
import random
import re
import resource
import select
import socket
import struct
import sys
import time

from crowd_told import Said, compare
from lobby_server import ADDRESS, GREETING, PATIENCE, Account, Client, Difference, Server, greeted, run

# The clients that the lobby takes.
MOST = 10_000
CHANNELS = 20
# The members of a battle beside its founder.
MEMBERS = 7
# How often in a second each of these is said, by one of all.
RATES = {"set_status": 200, "speak": 100, "speak_in_battle": 400, "set_battle_status": 200, "speak_privately": 100, "move": 25}
CASES = {"EXIT": 0, "close": 1, "reset": 2}


class Peer:
    """A connection that never waits, and all bytes that it was sent."""

    def __init__(self, number):
        self.number = number
        self.heard = bytearray()
        self.unsent = b""
        self.awaited, self.mark = None, 0
        self.is_ended = False
        self.account = None
        self.link = None

    def has_found(self, old):
        """Whether the awaited text has come; the next search begins with its last byte, the end of a line."""
        at = self.heard.find(self.awaited, max(self.mark, old - len(self.awaited)))
        if at < 0:
            return False
        self.mark = at + len(self.awaited) - 1
        self.awaited = None
        return True


class Crowd:
    """All connections, over one poll."""

    def __init__(self, server):
        self.server, self.poll = server, select.epoll()
        self.peers, self.open, self.waiting = [], {}, set()
        self.retried = 0

    def connect(self, peer):
        peer.link = socket.socket()
        peer.link.setblocking(False)
        if peer.link.connect_ex((ADDRESS, self.server.port)) not in (0, errno.EINPROGRESS):
            raise Difference("a connection is refused")
        peer.link.setsockopt(socket.IPPROTO_TCP, socket.TCP_NODELAY, 1)
        self.open[peer.link.fileno()] = peer
        self.poll.register(peer.link, select.EPOLLIN)

    def forget(self, peer):
        del self.open[peer.link.fileno()]
        self.waiting.discard(peer)
        peer.link.close()

    def ended(self, peer):
        """The stream of a peer has ended: one without a byte met a full inbox, and comes again."""
        if peer.heard:
            self.forget(peer)
            peer.is_ended = True
            return
        del self.open[peer.link.fileno()]
        peer.link.close()
        self.retried += 1
        self.connect(peer)

    def take(self, peer):
        try:
            piece = peer.link.recv(262_144)
        except BlockingIOError:
            return
        except ConnectionResetError:
            piece = b""
        if not piece:
            self.ended(peer)
            return
        old = len(peer.heard)
        peer.heard += piece
        if peer.awaited and peer.has_found(old):
            self.waiting.discard(peer)

    def send_on(self, peer):
        try:
            peer.unsent = peer.unsent[peer.link.send(peer.unsent) :]
        except BlockingIOError:
            pass
        self.want_to_send(peer)

    def want_to_send(self, peer):
        """Asks the poll to tell when a peer takes bytes, where some are left for it."""
        self.poll.modify(peer.link, select.EPOLLIN | (select.EPOLLOUT if peer.unsent else 0))

    def pump(self, seconds):
        """Takes what has come, and waits for it so long."""
        for number, events in self.poll.poll(seconds, 4_096):
            peer = self.open.get(number)
            if peer and events & select.EPOLLOUT:
                self.send_on(peer)
            if peer and events & ~select.EPOLLOUT:
                self.take(peer)

    def send(self, peer, text):
        if peer.is_ended:
            raise Difference(f"the server closed the connection of client {peer.number}")
        data = text.encode()
        if not peer.unsent:
            try:
                data = data[peer.link.send(data) :]
            except BlockingIOError:
                pass
        if data:
            peer.unsent += data
            self.want_to_send(peer)

    def await_text(self, peer, text):
        """Has `wait` wait for a text that comes behind the last one that was awaited."""
        peer.awaited = text.encode()
        if not peer.has_found(peer.mark):
            self.waiting.add(peer)

    def wait(self, most=0):
        """Waits until no more than so many still await a text."""
        end = time.monotonic() + 4 * PATIENCE
        while len(self.waiting) > most:
            self.pump(0.1)
            if time.monotonic() > end:
                peer = next(iter(self.waiting))
                raise Difference(f"{len(self.waiting)} clients wait in vain, one for {peer.awaited} behind {bytes(peer.heard[-200:])}")

    def barrier(self, peers, number):
        """Behind this all that these said is served, and they have read all that was told of it."""
        for again in (number, number + 1):
            for peer in peers:
                self.send(peer, f"#{again} PING\n")
                self.await_text(peer, f"\n#{again} PONG\n")
            self.wait()

    def open_all(self, count):
        """Opens so many connections, some hundreds at a time; each is greeted."""
        while len(self.peers) < count:
            peer = Peer(len(self.peers))
            self.peers.append(peer)
            self.connect(peer)
            peer.awaited = GREETING
            self.waiting.add(peer)
            self.wait(300)
        self.wait()


def one_too_many(crowd):
    """Where all clients are there, the next one is closed without a byte; once one has left, the next is served."""
    server = crowd.server
    for _ in range(3):
        Client(server).expect_end()
    leaver = crowd.peers.pop()
    crowd.forget(leaver)
    again = greeted(server)
    again.expect_nothing_more()
    Client(server).expect_end()
    return again


class Lobby:
    """What the users say, and with it what they are to be told."""

    def __init__(self, crowd, users, battles, choice):
        self.crowd, self.choice, self.said = crowd, choice, Said()
        self.users = users
        self.founders = users[:battles]
        self.number = 0

    def size(self):
        return sum(len(peer.heard) for peer in self.users)

    def log_in(self):
        # The first is told of all others, and so it comes alone.
        for at, peer in enumerate(self.users):
            self.said.arrive(peer.account)
            self.crowd.send(peer, peer.account.login())
            self.crowd.await_text(peer, "\nLOGININFOEND\n")
            self.crowd.wait(100 if at else 0)
        self.crowd.wait()

    def join_channels(self):
        # The first of each channel hears all that is told in it.
        for some in (self.users[:CHANNELS], self.users[CHANNELS:]):
            for peer in some:
                name = f"talk{peer.account.number % CHANNELS:02}"
                self.said.join(peer.account.name, name)
                self.crowd.send(peer, f"JOIN {name}\n")
            self.crowd.barrier(some, 10)

    def open_battles(self):
        for peer in self.founders:
            name = peer.account.name
            self.crowd.send(peer, f"OPENBATTLE 0 0 * 8452 8 {peer.account.number} 0 123 Spring\t104.0\tComet Catcher\tOf {name}\tBA 9.46\n")
            self.crowd.await_text(peer, "\nREQUESTBATTLESTATUS\n")
        self.crowd.wait()
        for peer in self.founders:
            number = int(re.search(rb"(?m)^OPENBATTLE (\d+)$", peer.heard)[1])
            self.said.found(peer.account, number)
        rest = self.users[len(self.founders) :]
        for at, peer in enumerate(rest[: MEMBERS * len(self.founders)]):
            self.join_battle(peer, self.founders[at // MEMBERS])
        self.crowd.barrier(self.users, 20)

    def join_battle(self, peer, founder):
        number = self.said.battle_of[founder.account.name]
        self.said.join_battle(peer.account.name, number)
        self.crowd.send(peer, f"JOINBATTLE {number}\n")
        self.set_battle_status(peer)

    def text(self):
        self.number += 1
        return f"line {self.number} " + "word " * self.choice.randrange(12)

    def set_status(self, peer):
        word = self.choice.randrange(1 << 32)
        self.said.set_status(peer.account, word)
        self.crowd.send(peer, f"MYSTATUS {word}\n")

    def speak(self, peer):
        text, channel = self.text(), self.said.channel_of[peer.account.name]
        self.said.speak(peer.account.name, text)
        self.crowd.send(peer, f"SAY {channel} {text}\n")

    def speak_in_battle(self, peer):
        if self.said.battle_of.get(peer.account.name):
            text = self.text()
            self.said.speak_in_battle(peer.account.name, text)
            self.crowd.send(peer, f"SAYBATTLE {text}\n")

    def set_battle_status(self, peer):
        if self.said.battle_of.get(peer.account.name):
            word, colour = self.choice.randrange(1 << 32), self.choice.randrange(1 << 24)
            self.said.set_battle_status(peer.account.name, word, colour)
            self.crowd.send(peer, f"MYBATTLESTATUS {word} {colour}\n")

    def speak_privately(self, peer):
        text, other = self.text(), self.choice.choice(self.users)
        self.said.speak_privately(peer.account.name, other.account.name, text)
        self.crowd.send(peer, f"SAYPRIVATE {other.account.name} {text}\n")

    def move(self, peer):
        """Leaves its battle, if it is in one, and enters another, or none."""
        name = peer.account.name
        if peer in self.founders:
            return
        if self.said.battle_of.get(name):
            self.said.leave_battle(name)
            self.crowd.send(peer, "LEAVEBATTLE\n")
        if self.choice.random() < 0.8:
            self.join_battle(peer, self.choice.choice(self.founders))

    def talk(self, seconds):
        """All of it for so long, at its rates."""
        begun = time.monotonic()
        done = dict.fromkeys(RATES, 0)
        while (now := time.monotonic() - begun) < seconds:
            for name, rate in RATES.items():
                while done[name] < rate * now:
                    getattr(self, name)(self.choice.choice(self.users))
                    done[name] += 1
            self.crowd.pump(0.005)
        self.crowd.barrier(self.users, 30)
        return sum(done.values())

    def leave(self):
        """Some founders and a quarter of the others leave, in three ways. Those who stay come back."""
        leavers = self.founders[CHANNELS::10] + self.users[len(self.founders) + CHANNELS :: 4]
        for at, peer in enumerate(leavers):
            self.said.leave(peer.account.name)
            if at % len(CASES) == CASES["EXIT"]:
                self.crowd.send(peer, "EXIT\n")
                continue
            if at % len(CASES) == CASES["reset"]:
                peer.link.setsockopt(socket.SOL_SOCKET, socket.SO_LINGER, struct.pack("ii", 1, 0))
            self.crowd.forget(peer)
        gone = set(leavers)
        stayers = [peer for peer in self.users if peer not in gone]
        begin = stayers[0].mark
        for peer in leavers:
            stayers[0].mark = begin
            self.crowd.await_text(stayers[0], f"\nREMOVEUSER {peer.account.name}\n")
            self.crowd.wait()
        self.crowd.barrier(stayers, 40)
        while not all(peer.is_ended for peer in leavers[CASES["EXIT"] :: len(CASES)]):
            self.crowd.pump(0.1)
        return stayers, leavers


def measured(server, begun, what):
    print(f"  {time.monotonic() - begun:6.1f} s  {what}; the server: {server.memory()[0]:.0f} MB, {server.seconds():.1f} s of processors", flush=True)


def check(workers="4", seconds="60", connections=str(MOST), users="2000", battles="200"):
    begun = time.monotonic()
    connections, users, battles = int(connections), int(users), int(battles)
    allowed = resource.getrlimit(resource.RLIMIT_NOFILE)[1]
    if allowed < connections + 100:
        sys.exit(f"{allowed} open files are too few for {connections} connections: ulimit -n")
    resource.setrlimit(resource.RLIMIT_NOFILE, (allowed, allowed))
    accounts = [Account(f"User{number:04}", number, number % 8, ("DE", "??", "SE")[number % 3]) for number in range(users)]
    with Server(int(workers), accounts, "outbox_limit = 67108864\n") as server:
        crowd = Crowd(server)
        crowd.open_all(connections)
        measured(server, begun, f"{connections} are greeted, {crowd.retried} closed without a byte came again")
        if connections == MOST:
            crowd.last = one_too_many(crowd)
            measured(server, begun, "one too many was closed, and served once another had left")
        chosen = crowd.peers[:: len(crowd.peers) // users][:users]
        for peer, account in zip(chosen, accounts):
            peer.account = account
        lobby = Lobby(crowd, chosen, battles, random.Random(1))
        played(lobby, server, begun, float(seconds))
        stayers, leavers = lobby.leave()
        measured(server, begun, f"{len(leavers)} have left")
        idle = [peer for peer in crowd.peers if not peer.account]
        crowd.barrier(idle, 50)
        if any(peer.heard != GREETING + b"#50 PONG\n#51 PONG\n" for peer in idle):
            raise Difference("one who is not logged in was told something")
        size = sum(len(peer.heard) for peer in crowd.peers)
        measured(server, begun, f"{len(idle)} others are still there; {size / 1e6:.0f} MB were read by all")
        print(f"           the server had {server.memory()[1]:.0f} MB at most, and ended in {server.stop():.2f} s", flush=True)
    compare(lobby.said, stayers, leavers)
    print(f"  {time.monotonic() - begun:6.1f} s  all was compared", flush=True)


def played(lobby, server, begun, seconds):
    lobby.log_in()
    measured(server, begun, f"{len(lobby.users)} are logged in")
    lobby.join_channels()
    lobby.open_battles()
    measured(server, begun, f"{len(lobby.founders)} battles of {MEMBERS + 1} are open, and all are in channels")
    before, used, own, size = time.monotonic(), server.seconds(), time.process_time(), lobby.size()
    count = lobby.talk(seconds)
    took = time.monotonic() - before
    measured(server, begun, f"{count} lines were said in {took:.1f} s, and {(lobby.size() - size) / 1e6:.0f} MB told")
    shares = [(server.seconds() - used) / took, (time.process_time() - own) / took]
    print("           meanwhile the server took {:.2f} processors, and this check {:.2f}".format(*shares), flush=True)


if __name__ == "__main__":
    run(check, sys.argv[1:])
