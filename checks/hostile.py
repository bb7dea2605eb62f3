#!/usr/bin/env python3
"""Lets 2,000 connections at once send the running server what no client should, and sees how a pair that behaves fares meanwhile:
random bytes, NULs, CRs, lines of 8,191 to 8,193 bytes, commands of all kinds with wrong arguments, in pieces of any size; logins,
resets and half-closed sockets among them. Run by hand, behind `make build`:

    checks/hostile.py [WORKERS [SECONDS [SEED]]]

WORKERS is 4 if left out, SECONDS 300, SEED 1. It tells the pair's times, the server's processor time and memory, and fails where
the pair waits too long, or where a user or a socket is left once all others have gone. $LOBBY_MAIN names another build."""
import contextlib
import os
import random
import socket
import sys
import time

from lobby_server import ADDRESS, WORD, Account, Client, Difference, Server, greeted, logged_in, run

CROWD = 2_000
PACE = 0.02
# The pair's answers: no such wait is explained by a busy machine.
WORST = 10.0
ANNA, BERT, ZOE = Account("Anna", 1, 0, "DE"), Account("Bert", 2, 3), Account("Zoe", 3)
STRANGERS = [Account(f"x{number:03}", 100 + number) for number in range(200)]
# Written by tools/protocol.py of protocol/commands.toml: words.
WORDS = """LOGIN PING EXIT MYSTATUS CHANNELS JOIN LEAVE SAY SAYEX SAYPRIVATE OPENBATTLE JOINBATTLE JOINBATTLEACCEPT
JOINBATTLEDENY LEAVEBATTLE UPDATEBATTLEINFO MYBATTLESTATUS SAYBATTLE SAYBATTLEEX ADDBOT UPDATEBOT REMOVEBOT ADDSTARTRECT
REMOVESTARTRECT SETSCRIPTTAGS REMOVESCRIPTTAGS DISABLEUNITS ENABLEUNITS ENABLEALLUNITS HANDICAP FORCETEAMNO FORCEALLYNO
FORCETEAMCOLOR FORCESPECTATORMODE KICKFROMBATTLE RING""".split()
# End of what is written: words.
ARGUMENTS = ["0", "1", "-1", "16", "4294967296", "00000000001", "x", "a-b", "Anna", "x007", "main", "*", "a=1", "=", "\t", "\r", "\0", "", "é"]
OPEN = "OPENBATTLE 0 0 * 8452 8 -1 0 123 Spring\t104.0\tComet Catcher\tgame\tBA 9.46\n"


def line_of(chance):
    """A line that may be good or bad."""
    kind = chance.randrange(10)
    if kind == 0:
        return chance.randbytes(chance.randrange(1, 300))
    if kind == 1:
        return bytes([chance.choice([0, 9, 10, 13, 32, 35, 255])]) * chance.randrange(1, 50)
    if kind == 2:
        return b"A" * (chance.randrange(8_191, 8_194)) + b"\n"
    if kind == 3:
        return f"LOGIN {chance.choice(STRANGERS).name} {WORD} 0 * Hostile 1.0\t0\t{chance.choice(['', 'b', 'sp b'])}\n".encode()
    if kind == 4:
        return chance.choice([OPEN, "JOIN main\n", "SAY main hello\n", "JOINBATTLE 1\n", "EXIT\n"]).encode()
    words = [chance.choice(WORDS), *(chance.choice(ARGUMENTS) for _ in range(chance.randrange(15)))]
    return (chance.choice(["", "#7 ", "# ", "#99999999999 "]) + chance.choice([" ", "  ", "\t"]).join(words) + "\n").encode()


class Stranger:
    """A connection that sends without regard, and reads at times."""

    def __init__(self, port, chance):
        self.chance, self.waiting = chance, b""
        self.socket = socket.socket()
        self.socket.setblocking(False)
        with contextlib.suppress(BlockingIOError):
            self.socket.connect((ADDRESS, port))

    def act(self):
        """Does one thing; False where the connection is done with."""
        deed = self.chance.random()
        try:
            if deed < 0.004:
                self.socket.setsockopt(socket.SOL_SOCKET, socket.SO_LINGER, b"\1\0\0\0\0\0\0\0")
                return False
            if deed < 0.008:
                return False
            if deed < 0.010:
                self.socket.shutdown(socket.SHUT_WR)
            elif deed < 0.4:
                return bool(self.socket.recv(65_536))
            else:
                self.waiting = self.waiting or line_of(self.chance)
                sent = self.socket.send(self.waiting[: self.chance.randrange(1, 4_096)])
                self.waiting = self.waiting[sent:]
        except BlockingIOError:
            pass
        except OSError:
            return False
        return True


def drive(port, seconds, seed):
    """The crowd: as soon as one has gone another comes."""
    chance = random.Random(seed)
    crowd, end, count = [], time.monotonic() + seconds, 0
    while time.monotonic() < end:
        if len(crowd) < CROWD:
            crowd.append(Stranger(port, chance))
            count += 1
        place = chance.randrange(len(crowd))
        if not crowd[place].act():
            crowd[place].socket.close()
            crowd[place] = crowd[-1]
            crowd.pop()
    for stranger in crowd:
        stranger.socket.close()
    print(count, flush=True)


def until(client, line):
    """Reads up to this line, whatever comes before it."""
    while True:
        place = client.heard.find(b"\n" + line)
        if place >= 0:
            del client.heard[: place + 1]
            return
        if not client.receive():
            raise Difference(f"the pair is not served any more, and waits for {line}")


def talk(anna, bert, number):
    """Anna says a thing that Bert hears, and each is answered a PING: how long each of the three took."""
    times = []
    for speaker, hearer, sent, told in (
        (anna, bert, f"SAY pair {number}\n", f"SAID pair Anna {number}\n"),
        (anna, anna, f"#{number} PING\n", f"#{number} PONG\n"),
        (bert, bert, f"#{number} PING\n", f"#{number} PONG\n"),
    ):
        begun = time.monotonic()
        speaker.send(sent)
        until(hearer, told.encode())
        times.append(time.monotonic() - begun)
    return times


def wait_until_gone(server, quiet):
    """The server lets go of the sockets of all who have gone."""
    for _ in range(60):
        if server.sockets() <= quiet:
            return
        time.sleep(1)
    raise Difference(f"{server.sockets()} sockets are open, of {quiet} before")


def listed(server):
    """The names of those whom one who logs in is told of."""
    zoe = greeted(server)
    zoe.send(ZOE.login())
    while b"LOGININFOEND\n" not in zoe.heard and zoe.receive():
        pass
    zoe.close()
    return [line.split()[1].decode() for line in bytes(zoe.heard).splitlines() if line.startswith(b"ADDUSER ")]


def tell(server, workers, seed, count, lasted, used, before, times):
    """What was measured."""
    times.sort()
    median, most, worst = (1_000 * times[min(len(times) - 1, int(len(times) * part))] for part in (0.5, 0.99, 1.0))
    now, peak = server.memory()
    print(f"{workers} workers, {count} hostile connections in {lasted:.0f} s, {CROWD} at once, seed {seed}")
    print(f"the pair's {len(times)} answers: median {median:.2f} ms, 99th of a hundred {most:.1f} ms, worst {worst:.0f} ms")
    print(f"processor: {used:.1f} s; memory: {before:.1f} MB before, {now:.1f} MB after, {peak:.1f} MB at most")


def crowd_of(server, seconds, seed):
    """The crowd in a process of its own, and where it tells how many connections it made."""
    reading, writing = os.pipe()
    child = os.fork()
    if child == 0:
        os.dup2(writing, 1)
        drive(server.port, float(seconds), int(seed))
        os._exit(0)
    os.close(writing)
    return child, reading


def check(workers="4", seconds="300", seed="1"):
    with Server(int(workers), [ANNA, BERT, ZOE, *STRANGERS]) as server:
        anna = logged_in(server, ANNA, [])
        bert = logged_in(server, BERT, [ANNA])
        for client in (anna, bert):
            client.send("JOIN pair\n")
            until(client, b"JOIN pair\n")
        talk(anna, bert, 0)
        quiet, before = server.sockets(), server.memory()[0]
        child, reading = crowd_of(server, seconds, seed)
        times, number, begun, used = [], 0, time.monotonic(), server.seconds()
        while os.waitpid(child, os.WNOHANG)[0] == 0:
            number += 1
            times += talk(anna, bert, number)
            time.sleep(PACE)
        lasted, used = time.monotonic() - begun, server.seconds() - used
        wait_until_gone(server, quiet)
        talk(anna, bert, number + 1)
        tell(server, workers, seed, int(os.read(reading, 100)), lasted, used, before, times)
        if listed(server) != ["Anna", "Bert", "Zoe"]:
            raise Difference(f"listed at the end are {listed(server)}")
        if times[-1] > WORST:
            raise Difference(f"the pair waited {times[-1]:.1f} s")


if __name__ == "__main__":
    run(check, sys.argv[1:])
