#!/usr/bin/env python3
"""stopping.py [PROGRAM]: ends the input of the server as the gate built it, or of another build of it, while 1,000 clients talk, and while
its output takes nothing. Each client reads to the end of its stream and talks on until then: none is reset, each was told whole lines,
and all that others of its channel were told. A few who do not read, or do not end, keep the server for a few seconds and no longer."""
import contextlib
import fcntl
import os
import select
import socket
import sys
import time
from pathlib import Path

from lobby_server import ADDRESS, PATIENCE, Account, Difference, Server, greeted

TALKERS, CHANNELS = 1_000, 20
# Who is in a channel beside the talkers and does not do its part.
STUCK = 12
TALK = 1.0      # seconds
WINDOW = 4      # lines that a talker has on their way until the end
# A server with clients who do not end stops within this many seconds, also on a busy machine.
LATEST = 10.0
LIMIT = "outbox_limit = 67108864\n"


class Talker:
    """A client that says the next line when it was told its own."""

    def __init__(self, port, number):
        self.name, self.channel = f"u{number}", f"c{number % CHANNELS}"
        self.heard, self.said, self.told, self.end, self.rest = bytearray(), 0, 0, "", b""
        self.socket = socket.create_connection((ADDRESS, port), PATIENCE)
        self.socket.setsockopt(socket.IPPROTO_TCP, socket.TCP_NODELAY, 1)
        self.socket.sendall(f"{Account(self.name, number).login()}JOIN {self.channel}\n".encode())
        self.socket.setblocking(False)

    def take(self):
        """Reads a piece. Whether the stream goes on."""
        try:
            piece = self.socket.recv(1 << 16)
        except BlockingIOError:
            return True
        except OSError as error:
            self.end = type(error).__name__
            return False
        self.heard += piece
        self.told += piece.count(b"#")
        if not piece:
            self.end = "end"
        return bool(piece)

    def say(self, count):
        """Says so many lines, as far as the system takes them. A line goes on where the last call stopped."""
        for _ in range(count):
            self.said += 1
            self.rest += b"#%d SAY %s line %d of %s\n" % (self.said, self.channel.encode(), self.said, self.name.encode())
        try:
            self.rest = self.rest[self.socket.send(self.rest) :]
        except BlockingIOError:
            pass
        except OSError as error:
            self.end = self.end or type(error).__name__

    def lines(self):
        """What it was told of what was said in its channel, without the ids of its own lines."""
        told = [it.partition(b" ")[2] if it.startswith(b"#") else it for it in self.heard.split(b"\n")]
        return [it for it in told if it.startswith(b"SAID ")]


class Crowd:
    """The talkers, who read all the time."""

    def __init__(self, port):
        self.poll, self.there = select.epoll(), {}
        self.talkers = [Talker(port, number) for number in range(1, TALKERS + 1)]
        for it in self.talkers:
            self.poll.register(it.socket, select.EPOLLIN)
            self.there[it.socket.fileno()] = it

    def read(self, talk):
        """Takes what is there now, and has those talk who were told something."""
        for number, _ in self.poll.poll(0.02):
            it = self.there[number]
            if it.take():
                talk(it)
            else:
                del self.there[number]
                it.socket.close()

    def read_until(self, is_done, talk=lambda it: None):
        until = time.monotonic() + PATIENCE
        while not is_done():
            if time.monotonic() > until:
                return False
            self.read(talk)
        return True


def stuck(server, number):
    """One of those who do not do their part: it reads nothing, or it reads to the end and keeps its side."""
    client = greeted(server, room=4_096)
    client.send(Account(f"s{number}", 9_000 + number).login() + f"JOIN c{number % CHANNELS}\n")
    return client


def compare(crowd, workers):
    """None was reset or cut short, and each was told what the others of its channel were. Of several workers one may be told to stop
    before the others, so what its clients were told is the front of what others were."""
    resets = [it.name for it in crowd.talkers if it.end != "end"]
    if resets:
        raise Difference(f"{len(resets)} of {TALKERS} did not read to the end: {sorted({it.end for it in crowd.talkers})}")
    if not all(it.heard.endswith(b"\n") for it in crowd.talkers):
        raise Difference("the stream of one ends within a line")
    for number in range(CHANNELS):
        told = [it.lines() for it in crowd.talkers if it.channel == f"c{number}"]
        longest = max(told, key=len)
        if any(it != (longest if workers == 1 else longest[: len(it)]) for it in told):
            raise Difference(f"what was said in channel {number} was not told to each: {sorted({len(it) for it in told})}")


def talk_on(workers, count):
    """Talkers and so many who are stuck, at a server whose input ends."""
    accounts = [*(Account(f"u{it}", it) for it in range(1, TALKERS + 1)), *(Account(f"s{it}", 9_000 + it) for it in range(count))]
    with Server(workers, accounts, LIMIT) as server:
        crowd = Crowd(server.port)
        others = [stuck(server, number) for number in range(count)]
        if not crowd.read_until(lambda: all(b"\nCLIENTS " in it.heard for it in crowd.talkers)):
            raise Difference("not all are in their channels")
        for it in crowd.talkers:
            it.say(WINDOW)
        until = time.monotonic() + TALK
        while time.monotonic() < until:
            crowd.read(lambda it: it.say(WINDOW - it.said + it.told))
        begun = time.monotonic()
        server.end_input()
        while crowd.there and time.monotonic() < begun + PATIENCE:
            crowd.read(lambda it: None)
            for it in [*crowd.there.values()]:
                it.say(1)
            for it in others[::2]:
                with contextlib.suppress(OSError):
                    it.socket.send(b"PING\n", socket.MSG_DONTWAIT)
        read = time.monotonic() - begun
        server.stop()
        lasted = time.monotonic() - begun
        compare(crowd, workers)
        for it in others:
            it.close()
        if lasted > LATEST:
            raise Difference(f"the server ended after {lasted:.1f} s")
        said = sum(it.told for it in crowd.talkers)
        print(f"  {workers} workers, {TALKERS} who talk and {count} who are stuck: {said} lines were said; the last end was read after "
              f"{read:.2f} s, and the server ended after {lasted:.2f} s", flush=True)


def fill(pipe):
    """Fills a pipe to its brim."""
    os.set_blocking(pipe, False)
    with contextlib.suppress(BlockingIOError):
        while True:
            os.write(pipe, b"x" * 4_096)
    with contextlib.suppress(BlockingIOError):
        while True:
            os.write(pipe, b"x")
    os.set_blocking(pipe, True)


def full_output(workers, is_full_first):
    """The output is a pipe that nobody reads, and is full from the start or once the server has said that it listens."""
    reader, writer = os.pipe()
    fcntl.fcntl(writer, fcntl.F_SETPIPE_SZ, 4_096)
    if is_full_first:
        fill(writer)
    try:
        with Server(workers, [], output=writer) as server:
            client = greeted(server)
            if not is_full_first:
                fill(writer)
            client.send("PING\n")
            client.expect("PONG\n")
            begun = time.monotonic()
            server.end_input()
            client.expect_end()
            client.close()
            server.wait(LATEST)
            print(f"  {workers} workers, whose output is full: the server ended after {time.monotonic() - begun:.2f} s", flush=True)
    finally:
        os.close(reader)
        os.close(writer)


def main():
    here = Path(__file__).resolve().parent.parent
    built = sys.argv[1] if len(sys.argv) > 1 else here / "crates/lobby_main/out/lobby_main"
    os.environ["LOBBY_MAIN"] = str(built)
    passed = failed = 0
    for workers in (1, 4):
        for check, how in ((talk_on, 0), (talk_on, STUCK), (full_output, True), (full_output, False)):
            try:
                check(workers, how)
                passed += 1
            except Difference as difference:
                print(f"DIFFERS with {workers} workers: {difference}")
                failed += 1
    print(f"stopping: {passed} passed, {failed} failed")
    sys.exit(1 if failed else 0)


if __name__ == "__main__":
    main()
