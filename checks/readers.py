#!/usr/bin/env python3
"""readers.py PORT COUNT FILE : as many clients log in as u1, u2 and so on, join a channel and talk. Then it writes FILE, and they read
until their connections end. The status is 0 where each was told all that was said before, and no connection ended by a reset."""
import selectors
import socket
import sys
import time
from pathlib import Path

from lobby_server import ADDRESS, PATIENCE, WORD

ROUNDS = 5


class Reader:
    """A client and what it has read."""

    def __init__(self, port, number):
        self.name, self.read, self.end = f"u{number}", bytearray(), None
        self.socket = socket.create_connection((ADDRESS, port), PATIENCE)
        self.socket.sendall(f"LOGIN {self.name} {WORD} 0 * Checks 1.0\nJOIN main\n".encode())
        self.socket.setblocking(False)

    def take(self):
        """Reads a piece. Whether there is more to come."""
        try:
            piece = self.socket.recv(1 << 16)
        except OSError as error:
            self.end = type(error).__name__
            return False
        self.read += piece
        if not piece:
            self.end = "end"
        return bool(piece)

    def lines(self):
        """How many lines of talk it was told."""
        return self.read.count(b"\nSAID main ")


def read_until(readers, selector, is_done):
    """Has all read until this is so, or until no patience is left. Whether it is so."""
    until = time.monotonic() + PATIENCE
    while not is_done():
        if time.monotonic() > until:
            return False
        for key, _ in selector.select(0.1):
            if not key.data.take():
                selector.unregister(key.fileobj)
    return True


def main():
    port, count, file = int(sys.argv[1]), int(sys.argv[2]), Path(sys.argv[3])
    readers = [Reader(port, number) for number in range(1, count + 1)]
    selector = selectors.DefaultSelector()
    for it in readers:
        selector.register(it.socket, selectors.EVENT_READ, it)
    joined = read_until(readers, selector, lambda: all(b"\nCLIENTS main " in it.read for it in readers))
    for number in range(ROUNDS):
        for it in readers:
            it.socket.sendall(b"SAY main hello %d\n" % number)
    talked = joined and read_until(readers, selector, lambda: all(it.lines() == ROUNDS * count for it in readers))
    file.write_text(f"{sum(len(it.read) for it in readers)} bytes were read\n")
    ended = read_until(readers, selector, lambda: all(it.end for it in readers))
    resets = [it.name for it in readers if it.end != "end"]
    if not talked or not ended or resets:
        print(f"readers: all was told: {talked}; all ended: {ended}; by a reset or not at all: {len(resets)}")
        return 1
    return 0


if __name__ == "__main__":
    sys.exit(main())
