#!/usr/bin/env python3
"""Takes nearly all memory that a server may have, goes, and looks how soon others are served: the memory lies in channels of one account,
in channels of two, or in bytes that nobody reads. The server may have 60 MB of addresses (`ulimit -v`) with one worker, and 84 with four.
Once those who took the memory are gone, all are told so, and a login, a JOIN and a SAY pass, in two seconds where the machine is not
busy. The lobby has given the memory back: as much can be taken once more. How much of it the C library returns to the system is told.

    checks/short_memory.py [FOLDER [NAME ..]]

FOLDER has lobby_main, and is that of the gate's build if it is left out. The names are those of some of the scenes below."""
import contextlib
import os
import select
import sys
import time
from pathlib import Path

from lobby_server import ROOT, Account, Client, Difference, Server, greeted, logged_in

ANNA, BERT = Account("Anna", 1), Account("Bert", 2)
TAKERS = [Account(f"Taker{number}", 10 + number) for number in range(8)]
# The megabytes of addresses that the server may have: so many, and more for the stack of each worker.
ADDRESSES, OF_A_WORKER = 52, 8
# The least megabytes of them that are taken.
TAKEN = 16
# The most seconds in which others are served again on a busy machine, and for which a scene takes memory.
SOON, TAKING = 20.0, 90.0
# How long a server that makes no event for want of memory is looked at before that is taken for granted, in seconds.
STILL = 1.0
JOINS = 200
# The front of the names of channels, which are as long as they may be.
FRONT = "c" * 12


def join_until_refused(clients):
    """These join channels, each the same ones, and read what they are told, until they are told no more: how many channels those were."""
    begun, channels = time.monotonic(), 0
    for client in clients:
        client.heard.clear()
    while time.monotonic() < begun + TAKING:
        for client in clients:
            client.send("".join(f"JOIN {FRONT}{channels + number:08}\n" for number in range(JOINS)))
        last, told = f"CLIENTS {FRONT}{channels + JOINS - 1:08} ".encode(), set()
        while len(told) < len(clients):
            ready = select.select([it.socket for it in clients], [], [], STILL)[0]
            if not ready:
                return channels
            for client in clients:
                if client.socket in ready:
                    client.receive()
                    if last in client.heard:
                        told.add(client)
                        del client.heard[: client.heard.rindex(last)]
        channels += JOINS
    raise Difference(f"memory does not run out by {channels} channels")


def one_account(server):
    """One account in channels of its own."""
    taker = greeted(server)
    taker.send(TAKERS[0].login())
    return [taker], join_until_refused([taker])


def two_accounts(server):
    """Two accounts in the same channels."""
    takers = [greeted(server), greeted(server)]
    for taker, account in zip(takers, TAKERS):
        taker.send(account.login())
    return takers, join_until_refused(takers)


def unread(server):
    """Eight accounts that say long lines to each other and read nothing."""
    takers = [greeted(server, room=4_096) for _ in TAKERS]
    for taker, account in zip(takers, TAKERS):
        taker.send(f"{account.login()}JOIN full\n")
    line = f"SAY full {'x' * 1000}\n".encode()
    until, last = time.monotonic() + TAKING, time.monotonic()
    for taker in takers:
        taker.socket.setblocking(False)
    while time.monotonic() < min(until, last + STILL):
        ready = select.select([], [it.socket for it in takers], [], STILL)[1]
        for taker in takers:
            if taker.socket in ready:
                with contextlib.suppress(BlockingIOError):
                    taker.socket.send(line * 10)
                    last = time.monotonic()
    return takers, 0


def is_served(server, anna, until):
    """Whether Bert logs in, joins Anna's channel and says something there that she hears, by this time."""
    client = Client(server)
    try:
        client.socket.settimeout(max(0.1, until - time.monotonic()))
        client.send(BERT.login() + "JOIN talk\nSAY talk I am here\n")
        while b"SAID talk Bert I am here\n" not in client.heard:
            if not client.receive():
                return False
        while b"SAID talk Bert I am here\n" not in anna.heard:
            anna.socket.settimeout(max(0.1, until - time.monotonic()))
            if not anna.receive():
                raise Difference("Anna's connection has ended")
        return True
    except (Difference, OSError):
        return False
    finally:
        client.close()


def wait_until_served(server, anna, gone):
    """How many seconds after they have gone Anna is told of it, and others are served."""
    begun = time.monotonic()
    until = begun + SOON
    wanted = [f"REMOVEUSER {account.name}\n".encode() for account in gone]
    anna.socket.settimeout(0.1)
    while not all(it in anna.heard for it in wanted):
        if time.monotonic() > until:
            raise Difference(f"{SOON:.0f} s after they have gone Anna is not told so; the server told: {server.told()}")
        with contextlib.suppress(Difference):
            anna.receive()
    told = time.monotonic() - begun
    while not is_served(server, anna, until):
        if time.monotonic() > until:
            raise Difference(f"{SOON:.0f} s after they have gone nobody is served; the server told: {server.told()}")
        time.sleep(0.05)
    return told, time.monotonic() - begun


def scene(take, workers):
    """One scene: memory is taken, who took it goes, and others are served. Then memory is taken once more, as much as before."""
    addresses = ADDRESSES + OF_A_WORKER * workers
    how = {"settings": "outbox_limit = 67108864\n", "log": "important", "MALLOC_ARENA_MAX": "1"}
    with Server(workers, [ANNA, BERT, *TAKERS], addresses=addresses, **how) as server:
        anna = logged_in(server, ANNA, [])
        anna.send("JOIN talk\n")
        anna.expect("JOIN talk\nCLIENTS talk Anna\n")
        before, found = server.memory()[0], []
        for _ in range(2):
            anna.heard.clear()
            anna.checked = 0
            takers, channels = take(server)
            held = server.memory()[0]
            if held < before + TAKEN or "memory_refused" not in server.told():
                raise Difference(f"of the server's memory too little was taken: {before:.1f} MB before, {held:.1f} now")
            for taker in takers:
                taker.close()
            told, served = wait_until_served(server, anna, TAKERS[: len(takers)])
            found.append((channels, held))
            after = server.memory()[0]
            print(f"  {channels} channels, {before:.1f} MB before, {held:.1f} held, {after:.1f} after;", end=" ")
            print(f"told in {told:.2f} s, served in {served:.2f} s", flush=True)
        first, second = found
        if second[0] < AGAIN[take] * first[0] or second[1] < 0.8 * first[1]:
            raise Difference("less could be taken the second time: the lobby did not give its memory back, or took some for a log out")


SCENES = [one_account, two_accounts, unread]
# How many of the channels can be taken once more at least. A log out prints nothing for a channel in which nobody else is, and so it takes
# no memory; a server that did print lost a sixth of them to what it printed.
AGAIN = {one_account: 0.95, two_accounts: 0.8, unread: 0.8}


def main(folder=None, *names):
    os.environ["LOBBY_MAIN"] = str(Path(folder or ROOT / "crates/lobby_main/out").resolve() / "lobby_main")
    passed = failed = 0
    for take in SCENES:
        for workers in (1, 4):
            if names and take.__name__ not in names:
                continue
            print(f"{take.__name__}, {workers} workers", flush=True)
            try:
                scene(take, workers)
                passed += 1
            except (Difference, OSError) as difference:
                print(f"  DIFFERS: {difference}", flush=True)
                failed += 1
    print(f"short_memory: {passed} passed, {failed} failed")
    return 1 if failed or not passed else 0


if __name__ == "__main__":
    sys.exit(main(*sys.argv[1:]))
