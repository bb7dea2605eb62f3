#!/usr/bin/env python3
"""Connects to the running server in unfriendly ways, and compares what each client and those beside it are told: slow readers,
half-closed sockets, connections that are reset at every stage, many that come at once, bytes that come one by one, lines
without end. Run by hand, behind `make build`:

    checks/connections.py [WORKERS [NAME ..]]

WORKERS is 4 if left out, and the names are those of some of the checks below. $LOBBY_MAIN names another build of the server."""
import contextlib
import ctypes
import errno
import os
import re
import resource
import select
import signal
import socket
import subprocess
import sys
import tempfile
import threading
import time
from pathlib import Path

from lobby_server import ADDRESS, GREETING, PATIENCE, Account, Client, Difference, Server, greeted, logged_in, run

ANNA, BERT, EVE = Account("Anna", 1, 0, "DE"), Account("Bert", 2, 3), Account("Eve", 9, 1, "FR")
CROWD = [Account(f"Eve{number:02}", 100 + number) for number in range(20)]
# Words of ptrace, and of a wait for one thread.
SEIZE, INTERRUPT, DETACH, OF_A_THREAD = 0x4206, 0x4207, 17, 0x40000000
OPEN = "OPENBATTLE 0 0 * 8452 8 -1 0 123 Spring\t104.0\tComet Catcher\tEve's game\tBA 9.46\n"


def opened(number, founder):
    """What all are told of such a battle."""
    rest = "8452 8 0 0 123 Spring\t104.0\tComet Catcher\tEve's game\tBA 9.46"
    return f"BATTLEOPENED {number} 0 0 {founder} {ADDRESS} {rest}\n"


def both(clients, lines):
    for client in clients:
        client.expect(lines)


def lines_until(client, last, most=100):
    """The lines that come up to this one, without it."""
    found = []
    for _ in range(most):
        while b"\n" not in client.heard[client.checked :] and client.receive():
            pass
        line, end, _ = bytes(client.heard[client.checked :]).partition(b"\n")
        if not end:
            raise Difference(f"the stream ends before {last[:60]}")
        client.checked += len(line) + 1
        if line + end == last:
            return found
        found.append(line + end)
    raise Difference(f"{most} lines came before {last[:60]}")


def slow_reader(workers):
    """One who reads nothing in a busy channel is cut and closed, and the others are told so once."""
    with Server(workers, [ANNA, BERT, EVE], "outbox_limit = 65536\n") as server:
        anna = logged_in(server, ANNA, [])
        bert = logged_in(server, BERT, [ANNA])
        slow = logged_in(server, EVE, [ANNA, BERT], room=4_096)
        both([anna], BERT.arrival() + EVE.arrival())
        both([bert], EVE.arrival())
        names = []
        for name, client in (("Anna", anna), ("Bert", bert), ("Eve", slow)):
            client.send("JOIN busy\n")
            names.append(name)
            if client is not slow:
                client.expect(f"JOIN busy\nCLIENTS busy {' '.join(names)}\n")
            both([anna, bert][: len(names) - 1], f"JOINED busy {name}\n")
        said, told = talk_until_cut([anna, bert], 1)
        if told != [[b"LEFT busy Eve\n", b"REMOVEUSER Eve\n"]] * 2:
            raise Difference(f"of the slow reader the others are told {told}")
        both([anna, bert], "")
        anna.expect_nothing_more()
        bert.expect_nothing_more()
        while slow.receive():
            pass
        whole = b"JOIN busy\nCLIENTS busy Anna Bert Eve\n" + b"".join(said)
        found = bytes(slow.heard[slow.checked :])
        if not whole.startswith(found) or found == whole:
            raise Difference("what the slow reader got is not the front of what it was told")
        logged_in(server, EVE, [ANNA, BERT])
        print(f"  cut behind {len(whole) / 1e6:.2f} MB, of which it could read {len(found) / 1e6:.2f} MB")


def wait_for_sockets(server, count):
    """Waits until the server has so many sockets open, that at which it listens among them."""
    end = time.monotonic() + PATIENCE
    while server.sockets() != count:
        if time.monotonic() > end:
            raise Difference(f"the server has {server.sockets()} sockets, and not {count}")
        time.sleep(0.01)


def talk_until_cut(clients, count):
    """The first speaks, line by line, up to some lines behind the one at which all are told that so many are gone."""
    said, told, rest = [], [[] for _ in clients], 20
    for number in range(4_000):
        text = f"{number} ".ljust(8_000, "x")
        clients[0].send(f"SAY busy {text}\n")
        said.append(f"SAID busy Anna {text}\n".encode())
        for client, others in zip(clients, told):
            others += lines_until(client, said[-1])
        rest -= all(sum(it.startswith(b"REMOVEUSER ") for it in others) >= count for others in told)
        if not rest:
            return said, told
    raise Difference("4,000 long lines do not cut those who read nothing")


def slow_readers(workers):
    """Thirty of a channel read nothing, and half of them have a battle: the others are told of each once, and whole."""
    crowd = [Account(f"Eve{number}", 100 + number) for number in range(30)]
    with Server(workers, [ANNA, BERT, *crowd], "outbox_limit = 65536\n") as server:
        anna = logged_in(server, ANNA, [])
        bert = logged_in(server, BERT, [ANNA])
        anna.send("JOIN busy\n")
        anna.expect(BERT.arrival() + "JOIN busy\nCLIENTS busy Anna\n")
        slow, wanted = [], []
        for number, account in enumerate(crowd):
            slow.append(greeted(server, room=4_096))
            battle = number // 2 + 1 if number % 2 else 0
            slow[-1].send(account.login() + "JOIN busy\n" + OPEN * bool(battle))
            shown = opened(battle, account.name) if battle else ""
            anna.expect(f"{account.arrival()}JOINED busy {account.name}\n{shown}")
            bert.expect(account.arrival() + shown)
            closed = [f"BATTLECLOSED {battle}\n"] if battle else []
            wanted.append([f"LEFT busy {account.name}\n", *closed, f"REMOVEUSER {account.name}\n"])
        _, told = talk_until_cut([anna], len(crowd))
        found = re.findall(r"LEFT .*\n(?:BATTLECLOSED .*\n)?REMOVEUSER .*\n", b"".join(told[0]).decode())
        if sorted(found) != sorted("".join(it) for it in wanted) or "".join(found) != b"".join(told[0]).decode():
            raise Difference(f"of slow readers Anna is told {told}")
        bert.expect("".join(line for it in found for line in it.splitlines(True) if not line.startswith("LEFT ")))
        anna.expect_nothing_more()
        bert.expect_nothing_more()
        # Three sockets are left: the one at which the server listens, and those of the two who stay. One worker cuts a client whose
        # link takes nothing, and closes its socket at once. Where another worker's event cuts it, its link may have taken all that
        # was written till then; its connection lingers until it ends.
        if workers > 1:
            for client in slow:
                client.socket.close()
        wait_for_sockets(server, 3)


def half_closed(workers):
    """One who says no more is told all that it asked for, and then its connection ends."""
    with Server(workers, [ANNA, EVE]) as server:
        anna = logged_in(server, ANNA, [])
        login = f"ACCEPTED Eve\n{ANNA.arrival()}ADDUSER Eve FR 0 9\nCLIENTSTATUS Eve 4\nLOGININFOEND\n"
        cases = [("", ""), ("PING\n", "PONG\n"), ("PING", ""), ("#5 PING\nPING", "#5 PONG\n"), ("PING\n" * 20_000, "PONG\n" * 20_000)]
        cases += [(EVE.login(), login), (EVE.login() + "PING\n", login + "PONG\n")]
        for said, told in cases:
            eve = Client(server)
            eve.send(said)
            eve.socket.shutdown(socket.SHUT_WR)
            eve.expect(GREETING)
            eve.expect(told)
            eve.expect_end()
            if told.startswith("ACCEPTED"):
                anna.expect(EVE.arrival() + "REMOVEUSER Eve\n")
            anna.expect_nothing_more()


def late_readers(workers):
    """One who asks for much, says no more and then reads late is told all of it."""
    with Server(workers, []) as server:
        for is_closed in (True, False):
            client = greeted(server)
            client.send("#12345 PING\n" * 200_000)
            if is_closed:
                client.socket.shutdown(socket.SHUT_WR)
            time.sleep(0.5)
            client.expect("#12345 PONG\n" * 200_000)
            client.expect_end() if is_closed else client.expect_nothing_more()


def in_no_channel(eve, anna, bert):
    """Logged in, with all that it was told unread."""
    return "REMOVEUSER Eve\n"


def in_a_line(eve, anna, bert):
    eve.send("JOIN ma")
    return "REMOVEUSER Eve\n"


def in_a_channel(eve, anna, bert):
    eve.send("JOIN main\n")
    both([anna, bert], "JOINED main Eve\n")
    return "LEFT main Eve\nREMOVEUSER Eve\n"


def as_a_member(eve, anna, bert):
    eve.send("JOINBATTLE 1\nMYBATTLESTATUS 0 255\n")
    both([anna], "JOINEDBATTLE 1 Eve\nCLIENTBATTLESTATUS Eve 0 255\n")
    both([bert], "JOINEDBATTLE 1 Eve\n")
    return "LEFTBATTLE 1 Eve\nREMOVEUSER Eve\n"


def as_a_founder(eve, anna, bert):
    as_a_founder.battle += 1
    number = as_a_founder.battle
    eve.send(OPEN)
    both([anna, bert], opened(number, "Eve"))
    bert.send(f"JOINBATTLE {number}\n")
    bert.expect(f"JOINBATTLE {number} -1\nJOINEDBATTLE {number} Bert\nCLIENTBATTLESTATUS Eve 0 0\nREQUESTBATTLESTATUS\n")
    anna.expect(f"JOINEDBATTLE {number} Bert\n")
    return f"BATTLECLOSED {number}\nREMOVEUSER Eve\n"


def in_all(eve, anna, bert):
    in_a_channel(eve, anna, bert)
    founded = as_a_founder(eve, anna, bert)
    return "LEFT main Eve\n" + founded


def with_an_exit(eve, anna, bert):
    eve.send("EXIT\n")
    both([anna, bert], "REMOVEUSER Eve\n")
    return ""


STAGES = [in_no_channel, in_a_line, in_a_channel, as_a_member, as_a_founder, in_all, with_an_exit]


def resets(workers):
    """Connections that are reset, at each stage: the others are told once that Eve is gone, and of what she leaves."""
    with Server(workers, [ANNA, BERT, EVE]) as server:
        anna = logged_in(server, ANNA, [])
        bert = logged_in(server, BERT, [ANNA])
        anna.expect(BERT.arrival())
        anna.send("JOIN main\n")
        anna.expect("JOIN main\nCLIENTS main Anna\n")
        bert.send("JOIN main\n")
        bert.expect("JOIN main\nCLIENTS main Anna Bert\n")
        anna.expect("JOINED main Bert\n")
        anna.send(OPEN)
        both([anna, bert], opened(1, "Anna"))
        anna.expect("OPENBATTLE 1\nREQUESTBATTLESTATUS\n")
        as_a_founder.battle = 1
        for _ in range(20):
            resets_before_a_login(server, anna, bert)
            for stage in STAGES:
                eve = Client(server)
                eve.send(EVE.login())
                both([anna, bert], EVE.arrival())
                told = stage(eve, anna, bert)
                eve.reset()
                both([anna, bert], told)
                anna.expect_nothing_more()
                bert.expect_nothing_more()


def resets_before_a_login(server, anna, bert):
    """Of one who did not log in the others are told nothing."""
    Client(server).reset()
    unread = Client(server)
    unread.send("PING\nLOGIN Ev")
    unread.reset()
    met = greeted(server)
    met.send("PING\nLOGIN Eve")
    met.reset()
    for client in (anna, bert):
        client.expect_nothing_more()


def hasty_logins(workers):
    """Of one who is reset behind its LOGIN the others are told that it came and went, or nothing."""
    crowd = [Account(f"Eve{number}", number) for number in range(200)]
    with Server(workers, [ANNA, *crowd]) as server:
        anna = logged_in(server, ANNA, [])
        for account in crowd:
            client = Client(server)
            client.send(account.login() + "JOIN main\n")
            client.reset()
        # Who is greeted now was accepted behind all of them: they are gone once no sockets are left but its own, Anna's, and that at
        # which the server listens.
        client = greeted(server)
        wait_for_sockets(server, 3)
        told = [it.decode() for it in lines_until_pong(anna)]
        for account in crowd[:]:
            found = [it for it in told if it.split()[1] == account.name]
            if found and found != [*account.arrival().splitlines(True), f"REMOVEUSER {account.name}\n"]:
                raise Difference(f"of a hasty login others are told {found}")
            if found:
                crowd.remove(account)
        # All are gone now, so that each may log in.
        for account in crowd[:20]:
            client.send(account.login() + "EXIT\n")
            anna.expect(account.arrival() + f"REMOVEUSER {account.name}\n")
            client = greeted(server)
        print(f"  {200 - len(crowd)} of 200 were logged in before their reset was seen")


def lines_until_pong(client):
    client.send("#78 PING\n")
    return lines_until(client, b"#78 PONG\n", 1_000)


def resets_at_once(workers):
    """Sixty users of a channel and a battle are reset together: the others are told of each once, and whole."""
    crowd = [Account(f"Eve{number}", 100 + number) for number in range(60)]
    with Server(workers, [ANNA, BERT, *crowd]) as server:
        anna = logged_in(server, ANNA, [])
        anna.send("JOIN main\n" + OPEN)
        anna.expect("JOIN main\nCLIENTS main Anna\n" + opened(1, "Anna") + "OPENBATTLE 1\nREQUESTBATTLESTATUS\n")
        for _ in range(5):
            clients = []
            for account in crowd:
                clients.append(greeted(server))
                clients[-1].send(account.login() + "JOIN main\nJOINBATTLE 1\n")
                anna.expect(f"{account.arrival()}JOINED main {account.name}\nJOINEDBATTLE 1 {account.name}\n")
            for client in clients:
                client.reset()
            told = {it.name: f"LEFT main {it.name}\nLEFTBATTLE 1 {it.name}\nREMOVEUSER {it.name}\n".encode() for it in crowd}
            size = sum(map(len, told.values()))
            while len(anna.heard) < anna.checked + size and anna.receive():
                pass
            found = bytes(anna.heard[anna.checked : anna.checked + size])
            parts = sorted(it + b"\n" for it in found.replace(b"\nLEFT ", b"\n\nLEFT ").rstrip(b"\n").split(b"\n\n"))
            if parts != sorted(told.values()):
                raise Difference(f"of the reset ones Anna is told {found}")
            anna.checked += size
            anna.expect_nothing_more()


def one_by_one(workers):
    """A session whose bytes come each in a packet of its own, with both ends of a line."""
    for end in ("\n", "\r\n"):
        with Server(workers, [ANNA, EVE]) as server:
            anna = logged_in(server, ANNA, [])
            eve = greeted(server)
            said = EVE.login() + "#7 JOIN main\n\n#8 SAY main  two  spaces \nMYSTATUS 1\nPINGS\n" + OPEN + "LEAVE main\n#9 PING\nEXIT\n"
            for byte in said.replace("\n", end).encode():
                eve.send(bytes([byte]))
                time.sleep(0.000_2)
            eve.expect(f"ACCEPTED Eve\n{ANNA.arrival()}ADDUSER Eve FR 0 9\nCLIENTSTATUS Eve 4\nLOGININFOEND\n")
            eve.expect("#7 JOIN main\n#7 CLIENTS main Eve\n#8 SAID main Eve  two  spaces \nCLIENTSTATUS Eve 5\nSERVERMSG Unknown command\n")
            eve.expect(opened(1, "Eve") + "OPENBATTLE 1\nREQUESTBATTLESTATUS\nLEFT main Eve\n#9 PONG\n")
            eve.expect_end()
            anna.expect(EVE.arrival() + "CLIENTSTATUS Eve 5\n" + opened(1, "Eve") + "BATTLECLOSED 1\nREMOVEUSER Eve\n")
            anna.expect_nothing_more()


def line_limits(workers):
    """The longest line is served, and a longer one ends the connection, with its LF and without."""
    with Server(workers, [ANNA]) as server:
        anna = logged_in(server, ANNA, [])
        for end in ("\n", "\r\n"):
            longest = "X" * (8_192 - len(end) + 1)
            anna.send(longest + end)
            anna.expect("SERVERMSG Unknown command\n")
        anna.expect_nothing_more()
        for line in ("X" * 8_192 + "\r\n", "X" * 8_193 + "\n", "X" * 8_193, "X" * 100_000):
            client = greeted(server)
            with contextlib.suppress(OSError):
                client.send("PING\n" + line + "PING\n")
            client.receive()
            found = bytes(client.heard[client.checked :])
            if found not in (b"PONG\n", b"") or client.receive():
                raise Difference(f"in front of a line that is too long there is {found}")
        anna.expect_nothing_more()


def flood(workers):
    """Four clients that say 400,000 lines each without a break are answered each."""
    with Server(workers, [], "outbox_limit = 67108864\n") as server:
        clients = [greeted(server) for _ in range(4)]
        speakers = [threading.Thread(target=it.send, args=("PING\n" * 400_000,)) for it in clients]
        begun = time.monotonic()
        for speaker in speakers:
            speaker.start()
        for client in clients:
            client.expect(b"PONG\n" * 400_000)
        for speaker in speakers:
            speaker.join()
        print(f"  1,600,000 answers in {time.monotonic() - begun:.1f} s")
        for client in clients:
            client.expect_nothing_more()


class Burst:
    """Connections that are made at once, without waiting, and made again where they are closed without a byte."""

    def __init__(self, server, count):
        self.server, self.poll = server, select.epoll()
        self.open, self.served, self.closed = {}, 0, 0
        for _ in range(count):
            self.connect()

    def connect(self):
        link = socket.socket()
        link.setblocking(False)
        if link.connect_ex((ADDRESS, self.server.port)) not in (0, errno.EINPROGRESS):
            raise Difference("a connection is refused")
        self.poll.register(link, select.EPOLLIN)
        self.open[link.fileno()] = link

    def take(self, link):
        try:
            found = link.recv(4_096)
        except ConnectionResetError:
            found = b""
        if found == GREETING:
            self.served += 1
        elif found:
            raise Difference(f"instead of a greeting there is {found}")
        else:
            self.closed += 1
            del self.open[link.fileno()]
            link.close()
            self.connect()

    def wait(self, count):
        """Waits until so many are greeted."""
        end = time.monotonic() + 60
        while self.served < count:
            if time.monotonic() > end:
                raise Difference(f"{self.served} of {count} are greeted in a minute, and {self.closed} were closed")
            for number, _ in self.poll.poll(0.1):
                self.take(self.open[number])


@contextlib.contextmanager
def held_up(server):
    """Stops all workers but the first, which accepts. Nobody is connected yet, so none of them has the lobby."""
    trace = ctypes.CDLL(None).ptrace
    trace.argtypes, trace.restype = [ctypes.c_long] * 4, ctypes.c_long
    # The first thread waits for the input, and the last is the first worker's.
    threads = sorted(int(it.name) for it in Path(f"/proc/{server.process.pid}/task").iterdir())[1:-1]
    for thread in threads:
        if trace(SEIZE, thread, 0, 0) or trace(INTERRUPT, thread, 0, 0):
            raise Difference("the system lets no worker be stopped")
        os.waitpid(thread, OF_A_THREAD)
    try:
        yield
    finally:
        for thread in threads:
            trace(DETACH, thread, 0, 0)


def burst(workers):
    """Three thousand connect at once, to workers that are held up: each is greeted, or closed without a byte as it meets a full inbox,
    and comes again."""
    with Server(workers, []) as server:
        begun = time.monotonic()
        with held_up(server):
            crowd = Burst(server, 3_000)
            crowd.wait(1_500)
        crowd.wait(3_000)
        print(f"  3,000 greeted in {time.monotonic() - begun:.1f} s; {crowd.closed} were closed without a byte and came again")
        for link in crowd.open.values():
            link.setblocking(True)
            link.settimeout(PATIENCE)
            link.sendall(b"PING\n")
        if any(link.recv(100) != b"PONG\n" for link in crowd.open.values()):
            raise Difference("one who was greeted is not served")
        for link in crowd.open.values():
            link.close()
        if workers > 1 and not crowd.closed:
            raise Difference("no inbox was full")


def restarts(workers):
    """A server that ended with clients there is started again at the same port at once."""
    port = 0
    for _ in range(3):
        with Server(workers, [], port=port) as server:
            port = server.port
            clients = [greeted(server) for _ in range(20)]
            server.stop()
        for client in clients:
            client.expect_end()


def open_files(workers):
    """Where the system gives no more connections, those that are there are served, and the next wait until some have left. The
    server waits meanwhile too, and does not try without end."""
    files = 40 + 4 * workers
    with Server(workers, [], files=files) as server:
        waiting = [Client(server) for _ in range(300)]
        count, begun, start = 0, server.seconds(), time.monotonic()
        for _ in range(100):
            time.sleep(0.2)
            ready = select.select([it.socket for it in waiting], [], [], 1)[0]
            served = [it for it in waiting if it.socket in ready]
            waiting = [it for it in waiting if it.socket not in ready]
            for client in served:
                client.expect(GREETING)
                client.expect_nothing_more()
            if len(served) >= files:
                raise Difference(f"{len(served)} are greeted by one who may open {files} files")
            count += len(served)
            for client in served:
                client.close()
            if not waiting:
                break
        if count != 300:
            raise Difference(f"{count} of 300 were greeted")
        used, lasted = server.seconds() - begun, time.monotonic() - start
        if used > lasted / 4:
            raise Difference(f"the server took {used:.2f} s of processors in {lasted:.2f} s, in which it had next to nothing to do")
        print(f"  300 were greeted in turn, and the server took {used:.2f} s of processors")


@contextlib.contextmanager
def crowded(workers):
    """A server with Anna and twenty more in a channel, where the twenty read nothing, and with Bert in none. The system gives it no more
    than 16 MB besides what it has then; it has one arena, since the C library takes 64 MB ahead for each that threads have of their own,
    and maps larger blocks apart, as the unit says. In the end the system has its memory back."""
    words = {"MALLOC_ARENA_MAX": "1", "MALLOC_MMAP_THRESHOLD_": "8192"}
    with Server(workers, [ANNA, BERT, *CROWD], "outbox_limit = 67108864\n", **words) as server:
        anna = logged_in(server, ANNA, [])
        anna.send("JOIN busy\n")
        anna.expect("JOIN busy\nCLIENTS busy Anna\n")
        slow = []
        for account in CROWD:
            slow.append(greeted(server, room=4_096))
            slow[-1].send(account.login() + "JOIN busy\n")
            anna.expect(f"{account.arrival()}JOINED busy {account.name}\n")
        bert = logged_in(server, BERT, [ANNA, *CROWD])
        anna.expect(BERT.arrival())
        before = server.memory()[0]
        server.allow_more(16)
        yield server, anna, bert, slow
        after, most = server.memory()
        if after - before > 2 + (most - before) / 4:
            raise Difference(f"the server has {after:.1f} MB, of {before:.1f} before and {most:.1f} at most")
        print(f"  {before:.1f} MB before, {most:.1f} at most, {after:.1f} after")


def is_refused(server, client):
    """Whether the server tries again and again, and tells the client nothing."""
    end, tries = time.monotonic() + PATIENCE, server.waits() + 50
    while server.waits() < tries:
        if select.select([client.socket], [], [], 0.1)[0]:
            return False
        if time.monotonic() > end:
            raise Difference("the server tells nothing and does not try")
    return True


def talk_until_refused(server, client, text):
    """The client says this in its channel and asks for an answer, again and again, until the server gets no memory for it: what the client
    waits for then."""
    for number in range(100_000):
        wanted = f"SAID busy Anna {text}\n#{number} PONG\n"
        client.send(f"SAY busy {text}\n#{number} PING\n")
        while len(client.heard) < client.checked + len(wanted):
            if is_refused(server, client):
                return wanted
            client.receive()
        client.expect(wanted)
    raise Difference("the server's memory does not run out")


def read_until_told(clients, other):
    """These read, until something comes for the other."""
    end = time.monotonic() + PATIENCE
    ready = []
    while other.socket not in ready:
        ready = select.select([other.socket, *(it.socket for it in clients)], [], [], PATIENCE)[0]
        if not ready or time.monotonic() > end:
            raise Difference("who waits for memory is told nothing though others have read")
        for client in clients:
            if client.socket in ready:
                client.receive()


def removed(accounts):
    """What is told of those who are gone."""
    return [f"REMOVEUSER {account.name}\n".encode() for account in accounts]


def expect_in_any_order(client, lines):
    """What came is these lines."""
    client.send("PING\n")
    if sorted(lines_until(client, b"PONG\n")) != sorted(lines):
        raise Difference("not all are told of each who went")


def short_memory(workers):
    """Anna speaks until there is no more memory. Then the twenty read, and she is told what she waits for without another byte of hers
    and without any other event. Who came meanwhile is greeted, or closed without a byte. Then the twenty go. All are told of each, and
    one of them logs in once more."""
    with crowded(workers) as (server, anna, bert, slow):
        wanted = talk_until_refused(server, anna, "x" * 1_000)
        late = Client(server)
        read_until_told(slow, anna)
        anna.expect(wanted)
        late.receive()
        if bytes(late.heard) not in (b"", GREETING):
            raise Difference(f"one who comes while memory is short is told {bytes(late.heard)}")
        late.close()
        for client in slow:
            client.reset()
        wait_for_sockets(server, 3)
        left = [f"LEFT busy {account.name}\n".encode() for account in CROWD]
        expect_in_any_order(anna, removed(CROWD) + left)
        expect_in_any_order(bert, removed(CROWD))
        logged_in(server, CROWD[0], [ANNA, BERT])
        both([anna, bert], CROWD[0].arrival())


def say_what_fits(client, line):
    """The client says this again and again, as long as the system takes it at once."""
    client.socket.setblocking(False)
    with contextlib.suppress(BlockingIOError):
        for _ in range(4_000):
            client.socket.send(line.encode())


def all_gone(workers):
    """Anna speaks until there is no more memory, and each of the twenty to the next of them, at last in short lines, until hardly any
    outbox has a place for what a log out tells. Then all but Bert are gone at once. He is told of each."""
    with crowded(workers) as (server, anna, bert, slow):
        text = "x" * 1_000
        talk_until_refused(server, anna, text)
        for said in (text, "xy"):
            for client, other in zip(slow, [*CROWD[1:], CROWD[0]]):
                say_what_fits(client, f"SAYPRIVATE {other.name} {said}\n")
            if not is_refused(server, bert):
                raise Difference("Bert is told what others say")
        for client in [*slow, anna]:
            client.reset()
        wait_for_sockets(server, 2)
        expect_in_any_order(bert, removed([ANNA, *CROWD]))


@contextlib.contextmanager
def refusing(workers):
    """A server with Anna, to which all memory is refused while a file is there: it, the file, and one that gets a line for each refusal."""
    with tempfile.TemporaryDirectory(prefix="lobby-check-") as folder:
        here = Path(__file__).parent
        library, switch, told = (Path(folder) / it for it in ("refuse.so", "switch", "told"))
        subprocess.run([here / "build_library.sh", here / "refuse_allocation.c", library], check=True)
        told.touch()
        words = {"LD_PRELOAD": str(library), "REFUSED_WHILE": str(switch), "REFUSED_TOLD": str(told)}
        with Server(workers, [ANNA, BERT], **words) as server:
            yield server, switch, told


def refused_open(workers):
    """While all memory is refused some connect, until one is closed without a byte. Nobody else is told of that. Where there is memory
    again, who is connected is greeted and served, and the next ones are, at each worker."""
    with refusing(workers) as (server, switch, told):
        anna = logged_in(server, ANNA, [])
        switch.touch()
        late = []
        for _ in range(100):
            client = Client(server)
            if select.select([client.socket], [], [], 0.5)[0] and not client.receive():
                break
            late.append(client)
        else:
            raise Difference("memory is refused, and of a hundred who connect none is closed")
        refusals = len(told.read_text().splitlines())
        if refusals == 0:
            raise Difference("one who connects is closed, and no memory was refused")
        switch.unlink()
        for client in [*late, *(Client(server) for _ in range(workers))]:
            client.expect(GREETING)
            client.expect_nothing_more()
        anna.expect_nothing_more()
        bert = logged_in(server, BERT, [ANNA])
        anna.expect(BERT.arrival())
        bert.expect_nothing_more()
        print(f"  {len(late)} had to wait, and one was closed behind {refusals} refusals")


def full(workers):
    """Ten thousand are connected: one more is closed without a byte, and nobody is told of it; the next is served once one has left."""
    files = 10_100
    allowed = resource.getrlimit(resource.RLIMIT_NOFILE)[1]
    if allowed < files:
        print(f"  the system lets one open {allowed} files and not {files}: a server that is full is not seen here")
        return
    resource.setrlimit(resource.RLIMIT_NOFILE, (files, allowed))
    with Server(workers, [ANNA], files=files) as server:
        anna = logged_in(server, ANNA, [])
        others = [greeted(server) for _ in range(9_999)]
        for _ in range(2):
            Client(server).expect_end()
        anna.expect_nothing_more()
        others.pop().close()
        wait_for_sockets(server, 10_000)
        client = Client(server)
        client.expect(GREETING)
        client.expect_nothing_more()
        Client(server).expect_end()
        others[0].expect_nothing_more()
        print("  10,000 were connected, and three more were closed")


def urgent_bytes(workers):
    """What a client sends behind an urgent byte is read too, though a poll tells of all of it at once, since the server stands still
    meanwhile, and a read ends at that byte. The byte itself is no part of the stream."""
    with Server(workers, [ANNA]) as server:
        client = greeted(server)
        server.process.send_signal(signal.SIGSTOP)
        client.send("PING\nPI")
        client.socket.send(b"!", socket.MSG_OOB)
        client.send("NG\n")
        server.process.send_signal(signal.SIGCONT)
        client.expect("PONG\nPONG\n")


CHECKS = [slow_reader, slow_readers, half_closed, late_readers, resets, resets_at_once, hasty_logins, one_by_one, line_limits, flood, burst]
CHECKS += [urgent_bytes, restarts, open_files, refused_open, full, short_memory, all_gone]


def check(workers="4", *names):
    for each in CHECKS:
        if not names or each.__name__ in names:
            begun = time.monotonic()
            print(f"{each.__name__}, {workers} workers", flush=True)
            each(int(workers))
            print(f"  {time.monotonic() - begun:.1f} s", flush=True)


if __name__ == "__main__":
    run(check, sys.argv[1:])
