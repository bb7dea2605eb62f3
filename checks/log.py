#!/usr/bin/env python3
"""log.py [PROGRAM [CHECK..]]: what the server as the gate built it, or another build of it, tells operators on standard error: each
happening once, in its form; names that try to forge a line; one who is denied again and again; each level; and that clients are served, and
the server stops, where standard error is closed or nobody reads it. What is wanted stands here by hand."""
import contextlib
import ctypes
import fcntl
import os
import re
import resource
import signal
import subprocess
import sys
import tempfile
import threading
import time
from pathlib import Path

from lobby_server import ADDRESS, GREETING, PATIENCE, WORD, Account, Client, Difference, Server, greeted, logged_in

ANNA, BERT, EVE = Account("Anna", 1), Account("Bert", 2), Account("Eve[x]_9", 3)
HERE = Path(__file__).resolve().parent
VERSION = re.search(r"(?m)^## \[([0-9.]+)\]", (HERE.parent / "CHANGELOG.md").read_text())[1]
INVALID = "DENIED Invalid username or password\n"
# The most lines that wait to be written, the bytes that a pipe is made to hold, and the seconds within which a server stops whose standard
# error takes nothing, also on a busy machine.
WAITING, PIPE, LATEST = 1_024, 4_096, 8.0


def denied(client, name, answer=INVALID):
    client.send(f"LOGIN {name} {WORD} 0 * Checks 1.0\n")
    client.expect(answer)


def same(found, wanted):
    if found != wanted:
        raise Difference(f"wanted the lines {wanted}, found {found}")


def lines_of(server, count):
    """The lines that it has told once there are so many, or after a while."""
    end = time.monotonic() + PATIENCE
    while len(server.told().splitlines()) < count and time.monotonic() < end:
        time.sleep(0.01)
    return server.told().splitlines()


def started(server, accounts, limit=4_194_304):
    return (f"started version={VERSION} address={ADDRESS}:{server.port} workers={server.workers} client_limit=10000"
            f" outbox_limit={limit} accounts={accounts}")


def stopped(server):
    return [f"stopped worker={worker} events={count}" for worker, count in enumerate(server.counts)]


def stop(server, *clients):
    """Stops a server. Its clients read to the end, and end their connections, so that it waits for none."""
    server.end_input()
    for client in clients:
        with contextlib.suppress(OSError):
            while client.receive():
                pass
        client.close()
    return server.stop()


def whole(server, wanted, users=()):
    """All that it has told: these lines; then, in any order, that these users are logged out by the stop; then the counts."""
    out = [f"logout name={name} cause=stop client={client}" for name, client in users]
    lines, front = server.told().splitlines(), len(wanted)
    same(lines[:front] + sorted(lines[front : front + len(out)]) + lines[front + len(out) :], wanted + sorted(out) + stopped(server))


def each_happening(workers):
    """A login, each denial and each log out has its line, in the order in which they came, and no other line comes."""
    with Server(workers, [ANNA, BERT], log="all") as server:
        wanted = [started(server, 2)]
        anna = logged_in(server, ANNA, [])
        wanted += ["login name=Anna client=1 ip=127.0.0.1"]
        bert = greeted(server)
        denied(bert, "Nobody")
        denied(bert, "Anna", "DENIED User is already logged in\n")
        denied(anna, "Bert", "DENIED Already logged in\n")
        wanted += ["denied name=Nobody reason=invalid client=2 ip=127.0.0.1", "denied name=Anna reason=in_use client=2 ip=127.0.0.1",
                   "denied name=Bert reason=again client=1 ip=127.0.0.1"]
        # With an id, and two in one piece.
        bert.send(f"#7 LOGIN x {WORD} 0 * C\n#8 LOGIN Bert {WORD} 0 * C\n")
        bert.expect(f"#7 {INVALID}#8 ACCEPTED Bert\n#8 {ANNA.arrival()}#8 {BERT.arrival()}#8 LOGININFOEND\n")
        anna.expect(BERT.arrival())
        wanted += ["denied name=x reason=invalid client=2 ip=127.0.0.1", "login name=Bert client=2 ip=127.0.0.1"]
        same(lines_of(server, len(wanted)), wanted)
        leavers = [("exit", lambda it: it.send("EXIT bye\n")), ("closed", Client.close), ("line_too_long", lambda it: it.send("x" * 8_193)),
                   ("line_too_long", lambda it: it.send("x" * 8_193 + "\nEXIT\n")), ("exit", lambda it: it.send("EXIT\n" + "x" * 8_193)),
                   ("fault", Client.reset), ("closed", lambda it: it.socket.shutdown(1))]
        for number, (cause, leave) in enumerate(leavers, 2):
            leave(bert)
            anna.expect("REMOVEUSER Bert\n")
            wanted += [f"logout name=Bert cause={cause} client={number}"]
            same(lines_of(server, len(wanted)), wanted)
            bert = logged_in(server, BERT, [ANNA])
            anna.expect(BERT.arrival())
            wanted += [f"login name=Bert client={number + 1} ip=127.0.0.1"]
        # Of one who never logged in nothing is told.
        for _, leave in leavers:
            leave(greeted(server))
        same(lines_of(server, len(wanted)), wanted)
        stop(server, anna, bert)
        whole(server, wanted, [("Anna", 1), ("Bert", number + 1)])


def too_slow(workers):
    """One who does not read is cut, as one whose login finds no room is, and both causes are told."""
    with Server(workers, [ANNA, BERT], "outbox_limit = 65536\nmotd = [" + ", ".join(['"' + "m" * 1_000 + '"'] * 60) + "]\n", log="all") as server:
        motd = ("MOTD " + "m" * 1_000 + "\n") * 60
        anna = greeted(server)
        anna.send(ANNA.login())
        anna.expect(f"ACCEPTED Anna\n{motd}{ANNA.arrival()}LOGININFOEND\n")
        slow = greeted(server, room=4_096)
        slow.send(BERT.login())
        anna.expect(BERT.arrival())
        gone = b"REMOVEUSER Bert\n"
        for _ in range(4_000):
            anna.send(f"SAYPRIVATE Bert {'x' * 8_000}\n")
            while not anna.heard.endswith(b"\n") or anna.heard.count(b"SAYPRIVATE") < _ + 1 and gone not in anna.heard:
                anna.receive()
            if gone in anna.heard:
                break
        wanted = [started(server, 2, 65_536), "login name=Anna client=1 ip=127.0.0.1", "login name=Bert client=2 ip=127.0.0.1", "logout name=Bert cause=too_slow client=2"]
        same(lines_of(server, 4), wanted)
        stop(server, anna, slow)
        whole(server, wanted, [("Anna", 1)])


def cut_by_its_login(workers):
    """A login whose lines find no room takes effect and cuts its client."""
    with Server(workers, [ANNA], "outbox_limit = 65536\nmotd = [" + ", ".join(['"' + "m" * 1_000 + '"'] * 70) + "]\n", log="all") as server:
        client = greeted(server)
        client.send(ANNA.login())
        client.expect_end()
        wanted = [started(server, 1, 65_536), "login name=Anna client=1 ip=127.0.0.1", "logout name=Anna cause=too_slow client=1"]
        same(lines_of(server, 3), wanted)
        client.close()


def cut_before_its_exit(workers):
    """The EXIT of one who was cut before it says nothing: it was too slow. So it is with others there and alone."""
    for others in (1, 0):
        with Server(workers, [ANNA, BERT], "outbox_limit = 65536\n", log="all") as server:
            wanted = [started(server, 2, 65_536)]
            annas = [logged_in(server, ANNA, []) for _ in range(others)]
            wanted += ["login name=Anna client=1 ip=127.0.0.1"] * others
            bert = logged_in(server, BERT, [ANNA] * others)
            for anna in annas:
                anna.expect(BERT.arrival())
            # All of it is there when the server looks, and comes to 80 kB for one who is told both sides of what it says.
            server.process.send_signal(signal.SIGSTOP)
            bert.send(f"SAYPRIVATE Bert {'x' * 8_000}\n" * 5 + "EXIT\n")
            server.process.send_signal(signal.SIGCONT)
            wanted += [f"login name=Bert client={1 + others} ip=127.0.0.1", f"logout name=Bert cause=too_slow client={1 + others}"]
            same(lines_of(server, len(wanted)), wanted)
            stop(server, bert, *annas)
            whole(server, wanted, [("Anna", 1)] * others)


def many_at_a_stop(workers):
    """Each who is logged in at a stop is told as logged out, once: there are as many log outs as logins. One who exits before it is not."""
    users = [Account(f"u{number}", number) for number in range(1, 401)]
    with Server(workers, users, log="all") as server:
        clients = [greeted(server) for _ in users]
        for client, user in zip(clients, users):
            client.send(user.login())
        logins = {f"login name=u{number} client={number} ip=127.0.0.1" for number in range(1, 401)}
        same(set(lines_of(server, 401)[1:]), logins)
        clients[0].send("EXIT\n")
        lines_of(server, 402)
        greeted(server).close()
        stop(server, *clients)
        lines = server.told().splitlines()
        same((len(lines), lines[401], lines[-workers:]), (801 + workers, "logout name=u1 cause=exit client=1", stopped(server)))
        same(set(lines[402:-workers]), {f"logout name=u{number} cause=stop client={number}" for number in range(2, 401)})


def harmless(name):
    """The form of a name in a line, by the rule that docs/OPERATING.md gives."""
    return "".join(chr(it) if chr(it).isascii() and (chr(it).isalnum() or chr(it) in "-.:[]_") else f"%{it:02X}" for it in name[:64])


def forged(workers):
    """What clients send cannot forge a line, a field or an escape: each byte that is sent in a name is written harmlessly."""
    names = [b"Anna%0Alogin", b"x=y", b"\x1b[31mred\x07", bytes(it for it in range(1, 256) if it not in (9, 10, 13, 32)), b"\x00", b"n" * 64,
             b"n" * 65, b"n" * 8_000, "Ünï".encode(), b"name=Anna", b"%", b"\x0b\x0c\x85\xe2\x80\xa8"]
    with Server(workers, [ANNA], log=None) as server:
        wanted = [started(server, 1)]
        for number, name in enumerate(names, 1):
            client = greeted(server)
            client.send(b"LOGIN " + name + f" {WORD} 0 * Checks 1.0\n".encode())
            client.expect(INVALID)
            client.close()
            wanted += [f"denied name={harmless(name)} reason=invalid client={number} ip=127.0.0.1"]
        same(lines_of(server, len(wanted)), wanted)
        told = server.told()
        if not re.fullmatch(r"(?:[ -~]*\n)*", told) or "%0Alogin" in told or wanted[1] != "denied name=Anna%250Alogin reason=invalid client=1 ip=127.0.0.1":
            raise Difference(f"a byte that is not harmless: {told!r}")


def again_and_again(workers):
    """Of one who is denied again and again three denials are told, and how many more they were once it has gone: so of one who logs in, and
    of one who never does. One who is denied three times has no such line."""
    count = 20_000
    with Server(workers, [ANNA], log="important") as server:
        wanted = [started(server, 1)]
        anna, eve = logged_in(server, ANNA, []), greeted(server)
        for client, number, reason, answer in ((anna, 1, "again", "DENIED Already logged in\n"), (eve, 2, "invalid", INVALID)):
            client.send(f"LOGIN x {WORD} 0 * C\n" * count)
            client.expect(answer * count)
            wanted += [f"denied name=x reason={reason} client={number} ip=127.0.0.1"] * 3
            same(lines_of(server, len(wanted)), wanted)
        eve.close()
        wanted += [f"denied_more count={count - 3} client=2 ip=127.0.0.1"]
        same(lines_of(server, len(wanted)), wanted)
        thrice = greeted(server)
        for _ in range(3):
            denied(thrice, "x")
        thrice.close()
        wanted += ["denied name=x reason=invalid client=3 ip=127.0.0.1"] * 3
        same(lines_of(server, len(wanted)), wanted)
        stop(server, anna)
        same(server.told().splitlines(), wanted + [f"denied_more count={count - 3} client=1 ip=127.0.0.1", *stopped(server)])


def fronted(workers):
    """Behind a front the address is the client's; a front that says no such line is told with its own, and one that says nothing is not."""
    with Server(workers, [ANNA], f'proxies = ["{ADDRESS}"]\n', log="all") as server:
        wanted = [started(server, 1)]
        anna = Client(server)
        anna.send("PROXY TCP4 192.0.2.7 192.0.2.1 4000 8200\r\n" + f"LOGIN x {WORD} 0 * C\n" + ANNA.login())
        anna.expect(GREETING + f"{INVALID}ACCEPTED Anna\n{ANNA.arrival()}LOGININFOEND\n".encode())
        wanted += ["denied name=x reason=invalid client=1 ip=192.0.2.7", "login name=Anna client=1 ip=192.0.2.7"]
        same(lines_of(server, len(wanted)), wanted)
        Client(server).close()
        for line in ("LOGIN x y 0 * C\n", "PROXY TCP4 192.0.2.7\r\n"):
            other = Client(server)
            other.send(line)
            # The server may close it before it has read all.
            with contextlib.suppress(ConnectionResetError):
                other.expect_end()
            wanted += ["refused reason=front ip=127.0.0.1"]
            same(lines_of(server, len(wanted)), wanted)
        stop(server, anna)
        whole(server, wanted, [("Anna", 1)])


def recorded(workers):
    """A record's folder is told, and at the stop that it ends, with the last place that it has."""
    with tempfile.TemporaryDirectory(prefix="lobby-check-") as folder:
        with Server(workers, [ANNA], f'record = "{folder}"\n', log="important") as server:
            anna = logged_in(server, ANNA, [])
            wanted = [started(server, 1), f"record_started folder={harmless(f'{folder}/1'.encode())}"]
            same(lines_of(server, 2), wanted)
            stop(server, anna)
            same(server.told().splitlines(), wanted + stopped(server) + [f"record_ended reason=stop place={sum(server.counts) - 1}"])


def levels(workers):
    """Without the setting what is important is told, with `none` nothing."""
    for log in (None, "important", "none"):
        with Server(workers, [ANNA, BERT], log=log) as server:
            anna = logged_in(server, ANNA, [])
            bert = logged_in(server, BERT, [ANNA])
            other = greeted(server)
            denied(other, "x")
            anna.send("EXIT\n")
            anna.expect(BERT.arrival())
            anna.expect_end()
            bert.expect("REMOVEUSER Anna\n")
            bert.send("x" * 8_193)
            bert.expect_end()
            rest = [logged_in(server, ANNA, []), other]
            stop(server, anna, bert, *rest)
            wanted = [started(server, 2), "denied name=x reason=invalid client=3 ip=127.0.0.1", "logout name=Bert cause=line_too_long client=2", *stopped(server)]
            same(server.told().splitlines(), [] if log == "none" else wanted)


def refused(workers):
    """One who connects while no file is left waits, which is told once; one more than a lobby takes is refused, and told."""
    files = 40 + 4 * workers
    with Server(workers, [], files=files, log="all") as server:
        waiting = [Client(server) for _ in range(60)]
        same(lines_of(server, 2), [started(server, 0), "refused reason=files"])
        time.sleep(0.1)
        same(server.told().splitlines(), [started(server, 0), "refused reason=files"])
        for client in waiting:
            client.close()
        client = Client(server)
        client.expect(GREETING)
        client.close()
    if workers > 1:
        return
    files = 10_100
    allowed = resource.getrlimit(resource.RLIMIT_NOFILE)[1]
    if allowed < files:
        print(f"  the system lets one open {allowed} files and not {files}: a server that is full is not seen here")
        return
    resource.setrlimit(resource.RLIMIT_NOFILE, (files, allowed))
    with Server(workers, [], files=files, log="important") as server:
        clients = [greeted(server) for _ in range(10_000)]
        count = len(server.told().splitlines())
        for _ in range(2):
            Client(server).expect_end()
        # An inbox may have been full meanwhile.
        told = [it for it in lines_of(server, count + 2) if it != "refused reason=busy ip=127.0.0.1"]
        same(told, [started(server, 0), *["refused reason=full ip=127.0.0.1"] * 2])
        stop(server, *clients)


def no_memory(workers):
    """While all memory is refused that is told, and each who is refused for it."""
    with tempfile.TemporaryDirectory(prefix="lobby-check-") as folder:
        library, switch = Path(folder) / "refuse.so", Path(folder) / "switch"
        subprocess.run([HERE / "build_library.sh", HERE / "refuse_allocation.c", library], check=True)
        with Server(workers, [ANNA], log="all", LD_PRELOAD=str(library), REFUSED_WHILE=str(switch)) as server:
            anna = logged_in(server, ANNA, [])
            switch.touch()
            # A channel takes memory, which a PING need not.
            anna.send("JOIN main\n")
            told = lines_of(server, 3)
            same(told, [started(server, 1), "login name=Anna client=1 ip=127.0.0.1", "memory_refused worker=0"])
            time.sleep(0.1)
            same(server.told().splitlines(), told)
            switch.unlink()
            anna.expect("JOIN main\nCLIENTS main Anna\n")
            anna.close()


def not_accepted(workers):
    """While the system accepts no connection, for a cause that is not want of files or memory, that is told once, and again once one was
    accepted; who waits is greeted then."""
    with tempfile.TemporaryDirectory(prefix="lobby-check-") as folder:
        source, library, switch = Path(folder) / "accept.c", Path(folder) / "accept.so", Path(folder) / "switch"
        source.write_text(NOT_ACCEPTED)
        subprocess.run([HERE / "build_library.sh", source, library], check=True)
        with Server(workers, [], log="all", LD_PRELOAD=str(library), REFUSED_WHILE=str(switch)) as server:
            for count in (1, 2):
                switch.touch()
                client = Client(server)
                wanted = [started(server, 0)] + ["refused reason=system"] * count
                same(lines_of(server, 1 + count), wanted)
                time.sleep(0.1)
                same(server.told().splitlines(), wanted)
                switch.unlink()
                client.expect(GREETING)
                client.close()


# The system's call as the C library has it, but that it answers 1, EPERM, while the file is there.
NOT_ACCEPTED = """
extern char *getenv(const char *name);
extern int access(const char *path, int mode);
extern int *__errno_location(void);
extern long syscall(long number, ...);
int accept4(int socket, void *address, unsigned *length, int flags) {
    const char *file = getenv("REFUSED_WHILE");
    if (file && access(file, 0) == 0) {
        *__errno_location() = 1;
        return -1;
    }
    return syscall(288, socket, address, length, flags);
}
"""
# The inbox of a worker, and what a tracer asks of the system.
INBOX, ATTACH, DETACH, ALL_THREADS = 256, 16, 17, 0x40000000


@contextlib.contextmanager
def held(server):
    """Meanwhile a thread of a server does nothing: that of the last worker, which is the first that it makes behind the log's."""
    system = ctypes.CDLL(None, use_errno=True)
    system.ptrace.argtypes = [ctypes.c_long, ctypes.c_long, ctypes.c_void_p, ctypes.c_void_p]
    thread = sorted(int(it.name) for it in Path(f"/proc/{server.process.pid}/task").iterdir())[2]
    if system.ptrace(ATTACH, thread, None, None) != 0:
        raise Difference(f"the system does not let one hold a thread: {os.strerror(ctypes.get_errno())}")
    os.waitpid(thread, ALL_THREADS)
    try:
        yield
    finally:
        system.ptrace(DETACH, thread, None, None)


def busy(workers):
    """A worker that does nothing has 256 connections wait for it, and those behind are refused. One worker alone is never so far behind."""
    if workers == 1:
        return
    with Server(workers, [], log="all", files=4_096) as server, contextlib.ExitStack() as crowd:
        with held(server):
            clients = [crowd.enter_context(contextlib.closing(Client(server))) for _ in range(workers * (INBOX + 3))]
            wanted = [started(server, 0)] + ["refused reason=busy ip=127.0.0.1"] * 3
            same(lines_of(server, 4), wanted)
            for client in clients[workers - 1 :: workers][INBOX:]:
                client.expect_end()
        for client in clients[workers - 1 :: workers][:INBOX] + clients[::workers]:
            client.expect(GREETING)
        same(server.told().splitlines(), wanted)
        stop(server, *clients)


def closed(workers):
    """Standard error is closed, or takes nothing: clients are served, and the server stops."""
    for error in ("2>&-", "2> /dev/full"):
        with Shell(workers, error) as server:
            anna = logged_in(server, ANNA, [])
            denied_often(server, 2 * WAITING)
            anna.expect_nothing_more()
            stop(server, anna)


def denied_often(server, count):
    """So many logins are denied, each of which is told: three of a client."""
    for begun in range(0, count, 3):
        client, times = greeted(server), min(3, count - begun)
        client.send(f"LOGIN x {WORD} 0 * C\n" * times)
        client.expect(INVALID * times)
        client.close()


class Shell(Server):
    """A server whose standard error is as a shell's redirection says."""

    def __init__(self, workers, error):
        with tempfile.NamedTemporaryFile("w", prefix="lobby-check-", suffix=".sh", delete=False) as script:
            script.write(f'#!/bin/sh\nexec "{os.environ["LOBBY_MAIN"]}" "$@" {error}\n')
        os.chmod(script.name, 0o700)
        whole = os.environ["LOBBY_MAIN"]
        os.environ["LOBBY_MAIN"] = script.name
        try:
            super().__init__(workers, [ANNA], log="all")
        finally:
            os.environ["LOBBY_MAIN"] = whole
            os.unlink(script.name)


def unread(workers):
    """Nobody reads standard error: clients are served all the while. Once somebody does, all lines are there but those that found no
    place, and how many these are."""
    reader, writer = os.pipe()
    fcntl.fcntl(writer, fcntl.F_SETPIPE_SZ, PIPE)
    count = 4 * WAITING
    with Server(workers, [ANNA], log="all", errors=os.fdopen(writer, "wb", buffering=0)) as server:
        anna = logged_in(server, ANNA, [])
        denied_often(server, count)
        # The server has tried to write, and waited for as long as it does at its end.
        time.sleep(1.5)
        server.errors.close()
        told = bytearray()
        takes = threading.Thread(target=lambda: take(reader, told))
        takes.start()
        # What waits is written before a later line finds its place.
        deadline = time.monotonic() + PATIENCE
        while b"log lost=" not in told and time.monotonic() < deadline:
            time.sleep(0.01)
        anna.send("EXIT\n")
        anna.expect_end()
        anna.close()
        server.errors = open(os.devnull, "rb")
        server.stop()
        takes.join()
        lines = told.decode().splitlines()
        lost = [int(it[1]) for line in lines if (it := re.fullmatch("log lost=([0-9]+)", line))]
        kept = sum(re.fullmatch("denied name=x reason=invalid client=[0-9]+ ip=127.0.0.1", it) is not None for it in lines)
        rest = [it for it in lines if not it.startswith(("denied name=x ", "log lost="))]
        same(rest, [started(server, 1), "login name=Anna client=1 ip=127.0.0.1", "logout name=Anna cause=exit client=1", *stopped(server)])
        # Where the thread that writes came to nothing, the two lines before these wait too.
        if not lost or kept + sum(lost) != count or not WAITING - 2 <= kept < 2 * WAITING:
            raise Difference(f"of {count} lines {kept} came, and {lost} were told as lost")


def never_read(workers):
    """Nobody ever reads standard error, which is full, from the start or after a while: a stop waits for it for a moment and no longer."""
    for count in (0, 2 * WAITING):
        reader, writer = os.pipe()
        fcntl.fcntl(writer, fcntl.F_SETPIPE_SZ, PIPE)
        if not count:
            os.write(writer, b"x" * PIPE)
        with Server(workers, [ANNA], log="all", errors=os.fdopen(writer, "wb", buffering=0)) as server:
            anna = logged_in(server, ANNA, [])
            denied_often(server, count)
            begun = time.monotonic()
            stop(server, anna)
            if time.monotonic() - begun > LATEST:
                raise Difference(f"the server ended after {time.monotonic() - begun:.1f} s")
        os.close(reader)


def take(reader, told):
    """Takes all that comes of a pipe."""
    while piece := os.read(reader, 65_536):
        told += piece
    os.close(reader)


CHECKS = [each_happening, too_slow, cut_by_its_login, cut_before_its_exit, many_at_a_stop, forged, again_and_again, fronted, recorded, levels,
          refused, not_accepted, busy, no_memory, closed, unread, never_read]


def main():
    built = sys.argv[1] if len(sys.argv) > 1 else HERE.parent / "crates/lobby_main/out/lobby_main"
    os.environ["LOBBY_MAIN"] = str(Path(built).resolve())
    names = sys.argv[2:]
    passed = failed = 0
    for workers in (1, 4):
        for check in CHECKS:
            if names and check.__name__ not in names:
                continue
            try:
                check(workers)
                passed += 1
            except Difference as difference:
                print(f"{check.__name__} DIFFERS with {workers} workers: {difference}")
                failed += 1
    print(f"log: {passed} passed, {failed} failed")
    sys.exit(1 if failed else 0)


if __name__ == "__main__":
    main()
