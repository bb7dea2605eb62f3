#!/usr/bin/env python3
"""Tries the C library: builds it by tools/library.sh, or takes another, compares its names with the header, and compiles that as C and as C++.
Builds checks/view.c, which shows each view of rows/ and examples/ as checks/views.sh wants view_show to. Under the address sanitiser it
shows what members of a battle of a running server know, fed whole and in pieces, examples/battles.c prints the battles of that server, and
checks/lines.c takes each reply apart and prints each request. checks/refused_calls.c is refused each allocation of each call.

    checks/library.py [LIBRARY]

The programs are those that the gate built; $LOBBY_MAIN and $LOBBY_PLAY name others."""
import os
import re
import subprocess
import sys
import tempfile
from pathlib import Path

import lines_wanted
from lobby_server import ADDRESS, ROOT, Account, Difference, Server, logged_in, run

COMPILER = os.environ.get("CC", "cc")
STRICT = ["-Wall", "-Wextra", "-Wpedantic", "-Werror", f"-I{ROOT}/include"]
SANITISED = ["-g", "-O1", "-fsanitize=address,undefined", "-fno-sanitize-recover=all", "-D_POSIX_C_SOURCE=200809L"]
TITLES = "Recoil\t105.1\tDelta Siege\tOpen to all\tBalanced 1.2"
ASKED = [
    f"OPENBATTLE 0 0 * 8452 16 7 0 9 {TITLES}\nJOIN main\nADDBOT Bot1 0 255 Some AI\nADDSTARTRECT 1 0 10 100 200\n"
    "SETSCRIPTTAGS game/a=1\tgame/b=\nDISABLEUNITS armcom corcom\n",
    "JOINBATTLE 1\nJOIN main\nMYBATTLESTATUS 2 77\n",
    "OPENBATTLE 0 0 key 8452 4 7 0 9 Recoil\t105.1\tAltair\tClosed room\tBalanced 1.2\nUPDATEBATTLEINFO 0 1 9 Altair\n",
]
WANTED = """1 Open to all, Delta Siege, 2 of 16: Anna Bert
2 Closed room, Altair, 1 of 4, passworded, locked: Cleo
"""


def called(words, **how):
    """What a command prints. It is to end with status 0 and tell nothing of errors."""
    how = {"stdout": subprocess.PIPE, "stderr": subprocess.PIPE, "timeout": 3600, **how}
    done = subprocess.run(words, encoding="utf-8", errors="replace", **how)
    if done.returncode or done.stderr:
        raise Difference(f"{' '.join(map(str, words))} ends with status {done.returncode}:\n{done.stdout[-2000:]}{done.stderr[-4000:]}")
    return done.stdout


def programs(library, room):
    """Compiles the header alone, both programs under the sanitiser, and the first without it."""
    (room / "header.c").write_text('#include "lobby.h"\nlobby_view view = LOBBY_VIEW_EMPTY;\n')
    called([COMPILER, "-std=c99", *STRICT, "-fsyntax-only", room / "header.c"])
    called([COMPILER, "-x", "c++", *STRICT, "-fsyntax-only", room / "header.c"])
    for name, source, words in [
        ("plain", "checks/view.c", ["-O2"]),
        ("view", "checks/view.c", SANITISED),
        ("battles", "examples/battles.c", SANITISED),
        ("lines", "checks/lines.c", SANITISED),
        ("refused_calls", "checks/refused_calls.c", ["-O1"]),
    ]:
        called([COMPILER, "-std=c11", *STRICT, *words, ROOT / source, library, "-o", room / name])


def show_views(room, heard):
    """What one knows who heard these bytes, whatever pieces they are fed in."""
    (room / "heard").write_bytes(heard)
    shown = set()
    for program, pieces in [("plain", "whole"), ("view", "whole"), ("view", "1"), ("view", "3"), ("view", "61"), ("view", "1021")]:
        with (room / "heard").open() as bytes_heard:
            shown.add(called([room / program, pieces], stdin=bytes_heard))
    for word in ["me ", "user ", "battle ", "channel ", "room ", "  member ", "  bot ", "  rectangle ", "  tag ", "  unit "]:
        if len(shown) > 1 or "\n" + word not in "\n" + shown.copy().pop():
            raise Difference(f"fed in other pieces, or without its {word}: {shown}")


def print_battles(room):
    """Two battles of a server, as one who logs in sees them; what a wrong password comes to; and what the members know."""
    accounts = [Account(name, number) for number, name in enumerate(["Anna", "Bert", "Cleo", "Dora"], 1)]
    anna, bert, cleo, _ = accounts
    with Server(2, accounts) as server:
        hosts = [logged_in(server, anna, []), logged_in(server, bert, [anna]), logged_in(server, cleo, [anna, bert])]
        for host, text in zip(hosts, ASKED):
            host.send(text + "#5 PING\n")
            while b"#5 PONG\n" not in host.heard:
                if not host.receive():
                    raise Difference("a host's connection ended")
        shown = called([room / "battles", ADDRESS, str(server.port), "Dora", "password"])
        if shown != WANTED:
            raise Difference(f"the battles are wanted:\n{WANTED}found:\n{shown}")
        words = [room / "battles", ADDRESS, str(server.port), "Dora", "other"]
        denied = subprocess.run(words, stderr=subprocess.PIPE, text=True, timeout=60)
        if denied.returncode != 1 or denied.stderr != "battles: the login was denied\n":
            raise Difference(f"a wrong password ends with status {denied.returncode}: {denied.stderr}")
        for host in hosts:
            host.close()
    show_views(room, bytes(hosts[1].heard))


def numbers():
    """The numbers that the header names."""
    header = (ROOT / "include/lobby.h").read_text()
    return {name: int(number) for name, number in re.findall(r"LOBBY_(\w+) = (\d+)", header)}


def written(kind, message_id, fields):
    """A line's head and fields as checks/lines.c reads and writes them."""
    rows = [f"{kind} {'-' if message_id is None else message_id}"]
    for field in fields:
        raw = isinstance(field, int) or field is not None and field[:1] in (">", "?")
        rows.append("-" if field is None else str(field) if raw else ":" + field)
    return "".join(row + "\n" for row in [*rows, ""])


def spoken(program, mode, given, wanted):
    """What checks/lines.c makes of each of these, all at once."""
    said = called([program, mode], input="".join(given))
    if said != "".join(wanted):
        for one, want in zip(given, wanted):
            found = called([program, mode], input=one)
            if found != want:
                raise Difference(f"lines {mode} of {one!r} gives {found!r}, wanted {want!r}")
        raise Difference(f"lines {mode} gives {said!r}, wanted {wanted!r}")
    return len(given)


def take_lines(program):
    """Each reply taken apart, with an id and without; each request printed so; what is no reply, and what is refused."""
    named = numbers()
    given, wanted = [], []
    for line, fields in lines_wanted.REPLIES + lines_wanted.MORE:
        for front, message_id in [("", None), ("#0 ", 0), ("#2147483647 ", 2147483647)]:
            given.append(f"{front}{line}\n")
            wanted.append(written(named["REPLY_" + line.split(" ")[0]], message_id, fields))
    given += [line + "\n" for line in lines_wanted.NO_REPLIES]
    wanted += [f"status {named['NO_REPLY']}\n\n" for _ in lines_wanted.NO_REPLIES]
    read = spoken(program, "read", given, wanted)
    given, wanted = [], []
    for word, fields, behind in lines_wanted.REQUESTS + lines_wanted.OTHERS:
        for message_id in (None, 0, 2147483647) if len(behind) < 8000 else (None,):
            given.append(written(named["ASK_" + word], message_id, fields))
            wanted.append(f"{'' if message_id is None else f'#{message_id} '}{word}{behind}\n")
    for kind, message_id, fields, status in lines_wanted.REFUSED:
        given.append(written(named["ASK_" + kind] if isinstance(kind, str) else kind, message_id, fields))
        wanted.append(f"status {named[status]}\n")
    printed = spoken(program, "print", given, wanted)
    kinds = {name for name in named if name.startswith(("REPLY_", "ASK_"))}
    tried = {"REPLY_" + line.split(" ")[0] for line, _ in lines_wanted.REPLIES + lines_wanted.MORE} | {"ASK_" + word for word, *_ in lines_wanted.REQUESTS}
    if kinds != tried:
        raise Difference(f"not tried, or of no kind: {sorted(kinds ^ tried)}")
    print(f"lines: {read} read and {printed} printed or refused as docs/PROTOCOL.md has them")


def refuse_memory(room):
    """Each allocation of each call is refused in turn."""
    preloaded = room / "refuse_allocation.so"
    called([ROOT / "checks/build_library.sh", ROOT / "checks/refuse_allocation.c", preloaded])
    told = called([room / "refused_calls"], env={**os.environ, "LD_PRELOAD": str(preloaded)}).split("\n")
    refused = {row.rsplit(" ", 1)[0]: int(row.rsplit(" ", 1)[1]) for row in told[:-2]}
    if not all(refused[call] for call in ("new", "feed", "table", "read", "print")):
        raise Difference(f"a call that takes memory was refused none: {refused}")
    print(f"calls of the library: {told[-2]}, and nothing changed")


def check(library=None):
    if library is None:
        print(called([ROOT / "tools/library.sh"]), end="")
        library = ROOT / "bin/liblobby.a"
    print(called([sys.executable, ROOT / "checks/header.py", library]), end="")
    player = os.environ.get("LOBBY_PLAY", ROOT / "crates/lobby_play/out/lobby_play")
    os.environ.setdefault("LOBBY_MAIN", str(ROOT / "crates/lobby_main/out/lobby_main"))
    with tempfile.TemporaryDirectory(prefix="lobby-library-") as folder:
        room = Path(folder)
        programs(Path(library).resolve(), room)
        take_lines(room / "lines")
        refuse_memory(room)
        print_battles(room)
        print(called([ROOT / "checks/views.sh", player, room / "plain"]), end="")


if __name__ == "__main__":
    run(check, sys.argv[1:])
