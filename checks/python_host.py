#!/usr/bin/env python3
"""examples/autohost.py hosts a battle at a server: players who are on its list and one who is not ask to join, and say each
of its commands. What the bot knows then is compared with what view_show makes of the bytes of one who looks on, and of a
member.

    checks/python_host.py [LOBBY_MAIN [VIEW_SHOW]]

They are those of the gate if left out; the package is as checks/python_view.py says."""
import asyncio
import os
import subprocess
import sys
import threading
from pathlib import Path

import python_view
from lobby_server import ADDRESS, PATIENCE, ROOT, Account, Difference, Server, greeted, logged_in, run

sys.path.insert(0, str(ROOT / "examples"))
import autohost  # noqa: E402
from rudderraisin import Client, request  # noqa: E402

ACCOUNTS = [Account(name, number, number) for number, name in enumerate(("Host", "Anna", "Bert", "Cleo", "Dora"), 1)]
READY_PLAYER, PLAYER = 1 << 10 | 1 << 1, 1 << 10


class Bot(threading.Thread):
    """The whole program, in a thread of its own, with its client to look at."""

    def __init__(self, port):
        super().__init__(daemon=True)
        self.client = self.loop = self.fault = None
        self.words = ["autohost.py", "Host", "password", "Anna", "Bert", "--server", ADDRESS, "--port", str(port)]

    def run(self):
        bot = self

        class Watched(Client):
            async def connect(self):
                await super().connect()
                bot.client, bot.loop = self, asyncio.get_running_loop()

        autohost.Client, sys.argv = Watched, self.words
        try:
            asyncio.run(autohost.main())
        except Exception as fault:  # pylint: disable=broad-except
            self.fault = fault

    def look(self, what):
        """What a function makes of its view, behind all that the server said so far."""
        async def looked():
            await self.client.ask(request.PING())
            return what(self.client.view)
        return asyncio.run_coroutine_threadsafe(looked(), self.loop).result(PATIENCE)

    def expect_end(self):
        self.join(PATIENCE)
        if self.is_alive() or self.fault:
            raise Difference(f"the bot does not end as it should: {self.fault}")


def told(client, *lines):
    """Takes what comes up to each of these lines in turn."""
    for line in lines:
        wanted = line.encode() + b"\n"
        while True:
            at = (b"\n" + client.heard[client.checked:]).find(b"\n" + wanted)
            if at >= 0:
                client.checked += at + len(wanted)
                break
            if not client.receive():
                raise Difference(f"wanted {line}, found {bytes(client.heard[client.checked:])}")


def known(show, client, begins, ends):
    """The lines of a client's view from one that begins so up to one that begins so, as view_show shows it."""
    client.send("#9 PING\n")
    told(client, "#9 PONG")
    heard = bytes(client.heard)
    shown = subprocess.run([show, "whole"], input=heard, stdout=subprocess.PIPE, timeout=PATIENCE, check=True).stdout
    lines, is_on = [], False
    for line in shown.decode().splitlines():
        is_on = line.startswith(begins) or (is_on and not line.startswith(ends))
        lines += [line] * is_on
    return lines


def compare(bot, show, onlooker, member):
    """The bot knows the users and battles that the onlooker knows, and the room that the member knows."""
    listed = known(show, onlooker, ("user ", "battle "), ("channel ", "room "))
    inside = known(show, member, ("room ",), ("me ",))
    for what, mine, theirs in (("users and battles", python_view.listed, listed),
                               ("the room", lambda view: python_view.inside(view.room), inside)):
        found = bot.look(lambda view, mine=mine: [*mine(view)])
        if found != theirs or not found:
            raise Difference(f"{what}: the bot knows\n{found}\nand others\n{theirs}")


def enter(anna, bert, cleo, dora):
    """Who is on the list comes in, who is not stays out. When Anna's second asking is answered she is in already."""
    cleo.send("JOINBATTLE 1\n")
    told(cleo, "JOINBATTLEFAILED You are no guest")
    anna.send("JOINBATTLE 1 * pwA\nLEAVEBATTLE\nJOINBATTLE 1 * pwB\n")
    told(anna, "JOINBATTLE 1 -1", "SAIDBATTLE Host Welcome, Anna! Say !start when all are ready.")
    bert.send("JOINBATTLE 1\n")
    told(bert, "JOINBATTLE 1 -1", "SAIDBATTLE Host Welcome, Bert! Say !start when all are ready.")
    told(dora, "JOINEDBATTLE 1 Anna", "JOINEDBATTLE 1 Bert")
    dora.send("OPENBATTLE 0 0 * 1 2 3 4 5 a\tb\tc\td\te\n")
    told(dora, "OPENBATTLE 2")
    cleo.send("JOINBATTLE 2\n")
    told(cleo, "JOINBATTLE 2 3")


def command(anna, bert):
    """Each command does what it says, and a fault is told."""
    for said, answer in (
        ("!set map/start=1=2", "SETSCRIPTTAGS map/start=1=2"),
        ("!set a=", "SETSCRIPTTAGS a="),
        ("!kick Host", "SAIDBATTLE Host !kick: You cannot kick yourself"),
        ("!kick Cleo", "SAIDBATTLE Host !kick: No such member"),
        ("!dance", "SAIDBATTLE Host !set KEY=VALUE, !kick NAME, !start or !close"),
        ("!start", "SAIDBATTLE Host Not ready: nobody plays"),
    ):
        anna.send(f"SAYBATTLE {said}\n")
        told(anna, f"SAIDBATTLE Anna {said}", answer)
    anna.send("SAYBATTLE !set =1\n")
    told(anna, "SAIDBATTLE Anna !set =1")
    while not anna.heard[anna.checked:].startswith(b"SAIDBATTLE Host !set: "):
        if not anna.receive():
            raise Difference("a tag without a key is not refused")
    bert.send(f"MYBATTLESTATUS {PLAYER} 255\n")
    anna.send(f"MYBATTLESTATUS {READY_PLAYER} 65280\nSAYBATTLE !start\n")
    told(anna, "SAIDBATTLE Host Not ready: Bert")
    anna.send("ADDBOT Robo 4195330 255 KAIK\n")
    told(anna, "ADDBOT 1 Robo Anna 4195330 255 KAIK")


def end(bot, anna, bert, dora):
    """The game begins when Bert is ready; Anna is put out, and Bert closes the battle."""
    bert.send(f"MYBATTLESTATUS {READY_PLAYER} 255\nSAYBATTLE !start\n")
    told(bert, "CLIENTSTATUS Host 5")
    told(dora, "CLIENTSTATUS Host 5")
    bert.send("SAYBATTLE !kick Anna\n")
    told(anna, "FORCEQUITBATTLE")
    told(dora, "LEFTBATTLE 1 Anna")
    bert.send("SAYBATTLE !close\n")
    told(dora, "BATTLECLOSED 1", "REMOVEUSER Host")
    bot.expect_end()
    for wrong in (b"Welcome, Cleo", b"SETSCRIPTTAGS KEY"):
        if wrong in bert.heard:
            raise Difference(f"the bot did what nobody asked: {wrong}")


def check(show):
    with Server(2, ACCOUNTS) as server:
        dora = logged_in(server, ACCOUNTS[4], [])
        bot = Bot(server.port)
        bot.start()
        told(dora, f"BATTLEOPENED 1 0 0 Host {ADDRESS} 8452 8 0 0 123 "
                   "Spring\t104.0\tComet Catcher\tHost's battle\tBA 9.46")
        anna, bert, cleo = (peer(server, it) for it in ACCOUNTS[1:4])
        enter(anna, bert, cleo, dora)
        command(anna, bert)
        compare(bot, show, dora, bert)
        end(bot, anna, bert, dora)


def peer(server, account):
    """One who is logged in beside others, whoever they are."""
    client = greeted(server)
    client.send(account.login())
    told(client, "LOGININFOEND")
    return client


if __name__ == "__main__":
    built = [ROOT / "crates" / it / "out" / it for it in ("lobby_main", "view_show")]
    programs = [str(Path(it).resolve()) for it in sys.argv[1:3] + built[len(sys.argv) - 1:]]
    os.environ["LOBBY_MAIN"] = programs[0]
    run(check, programs[1:])
