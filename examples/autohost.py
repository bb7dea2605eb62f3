#!/usr/bin/env python3
"""Hosts a battle, lets in who is on a list, and does what they say in the battle:

    !set KEY=VALUE    sets a script tag
    !kick NAME        puts a member out
    !start            begins the game, if all players are ready
    !close            closes the battle and ends

    python3 examples/autohost.py Host password Anna Bert
"""
import argparse
import asyncio
import contextlib

from rudderraisin import BattleStatus, CannotPrint, Client, Refused, Status, reply, request


class Host:
    def __init__(self, client: Client, guests: set[str]) -> None:
        self.client, self.guests = client, guests
        self.battle = 0                         # its number
        self.passwords: dict[str, str] = {}     # script passwords, which the engine is to know

    async def open(self, title: str) -> None:
        answer = await self.client.ask(request.OPENBATTLE(
            type=0, natType=0, password="*", port=8452, maxPlayers=8, gameHash=-1, rank=0, mapHash=123,
            engineName="Spring", engineVersion="104.0", map="Comet Catcher", title=title, gameName="BA 9.46"))
        self.battle = next(it.battleID for it in answer if isinstance(it, reply.OPENBATTLE))
        await self.client.ask(request.MYBATTLESTATUS(BattleStatus.of(sync=1), teamColor=0))     # a spectator

    async def run(self) -> None:
        """Serves the battle until somebody says !close."""
        async for it in self.client:
            if isinstance(it, reply.JOINBATTLEREQUEST):
                await self.answer(it.user)
            elif isinstance(it, reply.JOINEDBATTLE) and it.battleID == self.battle:
                self.passwords[it.user] = it.scriptPassword or ""
                await self.say(f"Welcome, {it.user}! Say !start when all are ready.")
            elif isinstance(it, reply.SAIDBATTLE) and it.user in self.guests and it.text.startswith("!"):
                command, _, rest = it.text.partition(" ")
                if command == "!close":
                    await self.client.ask(request.LEAVEBATTLE())
                    return
                try:
                    await self.obey(command, rest)
                except (Refused, CannotPrint) as refused:
                    await self.say(f"{command}: {refused}")

    async def say(self, text: str) -> None:
        await self.client.send(request.SAYBATTLE(text))

    async def answer(self, user: str) -> None:
        deny = request.JOINBATTLEDENY(user, "You are no guest")
        with contextlib.suppress(Refused):      # it asks no more
            await self.client.ask(request.JOINBATTLEACCEPT(user) if user in self.guests else deny)

    async def obey(self, command: str, rest: str) -> None:
        if command == "!set":
            key, _, value = rest.partition("=")
            await self.client.ask(request.SETSCRIPTTAGS(((key, value),)))
        elif command == "!kick":
            await self.client.ask(request.KICKFROMBATTLE(rest))
        elif command == "!start":
            await self.start()
        else:
            await self.say("!set KEY=VALUE, !kick NAME, !start or !close")

    async def start(self) -> None:
        room = self.client.view.room
        players = [it for it in room.members if it.battleStatus.player] if room else []
        idle = [it.name for it in players if not it.battleStatus.ready]
        if idle or not players:
            await self.say("Not ready: " + (", ".join(idle) or "nobody plays"))
        else:   # here the engine would start, with a script made of `room` and `passwords`
            await self.client.ask(request.MYSTATUS(Status.of(in_game=True)))


async def main() -> None:
    parser = argparse.ArgumentParser(description="Hosts a battle.")
    parser.add_argument("user")
    parser.add_argument("password")
    parser.add_argument("guests", nargs="*", help="who may join")
    parser.add_argument("--server", default="127.0.0.1")
    parser.add_argument("--port", type=int, default=8200)
    options = parser.parse_args()
    async with Client(options.server, options.port) as client:
        await client.login(options.user, options.password, b=True)
        host = Host(client, set(options.guests))
        await host.open(f"{options.user}'s battle")
        await host.run()


if __name__ == "__main__":
    asyncio.run(main())
