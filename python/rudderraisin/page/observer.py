"""One who looks on: logs in, hears what all are told, and comes back where the server went."""
from __future__ import annotations

import asyncio
import os
import random
import sys
import time
from collections import Counter
from typing import Callable, Iterable, Mapping

from .. import reply, request
from ..client import Client, Denied
from ..errors import LobbyError
from . import shown

PATIENCE = 30.0         # seconds that an answer of the server may take
EACH = 5.0              # seconds between two looks at the channels, which show as well that the server is there
PARTING = 2.0           # seconds that the end of a connection may take where the program ends
WAITS = (1.0, 30.0)     # seconds to the next try behind the first end of a connection, and at most
STEADY = 60.0           # a connection that lasted so many seconds makes the next wait the first one again

# What changes a table, for all who are logged in are told of it.
# Written by tools/protocol.py of protocol/replies.toml: what all are told.
TOLD = (reply.ADDUSER, reply.REMOVEUSER, reply.CLIENTSTATUS, reply.BATTLEOPENED, reply.BATTLECLOSED, reply.JOINEDBATTLE,
        reply.LEFTBATTLE, reply.UPDATEBATTLEINFO)
# End of what is written: what all are told.
# Those that are counted, by name.
COUNTED: Mapping[type, str] = {reply.ADDUSER: "logins", reply.BATTLEOPENED: "battles_opened"}


def reason(error: BaseException) -> str:
    """What ended a connection, in words for operators and players."""
    if isinstance(error, Denied):
        return f"the login is denied: {shown.readable(str(error))}"
    if isinstance(error, asyncio.TimeoutError):
        return "the server does not answer"
    if isinstance(error, OSError) and error.errno:
        return os.strerror(error.errno)
    return shown.readable(str(error)) or type(error).__name__


class Observer:
    """Follows a lobby. `changed` is called for each thing that changes what `picture` gives."""

    def __init__(self, client: Callable[[], Client], place: str, user: str, password: str,
                 changed: Callable[[], None]) -> None:
        """`client` makes a client of the lobby, and `place` is what operators are told of where that is."""
        self._made, self._place, self._account, self._changed = client, place, (user, password), changed
        self._client: Client | None = None      # while it is logged in
        self._channels: dict[str, int] = {}
        self._lobby: shown.Row = {"connected": False, "since": int(time.time()), "reason": "not connected yet"}
        self.counts: Counter[str] = Counter(logins=0, battles_opened=0, connections=0)
        self.answered = 0.0     # seconds that the last look at the channels took

    @property
    def is_in(self) -> bool:
        return self._client is not None

    def picture(self) -> shown.Picture:
        """What is there now; nothing but that, and why, while the server is not there."""
        if self._client is None:
            return shown.Picture(self._lobby)
        return shown.picture(self._lobby, self._client.view, self._channels)

    async def run(self) -> None:
        """Follows without end."""
        wait = WAITS[0]
        while True:
            begun = time.monotonic()
            try:
                await self._follow()
            except (OSError, LobbyError, asyncio.TimeoutError) as error:
                self._say(False, reason(error))
            wait = WAITS[0] if time.monotonic() - begun > STEADY else wait
            await asyncio.sleep(wait * random.uniform(0.5, 1))
            wait = min(2 * wait, WAITS[1])

    async def _follow(self) -> None:
        """Connects, logs in and follows until the connection ends, which it raises."""
        client = self._made()
        try:
            await asyncio.wait_for(client.connect(), PATIENCE)
            await asyncio.wait_for(client.login(*self._account, lobby="rudderraisin_status"), PATIENCE)
            client.skip()
            self._client, self._channels = client, await self._listed(client)
            self.counts["connections"] += 1
            self._say(True, "")
            await first_end(self._hear(client), self._look(client))
        finally:
            self._client, self._channels = None, {}
            await client.close()

    def _say(self, is_in: bool, why: str) -> None:
        if (self._lobby["connected"], self._lobby["reason"]) == (is_in, why):
            return
        since = int(time.time()) if is_in or self._lobby["connected"] else self._lobby["since"]
        self._lobby = {"connected": is_in, "since": since, "reason": why}
        print(f"{self._place}: {'logged in' if is_in else why}", file=sys.stderr, flush=True)
        self._changed()

    async def _hear(self, client: Client) -> None:
        async for it in client:
            if isinstance(it, TOLD):
                if type(it) in COUNTED:
                    self.counts[COUNTED[type(it)]] += 1
                self._changed()

    async def _look(self, client: Client) -> None:
        while True:
            await asyncio.sleep(EACH)
            begun = time.monotonic()
            channels = await self._listed(client)
            self.answered = time.monotonic() - begun
            if channels != self._channels:
                self._channels = channels
                self._changed()

    async def _listed(self, client: Client) -> dict[str, int]:
        """The channels, with how many are in each."""
        answer = await asyncio.wait_for(client.ask(request.CHANNELS()), PATIENCE)
        return {it.channel: it.userCount for it in answer if isinstance(it, reply.CHANNEL)}


async def first_end(*calls: object) -> None:
    """Runs these at once until one ends, ends the others, and raises what ended it."""
    tasks = [asyncio.ensure_future(it) for it in calls]     # type: ignore[arg-type]
    try:
        done, _ = await asyncio.wait(tasks, return_when=asyncio.FIRST_COMPLETED)
        for it in done:
            it.result()
    finally:
        await end(tasks)


async def end(tasks: Iterable[asyncio.Future[object]]) -> None:
    """Ends these, whatever they come to. Before Python 3.12 `wait_for` may lose a cancellation: it is said again."""
    left = set(tasks)
    while left:
        for it in left:
            it.cancel()
        done, left = await asyncio.wait(left, timeout=PARTING)
        await asyncio.gather(*done, return_exceptions=True)
