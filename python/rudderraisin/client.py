"""A client of the lobby over asyncio: requests, their answers, and a view that the same bytes keep up.

    async with Client("127.0.0.1", 8200) as client:
        await client.login("Anna", "password")
        await client.ask(request.JOIN("main"))
        async for it in client:
            if isinstance(it, reply.SAID):
                print(it.user, it.text, len(client.view.users))

A client connects once. Who wants to connect anew makes another one. No call has a time-out of its own but `close`:
put `asyncio.wait_for` around it. A client belongs to the event loop that connected it.
"""
from __future__ import annotations

import asyncio
import base64
import contextlib
import hashlib
from collections import deque
from typing import AsyncIterator

from . import reply, request
from ._native import encoded
from .errors import ConnectionLost, LineTooLong, LobbyError
from .reply import Reply
from .request import Request
from .view import View

PIECE = 65_536              # bytes read at once, at most
LINE_LIMIT = 20_479         # bytes of a line of the server before its LF, as the view's
ROOM = 1_048_576            # bytes of lines that may wait for the iterator before the client reads no more
MOST = 16_777_216           # the same while an answer is awaited, for which it reads on; more ends the connection
PATIENCE = 5.0              # seconds that `close` waits for the server's last bytes
FIRST_ID = 1 << 30          # the first message id of `ask`; smaller ones are the caller's
LAST_ID = 2_147_483_647

# One of these in an answer refuses what was asked.
# Written by tools/protocol.py of protocol/replies.toml: refusals.
REFUSALS = (reply.DENIED, reply.SERVERMSG, reply.JOINFAILED, reply.OPENBATTLEFAILED, reply.JOINBATTLEFAILED)
# End of what is written: refusals.


class Refused(LobbyError):
    """The server refused what was asked. `reply` is the first that says so, and the message its text or reason
    (docs/PROTOCOL.md, section 6)."""

    def __init__(self, refusal: Reply) -> None:
        self.reply = refusal
        super().__init__(refusal.reason if isinstance(refusal, reply.JOINFAILED) else getattr(refusal, "text", ""))


class Denied(Refused):
    """The server refused a login."""


def password_word(password: str) -> str:
    """The word that stands for a password in LOGIN: the base64 text of the MD5 of its UTF-8 bytes."""
    return base64.b64encode(hashlib.md5(encoded(password), usedforsecurity=False).digest()).decode()


class _Ask:
    """A request whose answer is awaited."""

    def __init__(self) -> None:
        self.answer: asyncio.Future[list[Reply]] = asyncio.get_running_loop().create_future()
        self.replies: list[Reply] = []
        self.size = 0


class Client:
    """A connection to a lobby server, made by `async with` or by `connect`.

    `view` has taken in all that was read so far: it is never behind a reply that the iterator or `ask` gives, and may
    be ahead of it. So look up with `get`: who is named may have left again.
    """

    view: View                  # from `connect` to `close`
    greeting: reply.TASSERVER   # behind `connect`

    def __init__(self, host: str, port: int, *, proxied: bool = False) -> None:
        """A client of the server at this place. Where the server's `proxies` names this machine it closes a connection
        that does not begin with a line of the PROXY protocol: with `proxied` this one does."""
        self._place = (host, port)
        self._first = b"PROXY UNKNOWN\r\n" if proxied else b""
        self._rest = b""                        # the beginning of a line
        self._asks: dict[int, _Ask] = {}        # by the id of what was asked, which is even; its end has the next one
        self._next_id = FIRST_ID
        self._queue: deque[tuple[Reply, int]] = deque()     # for the iterator, with the bytes of each line
        self._held = 0                          # bytes of lines in the queue and in answers
        self._is_closing = False
        self._end: BaseException | None = None  # what ended the connection

    async def __aenter__(self) -> Client:
        await self.connect()
        return self

    async def __aexit__(self, *_: object) -> None:
        await self.close()

    async def connect(self) -> None:
        """Connects, and waits for the greeting. OSError; `ConnectionLost` where it does not come."""
        self._reader, self._writer = await asyncio.open_connection(*self._place)
        self._writer.write(self._first)
        self.view = View()
        self._writing = asyncio.Lock()          # in Python 3.9 one alone may wait for the writer
        self._news = asyncio.Event()            # something came for the iterator, or the end
        self._room = asyncio.Event()            # the client may read on
        self._task = asyncio.create_task(self._follow())
        try:
            first = await self.__anext__()
            if not isinstance(first, reply.TASSERVER):
                raise ConnectionLost("the server does not greet")
            self.greeting = first
        except BaseException:
            await self._cut()
            raise

    async def close(self) -> None:
        """Logs out, waits up to PATIENCE seconds for the server's last bytes, and closes connection and view."""
        if self._is_closing or not hasattr(self, "_task"):
            return
        self._is_closing = True
        self._room.set()
        self._news.set()
        try:
            if self._end is None:
                self._writer.write(request.EXIT().line())
                await asyncio.wait({self._task}, timeout=PATIENCE)
        finally:
            await self._cut()

    async def login(self, user: str, password: str, *, b: bool = False, lobby: str = "rudderraisin",
                    cpu: int = 0) -> list[Reply]:
        """Logs in, and gives the server's answer from ACCEPTED to LOGININFOEND, which the view has then.

        With the flag `b`, a user who joins a battle of this one asks it first, by JOINBATTLEREQUEST. `Denied` with the server's reason;
        `CannotPrint`; `ConnectionLost`. The password travels as its MD5, which serves whoever reads it on the way.
        """
        try:
            return await self.ask(request.LOGIN(user, password_word(password), cpu, "*", lobby, b))
        except Refused as refused:
            raise Denied(refused.reply) from None

    async def send(self, asked: Request, id: int | None = None) -> None:
        """Sends a request, and waits while the server reads too slowly. `CannotPrint`; `ConnectionLost`.

        An `id` of 0 to 1073741823 goes before it, and is the `id` of each reply that answers.
        """
        if id is not None and not 0 <= id < FIRST_ID:
            raise ValueError(f"an id is 0 to {FIRST_ID - 1}")
        await self._write(asked.line(id))

    async def ask(self, asked: Request) -> list[Reply]:
        """Sends a request and gives the replies that answer it; there may be none. The iterator gives them too.

        `Refused` where the server refuses; `CannotPrint`; `ConnectionLost`. Behind the request goes a PING, whose PONG
        says that all of the answer is there. What others decide comes later, as what a founder answers who is asked: by
        the iterator alone.
        """
        number = self._next_id
        said = asked.line(number) + request.PING().line(number + 1)
        self._check()
        self._next_id = number + 2 if number + 2 < LAST_ID else FIRST_ID
        ask = self._asks[number] = _Ask()
        self._room.set()
        try:
            await self._write(said)
            answer = await ask.answer
        finally:
            ask.answer.cancel()     # where the caller gives up, nobody waits for the answer any more
        refusal = next((it for it in answer if isinstance(it, REFUSALS)), None)
        if refusal is not None:
            raise Refused(refusal)
        return answer

    def __aiter__(self) -> AsyncIterator[Reply]:
        return self

    async def __anext__(self) -> Reply:
        """The next reply behind the greeting; lines that no reply prints are left out. It ends with `close`;
        `ConnectionLost` where the connection ends otherwise.

        If more than ROOM bytes of lines wait here, and no answer is awaited, the client reads no more, and in the end
        the server cuts it off. Who only asks and looks at the view calls `skip` now and then.
        """
        while not self._queue:
            if self._is_closing:
                raise StopAsyncIteration
            self._check()
            self._news.clear()
            await self._news.wait()
        it, size = self._queue.popleft()
        self._held -= size
        self._room.set()
        return it

    def skip(self) -> None:
        """Leaves out what waits for the iterator."""
        self._held -= sum(size for _, size in self._queue)
        self._queue.clear()
        self._room.set()

    def _check(self) -> None:
        if self._is_closing:
            raise ConnectionLost("the client is closed")
        if self._end is not None:
            raise self._lost()

    def _lost(self) -> ConnectionLost:
        lost = ConnectionLost(str(self._end) or type(self._end).__name__)
        lost.__cause__ = self._end
        return lost

    async def _write(self, said: bytes) -> None:
        self._check()
        self._writer.write(said)
        async with self._writing:
            try:
                await self._writer.drain()
            except OSError as error:
                raise ConnectionLost(str(error)) from error

    async def _cut(self) -> None:
        self._task.cancel()     # it takes nothing in from here on
        self._writer.transport.abort()
        self.view.close()
        with contextlib.suppress(OSError):
            await self._writer.wait_closed()

    async def _follow(self) -> None:
        """Reads to the end of the connection."""
        try:
            while True:
                piece = await self._reader.read(PIECE)
                if not piece:
                    raise EOFError("the server ended the connection")
                self._take(piece)
                while self._held > ROOM and not self._asks and not self._is_closing:
                    self._room.clear()
                    await self._room.wait()
        except BaseException as error:
            self._lose(error)
            if isinstance(error, asyncio.CancelledError):
                raise

    def _lose(self, error: BaseException) -> None:
        self._end = error
        self._news.set()
        for ask in self._asks.values():
            if not ask.answer.done():
                ask.answer.set_exception(self._lost())
        self._asks.clear()

    def _take(self, piece: bytes) -> None:
        """Has the view and whoever waits take in the next bytes."""
        spoilt: LineTooLong | None = None
        try:
            self.view.feed(piece)
        except LineTooLong as error:
            spoilt = error
        *lines, self._rest = (self._rest + piece).split(b"\n")
        for line in lines:
            if len(line) > LINE_LIMIT:
                break
            it = Reply.read(line[:-1] if line.endswith(b"\r") else line)     # as the view reads it
            if it is not None:
                self._deliver(it, len(line))
        if spoilt is not None:
            raise spoilt

    def _deliver(self, it: Reply, size: int) -> None:
        ask = self._asks.get(it.id & ~1) if it.id is not None else None
        if ask is not None and it.id is not None and it.id & 1:     # the PONG behind the answer
            del self._asks[it.id & ~1]
            self._held -= ask.size
            if not ask.answer.done():
                ask.answer.set_result(ask.replies)
            return
        if ask is not None:
            ask.replies.append(it)
            ask.size += size
            self._held += size
        self._queue.append((it, size))
        self._held += size
        self._news.set()
        if self._held > MOST:
            raise BufferError(f"more than {MOST} bytes of lines wait unread")
