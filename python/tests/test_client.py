"""The client against a server that says what each test has it say."""
from __future__ import annotations

import asyncio
import contextlib
import unittest
from typing import Any, Awaitable, Callable, TypeVar

from rudderraisin import (CannotPrint, Client, ConnectionLost, Denied, LineTooLong, PrintFault, Refused, Request,
                          ViewClosed, client as module, password_word, reply, request)

GREETING = b"TASSERVER 0.38 * 8201 0\n"
T = TypeVar("T")
Peer = Callable[[asyncio.StreamReader, asyncio.StreamWriter], Awaitable[None]]


def number(line: bytes) -> bytes:
    """The id with which a line begins, with its space."""
    return line[:line.index(b" ") + 1]


async def soon(what: Awaitable[T]) -> T:
    """What is awaited, within some seconds."""
    return await asyncio.wait_for(what, 20)


class Served(unittest.IsolatedAsyncioTestCase):
    async def served(self, peer: Peer, greeting: bytes = GREETING, **how: bool) -> Client:
        """A client that is connected to a server which greets and then does what `peer` says."""
        async def talk(reader: asyncio.StreamReader, writer: asyncio.StreamWriter) -> None:
            writer.write(greeting)
            with contextlib.suppress(ConnectionError, EOFError, asyncio.CancelledError):
                await peer(reader, writer)
            writer.close()

        server = await asyncio.start_server(talk, "127.0.0.1", 0)
        self.addAsyncCleanup(server.wait_closed)
        self.addCleanup(server.close)
        client = Client("127.0.0.1", server.sockets[0].getsockname()[1], **how)
        self.addAsyncCleanup(client.close)
        await client.connect()
        return client


async def answer(reader: asyncio.StreamReader, writer: asyncio.StreamWriter, *replies: bytes) -> bytes:
    """Reads a request and the PING behind it, and answers with these lines. Gives the request behind its id."""
    asked = await reader.readuntil(b"\n")
    ping = await reader.readuntil(b"\n")
    assert ping.endswith(b" PING\n"), ping
    for it in replies:
        writer.write(it.replace(b"@", number(asked)) + b"\n")
    writer.write(number(ping) + b"PONG\n")
    return asked[len(number(asked)):]


async def quiet(reader: asyncio.StreamReader, _: asyncio.StreamWriter) -> None:
    """Says nothing more, and ends at EXIT."""
    await reader.readuntil(b"EXIT\n")


class Answers(Served):
    async def test_greeting(self) -> None:
        client = await self.served(quiet)
        self.assertEqual(client.greeting, reply.TASSERVER("0.38", "*", 8201, 0))

    async def test_proxied(self) -> None:
        """The line comes before the server greets."""
        async def peer(reader: asyncio.StreamReader, writer: asyncio.StreamWriter) -> None:
            if await reader.readuntil(b"\n") == b"PROXY UNKNOWN\r\n":
                writer.write(GREETING)
            await quiet(reader, writer)
        client = await soon(self.served(peer, b"", proxied=True))
        self.assertEqual(client.greeting, reply.TASSERVER("0.38", "*", 8201, 0))

    async def test_no_greeting(self) -> None:
        for greeting in (b"", b"PONG\n", b"TASSERVER 0.38"):
            async def leave(*_: Any) -> None:
                pass
            with self.subTest(greeting), self.assertRaises(ConnectionLost):
                await self.served(leave, greeting)

    async def test_login(self) -> None:
        said = []

        async def peer(reader: asyncio.StreamReader, writer: asyncio.StreamWriter) -> None:
            said.append(await answer(reader, writer, b"@ACCEPTED Anna", b"@ADDUSER Anna DE 0 1", b"@LOGININFOEND"))
            await quiet(reader, writer)
        client = await self.served(peer)
        told = await soon(client.login("Anna", "password", b=True, lobby="Test 1.0"))
        self.assertEqual(said, [b"LOGIN Anna X03MO1qnZdYdgyfeuILPmQ== 0 * Test 1.0\t\tb\n"])
        self.assertEqual(told, [reply.ACCEPTED("Anna"), reply.ADDUSER("Anna", "DE", 0, 1), reply.LOGININFOEND()])
        self.assertEqual(client.view.me, "Anna")
        self.assertEqual(client.view.users["Anna"].country, "DE")

    async def test_denied(self) -> None:
        async def peer(reader: asyncio.StreamReader, writer: asyncio.StreamWriter) -> None:
            await answer(reader, writer, b"@DENIED Invalid username or password")
            await answer(reader, writer, b"@ACCEPTED Anna", b"@LOGININFOEND")
        client = await self.served(peer)
        with self.assertRaisesRegex(Denied, "^Invalid username or password$"):
            await soon(client.login("Anna", "word"))
        await soon(client.login("Anna", "password"))

    async def test_password_word(self) -> None:
        self.assertEqual(password_word("password"), "X03MO1qnZdYdgyfeuILPmQ==")

    async def test_refusals(self) -> None:
        lines = [b"@SERVERMSG No such user", b"@JOINFAILED main No such user", b"@OPENBATTLEFAILED No such user",
                 b"@JOINBATTLEFAILED No such user"]

        async def peer(reader: asyncio.StreamReader, writer: asyncio.StreamWriter) -> None:
            for it in lines:
                await answer(reader, writer, it)
        client = await self.served(peer)
        for it in lines:
            with self.subTest(it), self.assertRaisesRegex(Refused, "^No such user$") as caught:
                await soon(client.ask(request.CHANNELS()))
            self.assertEqual(caught.exception.reply, reply.Reply.read(it[1:]))

    async def test_answer_is_what_has_its_id(self) -> None:
        """What others say meanwhile is no answer, nor is the refusal of another line. The iterator has all in order."""
        async def peer(reader: asyncio.StreamReader, writer: asyncio.StreamWriter) -> None:
            await answer(reader, writer, b"SAID main Bert hi", b"@JOIN main", b"#7 SERVERMSG Bad name",
                         b"@CLIENTS main Anna")
            await quiet(reader, writer)
        client = await self.served(peer)
        answer_of = [reply.JOIN("main"), reply.CLIENTS("main", ("Anna",))]
        self.assertEqual(await soon(client.ask(request.JOIN("main"))), answer_of)
        came = [await soon(client.__anext__()) for _ in range(4)]
        self.assertEqual(came, [reply.SAID("main", "Bert", "hi"), answer_of[0], reply.SERVERMSG("Bad name"),
                                answer_of[1]])
        self.assertEqual([came[0].id, came[2].id], [None, 7])

    async def test_answers_to_many_at_once(self) -> None:
        async def peer(reader: asyncio.StreamReader, writer: asyncio.StreamWriter) -> None:
            for _ in range(3):
                await answer(reader, writer, b"@PONG")
        client = await self.served(peer)
        answers = await asyncio.gather(*(client.ask(request.PING()) for _ in range(3)))
        self.assertEqual(answers, [[reply.PONG()]] * 3)
        self.assertEqual(len({it[0].id for it in answers}), 3)

    async def test_nothing_answers(self) -> None:
        async def peer(reader: asyncio.StreamReader, writer: asyncio.StreamWriter) -> None:
            await answer(reader, writer)
        client = await self.served(peer)
        self.assertEqual(await soon(client.ask(request.LEAVEBATTLE())), [])

    async def test_who_gives_up_gets_no_later_answer(self) -> None:
        go = asyncio.Event()

        async def peer(reader: asyncio.StreamReader, writer: asyncio.StreamWriter) -> None:
            first = [await reader.readuntil(b"\n") for _ in range(2)]
            await go.wait()
            writer.write(number(first[0]) + b"SERVERMSG No such user\n" + number(first[1]) + b"PONG\n")
            await answer(reader, writer, b"@PONG")
        client = await self.served(peer)
        with self.assertRaises(asyncio.TimeoutError):
            await asyncio.wait_for(client.ask(request.SAYPRIVATE("Zoe", "hi")), 0.05)
        go.set()
        self.assertEqual(await soon(client.ask(request.PING())), [reply.PONG()])
        self.assertEqual([await soon(client.__anext__()) for _ in range(2)],
                         [reply.SERVERMSG("No such user"), reply.PONG()])

    async def test_what_cannot_be_printed(self) -> None:
        """Nothing of it is sent, and an id counts among the bytes."""
        said = []

        async def peer(reader: asyncio.StreamReader, writer: asyncio.StreamWriter) -> None:
            said.append(await reader.readuntil(b"\n"))
            said.append(await answer(reader, writer, b"@PONG"))
        client = await self.served(peer)
        bad: list[tuple[Request, PrintFault]] = [
            (request.SAY("main", "a\nEXIT"), PrintFault.BAD_FIELDS),
            (request.HANDICAP("Bert", 101), PrintFault.OUT_OF_RANGE),
            (request.SAYBATTLE("x" * 8_192), PrintFault.REQUEST_TOO_LONG)]
        for it, fault in bad:
            for call in (client.ask, client.send):
                with self.subTest(fault), self.assertRaises(CannotPrint) as caught:
                    await soon(call(it))
                self.assertIs(caught.exception.fault, fault)
        with self.assertRaises(CannotPrint):
            await client.send(request.SAYBATTLE("x" * 8_180), 1)
        for name, lobby in (("Anna x", "y"), ("Anna\tx", "y"), ("", "y"), ("Anna", "x\ty"), ("Anna", "x\ny")):
            with self.assertRaises(CannotPrint):
                await soon(client.login(name, "password", lobby=lobby))
        await client.send(request.SAY("main", "\udcff" + "\xe4" * 4_091))
        await soon(client.ask(request.PING()))
        self.assertEqual(said, [b"SAY main \xff" + "\xe4".encode() * 4_091 + b"\n", b"PING\n"])

    async def test_own_ids(self) -> None:
        async def peer(reader: asyncio.StreamReader, writer: asyncio.StreamWriter) -> None:
            self.assertEqual(await reader.readuntil(b"\n"), b"#5 PING\n")
            writer.write(b"#5 PONG\r\n")
            await quiet(reader, writer)
        client = await self.served(peer)
        await client.send(request.PING(), 5)
        it = await soon(client.__anext__())
        self.assertEqual((it, it.id), (reply.PONG(), 5))
        for fault in (-1, 1 << 30):
            with self.assertRaises(ValueError):
                await client.send(request.PING(), fault)


class Ends(Served):
    async def test_close(self) -> None:
        """It says EXIT, and waits for the server's end. The iterator ends, and the view is closed."""
        said = []

        async def peer(reader: asyncio.StreamReader, writer: asyncio.StreamWriter) -> None:
            said.append(await reader.readuntil(b"\n"))
            await asyncio.sleep(0.05)
            writer.write(b"PONG\n")
            said.append(b"end")
        client = await self.served(peer)
        waiting = asyncio.create_task(client.__anext__())
        await asyncio.sleep(0)
        await client.close()
        self.assertEqual(said, [b"EXIT\n", b"end"])
        with contextlib.suppress(StopAsyncIteration):
            self.assertEqual(await waiting, reply.PONG())
        self.assertEqual([it async for it in client][1:], [])
        with self.assertRaises(ViewClosed):
            client.view.feed(b"")
        with self.assertRaises(ConnectionLost):
            await soon(client.ask(request.PING()))
        await client.close()

    async def test_close_of_a_server_that_does_not_end(self) -> None:
        async def peer(*_: Any) -> None:
            await asyncio.sleep(3)
        client = await self.served(peer)
        self.addCleanup(setattr, module, "PATIENCE", module.PATIENCE)
        module.PATIENCE = 0.05
        await asyncio.wait_for(client.close(), 2)

    async def test_server_ends(self) -> None:
        async def peer(reader: asyncio.StreamReader, writer: asyncio.StreamWriter) -> None:
            await reader.readuntil(b"\n")
            writer.write(b"SAID main Bert hi\n")
        client = await self.served(peer)
        with self.assertRaises(ConnectionLost):
            await soon(client.ask(request.PING()))
        self.assertEqual(await soon(client.__anext__()), reply.SAID("main", "Bert", "hi"))
        with self.assertRaises(ConnectionLost) as caught:
            await soon(client.__anext__())
        self.assertIsInstance(caught.exception.__cause__, EOFError)
        with self.assertRaises(ConnectionLost):
            await client.send(request.PING())

    async def test_line_too_long(self) -> None:
        """The lines before it come, and none after."""
        async def peer(reader: asyncio.StreamReader, writer: asyncio.StreamWriter) -> None:
            writer.write(b"RING Bert\nMOTD " + b"x" * 20_474 + b"\nMOTD " + b"x" * 20_475 + b"\nRING Anna\n")
            await quiet(reader, writer)
        client = await self.served(peer)
        self.assertEqual(await soon(client.__anext__()), reply.RING("Bert"))
        self.assertEqual(await soon(client.__anext__()), reply.MOTD("x" * 20_474))
        with self.assertRaises(ConnectionLost) as caught:
            await soon(client.__anext__())
        self.assertIsInstance(caught.exception.__cause__, LineTooLong)

    async def test_no_end_of_a_line(self) -> None:
        async def peer(reader: asyncio.StreamReader, writer: asyncio.StreamWriter) -> None:
            writer.write(b"x" * 20_480)
            await quiet(reader, writer)
        client = await self.served(peer)
        with self.assertRaises(ConnectionLost) as caught:
            await soon(client.__anext__())
        self.assertIsInstance(caught.exception.__cause__, LineTooLong)


class Flow(Served):
    async def test_pieces(self) -> None:
        """Lines are whole however they are cut, without one CR at their end. Those that are no reply are left out."""
        lines = b"RING Bert\r\nHELLO\n\nRING  Bert\nRING A\r\r\nSAID main Bert \xe4  b \n#12 RING Bert\nRING An"

        async def peer(reader: asyncio.StreamReader, writer: asyncio.StreamWriter) -> None:
            for it in lines:
                writer.write(bytes([it]))
                await writer.drain()
                await asyncio.sleep(0)
            await quiet(reader, writer)
        client = await self.served(peer)
        came = [await soon(client.__anext__()) for _ in range(3)]
        self.assertEqual(came, [reply.RING("Bert"), reply.SAID("main", "Bert", "\udce4  b "), reply.RING("Bert")])
        self.assertEqual([it.id for it in came], [None, None, 12])

    async def test_view_is_not_behind(self) -> None:
        async def peer(reader: asyncio.StreamReader, writer: asyncio.StreamWriter) -> None:
            writer.write(b"ACCEPTED Anna\n")
            for it in range(500):
                writer.write(b"ADDUSER u%d ?? 0 %d\n" % (it, it))
            await quiet(reader, writer)
        client = await self.served(peer)
        await soon(client.__anext__())
        for it in range(500):
            told = await soon(client.__anext__())
            assert isinstance(told, reply.ADDUSER)
            self.assertIn(told.user, client.view.users)

    async def test_who_does_not_iterate_slows_the_server_down(self) -> None:
        """What waits is bounded; an answer comes all the same, and who iterates then gets all."""
        lines = 800
        sent = []

        async def peer(reader: asyncio.StreamReader, writer: asyncio.StreamWriter) -> None:
            for it in range(lines):
                writer.write(b"MOTD %05d " % it + b"x" * 20_000 + b"\n")
                await writer.drain()
                sent.append(it)
            await answer(reader, writer, b"@PONG")
            await quiet(reader, writer)
        client = await self.served(peer)
        while client._held <= module.ROOM:
            await asyncio.sleep(0.01)
        await asyncio.sleep(0.2)
        self.assertLess(client._held, module.ROOM + module.PIECE + 20_480)
        self.assertLess(len(sent), lines)
        asked = asyncio.create_task(client.ask(request.PING()))
        self.assertEqual(await soon(asked), [reply.PONG()])
        for it in range(lines):
            told = await soon(client.__anext__())
            assert isinstance(told, reply.MOTD)
            self.assertEqual(told.text[:5], "%05d" % it)
        self.assertEqual(await soon(client.__anext__()), reply.PONG())
        self.assertEqual(client._held, 0)

    async def test_most_that_may_wait(self) -> None:
        self.addCleanup(setattr, module, "MOST", module.MOST)
        module.MOST = 100_000

        async def peer(reader: asyncio.StreamReader, writer: asyncio.StreamWriter) -> None:
            for _ in range(200):
                writer.write(b"MOTD " + b"x" * 4_000 + b"\n")
                await writer.drain()
        client = await self.served(peer)
        with self.assertRaisesRegex(ConnectionLost, "bytes of lines wait"):
            await soon(client.ask(request.PING()))

    async def test_skip(self) -> None:
        async def peer(reader: asyncio.StreamReader, writer: asyncio.StreamWriter) -> None:
            await answer(reader, writer, b"@PONG", b"RING Bert")
            await answer(reader, writer, b"@PONG")
        client = await self.served(peer)
        await soon(client.ask(request.PING()))
        client.skip()
        self.assertEqual(client._held, 0)
        await soon(client.ask(request.PING()))
        self.assertEqual(await soon(client.__anext__()), reply.PONG())
        self.assertEqual(client._held, 0)

    async def test_a_server_that_reads_slowly_holds_the_sender_up(self) -> None:
        async def peer(*_: Any) -> None:
            await asyncio.sleep(3)
        client = await self.served(peer)
        self.addCleanup(setattr, module, "PATIENCE", module.PATIENCE)
        module.PATIENCE = 0.05

        async def flood() -> None:
            for _ in range(2_000):      # more than the system keeps for the server
                await client.send(request.SAYBATTLE("x" * 8_000))
                await asyncio.sleep(0)
        flooding = [asyncio.create_task(flood()) for _ in range(2)]
        await asyncio.wait(flooding, timeout=0.5)
        self.assertFalse(any(it.done() for it in flooding))
        self.assertLess(client._writer.transport.get_write_buffer_size(), 200_000)
        for it in flooding:
            it.cancel()
        await asyncio.gather(*flooding, return_exceptions=True)


if __name__ == "__main__":
    unittest.main()
