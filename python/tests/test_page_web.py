"""The page's server against slow, many and bad clients, and its observer against a lobby that goes and comes back."""
from __future__ import annotations

import argparse
import asyncio
import contextlib
import gzip
import json
import socket
import tempfile
import unittest
from pathlib import Path
from typing import Any, Callable
from unittest import mock

from rudderraisin import client
from rudderraisin.page import feed, main, observer, web
from rudderraisin.page.web import Answer, Web
from test_client import GREETING, answer, soon

LONG = b"x" * 100_000
PAGES = {"/": Answer(b"page", "text/html"), "/long": Answer(LONG)}
GET = b"GET %s HTTP/1.1\r\nHost: lobby\r\n%s\r\n"


def told(said: bytes) -> tuple[int, dict[str, str], bytes]:
    """The status, the headers and the body of an answer."""
    top, _, body = said.partition(b"\r\n\r\n")
    first, *lines = top.decode("latin-1").split("\r\n")
    headers = dict(line.split(": ", 1) for line in lines)
    return int(first.split(" ")[1]), headers, body


class Served(unittest.IsolatedAsyncioTestCase):
    """A server of two pages, and of the events of a list."""

    async def asyncSetUp(self) -> None:
        self.events: list[bytes] = []
        self.web = Web(PAGES.get, "/changes", lambda version: [b"data: since %s\n\n" % version.encode()], 2)
        await self.serve(self.web)

    async def serve(self, served: Web) -> None:
        self.server = server = await served.open("127.0.0.1", 0)
        self.addCleanup(server.close)
        self.port = server.sockets[0].getsockname()[1]

    async def connect(self) -> tuple[asyncio.StreamReader, asyncio.StreamWriter]:
        reader, writer = await asyncio.open_connection("127.0.0.1", self.port)
        self.addCleanup(lambda: writer.transport.abort())   # it also keeps the writer, without which all is closed
        return reader, writer

    async def said(self, request: bytes) -> tuple[int, dict[str, str], bytes]:
        """What is answered to these bytes."""
        reader, writer = await self.connect()
        writer.write(request)
        return told(await soon(reader.read()))

    async def get(self, path: str, *lines: str) -> tuple[int, dict[str, str], bytes]:
        return await self.said(GET % (path.encode(), "".join(f"{it}\r\n" for it in lines).encode()))

    async def listen(self, path: str = "/changes?since=a", *lines: str) -> asyncio.StreamReader:
        """One who listens, behind the head of the answer."""
        reader, writer = await self.connect()
        writer.write(GET % (path.encode(), "".join(f"{it}\r\n" for it in lines).encode()))
        status, headers, _ = told(await soon(reader.readuntil(b"\r\n\r\n")))
        self.assertEqual((status, headers["Content-Type"]), (200, "text/event-stream"))
        return reader

    async def until(self, what: Callable[[], bool]) -> None:
        for _ in range(2_000):
            if what():
                return
            await asyncio.sleep(0.01)
        self.fail("it does not happen")


class Answers(Served):
    async def test_page(self) -> None:
        status, headers, body = await self.get("/")
        self.assertEqual((status, body, headers["Content-Type"], headers["Content-Length"]),
                         (200, b"page", "text/html", "4"))
        rules = headers["Content-Security-Policy"].split("; ")
        for rule in ("default-src 'none'", "script-src 'self'", "require-trusted-types-for 'script'"):
            self.assertIn(rule, rules)
        self.assertNotIn("unsafe", headers["Content-Security-Policy"])
        self.assertEqual(headers["X-Content-Type-Options"], "nosniff")

    async def test_head(self) -> None:
        status, headers, body = await self.said(b"HEAD /long HTTP/1.0\r\n\r\n")
        self.assertEqual((status, headers["Content-Length"], body), (200, "100000", b""))

    async def test_packed(self) -> None:
        status, headers, body = await self.get("/long", "Accept-Encoding: br, gzip")
        self.assertEqual((status, headers["Content-Encoding"], gzip.decompress(body)), (200, "gzip", LONG))
        self.assertLess(len(body), 1_000)
        self.assertEqual((await self.get("/long"))[2], LONG)

    async def test_unchanged(self) -> None:
        etag = (await self.get("/"))[1]["ETag"]
        self.assertEqual((await self.get("/", f"If-None-Match: {etag}"))[::2], (304, b""))
        self.assertEqual((await self.get("/long", f"If-None-Match: {etag}"))[0], 200)

    async def test_refused(self) -> None:
        for request, status in (
                (GET % (b"/other", b""), 404), (GET % (b"/../page", b""), 404), (GET % (b"/page.js%00", b""), 404),
                (b"POST / HTTP/1.1\r\nContent-Length: 0\r\n\r\n", 405), (b"POST /changes HTTP/1.1\r\n\r\n", 405),
                (b"hello\r\n\r\n", 400), (b"GET / SPDY/9\r\n\r\n", 400), (b"GET http://[ HTTP/1.1\r\n\r\n", 400),
                (b"GET //[ HTTP/1.1\r\n\r\n", 400), (b"\r\n\r\n", 400),
                (b"\xff\xfe /\xff HTTP/1.1\r\n\r\n", 405), (GET % (b"/?" + b"a&" * 9 + b"a=1&" * 9, b""), 400)):
            with self.subTest(request[:40]):
                found, headers, body = await self.said(request)
                self.assertEqual((found, headers["Content-Type"]), (status, "text/plain; charset=utf-8"))
                self.assertIn("Content-Security-Policy", headers)
                self.assertTrue(body.startswith(b"%d " % status))

    async def test_too_long(self) -> None:
        reader, writer = await self.connect()
        writer.write(b"GET / HTTP/1.1\r\nX: " + b"x" * 20_000)
        with contextlib.suppress(ConnectionError):      # what was not read resets the connection
            self.assertIn((await soon(reader.read()))[:12], (b"HTTP/1.1 431", b""))
        self.assertEqual((await self.get("/"))[0], 200)


class Bounds(Served):
    async def test_one_who_says_nothing(self) -> None:
        with mock.patch.object(web, "PATIENCE", 0.05):
            reader, writer = await self.connect()
            writer.write(b"GET / HTTP/1.1\r\n")
            with contextlib.suppress(ConnectionError):
                self.assertEqual(await soon(reader.read()), b"")
        await self.until(lambda: self.web._asking == 0)

    async def test_one_who_does_not_read(self) -> None:
        """Its answer is thrown away, and its place is free again."""
        with mock.patch.object(web, "TAKING", 0.05), mock.patch.dict(PAGES, {"/huge": Answer(b"x" * 8_000_000)}):
            _, writer = await self.connect()
            writer.transport.pause_reading()    # type: ignore[attr-defined]
            writer.write(GET % (b"/huge", b""))
            await self.until(lambda: self.web.counts["requests"] == 1)
            await self.until(lambda: self.web._asking == 0)

    async def test_no_rest_waits_without_a_bound(self) -> None:
        """Of an answer that is not taken nothing is there any more later, also of one that waits within the process."""
        body = b"x" * 50_000    # more than both sockets have room for
        with mock.patch.object(web, "TAKING", 0.05), mock.patch.dict(PAGES, {"/some": Answer(body)}), \
                socket.socket() as slow:
            self.server.sockets[0].setsockopt(socket.SOL_SOCKET, socket.SO_SNDBUF, 4_096)
            slow.setsockopt(socket.SOL_SOCKET, socket.SO_RCVBUF, 4_096)
            slow.setblocking(False)
            loop = asyncio.get_running_loop()
            await loop.sock_connect(slow, ("127.0.0.1", self.port))
            await loop.sock_sendall(slow, GET % (b"/some", b""))
            await self.until(lambda: self.web.counts["requests"] == 1 and self.web._asking == 0)
            heard = piece = await soon(loop.sock_recv(slow, 65_536))
            with contextlib.suppress(ConnectionError):
                while piece:
                    piece = await soon(loop.sock_recv(slow, 65_536))
                    heard += piece
        self.assertLess(len(heard), len(body))

    async def test_too_many_ask(self) -> None:
        with mock.patch.object(web, "REQUESTS", 3):
            held = [await self.connect() for _ in range(3)]
            await self.until(lambda: self.web._asking == 3)
            status, headers, _ = await self.get("/")
            self.assertEqual((status, headers["Retry-After"], self.web.counts["refused"]), (503, "10", 1))
            more = [await self.connect() for _ in range(4)]
            with contextlib.suppress(ConnectionError):      # one that is more than twice too many is not heard
                self.assertEqual(await soon(more[3][0].read()), b"")
            await self.until(lambda: self.web.counts["refused"] == 2)
            for _, writer in more:
                writer.close()
            await self.until(lambda: self.web._asking == 3)
            held[0][1].close()
            await self.until(lambda: self.web._asking == 2)
            self.assertEqual((await self.get("/"))[0], 200)

    async def test_too_many_listen(self) -> None:
        """The page itself is there for the others, and a place that is free is taken again."""
        listening = [await self.listen() for _ in range(2)]
        await self.until(lambda: self.web.listeners == 2 and self.web._asking == 0)
        self.assertEqual((await self.get("/changes"))[0], 503)
        self.assertEqual((await self.get("/"))[0], 200)
        listening[0]._transport.abort()     # type: ignore[attr-defined]
        await self.until(lambda: self.web.listeners == 1)
        await self.listen()

    async def test_slow_listener(self) -> None:
        """It is cut off where too much waits for it, and who reads hears all."""
        slow, quick = await self.listen(), await self.listen()
        slow._transport.pause_reading()     # type: ignore[attr-defined]
        event, heard = b"data: " + b"x" * 60_000 + b"\n\n", 0
        await self.until(lambda: self.web.listeners == 2)
        await soon(quick.readuntil(b"since a\n\n"))
        while self.web.counts["cut"] == 0:
            self.assertLess(heard, 1_000)
            self.web.tell(event)
            self.assertEqual(await soon(quick.readexactly(len(event))), event)
            heard += 1
        await self.until(lambda: self.web.listeners == 1)


class Listening(Served):
    async def test_from_a_version(self) -> None:
        reader = await self.listen("/changes?since=a")
        self.assertEqual(await soon(reader.readuntil(b"since a\n\n")), b"retry: 3000\n\ndata: since a\n\n")
        again = await self.listen("/changes?since=a", "Last-Event-ID: b")    # of a browser that connects anew
        await soon(again.readuntil(b"since b\n\n"))

    async def test_signs_of_life(self) -> None:
        with mock.patch.object(web, "STILL", 0.01):
            task = asyncio.ensure_future(self.web.run())
            self.addCleanup(task.cancel)
            reader = await self.listen()
            await soon(reader.readuntil(b"event: still\ndata: {}\n\n"))


LOGIN = (b"@ACCEPTED Page", b"@ADDUSER Page ?? 0 9", b"@ADDUSER Anna DE 0 1", b"@LOGININFOEND")


class Status(Served):
    """The whole program but for its arguments, beside a lobby that says what each test has it say."""

    async def asyncSetUp(self) -> None:
        for module, name, value in ((feed, "PAUSE", 0.0), (observer, "WAITS", (0.01, 0.05)), (observer, "EACH", 0.01),
                                    (observer, "PARTING", 0.2),
                                    (client, "PATIENCE", 0.1)):
            patch = mock.patch.object(module, name, value)
            patch.start()
            self.addCleanup(patch.stop)
        self.addCleanup(mock.patch("sys.stderr").stop)
        mock.patch("sys.stderr").start()

    async def lobby(self, peer: Any, port: int = 0) -> asyncio.AbstractServer:
        async def talk(reader: asyncio.StreamReader, writer: asyncio.StreamWriter) -> None:
            writer.write(GREETING)
            with contextlib.suppress(OSError, EOFError, asyncio.CancelledError):
                await peer(reader, writer)
            writer.close()
        server = await asyncio.start_server(talk, "127.0.0.1", port)
        self.addCleanup(server.close)
        return server

    async def begin(self, lobby_port: int) -> None:
        words = ["--user", "Page", "--password-file", "-", "--server", f"127.0.0.1:{lobby_port}", "--listeners", "2"]
        options = main.arguments().parse_args(words)
        self.status = main.Status(options, "password")
        await self.serve(self.status.web)
        tasks = [asyncio.ensure_future(it) for it in (self.status.observer.run(), self.status.feed.run(lambda: True))]
        self.addAsyncCleanup(observer.end, tasks)

    async def shown(self) -> dict[str, Any]:
        return dict(json.loads((await self.get("/status.json"))[2]))

    async def event(self, reader: asyncio.StreamReader) -> dict[str, Any]:
        """What the next event of a change says."""
        said = await soon(reader.readuntil(b"\n\n"))
        while b"event: change" not in said:
            said = await soon(reader.readuntil(b"\n\n"))
        return dict(json.loads(said.split(b"data: ", 1)[1]))

    async def follow(self, reader: asyncio.StreamReader, writer: asyncio.StreamWriter, *more: bytes) -> None:
        """A lobby of Anna and one channel, in which more is said behind the login."""
        await answer(reader, writer, *LOGIN)
        await answer(reader, writer, b"@CHANNEL main 2", b"@ENDOFCHANNELS")
        for it in more:
            writer.write(it + b"\n")
        while True:
            await answer(reader, writer, b"@CHANNEL main 3", b"@ENDOFCHANNELS")

    async def test_shows_the_lobby(self) -> None:
        said = []

        async def peer(reader: asyncio.StreamReader, writer: asyncio.StreamWriter) -> None:
            said.append(await answer(reader, writer, *LOGIN))
            await answer(reader, writer, b"@CHANNEL main 2", b"@ENDOFCHANNELS")
            await reader.readuntil(b"EXIT\n")
        await self.begin((await self.lobby(peer)).sockets[0].getsockname()[1])
        await self.until(lambda: self.status.observer.is_in)
        shown = await self.shown()
        self.assertEqual(said, [b"LOGIN Page X03MO1qnZdYdgyfeuILPmQ== 0 * rudderraisin_status\n"])
        self.assertEqual([it["name"] for it in shown["users"]], ["Anna"])
        self.assertEqual(shown["channels"], [{"name": "main", "userCount": 2}])
        self.assertIs(shown["lobby"]["connected"], True)
        numbers = (await self.get("/metrics"))[2].decode()
        for line in ("rudderraisin_up 1", 'rudderraisin_users{kind="person",state="here"} 1',
                     "rudderraisin_channel_users 2", "rudderraisin_connections_total 1"):
            self.assertIn(f"\n{line}\n", numbers)

    async def test_tells_changes(self) -> None:
        go = asyncio.Event()

        async def peer(reader: asyncio.StreamReader, writer: asyncio.StreamWriter) -> None:
            await answer(reader, writer, *LOGIN)
            await answer(reader, writer, b"@CHANNEL main 2", b"@ENDOFCHANNELS")
            await go.wait()
            writer.write(b"ADDUSER Bert DE 0 2\nREMOVEUSER Anna\n")
            await reader.readuntil(b"EXIT\n")
        await self.begin((await self.lobby(peer)).sockets[0].getsockname()[1])
        await self.until(lambda: self.status.observer.is_in)
        reader = await self.listen(f"/changes?since={(await self.shown())['version']}")
        go.set()
        changed = await self.event(reader)
        while "Anna" not in changed["users"]["gone"]:   # the lines may come in two pieces
            changed = await self.event(reader)
        self.assertEqual([it["name"] for it in (await self.shown())["users"]], ["Bert"])

    async def test_channels_are_asked_anew(self) -> None:
        await self.begin((await self.lobby(self.follow)).sockets[0].getsockname()[1])
        await self.until(lambda: self.status.observer._channels == {"main": 3})
        self.assertEqual((await self.shown())["channels"], [{"name": "main", "userCount": 3}])

    async def test_goes_and_comes_back(self) -> None:
        """What is shown says that nobody is there and why, and fills again. The numbers tell of no lobby meanwhile."""
        async def leave(reader: asyncio.StreamReader, writer: asyncio.StreamWriter) -> None:
            await answer(reader, writer, *LOGIN)
            await answer(reader, writer, b"@ENDOFCHANNELS")
            await asyncio.sleep(0.05)
        server = await self.lobby(leave)
        port = server.sockets[0].getsockname()[1]
        await self.begin(port)
        await self.until(lambda: self.status.observer.is_in)
        version = (await self.shown())["version"]
        reader = await self.listen(f"/changes?since={version}")
        server.close()
        changed = await self.event(reader)
        while not changed.get("lobby") or changed["lobby"]["connected"]:
            changed = await self.event(reader)
        await self.until(lambda: self.status.observer._lobby["reason"] == "Connection refused")
        shown = await self.shown()
        self.assertEqual((shown["users"], shown["battles"], shown["channels"]), ([], [], []))
        self.assertEqual((shown["lobby"]["connected"], shown["lobby"]["reason"]), (False, "Connection refused"))
        numbers = (await self.get("/metrics"))[2].decode()
        self.assertIn("\nrudderraisin_up 0\n", numbers)
        self.assertNotIn("rudderraisin_users", numbers)
        await self.lobby(self.follow, port)
        await self.until(lambda: self.status.observer.is_in)
        self.assertEqual([it["name"] for it in (await self.shown())["users"]], ["Anna"])

    async def test_denied(self) -> None:
        async def peer(reader: asyncio.StreamReader, writer: asyncio.StreamWriter) -> None:
            await answer(reader, writer, b"@DENIED Invalid username or password")
            await reader.readuntil(b"EXIT\n")
        await self.begin((await self.lobby(peer)).sockets[0].getsockname()[1])
        why = "the login is denied: Invalid username or password"
        await self.until(lambda: self.status.observer._lobby["reason"] == why)
        self.assertEqual((await self.shown())["lobby"]["reason"], why)

    async def test_server_that_answers_no_more(self) -> None:
        """A machine that went away without a word."""
        async def peer(reader: asyncio.StreamReader, writer: asyncio.StreamWriter) -> None:
            await answer(reader, writer, *LOGIN)
            await answer(reader, writer, b"@ENDOFCHANNELS")
            await reader.readuntil(b"EXIT\n")
        with mock.patch.object(observer, "PATIENCE", 0.2):
            await self.begin((await self.lobby(peer)).sockets[0].getsockname()[1])
            await self.until(lambda: self.status.observer._lobby["reason"] == "the server does not answer")


class Ending(unittest.IsolatedAsyncioTestCase):
    async def test_lost_cancellation(self) -> None:
        """One who does not hear it at first is told again."""
        async def deaf() -> None:
            with contextlib.suppress(asyncio.CancelledError):
                await asyncio.sleep(100)
            await asyncio.sleep(100)
        with mock.patch.object(observer, "PARTING", 0.01):
            with self.assertRaisesRegex(ValueError, "over"):
                await soon(observer.first_end(deaf(), fail()))


async def fail() -> None:
    raise ValueError("over")


class Arguments(unittest.TestCase):
    def test_password(self) -> None:
        with tempfile.TemporaryDirectory() as room:
            file = Path(room, "password")
            for said, wanted in ((b"word\n", "word"), (b"a b\r\nmore\n", "a b"), (b"\xff", "\udcff")):
                file.write_bytes(said)
                self.assertEqual(main.password(str(file)), wanted)
            for said in (b"", b"\nword\n"):
                file.write_bytes(said)
                self.assertRaises(ValueError, main.password, str(file))

    def test_place(self) -> None:
        self.assertEqual(main.place("127.0.0.1:80"), ("127.0.0.1", 80))
        self.assertEqual(main.place("[::1]:80"), ("::1", 80))
        for text in ("127.0.0.1", ":80", "a:", "a:b", "a:65536", "a:-1", "a..b:80"):
            self.assertRaises(argparse.ArgumentTypeError, main.place, text)

    def test_manager(self) -> None:
        """systemd hears that the program is ready, at a socket of a file or of a name; none may be given."""
        with tempfile.TemporaryDirectory() as room:
            name = f"@{room}"
            for address, bound in ((f"{room}/notify", f"{room}/notify"), (name, "\0" + name[1:])):
                with socket.socket(socket.AF_UNIX, socket.SOCK_DGRAM) as manager:
                    manager.settimeout(20)
                    manager.bind(bound)
                    with mock.patch.dict("os.environ", {"NOTIFY_SOCKET": address}):
                        main.tell_manager()
                    self.assertEqual(manager.recv(100), b"READY=1")
        with mock.patch.dict("os.environ", {"NOTIFY_SOCKET": ""}):
            main.tell_manager()

    def test_count(self) -> None:
        self.assertEqual([main.count(it) for it in ("0", "10000")], [0, 10_000])
        for text in ("-1", "10001", "x", ""):
            self.assertRaises(argparse.ArgumentTypeError, main.count, text)


if __name__ == "__main__":
    unittest.main()
