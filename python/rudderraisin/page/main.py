"""The program rudderraisin_status."""
from __future__ import annotations

import argparse
import asyncio
import html
import os
import signal
import socket
import sys
import time
from pathlib import Path
from typing import Iterator, Mapping, Tuple

from ..client import Client
from . import shown
from .feed import Feed
from .observer import Observer, first_end
from .web import Answer, Web

HERE = Path(__file__).parent
# What lies in files: the path, the file and its kind.
FILES = {"/": ("page.html", "text/html; charset=utf-8"), "/page.css": ("page.css", "text/css; charset=utf-8"),
         "/page.js": ("page.js", "text/javascript; charset=utf-8")}
EVENTS = "/changes"
BAD_FILE, CANNOT_LISTEN = 2, 3      # statuses at the end
MOST_LISTENERS = 10_000


class Status:
    """The observer, what it sees, and who looks at that."""

    def __init__(self, options: argparse.Namespace, password: str) -> None:
        self._files = {path: Answer((HERE / name).read_bytes(), kind) for path, (name, kind) in FILES.items()}
        page = self._files["/"].body.replace(b"@TITLE@", html.escape(options.title).encode())
        self._files["/"] = Answer(page, self._files["/"].kind)
        self._document = Answer(b"")    # the last one, for many ask for the same
        self.feed = Feed(lambda: self.observer.picture(), lambda event: self.web.tell(event))
        self.web = Web(self.answer, EVENTS, self._since, options.listeners)
        place = "{}:{}".format(*options.server)
        self.observer = Observer(lambda: Client(*options.server, proxied=options.proxy_protocol), place, options.user,
                                 password, self.feed.changed)

    def answer(self, path: str) -> Answer | None:
        """What stands at a path."""
        if path == "/status.json":
            body = self.feed.document()
            if self._document.body is not body:
                self._document = Answer(body, "application/json")
            return self._document
        if path == "/metrics":
            self.feed.refresh()
            return Answer(shown.prometheus(self._numbers()), "text/plain; version=0.0.4; charset=utf-8")
        return self._files.get(path)

    def _since(self, version: str) -> list[bytes]:
        self.feed.refresh()
        return [*self.feed.since(version)]

    def _numbers(self) -> Iterator[Tuple[str, str, str, Mapping[str, float]]]:
        """All numbers; those of the lobby only while it is there."""
        counts, web = self.observer.counts, self.web.counts
        yield "rudderraisin_up", "gauge", "Whether the page is logged in.", {"": self.observer.is_in}
        if self.observer.is_in:
            yield from shown.lobby_numbers(self.feed.picture)
            about = "Seconds that the server took for the last list of channels."
            yield "rudderraisin_answer_seconds", "gauge", about, {"": self.observer.answered}
        for name, about in (("logins", "Logins that the page was told of."),
                            ("battles_opened", "Battles that the page saw open."),
                            ("connections", "Times that the page logged in.")):
            yield f"rudderraisin_{name}_total", "counter", about, {"": counts[name]}
        yield "rudderraisin_status_listeners", "gauge", "Who listens to changes.", {"": self.web.listeners}
        for name, about in (("requests", "Requests that were answered."), ("refused", "Requests when all was taken."),
                            ("cut", "Listeners who read too slowly.")):
            yield f"rudderraisin_status_{name}_total", "counter", about, {"": web[name]}
        yield "process_cpu_seconds_total", "counter", "Processor time of the page's program.", {"": time.process_time()}

    async def run(self, host: str, port: int) -> int:
        """Serves until it is told to stop, and gives the status to end with."""
        try:
            server = await self.web.open(host, port)
        except OSError as error:
            print(f"rudderraisin_status: cannot listen: {error}", file=sys.stderr)
            return CANNOT_LISTEN
        stop = asyncio.Event()
        for it in (signal.SIGTERM, signal.SIGINT):
            asyncio.get_running_loop().add_signal_handler(it, stop.set)
        tell_manager()
        print("listening at {}:{}".format(*server.sockets[0].getsockname()[:2]), file=sys.stderr, flush=True)
        is_heard = lambda: self.web.listeners > 0  # noqa: E731
        await first_end(stop.wait(), self.observer.run(), self.feed.run(is_heard), self.web.run())
        server.close()
        return 0


def tell_manager() -> None:
    """Tells systemd, if that started the program, that it is ready."""
    address = os.environ.get("NOTIFY_SOCKET", "")
    if address:
        with socket.socket(socket.AF_UNIX, socket.SOCK_DGRAM) as manager:
            manager.sendto(b"READY=1", "\0" + address[1:] if address.startswith("@") else address)


def place(text: str) -> tuple[str, int]:
    """An address and a port."""
    host, colon, port = text.rpartition(":")
    try:
        host.encode("idna")
    except UnicodeError:
        host = ""
    if not colon or not host or not port.isdecimal() or int(port) > 65_535:
        raise argparse.ArgumentTypeError(f"{text!r} is no address with a port, as 127.0.0.1:8200")
    return host.strip("[]"), int(port)


def count(text: str) -> int:
    if not text.isdecimal() or int(text) > MOST_LISTENERS:
        raise argparse.ArgumentTypeError(f"{text!r} is no number from 0 to {MOST_LISTENERS}")
    return int(text)


def arguments() -> argparse.ArgumentParser:
    parser = argparse.ArgumentParser(
        prog="rudderraisin_status", description="Serves a page of a lobby: who is there, battles, channels.")
    parser.add_argument("--user", required=True, help="the account that looks on")
    parser.add_argument("--password-file", required=True, metavar="FILE",
                        help="its first line is the password; - for standard input")
    parser.add_argument("--server", type=place, default=place("127.0.0.1:8200"), metavar="ADDRESS:PORT",
                        help="the lobby; 127.0.0.1:8200 if left out")
    parser.add_argument("--proxy-protocol", action="store_true", help="the lobby's `proxies` names this machine")
    parser.add_argument("--listen", type=place, default=place("127.0.0.1:8280"), metavar="ADDRESS:PORT",
                        help="where the page is; 127.0.0.1:8280 if left out")
    parser.add_argument("--title", default="Lobby", help="the heading of the page")
    parser.add_argument("--listeners", type=count, default=256, metavar="N",
                        help="how many browsers hear of changes at once; the others ask every 15 seconds")
    return parser


def password(file: str) -> str:
    """The first line of a file, without its end. OSError; ValueError."""
    with (sys.stdin.buffer if file == "-" else open(file, "rb")) as lines:
        line = lines.readline(8_192)
    text = line.rstrip(b"\r\n").decode("utf-8", "surrogateescape")
    if not text:
        raise ValueError("the first line is empty")
    return text


def main() -> None:
    options = arguments().parse_args()
    try:
        word = password(options.password_file)
    except (OSError, ValueError) as error:
        print(f"rudderraisin_status: no password in {options.password_file}: {error}", file=sys.stderr)
        sys.exit(BAD_FILE)
    sys.exit(asyncio.run(Status(options, word).run(*options.listen)))
