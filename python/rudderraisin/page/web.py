"""A server of HTTP for a few pages that are read, and for those who listen to events. It reads GET and HEAD, answers
and closes. Whoever is slow, says too much or comes when it is full is sent away, so that nothing waits without a bound.
"""
from __future__ import annotations

import asyncio
import functools
import gzip
import hashlib
from dataclasses import dataclass
from http import HTTPStatus
from typing import Callable, Dict, Iterable
from urllib.parse import parse_qs, urlsplit

REQUESTS = 64               # connections that may ask or be answered at once; as many more are told to come later
HEAD = 8_192                # bytes of a request
PATIENCE = 10.0             # seconds in which a request is to be there
TAKING = 30.0               # seconds in which an answer is to be taken
UNREAD = 262_144            # bytes that may wait for one who listens
STILL = 20.0                # seconds from one sign of life to the next, for who listens
SMALL = 1_024               # bytes of an answer that is not worth packing

# Nothing comes from elsewhere, no script and no style stands in a page, and no text becomes HTML.
SAFE = {
    "Content-Security-Policy": "default-src 'none'; script-src 'self'; style-src 'self'; connect-src 'self'; "
                               "img-src data:; base-uri 'none'; form-action 'none'; frame-ancestors 'self'; "
                               "require-trusted-types-for 'script'; trusted-types 'none'",
    "X-Content-Type-Options": "nosniff",
    "Referrer-Policy": "no-referrer",
}


@dataclass(frozen=True)
class Answer:
    """What is answered to a request."""

    body: bytes
    kind: str = "text/plain; charset=utf-8"
    status: HTTPStatus = HTTPStatus.OK

    @functools.cached_property
    def tag(self) -> str:
        """By which a browser knows that it has this already."""
        return f'"{hashlib.sha256(self.body).hexdigest()[:16]}"'

    @functools.cached_property
    def packed(self) -> bytes:
        return gzip.compress(self.body, 6, mtime=0)

    def is_packed_for(self, asked: Asked) -> bool:
        words = asked.headers.get("accept-encoding", "").replace(" ", "").split(",")
        return len(self.body) > SMALL and "gzip" in words


def failed(status: HTTPStatus) -> Answer:
    return Answer(f"{status.value} {status.phrase}\n".encode(), status=status)


@dataclass(frozen=True)
class Asked:
    """A request."""

    method: str
    path: str
    query: Dict[str, str]
    headers: Dict[str, str]     # by names in small letters


def read(said: bytes) -> Asked | None:
    """The request that these bytes are, up to the empty line; None where they are none."""
    first, *rest = said.decode("latin-1").split("\r\n")
    words = first.split(" ")
    if len(words) != 3 or not words[2].startswith("HTTP/1.") or not words[1].startswith("/"):
        return None
    headers = {name.strip().lower(): value.strip() for name, _, value in (it.partition(":") for it in rest)}
    try:
        place = urlsplit(words[1])
        query = {name: values[-1] for name, values in parse_qs(place.query, max_num_fields=8).items()}
    except ValueError:
        return None
    return Asked(words[0], place.path, query, headers)


def head(status: HTTPStatus, headers: Dict[str, str]) -> bytes:
    lines = [f"HTTP/1.1 {status.value} {status.phrase}"]
    lines += [f"{name}: {value}" for name, value in {**headers, **SAFE, "Connection": "close"}.items()]
    return ("\r\n".join(lines) + "\r\n\r\n").encode("latin-1")


class Web:
    """The server. `answer` gives what stands at a path, or None; who asks for the path `listened` hears events from the
    version on that it names."""

    def __init__(self, answer: Callable[[str], Answer | None], listened: str,
                 since: Callable[[str], Iterable[bytes]], listeners: int) -> None:
        self._answer, self._listened, self._since, self._most = answer, listened, since, listeners
        self._asking = 0
        self._listening: set[asyncio.StreamWriter] = set()
        self.counts = {"requests": 0, "refused": 0, "cut": 0}

    @property
    def listeners(self) -> int:
        return len(self._listening)

    async def open(self, host: str, port: int) -> asyncio.AbstractServer:
        """Listens at this address. OSError."""
        return await asyncio.start_server(self._serve, host, port, limit=HEAD)

    def tell(self, event: bytes) -> None:
        """Says an event to all who listen. Who has too much unread is cut off, and may come back."""
        for writer in [*self._listening]:
            if writer.transport.get_write_buffer_size() + len(event) > UNREAD:
                self.counts["cut"] += 1
                writer.transport.abort()
            else:
                writer.write(event)

    async def run(self) -> None:
        """Gives signs of life to who listens."""
        while True:
            await asyncio.sleep(STILL)
            self.tell(b"event: still\ndata: {}\n\n")

    async def _serve(self, reader: asyncio.StreamReader, writer: asyncio.StreamWriter) -> None:
        self._asking += 1
        is_asking = True
        try:
            if self._asking > 2 * REQUESTS:
                self.counts["refused"] += 1
                return writer.transport.abort()
            asked = await self._heard(reader, writer)
            is_event = asked is not None and asked.path == self._listened and asked.method == "GET"
            if asked and self._asking > REQUESTS or is_event and len(self._listening) >= self._most:
                self.counts["refused"] += 1
                await self._send(writer, failed(HTTPStatus.SERVICE_UNAVAILABLE))
            elif asked and is_event:
                self._asking -= 1
                is_asking = False
                await self._listen(asked, reader, writer)
            elif asked:
                self.counts["requests"] += 1
                await self._send(writer, self._found(asked), asked)
        except (OSError, EOFError, asyncio.TimeoutError, asyncio.CancelledError):
            writer.transport.abort()    # cancelled only where the program ends
        finally:
            self._asking -= is_asking
            writer.close()

    async def _heard(self, reader: asyncio.StreamReader, writer: asyncio.StreamWriter) -> Asked | None:
        """The request, or None behind the answer to what is none."""
        try:
            said = await asyncio.wait_for(reader.readuntil(b"\r\n\r\n"), PATIENCE)
        except asyncio.LimitOverrunError:
            await self._send(writer, failed(HTTPStatus.REQUEST_HEADER_FIELDS_TOO_LARGE))
            return None
        asked = read(said[:-4])
        if asked is None:
            await self._send(writer, failed(HTTPStatus.BAD_REQUEST))
        return asked

    def _found(self, asked: Asked) -> Answer:
        if asked.method not in ("GET", "HEAD"):
            return failed(HTTPStatus.METHOD_NOT_ALLOWED)
        return self._answer(asked.path) or failed(HTTPStatus.NOT_FOUND)

    async def _send(self, writer: asyncio.StreamWriter, answer: Answer, asked: Asked | None = None) -> None:
        """Sends an answer, and waits until it is taken."""
        status, body = answer.status, answer.body
        headers = {"Content-Type": answer.kind, "Cache-Control": "no-cache"}
        if status is HTTPStatus.SERVICE_UNAVAILABLE:
            headers["Retry-After"] = "10"
        if status is HTTPStatus.METHOD_NOT_ALLOWED:
            headers["Allow"] = "GET, HEAD"
        if asked and status is HTTPStatus.OK:
            headers.update({"ETag": answer.tag, "Vary": "Accept-Encoding"})
            if asked.headers.get("if-none-match") == answer.tag:
                status, body = HTTPStatus.NOT_MODIFIED, b""
            elif answer.is_packed_for(asked):
                body, headers["Content-Encoding"] = answer.packed, "gzip"
        if status is not HTTPStatus.NOT_MODIFIED:
            headers["Content-Length"] = str(len(body))
        writer.transport.set_write_buffer_limits(0)     # so that `drain` waits for the last byte
        writer.write(head(status, headers) + (b"" if asked and asked.method == "HEAD" else body))
        await asyncio.wait_for(writer.drain(), TAKING)

    async def _listen(self, asked: Asked, reader: asyncio.StreamReader, writer: asyncio.StreamWriter) -> None:
        """Says what happened since the version that is named, and has this one listen until it goes."""
        # A web server in front is not to keep events back.
        headers = {"Content-Type": "text/event-stream", "Cache-Control": "no-store", "X-Accel-Buffering": "no"}
        version = asked.headers.get("last-event-id") or asked.query.get("since", "")
        writer.write(head(HTTPStatus.OK, headers) + b"retry: 3000\n\n" + b"".join(self._since(version)))
        self._listening.add(writer)
        try:
            while await reader.read(HEAD):
                pass
        finally:
            self._listening.discard(writer)
            writer.transport.abort()
