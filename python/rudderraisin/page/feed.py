"""The pictures one after the other, each under a version, and what changed between them, for whoever listens."""
from __future__ import annotations

import asyncio
import secrets
import time
from collections import deque
from typing import Callable, Iterable

from . import shown

PAUSE = 0.5             # seconds between two pictures, at least
KEPT = 131_072          # bytes of events that are kept for who comes back
LONGEST = 65_536        # bytes of an event; a greater change has who listens fetch the whole picture again


class Feed:
    """What is shown now. A picture is made where somebody listens or asks, and something changed."""

    def __init__(self, look: Callable[[], shown.Picture], tell: Callable[[bytes], None]) -> None:
        """`look` gives what is there now, and `tell` says an event to all who listen."""
        self._look, self._tell = look, tell
        self._run = secrets.token_hex(4)        # so that no version of an earlier start is taken for one of this
        self._number, self._made, self._is_old = 0, float("-inf"), True
        self._news: asyncio.Event | None = None     # while it runs
        self._kept: deque[tuple[str, bytes]] = deque()      # events with the version that each is behind
        self._size = 0
        self._document: tuple[str, bytes] | None = None
        self.picture = shown.Picture({})

    @property
    def version(self) -> str:
        return f"{self._run}-{self._number}"

    def changed(self) -> None:
        """Something is other than in the picture."""
        self._is_old = True
        if self._news:
            self._news.set()

    async def run(self, is_heard: Callable[[], bool]) -> None:
        """Makes a picture behind each change, as long as somebody hears of it."""
        self._news = asyncio.Event()
        while True:
            await self._news.wait()
            self._news.clear()
            await asyncio.sleep(max(0.0, self._made + PAUSE - time.monotonic()))
            if is_heard():
                self.refresh()

    def refresh(self) -> None:
        """Makes a new picture, if something changed and the last one is not of this moment, and tells of it."""
        if not self._is_old or time.monotonic() < self._made + PAUSE:
            return
        before, self.picture = self.picture, self._look()
        self._is_old, self._made = False, time.monotonic()
        changed = shown.differences(before, self.picture)
        if changed:
            self._add(changed)

    def _add(self, changed: shown.Row) -> None:
        behind = self.version
        self._number += 1
        told = shown.event("change", self.version, shown.said(changed))
        if len(told) > LONGEST:
            told = self.again()
        self._kept.append((behind, told))
        self._size += len(told)
        while self._size > KEPT:
            self._size -= len(self._kept.popleft()[1])
        self._tell(told)

    def again(self) -> bytes:
        """The event that has who listens fetch the whole picture."""
        return shown.event("again", self.version, b"{}")

    def since(self, version: str) -> Iterable[bytes]:
        """The events behind a version, up to now."""
        if version == self.version:
            return []
        kept = [*self._kept]
        at = next((at for at, (behind, _) in enumerate(kept) if behind == version), None)
        return [self.again()] if at is None else [told for _, told in kept[at:]]

    def document(self) -> bytes:
        """The whole picture as JSON, with its version."""
        self.refresh()
        if self._document is None or self._document[0] != self.version:
            self._document = self.version, shown.document(self.version, self.picture)
        return self._document[1]
