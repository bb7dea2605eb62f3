"""The C library, called through ctypes: the one place that knows its functions, statuses and rows (include/lobby.h).

It keeps the rules that the header gives to a caller: a view is filled before any other call and freed once, it stays on
the thread that filled it, and no pointer is null. `PyDLL` and not `CDLL`: a call keeps the interpreter's lock, so that
no two threads are in the library at once.
"""
from __future__ import annotations

import ctypes
import os
import struct
import threading
import warnings
from ctypes import c_char_p, c_size_t, c_uint8, c_uint32, c_void_p
from pathlib import Path
from typing import Any, Iterator, NamedTuple, Sequence, Tuple

from .errors import CannotPrint, LineTooLong, NoMemory, PrintFault, ViewClosed
from .kinds import Field

SYSTEM = "liblobby.so.0"    # what tools/library.sh calls the library, with the number of what it offers
OK, NO_MEMORY, LINE_TOO_LONG, NO_ROOM, NOT_THERE, NO_REPLY, NO_COMMAND = range(7)
FAULTS = dict(enumerate(PrintFault, 7))     # the statuses behind these
ABSENT, TEXT_FIELD, NUMBER_FIELD = range(3)     # what a field holds


class Row(NamedTuple):
    """How a row of a table is laid out: first its texts, each a start and a length, then its numbers."""

    texts: int
    layout: struct.Struct

    @classmethod
    def of(cls, texts: int, numbers: str = "") -> Row:
        return cls(texts, struct.Struct(f"@{2 * texts}N{numbers}"))


TEXT = Row.of(1)
USER = Row.of(2, "q2I")
BATTLE = Row.of(7, "2qI3H4BH")
MEMBER = Row.of(1, "q2I")
BOT = Row.of(3, "q2I")
TAG = Row.of(2)
FIELD = Row.of(1, "q2I")


class _View(ctypes.Structure):
    _fields_ = [("at", c_void_p)]


class _Size(ctypes.Structure):
    _fields_ = [("rows", c_size_t), ("text", c_size_t)]


class _Rectangle(ctypes.Structure):
    _fields_ = [("left", c_uint8), ("top", c_uint8), ("right", c_uint8), ("bottom", c_uint8)]


class _Head(ctypes.Structure):
    _fields_ = [("kind", c_uint32), ("numbered", c_uint32), ("id", c_uint32)]


_OF_VIEW, _OF_HEAD = ctypes.POINTER(_View), ctypes.POINTER(_Head)
_TABLE = [c_void_p, c_size_t, c_void_p, c_size_t, ctypes.POINTER(_Size)]
_FUNCTIONS: dict[str, tuple[Any, list[Any]]] = {
    "lobby_view_new": (c_uint32, [_OF_VIEW]),
    "lobby_view_free": (None, [_OF_VIEW]),
    "lobby_view_feed": (c_uint32, [_OF_VIEW, c_char_p, c_size_t, ctypes.POINTER(c_size_t)]),
    "lobby_view_me": (c_uint32, [_OF_VIEW, *_TABLE]),
    "lobby_view_users": (c_uint32, [_OF_VIEW, *_TABLE]),
    "lobby_view_battles": (c_uint32, [_OF_VIEW, *_TABLE]),
    "lobby_view_battle_members": (c_uint32, [_OF_VIEW, c_uint32, *_TABLE]),
    "lobby_view_channels": (c_uint32, [_OF_VIEW, *_TABLE]),
    "lobby_view_channel_members": (c_uint32, [_OF_VIEW, c_char_p, c_size_t, *_TABLE]),
    "lobby_view_room": (c_uint32, [_OF_VIEW, ctypes.POINTER(c_uint32)]),
    "lobby_view_room_members": (c_uint32, [_OF_VIEW, *_TABLE]),
    "lobby_view_room_bots": (c_uint32, [_OF_VIEW, *_TABLE]),
    "lobby_view_room_rect": (c_uint32, [_OF_VIEW, c_uint8, ctypes.POINTER(_Rectangle)]),
    "lobby_view_room_tags": (c_uint32, [_OF_VIEW, *_TABLE]),
    "lobby_view_room_units": (c_uint32, [_OF_VIEW, *_TABLE]),
    "lobby_read_reply": (c_uint32, [c_char_p, c_size_t, _OF_HEAD, *_TABLE]),
    "lobby_print_request": (c_uint32, [_OF_HEAD, c_char_p, c_size_t, c_char_p, c_size_t, c_void_p, c_size_t,
                                       ctypes.POINTER(c_size_t)]),
}


def _loaded() -> ctypes.PyDLL:
    """The library that lies beside this file, as a wheel has it, else the system's; $LIBLOBBY names another."""
    beside = Path(__file__).with_name("liblobby.so")
    library = ctypes.PyDLL(os.environ.get("LIBLOBBY") or (str(beside) if beside.exists() else SYSTEM))
    for name, (result, arguments) in _FUNCTIONS.items():
        function = getattr(library, name)
        function.restype, function.argtypes = result, arguments
    return library


_LIBRARY = _loaded()


class Table(Sequence[Tuple[Any, ...]]):
    """The rows of a table as a call copied them, each read when it is asked for: first its texts, then its numbers."""

    def __init__(self, row: Row, rows: bytes, text: bytes) -> None:
        self._row, self._rows, self._text = row, rows, text

    def __len__(self) -> int:
        return len(self._rows) // self._row.layout.size

    def __getitem__(self, index: Any) -> Any:
        if not 0 <= index < len(self):
            raise IndexError(index)
        return self._read(self._row.layout.unpack_from(self._rows, index * self._row.layout.size))

    def __iter__(self) -> Iterator[tuple[Any, ...]]:
        return map(self._read, self._row.layout.iter_unpack(self._rows))

    def _read(self, it: tuple[Any, ...]) -> tuple[Any, ...]:
        end = 2 * self._row.texts
        return (*[decoded(self._text[it[k]:it[k] + it[k + 1]]) for k in range(0, end, 2)], *it[end:])

    def first_text(self, index: int) -> bytes:
        """The bytes of the first text of a row."""
        start, length = TEXT.layout.unpack_from(self._rows, index * self._row.layout.size)
        return self._text[start:start + length]


def decoded(text: bytes) -> str:
    """Bytes of the protocol as a str: UTF-8, and each byte that is not UTF-8 as a surrogate of its own."""
    return text.decode("utf-8", "surrogateescape")


def encoded(text: str) -> bytes:
    """The bytes that a str of `decoded` stands for. UnicodeEncodeError for a surrogate that stands for no byte."""
    return text.encode("utf-8", "surrogateescape")


class _Room:
    """Room for tables, which grows as they ask for it. `none` is the status that says that there is no table."""

    def __init__(self, none: int) -> None:
        self._none = none
        # All rows are of whole words of 8 bytes, and begin where such a word may.
        self._rows = (ctypes.c_uint64 * 64)()
        self._text = (c_uint8 * 1024)()
        self._size = _Size()

    def copied(self, name: str, row: Row, *of: Any) -> tuple[bytes, bytes] | None:
        """Rows and text of the table that the function `lobby_NAME` gives, or None where there is none. NoMemory."""
        function, size = getattr(_LIBRARY, "lobby_" + name), self._size
        while True:
            rows, text = self._rows, self._text
            status = function(*of, rows, ctypes.sizeof(rows) // row.layout.size, text, len(text), size)
            if status == OK:
                return ctypes.string_at(rows, size.rows * row.layout.size), ctypes.string_at(text, size.text)
            if status == self._none:
                return None
            if status != NO_ROOM:
                _checked(status)
            # A quarter more than is wanted now, so that not each newcomer asks for more.
            self._rows = (ctypes.c_uint64 * max(len(rows), size.rows * row.layout.size * 5 // 32))()
            self._text = (c_uint8 * max(len(text), size.text * 5 // 4))()


class NativeView:
    """A view of the library, with the room into which its tables are copied."""

    def __init__(self) -> None:
        self._view = _View()
        self._tables = _Room(NOT_THERE)
        self._thread = threading.get_ident()
        self._is_open = False
        _checked(_LIBRARY.lobby_view_new(self._view))
        self._is_open = True

    def close(self) -> None:
        """Frees the view, once. ViewClosed on another thread."""
        if self._is_open:
            view = self.opened()
            self._is_open = False
            _LIBRARY.lobby_view_free(view)

    def __del__(self) -> None:
        if not getattr(self, "_is_open", False):
            return
        if threading.get_ident() == self._thread:
            self.close()
        else:   # the library frees a view on its own thread alone
            warnings.warn("a view that was not closed is left in memory", ResourceWarning, source=self)

    def opened(self) -> _View:
        """The view, for a call of the library. ViewClosed."""
        if not self._is_open:
            raise ViewClosed("the view is closed")
        if threading.get_ident() != self._thread:
            raise ViewClosed("the view belongs to another thread")
        return self._view

    def feed(self, piece: bytes) -> int:
        """How many lines were folded. NoMemory; LineTooLong, here and from then on."""
        folded = c_size_t()
        _checked(_LIBRARY.lobby_view_feed(self.opened(), piece, len(piece), folded))
        return folded.value

    def table(self, name: str, row: Row, *of: Any) -> Table:
        """The table that the function `lobby_view_NAME` gives, without rows where there is nothing of that name.
        NoMemory."""
        found = self._tables.copied("view_" + name, row, self.opened(), *of)
        return Table(row, *found) if found else Table(row, b"", b"")

    def room(self) -> int | None:
        """The number of the battle that the client is in."""
        battle = c_uint32()
        return battle.value if _LIBRARY.lobby_view_room(self.opened(), battle) == OK else None

    def rectangle(self, ally: int) -> tuple[int, int, int, int] | None:
        """The left, top, right and bottom of an ally number's start rectangle."""
        it = _Rectangle()
        found = _LIBRARY.lobby_view_room_rect(self.opened(), ally, it) == OK
        return (it.left, it.top, it.right, it.bottom) if found else None


class _Lines(threading.local):
    """What a thread lends to the library for lines."""

    def __init__(self) -> None:
        self.tables = _Room(NO_REPLY)
        self.head = _Head()
        self.line = (c_uint8 * 8_193)()     # the longest line of a client, with its LF


_LINES = _Lines()


def read_reply(line: bytes) -> tuple[int, int | None, list[Field]] | None:
    """The kind, the message id and the fields of the reply that prints as this line. NoMemory."""
    head = _LINES.head
    found = _LINES.tables.copied("read_reply", FIELD, line, len(line), head)
    if found is None:
        return None
    rows, text = found
    fields = [decoded(text[start:start + length]) if holds == TEXT_FIELD else number if holds == NUMBER_FIELD else None
              for start, length, number, holds, _ in FIELD.layout.iter_unpack(rows)]
    return head.kind, head.id if head.numbered else None, fields


def print_request(kind: int, id: int | None, fields: Sequence[Field]) -> bytes:
    """The line of the request of this kind, with its LF. CannotPrint; NoMemory; TypeError."""
    rows, text = bytearray(), bytearray()
    for it in fields:
        said, number, holds = b"", 0, ABSENT
        if isinstance(it, str):
            said, holds = _said(it), TEXT_FIELD
        elif isinstance(it, int):   # one without room in the row is in no range, and neither is the nearest that fits
            number, holds = min(max(it, -1 << 63), (1 << 63) - 1), NUMBER_FIELD
        elif it is not None:
            raise TypeError(f"an argument is a {type(it).__name__}")
        rows += FIELD.layout.pack(len(text), len(said), number, holds, 0)
        text += said
    head = _Head(kind, id is not None, 0 if id is None else id if 0 <= id < 1 << 32 else (1 << 32) - 1)
    line, size = _LINES.line, c_size_t()
    said_fields = bytes(rows), len(fields), bytes(text), len(text)
    status = _LIBRARY.lobby_print_request(head, *said_fields, line, len(line), size)
    if status in FAULTS:
        raise CannotPrint(FAULTS[status])
    _checked(status)
    return ctypes.string_at(line, size.value)


def _said(text: str) -> bytes:
    try:
        return encoded(text)
    except UnicodeEncodeError as error:
        raise CannotPrint(PrintFault.BAD_FIELDS) from error


def _checked(status: int) -> None:
    if status == NO_MEMORY:
        raise NoMemory("no memory")
    if status == LINE_TOO_LONG:
        raise LineTooLong("a line is too long")
    if status != OK:
        raise AssertionError(f"the library answered {status}, which this call cannot")
