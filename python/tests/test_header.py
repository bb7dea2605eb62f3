"""The binding has the functions, statuses and rows that include/lobby.h declares."""
from __future__ import annotations

import ctypes
import re
import unittest
from pathlib import Path

from rudderraisin import PrintFault, _native, password_word

HEADER = Path(__file__).resolve().parents[2] / "include/lobby.h"
NUMBERS = {"int64_t": "q", "uint32_t": "I", "uint16_t": "H", "uint8_t": "B", "size_t": "N", "lobby_text": "NN"}
VALUES = {"uint32_t": ctypes.c_uint32, "uint8_t": ctypes.c_uint8, "size_t": ctypes.c_size_t, "void": None}
LENT = {"lobby_view": _native._View, "lobby_size": _native._Size, "lobby_rect": _native._Rectangle,
        "lobby_head": _native._Head, "size_t": ctypes.c_size_t, "uint32_t": ctypes.c_uint32}
LETTERS = {ctypes.c_size_t: "N", ctypes.c_uint32: "I", ctypes.c_uint8: "B", ctypes.c_void_p: "P"}


def source() -> str:
    return re.sub(r"(?s)/\*.*?\*/", "", HEADER.read_text(encoding="utf-8"))


def structs() -> dict[str, str]:
    """The fields of each struct, in the letters of the module `struct`."""
    found = re.findall(r"(?s)typedef struct (\w+) \{(.*?)\} \w+;", source())
    fields = {name: re.findall(r"(\w+)\s*\*?\s*\w+;", body) for name, body in found}
    return {name: "".join(NUMBERS.get(it, "P") for it in types) for name, types in fields.items()}


def letters(layout: str) -> str:
    return re.sub(r"(\d+)(\w)", lambda it: int(it[1]) * it[2], layout.lstrip("@"))


def argument(text: str) -> object:
    """The ctypes type of a parameter: rows and texts of a table are any memory, bytes and rows that are read a char
    pointer."""
    const, kind, star = re.fullmatch(r"\s*(const )?(\w+)\s+(\*?)\w+\s*", text).groups()  # type: ignore[union-attr]
    if not star:
        return VALUES[kind]
    if kind in LENT:
        return ctypes.POINTER(LENT[kind])
    return ctypes.c_char_p if const else ctypes.c_void_p


def numbers(prefix: str) -> dict[str, int]:
    """The numbers that the header gives to the names that begin so, without that beginning."""
    return {name: int(value) for name, value in re.findall(rf"\b{prefix}(\w+) = (\d+)", source())}


class Header(unittest.TestCase):
    def test_rows(self) -> None:
        rows = {"lobby_text": _native.TEXT, "lobby_user": _native.USER, "lobby_battle": _native.BATTLE,
                "lobby_member": _native.MEMBER, "lobby_bot": _native.BOT, "lobby_tag": _native.TAG,
                "lobby_field": _native.FIELD}
        declared = structs()
        for name, row in rows.items():
            with self.subTest(name):
                self.assertEqual(letters(row.layout.format), declared[name])
                self.assertTrue(declared[name].startswith("NN" * row.texts))
                self.assertEqual(row.layout.size % 8, 0)
        for name in ("lobby_size", "lobby_rect", "lobby_view", "lobby_head"):
            self.assertEqual(declared[name], "".join(LETTERS[kind] for _, kind in LENT[name]._fields_))

    def test_functions(self) -> None:
        found = re.findall(r"(?m)^(void|uint32_t) (\w+)\(([^)]*)\);", source())
        declared = {name: (VALUES[result], [argument(it) for it in of.split(",")]) for result, name, of in found}
        self.assertEqual({name: declared[name] for name in _native._FUNCTIONS}, _native._FUNCTIONS)
        self.assertEqual({*declared} - {*_native._FUNCTIONS}, {"lobby_password_word"})

    def test_password_word(self) -> None:
        """The package makes the word by hashlib; it is the one that the library makes."""
        word = (ctypes.c_uint8 * 24)()
        for password in ("", "password", "Käse " * 100):
            said = _native.encoded(password)
            given = ctypes.c_size_t(len(said)), word, ctypes.c_size_t(24)
            self.assertEqual(_native._LIBRARY.lobby_password_word(said, *given), _native.OK)
            self.assertEqual(bytes(word).decode(), password_word(password))

    def test_statuses(self) -> None:
        names = ("OK", "NO_MEMORY", "LINE_TOO_LONG", "NO_ROOM", "NOT_THERE", "NO_REPLY", "NO_COMMAND")
        wanted = {name: getattr(_native, name) for name in names}
        wanted.update({fault.name: status for status, fault in _native.FAULTS.items()})
        held = {"ABSENT": _native.ABSENT, "TEXT": _native.TEXT_FIELD, "NUMBER": _native.NUMBER_FIELD}
        found = {name: number for name, number in numbers("LOBBY_").items() if not name.startswith(("REPLY_", "ASK_"))}
        self.assertEqual(found, {**wanted, **held})
        self.assertEqual({*_native.FAULTS.values()}, {*PrintFault})


if __name__ == "__main__":
    unittest.main()
