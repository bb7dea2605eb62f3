"""The classes of replies and requests have the names, arguments and kinds that docs/PROTOCOL.md gives them, in their
order."""
from __future__ import annotations

import unittest
from typing import Dict, List, Sequence

import protocol
from protocol import Argument
from rudderraisin import kinds, reply, request


def declared(classes: Sequence[type]) -> Dict[str, List[Argument]]:
    return {it.__name__: [Argument(of.name, of.kind, of.is_optional) for of in kinds.arguments(it)] for it in classes}


class Names(unittest.TestCase):
    maxDiff = None

    def test_requests(self) -> None:
        wanted = dict(protocol.COMMANDS)
        login = wanted["LOGIN"]
        self.assertEqual(login[5:], [Argument("user", "sentence", True), Argument("flags", "sentence", True)])
        wanted["LOGIN"] = [*login[:5], Argument("b", "0..1")]     # of the flags b alone counts
        self.assertEqual(declared(request.KINDS), wanted)

    def test_replies(self) -> None:
        self.assertEqual(declared(reply.KINDS), protocol.REPLIES)

    def test_types(self) -> None:
        """A number of two values that says whether something is so is a bool; a status word has its fields."""
        for it in (*reply.KINDS, *request.KINDS):
            for of in kinds.arguments(it):
                with self.subTest(f"{it.__name__} {of.name}"):
                    is_number = protocol.bounds(of.kind) is not None
                    self.assertEqual(is_number, isinstance(of.made, type) and issubclass(of.made, int))
                    self.assertEqual(of.made is bool, of.name in ("locked", "passworded", "b"))


if __name__ == "__main__":
    unittest.main()
