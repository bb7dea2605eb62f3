"""Each request prints as a line that reads back as it alone, by a reader that goes by docs/PROTOCOL.md. Which requests
are refused, each fault by its name."""
from __future__ import annotations

import dataclasses
import random
import unittest
from typing import Any, Callable, Dict, Iterator, List, Tuple
from unittest import mock

import protocol
from rudderraisin import BattleStatus, CannotPrint, NoMemory, PrintFault, Request, Status, _native, kinds
from rudderraisin import request as r

WORD = "X03MO1qnZdYdgyfeuILPmQ=="
# Written by tools/protocol.py of protocol/commands.toml: lines.
PRINTED: List[Tuple[Request, bytes]] = [
    (r.LOGIN("Anna", "X03MO1qnZdYdgyfeuILPmQ==", 0, "*", "TestLobby 1.0"),
     b"LOGIN Anna X03MO1qnZdYdgyfeuILPmQ== 0 * TestLobby 1.0"),
    (r.LOGIN("Anna", "X", 4294967295, "*", " ", True), b"LOGIN Anna X 4294967295 *  \t\tb"),
    (r.LOGIN("a", "b", -2147483648, "c", ""), b"LOGIN a b -2147483648 c "),
    (r.PING(), b"PING"),
    (r.EXIT(), b"EXIT"),
    (r.MYSTATUS(0), b"MYSTATUS 0"),
    (r.MYSTATUS(4294967295), b"MYSTATUS 4294967295"),
    (r.CHANNELS(), b"CHANNELS"),
    (r.JOIN("main"), b"JOIN main"),
    (r.JOIN("main", "key"), b"JOIN main key"),
    (r.LEAVE("main"), b"LEAVE main"),
    (r.LEAVE("a_[b]"), b"LEAVE a_[b]"),
    (r.SAY("main", ""), b"SAY main "),
    (r.SAY("main", " a\tb "), b"SAY main  a\tb "),
    (r.SAYEX("main", "waves"), b"SAYEX main waves"),
    (r.SAYPRIVATE("Bert", " hi"), b"SAYPRIVATE Bert  hi"),
    (r.OPENBATTLE(0, 0, "*", 8452, 8, -1, 0, 123, "Spring", "104.0", "Comet Catcher", "Anna's game", "BA 9.46"),
     b"OPENBATTLE 0 0 * 8452 8 -1 0 123 Spring\t104.0\tComet Catcher\tAnna's game\tBA 9.46"),
    (r.OPENBATTLE(0, 2, "*", 8452, 8, -1, 0, 4294967295, "Spring", "104.0", "Comet Catcher", "Anna's game", "BA 9.46"),
     b"OPENBATTLE 0 2 * 8452 8 -1 0 4294967295 Spring\t104.0\tComet Catcher\tAnna's game\tBA 9.46"),
    (r.OPENBATTLE(1, 0, "pw", 65535, 0, 0, 0, 0, "", "", "", "", ""), b"OPENBATTLE 1 0 pw 65535 0 0 0 0 \t\t\t\t"),
    (r.JOINBATTLE(1, "*", "pw9"), b"JOINBATTLE 1 * pw9"),
    (r.JOINBATTLE(1), b"JOINBATTLE 1"),
    (r.JOINBATTLE(2147483647, "pw"), b"JOINBATTLE 2147483647 pw"),
    (r.JOINBATTLE(0, "*", "pw9"), b"JOINBATTLE 0 * pw9"),
    (r.JOINBATTLEACCEPT("Bert"), b"JOINBATTLEACCEPT Bert"),
    (r.JOINBATTLEDENY("Bert", "not today"), b"JOINBATTLEDENY Bert not today"),
    (r.JOINBATTLEDENY("Bert"), b"JOINBATTLEDENY Bert"),
    (r.JOINBATTLEDENY("Bert", ""), b"JOINBATTLEDENY Bert "),
    (r.JOINBATTLEDENY("Bert", "not  today"), b"JOINBATTLEDENY Bert not  today"),
    (r.LEAVEBATTLE(), b"LEAVEBATTLE"),
    (r.UPDATEBATTLEINFO(0, True, 123, "Comet Catcher"), b"UPDATEBATTLEINFO 0 1 123 Comet Catcher"),
    (r.UPDATEBATTLEINFO(65535, False, -7, " x"), b"UPDATEBATTLEINFO 65535 0 -7  x"),
    (r.MYBATTLESTATUS(4294967295, -1), b"MYBATTLESTATUS 4294967295 -1"),
    (r.SAYBATTLE(""), b"SAYBATTLE "),
    (r.SAYBATTLEEX("hi"), b"SAYBATTLEEX hi"),
    (r.ADDBOT("Robo", 1024, 255, "KAIK"), b"ADDBOT Robo 1024 255 KAIK"),
    (r.ADDBOT("Robo", 1024, 255, ""), b"ADDBOT Robo 1024 255 "),
    (r.UPDATEBOT("Robo", 1024, 255), b"UPDATEBOT Robo 1024 255"),
    (r.REMOVEBOT("Robo"), b"REMOVEBOT Robo"),
    (r.ADDSTARTRECT(1, 0, 0, 200, 60), b"ADDSTARTRECT 1 0 0 200 60"),
    (r.ADDSTARTRECT(15, 0, 0, 200, 60), b"ADDSTARTRECT 15 0 0 200 60"),
    (r.REMOVESTARTRECT(15), b"REMOVESTARTRECT 15"),
    (r.SETSCRIPTTAGS((("a", "1"), ("b", ""))), b"SETSCRIPTTAGS a=1\tb="),
    (r.SETSCRIPTTAGS((("a", "=b c"),)), b"SETSCRIPTTAGS a==b c"),
    (r.REMOVESCRIPTTAGS(("k2", "k1", "zz", "k2")), b"REMOVESCRIPTTAGS k2 k1 zz k2"),
    (r.REMOVESCRIPTTAGS(("k2", "k1", "k2")), b"REMOVESCRIPTTAGS k2 k1 k2"),
    (r.DISABLEUNITS(("armcom", "corcom", "armcom")), b"DISABLEUNITS armcom corcom armcom"),
    (r.ENABLEUNITS(("x",)), b"ENABLEUNITS x"),
    (r.ENABLEALLUNITS(), b"ENABLEALLUNITS"),
    (r.HANDICAP("Anna", 50), b"HANDICAP Anna 50"),
    (r.HANDICAP("Anna", 100), b"HANDICAP Anna 100"),
    (r.FORCETEAMNO("Bert", 5), b"FORCETEAMNO Bert 5"),
    (r.FORCEALLYNO("Bert", 15), b"FORCEALLYNO Bert 15"),
    (r.FORCETEAMCOLOR("Bert", -2147483648), b"FORCETEAMCOLOR Bert -2147483648"),
    (r.FORCESPECTATORMODE("Bert"), b"FORCESPECTATORMODE Bert"),
    (r.KICKFROMBATTLE("Bert"), b"KICKFROMBATTLE Bert"),
    (r.RING("Bert"), b"RING Bert"),
]
# End of what is written: lines.
PRINTED += [
    (r.LOGIN("A-n:a", WORD, -5, "10.0.0.1", " My Lobby 1.0 ", True),
     b"LOGIN A-n:a X03MO1qnZdYdgyfeuILPmQ== -5 10.0.0.1  My Lobby 1.0 \t\tb"),
    (r.MYSTATUS(Status.of(in_game=True, away=True)), b"MYSTATUS 3"),
    (r.JOIN("[x]", "key"), b"JOIN [x] key"),
    (r.SAY("main", "hello  there"), b"SAY main hello  there"),
    (r.SAYEX("main", "waves\tand\x00"), b"SAYEX main waves\tand\x00"),
    (r.SAYPRIVATE("Bert", "Käse \udcff"), b"SAYPRIVATE Bert K\xc3\xa4se \xff"),
    (r.OPENBATTLE(1, 2, "*", 8452, 65535, -1, 4294967295, -2147483648, "Spring", "104.0", "Comet Catcher", "My game",
                  ""),
     b"OPENBATTLE 1 2 * 8452 65535 -1 4294967295 -2147483648 Spring\t104.0\tComet Catcher\tMy game\t"),
    (r.JOINBATTLE(0), b"JOINBATTLE 0"),
    (r.JOINBATTLE(7, "*"), b"JOINBATTLE 7 *"),
    (r.JOINBATTLE(2147483647, "*", "pw9"), b"JOINBATTLE 2147483647 * pw9"),
    (r.MYBATTLESTATUS(BattleStatus.of(ready=True, player=True), 255), b"MYBATTLESTATUS 1026 255"),
    (r.UPDATEBOT("Robo.1", 4294967295, 0), b"UPDATEBOT Robo.1 4294967295 0"),
    (r.ADDSTARTRECT(15, 0, 1, 199, 200), b"ADDSTARTRECT 15 0 1 199 200"),
    (r.SETSCRIPTTAGS((("game/a", ""), ("b", " 2=3 "))), b"SETSCRIPTTAGS game/a=\tb= 2=3 "),
]
# Values of a kind that no argument of it may have, and the fault.
WRONG: Dict[str, List[Any]] = {
    "word": ["", "a b", "a\tb", "a\r", "a\n", 5, None],
    "name": ["", "a b", "A.na", "Käse", "x" * 21, "a\n", 5, None],
    "sentence": ["a\tb", "a\rb", "a\nb", "\ud800", 5, None],
    "text": ["a\rb", "a\nb", "\ud800", 5, None],
    "words": [("",), ("a b",), ("a", "b\tc"), ("a\n",), (5,)],
    "pairs": [(("", "x"),), (("a b", "x"),), (("a=b", "x"),), (("a", "b\tc"),), (("a", "x\n"),), (("a\t", "x"),)],
}
SOME = {"word": ["*", "pw9", "\udcff"], "name": ["Anna", "[x]_9", "x" * 20], "sentence": ["", " a  b ", "\udcff=\x00"],
        "text": ["", " a\tb "], "words": [("a",), ("a", "=\udcff")],
        "pairs": [(("a", ""),), (("/", "=1 "), ("b", "2"))]}


def values(kind: str, choice: random.Random) -> Any:
    """A value of this kind."""
    within = protocol.bounds(kind)
    if within:
        return choice.choice([*within, choice.randint(*within)])
    return choice.choice(SOME[kind])


def back(line: bytes) -> Tuple[Any, str, List[Any]]:
    """What a line with its LF reads as, each text as a str, and the flags of LOGIN as whether b is among them."""
    assert line.endswith(b"\n") and line.count(b"\n") == 1, line
    number, command, found = protocol.read(line[:-1])

    def said(it: Any) -> Any:
        if isinstance(it, (list, tuple)):
            return tuple(map(said, it))
        return _native.decoded(it) if isinstance(it, bytes) else it
    read = [*map(said, found)]
    if command == "LOGIN":
        read = [*read[:5], "b" in (read[6] or "").split(" ")]
    return number, command, read


def arguments(it: Request) -> List[Any]:
    return [getattr(it, of.name) for of in dataclasses.fields(it)]  # type: ignore[arg-type]


def some(kind: Any, choice: random.Random) -> List[Any]:
    """Arguments of a request of this kind, of which any that may be left out may be."""
    said: List[Any] = []
    for of in kinds.arguments(kind):
        is_absent = of.is_optional and (choice.random() < 0.3 or (said and said[-1] is None))
        said.append(None if is_absent else values(of.kind, choice))
    return said


def without(kind: Any, at: int, value: Any) -> Iterator[Request]:
    """Requests whose argument at this place has this value, and the others are right."""
    choice = random.Random(1)
    for _ in range(3):
        said = [values(of.kind, choice) for of in kinds.arguments(kind)]
        said[at] = value
        yield kind(*said)


class Printed(unittest.TestCase):
    def test_by_hand(self) -> None:
        for it, wanted in PRINTED:
            with self.subTest(wanted):
                self.assertEqual(it.line(), wanted + b"\n")
                for number in (0, 5, 2147483647):
                    self.assertEqual(it.line(number), b"#%d %b\n" % (number, wanted))
        self.assertEqual({type(it) for it, _ in PRINTED}, {*r.KINDS})

    def test_reads_back(self) -> None:
        choice = random.Random(7)
        made = [kind(*some(kind, choice)) for kind in r.KINDS for _ in range(60)]
        for it in [*(it for it, _ in PRINTED), *made]:
            for number in (None, 0, 2147483647):
                with self.subTest(it):
                    self.assertEqual(back(it.line(number)), (number, type(it).__name__, arguments(it)))

    def test_longest(self) -> None:
        """An id counts among the 8,192 bytes."""
        self.assertEqual(len(r.SAYBATTLE("x" * 8_182).line()), 8_193)
        self.assertEqual(len(r.SAYBATTLE("x" * 8_179).line(1)), 8_193)
        self.fails(PrintFault.REQUEST_TOO_LONG, r.SAYBATTLE("x" * 8_183))
        self.fails(PrintFault.REQUEST_TOO_LONG, r.SAYBATTLE("x" * 8_180), 1)
        self.fails(PrintFault.REQUEST_TOO_LONG, r.DISABLEUNITS(("a",) * 5_000))
        self.fails(PrintFault.REQUEST_TOO_LONG, r.SAYBATTLE("x" * 1_000_000))

    def test_subclass(self) -> None:
        class Shout(r.SAYBATTLE):
            pass
        self.assertEqual(Shout("hi").line(), b"SAYBATTLE hi\n")

    def fails(self, fault: PrintFault, it: Request, *of: int) -> None:
        with self.subTest(it), self.assertRaises(CannotPrint) as caught:
            it.line(*of)
        self.assertIs(caught.exception.fault, fault)
        self.assertEqual(str(caught.exception), fault.value)

    def test_ranges(self) -> None:
        """Both bounds of a number are printed, and what is beyond them is refused, however far."""
        for kind in r.KINDS:
            for at, of in enumerate(kinds.arguments(kind)):
                within = protocol.bounds(of.kind)
                if within is None:
                    continue
                low, high = within
                for number in within:
                    for it in without(kind, at, number):
                        self.assertEqual(back(it.line())[2][at], number)
                for number in (low - 1, high + 1, 1 << 32, 1 << 63, 1 << 64, -1 << 63, -1 << 70):
                    for it in without(kind, at, number):
                        self.fails(PrintFault.OUT_OF_RANGE, it)
                for other in ("7", None):
                    for it in without(kind, at, other):
                        self.fails(PrintFault.BAD_FIELDS, it)

    def test_bad_fields(self) -> None:
        for kind in r.KINDS:
            for at, of in enumerate(kinds.arguments(kind)):
                for value in WRONG.get(of.kind, []):
                    if value is None and of.is_optional:
                        continue
                    for it in without(kind, at, value):
                        self.fails(PrintFault.BAD_FIELDS, it)

    def test_other_faults(self) -> None:
        for kind in r.KINDS:
            for at, of in enumerate(kinds.arguments(kind)):
                if of.kind in ("words", "pairs"):
                    for it in without(kind, at, ()):
                        self.fails(PrintFault.NOTHING_LISTED, it)
        self.fails(PrintFault.WORD_SKIPPED, r.JOINBATTLE(7, None, "pw9"))
        for number in (-1, 1 << 31, 1 << 32, (1 << 32) + 7, 1 << 70):
            self.fails(PrintFault.OUT_OF_RANGE, r.PING(), number)

    def test_types(self) -> None:
        """What is neither a str nor an int is no argument, and a str is no list."""
        faults: List[Callable[[], object]] = [
            r.SAYBATTLE(b"x").line, r.MYSTATUS(1.0).line, r.DISABLEUNITS("armcom").line,  # type: ignore[arg-type]
            r.SETSCRIPTTAGS({"a": "b"}).line, r.DISABLEUNITS(((),)).line,  # type: ignore[arg-type]
        ]
        for fault in faults:
            with self.subTest(fault), self.assertRaises(TypeError):
                fault()

    def test_no_memory(self) -> None:
        refusing = mock.Mock()
        refusing.lobby_print_request.return_value = _native.NO_MEMORY
        with mock.patch.object(_native, "_LIBRARY", refusing), self.assertRaises(NoMemory):
            r.PING().line()


if __name__ == "__main__":
    unittest.main()
