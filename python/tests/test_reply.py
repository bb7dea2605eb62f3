"""Each reply is read from its lines in the table of replies and from some more, and no other line is read."""
from __future__ import annotations

import dataclasses
import sys
import threading
import unittest
from typing import Any, List, Tuple
from unittest import mock

from rudderraisin import BattleStatus, NoMemory, Reply, Status, _native
from rudderraisin import reply as r

# Written by tools/protocol.py of protocol/replies.toml: lines.
READ: List[Tuple[bytes, Reply]] = [
    (b"TASSERVER 0.38 * 8201 0", r.TASSERVER("0.38", "*", 8201, 0)),
    (b"ACCEPTED Bert", r.ACCEPTED("Bert")),
    (b"DENIED Invalid username or password", r.DENIED("Invalid username or password")),
    (b"MOTD Welcome", r.MOTD("Welcome")),
    (b"MOTD ", r.MOTD("")),
    (b"SERVERMSG Log in first", r.SERVERMSG("Log in first")),
    (b"SERVERMSG a tab\tand two  spaces ", r.SERVERMSG("a tab\tand two  spaces ")),
    (b"ADDUSER Bert ?? 2400 2", r.ADDUSER("Bert", "??", 2400, 2)),
    (b"ADDUSER [x]_9 SE -2147483648 4294967295", r.ADDUSER("[x]_9", "SE", -2147483648, 4294967295)),
    (b"REMOVEUSER Anna", r.REMOVEUSER("Anna")),
    (b"CLIENTSTATUS Bert 12", r.CLIENTSTATUS("Bert", Status(12))),
    (b"LOGININFOEND", r.LOGININFOEND()),
    (b"PONG", r.PONG()),
    (b"JOIN main", r.JOIN("main")),
    (b"CLIENTS big u01 u02", r.CLIENTS("big", ("u01", "u02"))),
    (b"CLIENTS big u01 u02 u03 u04 u05 u06 u07 u08 u09 u10 u11 u12 u13 u14 u15 u16 u17 u18 u19 u20 u21 u22 u23 u24 u25 u26 u27 u28 u29 u30 u31 u32",
     r.CLIENTS("big", ("u01", "u02", "u03", "u04", "u05", "u06", "u07", "u08", "u09", "u10", "u11", "u12", "u13", "u14",
               "u15", "u16", "u17", "u18", "u19", "u20", "u21", "u22", "u23", "u24", "u25", "u26", "u27", "u28", "u29",
               "u30", "u31", "u32"))),
    (b"JOINED main Bert", r.JOINED("main", "Bert")),
    (b"LEFT main Anna", r.LEFT("main", "Anna")),
    (b"JOINFAILED main Already in the channel", r.JOINFAILED("main", "Already in the channel")),
    (b"SAID main Anna \xc3\xa4\xff\x00", r.SAID("main", "Anna", "ä\udcff\x00")),
    (b"SAIDEX main Anna waves", r.SAIDEX("main", "Anna", "waves")),
    (b"SAYPRIVATE Bert hi  there", r.SAYPRIVATE("Bert", "hi  there")),
    (b"SAIDPRIVATE Anna  hi", r.SAIDPRIVATE("Anna", " hi")),
    (b"CHANNEL big 1", r.CHANNEL("big", 1)),
    (b"ENDOFCHANNELS", r.ENDOFCHANNELS()),
    (b"OPENBATTLE 1", r.OPENBATTLE(1)),
    (b"OPENBATTLEFAILED Already in a battle", r.OPENBATTLEFAILED("Already in a battle")),
    (b"BATTLEOPENED 1 0 0 Anna 10.0.0.1 8452 8 0 0 123 Spring\t104.0\tComet Catcher\tAnna's game\tBA 9.46",
     r.BATTLEOPENED(1, 0, 0, "Anna", "10.0.0.1", 8452, 8, False, 0, 123, "Spring", "104.0", "Comet Catcher",
                    "Anna's game", "BA 9.46")),
    (b"BATTLEOPENED 2147483647 1 2 Anna 10.0.0.1 65535 0 1 -1 4294967295 \t\t\t\t",
     r.BATTLEOPENED(2147483647, 1, 2, "Anna", "10.0.0.1", 65535, 0, True, -1, 4294967295, "", "", "", "", "")),
    (b"BATTLECLOSED 1", r.BATTLECLOSED(1)),
    (b"JOINBATTLE 1 -1", r.JOINBATTLE(1, -1)),
    (b"JOINBATTLEFAILED Wrong password", r.JOINBATTLEFAILED("Wrong password")),
    (b"JOINEDBATTLE 1 Bert", r.JOINEDBATTLE(1, "Bert")),
    (b"JOINEDBATTLE 1 Bert pw9", r.JOINEDBATTLE(1, "Bert", "pw9")),
    (b"LEFTBATTLE 1 Bert", r.LEFTBATTLE(1, "Bert")),
    (b"JOINBATTLEREQUEST Bert 10.0.0.2", r.JOINBATTLEREQUEST("Bert", "10.0.0.2")),
    (b"UPDATEBATTLEINFO 1 0 1 123 Comet Catcher", r.UPDATEBATTLEINFO(1, 0, True, 123, "Comet Catcher")),
    (b"REQUESTBATTLESTATUS", r.REQUESTBATTLESTATUS()),
    (b"CLIENTBATTLESTATUS Anna 264345598 -1", r.CLIENTBATTLESTATUS("Anna", BattleStatus(264345598), -1)),
    (b"SAIDBATTLE Anna go", r.SAIDBATTLE("Anna", "go")),
    (b"SAIDBATTLEEX Anna ", r.SAIDBATTLEEX("Anna", "")),
    (b"ADDBOT 1 Robo Anna 1024 255 KAIK", r.ADDBOT(1, "Robo", "Anna", BattleStatus(1024), 255, "KAIK")),
    (b"UPDATEBOT 1 Robo 1024 255", r.UPDATEBOT(1, "Robo", BattleStatus(1024), 255)),
    (b"REMOVEBOT 1 Rex", r.REMOVEBOT(1, "Rex")),
    (b"ADDSTARTRECT 1 0 0 200 60", r.ADDSTARTRECT(1, 0, 0, 200, 60)),
    (b"REMOVESTARTRECT 15", r.REMOVESTARTRECT(15)),
    (b"SETSCRIPTTAGS k1=2", r.SETSCRIPTTAGS((("k1", "2"),))),
    (b"SETSCRIPTTAGS a=1\tb=", r.SETSCRIPTTAGS((("a", "1"), ("b", "")))),
    (b"SETSCRIPTTAGS game/a=b=c d", r.SETSCRIPTTAGS((("game/a", "b=c d"),))),
    (b"REMOVESCRIPTTAGS k2 k1", r.REMOVESCRIPTTAGS(("k2", "k1"))),
    (b"DISABLEUNITS armcom", r.DISABLEUNITS(("armcom",))),
    (b"DISABLEUNITS armcom corcom armflash", r.DISABLEUNITS(("armcom", "corcom", "armflash"))),
    (b"ENABLEUNITS corcom armcom", r.ENABLEUNITS(("corcom", "armcom"))),
    (b"ENABLEALLUNITS", r.ENABLEALLUNITS()),
    (b"FORCEQUITBATTLE", r.FORCEQUITBATTLE()),
    (b"RING Anna", r.RING("Anna")),
]
# End of what is written: lines.
READ += [
    (b"MOTD  two  spaces\tand a tab ", r.MOTD(" two  spaces\tand a tab ")),
    (b"ADDUSER Anna DE 4294967295 0", r.ADDUSER("Anna", "DE", 4294967295, 0)),
    (b"SAIDPRIVATE Bert K\xc3\xa4se \xff", r.SAIDPRIVATE("Bert", "Käse \udcff")),
    (b"BATTLEOPENED 2147483647 1 2 Bert 10.0.0.2 8452 16 1 -7 9 Spring\t104.0\tComet Catcher\tBert's game\tBA 9.46",
     r.BATTLEOPENED(2147483647, 1, 2, "Bert", "10.0.0.2", 8452, 16, True, -7, 9, "Spring", "104.0", "Comet Catcher",
                    "Bert's game", "BA 9.46")),
    (b"ADDSTARTRECT 15 0 1 199 200", r.ADDSTARTRECT(15, 0, 1, 199, 200)),
    (b"SETSCRIPTTAGS game/a=\tb= 2=3 ", r.SETSCRIPTTAGS((("game/a", ""), ("b", " 2=3 ")))),
]
# No reply prints so.
# Written by tools/protocol.py of protocol/replies.toml: no replies.
NONE = [
    b"TASSERVER 0.38 * 65536 0", b"TASSERVER 0.38 * 8201 2", b"ACCEPTED", b"ACCEPTED ", b"ACCEPTED  Anna",
    b"ACCEPTED Anna ", b"ACCEPTED a-b", b"ACCEPTED A.na", b"ACCEPTED u23456789012345678901", b"MOTD", b"MOTD a\rb",
    b"ADDUSER Bert ?? -2147483649 2", b"ADDUSER Bert ?? +1 2", b"ADDUSER Bert S\tE 0 2", b"CLIENTSTATUS Bert",
    b"CLIENTSTATUS Bert ", b"CLIENTSTATUS  Bert 12", b"CLIENTSTATUS Bert 12 ", b"CLIENTSTATUS Bert 12 3",
    b"CLIENTSTATUS Bert 012", b"CLIENTSTATUS Bert -0", b"CLIENTSTATUS Bert -1", b"CLIENTSTATUS Bert 4294967296",
    b"CLIENTSTATUS Bert 99999999999", b"CLIENTSTATUS Bert 1x", b"PONG ", b"PONG x", b"CLIENTS big",
    b"CLIENTS big u01  u02",
    b"CLIENTS big u01 u02 u03 u04 u05 u06 u07 u08 u09 u10 u11 u12 u13 u14 u15 u16 u17 u18 u19 u20 u21 u22 u23 u24 u25 u26 u27 u28 u29 u30 u31 u32 u33",
    b"SAID main Anna", b"CHANNEL main 4294967296", b"CHANNEL main -0", b"OPENBATTLE 0", b"OPENBATTLE 01",
    b"OPENBATTLE 2147483648", b"BATTLEOPENED 1 0 3 Anna 10.0.0.1 8452 8 0 0 123 a\tb\tc\td\te",
    b"BATTLEOPENED 1 0 0 Anna 10.0.0.1 8452 8 0 0 123 a\tb\tc\td",
    b"BATTLEOPENED 1 0 0 Anna 10.0.0.1 8452 8 0 0 123 a\tb\tc\td\te\tf", b"BATTLECLOSED", b"BATTLECLOSED 0",
    b"BATTLECLOSED 2147483648", b"BATTLECLOSED 07", b"BATTLECLOSED -7", b"BATTLECLOSED +7", b"JOINBATTLE 1 4294967296",
    b"JOINBATTLE 1 -2147483649", b"JOINEDBATTLE 1 Bert ", b"JOINEDBATTLE 1 Bert pw9 x", b"JOINBATTLEREQUEST Bert",
    b"JOINBATTLEREQUEST Bert 10.0.0.2 x", b"JOINBATTLEREQUEST a-b 10.0.0.2",
    b"UPDATEBATTLEINFO 1 0 2 123 Comet Catcher", b"UPDATEBATTLEINFO 1 65536 1 123 x",
    b"UPDATEBATTLEINFO 1 0 1 123 a\tb", b"ADDSTARTRECT 16 0 0 200 60", b"ADDSTARTRECT 1 0 0 201 60",
    b"ADDSTARTRECT 1 0 0 200 201", b"SETSCRIPTTAGS", b"SETSCRIPTTAGS ", b"SETSCRIPTTAGS a", b"SETSCRIPTTAGS =1",
    b"SETSCRIPTTAGS a b=1", b"SETSCRIPTTAGS a=1\t", b"DISABLEUNITS", b"DISABLEUNITS ", b"DISABLEUNITS armcom  corcom",
    b"ENABLEUNITS armcom ", b"ENABLEUNITS arm\tcom", b"ENABLEALLUNITS ",
]
# End of what is written: no replies.
NONE += [
    b"", b" ", b"HELLO", b"pong", b" PONG", b"PONG\r", b"PONG\n", b"#07 PONG", b"#2147483648 PONG", b"#-1 PONG",
    b"#1  PONG", b"#1", b"#1 ", b"#1 #2 PONG", b"MOTD a\nb",
]


class Read(unittest.TestCase):
    def test_each_kind(self) -> None:
        for line, wanted in READ:
            with self.subTest(line):
                found = Reply.read(line)
                self.assertEqual(found, wanted)
                assert found is not None
                self.assertIsNone(found.id)
                self.assertEqual([*map(type, self.values(found))], [*map(type, self.values(wanted))])
        self.assertEqual({type(it) for _, it in READ}, {*r.KINDS})

    @staticmethod
    def values(it: Reply) -> List[Any]:
        return [getattr(it, of.name) for of in dataclasses.fields(it)]  # type: ignore[arg-type]

    def test_ids(self) -> None:
        for line, wanted in READ:
            for number in (0, 7, 2147483647):
                found = Reply.read(b"#%d %b" % (number, line))
                assert found is not None
                self.assertEqual((found, found.id), (wanted, number))

    def test_no_reply(self) -> None:
        for line in NONE:
            with self.subTest(line):
                self.assertIsNone(Reply.read(line))

    def test_long_lines(self) -> None:
        """More fields and more text than there is room for at first."""
        units = tuple(f"unit{it}" for it in range(1500))
        self.assertEqual(Reply.read(b"DISABLEUNITS " + " ".join(units).encode()), r.DISABLEUNITS(units))
        pairs = tuple((f"k{it}", "x" * it) for it in range(180))
        self.assertEqual(Reply.read(b"SETSCRIPTTAGS " + "\t".join(f"{k}={v}" for k, v in pairs).encode()),
                         r.SETSCRIPTTAGS(pairs))
        self.assertEqual(Reply.read(b"MOTD " + b"x" * 100_000), r.MOTD("x" * 100_000))

    def test_values_never_change(self) -> None:
        it = Reply.read(b"#5 RING Anna")
        with self.assertRaises(dataclasses.FrozenInstanceError):
            it.user = "Bert"  # type: ignore[union-attr]
        self.assertEqual(hash(it), hash(r.RING("Anna")))

    def test_kinds_of_bytes(self) -> None:
        for it in (bytearray(b"PONG"), memoryview(b"PONG")):
            self.assertEqual(Reply.read(it), r.PONG())
        for fault in ("PONG", 5, None):
            with self.assertRaises(TypeError):
                Reply.read(fault)  # type: ignore[arg-type]

    def test_many_threads(self) -> None:
        """Each thread has its own room."""
        self.addCleanup(sys.setswitchinterval, sys.getswitchinterval())
        sys.setswitchinterval(1e-6)
        faults: List[object] = []

        def read() -> None:
            for line, wanted in READ * 20:
                found = Reply.read(line)
                if found != wanted:
                    faults.append((line, found))
        threads = [threading.Thread(target=read) for _ in range(4)]
        for it in threads:
            it.start()
        for it in threads:
            it.join()
        self.assertEqual(faults, [])

    def test_no_memory(self) -> None:
        refusing = mock.Mock()
        refusing.lobby_read_reply.return_value = _native.NO_MEMORY
        with mock.patch.object(_native, "_LIBRARY", refusing), self.assertRaises(NoMemory):
            Reply.read(b"PONG")


if __name__ == "__main__":
    unittest.main()
