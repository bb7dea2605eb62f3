"""What the page shows: its rows, JSON, events and Prometheus's text, and what becomes of texts that players write."""
from __future__ import annotations

import html.parser
import json
import re
import unittest
from pathlib import Path
from typing import Any
from unittest import mock

import rudderraisin
from rudderraisin import View
from rudderraisin.page import feed, main, shown

# Bert (in game, rank 3) hosts 7 with Cleo (away, a moderator) and Bot1 (a bot); Anna looks on.
SAID = b"""TASSERVER 0.38 * 8201 0
ACCEPTED Anna
ADDUSER Anna DE 0 1
ADDUSER Bert ?? 0 2
ADDUSER Bot1 AT 0 4
ADDUSER Cleo FR 0 3
CLIENTSTATUS Anna 64
CLIENTSTATUS Bert 13
CLIENTSTATUS Bot1 64
CLIENTSTATUS Cleo 34
BATTLEOPENED 7 1 2 Bert 10.0.0.2 8452 16 1 4 5 Spring\t104.0\tComet Catcher\tBert's game\tBA 9.46
UPDATEBATTLEINFO 7 1 1 99 Delta Siege
JOINEDBATTLE 7 Cleo
JOINEDBATTLE 7 Bot1
LOGININFOEND
"""
LOBBY = {"connected": True, "since": 1, "reason": ""}
BERT = {"name": "Bert", "country": "??", "rank": 3, "moderator": False, "bot": False, "away": False, "inGame": True,
        "battleID": 7}
BOT1 = {"name": "Bot1", "country": "AT", "rank": 0, "moderator": False, "bot": True, "away": False, "inGame": False,
        "battleID": 7}
CLEO = {"name": "Cleo", "country": "FR", "rank": 0, "moderator": True, "bot": False, "away": True, "inGame": False,
        "battleID": 7}
GAME = {"battleID": 7, "title": "Bert's game", "map": "Delta Siege", "gameName": "BA 9.46", "engineName": "Spring",
        "engineVersion": "104.0", "founder": "Bert", "members": ["Bert", "Cleo", "Bot1"], "spectatorCount": 1,
        "maxPlayers": 16, "passworded": True, "locked": True, "inGame": True}
# Each with how it is to be read: what is no UTF-8 is U+FFFD, all else stands as it came.
HOSTILE = {
    b"<script>alert(1)</script>": "<script>alert(1)</script>",
    b"\"><img src=x onerror='alert(1)'>&lt;&amp;": "\"><img src=x onerror='alert(1)'>&lt;&amp;",
    b"</script><!--]]>": "</script><!--]]>",
    "\u202eesrever \u2066\u200f".encode(): "\u202eesrever \u2066\u200f",
    "a\u2028b\u2029c".encode(): "a\u2028b\u2029c",
    b"event: again \\u003c \\": "event: again \\u003c \\",
    b"nul \x00 esc \x1b[31m \xff\xc0 \xed\xb3\xbf": "nul \x00 esc \x1b[31m \ufffd\ufffd \ufffd\ufffd\ufffd",
    b"W" * 3_500: "W" * 3_500,
}


def picture(said: bytes, channels: dict[str, int] | None = None, lobby: Any = None) -> shown.Picture:
    with View() as view:
        view.feed(said)
        return shown.picture(lobby or LOBBY, view, channels or {})


def fields(event: bytes) -> dict[str, list[str]]:
    """The fields of one server-sent event, as a browser reads them; its line ends are CR, LF and both."""
    text = event.decode("utf-8")
    assert text.endswith("\n\n") and text.count("\n\n") == 1, text
    found: dict[str, list[str]] = {}
    for line in re.split(r"\r\n|\r|\n", text[:-2]):
        name, _, value = line.partition(": ")
        found.setdefault(name, []).append(value)
    return found


class Rows(unittest.TestCase):
    def test_nothing(self) -> None:
        self.assertEqual(picture(b"ACCEPTED Anna\nADDUSER Anna DE 0 1\nLOGININFOEND\n"), shown.Picture(LOBBY))

    def test_all(self) -> None:
        it = picture(SAID, {"main": 2, "[x]": 1})
        self.assertEqual(it.users, {"Bert": BERT, "Bot1": BOT1, "Cleo": CLEO})
        self.assertEqual(it.battles, {7: GAME})
        self.assertEqual([*it.channels.values()], [{"name": "main", "userCount": 2}, {"name": "[x]", "userCount": 1}])

    def test_document(self) -> None:
        said = shown.document("a-1", picture(SAID, {"main": 2}))
        self.assertEqual(json.loads(said), {
            "version": "a-1", "lobby": LOBBY, "users": [BERT, BOT1, CLEO], "battles": [GAME],
            "channels": [{"name": "main", "userCount": 2}]})
        self.assertNotIn(b"10.0.0.2", said)     # nobody's address is shown
        self.assertNotIn(b"8452", said)

    def test_founder_who_is_not_there(self) -> None:
        """A lobby of another make may have one."""
        it = picture(SAID + b"REMOVEUSER Bert\n")
        self.assertIs(it.battles[7]["inGame"], False)


class Texts(unittest.TestCase):
    def test_hostile(self) -> None:
        for said, read in HOSTILE.items():
            with self.subTest(read[:40]):
                line = b"BATTLEOPENED 8 0 0 Cleo 10.0.0.3 1 2 0 0 0 " + b"\t".join([said] * 5) + b"\n"
                info = b"UPDATEBATTLEINFO 8 0 0 0 " + said + b"\n"
                it = picture(SAID + line + info)
                names = ("title", "map", "gameName", "engineName", "engineVersion")
                row = {name: it.battles[8][name] for name in names}
                self.assertEqual(row, dict.fromkeys(row, read))
                whole = shown.document("a-1", it)
                self.assertEqual(json.loads(whole.decode("ascii"))["battles"][1]["title"], read)
                changed = shown.differences(picture(SAID), it)
                told = fields(shown.event("change", "a-2", shown.said(changed)))
                self.assertEqual([*told], ["event", "id", "data"])
                self.assertEqual((told["event"], told["id"], len(told["data"])), (["change"], ["a-2"], 1))
                self.assertEqual(json.loads(told["data"][0])["battles"]["set"][0]["title"], read)

    def test_numbers_name_nobody(self) -> None:
        line = b"BATTLEOPENED 8 0 0 Cleo 10.0.0.3 1 2 0 0 0 a\tb\tc\tevil\td\n"
        text = shown.prometheus(shown.lobby_numbers(picture(SAID + line, {"secret": 1}))).decode()
        for word in ("Bert", "Cleo", "evil", "secret", "10.0.0.3"):
            self.assertNotIn(word, text)


class Differences(unittest.TestCase):
    def test_none(self) -> None:
        self.assertEqual(shown.differences(picture(SAID, {"main": 1}), picture(SAID, {"main": 1})), {})

    def test_each(self) -> None:
        before = picture(SAID, {"main": 1, "old": 1})
        after = picture(SAID + b"LEFTBATTLE 7 Cleo\nREMOVEUSER Bot1\nADDUSER Dora DE 0 5\n", {"main": 2})
        lost = {"connected": False, "since": 2, "reason": "gone"}
        changed = shown.differences(before, shown.Picture(lost, after.users, after.battles, after.channels))
        dora = {**BERT, "name": "Dora", "country": "DE", "rank": 0, "inGame": False, "battleID": None}
        self.assertEqual(changed, {
            "lobby": lost, "users": {"set": [{**CLEO, "battleID": None}, dora], "gone": ["Bot1"]},
            "battles": {"set": [{**GAME, "members": ["Bert", "Bot1"]}], "gone": []},
            "channels": {"set": [{"name": "main", "userCount": 2}], "gone": ["old"]}})
        self.assertEqual(shown.differences(after, shown.Picture(LOBBY))["battles"], {"set": [], "gone": [7]})


class Numbers(unittest.TestCase):
    def test_lobby(self) -> None:
        text = shown.prometheus(shown.lobby_numbers(picture(SAID, {"main": 2, "[x]": 1}))).decode()
        values = [line for line in text.splitlines() if not line.startswith("#")]
        self.assertEqual(values, [
            'rudderraisin_users{kind="person",state="here"} 0', 'rudderraisin_users{kind="person",state="away"} 1',
            'rudderraisin_users{kind="person",state="in_game"} 1', 'rudderraisin_users{kind="bot",state="here"} 1',
            'rudderraisin_users{kind="bot",state="away"} 0', 'rudderraisin_users{kind="bot",state="in_game"} 0',
            'rudderraisin_battles{state="open"} 0', 'rudderraisin_battles{state="in_game"} 1',
            "rudderraisin_battle_members 3", "rudderraisin_channels 2", "rudderraisin_channel_users 3"])

    def test_text(self) -> None:
        """Each number has its help and its kind before it, and each line is of the form that Prometheus reads."""
        text = shown.prometheus(shown.lobby_numbers(picture(SAID))).decode("ascii")
        self.assertTrue(text.endswith("\n"))
        told: dict[str, set[str]] = {"HELP": set(), "TYPE": set()}
        for line in text.splitlines():
            about = re.fullmatch(r"# (HELP|TYPE) ([a-z_]+) (.+)", line)
            if about:
                told[about[1]].add(about[2])
                self.assertTrue(about[1] == "HELP" or about[3] in ("gauge", "counter"))
            else:
                value = re.fullmatch(r'([a-z_]+)(\{[a-z]+="[a-z_]+"(,[a-z]+="[a-z_]+")*\})? [0-9.e+-]+', line)
                assert value, line
                self.assertTrue(value[1] in told["HELP"] and value[1] in told["TYPE"], line)


class Kept(unittest.TestCase):
    """The feed: versions, and what is told to who comes back. Its pictures follow each other at once."""

    def setUp(self) -> None:
        self.now, self.told = shown.Picture(LOBBY), []  # type: tuple[shown.Picture, list[bytes]]
        self.feed = feed.Feed(lambda: self.now, self.told.append)
        self.addCleanup(setattr, feed, "PAUSE", feed.PAUSE)
        feed.PAUSE = 0.0

    def show(self, it: shown.Picture) -> None:
        self.now = it
        self.feed.changed()
        self.feed.refresh()

    def test_versions(self) -> None:
        self.show(picture(SAID))
        first = self.feed.version
        self.assertEqual(json.loads(self.feed.document())["version"], first)
        self.show(picture(SAID + b"REMOVEUSER Cleo\n"))
        self.assertEqual([*self.feed.since(first)], [self.told[1]])
        self.assertEqual([*self.feed.since(self.feed.version)], [])
        self.assertEqual(fields(self.told[1])["id"], [self.feed.version])
        self.assertNotEqual(self.feed.version, first)

    def test_unknown_version(self) -> None:
        """Of another start, of none, or too old: the whole picture is to be fetched."""
        self.show(picture(SAID))
        other = feed.Feed(lambda: self.now, self.told.append)
        for version in (other.version, "", "x", f"{self.feed.version}0"):
            self.assertEqual([fields(it)["event"] for it in self.feed.since(version)], [["again"]])

    def test_nothing_changed(self) -> None:
        self.show(picture(SAID))
        before = self.feed.version
        self.show(picture(SAID))
        self.assertEqual((self.feed.version, len(self.told)), (before, 1))

    def test_not_before_the_pause(self) -> None:
        self.show(picture(SAID))
        feed.PAUSE = 1_000.0
        self.show(picture(SAID + b"REMOVEUSER Cleo\n"))
        self.assertEqual(len(self.told), 1)

    def test_great_change(self) -> None:
        """It is not told whole, and what is kept is bounded."""
        many = b"".join(b"ADDUSER u%d DE 0 1\n" % number for number in range(1_000))
        self.show(picture(SAID + many))
        self.assertEqual(fields(self.told[0])["event"], ["again"])
        first = self.feed.version
        with mock.patch.object(feed, "KEPT", 2_000):
            for number in range(50):
                self.show(picture(SAID + many + b"CLIENTSTATUS u%d 1\n" % number))
        self.assertEqual([fields(it)["event"] for it in self.feed.since(first)], [["again"]])
        self.assertLessEqual(sum(len(it) for _, it in self.feed._kept), 2_000)
        self.assertGreater(len(self.feed._kept), 3)


class Page(unittest.TestCase):
    """The files of the page: there is no script in the page itself, and none of what makes HTML of a text."""

    HERE = Path(rudderraisin.__file__).parent / "page"

    def test_no_script_inside(self) -> None:
        inside, test = [], self

        class Reader(html.parser.HTMLParser):
            def handle_starttag(self, tag: str, attributes: Any) -> None:
                given = dict(attributes)
                test.assertFalse([name for name in given if name.startswith("on") or name == "style"], tag)
                test.assertNotEqual(tag, "style")
                if tag == "script":
                    inside.append(given["src"])
        Reader().feed((self.HERE / "page.html").read_text(encoding="utf-8"))
        self.assertEqual(inside, ["page.js"])

    def test_no_text_becomes_html(self) -> None:
        script = (self.HERE / "page.js").read_text(encoding="utf-8")
        makers = r"innerHTML|outerHTML|insertAdjacentHTML|document\.write|DOMParser|createContextualFragment|" \
                 r"\beval\b|\bFunction\(|setAttribute|srcdoc|javascript:|\.(href|src) ="
        self.assertIsNone(re.search(makers, script))
        self.assertIn("textContent", script)

    def test_title(self) -> None:
        words = ["--user", "Anna", "--password-file", "-", "--title", "<b>'\"&</b>"]
        status = main.Status(main.arguments().parse_args(words), "password")
        page = status.answer("/")
        assert page is not None
        self.assertEqual(page.body.count(b"&lt;b&gt;&#x27;&quot;&amp;&lt;/b&gt;"), 2)
        self.assertNotIn(b"<b>'", page.body)
        self.assertNotIn(b"@TITLE@", page.body)


if __name__ == "__main__":
    unittest.main()
