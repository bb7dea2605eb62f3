#!/usr/bin/env python3
"""Lets tools/protocol.py compare what it writes, and sees that it refuses tables that are wrong, each by its name."""
import shutil
import subprocess
import sys
import tempfile
from pathlib import Path

ROOT = Path(__file__).resolve().parent.parent
sys.path.insert(0, str(ROOT / "tools"))
from written.fences import FenceError, Region, difference  # noqa: E402
from written.lines import check_lines  # noqa: E402
from written.numbers import HEADER, check_numbers  # noqa: E402
from written.table import Command, Reply, TableError, Tables  # noqa: E402

BAD = '["MYSTATUS 1x", "bad number"]'
MOVED = (Command, None, None, "number: it is 27 in include/lobby.h for ever, and not 28")
# What is changed in a table, and what is said of it: the line and the field are named.
WRONG = [
    (Command, "number = 27\n", "number = 28\n", "ENABLEUNITS: number: 28 stands in line "),
    (Command, "number = 36\n", "number = 40\n", "is not 36, the next one"),
    (Command, 'word = "ENABLEUNITS"\n', 'word = "DISABLEUNITS"\n', "DISABLEUNITS: word: DISABLEUNITS stands in line "),
    (Reply, "number = 46\n", "number = 47\n", "number: 47 stands in line "),
    (Reply, 'variant = "Ring"\n', 'variant = "Rings"\n', "RING: variant: Rings is not RING in other letters"),
    (Command, 'arguments = "u32 status"', 'arguments = "u64 status"', "MYSTATUS: arguments: 'u64 status' is no argument "),
    (Command, BAD, '["MYSTATUS 1x"]', "MYSTATUS: bad: ['MYSTATUS 1x'] is no line with one of "),
    (Command, BAD, '["MYSTATUS 1x", "bad"]', "MYSTATUS: bad: ['MYSTATUS 1x', 'bad'] is no line with one of "),
    (Command, BAD, '["MYSTATUS 1", "bad number"]', "MYSTATUS: bad: 'MYSTATUS 1': no fault, and not bad number"),
    (Reply, '"REMOVEBOT 1 Rex"', '"REMOVEBOT 0 Rex"', "REMOVEBOT: good: 'REMOVEBOT 0 Rex': bad number"),
    (Reply, '"REMOVEBOT 1 Rex"', '"REMOVEBOT 01 Rex"', "REMOVEBOT: good: 'REMOVEBOT 01 Rex': a reply prints as "),
    (Command, 'who = "founder"', 'who = "nobody"', "who: 'nobody' is none of anyone, user, member, founder"),
    (Command, 'row = "status_row"\n', "", "MYSTATUS: row: it names the row "),
    (Command, 'meaning = "Leaves a channel."\n', "", "LEAVE: meaning: it is missing"),
    (Reply, '"SAID main Anna"', '"SAID main Anna hi"', "SAID: bad: 'SAID main Anna hi' is a reply, or another's line"),
    (Reply, '"SAID main Anna"', '"SAIDEX main Anna"', "SAID: bad: 'SAIDEX main Anna' is a reply, or another's line"),
    (Reply, 'tells = "users"', 'tells = "all"', "ADDUSER: tells: 'all' is none of users, battles, room, "),
    (Reply, 'tells = "users"\n', "", "ADDUSER: tells: it is missing"),
    (Command, '"rings {rest}"', '"rings {user}"', "RING: deed: user is none of first, others, rest, title"),
    (Command, 'part = "users"', 'place = "users"', "LOGIN: place: there is no such field"),
]


def refusal(root):
    """What is said of the tables below a folder."""
    try:
        tables = Tables(root)
        check_lines(tables)
        check_numbers(tables)
    except TableError as error:
        return str(error)
    return "nothing"


def swapped(text):
    """A table in which two commands have changed their numbers, and are each the next one again."""
    for old, new in (("27", "X"), ("28", "27"), ("X", "28")):
        text = text.replace(f"number = {old}\n", f"number = {new}\n")
    return text


def faults(root):
    """A line for each wrong table that is not refused as it is to be."""
    for kind, old, new, wanted in [*WRONG, MOVED]:
        path = root / kind.FILE
        whole = path.read_text(encoding="utf-8")
        path.write_text(swapped(whole) if old is None else whole.replace(old, new, 1), encoding="utf-8")
        said = refusal(root)
        if wanted not in said or not said.startswith(f"{kind.FILE}:"):
            yield f"of {new!r} is said {said}, and not {wanted}"
        path.write_text(whole, encoding="utf-8")


def fence_faults():
    """A line for each fault of a file with a region that is not told."""
    region = Region("some.rt", "words", "replies", lambda tables: [])
    first, last = region.fences()
    for lines, wanted in [
        ([first, "one", "two", last], None),
        ([first, "one", "three", last], "some.rt:3: words: it has 'three', and is to have 'two'"),
        ([first, "one", " two", last], "some.rt:3: words: it has ' two', and is to have 'two'"),
        ([first, "one", last], "some.rt:3: words: it ends, and is to have 'two'"),
        ([first, "one", "two", "three", last], "some.rt:4: words: it has 'three', and is to end"),
        ([first, "one", "two"], f"some.rt: the line {last!r} stands 0 times, and is to stand once"),
    ]:
        try:
            said = difference(region, lines, ["one", "two"])
        except FenceError as error:
            said = str(error)
        if said != wanted:
            yield f"of {lines} is said {said}, and not {wanted}"


def main():
    with tempfile.TemporaryDirectory() as room:
        root = Path(room)
        shutil.copytree(ROOT / "protocol", root / "protocol")
        (root / HEADER).parent.mkdir()
        shutil.copy(ROOT / HEADER, root / HEADER)
        found = [*faults(root), *fence_faults()]
        if refusal(root) != "nothing":
            found.append(f"the tables as they are: {refusal(root)}")
    for it in found:
        print(it)
    print(f"tables: {len(WRONG) + 8 - len(found)} passed, {len(found)} failed", flush=True)
    compared = subprocess.run([ROOT / "tools/protocol.py", "--check"])
    return 1 if found else compared.returncode


if __name__ == "__main__":
    sys.exit(main())
