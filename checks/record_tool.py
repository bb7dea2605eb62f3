#!/usr/bin/env python3
"""record_tool.py [FOLDER]: a server records a battle of four users, while lobby_record keeps the times, and
lobby_record finds, shows, tells and packs what is in the record. What has to be told follows from the lines that the
users sent, by docs/PROTOCOL.md. The programs are those that the gate built, or those of a folder."""
import contextlib
import fcntl
import html.parser
import os
import re
import shutil
import signal
import subprocess
import sys
import tempfile
import time
from pathlib import Path

from lobby_server import PATIENCE, ROOT, WORD, Account, Server, greeted, use_programs

TOOL = ROOT / "operator/lobby_record.py"
counts = {True: 0, False: 0}
NAMES = {"Anna": "127.0.0.2", "Ben": "127.0.0.3", "Cleo": "127.0.0.4", "Dora": "127.0.0.5"}
EVIL = "<script>alert(1)</script>\"'&<img src=x onerror=alert(1)> \u202ekcab \x1b[31m"
# What tags a page may have: none fetches or runs anything.
TAGS = set("html head meta title style body h1 h2 h3 p b bdi code div label input section ol ul li a details summary "
           "table tr th td pre span".split())
ATTRIBUTES = set("lang charset http-equiv content name class id href type checked open style".split())


def tells(what, is_so, shown=""):
    """Counts whether something is as it is to be."""
    counts[bool(is_so)] += 1
    if not is_so:
        print(f"record_tool: {what}: it is not so{': ' if shown else ''}{shown}", flush=True)


def run(*words, status=0):
    ran = subprocess.run([sys.executable, TOOL, *map(str, words)], capture_output=True, timeout=300, check=False)
    tells(f"lobby_record {' '.join(map(str, words))} ends with status {status}", ran.returncode == status,
          ran.stdout.decode() + ran.stderr.decode())
    return (ran.stderr if status else ran.stdout).decode()


class Scene:
    """Users whose lines are served one after another, so that the order of the places is theirs."""

    def __init__(self, server):
        self.server, self.clients, self.number = server, {}, 0

    def connects(self, name):
        self.clients[name] = greeted(self.server, source=NAMES[name])

    def says(self, name, *lines):
        for line in lines:
            client = self.clients[name]
            client.send(line.encode() + b"\n")
            # Whatever it was, its PONG comes behind all that it puts for its sender.
            self.number += 1
            mark = b"#%d PONG\n" % self.number
            client.send(b"#%d PING\n" % self.number)
            while mark not in client.heard:
                client.receive()


def logs_in(name, word=WORD):
    return f"LOGIN {name} {word} 0 * Checks 1.0"


def play(server):
    """The battle. The pauses are for the times to tell one second from another."""
    scene = Scene(server)
    for name in "Anna", "Ben", "Cleo":
        scene.connects(name)
    scene.says("Ben", logs_in("Ben", "wrong"), logs_in("Ben"), "JOIN main")
    scene.says("Anna", logs_in("Anna"), "OPENBATTLE 0 0 secret 8452 8 -1 0 123 Spring\t104.0\tComet Catcher\tTitle "
                                        "<b>\tBA 9.46",
               "SETSCRIPTTAGS a=1\tb=<i>2", "ADDSTARTRECT 3 0 0 50 200", "DISABLEUNITS armcom corcom")
    scene.says("Cleo", logs_in("Cleo"))
    scene.says("Ben", "JOINBATTLE 1 secret myscript", "MYBATTLESTATUS 4195330 255", f"SAYBATTLE {EVIL}",
               "ADDBOT Helper 4195394 65280 RAI 2")
    time.sleep(2.5)
    scene.says("Cleo", "JOINBATTLE 1 secret", "SAYPRIVATE Ben between us")
    scene.says("Anna", "REMOVEBOT Helper", "HANDICAP Ben 30", "ENABLEUNITS armcom", "REMOVESCRIPTTAGS a",
               "UPDATEBATTLEINFO 2 1 9 Delta Siege")
    scene.says("Ben", "KICKFROMBATTLE Cleo", "REMOVEBOT Helper")
    time.sleep(2.5)
    scene.says("Anna", "KICKFROMBATTLE Ben", "SAYBATTLE gone")
    scene.clients["Ben"].close()
    time.sleep(0.5)
    scene.connects("Dora")
    scene.says("Dora", logs_in("Ben"))
    for it in scene.clients.values():
        it.close()


def is_free(folder):
    """Whether nobody keeps the times of this folder, which is locked then."""
    handle = os.open(folder, os.O_RDONLY)
    try:
        fcntl.flock(handle, fcntl.LOCK_EX | fcntl.LOCK_NB)
        return True
    except BlockingIOError:
        return False
    finally:
        os.close(handle)


@contextlib.contextmanager
def keeping_times(folder):
    """lobby_record times, which looks at the folder before the server starts."""
    with subprocess.Popen([sys.executable, TOOL, "times", folder, "--every", "0.2"], stderr=subprocess.PIPE) as ran:
        until = time.monotonic() + PATIENCE
        while is_free(folder) and time.monotonic() < until:
            time.sleep(0.05)
        told = run("times", folder, status=1)
        tells("a second keeper of times is refused", "another lobby_record keeps its times" in told, told)
        yield ran
        time.sleep(1)
        ran.send_signal(signal.SIGTERM)
        told = ran.stderr.read()
        tells("the keeper of times ends in order, and told nothing", ran.wait(30) == 0 and not told, told)


def recorded(folder):
    """Makes a record of the battle."""
    accounts = [Account(name, number) for number, name in enumerate(NAMES, 1)]
    with keeping_times(folder), Server(2, accounts, f'record = "{folder}"\n') as server:
        play(server)
        time.sleep(0.5)
        newest = folder / str(max(int(it.name) for it in folder.iterdir()))
        run("pack", folder, "--compress-after", "0", "--keep-days", "0", "--keep-size", "1")
        names = {it.name for it in newest.iterdir()}
        tells("a record that is being written is not packed", names >= {"0", "1", "settings.toml", "times"}, names)
        server.stop()
    return newest


def place_of(record, text):
    """The place of the one line with this text."""
    found = [it for file in record.glob("[0-9]*") for it in file.read_bytes().split(b"\n")
             if it.endswith(text.encode())]
    assert len(found) == 1, (text, found)
    return int(found[0].split(b" ")[0])


class Reader(html.parser.HTMLParser):
    """The text of each happening of a page, by place; tags and attributes that there are."""

    def __init__(self, text):
        super().__init__()
        self.tags, self.attributes, self.links, self.whole = set(), set(), [], []
        self.places, self.place = {}, None
        self.feed(text)

    def handle_starttag(self, tag, attrs):
        self.tags.add(tag)
        self.attributes |= {key for key, _ in attrs}
        words = dict(attrs)
        self.links += [words["href"]] if "href" in words else []
        if tag == "li" and "at" in words.get("class", "").split():
            self.place = int(words["id"].partition("-")[2])
            self.places[self.place] = ""
        elif tag == "section":
            self.place = None

    def handle_data(self, data):
        self.whole.append(data)
        if self.place is not None:
            self.places[self.place] += data + " "


def page_of(folder, *words):
    with tempfile.TemporaryDirectory() as room:
        run("story", folder, *words, "-o", f"{room}/page.html")
        path = Path(room, "page.html")
        text = path.read_text(encoding="utf-8") if path.exists() else ""
        tells("only its maker reads a page", path.exists() and path.stat().st_mode & 0o077 == 0)
    return text


def said_at(reader, record, line, *wanted):
    """The happening of a line says these words."""
    place = place_of(record, line)
    said = re.sub(r"\s+", " ", reader.places.get(place, "nothing"))
    tells(f"the page says of `{line}`: {', '.join(wanted)}", all(it in said for it in wanted), said)


def check_page(folder, _):
    """A page does nothing, whatever players wrote."""
    text = page_of(folder, "--client", "Ben", "--from", "0")
    reader = Reader(text)
    tells("a page has tags alone that do nothing", reader.tags <= TAGS and reader.attributes <= ATTRIBUTES,
          (reader.tags - TAGS, reader.attributes - ATTRIBUTES))
    tells("its links lead into it", all(it.startswith("#") for it in reader.links), reader.links)
    tells("it forbids itself to fetch and to run", "default-src 'none'; style-src 'unsafe-inline'" in text)
    tells("what is said is text, and what is not seen is an escape",
          any("<script>alert(1)</script>\"'&<img src=x onerror=alert(1)> \\u202ekcab \\u001b[31m" in it
              for it in reader.places.values()))
    tells("no word of a battle, no script password and no private talk is told",
          not re.search("secret|myscript|between us", "".join(reader.whole)))
    tells("that private talk is left out is told", "1 with private talk" in "".join(reader.whole))
    told = run("story", folder, "--client", "Nobody", "-o", folder / "x.html", status=1)
    tells("a name that is in no record is told", "Nobody is in no record" in told, told)
    told = run("story", folder, "--client", "Ben", "-o", folder / "no/x.html", status=1)
    tells("a page that cannot be written is told", "cannot be written" in told, told)


def check_story(folder, record):
    """A page says who did what, and how the room changed."""
    reader = Reader(page_of(folder, "--client", "Ben", "--from", "0"))
    said_at(reader, record, r"LOGIN Ben B 0 * \n", "refused:", "logs in as Ben", "Invalid username or password")
    said_at(reader, record, r"JOINBATTLE 1 secret myscript\n", "battle 1", "Title <b>", "Comet Catcher", "members: 2",
            "bots: none", "start rectangles: 1", "script tags: 2", "<i>2", "disabled units: 2", "armcom")
    said_at(reader, record, r"MYBATTLESTATUS 4195330 255\n", "ready no → yes", "plays spectator → yes",
            "sync unknown → synced", "#000000", "#ff0000")
    said_at(reader, record, r"ADDBOT Helper 4195394 65280 RAI 2\n", "Ben adds a bot Helper", "bot Helper", "owner Ben",
            "AI RAI 2", "ally team 1", "#00ff00")
    said_at(reader, record, r"send 3 JOINBATTLE 1 secret\n", "Cleo enters", "member Cleo")
    said_at(reader, record, r"send 1 REMOVEBOT Helper\n", "Anna takes away the bot Helper", "owner Ben", "bots: none")
    said_at(reader, record, r"HANDICAP Ben 30\n", "handicap 0 → 30")
    said_at(reader, record, r"ENABLEUNITS armcom\n", "disabled unit armcom", "disabled units: 1")
    said_at(reader, record, r"REMOVESCRIPTTAGS a\n", "script tag a", "value 1", "script tags: 1")
    said_at(reader, record, r"UPDATEBATTLEINFO 2 1 9 Delta Siege\n", "spectators 0 → 2", "locked no → yes",
            "map Comet Catcher → Delta Siege")
    said_at(reader, record, r"KICKFROMBATTLE Cleo\n", "refused:", "You are not the founder")
    said_at(reader, record, r"send 2 REMOVEBOT Helper\n", "refused:", "No such bot")
    said_at(reader, record, r"KICKFROMBATTLE Ben\n", "Anna kicks Ben", "in no room any more")
    tells("what is said in a battle behind the player's leaving is not told",
          "gone" not in [it.strip() for it in reader.whole])


def check_window(folder, record):
    """A page of some places, and one of all who opened a battle."""
    reader = Reader(page_of(folder, "--client", "Ben", "--private", "--from",
                            place_of(record, r"SAYPRIVATE Ben between us\n"), "--to",
                            place_of(record, r"HANDICAP Ben 30\n")))
    said_at(reader, record, r"SAYPRIVATE Ben between us\n", "Cleo says in private to Ben : between us")
    tells("a page begins and ends where it is told to", [min(reader.places), max(reader.places)]
          == [place_of(record, r"SAYPRIVATE Ben between us\n"), place_of(record, r"HANDICAP Ben 30\n")],
          reader.places.keys())
    tells("it shows the room before its first place", "members: 3" in "".join(reader.whole[:200]), reader.whole[:200])
    reader = Reader(page_of(folder))
    said_at(reader, record, r"send 1 REMOVEBOT Helper\n", "Anna takes away the bot Helper")
    tells("without a client it is of who opened a battle", "Anna" in reader.whole
          and not re.search("secret|myscript", "".join(reader.whole)))


def check_times(folder, record):
    lines = (record / "times").read_text().splitlines()
    found = [re.fullmatch(r"(\d+) (\d{4}-\d\d-\d\dT\d\d:\d\d:\d\dZ)( late)?", it) for it in lines]
    tells("each line of the times is a place and a time", all(found), lines)
    places, when = [int(it[1]) for it in found], [it[2] for it in found]
    tells("places rise and times do not fall", places == sorted(set(places)) and when == sorted(when), lines)
    last = max(int(it.split(b" ")[0]) for file in record.glob("[01]") for it in file.read_bytes().split(b"\n")
               if it[:1].isdigit())
    tells("the last place has a time", places[-1] == last, (places[-1], last))

    def at(text):
        place = place_of(record, text)
        return next(time.mktime(time.strptime(it[2], "%Y-%m-%dT%H:%M:%SZ")) for it in found if int(it[1]) >= place)

    first, second, third = (at(it) for it in (r"send 2 JOINBATTLE 1 secret myscript\n", r"HANDICAP Ben 30\n",
                                              r"KICKFROMBATTLE Ben\n"))
    tells("the times are as far apart as the lines were", 1 <= second - first <= 60 and 1 <= third - second <= 60,
          (first, second, third))
    # By the times alone: what lies between the pauses.
    shown = run("find", "Ben", folder)
    clock = re.search(r"(\d{4}-\d\d-\d\d \d\d:\d\d:\d\d) +place \d+: Anna: HANDICAP Ben 30", shown)
    tells("find says when", clock, shown)
    begin = time.strptime(clock[1], "%Y-%m-%d %H:%M:%S")
    words = [time.strftime("%Y-%m-%d %H:%M:%S", time.localtime(time.mktime(begin) + more)) for more in (-1, 1)]
    reader = Reader(page_of(folder, "--client", "Ben", "--from", words[0], "--to", words[1]))
    wanted = [place_of(record, it) for it in (r"send 1 REMOVEBOT Helper\n", r"HANDICAP Ben 30\n",
                                              r"ENABLEUNITS armcom\n")]
    other = [place_of(record, it) for it in (r"ADDBOT Helper 4195394 65280 RAI 2\n", r"KICKFROMBATTLE Ben\n")]
    tells("a page of some seconds has what was then", set(wanted) <= set(reader.places)
          and not set(other) & set(reader.places), reader.places.keys())
    for text in "noon", "25:00", "2026-13-01 10:00":
        told = run("story", folder, "--client", "Ben", "--from", text, "-o", "-", status=1)
        tells(f"{text} is no time", f"{text} is no time" in told, told)


def check_find(folder, record):
    shown = run("find", "Ben", folder)
    rows = [re.sub(r"^ +(by )?\S+ \S+ +", "", it) for it in shown.splitlines()]
    wanted = [f"place {place_of(record, text)}: {words}" for text, words in (
        (r"LOGIN Ben B 0 * \n", "client 2 from 127.0.0.3 is denied: Invalid username or password"),
        (r"send 2 LOGIN Ben AAAAAAAAAAAAAAAAAAAAAA== 0 * \n", "client 2 from 127.0.0.3 logs in"),
        (r"HANDICAP Ben 30\n", "Anna: HANDICAP Ben 30"), (r"KICKFROMBATTLE Ben\n", "Anna: KICKFROMBATTLE Ben"),
        (r"shut 2", "client 2 is gone"),
        (r"send 4 LOGIN Ben AAAAAAAAAAAAAAAAAAAAAA== 0 * \n", "client 4 from 127.0.0.5 logs in"),
        (r"shut 4", "client 4 is gone"))]
    tells("find says when somebody was there, and who named them", rows == [str(record), *wanted],
          f"{rows} and not {wanted}")
    tells("a name in another case is told", "there is Ben" in run("find", "ben", folder, status=1))
    shown = run("show", "2", record, "--from", place_of(record, r"HANDICAP Ben 30\n")).splitlines()[1:]
    wanted = [(r"HANDICAP Ben 30\n", "CLIENTBATTLESTATUS Ben 4256770 255"),
              (r"ENABLEUNITS armcom\n", "ENABLEUNITS armcom"),
              (r"REMOVESCRIPTTAGS a\n", "REMOVESCRIPTTAGS a"),
              (r"UPDATEBATTLEINFO 2 1 9 Delta Siege\n", "UPDATEBATTLEINFO 1 2 1 9 Delta Siege"),
              (r"KICKFROMBATTLE Cleo\n", "SERVERMSG You are not the founder"),
              (r"send 2 REMOVEBOT Helper\n", "SERVERMSG No such bot"),
              (r"KICKFROMBATTLE Ben\n", "FORCEQUITBATTLE"), (r"KICKFROMBATTLE Ben\n", "LEFTBATTLE 1 Ben")]
    found = [(int(it.split()[0]), it.split(None, 3)[3]) for it in shown if " PONG" not in it]
    tells("show says at which place each line was put",
          found == [(place_of(record, text), line) for text, line in wanted], shown)


def check_pack(folder, record):
    plain = page_of(folder, "--client", "Ben", "--from", "0")
    text = {it.name: it.read_bytes() for it in record.iterdir()}
    told = run("pack", folder, "-n", "--compress-after", "0")
    tells("a trial of packing changes nothing",
          "would be compressed" in told and {it.name: it.read_bytes() for it in record.iterdir()} == text, told)
    run("pack", folder)
    tells("a record of today is left alone", (record / "0").exists())
    # As if the machine had gone down when one file was compressed and the other had begun.
    (record / "1.gz.new").write_bytes(b"half")
    tells("what was packed is told", f"{record}: compressed" in run("pack", folder, "--compress-after", "0"))
    names = {it.name for it in record.iterdir()}
    tells("a record is packed", names == {"0.gz", "1.gz", "times", "settings.toml", "accounts.toml"}, names)
    for number in "0", "1":
        unpacked = subprocess.run(["gunzip", "-c", record / f"{number}.gz"], capture_output=True, check=False).stdout
        tells("gunzip gives a packed file back", unpacked == text[number])
    made = re.compile("Made by lobby_record of [^;]*;")
    packed = page_of(folder, "--client", "Ben", "--from", "0")
    tells("a packed record tells the same", made.sub("", packed) == made.sub("", plain) != "")
    second = folder / "2"
    shutil.copytree(record, second)
    for it in second.iterdir():
        os.utime(it, (time.time() - 40 * 86_400,) * 2)
    told = run("pack", folder, "--keep-days", "41")
    tells("a record younger than the days is kept", (second / "0.gz").exists() and "deleted" not in told, told)
    told = run("pack", folder, "--keep-days", "39")
    tells("an older one is deleted, and its number stays taken", second.is_dir() and not list(second.iterdir())
          and "40 days old" in told, told)
    third = folder / "3"
    shutil.copytree(record, third)
    for it in third.iterdir():
        os.utime(it, (time.time() - 86_400,) * 2)
    size = sum(it.stat().st_size for it in third.iterdir())
    told = run("pack", folder, "--keep-size", size + 10)
    tells("the oldest are deleted until the rest has the size", not list(third.iterdir())
          and (record / "0.gz").exists(), told)
    tells("a size that is none is told", "is no size" in run("pack", folder, "--keep-size", "much", status=1))
    (record / "0.gz").write_bytes((record / "0.gz").read_bytes()[:300])
    told = run("find", "Ben", folder, status=1)
    tells("a packed file that is torn is told", str(record) in told, told)


def check_crash(folder):
    """A record of a server that was killed: it is told as far as it goes, and packed when there is a later one."""
    crashed = folder / "7"
    crashed.mkdir()
    (crashed / "settings.toml").write_text('address = "0.0.0.0:0"\n')
    account = '[[account]]\nname = "Ben"\npassword = "AAAAAAAAAAAAAAAAAAAAAA=="\nid = 1\n'
    (crashed / "accounts.toml").write_text(account)
    (crashed / "0").write_text("0 open 1 10.0.0.1\n1 send 1 LOGIN Ben AAAAAAAAAAAAAAAAAAAAAA== 0 * x\\n\n1 take 1\n2 "
                               "send 1 SAYPRI")
    shown = run("find", "Ben", crashed)
    tells("a record without an end is read as far as it goes", "place 1: client 1 from 10.0.0.1 logs in" in shown
          and "is still there" in shown, shown)
    told = run("story", crashed, "--client", "Ben", "--from", "10:00", "-o", "-", status=1)
    tells("without times only places can be named", "it has no file of times" in told, told)
    run("pack", folder, "--compress-after", "0")
    tells("the last one is not packed without its end", (crashed / "0").exists())
    later = folder / "8"
    shutil.copytree(crashed, later)
    for it in crashed.iterdir():
        os.utime(it, (time.time() - 2 * 86_400,) * 2)
    run("pack", folder, "--compress-after", "0")
    tells("one with a later one, which was quiet for a day, is", (crashed / "0.gz").exists() and (later / "0").exists())


def main():
    use_programs((sys.argv[1:] or [None])[0], "lobby_main", "lobby_play")
    with tempfile.TemporaryDirectory(prefix="lobby-record-tool-") as room:
        record = recorded(Path(room))
        for it in check_page, check_story, check_window, check_times, check_find, check_pack:
            it(Path(room), record)
    with tempfile.TemporaryDirectory(prefix="lobby-record-tool-") as room:
        tells("a folder without a record is told", "there is no record in it" in run("find", "Ben", room, status=1))
        tells("a folder that is not there is told", "cannot be read" in run("find", "Ben", f"{room}/none", status=1))
        check_crash(Path(room))
    print(f"record_tool: {counts[True]} passed, {counts[False]} failed")
    return 1 if counts[False] else 0


if __name__ == "__main__":
    sys.exit(main())
