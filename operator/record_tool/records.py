"""A record of a server: its files, its lines in the order of their places, and what lobby_play answers of it."""
import bisect
import contextlib
import gzip
import heapq
import os
import re
import shutil
import subprocess
import sys
import tempfile
import time
from pathlib import Path

# Each login that passed has this word in a record, whatever its own is.
PASSES = b"AAAAAAAAAAAAAAAAAAAAAA=="
# The view of a client that never was is one line, which no other answer is: it parts the answers of others.
NOBODY = 4294967295
MARK = b"me \n"
ESCAPE = re.compile(rb"\\(n|t|r|\\|x[0-9A-Fa-f]{2})")
ESCAPED = {b"n": b"\n", b"t": b"\t", b"r": b"\r", b"\\": b"\\"}
# Lines of other kinds, of which most are, put nothing for anybody.
TELLING = re.compile(rb"(?m)^(\d+) (open|send|shut) (\d+)(?: (.*))?\n")
BLOCK = 1 << 22
TIMES = "times"


class Refused(Exception):
    """Why nothing is answered."""


def program(name):
    """A program of the server: what $LOBBY_PLAY or the like names, or the one beside this one, or one of the path."""
    beside = Path(sys.argv[0]).resolve().parent / name
    found = os.environ.get(name.upper()) or (str(beside) if os.access(beside, os.X_OK) else shutil.which(name))
    if not found:
        raise Refused(f"there is no program {name}, neither beside {sys.argv[0]} nor in a folder of PATH")
    return found


def numbered(folder):
    """The numbers below a folder, from the least: records, or files of workers."""
    try:
        return sorted({int(it.name.removesuffix(".gz")) for it in folder.iterdir()
                       if re.fullmatch(r"\d+(\.gz)?", it.name)})
    except OSError as error:
        raise Refused(f"{folder}: it cannot be read: "
                      f"{error.strerror}{': try it as root' if isinstance(error, PermissionError) else ''}") from None


def unescaped(text):
    """The bytes that a client sent, by what a record has of them."""
    return ESCAPE.sub(lambda it: ESCAPED.get(it[1]) or bytes([int(it[1][1:], 16)]), text)


class Line:
    """What a client did: it connected, sent a line, or its connection ended."""

    def __init__(self, place, verb, client, text):
        self.place, self.verb, self.client, self.text = place, verb, client, text

    def command(self):
        """The command word of a line that was sent, and what stands behind it, without the id and the line's end."""
        if self.verb != b"send":
            return b"", b""
        said = re.sub(rb"^#\d+ +", b"", unescaped(self.text).rstrip(b"\n").lstrip(b" "))
        word, _, rest = said.partition(b" ")
        return word, rest


class Session:
    """One client of a record: where it connected from, its places from the first to the last, and under which names it
    asked to log in."""

    def __init__(self, client, address, first):
        self.client, self.address, self.first, self.last, self.is_ended = client, address, first, first, False
        self.asked = []         # the place of each LOGIN, its name, and whether the word was right
        self.name, self.login = None, None
        self.denied = []        # the place, the name and why


class Times:
    """When the places of a record were written, as the file beside them has it: a place, the time by which it was
    there, and `late` where the reader had not looked before."""

    def __init__(self, folder):
        self.places, self.seconds, self.late = [], [], set()
        with contextlib.suppress(FileNotFoundError):
            for line in (folder / TIMES).read_text(encoding="utf-8", errors="replace").split("\n")[:-1]:
                found = re.fullmatch(r"(\d+) (\d{4}-\d\d-\d\dT\d\d:\d\d:\d\d)Z( late)?", line)
                if found and (not self.places or int(found[1]) > self.places[-1]):
                    if found[3]:
                        self.late.add(len(self.places))
                    self.places.append(int(found[1]))
                    self.seconds.append(utc(found[2]))

    def __bool__(self):
        return bool(self.places)

    def at(self, place):
        """The time of a place in seconds, and whether it may have been long before; None where it is not known."""
        number = bisect.bisect_left(self.places, place)
        return (self.seconds[number], number in self.late) if number < len(self.places) else None

    def place_from(self, second):
        """The first place that was not written before a time."""
        number = bisect.bisect_left(self.seconds, second)
        return self.places[number - 1] + 1 if number else 0

    def place_until(self, second):
        """The first place that was written behind a time."""
        number = bisect.bisect_right(self.seconds, second)
        return self.places[number - 1] + 1 if number else 0

    def shown(self, place, form="%Y-%m-%d %H:%M:%S"):
        """The time of a place for people, in the zone of this machine."""
        found = self.at(place)
        return "" if not found else ("by " if found[1] else "") + time.strftime(form, time.localtime(found[0]))


def utc(text):
    """Seconds since 1970 of a time such as 2026-11-30T20:15:02."""
    import calendar
    return calendar.timegm(time.strptime(text, "%Y-%m-%dT%H:%M:%S"))


class Record:
    """The record of one start of a server."""

    def __init__(self, folder):
        self.folder, self.times = folder, Times(folder)

    def workers(self):
        return numbered(self.folder)

    def file(self, number):
        """Opens the file of a worker, also one that was packed."""
        plain = self.folder / str(number)
        return plain.open("rb") if plain.exists() else gzip.open(f"{plain}.gz", "rb")

    def lines_of(self, number):
        with self.file(number) as file:
            rest = b""
            while block := file.read(BLOCK):
                text = rest + block
                whole = text.rfind(b"\n") + 1
                for found in TELLING.finditer(text, 0, whole):
                    yield int(found[1]), found[2], int(found[3]), found[4] or b""
                rest = text[whole:]

    def lines(self, begin=0, end=1 << 64):
        """The lines that may put something for somebody, by place, from one place up to and without another."""
        try:
            for it in heapq.merge(*map(self.lines_of, self.workers())):
                if it[0] >= end:
                    break
                if it[0] >= begin:
                    yield Line(*it)
        except (OSError, EOFError) as error:
            raise Refused(f"{self.folder}: it cannot be read: {error}") from None

    def span(self):
        """When it began and when it was last written, by the times of its files."""
        try:
            last = max(it.stat().st_mtime for it in self.folder.iterdir())
            return (self.folder / "settings.toml").stat().st_mtime, last
        except OSError:
            return None

    @contextlib.contextmanager
    def plain(self):
        """A folder that lobby_play can play: this one, or a copy of one that was packed."""
        if not any(self.folder.glob("[0-9]*.gz")):
            yield self.folder
            return
        with tempfile.TemporaryDirectory(prefix="lobby-record-") as room:
            for it in self.folder.glob("*.toml"):
                shutil.copy(it, room)
            for number in self.workers():
                with self.file(number) as file, open(f"{room}/{number}", "wb") as copy:
                    shutil.copyfileobj(file, copy)
            yield Path(room)

    def answers(self, questions):
        """What lobby_play answers to each of some questions, whose places must not fall: lists of lines, one list a
        question. A question is a place, before which events are played, and `show` or `view` with a client."""
        asked = "".join(f"until {place}\n{word} {client}\nview {NOBODY}\n" for place, word, client in questions)
        with self.plain() as folder, tempfile.TemporaryFile() as file, tempfile.TemporaryFile() as told:
            file.write(asked.encode())
            file.seek(0)
            call = [program("lobby_play"), "--record", folder]
            with subprocess.Popen(call, stdin=file, stdout=subprocess.PIPE, stderr=told) as play:
                lines = []
                for line in play.stdout:
                    if line == MARK:
                        yield lines
                        lines = []
                    else:
                        lines.append(line[:-1])
            told.seek(0)
            if play.returncode:
                raise Refused(f"{self.folder}: lobby_play ends with status {play.returncode}: "
                              f"{told.read().decode(errors='replace').strip()}")

    def sessions(self):
        """Its clients by number, with the names under which the server let them in."""
        clients = {}
        for it in self.lines():
            if it.verb == b"open":
                clients[it.client] = Session(it.client, it.text.decode(), it.place)
                continue
            session = clients.get(it.client)
            if session is None:
                continue
            session.last = it.place
            session.is_ended = session.is_ended or it.verb == b"shut"
            if it.verb == b"send" and b"LOGIN " in it.text:
                command, rest = it.command()
                words = rest.split(b" ")
                if command == b"LOGIN" and len(words) > 1:
                    session.asked.append((it.place, words[0], words[1] == PASSES))
        self.log_in(clients)
        return clients

    def log_in(self, clients):
        """Asks what came of each login whose word was right."""
        tries = sorted((place, it.client, name) for it in clients.values() for place, name, passes in it.asked
                       if passes)
        answers = self.answers((place + 1, "show", client) for place, client, _ in tries)
        for (place, client, name), lines in zip(tries, answers):
            told = [it.partition(b"> ")[2] for it in lines]
            told = [re.sub(rb"^#\d+ ", b"", it) for it in told]
            if b"ACCEPTED " + name in told:
                clients[client].name, clients[client].login = name, place
            else:
                why = next((it for it in reversed(told) if it.startswith(b"DENIED ")), b"DENIED ")
                clients[client].denied.append((place, name, why[7:]))
        for it in clients.values():
            it.denied += [(place, name, b"Invalid username or password") for place, name, passes in it.asked
                          if not passes]


def records_in(folder):
    """The records of a folder, from the oldest: those below it, or the one that it is."""
    folder = Path(folder)
    if (folder / "settings.toml").exists():
        return [Record(folder)]
    found = [Record(folder / str(it)) for it in numbered(folder) if (folder / str(it) / "settings.toml").exists()]
    if not found:
        raise Refused(f"{folder}: there is no record in it")
    return sorted(found, key=lambda it: it.span() or (0, 0))
