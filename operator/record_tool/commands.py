"""The commands of lobby_record."""
import argparse
import datetime
import os
import sys
import tempfile
import time
from pathlib import Path

from . import clock, pack, shown
from .page import Page
from .records import Refused, records_in
from .story import tell

FOLDER = "/var/lib/rudderraisin"
ENDLESS = 1 << 64
# Commands of others that name a user first.
# Written by tools/protocol.py of protocol/commands.toml: who is named.
NAMING = {b"JOINBATTLEACCEPT", b"JOINBATTLEDENY", b"HANDICAP", b"FORCETEAMNO", b"FORCEALLYNO", b"FORCETEAMCOLOR",
          b"FORCESPECTATORMODE", b"KICKFROMBATTLE", b"RING"}
# End of what is written: who is named.


def seconds_of(text):
    """A time of this machine's zone, as 20:15, 20:15:30 or 2026-11-30 20:15, in seconds. One without a day is the last
    that there was."""
    now = datetime.datetime.now()
    for form in ("%Y-%m-%d %H:%M:%S", "%Y-%m-%d %H:%M", "%Y-%m-%dT%H:%M:%S", "%Y-%m-%dT%H:%M", "%Y-%m-%d"):
        try:
            return datetime.datetime.strptime(text, form).timestamp()
        except ValueError:
            pass
    for form in ("%H:%M:%S", "%H:%M"):
        try:
            clock_time = datetime.datetime.strptime(text, form).time()
        except ValueError:
            continue
        found = datetime.datetime.combine(now.date(), clock_time)
        return (found if found <= now else found - datetime.timedelta(days=1)).timestamp()
    raise Refused(f"{text} is no time: write it as 20:15, as \"2026-11-30 20:15\", or as the number of a place")


class Window:
    """From when to when."""

    def __init__(self, options):
        self.begin, self.end = options.begin, options.end

    def places(self, record):
        """The places of a record from which, and up to and without which, the window goes."""
        begin = self.place(record, self.begin, 0, record.times.place_from)
        return begin, self.place(record, self.end, ENDLESS, record.times.place_until, 1)

    def place(self, record, text, otherwise, by_time, more=0):
        if text is None:
            return otherwise
        if text.isdigit():
            return int(text) + more
        if not record.times:
            raise Refused(f"{record.folder}: it has no file of times, for nobody kept one (lobby_record times): name "
                          f"places, as --from 120")
        return by_time(seconds_of(text))

    def has(self, record):
        """Whether a record was written in it. One of places has each."""
        span = record.span()
        begin, end = (seconds_of(it) if it and not it.isdigit() else None for it in (self.begin, self.end))
        return span is not None and (begin is None or span[1] >= begin) and (end is None or span[0] <= end)


def time_of(record, place):
    return record.times.shown(place) or "-"


def who(sessions, line):
    session = sessions.get(line.client)
    if session is not None and session.name is not None and session.login <= line.place:
        return shown.text(session.name)
    return f"client {line.client}"


def of_session(it, name):
    """What find says of a client that asked to log in by this name: places, and what happened there."""
    for place, asked, why in it.denied:
        if asked == name:
            yield place, f"client {it.client} from {it.address} is denied: {shown.text(why)}"
    if it.name == name:
        yield it.login, f"client {it.client} from {it.address} logs in"
        yield it.last, f"client {it.client} {'is gone' if it.is_ended else 'is still there, or the record ends'}"


def of_others(record, sessions, name):
    """What find says of others who named a user."""
    for it in record.lines():
        if it.verb == b"send" and name in it.text:
            command, rest = it.command()
            if command in NAMING and rest.split(b" ")[0] == name:
                yield it.place, f"{who(sessions, it)}: {command.decode()} {shown.text(rest)}"


def find(options):
    """Where a name is in the records of a folder."""
    name, seen, is_found = options.name.encode(), set(), False
    for record in records_in(options.folder):
        sessions = record.sessions()
        seen |= {it.name for it in sessions.values() if it.name}
        found = [line for it in sessions.values() for line in of_session(it, name)]
        found += of_others(record, sessions, name)
        if found:
            is_found = True
            print(record.folder)
        for place, what in sorted(found):
            print(f"  {time_of(record, place)}  place {place}: {what}")
    if not is_found:
        like = sorted(shown.text(it) for it in seen if it.lower() == name.lower())
        raise Refused(f"{options.folder}: {options.name} is in no record"
                      + (f": there is {', '.join(like)}" if like else ""))


def wanted(sessions, client):
    """The sessions of a name or a client's number; without either those that opened a battle."""
    if client is None:
        return [it for it in sessions.values() if it.name is not None and it.has_opened]
    named = [it for it in sessions.values() if it.name == client.encode()]
    if not named and client.isdigit() and int(client) in sessions:
        return [sessions[int(client)]]
    return named


def chosen(options):
    """The records of the window, each with its sessions and those that are asked for: all of a window, else the newest
    that has one."""
    window = Window(options)
    found = []
    for record in reversed(records_in(options.folder)):
        if not window.has(record):
            continue
        begin, end = window.places(record)
        sessions = record.sessions()
        for it in sessions.values():
            it.has_opened = False
        if options.client is None:
            for line in record.lines():
                if line.verb == b"send" and line.command()[0] == b"OPENBATTLE" and line.client in sessions:
                    sessions[line.client].has_opened = True
        mine = [it for it in wanted(sessions, options.client) if it.first < end and it.last >= begin]
        if mine:
            found.insert(0, (record, sessions, mine, begin, end))
            if options.begin is None and options.end is None:
                break
    if not found:
        what = f"{options.client} is in no record" if options.client else "nobody opened a battle in a record"
        raise Refused(f"{options.folder}: {what} of that time: lobby_record find NAME says when somebody was there")
    return found


def story(options):
    """Writes the page."""
    page = Page([f"Made by lobby_record of {time.strftime('%Y-%m-%d %H:%M:%S %Z')}; times are of this zone. By "
                 f"lobby_play, what the server put for the "
                 "player at each place is what stands here; whether it arrived, no record says."])
    count = 0
    for record, sessions, mine, begin, end in chosen(options):
        for session in mine:
            told = tell(record, sessions, session, begin, end, options.private)
            count += len(told.happenings)
            page.add(told)
    if options.output == "-":
        sys.stdout.write(page.text())
        return
    path = Path(options.output)
    try:
        with tempfile.NamedTemporaryFile("w", dir=path.parent, prefix=f".{path.name}.", delete=False,
                                         encoding="utf-8") as file:
            file.write(page.text())
        os.rename(file.name, path)      # readable by its maker alone, as the record is
    except OSError as error:
        raise Refused(f"{path}: it cannot be written: {error.strerror}") from None
    print(f"{path}: {count} happenings; open it in a browser")


def show(options):
    """Shows each line that was put for a client behind its place and time."""
    for record, _, mine, begin, end in chosen(options):
        for session in mine:
            name = shown.text(session.name) if session.name is not None else "not logged in"
            print(f"{record.folder}: client {session.client} from {session.address}, {name}")
            places = [it.place for it in record.lines(max(begin, session.first), min(end, session.last + 1))]
            start = places[0] if places else 0
            answers = record.answers([(start, "show", session.client),
                                      *((it + 1, "show", session.client) for it in places)])
            next(answers)
            for place, lines in zip(places, answers):
                for line in lines:
                    print(f"{place:>8}  {time_of(record, place)}  {shown.text(line.partition(b'> ')[2])}")


def times(options):
    clock.watch(options.folder, options.every)


def pack_all(options):
    size = pack.size_of(options.keep_size) if options.keep_size else None
    pack.pack(options.folder, options.compress_after, options.keep_days, size, options.dry_run)


def parsed(version):
    """What the arguments ask for."""
    window = argparse.ArgumentParser(add_help=False)
    window.add_argument("--from", dest="begin", metavar="TIME",
                        help='from this time on, as 20:15 or "2026-11-30 20:15", or a place')
    window.add_argument("--to", dest="end", metavar="TIME", help="up to this time or place")
    parser = argparse.ArgumentParser(prog="lobby_record", description="Reads what a server records.",
                                     epilog="Exit status: 0 done, 1 refused, 2 wrong arguments")
    parser.add_argument("--version", action="version", version=f"lobby_record {version}")
    commands = parser.add_subparsers(dest="command", required=True, metavar="COMMAND")

    def command(name, about, call, *parents, first=None, first_help=None):
        it = commands.add_parser(name, help=about, description=f"{about[0].upper()}{about[1:]}.", parents=parents)
        if first:
            it.add_argument(first.lower(), metavar=first, help=first_help)
        it.add_argument("folder", metavar="FOLDER", nargs="?", default=FOLDER,
                        help="the folder of the records, or one record (%(default)s)")
        it.set_defaults(call=call)
        return it

    command("find", "says when somebody was there, and who named them", find, first="NAME")
    command("show", "shows the lines that were put for a client, with place and time", show, window, first="CLIENT",
            first_help="a name, or a client's number")
    it = command("story", "makes a page of HTML that shows a player's room at each place", story, window)
    it.add_argument("--client", metavar="NAME",
                    help="whose room, by name or by a client's number; if left out, of all who opened a battle")
    it.add_argument("-o", dest="output", metavar="FILE", default="story.html",
                    help="the page (%(default)s); - is standard output")
    it.add_argument("--private", action="store_true",
                    help="shows what was said in private to this player and by them too")
    it = command("times", "keeps a file of times beside the places, until it is ended", times)
    it.add_argument("--every", type=float, default=1.0, metavar="SECONDS", help="how often it looks (%(default)s)")
    it = command("pack", "compresses the records of servers that have ended, and deletes old ones", pack_all)
    it.add_argument("--compress-after", type=float, default=1, metavar="DAYS",
                    help="leave those alone that are younger (%(default)s)")
    it.add_argument("--keep-days", type=float, metavar="DAYS", help="delete those that are older; if left out, none")
    it.add_argument("--keep-size", metavar="SIZE",
                    help="delete the oldest until all have at most this, as 20G; if left out, none")
    it.add_argument("-n", "--dry-run", action="store_true", help="only say what would be done")
    return parser.parse_args()


def main(version):
    options = parsed(version)
    try:
        options.call(options)
        sys.stdout.flush()
    except Refused as error:
        print(f"lobby_record: {error}", file=sys.stderr)
        return 1
    except BrokenPipeError:
        # Whoever read it, as head, has enough.
        os.dup2(os.open(os.devnull, os.O_WRONLY), 1)
    except KeyboardInterrupt:
        return 130
    return 0
