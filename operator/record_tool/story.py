"""What happened to a player, place by place: who did what, what the player was told of it, and how the room changed."""
import re

from .records import Refused
from .room import changes, read_view

# The most rooms that one story looks at: each is made of all that the player was ever sent.
ROOMS = 3_000
# The most lines of the record that one story is made of.
LINES = 1_000_000
# What the lines of the server tell of. Those of battles come of each battle, whose number is their first argument.
# Written by tools/protocol.py of protocol/replies.toml: what lines tell of.
OF_USERS = {b"ADDUSER", b"REMOVEUSER", b"CLIENTSTATUS"}
OF_BATTLES = {b"BATTLEOPENED", b"BATTLECLOSED", b"JOINEDBATTLE", b"LEFTBATTLE", b"UPDATEBATTLEINFO"}
OF_ROOM = {b"OPENBATTLE", b"JOINBATTLE", b"CLIENTBATTLESTATUS", b"ADDBOT", b"UPDATEBOT", b"REMOVEBOT", b"ADDSTARTRECT",
           b"REMOVESTARTRECT", b"SETSCRIPTTAGS", b"REMOVESCRIPTTAGS", b"DISABLEUNITS", b"ENABLEUNITS",
           b"ENABLEALLUNITS", b"FORCEQUITBATTLE"}
OF_CHANNEL = {b"JOINED", b"LEFT"}
TALK = {b"SAID", b"SAIDEX", b"SAIDBATTLE", b"SAIDBATTLEEX"}
PRIVATE = {b"SAYPRIVATE", b"SAIDPRIVATE"}
REFUSALS = {b"DENIED", b"SERVERMSG", b"JOINFAILED", b"OPENBATTLEFAILED", b"JOINBATTLEFAILED"}
# End of what is written: what lines tell of.
# What is told of others, and is no part of a story.
OF_OTHERS = OF_USERS | OF_BATTLES | OF_CHANNEL | {b"PONG"}


class Happening:
    """What happened at a place: what somebody did, what the player was told, and the room behind it."""

    def __init__(self, line, told):
        self.line, self.place, self.told = line, line.place, told
        self.room, self.changes = None, []
        self.is_room = self.has_entered = self.has_left = False

    def words(self):
        return {word_of(it) for it in self.told}


class Story:
    """The happenings of one session from a place up to and without another, the room before them, and how many were
    left out."""

    def __init__(self, record, sessions, session, begin, end):
        self.record, self.sessions, self.session = record, sessions, session
        self.begin, self.end = max(begin, session.first), min(end, session.last + 1)
        self.start, self.happenings = None, []
        self.of_others = self.private = 0


def word_of(line):
    """The command word of a line that was put, without its id."""
    return re.sub(rb"^#\d+ ", b"", line).partition(b" ")[0]


def told_lines(lines):
    return [it.partition(b"> ")[2] for it in lines]


def touches_room(told, own):
    """Whether a line may change the room, by the battle that the player is in; and that battle behind it."""
    word, _, rest = re.sub(rb"^#\d+ ", b"", told).partition(b" ")
    number = rest.partition(b" ")[0]
    if word not in OF_ROOM and (word not in OF_BATTLES or number != own):
        return False, own
    if word in (b"OPENBATTLE", b"JOINBATTLE"):
        return True, number
    return True, None if word in (b"BATTLECLOSED", b"FORCEQUITBATTLE") else own


def happenings_of(story):
    """What the player did or was told at each place, and whether the room may be another behind it."""
    client = story.session.client
    lines = [*story.record.lines(story.begin, story.end)]
    if len(lines) > LINES:
        raise Refused(f"there are {len(lines)} places in it at which something was done: take a shorter time, as "
                      f"until place {lines[LINES].place}")
    answers = story.record.answers([(story.begin, "show", client), *((it.place + 1, "show", client) for it in lines)])
    own = None
    for told in told_lines(next(answers)):
        own = touches_room(told, own)[1]
    found = []
    for line, answer in zip(lines, answers):
        it = Happening(line, told_lines(answer))
        for told in it.told:
            is_of_room, own = touches_room(told, own)
            it.is_room = it.is_room or is_of_room
        if it.told or line.client == client:
            found.append(it)
    return found


def add_rooms(story, happenings):
    """To each happening the room behind it, and how that differs from the one before."""
    session = story.session
    if session.login is None:
        return
    asked = [it for it in happenings if it.is_room]
    if len(asked) > ROOMS:
        raise Refused(f"the room may have changed {len(asked)} times in it: take a shorter time, as until place "
                      f"{asked[ROOMS].place}")
    # Before a login there is no view, and no room.
    first = [(story.begin, "view", session.client)] if story.begin > session.login else []
    answers = story.record.answers(first + [(it.place + 1, "view", session.client) for it in asked])
    room = story.start = read_view(next(answers)) if first else None
    for it in happenings:
        if it.is_room:
            before, room = room, read_view(next(answers))
            is_same = bool(before and room) and before.number == room.number
            it.changes = changes(before, room) if is_same else []
            it.has_entered, it.has_left = bool(room) and not is_same, bool(before) and not room
        it.room = room
    for _ in answers:
        pass


def is_of_others(it, session):
    """Whether a happening is no part of the player's story: others came, went or did things elsewhere."""
    if it.is_room or it.words() & (TALK | PRIVATE | REFUSALS):
        return False
    if it.line.client == session.client and it.line.command()[0] != b"PING":
        return False
    return it.words() <= OF_OTHERS


def tell(record, sessions, session, begin, end, has_private):
    """The story of one of the sessions of a record, of the places from `begin` up to and without `end`."""
    story = Story(record, sessions, session, begin, end)
    happenings = happenings_of(story)
    add_rooms(story, happenings)
    for it in happenings:
        if not has_private and it.words() & PRIVATE:
            story.private += 1
        elif is_of_others(it, session):
            story.of_others += 1
        else:
            story.happenings.append(it)
    return story
