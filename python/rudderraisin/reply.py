"""The lines of the server, a class for each kind. Names and fields are those of docs/PROTOCOL.md, section 4, and the
kinds of fields those of its section 2 (`rudderraisin.kinds`). The classes stand in the order of include/lobby.h.

    it = Reply.read(b"#5 SAID main Bert hello")     # SAID(channel='main', user='Bert', text='hello'); its id is 5
"""
from __future__ import annotations

from dataclasses import dataclass
from typing import Annotated, ClassVar, Optional, Union

from . import _native, kinds
from .kinds import (BattleID, BattleWord, Colour, Flag, Name, Names, Pairs, Sentence, Side, Team, Text, U16, U32,
                    UserWord, Wide, Word, Words)


class Reply:
    """A line of the server."""

    kind: ClassVar[int]         # its number in include/lobby.h
    id: Optional[int] = None    # of the request that it answers, 0 to 2147483647; no comparison looks at it

    @staticmethod
    def read(line: Union[bytes, bytearray, memoryview]) -> Optional[Reply]:
        """The one reply that prints as this line, given without its LF; None where there is none. `NoMemory`."""
        found = _native.read_reply(line if isinstance(line, bytes) else bytes(memoryview(line)))
        if found is None:
            return None
        kind, number, fields = found
        made = KINDS[kind - 1]
        it = made(*kinds.values(made, fields))
        if number is not None:
            object.__setattr__(it, "id", number)
        return it


# Written by tools/protocol.py of protocol/replies.toml: classes.
@dataclass(frozen=True)
class TASSERVER(Reply):
    """The greeting."""

    protocolVersion: Word
    springVersion: Word
    udpPort: U16
    serverMode: Annotated[int, "0..1"]


@dataclass(frozen=True)
class ACCEPTED(Reply):
    """The login is accepted."""

    user: Name


@dataclass(frozen=True)
class DENIED(Reply):
    """The login is refused, and why."""

    text: Text


@dataclass(frozen=True)
class MOTD(Reply):
    """A line of the message of the day."""

    text: Text


@dataclass(frozen=True)
class SERVERMSG(Reply):
    """A message of the server. With an id it refuses the request of that id."""

    text: Text


@dataclass(frozen=True)
class ADDUSER(Reply):
    """A user is logged in."""

    user: Name
    country: Word
    cpu: Wide
    accountID: U32


@dataclass(frozen=True)
class REMOVEUSER(Reply):
    """A user has logged out."""

    user: Name


@dataclass(frozen=True)
class CLIENTSTATUS(Reply):
    """A user's status word."""

    user: Name
    status: UserWord


@dataclass(frozen=True)
class LOGININFOEND(Reply):
    """All that a login shows was sent."""


@dataclass(frozen=True)
class PONG(Reply):
    """Answers PING."""


@dataclass(frozen=True)
class JOIN(Reply):
    """You are in the channel."""

    channel: Name


@dataclass(frozen=True)
class CLIENTS(Reply):
    """Users of a channel."""

    channel: Name
    names: Names


@dataclass(frozen=True)
class JOINED(Reply):
    """A user entered a channel."""

    channel: Name
    user: Name


@dataclass(frozen=True)
class LEFT(Reply):
    """A user left a channel."""

    channel: Name
    user: Name


@dataclass(frozen=True)
class JOINFAILED(Reply):
    """You did not enter the channel, and why."""

    channel: Name
    reason: Text


@dataclass(frozen=True)
class SAID(Reply):
    """A user spoke in a channel."""

    channel: Name
    user: Name
    text: Text


@dataclass(frozen=True)
class SAIDEX(Reply):
    """A user spoke in a channel, in the third person."""

    channel: Name
    user: Name
    text: Text


@dataclass(frozen=True)
class SAYPRIVATE(Reply):
    """What you said to this user."""

    user: Name
    text: Text


@dataclass(frozen=True)
class SAIDPRIVATE(Reply):
    """What this user said to you."""

    user: Name
    text: Text


@dataclass(frozen=True)
class CHANNEL(Reply):
    """One channel of the list."""

    channel: Name
    userCount: U32


@dataclass(frozen=True)
class ENDOFCHANNELS(Reply):
    """The end of the list."""


@dataclass(frozen=True)
class OPENBATTLE(Reply):
    """The battle that you opened has this number."""

    battleID: BattleID


@dataclass(frozen=True)
class OPENBATTLEFAILED(Reply):
    """No battle is opened, and why."""

    text: Text


@dataclass(frozen=True)
class BATTLEOPENED(Reply):
    """A battle is open."""

    battleID: BattleID
    type: Annotated[int, "0..1"]
    natType: Annotated[int, "0..2"]
    founder: Name
    IP: Word
    port: U16
    maxPlayers: U16
    passworded: Flag
    rank: Wide
    mapHash: Wide
    engineName: Sentence
    engineVersion: Sentence
    map: Sentence
    title: Sentence
    gameName: Sentence


@dataclass(frozen=True)
class BATTLECLOSED(Reply):
    """A battle is closed."""

    battleID: BattleID


@dataclass(frozen=True)
class JOINBATTLE(Reply):
    """You are in the battle."""

    battleID: BattleID
    gameHash: Wide


@dataclass(frozen=True)
class JOINBATTLEFAILED(Reply):
    """You did not enter the battle, and why."""

    text: Text


@dataclass(frozen=True)
class JOINEDBATTLE(Reply):
    """A user entered a battle. Its script password is told to the founder alone, if it gave one."""

    battleID: BattleID
    user: Name
    scriptPassword: Optional[Word] = None


@dataclass(frozen=True)
class LEFTBATTLE(Reply):
    """A user left a battle."""

    battleID: BattleID
    user: Name


@dataclass(frozen=True)
class UPDATEBATTLEINFO(Reply):
    """What may change of a battle, as it is now."""

    battleID: BattleID
    spectatorCount: U16
    locked: Flag
    mapHash: Wide
    map: Sentence


@dataclass(frozen=True)
class REQUESTBATTLESTATUS(Reply):
    """Send your MYBATTLESTATUS."""


@dataclass(frozen=True)
class CLIENTBATTLESTATUS(Reply):
    """A member's status and colour."""

    user: Name
    battleStatus: BattleWord
    teamColor: Colour


@dataclass(frozen=True)
class SAIDBATTLE(Reply):
    """A member spoke in your battle."""

    user: Name
    text: Text


@dataclass(frozen=True)
class SAIDBATTLEEX(Reply):
    """A member spoke in your battle, in the third person."""

    user: Name
    text: Text


@dataclass(frozen=True)
class ADDBOT(Reply):
    """A bot is in your battle."""

    battleID: BattleID
    bot: Word
    owner: Name
    battleStatus: BattleWord
    teamColor: Colour
    AI: Sentence


@dataclass(frozen=True)
class UPDATEBOT(Reply):
    """A bot's status and colour are these now."""

    battleID: BattleID
    bot: Word
    battleStatus: BattleWord
    teamColor: Colour


@dataclass(frozen=True)
class REMOVEBOT(Reply):
    """A bot is gone."""

    battleID: BattleID
    bot: Word


@dataclass(frozen=True)
class ADDSTARTRECT(Reply):
    """An ally team's start rectangle, in the place of an earlier one. In two-hundredths of the map."""

    allyNo: Team
    left: Side
    top: Side
    right: Side
    bottom: Side


@dataclass(frozen=True)
class REMOVESTARTRECT(Reply):
    """An ally team's start rectangle is gone."""

    allyNo: Team


@dataclass(frozen=True)
class SETSCRIPTTAGS(Reply):
    """Script tags that are set."""

    pairs: Pairs


@dataclass(frozen=True)
class REMOVESCRIPTTAGS(Reply):
    """Script tags that are gone."""

    keys: Words


@dataclass(frozen=True)
class FORCEQUITBATTLE(Reply):
    """You were put out of your battle."""


@dataclass(frozen=True)
class RING(Reply):
    """This user rings you."""

    user: Name


@dataclass(frozen=True)
class JOINBATTLEREQUEST(Reply):
    """This user asks to join your battle, from this address."""

    user: Name
    IP: Word


@dataclass(frozen=True)
class DISABLEUNITS(Reply):
    """Units that are disabled now."""

    units: Words


@dataclass(frozen=True)
class ENABLEUNITS(Reply):
    """Units that are enabled again."""

    units: Words


@dataclass(frozen=True)
class ENABLEALLUNITS(Reply):
    """No unit is disabled."""
# End of what is written: classes.


KINDS: tuple[type[Reply], ...] = tuple(Reply.__subclasses__())  # the kind 1 comes first
for _number, _kind in enumerate(KINDS, 1):
    _kind.kind = _number
