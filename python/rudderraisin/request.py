"""The commands of a client, a class for each. Names and fields are those of docs/PROTOCOL.md, section 3, and the kinds
of fields those of its section 2 (`rudderraisin.kinds`). The classes stand in the order of include/lobby.h.

    SAY("main", "hello").line(5)    # b"#5 SAY main hello\\n"

An argument that may be left out is None. Of the sentences of LOGIN behind the lobby's name only the flag `b` is said,
and of EXIT no reason: the lobby keeps nothing else of them.
"""
from __future__ import annotations

from dataclasses import dataclass
from typing import Annotated, ClassVar, Optional

from . import _native, kinds
from .kinds import Colour, Flag, Name, Pairs, Sentence, Side, Team, Text, U16, U32, Wide, Word, Words


class Request:
    """A command of a client. It is made of any values, and looked at when it is printed."""

    kind: ClassVar[int]     # its number in include/lobby.h

    def line(self, id: Optional[int] = None) -> bytes:
        """The line that reads as this request alone, with its LF; with a message id, 0 to 2147483647, if one is given.

        `CannotPrint` where no line reads so; TypeError for an argument that is neither str, int nor tuple; `NoMemory`.
        """
        return _native.print_request(self.kind, id, [*kinds.fields(self)])


# Written by tools/protocol.py of protocol/commands.toml: classes.
@dataclass(frozen=True)
class PING(Request):
    """Asks for a sign of life."""


@dataclass(frozen=True)
class EXIT(Request):
    """Logs out and ends the session."""


@dataclass(frozen=True)
class LOGIN(Request):
    """Logs in. With the flag `b`, whoever wants to join a battle of this user asks this user first."""

    userName: Word
    password: Word
    cpu: Wide
    localIP: Word
    lobby: Sentence
    b: Flag = False


@dataclass(frozen=True)
class MYSTATUS(Request):
    """Sets one's own status word."""

    status: U32


@dataclass(frozen=True)
class CHANNELS(Request):
    """Asks for the list of channels."""


@dataclass(frozen=True)
class JOIN(Request):
    """Enters a channel; the lobby ignores the key."""

    channel: Name
    key: Optional[Word] = None


@dataclass(frozen=True)
class LEAVE(Request):
    """Leaves a channel."""

    channel: Name


@dataclass(frozen=True)
class SAY(Request):
    """Speaks in a channel."""

    channel: Name
    text: Text


@dataclass(frozen=True)
class SAYEX(Request):
    """Speaks in a channel, in the third person."""

    channel: Name
    text: Text


@dataclass(frozen=True)
class SAYPRIVATE(Request):
    """Speaks to one user."""

    user: Name
    text: Text


@dataclass(frozen=True)
class OPENBATTLE(Request):
    """Opens a battle as its founder; the password `*` is none."""

    type: Annotated[int, "0..1"]
    natType: Annotated[int, "0..2"]
    password: Word
    port: U16
    maxPlayers: U16
    gameHash: Wide
    rank: Wide
    mapHash: Wide
    engineName: Sentence
    engineVersion: Sentence
    map: Sentence
    title: Sentence
    gameName: Sentence


@dataclass(frozen=True)
class JOINBATTLE(Request):
    """Enters a battle, or asks its founder to; the script password is told to the founder."""

    battleID: Annotated[int, "0..2147483647"]
    password: Optional[Word] = None
    scriptPassword: Optional[Word] = None


@dataclass(frozen=True)
class JOINBATTLEACCEPT(Request):
    """The founder lets in one who asks."""

    user: Name


@dataclass(frozen=True)
class JOINBATTLEDENY(Request):
    """The founder turns away one who asks."""

    user: Name
    reason: Optional[Text] = None


@dataclass(frozen=True)
class LEAVEBATTLE(Request):
    """Leaves one's battle, or asks no more to join one."""


@dataclass(frozen=True)
class UPDATEBATTLEINFO(Request):
    """The founder changes what all are shown of the battle."""

    spectatorCount: U16
    locked: Flag
    mapHash: Wide
    map: Sentence


@dataclass(frozen=True)
class MYBATTLESTATUS(Request):
    """Sets one's own status and colour in the battle."""

    battleStatus: U32
    teamColor: Colour


@dataclass(frozen=True)
class SAYBATTLE(Request):
    """Speaks in one's battle."""

    text: Text


@dataclass(frozen=True)
class SAYBATTLEEX(Request):
    """Speaks in one's battle, in the third person."""

    text: Text


@dataclass(frozen=True)
class ADDBOT(Request):
    """Adds a bot to one's battle, as its owner."""

    bot: Word
    battleStatus: U32
    teamColor: Colour
    AI: Sentence


@dataclass(frozen=True)
class UPDATEBOT(Request):
    """Changes the status and colour of a bot that is one's own, or of any as the founder."""

    bot: Word
    battleStatus: U32
    teamColor: Colour


@dataclass(frozen=True)
class REMOVEBOT(Request):
    """Takes away a bot that is one's own, or any as the founder."""

    bot: Word


@dataclass(frozen=True)
class ADDSTARTRECT(Request):
    """The founder sets an ally team's start rectangle, in two-hundredths of the map."""

    allyNo: Team
    left: Side
    top: Side
    right: Side
    bottom: Side


@dataclass(frozen=True)
class REMOVESTARTRECT(Request):
    """The founder takes away an ally team's start rectangle."""

    allyNo: Team


@dataclass(frozen=True)
class SETSCRIPTTAGS(Request):
    """The founder sets script tags of the battle."""

    pairs: Pairs


@dataclass(frozen=True)
class REMOVESCRIPTTAGS(Request):
    """The founder takes script tags away."""

    keys: Words


@dataclass(frozen=True)
class DISABLEUNITS(Request):
    """The founder disables units of the game."""

    units: Words


@dataclass(frozen=True)
class ENABLEUNITS(Request):
    """The founder enables units again."""

    units: Words


@dataclass(frozen=True)
class ENABLEALLUNITS(Request):
    """The founder enables all units."""


@dataclass(frozen=True)
class HANDICAP(Request):
    """The founder sets a member's handicap in percent."""

    user: Name
    value: Annotated[int, "0..100"]


@dataclass(frozen=True)
class FORCETEAMNO(Request):
    """The founder sets a member's team."""

    user: Name
    number: Team


@dataclass(frozen=True)
class FORCEALLYNO(Request):
    """The founder sets a member's ally team."""

    user: Name
    number: Team


@dataclass(frozen=True)
class FORCETEAMCOLOR(Request):
    """The founder sets a member's colour."""

    user: Name
    teamColor: Colour


@dataclass(frozen=True)
class FORCESPECTATORMODE(Request):
    """The founder makes a member a spectator."""

    user: Name


@dataclass(frozen=True)
class KICKFROMBATTLE(Request):
    """The founder puts a member out of the battle."""

    user: Name


@dataclass(frozen=True)
class RING(Request):
    """The founder rings a member."""

    user: Name
# End of what is written: classes.


KINDS: tuple[type[Request], ...] = tuple(Request.__subclasses__())  # the kind 1 comes first
for _number, _kind in enumerate(KINDS, 1):
    _kind.kind = _number
