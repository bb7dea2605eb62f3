"""What a client of the lobby knows, folded from the bytes that it was sent.

The names of fields are those of docs/PROTOCOL.md; `name` is what a thing itself is called. Texts are `str`: UTF-8, and
each byte that is not UTF-8 as a surrogate (`surrogateescape`), so that no byte is lost.
"""
from __future__ import annotations

from dataclasses import dataclass
from types import MappingProxyType
from typing import Any, Callable, ItemsView, Iterator, Mapping, TypeVar, ValuesView

from . import _native
from .status import BattleStatus, Status

_Shown = TypeVar("_Shown")


@dataclass(frozen=True)
class User:
    """A user who is logged in (ADDUSER, CLIENTSTATUS)."""

    name: str
    country: str            # two letters, or ??
    cpu: int                # what its login said of its processor, -2147483648 to 4294967295
    accountID: int          # 0 to 4294967295
    status: Status


@dataclass(frozen=True)
class Battle:
    """A battle, as all users see it."""

    battleID: int           # 1 to 2147483647
    type: int               # 0 or 1
    natType: int            # 0 to 2
    founder: str
    IP: str                 # from where the founder is connected
    port: int               # 0 to 65535
    maxPlayers: int         # 0 to 65535; the lobby lets in more
    passworded: bool
    rank: int               # -2147483648 to 4294967295, as mapHash
    mapHash: int
    engineName: str
    engineVersion: str
    map: str
    title: str
    gameName: str
    spectatorCount: int     # 0 to 65535, as the founder says
    locked: bool
    members: tuple[str, ...]    # in order of joining, the founder first


@dataclass(frozen=True)
class Channel:
    """A channel that the client is in (JOIN, CLIENTS, JOINED, LEFT)."""

    name: str
    members: tuple[str, ...]    # in order of joining


@dataclass(frozen=True)
class Member:
    """A member of the own battle (CLIENTBATTLESTATUS). Status and colour are 0 until the server tells them."""

    name: str
    battleStatus: BattleStatus
    teamColor: int          # bytes 00BBGGRR, as the member said; -2147483648 to 4294967295


@dataclass(frozen=True)
class Bot:
    """A bot of the own battle (ADDBOT, UPDATEBOT)."""

    name: str
    owner: str
    battleStatus: BattleStatus
    teamColor: int          # as a member's
    AI: str


@dataclass(frozen=True)
class Rectangle:
    """Where an ally team starts (ADDSTARTRECT), in two-hundredths of the map."""

    allyNo: int             # 0 to 15
    left: int               # 0 to 200, as the others
    top: int
    right: int
    bottom: int


@dataclass(frozen=True)
class Room:
    """The inside of the battle that the client is in."""

    battleID: int
    members: tuple[Member, ...]             # in order of joining, the founder first
    bots: tuple[Bot, ...]                   # in order of adding
    rectangles: Mapping[int, Rectangle]     # by allyNo
    tags: Mapping[str, str]                 # script tags, in order of first setting
    units: tuple[str, ...]                  # disabled units, in order of first disabling

    def member(self, name: str) -> Member | None:
        """The first member of this name."""
        return next((it for it in self.members if it.name == name), None)

    def bot(self, name: str) -> Bot | None:
        """The first bot of this name."""
        return next((it for it in self.bots if it.name == name), None)


class Users(Mapping[str, User]):
    """The users who are logged in, by name, in the order of the names' bytes. One is found without a look at all the
    others, and all are read at once when they are walked over."""

    def __init__(self, table: _native.Table) -> None:
        self._table = table
        self._read: dict[str, User] | None = None

    def _all(self) -> dict[str, User]:
        if self._read is None:
            self._read = {it[0]: _user(*it) for it in self._table}
        return self._read

    def __len__(self) -> int:
        return len(self._table)

    def __iter__(self) -> Iterator[str]:
        return iter(self._all())

    def __getitem__(self, name: str) -> User:
        if self._read is not None:
            return self._read[name]
        try:
            wanted = _native.encoded(name)
        except (AttributeError, UnicodeEncodeError):
            raise KeyError(name) from None
        low, high = 0, len(self._table)
        while low < high:
            middle = (low + high) // 2
            if self._table.first_text(middle) < wanted:
                low = middle + 1
            else:
                high = middle
        if low == len(self._table) or self._table.first_text(low) != wanted:
            raise KeyError(name)
        return _user(*self._table[low])

    def values(self) -> ValuesView[User]:
        return self._all().values()

    def items(self) -> ItemsView[str, User]:
        return self._all().items()


def _user(name: str, country: str, cpu: int, account: int, status: int) -> User:
    return User(name, country, cpu, account, Status(status))


class View:
    """What a client knows.

    Feed it each piece that the client reads, however the piece is cut. What it shows is copied from the library when it
    is first asked for, and kept until the next feed; what you hold stays as it was. A view belongs to the thread that
    made it. Each call raises `ViewClosed` behind `close` and on another thread, and `NoMemory` where memory is refused.
    """

    def __init__(self) -> None:
        self._native = _native.NativeView()
        self._kept: dict[str, Any] = {}

    def __enter__(self) -> View:
        return self

    def __exit__(self, *_: object) -> None:
        self.close()

    def close(self) -> None:
        """Gives the memory back. A view that is closed already stays so."""
        self._kept.clear()
        self._native.close()

    def feed(self, piece: bytes | bytearray | memoryview) -> int:
        """Takes in the next bytes that the client was sent, and says how many lines were folded. Lines that no reply of
        docs/PROTOCOL.md, section 4, prints are skipped.

        `NoMemory`: nothing has changed, and the piece may be fed again. `LineTooLong`: a line has more than 20,479
        bytes; the lines before it are folded, and each later feed raises the same and changes nothing.
        """
        self._kept.clear()
        return self._native.feed(piece if isinstance(piece, bytes) else bytes(memoryview(piece)))

    @property
    def me(self) -> str:
        """The name under which the client is logged in, empty before a login (ACCEPTED)."""
        return self._shown("me", lambda: "".join(self._texts("me")))

    @property
    def users(self) -> Users:
        """The users who are logged in, by name, in the order of the names' bytes."""
        return self._shown("users", lambda: Users(self._native.table("users", _native.USER)))

    @property
    def battles(self) -> Mapping[int, Battle]:
        """The battles by number, in the order of the numbers."""
        return self._shown("battles", lambda: MappingProxyType({it.battleID: it for it in self._battles()}))

    @property
    def channels(self) -> Mapping[str, Channel]:
        """The channels that the client is in, by name, in the order of the names' bytes."""
        return self._shown("channels", lambda: MappingProxyType({it.name: it for it in self._channels()}))

    @property
    def room(self) -> Room | None:
        """The inside of the battle that the client is in, if it is in one."""
        return self._shown("room", self._room)

    def _shown(self, name: str, made: Callable[[], _Shown]) -> _Shown:
        self._native.opened()
        if name not in self._kept:
            self._kept[name] = made()
        return self._kept[name]  # type: ignore[no-any-return]

    def _texts(self, name: str, *of: Any) -> tuple[str, ...]:
        return tuple(text for text, in self._native.table(name, _native.TEXT, *of))

    def _battles(self) -> list[Battle]:
        battles = []
        for *texts, rank, map_hash, number, port, most, spectators, battle_type, nat_type, passworded, locked, _ in \
                self._native.table("battles", _native.BATTLE):
            founder, ip, *titles = texts    # engine, version, map, title, game
            members = self._texts("battle_members", number)
            battles.append(Battle(number, battle_type, nat_type, founder, ip, port, most, bool(passworded), rank,
                                  map_hash, *titles, spectators, bool(locked), members))
        return battles

    def _channels(self) -> list[Channel]:
        names = [(it, _native.encoded(it)) for it in self._texts("channels")]
        return [Channel(it, self._texts("channel_members", name, len(name))) for it, name in names]

    def _room(self) -> Room | None:
        number = self._native.room()
        if number is None:
            return None
        members = self._native.table("room_members", _native.MEMBER)
        bots = self._native.table("room_bots", _native.BOT)
        sides = {ally: self._native.rectangle(ally) for ally in range(16)}
        return Room(
            number,
            tuple(Member(name, BattleStatus(status), colour) for name, colour, status, _ in members),
            tuple(Bot(name, owner, BattleStatus(status), colour, ai) for name, owner, ai, colour, status, _ in bots),
            MappingProxyType({ally: Rectangle(ally, *it) for ally, it in sides.items() if it}),
            MappingProxyType(dict(self._native.table("room_tags", _native.TAG))),
            self._texts("room_units"),
        )
