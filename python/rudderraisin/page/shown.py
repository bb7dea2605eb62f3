"""What the page shows: rows of its tables, made of a view, the differences of two pictures, and Prometheus's text."""
from __future__ import annotations

import json
from dataclasses import dataclass, field
from typing import Any, Dict, Iterator, Mapping, Tuple

from .._native import encoded
from ..view import Battle, User, View

Row = Dict[str, Any]
Table = Mapping[Any, Row]       # rows by the value of the table's key

# The tables, each with the field that names a row in it.
KEYS = {"users": "name", "battles": "battleID", "channels": "name"}
USER_STATES = ("here", "away", "in_game")
KINDS = ("person", "bot")


@dataclass(frozen=True)
class Picture:
    """What is shown at a moment."""

    lobby: Row
    users: Table = field(default_factory=dict)
    battles: Table = field(default_factory=dict)
    channels: Table = field(default_factory=dict)


def readable(text: str) -> str:
    """A text of the protocol as any reader of JSON takes it: bytes that are not UTF-8 become U+FFFD."""
    return encoded(text).decode("utf-8", "replace")


def user_row(user: User, battle: int | None) -> Row:
    status = user.status
    return {"name": user.name, "country": readable(user.country), "rank": status.rank, "moderator": status.moderator,
            "bot": status.bot, "away": status.away, "inGame": status.in_game, "battleID": battle}


def battle_row(battle: Battle, users: Mapping[str, User]) -> Row:
    """A battle without its founder's address, which is nobody's business but the players'."""
    founder = users.get(battle.founder)
    return {"battleID": battle.battleID, "title": readable(battle.title), "map": readable(battle.map),
            "gameName": readable(battle.gameName), "engineName": readable(battle.engineName),
            "engineVersion": readable(battle.engineVersion), "founder": battle.founder,
            "members": [*battle.members], "spectatorCount": battle.spectatorCount, "maxPlayers": battle.maxPlayers,
            "passworded": battle.passworded, "locked": battle.locked,
            "inGame": founder is not None and founder.status.in_game}


def picture(lobby: Row, view: View, channels: Mapping[str, int]) -> Picture:
    """What a view shows, but for the one who looks. The channels are as CHANNELS tells them, with how many are in."""
    users, battles, me = dict(view.users), view.battles, view.me
    in_battle = {name: it.battleID for it in battles.values() for name in it.members}
    return Picture(
        lobby,
        {name: user_row(it, in_battle.get(name)) for name, it in users.items() if name != me},
        {number: battle_row(it, users) for number, it in battles.items()},
        {name: {"name": name, "userCount": count} for name, count in channels.items()})


def document(version: str, it: Picture) -> bytes:
    """A whole picture as JSON."""
    tables = {name: [*getattr(it, name).values()] for name in KEYS}
    return said({"version": version, "lobby": it.lobby, **tables})


def differences(before: Picture, after: Picture) -> Row:
    """What changed from one picture to a later one: of each table the rows that are new or other, and the keys of those
    that are gone. Nothing stands there of a table that is the same."""
    changed: Row = {} if before.lobby == after.lobby else {"lobby": after.lobby}
    for name in KEYS:
        old, new = getattr(before, name), getattr(after, name)
        there = [row for key, row in new.items() if old.get(key) != row]
        gone = [key for key in old if key not in new]
        if there or gone:
            changed[name] = {"set": there, "gone": gone}
    return changed


def said(value: Any) -> bytes:
    """JSON in a line, in ASCII: no byte of it ends a line, and no browser reads it as anything else."""
    return json.dumps(value, separators=(",", ":")).encode("ascii")


def event(kind: str, number: str, data: bytes) -> bytes:
    """A server-sent event. What is said in it has no line end."""
    return b"event: %s\nid: %s\ndata: %s\n\n" % (kind.encode("ascii"), number.encode("ascii"), data)


def state(user: Row) -> str:
    return "in_game" if user["inGame"] else "away" if user["away"] else "here"


def lobby_numbers(it: Picture) -> Iterator[Tuple[str, str, str, Mapping[str, float]]]:
    """Of each number of a lobby that is there its name, its kind, what it is, and its values by their labels."""
    users = {f'kind="{kind}",state="{is_in}"': 0.0 for kind in KINDS for is_in in USER_STATES}
    for user in it.users.values():
        users[f'kind="{KINDS[user["bot"]]}",state="{state(user)}"'] += 1
    running = sum(battle["inGame"] for battle in it.battles.values())
    battles = {'state="open"': float(len(it.battles) - running), 'state="in_game"': float(running)}
    yield "rudderraisin_users", "gauge", "Users who are logged in, but for the page's own.", users
    yield "rudderraisin_battles", "gauge", "Battles; a founder in game has begun its game.", battles
    members = sum(len(battle["members"]) for battle in it.battles.values())
    yield "rudderraisin_battle_members", "gauge", "Users who are in a battle.", {"": members}
    yield "rudderraisin_channels", "gauge", "Channels.", {"": len(it.channels)}
    joined = sum(channel["userCount"] for channel in it.channels.values())
    yield "rudderraisin_channel_users", "gauge", "Users in channels, once for each of their channels.", {"": joined}


def prometheus(numbers: Iterator[Tuple[str, str, str, Mapping[str, float]]]) -> bytes:
    """Numbers in Prometheus's text. No text of a player is in them."""
    lines = []
    for name, kind, about, values in numbers:
        lines += [f"# HELP {name} {about}", f"# TYPE {name} {kind}"]
        lines += [f"{name}{{{labels}}} {value:.15g}" if labels else f"{name} {value:.15g}"
                  for labels, value in values.items()]
    return ("\n".join(lines) + "\n").encode("ascii")
