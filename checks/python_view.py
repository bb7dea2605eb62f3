"""A view of the package `rudderraisin` in the words of view_show, which the checks of the package compare with.

It is no check itself. The package is that of python/, with the library that $LIBLOBBY names, if none is installed."""
import importlib.util
import subprocess
import sys

from lobby_server import ROOT, Difference

if importlib.util.find_spec("rudderraisin") is None:
    sys.path.insert(0, str(ROOT / "python"))
from rudderraisin import LineTooLong, View  # noqa: E402


def listed(view):
    """The lines of its users and battles."""
    for it in view.users.values():
        yield f"user {it.name} {it.country} {it.cpu} {it.accountID} {it.status:d}"
    for it in view.battles.values():
        flags = " passworded" * it.passworded + " locked" * it.locked
        yield (f"battle {it.battleID} {it.type} {it.natType} {it.founder} {it.IP} {it.port} {it.maxPlayers} {it.rank}"
               f" {it.mapHash} {it.spectatorCount}{flags}")
        yield from (f"  title {it.title}", f"  map {it.map}", f"  game {it.gameName}", f"  engine {it.engineName}")
        yield f"  version {it.engineVersion}"
        yield from (f"  member {name}" for name in it.members)


def inside(room):
    """The lines of the own room, if there is one."""
    if room is None:
        return
    yield f"room {room.battleID}"
    yield from (f"  member {it.name} {it.battleStatus:d} {it.teamColor}" for it in room.members)
    yield from (f"  bot {it.name} {it.owner} {it.battleStatus:d} {it.teamColor} {it.AI}" for it in room.bots)
    yield from (f"  rectangle {it.allyNo} {it.left} {it.top} {it.right} {it.bottom}" for it in room.rectangles.values())
    yield from (f"  tag {key}={value}" for key, value in room.tags.items())
    yield from (f"  unit {it}" for it in room.units)


def shown(view):
    """The whole of it, as the bytes that view_show prints."""
    lines = [f"me {view.me}", *listed(view)]
    for it in view.channels.values():
        lines += [f"channel {it.name}", *(f"  member {name}" for name in it.members)]
    return "".join(it + "\n" for it in [*lines, *inside(view.room)]).encode("utf-8", "surrogateescape")


def folded(pieces):
    """What a view shows that is fed these pieces, up to a line that is too long."""
    with View() as view:
        for it in pieces:
            try:
                view.feed(it)
            except LineTooLong:
                break
        return shown(view)


def compare(name, shower, told, lengths):
    """The bytes that a client was told show what view_show shows, fed whole and in pieces of these lengths."""
    wanted = subprocess.run([shower, "whole"], input=told, stdout=subprocess.PIPE, timeout=60, check=True).stdout
    for length in (len(told) or 1, *lengths):
        found = folded(told[at:at + length] for at in range(0, len(told), length))
        if found != wanted:
            texts = (it.decode("latin-1") for it in (found, wanted))
            raise Difference(f"{name}: pieces of {length} show\n" + "\nand view_show\n".join(texts))
