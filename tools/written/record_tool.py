"""What is written into lobby_record: what a page says of each command, which commands name a user, and what each line of
the server tells of."""
from .layout import quoted, wrapped

# The set of each value of the field `tells`; what a line tells its recipient alone is in none.
SETS = {"users": "OF_USERS", "battles": "OF_BATTLES", "room": "OF_ROOM", "channel": "OF_CHANNEL", "talk": "TALK",
        "private talk": "PRIVATE", "refusal": "REFUSALS"}


def set_of(name, lines):
    begin = f"{name} = {{"
    return wrapped(begin, [f'b"{it.word}"' for it in lines], "}", len(begin))


def deeds(tables):
    return ["DEEDS = {", *(f'    "{it.word}": {quoted(it.deed)},' for it in tables.commands.lines), "}"]


def naming(tables):
    """The commands of a founder that name a user first."""
    named = [it for it in tables.commands.lines if it.who == "founder" and it.kept and it.kept[0].kind == "name"]
    return set_of("NAMING", named)


def told(tables):
    lines = []
    for tells, name in SETS.items():
        lines += set_of(name, [it for it in tables.replies.lines if it.tells == tells])
    return lines
