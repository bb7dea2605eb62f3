"""What a player's room was: read of a view as lobby_play prints it, its parts in words, and how two of them differ."""

SYNC = {0: "unknown", 1: "synced", 2: "not synced", 3: "3"}
# The lists of a room, in the order of a view, and what one thing of each is called.
LISTS = {"members": "member", "bots": "bot", "rectangles": "start rectangle", "tags": "script tag",
         "units": "disabled unit"}
KINDS = {b"member": "members", b"bot": "bots", b"rectangle": "rectangles", b"tag": "tags", b"unit": "units"}


def battle_status(word):
    """The fields of a battleStatus by their names."""
    return {"ready": "yes" if word >> 1 & 1 else "no", "team": word >> 2 & 15, "ally team": word >> 6 & 15,
            "plays": "yes" if word >> 10 & 1 else "spectator", "handicap": word >> 11 & 127,
            "sync": SYNC[word >> 22 & 3], "side": word >> 24 & 15}


def colour(number):
    """A colour 00BBGGRR as pages and pictures name it, where it is one."""
    if not 0 <= number < 1 << 24:
        return str(number)
    return f"#{number & 255:02x}{number >> 8 & 255:02x}{number >> 16 & 255:02x}"


def member(rest):
    name, status, shade = rest.split(b" ")
    return name, {**battle_status(int(status)), "colour": colour(int(shade))}


def bot(rest):
    name, owner, status, shade, brain = rest.split(b" ", 4)
    return name, {"owner": owner, "AI": brain, **battle_status(int(status)), "colour": colour(int(shade))}


def rectangle(rest):
    ally, *sides = rest.split(b" ")
    return ally, dict(zip(("left", "top", "right", "bottom"), (int(it) for it in sides)))


def tag(rest):
    key, _, value = rest.partition(b"=")
    return key, {"value": value}


def unit(rest):
    return rest, {}


READERS = {"members": member, "bots": bot, "rectangles": rectangle, "tags": tag, "units": unit}


class Room:
    """A room: its battle's number, what all are told of the battle, and its lists, each thing by its name in the list's
    order."""

    def __init__(self, number, battle, lists):
        self.number, self.battle, self.lists = number, battle, lists


def read_battle(lines):
    """What all are told of a battle, of its line in a view and those below it."""
    words = lines[0].split(b" ")
    told = {"founder": words[4], "address": words[5] + b":" + words[6], "players at most": int(words[7]),
            "spectators": int(words[10]),
            "password": "yes" if b"passworded" in words[11:] else "no", "locked": "yes" if b"locked" in words[11:]
            else "no"}
    for line in lines[1:]:
        word, _, rest = line[2:].partition(b" ")
        if word != b"member":
            told[{b"version": "engine's version"}.get(word, word.decode())] = rest
    return told


def read_view(lines):
    """The room of a view, or None where its client is in none."""
    battles, below, number = {}, None, None
    lists = {it: {} for it in LISTS}
    for line in lines:
        word, _, rest = line.partition(b" ")
        if word == b"battle":
            below = battles[rest.partition(b" ")[0]] = [line]
        elif word == b"room":
            number, below = rest, None
        elif line.startswith(b"  ") and number is not None:
            kind, _, rest = line[2:].partition(b" ")
            name, fields = READERS[KINDS[kind]](rest)
            lists[KINDS[kind]][name] = fields
        elif line.startswith(b"  ") and below is not None:
            below.append(line)
        else:
            below = None
    if number is None:
        return None
    return Room(int(number), read_battle(battles[number]) if number in battles else {}, lists)


def changed_fields(old, new):
    return [(key, old.get(key), value) for key, value in new.items() if old.get(key) != value]


def changes(old, new):
    """How a room became another: what came, what went, and of what is another its fields, each with the list that it is
    of."""
    of_battle = changed_fields(old.battle, new.battle)
    found = [("is", "battle", None, of_battle)] if of_battle else []
    for name, word in LISTS.items():
        before, after = old.lists[name], new.lists[name]
        found += [("gone", word, it, [(key, value, None) for key, value in before[it].items()]) for it in before
                  if it not in after]
        found += [("came", word, it, [(key, None, value) for key, value in after[it].items()]) for it in after
                  if it not in before]
        found += [("is", word, it, changed_fields(before[it], after[it])) for it in after if it in before
                  and before[it] != after[it]]
    return found
