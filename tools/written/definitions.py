"""What is written into the definitions of the crates: the tables of replies and of commands."""
from .layout import WIDTH, packed

LETTERS = "abcdefghijklmnopqrstuvwxyz"
REPLY_KINDS = {
    "word": "Word", "name": "Name", "u32": "status_word", "wide": "Wide", "0..65535": "port_number",
    "sentence": "Sentence", "text": "Text", "words": "Words", "names": "Names", "pairs": "Pairs",
    "1..2147483647": "battle_number", "0..15": "ally_number", "0..200": "side_number",
}
# The parts of the table of commands: the name of each, and what its comment says.
PARTS = {
    "users": ("entries", "users and channels; with all parts behind it, this is the table"),
    "battles": ("battle_entries", "battles"),
    "rooms": ("room_entries", "bots, start rectangles, script tags and units"),
    "hosts": ("host_entries", "what a founder does to players"),
}


def reply_kind(it):
    """The kind of an argument in the table of replies."""
    if it.is_yes_or_no:
        return "Flag"
    made = REPLY_KINDS.get(it.kind) or "Number {} {}".format(*it.bounds)
    return f"Optional{made}" if it.is_optional else made


def arity(reply):
    """How many fields its variant has."""
    return 2 if reply.has_rest else len(reply.kept)


def pattern(reply):
    """The reply with a letter for each field."""
    letters = LETTERS[: arity(reply)]
    return f"(reply.{reply.variant} {' '.join(letters)})" if letters else f"reply.{reply.variant}"


def nested(parts):
    """Values, each in front of those behind it."""
    return f"({parts[0]}, {nested(parts[1:])})" if parts else "tt"


def word_of(tables):
    return ["-- the table: the command word of each reply ..", "abbrev pub word_of : CommandWord → List ℕ",
            *(f'word_of command.{it.variant} = codes "{it.word}"' for it in tables.replies.numbered())]


def kinds_of(tables):
    lines = ["-- .. and the kinds of its arguments", "abbrev pub kinds_of : CommandWord → List Kind"]
    for it in tables.replies.numbered():
        kinds = "battle_number ∷ opened_kinds" if it.has_rest else " ∷ ".join([*map(reply_kind, it.kept), "[]"])
        lines.append(f"kinds_of command.{it.variant} = {kinds}")
    return lines


def command_of(tables):
    return ["-- the command word that a reply has", "abbrev pub command_of : Reply → CommandWord",
            *(f"command_of {pattern(it)} = command.{it.variant}" for it in tables.replies.numbered())]


def values_of(tables):
    lines = ["-- the values of its arguments",
             "abbrev pub values_of : (r : Reply) → Values (kinds_of (command_of r))"]
    for it in tables.replies.numbered():
        values = "(a, opened_values b)" if it.has_rest else nested(LETTERS[: arity(it)])
        lines.append(f"values_of {pattern(it)} = {values}")
    return lines


def commands(tables):
    """The list of all command words, six a line as far as they have room."""
    parts = [f" ∷ command.{it.variant}" for it in tables.replies.numbered()] + [" ∷ []"]
    pad = " " * 4
    lines = ["-- all command words", "abbrev pub commands : List CommandWord", "commands ="]
    for at in range(0, len(parts), 6):
        some = parts[at:at + 6]
        lines += packed([some[0].removeprefix(" ∷ " if at == 0 else " "), *some[1:]], pad)
    return lines


def reply_of_values(tables):
    lines = ["-- the reply of these arguments",
             "abbrev pub reply_of_values : (c : CommandWord) → Values (kinds_of c) → Reply"]
    for it in tables.replies.numbered():
        values = "".join(f" x{'.1' * at}.0" for at in range(arity(it)))
        values = " x.0 (opened_of_values x.1)" if it.has_rest else values
        lines.append(f"reply_of_values command.{it.variant} x = reply.{it.variant}{values}")
    return lines


def entries(tables):
    """The parts of the table, the last first: each ends with the one behind it."""
    lines, behind = [], "[]"
    for part in reversed(PARTS):
        name, says = PARTS[part]
        lines += [f"-- {says}", f"unfoldable pub {name} : List Entry", f"{name} ="]
        some = [it for it in tables.commands.numbered() if it.part == part]
        rows = [f'entry (codes "{it.word}") {it.row} command.{it.variant}' for it in some]
        lines += [f"    {rows[0]}", *(f"    ∷ {it}" for it in rows[1:]), f"    ∷ {behind}", ""]
        behind = name
    return lines[:-1]


def arguments_of(tables):
    lines = ["abbrev pub arguments_of : Command → Arguments", "arguments_of command.Blank = given [] tt",
             "arguments_of (command.Unread fault) = given [] tt"]
    for it in tables.commands.numbered():
        names = [of.snake for of in it.kept]
        made = f"(command.{it.variant} {' '.join(names)})" if names else f"command.{it.variant}"
        lines += clause(f"arguments_of {made} =", f"given {it.row}", names)
    return lines


def clause(head, row, names):
    """A clause in one line, with its values in a second, or with a line for each value that has no room."""
    if len(f"{head} {row} {nested(names)}") <= WIDTH:
        return [f"{head} {row} {nested(names)}"]
    if len(f"{head} {row}") <= WIDTH:
        return [f"{head} {row}", f"    {nested(names)}"]
    words = head.split(" ")
    heads = packed([f" {it}" for it in words], " " * 4, first="")
    return [*heads, f"    {row} (", *tower(names, 6), "    )"]


def tower(parts, indent):
    """Values below one another, up to those that have room in one line."""
    pad, rest = " " * indent, nested(parts[1:])
    if len(f"{pad}{rest},") <= 102:
        return [f"{pad}{parts[0]},", f"{pad}{rest},"]
    return [f"{pad}{parts[0]},", f"{pad}(", *tower(parts[1:], indent + 2), f"{pad}),"]
