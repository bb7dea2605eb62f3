"""What is written for programs that use the library: the numbers of include/lobby.h, and the classes of the Python
package, with lists of those that tell all users something and of those that refuse."""
from .layout import wrapped

PYTHON = {
    "word": "Word", "name": "Name", "u32": "U32", "wide": "Wide", "0..65535": "U16", "sentence": "Sentence",
    "text": "Text", "words": "Words", "names": "Names", "pairs": "Pairs", "1..2147483647": "BattleID",
    "0..15": "Team", "0..200": "Side",
}


def numbers(lines, prefix):
    """The names of an enum with their numbers."""
    found = [f"    LOBBY_{prefix}_{it.word} = {it.number}," for it in lines]
    return [*found[:-1], found[-1].rstrip(",")]


def header_replies(tables):
    return numbers(tables.replies.numbered(), "REPLY")


def header_requests(tables):
    return numbers(tables.commands.numbered(), "ASK")


def type_of(it, is_reply):
    """The type of a field, as `rudderraisin.kinds` names it."""
    if it.kind == "flags":
        return "Flag = False"
    if it.is_yes_or_no:
        return "Flag"
    if it.name == "teamColor":
        return "Colour"
    if is_reply and it.name in ("status", "battleStatus"):
        return "UserWord" if it.name == "status" else "BattleWord"
    made = PYTHON.get(it.kind) or f'Annotated[int, "{it.kind}"]'
    return f"Optional[{made}] = None" if it.is_optional else made


def classes(lines, base):
    """A class for each line."""
    found = []
    for it in lines:
        found += ["@dataclass(frozen=True)", f"class {it.word}({base}):", f'    """{it.meaning}"""']
        fields = [("b" if of.kind == "flags" else of.name, type_of(of, base == "Reply")) for of in it.kept]
        found += [""] * bool(fields) + [f"    {name}: {of}" for name, of in fields] + ["", ""]
    return found[:-2]


def reply_classes(tables):
    return classes(tables.replies.numbered(), "Reply")


def request_classes(tables):
    return classes(tables.commands.numbered(), "Request")


def tuple_of(name, tables, *tells):
    """The classes of the replies that tell of this."""
    begin = f"{name} = ("
    return wrapped(begin, [f"reply.{it.word}" for it in tables.replies.lines if it.tells in tells], ")", len(begin))


def told_to_all(tables):
    return tuple_of("TOLD", tables, "users", "battles")


def refusals(tables):
    return tuple_of("REFUSALS", tables, "refusal")
