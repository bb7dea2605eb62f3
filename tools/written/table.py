"""The two tables of the protocol: reading them, and what is wrong with one. protocol/README.md says what each field
is."""
import re
import tomllib
from dataclasses import dataclass, field
from pathlib import Path

ROOT = Path(__file__).resolve().parents[2]
WHO = ("anyone", "user", "member", "founder")
PARTS = ("users", "battles", "rooms", "hosts")
# What a reply may tell of.
TELLS = ("users", "battles", "room", "channel", "talk", "private talk", "refusal", "own")
# What the words of a deed may have in braces.
BEHIND = {"first", "others", "rest", "title"}
# The faults of a line, in the order in which docs/PROTOCOL.md has them.
FAULTS = ("unknown command", "missing argument", "bad number", "bad name", "bad byte", "bad pair")
RANGES = {"u32": (0, 4294967295), "wide": (-2147483648, 4294967295)}
LISTS = {", one or more": "one or more", ", 1 to 32": "1 to 32"}


class TableError(Exception):
    """What is wrong with a table, with its file, line and field."""


@dataclass(frozen=True)
class Argument:
    """An argument of a line: of a list its kind is that of its parts with an s, as `words`."""

    name: str
    kind: str                   # word, name, a..b, u32, wide, sentence, text, words, names, pairs, flags
    is_optional: bool = False

    @property
    def bounds(self):
        """The least and the largest number; None where it is none."""
        found = re.fullmatch(r"(\d+)\.\.(\d+)", self.kind)
        return RANGES.get(self.kind) or (found and (int(found[1]), int(found[2]))) or None

    @property
    def may_be_left_out(self):
        return self.is_optional or self.kind == "flags"

    @property
    def is_yes_or_no(self):
        return self.name in ("locked", "passworded")

    @property
    def is_list(self):
        return self.kind in ("words", "names", "pairs")

    @property
    def snake(self):
        """Its name in the crates."""
        name = {"type": "battle_type", "flags": "authorises"}.get(self.name, self.name)
        name = re.sub("ID$", "", name)
        return re.sub(r"(?<=[a-z])(?=[A-Z])", "_", name).lower()


def arguments_of(text):
    """What stands in the field `arguments`. ValueError with what is no argument."""
    text = "" if text.endswith(", ignored") else text
    for words, count in LISTS.items():
        text = text.replace(words, f" ({count})")
    found = [argument_of(it) for it in re.split(r", |(?<=[}\]]) (?=[{[])", text) if it]
    if found and found[-1] == Argument("flags", "sentence", True):
        # What stands before the flags is not kept, and of the flags only whether b is among them.
        found[-2:] = [Argument("flags", "flags")]
    return found


def argument_of(text):
    plain = re.sub(r"^\[(.*)\]$", r"\1", text)
    is_optional = plain != text
    listed = re.fullmatch(r"(?:(word|name) (\w+)|\{(key=value)\}) \((?:one or more|1 to 32)\)", plain)
    if listed:
        return Argument("pairs", "pairs") if listed[3] else Argument(plural(listed[2]), listed[1] + "s")
    sentence = re.fullmatch(r"\{([\w ]+)(\.\.)?\}", plain)
    if sentence:
        name = "lobby" if sentence[1] == "lobby name and version" else sentence[1]
        return Argument(name, "text" if sentence[2] else "sentence", is_optional)
    single = re.fullmatch(r"(word|name|u32|wide|\d+\.\.\d+) (\w+)", plain)
    if not single:
        raise ValueError(f"{text!r} is no argument of docs/PROTOCOL.md's notation")
    return Argument(single[2], single[1], is_optional)


def plural(name):
    return name if name.endswith("s") else name + "s"


@dataclass
class Line:
    """What a command and a reply have alike."""

    number: int                 # of C, for ever
    word: str
    variant: str                # of the enums
    meaning: str
    good: list
    arguments: str = ""
    note: str = ""              # in the comment of its variant
    more: str = ""              # in docs/PROTOCOL.md, behind the meaning
    at: int = 0                 # the line of the table on which it begins
    kept: list = field(default_factory=list)    # its arguments, as far as they are kept

    @property
    def snake(self):
        return re.sub(r"(?<=[a-z])(?=[A-Z])", "_", self.variant).lower()

    @property
    def usage(self):
        """The line in short, as `JOIN channel [key]`."""
        text = re.sub(r"\.\.(?=\})", "", re.sub(r"^\[(.*)\], ignored$", r"\1", self.arguments))
        for words in LISTS:
            text = text.replace(words, " ..")
        parts = [re.sub(r"^(\[?)(?:word|name|u32|wide|\d+\.\.\d+) (?=\w)", r"\1", it) for it in text.split(", ")]
        return " ".join([self.word, *filter(None, parts)])


@dataclass
class Command(Line):
    """A command of a client."""

    who: str = ""               # may say it: one of WHO
    deed: str = ""              # what it does, as lobby_record says it of a user
    part: str = ""              # of the code's table: one of PARTS
    row: str = "[]"             # the name of its row of kinds, in Table.antt
    reader: str = ""            # what reads that row, where no other command has it
    bad: list = field(default_factory=list)         # lines with their fault
    refusals: list = field(default_factory=list)    # lines that refuse it, each with when it does, in their order
    tried: list = field(default_factory=list)       # lines that the rows of refusals try
    weight: int = 0             # how often checks/python_sessions.py asks for it beside the others

    FILE = "protocol/commands.toml"
    KEY = "command"


@dataclass
class Reply(Line):
    """A line of the server."""

    tells: str = ""             # of what: one of TELLS
    bad: list = field(default_factory=list)         # lines with its word that no reply prints

    FILE = "protocol/replies.toml"
    KEY = "reply"

    @property
    def has_rest(self):
        """Whether a variant has the arguments behind the first in a struct of their own."""
        return self.word == "BATTLEOPENED"


class Table:
    """All lines of a kind, in the order of their file, which is that of the documents."""

    def __init__(self, kind, root=ROOT):
        self.kind, self.path = kind, root / kind.FILE
        self.text = self.path.read_text(encoding="utf-8")
        self.lines = []
        for given, at in zip(self.parsed(), self.starts()):
            self.lines.append(self.line_of(given, at))
        self.check_all()

    def parsed(self):
        try:
            found = tomllib.loads(self.text)
        except tomllib.TOMLDecodeError as error:
            raise TableError(f"{self.kind.FILE}: {error}") from None
        if list(found) != [self.kind.KEY]:
            raise TableError(f"{self.kind.FILE}: it has {', '.join(found)}, and is to have [[{self.kind.KEY}]] alone")
        return found[self.kind.KEY]

    def starts(self):
        return [at for at, it in enumerate(self.text.split("\n"), 1) if it == f"[[{self.kind.KEY}]]"]

    def fault(self, at, word, name, why):
        """The error of a field of the line that begins there."""
        rest = self.text.split("\n")[at:]
        behind = next((n for n, it in enumerate(rest) if re.match(rf"{name}\s*=", it)), -1)
        ends = next((n for n, it in enumerate(rest) if it.startswith("[[")), len(rest))
        line = at + 1 + behind if 0 <= behind < ends else at
        return TableError(f"{self.kind.FILE}:{line}: {word}: {name}: {why}")

    def line_of(self, given, at):
        word = given.get("word", "?")
        wanted = {name: it.type for name, it in self.kind.__dataclass_fields__.items() if name not in ("at", "kept")}
        for name, value in given.items():
            if name not in wanted:
                raise self.fault(at, word, name, "there is no such field")
            if not isinstance(value, wanted[name]):
                raise self.fault(at, word, name, f"{value!r} is no {wanted[name].__name__}")
        own = ("who", "part", "deed") if self.kind is Command else ("tells",)
        for name in ("number", "word", "variant", "meaning", "good", *own):
            if name not in given:
                raise self.fault(at, word, name, "it is missing")
        made = self.kind(**given, at=at)
        try:
            made.kept = arguments_of(made.arguments)
        except ValueError as error:
            raise self.fault(at, word, "arguments", error) from None
        return made

    def check_all(self):
        for name in ("number", "word", "variant"):
            seen = {}
            for it in self.lines:
                value = getattr(it, name)
                if value in seen:
                    raise self.fault(it.at, it.word, name, f"{value} stands in line {seen[value]} too")
                seen[value] = it.at
        for at, it in enumerate(self.numbered(), 1):
            if it.number != at:
                raise self.fault(it.at, it.word, "number", f"{it.number} is not {at}, the next one")
            if it.variant.upper() != it.word:
                raise self.fault(it.at, it.word, "variant", f"{it.variant} is not {it.word} in other letters")
        if self.kind is Command:
            self.check_commands()
        else:
            self.check_replies()

    def check_one_of(self, it, name, known):
        if getattr(it, name) not in known:
            raise self.fault(it.at, it.word, name, f"{getattr(it, name)!r} is none of {', '.join(known)}")

    def check_replies(self):
        for it in self.lines:
            self.check_one_of(it, "tells", TELLS)

    def check_commands(self):
        last = PARTS[0]
        for it in self.numbered():
            self.check_one_of(it, "who", WHO)
            self.check_one_of(it, "part", PARTS)
            unknown = {*re.findall(r"\{(.*?)\}", it.deed)} - BEHIND
            if unknown:
                raise self.fault(it.at, it.word, "deed", f"{', '.join(unknown)} is none of {', '.join(sorted(BEHIND))}")
            if PARTS.index(it.part) < PARTS.index(last):
                raise self.fault(it.at, it.word, "part", f"a lower number is of {last}, which come behind {it.part}")
            last = it.part
            for bad in it.bad:
                if not (isinstance(bad, list) and len(bad) == 2 and bad[1] in FAULTS):
                    raise self.fault(it.at, it.word, "bad", f"{bad!r} is no line with one of {', '.join(FAULTS)}")
            if not all(isinstance(of, list) and len(of) == 2 for of in it.refusals):
                raise self.fault(it.at, it.word, "refusals", "each is a line and when it is told")
            if any(not str(line).startswith(it.word) for line in it.tried):
                raise self.fault(it.at, it.word, "tried", "a line is another command's")
            if (it.row == "[]") != (not it.kept):
                raise self.fault(it.at, it.word, "row", "it names the row of the arguments, where there are any")

    def numbered(self):
        """In the order of C's numbers."""
        return sorted(self.lines, key=lambda it: it.number)


class Tables:
    """Both."""

    def __init__(self, root=ROOT):
        self.root = root
        self.commands, self.replies = Table(Command, root), Table(Reply, root)
