"""docs/PROTOCOL.md for the tests: the commands of its section 3 and the table of its section 4, and a reader of a client's
line that goes by its section 2. It uses nothing of the package."""
from __future__ import annotations

import re
from pathlib import Path
from typing import Any, Dict, Iterator, List, NamedTuple, Optional, Tuple

PAGE = (Path(__file__).resolve().parents[2] / "docs/PROTOCOL.md").read_text(encoding="utf-8")
# Of LOGIN the page calls two arguments otherwise than the package.
NAMES = {"{lobby name and version}": "{lobby}", "[{user id}]": "[{user}]"}
RANGES = {"u32": (0, 4294967295), "wide": (-2147483648, 4294967295)}


class Argument(NamedTuple):
    name: str
    kind: str               # word, name, sentence, text, u32, wide, a..b; names, words or pairs of a list
    is_optional: bool = False


def section(number: int) -> str:
    return PAGE.split("\n## ")[number]


def arguments(text: str) -> List[Argument]:
    """The arguments of a command or a reply, as the page notes them."""
    for words, plain in NAMES.items():
        text = text.replace(words, plain)
    text = "" if text == "none" or text.endswith(", ignored") else text
    text = text.replace(", one or more", " ..").replace(", 1 to 32", " ..")
    parts = re.sub(r"(?<=[}\]]) (?=[{[])", ", ", text).split(", ")
    return [argument(it) for it in parts if it]


def argument(text: str) -> Argument:
    is_optional, plain = text.startswith("["), text.strip("[]")
    if plain == "{key=value} ..":
        return Argument("pairs", "pairs")
    sentence = re.fullmatch(r"\{(\w+)(\.\.)?\}", plain)
    if sentence:
        return Argument(sentence[1], "text" if sentence[2] else "sentence", is_optional)
    kind, name, *listed = plain.split(" ")
    if listed:
        return Argument(name.rstrip("s") + "s", kind + "s")
    return Argument(name, kind, is_optional)


def commands() -> Dict[str, List[Argument]]:
    """The commands of section 3: behind each heading its line in short, who may say it, and its arguments."""
    rows = re.findall(r"(?m)^### ([A-Z]+)\n\n`[^`]+` \(\w+\)(?:: (.*))?$", section(3))
    return {word: arguments(of) for word, of in rows}


def replies() -> Dict[str, List[Argument]]:
    """The replies of section 4."""
    rows = re.findall(r'(?m)^\| <a id="[^"]+"></a>([A-Z]+) \| (.*?) \|', section(4))
    return {word: arguments(of) for word, of in rows}


COMMANDS, REPLIES = commands(), replies()


def bounds(kind: str) -> Optional[Tuple[int, int]]:
    """The least and the largest number of a kind of number."""
    if kind in RANGES:
        return RANGES[kind]
    found = re.fullmatch(r"(\d+)\.\.(\d+)", kind)
    return (int(found[1]), int(found[2])) if found else None


class Fault(Exception):
    """A fault of reading, as section 6 has its text."""


def read(line: bytes) -> Tuple[Optional[int], str, List[Any]]:
    """The message id, the command and the arguments of a client's line, given without its LF: numbers, and bytes for
    all else; None for what is left out."""
    rest = line.lstrip(b" ")
    found = re.match(rb"#(\d{1,10}) +", rest)
    number = int(found[1]) if found and int(found[1]) <= 2147483647 else None
    if found and number is not None:
        rest = rest[found.end():]
    if b"\r" in line or b"\n" in line:
        raise Fault("Bad byte in line")
    word, space, rest = rest.partition(b" ")
    command = word.decode("latin-1")
    if command not in COMMANDS:
        raise Fault("Unknown command")
    return number, command, [*values(space + rest, COMMANDS[command])]


def values(rest: bytes, wanted: List[Argument]) -> Iterator[Any]:
    """The arguments that these bytes behind a command word are."""
    mark = b" "     # what stands before a sentence
    for it in wanted:
        if it.kind in ("sentence", "text", "pairs"):
            if not rest.startswith(mark):
                yield missing(it)
                continue
            said, mark, rest = rest[1:], b"\t", b""
            if it.kind == "sentence":
                said, tab, behind = said.partition(b"\t")
                rest = tab + behind
            yield [*pairs(said)] if it.kind == "pairs" else said
        elif it.kind in ("words", "names"):
            listed = [word for word in rest.split(b" ") if word]
            yield [*map(plain, listed)] or missing(it)
        else:
            said, space, behind = rest.lstrip(b" ").partition(b" ")
            rest = space + behind
            yield value(said, it) if said else missing(it)


def missing(it: Argument) -> None:
    if not it.is_optional:
        raise Fault("Missing argument")


def plain(word: bytes) -> bytes:
    if b"\t" in word:
        raise Fault("Bad byte in line")
    return word


def value(word: bytes, it: Argument) -> Any:
    plain(word)
    within = bounds(it.kind)
    if within:
        if not re.fullmatch(rb"-?\d{1,10}", word) or not within[0] <= int(word) <= within[1]:
            raise Fault("Bad number")
        return int(word)
    if it.kind == "name" and not re.fullmatch(rb"[A-Za-z0-9_\[\]]{1,20}", word):
        raise Fault("Bad name")
    return word


def pairs(said: bytes) -> Iterator[Tuple[bytes, bytes]]:
    listed = [it for it in said.split(b"\t") if it]
    if not listed:
        raise Fault("Missing argument")
    for it in listed:
        key, mark, rest = it.partition(b"=")
        if not key or b" " in key or not mark:
            raise Fault("Bad key or value")
        yield key, rest
