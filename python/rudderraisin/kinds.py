"""The kinds of argument, as types of the fields of `reply` and `request` (docs/PROTOCOL.md, section 2).

Each is a plain `str`, `int` or `bool`, or a tuple of `str`. A number whose range has no name here says it beside its
field, as `Annotated[int, "0..2"]`; both bounds belong to it.
"""
from __future__ import annotations

import dataclasses
import functools
from typing import Annotated, Any, Callable, Iterator, NamedTuple, Sequence, Tuple, Union, get_args, get_type_hints

from .status import BattleStatus, Status

Word = Annotated[str, "word"]           # one or more bytes other than space, tab, CR and LF
Name = Annotated[str, "name"]           # 1 to 20 ASCII letters, digits, _, [ and ]
Sentence = Annotated[str, "sentence"]   # zero or more bytes other than tab, CR and LF
Text = Annotated[str, "text"]           # zero or more bytes other than CR and LF
Names = Annotated[Tuple[str, ...], "names"]                 # one or more; a reply has 32 at most
Words = Annotated[Tuple[str, ...], "words"]                 # one or more
Pairs = Annotated[Tuple[Tuple[str, str], ...], "pairs"]     # one or more: a key, a word without =, and a sentence

Flag = Annotated[bool, "0..1"]
Team = Annotated[int, "0..15"]
Side = Annotated[int, "0..200"]         # in two-hundredths of the map
U16 = Annotated[int, "0..65535"]
U32 = Annotated[int, "u32"]             # 0 to 4294967295
Wide = Annotated[int, "wide"]           # -2147483648 to 4294967295
Colour = Annotated[int, "wide"]         # bytes 00BBGGRR; what is said otherwise is passed on as it is
BattleID = Annotated[int, "1..2147483647"]
UserWord = Annotated[Status, "u32"]     # section 3
BattleWord = Annotated[BattleStatus, "u32"]

Field = Union[str, int, None]           # what the library reads and prints; None where an argument is left out


class Argument(NamedTuple):
    """An argument of a line, as its class declares it."""

    name: str
    kind: str                       # as "name", "0..15" or "pairs"
    made: Callable[[Any], Any]      # makes its value of a field that is there
    is_optional: bool


@functools.lru_cache(maxsize=None)
def arguments(line: type) -> tuple[Argument, ...]:
    """The arguments that a class of `reply` or `request` has, in their order."""
    hints = get_type_hints(line, include_extras=True)
    return tuple(_argument(it.name, hints[it.name]) for it in dataclasses.fields(line))


def _argument(name: str, hint: Any) -> Argument:
    is_optional = type(None) in get_args(hint)
    made, kind = get_args(get_args(hint)[0] if is_optional else hint)
    return Argument(name, kind, made, is_optional)


def values(line: type, fields: Sequence[Field]) -> Iterator[Any]:
    """The values of a line's arguments, made of its fields: a list, which comes last, has all that are left."""
    for at, it in enumerate(arguments(line)):
        if it.kind == "pairs":
            yield tuple(zip(fields[at::2], fields[at + 1::2]))
        elif it.kind in ("names", "words"):
            yield tuple(fields[at:])
        else:
            yield None if fields[at] is None else it.made(fields[at])


def fields(line: Any) -> Iterator[Field]:
    """The fields of a line, made of the values of its arguments. TypeError where a list is none."""
    for it in arguments(type(line)):
        value = getattr(line, it.name)
        if it.kind in ("names", "words", "pairs") and not isinstance(value, (tuple, list)):
            raise TypeError(f"{it.name} is a tuple, and not a {type(value).__name__}")
        if it.kind == "pairs":
            for key, value in value:
                yield from (key, value)
        elif it.kind in ("names", "words"):
            yield from value
        else:
            yield value
