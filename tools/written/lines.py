"""Reading a line by its arguments, as docs/PROTOCOL.md says, and printing its values again. A line is a text whose
characters are its bytes."""
import re

from .table import RANGES


class LineFault(Exception):
    """A fault of reading, in the words of the tables."""


def parted(line):
    """The message id of a line, None where it has none; its word; and what is behind the word, with its space."""
    text = line.lstrip(" ")
    found = re.match(r"#(\d{1,10}) +", text)
    if found and int(found[1]) <= 2147483647:
        text = text[found.end():]
    else:
        found = None
    word, space, rest = text.partition(" ")
    return int(found[1]) if found else None, word, space + rest


def values(arguments, rest):
    """The values of these arguments in what is behind a word: numbers, texts, lists of words or pairs, and whether `b`
    is a flag. None for what is left out."""
    if "\r" in rest or "\n" in rest:
        raise LineFault("bad byte")
    found, mark = [], " "       # what stands before a sentence
    for it in arguments:
        if it.kind in ("sentence", "text", "pairs"):
            value, mark, rest = sentence(it, mark, rest)
        elif it.kind == "flags":
            parts = rest.split("\t")
            value, rest = len(parts) > 2 and "b" in parts[2].split(" "), ""
        elif it.is_list:
            listed = [plain(word, it.kind == "names") for word in rest.split(" ") if word]
            if it.kind == "names" and len(listed) > 32:
                raise LineFault("too many names")
            value, rest = listed or missing(it), ""
        else:
            said, space, behind = rest.lstrip(" ").partition(" ")
            value, rest = number_or_word(said, it) if said else missing(it), space + behind
        found.append(value)
    return found


def sentence(it, mark, rest):
    """A sentence, a text or pairs; what stands before a further one; and what is behind it."""
    if not rest.startswith(mark):
        return missing(it), mark, rest
    said, behind = rest[1:], ""
    if it.kind == "sentence":
        said, tab, behind = said.partition("\t")
        behind = tab + behind
    return pairs(said) if it.kind == "pairs" else said, "\t", behind


def pairs(said):
    found = []
    for it in filter(None, said.split("\t")):
        key, mark, value = it.partition("=")
        if not key or " " in key or not mark:
            raise LineFault("bad pair")
        found.append((key, value))
    if not found:
        raise LineFault("missing argument")
    return found


def missing(it):
    if not it.is_optional:
        raise LineFault("missing argument")


def plain(word, is_name=False):
    if "\t" in word:
        raise LineFault("bad byte")
    if is_name and not re.fullmatch(r"[A-Za-z0-9_\[\]]{1,20}", word):
        raise LineFault("bad name")
    return word


def number_or_word(word, it):
    plain(word)
    if it.kind not in RANGES and not it.bounds:
        return plain(word, it.kind == "name")
    low, high = it.bounds
    if not re.fullmatch(r"-?\d{1,10}", word) or not low <= int(word) <= high:
        raise LineFault("bad number")
    return bool(int(word)) if it.is_yes_or_no else int(word)


def printed(arguments, found):
    """What stands behind the word in the line of these values."""
    text, mark = "", " "
    for it, value in zip(arguments, found):
        if it.kind == "flags":
            text += "\t\tb" if value else ""
        elif it.kind == "pairs":
            text += mark + "\t".join(f"{key}={of}" for key, of in value)
        elif it.is_list:
            text += "".join(f" {word}" for word in value)
        elif value is not None:
            text += mark if it.kind in ("sentence", "text") else " "
            text += str(int(value) if isinstance(value, bool) else value)
        if it.kind in ("sentence", "text"):
            mark = "\t"
    return text


def check_lines(tables):
    """TableError where a good line does not read as what it is to be, a bad one of a command has another fault, or one of
    a reply has none."""
    for table in (tables.commands, tables.replies):
        for it in table.lines:
            for line in it.good:
                said = fault_of(it, line)
                if said:
                    raise table.fault(it.at, it.word, "good", f"{line!r}: {said}")
    for it in tables.commands.lines:
        for line, wanted in it.bad:
            said = fault_of(it, line)
            if said != wanted:
                raise tables.commands.fault(it.at, it.word, "bad", f"{line!r}: {said or 'no fault'}, and not {wanted}")
    for it in tables.replies.lines:
        for line in it.bad:
            if fault_of(it, line) is None or parted(line)[1] != it.word:
                raise tables.replies.fault(it.at, it.word, "bad", f"{line!r} is a reply, or another's line")


def fault_of(it, line):
    """What is wrong with a line of this kind; a reply has to print as it again."""
    _, word, rest = parted(line)
    if word != it.word:
        return f"its word is {word}"
    try:
        found = values(it.kept, rest)
    except LineFault as fault:
        return str(fault)
    if it.KEY == "reply" and printed(it.kept, found) != rest:
        return f"a reply prints as {word}{printed(it.kept, found)}"
    return None
