"""Laying out what is written: rows of things up to a width, and sentences of a comment."""
import textwrap

WIDTH = 120


def packed(parts, pad, width=WIDTH, first=None):
    """As many parts a line as it has room for. A line begins with the pad, the first one with `first` where that
    is given, and a part that begins a line loses the space before it."""
    lines = []
    for part in parts:
        if lines and len(lines[-1]) + len(part) <= width:
            lines[-1] += part
        else:
            lines.append((pad if lines or first is None else first) + part.lstrip(" "))
    return lines


def comment(mark, text, width):
    """A comment, as many words a line as it has room for. Code in quotes is broken as other words are."""
    how = {"break_long_words": False, "break_on_hyphens": False}
    return textwrap.wrap(text, width, initial_indent=mark, subsequent_indent=mark, **how)


def literal(line):
    """A line as a literal of bytes in Rust: its characters are its bytes."""
    shown = {"\t": "\\t", "\r": "\\r", "\n": "\\n", '"': '\\"', "\\": "\\\\"}
    return 'b"' + "".join(shown.get(it) or (it if " " <= it <= "~" else f"\\x{ord(it):02X}") for it in line) + '"'


def quoted(text):
    """A text of Python in double quotes."""
    shown = {'"': '\\"', "\\": "\\\\", "\t": "\\t", "\r": "\\r", "\n": "\\n", "\0": "\\x00"}
    return '"' + "".join(shown.get(it) or (it if it.isprintable() else f"\\u{ord(it):04x}") for it in text) + '"'


def wrapped(begin, parts, end, indent):
    """Parts in one line, or in several that begin below one another."""
    pad = " " * indent
    whole = f"{begin}{', '.join(parts)}{end}"
    if len(whole) <= 120:
        return [whole]
    lines, line = [], begin
    for at, part in enumerate(parts):
        part += "," if at + 1 < len(parts) else end
        if line != begin and line != pad and len(line) + 1 + len(part) > 120:
            lines, line = [*lines, line], pad
        line += part if line in (begin, pad) else f" {part}"
    return [*lines, line]
