"""What is written into checks, benchmarks, rows and the tests of the Python package: words, weights, and lines with
their values."""
import textwrap

from .layout import quoted, wrapped
from .lines import parted, printed, values

# The commands that bench/lines.rs reads in full.
MIX = ("SAY", "MYSTATUS", "JOINBATTLE", "MYBATTLESTATUS", "SETSCRIPTTAGS")
WEIGHTS = {"EVERYBODY": ("anyone", "user"), "MEMBER": ("member",), "FOUNDER": ("founder",)}


def hostile_words(tables):
    words = " ".join(it.word for it in tables.commands.lines)
    return textwrap.wrap(f'WORDS = """{words}""".split()', 120)


def session_weights(tables):
    """A dictionary for all, for members and for founders."""
    lines = []
    for name, who in WEIGHTS.items():
        weights = ", ".join(f'"{it.word}": {it.weight}' for it in tables.commands.lines if it.weight and it.who in who)
        begin = f"{name} = {{"
        lines += textwrap.wrap(f"{begin}{weights}}}", 120, subsequent_indent=" " * len(begin), break_long_words=False)
    return lines


def bench_words(tables):
    """The words whose arguments the benchmark does not read."""
    words = [it.word for it in tables.commands.numbered() if it.word not in MIX]
    return [f'        b"{word}" => Command::Other({at}),' for at, word in enumerate(words)]


def text_of(line):
    """The characters that a line's bytes are in UTF-8, as the package has them."""
    return line.encode("latin-1").decode("utf-8", "surrogateescape")


def bytes_of(line):
    """A line as bytes of Python."""
    shown = {'"': '\\"', "\\": "\\\\", "\t": "\\t", "\r": "\\r", "\n": "\\n"}
    return 'b"' + "".join(shown.get(it) or (it if " " <= it <= "~" else f"\\x{ord(it):02x}") for it in line) + '"'


def lines_of(it):
    """The good lines of a command or a reply as they are printed without an id, each once, with their values."""
    found = {}
    for line in it.good:
        _, word, rest = parted(line)
        read = values(it.kept, rest)
        found[word + printed(it.kept, read)] = read
    return found.items()


def fields(arguments, found):
    """Values as checks/library.py has the fields of a line."""
    for it, value in zip(arguments, found):
        if it.kind == "pairs":
            yield from (quoted(text_of(part)) for pair in value for part in pair)
        elif it.is_list:
            yield from (quoted(text_of(word)) for word in value)
        elif isinstance(value, str):
            yield quoted(text_of(value))
        else:
            yield str(int(value)) if value is not None else "None"


def is_plain(line):
    """Whether checks/library.py can tell a line: it is UTF-8 without NUL, and no word of it begins with a mark of that
    check's own."""
    return all(it == "\t" or it.isprintable() for it in text_of(line)) and not any(f" {it}" in line for it in ">?")


def library_replies(tables):
    lines = ["REPLIES = ["]
    for it in tables.replies.numbered():
        for line, found in lines_of(it):
            if is_plain(line):
                lines += entry(f"({quoted(text_of(line))}, ", fields(it.kept, found))
    return [*lines, "]"]


def library_requests(tables):
    lines = ["REQUESTS = ["]
    for it in tables.commands.numbered():
        for line, found in lines_of(it):
            if is_plain(line):
                behind = quoted(text_of(line[len(it.word):]))
                lines += entry(f'("{it.word}", ', fields(it.kept, found), f", {behind}")
    return [*lines, "]"]


def entry(begin, listed, behind=""):
    """An entry of a list with a list in it: in one line, or in several where that is too wide."""
    listed = [*listed]
    whole = f"    {begin}[{', '.join(listed)}]{behind}),"
    if len(whole) <= 140:
        return [whole]
    last = [f"     {behind.removeprefix(', ')}),"] if behind else []
    inside = wrapped("     [", listed, "]," if behind else "]),", 6)
    return [f"    {begin.rstrip(' ')}", *inside, *last]


def said(it, value, is_reply):
    """A value of an argument, as a test of the package says it."""
    if it.kind == "pairs":
        return tuple_of([tuple_of([quoted(text_of(part)) for part in pair]) for pair in value])
    if it.is_list:
        return tuple_of([quoted(text_of(word)) for word in value])
    if isinstance(value, str):
        return quoted(text_of(value))
    if is_reply and it.name in ("status", "battleStatus"):
        return f"{'Status' if it.name == 'status' else 'BattleStatus'}({value})"
    return str(value)


def tuple_of(parts):
    return f"({', '.join(parts)}{',' * (len(parts) == 1)})"


def call(it, found):
    """The parts of a call that makes a line of the package, without what is left out at its end."""
    while found and found[-1] in (None, False) and it.kept[len(found) - 1].may_be_left_out:
        found = found[:-1]
    parts = []
    for of, value in zip(it.kept, found):
        text = said(of, value, it.KEY == "reply")
        parts += text.split(", ") if of.kind in ("words", "names") else [text]
    return parts


def tested_replies(tables):
    lines = ["READ: List[Tuple[bytes, Reply]] = ["]
    for it in tables.replies.lines:
        for line, found in lines_of(it):
            parts = call(it, found)
            whole = f"    ({bytes_of(line)}, r.{it.word}({', '.join(parts)})),"
            if len(whole) <= 120:
                lines.append(whole)
            else:
                lines += [f"    ({bytes_of(line)},", *wrapped(f"     r.{it.word}(", parts, ")),", 8 + len(it.word))]
    return [*lines, "]"]


def no_replies(tables):
    """Lines that no reply prints, as texts."""
    parts = [quoted(text_of(line)) for it in tables.replies.lines for line in it.bad]
    return ["NO_REPLIES = [", *wrapped("    ", parts, ",", 4), "]"]


def tested_no_replies(tables):
    parts = [bytes_of(line) for it in tables.replies.lines for line in it.bad]
    return ["NONE = [", *wrapped("    ", parts, ",", 4), "]"]


def tested_requests(tables):
    lines = ["PRINTED: List[Tuple[Request, bytes]] = ["]
    for it in tables.commands.lines:
        for line, found in lines_of(it):
            parts = call(it, found)
            whole = f"    (r.{it.word}({', '.join(parts)}), {bytes_of(line)}),"
            if len(whole) <= 120:
                lines.append(whole)
            else:
                lines += [*wrapped(f"    (r.{it.word}(", parts, "),", 8 + len(it.word)), f"     {bytes_of(line)}),"]
    return [*lines, "]"]


def row_line(line):
    """A line as a script of lobby_play has it."""
    return line.replace("\t", "\\t") + "\\n"


def tried_logged_out(tables):
    return [f"each send 1 #5 {row_line(it.tried[0])}" for it in tables.commands.lines if it.tried]


def tried_without_battle(tables):
    found = [it.tried[1:3] for it in tables.commands.lines if it.tried[2:]]
    return [f"each send 3 {row_line(one)}#5 {row_line(other)}" for one, other in found]


def tried_as_member(tables):
    found = [it.tried[-2:] for it in tables.commands.lines if it.tried[2:] and it.who == "founder"]
    return [f"each send 2 {row_line(one)}#5 {row_line(other)}" for one, other in found]


def place_of(it):
    """The place of an argument in a line of checks/python_views.py; nothing of one that may be left out."""
    if it.is_optional:
        return ""
    if it.kind == "pairs":
        return "{keys}={text}"
    if it.is_list:
        return f"{{{it.name}}} {{{it.name}}}"
    if it.kind == "name":
        return "{channel}" if it.name == "channel" else "{user}"
    return f"{{{it.name if it.kind == 'word' else it.kind}}}"


def view_lines(tables):
    """A line of each reply with its arguments as places, but for the one with which a view begins."""
    lines = ["LINES = ["]
    for it in tables.replies.lines:
        if it.word != "ACCEPTED":
            places = printed(it.kept, [place_of(of) or None for of in it.kept if not of.is_list])
            places += "".join(f" {place_of(of)}" for of in it.kept if of.is_list)
            lines.append(f"    {quoted(it.word + places)},")
    return [*lines, "]"]
