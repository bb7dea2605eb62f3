"""What is written into docs/PROTOCOL.md: a heading for each command with all that is said of it, and the table of
replies."""
from .table import FAULTS

# Who may say a command: how the page calls it, and what another is told.
CALLED = {
    "anyone": ("anyone", "-"),
    "user": ("a user: one who is logged in", "`SERVERMSG Log in first`"),
    "member": ("a member of a battle", "the same; `SERVERMSG You are not in a battle`"),
    "founder": ("the founder of a battle", "the same; `SERVERMSG You are not the founder`"),
}


def shown(line):
    """A line in a sentence, with bytes that would not be seen as a script has them."""
    names = {"\t": "\\t", "\r": "\\r"}
    return "`" + "".join(names.get(it) or (it if " " <= it <= "~" else f"\\x{ord(it):02X}") for it in line) + "`"


def index(tables):
    """The commands by who may say them."""
    lines = ["| Who may say it | Commands | Of another it is refused |", "|---|---|---|"]
    for who, (called, told) in CALLED.items():
        words = ", ".join(f"[{it.word}](#{it.word.lower()})" for it in tables.commands.lines if it.who == who)
        lines.append(f"| {called} | {words} | {told} |")
    return lines


def commands(tables):
    lines = index(tables)
    for it in tables.commands.lines:
        arguments = f": {it.arguments}" if it.arguments else ""
        lines += ["", f"### {it.word}", "", f"`{it.usage}` ({it.who}){arguments}", ""]
        said, mark, rest = it.more.strip("\n").partition("\n")
        lines += [f"{it.meaning} {said}".rstrip(" "), *(mark + rest).split("\n")[1:], *refusals(it), "", examples(it)]
    return lines


def refusals(it):
    """What it is refused with, in the order in which that is looked at."""
    if not it.refusals:
        return []
    told = "; ".join(f"`{line}`, {when}" for line, when in it.refusals)
    return ["", f"Refused: {told}."]


def examples(it):
    """Its first good line, and its bad ones with their fault."""
    bad = sorted(it.bad, key=lambda bad: FAULTS.index(bad[1]))
    faults = ", ".join(f"{shown(line)} ({fault})" for line, fault in bad)
    return f"Good: {shown(it.good[0])}." + (f" Bad: {faults}." if faults else "")


def replies(tables):
    lines = ["| Reply | Arguments | Meaning |", "|---|---|---|"]
    for it in tables.replies.lines:
        lines.append(f'| <a id="reply-{it.word.lower()}"></a>{it.word} | {it.arguments or "none"} | {it.meaning} |')
    return lines
