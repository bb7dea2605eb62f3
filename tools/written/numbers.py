"""The numbers of C stay with their words for ever: the tables against each header that there was."""
import re
import subprocess

from .table import TableError

HEADER = "include/lobby.h"
NUMBER = re.compile(r"\bLOBBY_(ASK|REPLY)_([A-Z]+) = (\d+)")


def headers(root):
    """The text of the header now, and of each commit that changed it, as far as git has them here."""
    yield (root / HEADER).read_text(encoding="utf-8")
    words = ["git", "-C", str(root), "log", "--format=%H", "--", HEADER]
    try:
        found = subprocess.run(words, stdout=subprocess.PIPE, stderr=subprocess.DEVNULL, text=True)
    except OSError:
        return
    for commit in found.stdout.split():
        words = ["git", "-C", str(root), "show", f"{commit}:{HEADER}"]
        yield subprocess.run(words, stdout=subprocess.PIPE, stderr=subprocess.DEVNULL, text=True).stdout


def given(root):
    """The number that each word was given, by ASK or REPLY and the word."""
    numbers = {}
    for text in headers(root):
        numbers.update(((kind, word), int(number)) for kind, word, number in NUMBER.findall(text))
    return numbers


def check_numbers(tables):
    """TableError where a word has another number than it ever had, or has gone."""
    before = given(tables.root)
    for kind, table in (("ASK", tables.commands), ("REPLY", tables.replies)):
        there = {it.word: it for it in table.lines}
        for (of, word), number in sorted(before.items()):
            if of == kind and word not in there:
                raise TableError(f"{table.kind.FILE}: {word} is missing, which has number {number} for ever")
            if of == kind and there[word].number != number:
                it = there[word]
                raise table.fault(it.at, word, "number", f"it is {number} in {HEADER} for ever, and not {it.number}")
