"""Regions of files: what stands between a first and a last line that say who writes it."""
import re
from dataclasses import dataclass
from typing import Callable

# How a comment begins and ends, by the file's suffix.
MARKS = {".rt": ("// ", ""), ".rs": ("// ", ""), ".antt": ("-- ", ""), ".py": ("# ", ""), ".row": ("# ", ""),
         ".h": ("/* ", " */"), ".md": ("<!-- ", " -->")}


class FenceError(Exception):
    """A fence that is missing or stands twice."""


@dataclass(frozen=True)
class Region:
    """What is written between two lines of a file."""

    file: str
    name: str                       # one of its own in the file
    of: str                         # what it is written of: the table of commands or of replies
    lines: Callable                 # the lines that are to stand there, of the tables
    indent: int = 0                 # of the fences
    by: str = "tools/protocol.py of protocol/{of}.toml"

    def fences(self):
        """The first and the last line."""
        before, behind = MARKS["." + self.file.rpartition(".")[2]]
        pad = " " * self.indent
        return (f"{pad}{before}Written by {self.by.format(of=self.of)}: {self.name}.{behind}",
                f"{pad}{before}End of what is written: {self.name}.{behind}")

    def laid_out(self, lines):
        """These lines as they stand between the fences: the layout of specs and proofs parts a comment from what is before it."""
        return [*lines, ""] if self.file.endswith(".antt") else lines

    def place(self, lines):
        """Where the region is among the lines of its file, without its fences."""
        at = []
        for fence in self.fences():
            found = [number for number, line in enumerate(lines) if line == fence]
            if len(found) != 1:
                count = f"stands {len(found)} times, and is to stand once"
                raise FenceError(f"{self.file}: the line {fence.strip()!r} {count}")
            at.append(found[0])
        if at[1] < at[0]:
            raise FenceError(f"{self.file}: {self.name} ends before it begins")
        return at[0] + 1, at[1]


def fenced(text):
    """The names of the regions that begin in a text."""
    return re.findall(r"Written by tools/protocol\.py of protocol/\w+\.toml: (.*?)\.(?: -->| \*/)?\n", text)


def filled(text, region, wanted):
    """A text with its region filled."""
    lines = text.split("\n")
    begin, end = region.place(lines)
    return "\n".join([*lines[:begin], *region.laid_out(wanted), *lines[end:]])


def difference(region, lines, wanted):
    """A line that says where a region differs from what is to stand there; None where it does not."""
    begin, end = region.place(lines)
    there, wanted = lines[begin:end], region.laid_out(wanted)
    for at in range(max(len(there), len(wanted))):
        one, other = (it[at] if at < len(it) else None for it in (there, wanted))
        if one != other:
            seen = [it and it.strip() for it in (one, other)]
            seen = [one, other] if seen[0] == seen[1] else seen
            has = "ends" if one is None else f"has {seen[0]!r}"
            wanted_here = "end" if other is None else f"have {seen[1]!r}"
            return f"{region.file}:{begin + at + 1}: {region.name}: it {has}, and is to {wanted_here}"
    return None
