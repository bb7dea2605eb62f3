#!/usr/bin/env python3
"""Follows each link of the Markdown files that git tracks, and names those that point to nothing.

A link with a line, as [`Framer::feed`](../crates/line_framer/src/lib.rt#L70), has to point to the line on which the item that
it names is defined. `checks/links.py --mend` writes those line numbers anew."""
import re
import subprocess
import sys
from pathlib import Path

ROOT = Path(__file__).resolve().parent.parent
LINK = re.compile(r"\[([^\]\n]*)\]\(([^)\s]+)\)")


def documents():
    """The Markdown files that git tracks, but for those that were taken away since."""
    names = subprocess.run(["git", "-C", ROOT, "ls-files", "-z", "*.md"], check=True, capture_output=True, text=True).stdout
    return sorted({ROOT / it for it in names.split("\0") if it and (ROOT / it).is_file()})


def defined_at(file, name):
    """The line of the item `name`, or of the method `Type::name`, from 1; 0 where there is none."""
    owner, _, last = name.rpartition("::")
    word = re.escape(last)
    if file.suffix == ".antt":
        item = re.compile(rf"(?:abbrev |unfoldable )?pub (?:record |data )?{word}(?=[ :])")
    else:
        item = re.compile(rf"\s*(?:pub(?:\(\w+\))? )?(?:const |unsafe )?(?:fn|struct|enum|trait|const|type|mod|static) {word}\b")
    block = re.compile(rf"impl\b.*?\b{re.escape(owner)}\b[^;]*{{") if owner else None
    inside = not owner
    for number, line in enumerate(file.read_text(encoding="utf-8").split("\n"), 1):
        if block and line.startswith("impl"):
            inside = bool(block.match(line))
        if inside and item.match(line):
            return number
    return 0


def headings(file):
    """The anchors of a document: its headings, and those that it has by name."""
    text = file.read_text(encoding="utf-8")
    found = re.findall(r"(?m)^#+ (.+)$", text)
    return {re.sub(r"[^\w\- ]", "", it.lower()).replace(" ", "-") for it in found} | {*re.findall(r'<a id="([^"]+)">', text)}


def fault(document, text, target):
    """Why a link points to nothing, or None; and the target that it should have."""
    path, _, place = target.partition("#")
    file = (document.parent / path).resolve() if path else document
    if ROOT != file and ROOT not in file.parents:
        return "it leaves the repository", target
    if not file.exists():
        return "there is no such file", target
    line = re.fullmatch(r"L(\d+)", place)
    if line:
        name = text.strip("`")
        number = defined_at(file, name)
        if not number:
            return f"nothing there is named {name}", target
        if number != int(line[1]):
            return f"{name} is at line {number}", f"{path}#L{number}"
    elif place and (file.suffix != ".md" or place not in headings(file)):
        return f"it has no heading {place}", target
    return None, target


def main():
    is_mending = sys.argv[1:] == ["--mend"]
    passed = failed = 0
    for document in documents():
        whole = document.read_text(encoding="utf-8")
        mended = whole
        for text, target in LINK.findall(re.sub(r"(?ms)^    .*?$|^```.*?^```", "", whole)):
            if re.match(r"[a-z]+:", target):
                continue
            why, better = fault(document, text, target)
            if why and is_mending and better != target:
                mended = mended.replace(f"[{text}]({target})", f"[{text}]({better})")
                why = None
            passed, failed = passed + (not why), failed + bool(why)
            if why:
                print(f"{document.relative_to(ROOT)}: [{text}]({target}): {why}")
        if mended != whole:
            document.write_text(mended, encoding="utf-8")
    print(f"links: {passed} passed, {failed} failed")
    return 1 if failed else 0


if __name__ == "__main__":
    sys.exit(main())
