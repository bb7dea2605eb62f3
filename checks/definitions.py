#!/usr/bin/env python3
"""Compares docs/DEFINITIONS.md with the files that it lists: each file of definitions with how its first comment begins.

`checks/definitions.py --mend` writes the page anew."""
import re
import sys
from pathlib import Path

ROOT = Path(__file__).resolve().parent.parent
PAGE = ROOT / "docs/DEFINITIONS.md"
HEAD = """# Definitions

A contract speaks of values: numbers, lists, records. What it sees of a type stands at the type, as `Value` and `view`. The definitions that it cites stand in `specs/` of the lowest crate that needs them, with comments. `checks/definitions.py --mend` writes this list of their files, from the lowest crate up. [PROOF](PROOF.md#from-here-to-the-theorem) walks through those that you should read first.

The definitions build on one another. A stream of bytes has *frames*. A frame *reads as* a request. What a client does is an *event* of the *plain lobby*: it comes, says a request, is given bytes, or goes. An event comes to an *outcome*: a refusal, or things that *happen*. Each thing that happens says what it changes and who is *told* what.

A client's lines of one event are *put* as one batch, or the client is *cut*. A list of events is a *history*; a *schedule* gives one, and a *record* is what it put for each client. A client's bytes give its *view*, which is to equal the plain lobby's *observation* of its user.
"""


def files_of(crate):
    """The files of definitions of a crate, but for those that only name others."""
    return sorted(it for it in (ROOT / "crates" / crate / "specs").glob("**/*.antt") if it.name != "Lib.antt")


def said(file):
    """The comment at the head of a file, up to its first colon, semicolon, full stop or clause, or what is missing."""
    lines = []
    for line in file.read_text(encoding="utf-8").split("\n"):
        if not line.startswith("-- "):
            break
        lines.append(line[3:])
    text = " ".join(lines)
    found = re.match(r".*?(?=[.:;]( |$)|, (as|which|whose|where|if|seen|by|piece|and (how|what|which|where|the))\b)", text)
    return found[0] if found else text or "**no comment**"


def page():
    lines = [HEAD]
    for row in (ROOT / "crates.txt").read_text(encoding="utf-8").split("\n"):
        crate = re.match(r"(\w+)[ :]", row)
        files = files_of(crate[1]) if crate else []
        for file in files:
            lines.append(f"- [{crate[1]}/{file.stem}](../{file.relative_to(ROOT)}): {said(file)}")
    return "\n".join(lines).rstrip("\n") + "\n"


def main():
    if sys.argv[1:] == ["--mend"]:
        PAGE.write_text(page(), encoding="utf-8")
        return 0
    missing = [str(it.relative_to(ROOT)) for it in sorted((ROOT / "crates").glob("*/specs/**/*.antt"))
               if it.name != "Lib.antt" and said(it).startswith("**")]
    same = PAGE.read_text(encoding="utf-8") == page()
    for it in missing:
        print(f"{it} says nothing at its head")
    if not same:
        print("docs/DEFINITIONS.md is not what the definitions say: checks/definitions.py --mend writes it anew")
    print(f"definitions: {int(same and not missing)} passed, {int(not same or bool(missing))} failed")
    return 0 if same and not missing else 1


if __name__ == "__main__":
    sys.exit(main())
