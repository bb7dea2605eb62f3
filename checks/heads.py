#!/usr/bin/env python3
"""Looks at the head of each crate's root file, by which a stranger learns what the crate is.

A head begins with one short sentence that says what the crate is. It links a public item as [`Name`], where the root has one. And it has
an example whose lines stand in the file that it names. docs/ARCHITECTURE.md has the first sentences as a table, in the order of its
flowchart: `checks/heads.py --write` writes it."""
import re
import sys
from pathlib import Path

ROOT = Path(__file__).resolve().parent.parent
sys.path.insert(0, str(ROOT / "tools"))
sys.dont_write_bytecode = True  # in tools/
from written.fences import FenceError, Region, difference, filled  # noqa: E402

PAGE = "docs/ARCHITECTURE.md"
WORDS = 22
LINES = range(2, 13)
ITEM = re.compile(r'(?m)^pub (?:(?:const|unsafe|extern "C") )*(?:fn|struct|enum|trait|const|type|mod|static) (\w+)')
EXAMPLE = re.compile(r"(?m)^For example \(`([^`\n]+)`\):\n+```(?:rust|text|console)\n((?:.*\n)*?)```$")


def crates():
    """The names of all crates, lowest first."""
    return re.findall(r"(?m)^(\w+)\b[^:\n]*:", (ROOT / "crates.txt").read_text(encoding="utf-8"))


def root_of(crate):
    """A crate's root file: that of a library, else that of a program."""
    library = ROOT / "crates" / crate / "src/lib.rt"
    return library if library.exists() else library.with_name("main.rt")


def text_of(root):
    """What stands in a root file, nothing where there is none."""
    return root.read_text(encoding="utf-8") if root.exists() else ""


def head_of(text):
    """What a file says at its head."""
    lines = re.match(r"(?://!.*\n)*", text)[0].split("\n")[:-1]
    return "\n".join(line[3:].removeprefix(" ") for line in lines)


def first_sentence(head):
    """The first sentence of a head, or nothing where its first paragraph has no end of one."""
    found = re.match(r".*?\.(?= |$)", head.partition("\n\n")[0].replace("\n", " "))
    return found[0] if found else ""


def public_names(text):
    """What a root file makes public, by name."""
    names = {*ITEM.findall(text)}
    for used in re.findall(r"(?m)^pub use ([^;]+);", text):
        names |= {re.split(r"::|\bas\b", it)[-1].strip() for it in re.split(r"[{},]", used)}
    return names - {""}


def example_fault(head, root):
    """What is wrong with the example of a head; None where nothing is."""
    found = EXAMPLE.search(head)
    if not found:
        return "it has no line `For example (`FILE`):` with a block of rust, text or console behind it"
    name, block = found[1], [it.strip() for it in found[2].split("\n")[:-1]]
    file = next((it for it in (ROOT / "crates" / name, ROOT / name) if it.is_file()), None)
    if file is None:
        return f"its example names {name}, and there is no such file"
    if file == root:
        return "its example names the file in which it stands"
    if len(block) not in LINES:
        return f"its example has {len(block)} lines, and is to have {LINES[0]} to {LINES[-1]}"
    there = [it.strip() for it in file.read_text(encoding="utf-8").split("\n")]
    if not any(there[at:at + len(block)] == block for at in range(len(there))):
        missing = [f"no line there is {it!r}" for it in block if it not in there]
        return f"its example is not in {name}: {[*missing, 'its lines do not follow one another there'][0]}"
    return None


def faults(root):
    """What is wrong with the head of a root file."""
    text = text_of(root)
    head = head_of(text)
    count = len(first_sentence(head).split())
    if not count:
        yield "it begins with no sentence that ends by a full stop"
    if count > WORDS:
        yield f"its first sentence has {count} words, and may have {WORDS}"
    names = public_names(text) if root.name == "lib.rt" else set()
    linked = re.findall(r"\[`(\w+)[^`\n]*`\]", re.sub(r"(?ms)^```.*?^```", "", head))
    if names and not names.intersection(linked):
        yield "it links no public item of its root as [`Name`]"
    fault = example_fault(head, root)
    if fault:
        yield fault


def groups():
    """The crates of each group of the page's flowchart, by the group's name."""
    found = {}
    for name, inside in re.findall(r'(?m)^ +\w+\["<b>(.+?)</b>(.*?)"\]$', (ROOT / PAGE).read_text(encoding="utf-8")):
        found[name] = re.findall(r"\w+", inside.replace("<br/>", " "))
    return found


def group_faults():
    """A line for each crate that the flowchart does not name once, and for each name there of no crate."""
    named = [it for group in groups().values() for it in group]
    for it in dict.fromkeys([*crates(), *named]):
        if it not in crates():
            yield f"{PAGE}: the flowchart names {it}, and there is no such crate"
        elif named.count(it) != 1:
            yield f"{PAGE}: the flowchart is to have {it} in one group, and has it in {named.count(it) or 'none'}"


def table():
    """The lines of the table: a row for each group, and behind it one for each of its crates."""
    lines = ["| Crate | What it is |", "|---|---|"]
    for group, names in groups().items():
        lines.append(f"| **{group}** | |")
        for crate in filter(crates().__contains__, names):
            root = root_of(crate)
            said = re.sub(r"\[(`[^`]+`)\](?!\()", r"\1", first_sentence(head_of(text_of(root))))
            lines.append(f"| [`{crate}`](../{root.relative_to(ROOT)}) | {said.replace('|', chr(92) + '|')} |")
    return lines


REGION = Region(PAGE, "crates", "the crates' heads", table, by="checks/heads.py of {of}")


def table_faults():
    """What is wrong with the table and with the flowchart that orders it."""
    yield from group_faults()
    differs = difference(REGION, (ROOT / PAGE).read_text(encoding="utf-8").split("\n"), table())
    if differs:
        yield differs
        yield "checks/heads.py --write writes it anew"


def write():
    """Writes the table, where the flowchart has a place for each crate."""
    wrong = [*group_faults()]
    for it in wrong:
        print(it)
    if not wrong:
        text = (ROOT / PAGE).read_text(encoding="utf-8")
        (ROOT / PAGE).write_text(filled(text, REGION, table()), encoding="utf-8")
    return 1 if wrong else 0


def check():
    told = {crate: [f"{root_of(crate).relative_to(ROOT)}: {it}" for it in faults(root_of(crate))] for crate in crates()}
    told[PAGE] = [*table_faults()]
    for it in sum(told.values(), []):
        print(it)
    failed = sum(map(bool, told.values()))
    print(f"heads: {len(told) - failed} passed, {failed} failed")
    return 1 if failed else 0


def main():
    try:
        return write() if sys.argv[1:] == ["--write"] else check()
    except FenceError as error:
        print(f"{error}\nheads: 0 passed, 1 failed")
        return 1


if __name__ == "__main__":
    sys.exit(main())
