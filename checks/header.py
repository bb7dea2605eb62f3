#!/usr/bin/env python3
"""Compares include/lobby.h with what lobby_c exports: each function with its parameters and result, each struct with its fields in their
order, each status and kind of field with its number; the numbers of replies and requests are written. `checks/header.py LIBRARY` also compares the names with the symbols of a built library."""
import re
import subprocess
import sys
from pathlib import Path

ROOT = Path(__file__).resolve().parent.parent
HEADER = ROOT / "include/lobby.h"
CRATES = ["lobby_c", "lobby_lines"]
SOURCES = [path for crate in CRATES for path in sorted((ROOT / "crates" / crate / "src").glob("*.rt"))]
# What a type of the crates is called in C.
NUMBERS = {"usize": "size_t", **{f"{sign}{bits}": f"{'u' * (sign == 'u')}int{bits}_t" for sign in "ui" for bits in (8, 16, 32, 64)}}
STRUCTS = {"Slot": "lobby_view", "Place": "lobby_text", "Size": "lobby_size"}


def c_type(name):
    """The C type of a type that crosses as it is."""
    if name in NUMBERS or name in STRUCTS:
        return NUMBERS.get(name) or STRUCTS[name]
    row = re.fullmatch(r"(\w+)Row", name)
    if not row:
        sys.exit(f"header: no C type stands for {name}")
    return "lobby_" + row[1].lower()


def c_parameters(name, kind):
    """What C passes for a parameter: pairs of a type and a name, of which a slice's length has none."""
    if kind == "Global":
        return []
    slice_of = re.fullmatch(r"&(mut )?\[(\w+)\]", kind)
    if slice_of:
        return [(f"{'' if slice_of[1] else 'const '}{c_type(slice_of[2])} *", name), ("size_t", None)]
    lent = re.fullmatch(r"&(mut )?(\w+)", kind)
    if lent:
        return [(f"{'' if lent[1] else 'const '}{c_type(lent[2])} *", name)]
    return [(c_type(kind), name)]


def without_comments(text):
    return re.sub(r"/\*.*?\*/|//[^\n]*", " ", text, flags=re.S)


def exported(text):
    """Functions, structs and named numbers of the crates, as C sees them."""
    functions, structs, numbers = {}, {}, {}
    for name, inside, result in re.findall(r'pub extern "C" fn (\w+)\((.*?)\)\s*(?:-> (\w+)\s*)?(?=requires|ensures|\{)', text, re.S):
        parameters = []
        for parameter in filter(None, map(str.strip, inside.split(","))):
            parameters += c_parameters(*re.fullmatch(r"(\w+): (.*)", parameter).groups())
        functions[name] = (c_type(result) if result else "void", parameters)
    for name, inside in re.findall(r"#\[repr\(C\)\]\s*(?:#\[[^\]]*\]\s*)*pub struct (\w+) \{(.*?)\n\}", text, re.S):
        fields = re.findall(r"^\s*(?:pub )?(\w+): ([^,{]+),$", inside, re.M)
        structs[c_type(name)] = [("void *" if kind == "*mut u8" else c_type(kind), field) for field, kind in fields]
    for name, number in re.findall(r"pub const (\w+): u32 = (\d+);", text):
        numbers["LOBBY_" + name] = int(number)
    return functions, structs, numbers


def declared(text):
    """The same of the header."""
    functions, structs, numbers = {}, {}, {}
    for name, inside, again in re.findall(r"typedef struct (\w+) \{(.*?)\} (\w+);", text, re.S):
        fields = re.findall(r"([\w ]+?[ *]+)(\w+);", inside)
        structs[name] = [(spaced(kind), field) for kind, field in fields]
        if name != again:
            sys.exit(f"header: struct {name} is called {again}")
    for inside in re.findall(r"enum \{(.*?)\};", text, re.S):
        numbers.update((name, int(number)) for name, number in re.findall(r"(LOBBY_(?!REPLY_|ASK_)\w+) = (\d+)", inside))
    for result, name, inside in re.findall(r"^(\w+) (lobby_\w+)\((.*?)\);", text, re.S | re.M):
        parameters = [re.fullmatch(r"(.*?)(\w+)", it.strip(), re.S).groups() for it in inside.split(",")]
        functions[name] = (result, [(spaced(kind), parameter) for kind, parameter in parameters])
    return functions, structs, numbers


def spaced(kind):
    """A C type with its spaces in their places."""
    return re.sub(r"\s*\*\s*", " *", re.sub(r"\s+", " ", kind).strip())


def agrees(one, other):
    """Whether a declaration of the header is what is exported: a length may have any name that tells of what it is."""
    if not isinstance(one, tuple):
        return one == other
    if one[0] != other[0] or len(one[1]) != len(other[1]):
        return False
    before = ""
    for (kind, name), (kind_there, name_there) in zip(one[1], other[1]):
        if kind != kind_there or name_there != (name or name_there):
            return False
        if name is None and not re.fullmatch(rf"length|{before}_(length|room)", name_there):
            return False
        before = name
    return True


def main():
    differences, told = [], []
    ours = exported("\n".join(without_comments(path.read_text(encoding="utf-8")) for path in SOURCES))
    theirs = declared(without_comments(HEADER.read_text(encoding="utf-8")))
    for what, there, here in zip(("function", "struct", "number"), ours, theirs):
        told.append(f"{len(here)} {what}s")
        for name in sorted({*there, *here}):
            if name not in here or name not in there:
                differences.append(f"{what} {name}: only {'exported' if name in there else 'in the header'}")
            elif not agrees(there[name], here[name]):
                differences.append(f"{what} {name}: exported {there[name]}, in the header {here[name]}")
        if not here:
            differences.append(f"the header has no {what}")
    for library in sys.argv[1:]:
        words = ["nm", "--defined-only", "-g", library]
        said = subprocess.run(words, stdout=subprocess.PIPE, text=True, check=True).stdout
        names = set(re.findall(r" T (lobby_\w+)$", said, re.M))
        differences += [f"{library}: {name} is in it, or in the header, alone" for name in sorted(names ^ set(theirs[0]))]
    print("\n".join([*differences, f"header: {', '.join(told)}, {len(differences)} differences"]))
    return bool(differences)


if __name__ == "__main__":
    sys.exit(main())
