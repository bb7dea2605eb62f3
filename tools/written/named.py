"""What a block names that stands in the crates by hand: the row of a command's arguments, and what reads it."""
ROWS, READERS = "crates/command_grammar/specs/Table.antt", "crates/command_grammar/src/forms.rt"


def check_named(tables):
    """A TableError where a command names a row or a reader that is not there."""
    rows = (tables.root / ROWS).read_text(encoding="utf-8")
    readers = (tables.root / READERS).read_text(encoding="utf-8")
    for it in tables.commands.lines:
        if it.kept and f"abbrev pub {it.row} : List Kind\n" not in rows:
            raise tables.commands.fault(it.at, it.word, "row", f"{ROWS} has no row {it.row}")
        if it.reader and f"pub fn {it.reader}(" not in readers:
            raise tables.commands.fault(it.at, it.word, "reader", f"{READERS} has no function {it.reader}")
