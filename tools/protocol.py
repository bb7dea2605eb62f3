#!/usr/bin/env python3
"""Writes what stands in many files of each command and each reply, from the tables of protocol/ (protocol/README.md).

    tools/protocol.py --write     fills the regions, from `Written by tools/protocol.py ..` to `End of what is written ..`
    tools/protocol.py --check     compares them: names each file and region that differs, with the first line that does

A table that is wrong is refused, with its line and field. The status is 1 where a region differs or a table is
wrong."""
import collections
import sys

from written.fences import FenceError, difference, fenced, filled
from written.lines import check_lines
from written.named import check_named
from written.numbers import check_numbers
from written.regions import REGIONS
from written.table import ROOT, TableError, Tables


def by_file():
    """The regions of each file."""
    found = collections.defaultdict(list)
    for region in REGIONS:
        found[region.file].append(region)
    return found


def written(text, regions, tables):
    """The text of a file with its regions filled."""
    for region in regions:
        text = filled(text, region, region.lines(tables))
    return text


def write(tables):
    for file, regions in by_file().items():
        path = ROOT / file
        before = path.read_text(encoding="utf-8")
        after = written(before, regions, tables)
        if after != before:
            path.write_text(after, encoding="utf-8")
            print(f"{file} is written anew")
    return 0


def differences(tables):
    """A line for each region that differs, and for each that nobody writes."""
    for file, regions in by_file().items():
        text = (ROOT / file).read_text(encoding="utf-8")
        for name in fenced(text):
            if name not in [it.name for it in regions]:
                yield f"{file}: nobody writes {name}"
        for region in regions:
            differs = difference(region, text.split("\n"), region.lines(tables))
            if differs:
                yield differs


def check(tables):
    check_named(tables)
    found = [*differences(tables)]
    for it in found:
        print(it)
    if found:
        print("tools/protocol.py --write writes them anew")
    print(f"protocol: {len(REGIONS) - len(found)} passed, {len(found)} failed")
    return 1 if found else 0


def main():
    todo = {"--write": write, "--check": check}.get(" ".join(sys.argv[1:]))
    if not todo:
        print(__doc__, file=sys.stderr)
        return 2
    try:
        tables = Tables()
        check_lines(tables)
        check_numbers(tables)
        return todo(tables)
    except (TableError, FenceError) as error:
        print(error)
        return 1


if __name__ == "__main__":
    sys.exit(main())
