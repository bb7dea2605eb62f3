#!/usr/bin/env python3
"""Lines of code and of definitions are within 120 columns, but for those with a text in quotes, and tactics."""
import re
import sys
from pathlib import Path

ROOT = Path(__file__).resolve().parent.parent
WIDTH = 120


def main():
    files = [*(ROOT / "crates").glob("*/src/**/*.rt"), *(ROOT / "crates").glob("*/specs/**/*.antt")]
    wide = [f"{file.relative_to(ROOT)}:{at}" for file in sorted(files)
            for at, line in enumerate(file.read_text(encoding="utf-8").split("\n"), 1)
            if len(line) > WIDTH and not re.search(r'"|\\$|#.tactic', line)]
    for it in wide:
        print(f"{it} is wider than {WIDTH} columns")
    print(f"widths: {len(files) - len({it.rpartition(':')[0] for it in wide})} passed, {len(wide)} failed")
    return 1 if wide else 0


if __name__ == "__main__":
    sys.exit(main())
