#!/usr/bin/env python3
"""lobby_record: reads what a server records: who was there, what each was sent, and what a player's room was at each
place."""
import sys
from pathlib import Path

# Where the folder record_tool lies. An installed one is to leave no compiled files there.
LIBRARY = str(Path(__file__).resolve().parent)
VERSION = "unreleased"
sys.path.insert(0, LIBRARY)
sys.dont_write_bytecode = True

from record_tool.commands import main  # noqa: E402

if __name__ == "__main__":
    sys.exit(main(VERSION))
