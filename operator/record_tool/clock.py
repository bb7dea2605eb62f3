"""Keeps a file of times beside the places of each record, while the server runs: a line whenever a later place has
come."""
import fcntl
import os
import re
import signal
import sys
import time
from pathlib import Path

from .records import TIMES, Refused, Times, numbered

# More than the longest line of a record: 8,192 bytes of a client, four bytes each, and a place.
TAIL = 65_536


def last_place(file):
    """The place of the last whole line of a worker's file, or None where it has none yet."""
    with file.open("rb") as text:
        text.seek(max(0, file.stat().st_size - TAIL))
        places = re.findall(rb"(?m)^(\d+) [a-z]+ \d.*\n", text.read())
    return int(places[-1]) if places else None


class Watched:
    """A record that is watched: what was known of it, and what its files were when it was last looked at."""

    def __init__(self, folder, is_late):
        self.folder, self.is_late, self.sizes = folder, is_late, {}
        known = Times(folder).places
        self.place = known[-1] if known else -1

    def look(self):
        """Adds a line where a later place has come."""
        files = [it for it in self.folder.iterdir() if it.name.isdigit()]
        sizes = {it: it.stat().st_size for it in files}
        if sizes == self.sizes:
            return
        places = [it for it in map(last_place, files) if it is not None]
        self.sizes = sizes
        if places and max(places) > self.place:
            now = time.strftime("%Y-%m-%dT%H:%M:%SZ", time.gmtime())
            line = f"{max(places)} {now}{' late' if self.is_late else ''}\n"
            handle = os.open(self.folder / TIMES, os.O_WRONLY | os.O_CREAT | os.O_APPEND, 0o600)
            try:
                os.write(handle, line.encode())
            finally:
                os.close(handle)
            self.place = max(places)
        self.is_late = False


def watch(folder, pause):
    """Looks at all records of a folder again and again, until a signal ends it."""
    folder = Path(folder)
    for number in (signal.SIGTERM, signal.SIGINT):
        signal.signal(number, lambda *_: sys.exit(0))
    try:
        handle = os.open(folder, os.O_RDONLY | os.O_DIRECTORY)
        fcntl.flock(handle, fcntl.LOCK_EX | fcntl.LOCK_NB)
    except BlockingIOError:
        raise Refused(f"{folder}: another lobby_record keeps its times") from None
    except OSError as error:
        raise Refused(f"{folder}: it cannot be read: {error.strerror}") from None
    watched, is_late, told = {}, True, ""
    while True:
        try:
            for number in numbered(folder):
                if number not in watched:
                    watched[number] = Watched(folder / str(number), is_late)
                watched[number].look()
            told = ""
        except (OSError, Refused) as error:
            # A disk that is full, or a record that was just deleted. It is told once.
            if str(error) != told:
                print(f"lobby_record: {error}", file=sys.stderr, flush=True)
            told = str(error)
        is_late = False
        time.sleep(pause)
