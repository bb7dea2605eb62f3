"""Makes the records of servers that have ended smaller, and deletes the oldest."""
import gzip
import os
import re
import shutil
import time
from pathlib import Path

from .records import Refused, numbered

DAY = 86_400
# A record of which nobody knows that its server ended is left alone until it was not written for so long, and there is
# a later one.
QUIET = DAY
UNITS = {"": 1, "K": 1 << 10, "M": 1 << 20, "G": 1 << 30, "T": 1 << 40}


def size_of(text):
    """A number of bytes, as 500M or 20G."""
    found = re.fullmatch(r"(\d+)([KMGT]?)", text.upper())
    if not found:
        raise Refused(f"{text} is no size: write it as 500M or 20G")
    return int(found[1]) * UNITS[found[2]]


def said(size):
    for unit in ("bytes", "KB", "MB", "GB"):
        if size < 1000 or unit == "GB":
            return f"{size:.0f} {unit}" if unit == "bytes" else f"{size:.1f} {unit}"
        size /= 1000
    return ""


class Old:
    """A record on the disk."""

    def __init__(self, folder):
        self.folder = folder
        self.look()

    def look(self):
        self.files = [it for it in self.folder.iterdir() if it.is_file()]
        self.size = sum(it.stat().st_size for it in self.files)
        self.written = max((it.stat().st_mtime for it in self.files), default=0)
        self.plain = [it for it in self.files if it.name.isdigit()]

    def has_ended(self, is_last):
        """Whether no server writes it any more: each file says so, or there is a later record and nothing was written
        for a day."""
        return all(map(says_end, self.plain)) or (not is_last and time.time() - self.written > QUIET)

    def compress(self):
        """Each file is compressed beside itself, and goes when that is on the disk."""
        for it in self.plain:
            packed, new = it.with_name(f"{it.name}.gz"), it.with_name(f"{it.name}.gz.new")
            with it.open("rb") as source, open(os.open(new, os.O_WRONLY | os.O_CREAT | os.O_TRUNC, 0o600),
                                               "wb") as target:
                with gzip.GzipFile(fileobj=target, mode="wb") as out:
                    shutil.copyfileobj(source, out, 1 << 20)
                target.flush()
                os.fsync(target.fileno())
            shutil.copystat(it, new)
            if os.geteuid() == 0:
                os.chown(new, it.stat().st_uid, it.stat().st_gid)
            os.rename(new, packed)
            it.unlink()
        (self.folder / "spare").unlink(missing_ok=True)

    def delete(self):
        """Its files go. The folder stays, so that no later record gets its number."""
        for it in sorted(self.files, key=lambda it: it.name == "settings.toml"):
            it.unlink()


def says_end(file):
    with file.open("rb") as text:
        text.seek(max(0, file.stat().st_size - 64))
        return re.search(rb"(^|\n)end [a-z ]+\n\Z", text.read()) is not None


def doomed(records, days, size):
    """Which of the records that have ended are to be deleted, from the oldest, and why."""
    whole = sum(it.size for it in records)
    for it in sorted((it for it in records if it.ended), key=lambda it: it.written):
        age = (time.time() - it.written) / DAY
        if days is not None and age > days:
            yield it, f"{age:.0f} days old"
        elif size is not None and whole > size:
            yield it, f"all together have {said(whole)}"
        else:
            continue
        whole -= it.size


def pack(folder, after, days, size, is_trial):
    """Does it, and says what it did. With `is_trial` it only says it."""
    folder, would = Path(folder), "would be " if is_trial else ""
    numbers = numbered(folder)
    records = [Old(folder / str(it)) for it in numbers if (folder / str(it) / "settings.toml").exists()]
    newest = max(records, key=lambda it: (it.folder / "settings.toml").stat().st_mtime, default=None)
    for it in records:
        it.ended = it.has_ended(it is newest)
    try:
        gone = {}
        for it, why in doomed(records, days, size):
            gone[it] = why
        for it in records:
            if it in gone:
                print(f"{it.folder}: {would}deleted: {gone[it]}, {said(it.size)}")
                if not is_trial:
                    it.delete()
            elif it.ended and it.plain and time.time() - it.written > after * DAY:
                before = it.size
                if not is_trial:
                    it.compress()
                    it.look()
                print(f"{it.folder}: {would}compressed, {said(before)}" + ("" if is_trial else f" to {said(it.size)}"))
        left = sum(it.size for it in records if it not in gone)
        if size is not None and left > size:
            print(f"{folder}: {said(left)} are left, for a record that is being written is not deleted")
    except OSError as error:
        raise Refused(f"{error.filename or folder}: {error.strerror}") from None
