#!/usr/bin/env python3
"""lobby_account: adds and changes accounts in a lobby's file of accounts, or prints the word of a password.

Of the file it changes the lines that it must and no other: comments and order stay. What it writes, lobby_check has
read before, and it takes the file's place at once: whatever fails, the old file is there."""
import argparse
import contextlib
import copy
import fcntl
import getpass
import os
import pwd
import re
import shutil
import signal
import subprocess
import sys
import tempfile
import time
from pathlib import Path

try:
    import tomllib
except ImportError:
    sys.exit("lobby_account: it wants Python 3.11 or later, as Debian 12 has: older ones have no tomllib")

VERSION = "unreleased"
CONFIGURATION = "/etc/rudderraisin"
UNIT = "rudderraisin"
# As whom the server runs, of whom root tries the files before a restart.
USER = "rudderraisin"
# How long it waits for another one that changes the file, in seconds.
PATIENCE = 10
GREATEST_ID = 4294967295
NAME = re.compile(r"[A-Za-z0-9_\[\]]{1,20}")
HEADER = re.compile(r"\s*(\[\[?)\s*([^\]]*?)\s*\]")
KEY = re.compile(r"""\s*(?:"([^"]*)"|'([^']*)'|([A-Za-z0-9_-]+))\s*=\s*""")
# A value on its key's line, and the space before a comment behind it.
VALUE = re.compile(r"""("[^"]*"|'[^']*'|[^\s#]+)([ \t]*)(?=(#?))""")


class Refused(Exception):
    """Nothing was changed, and why."""


class NotRestarted(Exception):
    """The file was changed, but the server was not restarted, and why."""


def program(name):
    """A program of the server: what $LOBBY_CHECK or the like names, or the one beside this one, or one of the path."""
    beside = Path(__file__).resolve().parent / name
    found = os.environ.get(name.upper()) or (str(beside) if os.access(beside, os.X_OK) else shutil.which(name))
    if not found:
        raise Refused(f"there is no program {name}, neither beside {sys.argv[0]} nor in a folder of PATH")
    return found


class Entry:
    """Where an account stands: the line of its [[account]], and that of each key, from 0."""

    def __init__(self, line):
        self.line, self.keys = line, {}


class Book:
    """A file of accounts: its lines, what they say, and where each account stands."""

    def __init__(self, path):
        self.path = path
        try:
            self.bytes = path.read_bytes()
            self.text = self.bytes.decode("utf-8")
        except OSError as error:
            hint = ": try it as root" if isinstance(error, PermissionError) else ""
            raise Refused(f"{path}: the file cannot be read: {error.strerror}{hint}") from None
        except UnicodeDecodeError as error:
            raise Refused(f"{path}:{self.bytes[:error.start].count(10) + 1}: the line is not UTF-8") from None
        self.lines = self.text.split("\n")
        self.end = "\r" if self.lines[0].endswith("\r") else ""
        try:
            self.says = tomllib.loads(self.text)
        except tomllib.TOMLDecodeError as error:
            found = re.search(r" \(at line (\d+).*\)", str(error))
            line = found[1] if found else self.text.rstrip("\n").count("\n") + 1
            raise Refused(f"{path}:{line}: the line is not TOML: {str(error).partition(' (at ')[0]}") from None
        self.scan()

    def scan(self):
        self.top, self.entries, self.default = {}, [], None
        keys = self.top
        for number, line in enumerate(self.lines):
            header, key = HEADER.match(line), KEY.match(line)
            if key:
                keys[key[1] or key[2] or key[3]] = number
            elif header and (header[1], header[2]) == ("[[", "account"):
                self.entries.append(Entry(number))
                keys = self.entries[-1].keys
            elif header:
                self.default = number if header[2] == "default" else self.default
                keys = {}

    def accounts(self):
        """What each account says. Refuses a file in which they do not stand as this program finds them."""
        listed = self.says.get("account", [])
        is_list = isinstance(listed, list) and all(isinstance(it, dict) for it in listed)
        if not is_list or len(listed) != len(self.entries):
            line = self.top.get("account", 0) + 1
            raise Refused(f"{self.path}:{line}: lobby_account finds accounts alone that stand below a line "
                          f"[[account]] each")
        return listed

    def number_of(self, name):
        """Which account has this name, from 0."""
        for number, it in enumerate(self.accounts()):
            if it.get("name") == name:
                return number
        like = [it["name"] for it in self.accounts() if str(it.get("name")).lower() == name.lower()]
        raise Refused(f"{self.path}: no account is named {name}" + "".join(f": there is {it}" for it in like))

    def line_of(self, number):
        return self.entries[number].line + 1

    def is_disabled(self, number):
        return self.says.get("format", 1) == 2 and self.accounts()[number].get("disabled") is True


class Change:
    """A file of accounts as it is to be: the lines, and what they are to say."""

    def __init__(self, book):
        self.book, self.lines, self.says = book, list(book.lines), copy.deepcopy(book.says)
        self.words = []         # what the user is to know of it

    def set_value(self, line, value):
        """Puts a value in the place of that of a key, whose line has no other. A comment behind it keeps its column, if
        it can."""
        text = self.lines[line]
        start = KEY.match(text).end()
        old = VALUE.match(text, start)
        if old:
            space = " " * max(len(old[0]) - len(value), 1) if old[3] else old[2]
            self.lines[line] = text[:start] + value + space + text[old.end():]

    def set_key(self, number, key, value, written):
        """Sets a key of an account."""
        entry = self.book.entries[number]
        self.says["account"][number][key] = value
        if key in entry.keys:
            self.set_value(entry.keys[key], written)
            return
        last = max(entry.keys.values(), default=entry.line)
        indent = re.match(r"[ \t]*", self.lines[last])[0]
        self.lines.insert(last + 1, f"{indent}{key} = {written}{self.book.end}")

    def want_format_2(self):
        """`disabled` holds in format 2 alone. It is the last change, for lines move by it."""
        if self.says.get("format", 1) != 1:
            return
        book = self.book
        self.words.append(f"{book.path} has format = 2 now, without which `disabled` shuts nobody out")
        others = [(entry.keys["disabled"], it.get("name")) for entry, it in zip(book.entries, book.accounts())
                  if it.get("disabled") is True]
        self.words += [f"so `disabled = true` in line {line + 1} holds too: {name} can no longer log in"
                       for line, name in others]
        if book.default is not None:
            self.words.append(f"so [default] in line {book.default + 1} holds too")
        self.says["format"] = 2
        if "format" in book.top:
            self.set_value(book.top["format"], "2")
            return
        at = next((number for number, line in enumerate(self.lines) if not line.startswith("#")), len(self.lines))
        if at and at < len(self.lines) and not self.lines[at].strip():
            self.lines[at:at] = [book.end, f"format = 2{book.end}"]
        else:
            self.lines[0:0] = [f"format = 2{book.end}", book.end]

    def add(self, keys):
        """Adds an account behind the others."""
        self.says.setdefault("account", []).append(keys)
        written = {key: str(value).lower() if isinstance(value, (bool, int)) else f'"{value}"'
                   for key, value in keys.items()}
        while self.lines and not self.lines[-1].strip():
            self.lines.pop()
        table = ["[[account]]", *(f"{key} = {value}" for key, value in written.items())]
        self.lines += ([self.book.end] if self.lines else []) + [it + self.book.end for it in table] + [""]

    def text(self):
        """The new text. Refuses it where it does not say what it is to: the file is laid out in a way that is not
        changed so."""
        text = "\n".join(self.lines)
        try:
            if tomllib.loads(text) == self.says:
                return text
        except tomllib.TOMLDecodeError:
            pass
        raise Refused(f"{self.book.path}: it is laid out in a way that lobby_account does not change: give each key a "
                      f"line of its own, "
                      "below [[account]], and change it by hand")


@contextlib.contextmanager
def locked(folder):
    """Alone among those that change files of this folder."""
    handle = os.open(folder, os.O_RDONLY | os.O_DIRECTORY)
    try:
        until = time.monotonic() + PATIENCE
        while True:
            try:
                fcntl.flock(handle, fcntl.LOCK_EX | fcntl.LOCK_NB)
                break
            except BlockingIOError:
                if time.monotonic() > until:
                    raise Refused(f"{folder}: another lobby_account has been at work for {PATIENCE} seconds") from None
                time.sleep(0.05)
        yield handle
    finally:
        os.close(handle)


def as_server():
    """How root runs a program as the server's user, who may do less; nothing where there is none, or for anybody else."""
    try:
        user = pwd.getpwnam(USER)
    except KeyError:
        return {}
    if os.geteuid():
        return {}
    return {"user": user.pw_uid, "group": user.pw_gid, "extra_groups": os.getgrouplist(USER, user.pw_gid), "cwd": "/"}


def checked(settings, accounts, **how):
    """What lobby_check says of two files, and whether it takes them."""
    ran = subprocess.run([program("lobby_check"), str(settings), str(accounts)], stdin=subprocess.DEVNULL,
                         stdout=subprocess.PIPE, stderr=subprocess.STDOUT, check=False, **how)
    return ran.returncode == 0, ran.stdout.decode("utf-8", "replace").splitlines()


def check(book, file):
    """Refuses a file whose accounts lobby_check refuses. The settings are others, which are good: theirs may be mended
    later."""
    with tempfile.TemporaryDirectory() as room:
        settings = Path(room) / "settings.toml"
        settings.write_text('address = "127.0.0.1:0"\n')
        is_good, told = checked(settings, file)
    if is_good:
        return
    told = [it for it in told if it.startswith("accounts:")] or ["lobby_check refuses it, and does not say why"]
    lines = []
    for it in told:
        said = it.removeprefix("accounts: ").replace(str(file), str(book.path), 1)
        found = re.match(r".*?:\d+: account (\d+)\b", said)
        number = int(found[1]) if found else 0
        lines.append(said.replace(f"account {number}", "the new account", 1) if number > len(book.entries) else said)
    raise Refused("\n".join(lines))


def write(book, change, folder):
    """Puts the new text in the place of the file, once lobby_check takes it. Owner, group and mode stay."""
    new = book.path.with_name(f".{book.path.name}.new")
    try:
        new.unlink(missing_ok=True)     # of one that was killed
        with open(os.open(new, os.O_WRONLY | os.O_CREAT | os.O_EXCL | os.O_NOFOLLOW, 0o600), "wb") as file:
            file.write(change.text().encode("utf-8"))
            file.flush()
            old = os.stat(book.path)
            os.fchown(file.fileno(), old.st_uid, old.st_gid)
            shutil.copystat(book.path, new)
            os.utime(new)
            os.fsync(file.fileno())
        check(book, new)
        if book.path.read_bytes() != book.bytes:
            raise Refused(f"{book.path}: somebody else changed it meanwhile")
        os.rename(new, book.path)
        os.fsync(folder)
    except OSError as error:
        hint = ": try it as root" if isinstance(error, PermissionError) else ""
        raise Refused(f"{book.path}: the file cannot be written: {error.strerror}{hint}") from None
    finally:
        new.unlink(missing_ok=True)


def password_word(asked):
    """The word of a password that is typed twice at a terminal, or that is the first line of standard input."""
    if sys.stdin.isatty():
        password = getpass.getpass(f"{asked}: ").encode("utf-8", "surrogateescape")
        if getpass.getpass("The same again: ").encode("utf-8", "surrogateescape") != password:
            raise Refused("the two passwords differ")
    else:
        password = sys.stdin.buffer.readline()
        password = password.removesuffix(b"\n").removesuffix(b"\r")
    if not password:
        raise Refused("the password is empty")
    ran = subprocess.run([program("lobby_main"), "hash"], input=password + b"\n", stdout=subprocess.PIPE,
                         stderr=subprocess.DEVNULL, check=False)
    if ran.returncode:
        raise Refused("the password has more than 8192 bytes, or a line break")
    return ran.stdout.decode().strip()


def next_id(accounts):
    """One more than the greatest number, so that none is given twice; where there is none, the least that is free."""
    used = {it.get("id") for it in accounts}
    greatest = max((it for it in used if isinstance(it, int)), default=0)
    return greatest + 1 if greatest < GREATEST_ID else next(it for it in range(1, GREATEST_ID) if it not in used)


def refuse_known(book, name):
    """Refuses a name that is none, or that an account has."""
    if not NAME.fullmatch(name):
        raise Refused(f"{name!r} is no name of an account: it has 1 to 20 letters, digits, `_`, `[` and `]`")
    for number, it in enumerate(book.accounts()):
        if it.get("name") == name:
            raise Refused(f"{book.path}:{book.line_of(number)}: there is an account {name} already")


def add(options, book, change, word):
    """Adds an account."""
    name = options.name
    refuse_known(book, name)
    used = {it.get("id"): number for number, it in enumerate(book.accounts())}
    number = next_id(book.accounts()) if options.id is None else options.id
    if number in used:
        raise Refused(f"{book.path}:{book.line_of(used[number])}: another account has id {number}")
    keys = {"name": name, "password": word, "id": number, "rank": options.rank, "access": options.access or None,
            "bot": options.bot or None, "country": options.country}
    change.add({key: value for key, value in keys.items() if value is not None})
    change.words += [f"{it['name']} differs from {name} in case alone" for it in book.accounts()
                     if str(it.get("name")).lower() == name.lower()]
    change.words.append(f"{name} is added, with id {number}")


def password(options, book, change, word):
    """Gives an account another password."""
    change.set_key(book.number_of(options.name), "password", word, f'"{word}"')
    change.words.append(f"{options.name} has another password")


def disable(options, book, change, _):
    """Shuts an account out; its name stays."""
    number = book.number_of(options.name)
    if not book.is_disabled(number):
        change.set_key(number, "disabled", True, "true")
        change.words.append(f"{options.name} is disabled")
        change.want_format_2()


def enable(options, book, change, _):
    """Lets an account in again."""
    number = book.number_of(options.name)
    if book.accounts()[number].get("disabled") is True:
        change.set_key(number, "disabled", False, "false")
        change.words.append(f"{options.name} is enabled")


def show_list(book):
    """Shows the accounts in the order of the file, without their words."""
    has_format_2 = book.says.get("format", 1) == 2
    default = book.says.get("default", {}) if has_format_2 else {}
    rows = [("id", "name", "rank", "country", "marks", "line")]
    for number, it in enumerate(book.accounts()):
        it = {"rank": 0, "country": "??", **default, **it}
        marks = [word for key, word in (("access", "moderator"), ("bot", "bot")) if it.get(key) is True]
        marks += ["disabled"] if book.is_disabled(number) else []
        rows.append((it.get("id", "?"), it.get("name", "?"), it["rank"], it["country"], ", ".join(marks) or "-",
                     book.line_of(number)))
    widths = [max(len(str(row[column])) for row in rows) for column in range(len(rows[0]))]
    for row in rows:
        print("  ".join(str(cell).ljust(width) for cell, width in zip(row, widths)).rstrip())
    for entry, it in zip(book.entries, book.accounts()):
        if it.get("disabled") is True and not has_format_2:
            line = entry.keys.get("disabled", entry.line) + 1
            print(f"{book.path}:{line}: {it.get('name')} can log in all the same: `disabled` wants `format = 2` at "
                  f"the head of the file")


def restart(options):
    """Restarts the server, if its files are good."""
    try:
        is_good, told = checked(Path(options.settings).resolve(), Path(options.accounts).resolve(), **as_server())
    except OSError as error:
        raise NotRestarted(f"lobby_check cannot be run as {USER}: {error.strerror}") from None
    if not is_good:
        raise NotRestarted("\n".join(["the server is not restarted, for lobby_check refuses its files:", *told]))
    try:
        if subprocess.run(["systemctl", "restart", UNIT], check=False).returncode == 0:
            print(f"{UNIT} is restarted")
            return
    except OSError as error:
        raise NotRestarted(f"systemctl cannot be run: {error.strerror}") from None
    raise NotRestarted(f"{UNIT} did not start: journalctl -u {UNIT} says why")


CHANGES = {"add": add, "password": password, "disable": disable, "enable": enable}


def run(options):
    """Does what is asked."""
    if options.command == "hash":
        print(password_word("Password"))
        return
    path = Path(options.accounts).resolve()
    book = Book(path)
    if options.command == "list":
        show_list(book)
        return
    check(book, path)
    word = None
    if options.command in ("add", "password"):
        # Before the password is asked, and before the file is kept from others.
        refuse_known(book, options.name) if options.command == "add" else book.number_of(options.name)
        word = password_word(f"Password of {options.name}")
    with locked(path.parent) as folder:
        book = Book(path)
        change = Change(book)
        CHANGES[options.command](options, book, change, word)
        if change.lines != book.lines:
            write(book, change, folder)
    print("\n".join(change.words or [f"{options.name} is {options.command}d already"]))
    if options.restart:
        restart(options)
    elif change.words:
        print(f"The server takes it at its next start: systemctl restart {UNIT} ends all battles and talk.")


def parsed():
    """What the arguments ask for."""
    shared = argparse.ArgumentParser(add_help=False)
    shared.add_argument("--accounts", metavar="FILE", default=f"{CONFIGURATION}/accounts.toml",
                        help="the file of accounts (%(default)s)")
    changes = argparse.ArgumentParser(add_help=False, parents=[shared])
    changes.add_argument("--settings", metavar="FILE", default=f"{CONFIGURATION}/lobby.toml",
                         help="the file of settings (%(default)s)")
    changes.add_argument("--restart", action="store_true",
                         help="restart the server, which ends all battles and talk")
    parser = argparse.ArgumentParser(prog="lobby_account",
                                     description="Adds and changes accounts of a lobby. A password is asked "
                                     "twice at a terminal, or is the first line of standard input.",
                                     epilog="Exit status: 0 done, 1 refused and nothing changed, 2 wrong arguments, 3 "
                                            "changed, but the "
                                     "server was not restarted")
    parser.add_argument("--version", action="version", version=f"lobby_account {VERSION}")
    commands = parser.add_subparsers(dest="command", required=True, metavar="COMMAND")
    for name, about in (("add", "adds an account"), ("password", "gives an account another password"),
                        ("disable", "shuts an account out; its name stays"), ("enable", "lets an account in again")):
        command = commands.add_parser(name, help=about, description=about, parents=[changes])
        command.add_argument("name", metavar="NAME")
        if name == "add":
            command.add_argument("--id", type=int, help="its number; the next free one if left out")
            command.add_argument("--rank", type=int, help="0 to 7")
            command.add_argument("--country", help="two upper-case letters")
            command.add_argument("--access", action="store_true", help="mark it as a moderator's")
            command.add_argument("--bot", action="store_true", help="mark it as a program's")
    commands.add_parser("list", help="shows the accounts, without passwords", parents=[shared])
    about = "prints the word that an account has for a password"
    commands.add_parser("hash", help=about, description=about)
    return parser.parse_args()


def stop(number, _):
    """A signal ends it as a fault does: what it has begun is taken back."""
    raise SystemExit(128 + number)


def main():
    options = parsed()
    for it in (signal.SIGINT, signal.SIGTERM, signal.SIGHUP):
        signal.signal(it, stop)
    try:
        run(options)
    except (Refused, NotRestarted) as error:
        print(f"lobby_account: {error}", file=sys.stderr)
        return 1 if isinstance(error, Refused) else 3
    return 0


if __name__ == "__main__":
    sys.exit(main())
