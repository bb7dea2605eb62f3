#!/usr/bin/env python3
"""setup_faults.py [PROGRAM] : has `lobby_check`, as the gate built it or another build, look at broken files of settings and of accounts,
and compares each line that it prints of them: every fault, with its line and key. Then the three traps of a start: a folder of records that
cannot be written, a file of accounts that the server's user may not read, and an address that is in use.

What is expected is written by docs/OPERATING.md, "Settings" and "Accounts"."""
import os
import socket
import subprocess
import sys
import tempfile
import threading
from pathlib import Path

ROOT = Path(__file__).resolve().parent.parent
WORD = "X03MO1qnZdYdgyfeuILPmQ=="
SETTINGS = {
    "address": 'an IPv4 address and a port, as "127.0.0.1:8200"',
    "workers": "a whole number from 1 to 64",
    "outbox_limit": "a whole number from 65536 to 67108864",
    "protocol_version": "a text of 1 to 32 bytes from `!` to `~`",
    "spring_version": "a text of 1 to 32 bytes from `!` to `~`",
    "udp_port": "a whole number from 0 to 65535",
    "server_mode": "0 or 1",
    "motd": "a list of at most 100 texts of at most 1000 bytes without CR and LF",
    "stop_at_input_end": "true or false",
    "private": "true or false",
    "proxies": 'a list of at most 64 IPv4 addresses, as ["127.0.0.1"]',
    "log": '"none", "important" or "all"',
    "record": "the name of a folder, or an empty text",
}
ACCOUNTS = {
    "format": "1 or 2",
    "default": "a table, as [default]",
    "account": "each account as [[account]]",
    "name": "a text of 1 to 20 letters, digits, `_`, `[` and `]`",
    "password": "a word as `make hash` prints it",
    "id": "a whole number from 0 to 4294967295",
    "rank": "a whole number from 0 to 7",
    "access": "true or false",
    "bot": "true or false",
    "disabled": "true or false",
    "country": "two upper-case letters or `??`",
}
GONE, KIND, BAD = "is missing", "is of another kind", "is not allowed"
AT = 'address = "127.0.0.1:0"\n'
# A text of settings, and its faults: a line, a key, what is wrong and, of a list, the place in it.
BROKEN_SETTINGS = [
    ("", [(1, "address", GONE)]),
    ("address = 8200\n", [(1, "address", KIND)]),
    ('address = "localhost:8200"\n', [(1, "address", BAD)]),
    ('# where\naddress = "127.0.0.1"\n', [(2, "address", BAD)]),
    ('address = "127.0.0.01:8200"\n', [(1, "address", BAD)]),
    ('address = "127.0.0.1:65536"\n', [(1, "address", BAD)]),
    (AT + "workers = 0\n", [(2, "workers", BAD)]),
    (AT + "workers = 65\n", [(2, "workers", BAD)]),
    (AT + 'workers = "4"\n', [(2, "workers", KIND)]),
    (AT + "workers = -1\n", [(2, "workers", BAD)]),
    (AT + "outbox_limit = 65535\n", [(2, "outbox_limit", BAD)]),
    (AT + "outbox_limit = 67108865\n", [(2, "outbox_limit", BAD)]),
    (AT + 'protocol_version = ""\n', [(2, "protocol_version", BAD)]),
    (AT + "protocol_version = 0.38\n", [(2, "protocol_version", KIND)]),
    (AT + f'spring_version = "{"1" * 33}"\n', [(2, "spring_version", BAD)]),
    (AT + 'spring_version = "104 0"\n', [(2, "spring_version", BAD)]),
    (AT + "udp_port = 65536\n", [(2, "udp_port", BAD)]),
    (AT + "server_mode = 2\n", [(2, "server_mode", BAD)]),
    (AT + 'motd = "Welcome!"\n', [(2, "motd", KIND)]),
    (AT + 'motd = ["Welcome!", 2, "a\\nb", "c"]\n', [(2, "motd", KIND, 2), (2, "motd", BAD, 3)]),
    (AT + f'motd = ["{"m" * 1001}"]\n', [(2, "motd", BAD, 1)]),
    (AT + 'motd = [' + ", ".join(['"x"'] * 101) + "]\n", [(2, "motd", BAD, 101)]),
    (AT + 'stop_at_input_end = "yes"\n', [(2, "stop_at_input_end", KIND)]),
    (AT + 'proxies = "127.0.0.1"\n', [(2, "proxies", KIND)]),
    (AT + 'proxies = ["127.0.0.1", "::1", 3]\n', [(2, "proxies", BAD, 2), (2, "proxies", KIND, 3)]),
    (AT + 'log = "some"\n', [(2, "log", BAD)]),
    (AT + "log = true\n", [(2, "log", KIND)]),
    (AT + "record = true\n", [(2, "record", KIND)]),
    (AT + 'private = "no"\n', [(2, "private", KIND)]),
    ('workers = 0\n\naddress = "a"\n"log" = 1\nmotd = [1]\nudp_port = "x"\n',
     [(3, "address", BAD), (1, "workers", BAD), (6, "udp_port", KIND), (5, "motd", KIND, 1), (4, "log", KIND)]),
]
NOT_TOML = [("workers = 2\naddress = 127.0.0.1\n", 2), ('address = "a\n', 1), ("a = 1\na = 2\n", 2)]


def account(name, number, *more):
    return "\n".join(["[[account]]", f'name = "{name}"', f'password = "{WORD}"', f"id = {number}", *more]) + "\n"


ANNA = account("Anna", 1)
# A text of accounts, and its faults: a line, whose it is, a key and what is wrong; or a line and its words.
BROKEN_ACCOUNTS = [
    ("format = 3\n", [(1, "", "format", BAD)]),
    ('format = "2"\n', [(1, "", "format", KIND)]),
    ("account = 5\n", [(1, "", "account", KIND)]),
    ("[account]\n", [(1, "", "account", KIND)]),
    ("account = [5]\n", [(1, "account 1", None, "is no table: expected each account as [[account]]")]),
    ("format = 2\ndefault = 3\n", [(2, "", "default", KIND)]),
    ("format = 2\n[default]\nrank = 8\n", [(3, "default", "rank", BAD)]),
    ('format = 2\n[default]\ncountry = "de"\nbot = 1\n', [(4, "default", "bot", KIND), (3, "default", "country", BAD)]),
    ("[[account]]\n", [(1, "account 1", "name", GONE), (1, "account 1", "password", GONE), (1, "account 1", "id", GONE)]),
    (account("", 1), [(2, "account 1", "name", BAD)]),
    (account("An na", 1), [(2, "account 1", "name", BAD)]),
    (account("A" * 21, 1), [(2, "account 1", "name", BAD)]),
    (ANNA.replace('"Anna"', "7"), [(2, "account 1", "name", KIND)]),
    (ANNA.replace(WORD, "password"), [(3, "account 1 (Anna)", "password", BAD)]),
    (ANNA.replace(WORD, WORD[:-3] + "R=="), [(3, "account 1 (Anna)", "password", BAD)]),
    (ANNA.replace(f'"{WORD}"', "1"), [(3, "account 1 (Anna)", "password", KIND)]),
    (account("Anna", -1), [(4, "account 1 (Anna)", "id", BAD)]),
    (account("Anna", 4294967296), [(4, "account 1 (Anna)", "id", BAD)]),
    (account("Anna", '"1"'), [(4, "account 1 (Anna)", "id", KIND)]),
    (ANNA + account("Bert", 2, "rank = 8"), [(9, "account 2 (Bert)", "rank", BAD)]),
    (account("Anna", 1, 'access = "yes"'), [(5, "account 1 (Anna)", "access", KIND)]),
    (account("Anna", 1, "bot = 1"), [(5, "account 1 (Anna)", "bot", KIND)]),
    (account("Anna", 1, 'country = "D"'), [(5, "account 1 (Anna)", "country", BAD)]),
    ("format = 2\n" + account("Anna", 1, "disabled = 1"), [(6, "account 1 (Anna)", "disabled", KIND)]),
    (ANNA + account("Bert", 2) + account("Anna", 3) + account("Cleo", 4, "rank = -1", 'country = "??"', 'bot = "no"'),
     [(10, "account 3 (Anna)", None, "`name` is that of account 1, line 2: expected a name of its own for each, disabled ones too"),
      (17, "account 4 (Cleo)", "rank", BAD), (19, "account 4 (Cleo)", "bot", KIND)]),
    ("format = 9\n[default]\nrank = 9\n" + account("Anna", 1, "disabled = 2"),
     [(1, "", "format", BAD), (3, "default", "rank", BAD), (8, "account 1 (Anna)", "disabled", KIND)]),
]
ODD_ACCOUNTS = [
    (ANNA.replace("[[account]]", "[[accounts]]"), ['{}:1: the key "accounts" is not known, and is passed over'], 0),
    (account("Anna", 1, "disable = true"), ['{}:5: account 1 (Anna): the key "disable" is not known, and is passed over'], 1),
    (account("Anna", 1, "disabled = true"), ["{}:5: account 1 (Anna): `disabled` is passed over without `format = 2`"], 1),
    ("[default]\nrank = 1\n" + ANNA, ["{}:1: `default` is passed over without `format = 2`"], 1),
    ("format = 2\n[default]\nranks = 1\n" + ANNA, ['{}:3: default: the key "ranks" is not known, and is passed over'], 1),
    (ANNA + account("Bert", 1), ["{}:8: account 2 (Bert): `id` is that of account 1 too"], 2),
    (ANNA + account("ANNA", 2), ["{}:6: account 2 (ANNA): `name` differs from that of account 1 (Anna) in case alone"], 2),
]
passed, failed = 0, 0


def tells(what, is_so, shown=""):
    global passed, failed
    if is_so:
        passed += 1
    else:
        failed += 1
        print(f"setup_faults: {what}: not so\n{shown}")


class Files:
    """A file of settings and one of accounts, which lobby_check looks at."""

    def __init__(self, room, program):
        self.room, self.program = Path(room), program
        self.settings, self.accounts = self.room / "lobby.toml", self.room / "accounts.toml"
        self.settings.write_text(AT)
        self.accounts.write_text(ANNA)

    def told(self, **more):
        ran = subprocess.run([self.program, str(self.settings), str(self.accounts)], stdin=subprocess.DEVNULL,
                             stdout=subprocess.PIPE, stderr=subprocess.STDOUT, text=True, timeout=60, check=False, **more)
        return ran.returncode, ran.stdout.splitlines()


def check_settings(files):
    for text, faults in BROKEN_SETTINGS:
        files.settings.write_text(text)
        wanted = []
        for line, key, cause, *place in faults:
            what = f"`{key}`"
            if place:
                what = f"{'line' if key == 'motd' else 'address'} {place[0]} of `{key}`"
            wanted.append(f"settings: {files.settings}:{line}: {what} {cause}: expected {SETTINGS[key]}")
        status, lines = files.told()
        tells(text, status == 2 and [it for it in lines if it.startswith("settings: ")] == wanted, "\n".join(lines))
    for file, what in (files.settings, "settings"), (files.accounts, "accounts"):
        old = file.read_text()
        for text, line in NOT_TOML:
            file.write_text(text)
            status, lines = files.told()
            front = f"{what}: {file}:{line}: not TOML: "
            tells(text, status == 2 and any(it.startswith(front) and len(it) > len(front) for it in lines), "\n".join(lines))
        file.write_bytes(b"a = 1\n# caf\xe9\n")
        status, lines = files.told()
        tells("not UTF-8", status == 2 and f"{what}: {file}:2: not TOML: not UTF-8" in lines, "\n".join(lines))
        file.write_text(old)
    files.settings.write_text(AT + 'moted = ["Welcome!"]\n')
    status, lines = files.told()
    told = f'warning: {files.settings}:2: the key "moted" is not known, and is passed over'
    tells("a key of settings that is not known", status == 0 and told in lines, "\n".join(lines))
    files.settings.write_text(AT)


def check_accounts(files):
    for text, faults in BROKEN_ACCOUNTS:
        files.accounts.write_text(text)
        wanted = []
        for line, whose, key, cause in faults:
            what = f"`{key}` {cause}: expected {ACCOUNTS[key]}" if key else cause
            wanted.append(f"accounts: {files.accounts}:{line}: {whose}{': ' if whose else ''}{what}")
        status, lines = files.told()
        tells(text, status == 2 and [it for it in lines if it.startswith("accounts: ")] == wanted, "\n".join(lines))
    for text, warnings, count in ODD_ACCOUNTS:
        files.accounts.write_text(text)
        status, lines = files.told()
        wanted = ["warning: " + it.format(files.accounts) for it in warnings]
        is_so = status == 0 and [it for it in lines if it.startswith("warning: ")] == wanted
        tells(text, is_so and f"accounts: {count} can log in" in lines, "\n".join(lines))
    files.accounts.write_text(ANNA)


def greet(listener, greeting):
    """Answers each that connects with this."""
    while True:
        try:
            one, _ = listener.accept()
        except OSError:
            return
        with one:
            one.sendall(greeting)
            one.settimeout(10)
            try:
                while one.recv(100):
                    pass
            except OSError:
                pass


def check_address(files):
    for greeting, status, told in (
            (b"TASSERVER 0.38 * 8201 0\n", 0, "is that of a lobby server that runs: it is free once that is stopped"),
            (b"220 mail\r\n", 3, "is in use by another program")):
        with socket.create_server(("127.0.0.1", 0)) as listener:
            address = f"127.0.0.1:{listener.getsockname()[1]}"
            files.settings.write_text(f'address = "{address}"\n')
            threading.Thread(target=greet, args=(listener, greeting), daemon=True).start()
            found, lines = files.told()
            tells(f"an address in use, {greeting}", found == status and f"address: {address} {told}" in lines, "\n".join(lines))
    files.settings.write_text('address = "192.0.2.1:8200"\n')
    found, lines = files.told()
    front = "address: 192.0.2.1:8200: no server can listen there: "
    tells("an address of another machine", found == 3 and any(it.startswith(front) for it in lines), "\n".join(lines))
    files.settings.write_text(AT)


def as_nobody():
    os.setgroups([])
    os.setgid(65_534)
    os.setuid(65_534)


def check_folder(files):
    folder = files.room / "records"
    files.settings.write_text(AT + f'record = "{folder}"\n')
    status, lines = files.told()
    told = f"record: {folder}: no file can be written there: entity not found"
    tells("a folder that is not there", status == 2 and told in lines, "\n".join(lines))
    folder.mkdir()
    status, lines = files.told()
    told = f"record: in a new folder of {folder} at each start, with private talk"
    tells("a folder", status == 0 and told in lines and not list(folder.iterdir()), "\n".join(lines))
    if os.geteuid():
        print("setup_faults: another user: only root can try it")
        return
    # Others may run the program from a copy that they can reach.
    copy = files.room / "lobby_check"
    copy.write_bytes(Path(files.program).read_bytes())
    copy.chmod(0o755)
    files.room.chmod(0o755)
    files.program = copy
    user = "user: tried as nobody, number 65534"
    status, lines = files.told(preexec_fn=as_nobody, cwd="/")
    told = f"record: {folder}: no file can be written there: permission denied"
    tells("a folder of another user", status == 2 and told in lines and user in lines, "\n".join(lines))
    os.chown(folder, 65_534, 65_534)
    folder.chmod(0o300)
    status, lines = files.told(preexec_fn=as_nobody, cwd="/")
    told = f"record: {folder}: what is in it cannot be listed: permission denied"
    tells("a folder that its user may not list", status == 2 and told in lines and not list(folder.iterdir()), "\n".join(lines))
    files.settings.write_text(AT)
    files.accounts.chmod(0o640)
    status, lines = files.told(preexec_fn=as_nobody, cwd="/")
    told = f"accounts: {files.accounts}: the file cannot be read: permission denied"
    tells("accounts of another user", status == 2 and told in lines and user in lines, "\n".join(lines))


def main():
    program = sys.argv[1] if len(sys.argv) > 1 else ROOT / "crates/lobby_check/out/lobby_check"
    if not os.access(program, os.X_OK):
        sys.exit(f"there is no {program}: make test builds it")
    with tempfile.TemporaryDirectory() as room:
        files = Files(room, os.path.abspath(program))
        check_settings(files)
        check_accounts(files)
        check_address(files)
        check_folder(files)
    print(f"setup_faults: {len(BROKEN_SETTINGS)} files of settings, {len(BROKEN_ACCOUNTS)} of accounts: {passed} passed, {failed} failed")
    sys.exit(1 if failed else 0)


if __name__ == "__main__":
    main()
