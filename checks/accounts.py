#!/usr/bin/env python3
"""accounts.py [FOLDER]: has lobby_account add and change accounts in files of many forms, refuse what it cannot do,
meet a full disk, be killed, and run beside others of its kind. What it leaves has to be the old file or the whole new
one. The programs are those that the gate built, or those of a folder. At last the server lets in whom the file lets
in."""
import base64
import contextlib
import fcntl
import grp
import hashlib
import os
import pty
import select
import shutil
import signal
import socket
import subprocess
import sys
import tempfile
import termios
import time
from pathlib import Path

from lobby_server import ADDRESS, GREETING, PATIENCE, ROOT, free_port, use_programs

TOOL = ROOT / "operator/lobby_account.py"
EXAMPLE = (ROOT / "examples/accounts.toml").read_bytes()
WORD = "X03MO1qnZdYdgyfeuILPmQ=="
ONE = f'[[account]]\nname = "Anna"\npassword = "{WORD}"\nid = 1\n'
counts = {True: 0, False: 0}


def tells(what, is_so, shown=""):
    """Counts whether something is as it is to be."""
    counts[bool(is_so)] += 1
    if not is_so:
        print(f"accounts: {what}: it is not so{': ' if shown else ''}{shown}", flush=True)


def word_of(password):
    return base64.b64encode(hashlib.md5(password.encode()).digest()).decode()


def account(name, number, *keys, word=WORD):
    return "\n".join(["[[account]]", f'name = "{name}"', f'password = "{word}"', f"id = {number}", *keys, ""])


class Room:
    """A folder with a file of accounts, and what lobby_account does to it."""

    def __init__(self, text=EXAMPLE):
        self.folder = tempfile.TemporaryDirectory(prefix="lobby-accounts-")
        self.path = Path(self.folder.name)
        self.file = self.path / "accounts.toml"
        self.settings = self.path / "lobby.toml"
        self.settings.write_text(f'address = "{ADDRESS}:{free_port()}"\n')
        self.bring(text)

    def bring(self, text):
        self.old = text if isinstance(text, bytes) else text.encode()
        self.file.write_bytes(self.old)

    def __enter__(self):
        return self

    def __exit__(self, *_):
        self.folder.cleanup()

    def call(self, command, *words):
        files = ["--accounts", self.file] + ([] if command == "list" else ["--settings", self.settings])
        return [sys.executable, TOOL, command, *words, *files]

    def run(self, *words, password=b"", **how):
        return subprocess.run(self.call(*words), input=password, capture_output=True, timeout=120, check=False, **how)

    def start(self, *words, **how):
        return subprocess.Popen(self.call(*words), stdin=subprocess.DEVNULL, stdout=subprocess.PIPE,
                                stderr=subprocess.PIPE, **how)

    def does(self, what, new, *words, told=(), **how):
        """It does so, the file is this, and it tells of these."""
        ran = self.run(*words, **how)
        new = new if isinstance(new, bytes) else new.encode()
        is_told = ran.returncode == 0 and not ran.stderr and all(it.encode() in ran.stdout for it in told)
        is_so = is_told and self.file.read_bytes() == new
        tells(what, is_so and self.is_clean(),
              f"status {ran.returncode}, {ran.stdout + ran.stderr}, the file is\n{self.file.read_text()}")

    def refuses(self, what, *words, told=(), status=1, **how):
        """It says why, and the file is as it was."""
        ran = self.run(*words, **how)
        is_so = ran.returncode == status and not ran.stdout and all(it.encode() in ran.stderr for it in told)
        tells(what, is_so and self.file.read_bytes() == self.old and self.is_clean(),
              f"status {ran.returncode}, {ran.stdout + ran.stderr}")

    def is_clean(self):
        """Nothing lies there but what was brought."""
        brought = {"accounts.toml", "lobby.toml", "slow", "systemctl", "called", "target.toml"}
        return {it.name for it in self.path.iterdir()} <= brought


def check_add():
    new = account("Ben", 5, word=word_of("secret"))
    with Room() as room:
        room.does("an account is added behind the others", EXAMPLE + f"\n{new}".encode(), "add", "Ben",
                  password=b"secret\n", told=["id 5", "restart"])
        keys = "rank = 7", "access = true", "bot = true", 'country = "DE"'
        more = EXAMPLE + f"\n{new}\n".encode() + account("[x]_9", 77, *keys, word=word_of("p")).encode()
        words = "--id", "77", "--rank", "7", "--access", "--bot", "--country", "DE"
        room.does("an account is added with all keys", more, "add", "[x]_9", *words, password=b"p\r\n")
    for text, number in (("", 1), ("# none yet\n", 1), (ONE + account("Z", 4294967295), 2),
                         (ONE.replace("id = 1", "id = 0"), 1)):
        with Room(text) as room:
            between = "\n" if text else ""
            room.does(f"the next free id is {number}", text + between + account("Ben", number, word=word_of("p")),
                      "add", "Ben", password=b"p\n")
    with Room(ONE.rstrip("\n")) as room:
        room.does("a last line without its end gets one", f"{ONE}\n" + account("Ben", 2, word=word_of("p")), "add",
                  "Ben", password=b"p")
    with Room(ONE.replace("\n", "\r\n")) as room:
        new = f"{ONE}\n" + account("Ben", 2, word=word_of("p"))
        room.does("lines that end with CR LF stay so", new.replace("\n", "\r\n"), "add", "Ben", password=b"p\n")
    with Room(ONE) as room:
        new = f"{ONE}\n" + account("anna", 2, word=word_of("p"))
        room.does("a name that differs in case alone is told", new, "add", "anna", password=b"p\n",
                  told=["Anna differs from anna in case alone"])


def check_refused_adds():
    with Room() as room:
        for name in "", "a b", "ä", "x" * 21, 'a"', "a\n", "a-b", "../a":
            room.refuses(f"{name!r} is no name", "add", name, password=b"p\n", told=["is no name of an account"])
        room.refuses("a name that is there, with its line", "add", "Bert", password=b"p\n",
                     told=[f"{room.file}:20:", "Bert already"])
        room.refuses("an id that is there, with its line", "add", "Ben", "--id", "3", password=b"p\n",
                     told=[f"{room.file}:26:", "id 3"])
        for words in (("--rank", "8"), ("--rank", "-1"), ("--country", "de"), ("--country", '"\nx = "'),
                      ("--id", "4294967296"), ("--id=-1",)):
            room.refuses(f"{words} is refused", "add", "Ben", *words, password=b"p\n", told=[str(room.file)])
        room.refuses("an empty password", "add", "Ben", password=b"\n", told=["the password is empty"])
        room.refuses("no password", "add", "Ben", told=["the password is empty"])
        room.refuses("a password that is too long", "add", "Ben", password=b"x" * 8193 + b"\n", told=["8192 bytes"])
        room.refuses("an unknown command", "delete", "Ben", status=2, told=["delete"])
        room.refuses("no name", "add", status=2, told=["NAME"])


def check_changes():
    with Room() as room:
        lines = EXAMPLE.decode().split("\n")
        lines[21] = lines[21].replace(WORD, word_of("other"))
        room.does("a password is another, and nothing else", "\n".join(lines), "password", "Bert", password=b"other\n")
        lines[37] = lines[37].replace("true ", "false")
        room.does("an account is enabled, and its comment stays where it is", "\n".join(lines), "enable", "Dora")
        lines.insert(32, "disabled = true")
        room.does("an account is disabled", "\n".join(lines), "disable", "Cleo", told=["Cleo is disabled"])
        room.does("one that is disabled stays so", "\n".join(lines), "disable", "Cleo",
                  told=["Cleo is disabled already"])
        room.does("one that is enabled stays so", "\n".join(lines), "enable", "Anna", told=["Anna is enabled already"])
        room.bring("\n".join(lines))
        room.refuses("a name that no account has", "disable", "Nobody", told=["no account is named Nobody"])
        room.refuses("a name in another case", "password", "anna", password=b"p\n", told=["there is Anna"])
        room.file.chmod(0o640)
        group = next((it.gr_gid for it in grp.getgrall() if it.gr_gid), 0) if os.geteuid() == 0 else os.getgid()
        os.chown(room.file, -1, group)
        room.run("password", "Anna", password=b"p\n")
        found = room.file.stat()
        tells("owner, group and mode stay", (found.st_mode & 0o7777, found.st_gid) == (0o640, group), str(found))
    indented = "[[account]]\n  name = 'Anna' # him\n  \"password\" = '" + WORD + "'\n  id = 1\n"
    with Room("format = 2\n" + indented) as room:
        room.does("keys that are quoted or indented", f"format = 2\n{indented}  disabled = true\n", "disable", "Anna")
    with Room(ONE) as room:
        target = room.path / "target.toml"
        room.file.rename(target)
        room.file.symlink_to(target)
        room.run("password", "Anna", password=b"p\n")
        tells("a link stays a link", room.file.is_symlink() and word_of("p") in target.read_text())


def check_format():
    disabled = ONE + "disabled = true\n"
    told = ["format = 2 now"]
    for what, old, new in (
            ("a file without a format gets one", ONE, f"format = 2\n\n{disabled}"),
            ("format 1 becomes 2", f"format = 1 # old\n{ONE}", f"format = 2 # old\n{disabled}"),
            ("the format stands behind the comment at the head", f"# Mine\n# all\n\n# Anna\n{ONE}",
             f"# Mine\n# all\n\nformat = 2\n\n# Anna\n{disabled}"),
            ("a comment of the first account stays with it", f"# Anna\n{ONE}", f"format = 2\n\n# Anna\n{disabled}")):
        with Room(old) as room:
            room.does(what, new, "disable", "Anna", told=told)
    other = account("Bert", 2, "disabled = true")
    with Room(f"{ONE}\n{other}\n[default]\nrank = 1\n") as room:
        new = f"format = 2\n\n{disabled}\n{other}\n[default]\nrank = 1\n"
        words = [*told, "`disabled = true` in line 10 holds too: Bert", "[default] in line 12 holds too"]
        ran = room.run("list")
        tells("list says that `disabled` does not hold in format 1",
              f"{room.file}:10: Bert can log in all the same".encode() in ran.stdout, ran.stdout)
        room.does("what format 1 passed over is told where it comes to hold", new, "disable", "Anna", told=words)
    with Room(f"{ONE}[default]\nrank = 9\n") as room:
        room.refuses("what format 1 passed over and format 2 refuses", "disable", "Anna", told=[str(room.file)])


def check_list():
    with Room(EXAMPLE + account("Mod", 9, "access = true", "bot = true").encode()) as room:
        ran = room.run("list")
        rows = [it.split() for it in ran.stdout.decode().splitlines()]
        wanted = [["id", "name", "rank", "country", "marks", "line"], ["1", "Anna", "0", "DE", "-", "14"],
                  ["2", "Bert", "3", "??", "-", "20"],
                  ["3", "Cleo", "0", "FR", "-", "26"], ["4", "Dora", "0", "??", "disabled", "34"],
                  ["9", "Mod", "0", "??", "moderator,", "bot", "39"]]
        tells("the accounts are listed", ran.returncode == 0 and rows == wanted, ran.stdout.decode())
        tells("no word is listed", WORD.encode() not in ran.stdout)


def check_broken():
    for what, text, told in (
            ("a line that is not TOML", f"{ONE}\nname = Ben\n", ":6: the line is not TOML"),
            ("a text without its end", f'{ONE}\n[[account]]\nname = "Ben\n', ":7: the line is not TOML"),
            ("a byte that is not UTF-8", ONE.encode() + b"# caf\xe9\n", ":5: the line is not UTF-8"),
            ("accounts in one line", 'account = [{name = "Anna", password = "' + WORD + '", id = 1}]\n',
             ":1: lobby_account finds"),
            ("an account that lobby_check refuses", f"{ONE}\n{account('Bert', 2)}rank = 8\n",
             ":10: account 2 (Bert): `rank` is not allowed"),
            ("a name twice", f"{ONE}\n{ONE}", ":7: account 2 (Anna): `name` is that of account 1")):
        with Room(text) as room:
            room.refuses(what, "add", "Ben", password=b"p\n", told=[f"{room.file}{told}"])
            room.refuses(f"{what}, where nothing is to be changed", "enable", "Anna", told=[f"{room.file}{told}"])
    with Room("[[account]]\nname = '''\nAnna'''\npassword = \"" + WORD + '"\nid = 1\n') as room:
        # lobby_check takes it: TOML drops the LF behind the quotes.
        room.refuses("a value of two lines", "password", "Bert", password=b"p\n", told=["no account is named Bert"])
    with Room(f"{ONE}note = '''\nid = 3\n'''\n") as room:
        room.refuses("a key that stands within a text", "disable", "Anna", told=[str(room.file), "laid out"])
    with Room() as room:
        room.file.unlink()
        ran = room.run("list")
        tells("a file that is not there", ran.returncode == 1
              and f"{room.file}: the file cannot be read".encode() in ran.stderr)


def as_nobody():
    os.setgroups([])
    os.setgid(65_534)
    os.setuid(65_534)


def check_permission(folder):
    python = shutil.which("python3", path="/usr/bin")
    if os.geteuid() or not python:
        print("accounts: another user: only root can try it, with a Python that others may run")
        return
    with Room(ONE) as room:
        # Others may run the programs and the tool from a copy that they can reach.
        copy = room.path / "target.toml"
        copy.mkdir()
        for it in (TOOL, *folder.iterdir()):
            shutil.copy(it, copy / it.name)
        room.path.chmod(0o755)
        words = {**os.environ, **{it.upper(): str(copy / it) for it in ("lobby_check", "lobby_main")}}
        for what, mode, told in (("reads", 0o600, "cannot be read: Permission denied: try it as root"),
                                 ("writes", 0o644, "cannot be written")):
            room.file.chmod(mode)
            call = [python, copy / TOOL.name, *room.call("add", "Ben")[2:]]
            ran = subprocess.run(call, input=b"p\n", capture_output=True, preexec_fn=as_nobody, env=words, cwd="/",
                                 timeout=60, check=False)
            is_so = ran.returncode == 1 and told.encode() in ran.stderr and room.file.read_bytes() == room.old
            tells(f"who never {what} it is told so", is_so, ran.stderr)


def check_terminal():
    for second, is_good in (b"secret\n", True), (b"sacred\n", False):
        with Room(ONE) as room:
            main, terminal = pty.openpty()
            ran = subprocess.Popen(room.call("add", "Ben"), stdin=terminal, stdout=terminal, stderr=terminal,
                                   start_new_session=True, preexec_fn=lambda: fcntl.ioctl(0, termios.TIOCSCTTY, 0))
            os.close(terminal)
            shown = b""
            for prompt, answer in (b"Password of Ben: ", b"secret\n"), (b"The same again: ", second), (b"", b""):
                while ran.poll() is None and (not prompt or prompt not in shown):
                    select.select([main], [], [], PATIENCE)
                    with contextlib.suppress(OSError):
                        shown += os.read(main, 4096)
                os.write(main, answer)
            status = ran.wait(PATIENCE)
            while select.select([main], [], [], 0)[0]:
                try:
                    shown += os.read(main, 4096)
                except OSError:
                    break
            os.close(main)
            tells("a terminal does not show the password", b"secret" not in shown and b"sacred" not in shown, shown)
            added = f"{ONE}\n{account('Ben', 2, word=word_of('secret'))}" if is_good else ONE
            told = b"Ben is added" if is_good else b"the two passwords differ"
            tells("a terminal asks twice", status == (0 if is_good else 1) and room.file.read_text() == added
                  and told in shown, shown)


def check_hash():
    with Room(ONE) as room:
        ran = subprocess.run([sys.executable, TOOL, "hash"], input=b"secret\n", capture_output=True, timeout=120, check=False)
        tells("hash prints the word of a password", (ran.returncode, ran.stdout) == (0, f"{word_of('secret')}\n".encode()),
              ran.stdout + ran.stderr)
        main, terminal = pty.openpty()
        ran = subprocess.run([os.environ["LOBBY_MAIN"], "hash"], stdin=terminal, capture_output=True, timeout=120, check=False)
        os.close(terminal)
        os.close(main)
        tells("lobby_main reads no password from a terminal",
              (ran.returncode, ran.stdout, ran.stderr) == (2, b"", b"a terminal would show the password: use lobby_account hash\n"),
              ran.stdout + ran.stderr)
        tells("and that changes no file", room.file.read_bytes() == room.old)


def slow(room, what="sleep 30", first=""):
    """The environment in which lobby_check, called for the new file, first does something else."""
    script = room.path / "slow"
    script.write_text(f'#!/bin/sh\ncase $2 in *.new) : > "{room.path}/called"; {what};; esac\nexec '
                      f'{os.environ["LOBBY_CHECK"]} "$@"\n')
    script.chmod(0o755)
    return {**os.environ, "LOBBY_CHECK": str(script)}


def wait_for(path):
    until = time.monotonic() + PATIENCE
    while not path.exists() and time.monotonic() < until:
        time.sleep(0.01)
    return path.exists()


def check_killed():
    new = f"format = 2\n\n{ONE}disabled = true\n"
    for number in signal.SIGKILL, signal.SIGTERM, signal.SIGINT, signal.SIGHUP:
        is_clean = number != signal.SIGKILL
        with Room(ONE) as room:
            ran = room.start("disable", "Anna", env=slow(room))
            is_begun = wait_for(room.path / "called")
            ran.send_signal(number)
            ran.communicate(timeout=PATIENCE)
            is_left = (room.path / ".accounts.toml.new").exists()
            tells(f"one that is ended by {number.name} leaves the old file", is_begun and room.file.read_text() == ONE
                  and is_left != is_clean)
            room.does(f"behind one that was ended by {number.name} another works", new, "disable", "Anna")
    with Room(ONE) as room:
        for delay in range(24):
            ran = room.start("disable" if delay % 2 else "enable", "Anna")
            time.sleep(delay * 0.012)
            ran.kill()
            ran.communicate()
            if room.file.read_text() not in (ONE, new, new.replace("true", "false")):
                tells("one that is killed leaves a whole file", False, room.file.read_text())
        tells("24 that are killed leave a whole file", True)


def check_two():
    with Room(ONE) as room:
        all_of_them = [subprocess.Popen(room.call("add", f"u{it}"), stdin=subprocess.PIPE, stdout=subprocess.PIPE,
                                        stderr=subprocess.PIPE)
                       for it in range(8)]
        for it in all_of_them:
            it.stdin.write(b"p\n")
            it.stdin.close()
        is_good = all([it.wait(120) == 0 for it in all_of_them])
        rows = [it.split() for it in room.run("list").stdout.decode().splitlines()[1:]]
        wanted = {"Anna", *(f"u{it}" for it in range(8))}
        tells("eight at once add eight", is_good and {it[1] for it in rows} == wanted
              and [it[0] for it in rows] == [str(it) for it in range(1, 10)], rows)
    with Room(ONE) as room:
        handle = os.open(room.path, os.O_RDONLY)
        fcntl.flock(handle, fcntl.LOCK_EX)
        ran = room.start("disable", "Anna")
        time.sleep(1)
        tells("one waits for another", ran.poll() is None and room.file.read_text() == ONE)
        os.close(handle)
        tells("and goes on behind it", ran.wait(PATIENCE) == 0 and "disabled = true" in room.file.read_text())
        ran.communicate()
    with Room(ONE) as room:
        ran = room.run("disable", "Anna", env=slow(room, f'echo "# by hand" >> "{room.file}"'))
        is_told = ran.returncode == 1 and b"somebody else changed it" in ran.stderr
        is_so = is_told and room.file.read_text() == f"{ONE}# by hand\n"
        tells("what somebody writes meanwhile stays", is_so and room.is_clean(), ran.stderr)


def check_full_disk():
    with Room(ONE) as room:
        if subprocess.run(["mount", "-t", "tmpfs", "-o", "size=64k", "tmpfs", room.path], capture_output=True,
                          check=False).returncode:
            print("accounts: a full disk: this user may not mount one")
            return
        try:
            room.settings.write_text('address = "127.0.0.1:1"\n')
            room.bring(ONE + "# more\n" * 3_000)
            with contextlib.suppress(OSError), (room.path / "called").open("wb", buffering=0) as rest:
                while True:
                    rest.write(bytes(512))
            room.refuses("a full disk", "disable", "Anna",
                         told=[f"{room.file}: the file cannot be written: No space left"])
        finally:
            subprocess.run(["umount", room.path], check=True)


def check_restart():
    with Room(ONE) as room:
        called = room.path / "called"

        def restarts(what, status, wanted, *told):
            (room.path / "systemctl").write_text(f'#!/bin/sh\necho "$@" >> "{called}"\nexit {status}\n')
            (room.path / "systemctl").chmod(0o755)
            room.file.write_text(ONE)
            ran = room.run("password", "Anna", "--restart", password=b"p\n",
                           env={**os.environ, "PATH": f"{room.path}:{os.environ['PATH']}"})
            is_told = all(it.encode() in ran.stdout + ran.stderr for it in told)
            is_so = ran.returncode == wanted and word_of("p") in room.file.read_text() and is_told
            tells(what, is_so, ran)

        restarts("the server is restarted", 0, 0, "rudderraisin is restarted")
        restarts("a start that fails is told", 1, 3, "journalctl -u rudderraisin")
        tells("it is systemctl that does it", called.read_text() == "restart rudderraisin\n" * 2, called.read_text())
        room.settings.write_text("workers = 1\n")
        restarts("a server is not ended by settings that it would refuse", 0, 3, "not restarted",
                 "`address` is missing")
        tells("and systemctl was not called", called.read_text() == "restart rudderraisin\n" * 2, called.read_text())


def check_restart_as_its_user():
    """What root may and the server's user may not keeps the server from a restart: here a folder of records."""
    if os.geteuid():
        print("accounts: another user: only root can try it")
        return
    with Room(ONE) as room:
        tool, check, systemctl = (room.path / it for it in ("lobby_account", "lobby_check", "systemctl"))
        tool.write_text(Path(TOOL).read_text(encoding="utf-8").replace('USER = "rudderraisin"', 'USER = "nobody"'), encoding="utf-8")
        shutil.copy(os.environ["LOBBY_CHECK"], check)
        systemctl.write_text(f'#!/bin/sh\n: > "{room.path}/called"\n')
        for it in room.path, check, systemctl:
            it.chmod(0o755)
        room.file.chmod(0o644)
        (room.path / "records").mkdir(mode=0o700)
        room.settings.write_text(f'address = "{ADDRESS}:{free_port()}"\nrecord = "{room.path}/records"\n')
        call = [sys.executable, tool, "password", "Anna", "--restart", "--accounts", room.file, "--settings", room.settings]
        env = {**os.environ, "LOBBY_CHECK": str(check), "PATH": f"{room.path}:{os.environ['PATH']}"}
        ran = subprocess.run(call, input=b"p\n", capture_output=True, timeout=120, check=False, env=env)
        is_so = ran.returncode == 3 and b"records: no file can be written there" in ran.stderr and b"tried as nobody" in ran.stderr
        tells("--restart tries the files as the server's user", is_so and not (room.path / "called").exists(), ran)


def answer(port, name, password):
    """The first line behind the greeting that a login gets."""
    with socket.create_connection((ADDRESS, port), PATIENCE) as link:
        link.sendall(f"LOGIN {name} {word_of(password)} 0 * Checks 1.0\n".encode())
        file = link.makefile("rb")
        return file.readline() == GREETING and file.readline()


def check_server():
    """The file of many changes is one by which the server lets in, or does not."""
    with Room() as room:
        port = free_port()
        room.settings.write_text(f'address = "{ADDRESS}:{port}"\nstop_at_input_end = true\nlog = "none"\n')
        for words, given in ((("add", "Ben"), b"secret\n"), (("password", "Bert"), b"other\n"),
                             (("disable", "Cleo"), b""), (("enable", "Dora"), b"")):
            room.run(*words, password=given)
        with subprocess.Popen([os.environ["LOBBY_MAIN"], "serve", room.settings, room.file], stdin=subprocess.PIPE,
                              stdout=subprocess.PIPE) as server:
            server.stdout.readline()
            for name, given, wanted in (("Ben", "secret", b"ACCEPTED Ben\n"), ("Bert", "other", b"ACCEPTED Bert\n"),
                                        ("Dora", "password", b"ACCEPTED Dora\n"),
                                        ("Bert", "password", b"DENIED Invalid username or password\n"),
                                        ("Cleo", "password", b"DENIED Invalid username or password\n")):
                told = answer(port, name, given)
                tells(f"the server tells {name} {wanted}", told == wanted, told)
            server.stdin.close()


def main():
    use_programs((sys.argv[1:] or [None])[0], "lobby_check", "lobby_main")
    with tempfile.TemporaryDirectory(prefix="lobby-accounts-") as programs:
        for name in "lobby_check", "lobby_main":
            shutil.copy(os.environ[name.upper()], programs)
        for it in (check_add, check_refused_adds, check_changes, check_format, check_list, check_broken, check_terminal, check_hash,
                   check_killed, check_two,
                   check_full_disk, check_restart, check_restart_as_its_user, check_server):
            it()
        check_permission(Path(programs))
    print(f"accounts: {counts[True]} passed, {counts[False]} failed")
    return 1 if counts[False] else 0


if __name__ == "__main__":
    sys.exit(main())
