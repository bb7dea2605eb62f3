#!/usr/bin/env python3
"""springlobby.py PROGRAM FOLDER: SpringLobby as Debian 12 has it, driven by mouse and keys, on a built server through
the gateway.

By hand: it is no part of the gate, for it needs a screen and packages of Debian 12, which it names where they are missing:

    apt-get install --no-install-recommends springlobby spring xvfb openbox xdotool imagemagick fonts-dejavu-core \\
        iproute2 openssl gcc libc6-dev golang-go
    checks/springlobby.py bin/lobby_main out/springlobby

Anna sits at SpringLobby, whose machine has the address 192.0.2.7, and connects to the gateway at 192.0.2.8; Bert is scripted, speaks
plainly and has 127.0.0.2; the server has 127.0.0.1. All of it runs in a network and with processes of its own, which end with it.
FOLDER, new or empty, gets a picture of the screen for each step, `asserted.txt` with what was compared without eyes, and the logs.
What Bert and the engines were told is compared, and what SpringLobby wrote into its chat logs; the pictures want eyes. A place to
click is known by its distance from its window's corner, as Debian 12 draws it.

The game and the map are made here, and the engine is Debian's without graphics: a match of SpringLobby's really begins, and Bert's
engine joins it at the address that the lobby told."""
import os
import re
import shutil
import signal
import struct
import subprocess
import sys
import tempfile
import time
from pathlib import Path

from lobby_server import ADDRESS, Account, Client, Difference, Server, run

ROOT = Path(__file__).resolve().parent.parent
PACKAGES = {"springlobby": "springlobby", "spring-headless": "spring", "Xvfb": "xvfb", "openbox": "openbox", "xdotool": "xdotool",
            "import": "imagemagick", "ip": "iproute2", "openssl": "openssl", "gcc": "gcc", "go": "golang-go"}
PATHS = os.pathsep.join([os.environ.get("PATH", ""), "/usr/games", "/usr/sbin"])
UNITSYNC = Path("/usr/lib/spring/libunitsync.so")
FILES = {UNITSYNC: "spring", Path("/usr/share/fonts/truetype/dejavu/DejaVuSans.ttf"): "fonts-dejavu-core",
         Path("/usr/include/stdio.h"): "libc6-dev"}
HOME_OF_ANNA, HOME_OF_BERT, GATEWAY, GATEWAY_PORT, GAME_PORT = "192.0.2.7", "127.0.0.2", "192.0.2.8", 8200, 8452
ENGINE, GAME, MAP = "106.0", "Tiny 1", "Tiny Plain 1"
ANNA, BERT = Account("Anna", 1, country="DE"), Account("Bert", 2)
# What the gateway says, as its README has it.
NO_TOPICS, CANCELLED = "Channels have no topic here", "You ask no more to join"
WAITING = "Waiting for the host to let you in. Say !cancel in any channel to ask no more"
STOPPED, ACCOUNTS = "The gateway is stopped", "Ask Anna for an account"
DENIED = "Failed to join battle. not today"
# What SpringLobby writes as of the server, where the server refuses none of its lines.
KNOWN = re.compile("|".join(["Connect(ing|ed) to ", "Disconnected from ",
                             *map(re.escape, (NO_TOPICS, WAITING, CANCELLED, STOPPED, DENIED))]))
# The battle status of a synced player who is ready, and of one in the second team and ally team.
READY = 1 << 22 | 1 << 10 | 1 << 1
READY_SECOND = READY | 1 << 6 | 1 << 2
PATIENCE = 60.0

MAIN, LOGIN, TRUST, HOST, KICKED = ("SpringLobby", "Connect to lobby server", "Unknown Certificate", "Host new battle",
                                    "Kicked by Host")
# Each place to click: its window, and how many pixels it is right of and below the corner of that.
PLACES = {
    "to log in": (LOGIN, 149, 11), "server": (LOGIN, 70, 68), "name": (LOGIN, 90, 126), "password": (LOGIN, 90, 180),
    "log in": (LOGIN, 150, 215), "trust": (TRUST, 430, 94),
    "mail": (LOGIN, 70, 126), "new name": (LOGIN, 70, 180), "new password": (LOGIN, 70, 234),
    "password again": (LOGIN, 70, 288), "register": (LOGIN, 150, 364),
    "chat": (MAIN, 45, 48), "battles": (MAIN, 155, 48), "say": (MAIN, 300, 680),
    "second channel": (MAIN, 154, 86), "private chat": (MAIN, 218, 86), "sort by name": (MAIN, 538, 115), "guest": (MAIN, 514, 163),
    "first battle": (MAIN, 300, 107), "join": (MAIN, 1050, 678), "host": (MAIN, 60, 678),
    "say in room": (MAIN, 300, 643), "ready": (MAIN, 661, 326), "leave": (MAIN, 380, 678), "start": (MAIN, 1053, 678),
    "title": (HOST, 222, 18), "open": (HOST, 301, 291),
}


def wait_for(what, test):
    """Waits until the test gives something, and gives that."""
    until = time.monotonic() + PATIENCE
    while time.monotonic() < until:
        if found := test():
            return found
        time.sleep(0.1)
    raise Difference(f"in {PATIENCE:.0f} s there was not: {what}")


class Report:
    """What was compared, for the screen and for `asserted.txt`."""

    def __init__(self, folder):
        self.file = (folder / "asserted.txt").open("w", buffering=1)

    def ok(self, text):
        print(text)
        self.file.write(text + "\n")


class Player(Client):
    """Bert, who speaks the protocol plainly."""

    def line(self, pattern):
        """Takes lines until one has this form, and gives the match."""
        until = time.monotonic() + PATIENCE
        while time.monotonic() < until:
            end = self.heard.find(b"\n", self.checked)
            if end >= 0:
                line = self.heard[self.checked:end].decode("latin-1")
                self.checked = end + 1
                if match := re.fullmatch(pattern, line):
                    return match
            elif not self.receive():
                break
        raise Difference(f"Bert was not told: {pattern}\n{self.heard[-2000:].decode('latin-1')}")


class Screen:
    """A screen that is memory alone, a window manager, a mouse and keys."""

    def __init__(self, folder, processes):
        self.folder, self.count, self.known = folder, 0, set()
        # On a busy machine a key that is held down too long would repeat itself: `-r` has it not do so.
        words = ["-screen", "0", "1140x820x24", "-nolisten", "tcp", "-r"]
        server = subprocess.Popen(["Xvfb", "-displayfd", "1", *words], stdout=subprocess.PIPE, stderr=subprocess.DEVNULL)
        processes.append(server)
        os.environ["DISPLAY"] = ":" + server.stdout.readline().decode().strip()
        processes.append(subprocess.Popen(["openbox"], stdout=subprocess.DEVNULL, stderr=subprocess.DEVNULL))

    def tool(self, *words):
        done = subprocess.run(["xdotool", *map(str, words)], stdout=subprocess.PIPE, stderr=subprocess.DEVNULL, check=False)
        return done.stdout.decode().splitlines()

    def window(self, name):
        """The window of this name that is seen, or None."""
        for window in self.tool("search", "--onlyvisible", "--name", f"^{name}$"):
            if self.tool("getwindowname", window) == [name]:
                return window
        return None

    def click(self, place, times=1, button=1):
        name, right, below = PLACES[place]
        window = wait_for(f"a window `{name}`", lambda: self.window(name))
        if window not in self.known:    # it may not be drawn whole yet
            time.sleep(2)
            self.known.add(window)
        self.tool("windowactivate", "--sync", window)
        self.tool("mousemove", "--window", window, right, below, "click", "--repeat", times, "--delay", 60, button)
        time.sleep(0.5)

    def width(self, name):
        told = self.tool("getwindowgeometry", "--shell", self.window(name))
        return next((it for it in told if it.startswith("WIDTH=")), None)

    def write(self, place, text, key=None):
        self.click(place, times=3 if key is None else 1)
        self.tool("type", "--delay", 20, text)
        if key:
            self.tool("key", key)
        time.sleep(0.3)

    def picture(self, name):
        """Keeps what is seen, with the mouse out of the way."""
        self.tool("mousemove", 1138, 818)
        time.sleep(1.2)
        self.count += 1
        subprocess.run(["import", "-window", "root", str(self.folder / f"{self.count:02}-{name}.png")], check=True)


def map_file(side=128):
    """A flat map, as the engine reads it: so many squares on a side, of one tile."""
    tiles = (side // 4) ** 2
    parts = [bytes(2 * (side + 1) ** 2), bytes((side // 2) ** 2),
             struct.pack("<iii", 1, 1, 1) + b"plain.smt\0" + bytes(4 * tiles), b"\x55" * 699_048, bytes((side // 2) ** 2), bytes(8)]
    places = [80 + sum(map(len, parts[:k])) for k in range(len(parts))]
    head = struct.pack("<16siIiiiiiff", b"spring map file\0", 1, 42, side, side, 8, 8, 32, 10.0, 20.0)
    return head + struct.pack("<7i", *places, 0) + b"".join(parts)


def make_content(data):
    """A game without a unit, a flat map, and Debian's unitsync with the version that its build lost."""
    game, plain = data / "games/tiny.sdd", data / "maps/plain.sdd"
    game.mkdir(parents=True)
    (plain / "maps").mkdir(parents=True)
    (game / "modinfo.lua").write_text(
        'return { name = "Tiny", shortname = "TN", version = "1", modtype = 1, depend = { "Spring Cursors" } }\n')
    (plain / "mapinfo.lua").write_text(
        'return { name = "Tiny Plain", version = "1", modtype = 3, mapfile = "maps/plain.smf", gravity = 100, maphardness = 100,\n'
        '    smf = { minheight = 10, maxheight = 20 },\n'
        '    teams = { [0] = { startPos = { x = 100, z = 100 } }, [1] = { startPos = { x = 900, z = 900 } } } }\n')
    (plain / "maps/plain.smf").write_bytes(map_file())
    (plain / "maps/plain.smt").write_bytes(struct.pack("<16s4i", b"spring tilefile\0", 1, 1, 32, 1) + bytes(680))
    (data / "version.c").write_text(f'const char *GetSpringVersion(void) {{ return "{ENGINE}"; }}\n')
    library = data / "unitsync.so"
    subprocess.run(["gcc", "-shared", "-fPIC", "-o", library, data / "version.c", "-Wl,--no-as-needed", UNITSYNC,
                    f"-Wl,-rpath,{UNITSYNC.parent}"], check=True)
    return library


class SpringLobby:
    """SpringLobby in a home of its own, and the engine that it starts."""

    def __init__(self, home, folder, processes, trusted=None):
        self.home, self.folder, self.processes, self.process = home, folder, processes, None
        self.found = {}     # how far the log of each chat was compared
        self.data = self.home / ".springlobby"
        self.data.mkdir(parents=True)
        library = make_content(self.home / ".spring")
        engine, pid = home / "engine", home / "engine.pid"
        # However the engine is ended, SpringLobby is to see a match that ended well.
        engine.write_text(f"#!/bin/sh\nspring-headless \"$@\" > {folder}/engine-anna.log 2>&1 &\necho $! > {pid}\nwait\n")
        engine.chmod(0o755)
        self.engine = pid
        # What it wrote itself where it was told to trust this certificate before.
        trust = (f"[Server]\nDefault={GATEWAY}:{GATEWAY_PORT}\n[Server/Servers]\n"
                 f"[Server/Servers/{GATEWAY}\\:{GATEWAY_PORT}]\nHost={GATEWAY}\nPort={GATEWAY_PORT}\nCertificate={trusted}\n")
        (self.data / "springlobby.conf").write_text(
            f"[Spring]\nCurrentIndex={ENGINE}\n[Spring/Pathslinux64]\n[Spring/Pathslinux64/{ENGINE}]\nSpringBinPath={engine}\n"
            f"UnitSyncPath={library}\n[GUI/MAINWINDOW]\nleft=0\ntop=0\nwidth=1102\nheight=746\nmaximized=0\n"
            + (trust if trusted else ""))

    def start(self):
        output = (self.folder / "springlobby.log").open("ab")
        self.process = subprocess.Popen(["springlobby", "-cl", "-l", "4"], stdout=output, stderr=output,
                                        env={**os.environ, "HOME": str(self.home), "ALSOFT_DRIVERS": "null"})
        self.processes.append(self.process)

    def has_ended(self):
        return self.process.poll() is not None

    def told(self):
        """All that it wrote into its logs."""
        return "".join(it.read_text(errors="replace") for it in sorted((self.data / "logs").glob("*.log")))

    def chat(self, name):
        """What it showed of a chat, as its log has it."""
        log = self.data / "chatlog" / f"{GATEWAY}_{GATEWAY_PORT}" / f"{name}.txt"
        return log.read_text() if log.exists() else ""

    def shows(self, chat, line):
        """Waits until it shows this line of a chat, behind those that were found there before."""
        form = re.compile(f"^\\[[0-9:]+\\] {re.escape(line)}$", re.M)
        found = wait_for(f"`{line}` in its chat `{chat}`", lambda: form.search(self.chat(chat), self.found.get(chat, 0)))
        self.found[chat] = found.end()


class Trial:
    """Anna at SpringLobby, and Bert."""

    def __init__(self, room, folder, server, processes, gateway):
        self.room, self.folder, self.server, self.processes, self.gateway = room, folder, server, processes, gateway
        self.start_gateway()
        self.report, self.screen = Report(folder), Screen(folder, processes)
        self.lobby = SpringLobby(room / "anna", folder, processes)
        self.bert = Player(server, source=HOME_OF_BERT)
        self.bert.line("TASSERVER .*")
        self.say(BERT.login().replace("\n", "\t0\tb\n"))    # who joins his battles asks him
        self.bert.line("LOGININFOEND")

    def start_gateway(self):
        with (self.folder / "gateway.log").open("ab") as output:
            self.processes.append(subprocess.Popen(self.gateway, stdout=output, stderr=output))
        self.gateway_process = self.processes[-1]

    def say(self, line):
        self.bert.send(line if line.endswith("\n") else line + "\n")

    def told(self, pattern, what):
        """Bert is told a line of this form."""
        match = self.bert.line(pattern)
        self.report.ok(f"{what}: Bert is told `{match[0]}`")
        return match

    def shown(self, chat, line, what):
        """SpringLobby wrote this line into its log of what it showed."""
        self.lobby.shows(chat, line)
        self.report.ok(f"{what}: SpringLobby shows `{line}`")

    def run(self, fingerprint):
        self.log_in(fingerprint)
        self.talk_in_channel()
        self.talk_privately()
        self.start_gateway_anew()
        battle, game_hash, map_hash = self.host()
        self.kick(battle)
        self.begin(battle)
        self.be_guest(game_hash, map_hash)
        self.lobby.process.terminate()
        self.told("REMOVEUSER Anna", "the end of SpringLobby")
        refused = [it for it in self.lobby.chat("server").splitlines() if "** Server **" in it and not KNOWN.search(it)]
        if refused:
            raise Difference(f"the server told SpringLobby what nobody asked for: {refused}")
        self.report.ok("the server refused no line of SpringLobby's")
        self.register(fingerprint)

    def log_in(self, fingerprint):
        screen = self.screen
        self.lobby.start()
        self.turn_to_login()
        screen.write("server", f"{GATEWAY}:{GATEWAY_PORT}")
        screen.write("name", "Anna")
        screen.write("password", "password")
        screen.picture("login-window")
        screen.click("log in")
        wait_for("a question of trust", lambda: screen.window(TRUST))
        if f"Certificate fingerprint: {fingerprint}" not in self.lobby.told():
            raise Difference("SpringLobby asks to trust another fingerprint")
        self.report.ok(f"trust: SpringLobby asks for the certificate's fingerprint, {fingerprint}")
        screen.picture("fingerprint-asked")
        screen.click("trust")
        self.come_back()
        self.told("ADDUSER Anna DE 0 1", "login")
        self.shown("server", "** motd ** Welcome to the trial", "message of the day")
        screen.picture("logged-in")

    def register(self, fingerprint):
        """Clara, who has no account, asks for one. She trusts the certificate already."""
        screen, lobby = self.screen, SpringLobby(self.room / "clara", self.folder, self.processes, fingerprint)
        lobby.start()
        wait_for("its login window", lambda: screen.window(LOGIN))
        for place, text in [("mail", "clara@example.org"), ("new name", "Clara"), ("new password", "password"),
                            ("password again", "password")]:
            screen.write(place, text)
        screen.click("register")
        wait_for("its end of the connection", lambda: "EXIT" in lobby.told())
        screen.picture("register-refused")
        self.report.ok(f"register: look at the last picture, which is to have `{ACCOUNTS}`")

    def turn_to_login(self):
        """At its first start the login window asks to register, and is wider."""
        wait_for("its login window", lambda: self.screen.window(LOGIN))
        time.sleep(2)
        wide = self.screen.width(LOGIN)
        for _ in range(5):
            self.screen.click("to log in")
            time.sleep(1)
            if self.screen.width(LOGIN) != wide:
                return
        raise Difference("the login window goes on asking to register")

    def come_back(self):
        """Behind the trust SpringLobby ends the connection, and either shows its login window again or crashes, which is its own fault."""
        wait_for("its end or its login window", lambda: self.lobby.has_ended() or self.screen.window(LOGIN))
        time.sleep(1)
        if self.lobby.has_ended():
            self.report.ok("SpringLobby crashed behind its first trust, and is started again")
            self.lobby.start()
            wait_for("its window", lambda: self.screen.window(MAIN))
        else:
            self.screen.click("log in")

    def talk_in_channel(self):
        self.say("JOIN trial")
        self.screen.write("say", "/join trial", "Return")
        self.told("JOINED trial Anna", "channel")
        self.screen.click("second channel")     # the first is one that SpringLobby joins by itself
        self.say("SAY trial Good evening, Anna")
        self.shown("trial", "<Bert> Good evening, Anna", "channel talk")
        self.screen.write("say", "Good evening, Bert: all well?", "Return")
        self.told("SAID trial Anna Good evening, Bert: all well\\?", "channel talk")
        self.screen.write("say", "/me waves", "Return")
        self.told("SAIDEX trial Anna waves", "channel action")
        self.say("SAYEX trial waves back")
        self.shown("trial", "* Bert waves back", "channel action")
        self.screen.write("say", "/topic trial Tonight", "Return")
        self.shown("server", f"** Server ** {NO_TOPICS}", "topic")
        self.screen.picture("channel-talk")

    def talk_privately(self):
        self.screen.write("say", "/msg Bert a word with you", "Return")
        self.told("SAIDPRIVATE Anna a word with you", "private talk")
        self.say("SAYPRIVATE Anna which one?")
        self.shown("chatpanel-pm-Bert", "<Bert> which one?", "private talk")
        self.say("SAYPRIVATE Anna /me listens")
        self.shown("chatpanel-pm-Bert", "* Bert listens", "private action")
        self.screen.click("private chat")
        self.screen.write("say", "/me tells it", "Return")
        self.told("SAIDPRIVATE Anna /me tells it", "private action")
        self.shown("chatpanel-pm-Bert", "* Anna tells it", "private action")
        self.screen.picture("private-talk")

    def start_gateway_anew(self):
        """Where the gateway ends SpringLobby waits for it, and comes back to its channels by itself."""
        self.gateway_process.terminate()
        self.told("LEFT trial Anna", "the end of the gateway")
        self.told("REMOVEUSER Anna", "the end of the gateway")
        self.gateway_process.wait()
        self.start_gateway()
        self.told("ADDUSER Anna DE 0 1", "the gateway started anew")
        self.told("JOINED trial Anna", "the gateway started anew")
        self.screen.picture("came-back")

    def host(self):
        """SpringLobby opens a battle; Bert joins it, and both talk. Gives the numbers of the battle, the game and the map."""
        screen = self.screen
        screen.click("battles")
        screen.click("host")
        screen.write("title", "Annas room")
        screen.picture("host-window")
        screen.click("open")
        form = f"BATTLEOPENED (\\d+) 0 0 Anna {HOME_OF_ANNA} {GAME_PORT} 8 0 0 (-?\\d+) Spring\t{ENGINE}\t{MAP}\tAnnas room\t{GAME}"
        battle, map_hash = self.told(form, "host, at SpringLobby's own address").groups()
        self.say(f"JOINBATTLE {battle} * secret")
        game_hash = self.told(f"JOINBATTLE {battle} (-?\\d+)", "a guest")[1]
        self.say(f"MYBATTLESTATUS {READY_SECOND} 255")
        self.shown("_BATTLE_Anna", "** Bert joined the battle.", "a guest")
        self.say("SAYBATTLE Nice room, Anna")
        self.shown("_BATTLE_Anna", "<Bert> Nice room, Anna", "battle talk")
        screen.write("say in room", "You are welcome, Bert", "Return")
        self.told("SAIDBATTLE Anna You are welcome, Bert", "battle talk")
        screen.write("say in room", "/me lights a lamp", "Return")
        self.told("SAIDBATTLEEX Anna lights a lamp", "battle action")
        self.say("SAYBATTLEEX sits down")
        self.shown("_BATTLE_Anna", "* Bert sits down", "battle action")
        screen.picture("hosts-with-a-guest")
        return battle, game_hash, map_hash

    def kick(self, battle):
        """SpringLobby rings its guest and kicks him, by the menu of his row, where these two come last."""
        self.screen.click("sort by name")
        self.screen.click("guest", button=3)
        self.screen.picture("menu-of-a-guest")
        self.screen.tool("key", "Up", "Return")
        self.told("RING Anna", "ring")
        self.screen.click("guest", button=3)
        self.screen.tool("key", "Up", "Up", "Return")
        self.told("FORCEQUITBATTLE", "kick")
        self.told(f"LEFTBATTLE {battle} Bert", "kick")
        self.screen.picture("guest-is-kicked")
        self.say(f"JOINBATTLE {battle} * secret")
        self.told(f"JOINBATTLE {battle} -?\\d+", "the guest comes again")
        self.say(f"MYBATTLESTATUS {READY_SECOND} 255")
        self.told(f"CLIENTBATTLESTATUS Bert {READY_SECOND} 255", "the guest is ready")
        time.sleep(2)   # SpringLobby starts no match before it has heard of that

    def begin(self, battle):
        """SpringLobby starts the match, Bert's engine joins it, and SpringLobby ends its battle."""
        self.screen.click("start")
        self.told("CLIENTSTATUS Anna 1", "start: SpringLobby is in game")
        home = self.room / "bert"
        home.mkdir()
        (home / ".spring").symlink_to(self.lobby.home / ".spring")
        (home / "script.txt").write_text(
            f"[GAME]\n{{\nHostIP={HOME_OF_ANNA};\nHostPort={GAME_PORT};\nIsHost=0;\nMyPlayerName=Bert;\nMyPasswd=secret;\n}}\n")
        with (self.folder / "engine-bert.log").open("wb") as log:
            self.processes.append(subprocess.Popen(["spring-headless", home / "script.txt"], stdout=log, stderr=log,
                                                   env={**os.environ, "HOME": str(home)}))
        log, joined = self.folder / "engine-anna.log", "Player Bert finished loading and is now ingame"
        wait_for(f"`{joined}` in Anna's engine", lambda: joined in log.read_text(errors="replace"))
        self.report.ok(f"match: the engine that SpringLobby began says `{joined}`")
        self.screen.picture("match-runs")
        self.end_engine()
        self.screen.click("leave")
        self.told(f"BATTLECLOSED {battle}", "SpringLobby leaves its room")

    def end_engine(self):
        number = wait_for("the engine of SpringLobby", lambda: self.lobby.engine.exists() and self.lobby.engine.read_text())
        os.kill(int(number), signal.SIGKILL)
        self.lobby.engine.unlink()
        self.told("CLIENTSTATUS Anna 0", "end of the match")

    def ask(self):
        """SpringLobby asks to join the one battle there is, and waits."""
        self.screen.click("battles")
        self.screen.click("first battle")
        self.screen.click("join")
        self.told(f"JOINBATTLEREQUEST Anna {HOME_OF_ANNA}", "a join request, with SpringLobby's own address")
        self.shown("server", f"** Server ** {WAITING}", "waiting")

    def join(self, battle):
        """SpringLobby asks to join Bert's battle three times: it asks no more, is denied, and is let in."""
        self.ask()
        self.screen.click("chat")
        self.screen.click("second channel")
        self.screen.write("say", "!cancel", "Return")
        self.shown("server", f"** Server ** {CANCELLED}", "cancel")
        self.screen.picture("asks-no-more")
        self.say("JOINBATTLEACCEPT Anna")
        self.told("SERVERMSG No such join request", "cancel")
        self.ask()
        self.say("JOINBATTLEDENY Anna not today")
        self.shown("server", f"** Server ** {DENIED}", "denied")
        self.ask()
        self.say("JOINBATTLEACCEPT Anna")
        self.told(f"JOINEDBATTLE {battle} Anna \\S+", "let in, with a script password")

    def be_guest(self, game_hash, map_hash):
        """SpringLobby joins Bert's battle, talks there, follows him into a match, and is kicked."""
        screen = self.screen
        self.say(f"OPENBATTLE 0 0 * {GAME_PORT} 8 {game_hash} 0 {map_hash} Spring\t{ENGINE}\t{MAP}\tBerts room\t{GAME}")
        battle = self.told("OPENBATTLE (\\d+)", "Bert hosts")[1]
        self.join(battle)
        self.say("SAYBATTLE Come in, Anna")
        self.shown("_BATTLE_Bert", "<Bert> Come in, Anna", "battle talk of a guest")
        screen.write("say in room", "Thank you, Bert", "Return")
        self.told("SAIDBATTLE Anna Thank you, Bert", "battle talk of a guest")
        self.say("SAYBATTLEEX pours tea")
        self.shown("_BATTLE_Bert", "* Bert pours tea", "battle action of a guest")
        screen.click("ready")
        self.told(f"CLIENTBATTLESTATUS Anna {READY} \\d+", "ready and synced")
        screen.picture("guest-of-a-battle")
        self.say("MYSTATUS 1")
        self.told("CLIENTSTATUS Anna 1", "start of the host: SpringLobby follows")
        wanted, script = f"HostIP={HOME_OF_BERT};", self.lobby.data / "script.txt"
        if wanted not in script.read_text():
            raise Difference(f"SpringLobby tells its engine of another host: {script.read_text()}")
        self.report.ok(f"start of the host: SpringLobby tells its engine `{wanted}`")
        self.end_engine()
        self.say("MYSTATUS 0")
        self.say("KICKFROMBATTLE Anna")
        self.told(f"LEFTBATTLE {battle} Anna", "SpringLobby is kicked")
        wait_for("a window that says so", lambda: screen.window(KICKED))
        screen.picture("is-kicked")


def certificate(room):
    """Makes a certificate as OPERATING has it. Gives its file, that of its key, and the fingerprint that SpringLobby shows."""
    cert, key = room / "cert.pem", room / "key.pem"
    curve = ["-newkey", "ec", "-pkeyopt", "ec_paramgen_curve:P-256"]
    subprocess.run(["openssl", "req", "-x509", *curve, "-nodes", "-days", "30", "-subj", "/CN=lobby", "-keyout", key,
                    "-out", cert], stderr=subprocess.DEVNULL, check=True)
    told = subprocess.run(["openssl", "x509", "-in", cert, "-noout", "-fingerprint", "-sha256"], stdout=subprocess.PIPE, check=True)
    return cert, key, told.stdout.decode().strip().partition("=")[2].replace(":", "").lower()


def check(folder, room, processes):
    """Runs all of it in a folder for files of this run."""
    cert, key, fingerprint = certificate(room)
    program = subprocess.run([ROOT / "tools/gateway.sh"], stdout=subprocess.PIPE, text=True, check=True).stdout.strip()
    settings = f'motd = ["Welcome to the trial"]\nproxies = ["{ADDRESS}"]\n'
    with (folder / "server.log").open("w+b") as log, Server(2, [ANNA, BERT], settings, log="all", errors=log) as server:
        gateway = [program, "--listen", f"{GATEWAY}:{GATEWAY_PORT}", "--server", f"{ADDRESS}:{server.port}",
                   "--cert", cert, "--key", key, "--proxy-protocol", "--accounts-text", ACCOUNTS]
        trial = Trial(room, folder, server, processes, gateway)
        try:
            trial.run(fingerprint)
        except Difference:
            trial.screen.picture("differs")
            raise
        finally:
            shutil.copytree(trial.lobby.data / "chatlog", folder / "chatlog", dirs_exist_ok=True)


def in_a_world_of_its_own(folder):
    """Where the network and the processes are those of this run alone. The first process there heeds no signal without a handler."""
    signal.signal(signal.SIGTERM, lambda *_: sys.exit(1))
    for words in ("link set lo up", f"address add {HOME_OF_ANNA}/32 dev lo",
                  f"route add local {GATEWAY}/32 dev lo src {HOME_OF_ANNA} table local"):
        subprocess.run(["ip", *words.split()], check=True)
    processes = []
    with tempfile.TemporaryDirectory(prefix="springlobby-") as room:
        try:
            run(check, [folder, Path(room), processes])
        finally:
            for process in reversed(processes):
                process.kill()
                process.wait()


def main():
    if len(sys.argv) != 3:
        sys.exit("usage: springlobby.py PROGRAM FOLDER")
    program, folder = (Path(it).resolve() for it in sys.argv[1:])
    os.environ.update(PATH=PATHS, LOBBY_MAIN=str(program))
    missing = {package for tool, package in PACKAGES.items() if not shutil.which(tool)}
    missing |= {package for file, package in FILES.items() if not file.exists()}
    if missing:
        sys.exit(f"springlobby.py needs these packages of Debian 12: {' '.join(sorted(missing))}")
    if "SPRINGLOBBY_WORLD" in os.environ:
        in_a_world_of_its_own(folder)
        return
    folder.mkdir(parents=True, exist_ok=True)
    if any(folder.iterdir()):
        sys.exit(f"{folder} is not empty")
    os.environ["SPRINGLOBBY_WORLD"] = "1"
    os.nice(10)
    alone = ["unshare", "--map-root-user", "--net", "--pid", "--fork", "--kill-child", "--mount-proc"]
    os.execvp("unshare", [*alone, sys.executable, "-B", __file__, str(program), str(folder)])


if __name__ == "__main__":
    main()
