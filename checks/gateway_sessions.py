#!/usr/bin/env python3
"""gateway_sessions.py GATEWAY [COUNT [SEED]]: random sessions through the gateway beside the same ones without it.

Two servers have the same history. At one of them each session is a client of the protocol, which says line by line what a player
at SpringLobby means, as gateway/README.md has it; at the other it is SpringLobby's, which says it all in pieces of any size, through
the gateway. What comes back is to be the same but for the documented translations, and so is what a host is told. Two of ten
sessions come by the doors at which nothing is translated. COUNT is 2000 if left out."""
import re
import random
import socket
import ssl
import subprocess
import sys
import tempfile
from pathlib import Path

from lobby_server import ADDRESS, PATIENCE, WORD, Account, Difference, Server, greeted, run

HOST, OPENER, PLAYER = Account("Anna", 1), Account("Bert", 2), Account("Cleo", 3)
# From here nobody has to say which address a client has.
NO_PROXY = "127.0.0.2"
SYNC = b"#999999999 "
LIMIT = 8192
OPEN = b"OPENBATTLE 0 0 * 8452 8 -1 0 123 Spring\t104.0\tComet Catcher\tgame\tBA 9.46"
WAITING = b"SERVERMSG Waiting for the host to let you in. Say !cancel in any channel to ask no more"
CANCELLED, NO_TOPICS = b"SERVERMSG You ask no more to join", b"SERVERMSG Channels have no topic here"
TOO_LONG, ACCOUNTS = b"SERVERMSG The line is too long", b"Ask Anna"
REGISTER = b"REGISTRATIONDENIED " + ACCOUNTS
# What the gateway answers by itself, which may come before or behind what the server answers.
OWN = (CANCELLED, NO_TOPICS, TOO_LONG, REGISTER, b"SERVERMSG " + ACCOUNTS)
WORDS = b"""PING JOIN LEAVE SAY SAYEX SAYPRIVATE SAYPRIVATEEX OPENBATTLE JOINBATTLE LEAVEBATTLE SAYBATTLE SAYBATTLEEX MYSTATUS CHANNELS
GETCHANNELMESSAGES CHANNELTOPIC REGISTER CHANGEPASSWORD CONFIRMAGREEMENT RENAMEACCOUNT MYBATTLESTATUS ADDBOT RING LOGIN""".split()
ARGUMENTS = [b"0", b"1", b"2", b"01", b"-1", b"2147483648", b"x", b"a-b", b"Anna", b"Cleo", b"main", b"*", b"\t", b"/me", b"!cancel", b"\xff\0", b"\r"]


def line_of(chance):
    """A line that SpringLobby may say, or any client, good or bad."""
    kind = chance.randrange(12)
    if kind < 3:
        line = chance.choice([b"JOINBATTLE 1", b"JOINBATTLE 2", b"JOINBATTLE 01 *", b"JOINBATTLE 2  pw", b"JOINBATTLE  1 * pw", b"JOINBATTLE x",
                              b"JOINBATTLE 999", b"JOINBATTLE 1 a\tb", b"JOINBATTLE -0", b"JOINBATTLE", b"JOINBATTLE 1  x y"])
    elif kind < 5:
        line = chance.choice([OPEN, OPEN[:40], b"LEAVEBATTLE", b"SAY main !cancel", b"SAY  main !cancel", b"SAY main  !cancel", b"SAY main !cancel "])
    elif kind < 8:
        line = chance.choice([b"JOIN main", b"JOIN side key", b"SAY main hi  all", b"SAYBATTLE hello", b"SAYBATTLEEX bows", b"SAYPRIVATE Cleo /me x",
                              b"SAYPRIVATE Anna hi", b"SAYPRIVATEEX Cleo  nods", b"SAYPRIVATEEX Cleo", b"SAYPRIVATE Cleo /men", b"MYSTATUS 3", b"PING"])
    elif kind < 9 and chance.randrange(8) == 0:
        head = chance.choice([b"SAYPRIVATEEX Cleo ", b"SAY main ", b"JOINBATTLE 1  ", b""])
        return head + b"z" * (LIMIT - len(head) + chance.randrange(-3, 2))
    elif kind < 9:
        return chance.randbytes(chance.randrange(30)).replace(b"\n", b" ")
    else:
        line = chance.choice([b" ", b"  ", b"\t"]).join([chance.choice(WORDS), *(chance.choice(ARGUMENTS) for _ in range(chance.randrange(4)))])
    tag = chance.choice([b"", b"", b"#7 ", b"#007  ", b"#2147483647 ", b"# ", b"#2147483648 "])
    return chance.choice([b"", b"", b" "]) + tag + line + chance.choice([b"", b"", b"\r", b" "])


def read_request(line):
    """The id as answers carry it, the command word, and the rest; no word where the server answers but "Bad byte"."""
    line = line[:-1] if line.endswith(b"\r") else line
    match = re.fullmatch(rb" *(?:#(\d{1,10}) +)?([^ ]*)(.*)", line, re.S)
    tag, word, rest = match[1], match[2], match[3]
    if tag is not None and int(tag) > 2147483647:
        tag, (word, rest) = None, re.fullmatch(rb" *([^ ]*)(.*)", line, re.S).groups()
    return (b"#%d " % int(tag) if tag is not None else b""), (b"" if b"\r" in line else word), rest


def number(word, least, most):
    return bool(re.fullmatch(rb"-?\d{1,10}", word)) and least <= int(word) <= most


def asks(rest):
    """The battle that JOINBATTLE asks for, or None where it asks for none."""
    words = rest.split(b" ")
    words = [it for it in words if it][:3]
    if not words or any(b"\t" in it for it in words) or not number(words[0], 0, 2147483647):
        return None
    return int(words[0])


def opens(rest):
    words = re.match(rb" +([^ \t]+)" * 8 + rb" ", rest + b" " * 0)
    if not words or rest[words.end():].count(b"\t") < 4:
        return False
    bounds = [(0, 1), (0, 2), None, (0, 65535), (0, 65535)] + [(-2147483648, 4294967295)] * 3
    return all(not it or number(word, *it) for word, it in zip(words.groups(), bounds))


class Meaning:
    """A client of the protocol that says line by line what a player at SpringLobby means. `heard` is what that one is to be shown,
    and `own` what the gateway is to answer by itself."""

    def __init__(self, server, is_translated):
        self.server, self.is_translated = server, is_translated
        self.client = greeted(server)
        self.heard, self.own = [], []
        self.is_waiting, self.battle, self.is_ended = False, b"0", False

    def ask(self, line):
        """Says a line to the server, and gives what it answers."""
        start = len(self.client.heard)
        self.client.send(line + b"\n" + SYNC + b"PING\n")
        while not self.client.heard.endswith(SYNC + b"PONG\n", start):
            if not self.client.receive():
                self.is_ended = True
                break
        lines = bytes(self.client.heard[start:]).split(b"\n")[:-1]
        return lines if self.is_ended else lines[:-1]

    def say(self, line):
        if self.is_ended:
            return
        if not self.is_translated:
            self.heard += self.ask(line)
            return
        tag, word, rest = read_request(line)
        spoken = re.fullmatch(rb" +([^ \t]+) (.*)", rest, re.S)
        if word == b"GETCHANNELMESSAGES":
            return
        if word == b"CHANNELTOPIC":
            self.own.append(tag + NO_TOPICS)
        elif word in (b"REGISTER", b"CHANGEPASSWORD", b"CONFIRMAGREEMENT", b"RENAMEACCOUNT"):
            self.own.append(tag + (REGISTER if word == b"REGISTER" else b"SERVERMSG " + ACCOUNTS))
        elif word == b"SAYPRIVATEEX" and spoken:
            self.replace(tag, line, tag + b"SAYPRIVATE " + spoken[1] + b" /me " + spoken[2])
        elif word == b"JOINBATTLE" and asks(rest) is not None:
            self.join(tag, line, rest)
        elif word == b"SAY" and self.is_waiting and spoken and spoken[2] == b"!cancel":
            self.stop_asking()
            self.own.append(tag + CANCELLED)
        else:
            if word == b"OPENBATTLE" and self.is_waiting and opens(rest) and len(line) <= LIMIT:
                self.stop_asking()
            self.is_waiting = self.is_waiting and word != b"LEAVEBATTLE"
            self.show(self.ask(line))

    def replace(self, tag, line, other):
        if len(other) > LIMIT >= len(line):
            self.own.append(tag + TOO_LONG)
        else:
            self.show(self.ask(other))

    def join(self, tag, line, rest):
        empty = re.fullmatch(rb" +[^ ]+  ([^ ]+)", rest)
        other = tag + b"JOINBATTLE %d * " % asks(rest) + empty[1] if empty else line
        if len(other) > LIMIT >= len(line):
            self.own.append(tag + TOO_LONG)
            return
        if self.is_waiting and len(other) <= LIMIT:
            self.stop_asking()
        answers = self.ask(other)
        self.show(answers)
        if not answers and not self.is_ended:
            self.is_waiting = True
            self.heard.append(WAITING)

    def stop_asking(self):
        self.is_waiting = False
        if self.ask(b"LEAVEBATTLE"):
            raise Difference("the server answers one who asks no more")

    def show(self, lines):
        for line in lines:
            self.heard += self.turned(line)

    def turned(self, line):
        """What SpringLobby is shown for a line of the server."""
        tag, word, rest = re.fullmatch(rb"(#\d+ )?([A-Z]+)(?: (.*))?", line, re.S).groups(b"")
        name, _, text = rest.partition(b" ")
        if word in (b"OPENBATTLE", b"JOINBATTLE", b"JOINBATTLEFAILED"):
            self.is_waiting = False
            self.battle = name if word != b"JOINBATTLEFAILED" else self.battle
        if word == b"BATTLEOPENED":
            return [line + b"\tbattle:" + name]
        if word in (b"SAIDBATTLE", b"SAIDBATTLEEX"):
            return [tag + word.replace(b"BATTLE", b"") + b" battle:" + self.battle + b" " + rest]
        if word in (b"SAYPRIVATE", b"SAIDPRIVATE") and text.startswith(b"/me "):
            return [tag + word + b"EX " + name + b" " + text[4:]]
        if word == b"JOINFAILED" and text == b"Already in the channel":
            return []
        return [line]

    def hear(self):
        """What came meanwhile, since the host did something."""
        self.show(self.ask(b"")) if self.is_translated else self.heard.extend(self.ask(b""))

    def finish(self):
        if not self.is_ended:
            self.client.send(b"EXIT\n")
            while self.client.receive():
                pass
        self.client.close()


class Player:
    """A client of the gateway, which says lines in pieces of any size while it reads."""

    def __init__(self, port, door, context, chance):
        self.chance, self.heard, self.is_ended = chance, bytearray(), False
        self.socket = socket.create_connection((ADDRESS, port), PATIENCE)
        self.socket.setsockopt(socket.IPPROTO_TCP, socket.TCP_NODELAY, 1)
        if door == "listen":
            self.take_line()
            self.socket.sendall(b"STLS\n")
            self.take_line()
        if door != "plain":
            self.socket = context.wrap_socket(self.socket)
        self.take_line()

    def receive(self):
        try:
            piece = self.socket.recv(65_536)
        except (ConnectionError, ssl.SSLError):
            piece = b""
        except socket.timeout:
            raise Difference(f"nothing comes behind {bytes(self.heard[-300:])}") from None
        self.heard += piece
        self.is_ended = self.is_ended or not piece

    def take_line(self):
        """Takes a line that stands alone: the greeting, or what comes for STLS."""
        while not self.heard.endswith(b"\n") and not self.is_ended:
            self.receive()
        self.heard.clear()

    def send(self, text):
        try:
            while text:
                size = self.chance.choice([1, 7, 100, 5_000, 30_000])
                self.socket.sendall(text[:size])
                text = text[size:]
        except (ConnectionError, ssl.SSLError, OSError):
            pass

    def sync(self, text):
        """Says these lines, and waits until they are answered."""
        self.send(text + SYNC + b"PING\n")
        while SYNC + b"PONG\n" not in self.heard and not self.is_ended:
            self.receive()
        self.heard[:] = self.heard.replace(SYNC + b"PONG\n", b"")

    def finish(self, text):
        self.send(text + b"EXIT\n")
        while not self.is_ended:
            self.receive()
        self.socket.close()
        return bytes(self.heard).split(b"\n")[:-1]


class Side:
    """A server with a host that is asked, whose battle is 1, and one who is not, whose battle is 2."""

    def __init__(self, server):
        self.host = greeted(server, source=NO_PROXY)
        self.host.send(f"LOGIN Anna {WORD} 0 * Checks 1.0\t0\tb\n".encode() + OPEN + b"\nJOIN main\n")
        self.take(self.host)
        self.opener = greeted(server, source=NO_PROXY)
        self.opener.send(OPENER.login().encode() + OPEN + b"\n")
        self.take(self.opener)

    def close(self):
        for client in (self.host, self.opener):
            client.close()

    def take(self, client, text=b""):
        """What a client was told up to now."""
        start = len(client.heard)
        client.send(text + SYNC + b"PING\n")
        while not client.heard.endswith(SYNC + b"PONG\n", start):
            if not client.receive():
                raise Difference("a host is put out")
        return bytes(client.heard[start:])

    def told(self, text=b""):
        """What the host was told since it was last asked, where the player has left or a line of the host's was done."""
        return self.take(self.host, text)

    def farewell(self):
        start = len(self.host.heard)
        told = self.told()
        while b"REMOVEUSER Cleo\n" not in told:
            told = self.told() and bytes(self.host.heard[start:])
        return told.replace(SYNC + b"PONG\n", b"")


def compare(what, script, wanted, found):
    if wanted != found:
        at = next((i for i, (a, b) in enumerate(zip(wanted, found)) if a != b), min(len(wanted), len(found)))
        shown = "\n".join(f"  {line[:200]!r}" for line in script)
        raise Difference(f"{what} differs at {at}: wanted {wanted[at:at + 3]}, found {found[at:at + 3]}, after\n{shown}")


def play(sides, ports, context, servers, seed):
    chance = random.Random(seed)
    door = ("tls", "plain")[seed % 10 - 8] if seed % 10 >= 8 else "listen"
    script = [b"LOGIN Cleo " + WORD.encode() + b" 0 * SpringLobby"] if chance.randrange(20) else []
    script += [line_of(chance) for _ in range(chance.randrange(3, 40))]
    deeds = {chance.randrange(len(script)): chance.choice([b"JOINBATTLEACCEPT Cleo\n", b"JOINBATTLEDENY Cleo\n", b"KICKFROMBATTLE Cleo\n",
                                                           b"JOINBATTLEDENY Cleo not now\n"]) for _ in range(chance.randrange(4))}
    meaning = Meaning(servers[0], door == "listen")
    told = [b"", b""]
    for at, line in enumerate(script):
        meaning.say(line)
        if at in deeds and not meaning.is_ended:
            told[0] += sides[0].told(deeds[at])
            meaning.hear()
    was_in = any(re.match(rb"(#\d+ )?ACCEPTED Cleo", it) for it in meaning.heard)
    meaning.finish()
    player, text = Player(ports[door], door, context, chance), b""
    for at, line in enumerate(script):
        text += line + b"\n"
        if at in deeds:
            player.sync(text)
            text = b""
            if not player.is_ended:
                told[1] += sides[1].told(deeds[at])
                player.sync(b"")
    heard = player.finish(text)
    own = [it for it in heard if door == "listen" and it.partition(b" ")[2 if it.startswith(b"#") else 0].startswith(b"REG") or is_own(it, door)]
    compare("what the gateway answers", script, meaning.own, own)
    compare("what comes", script, meaning.heard, [it for it in heard if it not in own])
    if was_in:
        told = [it + side.farewell() for it, side in zip(told, sides)]
    compare("what the host is told", script, *(it.replace(SYNC + b"PONG\n", b"").split(b"\n") for it in told))


def is_own(line, door):
    return door == "listen" and re.sub(rb"^#\d+ ", b"", line) in OWN


def start_gateway(path, server, folder, *more):
    """A gateway before this server, and the port of each of its doors."""
    command = "openssl req -x509 -newkey ec -pkeyopt ec_paramgen_curve:P-256 -nodes -days 2 -subj /CN=lobby"
    subprocess.run([*command.split(), "-keyout", folder + "/key.pem", "-out", folder + "/cert.pem"], check=True, capture_output=True)
    words = [path, "-server", f"{ADDRESS}:{server.port}", "-proxy-protocol", "-cert", folder + "/cert.pem", "-key", folder + "/key.pem",
             "-bytes", "0", "-lines", "0", "-accounts-text", ACCOUNTS.decode()]
    for door in ("listen", "tls", "plain"):
        words += ["-" + door, ADDRESS + ":0"]
    words += more
    log = open(folder + "/log", "wb")
    process = subprocess.Popen(words, stdout=subprocess.PIPE, stderr=log)
    log.close()
    ports = {door: int(process.stdout.readline().rpartition(b":")[2]) for door in ("listen", "tls", "plain")}
    return process, ports


def check(path, count="2000", seed="1"):
    settings = 'proxies = ["127.0.0.1"]\nlog = "none"\n'
    accounts = [HOST, OPENER, PLAYER]
    context = ssl.create_default_context()
    context.check_hostname, context.verify_mode = False, ssl.CERT_NONE
    with Server(1, accounts) as direct, Server(1, accounts, settings, log="") as behind, tempfile.TemporaryDirectory() as folder:
        process, ports = start_gateway(path, behind, folder)
        try:
            sides = [Side(direct), Side(behind)]
            for at in range(int(count)):
                play(sides, ports, context, (direct, behind), int(seed) * 10_000 + at)
            for side in sides:
                side.close()
        finally:
            process.terminate()
            status = process.wait(PATIENCE)
        if status:
            raise Difference(f"the gateway ends with status {status}: {Path(folder, 'log').read_text()[-2000:]}")


if __name__ == "__main__":
    if len(sys.argv) < 2:
        sys.exit(__doc__)
    run(check, sys.argv[1:])
