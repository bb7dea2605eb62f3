#!/usr/bin/env python3
"""Records sessions of a server and folds each by the view of the package, whole and in pieces of some prime lengths: what it
shows has to be what view_show shows.

    checks/python_sessions.py [LOBBY_MAIN [VIEW_SHOW [SESSIONS [SEED]]]]

Eight players at a time ask by chance for all commands, as `rudderraisin.request` prints them, and choose by what their
views show. So the server reads each request too, and is to find no fault in it. Who leaves makes room for another. A session
is all that a player was sent; one that differs is left in out/session. The programs are the gate's if left out, SESSIONS is
1,000 and SEED 1."""
import collections
import os
import random
import select
import sys
from pathlib import Path

from lobby_server import ROOT, WORD, Account, Difference, Server, greeted, run
from python_view import compare
from rudderraisin import Reply, View, kinds, reply, request

LENGTHS = (7, 61, 1021)
NAMES = ["Anna", "Bert", "Cleo", "D[x]", "Emil_9", "Fritz", "_", "G" * 20, "Hanna", "I", "Jo", "Karl"]
PLAYERS, LONGEST = 8, 60    # at a time; requests of a session at most
FAULTS = ("Unknown command", "Missing argument", "Bad number", "Bad name", "Bad byte in line", "Bad key or value")
# How often each command is asked for beside the others: by everybody, by members of a battle and by its founder.
# Written by tools/protocol.py of protocol/commands.toml: weights.
EVERYBODY = {"PING": 1, "MYSTATUS": 4, "CHANNELS": 1, "JOIN": 5, "LEAVE": 2, "SAY": 3, "SAYEX": 1, "SAYPRIVATE": 2,
             "OPENBATTLE": 3, "JOINBATTLE": 9}
MEMBER = {"MYBATTLESTATUS": 5, "SAYBATTLE": 2, "SAYBATTLEEX": 1, "ADDBOT": 4, "UPDATEBOT": 3, "REMOVEBOT": 1}
FOUNDER = {"JOINBATTLEACCEPT": 1, "JOINBATTLEDENY": 1, "UPDATEBATTLEINFO": 3, "ADDSTARTRECT": 4, "REMOVESTARTRECT": 2,
           "SETSCRIPTTAGS": 4, "REMOVESCRIPTTAGS": 2, "DISABLEUNITS": 4, "ENABLEUNITS": 2, "ENABLEALLUNITS": 1,
           "HANDICAP": 1, "FORCETEAMNO": 1, "FORCEALLYNO": 1, "FORCETEAMCOLOR": 1, "FORCESPECTATORMODE": 1,
           "KICKFROMBATTLE": 1, "RING": 1}
# End of what is written: weights.
EVERYBODY["LEAVEBATTLE"] = 1     # of one too who asks to join a battle
# What an argument may be, by its name, or else by its kind. Other numbers are the least, the greatest and one between.
VALUES = {
    "channel": ("main", "x", "[y]"), "key": (None, "k"), "password": ("*", "*", "*", "pw"), "scriptPassword": (None, "sp"),
    "locked": (False, False, True), "bot": ("Robo", "Rex", "\udcff"),
    "units": (("armcom",), ("corak", "u", "="), ("u", "armcom")), "keys": (("a",), ("map/x", "b")),
    "u32": (0, 1, 3, 1024, 4195330, 4294967295), "wide": (-2147483648, -1, 0, 255, 4294967295), "0..1": (0, 1),
    "0..100": (0, 55, 100), "0..65535": (0, 7, 65535), "text": ("", "a  b", "\udce4=", " ", "Käse", "x" * 200),
    "sentence": ("", "Comet Catcher", "\udcff", " x "), "word": ("w", "="), "words": (("w",), ("=", "w")),
    "pairs": ((("a", "1"),), (("map/x", ""), ("b", "=2 ")), (("b", "Käse"),)),
}


class Player:
    """One who is logged in, with the view that its bytes make, by which it chooses."""

    def __init__(self, server, name, choice):
        self.client, self.name, self.choice = greeted(server), name, choice
        self.view, self.fed, self.rest, self.askers = View(), 0, b"", NAMES
        self.left = choice.randrange(1, LONGEST)
        if choice.random() < 0.05:
            self.say(request.LOGIN(name, "wrong", 0, "*", ""))
        self.say(request.LOGIN(name, WORD, choice.choice(VALUES["wide"]), "*", "Players 1.0", choice.random() < 0.3))
        self.say(request.JOIN("main"))

    def say(self, it, number=None):
        self.client.send(it.line(number))

    def take(self):
        """Takes in what has come. Nothing that the player said was read with a fault."""
        while select.select([self.client.socket], [], [], 0)[0] and self.client.receive():
            pass
        piece, self.fed = bytes(self.client.heard[self.fed:]), len(self.client.heard)
        self.view.feed(piece)
        *lines, self.rest = (self.rest + piece).split(b"\n")
        for it in map(Reply.read, lines):
            if it is None or (isinstance(it, reply.SERVERMSG) and it.text in FAULTS):
                raise Difference(f"{self.name} is told {it} in {lines}")
            if isinstance(it, reply.JOINBATTLEREQUEST):
                self.askers = [it.user]

    def ask(self):
        """Asks for something."""
        self.take()
        room, weights = self.view.room, dict(EVERYBODY)
        if room is not None or self.choice.random() < 0.02:
            weights.update(MEMBER)
        if room is not None and self.view.battles[room.battleID].founder == self.name or self.choice.random() < 0.02:
            weights.update(FOUNDER)
        kind = getattr(request, self.choice.choices([*weights], [*weights.values()])[0])
        said = [self.choice.choice(self.values(it, kind, room)) for it in kinds.arguments(kind)]
        if kind is request.JOINBATTLE and self.choice.random() < 0.5:
            said = said[:1]
        self.say(kind(*said), self.choice.choice((None, None, 0, 2147483647)))
        self.left -= 1

    def values(self, it, kind, room):
        """What an argument of a request of this kind may be."""
        if it.name in VALUES:
            return VALUES[it.name]
        if it.name == "battleID":
            return [*self.view.battles] or [1]
        if it.kind == "name" and kind in (request.JOINBATTLEACCEPT, request.JOINBATTLEDENY):
            return self.askers
        if it.kind == "name":
            return [it.name for it in room.members] if room else NAMES
        low, _, high = it.kind.partition("..")
        some = VALUES.get(it.kind) or (int(low), (int(low) + int(high)) // 2, int(high))
        return (None, *some) if it.is_optional else some

    def end(self):
        """Leaves, and gives all that it was sent."""
        if self.choice.random() < 0.5:
            self.say(request.EXIT())
            while self.client.receive():
                pass
        else:
            self.say(request.PING(), 9)
            while b"\n#9 PONG\n" not in self.client.heard:
                if not self.client.receive():
                    raise Difference(f"the connection of {self.name} ends")
        self.take()
        self.view.close()
        self.client.close()
        return bytes(self.client.heard)


def check(shower, sessions, seed):
    (ROOT / "out").mkdir(exist_ok=True)
    choice, shown, said = random.Random(seed), collections.Counter(), 0
    accounts = [Account(name, number, number % 8) for number, name in enumerate(NAMES, 1)]
    with Server(2, accounts, settings='motd = ["Welcome", ""]\n') as server:
        free = collections.deque(NAMES)
        players = [Player(server, free.popleft(), choice) for _ in range(PLAYERS)]
        count = 0
        while count < sessions:
            at = choice.randrange(PLAYERS)
            player = players[at]
            if player.left:
                player.ask()
                continue
            told = player.end()
            (ROOT / "out/session").write_bytes(told)
            compare("out/session", shower, told, LENGTHS)
            count, said = count + 1, said + len(told)
            shown.update(it.split(b" ")[0] for it in told.split(b"\n"))
            free.append(player.name)
            players[at] = Player(server, free.popleft(), choice)
        for it in players:
            it.end()
    never = {it.__name__ for it in reply.KINDS} - {it.decode() for it in shown}
    if never and count >= 200:
        raise Difference(f"no session has {never}")
    print(f"python sessions: {count} of {said} bytes, each folded in {1 + len(LENGTHS)} ways, seed {seed}", flush=True)


if __name__ == "__main__":
    built = [ROOT / "crates" / it / "out" / it for it in ("lobby_main", "view_show")]
    server, shower, sessions, seed = [*sys.argv[1:], *[*built, 1000, 1][len(sys.argv) - 1:]]
    os.environ["LOBBY_MAIN"] = str(Path(server).resolve())
    run(check, [str(Path(shower).resolve()), int(sessions), int(seed)])
