#!/usr/bin/env python3
"""Has lobby_play play each row and example once more, and folds the bytes of each client that was accepted, as
checks/views.sh does, by the view of the package: whole, and in pieces of one byte and of some prime lengths. All have to be
what view_show shows.

    checks/python_views.py [LOBBY_PLAY [VIEW_SHOW [SESSIONS]]]

They are the gate's and no sessions if left out; the package is as checks/python_view.py says. SESSIONS is a number of
sessions, made by chance of lines of all kinds, that are folded as well."""
import os
import random
import re
import subprocess
import sys
import tempfile
from pathlib import Path

from lobby_server import ROOT, Difference, run
from python_view import compare

LENGTHS = (1, 3, 61, 1021, 4093)
ACCEPTED = re.compile(rb"(?m)^(#[0-9]+ )?ACCEPTED ")
NAMES = ["Anna", "Bert", "Cleo", "D[x]", "Emil_9"]
# What comes in the place of an argument; a word that is not here is 0.
VALUES = {
    "user": NAMES, "names": NAMES, "channel": ["main", "x", "[y]"], "country": ["DE"], "IP": ["10.0.0.1"],
    "bot": ["Robo", "Rex", "\xff\xfe"], "keys": ["a", "map/x", "="], "units": ["armcom", "corak", "u"],
    "text": ["", "a  b", "\xe4=", " "], "sentence": ["", "Comet Catcher", "\xff", " x "],
    "u32": ["0", "1", "1024", "4294967295"], "wide": ["-2147483648", "0", "255", "4294967295"],
    "1..2147483647": ["1", "2", "7", "2147483647"], "0..1": ["0", "1"], "0..2": ["0", "2"], "0..15": ["0", "7", "15"],
    "0..200": ["0", "100", "200"], "0..65535": ["0", "8452", "65535"],
}
# Written by tools/protocol.py of protocol/replies.toml: lines.
LINES = [
    "TASSERVER {protocolVersion} {springVersion} {0..65535} {0..1}",
    "DENIED {text}",
    "MOTD {text}",
    "SERVERMSG {text}",
    "ADDUSER {user} {country} {wide} {u32}",
    "REMOVEUSER {user}",
    "CLIENTSTATUS {user} {u32}",
    "LOGININFOEND",
    "PONG",
    "JOIN {channel}",
    "CLIENTS {channel} {names} {names}",
    "JOINED {channel} {user}",
    "LEFT {channel} {user}",
    "JOINFAILED {channel} {text}",
    "SAID {channel} {user} {text}",
    "SAIDEX {channel} {user} {text}",
    "SAYPRIVATE {user} {text}",
    "SAIDPRIVATE {user} {text}",
    "CHANNEL {channel} {u32}",
    "ENDOFCHANNELS",
    "OPENBATTLE {1..2147483647}",
    "OPENBATTLEFAILED {text}",
    "BATTLEOPENED {1..2147483647} {0..1} {0..2} {user} {IP} {0..65535} {0..65535} {0..1} {wide} {wide} {sentence}\t{sentence}\t{sentence}\t{sentence}\t{sentence}",
    "BATTLECLOSED {1..2147483647}",
    "JOINBATTLE {1..2147483647} {wide}",
    "JOINBATTLEFAILED {text}",
    "JOINEDBATTLE {1..2147483647} {user}",
    "LEFTBATTLE {1..2147483647} {user}",
    "JOINBATTLEREQUEST {user} {IP}",
    "UPDATEBATTLEINFO {1..2147483647} {0..65535} {0..1} {wide} {sentence}",
    "REQUESTBATTLESTATUS",
    "CLIENTBATTLESTATUS {user} {u32} {wide}",
    "SAIDBATTLE {user} {text}",
    "SAIDBATTLEEX {user} {text}",
    "ADDBOT {1..2147483647} {bot} {user} {u32} {wide} {sentence}",
    "UPDATEBOT {1..2147483647} {bot} {u32} {wide}",
    "REMOVEBOT {1..2147483647} {bot}",
    "ADDSTARTRECT {0..15} {0..200} {0..200} {0..200} {0..200}",
    "REMOVESTARTRECT {0..15}",
    "SETSCRIPTTAGS {keys}={text}",
    "REMOVESCRIPTTAGS {keys} {keys}",
    "DISABLEUNITS {units} {units}",
    "ENABLEUNITS {units} {units}",
    "ENABLEALLUNITS",
    "FORCEQUITBATTLE",
    "RING {user}",
]
# End of what is written: lines.
# No replies.
LINES += ["PONG {user}", "NOTHING {user}"]


def scripts(room):
    """The name and the text of each script of rows and examples that does not end badly."""
    for row in sorted((ROOT / "rows").glob("*/*.row")):
        with tempfile.TemporaryDirectory(dir=room) as parts:
            words = ["awk", "-v", f"FOLDER={parts}", "-f", ROOT / "checks/row.awk", row]
            subprocess.run(words, env={**os.environ, "LC_ALL": "C"}, check=True)
            for script in sorted(Path(parts).glob("*.script")):
                if script.with_suffix(".status").read_text().strip() == "0":
                    yield f"{row.name} {script.stem}", script.read_bytes()
    for script in sorted((ROOT / "examples").glob("*.play")):
        yield script.name, script.read_bytes()


def clients(player, text):
    """The bytes that each client of a script was put, all shown at its end."""
    lines = [it for it in text.split(b"\n") if not it.startswith(b"show ")]
    labels = [it.split(b" ")[1] for it in lines if it.startswith(b"open ")]
    script = b"\n".join([*lines, *(b"show " + it for it in labels), b""])
    played = subprocess.run([player], input=script, stdout=subprocess.PIPE, timeout=60, check=True).stdout
    told = dict.fromkeys(labels, b"")
    for line in played.split(b"\n")[:-1]:
        label, _, rest = line.partition(b"> ")
        told[label] += rest + b"\n"
    return told


def session(choice):
    """A session of lines by chance, in a room whose founder is Anna."""
    lines = ["ACCEPTED Anna", "BATTLEOPENED 1 0 0 Anna 10.0.0.1 0 8 0 0 0 a\tb\tc\td\te", "OPENBATTLE 1"]
    for _ in range(choice.randrange(5, 120)):
        line = re.sub(r"\{(.*?)\}", lambda place: choice.choice(VALUES.get(place[1], ["0"])), choice.choice(LINES))
        lines.append(("#7 " if choice.random() < 0.1 else "") + line + ("\r" if choice.random() < 0.1 else ""))
    return ("\n".join(lines) + choice.choice(("\n", ""))).encode("latin-1")


def check(player, shower, sessions):
    count = 0
    with tempfile.TemporaryDirectory() as room:
        for name, text in scripts(room):
            for label, told in clients(player, text).items():
                if ACCEPTED.search(told):
                    compare(f"{name}, client {label.decode()}", shower, told, LENGTHS)
                    count += 1
    choice = random.Random(1)
    for number in range(sessions):
        compare(f"session {number}", shower, session(choice), LENGTHS)
    if count < 500:
        raise Difference(f"{count} clients are too few")
    print(f"python views: {count} clients and {sessions} sessions, each folded in {1 + len(LENGTHS)} ways", flush=True)


if __name__ == "__main__":
    built = [ROOT / "crates" / it / "out" / it for it in ("lobby_play", "view_show")]
    programs = [str(Path(it).resolve()) for it in sys.argv[1:3] + built[len(sys.argv) - 1:]]
    run(check, [*programs, int(sys.argv[3]) if sys.argv[3:] else 0])
