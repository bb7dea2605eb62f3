#!/usr/bin/env python3
"""rudderraisin_status at a server whose `proxies` names this machine: what it shows of two users, one's battle and a
channel, what it tells of a change, how it follows the server's stop and new start, and that it ends in order.

    checks/python_page.py [LOBBY_MAIN]

It is that of the gate if left out; the package is as checks/python_view.py says."""
import json
import os
import re
import subprocess
import sys
import tempfile
import time
import urllib.request
from pathlib import Path

from lobby_server import ADDRESS, PATIENCE, ROOT, Account, Client, Difference, Server, free_port, run

ACCOUNTS = [Account("Anna", 1, 3, "DE"), Account("Bert", 2), Account("Page", 3)]
SETTINGS = f'proxies = ["{ADDRESS}"]\n'
OPENED = "OPENBATTLE 0 0 key 8452 8 7 0 9 Recoil\t105.1\tDelta Siege\t<b>Open</b>\tBalanced 1.2\n"
ANNA = {"name": "Anna", "country": "DE", "rank": 3, "moderator": False, "bot": False, "away": False, "inGame": True,
        "battleID": 1}
BERT = {"name": "Bert", "country": "??", "rank": 0, "moderator": False, "bot": False, "away": False, "inGame": False,
        "battleID": None}
BATTLE = {"battleID": 1, "title": "<b>Open</b>", "map": "Delta Siege", "gameName": "Balanced 1.2",
          "engineName": "Recoil", "engineVersion": "105.1", "founder": "Anna", "members": ["Anna"],
          "spectatorCount": 0, "maxPlayers": 8, "passworded": True, "locked": False, "inGame": True}


class Page:
    """The program, and what it serves."""

    def __init__(self, server_port, room):
        self.port = free_port()
        (room / "password").write_text("password\n")
        words = ["--user", "Page", "--password-file", str(room / "password"), "--server", f"{ADDRESS}:{server_port}",
                 "--proxy-protocol", "--listen", f"{ADDRESS}:{self.port}"]
        self.told = (room / "told").open("w+")
        self.process = subprocess.Popen([sys.executable, "-m", "rudderraisin.page", *words], stderr=self.told)

    def get(self, path):
        return urllib.request.urlopen(f"http://{ADDRESS}:{self.port}{path}", timeout=PATIENCE)

    def shown(self, wanted):
        """What it shows, once that is so."""
        until, found = time.monotonic() + PATIENCE, None
        while time.monotonic() < until:
            try:
                with self.get("/status.json") as answer:
                    found = json.load(answer)
                if wanted(found):
                    return found
            except OSError as fault:    # not begun yet
                found = fault
            time.sleep(0.05)
        raise Difference(f"the page does not come to what is wanted: {found}")

    def end(self):
        self.process.terminate()
        if self.process.wait(PATIENCE):
            raise Difference(f"the page's program ends with status {self.process.returncode}")
        self.told.seek(0)
        return self.told.read()


def entered(server, account):
    client = Client(server)
    client.send("PROXY UNKNOWN\r\n" + account.login())
    said(client, b"LOGININFOEND\n")
    return client


def said(client, line):
    """Waits until a client was told this."""
    while line not in client.heard:
        if not client.receive():
            raise Difference(f"wanted {line}, found {bytes(client.heard)}")


def look(page, anna):
    """What is shown, and what is told of a change."""
    anna.send(OPENED + "JOIN main\nMYSTATUS 1\n#5 PING\n")
    said(anna, b"#5 PONG\n")
    found = page.shown(lambda it: it["channels"] and it["battles"] and it["battles"][0]["inGame"])
    wanted = {"users": [ANNA, BERT], "battles": [BATTLE], "channels": [{"name": "main", "userCount": 1}]}
    if {name: found[name] for name in wanted} != wanted or not found["lobby"]["connected"]:
        raise Difference(f"wanted {wanted}, found {found}")
    with page.get(f"/changes?since={found['version']}") as events:
        anna.send("LEAVEBATTLE\n")
        line = b""
        while b'"battles"' not in line:
            line = events.readline()
        if json.loads(line.partition(b"data: ")[2])["battles"] != {"set": [], "gone": [1]}:
            raise Difference(f"the end of a battle is told as {line}")


def check():
    with tempfile.TemporaryDirectory(prefix="lobby-page-") as room, Server(2, ACCOUNTS, SETTINGS) as server:
        clients = [entered(server, it) for it in ACCOUNTS[:2]]
        page = Page(server.port, Path(room))
        try:
            look(page, clients[0])
            for it in clients:
                it.close()
            server.stop()
            page.shown(lambda it: not it["lobby"]["connected"] and not it["users"])
            with Server(1, ACCOUNTS, SETTINGS, port=server.port) as again:
                page.shown(lambda it: it["lobby"]["connected"])
                with page.get("/metrics") as answer:
                    if b"\nrudderraisin_connections_total 2\n" not in answer.read():
                        raise Difference("it did not log in twice")
                told = page.end()
                again.stop()
        finally:
            page.process.kill()
            page.process.wait()
            page.told.close()
    if not re.fullmatch(r"listening at \S+\n(\S+: .+\n)*\S+: logged in\n(\S+: .+\n)+\S+: logged in\n", told):
        raise Difference(f"it tells operators: {told}")


if __name__ == "__main__":
    built = sys.argv[1:] or [ROOT / "crates/lobby_main/out/lobby_main"]
    os.environ["LOBBY_MAIN"] = str(Path(built[0]).resolve())
    run(check, [])
