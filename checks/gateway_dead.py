#!/usr/bin/env python3
"""gateway_dead.py GATEWAY: a machine that goes away without a word is logged out. It is a network namespace of its own, whose address is
taken away while a user there is quiet, and again while it is talked to. The name is then free for a login from elsewhere.

Where the system does not allow namespaces it says so, and the status is 77."""
import contextlib
import os
import shutil
import subprocess
import sys
import tempfile
import time

from gateway_sessions import PLAYER, WORD, start_gateway
from lobby_server import Account, Difference, Server, greeted, run

SKIPPED = 77
# What the gateway is told to wait for a machine, in seconds; and how much longer that may last on any machine.
DEAD, GRACE = 3, 30
HERE, THERE = "10.77.0.1", "10.77.0.2"
# Says hello for the player, and then keeps the connection open until it is killed.
CLIENT = f"""
import socket, time
s = socket.create_connection(("{HERE}", int(__import__("sys").argv[1])), 20)
s.sendall(b"LOGIN Cleo {WORD} 0 * Checks 1.0\\nJOIN main\\n")
heard = b""
while b"CLIENTS main" not in heard:
    heard += s.recv(65536)
print("in", flush=True)
time.sleep(600)
"""


def enter():
    """Begins anew in a network of its own, or ends where that is not allowed."""
    if os.environ.get("GATEWAY_DEAD") == "in":
        return
    tools = all(shutil.which(it) for it in ("unshare", "nsenter", "ip"))
    for words in (["unshare", "--net"], ["unshare", "--map-root-user", "--net"]):
        if tools and subprocess.run([*words, "ip", "link", "add", "one", "type", "veth"], capture_output=True).returncode == 0:
            os.environ["GATEWAY_DEAD"] = "in"
            os.execvp(words[0], [*words, sys.executable, "-B", *sys.argv])
    print("no network of its own is allowed here, or unshare, nsenter or ip is missing")
    sys.exit(SKIPPED)


def do(*words):
    subprocess.run(words, check=True, capture_output=True)


@contextlib.contextmanager
def machine():
    """Another machine: gives the words by which something is run there."""
    with subprocess.Popen(["unshare", "--net", "sleep", "600"]) as holder:
        try:
            until = time.monotonic() + GRACE
            while os.readlink(f"/proc/{holder.pid}/ns/net") == os.readlink("/proc/self/ns/net"):
                if time.monotonic() > until:
                    raise Difference("there is no other network")
                time.sleep(0.01)
            do("ip", "link", "add", "here", "type", "veth", "peer", "name", "there")
            do("ip", "link", "set", "there", "netns", str(holder.pid))
            do("ip", "address", "add", HERE + "/24", "dev", "here")
            do("ip", "link", "set", "here", "up")
            words = ["nsenter", "--target", str(holder.pid), "--net"]
            do(*words, "ip", "link", "set", "there", "up")
            yield words
        finally:
            holder.kill()
    subprocess.run(["ip", "link", "delete", "here"], capture_output=True)


def goes_away(server, port, talks):
    """The player's machine goes away, and another user sees that it is logged out. That one talks meanwhile, or is quiet."""
    with machine() as words:
        do(*words, "ip", "address", "add", THERE + "/24", "dev", "there")
        player = subprocess.Popen([*words, sys.executable, "-c", CLIENT, str(port)], stdout=subprocess.PIPE)
        try:
            if player.stdout.readline() != b"in\n":
                raise Difference("the player does not come in")
            do(*words, "ip", "address", "delete", THERE + "/24", "dev", "there")
            begun = time.monotonic()
            watcher = greeted(server, source="127.0.0.2")
            watcher.send(Account("Anna", 1).login() + "JOIN main\n")
            while b"REMOVEUSER Cleo\n" not in watcher.heard:
                watcher.send("SAY main hello\n" if talks else "PING\n")
                watcher.receive()
                time.sleep(0.1)
                if time.monotonic() - begun > DEAD + GRACE:
                    raise Difference(f"the name is not free after {DEAD + GRACE} s")
            took = time.monotonic() - begun
            if took < DEAD / 2:
                raise Difference(f"it is logged out after {took:.1f} s, which is too soon")
            print(f"its name was free after {took:.1f} s, of {DEAD} that it was given" + (", talked to" if talks else ", quiet"))
            watcher.send("EXIT\n")
            watcher.close()
        finally:
            player.kill()
            player.wait()


def check(path):
    do("ip", "link", "set", "lo", "up")
    settings = 'proxies = ["127.0.0.1"]\n'
    accounts = [Account("Anna", 1), PLAYER]
    with Server(1, accounts, settings, log="") as server, tempfile.TemporaryDirectory() as folder:
        gateway, ports = start_gateway(path, server, folder, "-dead", f"{DEAD}s", "-plain", "0.0.0.0:0")
        try:
            for talks in (False, True):
                goes_away(server, ports["plain"], talks)
        finally:
            gateway.terminate()
            gateway.wait()


if __name__ == "__main__":
    if len(sys.argv) != 2:
        sys.exit(__doc__)
    enter()
    run(check, sys.argv[1:])
