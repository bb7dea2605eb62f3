#!/usr/bin/env bash
# How many bytes a second a view takes in from Python, in pieces of 4,096 bytes, beside view_show, which reads the same file
# in such pieces: the session of bench/view.sh. Both end with as many users and battles. Medians of 5 runs in turn. Then how
# long one of its lines takes to be read as a reply, and a request to speak to be printed: the least of 20 runs.
# The first argument is how many lines the session has behind the login; $LIBLOBBY and $VIEW_SHOW name others than those in bin/.
set -euo pipefail
cd "$(dirname "$0")/.."
lines=${1:-1000000}
export LIBLOBBY=${LIBLOBBY:-$PWD/bin/liblobby.so}
export VIEW_SHOW=${VIEW_SHOW:-$PWD/bin/view_show}
[ -x "$VIEW_SHOW" ] || { echo "there is no $VIEW_SHOW: make build makes it"; exit 1; }
[ -e "$LIBLOBBY" ] || { echo "there is no $LIBLOBBY: make library makes it"; exit 1; }
room=$(mktemp -d)
trap 'rm -rf "$room"' EXIT
awk -v lines="$lines" -f bench/session.awk > "$room/session"

PYTHONPATH=python python3 -B - "$room/session" <<'PYTHON'
import os
import statistics
import subprocess
import sys
import time

from rudderraisin import Reply, View, request

PIECE, LINES = 4_096, 10_000


def from_python():
    with View() as view, open(sys.argv[1], "rb", buffering=0) as session:
        begun = time.perf_counter()
        while piece := session.read(PIECE):
            view.feed(piece)
        return time.perf_counter() - begun, (len(view.users), len(view.battles))


def by_view_show():
    with open(sys.argv[1], "rb") as session:
        begun = time.perf_counter()
        told = subprocess.run([os.environ["VIEW_SHOW"]], stdin=session, stdout=subprocess.PIPE, check=True).stdout
        spent = time.perf_counter() - begun
    return spent, (told.count(b"\nuser "), told.count(b"\nbattle "))


def looks():
    """Milliseconds of a look at one user, at all, and at all battles with their members, each behind a line that was
    folded: medians of 20."""
    with View() as view, open(sys.argv[1], "rb") as session:
        view.feed(session.read())
        for look in (lambda: view.users["user77"], lambda: [*view.users.values()], lambda: view.battles):
            spent = []
            for _ in range(20):
                view.feed(b"PONG\n")
                begun = time.perf_counter()
                look()
                spent.append(time.perf_counter() - begun)
            yield statistics.median(spent) * 1e3


def lines():
    """Microseconds of a line that is read, of the last of the session, and of a request that is printed."""
    with open(sys.argv[1], "rb") as session:
        told = session.read().split(b"\n")[-LINES - 1:-1]
    asked = [request.SAY("main", "hello there, anyone for a game?")] * LINES
    if any(Reply.read(it) is None for it in told):
        sys.exit("a line is no reply")
    for done, all_of in ((Reply.read, told), (request.SAY.line, asked)):
        spent = []
        for _ in range(20):
            begun = time.perf_counter()
            for it in all_of:
                done(it)
            spent.append(time.perf_counter() - begun)
        yield min(spent) / LINES * 1e6


runs = [(from_python(), by_view_show()) for _ in range(5)]
if any(mine[1] != shown[1] for mine, shown in runs):
    sys.exit("the two end with other users or battles")
size = len(open(sys.argv[1], "rb").read())
mine, shown = (size / statistics.median(run[k][0] for run in runs) / 1e6 for k in (0, 1))
print("million bytes a second from Python | view_show | view_show / Python | ms for a look at one user | at all | at all battles"
      " | us for a line read | a request printed")
print(f"{mine:.1f} | {shown:.1f} | {shown / mine:.2f} | " + " | ".join(f"{it:.2f}" for it in (*looks(), *lines())))
PYTHON
