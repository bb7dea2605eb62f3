#!/usr/bin/env bash
# Seconds and most memory of lobby_play on scripts of the largest size, 1,048,576 bytes: medians of 3 runs.
set -euo pipefail
cd "$(dirname "$0")/.."
program=bin/lobby_play
[ -x "$program" ] || { echo "there is no $program: make build makes it"; exit 1; }
python3 - "$program" <<'PY'
import subprocess, sys, tempfile

SIZE = 1048576


def script(clients, lines):
    """Opens so many clients, then has the lines of one after another as often as they fit, and pads a last PING."""
    text = "".join("open %d 10.0.0.1\n" % n for n in range(1, clients + 1))
    parts, size, n = [text], len(text), 0
    while True:
        part = lines.replace("{n}", str(n % clients + 1))
        if size + len(part) > SIZE - 24:
            break
        parts.append(part)
        size += len(part)
        n += 1
    parts.append("send 1 PING" + " " * (SIZE - size - 14) + "\\n\n")
    return "".join(parts).encode()


def measure(clients, text):
    assert len(text) == SIZE
    runs = []
    with tempfile.TemporaryFile() as source:
        source.write(text)
        source.flush()
        for _ in range(3):
            source.seek(0)
            timed = ["/usr/bin/time", "-f", "%e %U %M", sys.argv[1]]
            run = subprocess.run(timed, stdin=source, stdout=subprocess.DEVNULL, stderr=subprocess.PIPE, check=True)
            runs.append([float(word) for word in run.stderr.split()])
    seconds, user, kilobytes = (sorted(column)[1] for column in zip(*runs))
    print("%d clients: %d lines, %.2f s, %.2f s of a processor, %.1f MB at most"
          % (clients, text.count(b"\n"), seconds, user, kilobytes / 1024))


for clients in 1, 100, 1000, 10000:
    measure(clients, script(clients, "send {n} PING\\n\nall {n}\nshow {n}\n"))
PY
