#!/usr/bin/env bash
# The server beside ngircd, an IRC server in C: one member of a channel speaks the whole time, and all others are told.
#   bench/ngircd.sh [RUNS [SECONDS [MEMBERS..]]]
# Runs both in turn, a new process each time, with one worker, so many runs (3) of so many seconds (3), for channels of so many members (50, 200
# and 1,000), 256 lines on their way. Prints medians of the runs and of the ratios of each turn. $LOBBY_MAIN names another server than
# bin/lobby_main. Wants gcc and ngircd (apt-get install ngircd); where that is not there it says so and measures nothing.
set -euo pipefail
cd "$(dirname "$0")/.."
runs=${1:-3}
seconds=${2:-3}
sizes=("${@:3}")
[ ${#sizes[@]} -gt 0 ] || sizes=(50 200 1000)
main=${LOBBY_MAIN:-$PWD/bin/lobby_main}
[ -x "$main" ] || { echo "there is no $main: make build makes it"; exit 1; }
ngircd=$(PATH=$PATH:/usr/sbin type -P ngircd) || { echo 'there is no ngircd: apt-get install ngircd'; exit 0; }
ulimit -n 8192
# As `make serve` and the unit have it.
export MALLOC_MMAP_THRESHOLD_=8192
room=$(mktemp -d)
server=

stop() {
    if [ -z "$server" ]; then return; fi
    kill "$server" 2> "$room/kill" || true
    wait "$server" 2> "$room/kill" || true
    server=
}
trap 'stop; rm -rf "$room"' EXIT

gcc -O2 -pthread -o "$room/load" bench/threaded_load.c
for number in {1..4000}; do
    printf '[[account]]\nname = "u%04d"\npassword = "X03MO1qnZdYdgyfeuILPmQ=="\nid = %d\n' "$number" "$number"
done > "$room/accounts.toml"

# launch talk|irc PORT : becomes the server. ngircd bounds neither what a client says nor how many come from one address.
launch() {
    if [ "$1" = talk ]; then
        printf 'address = "127.0.0.1:%d"\nworkers = 1\nlog = "none"\n' "$2" > "$room/settings.toml"
        exec "$main" serve "$room/settings.toml" "$room/accounts.toml"
    fi
    cat > "$room/ngircd.conf" <<CONFIGURATION
[Global]
Name = irc.example.org
Info = a benchmark
Listen = 127.0.0.1
Ports = $2
MotdFile = $room/none
[Limits]
MaxConnections = 0
MaxConnectionsIP = 0
MaxJoins = 0
MaxPenaltyTime = 0
[Options]
DNS = no
Ident = no
PAM = no
CONFIGURATION
    chmod 755 "$room"
    exec "$ngircd" --nodaemon --config "$room/ngircd.conf"
}

# measure talk|irc MEMBERS : one run at a new server, whose figures are kept.
measure() {
    local port=$((20000 + RANDOM % 12000))
    launch "$1" "$port" > "$room/told" 2> "$room/error" < /dev/null &
    server=$!
    for _ in {1..200}; do if (exec {it}<> "/dev/tcp/127.0.0.1/$port") 2> /dev/null; then break; fi; sleep 0.05; done
    "$room/load" "$1" "$port" "$server" "$2" 256 "$seconds" 1 1 >> "$room/$1.$2" || { tail -n 3 "$room/told" "$room/error"; exit 1; }
    stop
}

median() { sort -g | awk '{ at[NR] = $1 } END { print at[int((NR + 1) / 2)] }'; }
# costs FILE : of each run, the seconds of a processor for a million delivered lines.
costs() { awk '{ print ($12 + $14) / $2 * 1e6 }' "$room/$1"; }

echo 'A channel in which one speaks, 256 lines on their way: seconds of a processor a million delivered lines (user + system)'
echo '| Members | Server | ngircd | ngircd / server | Bytes of a line: server, ngircd |'
echo '|---|---|---|---|---|'
for members in "${sizes[@]}"; do
    for _ in $(seq 1 "$runs"); do
        for name in talk irc; do measure "$name" "$members"; done
    done
    printf '| %d | %.3f | %.3f | %.1f | %d, %d |\n' "$members" "$(costs "talk.$members" | median)" "$(costs "irc.$members" | median)" \
        "$(paste <(costs "irc.$members") <(costs "talk.$members") | awk '$2 > 0 { print $1 / $2 }' | median)" \
        "$(awk 'END { print $4 }' "$room/talk.$members")" "$(awk 'END { print $4 }' "$room/irc.$members")"
done
