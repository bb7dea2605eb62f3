#!/usr/bin/env bash
# How many lines a second a client's view folds, beside a hand-written Rust fold over hash maps: a recorded session of
# 1,000,000 lines, chat, statuses and battles that come and go among 2,000 users. Each program reads the session from a file
# in pieces of 4,096 bytes, and ends with as many users, battles and members of battles. Medians of 5 runs in turn.
# The first argument is how many lines the session has behind the login.
set -euo pipefail
cd "$(dirname "$0")/.."
lines=${1:-1000000}
[ -x bin/view_show ] || { echo "there is no bin/view_show: make build makes it"; exit 1; }
room=$(mktemp -d)
trap 'rm -rf "$room"' EXIT
rustc -O -o "$room/fold" bench/view.rs
awk -v lines="$lines" -f bench/session.awk > "$room/session"
total=$(wc -l < "$room/session")

# count PROGRAM.. : the users, battles and members of battles that it ends with.
count() {
    "$@" < "$room/session" | awk '/^channel/ { exit } { seen[$1]++ } END { print seen["user"], seen["battle"], seen["member"] }'
}
view=bin/view_show
[ "$(count "$view")" = "$(count "$room/fold")" ] || { echo "the two end with other users or battles"; exit 1; }

# seconds PROGRAM : how long it takes to fold the session.
seconds() {
    local start end
    start=$(date +%s.%N)
    "$1" < "$room/session" > "$room/shown"
    end=$(date +%s.%N)
    echo "$start $end" | awk '{ print $2 - $1 }'
}
for _ in 1 2 3 4 5; do
    echo "view $(seconds "$view")"
    echo "fold $(seconds "$room/fold")"
done | awk -v total="$total" '
    { taken[$1, ++count[$1]] = $2 }
    function median(what,    i, j, a, t, n) {
        n = count[what]
        for (i = 1; i <= n; i++) a[i] = taken[what, i]
        for (i = 1; i <= n; i++) for (j = i + 1; j <= n; j++) if (a[j] < a[i]) { t = a[i]; a[i] = a[j]; a[j] = t }
        return a[int((n + 1) / 2)]
    }
    END {
        print "view, lines a second | baseline | baseline / view"
        printf "%d | %d | %.2f\n", total / median("view"), total / median("fold"), median("view") / median("fold")
    }'
