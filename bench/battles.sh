#!/usr/bin/env bash
# What a status costs that is shown to the eight members of a battle, with 50 and with 500 battles among 5,000 users; what it
# costs that the founder of such a battle disables 100 units beside 900, that one joins it with 1,000 disabled units, and that
# one among 5,000 users asks to join a battle and is let in: medians of 5 runs, in turn with a hand-written Rust program. The
# login of one more user among 2,000, with 250 battles and with none. The dearest lines of units and script tags that the
# founder of a battle of eight can say, and that of each other command, among 2,000 users who are all in one channel.
# The first argument is the number of lines that the members of battles get in a run, 4,000,000.
set -euo pipefail
cd "$(dirname "$0")/.."
lines=${1:-4000000}
program=$(tools/build_bench.sh bench_lobby)
out=$(dirname "$program")
rustc -C opt-level=3 -o "$out/rooms" bench/rooms.rs
statuses=$((lines / 8))
for _ in 1 2 3 4 5; do
    for battles in 50 500; do
        "$program" clients=10000 users=5000 battles="$battles" statuses="$statuses" | sed "s/^/lobby $battles /"
        "$out/rooms" 10000 5000 "$battles" "$statuses" 0 0 0 | sed "s/^/baseline $battles /"
    done
    "$program" clients=10000 users=5000 battles=1 units=2000 | sed 's/^/lobby once /'
    "$out/rooms" 10000 5000 1 0 2000 0 0 | sed 's/^/baseline once /'
    "$program" clients=32 users=16 battles=1 joins=2000 | sed 's/^/lobby once /'
    "$out/rooms" 32 16 1 0 0 2000 0 | sed 's/^/baseline once /'
    "$program" clients=32 users=16 battles=1 lines=20 | sed 's/^/lobby once /'
    "$program" clients=2010 users=2000 battles=1 commands=20 channels=100 | sed 's/^/walk once /'
    "$program" clients=10000 users=5000 asks=500 | sed 's/^/lobby once /'
    "$out/rooms" 10000 5000 0 0 0 0 500 | sed 's/^/baseline once /'
    for battles in 0 250; do
        "$program" clients=10000 users=2000 battles="$battles" | sed "s/^/login $battles /"
    done
done | awk '
    { sub(/last joins:/, "joins:"); sub(/log outs:/, "leaves:") }
    $3 ~ /:$/ {
        what = $3 " " $2
        if ($3 ~ /^(shown|disables|enters|asks):$/ && $1 != "login" && $4 + 0 > 0) {
            if (what in sizes && sizes[what] != $5) { print "the sizes differ: " what > "/dev/stderr"; exit failed = 1 }
            sizes[what] = $5
        }
        lines[$1, what] = $4 + 0
        bytes[$1, what] = $5
    }
    $1 == "walk" && $3 ~ /^[A-Z]+[A-Za-z-]*:$/ && !($3 in walked) { walked[$3] = 1; walk[++count_walk] = $3 }
    $1 == "lobby" && $3 ~ /^[A-Z]+-.*:$/ && !($3 in dear) { dear[$3] = 1; dearest[++count_dear] = $3 }
    $4 == "picoseconds" { n = ++count[$1, what]; taken[$1, what, n] = $3 / 1000 }
    function median(who, what,    i, j, a, t, n) {
        n = count[who, what]
        for (i = 1; i <= n; i++) a[i] = taken[who, what, i]
        for (i = 1; i <= n; i++) for (j = i + 1; j <= n; j++) if (a[j] < a[i]) { t = a[i]; a[i] = a[j]; a[j] = t }
        return a[int((n + 1) / 2)]
    }
    function row(battles,    lobby, baseline) {
        lobby = median("lobby", "shown: " battles); baseline = median("baseline", "shown: " battles)
        printf "%d | %.1f | %.1f | %.2f\n", battles, lobby, baseline, lobby / baseline
    }
    function event(what, label,    lobby, baseline) {
        lobby = median("lobby", label ": once"); baseline = median("baseline", label ": once")
        printf "%s | %.1f | %.1f | %.2f\n", what, lobby / 1000, baseline / 1000, lobby / baseline
    }
    function burst(battles,    each, what) {
        what = "burst: " battles
        each = median("login", what)
        printf "%d | %d | %d | %.1f | %.1f\n", battles, lines["login", what], bytes["login", what], each * lines["login", what] / 1000, each
    }
    END {
        if (failed || !(("lobby", "shown: 500") in count) || !(("lobby", "asks: once") in count) || !(("login", "burst: 250") in count)) exit 1
        print "battles of 8 among 5,000 users | ns a line | baseline ns a line | lobby / baseline"
        row(50); row(500)
        printf "a line with 500 battles / with 50: lobby %.2f, baseline %.2f\n",
            median("lobby", "shown: 500") / median("lobby", "shown: 50"), median("baseline", "shown: 500") / median("baseline", "shown: 50")
        print "event | us | baseline us | lobby / baseline"
        event("DISABLEUNITS of 100 beside 900, told to 8", "disables")
        event("JOINBATTLE with 1,000 disabled units, among 16 users", "enters")
        event("JOINBATTLE and JOINBATTLEACCEPT among 5,000 users", "asks")
        print "a login among 2,000 users, battles of 8 | lines | bytes | us | ns a line"
        burst(0); burst(250)
        print "a line of 8,192 bytes of a founder, told to 8 | us"
        for (i = 1; i <= count_dear; i++) printf "%s | %.0f\n", substr(dearest[i], 1, length(dearest[i]) - 1), median("lobby", dearest[i] " once") / 1000
        print "the dearest line of a command among 2,000 users in one channel | us"
        for (i = 1; i <= count_walk; i++) printf "%s | %.1f\n", substr(walk[i], 1, length(walk[i]) - 1), median("walk", walk[i] " once") / 1000
        printf "LOGIN | %.1f\n", median("walk", "burst: once") * lines["walk", "burst: once"] / 1000
        printf "EXIT, from 101 channels | %.1f\n", median("walk", "leaves: once") / 1000
    }'
