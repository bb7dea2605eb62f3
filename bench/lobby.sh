#!/usr/bin/env bash
# What a status that is told to 200 and to 2,000 users costs, a PING with 10 and with 10,000 clients open, and a login:
# medians of 5 runs, in turn with a hand-written Rust program.
# The first argument is the number of lines that the users of a lobby get in a run, 20,000,000: 100,000 MYSTATUS to 200
# users, and 10,000 to 2,000.
set -euo pipefail
cd "$(dirname "$0")/.."
lines=${1:-20000000}
program=$(tools/build_bench.sh bench_lobby)
out=$(dirname "$program")
rustc -C opt-level=3 -o "$out/fanout" bench/fanout.rs
for _ in 1 2 3 4 5; do
    for users in 200 2000; do
        events=$((lines / users))
        "$program" clients=10000 users="$users" events="$events" | sed "s/^/lobby $users /"
        "$out/fanout" 10000 "$users" "$events" 0 0 | sed "s/^/baseline $users /"
    done
    for clients in 10 10000; do
        "$program" clients="$clients" pings=1000000 | sed "s/^/lobby $clients /"
    done
done | awk -v lines="$lines" '
    $3 ~ /:$/ {
        what = $3 " " $2
        if (what in sizes && sizes[what] != $5) { print "the sizes differ" > "/dev/stderr"; exit 1 }
        sizes[what] = $5
    }
    $4 == "picoseconds" { n = ++count[$1, what]; taken[$1, what, n] = $3 / 1000 }
    function median(who, what,    i, j, a, t, n) {
        n = count[who, what]
        for (i = 1; i <= n; i++) a[i] = taken[who, what, i]
        for (i = 1; i <= n; i++) for (j = i + 1; j <= n; j++) if (a[j] < a[i]) { t = a[i]; a[i] = a[j]; a[j] = t }
        return a[int((n + 1) / 2)]
    }
    function row(users,    lobby, baseline) {
        lobby = median("lobby", "lines: " users); baseline = median("baseline", "lines: " users)
        printf "%d | %d | %d | %d | %.1f | %.1f | %.2f\n", users, lines / users, 1e9 / lobby / users, 1e9 / lobby, lobby, baseline, lobby / baseline
    }
    END {
        if (!(("lobby", "lines: 2000") in count) || !(("lobby", "answers: 10000") in count)) exit 1
        print "users | MYSTATUS | events a second | lines a second | ns a line | baseline ns a line | lobby / baseline"
        row(200)
        row(2000)
        printf "a line to one of 2,000 users / of 200: lobby %.2f, baseline %.2f\n",
            median("lobby", "lines: 2000") / median("lobby", "lines: 200"),
            median("baseline", "lines: 2000") / median("baseline", "lines: 200")
        printf "PING: %d ns with 10 clients, %d ns with 10,000\n", median("lobby", "answers: 10"), median("lobby", "answers: 10000")
        login = median("lobby", "logins: 2000")
        printf "2,000 logins: %.2f s, %.1f us each; 200 logins: %.1f us each\n",
            login * 2000 / 1e9, login / 1e3, median("lobby", "logins: 200") / 1e3
    }'
