#!/usr/bin/env bash
# What a line costs that is said in a channel of 50 and of 1,000 members among 2,000 users, and in one of 50 among 200
# and among 5,000: medians of 5 runs, in turn with a hand-written Rust program; the join of the last member, and the log
# out of one who is in 10 and in 100 channels.
# The first argument is the number of lines that the members of a channel get in a run, 10,000,000.
set -euo pipefail
cd "$(dirname "$0")/.."
lines=${1:-10000000}
program=$(tools/build_bench.sh bench_lobby)
out=$(dirname "$program")
rustc -C opt-level=3 -o "$out/fanout" bench/fanout.rs
for _ in 1 2 3 4 5; do
    for sizes in "200 50" "2000 50" "2000 1000" "5000 50"; do
        read -r users members <<< "$sizes"
        words=$((lines / members))
        "$program" clients=10000 users="$users" members="$members" words="$words" | sed "s/^/lobby $users-$members /"
        "$out/fanout" 10000 "$users" 0 "$members" "$words" | sed "s/^/baseline $users-$members /"
    done
    for channels in 10 100; do
        "$program" clients=10000 users=2000 members=2 channels="$channels" | sed "s/^/lobby $channels-channels /"
    done
done | awk '
    { sub(/last joins:/, "joins:"); sub(/log outs:/, "leaves:") }
    $3 ~ /:$/ { what = $3 " " $2 }
    $4 == "picoseconds" { n = ++count[$1, what]; taken[$1, what, n] = $3 / 1000 }
    function median(who, what,    i, j, a, t, n) {
        n = count[who, what]
        for (i = 1; i <= n; i++) a[i] = taken[who, what, i]
        for (i = 1; i <= n; i++) for (j = i + 1; j <= n; j++) if (a[j] < a[i]) { t = a[i]; a[i] = a[j]; a[j] = t }
        return a[int((n + 1) / 2)]
    }
    function row(users, members,    sizes) {
        sizes = "words: " users "-" members
        printf "%d | %d | %.1f | %.1f | %.2f\n", users, members, median("lobby", sizes), median("baseline", sizes), median("lobby", sizes) / median("baseline", sizes)
    }
    END {
        if (!(("lobby", "words: 5000-50") in count)) exit 1
        print "users | members | ns a line | baseline ns a line | lobby / baseline"
        row(200, 50); row(2000, 50); row(5000, 50); row(2000, 1000)
        printf "a line to one of 1,000 members / of 50: lobby %.2f, baseline %.2f\n", median("lobby", "words: 2000-1000") / median("lobby", "words: 2000-50"), median("baseline", "words: 2000-1000") / median("baseline", "words: 2000-50")
        printf "a line among 5,000 users / among 200: lobby %.2f, baseline %.2f\n", median("lobby", "words: 5000-50") / median("lobby", "words: 200-50"), median("baseline", "words: 5000-50") / median("baseline", "words: 200-50")
        printf "the join of the last of 50 members: %.1f us, of 1,000: %.1f us\n", median("lobby", "joins: 2000-50") / 1000, median("lobby", "joins: 2000-1000") / 1000
        printf "a log out from 10 channels: %.1f us, from 100: %.1f us\n", median("lobby", "leaves: 10-channels") / 1000, median("lobby", "leaves: 100-channels") / 1000
    }'
