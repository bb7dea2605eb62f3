#!/usr/bin/env bash
# What a hold of the lobby with one PING in it costs, by 1, 2 and 4 threads at one desk, and a PING of a lobby alone:
# medians of 5 runs, in turn with a hand-written Rust program over a Mutex.
# The first argument is the number of holds of all threads in a run, 4,000,000.
set -euo pipefail
cd "$(dirname "$0")/.."
holds=${1:-4000000}
program=$(tools/build_bench.sh bench_desk)
out=$(dirname "$program")
rustc -C opt-level=3 -o "$out/mutex" bench/mutex.rs
for _ in 1 2 3 4 5; do
    "$program" alone "$holds" | sed "s/^/desk 0 /"
    "$out/mutex" alone "$holds" | sed "s/^/baseline 0 /"
    for threads in 1 2 4; do
        "$program" holds "$threads" $((holds / threads)) | sed "s/^/desk $threads /"
        "$out/mutex" holds "$threads" $((holds / threads)) | sed "s/^/baseline $threads /"
    done
done | awk '
    /a lobby is/ { lobby = $0; sub(/^desk . /, "", lobby) }
    $3 ~ /:$/ {
        if ($2 in sizes && sizes[$2] != $5) { print "the sizes differ" > "/dev/stderr"; exit 1 }
        sizes[$2] = $5
    }
    $4 == "picoseconds" { n = ++count[$1, $2]; taken[$1, $2, n] = $3 / 1000 }
    function median(who, threads,    i, j, a, t, n) {
        n = count[who, threads]
        for (i = 1; i <= n; i++) a[i] = taken[who, threads, i]
        for (i = 1; i <= n; i++) for (j = i + 1; j <= n; j++) if (a[j] < a[i]) { t = a[i]; a[i] = a[j]; a[j] = t }
        return a[int((n + 1) / 2)]
    }
    function row(what, threads,    desk, baseline) {
        desk = median("desk", threads); baseline = median("baseline", threads)
        printf "%s | %.1f | %.1f | %.2f\n", what, desk, baseline, desk / baseline
    }
    END {
        if (!(("desk", 4) in count) || !(("baseline", 4) in count)) exit 1
        print "threads | ns a hold at the desk | ns a hold of the Mutex | desk / Mutex"
        row("none, a PING alone", 0)
        row("1", 1)
        row("2", 2)
        row("4", 4)
        print lobby
    }'
