#!/usr/bin/env bash
# Lines read and printed a second by the two grammars and by a hand-written Rust program: medians of 51 runs, in turn. Asked are
# the requests, printed.
# The first argument is the number of passes over the mix of 5 requests and 5 replies. Its default is so small that a run
# takes two milliseconds, and few runs are interrupted by other work on the machine.
set -euo pipefail
cd "$(dirname "$0")/.."
passes=${1:-4000}
program=$(tools/build_bench.sh bench_grammar)
out=$(dirname "$program")
rustc -C opt-level=3 -o "$out/lines" bench/lines.rs
for _ in $(seq 51); do
    "$program" "$passes" | sed 's/^/grammars /'
    "$out/lines" "$passes" | sed 's/^/baseline /'
done | awk '
    $2 == "read:" || $2 == "printed:" || $2 == "asked:" {
        what = substr($2, 1, length($2) - 1)
        if ((what in sums) && sums[what] != $6) { print "the sums differ" > "/dev/stderr"; exit 1 }
        sums[what] = $6
    }
    $3 == "picoseconds" { n = ++count[$1, what]; taken[$1, what, n] = $2 }
    function median(who, what,    i, j, a, t, n) {
        n = count[who, what]
        for (i = 1; i <= n; i++) a[i] = taken[who, what, i]
        for (i = 1; i <= n; i++) for (j = i + 1; j <= n; j++) if (a[j] < a[i]) { t = a[i]; a[i] = a[j]; a[j] = t }
        return a[int((n + 1) / 2)]
    }
    END {
        if (length(sums) < 3) exit 1
        print "lines a second | grammars | baseline | baseline / grammars"
        split("read printed asked", whats, " ")
        for (k = 1; k <= 3; k++) {
            g = median("grammars", whats[k]); b = median("baseline", whats[k])
            printf "%s | %d | %d | %.2f\n", whats[k], 1e12 / g, 1e12 / b, g / b
        }
    }'
