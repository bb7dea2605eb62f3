#!/usr/bin/env bash
# Picoseconds a byte of the framer and of a C scan by memchr, in pieces of 1, 7 and 4,096 bytes: medians of 5 runs, in turn.
# The first argument is the number of passes over 60 KiB of lines; 1092 of them are 64 MiB.
set -euo pipefail
cd "$(dirname "$0")/.."
passes=${1:-1092}
program=$(tools/build_bench.sh bench_frames)
out=$(dirname "$program")
gcc -O2 -o "$out/scan_lines" bench/scan_lines.c
for _ in 1 2 3 4 5; do
    "$program" "$passes" | sed 's/^/framer /'
    "$out/scan_lines" "$passes" | sed 's/^/scan /'
done | awk '
    $2 == "pieces" { size = $4 + 0 }
    $3 == "picoseconds" { n = ++count[$1, size]; taken[$1, size, n] = $2 }
    function median(who, size,    i, j, a, t, n) {
        n = count[who, size]
        for (i = 1; i <= n; i++) a[i] = taken[who, size, i]
        for (i = 1; i <= n; i++) for (j = i + 1; j <= n; j++) if (a[j] < a[i]) { t = a[i]; a[i] = a[j]; a[j] = t }
        return a[int((n + 1) / 2)]
    }
    END {
        print "bytes a piece | framer ps/byte | C scan ps/byte | ratio"
        split("1 7 4096", sizes, " ")
        for (k = 1; k <= 3; k++) {
            f = median("framer", sizes[k]); s = median("scan", sizes[k])
            printf "%d | %d | %d | %.2f\n", sizes[k], f, s, f / s
        }
    }'
