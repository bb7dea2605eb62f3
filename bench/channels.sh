#!/usr/bin/env bash
# What channels cost in which one user is alone: bytes for each, a join, a line of CHANNELS, and the log out of one who is in
# all of them. Medians of 5 runs, in turn with a hand-written Rust program; names come in their order, and scattered.
# The first argument is the number of channels, 100,000; a second is another build of bench_lobby.
set -euo pipefail
cd "$(dirname "$0")/.."
channels=${1:-100000}
program=$(realpath "${2:-$(tools/build_bench.sh bench_lobby)}")
room=$(mktemp -d)
trap 'rm -rf "$room"' EXIT
rustc -C opt-level=3 -o "$room/channels" bench/channels.rs

# lobby CHANNELS STRIDE LISTS, baseline CHANNELS STRIDE LISTS : a run, and behind it the most memory that it held, in kilobytes.
lobby() {
    /usr/bin/time -o "$room/held" -f "held: %M" "$program" clients=2 users=2 alone="$1" stride="$2" lists="$3"
    cat "$room/held"
}
baseline() {
    /usr/bin/time -o "$room/held" -f "held: %M" "$room/channels" "$1" "$2" "$3"
    cat "$room/held"
}

for _ in 1 2 3 4 5; do
    for stride in 1 7919; do
        for who in lobby baseline; do
            "$who" "$channels" "$stride" 1 | sed "s/^/$who $stride /"
            for count in 1 "$channels"; do
                "$who" "$count" "$stride" 0 | sed -n "s/^held: /$who $stride bytes: $count /p"
            done
        done
    done
done | awk -v channels="$channels" '
    $3 == "bytes:" && $4 == 1 { few = $5; next }
    $3 == "bytes:" { n = ++count[$1, $3, $2]; taken[$1, $3, $2, n] = ($5 - few) * 1024 / channels; next }
    $3 ~ /^(joins|lists|leaves):$/ {
        what = $3
        if (what in sizes && sizes[what] != $5) { print "the sizes differ" > "/dev/stderr"; exit 1 }
        sizes[what] = $5
    }
    $4 == "picoseconds" && what != "" { n = ++count[$1, what, $2]; taken[$1, what, $2, n] = $3 / 1000; what = "" }
    function median(who, what, stride,    i, j, a, t, n) {
        n = count[who, what, stride]
        for (i = 1; i <= n; i++) a[i] = taken[who, what, stride, i]
        for (i = 1; i <= n; i++) for (j = i + 1; j <= n; j++) if (a[j] < a[i]) { t = a[i]; a[i] = a[j]; a[j] = t }
        return a[int((n + 1) / 2)]
    }
    function row(what, name, scale, stride,    lobby, baseline) {
        lobby = median("lobby", what, stride) * scale; baseline = median("baseline", what, stride) * scale
        printf "%s | %s | %.1f | %.1f | %.2f\n", name, stride == 1 ? "in order" : "scattered", lobby, baseline, lobby / baseline
    }
    END {
        if (!(("lobby", "leaves:", 7919) in count)) exit 1
        print "what | names | lobby | baseline | lobby / baseline"
        for (i = 1; i <= 2; i++) {
            stride = i == 1 ? 1 : 7919
            row("bytes:", "bytes a channel", 1, stride)
            row("joins:", "ns a join", 1, stride)
            row("lists:", "ns a line of CHANNELS", 1, stride)
            row("leaves:", "ms a log out", channels / 1e6, stride)
        }
    }'
