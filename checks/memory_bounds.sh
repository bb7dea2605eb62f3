#!/usr/bin/env bash
# memory_bounds.sh [PROGRAM]: counts what memory a lobby asks for and keeps, by memory_trials as the gate built it, or
# by another build of it. The program shows each rule behind the most that it allows: growths, bytes asked for, and
# bytes kept; the library that counts tells how many there were. A part that is answered that memory was refused has no
# such numbers, and fails.
set -euo pipefail
program=$(realpath -m "${1:-$(dirname "$0")/../crates/memory_trials/out/memory_trials}")
[ -x "$program" ] || { echo "there is no $program: make test builds it"; exit 1; }
cd "$(dirname "$0")/.."
room=$(mktemp -d)
trap 'rm -rf "$room"' EXIT
checks/build_library.sh checks/refuse_allocation.c "$room/refuse_allocation.so"
got=0
LD_PRELOAD="$room/refuse_allocation.so" timeout 120 "$program" bounds > "$room/bounds" 2> "$room/counts" || got=$?
paste -d ' ' "$room/counts" "$room/bounds" | awk -v status="$got" '
    /^[0-9]+ [0-9]+ -?[0-9]+ [0-9]+ [0-9]+ [0-9]+ / {
        if ($1 <= $4 && $2 <= $5 && $3 <= $6) { passed++; next }
        $0 = $1 " of " $4 " growths, " $2 " of " $5 " bytes asked for, " $3 " of " $6 " kept: " substr($0, index($0, $7))
    }
    { failed++; print "memory bounds: " $0 ": FAILED" }
    END {
        if (status != 0) { failed++; print "memory bounds: the program ends with status " status ": FAILED" }
        print "memory bounds: " passed + 0 " passed, " failed + 0 " failed"
        exit failed > 0 || passed == 0
    }'
