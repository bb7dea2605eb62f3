#!/usr/bin/env bash
# Runs the trials of memory, as the gate built them, where memory is refused: once where it is scarce, and each call is
# made with more and more of it, and once where one growth of a call is refused, the first one and then the next ones,
# until none is. After each refusal all is compared. They must show what they show where memory is plenty, and memory
# must have been refused often. `checks/memory.sh FOLDER` takes another build of memory_trials, which lies there, than
# the gate's.
set -euo pipefail
program=$(realpath -m "${1:-$(dirname "$0")/../crates/memory_trials/out}/memory_trials")
[ -x "$program" ] || { echo "there is no $program: make test builds it"; exit 1; }
cd "$(dirname "$0")/.."
room=$(mktemp -d)
trap 'rm -rf "$room"' EXIT
checks/build_library.sh checks/refuse_allocation.c "$room/refuse_allocation.so"
head -n -1 crates/memory_trials/stdout > "$room/wanted"
# How much memory there is where it is scarce, in kB.
limit=16384
scarce() { ulimit -d "$limit" && exec timeout 900 "$program" scarce; }
counted() { LD_PRELOAD="$room/refuse_allocation.so" exec timeout 900 "$program" counted; }
status=0
# refuse WAY LEAST : the trials in this way; fewer refusals than that say that memory was not refused.
refuse() {
    local way=$1 least=$2 got=0 last
    ("$way") > "$room/shown" 2>&1 || got=$?
    head -n -1 "$room/shown" > "$room/told"
    last=$(tail -n 1 "$room/shown")
    echo "memory_trials, $way: $last"
    [ "$got" -eq 0 ] || { echo "the trials end with status $got"; status=1; }
    diff -U 2 --label 'with all memory' "$room/wanted" --label "$way" "$room/told" | head -40 || true
    cmp -s "$room/wanted" "$room/told" || status=1
    if ! [[ $last =~ ^([0-9]+)\ refused,\ 0\ left\ a\ trace,\ 0\ were\ given\ up$ ]] || [ "${BASH_REMATCH[1]}" -lt "$least" ]; then
        echo "memory left a trace, never sufficed, or was refused less than $least times"
        status=1
    fi
}
refuse scarce 19000
refuse counted 3600
exit "$status"
