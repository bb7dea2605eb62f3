#!/usr/bin/env bash
# Plays each row of rows/ and each script of examples/ with the built program, compares what it shows and how it ends, and
# names each that differs, with the difference. `checks/rows.sh PROGRAM` takes another build of lobby_play than the gate's.
set -euo pipefail
program=$(realpath "${1:-$(dirname "$0")/../crates/lobby_play/out/lobby_play}")
cd "$(dirname "$0")/.."
export LC_ALL=C
room=$(mktemp -d)
trap 'rm -rf "$room"' EXIT
passed=0
failed=0

# compare NAME FOLDER/K : plays K.script, and compares with K.shown, K.error and K.status.
compare() {
    local got=0
    timeout 60 "$program" < "$2.script" > "$room/shown" 2> "$room/error" || got=$?
    if cmp -s "$2.shown" "$room/shown" && cmp -s "$2.error" "$room/error" && [ "$got" -eq "$(cat "$2.status")" ]; then
        passed=$((passed + 1))
        return
    fi
    failed=$((failed + 1))
    echo "row $1 differs"
    [ "$got" -eq "$(cat "$2.status")" ] || echo "it ends with status $got, and $(cat "$2.status") is wanted"
    diff -U 2 --label wanted "$2.shown" --label shown "$room/shown" | head -40 || true
    diff -U 2 --label 'wanted on standard error' "$2.error" --label told "$room/error" | head -10 || true
}

for row in rows/*/*.row; do
    rm -rf "$room/parts"
    mkdir "$room/parts"
    if ! awk -v FOLDER="$room/parts" -f checks/row.awk "$row"; then
        failed=$((failed + 1))
        continue
    fi
    for script in "$room"/parts/*.script; do
        part=${script%.script}
        compare "$row$(sed 's/^/ at: /' "$part.case")" "$part"
    done
done

for script in examples/*.play; do
    cp "$script" "$room/example.script"
    cp "${script%.play}.shown" "$room/example.shown"
    : > "$room/example.error"
    echo 0 > "$room/example.status"
    compare "$script" "$room/example"
done

echo "rows: $passed passed, $failed failed"
[ "$failed" -eq 0 ]
