#!/usr/bin/env bash
# program.sh PROGRAM : prints the path of a program than which no source is newer: the one that `make build` proved and built into bin/;
# else one that is not proved, which this says, builds where there is none yet, and keeps. Where it cannot, the status is 1.
set -euo pipefail
root=$(cd "$(dirname "$0")/.." && pwd)
name=$1
proved=$root/bin/$name
unproved=$root/bin/$name.not-proved

# is_new PROGRAM : whether it is there, and no source is newer.
is_new() {
    [ -x "$1" ] && [ -z "$(find "$root/crates.txt" "$root/crates" \( -name out -prune \) -o \
        \( -name '*.rt' -o -name '*.antt' -o -name crates.txt \) -newer "$1" -print -quit)" ]
}

if is_new "$proved"; then echo "$proved"; exit; fi
if ! is_new "$unproved"; then
    echo "$name: builds a program that is not proved, which takes about two minutes and is kept in bin/" >&2
    "$root/tools/quick.sh" "$name" "$unproved" || { echo "$name: this toolchain builds no program without a proof" >&2; exit 1; }
fi
echo "$name: this is not the proved program, which 'make build' makes" >&2
echo "$unproved"
