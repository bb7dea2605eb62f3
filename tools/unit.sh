#!/usr/bin/env bash
# unit.sh [CRATE..] : runs the checks that take seconds (tools/gate.py --first), and the gateway's tests where it was changed since HEAD.
# Then runs tests without any proof, by `rt try --test`, side by side: of the crates of tests that are named; else of leaf_tests where a
# crate was changed since HEAD that it stands on, and of lobby_tests where any other was; and of both where none was.
set -euo pipefail
cd "$(dirname "$0")/.."
status=0
tools/gate.py --first || status=1
if [ -n "$(git status --porcelain -- gateway)" ]; then checks/gateway.sh || status=1; fi
crates=("$@")
if [ $# -eq 0 ]; then
    leaves=" $(awk -v names=leaf_tests -f tools/below.awk crates.txt | tr '\n' ' ')leaf_tests "
    leaf='' lobby=''
    for name in $(tools/changed.sh); do
        case $leaves in *" $name "*) leaf=yes ;; *) lobby=yes ;; esac
    done
    if [ "$leaf" ] || [ -z "$lobby" ]; then crates+=(leaf_tests); fi
    if [ "$lobby" ] || [ -z "$leaf" ]; then crates+=(lobby_tests); fi
fi
told=$(mktemp -d)
trap 'rm -rf "$told"' EXIT
runs=()
for crate in "${crates[@]}"; do
    echo "$crate: tests, without a proof"
    (cd "crates/$crate" && rt try --test) > "$told/$crate" 2>&1 &
    runs+=($!)
done
for at in "${!crates[@]}"; do
    wait "${runs[$at]}" || status=1
    cat "$told/${crates[$at]}"
done
exit $status
