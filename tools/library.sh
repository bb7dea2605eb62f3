#!/usr/bin/env bash
# library.sh : proves lobby_c and what it stands on, over what earlier runs kept, and builds bin/liblobby.a and bin/liblobby.so. Both have the
# heap's three calls in them, by which memory comes from the program's malloc; the shared one shows only what include/lobby.h declares.
# Its name has a number that rises where a program that was linked with it would have to be linked anew.
# With AS_BUILT set, as the gate sets it, lobby_c stands on the libraries that the gate's own run has just left.
set -euo pipefail
root=$(cd "$(dirname "$0")/.." && pwd)
kit=$(dirname "$(dirname "$(realpath "$(command -v rt)")")")
archive=$root/crates/lobby_c/out/liblobby_c.a
heap=$kit/c/liblibc_c.a
room=$(mktemp -d)
trap 'rm -rf "$room"' EXIT

if [ -n "${AS_BUILT:-}" ]; then prove=("$root/tools/over_built.py"); else prove=(rt lib); fi
(cd "$root/crates/lobby_c" && "${prove[@]}") > "$room/told" 2>&1 || { tail -20 "$room/told"; exit 1; }
mkdir -p "$root/bin"
printf 'CREATE %s\nADDLIB %s\nADDLIB %s\nSAVE\nEND\n' "$room/liblobby.a" "$archive" "$heap" | ar -M
printf '{ global: lobby_*; local: *; };\n' > "$room/lobby.map"
${CC:-cc} -shared -Wl,--whole-archive "$room/liblobby.a" -Wl,--no-whole-archive "-Wl,--version-script=$room/lobby.map" -Wl,-z,defs \
    -Wl,-soname,liblobby.so.0 -o "$room/liblobby.so"
mv "$room/liblobby.a" "$room/liblobby.so" "$root/bin/"
echo 'bin/liblobby.a and bin/liblobby.so are built'
