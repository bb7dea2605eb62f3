#!/usr/bin/env bash
# build_library.sh SOURCE LIBRARY: builds a C file that includes nothing as this library, by the compiler that the toolchain brings, or by cc.
set -euo pipefail
tools=$(dirname "$(readlink -f "$(command -v rt)")")/../toolchain/bin
if [ -x "$tools/clang" ] && [ -x "$tools/ld.lld" ]; then
    "$tools/clang" --ld-path="$tools/ld.lld" -O2 -shared -fPIC -nostdlib -o "$2" "$1"
else
    cc -O2 -shared -fPIC -o "$2" "$1"
fi
