#!/usr/bin/env bash
# run.sh PROGRAM ARGUMENT.. : runs a program as tools/program.sh finds or builds it.
set -euo pipefail
root=$(cd "$(dirname "$0")/.." && pwd)
name=$1
shift

# The C library is to return large blocks at once, so that what a storm of logins took is given back. A record that meets a limit of
# file sizes is to end, and not the server.
if [ "${1:-}" = serve ]; then
    export MALLOC_MMAP_THRESHOLD_=${MALLOC_MMAP_THRESHOLD_:-8192}
    trap '' XFSZ
fi
if program=$("$root/tools/program.sh" "$name"); then exec "$program" "$@"; fi
# Without what quick.sh leans on, rt runs the program itself: it shows what that prints once it has ended.
echo "$name: rt try runs it, and shows at its end what it printed" >&2
cd "$root/crates/$name"
exec rt try --seconds 31536000 -- "$@"
