#!/usr/bin/env bash
# gateway_served.sh [FOLDER] : the gateway before the server as the gate built it, or the one of a folder: 2,000 random sessions are
# played with the gateway and without, and a machine goes away without a word.
set -euo pipefail
cd "$(dirname "$0")/.."
passed=0
failed=0
server=${1:-$PWD/crates/lobby_main/out}/lobby_main
room=$(mktemp -d)
trap 'rm -rf "$room"' EXIT

# skips WHY : ends without a test.
skips() {
    echo "gateway before the server: $1: its tests are skipped"
    echo "gateway before the server: 0 passed, 0 failed"
    exit
}

command -v go > /dev/null || skips "there is no go, which builds it (Debian's golang-go)"
[ -x "$server" ] || { echo "there is no $server: make test builds it"; exit 1; }
server=$(realpath "$server")
python3 -c 'import sys; sys.exit(sys.version_info < (3, 11))' || skips 'python3 is older than 3.11'
command -v openssl > /dev/null || skips 'there is no openssl'
# Nothing is fetched: the standard library alone is used, and the Go that is there.
export GOPROXY=off GOTOOLCHAIN=local GOFLAGS=-trimpath
[ -n "${HOME:-}" ] || export GOCACHE=$room/cache
program=$room/rudderraisin_gateway
(cd gateway && CGO_ENABLED=0 go build -o "$program" .)

# plays NAME COMMAND.. : runs a check while others run. Its status and what it says are kept.
plays() {
    local name=$1
    shift
    (LOBBY_MAIN=$server timeout 300 python3 -B "$@" > "$room/$name" 2>&1 && echo 0 || echo $?) > "$room/$name.status" &
}

# played NAME : counts such a check when it has ended. By status 77 it says that it is skipped.
played() {
    sed "s/^/$1: /" "$room/$1"
    case $(cat "$room/$1.status") in 0) passed=$((passed + 1)) ;; 77) ;; *) failed=$((failed + 1)) ;; esac
}

plays sessions checks/gateway_sessions.py "$program"
plays dead_machine checks/gateway_dead.py "$program"
wait
played sessions
played dead_machine
echo "gateway before the server: $passed passed, $failed failed"
[ "$failed" -eq 0 ]
