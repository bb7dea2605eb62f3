#!/usr/bin/env bash
# gateway.sh : the tests of the gateway by itself, which need no server.
set -euo pipefail
cd "$(dirname "$0")/.."
passed=0
failed=0
room=$(mktemp -d)
trap 'rm -rf "$room"' EXIT

if ! command -v go > /dev/null; then
    echo "gateway: there is no go, which builds it (Debian's golang-go): its tests are skipped"
    echo "gateway: 0 passed, 0 failed"
    exit
fi
# Nothing is fetched: the standard library alone is used, and the Go that is there.
export GOPROXY=off GOTOOLCHAIN=local GOFLAGS=-trimpath
[ -n "${HOME:-}" ] || export GOCACHE=$room/cache

# tells WHAT COMMAND.. : counts whether a command passes, and shows what it said where it does not.
tells() {
    local what=$1
    shift
    if "$@" > "$room/said" 2>&1; then passed=$((passed + 1)); else echo "gateway: $what:"; cat "$room/said"; failed=$((failed + 1)); fi
}

# tests WORD.. : runs `go test` with these words, and counts its tests, one by one.
tests() {
    local status=0 count
    go test -count=1 -v "$@" > "$room/said" 2>&1 || status=$?
    count=$(grep -c '^--- PASS' "$room/said" || true)
    passed=$((passed + count))
    if [ "$status" -eq 0 ]; then return; fi
    grep -v '^=== \|^--- PASS' "$room/said" || true
    count=$(grep -c '^--- FAIL' "$room/said" || true)
    failed=$((failed + (count > 0 ? count : 1)))
}

cd gateway
program=$room/rudderraisin_gateway
tells 'it is built as one static file' env CGO_ENABLED=0 go build -o "$program" .
if command -v ldd > /dev/null; then tells 'it needs no other file' eval "! ldd '$program' > /dev/null 2>&1"; fi
tells 'go vet' go vet ./...
tells 'gofmt' test -z "$(gofmt -l .)"

race=
if [ "$(go env CGO_ENABLED)" = 1 ] && command -v gcc > /dev/null; then race=-race; else echo "gateway: there is no gcc: -race is left out"; fi
tests $race ./dialect ./relay ./door ./journal ./bans
tests . ./settings

echo "gateway: $passed passed, $failed failed"
[ "$failed" -eq 0 ]
