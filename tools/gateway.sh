#!/usr/bin/env bash
# gateway.sh : prints the path of the gateway's program, bin/rudderraisin_gateway, one static file, and builds it where
# a source is newer.
set -euo pipefail
root=$(cd "$(dirname "$0")/.." && pwd)
program=$root/bin/rudderraisin_gateway

# is_new : whether the program is there, and no source is newer.
is_new() {
    [ -x "$program" ] && [ -z "$(find "$root/gateway" \( -name '*.go' -o -name go.mod \) -newer "$program" -print -quit)" ]
}

if ! is_new; then
    if ! command -v go > /dev/null; then
        echo "there is no Go, which builds the gateway: on Debian, apt-get install golang-go" >&2
        exit 1
    fi
    version=$("$root/packaging/deb.py" --version)
    # Nothing is fetched: the standard library alone is used, and the Go that is there.
    export GOPROXY=off GOTOOLCHAIN=local
    [ -n "${HOME:-}" ] || export GOCACHE=$root/out/go
    cd "$root/gateway"
    CGO_ENABLED=0 go build -trimpath -buildvcs=false -ldflags "-s -w -X main.version=$version" -o "$program" . >&2
fi
echo "$program"
