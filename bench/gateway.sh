#!/usr/bin/env bash
# The gateway beside haproxy, which ends TLS from the first byte, and beside the server alone.
#   bench/gateway.sh [RUNS [SECONDS]]
# The gateway and haproxy have one processor each, in turn; the server has another, and the clients the others. Each
# figure is the median of so many runs (3), with a new process each time; talk lasts so many seconds (5). MODES, some
# of "bulk talk storm memory lf silent players", leaves the others out. $LOBBY_MAIN names another server than
# bin/lobby_main, $GATEWAY another gateway than one built here. Wants go, openssl and haproxy; without haproxy its
# column is empty.
set -euo pipefail
cd "$(dirname "$0")/.."
runs=${1:-3}
seconds=${2:-5}
modes=${MODES:-bulk talk storm memory lf silent players}
main=${LOBBY_MAIN:-$PWD/bin/lobby_main}
[ -x "$main" ] || { echo "there is no $main: make build makes it"; exit 1; }
ulimit -n "$(ulimit -Hn)"
export MALLOC_MMAP_THRESHOLD_=8192 GOFLAGS=-trimpath GOPROXY=off GOTOOLCHAIN=local
room=$(mktemp -d)
started=()
stop() {
    if [ ${#started[@]} -gt 0 ]; then kill "${started[@]}" 2> /dev/null || true; wait "${started[@]}" 2> /dev/null || true; fi
    started=()
}
trap 'stop; rm -rf "$room"' EXIT

go build -o "$room/load" bench/gateway_load.go
gateway=${GATEWAY:-$room/gateway}
[ -n "${GATEWAY:-}" ] || (cd gateway && CGO_ENABLED=0 go build -o "$gateway" .)
openssl req -x509 -newkey ec -pkeyopt ec_paramgen_curve:P-256 -nodes -days 2 -subj /CN=lobby \
    -keyout "$room/key.pem" -out "$room/cert.pem" 2> /dev/null
cat "$room/cert.pem" "$room/key.pem" > "$room/both.pem"
for number in {1..2001}; do
    printf '[[account]]\nname = "u%04d"\npassword = "X03MO1qnZdYdgyfeuILPmQ=="\nid = %d\n' "$number" "$number"
done > "$room/accounts.toml"
port=$((20000 + $$ % 10000))
# What is between, on processor 0, and the server on 1. The load has the others, or all where there are no more than
# two.
others=$(nproc)
load_on=$([ "$others" -gt 2 ] && echo "2-$((others - 1))" || echo "0-$((others - 1))")

# listens PORT : waits until something does.
listens() { for _ in {1..200}; do if (exec {it}<> "/dev/tcp/127.0.0.1/$1") 2> /dev/null; then return; fi; sleep 0.05; done; return 1; }

# start WHAT PROCESSORS MAXPROCS : the server, and before it what is named. Sets door, at, middle and server.
start() {
    port=$((port + 2))
    middle=0 at=127.0.0.1:$((port + 1)) door=tls
    printf 'address = "127.0.0.1:%d"\nworkers = 1\nlog = "none"\n' "$port" > "$room/settings.toml"
    if [ "$1" != alone ]; then echo 'proxies = ["127.0.0.1"]' >> "$room/settings.toml"; fi
    taskset -c 1 "$main" serve "$room/settings.toml" "$room/accounts.toml" > /dev/null 2> "$room/server.log" &
    server=$!
    started+=("$server")
    listens "$port"
    case $1 in
        alone) door=plain at=127.0.0.1:$port; return ;;
        gateway | gateway_tls | limited)
            local way=listen limits="-bytes 1000000000 -lines 100000000"
            door=stls
            if [ "$1" = gateway_tls ]; then way=tls door=tls; elif [ "$1" = limited ]; then limits=; fi
            # shellcheck disable=SC2086 # words that are there or not
            GOMAXPROCS=$3 taskset -c "$2" "$gateway" -$way "$at" -server "127.0.0.1:$port" -cert "$room/cert.pem" -key "$room/key.pem" \
                -proxy-protocol $limits -handshake 1m > /dev/null 2> "$room/gateway.log" & ;;
        haproxy)
            cat > "$room/haproxy.cfg" <<CONFIGURATION
global
    nbthread $3
    maxconn 6000
    ssl-default-bind-options ssl-min-ver TLSv1.2
defaults
    mode tcp
    timeout connect 10s
    timeout client 10m
    timeout server 10m
listen lobby
    bind $at ssl crt $room/both.pem
    server lobby 127.0.0.1:$port send-proxy
CONFIGURATION
            taskset -c "$2" haproxy -f "$room/haproxy.cfg" > /dev/null 2> "$room/haproxy.log" & ;;
    esac
    middle=$!
    started+=("$middle")
    listens $((port + 1))
}

# measure MODE WHAT FIELD COUNT [PROCESSORS MAXPROCS] : the median of a figure.
measure() {
    for _ in $(seq "$runs"); do
        start "$2" "${5:-0}" "${6:-1}"
        taskset -c "${7:-$load_on}" "$room/load" "$1" "$door" "$at" "$middle" "$server" "$4" "$seconds" > "$room/said" || echo "$3 failed" > "$room/said"
        stop
        awk -v field="$3" '{ for (i = 1; i < NF; i += 2) if ($i == field) print $(i + 1) }' "$room/said"
    done | sort -g | awk '{ a[NR] = $1 } END { print NR ? a[int((NR + 1) / 2)] : "-" }'
}

# row WHAT MODE FIELD COUNT : a line of the table. The server alone has no middle, and its own time is told.
row() {
    local beside=-
    if command -v haproxy > /dev/null; then beside=$(measure "$2" haproxy "middle_$3" "$4"); fi
    printf '| %s | %s | %s | %s | %s |\n' "$1" "$(measure "$2" alone "server_$3" "$4")" "$(measure "$2" gateway "middle_$3" "$4")" \
        "$(measure "$2" gateway_tls "middle_$3" "$4")" "$beside"
}

echo "load average: $(cut -d' ' -f1-3 /proc/loadavg)"
echo '| One processor | Server alone | Gateway, STLS | Gateway, TLS | haproxy, TLS |'
echo '|---|---|---|---|---|'
for mode in $modes; do
    case $mode in
        bulk) row 'bulk, us a delivered line, 100 clients' bulk us 100 ;;
        talk) row '10 lines a second told to 400, us a line' talk us 400 ;;
        storm) row '1,000 logins at once, s' storm s 1000 ;;
        memory) row 'kB a client, of 1,000' memory kB 1000 ;;
        lf) row '300,000 bare LF, s' lf s 2 ;;
    esac
done
for mode in $modes; do
    case $mode in
        lf)
            echo "PING beside 300,000 LF, the longest, ms: $(measure beside gateway worst_ms 2); with the default limits" \
                "$(measure beside limited worst_ms 2), and the gateway then takes $(measure beside limited middle_s 2) s, PINGs among it" ;;
        silent) echo "5,000 silent connections: $(measure silent gateway taken_at_server 5000) places taken at the server, and a login then takes" \
            "$(measure silent gateway login_ms 5000) ms" ;;
        players) echo "2,000 logins at once, all in on all processors, s: $(measure storm gateway all_in_s 2000 "0-$((others - 1))" "$others" "0-$((others - 1))")" ;;
    esac
done
echo "load average: $(cut -d' ' -f1-3 /proc/loadavg)"
