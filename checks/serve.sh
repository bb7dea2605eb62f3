#!/usr/bin/env bash
# serve.sh [PROGRAM]: starts the server as the gate built it, or another build of it, with good and bad files, and compares what it
# prints, what it tells on standard error and its exit status. Then two clients talk over it, as docs/PROTOCOL.md shows.
set -euo pipefail
cd "$(dirname "$0")/.."
main=${1:-$PWD/crates/lobby_main/out/lobby_main}
[ -x "$main" ] || { echo "there is no $main: make test builds it"; exit 1; }
usage='usage: lobby_main serve SETTINGS ACCOUNTS or lobby_main hash'
passed=0
failed=0
server=
room=$(mktemp -d)
trap 'if [ -n "$server" ]; then kill "$server" 2> /dev/null || true; fi; rm -rf "$room"' EXIT

settings=$room/settings.toml
accounts=$room/accounts.toml
printf 'address = "127.0.0.1:0"\nworkers = 2\nstop_at_input_end = true\nlog = "none"\n' > "$settings"
: > "$accounts"
printf '[[account' > "$room/broken"
printf 'workers = 2\n' > "$room/no_address"
printf '[[account]]\nname = "A b"\n' > "$room/no_name"
# An address of no machine: it is kept for documents.
printf 'address = "192.0.2.1:0"\nstop_at_input_end = true\n' > "$room/elsewhere"

# expect STATUS OUTPUT ERROR INPUT ARGUMENT.. : the output and the error as printf writes them, and the file of the input.
expect() {
    local status=$1 output=$2 error=$3 input=$4 got=0
    shift 4
    timeout 60 "$main" "$@" < "$input" > "$room/out" 2> "$room/err" || got=$?
    printf "$output" | cmp -s - "$room/out" && printf "$error" | cmp -s - "$room/err" && [ "$got" -eq "$status" ] && { passed=$((passed + 1)); return; }
    echo "lobby_main $*: status $got, not $status, or other output"
    failed=$((failed + 1))
}

idle='listening\nworker 0: 0 events\nworker 1: 0 events\n'
expect 0 "$idle" '' /dev/null serve "$settings" "$accounts"
expect 0 "$idle" '' "$settings" serve "$settings" examples/accounts.toml
expect 1 '' "$usage\n" /dev/null serve
expect 1 '' "$usage\n" /dev/null serve "$settings"
expect 1 '' "$usage\n" /dev/null serve "$settings" "$accounts" more
expect 1 '' "$usage\n" /dev/null Serve "$settings" "$accounts"
expect 2 '' 'cannot use settings\n' /dev/null serve "$room/none" "$room/none"
expect 2 '' 'cannot use settings\n' /dev/null serve "$room" "$accounts"
expect 2 '' 'cannot use settings\n' /dev/null serve "$room/broken" "$room/broken"
expect 2 '' 'cannot use settings\n' /dev/null serve "$room/no_address" "$accounts"
expect 2 '' 'cannot use accounts\n' /dev/null serve "$settings" "$room/none"
expect 2 '' 'cannot use accounts\n' /dev/null serve "$room/elsewhere" "$room/broken"
expect 2 '' 'cannot use accounts\n' /dev/null serve "$settings" "$room/no_name"
expect 3 '' 'cannot listen\n' /dev/null serve "$room/elsewhere" "$accounts"
expect 2 "$idle" 'cannot read input\n' . serve "$settings" "$accounts"

# port_of PROCESS : the port at which it listens, which the system chose.
port_of() {
    local link inode
    for link in "/proc/$1/fd/"*; do
        inode=$(readlink "$link" | tr -dc 0-9)
        awk -v inode="${inode:-none}" '$4 == "0A" && $10 == inode { sub(/.*:/, "", $2); print $2 }' /proc/net/tcp
    done | { read -r port && echo $((16#$port)); }
}

# say CONNECTION LINE
say() { printf '%s\n' "$2" >&"$1"; }

# hears CONNECTION LINE.. : whether these lines come next.
hears() {
    local connection=$1 wanted line
    shift
    for wanted; do
        line=
        read -t 10 -r -u "$connection" line || true
        [ "$line" = "$wanted" ] || { echo "came: $line, and not: $wanted"; return 1; }
    done
}

# is_over CONNECTION : whether it is closed, and nothing came before. A read that waits in vain has a status over 128.
is_over() {
    local line= status=0
    read -t 10 -r -u "$1" line || status=$?
    [ "$status" -eq 1 ] && [ -z "$line" ]
}

# The session of docs/PROTOCOL.md, with Anna at one worker and Bert at the other.
session() {
    local anna bert word=X03MO1qnZdYdgyfeuILPmQ==
    exec {anna}<> "/dev/tcp/127.0.0.1/$1" && hears "$anna" 'TASSERVER 0.38 * 8201 0' &&
        say "$anna" '#5 PING' && hears "$anna" '#5 PONG' &&
        say "$anna" "LOGIN Anna $word 0 * nc" && hears "$anna" 'ACCEPTED Anna' 'ADDUSER Anna DE 0 1' LOGININFOEND &&
        say "$anna" 'JOIN main' && hears "$anna" 'JOIN main' 'CLIENTS main Anna' &&
        exec {bert}<> "/dev/tcp/127.0.0.1/$1" && hears "$bert" 'TASSERVER 0.38 * 8201 0' &&
        say "$bert" "#1 LOGIN Bert $word 0 * nc" &&
        hears "$bert" '#1 ACCEPTED Bert' '#1 ADDUSER Anna DE 0 1' '#1 ADDUSER Bert ?? 0 2' '#1 CLIENTSTATUS Bert 12' '#1 LOGININFOEND' &&
        hears "$anna" 'ADDUSER Bert ?? 0 2' 'CLIENTSTATUS Bert 12' &&
        say "$bert" 'JOIN main' && hears "$bert" 'JOIN main' 'CLIENTS main Anna Bert' && hears "$anna" 'JOINED main Bert' &&
        say "$bert" '#2 SAY main hello  there' &&
        hears "$bert" '#2 SAID main Bert hello  there' && hears "$anna" 'SAID main Bert hello  there' &&
        say "$anna" EXIT && is_over "$anna" && hears "$bert" 'LEFT main Anna' 'REMOVEUSER Anna' &&
        exec {input}>&- && is_over "$bert"
}

# ends : whether the server ends within a minute.
ends() {
    for _ in {1..600}; do
        kill -0 "$server" 2> /dev/null || return 0
        sleep 0.1
    done
    return 1
}

mkfifo "$room/input"
rm "$room/out"
"$main" serve "$settings" examples/accounts.toml < "$room/input" > "$room/out" 2> "$room/err" &
server=$!
exec {input}> "$room/input"
for _ in {1..200}; do
    if [ -s "$room/out" ]; then break; fi
    sleep 0.05
done
status=0
session "$(port_of "$server")" || status=1
if [ "$status" -ne 0 ]; then kill "$server" 2> /dev/null || true; fi
if ! ends; then
    echo "the server outlives its input"
    kill -KILL "$server"
fi
wait "$server" || status=$?
server=
if [ "$status" -eq 0 ] && [ ! -s "$room/err" ]; then passed=$((passed + 1)); else echo "the session: status $status"; failed=$((failed + 1)); fi

echo "serve: $passed passed, $failed failed"
[ "$failed" -eq 0 ]
