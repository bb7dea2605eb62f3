#!/usr/bin/env bash
# package.sh [FOLDER]: installs the programs, as the gate built them, or those of a folder, into a temporary folder, and looks at what is
# there then. Runs the server by the commands of the installed unit, as systemd would, lets clients log in and talk, and stops it. Where
# there is Go, the gateway is installed too, and one comes through it by the commands of its unit.
set -euo pipefail
cd "$(dirname "$0")/.."
names='lobby_main lobby_check lobby_play view_show'
passed=0
failed=0
server=
gateway=
room=$(mktemp -d)

# kill_rest : what systemd does behind a stop: ends the server, and who waits for something to open `stop`.
kill_rest() {
    if [ -n "$server$gateway" ]; then kill $server $gateway 2> /dev/null || true; fi
    if [ -p "$room/run/stop" ]; then : <> "$room/run/stop"; fi
}
trap 'kill_rest; rm -rf "$room"' EXIT

mkdir "$room/programs"
for name in $names; do
    program=${1:-$PWD/crates/$name/out}/$name
    [ -x "$program" ] || { echo "there is no $program: make test builds it"; exit 1; }
    ln -s "$(realpath "$program")" "$room/programs/$name"
done

has_gateway=
if program=$(tools/gateway.sh); then
    ln -s "$program" "$room/programs/rudderraisin_gateway"
    has_gateway=yes
else
    echo "package: the gateway is left out"
fi

# tells WHAT COMMAND.. : counts whether a command does what it is to do.
tells() {
    local what=$1
    shift
    if "$@"; then passed=$((passed + 1)); else echo "package: $what: it is not so"; failed=$((failed + 1)); fi
}

# quietly COMMAND.. : a command whose output nobody wants.
quietly() { "$@" > /dev/null; }

# made TARGET [WORD].. : a target of the Makefile with the folder of the programs.
made() { PROGRAMS=$room/programs make -s "$@" >> "$room/log" 2>&1 || { cat "$room/log"; exit 1; }; }

# Everything lies below DESTDIR, where the programs are told it is without it.
made install DESTDIR="$room/staged" PREFIX=/usr SYSCONFDIR=/etc
for file in usr/bin/lobby_main usr/bin/lobby_account usr/bin/lobby_record usr/lib/systemd/system/rudderraisin.service \
    usr/lib/systemd/system/rudderraisin-record-pack.timer etc/rudderraisin/accounts.toml usr/share/doc/rudderraisin/README.md; do
    tells "$file is installed" test -f "$room/staged/$file"
done
tells 'the unit names its program' grep -q ' /usr/bin/lobby_main serve /etc/rudderraisin/lobby.toml ' "$room/staged/usr/lib/systemd/system/rudderraisin.service"
tells 'only its group reads the accounts' test "$(stat -c %a "$room/staged/etc/rudderraisin/accounts.toml")" = 640

if [ -n "$has_gateway" ]; then
    tells 'the gateway has a second name' test "$(readlink "$room/staged/usr/bin/rudderraisin_gatewayctl")" = rudderraisin_gateway
    tells 'the gateway wants no library' test -z "$(readelf -d "$room/staged/usr/bin/rudderraisin_gateway" | grep NEEDED)"
fi

# What an operator changed stays, and goes with nothing else.
top=$room/top
made install PREFIX="$top"
unit=$top/lib/systemd/system/rudderraisin.service
files=$top/etc/rudderraisin
tells 'the files name what is installed' test -z "$(grep -l 'make hash\|[^/]docs/' "$files"/*)"
tells 'the files are good, and nobody can log in yet' grep -qx 'accounts: 0 can log in' <("$top/bin/lobby_check" "$files/lobby.toml" "$files/accounts.toml")
port=$(cd checks && python3 -c 'import lobby_server; print(lobby_server.free_port())')
sed -i "s/^address = .*/address = \"127.0.0.1:$port\"/" "$files/lobby.toml"
tells 'an account is made' grep -qx 'Anna is added, with id 1' <(echo password | "$top/bin/lobby_account" add Anna)
tells 'it can log in' grep -qx 'accounts: 1 can log in' <("$top/bin/lobby_check" "$files/lobby.toml" "$files/accounts.toml")
for name in lobby_account lobby_record; do
    tells "$name says its version" grep -q "^$name [0-9]" <("$top/bin/$name" --version)
done
mkdir "$room/records"
tells 'lobby_record finds what it is made of' grep -q 'there is no record' <("$top/bin/lobby_record" find Anna "$room/records" 2>&1)
word=$(echo password | "$top/bin/lobby_main" hash)
for number in {1..200}; do printf '[[account]]\nname = "u%d"\npassword = "%s"\nid = %d\n' "$number" "$word" "$((number + 1))"; done >> "$files/accounts.toml"
cp -r "$files" "$room/changed"
made install PREFIX="$top"
tells 'what was changed stays' diff -r "$room/changed" "$files"

if command -v systemd-analyze > /dev/null; then
    tells 'the units are good' systemd-analyze verify --man=no "$top"/lib/systemd/system/*.{service,timer}
    for file in "$top"/lib/systemd/system/*.service; do
        tells "${file##*/} shuts its program in" quietly systemd-analyze security --offline=true --threshold=20 "$file"
    done
else
    echo "package: there is no systemd-analyze, which looks at the units"
fi
if command -v pandoc > /dev/null && command -v man > /dev/null; then
    for page in "$top"/share/man/man?/*; do
        man -l --warnings "$page" > "$room/page" 2> "$room/warnings" || true
        tells "${page##*/} is shown without a warning" test -s "$room/page" -a ! -s "$room/warnings"
    done
else
    echo "package: there is no pandoc or no man, which make and show the manual pages"
fi

# commands KEY : the commands of the unit under this key, a line each.
commands() { sed -n "s/^$1=//p" "$unit"; }

# start LOG : starts the server as the unit does, in a folder as it gets one. It tells operators there.
start() {
    local command
    rm -rf "$room/run"
    mkdir "$room/run"
    cd "$room/run"
    commands ExecStartPre | while read -r command; do eval "$command" >> "$room/log"; done
    (eval "exec $(commands ExecStart)" > "$room/out" 2> "$1") &
    server=$!
    cd - > /dev/null
}

# greeted : whether the start is over, and the server greets, as the unit finds out.
greeted() { (export MAINPID=$server && eval "timeout 90 $(commands ExecStartPost | sed 's/^+//')") 2> "$room/why"; }

# fails STATUS WHY : whether a start fails for this reason, and the server has ended with this status.
fails() {
    local status=0
    if greeted || ! grep -q "$2" "$room/why"; then return 1; fi
    kill_rest
    wait "$server" || status=$?
    server=
    [ "$status" -eq "$1" ]
}

# ignores_limit : whether the server ignores the signal that tells of a limit of file sizes, which is number 25.
ignores_limit() { [ $(((16#$(sed -n 's/^SigIgn:[[:space:]]*//p' "/proc/$server/status") >> 24) & 1)) -eq 1 ]; }

# stop : stops it as the unit does, and tells whether it ended in order.
stop() {
    local status=0
    (cd "$room/run" && export MAINPID=$server && eval "timeout 60 $(commands ExecStop)") || true
    kill_rest
    wait "$server" || status=$?
    server=
    [ "$status" -eq 0 ]
}

# answers : whether the server takes a connection and greets it, within 20 seconds.
answers() {
    local line
    for _ in {1..200}; do
        if (exec {it}<> "/dev/tcp/127.0.0.1/$port" && read -t 10 -r -u "$it" line && [ "$line" = 'TASSERVER 0.38 * 8201 0' ]) 2> /dev/null; then return; fi
        sleep 0.1
    done
    return 1
}

start "$room/told"
tells 'a start is over when the server greets' greeted
tells 'the server answers' answers
tells 'a record that meets a limit of file sizes does not end it' ignores_limit
checks/readers.py "$port" 200 "$room/talked" &
crowd=$!
until [ -e "$room/talked" ] || ! kill -0 "$crowd" 2> /dev/null; do sleep 0.1; done
tells 'the server stops in order' stop
tells '200 clients talk, and read to the end' wait "$crowd"
tells 'it tells operators that it started' grep -q '^started version=.* accounts=' "$room/told"
tells 'it says what its workers did' grep -q '^stopped worker=0 events=[1-9]' "$room/told"
tells 'it tells nothing else' test "$(grep -cv '^started version=\|^stopped worker=' "$room/told")" -eq 0
tells 'what is printed is what lobby_check says' cmp -s "$room/out" <("$top/bin/lobby_check" "$files/lobby.toml" "$files/accounts.toml")

# Where its log takes nothing, or nobody reads it, it stops all the same.
start /dev/full
tells 'the server answers though its log is full' answers
tells 'it stops though its log is full' stop
mkfifo "$room/unread"
cat "$room/unread" > /dev/null &
reader=$!
start "$room/unread"
tells 'the server answers though nobody reads its log' answers
kill "$reader"
tells 'it stops though nobody reads its log' stop

# A start that fails is told, also where another server greets at the address.
sed -i 's/^workers = 1/workers = 0/' "$files/lobby.toml"
start "$room/told"
tells 'a start by a file that is refused fails' fails 2 'the server has ended'
sed -i 's/^workers = 0/workers = 1/' "$files/lobby.toml"
python3 -c '
import socket, sys
with socket.create_server(("127.0.0.1", int(sys.argv[1]))) as server:
    while True:
        server.accept()[0].send(b"TASSERVER 0.38 * 8201 0\n")
' "$port" &
other=$!
tells 'another server answers' answers
start "$room/told"
tells 'a start at an address in use fails' fails 3 'the server has ended'
kill "$other"
wait "$other" 2> /dev/null || true
start "$room/told"
tells 'the server answers at the address that is free again' greeted
tells 'the server stops behind starts that failed' stop

# A stop may come before what holds the server's input has heard of it.
mkdir "$room/late"
printf '#!/bin/sh\nsleep 1\nexec %s "$@"\n' "$(command -v cat)" > "$room/late/cat"
chmod 755 "$room/late/cat"
PATH=$room/late:$PATH start "$room/told"
tells 'the server answers at once' answers
tells 'it stops though it has just begun' stop

# gateway_commands KEY : the commands of the gateway's unit under this key, a line each, with folders as it gets them.
gateway_commands() {
    sed -n "s|%t|$room/run|g; s|%S|$room/state|g; s/^$1=+\{0,1\}//p" "$top/lib/systemd/system/rudderraisin-gateway.service"
}

# make_certificate : makes one as OPERATING has it, and prints its fingerprint.
make_certificate() {
    openssl req -x509 -newkey ec -pkeyopt ec_paramgen_curve:P-256 -nodes -days 30 -subj /CN=lobby -keyout "$files/key.pem" \
        -out "$files/cert.pem" 2> /dev/null
    openssl x509 -in "$files/cert.pem" -outform der | sha256sum | cut -d ' ' -f 1
}

# comes_in FINGERPRINT : whether one who says STLS is shown this certificate, and greeted behind it, within 20 seconds.
comes_in() {
    timeout 60 python3 - "$door" "$1" <<'PYTHON'
import hashlib, socket, ssl, sys, time

def greeted():
    with socket.create_connection(("127.0.0.1", int(sys.argv[1])), 10) as link:
        lines = link.makefile("rb")
        if lines.readline() != b"TASSERVER 0.38 * 8201 0\n" or link.sendall(b"STLS\n") or lines.readline() != b"OK\n":
            return False
        context = ssl.SSLContext(ssl.PROTOCOL_TLS_CLIENT)
        context.check_hostname, context.verify_mode = False, ssl.CERT_NONE
        with context.wrap_socket(link) as inside:
            shown = hashlib.sha256(inside.getpeercert(True)).hexdigest()
            return shown == sys.argv[2] and inside.makefile("rb").readline() == b"TASSERVER 0.38 * 8201 0\n"

until = time.monotonic() + 20
while True:
    try:
        found = greeted()
    except OSError:
        found = False
    if found or time.monotonic() > until:
        sys.exit(not found)
    time.sleep(0.1)
PYTHON
}

# reload_gateway : tells the gateway to read its files anew, as its unit does.
reload_gateway() {
    local command
    gateway_commands ExecReload | (export MAINPID=$gateway && while read -r command; do eval "$command" || exit; done)
}

# reload_is_refused TEXT : whether that fails, and says this.
reload_is_refused() { ! reload_gateway 2> "$room/refused" && grep -q "$1" "$room/refused"; }

# run_gateway : starts the gateway as its unit does, and lets somebody in.
run_gateway() {
    local command shown
    door=$(cd checks && python3 -c 'import lobby_server; print(lobby_server.free_port())')
    mkdir -p "$room/run/rudderraisin-gateway" "$room/state/rudderraisin-gateway"
    sed -i "s/^listen = .*/listen = 127.0.0.1:$door/; s/^server = .*/server = 127.0.0.1:$port/; s/^proxy-protocol = .*/proxy-protocol = false/" \
        "$files/gateway.conf"
    shown=$(make_certificate)
    eval "$(gateway_commands Environment | sed "s/^\"\([A-Z]*\)=\(.*\)\"$/local \1='\2'/")"
    gateway_commands ExecStartPre | while read -r command; do eval "$command"; done
    (eval "exec $(gateway_commands ExecStart)" > "$room/out" 2> "$room/told") &
    gateway=$!
    tells 'one comes in through the gateway' comes_in "$shown"
    tells 'the gateway takes orders by its second name' \
        quietly "$top/bin/rudderraisin_gatewayctl" --control "$room/run/rudderraisin-gateway/control" list
    shown=$(make_certificate)
    tells 'it is told to read its files anew' reload_gateway
    tells 'a reload brings a new certificate' comes_in "$shown"
    echo 'lisen = 127.0.0.1:1' >> "$files/gateway.conf"
    tells 'a reload fails where a setting is refused' reload_is_refused 'unknown key "lisen"'
    sed -i '$d' "$files/gateway.conf"
    kill "$gateway"
    wait "$gateway" 2> /dev/null || true
    gateway=
    rm "$files/cert.pem" "$files/key.pem"
}

kept='./etc/rudderraisin/accounts.toml ./etc/rudderraisin/lobby.toml '
if [ -n "$has_gateway" ] && command -v openssl > /dev/null; then
    start "$room/told"
    tells 'the server answers behind a gateway' answers
    run_gateway
    tells 'it stops behind a gateway' stop
    kept="./etc/rudderraisin/accounts.toml ./etc/rudderraisin/gateway.conf ./etc/rudderraisin/lobby.toml "
else
    echo "package: there is no Go or no openssl: the gateway is not tried"
fi

made uninstall PREFIX="$top"
tells 'what was changed is left, and nothing else' test "$(cd "$top" && find . ! -type d | sort | tr '\n' ' ')" = "$kept"

echo "package: $passed passed, $failed failed"
[ "$failed" -eq 0 ]
