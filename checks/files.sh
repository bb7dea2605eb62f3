#!/usr/bin/env bash
# files.sh [PROGRAM [PLAYER]]: has `lobby_check`, as the gate built it, or other builds of it and of lobby_play, look at good files, and compares
# what it prints and its exit status: of the longest login that is what lobby_play shows of one. setup_faults.py has the bad files.
set -euo pipefail
cd "$(dirname "$0")/.."
check=${1:-$PWD/crates/lobby_check/out/lobby_check}
[ -x "$check" ] || { echo "there is no $check: make test builds it"; exit 1; }
passed=0
failed=0
room=$(mktemp -d)
trap 'rm -rf "$room"' EXIT

settings='settings: address 127.0.0.1:8200, workers 1
memory: some 2863 bytes a client, and some 4194304 more for one that does not read
memory: some 41971 MB if 10000 clients read nothing, and more where buffers have room to spare'
accounts='accounts: 3 can log in'
name='name = "Anna"'
word='password = "X03MO1qnZdYdgyfeuILPmQ=="'
one="[[account]]\n$name\n$word\nid = 1"
# expect STATUS OUTPUT SETTINGS ACCOUNTS : what it prints of these two files.
expect() {
    local status=$1 output=$2 got=0
    shift 2
    "$check" "$@" < /dev/null > "$room/out" 2> "$room/err" || got=$?
    printf '%s\n' "$output" | cmp -s - "$room/out" && [ ! -s "$room/err" ] && [ "$got" -eq "$status" ] && { passed=$((passed + 1)); return; }
    echo "lobby_check $*: status $got, not $status, or other output:"
    cat "$room/out" "$room/err"
    failed=$((failed + 1))
}

# Of all files that are good it says as whom it tried them, and that the address is free.
user="user: tried as $(id -un), number $(id -u)"
sed 's/:8200/:0/' examples/lobby.toml > "$room/lobby.toml"
settings=${settings/:8200/:0}
free='address: 127.0.0.1:0 is free'
expect 0 "$settings"$'\n'"$accounts"$'\n'"login: up to 49694 bytes, if each other user has opened a battle with the longest texts
$free
$user" "$room/lobby.toml" examples/accounts.toml
: > "$room/empty"
expect 2 "settings: $room/none: the file cannot be read: entity not found
accounts: 0 can log in
$user" "$room/none" "$room/empty"

# What it says of the longest login is what lobby_play shows of one: four users with the longest names, addresses and numbers, of
# whom three have opened battles by lines of 8,192 bytes and changed their maps by such lines. Here a status has a digit less than the
# longest of an account, and a battle's number, which stands in two lines, nine less.
play=${2:-crates/lobby_play/out/lobby_play}
of_length() { head -c "$1" /dev/zero | tr '\0' "$2"; }
{
    for k in 1 2 3 4; do echo "account ${k}234567890123456789_ X03MO1qnZdYdgyfeuILPmQ== 429496729$k 7"; done
    echo "motd $(of_length 1000 m)"
    echo 'limit 67108864'
    for k in 1 2 3 4; do
        printf 'open %s 255.255.255.255\nsend %s #2147483647 LOGIN %s234567890123456789_ X03MO1qnZdYdgyfeuILPmQ== -2147483648 * p\\nMYSTATUS 3\\n\n' $k $k $k
        if [ $k -le 3 ]; then
            echo "send $k OPENBATTLE 0 0 * 0 0 0 0 0 $(of_length 8161 e)\t\t\t\t\n"
            echo "send $k UPDATEBATTLEINFO 0 0 0 $(of_length 8169 m)\n"
        fi
        echo "take $k"
        if [ $k -eq 4 ]; then echo "show $k"; else echo "all $k"; fi
    done
} > "$room/script"
"$play" < "$room/script" > "$room/shown"
# `4> ` stands before each line, and the greeting is none of the login's.
login=$(($(sed 's/^4> //; 1d' "$room/shown" | wc -c) + 4 + 3 * 2 * 9))
for k in 1 2 3 4; do printf '[[account]]\nname = "%s234567890123456789_"\n%s\nid = %s\n' $k "$word" $k; done > "$room/accounts"
printf 'address = "0.0.0.0:0"\noutbox_limit = 65536\nmotd = ["%s"]\n' "$(of_length 1000 m)" > "$room/settings"
expect 0 "settings: address 0.0.0.0:0, workers 4
memory: some 2863 bytes a client, and some 65536 more for one that does not read
memory: some 683 MB if 10000 clients read nothing, and more where buffers have room to spare
accounts: 4 can log in
login: up to $login bytes, if each other user has opened a battle with the longest texts
warning: \`outbox_limit\` is less: who logs in is cut off while more than 2 such battles are open
address: 0.0.0.0:0 is free
$user" "$room/settings" "$room/accounts"

# With 300 accounts one such battle is too many there, if all others are in it: each member is a line.
for k in $(seq 300); do printf '[[account]]\nname = "%s"\n%s\nid = %s\n' "n$k" "$word" $k; done > "$room/accounts"
printf 'address = "0.0.0.0:0"\noutbox_limit = 65536\n' > "$room/settings"
"$check" "$room/settings" "$room/accounts" > "$room/out" < /dev/null
if grep -q 'is cut off while more than 0 such battles are open$' "$room/out"; then
    passed=$((passed + 1))
else
    echo "lobby_check of 300 accounts:"
    cat "$room/out"
    failed=$((failed + 1))
fi

usage=0
"$check" "$room/empty" > "$room/out" 2> "$room/err" || usage=$?
if [ "$usage" -eq 2 ] && [ ! -s "$room/out" ] && [ "$(cat "$room/err")" = 'usage: lobby_check SETTINGS ACCOUNTS' ]; then
    passed=$((passed + 1))
else
    echo "lobby_check with one argument: status $usage"
    failed=$((failed + 1))
fi

echo "files: $passed passed, $failed failed"
[ "$failed" -eq 0 ]
