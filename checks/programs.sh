#!/usr/bin/env bash
# Runs the programs, as the gate built them, with good and bad arguments and inputs, and compares what they print, what they
# tell on standard error and their exit status. The files in examples/ are read by serve.sh. Each program says its version, which is
# the newest numbered one of CHANGELOG, or of a tree behind that its own, and how it is used. Then has lobby_play play a script with more and more memory.
set -euo pipefail
cd "$(dirname "$0")/.."
play=crates/lobby_play/out/lobby_play
main=crates/lobby_main/out/lobby_main
for program in "$play" "$main"; do
    [ -x "$program" ] || { echo "there is no $program: make test builds it"; exit 1; }
done
usage='usage: lobby_main serve SETTINGS ACCOUNTS or lobby_main hash'
passed=0
failed=0
room=$(mktemp -d)
trap 'rm -rf "$room"' EXIT

# expect STATUS OUTPUT ERROR INPUT PROGRAM ARGUMENT.. : the output, the error and the input as printf writes them, and an
# input that is a folder cannot be read.
expect() {
    local status=$1 output=$2 error=$3 input=$4 got=0
    shift 4
    if [ -d "$input" ]; then set -- "$input" "$@"; else printf "$input" > "$room/in"; set -- "$room/in" "$@"; fi
    local from=$1
    shift
    "$@" < "$from" > "$room/out" 2> "$room/err" || got=$?
    printf "$output" | cmp -s - "$room/out" && printf "$error" | cmp -s - "$room/err" && [ "$got" -eq "$status" ] && { passed=$((passed + 1)); return; }
    echo "$* < ${input:0:40}: status $got, not $status, or other output"
    failed=$((failed + 1))
}

expect 0 'X03MO1qnZdYdgyfeuILPmQ==\n' '' 'password\n' "$main" hash
expect 0 'X03MO1qnZdYdgyfeuILPmQ==\n' '' 'password\r\nanother\n' "$main" hash
expect 0 '1B2M2Y8AsgTpgAmY7PhCfg==\n' '' '' "$main" hash
expect 1 '' "$usage\n" '' "$main"
expect 1 '' "$usage\n" 'password\n' "$main" hash more
expect 1 '' "$usage\n" 'password\n' "$main" Hash
expect 1 '' "$usage\n" "$(printf 'a%.0s' {1..8193})\n" "$main" hash
expect 1 '' "$usage\n" '' "$main" --version more
expect 2 '' 'cannot read input\n' . "$main" hash

version=$(sed -n 's/^## \[\([0-9][0-9.]*\)\].*/\1/p' CHANGELOG.md | head -n 1)
# tells NAME USAGE : it tells its version, and its usage first where it is asked for help.
tells() {
    local program=crates/$1/out/$1
    expect 0 "$1 $version\n" '' '' "$program" --version
    if [ "$("$program" --help < /dev/null 2>&1 | head -n 1)" = "usage: $2" ]; then passed=$((passed + 1)); return; fi
    echo "$1 --help does not begin with its usage"
    failed=$((failed + 1))
}
cp "$main" "$room/lobby_main"
packaging/deb.py --mark "$room/lobby_main"
packaging/deb.py --mark "$room/lobby_main"
expect 0 "lobby_main $(packaging/deb.py --version)\n" '' '' "$room/lobby_main" --version
tells lobby_main 'lobby_main serve SETTINGS ACCOUNTS'
tells lobby_play 'lobby_play < SCRIPT'
tells lobby_check 'lobby_check SETTINGS ACCOUNTS'
tells view_show 'view_show [whole|BYTES] < RECEIVED'

greeting='1> TASSERVER 0.38 * 8201 0\n'
expect 0 '' '' '' "$play"
expect 0 "$greeting" '' 'open 1 10.0.0.1\nshow 1\n' "$play"
expect 1 "$greeting" 'line 3: bad step\n' 'open 1 10.0.0.1\nshow 1\nshow 2\nshow 1\n' "$play"
expect 2 '' 'device fault\n' . "$play"
expect 2 '' 'script too long\n' "$(printf '\\n%.0s' {1..1048577})" "$play"

# Records that are played, and that are refused by file and line.
mkdir "$room/1"
printf 'address = "0.0.0.0:0"\n' > "$room/1/settings.toml"
: > "$room/1/accounts.toml"
# record STATUS OUTPUT ERROR QUESTIONS FILE.. : the files of the workers as printf writes them.
record() {
    local status=$1 output=$2 error=$3 questions=$4 worker=0
    shift 4
    rm -f "$room"/1/[0-9]
    for file in "$@"; do printf "$file" > "$room/1/$worker"; worker=$((worker + 1)); done
    expect "$status" "$output" "$error" "$questions" "$play" --record "$room/1"
}
first='0 open 1 10.0.0.1\n2 send 1 PING\\n\n2 take 1\n3 read 1 29\n'
end='the record ends before place'
record 0 "${greeting}1> PONG\n" "$end 4\n" 'show 1\n' "${first}end stop\n" '1 open 2 10.0.0.2\nend stop\n'
record 0 "$greeting" "$end 2\n" 'show 1\n' '0 open 1 10.0.0.1\n2 send 1 PING\\n\n' '1 open 2 10.0.0.2\n3 shut 2\n'
record 0 'me \n' "$end 4\n" 'until 1\nview 1\n' "$first" '1 open 2 10.0.0.2\n'
record 1 '' 'no file has place 1\n' '' "${first}end stop\n"
record 1 '' 'no file has place 1\n' '' "$first"
record 1 '' 'line 2 of file 1 has the place of a line of file 0\n' '' "$first" '1 open 2 10.0.0.2\n2 shut 2\n'
record 1 '' 'line 2 of file 0 is no step of a record\n' '' '0 open 1 10.0.0.1\n1 hop 1\n'
record 1 '' 'line 2 of file 0 does not happen so\n' '' '0 open 1 10.0.0.1\n1 read 1 25\n'
record 1 '' 'line 1 is no question\n' 'show\n' '0 open 1 10.0.0.1\n'
expect 2 '' 'settings.toml: the file cannot be read: entity not found\n' '' "$play" --record "$room/none"

# limited INPUT LIMIT : lobby_play on this input, where its memory may come to so many kB.
limited() { (ulimit -c 0 -d "$2" && exec "$play") < "$1" > "$room/out" 2> "$room/err"; }

# With more and more memory a script is played to its end, or memory runs out and what was shown is the front of that. It begins
# with so little that the program can just start.
word=X03MO1qnZdYdgyfeuILPmQ==
{
    printf 'account Anna %s 1 0 DE\nopen 1 10.0.0.1\nsend 1 LOGIN Anna %s 0 * Checks 1.0\\nJOIN main\\n\nall 1\nshow 1\n' "$word" "$word"
    for number in {1..300}; do printf 'send 1 SAY main %01000d\\n\nall 1\nshow 1\n' "$number"; done
} > "$room/long"
"$play" < "$room/long" > "$room/whole"
limit=256
until [ "$limit" -gt 65536 ] || limited /dev/null "$limit" 2> /dev/null; do limit=$((limit + 64)); done
refused=0
got=4
for ((; got == 4 && limit <= 65536; limit += 64)); do
    got=0
    limited "$room/long" "$limit" || got=$?
    if [ "$got" -eq 4 ] && printf 'no memory\n' | cmp -s - "$room/err" && head -c "$(wc -c < "$room/out")" "$room/whole" | cmp -s - "$room/out"; then
        refused=$((refused + 1))
    elif [ "$got" -eq 0 ] && [ ! -s "$room/err" ] && cmp -s "$room/whole" "$room/out"; then
        passed=$((passed + 1))
    else
        echo "lobby_play with $limit kB: status $got, or other output"
        failed=$((failed + 1))
        got=1
    fi
done
if [ "$refused" -eq 0 ] || [ "$got" -eq 4 ]; then
    echo "lobby_play with little memory: memory ran out $refused times, and at last with status $got"
    failed=$((failed + 1))
fi

echo "programs: $passed passed, $failed failed"
[ "$failed" -eq 0 ]
