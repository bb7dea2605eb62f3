#!/usr/bin/env bash
# refused_memory.sh [PROGRAM [PLAYER]]: refuses each allocation in turn, one a run, to a server that starts and to a player of a record,
# as the gate built them, or to other builds of them. The server says of each that it has no memory, but for those of its two threads: of
# these that it cannot listen. A thread takes two allocations, one that the server asks for and then one that the C library does. A server
# that starts without what was refused fails the check. The player ends with status 4, and has shown the front of what it shows else.
set -euo pipefail
program=$(realpath -m "${1:-$(dirname "$0")/../crates/lobby_main/out/lobby_main}")
player=$(realpath -m "${2:-$(dirname "$0")/../crates/lobby_play/out/lobby_play}")
for it in "$program" "$player"; do [ -x "$it" ] || { echo "there is no $it: make test builds it"; exit 1; }; done
cd "$(dirname "$0")/.."
room=$(mktemp -d)
trap 'rm -rf "$room"' EXIT
checks/build_library.sh checks/refuse_allocation.c "$room/refuse_allocation.so"
printf 'address = "127.0.0.1:0"\nworkers = 2\nmotd = ["Welcome"]\nstop_at_input_end = true\nlog = "none"\n' > "$room/settings.toml"
# start NUMBER : who asked for this allocation, which is refused to a server, its status, and what it says.
start() {
    local got=0
    : > "$room/told"
    timeout 60 env REFUSED="$1" REFUSED_TOLD="$room/told" LD_PRELOAD="$room/refuse_allocation.so" \
        "$program" serve "$room/settings.toml" examples/accounts.toml < /dev/null > "$room/said" 2>&1 || got=$?
    echo $(cat "$room/told"): "$got" $(cat "$room/said")
}
failed=0
own=0
threads=0
last=
for ((number = 1; number <= 1000; number++)); do
    said=$(start "$number")
    case $last,$said in
        'program: 3 cannot listen,library: 3 cannot listen') threads=$((threads + 1)) ;;
        'program: 3 cannot listen',*) echo "allocation $((number - 1)) is of no thread: $last"; failed=$((failed + 1)) ;;
        *,'program: 4 no memory') own=$((own + 1)) ;;
        *,'program: 3 cannot listen') ;;
        *,': 0 listening worker 0: 0 events worker 1: 0 events') break ;;
        *) echo "allocation $number refused to a server that starts: $said"; failed=$((failed + 1)) ;;
    esac
    last=$said
done
echo "a server that starts: $own allocations and those of $threads threads were refused one by one, and $failed were told otherwise"

mkdir "$room/record"
printf 'address = "0.0.0.0:0"\n' > "$room/record/settings.toml"
: > "$room/record/accounts.toml"
printf '0 open 1 10.0.0.1\n2 send 1 PING\\n\n2 take 1\n3 read 1 29\nend stop\n' > "$room/record/0"
printf '1 open 2 10.0.0.2\n4 shut 2\nend stop\n' > "$room/record/1"
printf 'until 2\nshow 1\nuntil 9\nshow 1\nview 1\n' > "$room/questions"
"$player" --record "$room/record" < "$room/questions" > "$room/whole" 2> /dev/null
# replay NUMBER : who asked for this allocation, which is refused to a player of the record, its status, and what it says.
replay() {
    local got=0
    : > "$room/told"
    timeout 60 env REFUSED="$1" REFUSED_TOLD="$room/told" LD_PRELOAD="$room/refuse_allocation.so" \
        "$player" --record "$room/record" < "$room/questions" > "$room/shown" 2> "$room/said" || got=$?
    head -c "$(wc -c < "$room/shown")" "$room/whole" | cmp -s - "$room/shown" || got="$got and other output"
    echo $(cat "$room/told"): "$got" $(cat "$room/said")
}
played=0
for ((last_of = number, number = 1; number <= 10000; number++)); do
    said=$(replay "$number")
    case $said in
        'program: 4 '*memory) played=$((played + 1)) ;;
        ': 0 the record ends before place 5') break ;;
        *) echo "allocation $number refused to a player of a record: $said"; failed=$((failed + 1)) ;;
    esac
done
echo "a record that is played: $played allocations were refused one by one"
[ "$failed" -eq 0 ] && [ "$own" -gt 50 ] && [ "$threads" -eq 2 ] && [ "$last_of" -le 1000 ] && [ "$played" -gt 50 ] && [ "$number" -le 10000 ]
