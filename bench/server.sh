#!/usr/bin/env bash
# The server beside a bare epoll loop, over loopback: fan-out of short and of longer lines, PING, logins, memory, system calls.
#   bench/server.sh [WORKERS [RUNS [SECONDS]]]
# Runs the server that `make build` leaves, or the one at LOBBY_MAIN, with so many workers (1), and the bare loop with one write a
# client and round and with one write a line: all in turn, a new process each time, so many runs (5), a measured time of so many
# seconds (3) where a mode has one. Prints medians of the runs, and of the ratios of each turn. MODES, some of
# "fanout lengths ping quiet crowd logins log record memory calls more", leaves the others out; "more" compares four workers with one, and
# four threads of the bare loop, which share all under one lock, with one; where LOBBY_BEFORE names another build, that too. Two others,
# "waits marks", run the other build beside, and compare both in turn.
set -euo pipefail
cd "$(dirname "$0")/.."
workers=${1:-1}
runs=${2:-5}
seconds=${3:-3}
all="fanout lengths ping quiet crowd logins log record memory calls more"
modes=${MODES:-$all}
main=${LOBBY_MAIN:-$PWD/bin/lobby_main}
before=${LOBBY_BEFORE:-$main}

# number NAME WORD MOST : refuses a word that is no number from 1 to MOST.
number() {
    if ! [[ $2 =~ ^[1-9][0-9]{0,3}$ ]] || [ "$2" -gt "$3" ]; then echo "$1 is to be a number from 1 to $3, not $2"; exit 1; fi
}

number WORKERS "$workers" 64
number RUNS "$runs" 1000
number SECONDS "$seconds" 30
if [ $# -gt 3 ]; then echo "there is a word behind SECONDS: $4"; exit 1; fi
for mode in $modes; do
    case " $all waits marks " in *" $mode "*) ;; *) echo "MODES has $mode, which is none of: $all waits marks"; exit 1 ;; esac
done
for program in "$main" "$before"; do [ -x "$program" ] || { echo "there is no $program: make build makes bin/lobby_main"; exit 1; }; done
ulimit -n 8192
# As `make serve` and the unit have it.
export MALLOC_MMAP_THRESHOLD_=8192
room=$(mktemp -d)
server=

stop() {
    if [ -z "$server" ]; then return; fi
    kill "$server" 2> "$room/kill" || true
    wait "$server" 2> "$room/kill" || true
    server=
}
trap 'stop; rm -rf "$room"' EXIT

for program in load threaded_load bare_fanout; do gcc -O2 -pthread -o "$room/$program" "bench/$program.c"; done
for number in $(seq 1 2000); do
    printf '[[account]]\nname = "u%04d"\npassword = "X03MO1qnZdYdgyfeuILPmQ=="\nid = %d\n' "$number" "$number"
done > "$room/accounts.toml"

# launch SERVER PORT : becomes the server.
launch() {
    local count=$workers
    case $1 in
        *one) count=1 ;;
        *four) count=4 ;;
    esac
    printf 'address = "127.0.0.1:%d"\nworkers = %d\n' "$2" "$count" > "$room/settings.toml"
    case $1 in
        silent) echo 'log = "none"' >> "$room/settings.toml" ;;
        telling) echo 'log = "all"' >> "$room/settings.toml" ;;
        recording) mkdir -p "$room/records" && echo "record = \"$room/records\"" >> "$room/settings.toml" ;;
    esac
    case $1 in
        ours | silent | telling | recording | one | four) exec "$main" serve "$room/settings.toml" "$room/accounts.toml" ;;
        before*) exec "$before" serve "$room/settings.toml" "$room/accounts.toml" ;;
        bare) exec "$room/bare_fanout" "$2" ;;
        bare_lines) exec "$room/bare_fanout" "$2" lines ;;
        bare_four) exec "$room/bare_fanout" "$2" 4 ;;
    esac
}

# start SERVER : at a port below those that connecting sockets get, at another one where it is in use.
start() {
    local try moment
    for try in $(seq 1 20); do
        port=$((20000 + RANDOM % 12000))
        : > "$room/told"
        launch "$1" "$port" > "$room/told" 2> "$room/error" < /dev/null &
        server=$!
        for moment in $(seq 1 200); do
            if grep -q '^listening$' "$room/told"; then return; fi
            if ! kill -0 "$server" 2> "$room/kill"; then break; fi
            sleep 0.05
        done
        stop
    done
    echo "no $1 starts in $try tries and $moment looks:"
    cat "$room/error"
    exit 1
}

# measure SERVER MODE WORD.. : one run of the load at a new server, whose figures are kept.
measure() {
    local name=$1 mode=$2 load=load
    shift 2
    case $mode in talk | pings) load=threaded_load ;; esac
    start "$name"
    timeout 90 "$room/$load" "$mode" "$port" "$server" "$@" >> "$room/$name.$mode.$1.${2:-}" || { echo "$name: the load failed at $mode $*"; exit 1; }
    stop
}

# in_turn SERVERS MODE WORD.. : so many runs of these servers.
in_turn() {
    local run name names=$1
    shift
    for run in $(seq 1 "$runs"); do
        for name in $names; do measure "$name" "$@"; done
    done
}

median() { sort -g | awk '{ at[NR] = $1 } END { print at[int((NR + 1) / 2)] }'; }

# each FILE EXPRESSION : of each run, the expression over its figures.
each() { awk '{ for (i = 1; i < NF; i += 2) of[$i] = $(i + 1); print '"$2"' }' "$room/$1"; }

# figure FORM FILE EXPRESSION : the median of the runs.
figure() { printf "$1" "$(each "$2" "$3" | median)"; }

# ratio FILE FILE EXPRESSION : the median of the ratios of runs in one turn.
ratio() { printf '%.2f' "$(paste <(each "$1" "$3") <(each "$2" "$3") | awk '$2 > 0 { print $1 / $2 }' | median)"; }

# Processor seconds a million delivered lines.
fanout_cost='(of["user"] + of["system"]) / of["lines"] * 1e6'

fanout() {
    local members window name
    echo "Fan-out: processor seconds a million delivered lines (user + system), delivered lines a second, seconds taken by $workers worker(s)"
    echo '| Members | In flight | Server | Bare | Bare, a write a line | Server / bare | Server / bare, a write a line | Lines a second: server | bare | bare, a write a line |'
    echo '|---|---|---|---|---|---|---|---|---|---|'
    for window in 256 4; do
        for members in 50 200 1000; do
            in_turn "ours bare bare_lines" fanout "$members" "$window" "$seconds"
            printf '| %d | %d ' "$members" "$window"
            for name in ours bare bare_lines; do
                figure '| %.3f' "$name.fanout.$members.$window" "$fanout_cost"
                figure ' (%.3f' "$name.fanout.$members.$window" 'of["user"] / of["lines"] * 1e6'
                figure ' + %.3f) ' "$name.fanout.$members.$window" 'of["system"] / of["lines"] * 1e6'
            done
            printf '| %s | %s ' "$(ratio "ours.fanout.$members.$window" "bare.fanout.$members.$window" "$fanout_cost")" \
                "$(ratio "ours.fanout.$members.$window" "bare_lines.fanout.$members.$window" "$fanout_cost")"
            for name in ours bare bare_lines; do figure "| %'.0f " "$name.fanout.$members.$window" 'of["lines"] / of["seconds"]'; done
            echo '|'
        done
    done
}

lengths() {
    local members window bytes name
    echo 'Fan-out of longer lines: processor seconds a million delivered lines'
    echo '| Members | In flight | Bytes of a line | Server | Bare | Server / bare |'
    echo '|---|---|---|---|---|---|'
    for window in 4 32; do
        for members in 50 1000; do
            for bytes in 300 600 1200 2400 4800 8000; do
                for name in ours bare; do rm -f "$room/$name.fanout.$members.$window"; done
                in_turn "ours bare" fanout "$members" "$window" "$seconds" 0 "$bytes"
                printf '| %d | %d | %d ' "$members" "$window" "$bytes"
                for name in ours bare; do figure '| %.3f ' "$name.fanout.$members.$window" "$fanout_cost"; done
                echo "| $(ratio "ours.fanout.$members.$window" "bare.fanout.$members.$window" "$fanout_cost") |"
            done
        done
    done
}

ping() {
    local clients depth name
    echo 'PING: answers a second, latency in us (median, 99th percentile), processor seconds a million answers'
    echo '| Clients | In flight each | Server | Bare | Server: median, 99 % | Bare: median, 99 % | Server: seconds a million | Bare | Server / bare, of seconds |'
    echo '|---|---|---|---|---|---|---|---|---|'
    for depth in 1 20; do
        for clients in 1 50; do
            in_turn "ours bare" ping "$clients" "$depth" "$seconds"
            printf '| %d | %d ' "$clients" "$depth"
            for name in ours bare; do figure "| %'.0f " "$name.ping.$clients.$depth" 'of["answers"] / of["seconds"]'; done
            for name in ours bare; do
                figure '| %.0f, ' "$name.ping.$clients.$depth" 'of["median"]'
                figure '%.0f ' "$name.ping.$clients.$depth" 'of["late"]'
            done
            for name in ours bare; do figure '| %.2f ' "$name.ping.$clients.$depth" '(of["user"] + of["system"]) / of["answers"] * 1e6'; done
            echo "| $(ratio "ours.ping.$clients.$depth" "bare.ping.$clients.$depth" '(of["user"] + of["system"]) / of["answers"]') |"
        done
    done
}

# What clients cost who are greeted and then do nothing.
quiet() {
    local others name
    echo 'With quiet clients beside: one client that keeps one PING unanswered, and a channel of 50 with 4 lines in flight'
    echo '| Quiet clients | PING, median us: server | bare | seconds a million: server | bare | SAY, seconds a million delivered lines: server | bare |'
    echo '|---|---|---|---|---|---|---|'
    for others in 0 200 2000; do
        for name in ours bare; do rm -f "$room/$name.ping.1.1" "$room/$name.fanout.50.4"; done
        in_turn "ours bare" ping 1 1 "$seconds" $([ "$others" = 0 ] || echo "$others")
        in_turn "ours bare" fanout 50 4 "$seconds" $([ "$others" = 0 ] || echo "$others")
        printf '| %d ' "$others"
        for name in ours bare; do figure '| %.0f ' "$name.ping.1.1" 'of["median"]'; done
        for name in ours bare; do figure '| %.1f ' "$name.ping.1.1" '(of["user"] + of["system"]) / of["answers"] * 1e6'; done
        for name in ours bare; do figure '| %.2f ' "$name.fanout.50.4" "$fanout_cost"; done
        echo '|'
    done
}

# What one waits who sends PING while others do much at once.
crowd() {
    local load words
    echo 'A quiet client beside a crowd: how long it waits for PONG in ms, the mean and the longest wait, and the longest in ms that the server ran; processor seconds of the server for all'
    echo '| Crowd | Mean | Longest | Longest, of the server | All |'
    echo '|---|---|---|---|---|'
    for load in "500 talk 64 1" "500 talk 64" "500 channels 200 1" "500 channels 200" "1600 reset 200"; do
        read -r -a words <<< "$load"
        rm -f "$room/ours.crowd.${words[0]}.${words[1]}"
        in_turn ours crowd "${words[@]}"
        printf '| %s ' "$load"
        for name in mean worst worst_busy; do figure '| %.1f ' "ours.crowd.${words[0]}.${words[1]}" 'of["'$name'"]'; done
        figure '| %.2f |\n' "ours.crowd.${words[0]}.${words[1]}" 'of["user"] + of["system"]'
    done
}

# runs_of FORM FILE EXPRESSION : the figure of each run.
runs_of() { each "$2" "$3" | awk -v form="$1" '{ printf (NR > 1 ? ", " : "") form, $1 }'; }

# The waits of two who are quiet beside a crowd, of two builds, with one worker and with four.
waits() {
    local load words file name workers
    echo 'Two who are quiet beside a crowd, before and after, in turn: the longest wait for PONG in ms in each run, the wait of half of all PINGs, the longest wait of a line said in a channel of its own; processor seconds of the server for all, medians, and the median of the ratios of each turn'
    echo '| Crowd | Workers | Longest before | After | Half before | After | Talk before | After | Processors before | After | After / before |'
    echo '|---|---|---|---|---|---|---|---|---|---|---|'
    for load in "500 talk 64 1" "500 talk 2" "500 talk 10" "500 talk 32" "500 talk 64" "500 channels 200 1" "500 channels 200" "1600 reset 1" "1600 reset 200" "20 units 8 1" "20 units 8"; do
        read -r -a words <<< "$load"
        file=crowd.${words[0]}.${words[1]}
        for workers in 1 4; do
            rm -f "$room/before.$file" "$room/ours.$file"
            in_turn "before ours" crowd "${words[@]}"
            printf '| %s | %d ' "$load" "$workers"
            for name in before ours; do printf '| %s ' "$(runs_of %.0f "$name.$file" 'of["worst"]')"; done
            for name in before ours; do figure '| %.2f ' "$name.$file" 'of["half"]'; done
            for name in before ours; do printf '| %s ' "$(runs_of %.0f "$name.$file" 'of["talk"]')"; done
            for name in before ours; do figure '| %.2f ' "$name.$file" 'of["user"] + of["system"]'; done
            echo "| $(ratio "ours.$file" "before.$file" 'of["user"] + of["system"]') |"
        done
    done
}

ping_cost='(of["user"] + of["system"]) / of["answers"] * 1e6'

# row SERVERS FILE WHAT FORM EXPRESSION : the figures of these servers, and the ratios of the first ones to the last.
row() {
    local names=$1 file=$2 what=$3 form=$4 expression=$5 name last=${1##* }
    printf '| %s ' "$what"
    for name in $names; do figure "| $form " "$name.$file" "$expression"; done
    for name in ${names% *}; do printf '| %s ' "$(ratio "$name.$file" "$last.$file" "$expression")"; done
    echo '|'
}

# mark SERVERS MODE WORD.. : runs of these servers in turn, behind those of before; their figures are in the files $file.
mark() {
    local names=$1 name
    file=$2.$3.$4
    for name in $names; do rm -f "$room/$name.$file"; done
    in_turn "$@"
}

marks() {
    local window members file names="before ours bare"
    echo "Two builds beside the bare loop, in turn, with $workers worker(s): medians, and medians of the ratios of each turn"
    echo '| | Before | After | Bare | Before / bare | After / bare |'
    echo '|---|---|---|---|---|---|'
    for window in 256 4; do
        for members in 50 200 1000; do
            mark "$names" fanout "$members" "$window" "$seconds"
            row "$names" "$file" "Channel of $members, $window in flight: seconds a million delivered lines" %.3f "$fanout_cost"
        done
    done
    mark "$names" ping 50 1 "$seconds"
    row "$names" "$file" 'PING, 50 clients, 1 in flight each: seconds a million' %.2f "$ping_cost"
    for depth in 20 1000; do
        mark "$names" ping 50 "$depth" "$seconds"
        row "$names" "$file" "PING, 50 clients, $depth in flight each: million a second" %.2f 'of["answers"] / of["seconds"] / 1e6'
    done
    for members in 50 1000; do
        mark "$names" pace "$members" 500 "$seconds"
        row "$names" "$file" "PING, 500 a second in all by $members clients: median us" %.1f 'of["median"]'
    done
    mark "$names" logins 2000 all
    row "$names" "$file" '2,000 logins at once: seconds until each is in' %.2f 'of["seconds"]'
    row "$names" "$file" 'the same: million bytes to all clients' %.1f 'of["bytes"] / 1e6'
}

# sides SERVERS WHAT : of each server, in a row of its own, how fast lines came, at what cost and how late, in the files $file; where it has
# four threads, also the ratios to the one before, which has one.
sides() {
    local name last what=$2 lines='(of["lines"] + of["answers"])' cost
    local -A titles=([before_one]='before, 1 worker' [before_four]='before, 4 workers' [one]='server, 1 worker' [four]='server, 4 workers'
        [bare]='bare, 1 thread' [bare_four]='bare, 4 threads')
    cost="(of[\"user\"] + of[\"system\"]) / $lines * 1e6"
    for name in $1; do
        printf '| %s | %s ' "$what" "${titles[$name]}"
        figure "| %'.0f " "$name.$file" "$lines / of[\"seconds\"]"
        figure '| %.3f ' "$name.$file" "$cost"
        figure '| %.0f ' "$name.$file" 'of["median"]'
        figure '| %.0f ' "$name.$file" 'of["late"]'
        case $name in
            *four) echo "| $(ratio "$name.$file" "$last.$file" "$lines / of[\"seconds\"]") | $(ratio "$name.$file" "$last.$file" "$cost") |" ;;
            *) echo '| | |' ;;
        esac
        last=$name
        what=
    done
}

# What four workers serve beside one, and what four threads of the bare loop serve beside one.
more() {
    local speakers window members clients depth file names="one four bare bare_four"
    if [ -n "${LOBBY_BEFORE:-}" ]; then names="before_one before_four $names"; fi
    echo 'Four workers and one, and the bare loop with four threads and one, in turn: medians, and medians of the ratios of each turn'
    echo '| | | Lines a second | Seconds of processors a million | Median us | 99 % us | Four / one, of lines | Of seconds |'
    echo '|---|---|---|---|---|---|---|---|'
    for speakers in 1 4; do
        for window in 4 256; do
            for members in 50 200 1000; do
                mark "$names" talk "$members" "$window" "$seconds" "$speakers"
                sides "$names" "Channel of $members, speakers $speakers, $window in flight each"
            done
        done
    done
    for clients in 50 1000; do
        for depth in 1 20; do
            mark "$names" pings "$clients" "$depth" "$seconds"
            sides "$names" "PING, $clients clients, $depth in flight each"
        done
    done
    for clients in 50 1000; do
        mark "$names" pace "$clients" 500 "$seconds"
        sides "$names" "PING, 500 a second in all by $clients clients"
    done
    echo
    echo '| | Four workers | One | Four / one |'
    echo '|---|---|---|---|'
    mark "four one" logins 2000 all
    row "four one" "$file" '2,000 logins at once: seconds until each is in' %.2f 'of["seconds"]'
}

logins() {
    local how name
    echo '2,000 logins: seconds until each has LOGININFOEND, and until each is told of all; processor seconds of the server until the first'
    echo '| How | Server | told of all | processor | Bare | told of all | processor | Bare, a write a line | told of all | processor |'
    echo '|---|---|---|---|---|---|---|---|---|---|'
    for how in one all; do
        in_turn "ours bare bare_lines" logins 2000 "$how"
        printf '| %s ' "$how"
        for name in ours bare bare_lines; do
            figure '| %.2f ' "$name.logins.2000.$how" 'of["seconds"]'
            figure '| %.2f ' "$name.logins.2000.$how" 'of["all_told"]'
            figure '| %.2f ' "$name.logins.2000.$how" 'of["user"] + of["system"]'
        done
        echo '|'
    done
}

# What it costs to record 10,000 events a second, and as many as there are: each PING and each line is an event, and what a client is
# sent at once is another.
record() {
    local file names="recording ours"
    echo "With a record and without, in turn, with $workers worker(s): medians, and medians of the ratios of each turn"
    echo '| | With | Without | With / without |'
    echo '|---|---|---|---|'
    mark "$names" pace 200 5000 "$seconds"
    row "$names" "$file" 'PING, 5,000 a second in all by 200 clients: seconds a million' %.2f "$ping_cost"
    mark "$names" ping 50 1 "$seconds"
    row "$names" "$file" 'PING, 50 clients, 1 in flight each: seconds a million' %.2f "$ping_cost"
    mark "$names" fanout 200 4 "$seconds"
    row "$names" "$file" 'Channel of 200, 4 in flight: seconds a million delivered lines' %.3f "$fanout_cost"
    rm -rf "$room/records"
}

# threads NAME : the milliseconds of processors of all threads of the server, and of its second one, which writes the log where there is one.
threads() {
    local thread
    for thread in $(ls "/proc/$server/task" | sort -n); do cat "/proc/$server/task/$thread/schedstat"; done |
        awk '{ total += $1 } NR == 2 { second = $1 } END { printf "total %.3f log %.3f\n", total / 1e6, second / 1e6 }' >> "$room/$1"
}

log() {
    local run clients how name
    echo 'Logins with `log = "none"` and with `log = "all"`, in turn: processor milliseconds of the server, of the thread that writes, and its share'
    echo '| Logins | How | None | All | All / none | The thread | Share |'
    echo '|---|---|---|---|---|---|---|'
    for clients in 50 400 2000; do
        how=$([ "$clients" = 2000 ] && echo all || echo one)
        for run in $(seq 1 "$runs"); do
            for name in silent telling; do
                start "$name"
                timeout 90 "$room/load" logins "$port" "$server" "$clients" "$how" > "$room/load.out" || { echo "$name: the load failed"; exit 1; }
                sleep 0.1
                threads "$name.threads.$clients"
                stop
            done
        done
        printf '| %d | %s ' "$clients" "$how"
        for name in silent telling; do figure '| %.1f ' "$name.threads.$clients" 'of["total"]'; done
        printf '| %s ' "$(ratio "telling.threads.$clients" "silent.threads.$clients" 'of["total"]')"
        figure '| %.2f ' "telling.threads.$clients" 'of["log"]'
        figure '| %.4f |\n' "telling.threads.$clients" 'of["log"] / of["total"]'
    done
}

memory() {
    local name
    in_turn "ours bare" memory 2000
    echo 'Memory that is resident: kB before, bytes a client with 2,000 greeted, with these in one channel, and ten PINGs of one later'
    echo '| | Before | Greeted | In a channel | Ten PINGs later |'
    echo '|---|---|---|---|---|'
    for name in ours bare; do
        figure "| $name | %.0f kB " "$name.memory.2000." 'of["before"]'
        figure '| %.0f ' "$name.memory.2000." 'of["bytes_greeted"]'
        figure '| %.0f ' "$name.memory.2000." 'of["bytes_joined"]'
        figure '| %.0f |\n' "$name.memory.2000." 'of["bytes_quiet"]'
    done
}

# System calls in two seconds of the measured time.
calls() {
    local name members window
    command -v strace > "$room/which" || { echo 'there is no strace: no system calls are counted'; return; }
    echo 'System calls a client and poll'
    echo '| Members | In flight | | Writes | Reads | Writes to wakers a poll |'
    echo '|---|---|---|---|---|---|'
    for window in 256 4; do
        members=$((window == 4 ? 200 : 50))
        for name in ours bare; do
            start "$name"
            timeout 90 "$room/load" fanout "$port" "$server" "$members" "$window" 6 > "$room/load.out" &
            sleep 2
            timeout 2 strace -f -c -e trace=write,sendto,read,recvfrom,epoll_wait -p "$server" -o "$room/calls" 2> "$room/strace" || true
            wait $!
            stop
            awk -v members="$members" -v window="$window" -v name="$name" '
                $4 ~ /^[0-9]+$/ && $NF != "total" { calls[$NF] = $4 }
                END {
                    wakes = name == "ours" ? calls["write"] : 0
                    written = calls["sendto"] + calls["write"] - wakes
                    read = calls["recvfrom"] + calls["read"]
                    polls = calls["epoll_wait"] * members
                    printf "| %d | %d | %s | %.2f | %.2f | %.2f |\n", members, window, name, written / polls, read / polls, wakes / calls["epoll_wait"]
                }' "$room/calls"
        done
    done
}

for mode in $modes; do
    "$mode"
    echo
done
