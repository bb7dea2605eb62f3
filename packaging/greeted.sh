#!/bin/bash
# greeted.sh PROCESS : waits until the server that is this process greets who connects, 60 seconds at most and no longer than it runs. Its
# address is where it listens, so that no other server is taken for it. The status is 1 where it does not greet, and standard error says so.
process=$1

# is_running : whether the process is there, and no corpse.
is_running() { kill -0 "$process" && ! grep -q '^State:[[:space:]]*Z' "/proc/$process/status"; }

# address : prints where it listens, the address and the port as the system has them: in hexadecimal, the last byte of an address first.
address() {
    local sockets
    sockets=$(readlink "/proc/$process/fd/"* | sed -n 's/^socket:\[\(.*\)\]$/\1/p')
    awk -v sockets="$sockets" 'BEGIN { split(sockets, list); for (k in list) own[list[k]] }
        $4 == "0A" && $10 in own { split($2, at, ":"); print at[1], at[2]; exit }' "/proc/$process/net/tcp"
}

# greets : whether it greets. A front says first for whom it connects, and is greeted then; to all others that line is none.
greets() {
    local at port link line
    read -r at port < <(address) || return
    at=$((16#${at:6:2})).$((16#${at:4:2})).$((16#${at:2:2})).$((16#${at:0:2}))
    exec {link}<> "/dev/tcp/$at/$((16#$port))" && printf 'PROXY UNKNOWN\r\nEXIT\n' >&"$link" && read -t 5 -r -u "$link" line && [[ $line == 'TASSERVER '* ]]
}

for ((until = SECONDS + 60; SECONDS < until;)); do
    is_running 2> /dev/null || { echo "the server has ended" >&2; exit 1; }
    if (greets) 2> /dev/null; then exit 0; fi
    sleep 0.1
done
echo "the server does not greet" >&2
exit 1
