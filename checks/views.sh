#!/usr/bin/env bash
# Plays each row of rows/ and each script of examples/ once more, to its end, and lets each client that was accepted fold all
# bytes that were put to it, whole, one by one and in pieces of some prime lengths: all must show the same, and what stands in
# ROW.LABEL.view, where that is there. Then one who looks on logs in behind the last step: whoever is told of that is logged in, and
# must know the same users and battles as the onlooker was told at once.
# It says of how many scripts it sees nothing, and fails where these are more than below.
# `checks/views.sh PLAYER SHOWER` takes other builds of lobby_play and view_show than the gate's.
set -euo pipefail
player=$(realpath "${1:-$(dirname "$0")/../crates/lobby_play/out/lobby_play}")
shower=$(realpath "${2:-$(dirname "$0")/../crates/view_show/out/view_show}")
cd "$(dirname "$0")/.."
export LC_ALL=C
room=$(mktemp -d)
trap 'rm -rf "$room"' EXIT
onlooker='account Onlooker X03MO1qnZdYdgyfeuILPmQ== 4000000001 0'
# So many bytes are folded at once: one, and some primes.
lengths='1 3 61 1021'
# How many scripts end badly, as their rows say, and how many do so only with the onlooker.
most_broken=104
most_unseen=0
broken=0
unseen=0
folded=0
compared=0
shown=0
failed=0

# differ WHAT A B : tells that two views of a client differ.
differ() {
    failed=$((failed + 1))
    echo "$1"
    diff -U 2 "$2" "$3" | head -20 || true
}

# listed VIEW : the users and battles of a view.
listed() { awk '/^(user|battle) / { on = 1 } /^(me|channel|room)/ { on = 0 } on' "$1"; }

# fold NAME SCRIPT : plays a script with the onlooker behind it, and compares the views of its clients.
fold() {
    rm -rf "$room/views"
    mkdir "$room/views"
    {
        echo "$onlooker"
        grep -v '^show ' "$2" || true
        printf 'open 4000000001 10.255.255.254\nsend 4000000001 LOGIN Onlooker X03MO1qnZdYdgyfeuILPmQ== 0 * Checks 1.0\\n\nall 4000000001\n'
        awk '/^open / { print "show " $2 }' "$2"
        echo 'show 4000000001'
    } > "$room/long.script"
    if ! timeout 60 "$player" < "$room/long.script" > "$room/shown" 2> "$room/error"; then
        unseen=$((unseen + 1))
        echo "$1: with an onlooker behind it the script ends badly: $(cat "$room/error")"
        return
    fi
    awk -v FOLDER="$room/views" '{ at = index($0, "> "); print substr($0, at + 2) > (FOLDER "/" substr($0, 1, at - 1) ".bytes") }' "$room/shown"
    local bytes view length written
    for bytes in "$room"/views/*.bytes; do
        [ -e "$bytes" ] || continue
        grep -qE '^(#[0-9]+ )?ACCEPTED ' "$bytes" || continue
        view=${bytes%.bytes}
        "$shower" whole < "$bytes" > "$view.whole"
        for length in $lengths; do
            "$shower" "$length" < "$bytes" > "$view.pieces"
            cmp -s "$view.whole" "$view.pieces" || differ "$1: a view folds pieces of $length to something else" "$view.whole" "$view.pieces"
        done
        written=${1%.row}.$(basename "$view").view
        if [ -e "$written" ]; then
            awk -v VIEW=1 -f checks/row.awk "$written" > "$view.wanted"
            grep -v '^user Onlooker ' "$view.whole" > "$view.known"
            cmp -s "$view.wanted" "$view.known" || differ "$1: a client knows something else" "$view.wanted" "$view.known"
            shown=$((shown + 1))
        fi
        listed "$view.whole" > "$view.listed"
        folded=$((folded + 1))
    done
    local seen=$room/views/4000000001.listed
    [ -e "$seen" ] || return 0
    for bytes in "$room"/views/*.bytes; do
        view=${bytes%.bytes}
        if [ -e "$view.listed" ] && grep -q '^ADDUSER Onlooker ' "$bytes"; then
            cmp -s "$seen" "$view.listed" || differ "$1: a client knows other users or battles than the onlooker" "$seen" "$view.listed"
            compared=$((compared + 1))
        fi
    done
}

for row in rows/*/*.row; do
    rm -rf "$room/parts"
    mkdir "$room/parts"
    awk -v FOLDER="$room/parts" -f checks/row.awk "$row"
    for script in "$room"/parts/*.script; do
        if [ "$(cat "${script%.script}.status")" -eq 0 ]; then
            fold "$row$(sed 's/^/ at: /' "${script%.script}.case")" "$script"
        else
            broken=$((broken + 1))
        fi
    done
done
for script in examples/*.play; do
    fold "$script" "$script"
done

echo "views: $folded folded, $compared compared with an onlooker, $shown with what is written, $failed failed"
echo "views: nothing is seen of $broken scripts that are to end badly, and of $unseen that do so with an onlooker behind them"
if [ "$broken" -gt "$most_broken" ] || [ "$unseen" -gt "$most_unseen" ]; then
    echo "these are more than $most_broken and $most_unseen"
    failed=$((failed + 1))
fi
[ "$failed" -eq 0 ] && [ "$folded" -gt 0 ] && [ "$compared" -gt 0 ] && [ "$shown" -eq "$(find rows -name '*.view' | wc -l)" ]
