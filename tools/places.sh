#!/usr/bin/env bash
# places.sh WORD : the files in which a command or a reply stands, by kind, as places.sh DISABLEUNITS; of each how many
# lines have it that are by hand, and how many that tools/protocol.py writes.
# It stands there as its word (DISABLEUNITS, LOBBY_ASK_DISABLEUNITS), as its variant (command.DisableUnits), or, where it
# has several words, in a name that has them (disable_units).
set -euo pipefail
cd "$(dirname "$0")/.."
word=${1:?give a command or a reply, as places.sh DISABLEUNITS}
variant=$(sed -n 's/^variant = "\(.*\)"$/\1/p' protocol/*.toml | sort -u | awk -v word="$word" 'toupper($1) == word')
[ -n "$variant" ] || { echo "places.sh: no command and no reply has the word $word" >&2; exit 2; }
name=$(sed -E 's/([a-z])([A-Z])/\1_\2/g' <<< "$variant" | tr '[:upper:]' '[:lower:]')
pattern="(^|[^A-Za-z])$word([^A-Za-z]|\$)|(::|[.-]|^ *(-- )?)$variant([^A-Za-z]|\$)"
case $name in *_*) pattern+="|(^|[^A-Za-z])$name([^A-Za-z]|\$)" ;; esac

# The lines of each file that have it: those by hand, and those between the fences of tools/protocol.py.
count='
    FNR == 1 { inside = 0 }
    /Written by tools\/protocol\.py of protocol\// { inside = 1 }
    $0 ~ pattern { if (inside) written[FILENAME]++; else hand[FILENAME]++; seen[FILENAME] = 1 }
    /End of what is written: / { inside = 0 }
    END { for (file in seen) print file, hand[file] + 0, written[file] + 0 }'

# kind NAME PATTERN : the files that stand for this kind, of those that no kind before it has.
kind() {
    awk -v name="$1" -v pattern="$2" '
        $1 ~ pattern {
            if ($2) { files++; lines += $2 }
            if ($3) { others++; written += $3 }
            both = ($2 ? $2 " by hand" : "") ($2 && $3 ? ", " : "") ($3 ? $3 " written" : "")
            told = told sprintf("  %s: %s\n", $1, both)
        }
        END {
            printf "%s: %d lines by hand in %d files, %d written in %d\n", name, lines, files, written, others
            printf "%s", told
        }' <<< "$counts"
    counts=$(awk -v pattern="$2" '$1 !~ pattern' <<< "$counts")
}

tests='^(crates/(leaf_tests|lobby_tests|memory_trials|test_lobby)|rows|bench|checks|gateway|python/tests)/'
counts=$(git grep -lE "$pattern" | xargs awk -v pattern="$pattern" "$count" | sort)
all=$counts
kind tables '^protocol/'
kind tests "$tests"
kind code '^(crates/[^/]+/src|include|python/rudderraisin|operator)/'
kind definitions '^crates/[^/]+/specs/'
kind proofs '^crates/[^/]+/proofs/'
kind else .
awk '{ files++; hand += $2; if ($2) of++; written += $3; if ($3) others++ }
    END {
        printf "in all: %d lines by hand in %d files, %d written in %d, of %d files\n", hand, of, written, others, files
    }' <<< "$all"
