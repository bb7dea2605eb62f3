#!/usr/bin/env bash
# Reads lists of 10,000 and 100,000 accounts and checks 1,000,000 logins against each, and prints
# the times and the most memory that the program held. More counts may be given as arguments.
set -eu
cd "$(dirname "$0")/.."
program=$(tools/build_bench.sh bench_accounts)

list=$(mktemp)
trap 'rm -f "$list"' EXIT
for count in "${@:-10000 100000}"; do
    for n in $count; do
        awk -v n="$n" 'BEGIN {
            for (k = 0; k < n; k++)
                printf "[[account]]\nname = \"player%d\"\npassword = \"X03MO1qnZdYdgyfeuILPmQ==\"\nid = %d\nrank = %d\ncountry = \"DE\"\n\n", k, k, k % 8
        }' > "$list"
        python3 - "$program" "$list" <<'PY'
import resource, subprocess, sys
subprocess.run([sys.argv[1], sys.argv[2], "1000000"], check=True)
print("%d KiB at most" % resource.getrusage(resource.RUSAGE_CHILDREN).ru_maxrss)
PY
    done
done
