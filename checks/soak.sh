#!/usr/bin/env bash
# Has 8 threads make 25,000 events each at one desk, then makes the same events in a lobby alone, in their one order, and
# compares all that the clients read. Run by hand, with rt there: the program is proved first, where it is not.
# The arguments are the number of threads and the events of each.
set -euo pipefail
cd "$(dirname "$0")/.."
program=$(tools/build_bench.sh bench_desk)
"$program" soak "${1:-8}" "${2:-25000}"
