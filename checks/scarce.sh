#!/usr/bin/env bash
# scarce.sh [PROGRAM]: lets clients connect to a server that may open few files, to one that is refused all memory for a while, to one
# that is full, and to one that the system gives no more memory, as the gate built it, or to another build of it. Who is connected is
# served, who has to wait is once others have left, who is refused is closed without a byte, and whoever goes is logged out though memory
# is short.
set -euo pipefail
cd "$(dirname "$0")/.."
export LOBBY_MAIN=${1:-$PWD/crates/lobby_main/out/lobby_main}
checks/connections.py 2 open_files refused_open full short_memory
checks/connections.py 1 refused_open all_gone
