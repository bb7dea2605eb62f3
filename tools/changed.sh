#!/usr/bin/env bash
# changed.sh [REVISION] : the crates of which a file is not as in the revision, HEAD if none is named.
set -euo pipefail
cd "$(dirname "$0")/.."
{ git diff --name-only "${1:-HEAD}" -- crates; git ls-files --others --exclude-standard -- crates; } | cut -d / -f 2 | sort -u |
    while IFS= read -r crate; do if [ -d "crates/$crate" ]; then echo "$crate"; fi; done
