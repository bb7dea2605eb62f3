#!/usr/bin/env bash
# build_bench.sh PROGRAM : proves and builds a program of bench/programs over the crates of this clone, compares what it shows without
# arguments with its file stdout, and tells where it is.
# The gate proves each crate of crates.txt, and rt takes no .rt or .antt file beside those. So what only measures is none of them:
# its files end in .bench, and get a root of their own, in .git, with copies of the crates below. What `make build` proved of
# these is linked in, and not proved again, and what this built of the same sources is built no more.
set -euo pipefail
cd "$(dirname "$0")/.."
program=${1:?a program of bench/programs}
root=$(git rev-parse --absolute-git-dir)/bench
mkdir -p "$root/crates/$program"
cp HANDLES "$root"
libraries=$(cat crates.txt bench/programs.txt | awk -v names="$program" -f tools/below.awk)
names="$program $libraries"

# without_ending NAME : the files of a program or library of benchmarks, by the names that rt takes.
without_ending() {
    local from=bench/programs/$1 to=$root/crates/$1
    rm -rf "$to/src" "$to/specs" "$to/proofs"
    find "$from" -name '*.bench' | while IFS= read -r file; do
        copy=$to${file#"$from"}
        mkdir -p "$(dirname "$copy")"
        cp "$file" "${copy%.bench}"
    done
}

for library in $libraries; do
    if [ -d "bench/programs/$library" ]; then
        without_ending "$library"
        continue
    fi
    to=$root/crates/$library
    mkdir -p "$to/out"
    rm -rf "$to/src" "$to/specs" "$to/proofs"
    for part in src specs proofs; do
        if [ -d "crates/$library/$part" ]; then cp -r "crates/$library/$part" "$to"; fi
    done
    # A build without a stamp fits no other clone.
    if [ -f "crates/$library/out/rlib/stamp" ]; then
        rm -rf "$to/out/rlib"
        cp -al "crates/$library/out/rlib" "$to/out"
    fi
done
cat crates.txt bench/programs.txt | awk -v names="${names//$'\n'/ }" '
    BEGIN { split(names, wanted, " "); for (i in wanted) stands[wanted[i]] }
    { name = $1; sub(/:.*/, "", name) }
    name in stands' > "$root/crates.txt"

without_ending "$program"
from=bench/programs/$program
to=$root/crates/$program
sources=$(cd "$root" && for name in $names; do find "crates/$name" -name out -prune -o \( -name '*.rt' -o -name '*.antt' \) -print; done \
    | sort | xargs sha256sum crates.txt | sha256sum)
if [ -x "$to/out/$program" ] && [ "$(cat "$to/built" 2> /dev/null)" = "$sources" ]; then
    echo "$to/out/$program"
    exit
fi
if ! (cd "$to" && rt run < /dev/null > out.shown 2> out.log); then
    tail -n 20 "$to/out.log" >&2
    exit 1
fi
cmp "$to/out.shown" "$from/stdout" >&2
echo "$sources" > "$to/built"
echo "$to/out/$program"
