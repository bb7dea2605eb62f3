#!/usr/bin/env bash
# tour.sh : plants a bug in a copy of line_framer, by which `Framer::next_len` counts a line's LF too, has the checker look at the copy,
# and shows how it refuses that (docs/PROOF.md). The status is 0 where it is refused, and 1 where it is not.
set -euo pipefail
cd "$(dirname "$0")/.."
crate=line_framer
function=$crate::Framer::next_len
file=crates/$crate/src/lib.rt
sound='self.peek().map(|line| line.len())'
planted='self.peek().map(|line| line.len() + 1)'

room=$(mktemp -d)
trap 'rm -rf "$room"' EXIT
cp HANDLES "$room"
for name in $crate $(awk -v names=$crate -f tools/below.awk crates.txt); do
    mkdir -p "$room/crates/$name"
    for part in src specs proofs; do
        if [ -d "crates/$name/$part" ]; then cp -r "crates/$name/$part" "$room/crates/$name"; fi
    done
    grep "^$name:" crates.txt >> "$room/crates.txt"
done

awk -v sound="$sound" -v planted="$planted" '
    (at = index($0, sound)) { $0 = substr($0, 1, at - 1) planted substr($0, at + length(sound)); edits++ }
    { print }
    END { if (edits != 1) { print "tour.sh: the bug fits " edits + 0 " lines of the file, and should fit one" > "/dev/stderr"; exit 1 } }
' "$file" > "$room/$file"
echo "The bug, in a copy of $file:"
diff "$file" "$room/$file" | grep '^[<>]' || true
echo
echo "rt check --only $function, which takes up to two minutes, says:"
(cd "$room/crates/$crate" && rt check --only "$function") > "$room/told" 2>&1 || true
if ! grep -qE "^fn $function: no proof: .* did not prove " "$room/told"; then
    tail -n 20 "$room/told" >&2
    echo "The bug was not refused." >&2
    exit 1
fi
# The function that is not proved, and what its clauses ask of the body as it stands.
grep -E "^fn .*: (not proved|no proof)|^note: .* must prove: " "$room/told"
echo
echo "The bug is refused: $function has no proof."
