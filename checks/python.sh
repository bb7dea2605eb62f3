#!/usr/bin/env bash
# python.sh [FOLDER [LIBRARY]] : makes the wheel of the Python package, installs it into a fresh environment in which there
# is no compiler, and runs from there the tests of the package, examples/autohost.py beside players at a server, and views of
# all rows' clients and of recorded sessions. The programs are those that the gate built, or those of a folder; the library is
# that which tools/library.sh makes, or another one. In the gate it is the one that library.py has just had made.
set -euo pipefail
cd "$(dirname "$0")/.."
program() { if [ -n "$1" ]; then realpath "$1/$2"; else realpath "crates/$2/out/$2"; fi; }
folder=${1:-}
if [ -z "${2:-}" ] && ! { [ -n "${AS_BUILT:-}" ] && [ bin/liblobby.so -nt crates/lobby_c/out/liblobby_c.a ]; }; then
    tools/library.sh > /dev/null
fi
library=$(realpath "${2:-bin/liblobby.so}")
server=$(program "$folder" lobby_main) player=$(program "$folder" lobby_play) shower=$(program "$folder" view_show)
passed=0
failed=0
room=$(mktemp -d)
trap 'rm -rf "$room"' EXIT

# passes WHAT COMMAND.. : counts a command that passes, and shows what one says that fails.
passes() {
    local what=$1
    shift
    if "$@" > "$room/said" 2>&1; then
        passed=$((passed + 1))
    else
        failed=$((failed + 1))
        echo "python: $what:"
        tail -40 "$room/said"
    fi
}

python3 -B python/build_wheel.py "$library" "$room/wheel" > "$room/name"
python3 -m venv "$room/venv"
python=$room/venv/bin/python
passes "the wheel installs without a compiler" \
    env -i PATH="$room/venv/bin" "$python" -m pip install --no-index --no-deps "$room/wheel/$(cat "$room/name")"
# inside ARGUMENT.. : runs Python there, where no library and no package but the wheel's is found.
inside() { (cd "$room" && env -u LIBLOBBY -u PYTHONPATH PYTHONDONTWRITEBYTECODE=1 timeout 300 "$python" "$@"); }
root=$PWD
passes "the package is the wheel's" \
    inside -c "import rudderraisin, sys; sys.exit(not rudderraisin.__file__.startswith(sys.prefix))"
passes "its tests" inside -W error::ResourceWarning -m unittest discover -s "$root/python/tests"
passes "a bot hosts" inside "$root/checks/python_host.py" "$server" "$shower"
passes "the page of a lobby" inside "$root/checks/python_page.py" "$server"
passes "views" inside "$root/checks/python_views.py" "$player" "$shower" 100
passes "recorded sessions" inside "$root/checks/python_sessions.py" "$server" "$shower" 1000
echo "python: $passed passed, $failed failed"
[ "$failed" -eq 0 ]
