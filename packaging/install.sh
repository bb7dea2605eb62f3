#!/usr/bin/env bash
# install.sh install|uninstall : lays the programs, their manual pages, files of configuration and units under $DESTDIR, or takes them
# away again. $PREFIX is /usr/local if not given, $SYSCONFDIR is $PREFIX/etc. Files of configuration that are there stay as they are.
# $PROGRAMS is the folder of the programs; without it they are those that tools/program.sh and tools/gateway.sh find or build.
set -euo pipefail
root=$(cd "$(dirname "$0")/.." && pwd)
prefix=${PREFIX:-/usr/local}
bin=$prefix/bin
library=$prefix/lib/rudderraisin
share=$prefix/share/rudderraisin
packages=$prefix/lib/python3/dist-packages
configuration=${SYSCONFDIR:-$prefix/etc}/rudderraisin
documents=$prefix/share/doc/rudderraisin
to=${DESTDIR:-}
programs='lobby_main lobby_check lobby_play view_show'
gateway=rudderraisin_gateway
room=$(mktemp -d)
trap 'rm -rf "$room"' EXIT

# put MODE FILE PLACE : a file and where it is to be.
put() { install -D -m "$1" "$2" "$room/all$3"; }

# gather : lays out all files but the programs as they are to be.
gather() {
    local file
    # The server is to stop where its unit ends its input, and nobody is to log in by the password of an example. There is no `make`.
    local here="s|docs/OPERATING.md|$documents/OPERATING.md|; s/make hash/lobby_account hash/"
    sed "s/^stop_at_input_end = false/stop_at_input_end = true /; $here" "$root/examples/lobby.toml" > "$room/lobby.toml"
    sed "/^\[\[account/,$ s/^./# &/; $here" "$root/examples/accounts.toml" > "$room/accounts.toml"
    put 644 "$room/lobby.toml" "$configuration/lobby.toml"
    put 640 "$room/accounts.toml" "$configuration/accounts.toml"
    put 644 "$root/packaging/gateway.conf" "$configuration/gateway.conf"
    for file in "$root"/packaging/*.service "$root"/packaging/*.timer; do
        sed "s|@BIN@|$bin|g; s|@LIBRARY@|$library|g; s|@CONFIGURATION@|$configuration|g" "$file" > "$room/unit"
        put 644 "$room/unit" "$prefix/lib/systemd/system/${file##*/}"
    done
    for file in "$root"/{README,CHANGELOG}.md "$root"/docs/{OPERATING,PROTOCOL}.md; do put 644 "$file" "$documents/${file##*/}"; done
    for file in "$root"/examples/*; do put 644 "$file" "$documents/examples/${file##*/}"; done
    gather_tools
    mkdir -p "$room/all$bin"
    ln -s "$gateway" "$room/all$bin/${gateway}ctl"
}

# gather_tools : lays out what operators use that is in Python, and what the unit of the server runs.
gather_tools() {
    local version name file
    version=$("$root/packaging/deb.py" --version)
    for name in lobby_account lobby_record; do
        sed "1s|/usr/bin/env python3|$(if [ "$prefix" = /usr ]; then echo /usr/bin/python3; else echo /usr/bin/env python3; fi)|
            s|^VERSION = .*|VERSION = \"$version\"|; s|^CONFIGURATION = .*|CONFIGURATION = \"$configuration\"|
            s|^LIBRARY = .*|LIBRARY = \"$share\"|" "$root/operator/$name.py" > "$room/tool"
        put 755 "$room/tool" "$bin/$name"
    done
    for file in "$root"/operator/record_tool/*.py; do put 644 "$file" "$share/record_tool/${file##*/}"; done
    put 755 "$root/packaging/greeted.sh" "$library/greeted.sh"
}

# find_program NAME : prints the path of a program, which may have to be built.
find_program() {
    if [ -n "${PROGRAMS:-}" ]; then
        if [ -x "$PROGRAMS/$1" ]; then echo "$PROGRAMS/$1"; return; fi
        echo "there is no $PROGRAMS/$1" >&2
        return 1
    elif [ "$1" = "$gateway" ]; then "$root/tools/gateway.sh"; else "$root/tools/program.sh" "$1"; fi
}

# gather_gateway : lays out the gateway's program, or takes all that belongs to it away again where there is none.
gather_gateway() {
    local program
    if program=$(find_program "$gateway"); then
        put 755 "$program" "$bin/$gateway"
    else
        echo "the gateway is left out" >&2
        find "$room/all" \( -name 'rudderraisin[-_]gateway*' -o -name gateway.conf \) -delete
    fi
}

# gather_python SHARED STATIC : lays out the C library, the Python package and the program of the page, or takes all that belongs to them
# away again where no library was built.
gather_python() {
    local file version libraries=$prefix/lib python=/usr/bin/python3 path=
    if [ ! -e "$1" ]; then
        echo "there is no bin/liblobby.so, which make library builds: the library and the Python package are left out" >&2
        find "$room/all" -name 'rudderraisin[-_]status*' -delete
        return
    fi
    # Debian has its libraries in a folder of the machine's kind. Elsewhere the package finds its own by a link beside it.
    if [ "$prefix" = /usr ] && [ -d /usr/lib/x86_64-linux-gnu ]; then libraries=$prefix/lib/x86_64-linux-gnu; fi
    put 644 "$root/packaging/status.conf" "$configuration/status.conf"
    put 644 "$1" "$libraries/liblobby.so.0"
    put 644 "$2" "$libraries/liblobby.a"
    ln -s liblobby.so.0 "$room/all$libraries/liblobby.so"
    put 644 "$root/include/lobby.h" "$prefix/include/lobby.h"
    version=$(cd "$root/packaging" && python3 -Bc 'import deb; print(deb.version())')
    sed "s|@PREFIX@|$prefix|; s|@LIBRARIES@|$libraries|; s|@VERSION@|$version|" "$root/packaging/liblobby.pc" > "$room/liblobby.pc"
    put 644 "$room/liblobby.pc" "$libraries/pkgconfig/liblobby.pc"
    (cd "$root/python" && find rudderraisin -type f ! -name '*.pyc' ! -name '*.so') | while read -r file; do
        put 644 "$root/python/$file" "$packages/$file"
    done
    if [ "$prefix" != /usr ]; then
        ln -s ../../../liblobby.so.0 "$room/all$packages/rudderraisin/liblobby.so"
        python='/usr/bin/env python3' path="import sys; sys.path.insert(0, \"$packages\")"
    fi
    printf '#!%s\n%s\nfrom rudderraisin.page.main import main\n\nmain()\n' "$python" "$path" | sed '/^$/d' > "$room/status"
    put 755 "$room/status" "$bin/rudderraisin_status"
}

# is_there PLACE : whether a file or a link is installed there.
is_there() { [ -e "$to$1" ] || [ -L "$to$1" ]; }

# make_pages : lays out the manual pages.
make_pages() {
    if ! command -v pandoc > /dev/null; then
        echo "there is no pandoc, which makes the manual pages: they are left out" >&2
        return
    fi
    CONFIGURATION=$configuration DOCUMENTS=$documents "$root/packaging/pages.py" "$room/pages"
    for page in "$room"/pages/*; do put 644 "$page" "$prefix/share/man/man${page##*.}/${page##*/}"; done
}

gather
case ${1:-} in
install)
    make_pages
    for name in $programs; do
        program=$(find_program "$name")
        put 755 "$program" "$bin/$name"
    done
    gather_gateway
    gather_python "$root/bin/liblobby.so" "$root/bin/liblobby.a"
    (cd "$room/all" && find . ! -type d | sort) | while read -r file; do
        place=${file#.}
        case $place in "$configuration"/*) if is_there "$place"; then echo "$to$place stays as it is"; continue; fi ;; esac
        install -d "$to${place%/*}"
        cp -P --remove-destination --preserve=mode "$room/all$place" "$to$place"
        echo "$to$place"
    done
    ;;
uninstall)
    gather_python /dev/null /dev/null
    for name in $programs $gateway; do rm -f "$to$bin/$name"; done
    (cd "$room/all" && find . ! -type d | sort) | while read -r file; do
        place=${file#.}
        is_there "$place" || continue
        case $place in "$configuration"/*) if ! cmp -s "$room/all$place" "$to$place"; then echo "$to$place was changed, and stays"; continue; fi ;; esac
        rm -f "$to$place"
    done
    "$root/packaging/pages.py" | while read -r page; do rm -f "$to$prefix/share/man/man${page##*.}/$page"; done
    find "$to$packages/rudderraisin" -name __pycache__ -prune -exec rm -rf {} + 2> /dev/null || true
    for folder in "$packages/rudderraisin/page" "$packages/rudderraisin" "$configuration" "$documents/examples" "$documents" \
        "$share/record_tool" "$share" "$library"; do
        rmdir "$to$folder" 2> /dev/null || true
    done
    ;;
*) echo "usage: install.sh install|uninstall" >&2; exit 1 ;;
esac
