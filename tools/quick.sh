#!/usr/bin/env bash
# quick.sh PROGRAM FILE : builds a program of crates.txt into FILE, optimised and without any proof, in about two minutes.
# It keeps the checks of `rt try`: a bad index or an overflow stops the program, and says where.
# `rt try` hands the program's LLVM module to the kit's clang. Here it meets a clang of our own, which compiles that module at -O2,
# links it with the kit's linker, and ends the try there. Where a kit does not let that happen, the status is 1 and nothing is told.
set -euo pipefail
root=$(cd "$(dirname "$0")/.." && pwd)
name=$1
file=$(realpath -m "$2")
kit=$(dirname "$(dirname "$(realpath "$(command -v rt)")")")
room=$(mktemp -d)
trap 'rm -rf "$room"' EXIT
# The program gets the time at which this began, so that a source edited meanwhile is newer than it.
touch "$room/begun"

# A kit like the one that is there, but for its clang. rt finds the kit by its own place, so its files are copies.
mkdir -p "$room/kit/bin" "$room/kit/toolchain/bin"
find "$kit" -mindepth 1 -maxdepth 1 ! -name bin ! -name toolchain -exec ln -s {} "$room/kit/" \;
find "$kit/toolchain" -mindepth 1 -maxdepth 1 ! -name bin -exec ln -s {} "$room/kit/toolchain/" \;
find "$kit/toolchain/bin" -mindepth 1 ! -name clang -exec ln -s {} "$room/kit/toolchain/bin/" \;
find "$kit/bin" -mindepth 1 ! -name 'rt*' -exec ln -s {} "$room/kit/bin/" \;
cp "$kit"/bin/rt* "$room/kit/bin/"
cat > "$room/kit/toolchain/bin/clang" <<CLANG
#!/usr/bin/env bash
# The checked program of a module is compiled as above; whoever asks for anything else gets the kit's own answer.
case " \$* " in *" -fsanitize=address "*) ;; *) exec "$kit/toolchain/bin/clang" "\$@" ;; esac
"$kit/toolchain/bin/clang" --target=x86_64-unknown-linux-gnu --sysroot="$kit/toolchain" -march=x86-64-v2 -O2 -fPIE \\
    -ffunction-sections -fdata-sections -mllvm -no-trap-after-noreturn --no-default-config -no-canonical-prefixes \\
    -c -x ir module.bc -o "$room/program.o" &&
"$kit/bin/rattle-link" --target x86_64-unknown-linux-gnu --toolchain "$kit/toolchain" -o "$room/program" "$room/program.o" \\
    "$kit/c/libos_c.a" "$kit/c/liblibc_c.a" > /dev/null
exit 1
CLANG
chmod +x "$room/kit/toolchain/bin/clang"

(cd "$root/crates/$name" && "$room/kit/bin/rt" try < /dev/null > "$room/told" 2>&1) || true
[ -x "$room/program" ]
"$root/packaging/deb.py" --mark "$room/program"
touch -r "$room/begun" "$room/program"
mkdir -p "$(dirname "$file")"
mv "$room/program" "$file"
