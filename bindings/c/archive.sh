#!/usr/bin/env bash
# Compiles crates/dl_c/out/libdl_c.a over the libraries below it as `rt ci` has proved and left them; dl_c alone is
# proved once more. Where it left none, `rt lib` proves and compiles all of them.
set -euo pipefail
kit=$(dirname "$(dirname "$(readlink -f "$(command -v rt)")")")
cd "$(dirname "$0")/../../crates/dl_c"
read -r -a used <<< "$(sed -n 's/^dl_c staticlib: //p' ../../crates.txt)"
[ ${#used[@]} -gt 0 ] || { echo "crates.txt has no line of dl_c" >&2; exit 1; }
for name in "${used[@]}"; do
    [ -e "../$name/out/rlib/$name.rlib" ] || exec rt lib
done
words=(--crate-name dl_c --crate-type staticlib src/lib.rt --jobs 2 --links dl_c= --backend llvm)
words+=(--extern "std=$kit/rlibs/std.rlib")
for name in "${used[@]}"; do
    words+=(--extern "$name=../$name/out/rlib/$name.rlib")
done
words+=(-L "dependency=$kit/rlibs" --toolchain "$kit/toolchain")
words+=(--antt-project "$kit/rattle/logic/antt-project.json" --logic-built "$kit/logic_built")
for library in ../*/out/rlib; do
    words+=(-L "dependency=$library")
done
mkdir -p out
"$kit/bin/rattle" build "${words[@]}" -o out/libdl_c.a
