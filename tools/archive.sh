#!/usr/bin/env bash
# Builds the archive of a static library that crates.txt names, proved, by LLVM.
# Usage: archive.sh CRATE OUTPUT, or archive.sh CRATE OUTPUT --as-proved.
# The first is `rt lib`, which begins with what earlier checks kept and proves what is new in the libraries below. The second builds over the libraries
# that stand in out/, and proves CRATE alone: only for the gate, in a checkout that nothing but one `rt ci` has worked in.
set -euo pipefail
[ $# -eq 2 ] || { [ $# -eq 3 ] && [ "$3" = --as-proved ]; } || { sed -n '3,5s/^# //p' "$0" >&2; exit 2; }
crate=$1
mkdir -p "$(dirname "$2")"
output=$(realpath "$2")
cd "$(dirname "$0")/.."
listed=$(sed -n "s/^$crate staticlib:\(.*\)/\1/p" crates.txt)
[ -n "$listed" ] || { echo "crates.txt has no static library $crate" >&2; exit 2; }
said=$(mktemp)
trap 'rm -f "$said"' EXIT
cd "crates/$crate"
if [ $# -eq 2 ]; then
    rt lib >"$said" 2>&1 || { cat "$said" >&2; exit 1; }
    cp "out/lib$crate.a" "$output"
else
    kit=$(dirname "$(dirname "$(realpath "$(command -v rt)")")")
    words=(--extern "std=$kit/rlibs/std.rlib" -L "dependency=$kit/rlibs")
    for it in $listed; do
        [ ! -d "../$it" ] || words+=(--extern "$it=../$it/out/rlib/$it.rlib")
        [ -d "../$it" ] || words+=(--extern "$it=$kit/rlibs/$it.rlib")
    done
    for it in ../*/out/rlib; do words+=(-L "dependency=$it"); done
    words+=(--antt-project "$kit/rattle/logic/antt-project.json" --logic-built "$kit/logic_built" --toolchain "$kit/toolchain")
    "$kit/bin/rattle" build --crate-name "$crate" src/lib.rt --crate-type staticlib "${words[@]}" -o "$output" >"$said" 2>&1 || { cat "$said" >&2; exit 1; }
fi
grep '^logic=proved' "$said" | tail -n 1
