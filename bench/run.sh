#!/usr/bin/env bash
# Builds and runs the benchmark. It needs NTL and FLINT, which it installs where they are missing (Debian).
set -euo pipefail
cd "$(dirname "$0")/.."
work=$(mktemp -d)
trap 'rm -rf "$work"' EXIT
[ -e /usr/include/NTL/lzz_pX.h ] && [ -e /usr/include/flint/flint.h ] || { apt-get update -qq && apt-get install -y -qq libntl-dev libflint-dev libgmp-dev; }
compiler=${CC:-$(command -v clang || command -v gcc)}
bash tools/archive.sh timing "$work/libtiming.a"
bash tools/archive.sh diverthrone_c "$work/libdiverthrone.a"
"$compiler" -O3 -std=c11 -c bench/baseline.c -o "$work/plain.o"
"$compiler" -O3 -std=c11 -DTRICKS -c bench/baseline.c -o "$work/tricks.o"
"$compiler" -O3 -std=c11 -c bench/lines.c -o "$work/lines.o"
"$compiler" -O3 -std=c11 -c bench/merge.c -o "$work/merge.o"
"$compiler" -O3 -std=c11 -c bench/period.c -o "$work/period.o"
"$compiler" -O3 -std=c11 -c bench/batch.c -o "$work/batch.o"
g++ -O3 -std=c++17 -Iinclude -o "$work/bench" bench/bench.cc "$work/plain.o" "$work/tricks.o" "$work/lines.o" "$work/merge.o" "$work/period.o" "$work/batch.o" "$work/libtiming.a" "$work/libdiverthrone.a" -lntl -lflint -lgmp -lpthread
"$work/bench"
