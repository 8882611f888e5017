#!/bin/sh
# Measures the stack that the calls of the C interface use, and the register and its trace by crates/timing.
# Usage: stack_use.sh [LIMIT]; exit 1 if a call used more than LIMIT bytes.
set -eu
here=$(CDPATH='' cd -- "$(dirname -- "$0")" && pwd)
cd -- "$here/.."
work=$(mktemp -d)
trap 'rm -rf -- "$work"' EXIT
trap 'exit 1' HUP INT TERM
bash tools/archive.sh diverthrone_c "$work/libdiverthrone.a"
bash tools/archive.sh timing "$work/libtiming.a"
# Bound at the start: a lookup of memcpy's address inside a call would count as its stack.
gcc -std=c11 -Wall -Wextra -Werror -O1 -g -pthread -Wl,-z,now -Iinclude tests/stack_use.c "$work/libdiverthrone.a" \
    "$work/libtiming.a" -o "$work/stack_use"
"$work/stack_use" "$@"
