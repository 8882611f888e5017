#!/bin/sh
# Builds the reference program with the compiler alone.
# Usage: build.sh [OUTPUT]; the default is target/reference/reference below the
# repository's root.
set -eu
here=$(CDPATH= cd -- "$(dirname -- "$0")" && pwd)
output=${1:-"$here/../target/reference/reference"}
mkdir -p -- "$(dirname -- "$output")"
rustc --edition 2021 -O -D warnings -o "$output" "$here/main.rs"
