#!/usr/bin/env bash
# Makes what the programs are run on, and what they have to write, again from the seeds, by the second program alone:
# stdin and stdout in each of replay, listing, working, ask and census below the folder OUTPUT.
# Usage: expectations.sh REFERENCE OUTPUT, or expectations.sh REFERENCE --store, which overwrites the stored ones.
# REFERENCE is the built second program (reference/build.sh).
set -euo pipefail
[ $# -eq 2 ] || { sed -n '2,5s/^# //p' "$0" >&2; exit 2; }
reference=$1
output=$2
[ "$output" != --store ] || output=$(dirname "$0")/../crates
mkdir -p "$output/replay" "$output/listing" "$output/working" "$output/ask" "$output/census"

# Lists of calls, candidates, catalogues, typed lines, merges, periods, sequences by number and tallies, bundles: each
# operation and each refusal that it has.
{
    "$reference" calls 11 700
    "$reference" candidates 12 1000
    "$reference" catalogues 14 300
    "$reference" linecalls 15 2000
    "$reference" merges 16 1500
    "$reference" periods 17 600
    "$reference" numbers 18 600
    "$reference" bundles 19 400
} >"$output/replay/stdin"
"$reference" replay <"$output/replay/stdin" >"$output/replay/stdout"

# 2,400 queries, then a piece that is too short for one.
{
    "$reference" slips 21 2400
    head -c 100 /dev/zero
} >"$output/listing/stdin"
"$reference" listing <"$output/listing/stdin" >"$output/listing/stdout"

# 160 queries with their sheets, then such a piece.
{
    "$reference" slips 46 160
    head -c 100 /dev/zero
} >"$output/working/stdin"
"$reference" working <"$output/working/stdin" >"$output/working/stdout"

# 1,600 typed lines, the longest that are read and longer ones among them; the last has no end mark.
"$reference" typed 41 1600 >"$output/ask/stdin"
"$reference" ask <"$output/ask/stdin" >"$output/ask/stdout"

# 400 moduli and counts, refused ones and two of the longest lines among them, then a line of another form, after which
# nothing is answered.
{
    "$reference" pairs 51 400
    printf '2  3\n2 3\n'
} >"$output/census/stdin"
"$reference" census <"$output/census/stdin" >"$output/census/stdout"
