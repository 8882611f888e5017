#!/bin/sh
# Compares very many calls through the C interface with the second program: every reply and every byte lent for writing.
# Usage: robustness.sh [CALLS]; at least so many calls are compared, 1,000,000 if left out.
# Each of them is made four times: with the end and with the start of every buffer at a page that traps, by a build of the C side with
# the sanitizers and by one without. Exit 0 if all agree; 1 at the first difference or trap, which is shown with the seed that leads to it.
set -eu
here=$(CDPATH='' cd -- "$(dirname -- "$0")" && pwd)
cd -- "$here/.."
least=${1:-1000000}
copies=4
began=$(date +%s)
work=$(mktemp -d)
trap 'rm -rf -- "$work"' EXIT
trap 'exit 1' HUP INT TERM

compile() {
    output=$1
    shift
    gcc -std=c11 -Wall -Wextra -Werror "$@" -Iinclude tests/robustness.c "$work/libdiverthrone.a" -o "$work/$output"
}

build() {
    reference/build.sh "$work/reference"
    bash tools/archive.sh diverthrone_c "$work/libdiverthrone.a"
    compile sanitized -O1 -g -fsanitize=address,undefined -fno-sanitize-recover=all
    compile plain -O2
}

# PROGRAM SIDE ROUND: makes the calls of the script and compares the text.
compare() {
    status=0
    "$work/$1" "$2" <"$work/script" >"$work/got" 2>"$work/told" || status=$?
    if [ "$status" -eq 0 ] && cmp -s "$work/want" "$work/got"; then
        return
    fi
    cat "$work/told"
    echo "robustness: $3, $1 $2: exit $status"
    awk -v got="$work/got" '{
        if ((getline line <got) <= 0) line = "nothing more"
        if (line != $0) { print "line " NR ": second program: " $0 "; here: " line; exit }
    }' "$work/want"
    exit 1
}

# KIND SEED COUNT: the calls of one generator with their altered copies.
round() {
    "$work/reference" "$1" "$2" "$3" >"$work/plan"
    "$work/sanitized" --expand "$2" "$copies" <"$work/plan" >"$work/script"
    "$work/reference" replay <"$work/script" >"$work/all"
    grep -E '^(verify|generate|synthesize|look_up|read_line|merge|period_length|enumerate|tally|look_up_batch) ' "$work/all" >"$work/want"
    for program in sanitized plain; do
        for side in --back --front; do
            compare "$program" "$side" "$1 $2 $3 with $copies copies"
        done
    done
    awk '
        { n[$1]++ }
        $1 == "look_up_batch" { n[$2 == "refused" ? $3 "_batch" : "batch_of_" ($3 + $5 + $7)]++; next }
        $2 == "refused" { n[$3 == 33 ? $3 "_" $1 : $3 != 3 && $3 != 27 && $3 != 31 ? $3 : $5 == 0 ? $3 "_at_0" : $3 "_later"]++ }
        $2 == "length" { n["length_" $3]++ }
        END { for (k in n) print k, n[k] }' "$work/want" >>"$work/tally"
    cat "$work/told" >>"$work/tally"
    calls=$((calls + $(wc -l <"$work/want")))
}

# A refusal that was never seen is a fault of the test; 3, 27 and 31 must have come at place 0 and at later ones, 33 from both calls that give
# it, 5 and 23 from batches too, and each refusal of a query in a batch. So is it if no record with an accession number was found by an editor,
# or by a visitor above 2^32, alone or in a batch, or no buffer was lent as both queries of a merge, or a length of a period from 0 to 64 was
# never given, or a number of queries from 0 to 16 never answered in a batch.
total() {
    awk -v calls="$calls" -v seeds="$seed" -v seconds=$(($(date +%s) - began)) '
        { n[$1] += $2 }
        END {
            printf "robustness: %d calls compared, each made 4 times, 0 differences;", calls
            operations = split("verify generate synthesize look_up read_line merge period_length enumerate tally look_up_batch", k)
            for (i = 1; i <= operations; i++) printf " %s %d,", k[i], n[k[i]]
            printf " refused"
            refusals = split("1 2 3_at_0 3_later 4 5 6 23 24 25 26 27_at_0 27_later 28 29 30 31_at_0 31_later 32 33_enumerate 33_tally" \
                " 5_batch 34_batch 23_batch", r)
            for (i = 1; i <= refusals; i++) {
                printf " %s: %d,", r[i], n[r[i]]
                unseen += n[r[i]] == 0
            }
            printf " queries in batches"
            kinds = split("found made 1 2 3 4 24", q)
            for (i = 1; i <= kinds; i++) {
                printf " %s: %d,", q[i], n["queries_" q[i]]
                unseen += n["queries_" q[i]] == 0
            }
            for (i = 0; i <= 16; i++) sizes += n["batch_of_" i] > 0
            printf " sizes of batches %d,", sizes
            printf " found with a number for editors %d, for visitors above 2^32 %d,", n["editors_found"], n["visitors_found"]
            printf " in batches %d and %d,", n["batch_editors_found"], n["batch_visitors_found"]
            unseen += n["batch_editors_found"] == 0 || n["batch_visitors_found"] == 0 || sizes < 17
            printf " merged with itself in one buffer %d,", n["lent_twice"]
            for (i = 0; i <= 64; i++) lengths += n["length_" i] > 0
            printf " lengths of periods %d,", lengths
            printf " %d seeds, %d seconds\n", seeds, seconds
            exit unseen > 0 || n["editors_found"] == 0 || n["visitors_found"] == 0 || n["lent_twice"] == 0 || lengths < 65
        }' "$work/tally"
}

build
calls=0
seed=0
while [ "$calls" -lt "$least" ] || [ "$seed" -eq 0 ]; do
    seed=$((seed + 1))
    round candidates "$seed" 3000
    round catalogues "$seed" 3000
    round linecalls "$seed" 3000
    round merges "$seed" 3000
    round periods "$seed" 3000
    round numbers "$seed" 1000
    round bundles "$seed" 1000
done
total
