#!/bin/sh
# compare-lower.sh [--clock-enables | --repeats] [BATCHES [NETLISTS]]: the proved lowering (crates/cases_lower/out/cases_lower) against the Rust, on batches of random
# netlists, seeds from 1 on; answers, counts, words used, hashes of all words and of the listing. The Rust is the amended one, and where no block
# RAM has a clock enable and no cell reads a wire twice also the unchanged one. With --clock-enables each netlist has a block RAM with a clock enable
# in both ports, with --repeats a cell that reads a wire twice.
# Needs oracle/build.sh and tools/build.sh cases_lower. PROGRAM, if set, is run instead of crates/cases_lower/out/cases_lower.
set -e
focus=
if [ "$1" = --clock-enables ] || [ "$1" = --repeats ]; then
    focus=$1
    shift
fi
cd "$(dirname "$0")"
batches=${1:-11} netlists=${2:-20000}
program=${PROGRAM:-../crates/cases_lower/out/cases_lower}
work=$(mktemp -d)
trap 'rm -rf "$work"' EXIT
seed=1 total=0
while [ "$seed" -le "$batches" ]; do
    target/release/bulk $focus "$seed" "$netlists" "$work/batch" "$work/answers" > /dev/null
    n=$(./within.py "$work/batch" "$work/answers" "$work/kept" "$work/expected" | cut -d' ' -f2)
    target/release/bulk --answers "$work/kept" "$work/again" >> "$work/kinds"
    cmp "$work/expected" "$work/again"
    $program < "$work/kept" > "$work/got"
    cmp "$work/expected" "$work/got"
    cut -d' ' -f1,2 "$work/got" | sed 's/^model .*/accepted/' >> "$work/tally"
    total=$((total + n)) seed=$((seed + 1))
done
sort "$work/tally" | uniq -c
awk '{ n = $1; $1 = ""; total[$0] += n } END { for (k in total) printf "%7d%s\n", total[k], k }' "$work/kinds" | sort -k2
echo "$total netlists, no difference"
