#!/bin/sh
# compare-simulate.sh [--clock-enables | --repeats] [BATCHES [CASES [TICKS [WORDS]]]]: the proved lowering and run (crates/simulate/out/simulate --batch) against the independent simulators,
# on batches of random netlists of at most WORDS words and random ticks, seeds from 1 on; every line. With --clock-enables each has a block RAM
# with a clock enable in both ports, with --repeats a cell that reads a wire twice. Needs oracle/build.sh and tools/build.sh simulate. PROGRAM, if set, is run instead of crates/simulate/out/simulate.
set -e
focus=
if [ "$1" = --clock-enables ] || [ "$1" = --repeats ]; then
    focus=$1
    shift
fi
cd "$(dirname "$0")"
batches=${1:-20} cases=${2:-5000} ticks=${3:-40} words=${4:-16384}
program=${PROGRAM:-../crates/simulate/out/simulate}
work=$(mktemp -d)
trap 'rm -rf "$work"' EXIT
seed=1
while [ "$seed" -le "$batches" ]; do
    target/release/simulate-cases $focus "$seed" "$cases" "$ticks" "$words" "$work/batch" "$work/expected" >> "$work/tally"
    $program --batch < "$work/batch" > "$work/got"
    cmp "$work/expected" "$work/got"
    seed=$((seed + 1))
done
# counts are added up; of sizes the largest is kept
awk '{ n = $1; $1 = ""; if ($2 != "most") total[$0] += n; else if (n > total[$0]) total[$0] = n } END { for (k in total) printf "%9d%s\n", total[k], k }' "$work/tally" | sort -k2
echo "no difference"
