#!/bin/sh
# Makes the stored answers again and compares them with those in answers/, then
# runs the tests and a short comparison of the two simulators and of a third in Python. About a minute.
set -eu
cd "$(dirname "$0")"
./build.sh
bin=target/release
new=$(mktemp -d)
trap 'rm -rf "$new"' EXIT
$bin/optimizer > "$new/optimizer.txt"
$bin/reader-vectors "$new/reader.txt" "$new/reader.bin" "$new/all-kinds.bin"
$bin/lower < "$new/all-kinds.bin" > "$new/all-kinds.txt"
$bin/words 0 2 2 3, 1 1 4, 0 2 3 0 0 2 8, 0 2 7 1 | $bin/lower > "$new/example.txt"
# two ports with clock enables, the second active low; clock-enable.txt is written by hand
zeros="0 0 0 0 0 0 0 0 0 0 0 0 0"
$bin/words 0 1 2, 0 4 3 4 5 6, 1 2 7 8, 6 1 1 1, 3 $zeros, 4 1, 3 $zeros, 0 0 0, 1 6 1, 2 0, 1, 5, 5, 3 $zeros, 4 0, 0 0 0, 1 6 0, 2 0, 5, 6, \
    0 3 13 1 | $bin/lower > "$new/clock-enable.txt"
for file in "$new"/*; do
    cmp "$file" "answers/$(basename "$file")"
done
python3 address_mux.py | cmp - ../crates/cases_nodes/stdout
./lower-vectors.sh "$new/cases_lower" > /dev/null
./simulate-vectors.sh "$new/simulate" > /dev/null
for file in cases_lower/stdin cases_lower/stdout simulate/stdin simulate/stdout; do
    cmp "$new/$file" "../crates/$file"
done
python3 yosys/compare.py --batch "$new/simulate/stdin" $bin/simulate
echo "answers as stored"
cargo test --release --offline -j1 --quiet > "$new/tests" 2>&1 || { cat "$new/tests"; exit 1; }
for focus in "" --clock-enables --repeats; do
    # shellcheck disable=SC2086
    $bin/compare $focus 1 1000 40
    # shellcheck disable=SC2086
    $bin/compare $focus 1 1000 40 --wrong > "$new/wrong" || { cat "$new/wrong"; exit 1; }
done
echo "tests passed, simulators agree, wrong readings found"
