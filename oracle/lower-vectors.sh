#!/bin/sh
# lower-vectors.sh [DIRECTORY]: the netlists that the gate's program cases_lower replays (crates/cases_lower/stdin, stdout), made again without the
# proved program: random ones, random ones with clock enables and with wires read twice, and small ones of both whose answers clock-enables.py and
# repeats.py state. All answers are the Rust's. Needs build.sh.
set -eu
cd "$(dirname "$0")"
bin=target/release
to=${1:-../crates/cases_lower}
mkdir -p "$to"
work=$(mktemp -d)
trap 'rm -rf "$work"' EXIT

$bin/bulk 1 500 "$work/all.bin" "$work/all.txt" > /dev/null
$bin/bulk --clock-enables 1 100 "$work/enables.bin" "$work/enables.txt" > /dev/null
$bin/bulk --repeats 1 150 "$work/repeats.bin" "$work/repeats.txt" > /dev/null
for part in all enables repeats; do
    ./within.py "$work/$part.bin" "$work/$part.txt" "$work/$part.kept.bin" "$work/$part.kept.txt" > /dev/null
done
./clock-enables.py lower "$work/small.bin" "$work/stated.txt"
$bin/bulk --answers "$work/small.bin" "$work/small.txt" > /dev/null
sed 's/^model .*/model/' "$work/small.txt" | cmp "$work/stated.txt" -
./repeats.py lower "$work/twice.bin" "$work/twice.txt"
cat "$work/all.kept.bin" "$work/enables.kept.bin" "$work/small.bin" "$work/repeats.kept.bin" "$work/twice.bin" > "$to/stdin"
cat "$work/all.kept.txt" "$work/enables.kept.txt" "$work/small.txt" "$work/repeats.kept.txt" "$work/twice.txt" > "$to/stdout"
$bin/bulk --answers "$to/stdin" "$work/again" > "$work/kinds"
cmp "$to/stdout" "$work/again"
cat "$work/kinds"
echo "$(wc -c < "$to/stdin") bytes of netlists, $(wc -l < "$to/stdout") lines"
