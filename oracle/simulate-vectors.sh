#!/bin/sh
# simulate-vectors.sh [DIRECTORY]: the runs that the gate replays (crates/simulate/stdin, stdout), made again without the proved program.
# An example, cases with answers by hand (here, in clock-enables.py and in repeats.py), random ones by the independent simulators, one-cell netlists by Yosys' cell models
# (answers/yosys.txt), designs by Icarus Verilog (answers/design.*, made by yosys/design.sh). Needs build.sh. In the end the oracle's `simulate` must say the same of them all.
set -eu
cd "$(dirname "$0")"
bin=target/release
to=${1:-../crates/simulate}
mkdir -p "$to"
work=$(mktemp -d)
trap 'rm -rf "$work"' EXIT

: > "$work/hand.bin"
: > "$work/hand.txt"
hand() { # WORDS LINE..
    words=$(echo "$1" | tr -d ,)
    shift
    # shellcheck disable=SC2086
    $bin/words $(echo $words | wc -w) $words >> "$work/hand.bin"
    [ $# = 0 ] || printf '%s\n' "$@" >> "$work/hand.txt"
}
zeros="0 0 0 0 0 0 0 0 0 0 0 0 0 0"
# the listing's example: an and of two bits, all four ticks
hand "4 8, 2 0 0, 2 0 0, 2 0 0, 2 0 0, 65536 16843008, 0 2 2 3, 1 1 4, 0 2 3 0 0 2 8, 0 2 7 1" 0 0 0 1
# its ticks refused: no bits, three bits, a bit 2, edges, a signal too high; nothing fires a signal that is not there
hand "7 12, 0 0 0, 3 0 0, 2 0 0, 2 3 0, 2 1 5, 1 0 0, 2 0 9, 16777216 2 16843008, 0 2 2 3, 1 1 4, 0 2 3 0 0 2 8, 0 2 7 1" \
    "refused 14 2" "refused 14 2" "refused 14 1" "refused 14 0" "refused 14 0" "refused 14 2" 1
# no ports, no cells: two signals, lines without a digit
hand "3 0, 0 0 0, 0 2 1, 0 1 2, 0 0 0 0" "" "" "refused 14 0"
# no ticks
hand "0 0, 0 0 0 0"
# a toggle that starts at 0, its clock rises, falls and rises
hand "3 3, 1 1 0, 1 2 0, 1 1 0, 65537, 0 1 2, 1 1 3, 0 3 0 0 0 2 1, 5 4 1 2 0, 0 0 0, 0 0 0 0 0, 0 2 6 2" 1 1 0
# a reset beats the enable, an asynchronous one also the clock: enable off, nothing fires, then the reset is gone
hand "2 2, 1 0 0, 1 0 0, 1, 0 1 2, 1 1 3, 5 0 1 0 0, 1 0 1, 1 2 1 1 1, 0 2 6 1" 1 1
# a head that asks for more bits than there are, though as many as the netlist has inputs are left; the next has none
hand "2 1, 2 0 0, 1 0 0, 1, 0 1 2, 1 1 2, 0 2 6 0" "refused 14 1" "refused 14 1"
# a loop of one cell: every tick is refused for its own faults first, then for the loop; and a loop that the rewrites take away
hand "4 1, 0 0 0, 1 0 0, 0 1 9, 0 1 0, 1, 1 1 2, 0 2 2 2 2 0 21845, 0 1 3 1" "refused 13 1" "refused 14 0" "refused 14 0" "refused 13 1"
hand "0 0, 1 1 2, 0 2 2 2 2 0 21845, 0 1 3 1"
hand "1 0, 0 0 0, 1 1 2, 0 2 2 2 2 0 65535, 0 1 3 1" 1
# the signal list is full
hand "0 0, 6 16384 1 1, $zeros, 0 1, $zeros, 0 0 0, 0 0 0, 0 0 0, 0 0, 0 0 0 1" "refused 2 0"
# small block RAMs with a clock enable, which the unchanged Rust takes otherwise: one that is off for ever, one that is missing
hand "2 2, 1 1 0, 1 1 0, 0, 0 1 2, 1 1 3, 6 1 1 1, $zeros, 1 1, $zeros, 0 0 0, 1 0 1, 2 0, 0, 1, 1, 0 2 6 1" 0 0
hand "2 2, 1 1 0, 1 1 0, 0, 0 1 2, 1 1 3, 6 1 1 1, $zeros, 1 1, $zeros, 0 0 0, 1 9 1, 2 0, 0, 1, 1, 0 2 6 1" "refused 8 7"
# leading words are missing, then the netlist is
hand "" "refused 3 0"
hand "0" "refused 3 0"
hand "2 0, 0 0 0, 0 0" "refused 3 0"
hand "0 9, 0 0" "refused 3 0"
hand "4294967295 4294967295, 0 0 0 0" "refused 3 0"
hand "1 1, 1 0 0, 1" "refused 3 0"
# the netlist is refused whatever the ticks are
hand "1 1, 9 9 9, 5, 0 0 1, 0 0 0 0" "refused 4 0"

python3 ../tools/words.py asm-ticks ../examples/counter.txt ../examples/counter.ticks > "$work/one.bin"
$bin/words $(($(wc -c < "$work/one.bin") / 4)) | cat - "$work/one.bin" > "$work/example.bin"

./clock-enables.py ticks "$work/small.bin" "$work/small.txt"
./repeats.py ticks "$work/twice.bin" "$work/twice.txt"
$bin/simulate-cases 1 700 20 3000 "$work/random.bin" "$work/random.txt" > "$work/tally"
$bin/simulate-cases --clock-enables 1 100 20 2000 "$work/enables.bin" "$work/enables.txt" > "$work/tally-enables"
$bin/simulate-cases --repeats 1 100 20 2000 "$work/repeats.bin" "$work/repeats.txt" > "$work/tally-repeats"
yosys/cases.py answers/yosys.txt "$work/yosys.bin" "$work/yosys.txt"
set -- hand small twice random enables repeats yosys
{
    cat "$work/example.bin"
    for part; do cat "$work/$part.bin"; done
    cat answers/design.bin
} > "$to/stdin"
{
    cat ../examples/counter.shown
    for part; do cat "$work/$part.txt"; done
    cat answers/design.txt
} > "$to/stdout"
$bin/simulate --batch < "$to/stdin" | cmp "$to/stdout" -
cat "$work/tally"
echo "with clock enables:"
cat "$work/tally-enables"
echo "with wires read twice:"
cat "$work/tally-repeats"
echo "$(wc -c < "$to/stdin") bytes of cases, $(wc -l < "$to/stdout") lines"
