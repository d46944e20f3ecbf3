#!/bin/sh
# What the programs answer to input that is too long, too short, or not in whole words. Needs `tools/build.sh lower simulate`.
set -eu
cd "$(dirname "$0")/.."
run_program() { # PROGRAM [ARGUMENT]
    program=$1
    shift
    "crates/$program/out/$program" "$@"
}
try() { # EXPECTED PROGRAM [ARGUMENT], bytes on standard input
    expected=$1
    shift
    got=$(run_program "$@" | head -c 100)
    [ "$got" = "$expected" ] || { echo "$*: $got, not $expected"; exit 1; }
}
zeros() { head -c "$1" /dev/zero; }
zeros 0 | try 'refused 3 0' lower
zeros 5 | try 'refused 3 0' lower
zeros 18 | try 'refused 3 0' lower
zeros 65540 | try 'refused 3 0' lower
zeros 65537 | try 'refused 3 0' lower
zeros 65536 | try 'refused 4 0' lower
zeros 16 | crates/lower/out/lower | head -n 1 | grep -q '^model 2 2 2$'
zeros 0 | try 'refused 3 0' simulate
zeros 7 | try 'refused 3 0' simulate
zeros 24 | try '' simulate
zeros 25 | try 'refused 3 0' simulate
zeros 262156 | try 'refused 3 0' simulate
printf '\001\000\000\000\000\000\000\000\000\000\000\000' | try 'refused 3 0' simulate
zeros 3 | try '' simulate --batch
zeros 4 | try 'refused 3 0' simulate --batch
{ printf '\006\000\000\000'; zeros 20; } | try 'refused 3 0' simulate --batch
{ printf '\006\000\000\000'; zeros 24; } | try '' simulate --batch
{ printf '\002\000\001\000'; zeros 262152; } | try 'refused 4 0' simulate --batch
# a case that is too long is passed over, and the next follows
{ printf '\003\000\001\000'; zeros 262156; printf '\002\000\001\000'; zeros 262152; } | try "$(printf 'refused 3 0\nrefused 4 0')" simulate --batch
echo "programs: ok"
