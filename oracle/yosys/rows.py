#!/usr/bin/env python3
"""Writes crates/behaviour/specs/YosysRows.antt: a few vectors of each kind of cell, whose ticks the check computes.

  rows.py answers/yosys.txt > ../crates/behaviour/specs/YosysRows.antt
"""
import sys

# the name of a vector, and how many of its ticks
TAKEN = """lut4-1a35 16
lut4-6996 16
lut4-0001 8
pfumx 8
pfumx-arm-1 4
l6mux21 8
l6mux21-arm-0 4
ccu2c-96aa-96aa-00 16
ccu2c-6666-9999-00 8
ccu2c-6666-9999-10 8
ccu2c-96aa-96aa-01 8
ff-rise-enable-none-none 8
ff-fall-enable-high-none 12
ff-rise-enable-high-sync-high-reset 12
ff-fall-enable-low-sync-low-set 12
ff-rise-enable-off-sync-high-set 12
ff-rise-enable-high-async-high-set 12
ff-rise-enable-low-async-low-reset 12
ff-fall-enable-none-async-low-set 12
dpr16x4-rise-high 16
dpr16x4-fall-low 16
dpr16x4-rise-one 8
io-bidir 8
io-input 4"""


def vectors(file):
    for line in open(file):
        key, _, rest = line.split("#")[0].strip().partition(" ")
        if key == "vector":
            name, ticks = rest, []
        elif key == "words":
            words = [int(x) for x in rest.split()]
        elif key == "tick":
            ticks.append(rest.split())
        elif key == "end":
            yield name, words, ticks


def listed(items):
    return " ∷ ".join([*map(str, items), "[]"])


def tick(bits, fired):
    bits = f"({listed(bits)})"
    return f"still {bits}" if fired == "-" else f"fire {bits} {fired.replace('.', ' ')}"


def main():
    have = {name: (words, ticks) for name, words, ticks in vectors(sys.argv[1])}
    banks = "collect_flip_flop_banks, banks_from, leaders_from, flip_flops_from, bank_in, members_of"
    print(f"""-- Vectors from Yosys' ECP5 cell models, a few of each kind of cell. Written by oracle/yosys/rows.py from oracle/answers/yosys.txt.
use Rattle.std.specs.Prelude.{{◌≡◌, refl, List, [], ◌∷◌, map}}
use Rattle.behaviour.specs.Banks.{{{banks}}}
use Rattle.behaviour.specs.Checking.{{Row, shown_by, still, fire}}

abbrev pub yosys_rows : List Row
yosys_rows =""")
    for line in TAKEN.split("\n"):
        name, count = line.split()
        words, ticks = have[name]
        ticks = ticks[: int(count)]
        shown = [sum(int(b) << k for k, b in enumerate(t[2])) for t in ticks]
        print(f"    -- {name}")
        print("    record {")
        print(f"      words = {listed(words)};")
        print(f"      ticks = {listed(tick(t[0], t[1]) for t in ticks)};")
        print(f"      shown = {listed(shown)};")
        print("    } ∷")
    print(f"""    []

pub yosys_holds : map shown_by yosys_rows ≡ map (λ (r : Row). r.shown) yosys_rows
unfolding {banks.replace(',', '')}
yosys_holds = refl""")


if __name__ == "__main__":
    main()
