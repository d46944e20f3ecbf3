#!/usr/bin/env python3
"""Random ticks for a design of oracle/yosys/design, as input of `simulate` and as a Verilog test bench that prints the same lines.

  bench.py FILE.json FILE.words TICKS SEED CASE BENCH.v

Everything starts at 0 in the tick rule, so the first tick resets what has a reset and falls on clk2; the Verilog gives start values to the rest.
A tick sets all inputs but the clocks and waits, then moves the clock that fires, and waits again; a clock's bit is its level after the tick.
An asynchronous reset begins only in a tick that moves no clock: Verilog resets before the edge, the tick rule at the edge (docs/DIFFERENCES.md).
"""
import random, struct, sys
from convert import module_of

CLOCKS = {"clk": 0, "clk2": 1}
# how often a bit is 1, in a hundred
OFTEN = {"rst": 3, "arst": 3, "clear_n": 97, "en": 60, "we": 60}
FIRST = {"rst": 1, "arst": 1, "clear_n": 0, "en": 0, "we": 0}
# asynchronous resets, by their active level
RESETS = {"arst": 1, "clear_n": 0}


def draw(rng, inputs, count):
    """Per tick the ports' values and what fires: (port, edge) or None."""
    levels, recent = dict(CLOCKS), [0]
    for k in range(count):
        values = {}
        for name, width in inputs.items():
            values[name] = int(rng.randrange(100) < OFTEN[name]) if name in OFTEN else rng.getrandbits(width)
        # addresses come back to words that were written, and now and then both sides are equal
        if rng.random() < 0.6:
            values["a"] = rng.choice(recent)
        if rng.random() < 0.2:
            values["b"] = values["a"]
        recent = (recent + [values["a"]])[-6:]
        how, fired = rng.randrange(100), None
        begins = k > 0 and any(values[name] == level != before[name] for name, level in RESETS.items() if name in inputs)
        if k == 0:
            values.update(FIRST)
            fired = "clk2"
        elif how < 55 and not begins:
            fired = "clk"
        elif how < 85 and not begins:
            fired = "clk2"
        if fired:
            levels[fired] ^= 1
            fired = (fired, 1 - levels[fired])
        elif how % 5 == 0:
            # a port that is no clock
            fired = (rng.choice([name for name in inputs if name not in CLOCKS]), rng.randrange(2))
        values.update(levels)
        before = values
        yield values, fired


def case(ports, inputs, words, ticks):
    heads, bits = [], []
    for values, fired in ticks:
        mine = [values[name] >> k & 1 for name, width in inputs.items() for k in range(width)]
        bits += mine
        heads += [len(mine), 0, 0] if fired is None else [len(mine), fired[1] + 1, list(ports).index(fired[0])]
    data = struct.pack(f"<{2 + len(heads)}I", len(ticks), len(bits), *heads) + bytes(bits)
    return data + bytes(-len(bits) % 4) + words


def bench(top, ports, inputs, ticks):
    outputs = [name for name, port in ports.items() if port["direction"] == "output"]
    total = sum(inputs.values())
    text = ["`timescale 1ns/1ps", "module bench;"]
    for name, port in ports.items():
        # set before anything runs, to levels at which nothing loads, so that no clock moves at the start
        start = CLOCKS.get(name, 1 - RESETS[name] if name in RESETS else 0)
        width = f"[{len(port['bits']) - 1}:0]"
        text.append(f"  reg {width} {name} = {start};" if name in inputs else f"  wire {width} {name};")
    text.append(f"  {top} dut({', '.join(f'.{name}({name})' for name in ports)});")
    others = [name for name in inputs if name not in CLOCKS]
    text.append(f"  reg [{total - 1}:0] ticks [0:{len(ticks) - 1}];")
    text.append("  integer k;\n  initial begin")
    for k, (values, _) in enumerate(ticks):
        bits = "".join(f"{values[name]:0{inputs[name]}b}" for name in others + list(CLOCKS))
        text.append(f"    ticks[{k}] = {total}'b{bits};")
    text.append("    #1;")
    at = total
    set_others, set_clocks = [], []
    for name in others + list(CLOCKS):
        at -= inputs[name]
        (set_clocks if name in CLOCKS else set_others).append(f"{name} = ticks[k][{at + inputs[name] - 1}:{at}];")
    text.append(f"    for (k = 0; k < {len(ticks)}; k = k + 1) begin")
    text.append(f"      {' '.join(set_others)} #1;\n      {' '.join(set_clocks)} #1;")
    text.append(f"      $display(\"{' '.join('%b' for _ in outputs)}\", {', '.join(outputs)});")
    text += ["    end", "  end", "endmodule"]
    return "\n".join(text) + "\n"


def main():
    json, words, count, seed, case_file, bench_file = sys.argv[1:]
    module = module_of(json)
    top = json.rsplit("/", 1)[-1].rsplit(".", 1)[0]
    ports = module["ports"]
    inputs = {name: len(port["bits"]) for name, port in ports.items() if port["direction"] == "input"}
    ticks = list(draw(random.Random(int(seed)), inputs, int(count)))
    with open(case_file, "wb") as f:
        f.write(case(ports, inputs, open(words, "rb").read(), ticks))
    with open(bench_file, "w") as f:
        f.write(bench(top, ports, inputs, ticks))


if __name__ == "__main__":
    main()
