#!/usr/bin/env python3
"""Vectors from Yosys' ECP5 cell models, simulated by Icarus Verilog.

  vectors.py [--cells FILE] [--seed N] [--whole | --parted] > answers/yosys.txt

Each vector is a netlist of one cell between input and output ports, and a list of ticks with the output bits that Yosys' model shows
after each. A tick sets the inputs and waits, then moves the clock if it fires, and waits again. A clock's bit is its level after
the tick. Left out is every tick in which the model is known to part from the tick rule (docs/DIFFERENCES.md); --whole keeps these, and
--parted writes only the smallest input for each kind of them, so that compare.py can show them. The same seed gives the same file.

The format, line by line ('#' starts a comment):
  vector NAME        begins a vector
  cell TEXT          the Verilog instance, for a reader
  words N N ..       the netlist's words
  tick BITS F OUT    the bits of all input and inout ports in order, the lowest first ('.' if there are none); what fires: '-' for nothing, or signal.edge;
                     the bits of all output ports in order, the lowest first, after the tick
  end
"""
import argparse, os, random, subprocess, sys, tempfile

ZERO, ONE = 0, 1


class Vector:
    """One cell between ports. Input wires are numbered as they are made; a bit is a word of the netlist."""

    def __init__(self, name):
        self.name, self.ports, self.inputs, self.outputs, self.wires = name, [], [], [], 0
        self.cell, self.cells, self.text, self.clock, self.level, self.before, self.ticks = [], 1, "", None, 0, {}, []
        self.verilog = {ZERO: "1'b0", ONE: "1'b1"}

    def fresh(self, text):
        bit = self.wires + 2
        self.wires += 1
        self.verilog[bit] = text
        return bit

    def input(self, width=1, direction=0):
        port = len(self.ports)
        bits = [self.fresh(f"i{port}[{k}]") for k in range(width)]
        self.ports.append((direction, bits))
        self.inputs.append(port)
        return bits

    def output(self, width=1):
        """Wires of the cell that an output port shows. Returns them as wire numbers."""
        port = len(self.ports)
        bits = [self.fresh(f"o{port}[{k}]") for k in range(width)]
        self.ports.append((1, bits))
        self.outputs.append(port)
        return [b - 2 for b in bits]

    def clocked(self, level):
        """A clock port, at this level before the first tick."""
        self.clock, self.level, self.first = len(self.ports), level, level
        return self.input()[0]

    def instance(self, kind, parameters, pins):
        p = ", ".join(f".{k}({v})" for k, v in parameters.items())
        q = ", ".join(f".{k}({self.pin(v)})" for k, v in pins.items())
        self.text = f"{kind} #({p}) u({q});" if p else f"{kind} u({q});"

    def pin(self, bits):
        if isinstance(bits, str):
            return bits
        if isinstance(bits, list):
            return "{" + ", ".join(self.verilog[b] for b in reversed(bits)) + "}"
        return self.verilog[bits]

    def words(self):
        w = []
        for direction, bits in self.ports:
            w += [direction, len(bits), *bits]
        start = len(w)
        return w + self.cell + [0, len(self.ports), start, self.cells]

    def tick(self, values, fired=None):
        """values: port -> list of bits for every input port but the clock; fired: (signal, edge)."""
        values = dict(values)
        if self.clock is not None:
            if fired and fired[0] == self.clock:
                self.level = 1 - fired[1]
            values[self.clock] = [self.level]
        self.ticks.append((values, fired))


def bits_of(n, width):
    return [n >> k & 1 for k in range(width)]


def table_bit(init, bits):
    return init >> sum(b << k for k, b in enumerate(bits)) & 1


def lut4(rng):
    inits = [0, 0xFFFF, 0x8000, 0x0001, 0x6996, 0xAAAA, 0xCCCC, 0xF0F0, 0xFF00, 0x1A35] + [rng.randrange(65536) for _ in range(14)]
    for i, init in enumerate(inits):
        v = Vector(f"lut4-{init:04x}")
        if i % 4 == 3:
            # one input is a constant
            three, const, at = v.input(3), rng.choice([ZERO, ONE]), rng.randrange(4)
            ins, n = three[:at] + [const] + three[at:], 3
        else:
            ins, n = v.input(4), 4
        (o,) = v.output()
        v.cell = [0, *ins, o, init]
        v.instance("LUT4", {"INIT": f"16'h{init:04x}"}, dict(zip("ABCD", ins), Z=o + 2))
        for x in range(2**n):
            v.tick({0: bits_of(x, n)})
        yield v


def muxes(rng):
    for kind, name, pins in ((1, "PFUMX", ("ALUT", "BLUT", "C0")), (2, "L6MUX21", ("D0", "D1", "SD"))):
        for const in (None, ZERO, ONE):
            v = Vector(name.lower() + ("" if const is None else f"-arm-{const}"))
            ins = v.input(3) if const is None else [const, *v.input(2)]
            (o,) = v.output()
            v.cell = [kind, *ins, o]
            v.instance(name, {}, dict(zip(pins, ins), Z=o + 2))
            n = len(v.ports[0][1])
            for x in range(2**n):
                v.tick({0: bits_of(x, n)})
            yield v


def ccu_parts(values, inits, injects):
    """Whether a row with inject set gives another carry in Yosys' model: it is L and the carry in, where the tick rule has M without L."""
    carry = values[8]
    for row in range(2):
        four = values[4 * row : 4 * row + 4]
        l, m = table_bit(inits[row], four), table_bit(inits[row], four[:2] + [0, 0])
        if injects[row]:
            if (l and carry) or (not l and m):
                return True
            carry = 0
        else:
            carry = carry if l else m
    return False


def ccu2c(rng, whole):
    for inject in range(4):
        injects = bits_of(inject, 2)
        for k in range(10):
            inits = [0x96AA, 0x96AA] if k == 0 else [0x6666, 0x9999] if k == 1 else [rng.randrange(65536), rng.randrange(65536)]
            v = Vector(f"ccu2c-{inits[0]:04x}-{inits[1]:04x}-{injects[0]}{injects[1]}")
            ins = v.input(9)
            s0, s1 = v.output(2)
            (c,) = v.output()
            v.cell = [3, *ins, s0, s1, c, *inits, *injects]
            names = ["A0", "B0", "C0", "D0", "A1", "B1", "C1", "D1", "CIN"]
            yes = {0: '"NO"', 1: '"YES"'}
            v.instance("CCU2C", {"INIT0": f"16'h{inits[0]:04x}", "INIT1": f"16'h{inits[1]:04x}", "INJECT1_0": yes[injects[0]], "INJECT1_1": yes[injects[1]]},
                       dict(zip(names, ins), S0=s0 + 2, S1=s1 + 2, COUT=c + 2))
            for x in rng.sample(range(512), 48):
                values = bits_of(x, 9)
                if whole or not ccu_parts(values, inits, injects):
                    v.tick({0: values})
            yield v


def any_fired(rng, v, ports):
    """The clock's next edge, mostly; or another input's signal, or nothing."""
    r = rng.random()
    if r < 0.2:
        return None
    if r < 0.3 and ports:
        return (rng.choice(ports), rng.randrange(2))
    return (v.clock, v.level)


def flip_flop(rng, whole):
    for edge in (0, 1):
        for enable in ("none", "high", "low", "off"):
            for reset in ("none", *(f"{kind}-{active}-{value}" for kind in ("sync", "async") for active in ("high", "low") for value in ("reset", "set"))):
                v = Vector(f"ff-{('rise', 'fall')[edge]}-enable-{enable}-{reset}")
                clock = v.clocked(edge)
                (d,) = v.input()
                parameters = {"CLKMUX": ('"CLK"', '"INV"')[edge]}
                if enable == "none":
                    parameters["CEMUX"], ce, enabling = '"1"', "1'b0", [0, 0, 0]
                elif enable == "off":
                    parameters["CEMUX"], ce, enabling = '"0"', "1'b0", [1, ZERO, 1]
                else:
                    (ce,) = v.input()
                    parameters["CEMUX"], enabling = ('"INV"', '"CE"')[enable == "high"], [1, ce, int(enable == "high")]
                rport = None
                if reset == "none":
                    lsr, resetting, asynchronous, active, value = "1'b0", [0] * 5, 0, 1, 0
                else:
                    kind, level, loads = reset.split("-")
                    asynchronous, active, value = int(kind == "async"), int(level == "high"), int(loads == "set")
                    rport = len(v.ports)
                    (lsr,) = v.input()
                    resetting = [1, lsr, active, asynchronous, value]
                    parameters["LSRMUX"] = ('"INV"', '"LSR"')[active]
                parameters["SRMODE"] = ('"LSR_OVER_CE"', '"ASYNC"')[asynchronous]
                parameters["REGSET"] = ('"RESET"', '"SET"')[value]
                (q,) = v.output()
                v.cell = [5, d, q, clock, edge, *enabling, *resetting]
                v.instance("TRELLIS_FF", parameters, {"CLK": clock, "LSR": lsr, "CE": ce, "DI": d, "M": "1'b0", "Q": q + 2})
                others = [p for p in v.inputs if p != v.clock]
                # before the first tick the reset is off
                v.before = {p: [0] for p in others}
                if rport is not None:
                    v.before[rport] = [1 - active]
                # Yosys' flip-flop starts at its reset value: where that is 1, the first tick loads it
                if value and not whole:
                    values = {p: [rng.randrange(2)] for p in others}
                    values[rport] = [active]
                    v.tick(values, (v.clock, v.level))
                for _ in range(32):
                    fired = any_fired(rng, v, others)
                    v.tick({p: [rng.randrange(2) if p != rport or rng.random() < 0.5 else 1 - active] for p in others}, fired)
                yield v


def distributed_ram(rng):
    for edge in (0, 1):
        for write in ("high", "low", "one", "zero-low"):
            v = Vector(f"dpr16x4-{('rise', 'fall')[edge]}-{write}")
            clock = v.clocked(edge)
            wad, di, rad = v.input(4), v.input(4), v.input(4)
            if write in ("high", "low"):
                (wre,) = v.input()
                control = [wre, int(write == "high")]
            else:
                wre = ONE if write == "one" else ZERO
                control = [wre, int(write == "one")]
            o = v.output(4)
            v.cell = [7, *wad, *di, *control, *rad, *o, clock, edge, 0]
            v.instance("TRELLIS_DPR16X4", {"WCKMUX": ('"WCK"', '"INV"')[edge], "WREMUX": ('"INV"', '"WRE"')[control[1]]},
                       {"DI": di, "WAD": wad, "WRE": wre, "WCK": clock, "RAD": rad, "DO": [x + 2 for x in o]})
            others = [p for p in v.inputs if p != v.clock]
            written = [0]
            for _ in range(64):
                values = {p: [rng.randrange(2) for _ in v.ports[p][1]] for p in others}
                written.append(sum(b << k for k, b in enumerate(values[1])))
                if rng.random() < 0.7:
                    values[3] = bits_of(rng.choice(written[-4:]), 4)
                v.tick(values, any_fired(rng, v, others))
            yield v


def trellis_io(rng, whole):
    for direction in ("BIDIR", "INPUT", "OUTPUT") if whole else ("BIDIR", "INPUT"):
        v = Vector(f"io-{direction.lower()}")
        (pad,) = v.input(direction=2)
        (i,) = v.input()
        (t,) = v.input()
        (o,) = v.output()
        v.cell = [8, pad - 2, i, o, t]
        v.instance("TRELLIS_IO", {"DIR": f'"{direction}"'}, {"B": "pad", "I": i, "T": t, "O": o + 2})
        v.text = "wire pad = i0[0]; " + v.text
        for x in range(8):
            p, a, tri = bits_of(x, 3)
            # the bench drives the pad always: against the cell that is no value; as an input the cell takes the pad whatever tristate says
            if whole or (tri or p == a) and (tri or direction == "BIDIR"):
                v.tick({0: [p], 1: [a], 2: [tri]})
        yield v


def parted():
    """The smallest input that shows each way in which a model parts from the tick rule."""
    def ccu(name, ins, init0):
        v = Vector(name)
        s0, s1 = v.output(2)
        (c,) = v.output()
        v.cell = [3, *ins, s0, s1, c, init0, 0xFFFF, 1, 0]
        names = ["A0", "B0", "C0", "D0", "A1", "B1", "C1", "D1", "CIN"]
        v.instance("CCU2C", {"INIT0": f"16'h{init0:04x}", "INIT1": "16'hffff", "INJECT1_0": '"YES"', "INJECT1_1": '"NO"'},
                   dict(zip(names, ins), S0=s0 + 2, S1=s1 + 2, COUT=c + 2))
        v.tick({})
        return v

    # the carry of a row with inject set: L and the carry in; and 0 where L is 0 and M is 1
    yield ccu("ccu2c-inject-keeps-carry", [0] * 8 + [ONE], 0xFFFF)
    yield ccu("ccu2c-inject-drops-m", [0, 0, ONE, 0, 0, 0, 0, 0, 0], 0x0001)

    def flop(name, reset, value, asynchronous):
        v = Vector(name)
        (clock,) = v.input()
        (q,) = v.output()
        lsr = q + 2 if reset == "own" else reset
        v.cell = [5, ONE, q, clock, 0, 0, 0, 0, *([0] * 5 if reset is None else [1, lsr, 1, asynchronous, value])]
        v.instance("TRELLIS_FF", {"SRMODE": ('"LSR_OVER_CE"', '"ASYNC"')[asynchronous], "REGSET": ('"RESET"', '"SET"')[value]},
                   {"CLK": clock, "LSR": "1'b0" if lsr is None else lsr, "CE": "1'b1", "DI": ONE, "M": "1'b0", "Q": q + 2})
        return v

    # a flip-flop starts at its reset's value
    v = flop("ff-starts-set", ZERO, 1, 0)
    v.tick({0: [0]})
    yield v
    # an asynchronous reset that the commit itself asserts acts at once
    v = flop("ff-resets-itself", "own", 0, 1)
    v.clock, v.first, v.level = 0, 0, 0
    v.tick({}, (0, 0))
    yield v
    # an asynchronous reset acts before the edge that comes with it: another flip-flop loads what it leaves
    v = Vector("ff-resets-before-edge")
    v.clock, v.first, v.level = 0, 0, 0
    (clock,), (r,), (q,), inner = v.input(), v.input(), v.output(), v.fresh("inner")
    v.cell, v.cells = [5, ONE, inner - 2, clock, 0, 0, 0, 0, 1, r, 1, 1, 0, 5, inner, q, clock, 1] + [0] * 8, 2
    v.instance("TRELLIS_FF", {"CLKMUX": '"INV"'}, {"CLK": clock, "LSR": ZERO, "CE": ONE, "DI": inner, "M": ZERO, "Q": q + 2})
    second = v.text.replace(" u(", " second(")
    v.instance("TRELLIS_FF", {"SRMODE": '"ASYNC"'}, {"CLK": clock, "LSR": r, "CE": ONE, "DI": ONE, "M": ZERO, "Q": inner})
    v.text = f"wire inner; {v.text} {second}"
    v.tick({1: [0]}, (0, 0))
    v.tick({1: [1]}, (0, 1))
    yield v
    # the clock's wire moves, though nothing fires
    v = flop("ff-clock-moves", None, 0, 0)
    v.tick({0: [0]})
    v.tick({0: [1]})
    yield v
    # TRELLIS_IO: the pad against the cell, an input that is told to drive, an output that is read
    for direction in ("BIDIR", "INPUT", "OUTPUT"):
        v = Vector(f"io-{direction.lower()}-drives")
        (pad,) = v.input(direction=2)
        (o,) = v.output()
        v.cell = [8, pad - 2, ONE, o, ZERO]
        v.instance("TRELLIS_IO", {"DIR": f'"{direction}"'}, {"B": "pad", "I": ONE, "T": ZERO, "O": o + 2})
        v.text = "wire pad = i0[0]; " + v.text
        v.tick({0: [0]})
        yield v


def simulate(vectors, cells):
    """The outputs of every tick of every vector, from one run of the simulator."""
    text = ["`timescale 1ns/1ps"]
    for n, v in enumerate(vectors):
        text.append(f"module v{n};")
        for p, (direction, bits) in enumerate(v.ports):
            if p in v.outputs:
                text.append(f"  wire [{len(bits) - 1}:0] o{p};")
            else:
                text.append(f"  reg [{len(bits) - 1}:0] i{p};")
        text.append("  " + v.text)
        # from unknown to levels at which no register loads: a model that waits for its inputs to change sees them
        first = {p: [v.first] if p == v.clock else v.before.get(p, [0] * len(v.ports[p][1])) for p in v.inputs}
        text.append("  initial begin #1; " + " ".join(f"i{p} = {number(b)};" for p, b in first.items()) + " #1;")
        for k, (values, fired) in enumerate(v.ticks):
            text.append("    " + " ".join(f"i{p} = {number(b)};" for p, b in values.items() if p != v.clock) + " #1;")
            if fired and fired[0] == v.clock:
                text.append(f"    i{v.clock} = {number(values[v.clock])}; #1;")
            shown = ", ".join(f"o{p}" for p in reversed(v.outputs))
            text.append(f'    $display("{n} {k} %b", {{{shown}}});')
        text += ["  end", "endmodule"]
    with tempfile.TemporaryDirectory() as where:
        source, binary = os.path.join(where, "bench.v"), os.path.join(where, "bench")
        with open(source, "w") as f:
            f.write("\n".join(text) + "\n")
        tops = [x for n in range(len(vectors)) for x in ("-s", f"v{n}")]
        subprocess.run(["iverilog", "-g2012", "-DNO_INCLUDES", "-o", binary, *tops, source, cells], check=True)
        out = subprocess.run(["vvp", "-n", binary], check=True, stdout=subprocess.PIPE, text=True).stdout
    shown = {}
    for line in out.splitlines():
        n, k, bits = line.split()
        shown[int(n), int(k)] = bits[::-1]
    return shown


def number(bits):
    return f"{len(bits)}'b" + "".join(map(str, reversed(bits)))


def main():
    a = argparse.ArgumentParser()
    a.add_argument("--cells", default="/usr/share/yosys/ecp5/cells_sim.v")
    a.add_argument("--whole", action="store_true")
    a.add_argument("--parted", action="store_true")
    a.add_argument("--seed", type=int, default=20240601)
    a = a.parse_args()
    rng = random.Random(a.seed)
    vectors = [*parted()] if a.parted else [*lut4(rng), *muxes(rng), *ccu2c(rng, a.whole), *flip_flop(rng, a.whole), *distributed_ram(rng), *trellis_io(rng, a.whole)]
    vectors = [v for v in vectors if v.ticks]
    shown = simulate(vectors, a.cells)
    print("# What Yosys' ECP5 cell models show, written by oracle/yosys/vectors.py, which says the format.")
    for n, v in enumerate(vectors):
        print(f"vector {v.name}\ncell {v.text}\nwords {' '.join(map(str, v.words()))}")
        for k, (values, fired) in enumerate(v.ticks):
            bits = "".join(str(b) for p in v.inputs for b in values[p]) or "."
            if not (a.whole or a.parted) and set(shown[n, k]) - set("01"):
                sys.exit(f"{v.name}: tick {k} shows {shown[n, k]}")
            print(f"tick {bits} {'-' if fired is None else '%d.%d' % fired} {shown[n, k]}")
        print("end")


if __name__ == "__main__":
    main()
