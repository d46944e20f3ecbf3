#!/usr/bin/env python3
"""Turns a netlist of Yosys' synth_ecp5 (JSON) into netlist words.

  convert.py FILE.json [MODULE] > FILE.words

Little-endian words on standard output; what the words can't say is refused with a message. Ports keep their order, so signal n of
the model is port n of the module. Cells come in the file's order, nets are numbered as they are met, and a value that does not
matter (x) is 0. A block RAM gets as many words as its address bits reach and as many bits as are read. CEA and CEB are its ports' clock
enables; OCEA and OCEB do nothing without an output register. Where a control of a block RAM is made of several pins, a LUT4 in front of it
joins them.
"""
import json, struct, sys

ZERO, ONE = 0, 1


class Refused(Exception):
    pass


def refuse(text):
    raise Refused(text)


class Cell:
    """A cell's parameters and pins by name."""

    def __init__(self, words, name, cell):
        self.words, self.name, self.kind = words, name, cell["type"]
        self.parameters, self.pins = cell.get("parameters", {}), cell["connections"]

    def no(self, why):
        refuse(f"{self.kind} {self.name}: {why}")

    def parameter(self, name, default):
        """Yosys puts a space behind a text that could be a number."""
        value = self.parameters.get(name, default)
        return value.rstrip(" ") if isinstance(value, str) else value

    def choice(self, name, default, **allowed):
        """The meaning of a parameter's text; another text is refused."""
        text = self.parameter(name, default)
        if text not in allowed:
            self.no(f"{name} is {text}")
        return allowed[text]

    def number(self, name, default=0):
        text = self.parameter(name, default)
        return text if isinstance(text, int) else int(text.replace("x", "0"), 2)

    def bits(self, name, width=1):
        """A pin's bit words, the lowest first; a pin left open is 0."""
        bits = self.pins.get(name, [])
        return [self.words.bit(b) for b in bits] + [ZERO] * (width - len(bits))

    def bit(self, name):
        return self.bits(name)[0]

    def outputs(self, name, width=1):
        """A pin's wires; one left open gets a wire of its own."""
        bits = self.pins.get(name, [])
        return [self.words.wire(bits[k]) if k < len(bits) else self.words.fresh() for k in range(width)]

    def output(self, name):
        return self.outputs(name)[0]

    def each(self, name, count):
        """Pins that are numbered, name0 and so on."""
        return [self.bit(f"{name}{k}") for k in range(count)]

    def want(self, name, value, default):
        if self.parameter(name, default) != value:
            self.no(f"{name} is {self.parameter(name, default)}, not {value}")

    def low(self, *names):
        for name in names:
            if self.bit(name) != ZERO:
                self.no(f"{name} is not 0")


class Words:
    def __init__(self, module):
        self.numbers, self.cells, self.extra, self.read = {}, 0, 0, set()
        self.module, self.out = module, []
        for cell in module["cells"].values():
            for pin, bits in cell["connections"].items():
                if cell.get("port_directions", {}).get(pin) != "output":
                    self.read.update(b for b in bits if isinstance(b, int))
        for port in module["ports"].values():
            if port["direction"] != "input":
                self.read.update(port["bits"])

    def fresh(self):
        self.extra += 1
        return self.wire(("fresh", self.extra))

    def wire(self, net):
        if isinstance(net, str):
            refuse(f"a constant {net} is driven")
        return self.numbers.setdefault(net, len(self.numbers))

    def bit(self, net):
        if net in ("0", "x"):
            return ZERO
        if net == "1":
            return ONE
        if net == "z":
            refuse("z is read")
        return self.wire(net) + 2

    def put(self, *words):
        self.out += words
        self.cells += 1

    def join(self, bits, low=()):
        """One bit that is 1 where all of `bits` are 1 and all of `low` are 0."""
        bits, low = sorted(set(bits) - {ONE}), sorted(set(low) - {ZERO})
        if ZERO in bits or ONE in low:
            return ZERO
        if not low and len(bits) < 2:
            return bits[0] if bits else ONE
        if len(bits) + len(low) > 4:
            refuse("a control of more than four pins")
        pins = bits + low + [ZERO] * (4 - len(bits) - len(low))
        init = 1 << (1 << len(bits)) - 1
        out = self.fresh()
        self.put(0, *pins, out, init)
        return out + 2

    def whole(self):
        ports = []
        for port in self.module["ports"].values():
            direction = {"input": 0, "output": 1, "inout": 2}[port["direction"]]
            ports += [direction, len(port["bits"]), *map(self.bit, port["bits"])]
        for name, cell in self.module["cells"].items():
            c = Cell(self, name, cell)
            convert = CELLS.get(c.kind)
            if convert is None:
                c.no("no such cell among the words")
            convert(self, c)
        return ports + self.out + [0, len(self.module["ports"]), len(ports), self.cells]


def lut4(w, c):
    w.put(0, *(c.bit(p) for p in "ABCD"), c.output("Z"), c.number("INIT"))


def pfumx(w, c):
    w.put(1, c.bit("ALUT"), c.bit("BLUT"), c.bit("C0"), c.output("Z"))


def l6mux21(w, c):
    w.put(2, c.bit("D0"), c.bit("D1"), c.bit("SD"), c.output("Z"))


def ccu2c(w, c):
    ins = [c.bit(p + row) for row in "01" for p in "ABCD"]
    injects = [c.choice(f"INJECT1_{row}", "YES", NO=0, YES=1) for row in "01"]
    w.put(3, *ins, c.bit("CIN"), c.output("S0"), c.output("S1"), c.output("COUT"), c.number("INIT0"), c.number("INIT1"), *injects)


def multiplier(w, c):
    c.low("SIGNEDA", "SIGNEDB", "SOURCEA", "SOURCEB")
    for stage in ("INPUTA", "INPUTB", "PIPELINE", "OUTPUT"):
        c.want(f"REG_{stage}_CLK", "NONE", "NONE")
    w.put(4, *c.each("A", 18), *c.each("B", 18), *(c.output(f"P{k}") for k in range(36)))


def flip_flop(w, c):
    edge = c.choice("CLKMUX", "CLK", CLK=0, INV=1)
    c.want("LSRMODE", "LSR", "LSR")
    value = c.choice("REGSET", "RESET", RESET=0, SET=1)
    enable = {"1": ONE, "0": ZERO}.get(c.parameter("CEMUX", "1"))
    active = 1
    if enable is None:
        enable, active = c.bit("CE"), c.choice("CEMUX", "1", CE=1, INV=0)
    enabling = [0, 0, 0] if enable == active and enable < 2 else [1, enable, active]
    reset, level = c.bit("LSR"), c.choice("LSRMUX", "LSR", LSR=1, INV=0)
    asynchronous = c.choice("SRMODE", "LSR_OVER_CE", LSR_OVER_CE=0, ASYNC=1)
    if reset < 2 and reset != level:
        resetting = [0] * 5
        if value:
            c.no("it starts at 1 and nothing resets it")
    else:
        resetting = [1, reset, level, asynchronous, value]
    w.put(5, c.bit("DI"), c.output("Q"), c.bit("CLK"), edge, *enabling, *resetting)


def distributed_ram(w, c):
    if c.number("INITVAL"):
        c.no("it does not start at 0")
    write = {"1": [ONE, 1], "0": [ZERO, 1]}.get(c.parameter("WREMUX", "WRE"))
    if write is None:
        write = [c.bit("WRE"), c.choice("WREMUX", "WRE", WRE=1, INV=0)]
    edge = c.choice("WCKMUX", "WCK", WCK=0, INV=1)
    w.put(7, *c.bits("WAD", 4), *c.bits("DI", 4), *write, *c.bits("RAD", 4), *c.outputs("DO", 4), c.bit("WCK"), edge, 0)


SHIFTS = {1: 0, 2: 1, 4: 2, 9: 3, 18: 4}


class Side:
    """One of the two sides of a block RAM."""

    def __init__(self, w, c, side):
        self.width = c.number(f"DATA_WIDTH_{side}", 18)
        if self.width not in SHIFTS:
            c.no(f"data of {self.width} bits")
        self.shift = SHIFTS[self.width]
        self.address = c.each("AD" + side, 14)
        self.data = c.each("DI" + side, 18)
        self.nets = [c.pins.get(f"DO{side}{k}", [None])[0] for k in range(18)]
        self.used = [k for k in range(18) if self.nets[k] in w.read]
        self.c, self.side = c, side
        self.clock, self.edge = c.bit("CLK" + side), c.choice(f"CLK{side}MUX", "CLK" + side, **{"CLK" + side: 0, "INV": 1})
        self.enable = (c.bit("CE" + side), c.choice(f"CE{side}MUX", "CE" + side, **{"CE" + side: 1, "INV": 0}))
        write = [c.bit("WE" + side)]
        self.mode = c.parameter(f"WRITEMODE_{side}", "NORMAL")
        if self.width == 18:
            # the two lowest address bits choose bytes
            if self.address[0] != self.address[1]:
                c.no("bytes are written apart")
            write.append(self.address[0])
        self.writing = [] if ZERO in write or self.enable in ((ZERO, 1), (ONE, 0)) else write
        self.reads, self.writes = bool(self.used), bool(self.writing)
        if self.reads:
            c.want(f"REGMODE_{side}", "NOREG", "NOREG")
            c.low("RST" + side)
        if self.reads or self.writes:
            c.want(f"CSDECODE_{side}", "0b000", "0b000")
            c.low(*(f"CS{side}{k}" for k in range(3)))

    def reach(self):
        """How many address bits from the shift on are ever 1."""
        return max([k + 1 - self.shift for k in range(self.shift, 14) if self.address[k] != ZERO], default=0)

    def write(self, w):
        return [w.join(self.writing) if self.writes else ZERO, 1]

    def read_enable(self, w):
        """Off in mode NORMAL while the side writes."""
        if not (self.reads and self.writes) or self.mode == "READBEFOREWRITE":
            return [0, 0, 0]
        if self.mode != "NORMAL":
            self.c.no(f"{self.mode}: the read takes what is written")
        return [1, w.join([], [w.join(self.writing)]), 1]

    def clock_enable(self):
        return [0, 0, 0] if self.enable in ((ONE, 1), (ZERO, 0)) else [1, *self.enable]

    def outputs(self, w, width):
        return [w.fresh() if net is None else w.wire(net) for net in self.nets[:width]]


def block_ram(w, c):
    for name in c.parameters:
        if name.startswith("INITVAL_") and c.number(name):
            c.no("it does not start at 0")
        if name.endswith("MUX") and name[:3] not in ("CLK", "CEA", "CEB"):
            c.want(name, name[:-3], None)
    sides = [s for s in (Side(w, c, "A"), Side(w, c, "B")) if s.reads or s.writes]
    if not sides:
        return
    if len({(s.width, s.clock, s.edge) for s in sides}) > 1:
        c.no("the two ports have different widths, clocks or edges")
    first = sides[0]
    depth = 1 << max(s.reach() for s in sides)
    width = max([k + 1 for s in sides for k in s.used], default=1)
    apart = len(sides) == 2 and not any(s.reads and s.writes for s in sides) and sides[0].reads != sides[1].reads
    if apart and sides[0].enable == sides[1].enable:
        # one writes, the other reads, and nothing stops only one of them: one port of the words
        reader, writer = sorted(sides, key=lambda s: s.writes)
        second = None
    else:
        reader = writer = first
        second = sides[1] if len(sides) == 2 else None
    write, enable = writer.write(w), reader.read_enable(w)
    out = [6, depth, width, first.width, *writer.address, *write, *reader.address, *enable, *reader.clock_enable(), first.clock, first.edge,
           int(second is not None), *writer.data[:width], *reader.outputs(w, width)]
    if second:
        out += [*second.address, *second.write(w), *second.read_enable(w), *second.clock_enable(), second.clock, second.edge,
                *second.data[:width], *second.outputs(w, width)]
    w.put(*out)


CELLS = {
    "LUT4": lut4,
    "PFUMX": pfumx,
    "L6MUX21": l6mux21,
    "CCU2C": ccu2c,
    "MULT18X18D": multiplier,
    "TRELLIS_FF": flip_flop,
    "DP16KD": block_ram,
    "TRELLIS_DPR16X4": distributed_ram,
}


def module_of(path, name=None):
    """The named module of a file, or its top."""
    modules = json.load(open(path))["modules"]
    if name is None:
        tops = [n for n, m in modules.items() if int(m.get("attributes", {}).get("top", "0"), 2)]
        if len(tops) != 1:
            refuse("which module?")
        name = tops[0]
    if name not in modules:
        refuse(f"no module {name}")
    return modules[name]


def main():
    try:
        words = Words(module_of(*sys.argv[1:3])).whole()
    except Refused as why:
        sys.exit(f"convert.py: {why}")
    sys.stdout.buffer.write(struct.pack(f"<{len(words)}I", *words))


if __name__ == "__main__":
    main()
