#!/usr/bin/env python3
"""Cases of cells that read a wire twice, small and made on purpose.

  repeats.py lower BATCH STATED       netlists with list lengths, as `bulk` writes them, and what each must be, as `bulk` says it: the refusal, or records,
                                      words and hashes of the model
  repeats.py ticks BATCH EXPECTED     netlists with ticks, as `simulate --batch` reads them, and the lines that they must print

Netlists are texts of tools/words.py; a `/` ends a line. What is stated here is stated from the request: the expressions that come behind the two constants
and the statements that come behind their two, as the listing has them. Signals are those that words.py numbers.
"""
import stated
from stated import ROOMY, netlist, w

LABELS = "input output lut pfumx l6mux ccu mul ff ram dram io jtagg pll word zero one".split()
KINDS = "const read concat not and or xor mux eq mul".split()


def many(what, n):
    return ",".join([what] * n)


# ---- LOWERING


class Model:
    """A model from its stated expressions and statements."""

    def __init__(self, words, expressions, statements):
        held = w.signals_of(words)
        zero = len(held) - 2
        signals = [(label, len(bits), owner) for label, owner, bits in held]
        for c, (name, f) in enumerate(w.records_of(words)[1]):
            shape = {"bram": lambda: (f["depth"][0], f["width"][0]), "dram": lambda: (16, 4)}
            if name in shape:
                depth, width = shape[name]()
                signals += [("word", width, f"c{c}")] * depth
        expressions = ["const 1 0", "const 1 1"] + expressions
        statements = [f"assign s{zero} e0", f"assign s{zero + 1} e1"] + statements
        lines = [f"model {len(signals)} {len(expressions)} {len(statements)}"]
        lines += [" ".join(x for x in (f"s{n}", label, str(width), owner) if x) for n, (label, width, owner) in enumerate(signals)]
        lines += [f"e{n} {text}" for n, text in enumerate(expressions)]
        lines += [f"t{n} {text}" for n, text in enumerate(statements)]
        self.text = "".join(line + "\n" for line in lines)
        plain = lambda fields: [int(x.lstrip("se")) for x in fields]
        self.lists = [[[LABELS.index(label), width, int(owner[1:] or 0)] for label, width, owner in signals]]
        self.lists.append([[KINDS.index(x[0])] + plain(x[1:]) for x in (text.split() for text in expressions)])
        self.lists.append([[int(x[0] == "reg")] + plain(x[1:]) for x in (text.split() for text in statements)])
        # where each record ends, in words of its list
        self.ends = []
        for records in self.lists:
            ends, at = [], 0
            for record in records:
                at += len(record) + 1
                ends.append(at)
            self.ends.append(ends)
        self.used = [ends[-1] for ends in self.ends]

    def line(self):
        """What `bulk` says of it."""
        rows = [word for records in self.lists for record in records for word in [len(record) + 1, *record]]
        counts = [len(records) for records in self.lists]
        return "model " + " ".join(map(str, counts + self.used + [taken(rows), taken(self.text.encode())]))


def taken(numbers):
    h = 0
    for number in numbers:
        h = (31 * h + number) % 2**32
    return h


class Lower(stated.Lower):
    def model(self, text, expressions, statements):
        """The netlist in long lists, in lists exactly full, in lists of which one is a word short; the expressions also end with each record, and a
        word before, where they are few."""
        if isinstance(expressions, str):
            expressions = [] if not expressions else expressions.split("; ")
        m = Model(netlist(text), expressions, statements.split("; "))
        self.case(text, m.line())
        self.case(text, m.line(), m.used)
        for k in range(3):
            self.case(text, f"refused 2 {k}", [n - (j == k) for j, n in enumerate(m.used)])
        ends = m.ends[1] if len(expressions) <= 24 else []
        for room in sorted({end - short for end in ends for short in (0, 1)} - {m.used[1], m.used[1] - 1}):
            self.case(text, "refused 2 1", [m.used[0], room, m.used[2]])


ONE = "input 1 w0 / output 1 w9 / "  # s0, s1; then the cell's output s2
TWO = "input 1 w0 / input 1 w1 / output 1 w9 / "  # s0, s1, s2; then the cell's output s3


def lut(a, b, c, d, init, z="w9"):
    return f"lut4 a={a} b={b} c={c} d={d} z={z} init={init}"


def small_cells(c):
    # an exclusive or of a read with itself is Zero; so is that of the cell's own output, and no loop is left
    c.model(ONE + lut("w0", "w0", 0, 0, 0x6666), "read 1 s0 0; read 1 s2 0", "assign s2 e0; assign s1 e3")
    c.model("output 1 w9 / " + lut("w9", "w9", 0, 0, 0x6666), "read 1 s1 0; read 1 s1 0", "assign s1 e0; assign s0 e3")
    # an and of a read with itself stays
    c.model(ONE + lut("w0", "w0", 0, 0, 0x8888), "read 1 s0 0; and 1 e2 e2; read 1 s2 0", "assign s2 e3; assign s1 e4")
    # b ? a : c, a and c alike
    both = "read 1 s0 0; read 1 s1 0; not 1 e3; and 1 e4 e2; or 1 e3 e2; mux 1 e2 e6 e5; read 1 s3 0"
    c.model(TWO + lut("w0", "w1", "w0", 0, 0xB8B8), both, "assign s3 e7; assign s2 e8")
    # a constant beside them
    c.model(ONE + lut(0, "w0", "w0", 1, 0x6996), "read 1 s0 0; not 1 e2; xor 1 e2 e3; read 1 s2 0", "assign s2 e4; assign s1 e5")
    # three alike: the majority; four alike: an exclusive or, an and
    c.model(ONE + lut("w0", "w0", "w0", 0, 0xE8E8), "read 1 s0 0; and 1 e2 e2; or 1 e2 e2; mux 1 e2 e4 e3; read 1 s2 0", "assign s2 e5; assign s1 e6")
    c.model(ONE + lut("w0", "w0", "w0", "w0", 0x6996), "read 1 s0 0; read 1 s2 0", "assign s2 e0; assign s1 e3")
    c.model(ONE + lut("w0", "w0", "w0", "w0", 0x8000), "read 1 s0 0; and 1 e2 e2; and 1 e2 e3; and 1 e2 e4; read 1 s2 0", "assign s2 e5; assign s1 e6")
    # two pairs, side by side and in turns
    pairs = "read 1 s0 0; read 1 s1 0; and 1 e3 e3; and 1 e2 e4; and 1 e2 e5; read 1 s3 0"
    c.model(TWO + lut("w0", "w0", "w1", "w1", 0x8000), pairs, "assign s3 e6; assign s2 e7")
    turns = "read 1 s0 0; read 1 s1 0; xor 1 e2 e3; xor 1 e3 e4; xor 1 e2 e5; read 1 s3 0"
    c.model(TWO + lut("w0", "w1", "w0", "w1", 0x6996), turns, "assign s3 e6; assign s2 e7")
    # bits of one signal are apart by their place
    wide = "input 2 w0 w1 / output 1 w9 / "
    c.model(wide + lut("w0", "w1", "w0", "w1", 0x6996), turns.replace("s1 0", "s0 1").replace("s3", "s2"), "assign s2 e6; assign s1 e7")

    # PFUMX and L6MUX21: equal arms are the answer; the select is read first
    arms, first, second, all_ = "read 1 s1 0; read 1 s0 0; read 1 s3 0", "mux 1 e2 e2 e3", "mux 1 e2 e3 e2", "read 1 s0 0; read 1 s2 0"
    select = "read 1 s0 0; read 1 s1 0; {}; read 1 s3 0"
    for mux in ("pfumx true={1} false={0} select={2} z=w9", "l6mux21 zero={0} one={1} select={2} z=w9"):
        c.model(TWO + mux.format("w0", "w0", "w1"), arms, "assign s3 e3; assign s2 e4")
        c.model(TWO + mux.format("w1", "w0", "w0"), select.format(first), "assign s3 e4; assign s2 e5")
        c.model(TWO + mux.format("w0", "w1", "w0"), select.format(second), "assign s3 e4; assign s2 e5")
        c.model(ONE + mux.format("w0", "w0", "w0"), all_, "assign s2 e2; assign s1 e3")
        # the select is the cell's own output: equal arms leave no loop
        c.model(ONE + mux.format("w0", "w0", "w9"), "read 1 s2 0; read 1 s0 0; read 1 s2 0", "assign s2 e3; assign s1 e4")

    # IO: the pad is read first, then the output and the tristate
    io = "io pad={} out={} in=w9 tristate={}"
    c.model(TWO + io.format("w0", "w0", "w1"), "read 1 s0 0; read 1 s1 0; read 1 s3 0", "assign s3 e2; assign s2 e4")
    c.model(TWO + io.format("w0", "w1", "w0"), select.format(first), "assign s3 e4; assign s2 e5")
    c.model(TWO + io.format("w0", "w1", "w1"), select.format("mux 1 e3 e2 e3"), "assign s3 e4; assign s2 e5")
    c.model(ONE + io.format("w0", "w0", "w0"), all_, "assign s2 e2; assign s1 e3")


CARRY = "ccu2c a0={} b0={} c0={} d0={} a1={} b1={} c1={} d1={} cin={} s0=w10 s1=w11 cout=w12 init0={} init1={} inject0={} inject1={}"


def wide_cells(c):
    # carry chain: one read for the carry and both rows; nots and ands are not shared
    out = " / output 3 w10 w11 w12 / "
    alike = "read 1 s0 0; and 1 e2 e2; and 1 e2 e2; not 1 e3; and 1 e5 e4; read 1 s4 0; read 1 s3 0; read 1 s2 0; concat 3 e7 e8 e9"
    c.model("input 1 w0" + out + CARRY.format(*["w0"] * 9, 0x6666, 0x8888, 0, 1), alike, "assign s2 e2; assign s3 e3; assign s4 e6; assign s1 e10")
    # the second row has the first one's inputs, the other way round
    rows = "read 1 s0 2; read 1 s0 0; read 1 s0 1; xor 1 e3 e4; xor 1 e3 e4; xor 1 e5 e2; mux 1 e5 e2 e6; "
    rows += "xor 1 e4 e3; xor 1 e4 e3; xor 1 e9 e8; mux 1 e9 e8 e10; read 1 s4 0; read 1 s3 0; read 1 s2 0; concat 3 e13 e14 e15"
    c.model("input 3 w0 w1 w2" + out + CARRY.format("w0", "w1", 0, 0, "w1", "w0", 0, 0, "w2", 0x6666, 0x6666, 0, 0), rows,
            "assign s2 e7; assign s3 e11; assign s4 e12; assign s1 e16")
    # the second row has the carry
    carry = "read 1 s0 1; read 1 s0 0; xor 1 e3 e2; mux 1 e3 e2 e3; xor 1 e2 e5; mux 1 e2 e5 e2; read 1 s4 0; read 1 s3 0; read 1 s2 0; concat 3 e8 e9 e10"
    c.model("input 2 w0 w1" + out + CARRY.format("w0", 0, 0, 0, "w1", 0, 0, 0, "w1", 0xAAAA, 0xAAAA, 0, 0), carry,
            "assign s2 e4; assign s3 e6; assign s4 e7; assign s1 e11")

    # a number squared: eighteen reads, two concats; all bits alike: one
    upper = " ".join(["e0"] * 18)
    factor = f"concat 36 {upper} " + " ".join(f"e{n}" for n in range(2, 20))
    squared = [f"read 1 s0 {bit}" for bit in reversed(range(18))] + [factor, factor, "mul 36 e20 e21", "read 1 s2 0"]
    c.model("input 18 w0..w17 / output 1 w100 / mult a=w0..w17 b=w0..w17 p=w100..w135", squared, "assign s2 e22; assign s1 e23")
    factor = f"concat 36 {upper} " + " ".join(["e2"] * 18)
    bits = many("w0", 18)
    c.model(f"input 1 w0 / output 1 w100 / mult a={bits} b={bits} p=w100..w135", ["read 1 s0 0", factor, factor, "mul 36 e3 e4", "read 1 s2 0"],
            "assign s2 e5; assign s1 e6")
    # b has a's lowest bit above its own
    factors = [f"concat 36 {' '.join(['e0'] * 35)} e2", f"concat 36 {' '.join(['e0'] * 34)} e2 e4"]
    c.model(f"input 2 w0 w1 / output 1 w100 / mult a=w0,0*17 b=w1,w0,0*16 p=w100..w135",
            ["read 1 s0 0", factors[0], "read 1 s0 1", factors[1], "mul 36 e3 e5", "read 1 s2 0"], "assign s2 e6; assign s1 e7")


# ---- MEMORIES: their records behind those of addresses, data and controls. An expression is its number.


def words_of(at, word, width, depth, places, ports):
    """For each word its read, and for each port that writes (address, data, write) a constant, eq, and, mux. Gives the records, the reads, and what the
    words become."""
    out, reads, become = [], [], []
    for n in range(depth):
        reads.append(at + len(out))
        out.append(f"read {width} s{word + n} 0")
        last = reads[n]
        for address, data, write in ports:
            k = at + len(out)
            out += [f"const {places} {n}", f"eq 1 e{address} e{k}", f"and 1 e{write} e{k + 1}", f"mux {width} e{k + 2} e{data} e{last}"]
            last = k + 3
        become.append(last)
    return out, reads, become


def read_port(at, address, width, places, reads):
    """A constant, for each word a constant and eq, then the pairs' ors and muxes; gives the records and the last one's number."""
    out, level = [f"const {width} 0"], []
    for n, read in enumerate(reads):
        k = at + len(out)
        out += [f"const {places} {n}", f"eq 1 e{address} e{k}"]
        level.append((k + 1, read))
    while len(level) > 1:
        pairs = []
        for (m, v), (m2, v2) in zip(level[::2], level[1::2]):
            k = at + len(out)
            out += [f"or 1 e{m} e{m2}", f"mux {width} e{m2} e{v2} e{v}"]
            pairs.append((k, k + 1))
        level = pairs + (level[-1:] if len(level) % 2 else [])
    out.append(f"mux {width} e{level[0][0]} e{level[0][1]} e{at}")
    return out, at + len(out) - 1


class Ram:
    """The records of a block RAM, or a distributed one, one part after the other."""

    def __init__(self, reads):
        self.e, self.t = reads.split("; "), []

    def at(self):
        return 2 + len(self.e)

    def add(self, *expressions):
        self.e += expressions
        return self.at() - 1

    def words(self, word, width, depth, places, *ports):
        out, self.reads, self.become = words_of(self.at(), word, width, depth, places, ports)
        self.e += out
        self.word, self.width, self.places = word, width, places

    def port(self, output, address, enabled=None, own=None, clock="s0 0", ren="0"):
        """A port's read register. With a clock enable `enabled`, `own` is the read of itself that was there before, or a new one."""
        out, last = read_port(self.at(), address, self.width, self.places, self.reads)
        self.e += out
        if enabled:
            own = own or self.add(f"read {self.width} s{output} 0")
            last = self.add(f"mux {self.width} e{enabled} e{last} e{own}")
        self.t.append(f"reg s{output} e{last} {clock} 0 {ren}")

    def done(self, shown, out, clock="s0 0"):
        """The words' statements, and the port of one bit that shows the RAM's lowest."""
        self.t += [f"reg s{self.word + n} e{become} {clock} 0 0" for n, become in enumerate(self.become)]
        self.t.append(f"assign s{out} e{self.add(f'read 1 s{shown} 0')}")
        return self.e, "; ".join(self.t)


PORTS = "input 1 w0 / input 1 w1 / input 1 w2 / input 1 w3 / input 1 w4 / output 1 w9 / "
# clock s0, address s1, write s2, data s3, clock enable s4, output s5; then A's register s6


def one_port(ce=None, width=1, depth=1, waddr="w1,0*13", raddr="w1,0*13", din="w3", write="w2:high", ren=None, clk="w0"):
    """A RAM of one port, its wires those of PORTS where nothing else is said."""
    extra = (f" ren={ren}" if ren else "") + (f" ce={ce}" if ce else "")
    dout = "w9" if width == 1 else f"w9..w{8 + width}"
    head = f"bram depth={depth} width={width} physical=1 waddr={waddr} write={write} raddr={raddr}"
    return PORTS + f"{head}{extra} clk={clk} rise din={din} dout={dout}"


def two_ports(ce=None, ce2=None, depth=1, addr="w1,0*13", din="w3", din2="w3", write="w2:high", write2="w2:high", clk="w0"):
    """Two ports of one bit at the same wires. A's register is s6, B's s7."""
    extra, extra2 = f" ce={ce}" if ce else "", f" ce2={ce2}" if ce2 else ""
    head = f"bram depth={depth} width=1 physical=1 waddr={addr} write={write} raddr={addr}{extra} clk={clk} rise second din={din} dout=w9"
    return PORTS + f"{head} addr2={addr} write2={write2}{extra2} clk2={clk} rise2 din2={din2} dout2=w10"


def block_rams(c):
    # both addresses at one wire: address e2, data e3, write e4. Signals zero and one are s7 and s8, so the word is s9
    r = Ram("read 1 s1 0; read 1 s3 0; read 1 s2 0")
    r.words(9, 1, 1, 1, (2, 3, 4))
    r.port(6, 2)
    c.model(one_port(), *r.done(6, 5))
    plain = r.e, "; ".join(r.t)
    # bits outside of an address' window are not read, whatever wires they are: the records of before
    c.model(one_port(waddr="w1,w3,w1,w2,0*10", raddr="w1,w200,w1,0*11"), *plain)
    # nor is the clock, nor a read enable: the data's wire is the clock's, the write control's the read enable's
    r = Ram("read 1 s1 0; read 1 s0 0; read 1 s2 0")
    r.words(9, 1, 1, 1, (2, 3, 4))
    r.port(6, 2, ren="1 s2 0")
    c.model(one_port(din="w0", ren="w2:low"), *r.done(6, 5))
    # the address' wire is the data's, and the write control's, active low
    r = Ram("read 1 s1 0; not 1 e2")
    r.words(9, 1, 1, 1, (2, 2, 3))
    r.port(6, 2)
    c.model(one_port(din="w1", write="w1:low"), *r.done(6, 5))
    # the clock enable's wire is the write control's: write e4, And of both e5
    r = Ram("read 1 s1 0; read 1 s3 0; read 1 s2 0; and 1 e4 e4")
    r.words(9, 1, 1, 1, (2, 3, 5))
    r.port(6, 2, enabled=4)
    c.model(one_port("w2:high"), *r.done(6, 5))
    # nots are not shared
    r = Ram("read 1 s1 0; read 1 s3 0; read 1 s2 0; not 1 e4; not 1 e4; and 1 e5 e6")
    r.words(9, 1, 1, 1, (2, 3, 7))
    r.port(6, 2, enabled=6)
    c.model(one_port("w2:low", write="w2:low"), *r.done(6, 5))

    # three words of two bits. Addresses share a wire inside and with each other: e2 e3 w4 w1, e4 their concat, e5 the read address of w1 twice
    r = Ram("read 1 s4 0; read 1 s1 0; concat 2 e2 e3; concat 2 e3 e3; read 1 s3 0; concat 2 e3 e6; read 1 s2 0")
    r.words(9, 2, 3, 2, (4, 7, 8))
    r.port(6, 5)
    c.model(one_port(width=2, depth=3, waddr="w1,w4,0*12", raddr="w1,w1,0*12", din="w3,w1"), *r.done(6, 5))

    # THE OWN READ. One bit, the data is the register's own wire (e3): no second read of it
    ce = "read 1 s4 0; and 1 e4 e5"
    r = Ram(f"read 1 s1 0; read 1 s6 0; read 1 s2 0; {ce}")
    r.words(9, 1, 1, 1, (2, 3, 6))
    r.port(6, 2, enabled=5, own=3)
    c.model(one_port("w4:high", din="w9"), *r.done(6, 5))
    # without a clock enable there is none
    r = Ram("read 1 s1 0; read 1 s6 0; read 1 s2 0")
    r.words(9, 1, 1, 1, (2, 3, 4))
    r.port(6, 2)
    c.model(one_port(din="w9"), *r.done(6, 5))
    # other data: the read stands before the mux
    r = Ram(f"read 1 s1 0; read 1 s3 0; read 1 s2 0; {ce}")
    r.words(9, 1, 1, 1, (2, 3, 6))
    r.port(6, 2, enabled=5)
    c.model(one_port("w4:high"), *r.done(6, 5))
    # by the addresses, by the write control, by the clock enable itself, active low
    r = Ram(f"read 1 s6 0; read 1 s3 0; read 1 s2 0; {ce}")
    r.words(9, 1, 1, 1, (2, 3, 6))
    r.port(6, 2, enabled=5, own=2)
    c.model(one_port("w4:high", waddr="w9,0*13", raddr="w9,0*13"), *r.done(6, 5))
    r = Ram("read 1 s1 0; read 1 s3 0; read 1 s6 0; not 1 e4; read 1 s4 0; and 1 e5 e6")
    r.words(9, 1, 1, 1, (2, 3, 7))
    r.port(6, 2, enabled=6, own=4)
    c.model(one_port("w4:high", write="w9:low"), *r.done(6, 5))
    r = Ram("read 1 s1 0; read 1 s3 0; read 1 s2 0; read 1 s6 0; not 1 e5; and 1 e4 e6")
    r.words(9, 1, 1, 1, (2, 3, 7))
    r.port(6, 2, enabled=6, own=5)
    c.model(one_port("w9:low"), *r.done(6, 5))
    # only outside of the window: that is no read
    r = Ram(f"read 1 s1 0; read 1 s3 0; read 1 s2 0; {ce}")
    r.words(9, 1, 1, 1, (2, 3, 6))
    r.port(6, 2, enabled=5)
    c.model(one_port("w4:high", waddr="w1,w9,0*12"), *r.done(6, 5))
    # two bits: the register's read is wider than its bits'
    r = Ram("read 1 s1 0; read 1 s6 1; read 1 s6 0; concat 2 e3 e4; read 1 s2 0; read 1 s4 0; and 1 e6 e7")
    r.words(9, 2, 1, 1, (2, 5, 8))
    r.port(6, 2, enabled=7)
    c.model(one_port("w4:high", width=2, din="w9,w10"), *r.done(6, 5))

    # TWO PORTS at the same wires; zero and one are s8 and s9, so the first word is s10. All that is read is read for A
    r = Ram("read 1 s1 0; read 1 s3 0; read 1 s2 0")
    r.words(10, 1, 2, 1, (2, 3, 4), (2, 3, 4))
    r.port(6, 2)
    r.port(7, 2)
    c.model(two_ports(depth=2), *r.done(6, 5))
    # with clock enables at one wire, B's active low, and a write control active low in both
    r = Ram("read 1 s1 0; read 1 s3 0; read 1 s2 0; not 1 e4; read 1 s4 0; and 1 e5 e6; not 1 e4; not 1 e6; and 1 e8 e9")
    r.words(10, 1, 1, 1, (2, 3, 7), (2, 3, 10))
    r.port(6, 2, enabled=6)
    r.port(7, 2, enabled=9)
    c.model(two_ports("w4:high", "w4:low", write="w2:low", write2="w2:low"), *r.done(6, 5))
    # A's data is B's register, B's data is A's: both own reads are there before
    r = Ram("read 1 s1 0; read 1 s7 0; read 1 s2 0; read 1 s4 0; and 1 e4 e5; read 1 s6 0; and 1 e4 e5")
    r.words(10, 1, 1, 1, (2, 3, 6), (2, 7, 8))
    r.port(6, 2, enabled=5, own=7)
    r.port(7, 2, enabled=5, own=3)
    c.model(two_ports("w4:high", "w4:high", din="w10", din2="w9"), *r.done(6, 5))
    # B alone has a clock enable, and A reads B's register
    r = Ram("read 1 s1 0; read 1 s7 0; read 1 s2 0; read 1 s3 0; read 1 s4 0; and 1 e4 e6")
    r.words(10, 1, 1, 1, (2, 3, 4), (2, 5, 7))
    r.port(6, 2)
    r.port(7, 2, enabled=6, own=3)
    c.model(two_ports(None, "w4:high", din="w10"), *r.done(6, 5))


def distributed(c):
    # both addresses at four wires, each a concat of its own; then all at one wire
    ports = "input 1 w0 / input 4 w1..w4 / input 4 w5..w8 / input 1 w9 / output 1 w20 / "
    for reads, address, data, write, address2, fields in (
        (
            "read 1 s1 3; read 1 s1 2; read 1 s1 1; read 1 s1 0; concat 4 e2 e3 e4 e5; concat 4 e2 e3 e4 e5; "
            "read 1 s2 3; read 1 s2 2; read 1 s2 1; read 1 s2 0; concat 4 e8 e9 e10 e11; read 1 s3 0",
            6, 12, 13, 7, "waddr=w1..w4 din=w5..w8 write=w9:high raddr=w1..w4",
        ),
        (
            "read 1 s3 0; concat 4 e2 e2 e2 e2; concat 4 e2 e2 e2 e2; concat 4 e2 e2 e2 e2; not 1 e2",
            3, 5, 6, 4, "waddr=w9,w9,w9,w9 din=w9,w9,w9,w9 write=w9:low raddr=w9,w9,w9,w9",
        ),
    ):
        r = Ram(reads)
        r.words(8, 4, 16, 4, (address, data, write))
        r.t = [f"reg s{8 + n} e{become} s0 0 0 0" for n, become in enumerate(r.become)]
        last = r.add("const 4 0")
        for n, read in enumerate(r.reads):
            k = r.add(f"const 4 {n}")
            last = r.add(f"eq 1 e{address2} e{k}", f"mux 4 e{k + 1} e{read} e{last}")
        r.t.append(f"assign s5 e{last}")
        r.t.append(f"assign s4 e{r.add('read 1 s5 0')}")
        c.model(f"{ports}dram {fields} dout=w20..w23 clk=w0 rise", r.e, "; ".join(r.t))


def nothing_shared(c):
    # two cells at one wire: each has its own read
    cells = f"{lut('w0', 'w0', 0, 0, 0x6666, 'w10')} / {lut('w0', 'w0', 0, 0, 0x8888, 'w11')}"
    c.model(f"input 1 w0 / output 2 w10 w11 / {cells}", "read 1 s0 0; read 1 s0 0; and 1 e3 e3; read 1 s3 0; read 1 s2 0; concat 2 e5 e6",
            "assign s2 e0; assign s3 e4; assign s1 e7")
    # and a cell that reads nothing, or a flip-flop, between them
    tap = "jtagg tdi=w20 clock=w21 rti1=w22 rti2=w23 shift=w24 update=w25 reset_n=w26 ce1=w27 ce2=w28"
    idle = "; ".join(f"assign s{4 + n} e0" for n in (0, 1, 2, 3, 4, 5, 7, 8)) + "; assign s10 e1"
    one, two = lut("w0", "w0", 0, 0, 0x8888, "w10"), lut("w0", 0, 0, 0, 0xAAAA, "w11")
    c.model(f"input 1 w0 / input 1 w1 / output 1 w11 / {one} / {tap} / ff d=w0 q=w12 clk=w1 rise / {two}",
            "read 1 s0 0; and 1 e2 e2; read 1 s0 0; read 1 s0 0; read 1 s13 0",
            f"assign s3 e3; {idle}; assign s13 e4; reg s14 e5 s1 0 0 0; assign s2 e6")
    # a PLL and an IO at its reference
    c.model("input 1 w0 / output 1 w9 / pll ref=w0 fb=w20 out=w20 locked=w21 / io pad=w0 out=w0 in=w9 tristate=w0",
            "read 1 s0 0; read 1 s0 0; read 1 s4 0", "assign s2 e2; assign s3 e1; assign s4 e3; assign s1 e4")
    # a bank: data, enable and synchronous reset at one wire, a second flip-flop at it too, a third at the second's output
    bank = "ff d=w0 q=w9 clk=w1 rise enable=w0:high reset=w0:high:sync:1 / ff d=w0 q=w10 clk=w1 rise / ff d=w10 q=w11 clk=w1 rise enable=w10:low"
    e = "read 1 s0 0; read 1 s3 0; read 1 s0 0; mux 1 e4 e2 e3; read 1 s0 0; mux 1 e6 e1 e5; read 1 s0 0; "
    e += "read 1 s3 1; read 1 s3 2; read 1 s3 1; not 1 e11; mux 1 e12 e9 e10; concat 3 e13 e8 e7; read 1 s3 0"
    c.model(TWO + bank, e, "reg s3 e14 s1 0 0 0; assign s2 e15")
    # its own output as data, with an enable
    c.model(TWO + "ff d=w9 q=w9 clk=w1 rise enable=w9:high", "read 1 s3 0; read 1 s3 0; read 1 s3 0; mux 1 e4 e2 e3; read 1 s3 0",
            "reg s3 e5 s1 0 0 0; assign s2 e6")
    # a port that shows a wire three times, and a port beside it; the last cell's read is not theirs
    shown = "read 1 s0 0; and 1 e2 e2; read 1 s0 0; read 1 s0 0; read 1 s0 0; concat 3 e4 e5 e6; read 1 s0 0"
    c.model("input 1 w0 / output 3 w0 w0 w0 / output 1 w0 / " + lut("w0", "w0", 0, 0, 0x8888), shown, "assign s3 e3; assign s1 e7; assign s2 e8")
    # constants are not reads: nothing to share
    c.model("output 1 w9 / " + lut(0, 0, 1, 1, 0x8000), "read 1 s1 0", "assign s1 e0; assign s0 e2")


def refusals(c):
    """What is found behind a shared read, where the list ends with the first one. The constants have 8 words, a read 5, a Not 4, an And 5, a concat of two 5."""

    def ends(text, used, then, signals=16384):
        c.case(text, then)
        for room in (used, used - 1):
            c.case(text, then if room == used else "refused 2 1", [signals, room, 16384])

    ends(ONE + lut("w200", "w200", 0, 0, 2), 8, "refused 8 200")
    ends(ONE + lut("w0", "w0", "w200", "w200", 2), 13, "refused 8 200")
    ends(TWO + lut("w0", "w1", "w0", "w200", 2), 18, "refused 8 200")
    ends(TWO + "pfumx true=w0 false=w200 select=w0 z=w9", 13, "refused 8 200")
    ends(TWO + "l6mux21 zero=w0 one=w200 select=w0 z=w9", 13, "refused 8 200")
    ends(TWO + "io pad=w0 out=w0 in=w9 tristate=w200", 13, "refused 8 200")
    # a carry chain whose first row simplifies away (Zero), and whose second has the same wire and then a missing one
    chain = CARRY.format(*["w0"] * 4, "w0", "w0", "w0", "w200", "w0", 0, 0, 0, 0)
    ends("input 1 w0 / output 3 w10 w11 w12 / " + chain, 13, "refused 8 200")
    ends(f"input 1 w0 / output 1 w100 / mult a={many('w0', 18)} b={many('w0', 17)},w200 p=w100..w135", 13 + 39, "refused 8 200")
    ends(f"input 1 w0 / output 1 w100 / mult a=w200,{many('w0', 17)} b={many('w0', 18)} p=w100..w135", 13, "refused 8 200")
    # a RAM whose second port is at the first one's wires, but for one; the clock is looked at behind both
    ends(two_ports(din2="w200"), 8 + 15, "refused 8 200")
    ends(two_ports(write2="w200:high"), 8 + 15, "refused 8 200")
    ends(two_ports("w4:high", "w200:low"), 8 + 20 + 5, "refused 8 200")
    ends(two_ports(clk="w200"), 8 + 15, "refused 8 200")
    wide = two_ports(clk="w1").replace("input 1 w1 / input 1 w2", "input 2 w1 w2")
    ends(wide, 8 + 15, "refused 9 1")
    # a distributed RAM: five of its six concats' operands are one wire
    ends("input 1 w0 / output 1 w20 / dram waddr=w0,w0,w0,w0 din=w200,w0,w0,w0 write=w0:high raddr=w0,w0,w0,w0 dout=w20..w23 clk=w0 rise", 8 + 5 + 14, "refused 8 200")
    # without the marks a bank would share too: its second read needs room
    ends(TWO + "ff d=w0 q=w9 clk=w1 rise enable=w0:high reset=w200:high:sync:1", 8 + 5 + 5 + 5 + 6, "refused 8 200")
    ends("input 1 w0 / output 3 w200 w0 w0", 8 + 5 + 5, "refused 8 200")


def lower_cases():
    c = Lower()
    for part in (small_cells, wide_cells, block_rams, distributed, nothing_shared, refusals):
        part(c)
    return c


# ---- TICKS: what fires, the bits as the ports are, what is shown

RISE, NONE = "rise w0", "-"


def shows(netlist, *rows):
    """Ticks that fire nothing."""
    return netlist, [(NONE, *row) for row in rows]


def tick_cases():
    yield shows(ONE + lut("w0", "w0", 0, 0, 0x6666), ("0", "0"), ("1", "0"))
    # the cells form a loop; with one read there is none in the model
    yield shows("output 1 w9 / " + lut("w9", "w9", 0, 0, 0x6666), ("", "0"), ("", "0"))
    yield shows(ONE + "pfumx true=w0 false=w0 select=w9 z=w9", ("0", "0"), ("1", "1"))
    yield shows(ONE + "l6mux21 zero=w0 one=w0 select=w9 z=w9", ("1", "1"), ("0", "0"))
    # here there still is
    yield shows("output 1 w9 / " + lut("w9", "w9", 0, 0, 0x8888), ("", "refused 13 1"))
    yield shows(ONE + "pfumx true=w9 false=w9 select=w0 z=w9", ("0", "refused 13 2"))
    four = [("00",), ("10",), ("01",), ("11",)]
    table = lambda answers: [(bits, answer) for (bits,), answer in zip(four, answers)]
    yield shows(TWO + lut("w0", "w1", "w0", 0, 0xB8B8), *table("0101"))  # b ? a : a
    yield shows(TWO + lut("w0", "w0", "w1", "w1", 0x8000), *table("0001"))
    yield shows(TWO + lut("w0", "w1", "w0", "w1", 0x6996), *table("0000"))
    yield shows(TWO + lut("w1", "w0", "w1", 0, 0xE8E8), *table("0011"))
    yield shows(ONE + lut("w0", "w0", "w0", "w0", 0x0001), ("0", "1"), ("1", "0"))
    yield shows(ONE + lut("w0", "w0", "w0", "w0", 0x8000), ("0", "0"), ("1", "1"))
    yield shows(TWO + "pfumx true=w0 false=w0 select=w1 z=w9", *table("0101"))
    yield shows(TWO + "pfumx true=w0 false=w1 select=w0 z=w9", *table("0111"))
    yield shows(TWO + "pfumx true=w1 false=w0 select=w0 z=w9", *table("0001"))
    yield shows(TWO + "l6mux21 zero=w1 one=w0 select=w0 z=w9", *table("0111"))
    yield shows(TWO + "l6mux21 zero=w0 one=w1 select=w0 z=w9", *table("0001"))
    yield shows(TWO + "io pad=w0 out=w0 in=w9 tristate=w1", *table("0101"))
    yield shows(TWO + "io pad=w0 out=w1 in=w9 tristate=w0", *table("0111"))
    yield shows(TWO + "io pad=w0 out=w1 in=w9 tristate=w1", *table("0001"))
    # a carry chain all at one wire: L 0, then L and M the wire, carry off by the inject
    yield shows("input 1 w0 / output 3 w10 w11 w12 / " + CARRY.format(*["w0"] * 9, 0x6666, 0x8888, 0, 1), ("0", "000"), ("1", "011"))
    chain = CARRY.format("w0", "w1", 0, 0, "w1", "w0", 0, 0, "w2", 0x6666, 0x6666, 0, 0)
    yield shows("input 3 w0 w1 w2 / output 3 w10 w11 w12 / " + chain, ("101", "100"), ("111", "001"), ("100", "011"), ("001", "001"))
    squared = "input 18 w0..w17 / output 8 w100..w107 / mult a=w0..w17 b=w0..w17 p=w100..w135"
    number = lambda n: "".join(str(n >> k & 1) for k in range(18))
    yield shows(squared, *[(number(n), f"{n * n % 256:08b}") for n in (3, 5, 13, 0, 100_000)])
    ones = f"input 1 w0 / output 36 w100..w135 / mult a={many('w0', 18)} b={many('w0', 18)} p=w100..w135"
    yield shows(ones, ("1", "1" * 17 + "0" * 18 + "1"), ("0", "0" * 36))
    # clock; address; write; data; clock enable
    yield one_port(), [(RISE, "0 0 1 1 0", "0"), (RISE, "0 0 0 0 0", "1"), (RISE, "0 1 0 0 0", "0"), (RISE, "0 0 1 0 0", "1"), (RISE, "0 0 0 0 0", "0")]
    yield one_port("w2:high"), [  # it reads where it writes
        (RISE, "0 0 1 1 0", "0"),
        (RISE, "0 0 0 0 0", "0"),
        (RISE, "0 0 1 0 0", "1"),
        (RISE, "0 0 0 1 0", "1"),
        (RISE, "0 0 1 0 0", "0"),
    ]
    yield one_port("w4:high", depth=2, waddr="w3,0*13", raddr="w3,0*13"), [  # the data is the address
        (RISE, "0 0 1 1 1", "0"),
        (RISE, "0 0 0 1 0", "0"),
        (RISE, "0 0 0 1 1", "1"),
        (RISE, "0 0 1 0 1", "0"),
    ]
    # A's data is its own register, B writes from a wire: the register's bit goes back into the word
    own = PORTS + "bram depth=1 width=1 physical=1 waddr=w1,0*13 write=w2:high raddr=w1,0*13 ce=w4:high clk=w0 rise second din=w9 dout=w9 "
    own += "addr2=w1,0*13 write2=w3:high clk2=w0 rise2 din2=w3 dout2=w10"
    yield own.replace("output 1 w9", "output 2 w9 w10"), [
        (RISE, "0 0 0 1 0", "00"),  # B writes 1
        (RISE, "0 0 0 0 1", "11"),  # A on: both read it
        (RISE, "0 1 0 0 0", "01"),  # beyond the depth; A off keeps its 1
        (RISE, "0 0 1 0 0", "11"),  # A off writes nothing
        (RISE, "0 1 1 0 1", "00"),  # A on, beyond the depth
        (RISE, "0 0 1 0 1", "11"),  # A writes the 0 that it held, and reads the 1
        (RISE, "0 0 1 0 0", "01"),  # B reads the 0; A off keeps its 1
        (RISE, "0 0 1 0 1", "00"),  # A writes the 1 that it held, and reads the 0
        (RISE, "0 0 0 0 0", "10"),
        ("fall w0", "0 0 1 1 1", "10"),
    ]
    # a distributed RAM all at one wire: word 15 becomes 15
    all_ = many("w1", 4)
    dram = f"input 1 w0 / input 1 w1 / output 1 w20 / dram waddr={all_} din={all_} write=w1:high raddr={all_} dout=w20..w23 clk=w0 rise"
    yield dram, [(NONE, "0 1", "0"), (RISE, "0 1", "1"), (NONE, "0 0", "0"), (RISE, "0 0", "0"), (NONE, "0 1", "1")]
    # a bank, a port that shows a wire three times
    bank = "input 1 w0 / input 1 w1 / output 3 w9 w10 w11 / ff d=w1 q=w9 clk=w0 rise enable=w1:high reset=w1:high:sync:1 / ff d=w1 q=w10 clk=w0 rise / "
    bank += "ff d=w10 q=w11 clk=w0 rise enable=w10:low"
    yield bank, [(RISE, "0 0", "000"), (RISE, "0 1", "011"), (RISE, "0 0", "001"), (RISE, "0 1", "011")]
    yield shows("input 1 w0 / output 3 w0 w0 w0", ("0", "000"), ("1", "111"))
    yield shows(ONE + lut("w200", "w200", 0, 0, 2), ("0", "refused 8 200"))


if __name__ == "__main__":
    stated.main(lower_cases, tick_cases)
