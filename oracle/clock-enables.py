#!/usr/bin/env python3
"""Cases of block RAMs with clock enables, small and made on purpose.

  clock-enables.py lower BATCH STATED     netlists with list lengths, as `bulk` writes them, and what each must be: `model`, or its refusal
  clock-enables.py ticks BATCH EXPECTED   netlists with ticks, as `simulate --batch` reads them, and the lines that they must print

Netlists are texts of tools/words.py. What is stated here is stated from the request, not taken from a program; where records end in the
list of expressions is read off the oracle's listing.
"""
import os, subprocess

import stated
from stated import ROOMY, w

HERE = os.path.dirname(os.path.abspath(__file__))


def pick(wires, width):
    return f"w{wires}" if width == 1 else f"w{wires}..w{wires + width - 1}"


def ram(ce=None, ce2=None, second=True, width=1, depth=2, ren=None, ren2=None, before="", after="", **other):
    """A RAM whose ports are at one address. Wires: clock 0; address 1, A's write 2 and enable 3, B's 4 and 5, a port; 6 and 7, a port each;
    outputs from 10 and 30, data from 50 and 70. What is no keyword of this function is a field of the cell."""
    address = "w1,0*13"
    fields = {"waddr": address, "write": "w2:high", "raddr": address, "ren": ren, "ce": ce, "clk": "w0", "edge": "rise"}
    fields.update(din=pick(50, width), dout=pick(10, width))
    both = {"addr2": address, "write2": "w4:high", "ren2": ren2, "ce2": ce2, "clk2": "w0", "edge2": "rise2"}
    both.update(din2=pick(70, width), dout2=pick(30, width))
    if second:
        fields.update(both)
    fields.update(other)
    put = lambda keys: " ".join(fields[k] if k.startswith("edge") else f"{k}={fields[k]}" for k in keys if fields.get(k) is not None)
    first = put("waddr write raddr ren ce clk edge".split())
    more = put("addr2 write2 ren2 ce2 clk2 edge2 din2 dout2".split()) if second else ""
    bits = lambda wires: " ".join(f"w{wires + k}" for k in range(width))
    ports = ["input 1 w0", "input 5 w1 w2 w3 w4 w5", "input 1 w6", "input 1 w7", f"input {width} {bits(50)}"]
    ports += [f"input {width} {bits(70)}"] if second else []
    ports += [f"output {width} {bits(10)}"] + ([f"output {width} {bits(30)}"] if second else [])
    cell = f"bram depth={depth} width={width} physical=1 {first} {'second' if second else ''} {put(['din', 'dout'])} {more}"
    return "\n".join(ports + [before, cell, after])


# ---- LOWERING


class Lower(stated.Lower):
    def case(self, text, answer="model", lengths=ROOMY):
        super().case(text, answer, lengths)


def listing(text):
    """Per list, each record's fields as the listing shows them, and the list's words up to its end."""
    out = subprocess.run([os.path.join(HERE, "target", "release", "lower")], input=w.pack(w.assemble(text)), capture_output=True, check=True)
    lists, ends = {"s": [], "e": [], "t": []}, {"s": [0], "e": [0], "t": [0]}
    for line in out.stdout.decode().splitlines()[1:]:
        fields = line.split()[1:]
        which = line[0]
        lists[which].append(fields)
        length = 4 if which == "s" else len(fields) + 1
        ends[which].append(ends[which][-1] + length)
    return lists, ends


def missing(wire):
    return f"refused 8 {wire}"


def not_whole(wire):
    return f"refused 9 {wire}"


def lower_cases():
    c = Lower()
    # a wire of its own, part of a wider signal, a constant; either level; on A, on B, on both
    enables = [f"{signal}:{level}" for signal in ("w6", "w3", "0", "1") for level in ("high", "low")]
    for width in (1, 9):
        for ce in enables:
            c.case(ram(ce, second=False, width=width))
            c.case(ram(ce, None, width=width))
            c.case(ram(None, ce, width=width))
    for ce in enables:
        for ce2 in enables:
            c.case(ram(ce, ce2))
    c.case(ram("w6:low", "w5:high", width=9))
    # with the read enables, the clock or the write control of the same port, with what the RAM reads itself
    c.case(ram("w6:high", "w7:low", ren="w6:low", ren2="w7:low"))
    c.case(ram("w0:high", "w2:low", depth=1))
    c.case(ram("w10:low", "w30:high", depth=3, waddr="w1,w3,0*12"))
    # two RAMs, a distributed one between
    dram = "dram waddr=w1,w2,w3,w4 din=w1,w2,w3,w4 write=w6:high raddr=w1,w2,w3,w4 dout=w90..w93 clk=w0 rise"
    again = ram("w7:low", second=False).replace("w10", "w95").splitlines()[-2]
    c.case(ram("w6:high", "w3:low", after=f"{dram}\n{again}"))

    # a missing wire, and what comes before it
    gone = "w200:high"
    c.case(ram(gone, second=False), missing(200))
    c.case(ram("w200:low", second=False), missing(200))
    c.case(ram(gone), missing(200))
    c.case(ram(None, gone), missing(200))
    c.case(ram(gone, "w201:low"), missing(200))
    c.case(ram(gone, waddr="w201,0*13"), missing(201))
    c.case(ram(gone, raddr="w201,0*13"), missing(201))
    c.case(ram(gone, din="w201"), missing(201))
    c.case(ram(gone, write="w201:high"), missing(201))
    c.case(ram(gone, addr2="w201,0*13"), missing(200))
    c.case(ram(gone, din2="w201"), missing(200))
    c.case(ram(gone, write2="w201:high"), missing(200))
    c.case(ram(None, gone, din="w201"), missing(201))
    c.case(ram(None, gone, write="w201:low"), missing(201))
    c.case(ram(None, gone, addr2="w201,0*13"), missing(201))
    c.case(ram(None, gone, din2="w201"), missing(201))
    c.case(ram(None, gone, write2="w201:low"), missing(201))
    # the clock, missing or part of a wider signal, comes after both enables; an enable that is part of one is no fault
    for ce, ce2 in ((gone, None), (None, gone), (gone, "w3:low")):
        for clock in ("w201", "w3"):
            c.case(ram(ce, ce2, clk=clock, clk2=clock), missing(200))
    c.case(ram("w3:high", "w5:low", clk="w3", clk2="w3"), not_whole(3))
    c.case(ram("w3:high", "w5:low", clk="w201", clk2="w201"), missing(201))
    # so do the read enables
    for ren in ("w201:high", "w3:low"):
        c.case(ram(gone, ren=ren), missing(200))
        c.case(ram(None, gone, ren=ren), missing(200))
        c.case(ram(None, gone, ren2=ren), missing(200))
    c.case(ram("w3:high", "w5:low", ren="w3:high", ren2="w201:high"), not_whole(3))
    c.case(ram("w3:high", "w5:low", ren="w201:high", ren2="w3:high"), missing(201))
    c.case(ram("w3:high", "w5:low", ren2="w3:high"), not_whole(3))
    # 6 before all of it, 7 before 8, cells in their order, banks and output ports behind them
    c.case(ram(gone, "w201:high", clk2="w6"), "refused 6 0")
    c.case(ram(gone, "w201:high", edge2="fall2"), "refused 6 0")
    c.case(ram(gone, dout="w6"), "refused 7 6")
    lut = "lut4 a=w202 b=0 c=0 d=0 z=w90 init=2"
    c.case(ram(gone, before=lut), missing(202))
    c.case(ram(gone, after=lut), missing(200))
    flagged = dram + " second"
    c.case(ram(gone, before=flagged), "refused 10 0")
    c.case(ram(gone, after=flagged), missing(200))
    c.case(ram(None, gone, after="ff d=w202 q=w90 clk=w0 rise"), missing(200))
    c.case("output 1 w202\n" + ram(None, gone), missing(200))
    # a PLL that drives the wire too: two statements on A's read register, signal 8
    c.case(ram("w6:high", "w7:high", after="pll ref=w0 fb=w10 out=w90 locked=w91"), "refused 11 8")

    # lists that end with a record, or a word before it
    for width in (1, 9):
        whole = dict(ce="w6:low", ce2="w3:low", width=width, depth=1, ren="w7:high", ren2="w7:low")
        lists, ends = listing(ram(**whole))
        e, regs = lists["e"], [t for t in lists["t"] if t[0] == "reg"]
        used = [ends[k][-1] for k in "set"]
        at = lambda operand: int(operand[1:])
        own = [at(reg[2]) for reg in regs[:2]]  # A's and B's muxes
        enable = [at(e[mux][2]) for mux in own]
        gate = [e.index(["and", "1", e[n + 1][2], f"e{n}"]) for n in enable]
        # the enable's read and its Not, the And, the register's own read and the mux, of A and of B
        new = [n + k for n in enable for k in (-1, 0)] + gate + [n + k for n in own for k in (-1, 0)]
        kinds = [e[n][0] for n in new]
        assert kinds == ["read", "not", "read", "not", "and", "and", "read", "mux", "read", "mux"], kinds

        def cuts(text, last, then, lengths=used, records=None):
            """The list ends at each of these records, or near `last`. With `last` all that is needed before `then` is there."""
            for n in records or range(last - 1, last + 2):
                for end in (ends["e"][n + 1] - 1, ends["e"][n + 1]):
                    c.case(text, "refused 2 1" if end < ends["e"][last + 1] else then, [lengths[0], end, lengths[2]])

        every = range(len(e)) if width == 1 else sorted({n + k for n in new for k in (-1, 0, 1)})
        cuts(ram(**whole), len(e) - 1, "model", records=every)
        # the clock is looked at behind B's And
        cuts(ram(**whole, clk="w3", clk2="w3"), gate[1], not_whole(3))
        # the words' signals come behind it
        cuts(ram(**whole), gate[1], "refused 2 0", [used[0] - 1, 0, used[2]])
        # a read enable is looked at behind the address mux and before the own read
        for k, ren in enumerate(("ren", "ren2")):
            cuts(ram(**{**whole, ren: "w3:high"}), own[k] - 2, not_whole(3))
            cuts(ram(**{**whole, ren: "w200:high"}), own[k] - 2, missing(200))
        # the register's statement comes behind the mux
        first = lists["t"].index(regs[0])
        for k in range(2):
            for short in (1, 0):
                room = ends["t"][first + k + 1] - 1 if short else ends["t"][first + k]
                cuts(ram(**whole), own[k], "refused 2 2", [used[0], 0, room])
        # a missing enable needs no record: the list may end with the write control's
        control = [n - 2 for n in enable]
        for k, ce in enumerate(("ce", "ce2")):
            cuts(ram(**{**whole, ce: "w200:low"}), control[k], missing(200))
        # all lists exactly full, and each a word short
        c.case(ram(**whole), "model", used)
        for k in range(3):
            c.case(ram(**whole), f"refused 2 {k}", [n - (j == k) for j, n in enumerate(used)])
    return c


# ---- TICKS: what fires, the bits (clock; address, A's write and enable, B's; two more; data of A and of B), what is shown of A and of B

RISE, FALL, NONE = "rise w0", "fall w0", "-"


def tick_cases():
    """Netlist and ticks. A tick is (fired, bits, line), its bits grouped as the ports are."""
    never, always = ["0:high", "1:low"], ["1:high", "0:low"]
    both = ram("w3:high", "w5:high")
    yield both, [
        (RISE, "0 01000 0 0 1 0", "0 0"),  # A is off, so nothing is written
        (RISE, "0 00100 0 0 0 0", "0 0"),
        (RISE, "0 01011 0 0 1 1", "0 0"),  # A off, B on: B writes 1 and reads what was there
        (RISE, "0 00001 0 0 0 0", "0 1"),  # B reads it, A keeps its old word
        (RISE, "0 00100 0 0 0 0", "1 1"),
        (RISE, "0 01110 0 0 0 1", "1 1"),  # both write one word, B is off: A's 0 stays
        (RISE, "0 00101 0 0 0 0", "0 0"),
        (RISE, "0 01011 0 0 0 1", "0 0"),  # both write, A is off: B's 1 stays
        (RISE, "0 00101 0 0 0 0", "1 1"),
        (RISE, "0 01111 0 0 1 0", "1 1"),  # both write and are on: B's 0 stays
        (RISE, "0 00101 0 0 0 0", "0 0"),
        (RISE, "0 01010 0 0 1 1", "0 0"),  # both off
        (RISE, "0 00101 0 0 0 0", "0 0"),
        (RISE, "0 11100 0 0 1 0", "0 0"),  # word 1 by A; B keeps word 0 in its register
        (RISE, "0 10001 0 0 0 0", "0 1"),
        (FALL, "0 11111 0 0 0 0", "0 1"),  # not the RAM's edge
        (NONE, "0 11111 0 0 0 0", "0 1"),
        ("rise s1", "0 11111 0 0 0 0", "0 1"),
        (RISE, "0 10100 0 0 0 0", "1 1"),
    ]
    yield ram("w3:low", "w5:low"), [
        (RISE, "0 01100 0 0 1 0", "0 0"),  # A off by a 1
        (RISE, "0 01000 0 0 1 0", "0 0"),
        (RISE, "0 00100 0 0 0 0", "0 1"),
        (RISE, "0 00010 0 0 0 0", "1 1"),  # B writes 0 and reads what was there
        (RISE, "0 00001 0 0 0 0", "0 1"),
        (RISE, "0 00100 0 0 0 0", "0 0"),
    ]
    yield ram("w3:high", "w3:low"), [  # one wire lets the ports take turns
        (RISE, "0 01110 0 0 1 0", "0 0"),
        (RISE, "0 01010 0 0 0 0", "0 1"),
        (RISE, "0 00100 0 0 0 0", "0 1"),
        (RISE, "0 00000 0 0 0 0", "0 0"),
    ]
    yield ram("w3:high", second=False, ren="w6:high"), [
        (RISE, "0 01100 0 0 1", "0"),  # writes; the read enable is off
        (RISE, "0 00000 1 0 0", "0"),  # the clock enable is off, the read enable on
        (RISE, "0 00100 0 0 0", "0"),
        (RISE, "0 01000 1 0 0", "0"),  # no write either
        (RISE, "0 00100 1 0 0", "1"),
        (RISE, "0 01100 0 0 0", "1"),  # a write does not wait for the read enable
        (RISE, "0 00100 1 0 0", "0"),
    ]
    yield ram("w6:high", ren="w6:low", second=False), [  # never both: it writes and never reads
        (RISE, "0 01000 1 0 1", "0"),
        (RISE, "0 00000 0 0 0", "0"),
        (RISE, "0 00000 1 0 0", "0"),
    ]
    for ce in never:
        yield ram(ce, None), [
            (RISE, "0 01000 0 0 1 0", "0 0"),
            (RISE, "0 00010 0 0 0 1", "0 0"),
            (RISE, "0 00000 0 0 0 0", "0 1"),
        ]
        yield ram(None, ce), [
            (RISE, "0 01010 0 0 1 0", "0 0"),
            (RISE, "0 00000 0 0 0 0", "1 0"),
        ]
    for ce in always:
        yield ram(ce, ce), [
            (RISE, "0 01000 0 0 1 0", "0 0"),
            (RISE, "0 00010 0 0 0 0", "1 1"),
            (RISE, "0 00000 0 0 0 0", "0 0"),
        ]
    # refused ticks between change nothing, on or off
    yield both, [
        (RISE, "0 01100 0 0 1 0", "0 0"),
        (RISE, "0 01100 0 0 0", "refused 14 10"),
        (RISE, "0 01100 0 0 0 !2", "refused 14 9"),
        (RISE, "0 00101 0 0 0 0", "1 1"),
        ("!3 s0", "0 01111 0 0 0 0", "refused 14 0"),
        ("rise s99", "0 01111 0 0 0 0", "refused 14 0"),
        (RISE, "0 01010 0 0 0 0", "1 1"),
        (RISE, "0 01010 0 0 0 0 1", "refused 14 10"),
        (RISE, "0 00101 0 0 0 0", "1 1"),
    ]
    # nine bits, three words, physical width 4: bits 2 and 3 of the address count
    nine = ram("w6:low", "w7:high", width=9, depth=3, waddr="w3,w5,w1,w3,0*10", raddr="w5,w3,w1,w3,0*10", addr2="1,1,w1,w5,0*10")
    nine = nine.replace("physical=1", "physical=4")
    yield nine, [
        (RISE, "0 11000 0 0 101010101 000000000", "000000000 000000000"),  # A writes word 1
        (RISE, "0 10000 0 0 000000000 000000000", "101010101 000000000"),
        (RISE, "0 10000 1 1 000000000 000000000", "101010101 101010101"),
        (RISE, "0 01010 1 1 111111111 110000000", "101010101 000000000"),  # B alone writes word 0
        (RISE, "0 00000 0 0 000000000 000000000", "000000011 000000000"),
        (RISE, "0 11110 0 1 111111111 001000000", "000000000 101010101"),  # A's word 3 is beyond; B writes word 1
        (RISE, "0 10000 0 1 000000000 000000000", "000000100 000000100"),
        (RISE, "0 00001 1 1 000000000 000000000", "000000100 000000000"),  # word 2
    ]
    # an enable that a flip-flop holds counts as it was before the edge
    held = ram("w90:high", second=False, after="ff d=w3 q=w90 clk=w0 rise")
    yield held, [
        (RISE, "0 01100 0 0 1", "0"),  # off before the edge
        (RISE, "0 01000 0 0 1", "0"),  # on: written, read as it was
        (RISE, "0 00100 0 0 0", "0"),  # off
        (RISE, "0 00000 0 0 0", "1"),
        (RISE, "0 00100 0 0 0", "1"),
    ]
    # one that a LUT4 makes of both enables' bits
    made = ram("w90:high", second=False, after="lut4 a=w3 b=w5 c=0 d=0 z=w90 init=0x8888")
    yield made, [
        (RISE, "0 01100 0 0 1", "0"),
        (RISE, "0 01001 0 0 1", "0"),
        (RISE, "0 00101 0 0 0", "0"),
        (RISE, "0 01101 0 0 1", "0"),
        (RISE, "0 00101 0 0 0", "1"),
    ]
    # the RAM's own read stops it for good
    yield ram("w10:low", second=False), [
        (RISE, "0 01000 0 0 1", "0"),
        (RISE, "0 10000 0 0 0", "0"),
        (RISE, "0 00000 0 0 0", "1"),
        (RISE, "0 10000 0 0 0", "1"),
        (RISE, "0 01000 0 0 0", "1"),
    ]
    # the clock's bit, a level like any other; the write control's wire
    yield ram("w0:high", "w4:high", depth=1), [
        (RISE, "0 01000 0 0 1 0", "0 0"),
        (RISE, "1 01000 0 0 1 0", "0 0"),
        (RISE, "0 00010 0 0 0 0", "0 1"),  # B writes 0
        (RISE, "1 00000 0 0 0 0", "0 1"),
        (RISE, "1 01010 0 0 0 1", "0 0"),
        (RISE, "1 00000 0 0 0 0", "1 0"),
        (RISE, "1 10000 0 0 0 0", "0 0"),  # beyond the depth
        (RISE, "0 00000 0 0 0 0", "0 0"),
    ]
    # a missing wire refuses the netlist, whatever the ticks are
    for text in (ram("w200:high"), ram(None, "w200:low"), ram("w200:high", second=False, ren="w3:high")):
        yield text, "refused 8 200"


if __name__ == "__main__":
    stated.main(lower_cases, tick_cases)
