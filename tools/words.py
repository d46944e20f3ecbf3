#!/usr/bin/env python3
"""Netlists as text: from text to 32-bit words and back.

  words.py asm [FILE] > BIN                  a netlist's text to words
  words.py dis [--index] < BIN               words to text
  words.py asm-ticks FILE... > BIN           a netlist and its ticks to the input of `simulate`
  words.py dis-ticks [--index] < BIN         back: the netlist, then the ticks
  words.py signals < BIN                     the model's signals and the wires that each one holds
  words.py from-numbers [NUMBER...] > BIN    plain numbers, spaces or commas between them
  words.py to-numbers < BIN                  plain numbers, a line for each port and cell and for the trailer
  words.py help                              this text

Where no FILE is given, standard input is read. Exit status: 0; 1 for a text that cannot be assembled (FILE:LINE: what is wrong) and for words that
the reader refuses (3 to 6; the text is written all the same and says where); 2 for a wrong command line.

THE TEXT. One line for each port, then one line for each cell. `#` begins a comment. A name stands for a bit after a line `name NAME wN`.

  input 2 w0 w1             width, then the bits, lowest first; likewise `output` and `inout`
  lut4    a= b= c= d= z= init=                   output z is bit a+2b+4c+8d of init
  pfumx   true= false= select= z=
  l6mux21 zero= one= select= z=
  ccu2c   a0= b0= c0= d0= a1= b1= c1= d1= cin= s0= s1= cout= init0= init1= [inject0=] [inject1=]
  mult    a= b= p=                               18, 18 and 36 bits
  ff      d= q= clk= rise|fall [enable=] [reset=]
  bram    depth= width= physical= waddr= write= raddr= [ren=] [ce=] clk= rise|fall [second] din= dout=
          with `second` also: addr2= write2= [ren2=] [ce2=] clk2= rise2|fall2 din2= dout2=
  dram    waddr= din= write= raddr= dout= clk= rise|fall [second]
  io      pad= out= in= tristate=
  jtagg   tdi= clock= rti1= rti2= shift= update= reset_n= ce1= ce2=
  pll     ref= fb= out= locked= [more=]          more: up to four further clocks

A bit is 0, 1 or wN; a driven pin (z q s0 s1 cout p dout dout2 pad in fb out of a pll, locked, more, all of jtagg) is wN. Several bits stand
with commas between them, lowest first; wM..wN is a run of wires and 0*10 is ten zeros: waddr=w4..w7,0*10.
Controls (enable, write, ren, ce) are SIGNAL:high or SIGNAL:low. reset=SIGNAL:high|low:async|sync:VALUE.
Numbers are decimal or 0x.

TICKS (asm-ticks, in the same file or another):

  tick rise s0 0101         the rising edge of signal 0 fires; then the tick's bits: those of all input and inout ports in port order,
                            each port's lowest bit first; they may be grouped by spaces
  tick fall w5 01 1         the falling edge of the signal that holds wire 5 (a name does too)
  tick - 01                 nothing fires
  tick rise s0 1 x16        sixteen such ticks

WORDS AS THEY ARE. The disassembler shows any words, also such as the reader refuses, and its text gives the same words again:

  !70000                    in place of any value: this word, allowed or not (enable=!1:!7:!2 are the three words of an optional control)
  port !3 1 w0              a port with a direction word that is none
  raw 1 2 3                 words that are no port or cell
  trailer 0 2 7 1           the last four words, where they are not those that follow from the lines; `trailer none` adds none

With --index each line begins with the index of its first word and with p or c and its number, as in `7 c0: lut4 ...`; the assembler skips that.
"""
import array
import re
import sys

# The limits of the programs: wires, ports, width of a port, cells. And how many words `lower` takes.
WIRES, PORTS, WIDTH, CELLS = 16384, 256, 256, 4096
LONGEST = 16384
DIRECTIONS = ["input", "output", "inout"]
SHIFTS = {1: 0, 2: 1, 4: 2, 9: 3, 18: 4}

# Each kind's fields in the order of its words, as `key:type`. A number behind a type is a count of bits or wires, W the RAM's word width.
KINDS = [
    ("lut4", "a:bit b:bit c:bit d:bit z:wire init:table"),
    ("pfumx", "true:bit false:bit select:bit z:wire"),
    ("l6mux21", "zero:bit one:bit select:bit z:wire"),
    (
        "ccu2c",
        "a0:bit b0:bit c0:bit d0:bit a1:bit b1:bit c1:bit d1:bit cin:bit s0:wire s1:wire cout:wire "
        "init0:table init1:table inject0:flag inject1:flag",
    ),
    ("mult", "a:bits18 b:bits18 p:wires36"),
    ("ff", "d:bit q:wire clk:bit edge:edge enable:optional reset:reset"),
    (
        "bram",
        "depth:depth width:width physical:physical waddr:bits14 write:control raddr:bits14 ren:optional ce:optional clk:bit edge:edge "
        "second:another din:bitsW dout:wiresW",
    ),
    ("dram", "waddr:bits4 din:bits4 write:control raddr:bits4 dout:wires4 clk:bit edge:edge second:second"),
    ("io", "pad:wire out:bit in:wire tristate:bit"),
    ("jtagg", "tdi:wire clock:wire rti1:wire rti2:wire shift:wire update:wire reset_n:wire ce1:wire ce2:wire"),
    ("pll", "ref:bit fb:wire out:wire locked:wire more:more"),
]
SECOND = "addr2:bits14 write2:control ren2:optional ce2:optional clk2:bit edge2:edge din2:bitsW dout2:wiresW"


def split_fields(text):
    return [tuple(f.split(":")) for f in text.split()]


KINDS = [(name, split_fields(fields)) for name, fields in KINDS]
SECOND = split_fields(SECOND)
NUMBER_OF = {name: k for k, (name, _) in enumerate(KINDS)}
FIELDS_OF = dict(KINDS)


def counted(kind, width):
    """A type with a count, as (type, count); None where the type has none."""
    m = re.fullmatch(r"(bits|wires)(\d+|W)", kind)
    return m and (m[1], width if m[2] == "W" else int(m[2]))


def address_width(depth):
    return max(1, (depth - 1).bit_length())


# ---- READING WORDS


class Missing(Exception):
    """A record needs a word past its section."""


class Unshaped(Exception):
    """A word that decides how a record goes on is not allowed."""


class Reading:
    """Reads the words of one section, notes what is not allowed, and goes on as long as the layout is certain."""

    def __init__(self, words, at, end, faults):
        self.words, self.at, self.end, self.faults = words, at, end, faults
        # what was read of a record that breaks off
        self.so_far = []

    def fault(self, number, place, why):
        self.faults.append((number, place, why))

    def word(self, what, ok, wanted, shapes=False):
        i = self.at
        if i >= self.end:
            self.fault(4, i, f"{what} is missing, the section ends here")
            raise Missing
        w = self.words[i]
        self.at += 1
        if not ok(w):
            self.fault(5, i, f"{what} is {w}, but must be {wanted}")
            if shapes:
                raise Unshaped
        return w

    def bit(self, what):
        w = self.word(what, lambda x: x < WIRES + 2, f"0, 1 or a wire + 2, below {WIRES + 2}")
        return bit_text(w)

    def wire(self, what):
        w = self.word(what, lambda x: x < WIRES, f"a wire, below {WIRES}")
        return f"w{w}" if w < WIRES else f"!{w}"

    def named(self, what, names):
        """A flag that has a name for 0 and for 1."""
        w = self.word(what, lambda x: x < 2, "0 or 1")
        return names[w] if w < 2 else f"!{w}"

    def signal_and_active(self, what):
        return [self.bit(f"{what}'s signal"), self.named(f"{what}'s active level", ["low", "high"])]

    def absent_or(self, what, count, present):
        """`present`'s parts, nothing where all words are 0, or the words as they are."""
        first = self.word(f"{what}'s flag", lambda x: x < 2, "0 or 1")
        if first == 1:
            return present()
        if first > 1:
            rest = [self.word(f"a word of {what}", lambda x: True, "") for _ in range(count)]
        else:
            rest = [self.word(f"a word of {what}, which is absent,", lambda x: x == 0, "0") for _ in range(count)]
        return [f"!{w}" for w in [first] + rest] if first or any(rest) else None

    def parts(self, key, kind, values):
        """The words of one field as text: `key=value`, a bare word, or nothing for what is absent. Numbers that others need go to `values`."""
        many = counted(kind, values.get("width"))
        if many:
            one = self.bit if many[0] == "bits" else self.wire
            return key + "=" + join([one(f"{key}[{k}]") for k in range(many[1])])
        if kind == "bit":
            return f"{key}={self.bit(key)}"
        if kind == "wire":
            return f"{key}={self.wire(key)}"
        if kind == "table":
            w = self.word(key, lambda x: x < 65536, "below 65536")
            return f"{key}=0x{w:04x}" if w < 65536 else f"{key}=!{w}"
        if kind == "flag":
            return f"{key}={self.named(key, ['0', '1'])}"
        if kind == "edge":
            behind = key[4:]
            text = self.named(key, ["rise", "fall"])
            return f"{key}={text}" if text[0] == "!" else text + behind
        if kind == "control":
            return f"{key}=" + ":".join(self.signal_and_active(key))
        if kind == "optional":
            parts = self.absent_or(key, 2, lambda: self.signal_and_active(key))
            return parts and f"{key}=" + ":".join(parts)
        if kind == "reset":
            more = lambda: [self.named("reset's mode", ["sync", "async"]), self.named("reset's value", ["0", "1"])]
            parts = self.absent_or(key, 4, lambda: self.signal_and_active(key) + more())
            return parts and f"{key}=" + ":".join(parts)
        if kind == "depth":
            w = values["depth"] = self.word(key, lambda x: 1 <= x <= 16384, "1 to 16384")
            return f"{key}={w}" if 1 <= w <= 16384 else f"{key}=!{w}"
        if kind == "width":
            w = values["width"] = self.word(key, lambda x: 1 <= x <= 18, "1 to 18", shapes=True)
            return f"{key}={w}"
        if kind == "physical":
            bits = address_width(values["depth"])
            fits = lambda x: x in SHIFTS and SHIFTS[x] + bits <= 14
            w = self.word(key, fits, f"1, 2, 4, 9 or 18, and its shift (0 to 4) plus the address width {bits} at most 14")
            return f"{key}={w}" if fits(w) else f"{key}=!{w}"
        if kind == "another":
            values["second"] = self.word(key, lambda x: x < 2, "0 or 1", shapes=True)
            return key if values["second"] else None
        if kind == "second":
            text = self.named(key, ["", key])
            return f"{key}={text}" if text[:1] == "!" else text or None
        if kind == "more":
            n = self.word("the count of further clocks", lambda x: x < 5, "0 to 4", shapes=True)
            return f"{key}=" + join([self.wire(f"{key}[{k}]") for k in range(n)]) if n else None
        raise AssertionError(kind)

    def port(self):
        d = self.word("a port's direction", lambda x: x < 3, "0 input, 1 output or 2 inout")
        w = self.word("a port's width", lambda x: 1 <= x <= WIDTH, f"1 to {WIDTH}", shapes=True)
        bits = runs([self.bit(f"bit {k} of a port") for k in range(w)])
        return " ".join([DIRECTIONS[d] if d < 3 else f"port !{d}", str(w)] + bits)

    def cell(self):
        k = self.word("a cell's kind", lambda x: x < len(KINDS), f"below {len(KINDS)}", shapes=True)
        name, fields = KINDS[k]
        values = {}
        self.so_far.append(name)
        for key, kind in fields:
            self.so_far.append(self.parts(key, kind, values))
        for key, kind in SECOND if values.get("second") else []:
            self.so_far.append(self.parts(key, kind, values))
        return " ".join(p for p in self.so_far if p)


def bit_text(w):
    return str(w) if w < 2 else f"w{w - 2}" if w < WIRES + 2 else f"!{w}"


def runs(bits):
    """Bits as texts, with runs of three or more drawn together."""
    out, k = [], 0
    while k < len(bits):
        n = 1
        if bits[k] in ("0", "1"):
            while k + n < len(bits) and bits[k + n] == bits[k]:
                n += 1
            run = f"{bits[k]}*{n}"
        elif bits[k][0] == "w":
            first = int(bits[k][1:])
            while k + n < len(bits) and bits[k + n] == f"w{first + n}":
                n += 1
            run = f"w{first}..w{first + n - 1}"
        if n >= 3:
            out.append(run)
        else:
            out += bits[k : k + n]
        k += n
    return out


def join(bits):
    return ",".join(runs(bits))


class Line:
    """A line of a disassembly: its first word, how many, p or c and a number (or ''), its text, and the faults in it."""

    def __init__(self, at, count, mark, text, faults=(), begun=""):
        self.at, self.count, self.mark, self.text, self.faults, self.begun = at, count, mark, text, list(faults), begun


def raw_lines(words, at, end, faults=(), begun=""):
    lines = [Line(i, min(i + 16, end) - i, "", "raw " + " ".join(map(str, words[i : min(i + 16, end)]))) for i in range(at, end, 16)]
    if not lines:
        lines = [Line(at, 0, "", "")] if faults else []
    if lines:
        lines[0].faults, lines[0].begun = list(faults), begun
    return lines


def section(words, at, end, count, mark, read):
    """The lines of one section: its records, then whatever is no record, as words."""
    lines = []
    for n in range(count):
        r = Reading(words, at, end, [])
        try:
            text = read(r)
        except (Missing, Unshaped):
            begun = " ".join(p for p in r.so_far if p)
            return lines + raw_lines(words, at, end, r.faults, begun and f"{mark}{n}, as far as it goes: {begun}")
        lines.append(Line(at, r.at - at, f"{mark}{n}", text, r.faults))
        at = r.at
    if at < end:
        left = (4, at, f"{end - at} words are left over behind the last {'port' if mark == 'p' else 'cell'}")
        lines += raw_lines(words, at, end, [left])
    return lines


def read_lines(words):
    """All lines of a netlist's words, the trailer last, and the refusal of the reader: None or number, place, why."""
    if len(words) < 4:
        why = (3, 0, f"{len(words)} words, and the trailer alone has four")
        return raw_lines(words, 0, len(words), [why]) + [Line(len(words), 0, "", "trailer none", [] if words else [why])], why
    end = len(words) - 4
    ports_at, ports, cells_at, cells = words[end:]
    bad = []
    if ports_at != 0:
        bad.append((3, 0, f"the trailer's start of ports is {ports_at}, but must be 0"))
    if ports > PORTS:
        bad.append((3, 0, f"the trailer's port count is {ports}, but must be at most {PORTS}"))
    if cells_at > end:
        bad.append((3, 0, f"the trailer's start of cells is {cells_at}, past the trailer itself at {end}"))
    if cells > CELLS:
        bad.append((3, 0, f"the trailer's cell count is {cells}, but must be at most {CELLS}"))
    if cells_at > end:
        lines = raw_lines(words, 0, end)
    else:
        lines = section(words, 0, cells_at, ports, "p", Reading.port)
        lines += section(words, cells_at, end, cells, "c", Reading.cell)
    lines.append(Line(end, 4, "", "trailer " + " ".join(map(str, words[end:])), bad))
    faults = bad or [f for line in lines for f in line.faults]
    if not faults:
        for line in lines:
            if " clk2=" in line.text and not same_clock(line.text):
                line.faults.append((6, int(line.mark[1:]), "the second port has another clock or edge than the first"))
                faults = faults or line.faults
    return lines, faults[0] if faults else None


def same_clock(text):
    words = text.split()
    value = lambda key: next(w.split("=")[1] for w in words if w.startswith(key + "="))
    return value("clk") == value("clk2") and ("rise" in words) == ("rise2" in words)


def disassemble(words, index=False):
    """The text of a netlist's words, and the reader's refusal or None. The text assembles to the same words, whatever they are."""
    words = list(words)
    lines, refusal = read_lines(words)
    out = []
    # the trailer is said only where it does not follow from the lines
    if refusal is None or refusal[0] == 6:
        lines.pop()
    for line in lines:
        for f in line.faults:
            head = "REFUSED" if f == refusal else "also"
            out.append(f"# {head} {f[0]} {f[1]}: {f[2]}")
        if line.begun:
            out.append(f"# {line.begun}")
        if line.text:
            before = f"{line.at:>5} {line.mark:<5}: " if index else ""
            out.append(before + line.text)
    return "".join(l + "\n" for l in out), refusal


# ---- WRITING WORDS


class Wrong(Exception):
    """A text that is none, at a line of a file."""

    def __init__(self, line, why):
        super().__init__(f"{line}: {why}")


class Bad(Exception):
    """Why a part of a line is wrong; the line is known further out."""


def number(text, what, most=0xFFFFFFFF):
    if not re.fullmatch(r"\d+|0[xX][0-9a-fA-F]+", text):
        raise Bad(f"{what}: '{text}' is no number")
    n = int(text, 16) if text[:2] in ("0x", "0X") else int(text)
    if n > most:
        raise Bad(f"{what}: {text} is above {most}")
    return n


def raw(text, what):
    """The word of `!N`, or None."""
    return number(text[1:], what) if text[:1] == "!" else None


RESERVED = re.compile(r"[ws]\d+|x\d+|[0-9].*|rise|fall|-")


class Assembler:
    def __init__(self):
        self.names = {}
        self.ports, self.cells, self.ticks = [], [], []
        self.any_raw = False
        self.too_many = None
        self.words = []
        self.cells_at = None
        self.trailer = None
        self.notes = []

    # VALUES

    def resolved(self, text):
        return self.names.get(text, text)

    def wire(self, text, what):
        w = raw(text, what)
        if w is not None:
            return w
        text = self.resolved(text)
        m = re.fullmatch(r"w(\d+)", text)
        if not m:
            if text in ("0", "1"):
                raise Bad(f"{what}: a driven pin must be a wire, not the constant {text}")
            raise Bad(f"{what}: '{text}' is no wire (wN or a name)")
        if int(m[1]) >= WIRES:
            raise Bad(f"{what}: wire {m[1]}, but wires go up to {WIRES - 1}")
        return int(m[1])

    def bit(self, text, what):
        w = raw(text, what)
        if w is not None:
            return w
        text = self.resolved(text)
        if text in ("0", "1"):
            return int(text)
        if not re.fullmatch(r"w\d+", text):
            raise Bad(f"{what}: '{text}' is no bit (0, 1, wN or a name)")
        return self.wire(text, what) + 2

    def spread(self, items, what):
        """Runs written out: wM..wN, 0*10."""
        out = []
        for item in items:
            m = re.fullmatch(r"w(\d+)\.\.w(\d+)", item)
            n = re.fullmatch(r"(.+)\*(\d+)", item)
            if m:
                a, b = int(m[1]), int(m[2])
                if b >= WIRES:
                    raise Bad(f"{what}: wire {b}, but wires go up to {WIRES - 1}")
                out += [f"w{k}" for k in range(a, b + 1)] if a <= b else [f"w{k}" for k in range(a, b - 1, -1)]
            elif n:
                out += [n[1]] * number(n[2], what, 4096)
            elif item == "":
                raise Bad(f"{what}: nothing between two commas")
            else:
                out.append(item)
        return out

    def vector(self, text, what, count, one):
        items = self.spread(text.split(","), what)
        if len(items) != count:
            raise Bad(f"{what}: {len(items)} bits, but there must be {count}")
        return [one(item, f"{what}[{k}]") for k, item in enumerate(items)]

    def named(self, text, what, names):
        w = raw(text, what)
        if w is not None:
            return w
        if text not in names:
            raise Bad(f"{what}: '{text}' is neither {names[0]} nor {names[1]}")
        return names.index(text)

    def signal_and_active(self, parts, what):
        return [self.bit(parts[0], what), self.named(parts[1], what, ["low", "high"])]

    # A CELL

    def field(self, key, kind, given, values):
        many = counted(kind, values.get("width"))
        text = given.pop(key, None)
        if text is None:
            if kind in ("optional", "reset"):
                return [0] * (3 if kind == "optional" else 5)
            if kind in ("flag", "second", "another", "more"):
                values[key] = 0
                return [0]
            if kind == "edge":
                raise Bad(f"rise{key[4:]} or fall{key[4:]} is missing")
            raise Bad(f"{key}= is missing")
        if many:
            return self.vector(text, key, many[1], self.bit if many[0] == "bits" else self.wire)
        if kind == "bit":
            return [self.bit(text, key)]
        if kind == "wire":
            return [self.wire(text, key)]
        if kind == "edge":
            return [self.named(text, key, ["rise", "fall"])]
        if kind == "flag":
            return [self.named(text, key, ["0", "1"])]
        if kind in ("second", "another"):
            values[key] = self.named(text, key, ["0", "1"])
            if kind == "another" and values[key] > 1:
                raise Bad(f"{key}: a flag other than 0 and 1 leaves the layout open; write the cell with `raw`")
            return [values[key]]
        if kind == "control":
            parts = text.split(":")
            if len(parts) != 2:
                raise Bad(f"{key}: '{text}' is no control (SIGNAL:high or SIGNAL:low)")
            return self.signal_and_active(parts, key)
        if kind == "optional":
            parts = text.split(":")
            if len(parts) == 3 and all(p[:1] == "!" for p in parts):
                return [raw(p, key) for p in parts]
            if len(parts) != 2:
                raise Bad(f"{key}: '{text}' is no control (SIGNAL:high or SIGNAL:low)")
            return [1] + self.signal_and_active(parts, key)
        if kind == "reset":
            parts = text.split(":")
            if len(parts) == 5 and all(p[:1] == "!" for p in parts):
                return [raw(p, key) for p in parts]
            if len(parts) != 4:
                raise Bad(f"{key}: '{text}' is no reset (SIGNAL:high|low:async|sync:VALUE)")
            mode = self.named(parts[2], key, ["sync", "async"])
            return [1] + self.signal_and_active(parts, key) + [mode, self.named(parts[3], key, ["0", "1"])]
        if kind == "more":
            items = self.spread(text.split(","), key)
            if len(items) > 4:
                raise Bad(f"{key}: {len(items)} further clocks, but there are at most 4")
            return [len(items)] + [self.wire(item, f"{key}[{k}]") for k, item in enumerate(items)]
        # plain numbers
        w = raw(text, key)
        if kind == "table":
            return [number(text, key, 65535) if w is None else w]
        n = number(text, key) if w is None else w
        values[key] = n
        if w is None or kind == "width":
            if kind == "depth" and not 1 <= n <= 16384:
                raise Bad(f"{key}: {n}, but a depth is 1 to 16384")
            if kind == "width" and not 1 <= n <= 18:
                raise Bad(f"{key}: {n}, but a word width is 1 to 18")
            if kind == "physical":
                if n not in SHIFTS:
                    raise Bad(f"{key}: {n}, but a physical width is 1, 2, 4, 9 or 18")
                if SHIFTS[n] + address_width(values["depth"]) > 14:
                    raise Bad(f"{key}: {n} shifts addresses by {SHIFTS[n]}, and depth {values['depth']} needs {address_width(values['depth'])} more bits: above 14")
        return [n]

    def cell(self, name, items):
        given = {}
        for item in items:
            key, equals, value = item.partition("=")
            if not equals:
                if key in ("rise", "fall"):
                    key, value = "edge", key
                elif key in ("rise2", "fall2"):
                    key, value = "edge2", key[:-1]
                elif key == "second":
                    value = "1"
                else:
                    raise Bad(f"'{item}' is no field (key=value)")
            if key in given:
                raise Bad(f"{key} stands twice")
            given[key] = value
        known, values = list(given), {}
        words = [NUMBER_OF[name]]
        for key, kind in FIELDS_OF[name]:
            words += self.field(key, kind, given, values)
        if name == "bram" and values["second"]:
            for key, kind in SECOND:
                words += self.field(key, kind, given, values)
        for key in known:
            if key in given:
                fields = [k for k, _ in FIELDS_OF[name]]
                if name == "bram" and key in [k for k, _ in SECOND]:
                    raise Bad(f"{key} without `second`")
                raise Bad(f"{name} has no field {key} (it has {', '.join(fields)})")
        return words

    # LINES

    def line(self, text, place):
        text = text.split("#")[0]
        text = re.sub(r"^\s*\d+(\s+[pc]\d+)?\s*:\s", "", text)
        items = text.split()
        if not items:
            return
        head, rest = items[0], items[1:]
        if self.trailer is not None and head != "tick":
            raise Bad("nothing but ticks can stand behind the trailer")
        if head == "name":
            if len(rest) != 2:
                raise Bad("a name is `name NAME wN`")
            if RESERVED.fullmatch(rest[0]) or not re.fullmatch(r"[A-Za-z_][\w.\[\]-]*", rest[0]):
                raise Bad(f"'{rest[0]}' cannot be a name")
            if rest[0] in self.names:
                raise Bad(f"the name {rest[0]} is given twice")
            self.wire(rest[1], "name")
            self.names[rest[0]] = self.resolved(rest[1])
        elif head in DIRECTIONS or head == "port":
            if self.cells:
                raise Bad("a port behind a cell: all ports come first")
            if head == "port":
                direction = raw(rest[0], "direction") if rest else None
                if direction is None:
                    raise Bad("a port is `input`, `output`, `inout` or `port !N`, then width and bits")
                rest = rest[1:]
            else:
                direction = DIRECTIONS.index(head)
            if not rest:
                raise Bad(f"a port is `{head} WIDTH BIT...`")
            width = number(rest[0], "width")
            if not 1 <= width <= WIDTH:
                raise Bad(f"width {width}, but a port has 1 to {WIDTH} bits")
            bits = self.spread([b for item in rest[1:] for b in item.split(",")], head)
            if len(bits) != width:
                raise Bad(f"{len(bits)} bits, but the width is {width}")
            self.ports.append((direction, width))
            self.words += [direction, width] + [self.bit(b, f"bit {k}") for k, b in enumerate(bits)]
            if len(self.ports) == PORTS + 1:
                self.too_many = self.too_many or (place, f"more than {PORTS} ports")
        elif head in NUMBER_OF:
            if self.cells_at is None:
                self.cells_at = len(self.words)
            self.cells.append(len(self.words))
            self.words += self.cell(head, rest)
            if len(self.cells) == CELLS + 1:
                self.too_many = self.too_many or (place, f"more than {CELLS} cells")
        elif head == "raw":
            self.any_raw = True
            self.words += [number(x, "raw") for x in rest]
        elif head == "trailer":
            if rest == ["none"]:
                self.trailer = []
            elif len(rest) == 4:
                self.trailer = [number(x, "trailer") for x in rest]
            else:
                raise Bad("a trailer has four words, or is `none`")
        elif head == "tick":
            self.ticks.append((place, rest))
        else:
            raise Bad(f"'{head}' is no port, no cell and no directive (`words.py help` lists them)")

    def read(self, text, file):
        for n, line in enumerate(text.split("\n"), 1):
            try:
                self.line(line, f"{file}:{n}")
            except Bad as e:
                raise Wrong(f"{file}:{n}", e) from None

    def netlist(self):
        if self.trailer is None:
            if self.any_raw:
                raise Wrong("end of text", "words given with `raw` need a `trailer` line")
            if self.too_many:
                raise Wrong(*self.too_many)
            cells_at = len(self.words) if self.cells_at is None else self.cells_at
            return self.words + [0, len(self.ports), cells_at, len(self.cells)]
        return self.words + self.trailer

    # TICKS

    def one_tick(self, items, held):
        """A tick's three words, its bits and how often it stands."""
        if not items:
            raise Bad("a tick is `tick rise|fall SIGNAL BITS` or `tick - BITS`")
        what, rest = items[0], items[1:]
        signal = 0
        if what in ("rise", "fall"):
            fires = 1 + ["rise", "fall"].index(what)
            if not rest:
                raise Bad("which signal fires? (sN, wN or a name)")
            text, rest = self.resolved(rest[0]), rest[1:]
            m = re.fullmatch(r"([sw])(\d+)", text)
            if not m:
                raise Bad(f"'{text}' is no signal (sN, wN or a name)")
            if m[1] == "s":
                signal = number(m[2], "signal")
            elif int(m[2]) in held:
                signal = held[int(m[2])]
            else:
                raise Bad(f"no signal holds wire {m[2]}: nothing drives it")
        else:
            fires = 0 if what == "-" else raw(what, "tick")
            if fires is None:
                raise Bad(f"'{what}' is not rise, fall or -")
            if rest and re.fullmatch(r"s\d+", rest[0]):
                signal, rest = number(rest[0][1:], "signal"), rest[1:]
        times = 1
        if rest and re.fullmatch(r"x\d+", rest[-1]):
            times, rest = int(rest[-1][1:]), rest[:-1]
        bits = []
        for item in rest:
            w = raw(item, "bits")
            if w is not None:
                if w > 255:
                    raise Bad(f"bits: {w} does not fit a byte")
                bits.append(w)
            elif re.fullmatch("[01]+", item):
                bits += map(int, item)
            else:
                raise Bad(f"'{item}' is no row of bits")
        return [len(bits), fires, signal], bits, times

    def simulation(self):
        """The words of `simulate`'s input, as bytes."""
        words = self.netlist()
        held, count, wanted = {}, None, None
        try:
            signals = signals_of(words)
            held, count, wanted = wire_map(signals), signal_count(words, signals), tick_bits(words)
        except ValueError:
            pass
        heads, bits = [], []
        for place, items in self.ticks:
            try:
                head, row, times = self.one_tick(items, held)
            except Bad as e:
                raise Wrong(place, e) from None
            if wanted is not None and head[0] != wanted:
                self.notes.append(f"{place}: note: {head[0]} bits, the input ports have {wanted}: this tick will be refused (14)")
            if count is not None and head[1] in (1, 2) and head[2] >= count:
                self.notes.append(f"{place}: note: signal {head[2]}, the model has {count}: this tick will be refused (14)")
            heads += head * times
            bits += row * times
        padded = bytes(bits) + bytes(-len(bits) % 4)
        return pack([len(heads) // 3, len(bits)] + heads) + padded + pack(words)


def assemble(text, file="text"):
    """The words of a netlist's text."""
    a = Assembler()
    a.read(text, file)
    if a.ticks:
        raise Wrong(a.ticks[0][0], "a tick; `asm-ticks` takes ticks")
    return a.netlist()


def assemble_ticks(*texts):
    """The bytes of `simulate`'s input, from texts or (file, text)."""
    a = Assembler()
    for t in texts:
        file, text = t if isinstance(t, tuple) else ("text", t)
        a.read(text, file)
    return a.simulation()


# ---- SIGNALS: numbers as the model has them (ports, cells' outputs in cell order, banks of flip-flops, zero, one, RAM words)


def records_of(words):
    """The ports as (direction, bits) and the cells as (name, {key: words}), of words that the reader takes (6 apart)."""
    lines, refusal = read_lines(list(words))
    if refusal and refusal[0] != 6:
        raise ValueError("the reader refuses these words")
    ports, cells = [], []
    for line in lines:
        w = words[line.at : line.at + line.count]
        if line.mark[:1] == "p":
            ports.append((w[0], list(w[2:])))
        elif line.mark[:1] == "c":
            cells.append(fields_of(list(w)))
    return ports, cells


SIZES = {"bit": 1, "wire": 1, "table": 1, "flag": 1, "edge": 1, "control": 2, "optional": 3, "reset": 5}
SIZES.update({"depth": 1, "width": 1, "physical": 1, "another": 1, "second": 1})


def fields_of(w):
    name, fields = KINDS[w[0]]
    at, out = 1, {}
    pending = list(fields)
    while pending:
        key, kind = pending.pop(0)
        many = counted(kind, out["width"][0] if "width" in out else 0)
        if kind == "more":
            n = w[at]
            at += 1
        else:
            n = many[1] if many else SIZES[kind]
        out[key] = w[at : at + n]
        at += n
        if key == "dout" and name == "bram" and out["second"][0]:
            pending = list(SECOND)
    return name, out


def signals_of(words):
    """The signals that hold wires, and zero and one, by number: (label, owner, bit words)."""
    ports, cells = records_of(words)
    out = []
    for p, (direction, bits) in enumerate(ports):
        out.append(("output", f"p{p}", bits) if direction == 1 else ("input", f"p{p}", bits))
    held = {b for label, _, bits in out if label == "input" for b in bits if b > 1}
    labels = {"lut4": "lut", "l6mux21": "l6mux", "ccu2c": "ccu", "mult": "mul", "bram": "ram"}
    outputs = {"lut4": ["z"], "pfumx": ["z"], "l6mux21": ["z"], "ccu2c": ["s0", "s1", "cout"], "mult": ["p"], "bram": ["dout", "dout2"]}
    outputs.update({"dram": ["dout"], "io": ["in"], "jtagg": [k for k, _ in FIELDS_OF["jtagg"]], "ff": [], "pll": ["fb", "out", "locked"]})
    banks = {}
    for c, (name, f) in enumerate(cells):
        rows = [[w + 2 for w in f[key]] for key in outputs[name] if key in f]
        if name == "pll":
            rows += [[w + 2] for w in f["more"]]
        for row in rows:
            # a PLL's pin whose wire is held already adds no signal
            if name == "pll" and row[0] in held:
                continue
            out.append((labels.get(name, name), f"c{c}", row))
            held.update(row)
        if name == "ff":
            present, signal, active, asynchronous, _ = f["reset"]
            key = (f["clk"][0], f["edge"][0], (signal, active) if present and asynchronous else None)
            banks.setdefault(key, []).append(f["q"][0] + 2)
    out += [("ff", f"b{b}", row) for b, row in enumerate(banks.values())]
    return out + [("zero", "", [0]), ("one", "", [1])]


def signal_count(words, signals):
    """All signals, RAM words among them."""
    return len(signals) + sum(f["depth"][0] if name == "bram" else 16 for name, f in records_of(words)[1] if name in ("bram", "dram"))


def wire_map(signals):
    """The signal that holds each wire: the first."""
    held = {}
    for s, (label, _, bits) in enumerate(signals):
        if label != "output":
            for b in bits:
                if b > 1:
                    held.setdefault(b - 2, s)
    return held


def tick_bits(words):
    return sum(len(bits) for direction, bits in records_of(words)[0] if direction != 1)


def signals_text(words):
    out = []
    for s, (label, owner, bits) in enumerate(signals_of(words)):
        head = " ".join(x for x in (f"s{s}", label, str(len(bits)), owner) if x)
        # an output port's signal shows bits and holds none
        between = " shows " if label == "output" else " holds "
        out.append(head + (between + " ".join(runs([bit_text(b) for b in bits])) if owner else "") + "\n")
    return "".join(out)


# ---- THE INPUT OF `simulate`


def disassemble_ticks(data, index=False):
    """The text of `simulate`'s input, and why it is none (or None)."""
    if len(data) % 4 or len(data) < 8:
        return "", (3, 0, f"{len(data)} bytes: not in whole words, or without the two leading words")
    words = unpack(data)
    ticks, total = words[:2]
    at = 2 + 3 * ticks
    end = at + (total + 3) // 4
    if end > len(words):
        return "", (3, 0, f"{ticks} ticks with {total} bits need {end} words, there are {len(words)}")
    heads, row, words = words[2:at], data[4 * at : 4 * at + total], words[end:]
    text, why = disassemble(words, index)
    if any(data[4 * at + total : 4 * end]):
        why = why or (0, 0, "the bytes behind the last tick bit are not all zero")
    widths = []
    if not why or why[0] == 6:
        widths = [len(bits) for direction, bits in records_of(words)[0] if direction != 1]
    out, pos = [], 0
    for t in range(ticks):
        n, fires, signal = heads[3 * t : 3 * t + 3]
        what = {0: "-", 1: "rise", 2: "fall"}.get(fires, f"!{fires}")
        name = [f"s{signal}"] if fires or signal else []
        bits = row[pos : pos + n]
        if len(bits) < n:
            note = f"tick {t} has {n} bits, but only {len(bits)} are left"
            out.append(f"# {note}")
            why = why or (0, 0, note)
        pos += len(bits)
        out.append(" ".join(["tick", what] + name + groups(bits, widths)))
    if pos < total:
        note = f"{total - pos} bits are left over behind the last tick"
        out.append(f"# {note}")
        why = why or (0, 0, note)
    return text + "".join(line + "\n" for line in out), why


def groups(bits, widths):
    """A tick's bits, one group to a port where their number is right."""
    if any(b > 1 for b in bits):
        return [str(b) if b < 2 else f"!{b}" for b in bits]
    out, at = [], 0
    for w in widths if sum(widths) == len(bits) else [len(bits)]:
        out.append("".join(map(str, bits[at : at + w])))
        at += w
    return [g for g in out if g]


# ---- BYTES AND COMMANDS


def pack(words):
    a = array.array("I", words)
    if sys.byteorder != "little":
        a.byteswap()
    return a.tobytes()


def unpack(data):
    a = array.array("I")
    a.frombytes(data)
    if sys.byteorder != "little":
        a.byteswap()
    return a.tolist()


def numbers(text, file="text"):
    """Plain numbers; commas, spaces and ends of lines between them."""
    out = []
    for n, line in enumerate(text.split("\n"), 1):
        for item in re.split(r"[\s,]+", line.split("#")[0]):
            if item:
                try:
                    out.append(number(item, "a word"))
                except Bad as e:
                    raise Wrong(f"{file}:{n}", e) from None
    return out


def read_input(files):
    if not files:
        return "standard input", sys.stdin.read()
    with open(files[0], encoding="utf-8") as f:
        return files[0], f.read()


def read_words():
    data = sys.stdin.buffer.read()
    if len(data) % 4:
        print(f"words.py: {len(data)} bytes are no whole words: refused 3 0; the last {len(data) % 4} are left out", file=sys.stderr)
    return unpack(data[: len(data) - len(data) % 4]), len(data) % 4 != 0


def told(why):
    if why:
        print(f"words.py: refused {why[0]} {why[1]}: {why[2]}" if why[0] else f"words.py: {why[2]}", file=sys.stderr)
    return 1 if why else 0


def emit(words):
    if len(words) > LONGEST:
        print(f"words.py: note: {len(words)} words; `lower` takes {LONGEST} and refuses more (3)", file=sys.stderr)
    sys.stdout.buffer.write(pack(words))
    return 0


def main(args):
    command, rest = (args[0], args[1:]) if args else ("help", [])
    index = "--index" in rest and command in ("dis", "dis-ticks")
    files = [a for a in rest if a != "--index"] if index else rest
    if command in ("help", "--help", "-h"):
        print(__doc__.strip())
        return 0
    if command == "asm" and len(files) <= 1:
        file, text = read_input(files)
        return emit(assemble(text, file))
    if command == "asm-ticks":
        a = Assembler()
        for f in [[f] for f in files] or [[]]:
            file, text = read_input(f)
            a.read(text, file)
        data = a.simulation()
        for note in a.notes:
            print(note, file=sys.stderr)
        sys.stdout.buffer.write(data)
        return 0
    if command == "from-numbers":
        return emit(numbers(" ".join(files), "arguments") if files else numbers(sys.stdin.read(), "standard input"))
    if command == "dis-ticks" and not files:
        text, why = disassemble_ticks(sys.stdin.buffer.read(), index)
        sys.stdout.write(text)
        return told(why)
    if command in ("dis", "signals", "to-numbers") and not files:
        words, cut = read_words()
        if command == "signals":
            try:
                sys.stdout.write(signals_text(words))
            except ValueError:
                return told(read_lines(words)[1])
            return int(cut)
        if command == "to-numbers":
            rows = [words[l.at : l.at + l.count] for l in read_lines(words)[0] if l.count]
            print(",\n".join(" ".join(map(str, row)) for row in rows))
            return int(cut)
        text, why = disassemble(words, index)
        sys.stdout.write(text)
        return told(why) or int(cut)
    print(__doc__.split("\n\n")[1], file=sys.stderr)
    return 2


if __name__ == "__main__":
    try:
        status = main(sys.argv[1:])
        sys.stdout.flush()
    except Wrong as e:
        print(f"words.py: {e}", file=sys.stderr)
        status = 1
    except (OSError, UnicodeDecodeError) as e:
        print(f"words.py: {e}", file=sys.stderr)
        status = 1
    sys.exit(status)
