#!/usr/bin/env python3
"""Runs the vectors of vectors.py by document 01's tick rule, as request W1 amends it, and says where they part.

  compare.py FILE [--only PREFIX] [--quiet]
  compare.py --batch BATCH PROGRAM

The second form runs the cases of a batch for `simulate` and holds them to what PROGRAM prints for each; what it refuses is left out, and so
are cells that form a loop.
Written from the papers alone, apart from the proved definitions: a third opinion on both. Exits 1 if a tick differs.
"""
import argparse, struct, subprocess, sys


class Reader:
    def __init__(self, words):
        self.w, self.i = words, 0

    def one(self):
        self.i += 1
        return self.w[self.i - 1]

    def many(self, n):
        return [self.one() for _ in range(n)]

    def control(self):
        return self.many(2)

    def optional(self):
        present, signal, active = self.many(3)
        return [signal, active] if present else None


def read(words):
    end = len(words) - 4
    _, ports, _, cells = words[end:]
    r = Reader(words)
    netlist = {"ports": [], "cells": []}
    for _ in range(ports):
        direction, width = r.many(2)
        netlist["ports"].append((direction, r.many(width)))
    for _ in range(cells):
        netlist["cells"].append(cell(r))
    assert r.i == end
    return netlist


def cell(r):
    k = r.one()
    c = {"kind": k}
    if k == 0:
        c.update(ins=r.many(4), outs=r.many(1), init=r.one())
    elif k in (1, 2):
        c.update(arms=r.many(2), select=r.one(), outs=r.many(1))
    elif k == 3:
        c.update(rows=[r.many(4), r.many(4)], carry=r.one(), outs=r.many(3), inits=r.many(2), injects=r.many(2))
    elif k == 4:
        c.update(a=r.many(18), b=r.many(18), outs=r.many(36))
    elif k == 5:
        c.update(data=r.one(), outs=r.many(1), clock=r.one(), edge=r.one(), enable=r.optional())
        present, signal, active, asynchronous, value = r.many(5)
        c["reset"] = (signal, active, asynchronous, value) if present else None
    elif k == 6:
        c.update(depth=r.one(), width=r.one(), physical=r.one())
        a = {"waddr": r.many(14), "write": r.control(), "raddr": r.many(14), "read": r.optional(), "ce": r.optional()}
        c["clock"], c["edge"] = r.many(2)
        second = r.one()
        a.update(data=r.many(c["width"]), outs=r.many(c["width"]))
        c["sides"] = [a]
        if second:
            address = r.many(14)
            b = {"waddr": address, "raddr": address, "write": r.control(), "read": r.optional(), "ce": r.optional()}
            r.many(2)
            b.update(data=r.many(c["width"]), outs=r.many(c["width"]))
            c["sides"].append(b)
    elif k == 7:
        c.update(waddr=r.many(4), data=r.many(4), write=r.control(), raddr=r.many(4), outs=r.many(4), clock=r.one(), edge=r.one())
        r.one()
    elif k == 8:
        c.update(pad=r.one() + 2, driven=r.one(), outs=r.many(1), tristate=r.one())
    elif k == 9:
        c.update(outs=r.many(9))
    elif k == 10:
        c.update(reference=r.one(), outs=r.many(3))
        c["outs"] += r.many(r.one())
    return c


def number(bits):
    return sum(b << k for k, b in enumerate(bits))


class Machine:
    """Signals are numbered as the Rust makes them; a wire is driven by what its signal in the map holds."""

    def __init__(self, words):
        n = self.n = read(words)
        self.signal, self.drive, self.inputs, count = {}, {}, 0, 0
        for direction, bits in n["ports"]:
            if direction != 1:
                for b in bits:
                    if b > 1:
                        self.signal[b], self.drive[b] = count, ("in", self.inputs)
                    self.inputs += 1
            count += 1
        for c, x in enumerate(n["cells"]):
            k = x["kind"]
            if k == 5:
                continue
            groups = [s["outs"] for s in x["sides"]] if k == 6 else [x["outs"]] if k in (4, 7) else [[w] for w in x["outs"]]
            pin = 0
            for g in groups:
                if not (k == 10 and g[0] + 2 in self.signal):
                    for w in g:
                        self.signal[w + 2], self.drive[w + 2] = count, ("pin", c, pin + g.index(w))
                    count += 1
                pin += len(g)
        banks = []
        for c, x in enumerate(n["cells"]):
            if x["kind"] == 5:
                r = x["reset"]
                key = (x["clock"], x["edge"], r[:2] if r and r[2] else None)
                if key not in banks:
                    banks.append(key)
                w = x["outs"][0] + 2
                self.signal[w], self.drive[w] = count + banks.index(key), ("pin", c, 0)
        count += len(banks)
        self.signal[0], self.signal[1] = count, count + 1
        self.regs = []
        for x in n["cells"]:
            k = x["kind"]
            if k == 5:
                self.regs.append(0)
            elif k == 6:
                self.regs.append({"words": [[0] * x["width"] for _ in range(x["depth"])], "reads": [[0] * x["width"] for _ in x["sides"]]})
            elif k == 7:
                self.regs.append([[0] * 4 for _ in range(16)])
            else:
                self.regs.append(None)
        self.memo = {}

    def value(self, bit):
        if bit < 2:
            return bit
        if bit not in self.memo:
            d = self.drive[bit]
            self.memo[bit] = self.bits[d[1]] if d[0] == "in" else self.output(d[1], d[2])
        return self.memo[bit]

    def many(self, bits):
        return [self.value(b) for b in bits]

    def output(self, c, pin):
        x, r = self.n["cells"][c], self.regs[c]
        k = x["kind"]
        if k == 0:
            return x["init"] >> number(self.many(x["ins"])) & 1
        if k == 1:
            return self.value(x["arms"][0] if self.value(x["select"]) else x["arms"][1])
        if k == 2:
            return self.value(x["arms"][1] if self.value(x["select"]) else x["arms"][0])
        if k == 3:
            carry, sums = self.value(x["carry"]), []
            for row in range(2):
                ins = self.many(x["rows"][row])
                l, m = x["inits"][row] >> number(ins) & 1, x["inits"][row] >> number(ins[:2]) & 1
                g = 0 if x["injects"][row] else carry
                sums.append(l ^ g)
                carry = g if l else m
            return (sums + [carry])[pin]
        if k == 4:
            return number(self.many(x["a"])) * number(self.many(x["b"])) >> pin & 1
        if k == 5:
            return r
        if k == 6:
            return r["reads"][pin // x["width"]][pin % x["width"]]
        if k == 7:
            return r[number(self.many(x["raddr"]))][pin]
        if k == 8:
            return self.value(x["pad"] if self.value(x["tristate"]) else x["driven"])
        if k == 9:
            return int(pin == 6)
        return 1 if pin == 2 else self.value(x["reference"])

    def asserted(self, control):
        return self.value(control[0]) == control[1]

    def next(self, c, fired):
        x, r = self.n["cells"][c], self.regs[c]
        k = x["kind"]
        if k not in (5, 6, 7):
            return r
        on = fired == (self.signal.get(x["clock"]), x["edge"])
        if k == 5:
            s = x["reset"]
            if s and s[2] and self.asserted(s):
                return s[3]
            if not on:
                return r
            if s and self.asserted(s):
                return s[3]
            return self.value(x["data"]) if x["enable"] is None or self.asserted(x["enable"]) else r
        if not on:
            return r
        if k == 7:
            words = [w[:] for w in r]
            if self.asserted(x["write"]):
                words[number(self.many(x["waddr"]))] = self.many(x["data"])
            return words
        shift, width = {1: 0, 2: 1, 4: 2, 9: 3, 18: 4}[x["physical"]], max(1, (x["depth"] - 1).bit_length())
        at = lambda bits: number(self.many(bits[shift : shift + width]))
        words, reads = [w[:] for w in r["words"]], []
        for side, s in enumerate(x["sides"]):
            goes = s["ce"] is None or self.asserted(s["ce"])
            a = at(s["raddr"])
            loads = goes and (s["read"] is None or self.asserted(s["read"]))
            reads.append((r["words"][a] if a < x["depth"] else [0] * x["width"]) if loads else r["reads"][side])
            if goes and self.asserted(s["write"]) and at(s["waddr"]) < x["depth"]:
                words[at(s["waddr"])] = self.many(s["data"])
        return {"words": words, "reads": reads}

    def tick(self, bits, fired):
        assert len(bits) == self.inputs
        self.bits, self.memo = bits, {}
        self.regs = [self.next(c, fired) for c in range(len(self.regs))]
        self.memo = {}
        return "".join(str(self.value(b)) for direction, port in self.n["ports"] if direction == 1 for b in port)


def cases(batch):
    """Per case its bytes, its ticks as bits and what fires, and its netlist; where leading words are missing, no ticks."""
    data, at = open(batch, "rb").read(), 0
    while at < len(data):
        (length,) = struct.unpack_from("<I", data, at)
        case, at = data[at + 4 : at + 4 + 4 * length], at + 4 + 4 * length
        words = struct.unpack(f"<{length}I", case)
        count, bits = words[:2] if length > 1 else (length, 0)
        ticks, left = [], list(case[8 + 12 * count :][:bits])
        for k in range(min(count, (length - 2) // 3)):
            asked, fires, signal = words[2 + 3 * k : 5 + 3 * k]
            ticks.append((left[:asked], (signal, fires - 1) if fires else None))
            left = left[asked:]
        yield case, ticks, words[2 + 3 * count + (bits + 3) // 4 :]


def shown(machine, row):
    """The output ports in order, the highest bit of each first."""
    ports, at = [], 0
    for direction, bits in machine.n["ports"]:
        if direction == 1:
            ports.append(row[at : at + len(bits)][::-1])
            at += len(bits)
    return " ".join(ports)


def compare_batch(batch, program):
    sys.setrecursionlimit(4000)
    ran = ticks = wrong = loops = 0
    for number, (case, given, words) in enumerate(cases(batch)):
        lines = subprocess.run(program, input=case, capture_output=True, check=True).stdout.decode().split("\n")[:-1]
        made = [(bits, fired, line) for (bits, fired), line in zip(given, lines) if not line.startswith("refused")]
        if not made:
            continue
        machine = Machine(words)
        try:
            for bits, fired, line in made:
                got = shown(machine, machine.tick(bits, fired))
                ticks += 1
                if got != line:
                    wrong += 1
                    print(f"case {number}: bits {bits}, fired {fired}: {program} shows {line}, the tick rule {got}")
            ran += 1
        except RecursionError:
            loops += 1
    print(f"{ran} cases, {ticks} ticks, {wrong} differ; {loops} cases with a loop")
    sys.exit(wrong > 0)


def main():
    a = argparse.ArgumentParser()
    a.add_argument("file", nargs="?")
    a.add_argument("--batch", nargs=2)
    a.add_argument("--only", default="")
    a.add_argument("--quiet", action="store_true")
    a = a.parse_args()
    if a.batch:
        compare_batch(*a.batch)
    ticks = wrong = 0
    counts = {}
    for line in open(a.file):
        key, _, rest = line.split("#")[0].strip().partition(" ")
        if key == "vector":
            name = rest
        elif key == "words":
            machine, k = Machine([int(x) for x in rest.split()]), 0
        elif key == "tick" and name.startswith(a.only):
            bits, fired, shown = rest.split()
            fired = None if fired == "-" else tuple(map(int, fired.split(".")))
            got = machine.tick([int(b) for b in bits if b != "."], fired)
            ticks += 1
            if got != shown:
                wrong += 1
                counts[name] = counts.get(name, 0) + 1
                if not a.quiet:
                    print(f"{name}: tick {k}, bits {bits}, fired {fired}: the model shows {shown}, the tick rule {got}")
            k += 1
    if a.quiet:
        for name, c in counts.items():
            print(f"{name}: {c}")
    print(f"{ticks} ticks, {wrong} differ")
    sys.exit(wrong > 0)


if __name__ == "__main__":
    main()
