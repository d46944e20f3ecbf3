#!/usr/bin/env python3
"""Tests of words.py and vcd_check.py on the stored netlists, ticks and examples of this repository. The last line is `N passed, M failed`.

  tools/test_words.py [--lower PROGRAM] [--simulate PROGRAM]

With --lower, each stored netlist and example also goes through that program (crates/lower/out/lower) and its refusals and signals are held to those of
words.py. With --simulate, the examples' ticks go through that program too. Without, nothing but Python is needed.
"""
import argparse
import importlib.util
import os
import re
import subprocess
import sys

sys.dont_write_bytecode = True
HERE = os.path.dirname(os.path.abspath(__file__))
ROOT = os.path.dirname(HERE)
sys.path.insert(0, HERE)
import vcd_check
import words as w

passed = failed = 0


def path(*parts):
    return os.path.join(ROOT, *parts)


def check(ok, what):
    global passed, failed
    if ok:
        passed += 1
    else:
        failed += 1
        print(f"FAILED {what}")


def load(name):
    with open(path(*name.split("/")), "rb") as f:
        return w.unpack(f.read())


def load_module(name, file):
    spec = importlib.util.spec_from_file_location(name, file)
    module = importlib.util.module_from_spec(spec)
    spec.loader.exec_module(module)
    return module


# ---- STORED NETLISTS: (name, words, refusal by the reader or None where it is not stored, the model's signals or None)


def reader_cases():
    """Number of cases; per case number, place, count, words."""
    a = load("crates/cases_reader/stdin")
    at = 1
    for k in range(a[0]):
        number, place, n = a[at : at + 3]
        yield f"cases_reader {k}", a[at + 3 : at + 3 + n], (number, place), None
        at += 3 + n
    assert at == len(a)


def lower_cases():
    """Per netlist count, three list lengths, words; the answers are lines."""
    a = load("crates/cases_lower/stdin")
    with open(path("crates", "cases_lower", "stdout")) as f:
        answers = f.read().splitlines()
    at = k = 0
    while at < len(a):
        n = a[at]
        answer = answers[k].split()
        refusal, signals = (0, 0), None
        if answer[0] == "refused":
            # other refusals than the reader's are of words that can be read
            if 3 <= int(answer[1]) <= 6:
                refusal = (int(answer[1]), int(answer[2]))
        else:
            signals = int(answer[1])
        yield f"cases_lower {k}", a[at + 4 : at + 4 + n], refusal, signals
        at, k = at + 4 + n, k + 1
    assert at == len(a)


def yosys_cases():
    with open(path("oracle", "answers", "yosys.txt")) as f:
        for line in f:
            key, _, rest = line.split("#")[0].strip().partition(" ")
            if key == "vector":
                name = rest
            elif key == "words":
                yield f"yosys {name}", w.numbers(rest), (0, 0), None


def files():
    for name in ("oracle/answers/all-kinds.bin", "crates/lower/stdin"):
        yield name, load(name), (0, 0), None


def round_trips(name, words, refusal, signals):
    for index in (False, True):
        text, why = w.disassemble(words, index)
        check(w.assemble(text) == words, f"{name}: the text gives other words (index {index})")
    got = (why[0], why[1]) if why else (0, 0)
    check(got == refusal, f"{name}: the reader gives {refusal}, words.py {got}")
    if signals is not None:
        check(w.signal_count(words, w.signals_of(words)) == signals, f"{name}: {signals} signals in the model")


def stored():
    count = 0
    for cases in (files(), reader_cases(), lower_cases(), yosys_cases()):
        for case in cases:
            round_trips(*case)
            count += 1
    print(f"{count} stored netlists")


# ---- EVERY WORD SPOILED: whatever stands in a word, the text gives the same words again


def spoiled():
    words = load("oracle/answers/all-kinds.bin")
    for i in range(len(words)):
        for value in (0, 1, 2, 5, 19, 16384, 16386, 65536, 0xFFFFFFFF):
            other = words[:i] + [value] + words[i + 1 :]
            check(w.assemble(w.disassemble(other)[0]) == other, f"all-kinds with word {i} {value}")
    for n in range(len(words)):
        check(w.assemble(w.disassemble(words[:n])[0]) == words[:n], f"all-kinds cut to {n} words")
    many = [0, 1, 2] * 257 + [0, 257, 771, 0]
    check(w.assemble(w.disassemble(many)[0]) == many, "257 ports")


# ---- WRONG TEXTS: the line that is named, and a part of the message

WRONG = [
    ("input 2 w0", 1, "1 bits, but the width is 2"),
    ("input 0", 1, "width 0"),
    ("input 257 0*257", 1, "1 to 256"),
    ("input", 1, "WIDTH BIT"),
    ("input 1 w16384", 1, "wires go up to 16383"),
    ("input 2 w16383..w16384", 1, "wires go up to 16383"),
    ("input 1 x", 1, "'x' is no bit"),
    ("# nothing\n\nlut5 a=0", 3, "'lut5' is no port"),
    ("input 1 w0\nlut4 a=w0 b=0 c=0 z=w1 init=2", 2, "d= is missing"),
    ("lut4 a=w0 b=0 c=0 d=0 z=1 init=2", 1, "must be a wire"),
    ("lut4 a=w0 b=0 c=0 d=0 z=w1 init=65536", 1, "above 65535"),
    ("lut4 a=w0 b=0 c=0 d=0 z=w1 init=two", 1, "no number"),
    ("lut4 a=w0 b=0 c=0 d=0 z=w1 init=2 e=0", 1, "no field e"),
    ("lut4 a=w0 a=0 c=0 d=0 z=w1 init=2", 1, "a stands twice"),
    ("lut4 a=w0 b=0 c=0 d=0 z=w1 init=2\ninput 1 w0", 2, "all ports come first"),
    ("ff d=0 q=w0 clk=0", 1, "rise or fall"),
    ("ff d=0 q=w0 clk=0 rise enable=w1", 1, "no control"),
    ("ff d=0 q=w0 clk=0 rise enable=w1:up", 1, "neither low nor high"),
    ("ff d=0 q=w0 clk=0 rise reset=w1:high:async", 1, "no reset"),
    ("dram waddr=0*3 din=0*4 write=0:high raddr=0*4 dout=w0..w3 clk=0 rise", 1, "3 bits, but there must be 4"),
    ("bram depth=1025 width=1 physical=18 waddr=0*14 write=0:high raddr=0*14 clk=0 rise din=0 dout=w0", 1, "above 14"),
    ("bram depth=0 width=1 physical=18 waddr=0*14 write=0:high raddr=0*14 clk=0 rise din=0 dout=w0", 1, "1 to 16384"),
    ("bram depth=1 width=1 physical=3 waddr=0*14 write=0:high raddr=0*14 clk=0 rise din=0 dout=w0", 1, "1, 2, 4, 9 or 18"),
    ("bram depth=1 width=1 physical=1 waddr=0*14 write=0:high raddr=0*14 clk=0 rise din=0 dout=w0 ren2=0:low", 1, "without `second`"),
    ("pll ref=0 fb=w0 out=w1 locked=w2 more=w3..w7", 1, "at most 4"),
    ("name w1 w0", 1, "cannot be a name"),
    ("name clk w0\nname clk w1", 2, "given twice"),
    ("tick - 01", 1, "asm-ticks"),
    ("raw 1 2", None, "need a `trailer`"),
    ("raw 1\ntrailer 1 2", 2, "four words"),
    ("input 1 w0\n" * 257, 257, "more than 256 ports"),
]

WRONG_TICKS = [
    ("input 1 w0\ntick", 2, "a tick is"),
    ("input 1 w0\ntick up s0 0", 2, "not rise, fall or -"),
    ("input 1 w0\ntick rise", 2, "which signal"),
    ("input 1 w0\ntick rise 0", 2, "no signal"),
    ("input 1 w0\ntick rise w1 0", 2, "no signal holds wire 1"),
    ("input 1 w0\ntick rise s0 02", 2, "no row of bits"),
]


def wrong_texts():
    for rows, call in ((WRONG, w.assemble), (WRONG_TICKS, w.assemble_ticks)):
        for text, line, part in rows:
            try:
                call(text)
                said = "nothing"
            except w.Wrong as e:
                said = str(e)
            at = f"text:{line}:" if line else "end of text:"
            check(said.startswith(at) and part in said, f"{text[:40]!r}: {said}")


# ---- TICKS


def ticks():
    text = (
        "input 1 w0\ninput 2 w1 w2\noutput 1 w3\nff d=w1 q=w3 clk=w0 rise\n"
        "tick rise s0 0 10\ntick fall s0 1 01\ntick - 0 00\ntick - s7 0 00\ntick !3 s1 1 11\ntick rise s9 0\ntick - 0 !2 0\ntick -\n"
    )
    data = w.assemble_ticks(text)
    back, why = w.disassemble_ticks(data)
    check(why is None and w.assemble_ticks(back) == data, "ticks: round trip")
    words = w.unpack(data)
    check(words[:8] == [8, 19, 3, 1, 0, 3, 2, 0], "ticks: leading words")
    check(data[4 * 26 : 4 * 26 + 6] == bytes([0, 1, 0, 1, 0, 1]), "ticks: bits, lowest first")
    check(words[26 + 5 :] == w.assemble(text.split("tick")[0]), "ticks: the netlist stands last")
    named = text.replace("input 1 w0\n", "name clk w0\ninput 1 clk\n").replace("rise s0", "rise clk").replace("fall s0", "fall w0")
    check(w.assemble_ticks(named) == data, "ticks: names and wires for signals")
    check(w.assemble_ticks("input 1 w0\ntick - 1 x3") == w.assemble_ticks("input 1 w0\n" + "tick - 1\n" * 3), "ticks: repeated")
    for cut in (data[:-1], data[:4], data[:40]):
        check(w.disassemble_ticks(cut)[1][0] == 3, "ticks: cut")


# ---- EXAMPLES: NAME.txt, NAME.ticks, NAME.shown (what `simulate` prints)


def examples(lower, simulate):
    rule = load_module("tick_rule", path("oracle", "yosys", "compare.py"))
    names = sorted(f[:-4] for f in os.listdir(path("examples")) if f.endswith(".txt"))
    for name in names:
        texts = []
        for end in (".txt", ".ticks"):
            with open(path("examples", name + end)) as f:
                texts.append((name + end, f.read()))
        words = w.assemble(texts[0][1], texts[0][0])
        data = w.assemble_ticks(*texts)
        round_trips(f"examples/{name}", words, (0, 0), None)
        back, why = w.disassemble_ticks(data)
        check(why is None and w.assemble_ticks(back) == data, f"examples/{name}: ticks back and forth")
        with open(path("examples", name + ".shown")) as f:
            expected = f.read()
        check(run_rule(rule, words, data) == expected, f"examples/{name}: another answer by oracle/yosys/compare.py's tick rule")
        if lower:
            answer = run(lower, w.pack(words))
            check(answer.startswith("model "), f"examples/{name}: lower says {answer[:40]!r}")
        if simulate:
            check(run(simulate, data) == expected, f"examples/{name}: another answer by {simulate}")
    print(f"{len(names)} examples")


def run_rule(rule, words, data):
    """`simulate`'s lines by the tick rule in Python; for ticks that are not refused."""
    machine = rule.Machine(words)
    widths = [len(bits) for direction, bits in machine.n["ports"] if direction == 1]
    heads = w.unpack(data[: len(data) - len(data) % 4])
    count, at, out = heads[0], 4 * (2 + 3 * heads[0]), []
    for t in range(count):
        n, fires, signal = heads[2 + 3 * t : 5 + 3 * t]
        row = machine.tick(list(data[at : at + n]), (signal, fires - 1) if fires else None)
        at += n
        parts, k = [], 0
        for width in widths:
            parts.append(row[k : k + width][::-1])
            k += width
        out.append(" ".join(parts) + "\n")
    return "".join(out)


def run(program, data):
    return subprocess.run([program], input=data, stdout=subprocess.PIPE, check=False).stdout.decode()


def against_lower(lower):
    """Refusals 3 to 6 and the signals' labels, widths and owners, as the program prints them."""
    for cases in (files(), reader_cases(), lower_cases()):
        for name, words, _, _ in cases:
            answer = run(lower, w.pack(words)).splitlines()
            why = w.read_lines(words)[1]
            if why:
                check(answer == [f"refused {why[0]} {why[1]}"], f"{name}: lower says {answer[0]}")
            elif answer[0].startswith("model"):
                signals = [line for line in answer if line.startswith("s")]
                mine = [line.split(" holds")[0].split(" shows")[0] for line in w.signals_text(words).splitlines()]
                check(signals[: len(mine)] == mine, f"{name}: signals")
            else:
                check(answer[0].split()[1] not in "3456", f"{name}: lower says {answer[0]}")


# ---- REFUSALS: the examples of docs/REFUSALS.md


def refusals(lower, simulate):
    with open(path("docs", "REFUSALS.md"), encoding="utf-8") as f:
        rows = re.findall(r"^(lower|simulate)\s+(.*)=> (refused \d+ \d+)$", f.read(), re.M)
    for program, given, answer in rows:
        if program == "lower":
            data = w.pack(w.numbers(given))
            why = w.read_lines(w.unpack(data))[1]
            number = int(answer.split()[1])
            check((f"refused {why[0]} {why[1]}" if why else "") == (answer if 3 <= number <= 6 else ""), f"docs/REFUSALS.md: {given}: {why}")
        else:
            data = w.assemble_ticks(given.replace(" / ", "\n"))
        call = lower if program == "lower" else simulate
        if call:
            got = run(call, data).strip()
            check(got == answer, f"docs/REFUSALS.md: {given}: {got}, not {answer}")
    print(f"{len(rows)} refusals")


# ---- VCD

GOOD = """$date today $end
$version simulate $end
$timescale 1ns $end
$scope module top $end
$var wire 1 ! clk $end
$var wire 4 " count [3:0] $end
$upscope $end
$enddefinitions $end
#0
$dumpvars
0!
b0000 "
$end
#10
1!
b0001 "
#20
#30
b0010 "
"""

# (what to replace, by what, the line of the fault, a part of the message)
FAULTS = [
    ("$timescale 1ns $end\n", "", 7, "no $timescale"),
    ("1ns", "3ns", 3, "timescale"),
    ("1ns", "1 parsec", 3, "timescale"),
    ("$scope module top $end", "$scope module top", 5, "$scope"),
    ("$upscope $end\n", "", 7, "still open"),
    ("$var wire 1 ! clk $end", "$var wire 1 ! $end", 5, "$var"),
    ("$var wire 1 ! clk $end", "$var wire 0 ! clk $end", 5, "width"),
    ('4 " count', "4 ! count", 6, "identifier"),
    ('4 " count', '4 " clk', 6, "name"),
    ("[3:0]", "[4:0]", 6, "range"),
    ("$enddefinitions $end\n", "", 8, "$enddefinitions"),
    ("$dumpvars\n", "", 10, "$dumpvars"),
    ("0!\nb0000", "b0000", 12, "no value for clk"),
    ("b0000 ", "b000 ", 12, "3 digits"),
    ("b0000 ", "b00x0 ", 12, "digit"),
    ("0!\n", "b0 !\n", 11, "one bit"),
    ("0!\n", "0\n", 11, "identifier"),
    ("#30", "#20", 18, "time"),
    ("#30", "#5", 18, "time"),
    ("#30", "#x", 18, "time"),
    ("1!\n", "1!\n0!\n", 16, "twice"),
    ("1!\n", "1$\n", 15, "unknown"),
    ("1!\n", "hello\n", 15, "no value"),
    ("#10", "#15", 14, "multiple"),
]


def vcd():
    vars_, rows = vcd_check.parse(GOOD, step=10)
    check([v.name for v in vars_] == ["clk", "count"], "vcd: variables")
    check(rows == [(0, ["0", "0000"]), (10, ["1", "0001"]), (20, ["1", "0001"]), (30, ["1", "0010"])], f"vcd: values {rows}")
    for old, new, line, part in FAULTS:
        assert old in GOOD, old
        try:
            vcd_check.parse(GOOD.replace(old, new, 1), step=10)
            said = "nothing"
        except vcd_check.Fault as e:
            said = str(e)
        check(said.startswith(f"line {line}:") and part in said, f"vcd with {new!r} for {old!r}: {said}")


def main():
    a = argparse.ArgumentParser()
    a.add_argument("--lower")
    a.add_argument("--simulate")
    a = a.parse_args()
    stored()
    spoiled()
    wrong_texts()
    ticks()
    vcd()
    examples(a.lower, a.simulate)
    refusals(a.lower, a.simulate)
    if a.lower:
        against_lower(a.lower)
    print(f"{passed} passed, {failed} failed")
    return 1 if failed else 0


if __name__ == "__main__":
    sys.exit(main())
