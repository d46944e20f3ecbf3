#!/usr/bin/env python3
"""Counts, in crates/*/src, the places that docs/DESIGN-PASS.md speaks of. tools/design_counts.py [-v] [POINT]: -v names each place."""
import glob
import re
import sys
from collections import Counter, defaultdict

VERBOSE = "-v" in sys.argv
ONLY = [a for a in sys.argv[1:] if a != "-v"]


def files():
    for path in sorted(glob.glob("crates/*/src/**/*.rt", recursive=True)):
        text = open(path).read()
        yield path, re.sub(r"//[^\n]*", "", text)


def say(point, what, places):
    if ONLY and point not in ONLY:
        return
    print(f"{point}  {len(places):4}  {what}")
    if VERBOSE:
        for place in places:
            print("          ", place)


def functions(text):
    """(name, parameters, result, clauses, body) of each function."""
    for m in re.finditer(r"\bfn (\w+)(<[^(]*>)?\(", text):
        i, depth = m.end(), 1
        while depth:
            depth += {"(": 1, ")": -1}.get(text[i], 0)
            i += 1
        params = text[m.end() : i - 1]
        head = re.match(r"\s*(?:->\s*([^{\n]+?))?\s*(?=\n|\{|requires|ensures|where)", text[i:])
        result = head.group(1) if head and head.group(1) else ""
        j = i + (head.end() if head else 0)
        clauses = ""
        while True:
            c = re.match(r"\s*(?:where[^{]*|(requires|ensures)\*?( \w+)? \{)", text[j:])
            if not c:
                break
            if c.group(1) is None:
                j += c.end()
                continue
            k, depth = j + c.end(), 1
            while depth:
                depth += {"{": 1, "}": -1}.get(text[k], 0)
                k += 1
            clauses += text[j:k]
            j = k
        b = re.match(r"\s*\{", text[j:])
        if not b:
            continue
        k, depth = j + b.end(), 1
        while depth:
            depth += {"{": 1, "}": -1}.get(text[k], 0)
            k += 1
        yield m.group(1), params, result, clauses, text[j + b.end() : k - 1]


def names(params):
    return [p.split(":")[0].replace("mut ", "").strip() for p in re.split(r",(?![^\[<(]*[\]>)])", params) if ":" in p]


option, result, flag, numbers, loops, recursion = [], [], [], [], [], []
equality, conversion, bare = [], [], []
long, groups, facts = [], defaultdict(list), defaultdict(list)
shapes = defaultdict(list)
switches, derive = [], []
GROUPS = [
    ("exprs", "t"), ("stmts", "t"), ("signals", "t"), ("wires", "places"), ("words", "at"), ("seen", "first"),
    ("signals", "exprs", "stmts"), ("starts", "expr_table", "signal_table", "driver_table"), ("starts", "stmts", "drivers"),
    ("parts", "values"), ("work_bits", "work_exprs", "work_signals"), ("out", "at"), ("heads", "bits"), ("list", "at", "size"),
    ("limits", "words", "end"), ("wires", "places", "parts", "values", "banks"),
]
for path, text in files():
    for m in re.finditer(r"\benum (\w+)\s*\{(.*?)\n\s*\}", text, re.S):
        variants = [v.strip() for v in re.split(r",(?![^(]*\))", m.group(2)) if v.strip()]
        place = f"{path}: {m.group(1)}"
        if len(variants) == 2:
            filled = [v for v in variants if "(" in v or "{" in v]
            if any("Refusal" in v for v in variants):
                result.append(place)
            elif len(filled) == 1:
                option.append(place)
    for m in re.finditer(r"\bstruct (\w+)[^;{(]*\{(.*?)\n\s*\}", text, re.S):
        if re.search(r":\s*bool\b", m.group(2)) or re.search(r"count: \w+,\s*(pub )?a: ", m.group(2)):
            flag.append(f"{path}: {m.group(1)}")
    for name, params, res, clauses, body in functions(text):
        place = f"{path}: {name}"
        for m in re.finditer(r"\b(while|loop)\b", body):
            loops.append(place)
        ns = names(params)
        if re.search(r"\bmatch (kind|label|fires|physical)\b|\b(kind|label) == \d", body) or "kind: u32" in params or "label: u32" in params:
            numbers.append(place)
        if len(re.findall(r"\d+ => (return )?\w+[\w:]*\(", body)) >= 3:
            switches.append(place)
        for m in re.finditer(r"\.0 [=!]= [\w:]+(\.0)?", body):
            equality.append(f"{place}: {m.group(0)}")
        one = re.fullmatch(r"\s*match (\w+) \{(.*)\}\s*", body, re.S)
        if one and len(ns) == 1 and one.group(1) == ns[0] and re.search(r"Refused|Done", one.group(2)):
            conversion.append(place)
        if len(ns) >= 8:
            long.append(f"{place} ({len(ns)})")
        for g in GROUPS:
            if all(n in ns for n in g):
                groups[g].append(place)
        for clause in re.findall(r"requires(?: \w+)? \{(.*?)\}\s*(?=requires|ensures|$)", clauses, re.S):
            for part in re.split(r"\s×\s", clause):
                part = part.strip().strip("()")
                facts[part].append(place)
        tokens = re.findall(r"[A-Za-z_]\w*|\d[\w.]*|\S", body)
        if len(tokens) >= 24:
            seen, shape = {}, []
            for t in tokens:
                if re.match(r"\d", t):
                    shape.append("0")
                elif re.match(r"[A-Za-z_]", t) and t not in ("if", "else", "let", "mut", "match", "while", "loop", "return", "for", "in", "as", "fn", "self", "Self"):
                    shape.append(f"x{seen.setdefault(t, len(seen))}")
                else:
                    shape.append(t)
            shapes[" ".join(shape)].append(place)
    for m in re.finditer(r"#\[derive\(Drop\)\]\s*\n\s*#\[derive", text):
        derive.append(path)

say("1", "own enums of the shape of Option", option)
say("1", "own enums of the shape of Result", result)
say("1", "a flag or a count with its values beside it (structs)", flag)
say("1", "functions that go by a number of a kind or a label", numbers)
twins = [" = ".join(v) for v in shapes.values() if len(v) > 1]
say("2", "groups of functions whose bodies differ in names and numbers alone", twins)
say("2", "functions in them beyond the first of each group", [p for v in shapes.values() for p in v[1:]])
say("3", "loops by `while` or `loop`", loops)
say("4", "comparisons of a number inside an id", equality)
say("4", "functions that only turn one answer into another", conversion)
say("4", "types with two lines of derives", derive)
say("5", "functions of eight parameters or more", long)
for g in GROUPS:
    say("5", "functions that take " + ", ".join(g), groups[g])
often = [(k, v) for k, v in facts.items() if len(set(v)) >= 3]
say("5", "facts that the requirements of three functions or more repeat", [f"{k}: {len(set(v))}" for k, v in sorted(often, key=lambda kv: -len(set(kv[1])))])
say("5", "functions that require one of them", sorted({p for _, v in often for p in v}))
say("7", "functions that choose among three calls or more by a number", switches)
