#!/usr/bin/env python3
"""Brings the names that this repository gave to Rattle's spelling: definitions, lemmas, fields and
variables of specs/, proofs/ and clauses in snake case, without a dash. `emitCell` is `emit_cell`,
`then-done` is `then_done`. Names of src/, of the kit and of what the kit generates stay.

usage: python3 tools/respell.py [ROOT]     rewrites crates/, edits/ and what the pages name in place
       python3 tools/respell.py --falls [ROOT]     lists names that fall together in a file, and writes nothing

It goes by text. A name is the kit's where the file brings it in from the kit; a name behind a dot is
ours where one of our files declares it; in a function's own proof files the names behind `goal.` and
`given.`, and paths from `c`, are generated.
"""

import collections
import os
import re
import sys

NAME = re.compile(r"(?<![\w'])[^\W\d][\w']*(?:-[\w']+)*")
CAMEL = re.compile(r"(?<=[a-z0-9'])([A-Z]+)")
DECLARED = re.compile(r"^[ \t]*(?:abbrev )?(?:unfoldable )?(?:pub )?([^\W\d][\w'-]*)(?: \{[^}\n]*\})* :(?= |$)", re.M)
USE = re.compile(r"(?:ghost )?use ([\w.'+-]+)\.\{([^}]*)\}")
MADE = re.compile(
    r"^(?:loop|returns|invariant|decreases|in|then|else|before|after|overflow_\w+|slice_bounds|array_bounds|offset_bounds|div_zero|shift_\w+|cast_\w+)-"
    r"|-(?:r|[0-9]+|requires|init|preserved|smaller)$"
)
# A lemma that would have its function's name gets `_lem`.
LEMMAS = """
    asserted-once balanced-address-mux bank-reset bank-slot bit-once bit-xor bits-from clock-enabled control-if
    dram-select dram-words enable-fits enable-from expr-fits expr-width expr-widths first-not form-of gate-of
    in-range insert-bits insert-wires lowest-on-loop marks-by needs-by no-wires optional-control optional-reset
    port-bits read-address read-enabled reserve-absent reserve-cells reserve-netlist reserve-port reserve-ports
    reserve-scalar reserve-scalars reserve-vector reset-bit reset-bits reset-fits reset-if reset-value second-exprs
    second-if signal-fits signal-widths signals-in stmt-fits tick-bits to-copy values-at vector-once vector-parts
    write-address write-asserted write-data
""".split()
OTHERS = {name: name.replace("-", "_") + "_lem" for name in LEMMAS}
# A type's name is in camel case, what begins with a variable's name is in lower case.
OTHERS |= {"Sorting-on": "SortingOn", "Going-on": "going_on"}
OTHERS |= {"A-word": "a_word", "A-long": "a_long", "F-signals": "f_signals", "F-exprs": "f_exprs", "F-reads": "f_reads"}
# In these files alone: a type that is a variable elsewhere, and two lemmas that were in snake case already.
BESIDE = {
    ("there-is", "ThereIs"): ("evaluation/proofs/Late.antt",),
    ("split_by", "split_by_lem"): ("recorder/proofs/Reading.antt",),
    ("write_word", "write_word_lem"): ("memories/proofs/RamLaws.antt", "memories/proofs/ram_words/write_word/"),
}


def snake(name):
    if name in OTHERS:
        return OTHERS[name]
    parts = []
    for part in name.split("-"):
        if part[:1].islower():
            part = CAMEL.sub(lambda m: "_" + m[1].lower(), part)
        parts.append(part)
    return "_".join(parts)


def old(name):
    return snake(name) != name


def beside(path, code, name):
    """What a name is in this file alone."""
    for (was, now), paths in BESIDE.items():
        if name == was and any(p in path for p in paths) and now not in code:
            return now
    return None


def files(root, *tops):
    for top in tops:
        for folder, dirs, names in os.walk(os.path.join(root, top)):
            dirs[:] = sorted(d for d in dirs if d not in ("out", "target", ".git"))
            for name in sorted(names):
                yield os.path.join(folder, name)


def read(path):
    with open(path, encoding="utf-8") as f:
        return f.read()


def blanked(text, comment):
    """The text with strings and comments blanked, of the same length."""
    rule = re.compile(r'"(?:\\.|[^"\\\n])*"|' + comment, re.M)
    return rule.sub(lambda m: re.sub(r"[^\n]", " ", m[0]), text)


def of_function(path):
    """A function's own proof file."""
    return os.path.basename(path) in ("Answers.antt", "Invariants.antt", "Proof.antt") and os.path.basename(os.path.dirname(path)) not in ("proofs", "specs")


def comment_of(path):
    return r"(?:(?<=\s)|^)--(?=\s|$).*" if path.endswith(".antt") else r"//.*"


def ours(path, crates):
    parts = path.split(".")
    return parts[0] == "Rattle" and len(parts) > 1 and parts[1] in crates


class Tree:
    def __init__(self, root):
        self.root = root
        self.crates = set(os.listdir(os.path.join(root, "crates")))
        self.declared = set()
        self.code = {}
        for path in files(root, "crates"):
            if path.endswith((".antt", ".rt")):
                code = blanked(read(path), comment_of(path))
                self.code[path] = code
                if path.endswith(".antt"):
                    made = self.made(path, code)
                    self.declared |= {m[1] for m in DECLARED.finditer(code) if m[1] not in made}
                else:
                    self.declared |= set(re.findall(r"\bghost ([\w'-]+):", code))

    def made(self, path, code):
        """Names that the kit generates, in a function's own proof files."""
        if not of_function(path):
            return set()
        return set(re.findall(r"\b(?:goal|given|goals|Goals|Given)\.([\w'-]+)", code))

    def names(self, path, code):
        """Of each place in the text of a file: the old name there that is to be respelled."""
        own_proof = of_function(path)
        made = self.made(path, code)
        theirs, mine, spans = set(), set(), []
        for m in USE.finditer(code):
            spans.append((m.start(), m.start(2), m.end(2), ours(m[1], self.crates) and not m[1].endswith((".Goals", ".Given"))))
            # `crate.` and a sibling's items are functions and types of src/
            (mine if spans[-1][3] else theirs).update(n.split(".")[0] for n in re.split(r"[,\s]+", m[2]) if n)
        if path.endswith(".rt"):
            theirs = {n for n in theirs if "-" in n} | (theirs - self.declared)
        theirs -= mine
        for m in NAME.finditer(code):
            name = m[0]
            if not old(name) and (code[m.start() - 1 : m.start()] == "." or not beside(path, code, name)):
                continue
            inside = next((s for s in spans if s[0] <= m.start() < s[2]), None)
            if inside:
                if inside[3] and inside[1] <= m.start() and (code[m.start() - 1] != "." or name in self.declared):
                    yield m
                continue
            if code[m.start() - 1 : m.start()] == ".":
                root = re.search(r"[\w'.-]*$", code[max(0, m.start() - 200) : m.start()])[0].split(".")
                if name in self.declared and not (own_proof and (name in made or root[0] in ("goal", "given", "goals") or (root[0] == "c" and len(root) == 2) or MADE.search(name))):
                    yield m
                continue
            if name in theirs or (own_proof and name in made):
                continue
            # a case that the kit names after the branches that lead to it
            if "+" in (code[m.start() - 1 : m.start()], code[m.end() : m.end() + 1]):
                continue
            if path.endswith(".rt") and name not in self.declared and "-" in name:
                continue
            yield m


def turned(path, text, places):
    out, at = [], 0
    for m in places:
        out += [text[at : m.start()], beside(path, text, m[0]) or snake(m[0])]
        at = m.end()
    return "".join(out) + text[at:]


def comments(tree, path, text):
    """Comments and pages name camel names as they are, and dashed ones between backticks."""

    def word(m):
        return snake(m[0]) if m[0] in tree.declared and "-" not in m[0] else m[0]

    def quoted(m):
        return NAME.sub(lambda n: snake(n[0]) if n[0] in tree.declared else n[0], m[0])

    def line(t):
        return NAME.sub(word, re.sub(r"`[^`\n]+`", quoted, t))

    if path.endswith((".rt", ".antt")):
        return re.sub(r"((?:(?<=\s)|^)--(?=\s|$)|//)(.*)", lambda m: m[1] + line(m[2]), text, flags=re.M)
    return line(text)


def edit(tree, path, text):
    """The lines of a must-fail edit, each as a line of the file that it changes."""
    crate = path.split(os.sep)
    crate = crate[crate.index("must-fail") - 1] if "must-fail" in crate else crate[crate.index("edits") + 1]
    out, target = [], None
    for line in text.split("\n"):
        m = re.match(r"(file|old|new): ?(.*)", line)
        if m and m[1] == "file":
            target = next(p for p in (os.path.join(tree.root, "crates", crate, m[2]), os.path.join(tree.root, m[2])) if os.path.exists(p))
        elif m and target:
            head = "".join(u[0] + "\n" for u in USE.finditer(tree.code[target]))
            code = head + blanked(m[2], comment_of(target))
            places = [p for p in tree.names(target, code) if p.start() >= len(head)]
            line = m[1] + ": " + turned(target, head + m[2], places)[len(head) :]
        out.append(line)
    return "\n".join(out)


def main():
    args = [a for a in sys.argv[1:] if not a.startswith("--")]
    root = args[0] if args else "."
    tree = Tree(root)
    if "--falls" in sys.argv:
        for path, code in tree.code.items():
            now = collections.defaultdict(set)
            places = {m.start() for m in tree.names(path, code)}
            for m in NAME.finditer(code):
                if m.start() in places:
                    now[beside(path, code, m[0]) or snake(m[0])].add(m[0])
                elif code[m.start() - 1 : m.start()] != "." and not re.search(r"\b(?:fn|mod|::) $", code[max(0, m.start() - 9) : m.start()]) and not re.search(r"use [\w.'+-]*$", code[max(0, m.start() - 200) : m.start()]):
                    now[m[0]].add(m[0])
            for name, olds in sorted(now.items()):
                if len(olds) > 1:
                    print(os.path.relpath(path, root), name, *sorted(olds))
        return
    edits = [p for p in files(root, "crates", "edits") if p.endswith(".edit")]
    changed = {p: turned(p, read(p), tree.names(p, c)) for p, c in tree.code.items()}
    changed.update({p: edit(tree, p, read(p)) for p in edits})
    for path, text in changed.items():
        text = comments(tree, path, text) if not path.endswith(".edit") else text
        if text != read(path):
            with open(path, "w", encoding="utf-8") as f:
                f.write(text)
    for path in list(files(root, "docs")) + [os.path.join(root, "README.md")] + [p for p in files(root, "crates", "oracle", "bench", "bindings", "tools", "examples", "edits") if p.endswith(".md")]:
        if path.endswith(".md") and "docs/src" not in path:
            text = comments(tree, path, read(path))
            if text != read(path):
                with open(path, "w", encoding="utf-8") as f:
                    f.write(text)


if __name__ == "__main__":
    main()
