#!/usr/bin/env python3
"""Definitions, laws and functions that nothing uses.

  tools/unused.py [--keep CRATE].. [CRATE..]     prints FILE:LINE NAME of
    dead     what no contract, no proof of a function, no check and no document leads to
    private  a `pub fn` that no other file of code names

Uses are found by name and import, so that a local variable of the same name hides what is unused, never the other way round.
An import alone is no use. Definitions of specs/*Cases, *Checks and *Rows are checks and count as used; so does all that a kept crate has or imports.
"""
import pathlib, re, sys

root = pathlib.Path(__file__).resolve().parent.parent
word = re.compile(r'[^\s(){}\[\],;."«»⌜⌝λ@]+')
head = re.compile(r'^(\s*)((?:abbrev |unfoldable |opaque |pub )*)(record |data )?([^\s(){}:,.]+)(.*)$')
path = re.compile(r'Rattle\.(\w+?)\.((?:specs|proofs)\.[\w.+]+?)\.(?:\{([^}]*)\}|(\w[^\s.{}]*))')


def code(text):
    return '\n'.join(l.split('-- ')[0] if not l.lstrip().startswith('--') else '' for l in text.split('\n'))


class File:
    def __init__(self, crate, module, file):
        self.file, self.key = file, (crate, module)
        self.names, self.blocks, self.imports = {}, [], {}
        text = code(file.read_text())
        for m in path.finditer(text):
            for n in (m[3] or m[4]).split(','):
                n = n.split(' as ')
                self.imports[n[-1].strip()] = ((m[1], m[2]), n[0].strip())
        modules = []                                    # (indentation, words of its header)
        block = None
        for at, line in enumerate(text.split('\n')):
            if not line.strip():
                continue
            indent = len(line) - len(line.lstrip())
            while modules and indent <= modules[-1][0]:
                modules.pop()
                block = None
            if re.match(r'\s*module\b', line):
                modules.append((indent, set(word.findall(line))))
                block = None
                continue
            if re.match(r'\s*(pub )?(use|mod)\b', line):
                block = None
                continue
            depth = modules[-1][0] + 2 if modules else 0
            if modules and indent > depth and block is None:
                modules[-1][1].update(word.findall(line))   # a header of two lines
                continue
            h = head.match(line)
            if indent == depth and h and (h[3] or re.match(r'(\s+[^\s(){}:,.]+)*\s+:\s', h[5]) or h[2]):
                names = [h[4]] + ([] if h[3] else h[5].split(' : ')[0].split())
                block = {'at': at + 1, 'pub': 'pub' in h[2], 'names': names, 'uses': set(), 'kind': h[3]}
                self.blocks.append(block)
                for n in names:
                    self.names.setdefault(n, []).append(block)
            elif block and block['kind'] == 'data ' and (m := re.match(r'\s+((?:[^\s(){}:,.]+ )+): ', line)):
                for n in m[1].split():                  # constructors
                    self.names.setdefault(n, []).append(block)
            if block:
                block['uses'].update(word.findall(line))
                for _, w in modules:
                    block['uses'].update(w)


def antt(crate):
    for part in ('specs', 'proofs'):
        base = root / 'crates' / crate / part
        for f in sorted(base.rglob('*.antt')):
            yield File(crate, part + '.' + '.'.join(f.relative_to(base).with_suffix('').parts), f)


crates = sorted(p.name for p in (root / 'crates').iterdir())
files = {f.key: f for c in crates for f in antt(c)}
sources = {f: re.sub(r'//.*', '', f.read_text()) for f in sorted((root / 'crates').glob('*/src/**/*.rt'))}
docs = ' '.join(f.read_text() for f in [*root.glob('*.md'), *root.glob('docs/**/*.md')])
cited = set(word.findall(' '.join(re.findall(r'`([^`]*)`', docs))))
for f in [*root.glob('crates/*/must-fail/*.edit'), *root.glob('edits/*/*.edit')]:
    cited |= set(re.findall(r'(?m)^old: (\S+)', f.read_text()))   # what an edit aims at
wanted, keep = [], []
for a in sys.argv[1:]:
    if wanted and wanted[-1] == '--keep':
        wanted.pop()
        keep.append(a)
    else:
        wanted.append(a)
wanted = wanted or crates
seen, todo = set(), []


def use(key, name):
    f = files.get(key)
    if f is None:
        return
    if name not in f.names and name in f.imports:
        use(*f.imports[name])
    for b in f.names.get(name, []):
        if id(b) not in seen:
            seen.add(id(b))
            todo.append((f, b))


def names(f, words):
    for w in words:
        for n in (w, *[k for k in list(f.names) + list(f.imports) if '◌' in k and w in k.split('◌')]):
            if n in f.names:
                use(f.key, n)
            elif n in f.imports:
                use(*f.imports[n])


for f in files.values():
    if f.key[0] in keep:
        for key, name in f.imports.values():
            use(key, name)
    for b in f.blocks:
        proof = f.file.name in ('Proof.antt', 'Answers.antt', 'Invariants.antt')
        check = f.key[1].startswith('specs.') and re.search('(Cases|Checks|Rows)$', f.key[1])
        if proof or check or f.key[0] in keep or cited & set(b['names']):
            use(f.key, b['names'][0])
for f, text in sources.items():
    bare = set(word.findall(re.sub(r'(?m)^\s*ghost use .*$', '', text)))
    for m in path.finditer(text):
        for n in (m[3] or m[4]).split(','):
            n = n.split(' as ')
            if n[-1].strip().strip('◌') and (n[-1].strip() in bare or '◌' in n[-1]):
                use((m[1], m[2]), n[0].strip())
while todo:
    f, b = todo.pop()
    names(f, b['uses'])

for key, f in files.items():
    for b in f.blocks:
        if key[0] in wanted and id(b) not in seen:
            print(f'dead    {f.file.relative_to(root)}:{b["at"]} {" ".join(b["names"])}')
for f, text in sources.items():
    crate = f.relative_to(root).parts[1]
    if crate in wanted:
        for m in re.finditer(r'(#\[unsafe\(no_mangle\)\]\s*)?pub (?:extern "C" )?fn (\w+)', text):
            others = [g for g, t in sources.items() if g != f and re.search(rf'\b{m[2]}\b', t)]
            here = len(re.findall(rf'\b{m[2]}\b', text))
            if not m[1] and not others:
                print(f'{"private" if here > 1 else "dead   "} {f.relative_to(root)}:{text[:m.start()].count(chr(10)) + 1} {m[2]}')
