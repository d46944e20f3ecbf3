#!/usr/bin/env python3
"""How many must-fail edits (crates/*/must-fail, edits/*) aim at each function that another crate can call.

  tools/edits_cover.py          prints each function with fewer than two and the edits that it has; nothing, and status 0, when all have two
  tools/edits_cover.py --all    prints every callable function with its edits

Callable: a `pub fn` of a module that public modules lead to, or, wherever it stands, of an `impl` of a type that such a module declares; and what
such a type has of a trait, where the `impl` or a trait of this repository promises something of it.

An edit aims at a function if a line that it changes stands in the function, in its contract, in what its `impl` of a trait promises, in a function
or constant of the same crate that is not callable and that it leads to, or in a definition of specs/, of any crate, that its contract names. A call
leads to what has its name: by `Kind::from(` to a function of `Kind`, by `x.from(` to a method, by `from(` to a function of no type.
"""
import collections, pathlib, re, sys

root = pathlib.Path(__file__).resolve().parent.parent
DECLARES = re.compile(r'(\s*)(?:abbrev |unfoldable )?(?:pub )?(?:abbrev |unfoldable )?(?:record |data )?([^\s:(){}]*)')
WORD = re.compile(r"[^\s(){}\[\];,.«»⌜⌝|&*+\-]+")
IMPL = re.compile(r'(?m)^impl(?:<[^>]*>)? (?:([\w:]+)(?:<[^>]*>)? for )?(?:\w+::)*(\w+)[^{]*\{')
TRAIT = re.compile(r'(?m)^(?:pub )?(trait) (\w+)[^{]*\{')
TYPE = re.compile(r'(?m)^(pub )?(?:struct|enum) (\w+)')
FUNCTION = re.compile(r'(?m)^[ ]*(pub )?(?:pub\(\w+\) )?(?:extern "C" )?fn (\w+)\s*(?:<[^>]*>)?\(')
CONSTANT = re.compile(r'(?m)^[ ]*(?:pub )?(?:const|static) (\w+): ')
PROMISE = re.compile(r'(?m)^ *ghost \w+ = [^;]*;')


def closing(text, at):
    """The index behind the bracket that closes the one at an index."""
    depth = 0
    for i in range(at, len(text)):
        depth += {'(': 1, '{': 1, ')': -1, '}': -1}.get(text[i], 0)
        if depth == 0:
            return i + 1


def source_files(file, path, public):
    """The files of a crate: their modules' paths, and whether public modules lead there."""
    yield file, path, public
    folder = file.parent if file.name == 'lib.rt' else file.parent / file.stem
    for pub, name in re.findall(r'(?m)^(pub )?mod (\w+);', file.read_text()):
        yield from source_files(folder / f'{name}.rt', f'{path}::{name}', public and bool(pub))


class Item:
    """A function, or a constant, with the type that it is of and the trait."""

    def __init__(self, file, path, trait, owner, name):
        self.file, self.path, self.trait, self.owner, self.name = file, path, trait, owner, name
        self.lines, self.cited, self.calls, self.constants = set(), set(), set(), set()
        self.public = self.constant = self.promises = self.callable = False

    def __str__(self):
        owner = f'<{self.owner} as {self.trait}>::' if self.trait else f'{self.owner}::' if self.owner else ''
        return f'{self.path}::{owner}{self.name}'


def line_numbers(text, start, end):
    return set(range(text.count('\n', 0, start) + 1, text.count('\n', 0, end) + 2))


def calls_in(body):
    """The calls of a body: whose (a type's or module's name, 'self', 'a value' or none), and the name."""
    for m in re.finditer(r'(\b\w+(?:::<[^>]*>)?::|\bself\.|\.)?\b(\w+)(?:::<[^>]*>)?\(', body):
        before = m[1] or ''
        whose = 'self' if before == 'self.' else 'a value' if before == '.' else re.match(r'\w*', before)[0]
        yield whose, m[2]


def items(file, path):
    """The functions and constants of a file."""
    text = re.sub(r'(?m)//.*$', '', file.read_text())
    imports = {}
    for module, names in re.findall(r'ghost use ([^;{]+)\.\{([^}]*)\};', text):
        crate = re.match(r'Rattle\.(\w+)\.specs', module)
        if crate:
            spec = root / 'crates' / crate[1] / 'specs' / (module.split('specs.')[-1].replace('.', '/') + '.antt')
            for one in names.split(','):
                name, _, alias = one.strip().partition(' as ')
                imports[alias or name] = (spec, name.split('.')[0])
    cited = lambda said: {imports[w] for w in WORD.findall(said) if w in imports}
    owners = [(m.start(), closing(text, m.end() - 1), m[1], m[2]) for m in (*IMPL.finditer(text), *TRAIT.finditer(text))]

    def item(name, at):
        for start, end, trait, owner in owners:
            if start <= at < end:
                found = Item(file, path, trait and trait.split('::')[-1], owner, name)
                for m in PROMISE.finditer(text, start, end) if trait and trait != 'trait' else ():
                    found.promises = True
                    found.lines |= line_numbers(text, m.start(), m.end())
                    found.cited |= cited(m[0])
                return found
        return Item(file, path, None, None, name)

    for m in FUNCTION.finditer(text):
        at = closing(text, m.end() - 1)
        at += re.match(r'\s*(->[^{]*?)?(?=\s*(?:requires|ensures|\{|;\n))', text[at:]).end()
        clauses = at
        while clause := re.match(r'\s*(?:requires|ensures)\b[^{]*', text[at:]):
            at = closing(text, at + clause.end())
        f = item(m[2], m.start())
        f.public = bool(m[1])
        body = text[at:].lstrip()
        end = closing(text, text.index('{', at)) if body.startswith('{') else at
        f.lines |= line_numbers(text, m.start(), end)
        f.cited |= cited(text[clauses:at])
        f.promises |= bool(re.search(r'\bensures\b', text[clauses:at]))
        f.calls = set(calls_in(text[at:end]))
        f.constants = set(re.findall(r'(?:\b(\w+)::)?\b([A-Z][A-Z0-9_]*)\b', text[at:end]))
        yield f
    for m in CONSTANT.finditer(text):
        end, depth = m.end(), 0
        while text[end] != ';' or depth:
            depth += {'[': 1, '(': 1, '{': 1, ']': -1, ')': -1, '}': -1}.get(text[end], 0)
            end += 1
        c = item(m[1], m.start())
        c.constant = True
        c.lines = line_numbers(text, m.start(), end)
        c.calls = set(calls_in(text[m.end():end]))
        c.constants = set(re.findall(r'(?:\b(\w+)::)?\b([A-Z][A-Z0-9_]*)\b', text[m.end():end]))
        yield c


def crate_of(lib):
    """The functions and constants of a crate, and of the functions whether another crate can call them."""
    found, types, traits = [], {}, {}
    files = list(source_files(lib, lib.parts[-3], True))
    reachable = {file: public for file, path, public in files}
    for file, path, public in files:
        for pub, name in TYPE.findall(file.read_text()):
            types[name] = types.get(name, False) or public and bool(pub)
    for file, path, public in files:
        found += items(file, path)
    for f in found:
        if f.trait == 'trait':
            traits[f.owner, f.name] = f
    for f in found:
        if f.constant or f.trait == 'trait':
            continue
        if f.trait:
            if law := traits.get((f.trait, f.name)):
                f.promises |= law.promises
            f.callable = f.promises and types.get(f.owner, True)
        elif f.owner:
            f.callable = f.public and types.get(f.owner, False)
        else:
            f.callable = f.public and reachable[f.file]
    return found


def led_to(f, found):
    """What is not callable and what a function or constant of a crate leads to by a call or a name."""
    for whose, name in f.calls:
        named = [h for h in found if h.name == name and not h.constant and h.trait != 'trait']
        if whose in ('self', 'a value'):
            named = [h for h in named if h.owner]
            if whose == 'self':
                named = [h for h in named if h.owner == f.owner] or named
        elif whose == 'Self':
            named = [h for h in named if h.owner == f.owner]
        elif whose:
            named = [h for h in named if h.owner == whose or not h.owner and (h.path.split('::')[-1] == whose or whose in ('self', 'super', 'crate'))]
        else:
            named = [h for h in named if not h.owner]
        named = [h for h in named if not h.callable]
        yield from [h for h in named if h.file == f.file] or named
    for whose, name in f.constants:
        named = [h for h in found if h.name == name and h.constant and h.owner == ((f.owner if whose == 'Self' else whose) or None)]
        yield from [h for h in named if h.file == f.file] or named


def definitions(file):
    """For each line of a file of specs/, counted from 1, the names whose paragraph it stands in."""
    names, section, inside, lines = set(), False, False, [()]
    for line in file.read_text().split('\n'):
        if not line.strip():
            inside = False
        elif line.startswith('module '):
            section = True
        elif not line.lstrip().startswith(('--', 'unfolding ')):
            m = DECLARES.match(line)
            outer = not m[1] or (section and len(m[1]) == 2)
            section = section and bool(m[1])
            if outer and not inside:
                names = set()
            if outer:
                names.add(m[2])
            inside = True
        lines.append(names)
    return lines


def edits():
    """Each edit's name, and the lines that it changes."""
    for edit in sorted([*root.glob('crates/*/must-fail/*.edit'), *root.glob('edits/*/*.edit')]):
        crate = edit.parts[len(root.parts) + 1]
        file, changed = None, []
        for line in edit.read_text().split('\n'):
            key, _, text = line.partition(': ')
            if key == 'file':
                file = root / 'crates' / crate / text
            elif key == 'old' and file.exists() and text in (whole := file.read_text()):
                changed.append((file, whole.count('\n', 0, whole.index(text) + len(text) - len(text.lstrip())) + 1))
        yield f'{crate}/{edit.stem}', changed


by_line, by_definition, known = collections.defaultdict(set), collections.defaultdict(set), {}
for edit, changed in edits():
    for file, line in changed:
        by_line[file, line].add(edit)
        if file.parent.name == 'specs':
            for name in known.setdefault(file, definitions(file))[line]:
                by_definition[file, name].add(edit)

short = 0
for lib in sorted(root.glob('crates/*/src/lib.rt')):
    found = crate_of(lib)
    for f in found:
        if not f.callable:
            continue
        reached, left = {f}, [f]
        while left:
            g = left.pop()
            for h in led_to(g, found):
                if h not in reached:
                    reached.add(h)
                    left.append(h)
        aimed = set().union(*(by_line[g.file, n] for g in reached for n in g.lines), *(by_definition[d] for d in f.cited))
        short += len(aimed) < 2
        if len(aimed) < 2 or '--all' in sys.argv:
            print(f'{f}: {len(aimed)}' + ''.join(f' {e}' for e in sorted(aimed)))
sys.exit(short > 0)
