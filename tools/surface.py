#!/usr/bin/env python3
"""What another crate can call, and what its contract leaves open as far as the text shows it.

  tools/surface.py          prints each function with a `requires`, with no `ensures`, or with a lent `&mut` whose `.new` no `ensures` names,
                            unless one says that the result holds it (its `ghost_name`); nothing, and status 0, when all is closed
  tools/surface.py --all    prints every callable function, and behind a colon what is open

Callable: a `pub fn` of a library's root or of a module that `pub mod` leads to, and, wherever it stands, of an `impl` of a type that such a module
declares. Programs have none.
"""
import pathlib, re, sys

root = pathlib.Path(__file__).resolve().parent.parent


def modules(file, path, public=True):
    """The files of a crate with their paths, and whether public modules lead there."""
    yield file, path, public
    folder = file.parent if file.name == 'lib.rt' else file.parent / file.stem
    for pub, name in re.findall(r'(?m)^(pub )?mod (\w+);', file.read_text()):
        yield from modules(folder / f'{name}.rt', f'{path}::{name}', public and bool(pub))


def closing(text, at):
    """The index behind the bracket that closes the one at an index."""
    depth = 0
    for i in range(at, len(text)):
        depth += {'(': 1, '{': 1, ')': -1, '}': -1}.get(text[i], 0)
        if depth == 0:
            return i + 1


def functions(text):
    """Each public function's type, if it is of one, its name, parameters and clauses."""
    owners = [(m.start(), closing(text, m.end() - 1), m[1]) for m in re.finditer(r'(?m)^impl(?:<[^>]*>)? (\w+)[^{]*\{', text)]
    for m in re.finditer(r'(?m)^\s*pub (?:extern "C" )?fn (\w+)\s*(?:<[^>]*>)?\(', text):
        end = closing(text, m.end() - 1)
        parameters, clauses = text[m.end():end], []
        end += re.match(r'\s*(->[^{]*?)?(?=\s*(?:requires|ensures|\{))', text[end:]).end()
        while c := re.match(r'\s*(requires|ensures)\b[^{]*', text[end:]):
            start = end + c.end()
            end = closing(text, start)
            clauses.append((c[1], text[start:end]))
        owner = next((name for a, b, name in owners if a <= m.start() < b), None)
        yield owner, m[1], parameters, clauses


def leaves_open(parameters, clauses):
    ensured = ' '.join(text for kind, text in clauses if kind == 'ensures')
    if any(kind == 'requires' for kind, _ in clauses):
        yield 'requires'
    if not ensured:
        yield 'no ensures'
    for name in re.findall(r"(\w+):\s*&(?:'\w+ )?mut\b", parameters) + re.findall(r'&mut (self)\b', parameters):
        if not re.search(rf'«?\b{name}\b»?\.(new|entry\.ghost_name)\b', ensured):
            yield f'{name} at exit'


total = shown = 0
for lib in sorted(root.glob('crates/*/src/lib.rt')):
    crate = lib.parts[-3]
    files = list(modules(lib, crate))
    types = {name for file, _, public in files if public for name in re.findall(r'(?m)^pub (?:struct|enum) (\w+)', file.read_text())}
    for file, path, public in files:
        text = re.sub(r'(?m)//.*$', '', file.read_text())
        for owner, name, parameters, clauses in functions(text):
            if owner not in types if owner else not public:
                continue
            total += 1
            found = list(leaves_open(parameters, clauses))
            if found or '--all' in sys.argv:
                shown += bool(found)
                print(f'{path}::' + (f'{owner}::' if owner else '') + name + (': ' + ', '.join(found) if found else ''))
if '--all' in sys.argv:
    print(f'{total} functions, {shown} with something open')
sys.exit(shown > 0)
