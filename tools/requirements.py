#!/usr/bin/env python3
"""Whether what docs/REQUIREMENTS.md, ARCHITECTURE.md and DECISIONS.md name is there: files of specs and proofs with the names behind them, functions, must-fail edits.

  crate/File `name`, `name`      a line of crates/crate/specs/File.antt (or crate/proofs/File: proofs/File.antt) begins with the name
  crate::module::Type::f         crates/crate/src has it there, module by module: the function, type or constant; crate::{f, g} likewise
  must-fail x, y (crate)         crates/crate/must-fail/x.edit, or of any crate if none is named
  edits/crate: x, y              edits/crate/x.edit; edits: x, y (crate) likewise
Prints what is missing.
"""
import pathlib, re, sys

root = pathlib.Path(__file__).resolve().parent.parent
crates = {p.name for p in (root / 'crates').iterdir() if p.is_dir()}
missing = 0


def say(where, what):
    global missing
    missing += 1
    print(f'{where}: {what}')


def defined(file, name):
    return re.search(rf'(?m)^\s*(?:(?:abbrev|unfoldable|pub|record|data) )*{re.escape(name)}(?=[\s({{:.])', file.read_text())


def check_line(where, line):
    for m in re.finditer(r'(?<![\w./])([a-z_]+)/(?:(specs|proofs)/)?([A-Z]\w*)((?:,? (?:\(?and )?`[^`]+`)*)', line):
        crate, part, name, rest = m.groups()
        if crate not in crates:
            if rest:
                say(where, f'no crate {crate}')
            continue
        file = root / 'crates' / crate / (part or 'specs') / f'{name}.antt'
        if not file.exists():
            say(where, f'no file {file.relative_to(root)}')
            continue
        for wanted in re.findall(r'`([^`]+)`', rest):
            for word in wanted.split():
                word = word.lstrip('.')
                if not defined(file, word):
                    say(where, f'{crate}/{name} has no {word}')
    for m in re.finditer(r'(?<![\w:])([a-z_]+)::((?:\w+::)*)(?:\{([^}]*)\}|(\w+))', line):
        crate, between, several, one = m.groups()
        if crate not in crates:
            if crate not in ('std', 'io', 'os', 'libc', 'check', 'u32'):
                say(where, f'no crate {crate}')
            continue
        for wanted in [w.strip() for w in (several or one).split(',')]:
            if not stands(crate, between.split('::')[:-1], wanted):
                say(where, f'{crate} has no {between}{wanted}')
    for m in re.finditer(r'(must-fail|edits(?:/(\w+))?:) ((?:\w+(?: \([^)]*\))?(?:, )?)+)', line):
        gate, folder = m[1] == 'must-fail', m[2]
        for wanted, of in re.findall(r'(\w*_\w*)(?: \(([^)]*)\))?', m[3]):
            for crate in re.findall(r'\w+', of) or [folder or '*']:
                if not list(root.glob(f'crates/{crate}/must-fail/{wanted}.edit' if gate else f'edits/{crate}/{wanted}.edit')):
                    say(where, f'no edit {wanted}' + ('' if crate == '*' else f' of {crate}') + (' in the gate' if gate else ''))


def body(text, at):
    """What stands between the braces that open behind an index."""
    depth, start = 0, text.index('{', at)
    for i in range(start, len(text)):
        depth += {'{': 1, '}': -1}.get(text[i], 0)
        if depth == 0:
            return text[start:i]


def stands(crate, path, wanted):
    """Whether a crate has, at a path of modules and then maybe a type, a module, a type, a constant or a function of the name."""
    source = root / 'crates' / crate / 'src'
    file, folder = next((f for f in (source / 'lib.rt', source / 'main.rt') if f.exists()), None), source
    while path and path[0][0].islower():
        file, folder = folder / f'{path[0]}.rt', folder / path[0]
        path = path[1:]
    if file is None or not file.exists():
        return False
    if not path:
        return bool(re.search(rf'(?m)^(?:pub )?(?:extern "C" )?(?:fn|struct|enum|trait|const|mod) {re.escape(wanted)}\b', file.read_text()))
    # a type stands in the file; its functions may stand in any of the crate's
    if not re.search(rf'(?m)^pub (?:struct|enum|trait) {path[0]}\b', file.read_text()):
        return False
    texts = [f.read_text() for f in source.rglob('*.rt')]
    return any(re.search(rf'\b(?:fn|const) {re.escape(wanted)}\b', body(t, m.start())) for t in texts for m in re.finditer(rf'(?m)^(?:impl|pub trait)\b[^{{]*\b{path[0]}\b[^{{]*', t))


for document in ('REQUIREMENTS', 'ARCHITECTURE', 'DECISIONS'):
    for at, line in enumerate((root / 'docs' / f'{document}.md').read_text().split('\n'), 1):
        check_line(f'docs/{document}.md:{at}', line)
sys.exit(missing > 0)
