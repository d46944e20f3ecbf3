#!/usr/bin/env python3
"""What the design pass changed, old and new side by side: public functions with their clauses, what implementations of traits promise, public
types with their invariants, the public definitions, records and theorems of specs/, and the public laws of proofs/ that the documents name.
Reads the first commit of docs/DESIGN-PASS.md and the work tree.

    tools/design_changes.py            the list, as it stands behind docs/DESIGN-PASS.md
    tools/design_changes.py --brief    the same, but of what changed by the names of options alone only the names
    tools/design_changes.py --open     what is neither found again nor named in tools/design_names.txt

A line of tools/design_names.txt: `old -> new`, or `old: what states its promise now`. Names are as printed; where two items of a crate have one
name, a kind stands before it (`function`, `struct`, `enum`, `definition`, `law`). A line that names nothing of the old text, or leads to nothing of
the new one, is printed by --open as well."""
import io, pathlib, re, subprocess, sys, tarfile

root = pathlib.Path(__file__).resolve().parent.parent
begin = (root / 'docs/DESIGN-PASS.md').read_text().split()[0]

def git(*args):
    return subprocess.run(['git', '-C', str(root), *args], capture_output=True, text=True, check=True).stdout

def tree(commit):
    if commit is None:
        return {str(p.relative_to(root)): p.read_text() for part in ('src/**/*.rt', 'specs/**/*.antt', 'proofs/*.antt') for p in root.glob('crates/*/' + part)}
    found = {}
    with tarfile.open(fileobj=io.BytesIO(subprocess.run(['git', '-C', str(root), 'archive', commit, 'crates'], capture_output=True, check=True).stdout)) as tar:
        for n in tar.getnames():
            if re.match(r'crates/[^/]+/(src/.*\.rt|specs/.*\.antt|proofs/[^/]+\.antt)$', n):
                found[n] = tar.extractfile(n).read().decode()
    return found

# the laws that the documents, old and new, name behind their file: crate, file, names
def documented():
    named = lambda p: p == 'README.md' or re.match(r'docs/[^/]+\.md$', p) and p not in ('docs/PORT.md', 'docs/DESIGN-PASS.md')
    texts = [p.read_text() for p in [root / 'README.md', *root.glob('docs/*.md')] if named(str(p.relative_to(root)))]
    texts += [git('show', f'{begin}:{n}') for n in git('ls-tree', '-r', '--name-only', begin, 'README.md', 'docs').split('\n') if named(n)]
    return {(crate, file, n) for text in texts for crate, file, behind in re.findall(r'\b(\w+)/proofs/(\w+)([^.|;\n]*)', text) for n in re.findall(r'`([^`]+)`', behind)}

def one(text):
    text = re.sub(r'(?m)\s*(--|//)(?! *$)[^\n]*$', '', text)
    return re.sub(r'\s+', ' ', text).strip().replace('( ', '(').replace(',)', ')').replace(', )', ')')

# the lines of an item from line i on, up to the one that ends it, and the index behind them
def up_to(lines, i, ends):
    body = []
    while True:
        body.append(lines[i])
        i += 1
        if i == len(lines) or ends(body[-1]):
            return body, i

def items_of_code(crate, lines, found):
    owner, trait, i = '', False, 0
    while i < len(lines):
        line = lines[i]
        m = re.match(r'impl(?:<[^>]*>)? (?:(.*) for )?([A-Za-z:]+)', line)
        if m:
            trait = bool(m.group(1))
            owner = f'<{m.group(2)} as {m.group(1)}>::' if trait else m.group(2) + '::'
        elif line.startswith('}'):
            owner, trait = '', False
        f = re.match(r' *pub (?:const |unsafe |extern "C" )*fn (\w+)', line) or trait and re.match(r' *fn (\w+)', line)
        g = trait and re.match(r' +(?:pub )?ghost (\w+) = ', line)
        t = re.match(r'pub (?:ghost )?(struct|enum|trait|type) (\w+)', line)
        c = re.match(r' *pub const (\w+):', line)
        if f:
            body, i = up_to(lines, i, lambda l: l.strip() == '{' or l.rstrip().endswith(' {') and not re.match(r'\s*(ensures|requires)', l))
            found[('function', crate, owner + f.group(1))] = one('\n'.join(body)).rstrip('{ ')
        elif g:
            body, i = up_to(lines, i, lambda l: l.rstrip().endswith('};'))
            found[('function', crate, owner + g.group(1))] = one('\n'.join(body))
        elif t:
            body, i = up_to(lines, i, lambda l: l.startswith('}') or l.rstrip().endswith(';') and not l.startswith(' ') or l.rstrip().endswith('{}'))
            found[(t.group(1), crate, owner + t.group(2))] = one('\n'.join(body))
        elif c:
            body, i = up_to(lines, i, lambda l: l.rstrip().endswith(';'))
            found[('const', crate, owner + c.group(1))] = one('\n'.join(body))
        else:
            i += 1

def items_of_text(kind, crate, module, lines, found, wanted):
    i, given = 0, []
    while i < len(lines):
        # what a module is given, its items have as well
        at = len(lines[i]) - len(lines[i].lstrip())
        if lines[i].strip() and not lines[i].lstrip().startswith('--'):
            given = [g for g in given if g[0] < at]
        if re.match(r'\s*module .* where$', lines[i]):
            given.append((at, lines[i].strip()[:-6]))
        m = re.match(r'(\s*)(?:abbrev |unfoldable |opaque |instance )*pub (?:record |data |abbrev |unfoldable )*([^\s({:]+)', lines[i])
        if not m or m.group(2) in ('mod', 'use'):
            i += 1
            continue
        name, indent, body = m.group(2), len(m.group(1)), [lines[i]]
        i += 1
        # a comment within a record stands further in than the record
        while i < len(lines) and lines[i].strip() and not (lines[i].lstrip().startswith('--') and len(lines[i]) - len(lines[i].lstrip()) <= indent):
            body.append(lines[i])
            i += 1
        if kind == 'law':
            if name not in wanted:
                continue
            # its statement, without its proof
            proof = [k for k, l in enumerate(body) if k and re.match(r'(unfolding|' + re.escape(name) + r')(\s|$)', l.strip())]
            body = body[:proof[0]] if proof else body
        found[(kind, crate, module + '.' + name)] = one(' '.join(g[1] for g in given) + ' ' + '\n'.join(body))

def items(files):
    found = {}
    for path, text in sorted(files.items()):
        crate, part, rest = path.split('/', 3)[1:]
        lines = text.split('\n')
        if path.endswith('.rt'):
            items_of_code(crate, lines, found)
        else:
            module = rest[:-5].replace('/', '.')
            items_of_text('definition' if part == 'specs' else 'law', crate, module, lines, found, {n for c, m, n in laws if (c, m) == (crate, module)})
    return found

names, gone_as = {}, {}
listed = root / 'tools/design_names.txt'
for line in listed.read_text().split('\n') if listed.exists() else []:
    if line.startswith('#'):
        continue
    if ' -> ' in line:
        a, b = line.split(' -> ')
        names[a.strip()] = b.strip()
    elif ': ' in line:
        a, b = line.split(': ', 1)
        gone_as[a.strip()] = b.strip()

laws = documented()
old, new = items(tree(begin)), items(tree(None))
key = lambda k: f'{k[1]} {k[2]}'
last = lambda k: k[2].split('::')[-1].split('.')[-1]
by_name, by_key = {}, {}
for k in new:
    by_name.setdefault((k[0], k[1], last(k)), []).append(k)
    by_key.setdefault(key(k), k)
    by_key[f'{k[0]} {key(k)}'] = k
pairs, open_, moved, used, lost = [], [], [], set(), []
for k, text in sorted(old.items()):
    said = next((n for n in (f'{k[0]} {key(k)}', key(k)) if n in names or n in gone_as), None)
    if said:
        used.add(said)
    if said in gone_as:
        moved.append((k, text, gone_as[said]))
        continue
    if said:
        n = by_key.get(names[said])
        if n is None:
            lost.append(f'{said} -> {names[said]}')
    elif k in new:
        n = k
    else:
        same = by_name.get((k[0], k[1], last(k)), [])
        n = same[0] if len(same) == 1 else None
    if n is None:
        open_.append((k, text))
    elif new[n] != text or n != k:
        pairs.append((k, n, text, new[n]))
seen = {p[1] for p in pairs} | set(old)
fresh = [(k, t) for k, t in sorted(new.items()) if k not in seen]
if '--open' in sys.argv:
    for k, text in open_:
        print(k[0], key(k), '|', text[:160])
    idle = sorted((names.keys() | gone_as.keys()) - used)
    for said in idle:
        print('names nothing old:', said)
    for said in lost:
        print('leads to nothing new:', said)
    print(len(open_), 'open;', len(pairs), 'changed;', len(moved), 'stated elsewhere;', len(fresh), 'new;', len(old), 'before')
    sys.exit(bool(open_ or idle or lost))
titles = {'function': 'Public functions and their clauses', 'struct': 'Types', 'enum': 'Types', 'trait': 'Types', 'type': 'Types', 'const': 'Constants', 'definition': 'Definitions, records and theorems of specs/', 'law': 'Laws of proofs/ that documents name'}
# mathematics' options became std's: only their names
respelt = lambda text: re.sub(r'\bsome\b', 'Some', re.sub(r'\bnone\b', 'None', text))
alone = [p for p in pairs if p[0] == p[1] and respelt(p[2]) == p[3]]
for title in dict.fromkeys(titles.values()):
    print(f'\n### {title}\n\n```diff')
    for k, n, a, b in [p for p in pairs if titles[p[0][0]] == title and p not in alone]:
        print(f'@@ {key(k)}' + ('' if n == k else f' -> {key(n)}') + f'\n-{a}\n+{b}')
    for k, a, where in [p for p in moved if titles[p[0][0]] == title]:
        print(f'@@ {key(k)}\n-{a}\n+({where})')
    for k, b in [p for p in fresh if titles[p[0][0]] == title]:
        print(f'@@ new: {key(k)}\n+{b}')
    print('```')
print('\n### Changed by the names of options alone: `none`, `some` are `None`, `Some`\n\n```diff')
for k, n, a, b in alone:
    print(f'@@ {key(k)}' + ('' if '--brief' in sys.argv else f'\n-{a}\n+{b}'))
print('```')
