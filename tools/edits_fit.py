#!/usr/bin/env python3
"""Whether each must-fail edit, of crates/*/must-fail and of edits/, still fits: its `old:` text, of one line, stands exactly once in the file it edits."""
import pathlib, re, sys

root = pathlib.Path(__file__).resolve().parent.parent
bad = 0
edits = sorted([*root.glob('crates/*/must-fail/*.edit'), *root.glob('edits/*/*.edit')])
for edit in edits:
    crate = edit.parts[len(root.parts) + 1]
    file, texts = None, {}
    for part in re.split(r'(?m)^(?=(?:file|old|new): )', edit.read_text()):
        key, _, text = part.partition(': ')
        text = text.rstrip('\n')
        if key in ('old', 'new') and '\n' in text:
            bad += 1
            print(f'{edit.relative_to(root)}: more than one line')
        if key == 'file':
            file = root / 'crates' / crate / text
        elif key == 'old':
            old = text
            now = texts.setdefault(file, file.read_text() if file.exists() else '')
            count = now.count(old)
            if count != 1:
                bad += 1
                print(f'{edit.relative_to(root)}: {count} times in {file.relative_to(root)}: {old}')
        elif key == 'new':
            texts[file] = texts[file].replace(old, text)
print(f'{len(edits)} edits, {bad} do not fit')
sys.exit(bad > 0)
