#!/usr/bin/env python3
"""The exported functions are declared in three languages: the C header and the Rust must say what crates/capi/src/lib.rt says."""
import pathlib
import re
import sys

ROOT = pathlib.Path(__file__).resolve().parent.parent
RATTLE = {"&[u32]": "const u32", "&[u8]": "const u8", "&mut [u32]": "mut u32", "&mut [u8]": "mut u8", "&mut [u64]": "mut u64"}


def functions(path, pattern, parameters):
    text = re.sub(r"//.*|/\*.*?\*/", "", (ROOT / path).read_text(), flags=re.S if path.endswith(".h") else 0)
    return {name: [pair for one in inner.split(",") if one.strip() for pair in parameters(" ".join(one.split()))] for name, inner in re.findall(pattern, text)}


def rattle(one):
    name, kind = one.split(": ")
    return [(name, kind)] if kind == "u32" else [(name, RATTLE[kind]), (name + "_len", "usize")]


def rust(one):
    name, kind = one.split(": ")
    return [(name, kind.removeprefix("*"))]


def c(one):
    kind, name = one.rsplit(" ", 1)
    kind = kind.replace("size_t", "usize").replace("uint", "u").replace("_t", "")
    if name.startswith("*"):
        kind = kind if kind.startswith("const") else "mut " + kind
    return [(name.removeprefix("*"), kind)]


expected = functions("crates/capi/src/lib.rt", r'extern "C" fn (\w+)\(([^)]*)\) -> usize', rattle)
assert len(expected) == 3, expected.keys()
wrong = 0
for path, pattern, parameters in [
    ("bindings/rust/src/calls.rs", r"fn (reamerpoppy_\w+)\(([^)]*)\) -> usize;", rust),
    ("bindings/c/reamerpoppy.h", r"size_t (reamerpoppy_\w+)\(([^)]*)\);", c),
]:
    found = functions(path, pattern, parameters)
    for name in expected.keys() | found.keys():
        if expected.get(name) != found.get(name):
            print(f"{path}: {name} is not as in crates/capi/src/lib.rt")
            wrong = 1
sys.exit(wrong)
