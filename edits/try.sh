#!/bin/sh
# Tries further must-fail edits of the named crates, those under edits/, in a copy: the gate tries only crates/*/must-fail.
#   edits/try.sh CRATE ..       (builds on what the crates' out/ keeps, so run tools/build.sh CRATE first)
set -e
cd "$(dirname "$0")/.."
for c in "$@"; do
    copy=$(mktemp -d)
    cp -r crates crates.txt "$copy/"
    rm -rf "$copy"/crates/*/must-fail
    cp -r "edits/$c" "$copy/crates/$c/must-fail"
    (cd "$copy" && rt must-fail "$c")
    rm -rf "$copy"
done
