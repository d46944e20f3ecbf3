#!/bin/sh
# Builds the static library and tries it from other languages: declarations compared, the example in C, the safe Rust on small netlists
# and, beside the oracle, on random ones. From oracle/ for its cargo settings. One to two minutes.
set -eu
cd "$(dirname "$0")/.."
tools/build.sh capi
bindings/signatures.py
new=$(mktemp -d)
trap 'rm -rf "$new"' EXIT
cc -std=c11 -Wall -Wextra -Wpedantic -Werror -O1 -o "$new/example" bindings/c/example.c crates/capi/out/libcapi.a
"$new/example" | diff bindings/c/example.txt -
cd oracle
unset RUSTFLAGS CARGO_ENCODED_RUSTFLAGS
for crate in rust compare; do
    cargo test --release --offline -j1 --quiet --manifest-path "../bindings/$crate/Cargo.toml" --target-dir target/bindings
done
echo "C and Rust as the oracle"
