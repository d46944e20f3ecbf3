#!/bin/sh
# Times the proved lowering beside the Rust's. Builds the static library with rt and the driver with cargo, from oracle/ for its
# cargo settings. Give it a machine with nothing else to do.
set -eu
cd "$(dirname "$0")/.."
tools/build.sh capi
cd oracle
unset RUSTFLAGS CARGO_ENCODED_RUSTFLAGS
cargo build --release --offline -j1 --manifest-path ../bench/lower/Cargo.toml --target-dir target/bench
exec target/bench/release/bench-lower
