#!/bin/sh
# Times the proved run of a list of ticks beside Icarus Verilog, Verilator (bench/install.sh) and the model in Rust, and prints
# tables in Markdown. Sorts of netlists may be named: LUT4s logic carry RAM deep chain. Give it a machine with nothing else to do.
set -eu
cd "$(dirname "$0")/.."
tools/build.sh capi >&2
tools/build.sh simulate >&2
SIMULATE=$PWD/crates/simulate/out/simulate
export SIMULATE
cd oracle
unset RUSTFLAGS CARGO_ENCODED_RUSTFLAGS
cargo build --release --offline -j1 --manifest-path ../bench/simulate/Cargo.toml --target-dir target/bench
exec target/bench/release/bench-simulate "$PWD/target/bench/verilog" "$@"
