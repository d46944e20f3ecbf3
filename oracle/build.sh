#!/bin/sh
# Builds the oracle; needs the program patch. The feature gate for u32::bit_width is opened in
# .cargo/config.toml, which cargo finds from this directory only; an outer
# RUSTFLAGS would replace it.
set -eu
cd "$(dirname "$0")"
unset RUSTFLAGS CARGO_ENCODED_RUSTFLAGS
exec cargo build --release --offline -j1 "$@"
