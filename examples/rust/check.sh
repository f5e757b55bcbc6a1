#!/bin/sh
# Builds the example in Rust and holds what it prints to what it should.
set -eu
cd "$(dirname "$0")/../.."
./build.sh
unset BELLPULSAR_LIB_DIR
export CARGO_TARGET_DIR=build/cargo
RUSTFLAGS="-D warnings" cargo build --quiet --offline --release --manifest-path examples/rust/Cargo.toml
sh examples/expected.sh "build/cargo/release/example "
echo "examples: each in Rust prints what it should"
