#!/bin/sh
# Builds and runs the example, in a clone or an unpacked release:
# run.sh point|carrier|places|collisions|slot|fusc|capture|plan|bursts ARGUMENTS
# The status is the example's, or 2 where it cannot be built.
set -eu
cd "$(dirname "$0")/../.."
if [ -e build.sh ]; then ./build.sh || exit 2; fi
export CARGO_TARGET_DIR=build/cargo
cargo build --quiet --offline --release --manifest-path examples/rust/Cargo.toml || exit 2
exec build/cargo/release/example "$@"
