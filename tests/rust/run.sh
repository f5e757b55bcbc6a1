#!/bin/sh
# Holds every call of the crate to the reference and runs its documentation's examples, all without a warning and under clippy
# where that is installed; then takes the crate as programs do. Fails where something differs.
set -eu
cd "$(dirname "$0")/../.."
./build.sh
unset BELLPULSAR_LIB_DIR
export CARGO_TARGET_DIR="$PWD/build/cargo" RUSTFLAGS="-D warnings" RUSTDOCFLAGS="-D warnings"

# on PACKAGE COMMAND..: cargo's command on the package in that folder, as a release: the rows are many.
on() {
    package=$1
    shift
    cargo "$@" --quiet --offline --release --manifest-path "$package/Cargo.toml"
}

said="clippy is not here"
if cargo clippy --version >/dev/null 2>&1; then
    for package in rust examples/rust tests/rust; do on "$package" clippy --all-targets; done
    said="with clippy"
fi
mkdir -p build/rust
python3 tests/rust/rows.py >build/rust/rows.txt
on tests/rust test
on rust test --doc
on rust doc
sh tests/rust/crate.sh
echo "rust: every call agrees with the reference; editions 2021 and 2024, $said"
