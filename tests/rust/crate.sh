#!/bin/sh
# The crate as programs take it. Fails where its version is not the header's, where a program of edition 2021 or 2024 does not
# compile with it without a warning, and where its build script does not find the library, or does not say why. Needs
# build/libbellpulsar.a (build.sh).
set -eu
cd "$(dirname "$0")/../.."
root=$PWD
temp=$(mktemp -d)
trap 'rm -rf "$temp"' EXIT
unset BELLPULSAR_LIB_DIR PKG_CONFIG PKG_CONFIG_PATH
export CARGO_TARGET_DIR="$root/build/cargo" RUSTFLAGS="-D warnings" PKG_CONFIG_LIBDIR="$temp/nothing"

fail() {
    echo "rust: $*"
    exit 1
}

part() { sed -n "s/^#define BP_VERSION$1 \([0-9]*\)$/\1/p" include/bellpulsar.h; }
major=$(part "") minor=$(part _MINOR) patch=$(part _PATCH)
grep -q "^version = \"$major.$minor.$patch\"" rust/Cargo.toml || fail "rust/Cargo.toml has not the header's version"

for edition in 2021 2024; do
    program=$temp/$edition
    mkdir -p "$program/src"
    cat >"$program/Cargo.toml" <<END
[package]
name = "program"
edition = "$edition"

[dependencies]
bellpulsar = { path = "$root/rust" }
END
    cat >"$program/src/main.rs" <<'END'
use bellpulsar::{Address, Mode, Refusal, Setup, place, version};

fn main() -> Result<(), Refusal> {
    let setup = Setup { mode: Mode::Ofusc, size: 1024, cell: 17 };
    let at = place(setup, Address { slot: 0, subchannel: 0, index: 0 })?;
    println!("version {} symbol {} carrier {}", version(), at.symbol, at.carrier);

    let pilots: Vec<u32> = (26..1677).step_by(10).collect();
    let setup = Setup { mode: Mode::Fusc, size: 2048, cell: 0 };
    let at = place(setup.with_pilots(&pilots), Address { slot: 3, subchannel: 31, index: 46 })?;
    println!("symbol {} carrier {}", at.symbol, at.carrier);
    Ok(())
}
END
    said=$(cargo run --quiet --offline --release --manifest-path "$program/Cargo.toml")
    [ "$said" = "version $((major * 10000 + minor * 100 + patch)) symbol 0 carrier -425
symbol 3 carrier -217" ] || fail "a program of edition $edition says: $said"
done

# From here on a copy of the crate in a project with a build.sh of its own, which is not to be run.
mkdir -p "$temp/project/rust" "$temp/library"
cp -r rust/Cargo.toml rust/build.rs rust/src "$temp/project/rust"
printf '#!/bin/sh\necho "a build that fails" >&2\nexit 2\n' >"$temp/project/build.sh"
chmod +x "$temp/project/build.sh"
CARGO_TARGET_DIR=$temp/target

build() { cargo build --quiet --offline --manifest-path "$temp/project/rust/Cargo.toml" >"$temp/said" 2>&1; }

# finds WAY: the crate builds.
finds() { build || fail "the library is not found by $1: $(cat "$temp/said")"; }

# misses TEXT: the crate does not build, and this is said.
misses() {
    if build; then fail "a library is found where it should be said: $1"; fi
    grep -qF "$1" "$temp/said" || fail "instead of '$1' it is said: $(cat "$temp/said")"
}

# installed VERSION: pkg-config finds the tree's library as one of this version.
installed() {
    export PKG_CONFIG_LIBDIR="$temp/$1"
    mkdir "$PKG_CONFIG_LIBDIR"
    printf 'libdir=%s\nName: bellpulsar\nDescription: the map\nVersion: %s\nLibs: -L${libdir} -lbellpulsar\n' \
        "$root/build" "$1" >"$PKG_CONFIG_LIBDIR/bellpulsar.pc"
}

misses "bellpulsar: no libbellpulsar.a is found. Name its folder in BELLPULSAR_LIB_DIR, or install it"
misses "The crate of a release has it."
misses "(exit status: 1)"
said="pkg-config is not here"
if pkg-config --version >/dev/null 2>&1; then
    said="pkg-config"
    installed "$major.$minor.$patch"
    finds pkg-config
    installed "$((major - 1)).99.0"
    misses "no libbellpulsar.a is found"
    installed "$((major + 1)).0.0"
    misses "no libbellpulsar.a is found"
fi

export BELLPULSAR_LIB_DIR="$temp/library"
misses "BELLPULSAR_LIB_DIR is $temp/library, and no libbellpulsar.a is there"
cp build/libbellpulsar.a "$temp/library"
finds BELLPULSAR_LIB_DIR
BELLPULSAR_LIB_DIR=build
misses "BELLPULSAR_LIB_DIR is build: give an absolute path"
BELLPULSAR_LIB_DIR=$temp/library
finds BELLPULSAR_LIB_DIR
rm "$temp/library/libbellpulsar.a"
misses "no libbellpulsar.a is there"

# A release has the library in the crate.
BELLPULSAR_LIB_DIR=
mkdir "$temp/project/rust/lib"
cp build/libbellpulsar.a "$temp/project/rust/lib"
finds "the crate's own folder"
rm -r "$temp/project/rust/lib"

# And now a clone, whose build.sh is run again where the engine's source has changed, and only there.
mkdir -p "$temp/project/crates/capi_map/src" "$temp/project/include"
touch "$temp/project/crates.txt" "$temp/project/include/bellpulsar.h"
misses "a build that fails"
misses "build.sh failed, as told above"
misses "(exit status: 1)"
[ "$(grep -c "^  bellpulsar: " "$temp/said")" -eq 1 ] || fail "more than that is said beside build.sh: $(cat "$temp/said")"
printf '#!/bin/sh\nkill -9 $$\n' >"$temp/project/build.sh"
misses "build.sh ended with signal: 9"
ln -s "$root/build" "$temp/project/build"
printf '#!/bin/sh\necho built >>"$0.log"\n' >"$temp/project/build.sh"
runs() {
    finds build.sh
    [ "$(wc -l <"$temp/project/build.sh.log")" -eq "$1" ] || fail "build.sh is not run $1 times"
}
runs 1
runs 1
touch "$temp/project/crates/capi_map/src/lib.rt"
runs 2
mkdir "$temp/project/crates/capi_map/out"
touch "$temp/project/crates/capi_map/out/libcapi_map.a"
runs 2

echo "rust: the crate is $major.$minor.$patch; editions 2021 and 2024; its library by BELLPULSAR_LIB_DIR, the crate, build.sh and $said"
