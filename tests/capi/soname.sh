#!/bin/sh
# Fails where a program linked with -lbellpulsar does not run with the file alone that has the header's version in its name:
# so that is the shared library's soname. Needs build/link/libbellpulsar.so (build.sh).
set -eu
cd "$(dirname "$0")/../.."
out=build/capi
version=$(echo BP_VERSION | ${CC:-cc} -E -P -include include/bellpulsar.h - | tail -n 1)
name=libbellpulsar.so.$version

rm -rf "$out/alone"
mkdir -p "$out/alone"
cp "build/$name" "$out/alone"
${CC:-cc} -std=c11 ${CFLAGS-} ${LDFLAGS-} -I include tests/capi/header_test.c -L build/link -lbellpulsar -o "$out/shared_test"
LD_LIBRARY_PATH=$out/alone "$out/shared_test"
echo "capi: the soname is $name, and programs run by it"
