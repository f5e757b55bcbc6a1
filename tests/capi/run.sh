#!/bin/sh
# Builds the C interface and tests it against the reference. Fails where they differ.
set -eu
cd "$(dirname "$0")/../.."
out=build/capi

./build.sh
mkdir -p "$out"
sh tests/capi/header.sh
sh tests/capi/soname.sh
python3 tests/capi/header_table.py
python3 tests/capi/table.py > "$out/table.h"
python3 tests/capi/grid_table.py > "$out/grid_table.h"
python3 tests/capi/bursts_table.py > "$out/bursts_table.h"
for test in capi_test grid_test bursts_test plan_test; do
    ${CC:-cc} -std=c11 -O1 -Wall -Wextra -Werror ${CFLAGS-} ${LDFLAGS-} -I include -I "$out" \
        "tests/capi/$test.c" build/libbellpulsar.a -o "$out/$test"
done
"$out/capi_test"
"$out/grid_test"
"$out/bursts_test"
"$out/plan_test" < crates/plan_vectors/stdout
