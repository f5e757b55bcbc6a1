#!/bin/sh
# Times every call against plain C, and the command line's fill and batch against C over the library, in the same run;
# run.sh --check only compares the answers.
set -eu
cd "$(dirname "$0")/.."
./build.sh
cc=${CC:-cc}
flags="-std=c11 -O3${CFLAGS:+ $CFLAGS}"
warn="-Wall -Wextra -Wpedantic -Werror"
$cc $flags ${LDFLAGS-} -D_POSIX_C_SOURCE=199309L $warn -I include \
    -DBENCH_FLAGS="\"$flags\"" -DBENCH_COMPILER="\"$($cc --version | head -n 1)\"" \
    bench/bench.c bench/requests.c bench/plain_map.c bench/plain_plan.c \
    bench/plain_bursts.c build/libbellpulsar.a -o build/bench
$cc $flags ${LDFLAGS-} -D_POSIX_C_SOURCE=199309L $warn -I include \
    bench/files.c build/libbellpulsar.a -o build/bench_files
build/bench "$@"
exec python3 bench/files.py "$@"
