#!/bin/sh
# Builds the examples in C and holds what they print to what they should.
set -eu
cd "$(dirname "$0")/../.."
./build.sh
for example in point carrier places collisions slot fusc capture plan bursts; do
    ${CC:-cc} -std=c11 -O2 -Wall -Wextra -Werror ${CFLAGS-} ${LDFLAGS-} -I include "examples/c/$example.c" \
        build/libbellpulsar.a -o "build/$example"
done
sh examples/expected.sh build/
echo "examples: each in C prints what it should"
