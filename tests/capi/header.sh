#!/bin/sh
# Compiles the header as C11 and as C++ with every warning an error, and runs the same small program over it as both. A
# compiler that knows no C++ leaves that half out and says so. Needs build/libbellpulsar.a (build.sh).
set -eu
cd "$(dirname "$0")/../.."
out=build/capi
mkdir -p "$out"

# try LANGUAGE STANDARD [FLAGS..]: the header by itself, then the program.
try() {
    language=$1 standard=$2
    shift 2
    ${CC:-cc} -x "$language" "-std=$standard" -Wall -Wextra -Wpedantic -Werror "$@" -fsyntax-only include/bellpulsar.h
    ${CC:-cc} -x "$language" "-std=$standard" -Wall -Wextra -Wpedantic -Werror "$@" ${LDFLAGS-} -I include \
        tests/capi/header_test.c -x none build/libbellpulsar.a -o "$out/header_test"
    "$out/header_test"
}

try c c11 ${CFLAGS-}
if echo 'int main() { return 0; }' | ${CC:-cc} -x c++ -std=c++11 -fsyntax-only - 2>/dev/null; then
    try c++ c++11
    echo "capi: the header compiles as C11 and as C++"
else
    echo "capi: the header compiles as C11; not tried as C++, which this compiler does not know"
fi
