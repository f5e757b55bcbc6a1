#!/bin/sh
# Builds and runs an example, in a clone or an unpacked release:
# run.sh point|carrier|places|collisions|slot|fusc|capture|plan|bursts ARGUMENTS
# The status is the example's, or 2 where it cannot be built.
set -eu
cd "$(dirname "$0")/../.."
case ${1-} in
point | carrier | places | collisions | slot | fusc | capture | plan | bursts) ;;
*)
    echo "usage: run.sh point|carrier|places|collisions|slot|fusc|capture|plan|bursts ARGUMENTS" >&2
    exit 2
    ;;
esac
example=$1
shift
if [ -e build.sh ]; then
    ./build.sh || exit 2
    library=build/libbellpulsar.a
else
    library=lib/libbellpulsar.a
    mkdir -p build
fi
${CC:-cc} -std=c11 -O2 -Wall -Wextra ${CFLAGS-} ${LDFLAGS-} -I include "examples/c/$example.c" "$library" \
    -o "build/$example" || exit 2
exec "build/$example" "$@"
