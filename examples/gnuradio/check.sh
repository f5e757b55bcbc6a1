#!/bin/sh
# Runs the example with GNU Radio where a python3 has that, Debian's own too, and says so where none has.
set -eu
cd "$(dirname "$0")/../.."
for python in python3 /usr/bin/python3; do
    if "$python" -c "from gnuradio import blocks, digital, gr" 2>/dev/null; then
        ./build.sh
        # A graph whose block fails never ends by itself.
        PYTHONPATH=python timeout 60 "$python" examples/gnuradio/slot.py
        echo "gnuradio: the allocator's grids and the serializer's points are the engine's"
        exit
    fi
done
echo "gnuradio: not here, skipped"
