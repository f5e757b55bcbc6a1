"""Writes points of QPSK to standard output, as raw complex 32-bit floats: something to fill slots with.

    python3 examples/points.py COUNT

A slot has 48 points for each of its subchannels: in PUSC downlink 2880. They are the same in every run.
"""

import random
import sys
from array import array

if len(sys.argv) != 2 or not sys.argv[1].isdigit():
    sys.stderr.write("usage: points.py COUNT\n")
    sys.exit(2)
draw = random.Random(1)
floats = array("f", (draw.choice((-1.0, 1.0)) / 2**0.5 for _ in range(2 * int(sys.argv[1]))))
floats.tofile(sys.stdout.buffer)
