#!/usr/bin/env python3
"""Runs the compiled program `zones` and holds what it prints to the reference.

    (cd crates/zones && rt run <stdin) && python3 tests/test_zones.py

The inputs: no bytes, the two zones of document 01's example, AMC's slot shapes, every mask, FUSC between other zones, every
refusal that reading can meet, lengths about the 128 bytes that count, and input that arrives in pieces. Standard library only.
"""

import os
import subprocess
import sys
import time

import reference as ref

ROOT = os.path.dirname(os.path.dirname(os.path.abspath(__file__)))
PROGRAM = os.path.join(ROOT, "crates", "zones", "out", "zones")

EXAMPLE = bytes.fromhex("0280080211030003B0010100")
EXAMPLE_TEXT = "2 17 3 0\n3 176 1 0\n"

# Each slot shape of AMC, behind optional FUSC.
SHAPES = bytes.fromhex("0580080200010006AF12800400040001000500020003000300")
SHAPES_TEXT = "2 0 1 0\n6 2351 512 0\n4 0 1 0\n5 0 2 0\n3 0 3 0\n"

# PUSC downlink with all groups, with some and with the last one; between them a zone that has none.
MASKS = bytes.fromhex("0480100000013F00051F1502000100001F800420")
MASKS_TEXT = "0 0 1 63\n0 5 31 21\n2 0 1 0\n0 31 512 32\n"

# FUSC behind PUSC downlink, behind itself and behind optional FUSC; PUSC downlink, optional FUSC and AMC behind it.
FUSC = bytes.fromhex("0880100000013F071F80040007000100020001000701020000050C3F0700030003000100")
FUSC_TEXT = "0 0 1 63\n7 31 512 0\n7 0 1 0\n2 0 1 0\n7 1 2 0\n0 5 12 63\n7 0 3 0\n3 0 1 0\n"

# (hex, the refusal); each number that reading can meet, by the words of document 01.
REFUSALS = [
    ("", 10),
    ("8108", 12),
    ("80", 10),
    ("8080", 10),
    ("01800801", 10),
    ("8100", 11),
    ("808080", 11),
    ("01808000", 11),
    ("00", 12),
    ("09800802000100020001000200010002000100020001000200010002000100020001000200010001", 12),
    ("0100", 2),
    ("01810800000C3F", 2),
    ("0180080000013F", 2),
    ("01800801000100", 1),
    ("01800808000100", 1),
    ("01801008000100", 1),
    ("01800807000100", 2),
    ("02800802000100", 10),
    ("0280080200010007000100", 2),
    ("01801007200100", 3),
    ("0180100700810400", 13),
    ("01801007000101", 17),
    ("0180100700013F", 17),
    ("01801007000100", 14),
    ("0380100000013F0300010007000100", 14),
    ("0380100000013F0600010007000101", 17),
    ("0180080280020100", 3),
    ("018008028001", 10),
    ("01800802000000", 13),
    ("0180080200810400", 13),
    ("01801000200C3F", 3),
    ("01801002000C", 10),
    ("01801002000C00", 14),
    ("01801002050C00", 14),
    ("01801004000C00", 14),
    ("01801002000C3F", 17),
    ("01801000000C00", 17),
    ("01801000000C40", 17),
    ("01801000000CBF01", 17),
    ("01801000000CBF00", 11),
    ("01800803000001", 13),
    ("01800803000101", 17),
    ("0280080300010002000100", 14),
    ("0280080300010002000120", 17),
    ("0280080500010002000100", 14),
    ("038008040001000600010002000100", 14),
    ("0380100000013F060001000000013F", 14),
    ("0280080211030003B001010000", 15),
]


def printed(data):
    done = subprocess.run([PROGRAM], input=data, stdout=subprocess.PIPE, timeout=60)
    assert done.returncode == 0, "exit status %d on %s" % (done.returncode, data.hex())
    return done.stdout.decode("ascii")


def printed_in_pieces(pieces):
    """The pieces arrive one by one; the program may end before the last one."""
    program = subprocess.Popen([PROGRAM], stdin=subprocess.PIPE, stdout=subprocess.PIPE, bufsize=0)
    try:
        for piece in pieces:
            program.stdin.write(piece)
            time.sleep(0.002)
        program.stdin.close()
    except BrokenPipeError:
        pass
    text = program.stdout.read().decode("ascii")
    program.stdout.close()
    assert program.wait(timeout=60) == 0
    return text


def byte_by_byte(data):
    return printed_in_pieces(bytes([byte]) for byte in data)


def of_length(length):
    """Accepted but for its length, and one that has no end: both as long as asked."""
    yield EXAMPLE + bytes(length - len(EXAMPLE))
    yield bytes([0x80]) * length
    yield bytes([8, 0x80, 0x08]) + bytes([0x82, 0x80, 0x80]) * length


def inputs():
    yield EXAMPLE
    yield bytes.fromhex("01801000000C3F")
    yield bytes.fromhex("01801000050C3F")
    yield SHAPES
    yield MASKS
    yield FUSC
    yield bytes.fromhex("03801000050C3F06AF1280040005000100")
    yield bytes([8, 0x80, 0x10, 0, 0, 1, 63]) + bytes([2, 0xFF, 7, 0x80, 4, 0]) * 7
    yield bytes([8, 0x80, 0x08]) + bytes([3, 0xAF, 0x12, 0x80, 4, 0]) * 8
    for text, _ in REFUSALS:
        yield bytes.fromhex(text)
    for end in range(len(EXAMPLE)):
        yield EXAMPLE[:end]
    for mask in range(65):
        yield bytes([1, 0x80, 0x10, 0, 0, 12, mask])
    for length in (127, 128, 129, 10000):
        for data in of_length(length):
            yield data[:length]


def main():
    assert printed(EXAMPLE) == EXAMPLE_TEXT
    assert printed(SHAPES) == SHAPES_TEXT
    assert printed(MASKS) == MASKS_TEXT
    assert printed(FUSC) == FUSC_TEXT
    for text, number in REFUSALS:
        assert printed(bytes.fromhex(text)) == "refused %d\n" % number, text
    for data in inputs():
        assert printed(data) == ref.zones_text(data), data.hex()
        if len(data) < 130:
            assert byte_by_byte(data) == ref.zones_text(data), data.hex()
    assert printed_in_pieces([EXAMPLE[:4], EXAMPLE[4:10], EXAMPLE[10:]]) == EXAMPLE_TEXT
    print("zones: the program prints what the reference does")


if __name__ == "__main__":
    sys.exit(main())
