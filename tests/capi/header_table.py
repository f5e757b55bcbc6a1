"""Fails where the header's table of ranges and lengths, the groups that it has beside it, or what it says of lists of
bursts, are not the reference's.

    python3 tests/capi/header_table.py
"""

import os
import re
import sys

TESTS = os.path.dirname(os.path.dirname(os.path.abspath(__file__)))
sys.path.insert(0, TESTS)

import reference as ref

HEADER = os.path.join(os.path.dirname(TESTS), "include", "bellpulsar.h")
AMC_NAMES = ["AMC %dx%d" % shape for shape in ref.SHAPES.values()]
NAMES = ["PUSC downlink", "PUSC uplink", "optional FUSC", *AMC_NAMES, "FUSC"]


def ends(numbers):
    """The first and the last, or the only one."""
    return "%d..%d" % (numbers[0], numbers[-1]) if len(numbers) > 1 else str(numbers[0])


def groups():
    """The subchannels of each major group of PUSC downlink, as the header tells them."""
    *first, last = (ends(ref.lit_subchannels(ref.PUSC_DL, 2048, 1 << group)) for group in range(6))
    return "%s and %s, group after group" % (", ".join(first), last)


def row(mode, size):
    """A line of the table, its words apart by one space."""
    fields = [
        range(ref.cells(mode, size)),
        ref.masks(mode),
        range(ref.subchannels(mode, size)),
        range(ref.SLOTS),
        range(ref.SLOTS * ref.SLOT_LENGTH[mode]),
    ]
    ranges = " ".join(map(ends, fields))
    lengths = (96 * ref.subchannels(mode, size), ref.grid_floats(mode, size))
    return "* %d %s %d %s %d %d" % ((mode, NAMES[mode], size, ranges) + lengths)


def main():
    with open(HEADER, encoding="ascii") as file:
        lines = [" ".join(line.split()) for line in file]
    stated = [line for line in lines if re.match(r"\* [0-9] .* [0-9]+ [0-9]+$", line)]
    wanted = [row(mode, size) for mode in ref.MODES for size in ref.sizes(mode)]
    if stated != wanted:
        sys.exit("the header's table has\n%s\nand the reference\n%s" % ("\n".join(stated), "\n".join(wanted)))
    if groups() not in " ".join(line.removeprefix("* ") for line in lines):
        sys.exit("the header does not have the reference's groups: %s" % groups())
    if "#define BP_ALL_GROUPS %d" % ref.full_mask(ref.PUSC_DL) not in lines:
        sys.exit("the header's BP_ALL_GROUPS is not the reference's full mask")
    if "#define BP_NO_BURST %d" % ref.NO_BURST not in lines:
        sys.exit("the header's BP_NO_BURST is not the reference's")
    for told in ("multiple of four and at most %d;" % (4 * ref.MOST_BURSTS), "uint8_t owners[%d]);" % ref.ROW):
        if not any(told in line for line in lines):
            sys.exit("the header does not have the reference's length of a list or of a row: %s" % told)
    print("capi: the header's ranges are the reference's")


if __name__ == "__main__":
    main()
