"""Prints the grids that grid_test.c includes, one for each mode and size where all is lit, some more for masks and for the
pilot lists of FUSC, from a fixed seed; and the major groups of PUSC downlink. Floats are bit patterns.

    python3 tests/capi/grid_table.py > build/capi/grid_table.h
"""

import os
import random
import sys

sys.path.insert(0, os.path.dirname(os.path.dirname(os.path.abspath(__file__))))

import pilot_lists
import reference as ref
from table import GOOD_LISTS, bad_lists, print_lists

SIGN = 2**31
INFINITY = 0x7F800000
QUIET = 0x7FC00000


def pattern(dice):
    """The bits of a float: NaNs of both kinds with a payload, infinities, zeros, subnormals, or any, of either sign."""
    bits = dice.choice(
        [
            QUIET + dice.randrange(2**22),
            INFINITY + dice.randrange(1, 2**22),
            INFINITY,
            0,
            dice.randrange(1, 2**23),
            dice.randrange(2**31),
        ]
    )
    return bits + dice.choice([0, SIGN])


# Mode, size, mask and list of each grid: all lit; then one group at either end, every second one, and holes in the middle;
# then each other list of FUSC.
CASES = [
    (mode, size, ref.full_mask(mode), pilot_lists.of_mode(mode)) for mode in ref.MODES for size in ref.sizes(mode)
]
CASES += [(ref.PUSC_DL, 2048, mask, ()) for mask in (1, 32, 0b010101, 0b101010, 0b110011, 0b001011)]
CASES += [(ref.FUSC, 2048, 0, pilots) for pilots in GOOD_LISTS if pilots != pilot_lists.EVEN]


def case(dice, mode, size, mask, pilots):
    cell, slot = dice.randrange(ref.cells(mode, size)), dice.randrange(512)
    pilot = [pattern(dice), pattern(dice)]
    points = [pattern(dice) for _ in range(ref.lit_points_len(mode, size, mask))]
    number, grid = ref.fill(mode, size, cell, mask, slot, pilot, points, [1] * ref.grid_floats(mode, size), pilots)
    assert number == 0
    assert ref.empty(mode, size, cell, mask, slot, grid, [1] * len(points), pilots) == (0, points)
    return cell, slot, pilot, points, grid


def grounded(mode, size, cell, mask, slot, pilot, pilots):
    """The ground of a slot's grid."""
    number, grid = ref.ground(mode, size, cell, mask, slot, pilot, [1] * ref.grid_floats(mode, size), pilots)
    assert number == 0
    return grid


def places(mode, size, cell, mask, slot, pilots):
    """Where the two floats of each point start in a slot's grid, by lit subchannel and index."""
    addresses = [(s, m) for s in ref.lit_subchannels(mode, size, mask) for m in range(ref.POINTS)]
    placed = [ref.place(mode, size, cell, slot, s, m, pilots) for s, m in addresses]
    return [ref.grid_at(mode, size, symbol, carrier) for _, symbol, carrier in placed]


def words(numbers):
    return ", ".join("0x%Xu" % number for number in numbers)


def print_groups():
    """The major group of each subchannel, and of each physical cluster by the cell: what a mask of that group lights."""
    groups = [[g for g in range(6) if s in ref.lit_subchannels(ref.PUSC_DL, 2048, 2**g)] for s in range(60)]
    print("static const uint32_t subchannel_groups[60] = {%s};" % words(sum(groups, [])))
    print("static const uint32_t cluster_groups[32][120] = {")
    for cell in range(32):
        lit = [ref.lit_carriers(ref.PUSC_DL, 2048, cell, 2**g) for g in range(6)]
        firsts = [ref.carrier_of_used(ref.PUSC_DL, 2048, 14 * cluster) for cluster in range(120)]
        print("    {%s}," % words([g for first in firsts for g in range(6) if first in lit[g]]))
    print("};")


def main():
    dice = random.Random(17)
    rows = []
    lists = [(), *GOOD_LISTS]
    print_groups()
    print_lists("good_lists", lists)
    print_lists("bad_lists", bad_lists(dice))
    for mode, size, mask, pilots in CASES:
        cell, slot, pilot, points, grid = case(dice, mode, size, mask, pilots)
        arrays = {
            "points": points,
            "places": places(mode, size, cell, mask, slot, pilots),
            "ground": grounded(mode, size, cell, mask, slot, pilot, pilots),
            "grid": grid,
        }
        n = len(rows)
        for name, numbers in arrays.items():
            print("static const uint32_t %s_%d[] = {%s};" % (name, n, words(numbers)))
        names = ", ".join("%s_%d" % (name, n) for name in arrays)
        numbers = words([mode, size, cell, mask, slot])
        rows.append("{%s, &good_lists[%d], {%s}, %s}" % (numbers, lists.index(pilots), words(pilot), names))
    print("static const struct grid_row grid_rows[] = {\n    %s,\n};" % ",\n    ".join(rows))


if __name__ == "__main__":
    main()
