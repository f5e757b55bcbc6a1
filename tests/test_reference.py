"""Holds the reference to every known point of document 01, to points worked out by hand and to its own laws.

Run: python3 tests/test_reference.py
"""

import random

import burst_lists
import pilot_lists
import reference as ref
from reference import AMC, AMC_1X6, AMC_2X3, AMC_3X2, FUSC, OFUSC, PUSC_DL, PUSC_UL


def hex_bytes(text):
    return [int(part, 16) for part in text.split()]


def test_tables():
    assert sorted(ref.R) == list(range(120)) and ref.R.index(0) == 119
    assert sorted(ref.Q) == list(range(70)) and ref.Q[:5] == [6, 48, 58, 57, 50]
    assert sorted(ref.BASE_12) == list(range(12)) and sorted(ref.BASE_8) == list(range(8))
    assert sorted(ref.FUSC_BASE) == list(range(32)) and ref.FUSC_BASE[:4] == [3, 18, 2, 8]
    assert len(set(ref.P)) == 48 and "00" not in ref.P
    assert ref.P == powers_of_22()


def powers_of_22():
    """Digits a, b stand for a w + b, with w w = 6 w + 4 modulo 7."""
    powers, a, b = [], 0, 1
    for _ in range(48):
        powers.append("%d%d" % (a, b))
        # (a w + b)(2 w + 2) = 2a ww + (2a + 2b) w + 2b
        a, b = (12 * a + 2 * a + 2 * b) % 7, (8 * a + 2 * b) % 7
    return powers


def test_sequences_of_document_002():
    assert ref.sequences(4) == ([1, 2, 3], [1, 3, 2])
    assert ref.sequences(8) == ([1, 2, 4, 3, 6, 7, 5], [1, 4, 6, 5, 2, 3, 7])
    p1, p2 = ref.sequences(16)
    assert p1 == [1, 2, 4, 8, 3, 6, 12, 11, 5, 10, 7, 14, 15, 13, 9]
    assert p2 == [1, 4, 3, 12, 5, 7, 15, 9, 2, 8, 6, 11, 10, 14, 13]
    p1, p2 = ref.sequences(32)
    assert p1[:16] == [1, 2, 4, 8, 16, 5, 10, 20, 13, 26, 17, 7, 14, 28, 29, 31]
    assert p1[16:] == [27, 19, 3, 6, 12, 24, 21, 15, 30, 25, 23, 11, 22, 9, 18]
    assert p2[:16] == [1, 4, 16, 10, 13, 17, 14, 29, 27, 3, 12, 21, 30, 23, 22, 18]
    assert p2[16:] == [2, 8, 5, 20, 26, 7, 28, 31, 19, 6, 24, 15, 25, 11, 9]


def test_known_points_of_placing():
    assert ref.place(OFUSC, 1024, 0, 0, 3, 5) == (0, 0, 41)
    assert ref.place(OFUSC, 1024, 0, 1, 3, 5) == (0, 1, 40)
    assert ref.place(OFUSC, 1024, 17, 0, 0, 0) == (0, 0, -425)
    assert ref.place(PUSC_DL, 2048, 0, 0, 1, 11) == (0, 0, 838)
    assert ref.place(PUSC_DL, 2048, 0, 0, 1, 35) == (0, 1, 837)
    assert ref.place(PUSC_UL, 2048, 0, 0, 1, 0) == (0, 1, -647)
    assert ref.tiles(0, 5) == [1, 83, 166, 256, 324, 380]


def test_known_points_of_locating():
    for cell in range(32):
        assert ref.locate(PUSC_DL, 2048, cell, 0, -840)[1][0] == ref.DATA
        assert ref.locate(PUSC_DL, 2048, cell, 1, -840) == (0, (ref.PILOT,))
        for symbol in (0, 1):
            assert ref.locate(PUSC_DL, 2048, cell, symbol, -841) == (0, (ref.GUARD,))
            assert ref.locate(PUSC_DL, 2048, cell, symbol, 0) == (0, (ref.DC,))


def test_known_collisions():
    assert ref.ofusc_collisions(1024, 0, 6, 17, 0)[2] == 7
    assert ref.ofusc_collisions(1024, 0, 2, 244, 0)[2] == 8
    number, hits, count = ref.ofusc_collisions(2048, 0, 2, 1010, 0)
    assert (number, count) == (0, 4) and [k for k in range(48) if hits[k]] == [0, 1, 31, 32]
    number, hits, count = ref.amc_collisions(48, 176)
    assert (number, count) == (0, 3) and [j for j in range(48) if hits[j]] == [8, 24, 32]
    assert ref.amc_collisions(7, 7)[2] == 48
    assert ref.ofusc_collisions(512, 9, 3, 9, 3)[2] == 48
    assert ref.ofusc_collisions(512, 9, 3, 9, 4)[2] == 0


def test_known_ranges():
    assert ref.place(OFUSC, 256, 15, 0, 0, 0)[0] == 0
    assert ref.place(OFUSC, 256, 16, 0, 0, 0)[0] == 3
    for mode in ref.SHAPES:
        assert ref.place(mode, 256, 2351, 0, 0, 0)[0] == 0
        assert ref.place(mode, 256, 2352, 0, 0, 0)[0] == 3
    for mode in ref.MODES:
        assert ref.place(mode, 2048, 0, 511, 0, 0, pilot_lists.of_mode(mode))[0] == 0
        assert ref.place(mode, 2048, 0, 512, 0, 0, pilot_lists.of_mode(mode))[0] == 4
    assert ref.place(OFUSC, 128, 0, 0, 0, 0)[0] == 2
    assert ref.place(8, 2048, 0, 0, 0, 0)[0] == 1
    assert ref.place(2**32 - 1, 2048, 0, 0, 0, 0)[0] == 1


def test_known_plans():
    accepted = hex_bytes("01 80 10 00 00 0C 3F")
    assert ref.read_plan(accepted) == (0, 1, 2048, [(0, 0, 12, 63)] + [ref.NO_ZONE] * 7)
    assert ref.read_plan(hex_bytes("01 80 10 02 00 0C 00"))[0] == 14
    assert ref.read_plan(hex_bytes("01 80 10 02 00 0C 3F"))[0] == 17
    assert ref.read_plan(hex_bytes("01 80 10 00 05 0C 3F")) == (0, 1, 2048, [(0, 5, 12, 63)] + [ref.NO_ZONE] * 7)
    assert ref.zones_text(hex_bytes("02 80 08 02 11 03 00 03 B0 01 01 00")) == "2 17 3 0\n3 176 1 0\n"
    assert ref.zones_text(hex_bytes("01 80 10 00 05 0C 15")) == "0 5 12 21\n"
    assert ref.zones_text(hex_bytes("01 80 10 02 00 0C 00")) == "refused 14\n"


def test_refused_plans():
    cases = {
        "": 10, "80": 10, "80 80": 10, "81 00": 11, "80 00": 11, "80 80 00": 11, "80 80 80": 11,
        "80 80 80 01": 11, "00 80": 12, "09 80 08": 12, "01 00 80": 2, "01 80 01": 2,
        "01 80 08 01 00 01": 10, "01 80 08 01 00 01 00": 1, "01 80 08 08 00 01 00": 1, "01 80 08 00 00 01 3F": 2,
        "01 80 08 07 00 01 00": 2, "01 80 10 07 20 01 00": 3, "01 80 10 07 1F 01 00": 14,
        "01 80 02 02 10 01 00": 3, "01 80 08 03 B0 12 01 00": 3, "01 80 08 02 00 00 00": 13,
        "01 80 08 02 00 81 04 00": 13, "02 80 10 02 00 01 00": 14, "01 80 10 00 20 01 3F": 3,
        "02 80 08 03 00 01 00 02 00 01 00": 14, "01 80 08 02 00 01 00 00": 15,
        "01 80 08 02 00 01 81": 10, "01 80 08 02 00 01 80 00": 11, "01 80 08 02 00 01 01": 17,
        "01 80 10 00 00 01 00": 17, "01 80 10 00 00 01 40": 17, "01 80 10 00 00 01 FF FF 7F": 17,
    }
    for text, number in cases.items():
        assert ref.read_plan(hex_bytes(text))[0] == number, text
        assert ref.zones_text(hex_bytes(text)) == "refused %d\n" % number
    largest = hex_bytes("08 80 08") + 8 * hex_bytes("03 AF 12 80 04 00")
    assert len(largest) == 51 and ref.read_plan(largest)[0] == 0


def test_questions_of_a_zone():
    """After its four values 1, 2, 3, 13, 17, 14, for every set of wrong ones; in writing too. The rule on the order is
    met by mode 2 as a first zone at 2048."""
    for wrong in range(16):
        mode, cell = 2 if wrong & 1 else 0, 2000 if wrong & 2 else 5
        slots, mask = 513 if wrong & 4 else 512, 64 if wrong & 8 else ref.full_mask(mode)
        met = [number for bit, number in ((2, 3), (4, 13), (8, 17), (1, 14)) if wrong & bit]
        check_zone(2048, (mode, cell, slots, mask), met[0] if met else 0)
        check_zone(2048, (1, cell, slots, mask), 1)
        check_zone(1024, (0, cell, slots, mask), 2)


def check_zone(size, zone, number):
    assert ref.read_plan(plan_bytes(size, [zone]))[0] == number
    assert ref.write_plan(1, size, [zone] + [ref.NO_ZONE] * 7, [0] * 51)[0] == number


def test_masks_of_a_zone():
    """1 to 63 in mode 0, zero in the others; past the count zero too."""
    for mask in (*range(66), 127, 128, 2**16 + 63, 2**21 - 1):
        for mode in ref.PLAN_MODES:
            size, head = (2048, [(0, 0, 1, 63)]) if mode in (0, 7) else (512, [])
            right = 1 <= mask <= 63 if mode == 0 else mask == 0
            zones = head + [(mode, 0, 1, mask)]
            assert ref.read_plan(plan_bytes(size, zones))[0] == (0 if right else 17)
            places = zones + [ref.NO_ZONE] * (8 - len(zones))
            assert ref.write_plan(len(zones), size, places, [0] * 51)[0] == (0 if right else 17)
            places[7] = (0, 0, 0, mask)
            assert ref.write_plan(len(zones), size, places, [0] * 51)[0] == (12 if mask else 0 if right else 17)


def test_order_of_modes():
    """Every mode after every other, at every size: after any of 3 to 6 only these four; at 2048 mode 0 comes first. Modes 0
    and 7 are at 2048 alone."""
    for size in ref.BIN_SIZES:
        listed = (0, 2, 3, 4, 5, 6, 7) if size == 2048 else (2, 3, 4, 5, 6)
        refused = {mode: 2 if mode in (0, 7) else 1 for mode in range(10) if mode not in listed}
        head = [zone_of(0)] if size == 2048 else []
        for mode in range(10):
            first = refused.get(mode, 14 if size == 2048 and mode != 0 else 0)
            assert ref.read_plan(plan_bytes(size, [zone_of(mode)]))[0] == first
            for after in range(10):
                order = 14 if mode in (3, 4, 5, 6) and after not in (3, 4, 5, 6) else 0
                number = refused.get(mode, refused.get(after, order))
                zones = head + [zone_of(mode), zone_of(after)]
                assert ref.read_plan(plan_bytes(size, zones))[0] == number
                places = zones + [ref.NO_ZONE] * (8 - len(zones))
                assert ref.write_plan(len(zones), size, places, [0] * 48)[0] == number


def zone_of(mode):
    return mode, 3, 1, 63 if mode == 0 else 0


def plan_bytes(size, zones):
    numbers = [len(zones), size] + [x for zone in zones for x in zone]
    return [byte for number in numbers for byte in ref.write_value(number)]


def test_plan_round_trips():
    zones = [(2, 17, 3, 0), (3, 176, 1, 0)] + [ref.NO_ZONE] * 6
    number, written, dest = ref.write_plan(2, 1024, zones, [7] * 14)
    assert (number, written, dest[12:]) == (0, 12, [7, 7])
    assert dest[:12] == hex_bytes("02 80 08 02 11 03 00 03 B0 01 01 00")
    assert ref.read_plan(dest[:12]) == (0, 2, 1024, zones)
    assert ref.write_plan(2, 1024, zones, [7] * 11) == (16, 0, [7] * 11)
    assert ref.write_plan(1, 1024, zones, [])[0] == 12
    assert ref.write_plan(2, 128, zones, [])[0] == 2
    shapes = [(2, 17, 3, 0), (6, 2351, 512, 0), (4, 0, 1, 0), (5, 48, 2, 0), (3, 176, 1, 0)] + [ref.NO_ZONE] * 3
    number, written, dest = ref.write_plan(5, 1024, shapes, [0] * 51)
    assert number == 0 and ref.read_plan(dest[:written]) == (0, 5, 1024, shapes)
    masks = [(0, 5, 2, 7), (2, 0, 1, 0), (0, 31, 512, 56), (7, 31, 9, 0), (6, 0, 1, 0)] + [ref.NO_ZONE] * 3
    number, written, dest = ref.write_plan(5, 2048, masks, [0] * 51)
    assert number == 0 and ref.read_plan(dest[:written]) == (0, 5, 2048, masks)


def test_slots_are_whole():
    """Every used carrier of a slot is a pilot or one point's, and locating finds it."""
    dice = random.Random(1)
    for mode in ref.MODES:
        for size in ref.sizes(mode):
            cell, slot = dice.randrange(ref.cells(mode, size)), dice.randrange(512)
            found = ref.slot_map(mode, size, cell, slot, pilot_lists.of_mode(mode))
            used = ref.used_numbers(mode, size) + 1
            assert len(found) == used * ref.SLOT_LENGTH[mode]
            data = [what for what in found.values() if what[0] == ref.DATA]
            assert len(data) == 48 * ref.subchannels(mode, size)


def test_grids():
    dice = random.Random(2)
    for mode in ref.MODES:
        size = ref.sizes(mode)[0]
        setup = mode, size, ref.cells(mode, size) - 1
        for mask in some_masks(mode):
            check_grid(dice, setup, mask, 5)


def check_grid(dice, setup, mask, slot):
    """Filled, emptied, looked at, and refused for its lengths."""
    mode, size, cell = setup
    pilots = pilot_lists.of_mode(mode)
    points = [dice.randrange(2**32) for _ in range(ref.lit_points_len(mode, size, mask))]
    grid = [9] * ref.grid_floats(mode, size)
    number, filled = ref.fill(*setup, mask, slot, [1, 2], points, grid, pilots)
    assert number == 0 and ref.empty(*setup, mask, slot, filled, [0] * len(points), pilots) == (0, points)
    check_looks(mode, size, cell, mask, slot, points, filled)
    assert ref.fill(*setup, mask, slot, [1, 2], points[1:], grid, pilots) == (8, grid)
    assert ref.fill(*setup, mask, slot, [1, 2], points, grid[1:], pilots) == (9, grid[1:])
    assert ref.empty(*setup, mask, slot, grid[1:], points, pilots) == (9, points)
    assert ref.empty(*setup, mask, slot, grid[1:], points + [0] * 96, pilots) == (8, points + [0] * 96)
    assert ref.look(*setup, mask, 0, grid[1:], 0, pilots) == (9, None)
    assert ref.look(*setup, mask, 0, grid[1:], size // 2, pilots) == (7, None)


def check_looks(mode, size, cell, mask, slot, points, filled):
    """What stands on each carrier of the filled grid, and what look answers where every unlit float holds 8."""
    lit, pilots = lit_by_hand(mode, size, mask), pilot_lists.of_mode(mode)
    for offset in range(ref.SLOT_LENGTH[mode]):
        symbol = slot * ref.SLOT_LENGTH[mode] + offset
        for carrier in range(-size // 2, size // 2):
            _, what = ref.locate(mode, size, cell, symbol, carrier, pilots)
            at = 2 * (offset * size + size // 2 + carrier)
            held = filled[at : at + 2]
            if what[0] in (ref.GUARD, ref.DC) or not carrier_is_lit(mode, size, cell, mask, carrier):
                assert held == [0, 0]
                filled[at : at + 2] = [8, 8]
                wanted = ("nothing",)
            elif what[0] == ref.PILOT:
                assert held == [1, 2]
                wanted = (ref.PILOT, [1, 2])
            else:
                source = 2 * (48 * lit.index(what[2]) + what[3])
                assert held == points[source : source + 2]
                wanted = (ref.DATA, points[source : source + 2]) + what[1:]
            assert ref.look(mode, size, cell, mask, symbol, filled, carrier, pilots) == (0, wanted)


def test_planners_figures():
    """Demand 3 on a sample: at most 2 in N-1 groups in a row, the limits, the sum of 48."""
    dice = random.Random(3)
    for size, most in ((256, 32), (512, 14), (1024, 8), (2048, 4)):
        n = ref.n_of(size)
        for _ in range(12):
            a, b = dice.sample(range(n * n), 2)
            s, slot, total = dice.randrange(n), dice.randrange(512), 0
            for t in range(n):
                number, hits, count = ref.ofusc_collisions(size, a, s, b, t, slot)
                assert number == 0 and count <= most
                assert all(sum(hits[k : k + n - 1]) <= 2 for k in range(48 - (n - 1) + 1))
                total += count
            assert total == 48
    assert ref.ofusc_collisions(256, 10, 0, 4, 2)[2] == 32
    assert ref.ofusc_collisions(512, 32, 0, 45, 7)[2] == 14
    for _ in range(200):
        a, b = dice.sample(range(2352), 2)
        assert ref.amc_collisions(a, b)[2] <= 3


# --- the ground and lays: document 02, wish 4 -------------------------------------------------

SETUPS = [(mode, size) for mode in ref.MODES for size in ref.sizes(mode)]


def pilots_a_symbol(mode, size, offset):
    """Two of each of 120 clusters; two of each of 420 tiles, none in the middle symbol; one of each of 6N bins; all that
    are lent."""
    if mode == FUSC:
        return 166
    if mode == PUSC_UL:
        return 0 if offset == 1 else 840
    return 240 if mode == PUSC_DL else 6 * size // 64


def test_ground():
    """Pilots and zeros, on data carriers too; where all is lit the cell has no part in it."""
    for mode, size in SETUPS:
        grid, last, mask = [9] * ref.grid_floats(mode, size), ref.cells(mode, size) - 1, ref.full_mask(mode)
        pilots = pilot_lists.of_mode(mode)
        for slot in (0, 1, 2, 511):
            number, after = ref.ground(mode, size, last, mask, slot, [1, 2], grid, pilots)
            assert number == 0 and ref.ground(mode, size, 0, mask, slot, [1, 2], grid, pilots) == (0, after)
            for offset in range(ref.SLOT_LENGTH[mode]):
                row = after[2 * size * offset : 2 * size * (offset + 1)]
                assert row.count(1) == row.count(2) == pilots_a_symbol(mode, size, offset)
                assert row.count(0) == 2 * (size - pilots_a_symbol(mode, size, offset))
                for carrier in range(-size // 2, size // 2):
                    what = ref.locate(mode, size, last, slot * ref.SLOT_LENGTH[mode] + offset, carrier, pilots)[1]
                    at = size + 2 * carrier
                    assert row[at : at + 2] == ([1, 2] if what == (ref.PILOT,) else [0, 0])


def test_grounds_that_serve():
    """In modes 0, 1, 4 and 6, and in mode 7 with one list, all slots have one ground, in modes 2, 3 and 5 those that agree
    mod 3, and no others."""
    for mode, size in SETUPS:
        mask, grid, pilots = ref.full_mask(mode), [9] * ref.grid_floats(mode, size), pilot_lists.of_mode(mode)
        grounds = [ref.ground(mode, size, 0, mask, slot, [1, 2], grid, pilots) for slot in range(6)]
        one = [grounds[0]] * 6
        assert grounds[3:] == grounds[:3] and (grounds == one) == (mode in (0, 1, 4, 6, 7))
        assert grounds == one or grounds[0] != grounds[1] != grounds[2] != grounds[0]


def test_known_ground():
    """Carrier -840 of PUSC downlink is data in a slot's first symbol and a pilot in its second, whatever the cell."""
    for cell in range(32):
        after = ref.ground(PUSC_DL, 2048, cell, 63, 3, [1, 2], [9] * 8192)[1]
        assert after[368:370] == [0, 0] and after[4096 + 368 : 4096 + 370] == [1, 2]


def test_known_lays():
    """The known points of placing: 553, as document 01 counts, is carrier 41, 552 is 40, 87 is -425; 1862 and 1861 are
    838 and 837, 377 is -647."""
    points = list(range(100, 196))
    first, second = [9] * 2048, [9] * 2048
    first = ref.lay(OFUSC, 1024, 0, 0, 0, 3, points, first)[1]
    second = ref.lay(OFUSC, 1024, 0, 0, 1, 3, points, second)[1]
    assert first[2 * 553 : 2 * 553 + 2] == second[2 * 552 : 2 * 552 + 2] == [110, 111]
    assert ref.lay(OFUSC, 1024, 17, 0, 0, 0, points, [9] * 2048)[1][2 * 87 : 2 * 87 + 2] == [100, 101]
    down = ref.lay(PUSC_DL, 2048, 0, 1, 0, 1, points, [9] * 8192)[1]
    assert down[2 * 1862 : 2 * 1862 + 2] == [122, 123]
    assert down[2 * (2048 + 1861) : 2 * (2048 + 1861) + 2] == [170, 171]
    assert ref.lay(PUSC_UL, 2048, 0, 0, 0, 1, points, [9] * 12288)[1][2 * (2048 + 377)] == 100


def test_a_lay_changes_96_floats():
    """Those at the places of its own points, and no other."""
    dice = random.Random(5)
    for mode, size in SETUPS:
        cell, slot = dice.randrange(ref.cells(mode, size)), dice.randrange(512)
        grid = list(range(1000, 1000 + ref.grid_floats(mode, size)))
        points = list(range(96))
        mask = dice.choice(some_masks(mode))
        lit = lit_by_hand(mode, size, mask)
        for subchannel in {lit[0], lit[-1], dice.choice(lit)}:
            pilots = pilot_lists.of_mode(mode)
            number, after = ref.lay(mode, size, cell, mask, slot, subchannel, points, grid, pilots)
            assert number == 0 and len(after) == len(grid)
            assert sorted(x for x, old in zip(after, grid) if x != old) == points
            for index in range(48):
                _, symbol, carrier = ref.place(mode, size, cell, slot, subchannel, index, pilots)
                at = 2 * (symbol % ref.SLOT_LENGTH[mode] * size + size // 2 + carrier)
                assert after[at : at + 2] == [2 * index, 2 * index + 1]


def some_order(dice, subchannels):
    """Each of these subchannels at least once, some more often, in any order."""
    order = [*subchannels, *dice.choices(subchannels, k=len(subchannels) // 2)]
    dice.shuffle(order)
    return order


def test_both_moves_fill():
    """The ground, then lays of the lit subchannels in any order: of several lays of one the last counts."""
    dice = random.Random(6)
    for mode, size in SETUPS:
        for mask in some_masks(mode):
            fields = mode, size, dice.randrange(ref.cells(mode, size)), mask, dice.randrange(512)
            subchannels = lit_by_hand(mode, size, mask)
            old, last, pilots = [9] * ref.grid_floats(mode, size), {}, pilot_lists.of_mode(mode)
            number, grid = ref.ground(*fields, [1, 2], old, pilots)
            assert number == 0
            for subchannel in some_order(dice, subchannels):
                last[subchannel] = [dice.randrange(2**32) for _ in range(96)]
                number, grid = ref.lay(*fields, subchannel, last[subchannel], grid, pilots)
                assert number == 0
            points = [x for subchannel in subchannels for x in last[subchannel]]
            assert ref.fill(*fields, [1, 2], points, old, pilots) == (0, grid)


def check_order(call, questions, good, wrong):
    """Every set of wrong fields meets the first question about one of them, and leaves the buffer, the last field."""
    for chosen in range(2 ** len(good)):
        fields = [wrong[i] if chosen >> i & 1 else good[i] for i in range(len(good))]
        met = [question for i, question in enumerate(questions) if chosen >> i & 1]
        number, after = call(*fields)
        assert number == (met[0] if met else 0)
        assert (after == fields[-1]) == (number != 0)


# --- masks: document 02, wish 5 ---------------------------------------------------------------

# The subchannels and the logical clusters of each major group of PUSC downlink.
GROUP_SUBCHANNELS = [range(12), range(12, 20), range(20, 32), range(32, 40), range(40, 52), range(52, 60)]
GROUP_CLUSTERS = [range(24), range(24, 40), range(40, 64), range(64, 80), range(80, 104), range(104, 120)]


def some_masks(mode):
    """All groups, one at either end, every second one, and holes in the middle; elsewhere the only mask."""
    return [63, 1, 32, 0b010101, 0b101010, 0b110011, 0b001011] if mode == PUSC_DL else [0]


def lit_by_hand(mode, size, mask):
    if mode != PUSC_DL:
        return list(range(ref.subchannels(mode, size)))
    return [s for group in range(6) if mask >> group & 1 for s in GROUP_SUBCHANNELS[group]]


def carrier_is_lit(mode, size, cell, mask, carrier):
    """From the carrier to its group: its used number, physical cluster and logical one."""
    low, high = ref.band(mode, size)
    is_used = carrier != 0 and low <= carrier <= high
    if mode != PUSC_DL or not is_used:
        return is_used
    used = carrier + 840 - (carrier > 0)
    logical = ref.R[(used // 14 + 13 * cell) % 120]
    return any(mask >> group & 1 and logical in GROUP_CLUSTERS[group] for group in range(6))


def test_every_mask():
    """What each of the 63 lights, in subchannels and in carriers, at several cells; the ranks; the lengths."""
    for mask in range(1, 64):
        lit = lit_by_hand(PUSC_DL, 2048, mask)
        assert list(ref.lit_subchannels(PUSC_DL, 2048, mask)) == lit == sorted(lit)
        assert [ref.rank(PUSC_DL, 2048, mask, s) for s in lit] == [sum(t in lit for t in range(s)) for s in lit]
        assert len(lit) == sum(size for bit, size in zip(reversed("{:06b}".format(mask)), [12, 8] * 3) if bit == "1")
        assert ref.lit_points_len(PUSC_DL, 2048, mask) == 96 * len(lit)
        for cell in (0, 1, 17, 31):
            carriers = [c for c in range(-1024, 1024) if carrier_is_lit(PUSC_DL, 2048, cell, mask, c)]
            assert sorted(ref.lit_carriers(PUSC_DL, 2048, cell, mask)) == carriers
            # 28 used numbers a subchannel: a group has two clusters for each of its own.
            assert len(carriers) == 28 * len(lit)


def test_data_is_lit_as_its_subchannel():
    """Every data carrier of both symbols, by every mask; at every cell by each group alone, of which masks are made."""
    for cell in range(32):
        data = [(c, what[2]) for (_, c), what in ref.slot_map(PUSC_DL, 2048, cell, 0).items() if what[0] == ref.DATA]
        assert len(data) == 60 * 48
        for mask in range(1, 64) if cell in (0, 5, 31) else [2**group for group in range(6)]:
            carriers, lit = ref.lit_carriers(PUSC_DL, 2048, cell, mask), lit_by_hand(PUSC_DL, 2048, mask)
            assert all((carrier in carriers) == (subchannel in lit) for carrier, subchannel in data)


def test_lit_pilots():
    """Two of each lit cluster in each symbol, however the mask is made; with all groups lit, those of document 01. The
    known pilot: at cell 0, carrier -840 is of physical cluster 0, which is logical 6, of group 0."""
    for mask in range(1, 64):
        for cell in (0, 12):
            after = ref.ground(PUSC_DL, 2048, cell, mask, 7, [1, 2], [9] * 8192)[1]
            clusters = sum(len(GROUP_CLUSTERS[group]) for group in range(6) if mask >> group & 1)
            for row in (after[:4096], after[4096:]):
                assert row.count(1) == row.count(2) == 2 * clusters and row.count(0) == 4096 - 4 * clusters
        after = ref.ground(PUSC_DL, 2048, 0, mask, 0, [1, 2], [9] * 8192)[1]
        assert after[4096 + 368 : 4096 + 370] == ([1, 2] if mask % 2 else [0, 0])


def test_modes_without_groups():
    """Mask 0 lights every subchannel and every used carrier; there is no other."""
    for mode, size in SETUPS:
        if mode == PUSC_DL:
            continue
        assert list(ref.masks(mode)) == [0] == [ref.full_mask(mode)]
        assert ref.lit_subchannels(mode, size, 0) == tuple(range(ref.subchannels(mode, size)))
        assert len(ref.lit_carriers(mode, size, 0, 0)) == ref.used_numbers(mode, size)
        assert ref.lit_points_len(mode, size, 0) == ref.points_len(mode, size)
    assert ref.full_mask(PUSC_DL) == 63 and ref.lit_points_len(PUSC_DL, 2048, 63) == ref.points_len(PUSC_DL, 2048)


def test_question_17():
    """1 to 63 in mode 0, zero in the others; put in each of the five calls, and by the length."""
    for mode, size in SETUPS:
        grid, points = [9] * ref.grid_floats(mode, size), [1] * 96
        for mask in (*range(66), 127, 128, 255, 256, 2**16 + 1, 2**31, 2**32 - 64, 2**32 - 1):
            right = 1 <= mask <= 63 if mode == PUSC_DL else mask == 0
            fields = mode, size, 0, mask, 0
            assert (ref.lit_points_len(mode, size, mask) > 0) == right
            if right:
                continue
            assert ref.ground(*fields, [1, 2], grid) == (17, grid) and ref.lay(*fields, 0, points, grid) == (17, grid)
            assert ref.empty(*fields, grid, points) == (17, points) and ref.look(*fields, grid, 0) == (17, None)
            assert ref.empty_first(*fields, size, grid, points) == (17, points)
            assert ref.look(mode, size, 0, mask, 2**32 - 1, [], size)[0] == 17
            assert ref.look(mode, size, 2352, mask, 0, grid, 0)[0] == 3
    assert ref.lit_points_len(8, 2048, 0) == ref.lit_points_len(7, 1024, 0) == 0
    assert ref.lit_points_len(2, 128, 0) == 0


def test_unlit_subchannels():
    """Laying one meets 5, before 8 and 9; emptied points are the others', wherever the hole is."""
    grid = list(range(8192))
    every = ref.empty(PUSC_DL, 2048, 9, 63, 4, grid, [0] * 5760)[1]
    for mask in range(1, 64):
        lit = lit_by_hand(PUSC_DL, 2048, mask)
        for subchannel in [s for group in GROUP_SUBCHANNELS for s in (group[0], group[-1])]:
            number, after = ref.lay(PUSC_DL, 2048, 9, mask, 4, subchannel, [0] * 96, grid)
            assert (number, after == grid) == ((0, False) if subchannel in lit else (5, True))
            if subchannel not in lit:
                assert ref.lay(PUSC_DL, 2048, 9, mask, 4, subchannel, [], []) == (5, [])
        wanted = [x for s in lit for x in every[96 * s : 96 * s + 96]]
        assert ref.empty(PUSC_DL, 2048, 9, mask, 4, grid, [0] * len(wanted)) == (0, wanted)
        if mask != 63:
            assert ref.empty(PUSC_DL, 2048, 9, mask, 4, grid, [0] * 5760) == (8, [0] * 5760)


def test_questions_of_calls_with_a_mask():
    def ground(mode, size, cell, mask, slot, pilots, grid):
        return ref.ground(mode, size, cell, mask, slot, [1, 2], grid, pilots)

    def lay(mode, size, cell, mask, slot, subchannel, pilots, points, grid):
        return ref.lay(mode, size, cell, mask, slot, subchannel, points, grid, pilots)

    # Empty and look write no grid; for them it is left where the points are, and where nothing is seen.
    def empty(mode, size, cell, mask, slot, pilots, points, grid):
        number, after = ref.empty(mode, size, cell, mask, slot, grid, points, pilots)
        return number, grid if after == points else after

    # There is no question about a count: 0 and 1 are refused as all carriers are, and write less.
    def empty_first(mode, size, cell, mask, slot, pilots, points, grid):
        fields = mode, size, cell, mask, slot
        number, after = ref.empty_first(*fields, 2**32 - 1, grid, points, pilots)
        for count in (0, 1, len(grid) // 2):
            assert ref.empty_first(*fields, count, grid, points, pilots) == (number, after if count > 1 else points)
        return number, grid if after == points else after

    def look(mode, size, cell, mask, symbol, carrier, pilots, grid):
        number, what = ref.look(mode, size, cell, mask, symbol, grid, carrier, pilots)
        return number, grid if what is None else what

    dice = random.Random(11)
    for mode, size in SETUPS:
        cells, subchannels, floats = ref.cells(mode, size), ref.subchannels(mode, size), ref.grid_floats(mode, size)
        symbols, pilots, bad = 512 * ref.SLOT_LENGTH[mode], pilot_lists.of_mode(mode), pilot_lists.unfit(dice, mode)
        for mask, wrong_mask in [(63, 0), (32, 64), (32, 2**32 - 1)] if mode == PUSC_DL else [(0, 63)]:
            good, wrong = [mode, size, cells - 1, mask, 511], [8, 128, cells, wrong_mask, 512]
            lit, unlit = 96 * len(lit_by_hand(mode, size, mask)), 0 if mask == 32 else subchannels
            for off in (-2, 1):
                good_ground, wrong_ground = good + [pilots, [9] * floats], wrong + [bad, [9] * (floats + off)]
                check_order(ground, [1, 2, 3, 17, 4, 20, 9], good_ground, wrong_ground)
            for length in (95, 96 * subchannels):
                good_lay = good + [subchannels - 1, pilots, [1] * 96, [9] * floats]
                wrong_lay = wrong + [unlit, bad, [1] * length, [9] * (floats - 1)]
                check_order(lay, [1, 2, 3, 17, 4, 5, 20, 8, 9], good_lay, wrong_lay)
            for off in (-96, 96):
                good_empty = good + [pilots, [1] * lit, [9] * floats]
                wrong_empty = wrong + [bad, [1] * (lit + off), [9] * (floats + 1)]
                for call in (empty, empty_first):
                    check_order(call, [1, 2, 3, 17, 4, 20, 8, 9], good_empty, wrong_empty)
            good_look = good[:4] + [symbols - 1, 0, pilots, [9] * floats]
            wrong_look = wrong[:4] + [symbols, size // 2, bad, [9]]
            check_order(look, [1, 2, 3, 17, 4, 7, 20, 9], good_look, wrong_look)


def test_questions_of_calls_without_a_mask():
    """Place, places and locate, of which nothing is left but the number."""

    def answered(answer, accepted):
        return answer[0], None if answer[0] == 0 else accepted

    def place(mode, size, cell, slot, subchannel, index, pilots):
        return answered(ref.place(mode, size, cell, slot, subchannel, index, pilots), pilots)

    def places(mode, size, cell, slot, subchannel, pilots):
        return answered(ref.places(mode, size, cell, slot, subchannel, pilots), pilots)

    def locate(mode, size, cell, symbol, carrier, pilots):
        return answered(ref.locate(mode, size, cell, symbol, carrier, pilots), pilots)

    dice = random.Random(12)
    for mode, size in SETUPS:
        cells, subchannels, symbols = ref.cells(mode, size), ref.subchannels(mode, size), 512 * ref.SLOT_LENGTH[mode]
        pilots, bad = pilot_lists.of_mode(mode), pilot_lists.unfit(dice, mode)
        good, wrong = [mode, size, cells - 1, 511, subchannels - 1], [8, 128, cells, 512, subchannels]
        check_order(place, [1, 2, 3, 4, 5, 6, 20], good + [47, pilots], wrong + [48, bad])
        check_order(places, [1, 2, 3, 4, 5, 20], good + [pilots], wrong + [bad])
        good, wrong = good[:3] + [symbols - 1, -size // 2], wrong[:3] + [symbols, size // 2]
        check_order(locate, [1, 2, 3, 4, 7, 20], good + [pilots], wrong + [bad])


# --- emptied by carrier: document 02, wish 6 --------------------------------------------------


def test_first_carriers_by_hand():
    """AMC 6x1 at 256, cell 0, slot 0: 20 guards, then bin 0, whose pilot is its second carrier. Cell 0 has E = P, so on
    the bin's data carriers are the indices of 01, 02, 03, 04, 05, 06, 10 and 11 in P, all of subchannel 0."""
    grid, old = [x for place in range(256) for x in (1000 + place, 2000 + place)], list(range(384))
    carriers = {20: 0, 22: 32, 23: 40, 24: 16, 25: 8, 26: 24, 27: 47, 28: 17}
    after = list(old)
    for count in range(30):
        assert ref.empty_first(AMC, 256, 0, 0, 0, count, grid, old) == (0, after)
        if count in carriers:
            at = 2 * carriers[count]
            after[at : at + 2] = [1000 + count, 2000 + count]


def test_known_first_carriers():
    """The known points of placing, the last of each count: carriers 838 and 837 of the two symbols of PUSC downlink are
    places 1862 and 2048 + 1861, -647 of PUSC uplink's middle symbol is 2048 + 377. Carrier 41 at 1024 is 553. Under a
    mask the rank counts: before group 2's first subchannel are twenty where all is lit, none where it is alone."""

    def is_last(count, fields, at):
        mode, size, _, mask, _ = fields
        grid, old = list(range(ref.grid_floats(mode, size))), [-1] * ref.lit_points_len(mode, size, mask)
        before, after = (ref.empty_first(*fields, n, grid, old)[1] for n in (count - 1, count))
        assert before[at : at + 2] == [-1, -1] and after[at : at + 2] == [2 * count - 2, 2 * count - 1]
        assert after[:at] == before[:at] and after[at + 2 :] == before[at + 2 :]

    for mask in (63, 1, 0b100001):
        is_last(1863, (PUSC_DL, 2048, 0, mask, 0), 2 * (48 + 11))
        is_last(2048 + 1862, (PUSC_DL, 2048, 0, mask, 0), 2 * (48 + 35))
    is_last(2048 + 378, (PUSC_UL, 2048, 0, 0, 0), 2 * 48)
    is_last(554, (OFUSC, 1024, 0, 0, 0), 2 * (3 * 48 + 5))
    _, symbol, carrier = ref.place(PUSC_DL, 2048, 7, 3, 20, 30)
    for mask, rank in ((63, 20), (0b100, 0), (0b101, 12), (0b110, 8), (0b110100, 0)):
        is_last(symbol % 2 * 2048 + 1024 + carrier + 1, (PUSC_DL, 2048, 7, mask, 3), 2 * (48 * rank + 30))


def some_counts(dice, mode, size):
    """The edges of each symbol, of its band and of DC, some others, and past the end."""
    places, low, high = size * ref.SLOT_LENGTH[mode], *ref.band(mode, size)
    edges = [row + size // 2 + c for row in range(0, places, size) for c in (-size // 2, low, 0, high, size // 2 - 1)]
    counts = [edge + off for edge in edges for off in (0, 1, 2)] + dice.choices(range(places), k=5)
    return counts + [places + 3, 2**31, 2**32 - 1]


def test_first_carriers():
    """What is written is what look sees as data on these carriers, and nothing else; none of 0, and all of all."""
    dice = random.Random(7)
    for mode in ref.MODES:
        size = ref.sizes(mode)[0]
        for mask in some_masks(mode)[::3]:
            fields = mode, size, dice.randrange(ref.cells(mode, size)), mask, dice.randrange(512)
            grid, pilots = list(range(ref.grid_floats(mode, size))), pilot_lists.of_mode(mode)
            old = [-1 - n for n in range(ref.lit_points_len(mode, size, mask))]
            every = ref.empty(*fields, grid, old, pilots)[1]
            assert ref.empty_first(*fields, 0, grid, old, pilots) == (0, old)
            assert ref.empty_first(*fields, len(grid) // 2, grid, old, pilots) == (0, every)
            lit, seen = lit_by_hand(mode, size, mask), [seen_at(fields, grid, place) for place in range(len(grid) // 2)]
            for count in some_counts(dice, mode, size):
                after = list(old)
                for what in seen[:count]:
                    if what[0] == ref.DATA:
                        at = 2 * (48 * lit.index(what[3]) + what[4])
                        after[at : at + 2] = what[1]
                assert ref.empty_first(*fields, count, grid, old, pilots) == (0, after)


def seen_at(fields, grid, place):
    """What look answers of a place of the grid."""
    mode, size, cell, mask, slot = fields
    symbol = slot * ref.SLOT_LENGTH[mode] + place // size
    return ref.look(mode, size, cell, mask, symbol, grid, place % size - size // 2, pilot_lists.of_mode(mode))[1]


def test_a_first_count_and_then_a_larger():
    """They are the larger alone, also where the carriers past the first count only arrive after it."""
    dice = random.Random(8)
    for mode, size in SETUPS:
        mask = dice.choice(some_masks(mode))
        fields = mode, size, dice.randrange(ref.cells(mode, size)), mask, dice.randrange(512)
        grid, old = list(range(ref.grid_floats(mode, size))), [-1] * ref.lit_points_len(mode, size, mask)
        for _ in range(3):
            first, larger = sorted(dice.choices(range(len(grid) // 2 + 2), k=2))
            arrived, pilots = grid[: 2 * first] + [-2] * (len(grid) - 2 * first), pilot_lists.of_mode(mode)
            between = ref.empty_first(*fields, first, arrived, old, pilots)[1]
            at_once = ref.empty_first(*fields, larger, grid, old, pilots)
            assert ref.empty_first(*fields, larger, grid, between, pilots) == at_once


# --- bursts: document 02, wish 7 --------------------------------------------------------------

ZONE = (OFUSC, 256, 3, 5, 0)  # four subchannels and five slots
ZONE_MODES = PUSC_DL, OFUSC, AMC, AMC_2X3, AMC_3X2, AMC_1X6, FUSC
ZONES = [(mode, size) for mode in ZONE_MODES for size in ref.sizes(mode)]


def test_bursts_by_hand():
    """The zone slot by slot; a dot is of none."""
    numbers = [0, 2, 0, 3] + [0, 4, 4, 1] + [2, 1, 1, 2] + [3, 1, 2, 2]
    drawn = ["00..", "002.", "0023", "...3", "1111"] + ["...."] * 507
    assert ref.bursts_check(*ZONE, numbers) == 0
    for slot, row in enumerate(drawn):
        owners = [64 if sign == "." else int(sign) for sign in row]
        assert ref.burst_owners(*ZONE, slot, numbers) == (0, owners + [64] * 188)
        for subchannel, owner in enumerate(owners):
            looked = 4 if owner == 64 else owner + 1
            assert ref.burst_owner(*ZONE, slot, subchannel, numbers) == (0, owner, looked)
        assert ref.burst_owner(*ZONE, slot, 4, numbers) == (5, 64, 0)
    assert ref.burst_owner(*ZONE, 512, 4, numbers) == (4, 64, 0)
    assert ref.burst_owners(*ZONE, 512, numbers) == (4, [64] * 192)
    assert ref.burst_owner(*ZONE, 0, 0, []) == (0, 64, 0)
    assert ref.burst_owner(*ZONE, 0, 0, [0, 4, 0, 6]) == (18, 64, 0)
    assert ref.burst_owners(*ZONE, 0, [0, 4, 0, 5, 3, 1, 4, 1]) == (19, [64] * 192)


def test_lists_by_hand():
    whole, most = [0, 4, 0, 5], 2**32 - 1
    single = [[subchannel, 1, slot, 1] for slot in range(16) for subchannel in range(4)]
    cases = [
        (0, [], [0, 1, 0, 1], whole, [3, 1, 4, 1], [0, 2, 0, 5, 2, 2, 0, 5], [0, 2, 0, 2, 2, 2, 2, 3]),
        (18, [0], [0, 1], [0, 1, 0], whole + [0], whole + [0, 1, 0]),
        (18, [0, 0, 0, 1], [0, 1, 0, 0], [4, 0, 0, 1], [0, 0, 0, 0], [0, 5, 0, 1], [0, 1, 0, 6], [4, 1, 0, 1]),
        (18, [0, 1, 5, 1], [1, 4, 0, 5], [0, 4, 1, 5], [most, 1, 0, 1], [most, 2, 0, 1], [1, most, 0, 1]),
        (18, [0, 1, most, 1], [0, 1, most, 3], [0, 1, 2, most], [2**31, 2**31 + 1, 0, 1], [most] * 4),
        (19, whole + whole, whole + [3, 1, 4, 1], [1, 2, 1, 3] + whole, [0, 2, 0, 2, 1, 2, 1, 2], [0, 4, 2, 1, 2, 1, 0, 5]),
        # Two faults: the earlier one; at one burst 18.
        (18, [0, 0, 0, 1] + whole + whole, whole + [0, 5, 0, 5], whole + [0, 1, 4, 2] + whole),
        (19, whole + whole + [0, 0, 0, 1], whole + [0, 1, 0, 1] + [0, 9, 0, 9]),
    ]
    for number, *lists in cases:
        for numbers in lists:
            assert ref.bursts_check(*ZONE, numbers) == number, numbers
    zone = OFUSC, 256, 3, 17, 0
    assert ref.bursts_check(*zone, sum(single, [])) == 0
    assert ref.bursts_check(*zone, sum(single[:63], []) + single[0]) == 19
    assert ref.bursts_check(*zone, sum(single, []) + [0, 1, 16, 1]) == 18
    assert ref.burst_owner(*zone, 15, 3, sum(single, [])) == (0, 63, 64)


def test_zones_of_bursts():
    """Every mode but 1, its last subchannel and slot just in it; the mask decides nothing; 14 is not put."""
    for mode, size in ZONES:
        last = {PUSC_DL: 59, OFUSC: size // 64 - 1, FUSC: 31}.get(mode) or WISH_2[mode][2] * size // 64 - 1
        for mask in some_masks(mode):
            for slots in (1, 7, 512):
                zone, numbers = (mode, size, ref.cells(mode, size) - 1, slots, mask), [0, last + 1, slots - 1, 1]
                assert ref.bursts_check(*zone, numbers) == 0
                assert ref.bursts_check(*zone, [0, last + 2, slots - 1, 1]) == 18
                assert ref.bursts_check(*zone, [0, last + 1, slots - 1, 2]) == 18
                assert ref.burst_owners(*zone, slots - 1, numbers) == (0, [0] * (last + 1) + [64] * (191 - last))
                assert ref.burst_owners(*zone, 511, numbers)[1][0] == (0 if slots == 512 else 64)
    for mask in (0, 63):
        assert ref.bursts_check(PUSC_UL, 2048, 0, 1, mask, []) == 1


def test_overlaps_by_arithmetic():
    """Every two bursts of a zone overlap where each starts before the other ends, along subchannels and along slots."""
    runs = [[(first, many) for first in range(limit) for many in range(1, limit + 1 - first)] for limit in (4, 3)]
    bursts = [subchannels + slots for subchannels in runs[0] for slots in runs[1]]
    for a in bursts:
        for b in bursts:
            meet = [a[i] < b[i] + b[i + 1] and b[i] < a[i] + a[i + 1] for i in (0, 2)]
            assert ref.bursts_check(*ZONE[:3], 3, 0, [*a, *b]) == (19 if all(meet) else 0)


def test_questions_of_bursts():
    """Every set of wrong fields; the last is the list, wrong by its length, by one burst or by an overlap."""

    def check(*fields):
        number = ref.bursts_check(*fields)
        return number, fields[-1] if number else None

    def owner(*fields):
        number, *answer = ref.burst_owner(*fields)
        assert number == 0 or answer == [64, 0]
        return number, fields[-1] if number else answer

    def owners(*fields):
        number, row = ref.burst_owners(*fields)
        assert number == 0 or row == [64] * 192
        return number, fields[-1] if number else row

    for mode, size in ZONES:
        cells, subchannels, mask = ref.cells(mode, size), ref.subchannels(mode, size), ref.full_mask(mode)
        good, wrong = [mode, size, cells - 1, 512, mask], [PUSC_UL, 128, cells, 513, 64]
        fit = [0, subchannels, 0, 512]
        for question, unfit in ((18, fit + [0]), (18, fit * 65), (18, fit[:3] + [513]), (19, fit + [0, 1, 511, 1])):
            check_order(check, [1, 2, 3, 13, 17, question], good + [fit], wrong + [unfit])
            questions = [1, 2, 3, 13, 17, 4, 5, question]
            check_order(owner, questions, good + [511, subchannels - 1, fit], wrong + [512, subchannels, unfit])
            check_order(owners, questions[:6] + [question], good + [511, fit], wrong + [512, unfit])
            wrong[0], wrong[3], wrong[4] = 8, 0, 0 if mode == PUSC_DL else 1


def test_tilings():
    """Everything in the zone has one owner, whose position was looked at last; a burst has as much as its sides tell."""
    dice = random.Random(9)
    for mode, size in ZONES:
        slots, subchannels = dice.randrange(1, 12), ref.subchannels(mode, size)
        zone = mode, size, 0, slots, dice.choice(some_masks(mode))
        for count in (1, 2, 17, 63, 64):
            bursts = burst_lists.tiling(dice, (subchannels, slots), count)
            numbers = burst_lists.numbers(bursts)
            assert len(bursts) == min(count, slots * subchannels) and ref.bursts_check(*zone, numbers) == 0
            found = [ref.burst_owners(*zone, slot, numbers)[1] for slot in range(slots + 1)]
            assert all(row[subchannels:] == [64] * (192 - subchannels) for row in found) and found[-1] == [64] * 192
            every = [owner for row in found[:-1] for owner in row[:subchannels]]
            assert [every.count(n) for n in range(len(bursts))] == [burst[1] * burst[3] for burst in bursts]
            for _ in range(5):
                slot, subchannel = dice.randrange(slots + 1), dice.randrange(subchannels)
                owner = found[slot][subchannel]
                answer = 0, owner, len(bursts) if owner == 64 else owner + 1
                assert ref.burst_owner(*zone, slot, subchannel, numbers) == answer


def test_kinds_of_lists():
    """Each kind meets what it is made for, wherever there are two slots for two bursts to lie side by side."""
    dice = random.Random(10)
    for make, refusals in burst_lists.KINDS.values():
        for mode, size in ZONES:
            for slots in [dice.randrange(2, 9)] * 10 + [ref.SLOTS] * 10:
                numbers = burst_lists.numbers(make(dice, (ref.subchannels(mode, size), slots)))
                assert ref.bursts_check(mode, size, 0, slots, ref.full_mask(mode), numbers) in refusals
    for _ in range(100):
        assert ref.bursts_check(*ZONE, burst_lists.not_fours(dice, (4, 5))) == 18


# --- carriers count from DC -------------------------------------------------------------------


def document_01(mode, size):
    """Left guards, right guards, and the used number from which on DC is skipped."""
    n = size // 64
    if mode == FUSC:  # document 02, wish 8
        return 173, 172, 851
    return (184, 183, 840) if mode in (PUSC_DL, PUSC_UL) else (5 * n, 5 * n - 1, 27 * n)


def test_carriers_are_less_half_the_size():
    """Document 02, wish 3: each carrier of document 01 less half the size, so that DC is 0; guards, DC and used carriers
    are a symbol's carriers."""
    for mode in ref.MODES:
        for size in ref.sizes(mode):
            left, right, middle = document_01(mode, size)
            low, end = -size // 2, size // 2
            used = [left + u + (u >= middle) - size // 2 for u in range(2 * middle)]
            assert [ref.carrier_of_used(mode, size, u) for u in range(2 * middle)] == used
            guards = [*range(low, low + left), *range(end - right, end)]
            assert sorted(guards + [0] + used) == list(range(low, end)) == list(ref.carriers(size))
            for carrier in range(low, end):
                kind = ref.locate(mode, size, 0, 0, carrier, pilot_lists.of_mode(mode))[1][0]
                assert (kind == ref.GUARD) == (carrier in guards) and (kind == ref.DC) == (carrier == 0)


def test_question_7():
    """From minus half the size to half the size less 1; 4 is put before it, and 9 after."""
    for mode in ref.MODES:
        for size in ref.sizes(mode):
            half, symbols, mask = size // 2, 512 * ref.SLOT_LENGTH[mode], ref.full_mask(mode)
            grid, pilots = [0] * ref.grid_floats(mode, size), pilot_lists.of_mode(mode)
            for carrier in (-half, -1, 0, 1, half - 1):
                assert ref.locate(mode, size, 0, symbols - 1, carrier, pilots)[0] == 0
                assert ref.look(mode, size, 0, mask, symbols - 1, grid, carrier, pilots)[0] == 0
                assert ref.look(mode, size, 0, mask, symbols - 1, [], carrier, pilots)[0] == 9
            for carrier in (-(2**31), -size, -half - 1, half, size - 1, size, 2**31 - 1):
                assert ref.locate(mode, size, 0, symbols - 1, carrier) == (7, None)
                assert ref.look(mode, size, 0, mask, symbols - 1, [], carrier) == (7, None)
                assert ref.locate(mode, size, 0, symbols, carrier) == (4, None)


# --- FUSC: document 02, wish 8 ----------------------------------------------------------------


def data_number(cell, subchannel, index):
    """The formula of wish 8, its sequence not turned but read further on."""
    n = (index + 13 * subchannel) % 48
    return 32 * n + (ref.FUSC_BASE[(n + subchannel) % 32] + cell) % 32


def some_pilots():
    dice = random.Random(13)
    return [*pilot_lists.GOOD.values(), *(pilot_lists.random_list(dice) for _ in range(5))]


def test_known_fusc_point():
    """Cell 0, subchannel 31, index 46 gives data number 573. Behind 166 pilots at the start that is used number 739, so
    carrier 739 - 851; before pilots at the end it is 573; with 83 on either side of DC it is below them."""
    assert data_number(0, 31, 46) == 573
    assert ref.place(FUSC, 2048, 0, 9, 31, 46, pilot_lists.START) == (0, 9, -112)
    assert ref.place(FUSC, 2048, 0, 9, 31, 46, pilot_lists.END) == (0, 9, -278)
    assert ref.place(FUSC, 2048, 0, 9, 31, 46, pilot_lists.AROUND_DC) == (0, 9, -278)
    # Subchannel 0, index 26: n = 26, where the sequence has 0, so data number 832, which stands past pilots 768 to 933.
    assert ref.FUSC_BASE[26] == 0 and data_number(0, 0, 26) == 832
    assert ref.place(FUSC, 2048, 0, 0, 0, 26, pilot_lists.AROUND_DC) == (0, 0, 832 + 166 - 851 + 1)


def test_fusc_ranges():
    fields, pilots = (FUSC, 2048), pilot_lists.EVEN
    assert FUSC == 7 and ref.sizes(7) == [2048] and ref.cells(*fields) == 32 and ref.subchannels(*fields) == 32
    assert ref.SLOT_LENGTH[7] == 1 and list(ref.masks(7)) == [0]
    assert (ref.points_len(*fields), ref.lit_points_len(*fields, 0), ref.grid_len(*fields)) == (3072, 3072, 4096)
    for size in (256, 512, 1024):
        assert ref.points_len(7, size) == ref.grid_len(7, size) == 0
        assert ref.place(7, size, 0, 0, 0, 0, pilots)[0] == 2
    assert ref.place(*fields, 31, 511, 31, 47, pilots)[0] == 0
    assert ref.place(*fields, 32, 511, 31, 47, pilots)[0] == 3
    assert ref.place(*fields, 31, 512, 31, 47, pilots)[0] == 4
    assert ref.place(*fields, 31, 511, 32, 47, pilots)[0] == 5
    assert ref.place(*fields, 31, 511, 31, 48, pilots)[0] == 6
    assert ref.locate(*fields, 31, 511, 1023, pilots)[0] == 0 and ref.locate(*fields, 31, 512, 0, pilots)[0] == 4


def test_fusc_symbols():
    """Every carrier of a symbol, for every list: guards, DC, the list's pilots, and the data numbers on what is left,
    counted up from the lowest carrier."""
    for number, pilots in enumerate(some_pilots()):
        cell, slot, data = number * 7 % 32, number * 51 % 512, {}
        for subchannel in range(32):
            for index in range(48):
                data[data_number(cell, subchannel, index)] = ref.DATA, slot, subchannel, index
        assert sorted(data) == list(range(1536))
        used = seen = 0
        for carrier in range(-1024, 1024):
            what = ref.locate(FUSC, 2048, cell, slot, carrier, pilots)[1]
            if carrier == 0 or not -851 <= carrier <= 851:
                assert what == ((ref.DC,) if carrier == 0 else (ref.GUARD,))
                continue
            assert what == ((ref.PILOT,) if used in pilots else data[seen])
            if what[0] == ref.DATA:
                assert ref.place(FUSC, 2048, cell, slot, *what[2:], pilots) == (0, slot, carrier)
            seen += what[0] == ref.DATA
            used += 1
        assert (used, seen) == (1702, 1536)


def test_every_cell_of_fusc():
    """Each data number is one point's, whatever the cell."""
    for cell in range(32):
        numbers = [data_number(cell, subchannel, index) for subchannel in range(32) for index in range(48)]
        assert sorted(numbers) == list(range(1536))
        at = [ref.places(FUSC, 2048, cell, 0, subchannel, pilot_lists.END)[1] for subchannel in range(32)]
        assert sum(at, []) == [173 + d + (d >= 851) for d in numbers]


def test_question_20():
    """Each damage, in each call that takes the list; nothing is written. In the other modes any list but the empty one."""
    dice = random.Random(14)
    grid, points, laid = [9] * 4096, [8] * 3072, [7] * 96
    for damage in pilot_lists.DAMAGES.values():
        for good in some_pilots():
            pilots = damage(dice, good)
            fields = FUSC, 2048, 31, 0, 5
            assert ref.place(FUSC, 2048, 31, 5, 0, 0, pilots) == (20, 0, 0)
            assert ref.locate(FUSC, 2048, 31, 5, 0, pilots) == (20, None)
            assert ref.places(FUSC, 2048, 31, 5, 0, pilots) == (20, [])
            assert ref.ground(*fields, [1, 2], grid, pilots) == (20, grid)
            assert ref.lay(*fields, 0, laid, grid, pilots) == (20, grid)
            assert ref.empty(*fields, grid, points, pilots) == (20, points)
            assert ref.empty_first(*fields, 2048, grid, points, pilots) == (20, points)
            assert ref.look(*fields, grid, 0, pilots) == (20, None)
    for mode, size in SETUPS:
        for pilots in (*pilot_lists.GOOD.values(), (0,), (2**32 - 1,)) if mode != FUSC else ():
            assert ref.place(mode, size, 0, 0, 0, 0, pilots)[0] == 20
            assert ref.locate(mode, size, 0, 0, 0, pilots)[0] == 20


# --- AMC's slot shapes ------------------------------------------------------------------------

# Document 02, wish 2, and documents 01 and 000 for six by one: bins, symbols, and how many N subchannels are.
WISH_2 = {3: (6, 1, 1), 4: (2, 3, 3), 5: (3, 2, 2), 6: (1, 6, 6)}


def test_shapes():
    assert (AMC, AMC_2X3, AMC_3X2, AMC_1X6) == (3, 4, 5, 6)
    for mode, (wide, symbols, times) in WISH_2.items():
        assert ref.SHAPES[mode] == (wide, symbols) and ref.SLOT_LENGTH[mode] == symbols
        assert ref.sizes(mode) == [256, 512, 1024, 2048]
        for n in (4, 8, 16, 32):
            assert ref.subchannels(mode, 64 * n) == times * n
            assert ref.cells(mode, 64 * n) == 2352
            assert ref.grid_floats(mode, 64 * n) == 2 * symbols * 64 * n
            check_ends(mode, 64 * n, symbols, times * n)


def check_ends(mode, size, symbols, subchannels):
    """The last of each range is accepted, the next is not."""
    last = subchannels - 1
    assert ref.place(mode, size, 2351, 511, last, 47)[0] == 0
    assert ref.place(mode, size, 2351, 511, subchannels, 47)[0] == 5
    assert ref.place(mode, size, 2351, 511, last, 48)[0] == 6
    assert ref.locate(mode, size, 2351, 512 * symbols - 1, size // 2 - 1) == (0, (ref.GUARD,))
    assert ref.locate(mode, size, 2351, 512 * symbols, size // 2)[0] == 4


def test_amc_points_by_hand():
    """Cell 0 has E = P, so index 2 (46) is at v = 33, index 41 (66) at 47, index 47 (10) at 6. Cell 629 = 13 * 48 + 5 has
    off 16 and per 5: its index 14 takes P's entry 19 (61), the sum is zero, so E is off, and v = 12. At 256 the bins
    start at carrier -108, at 512 at -216, at 2048 at -864; one more in the upper half, from bin 3N on."""
    assert [ref.amc_v(0, 2), ref.amc_v(0, 41), ref.amc_v(0, 47), ref.amc_v(629, 14)] == [33, 47, 6, 12]
    # Six by one. v = 33: bin 4 of bins 18 to 23, place 1; symbol 0, pilot at 1, so its carrier 2: -108 + 198 + 2 + 1.
    assert ref.place(AMC, 256, 0, 0, 3, 2) == (0, 0, 93)
    # v = 12: bin 1 of bins 6 to 11, place 4; symbol 511, pilot at 4, so carrier 5: -864 + 63 + 5.
    assert ref.place(AMC, 2048, 629, 511, 1, 14) == (0, 511, -796)
    # Two by three. v = 33 = 2 * 16 + 1: offset 2, bin 10 of 10 and 11, place 1; pilot at 7, so carrier 1: -108 + 90 + 1.
    assert ref.place(AMC_2X3, 256, 0, 0, 5, 2) == (0, 2, -17)
    # v = 12: offset 0, second of bins 190 and 191, place 4; symbol 1533, pilot at 1, so carrier 5: -864 + 1719 + 5 + 1.
    assert ref.place(AMC_2X3, 2048, 629, 511, 95, 14) == (0, 1533, 861)
    # Three by two. v = 33 = 24 + 9: offset 1, second of bins 21 to 23, place 1. In slots 0, 1, 2 that is symbol 1, 3, 5,
    # pilot at 4, 1, 7, so carrier 1, 2, 1: -108 + 198 + 1 + 1, or one more.
    assert ref.place(AMC_3X2, 256, 0, 0, 7, 2) == (0, 1, 92)
    assert ref.place(AMC_3X2, 256, 0, 1, 7, 2) == (0, 3, 93)
    assert ref.place(AMC_3X2, 256, 0, 2, 7, 2) == (0, 5, 92)
    # v = 47 = 24 + 23: offset 1, third of bins 0 to 2, place 7; symbol 5, pilot at 7, so carrier 8: -864 + 18 + 8.
    assert ref.place(AMC_3X2, 2048, 0, 2, 0, 41) == (0, 5, -838)
    # One by six. v = 33 = 4 * 8 + 1: offset 4, bin 47, place 1; symbol 10, pilot at 4, so carrier 1: -216 + 423 + 1 + 1.
    assert ref.place(AMC_1X6, 512, 0, 1, 47, 2) == (0, 10, 209)
    # v = 47: offset 5, bin 0, place 7; symbol 3071, pilot at 7, so carrier 8: -216 + 8.
    assert ref.place(AMC_1X6, 512, 0, 511, 0, 41) == (0, 3071, -208)
    # v = 6: offset 0, bin 191, place 6; symbol 0, pilot at 1, so carrier 7: -864 + 1719 + 7 + 1.
    assert ref.place(AMC_1X6, 2048, 0, 0, 191, 47) == (0, 0, 863)


def test_amc_places_by_formula():
    """v div 8 bins is the offset, the rest runs over the bins, eight places each: every place of every shape."""
    for mode, (wide, symbols, times) in WISH_2.items():
        for cell, slot, size in ((0, 0, 256), (629, 1, 512), (2351, 2, 1024), (1000, 511, 2048)):
            for subchannel in (0, 1, times * size // 128, times * size // 64 - 1):
                for index in range(48):
                    v = ref.amc_v(cell, index)
                    symbol = slot * symbols + v // (8 * wide)
                    place = v % 8 + (v % 8 > 3 * (symbol % 3))
                    used = 9 * (wide * subchannel + v % (8 * wide) // 8) + place
                    carrier = 5 * size // 64 + used + (used >= 27 * size // 64) - size // 2
                    assert ref.place(mode, size, cell, slot, subchannel, index) == (0, symbol, carrier)


# The pilot's place in each bin, symbol by symbol, of slots 0, 1 and 2: the zone's symbol has 1, 4, 7 in turn.
PILOTS = {
    AMC: [[1], [4], [7]],
    AMC_2X3: [[1, 4, 7], [1, 4, 7], [1, 4, 7]],
    AMC_3X2: [[1, 4], [7, 1], [4, 7]],
    AMC_1X6: [[1, 4, 7, 1, 4, 7], [1, 4, 7, 1, 4, 7], [1, 4, 7, 1, 4, 7]],
}


def carriers_of_bins(size):
    """The carriers of each bin, by rising frequency: all but 5N left guards, 5N - 1 right guards and DC."""
    n = size // 64
    used = [carrier for carrier in range(-27 * n, 27 * n + 1) if carrier != 0]
    return [used[i : i + 9] for i in range(0, 54 * n, 9)]


def test_amc_pilots():
    for mode, slots in PILOTS.items():
        for size in ref.BIN_SIZES:
            symbols = [(slot, place) for slot, places in enumerate(slots) for place in places]
            for symbol, (slot, place) in enumerate(symbols):
                for bin_carriers in carriers_of_bins(size):
                    found = [ref.locate(mode, size, 77, symbol, carrier)[1] for carrier in bin_carriers]
                    assert found[place] == (ref.PILOT,)
                    assert all(what[:2] == (ref.DATA, slot) for i, what in enumerate(found) if i != place)


def test_amc_slots_are_partitioned():
    """In every shape and size, for several cells and slots, each data carrier of the slot is one point's."""
    for mode, slots in PILOTS.items():
        for size in ref.BIN_SIZES:
            bins = carriers_of_bins(size)
            for cell, slot in ((0, 0), (47, 1), (629, 2), (2351, 510), (1176, 511)):
                first = slot * len(slots[0])
                data = [
                    (first + offset, carrier)
                    for offset, pilot in enumerate(slots[slot % 3])
                    for bin_carriers in bins
                    for i, carrier in enumerate(bin_carriers)
                    if i != pilot
                ]
                addresses = [(s, m) for s in range(ref.subchannels(mode, size)) for m in range(48)]
                placed = [ref.place(mode, size, cell, slot, s, m) for s, m in addresses]
                assert sorted(placed) == [(0, symbol, carrier) for symbol, carrier in data]


def test_amc_subchannels_are_adjacent():
    """A subchannel has all data carriers of its bins, in every symbol of the slot."""
    for mode, (wide, symbols, _) in WISH_2.items():
        bins = carriers_of_bins(512)
        for s in range(ref.subchannels(mode, 512)):
            own = sum(bins[wide * s : wide * s + wide], [])
            placed = [ref.place(mode, 512, 99, 2, s, m)[1:] for m in range(48)]
            for symbol in range(2 * symbols, 3 * symbols):
                here = [carrier for y, carrier in placed if y == symbol]
                assert len(set(here)) == 8 * wide and set(here) < set(own)


def test_amc_collisions_are_of_every_shape():
    dice = random.Random(4)
    for mode in ref.SHAPES:
        for a, b in [(48, 176), (5, 5)] + [dice.sample(range(2352), 2) for _ in range(40)]:
            size, slot = dice.choice(ref.BIN_SIZES), dice.randrange(512)
            s = dice.randrange(ref.subchannels(mode, size))
            placed = [[ref.place(mode, size, cell, slot, s, j) for j in range(48)] for cell in (a, b)]
            hits = [int(placed[0][j] == placed[1][j]) for j in range(48)]
            assert ref.amc_collisions(a, b) == (0, hits, sum(hits))


def main():
    for name, test in sorted(globals().items()):
        if name.startswith("test_"):
            test()
    print("reference: all known points hold")


if __name__ == "__main__":
    main()
