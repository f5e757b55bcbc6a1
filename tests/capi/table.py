"""Prints the table of requests and answers that capi_test.c includes, from a fixed seed.

    python3 tests/capi/table.py > build/capi/table.h
"""

import os
import random
import sys

sys.path.insert(0, os.path.dirname(os.path.dirname(os.path.abspath(__file__))))

import pilot_lists
import reference as ref

LARGEST = 2**32 - 1
LEAST_CARRIER, GREATEST_CARRIER = -(2**31), 2**31 - 1
KINDS = {ref.GUARD: 0, ref.DC: 1, ref.PILOT: 2, ref.DATA: 3}
SETUPS = [(mode, size) for mode in ref.MODES for size in ref.sizes(mode)]


def bad_lists(dice):
    """Lists that no mode takes: each damage of a few good ones, and short ones, some of which have nothing wrong but that."""
    goods = [pilot_lists.EVEN, pilot_lists.END, pilot_lists.random_list(dice)]
    damaged = [damage(dice, good) for damage in pilot_lists.DAMAGES.values() for good in goods]
    return [pilots for pilots in damaged if pilots] + [(0,), (5, 1701), (LARGEST,)]


# A row has its pilot list by its number: the empty one, those that FUSC takes, and those that no mode takes.
SOME_DICE = random.Random(20)
GOOD_LISTS = [*pilot_lists.GOOD.values(), pilot_lists.random_list(SOME_DICE), pilot_lists.random_list(SOME_DICE)]
LISTS = [(), *GOOD_LISTS, *bad_lists(SOME_DICE)]


def some_list(dice, mode):
    """The number of a list that the mode takes."""
    return dice.randrange(1, 1 + len(GOOD_LISTS)) if mode == ref.FUSC else 0


def other_list(dice, mode):
    """That of a list which the mode does not take, or at times of one that it takes."""
    return dice.choice([0, dice.randrange(1 + len(GOOD_LISTS), len(LISTS)), dice.randrange(len(LISTS))])


def wrong(dice, good, limit):
    """A number past a range: the first, the last, one cut to an accepted one, or any."""
    return dice.choice([limit, LARGEST, good + 2**16, good + 2**31, dice.randrange(limit, 2**32)])


def wrong_carrier(dice, _, size):
    """The same of a carrier, on either side of the range."""
    end, good = size // 2, dice.choice(ref.carriers(size))
    cut = [good - 2**16, good + 2**16, good + 2**31 if good < 0 else good - 2**31]
    far = [dice.randrange(LEAST_CARRIER, -end), dice.randrange(end, 2**31)]
    return dice.choice([-end - 1, end, LEAST_CARRIER, GREATEST_CARRIER] + cut + far)


def spoiled(dice, good, limits, others={}):
    """Some fields wrong: most often one, sometimes more."""
    fields = list(good)
    for i in dice.sample(range(len(good)), min(len(good), dice.choice([1, 1, 2, 3]))):
        fields[i] = others.get(i, wrong)(dice, good[i], limits[i])
    return fields


def with_lists(dice, row, mode, good, other):
    """A row of the good fields, one of the others with the same list or another, and one of the good with another."""
    yield row(good, some_list(dice, mode))
    yield row(other, dice.choice([some_list, some_list, other_list])(dice, mode))
    if dice.randrange(4) == 0:
        yield row(good, other_list(dice, mode))


def place_row(fields, pilots):
    return fields + [pilots] + list(ref.place(*fields, LISTS[pilots]))


def locate_row(fields, pilots):
    number, what = ref.locate(*fields, LISTS[pilots])
    if number:
        return fields + [pilots, number, 0, 0, 0, 0]
    address = list(what[1:]) if what[0] == ref.DATA else [0, 0, 0]
    return fields + [pilots, 0, KINDS[what[0]]] + address


def place_rows(dice, mode, size):
    limits = [ref.UNLISTED, 2049, ref.cells(mode, size), 512, ref.subchannels(mode, size), 48]
    for _ in range(300):
        good = [mode, size] + [dice.randrange(limit) for limit in limits[2:]]
        yield from with_lists(dice, place_row, mode, good, spoiled(dice, good, limits))


def places_row(fields, pilots):
    number, places = ref.places(*fields, LISTS[pilots])
    return fields + [pilots, number, places or [0]]


def places_rows(dice, mode, size):
    """The first and the last subchannel in the slots whose pilots differ, others in any slot; each also spoiled."""
    limits = [ref.UNLISTED, 2049, ref.cells(mode, size), 512, ref.subchannels(mode, size)]
    ends = [[dice.randrange(limits[2]), slot, s] for slot in (0, 1, 2, 511) for s in (0, limits[4] - 1)]
    for fields in ends + [[dice.randrange(limit) for limit in limits[2:]] for _ in range(40)]:
        good = [mode, size] + fields
        yield from with_lists(dice, places_row, mode, good, spoiled(dice, good, limits))


def carrier_edges(size):
    """The ends of the range and of 32 bits, those just past the range, DC and both beside it."""
    end = size // 2
    return [LEAST_CARRIER, -end - 1, -end, -1, 0, 1, end - 1, end, GREATEST_CARRIER]


def locate_rows(dice, mode, size):
    """A few cells and symbols, many carriers of each, the edges of the range and of the band among them."""
    limits = [ref.UNLISTED, 2049, ref.cells(mode, size), 512 * ref.SLOT_LENGTH[mode], size]
    low, high = ref.band(mode, size)
    for _ in range(6):
        cell, symbol = dice.randrange(limits[2]), dice.randrange(limits[3])
        for carrier in carrier_edges(size) + [low - 1, low, high, high + 1] + dice.choices(ref.carriers(size), k=50):
            fields = [mode, size, cell, symbol, carrier]
            other = spoiled(dice, fields, limits, {4: wrong_carrier})
            yield from with_lists(dice, locate_row, mode, fields, other)


def ofusc_row(fields):
    return fields + [list(ref.ofusc_collisions(*fields))]


def amc_row(fields):
    return fields + [list(ref.amc_collisions(*fields))]


def ofusc_rows(dice, size):
    """Each request good, then with some fields wrong; at times one cell twice, or one subchannel."""
    cells, subchannels = ref.cells(ref.OFUSC, size), ref.subchannels(ref.OFUSC, size)
    limits = [2049, cells, subchannels, cells, subchannels]
    for _ in range(400):
        good = [size] + [dice.randrange(limit) for limit in limits[1:]]
        for i in (1, 2):
            if dice.randrange(8) == 0:
                good[i + 2] = good[i]
        yield ofusc_row(good)
        yield ofusc_row(spoiled(dice, good, limits))


def amc_rows(dice):
    """As ofusc_rows; first document 01's two cells with 3 collisions, which any two seldom have."""
    cells = ref.cells(ref.AMC, 2048)
    yield amc_row([48, 176])
    for _ in range(1500):
        good = [dice.randrange(cells), dice.randrange(cells)]
        if dice.randrange(8) == 0:
            good[1] = good[0]
        yield amc_row(good)
        yield amc_row(spoiled(dice, good, [cells, cells]))


def length_rows():
    """Every mode and size that is listed, those beside, and some that are cut to a listed one."""
    sizes = [size + off for size in ref.BIN_SIZES for off in (0, -1, 1, 2**16, 2**31)] + [0, 64, 128, 4096, LARGEST]
    for mode in [*ref.MODES, ref.UNLISTED, ref.UNLISTED + 1, 2**8, 2**16 + 2, 2**31, 2**31 + 6, LARGEST]:
        for size in sizes:
            yield [mode, size, ref.points_len(mode, size), ref.grid_len(mode, size)]


def lit_rows():
    """Every mask about the range with every mode and size that is listed; masks cut to a right one; unlisted modes and
    sizes."""
    cut = [mask + off for mask in (1, 63) for off in (2**8, 2**16, 2**31)]
    unlisted = [(ref.UNLISTED, 2048), (LARGEST, 2048), (0, 1024), (0, 2049), (2, 128), (6, 0), (7, 1024)]
    for mode, size in SETUPS + unlisted:
        for mask in [*range(66), 127, 128, 255, *cut, LARGEST - 63, LARGEST - 1, LARGEST]:
            yield [mode, size, mask, ref.lit_points_len(mode, size, mask)]


def initializer(value):
    """A number, or a list of such values, as C writes it."""
    if isinstance(value, list):
        return "{%s}" % ", ".join(map(initializer, value))
    return "%du" % value if value >= 0 else "%d" % value


def print_table(kind, name, rows):
    print("static const %s %s[] = {" % (kind, name))
    for row in rows:
        print("    %s," % initializer(row))
    print("};")


def print_lists(name, lists):
    print_table("struct pilot_list", name, [[len(pilots), list(pilots) or [0]] for pilots in lists])


def main():
    dice = random.Random(16)
    places = [row for setup in SETUPS for row in place_rows(dice, *setup)]
    locates = [row for setup in SETUPS for row in locate_rows(dice, *setup)]
    rows = [row for setup in SETUPS for row in places_rows(dice, *setup)]
    ofuscs = [row for size in ref.sizes(ref.OFUSC) for row in ofusc_rows(dice, size)]
    amcs = list(amc_rows(dice))
    assert {row[7] for row in places} == {0, 1, 2, 3, 4, 5, 6, 20}
    assert {row[6] for row in rows} == {0, 1, 2, 3, 4, 5, 20}
    assert {row[6] for row in locates} == {0, 1, 2, 3, 4, 7, 20}
    assert {row[7] for row in locates} == {0, 1, 2, 3}
    for made, number in ((places, 6), (rows, 5), (locates, 5)):
        assert {row[number] for row in made} == set(range(len(LISTS)))
        assert {tuple(row[:2]) for row in made if row[number + 1] == 20} >= set(SETUPS)
    print_lists("pilot_lists", LISTS)
    assert {row[-1][0] for row in ofuscs} == {0, 2, 3, 5}
    assert {row[-1][0] for row in amcs} == {0, 3}
    assert {row[-1][2] for row in ofuscs} >= {0, 1, 2, 3, 48}
    assert {row[-1][2] for row in amcs} == {0, 1, 2, 3, 48}
    print_table("struct place_row", "place_rows", places)
    print_table("struct places_row", "places_rows", rows)
    print_table("struct locate_row", "locate_rows", locates)
    print_table("struct ofusc_row", "ofusc_rows", ofuscs)
    print_table("struct amc_row", "amc_rows", amcs)
    print_table("struct length_row", "length_rows", list(length_rows()))
    print_table("struct lit_row", "lit_rows", list(lit_rows()))


if __name__ == "__main__":
    main()
