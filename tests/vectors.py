"""Writes and checks the stored vectors of the vector programs.

    python3 tests/vectors.py map           writes crates/map_vectors/stdin and stdout
    python3 tests/vectors.py collisions    writes crates/collision_vectors/stdin and stdout
    python3 tests/vectors.py plans         writes crates/plan_vectors/stdin and stdout
    python3 tests/vectors.py --check       fails where a stored file differs from the reference

One request a line, natural numbers in base ten; the answer repeats the request, then a colon:

    p mode size cell slot subchannel index n    n points from this index on: symbol.carrier
    l mode size cell symbol carrier n           n carriers from this one on: guard, dc, pilot
                                                or slot.subchannel.index
    m mode size cell symbol carrier n           the same, from minus this carrier on
    o size cell subchannel cell subchannel      collisions in optional FUSC: document 01's number
                                                or 0, the count, the 48 marks as digits
    s size cell subchannel cell                 the sum of these counts over all subchannels of
                                                the second cell
    a cell cell                                 collisions in AMC, as o

A refused point or carrier stands as `refused` and document 01's number.

Behind the numbers of p, l and m stands the pilot list, its length first; a line that ends before it has the empty list. Its
numbers are below 2**32, and there are at most 167 of them.
"""

import os
import random
import sys

import pilot_lists
import reference as ref
from reference import FUSC, OFUSC, PUSC_DL, PUSC_UL

ROOT = os.path.dirname(os.path.dirname(os.path.abspath(__file__)))
LARGEST = 2**64 - 1
LEAST_CARRIER, GREATEST_CARRIER = -(2**31), 2**31 - 1
INPUT_ROOM = 262144  # what a vector program reads
SETUPS = [(mode, size) for mode in ref.MODES for size in ref.sizes(mode)]
LISTLESS = [(mode, size) for mode, size in SETUPS if mode != FUSC]  # that have no pilot list


# --- the map ----------------------------------------------------------------------------------


def placed_text(pilots, *fields):
    number, symbol, carrier = ref.place(*fields, pilots)
    return "refused %d" % number if number else "%d.%d" % (symbol, carrier)


def located_text(pilots, *fields):
    number, what = ref.locate(*fields, pilots)
    if number:
        return "refused %d" % number
    return "%d.%d.%d" % what[1:] if what[0] == ref.DATA else what[0]


def map_answer(request):
    operation, numbers = request[0], 7 if request[0] == "p" else 6
    fields, (first, count), pilots = request[1 : numbers - 1], request[numbers - 1 : numbers + 1], request[numbers + 2 :]
    assert request[numbers + 1 :] in ((), (len(pilots), *pilots))
    text = placed_text if operation == "p" else located_text
    first = -first if operation == "m" else first
    return " ".join(text(pilots, *fields, first + i) for i in range(count))


def with_list(request, pilots):
    return (*request, len(pilots), *pilots)


def locating(mode, size, cell, symbol, carrier, n):
    """The request for n carriers from this one on, whose sign goes to the operation."""
    assert LEAST_CARRIER <= carrier and carrier + n - 1 <= GREATEST_CARRIER
    return ("m" if carrier < 0 else "l", mode, size, cell, symbol, abs(carrier), n)


def known_points():
    """The known points of document 01 that place and locate answer."""
    yield ("p", OFUSC, 1024, 0, 0, 3, 5, 1)
    yield ("p", OFUSC, 1024, 0, 1, 3, 5, 1)
    yield ("p", OFUSC, 1024, 17, 0, 0, 0, 1)
    yield ("p", PUSC_DL, 2048, 0, 0, 1, 11, 1)
    yield ("p", PUSC_DL, 2048, 0, 0, 1, 35, 1)
    yield ("p", PUSC_UL, 2048, 0, 0, 1, 0, 1)
    for cell in range(32):
        for symbol in (0, 1):
            yield locating(PUSC_DL, 2048, cell, symbol, -841, 2)
            yield locating(PUSC_DL, 2048, cell, symbol, 0, 1)


def whole_slot(mode, size, cell, slot):
    """Every point of a slot: a line a subchannel."""
    for subchannel in range(ref.subchannels(mode, size)):
        yield ("p", mode, size, cell, slot, subchannel, 0, 48)


def whole_symbol(mode, size, cell, symbol):
    """Every carrier of a symbol: a line a cluster, four tiles or six bins; guards and DC apart."""
    low, high = ref.band(mode, size)
    run = {PUSC_DL: 14, PUSC_UL: 16}.get(mode, 54)
    used = [(first + i, min(run, high - i)) for first in (low, 1) for i in range(0, high, run)]
    guards = [(-size // 2, size // 2 + low), (high + 1, size // 2 - high - 1)]
    for carrier, n in sorted(guards + used + [(0, 1)]):
        yield locating(mode, size, cell, symbol, carrier, n)


def slot_cells(mode, size):
    """(cell, slot) of the whole slots. Optional FUSC has both terms, each alone, and the last
    cell, where both sequences turn by N-1. AMC has the zero rule firing twice, then not at all;
    its slots have up to 192 lines, and only so many of them are stored as make 48, one at least."""
    n = ref.n_of(size)
    if mode in ref.SHAPES:
        return [(13 * 48 + 5, 511), (2351, 0), (47, 2)][: max(1, 48 // ref.subchannels(mode, size))]
    return {
        PUSC_DL: [(31, 511), (5, 0)],
        PUSC_UL: [(69, 511), (17, 0)],
        OFUSC: [(2 * n + 1, 0), (3, 511), (2 * n, 1), (n * n - 1, 2)],
    }[mode]


def symbol_cells(mode, size):
    """(cell, symbol) of the whole symbols: every kind of symbol of the mode. AMC has the zone's last
    three symbols, at every second size the three before them: each size has every pilot's place,
    and two sizes together have it at every offset in the slot."""
    n = ref.n_of(size)
    if mode in ref.SHAPES:
        end = 512 * ref.SLOT_LENGTH[mode] - 3 * (ref.BIN_SIZES.index(size) % 2)
        return [(2351, end - 1), (20 * 48 + 31, end - 2), (46, end - 3)]
    return {
        PUSC_DL: [(31, 1022), (19, 1)],
        PUSC_UL: [(69, 1533), (44, 1), (1, 2)],
        OFUSC: [(n * n - 1, 510), (n + 2, 1), (1, 2)],
    }[mode]


def wrong_values(good, limits):
    """Of each field, by the first number that is not accepted: the smallest, the largest, and two that a narrower type
    would cut to an accepted one."""
    return [[limit, number + 2**16, number + 2**32, LARGEST] for number, limit in zip(good, limits)]


def wrong_fields(good, wrong):
    """Each field wrong alone, and together with each later one; the same wrong kind in both."""
    for i in range(len(good)):
        for j in range(i, len(good)):
            for kind in range(4):
                fields = list(good)
                fields[i], fields[j] = wrong[i][kind], wrong[j][kind]
                yield tuple(fields)
    for kind in range(4):
        yield tuple(values[kind] for values in wrong)


def place_refusals(mode, size):
    good = [mode, size, 3, 7, 2, 11]
    limits = [ref.UNLISTED, size + 1, ref.cells(mode, size), 512, ref.subchannels(mode, size), 48]
    for fields in wrong_fields(good, wrong_values(good, limits)):
        yield ("p", *fields, 1)


def refused_lists(mode, size):
    """A list in a mode that has none, good or not: alone, and where the question before it is answered no."""
    for pilots in ((0,), (1, 2, 1701), (1701, 1701), (2**32 - 1,)):
        for index, carrier in ((47, 0), (48, size // 2)):
            yield with_list(("p", mode, size, 3, 7, 2, index, 1), pilots)
            yield with_list(locating(mode, size, 3, 7, carrier, 1), pilots)


def locate_refusals(mode, size):
    """A carrier is wrong on both sides: the first past the highest, and three that a narrower type would cut to 5."""
    good = [mode, size, 3, 7]
    limits = [ref.UNLISTED, size + 1, ref.cells(mode, size), 512 * ref.SLOT_LENGTH[mode]]
    carriers = [size // 2, 5 - 2**16, 5 + 2**16, 5 - 2**31]
    for fields in wrong_fields(good + [5], wrong_values(good, limits) + [carriers]):
        yield locating(*fields, 1)


def edges(mode, size):
    """The last number of every range and the first past it."""
    cells, symbols = ref.cells(mode, size), 512 * ref.SLOT_LENGTH[mode]
    for cell in (cells - 1, cells):
        yield ("p", mode, size, cell, 0, 0, 0, 1)
        yield locating(mode, size, cell, 0, 1, 1)
    for slot in (511, 512):
        yield ("p", mode, size, 0, slot, 0, 0, 1)
    for symbol in (symbols - 1, symbols):
        yield locating(mode, size, 0, symbol, -1, 1)
    for subchannel in (ref.subchannels(mode, size) - 1, ref.subchannels(mode, size)):
        yield ("p", mode, size, 0, 0, subchannel, 0, 1)
    yield ("p", mode, size, 0, 0, 0, 47, 2)
    yield from carrier_edges(mode, size)


def carrier_edges(mode, size):
    """About the lowest carrier, DC, the highest one, the last of a count from 0, and at the ends of 32 bits."""
    half = size // 2
    runs = [(-half - 1, 2), (-1, 3), (half - 1, 2), (size - 1, 2), (LEAST_CARRIER, 2), (GREATEST_CARRIER - 1, 2)]
    for carrier, n in runs:
        yield locating(mode, size, 0, 0, carrier, n)


def size_edges():
    """Sizes that are no mode's, those that are another mode's only, and all of them where the mode is not listed."""
    for mode in (*ref.MODES, ref.UNLISTED, 2**32 - 1):
        for size in (0, 1, 64, 128, 255, 256, 257, 512, 1023, 1024, 1536, 2047, 2048, 2049, 4096, LARGEST):
            yield ("p", mode, size, 0, 0, 0, 0, 1)
            yield locating(mode, size, 0, 0, 0, 1)


def fusc_requests():
    """FUSC with lists of every kind: every carrier of a symbol, and whole subchannels. Then each damage of a list, alone and
    where the question before it is answered no; and the ends of the ranges, each with a list that is right."""
    dice = random.Random(8)
    lists = [*pilot_lists.GOOD.values(), pilot_lists.random_list(dice), pilot_lists.random_list(dice)]
    for i, pilots in enumerate(lists):
        cell, slot = (31, 0, 5, 17, 30, 1, 13)[i], (511, 0, 1, 2, 256, 77, 510)[i]
        yield with_list(locating(FUSC, 2048, cell, slot, -1024, 2048), pilots)
        for subchannel in (0, 31, dice.randrange(1, 31))[: 3 if i < 5 else 1]:
            yield with_list(("p", FUSC, 2048, cell, slot, subchannel, 0, 48), pilots)
    for damage in pilot_lists.DAMAGES.values():
        pilots = damage(dice, dice.choice(lists))
        yield with_list(("p", FUSC, 2048, 3, 7, 2, 47, 2), pilots)
        yield with_list(locating(FUSC, 2048, 3, 7, 1023, 2), pilots)
    for fields in ((31, 511, 31, 46), (32, 511, 31, 47), (31, 512, 31, 47), (31, 511, 32, 47)):
        yield with_list(("p", FUSC, 2048, *fields, 3), pilot_lists.EVEN)
    for cell, symbol, carrier in ((31, 511, -1025), (32, 511, 0), (31, 512, 0), (31, 511, 1021)):
        yield with_list(locating(FUSC, 2048, cell, symbol, carrier, 4), pilot_lists.EVEN)


def scattered(count):
    """Accepted requests anywhere, from a fixed seed."""
    dice = random.Random(802016)
    for _ in range(count):
        mode, size = dice.choice(LISTLESS)
        cell, slot = dice.randrange(ref.cells(mode, size)), dice.randrange(512)
        subchannel, index = dice.randrange(ref.subchannels(mode, size)), dice.randrange(48)
        yield ("p", mode, size, cell, slot, subchannel, index, 1)
        offset = dice.randrange(ref.SLOT_LENGTH[mode])
        yield locating(mode, size, cell, slot * ref.SLOT_LENGTH[mode] + offset, dice.choice(ref.carriers(size)), 1)


def map_requests():
    yield from known_points()
    for mode, size in LISTLESS:
        for cell, slot in slot_cells(mode, size):
            yield from whole_slot(mode, size, cell, slot)
        for cell, symbol in symbol_cells(mode, size):
            yield from whole_symbol(mode, size, cell, symbol)
    for mode, size in SETUPS:  # FUSC too, without its list
        yield from edges(mode, size)
        yield from place_refusals(mode, size)
        yield from locate_refusals(mode, size)
    yield from size_edges()
    yield from scattered(300)
    yield from fusc_requests()
    for mode, size in LISTLESS:
        yield from refused_lists(mode, size)


# --- collisions -------------------------------------------------------------------------------

# Choices that reach the figure of a size: cell and subchannel twice.
REACHED = {256: (10, 0, 4, 2), 512: (32, 0, 45, 7), 1024: (0, 2, 244, 0), 2048: (0, 2, 1010, 0)}
AMC_REACHED = (48, 176)


def collisions_text(answer):
    number, hits, count = answer
    return "%d %d %s" % (number, count, "".join(map(str, hits)))


def collisions_answer(request):
    operation, fields = request[0], request[1:]
    if operation == "o":
        return collisions_text(ref.ofusc_collisions(*fields))
    if operation == "a":
        return collisions_text(ref.amc_collisions(*fields))
    return str(sum(ref.ofusc_collisions(*fields, t)[2] for t in range(ref.n_of(fields[0]))))


def known_collisions():
    """The known points of document 01 that the two calls answer."""
    yield ("o", 1024, 0, 6, 17, 0)
    yield ("o", 1024, 0, 2, 244, 0)
    yield ("o", 2048, 0, 2, 1010, 0)
    yield ("a", 48, 176)


def whole_sum(size, cell_a, subchannel, cell_b):
    """Every subchannel of the second cell, and the sum of the counts."""
    for t in range(ref.n_of(size)):
        yield ("o", size, cell_a, subchannel, cell_b, t)
    yield ("s", size, cell_a, subchannel, cell_b)


def one_cell_twice(size, cell):
    """A subchannel with itself, with its neighbour and with the last one."""
    n = ref.n_of(size)
    for s in range(n):
        for t in sorted({s, (s + 1) % n, n - 1}):
            yield ("o", size, cell, s, cell, t)


def ofusc_edges(size):
    """The last cell and subchannel and the first past it, first and second."""
    n = ref.n_of(size)
    for cell in (n * n - 1, n * n):
        yield ("o", size, cell, 0, 0, 0)
        yield ("o", size, 0, 0, cell, 0)
    for subchannel in (n - 1, n):
        yield ("o", size, 0, subchannel, 1, 0)
        yield ("o", size, 0, 0, 1, subchannel)


def scattered_ofusc(size, count):
    """Accepted requests anywhere, from a fixed seed; then cells that share c1 or c2."""
    dice = random.Random(size)
    n = ref.n_of(size)
    for _ in range(count):
        a, b = dice.randrange(n * n), dice.randrange(n * n)
        s, t = dice.randrange(n), dice.randrange(n)
        yield ("o", size, a, s, b, t)
        yield ("o", size, a, s, a // n * n + b % n, t)
        yield ("o", size, a, s, b // n * n + a % n, t)


def ofusc_requests(size):
    n = ref.n_of(size)
    a, s, b, t = REACHED[size]
    last = n * n - 1
    yield ("o", size, a, s, b, t)
    yield ("o", size, b, t, a, s)
    for cell_a, subchannel, cell_b in ((a, s, b), (last, n - 1, 0), (1, 1, n), (n + 1, 0, n + 1)):
        yield from whole_sum(size, cell_a, subchannel, cell_b)
    for cell in (0, 1, n, last):
        yield from one_cell_twice(size, cell)
    yield from ofusc_edges(size)
    good = [size, 3, 2, 5, 1]
    for fields in wrong_fields(good, wrong_values(good, [size + 1, n * n, n, n * n, n])):
        yield ("o", *fields)
    yield from scattered_ofusc(size, 40)


def amc_requests():
    yield ("a", *AMC_REACHED)
    yield ("a", *reversed(AMC_REACHED))
    for cell in (0, 47, 48, 2351):
        yield ("a", cell, cell)
        yield ("a", cell, 0)
    for cell in (2351, 2352):
        yield ("a", cell, 0)
        yield ("a", 0, cell)
    for fields in wrong_fields([3, 5], wrong_values([3, 5], [2352, 2352])):
        yield ("a", *fields)
    dice = random.Random(7)
    for _ in range(100):
        a, b = dice.randrange(2352), dice.randrange(2352)
        yield ("a", a, b)
        yield ("a", a, a // 48 * 48 + b % 48)
        yield ("a", a, b // 48 * 48 + a % 48)


def collisions_requests():
    yield from known_collisions()
    for size in (0, 64, 128, 255, 257, 768, 1536, 4096, LARGEST):
        yield ("o", size, 0, 0, 0, 0)
    for size in ref.BIN_SIZES:
        yield from ofusc_requests(size)
    yield from amc_requests()


# --- plans ------------------------------------------------------------------------------------

# A buffer of so many bytes, each of this value, of which the first are the destination.
ROOM, BEFORE = 56, 238

# Plans as (size, zones).
PLANS = [
    (1024, [(2, 17, 3, 0), (3, 176, 1, 0)]),
    (2048, [(0, 0, 12, 63)]),
    (2048, [(0, 5, 12, 63)]),
    (256, [(2, 15, 512, 0)]),
    (512, [(3, 2351, 1, 0), (3, 0, 512, 0)]),
    (2048, [(0, 17, 1, 21), (2, 1023, 512, 0), (0, 31, 2, 32), (3, 48, 127, 0), (3, 2351, 128, 0)]),
    (2048, [(0, 0, 1, 1)] + [(2, 1023, 512, 0)] * 7),
    (1024, [(3, 2351, 512, 0)] * 8),
    (512, [(2, 17, 3, 0), (4, 176, 1, 0), (6, 0, 512, 0), (5, 2351, 2, 0), (3, 48, 1, 0)]),
    (2048, [(0, 5, 12, 42), (6, 2351, 512, 0), (4, 0, 1, 0)]),
    (2048, [(0, 5, 12, 63), (7, 31, 512, 0), (7, 0, 1, 0), (2, 0, 1, 0), (7, 1, 2, 0), (3, 2351, 1, 0)]),
]


def plans_answer(request):
    if request[0] == "r":
        number, count, size, zones = ref.read_plan(request[2:])
        return " ".join(map(str, [number, count, size] + [x for zone in zones for x in zone]))
    length, count, size = request[1:4]
    zones = [tuple(request[i : i + 4]) for i in range(4, 36, 4)]
    number, written, dest = ref.write_plan(count, size, zones, [BEFORE] * length)
    return " ".join(map(str, [number, written] + dest + [BEFORE] * (ROOM - length)))


def reading(data):
    return ("r", len(data), *data)


def writing(length, count, size, zones):
    places = list(zones) + [ref.NO_ZONE] * (ref.PLACES - len(zones))
    return ("w", length, count, size, *(x for zone in places for x in zone))


def plan_bytes(count, size, zones):
    """The bytes of any plan, accepted or not."""
    return [byte for x in [count, size] + [x for zone in zones for x in zone] for byte in ref.write_value(x)]


def lit_zone(mode, cell, slots):
    """A zone where all is lit."""
    return mode, cell, slots, ref.full_mask(mode)


def one_zone(size, zone):
    """A zone where no rule on its order speaks: alone, or behind a first zone that is right."""
    return [lit_zone(0, 0, 1), zone] if size == 2048 else [zone]


def limit_cells(mode, size):
    """No cell, the last of the mode's and the first past it, and one that is past all."""
    limits = [ref.cells(mode, size) - 1, ref.cells(mode, size)] if mode in ref.PLAN_MODES else []
    return sorted({0, *limits, 2352})


def limit_plans():
    """(count, size, zones) about the limits: accepted, with one fault, and with two, where the first question decides."""
    good = [(2, 3, 4, 0)]
    for count in (0, 9, 127, 128):
        yield count, 1024, good * min(count, 9)
    yield 0, 1000, []
    yield 9, 128, [(1, 9999, 0, 1)]
    for size in (0, 64, 128, 255, 1023, 1025, 4096):
        yield 1, size, good
        yield 1, size, [(1, 9999, 0, 1)]
    for size in ref.BIN_SIZES:
        for mode in (*ref.MODES, ref.UNLISTED, 127, 128):
            for cell in limit_cells(mode, size):
                for slots in (0, 1, 512, 513):
                    if slots in (0, 513) and cell not in (0, 2352):
                        continue
                    zones = one_zone(size, lit_zone(mode, cell, slots))
                    yield len(zones), size, zones
        for slots in (0, 1, 512, 513):
            yield 1, size, [lit_zone(3, 5, slots)]
            yield 2, size, [lit_zone(0, 0, slots)] * 2
    firsts = [(0, cell, 1) for cell in range(33)] + [(2, 0, 1), (2, 5, 1), (3, 0, 1), (3, 5, 1), (2, 0, 0), (1, 0, 0)]
    for first in firsts:
        yield 1, 2048, [lit_zone(*first)]
        yield 2, 2048, [lit_zone(*first), lit_zone(3, 1, 1)]
    yield from masked_plans()
    yield from ordered_plans()


def masked_plans():
    """(count, size, zones): every mask of mode 0; masks of each mode, good and not, alone and with a fault that is met
    before it (the mode, the size, the cell, the slots) or after it (the order, the plan's end)."""
    for mask in range(1, 64):
        yield 1, 2048, [(0, mask % 32, 1, mask)]
    for mode in (*ref.MODES, ref.UNLISTED):
        for mask in (0, 1, 63, 64, 16384 + 63, 2**21 - 1):
            yield 2, 2048, one_zone(2048, (mode, 1, 1, mask))
            yield 1, 256, [(mode, 1, 1, mask)]
        for mask in (0, 63, 64):
            yield 1, 2048, [(mode, 1, 1, mask)]
            yield 3, 2048, one_zone(2048, (mode, 1, 1, mask))
            yield 2, 2048, one_zone(2048, (mode, 2352, 0, mask))
            yield 2, 2048, one_zone(2048, (mode, 1, 0, mask))
            yield 3, 2048, one_zone(2048, lit_zone(6, 1, 1)) + [(mode, 1, 1, mask)]


def ordered_plans():
    """(count, size, zones): at each size every mode first, and every mode after every other; what may not follow AMC also
    without slots, where 13 is met before 14."""
    modes = (*ref.MODES, ref.UNLISTED)
    for size in ref.BIN_SIZES:
        for mode in modes:
            yield 1, size, [lit_zone(mode, 1, 1)]
            start = one_zone(size, lit_zone(mode, 1, 1))
            for after in modes:
                yield len(start) + 1, size, start + [lit_zone(after, 1, 1)]
                if mode in ref.SHAPES and after not in ref.SHAPES:
                    yield len(start) + 1, size, start + [lit_zone(after, 1, 0)]


def changed_bytes(data):
    """Each byte in turn by others: more follow or not, nothing, one bit."""
    for i, byte in enumerate(data):
        for other in sorted({byte ^ 128, 0, 128, byte ^ 1, 255}):
            if other != byte:
                yield data[:i] + [other] + data[i + 1 :]


def plan_readings():
    for data in ([], [0x81, 0], [0x80], [0x80, 0x80], [0x80] * 3, [0x80, 0x80, 0], [0xFF, 0xFF, 0x7F], [0x80, 0]):
        yield data
        yield data + [1]
        yield [1] + data
        yield [1, 0x80, 0x08] + data
        yield [1, 0x80, 0x08, 2] + data
        yield [1, 0x80, 0x08, 2, 3] + data
        yield [1, 0x80, 0x08, 2, 3, 4] + data
    for size, zones in PLANS:
        data = plan_bytes(len(zones), size, zones)
        for end in range(len(data)):
            yield data[:end]
        yield data
        yield data + [0]
        yield data + [0x80]
        yield from changed_bytes(data) if len(data) < 30 else ()
    for count, size, zones in limit_plans():
        data = plan_bytes(count, size, zones)
        yield data
        if size == 2048:
            yield data + [0]
    yield [0, 0x80]
    yield [1, 0, 0x80]
    yield [1, 0x80, 0x08, 1, 0]
    yield [1, 0x80, 0x08, 1, 0, 1]
    yield [2, 0x80, 0x10, 2, 0, 1, 0]


def with_number(zones, place, field, value):
    places = list(zones) + [ref.NO_ZONE] * (ref.PLACES - len(zones))
    places[place] = places[place][:field] + (value,) + places[place][field + 1 :]
    return places


def plan_writings():
    for size, zones in PLANS:
        need = len(plan_bytes(len(zones), size, zones))
        for length in range(need + 2) if need < 20 else (0, 1, need // 2, need - 1, need, need + 1):
            if length <= ROOM:
                yield length, len(zones), size, zones
        for place in sorted({len(zones), 7}):
            for field in range(4):
                if len(zones) < ref.PLACES:
                    yield ROOM, len(zones), size, with_number(zones, place, field, 1)
                    yield ROOM, len(zones), size, with_number(zones, place, field, LARGEST)
        for count in (0, 9, 2**32, LARGEST):
            yield ROOM, count, size, zones
            yield 0, count, size, zones
        for field in range(4):
            for value in (2**21, 2**32, 2**32 + 63, LARGEST):
                yield ROOM, len(zones), size, with_number(zones, len(zones) - 1, field, value)
    for count, size, zones in limit_plans():
        if len(zones) <= ref.PLACES:
            yield ROOM, count, size, zones
    for size in (1024 + 2**32, LARGEST):
        yield ROOM, 1, size, [(2, 3, 4, 0)]
    yield ROOM, 1, 1024, []


def plans_requests():
    for data in plan_readings():
        yield reading(data)
    for length, count, size, zones in plan_writings():
        yield writing(length, count, size, zones)


# --- the stored files -------------------------------------------------------------------------

# The name of a set of vectors: its crate, its requests, the answer to one.
SETS = {
    "map": ("map_vectors", map_requests, map_answer),
    "collisions": ("collision_vectors", collisions_requests, collisions_answer),
    "plans": ("plan_vectors", plans_requests, plans_answer),
}


def files(name):
    """The path and the text of each stored file of a set, which has each request once."""
    crate, requests, answer = SETS[name]
    lines = [(" ".join(map(str, request)), answer(request)) for request in dict.fromkeys(requests())]
    folder = os.path.join(ROOT, "crates", crate)
    asked = "".join("%s\n" % request for request, _ in lines)
    assert len(asked) <= INPUT_ROOM
    yield os.path.join(folder, "stdin"), asked
    yield os.path.join(folder, "stdout"), "".join("%s: %s\n" % line for line in lines)


def write(name):
    for path, text in files(name):
        os.makedirs(os.path.dirname(path), exist_ok=True)
        with open(path, "w", encoding="ascii", newline="\n") as file:
            file.write(text)


def stored(path):
    if not os.path.exists(path):
        return None
    with open(path, encoding="ascii", newline="") as file:
        return file.read()


def check():
    stale = [path for name in SETS for path, text in files(name) if stored(path) != text]
    for path in stale:
        print("differs from the reference: %s" % os.path.relpath(path, ROOT))
    if stale:
        sys.exit(1)
    print("vectors: stored files agree with the reference")


def main():
    if sys.argv[1:] == ["--check"]:
        check()
    elif len(sys.argv) == 2 and sys.argv[1] in SETS:
        write(sys.argv[1])
    else:
        sys.exit("usage: vectors.py %s | --check" % " | ".join(SETS))


if __name__ == "__main__":
    main()
