"""Document 01, as changed by document 02's wishes 1 to 8, in plain Python, written from the papers alone.

The stored vectors and the tests through C are made from this file. It is as simple as it can be
and slow where that is simpler: locating builds the whole slot by placing and looks the carrier up.

A refusal is document 01's number; 0 means accepted. Floats are handled as 32-bit patterns. A pilot list is the used numbers of
FUSC's pilots; it comes last in a call, and is empty in every other mode.
"""

from functools import lru_cache
from itertools import product

# Document 003, table 308: the renumbering sequence and the two permutation bases.
R = [
    6, 108, 37, 81, 31, 100, 42, 116, 32, 107, 30, 93, 54, 78, 10, 75, 50, 111, 58, 106, 23, 105, 16, 117,
    39, 95, 7, 115, 25, 119, 53, 71, 22, 98, 28, 79, 17, 63, 27, 72, 29, 86, 5, 101, 49, 104, 9, 68,
    1, 73, 36, 74, 43, 62, 20, 84, 52, 64, 34, 60, 66, 48, 97, 21, 91, 40, 102, 56, 92, 47, 90, 33,
    114, 18, 70, 15, 110, 51, 118, 46, 83, 45, 76, 57, 99, 35, 67, 55, 85, 59, 113, 11, 82, 38, 88, 19,
    77, 3, 87, 12, 89, 26, 65, 41, 109, 44, 69, 8, 61, 13, 96, 14, 103, 2, 80, 24, 112, 4, 94, 0,
]
BASE_12 = [6, 9, 4, 8, 10, 11, 5, 2, 7, 3, 1, 0]
BASE_8 = [7, 4, 0, 2, 1, 5, 3, 6]

# Document 000, section 2.1: the basic permutation sequence of FUSC.
FUSC_BASE = [
    3, 18, 2, 8, 16, 10, 11, 15, 26, 22, 6, 9, 27, 20, 25, 1,
    29, 7, 21, 5, 28, 31, 23, 17, 4, 24, 0, 13, 12, 19, 14, 30,
]

# Document 000, section 2.2.2: the tile permutation.
Q = [
    6, 48, 58, 57, 50, 1, 13, 26, 46, 44, 30, 3, 27, 53, 22, 18, 61, 7, 55, 36, 45, 37, 52, 15,
    40, 2, 20, 4, 34, 31, 10, 5, 41, 9, 69, 63, 21, 11, 12, 19, 68, 56, 43, 23, 25, 39, 66, 42,
    16, 47, 51, 8, 62, 14, 33, 24, 32, 17, 54, 29, 67, 49, 65, 35, 38, 59, 64, 28, 60, 0,
]

# Document 004: the basic sequence over pairs of base-seven digits, the high digit first.
P = """
    01 22 46 52 42 41 26 50 05 33 62 43 63 65 32 40 04 11 23 61 21 24 13 60
    06 55 31 25 35 36 51 20 02 44 15 34 14 12 45 30 03 66 54 16 56 53 64 10
""".split()

MODES = range(8)
UNLISTED = len(MODES)  # the first number that is no mode
PUSC_DL, PUSC_UL, OFUSC, AMC, AMC_2X3, AMC_3X2, AMC_1X6, FUSC = MODES

# The slot of each AMC mode (document 02, wish 2): how many bins a subchannel is wide, how many symbols a slot is long.
SHAPES = {AMC: (6, 1), AMC_2X3: (2, 3), AMC_3X2: (3, 2), AMC_1X6: (1, 6)}

SLOT_LENGTH = {PUSC_DL: 2, PUSC_UL: 3, OFUSC: 1, FUSC: 1, **{mode: symbols for mode, (_, symbols) in SHAPES.items()}}
BIN_SIZES = [256, 512, 1024, 2048]
SLOTS = 512
POINTS = 48
FUSC_USED = frozenset(range(1702))  # its used numbers (document 02, wish 8)
FUSC_PILOTS = 166  # of its one symbol


# --- ranges -----------------------------------------------------------------------------------


def sizes(mode):
    return [2048] if mode in (PUSC_DL, PUSC_UL, FUSC) else BIN_SIZES


def n_of(size):
    """N of modes 2 to 6: size = 64N."""
    return size // 64


def cells(mode, size):
    if mode in (PUSC_DL, FUSC):
        return 32
    if mode == PUSC_UL:
        return 70
    return n_of(size) ** 2 if mode == OFUSC else 2352


def subchannels(mode, size):
    if mode == PUSC_DL:
        return 60
    if mode == PUSC_UL:
        return 70
    if mode == OFUSC:
        return n_of(size)
    if mode == FUSC:
        return 32
    wide, _ = SHAPES[mode]
    return 6 * n_of(size) // wide


def masks(mode):
    """Bit g of a mask is major group g of mode 0 (document 02, wish 5); the other modes, where all is lit, have 0."""
    return range(1, 64) if mode == PUSC_DL else range(1)


def full_mask(mode):
    """The mask that lights all."""
    return masks(mode)[-1]


# --- the questions put to a request -----------------------------------------------------------


def refusal(questions):
    """Turns a call's questions, each a number and its answer, in the order in which they are put, into its refusal: the
    number of the first no, or 0. Later questions are not put."""

    def first_no(*fields):
        return next((number for number, yes in questions(*fields) if not yes), 0)

    return first_no


def setup_questions(mode, size, cell):
    yield 1, mode in MODES
    yield 2, size in sizes(mode)
    yield 3, cell < cells(mode, size)


def lit_questions(mode, size, cell, mask):
    """Of a call that has a mask."""
    yield from setup_questions(mode, size, cell)
    yield 17, mask in masks(mode)


def pilot_questions(mode, pilots):
    """Of every call that has a pilot list (document 02, wish 8): as many as the mode has, each at least one more than
    the one before it, and none beyond the last used number."""
    right = FUSC_PILOTS if mode == FUSC else 0
    yield 20, len(pilots) == right and list(pilots) == sorted(FUSC_USED.intersection(pilots))


def subchannel_questions(mode, size, cell, slot, subchannel):
    """Of a call that has a slot and a subchannel, lit or not."""
    yield from setup_questions(mode, size, cell)
    yield 4, slot < SLOTS
    yield 5, subchannel < subchannels(mode, size)


@refusal
def place_refusal(mode, size, cell, slot, subchannel, index, pilots=()):
    yield from subchannel_questions(mode, size, cell, slot, subchannel)
    yield 6, index < POINTS
    yield from pilot_questions(mode, pilots)


@refusal
def places_refusal(mode, size, cell, slot, subchannel, pilots=()):
    yield from subchannel_questions(mode, size, cell, slot, subchannel)
    yield from pilot_questions(mode, pilots)


@refusal
def locate_refusal(mode, size, cell, symbol, carrier, pilots=()):
    yield from setup_questions(mode, size, cell)
    yield 4, symbol < SLOTS * SLOT_LENGTH[mode]
    yield 7, carrier in carriers(size)
    yield from pilot_questions(mode, pilots)


@refusal
def ground_refusal(mode, size, cell, mask, slot, grid_len, pilots=()):
    """Lengths count floats."""
    yield from lit_questions(mode, size, cell, mask)
    yield 4, slot < SLOTS
    yield from pilot_questions(mode, pilots)
    yield 9, grid_len == grid_floats(mode, size)


@refusal
def lay_refusal(mode, size, cell, mask, slot, subchannel, points_len, grid_len, pilots=()):
    """Here 8 is about 96 floats (document 02, wish 4)."""
    yield from lit_questions(mode, size, cell, mask)
    yield 4, slot < SLOTS
    yield 5, subchannel in lit_subchannels(mode, size, mask)
    yield from pilot_questions(mode, pilots)
    yield 8, points_len == 2 * POINTS
    yield 9, grid_len == grid_floats(mode, size)


@refusal
def buffers_refusal(mode, size, cell, mask, slot, points_len, grid_len, pilots=()):
    """Of empty and empty_first, and of fill as document 01 has it."""
    yield from lit_questions(mode, size, cell, mask)
    yield 4, slot < SLOTS
    yield from pilot_questions(mode, pilots)
    yield 8, points_len == 96 * len(lit_subchannels(mode, size, mask))
    yield 9, grid_len == grid_floats(mode, size)


@refusal
def look_refusal(mode, size, cell, mask, symbol, grid_len, carrier, pilots=()):
    yield from lit_questions(mode, size, cell, mask)
    yield 4, symbol < SLOTS * SLOT_LENGTH[mode]
    yield 7, carrier in carriers(size)
    yield from pilot_questions(mode, pilots)
    yield 9, grid_len == grid_floats(mode, size)


setup_refusal, lit_refusal = refusal(setup_questions), refusal(lit_questions)


def grid_floats(mode, size):
    return 2 * size * SLOT_LENGTH[mode]


def points_len(mode, size):
    """As the call answers it: 0 for a mode and size that the map does not have."""
    return 0 if setup_refusal(mode, size, 0) else 96 * subchannels(mode, size)


def lit_points_len(mode, size, mask):
    return 0 if lit_refusal(mode, size, 0, mask) else 96 * len(lit_subchannels(mode, size, mask))


def grid_len(mode, size):
    return 0 if setup_refusal(mode, size, 0) else grid_floats(mode, size)


# --- carriers: signed offsets from DC, which is 0 (document 02, wish 3) -----------------------


def carriers(size):
    """The carriers of a symbol, by rising frequency."""
    return range(-(size // 2), size // 2)


def used_numbers(mode, size):
    if mode == FUSC:
        return len(FUSC_USED)
    return 1680 if mode in (PUSC_DL, PUSC_UL) else 54 * n_of(size)


def band(mode, size):
    """The lowest and the highest used carrier: as many used numbers lie below DC as above it."""
    half = used_numbers(mode, size) // 2
    return -half, half


def carrier_of_used(mode, size, used):
    """Used numbers count up to DC, which has none, and on behind it."""
    carrier = band(mode, size)[0] + used
    return carrier if carrier < 0 else carrier + 1


def cluster_pilots(symbol):
    return (4, 8) if symbol % 2 == 0 else (0, 12)


def bin_pilot(symbol):
    return 3 * (symbol % 3) + 1


def is_pilot(mode, symbol, used, pilots):
    if mode == FUSC:
        return used in pilots
    if mode == PUSC_DL:
        return used % 14 in cluster_pilots(symbol)
    if mode == PUSC_UL:
        return symbol % 3 != 1 and used % 4 in (0, 3)
    return used % 9 == bin_pilot(symbol)


# --- placing ----------------------------------------------------------------------------------

# Where the major groups' logical clusters start; 120 is the end of the last.
GROUP_FIRST_LOGICAL = [0, 24, 40, 64, 80, 104, 120]


@lru_cache(maxsize=None)
def physical_of_logical(cell, logical):
    """Logical = R[(physical + 13 cell) mod 120], read from logical to physical."""
    found = [p for p in range(120) if R[(p + 13 * cell) % 120] == logical]
    assert len(found) == 1
    return found[0]


def group_of(subchannel):
    """The major group and the subchannel's number in it: 12, 8, 12, 8, 12, 8 subchannels."""
    group = 0
    while True:
        m = 12 if group % 2 == 0 else 8
        if subchannel < m:
            return group, m, subchannel
        subchannel -= m
        group += 1


def place_pusc_dl(cell, slot, subchannel, index):
    group, m, s = group_of(subchannel)
    base = BASE_12 if m == 12 else BASE_8
    symbol = 2 * slot + index // 24
    k = index % 24
    n = (k + 13 * s) % 24
    data = m * n + (base[(n + s) % m] + cell) % m
    physical = physical_of_logical(cell, GROUP_FIRST_LOGICAL[group] + data // 12)
    data_places = [p for p in range(14) if p not in cluster_pilots(symbol)]
    return symbol, 14 * physical + data_places[data % 12]


def tiles(cell, subchannel):
    """The six tiles of a PUSC uplink subchannel."""
    return [70 * t + (Q[(subchannel + t) % 70] + cell) % 70 for t in range(6)]


# Data places of a PUSC uplink subchannel: by symbol, then tile, then carrier of the tile.
UL_DATA_PLACES = [
    (offset, t, x)
    for offset in range(3)
    for t in range(6)
    for x in range(4)
    if offset == 1 or x in (1, 2)
]


def place_pusc_ul(cell, slot, subchannel, index):
    offset, t, x = UL_DATA_PLACES[(index + 13 * subchannel) % 48]
    return 3 * slot + offset, 4 * tiles(cell, subchannel)[t] + x


# Data places 0..7 of a bin, by the pilot that is left out.
BIN_DATA_PLACES = {pilot: [p for p in range(9) if p != pilot] for pilot in (1, 4, 7)}


def used_of_bin_place(symbol, bin_number, place):
    return 9 * bin_number + BIN_DATA_PLACES[bin_pilot(symbol)][place]


MODULUS = {4: 7, 8: 11, 16: 19, 32: 37}


def field_times(n, a, b):
    """Product of polynomials with coefficients modulo 2, modulo the field's polynomial."""
    product = 0
    for bit in range(5):
        if b >> bit & 1:
            product ^= a << bit
    while product >= n:
        product ^= MODULUS[n] << (product.bit_length() - MODULUS[n].bit_length())
    return product


@lru_cache(maxsize=None)
def sequences(n):
    """P1, the powers of 2 from the zeroth on; P2, every second of them."""
    p1 = [1]
    while len(p1) < n - 1:
        p1.append(field_times(n, p1[-1], 2))
    return p1, [p1[2 * i % (n - 1)] for i in range(n - 1)]


def place_ofusc(size, cell, slot, subchannel, index):
    n = n_of(size)
    p1, p2 = sequences(n)
    c1, c2 = cell % n, cell // n
    k = (index + 23 * subchannel) % 48
    k_ = k % (n - 1)
    inner = subchannel
    if c1 != 0:
        inner ^= p1[(k_ + c1) % (n - 1)]
    if c2 != 0:
        inner ^= p2[(k_ + c2) % (n - 1)]
    data = n * k + inner
    return slot, used_of_bin_place(slot, data // 8, data % 8)


def amc_v(cell, index):
    """The place 0..47 of an index in its subchannel."""
    per, off = cell % 48, cell // 48
    high, low = off // 7, off % 7
    entry = P[(index + per) % 48]
    e = ((int(entry[0]) + high) % 7, (int(entry[1]) + low) % 7)
    if e == (0, 0):
        e = (high, low)
    return 7 * e[0] + e[1] - 1


# Traffic places of an AMC subchannel: along the carriers of a bin, then its next bin, then the next symbol.
AMC_TRAFFIC_PLACES = {
    mode: [(offset, b, x) for offset in range(symbols) for b in range(wide) for x in range(8)]
    for mode, (wide, symbols) in SHAPES.items()
}


def place_amc(mode, cell, slot, subchannel, index):
    wide, symbols = SHAPES[mode]
    offset, b, x = AMC_TRAFFIC_PLACES[mode][amc_v(cell, index)]
    symbol = symbols * slot + offset
    return symbol, used_of_bin_place(symbol, wide * subchannel + b, x)


@lru_cache(maxsize=256)
def fusc_data(pilots):
    """The used numbers that are no pilots, rising: data number d stands on the one at d."""
    return sorted(FUSC_USED.difference(pilots))


def place_fusc(cell, slot, subchannel, index, pilots):
    turned = FUSC_BASE[subchannel:] + FUSC_BASE[:subchannel]  # to the left, as document 000 has it
    n = (index + 13 * subchannel) % 48
    data = 32 * n + (turned[n % 32] + cell) % 32
    return slot, fusc_data(tuple(pilots))[data]


def placed(mode, size, cell, slot, subchannel, index, pilots=()):
    """(symbol, carrier) of a point whose questions were put."""
    if mode == FUSC:
        symbol, used = place_fusc(cell, slot, subchannel, index, pilots)
    elif mode == PUSC_DL:
        symbol, used = place_pusc_dl(cell, slot, subchannel, index)
    elif mode == PUSC_UL:
        symbol, used = place_pusc_ul(cell, slot, subchannel, index)
    elif mode == OFUSC:
        symbol, used = place_ofusc(size, cell, slot, subchannel, index)
    else:
        symbol, used = place_amc(mode, cell, slot, subchannel, index)
    return symbol, carrier_of_used(mode, size, used)


def place(mode, size, cell, slot, subchannel, index, pilots=()):
    """(refusal, symbol, carrier)."""
    number = place_refusal(mode, size, cell, slot, subchannel, index, pilots)
    return (number, 0, 0) if number else (0, *placed(mode, size, cell, slot, subchannel, index, pilots))


# --- its reverse ------------------------------------------------------------------------------

GUARD, DC, PILOT, DATA = "guard", "dc", "pilot", "data"


def slot_symbols(mode, slot):
    return range(slot * SLOT_LENGTH[mode], (slot + 1) * SLOT_LENGTH[mode])


def slot_pilots(mode, size, slot, pilots):
    """(symbol, carrier) of every pilot of a slot."""
    lent = frozenset(pilots)
    return [
        (symbol, carrier_of_used(mode, size, used))
        for symbol in slot_symbols(mode, slot)
        for used in range(used_numbers(mode, size))
        if is_pilot(mode, symbol, used, lent)
    ]


@lru_cache(maxsize=64)
def slot_map(mode, size, cell, slot, pilots=()):
    """What stands on each (symbol, carrier) of a slot; every place is taken once. The pilots are a tuple."""
    found = {(symbol, 0): (DC,) for symbol in slot_symbols(mode, slot)}
    for pilot in slot_pilots(mode, size, slot, pilots):
        assert pilot not in found
        found[pilot] = (PILOT,)
    for subchannel in range(subchannels(mode, size)):
        for index in range(POINTS):
            symbol, carrier = placed(mode, size, cell, slot, subchannel, index, pilots)
            assert (symbol, carrier) not in found
            found[symbol, carrier] = (DATA, slot, subchannel, index)
    return found


def locate(mode, size, cell, symbol, carrier, pilots=()):
    """(refusal, what): (GUARD,), (DC,), (PILOT,) or (DATA, slot, subchannel, index)."""
    number = locate_refusal(mode, size, cell, symbol, carrier, pilots)
    if number:
        return number, None
    found = slot_map(mode, size, cell, symbol // SLOT_LENGTH[mode], tuple(pilots))
    return 0, found.get((symbol, carrier), (GUARD,))


# --- what a mask lights (document 02, wish 5) -------------------------------------------------


def lit_groups(mask):
    return [group for group in range(6) if mask & 2**group]


@lru_cache(maxsize=None)
def lit_subchannels(mode, size, mask):
    """The subchannels of the lit groups, rising; where there are no groups all."""
    every = range(subchannels(mode, size))
    return tuple(s for s in every if mode != PUSC_DL or group_of(s)[0] in lit_groups(mask))


@lru_cache(maxsize=64)
def lit_carriers(mode, size, cell, mask):
    """The used carriers of the lit groups' clusters, pilots too; where there are no groups all."""
    used = range(used_numbers(mode, size))
    if mode == PUSC_DL:
        used = [
            14 * physical_of_logical(cell, logical) + place
            for group in lit_groups(mask)
            for logical in range(*GROUP_FIRST_LOGICAL[group : group + 2])
            for place in range(14)
        ]
    return frozenset(carrier_of_used(mode, size, u) for u in used)


def rank(mode, size, mask, subchannel):
    """How many lit subchannels are below this lit one."""
    return lit_subchannels(mode, size, mask).index(subchannel)


# --- grids: flat lists of 32-bit patterns, two a point, in-phase first ------------------------


def column(size, carrier):
    """Where a carrier stands in its symbol's row, which starts with the lowest."""
    return carriers(size).index(carrier)


def grid_at(mode, size, symbol, carrier):
    """Where a point's two floats start in its slot's grid."""
    return 2 * (symbol % SLOT_LENGTH[mode] * size + column(size, carrier))


def places(mode, size, cell, slot, subchannel, pilots=()):
    """(refusal, the place in the slot's grid of each of the subchannel's points), counted in points."""
    number = places_refusal(mode, size, cell, slot, subchannel, pilots)
    if number:
        return number, []
    at = [placed(mode, size, cell, slot, subchannel, index, pilots) for index in range(POINTS)]
    return 0, [grid_at(mode, size, symbol, carrier) // 2 for symbol, carrier in at]


def points_at(mode, size, mask, subchannel, index):
    """Where a point's two floats start in the points of the lit subchannels."""
    return 2 * (POINTS * rank(mode, size, mask, subchannel) + index)


def ground(mode, size, cell, mask, slot, pilot, grid, pilots=()):
    """(refusal, the grid afterwards): the pilot point on lit pilots, zeros elsewhere, on data carriers too."""
    number = ground_refusal(mode, size, cell, mask, slot, len(grid), pilots)
    if number:
        return number, list(grid)
    after, lit = [0] * len(grid), lit_carriers(mode, size, cell, mask)
    for symbol, carrier in slot_pilots(mode, size, slot, pilots):
        if carrier in lit:
            at = grid_at(mode, size, symbol, carrier)
            after[at : at + 2] = pilot
    return 0, after


def lay(mode, size, cell, mask, slot, subchannel, points, grid, pilots=()):
    """(refusal, the grid afterwards): one subchannel's 48 points where they are placed, no other float touched."""
    number = lay_refusal(mode, size, cell, mask, slot, subchannel, len(points), len(grid), pilots)
    if number:
        return number, list(grid)
    after = list(grid)
    for index in range(POINTS):
        symbol, carrier = placed(mode, size, cell, slot, subchannel, index, pilots)
        at = grid_at(mode, size, symbol, carrier)
        after[at : at + 2] = points[2 * index : 2 * index + 2]
    return 0, after


def fill(mode, size, cell, mask, slot, pilot, points, grid, pilots=()):
    """(refusal, the grid afterwards). No call any more, but what the ground and a lay of every lit subchannel must give;
    the points are the lit subchannels', rising."""
    number = buffers_refusal(mode, size, cell, mask, slot, len(points), len(grid), pilots)
    if number:
        return number, list(grid)
    after, lit = [0] * len(grid), lit_carriers(mode, size, cell, mask)
    for (symbol, carrier), what in slot_map(mode, size, cell, slot, tuple(pilots)).items():
        at = grid_at(mode, size, symbol, carrier)
        if what[0] == PILOT and carrier in lit:
            after[at : at + 2] = pilot
        if what[0] == DATA and carrier in lit:
            source = points_at(mode, size, mask, what[2], what[3])
            after[at : at + 2] = points[source : source + 2]
    return 0, after


def empty(mode, size, cell, mask, slot, grid, points, pilots=()):
    """(refusal, the points afterwards): the lit subchannels' points, rising."""
    number = buffers_refusal(mode, size, cell, mask, slot, len(points), len(grid), pilots)
    if number:
        return number, list(points)
    after = []
    for subchannel in lit_subchannels(mode, size, mask):
        for index in range(POINTS):
            symbol, carrier = placed(mode, size, cell, slot, subchannel, index, pilots)
            at = grid_at(mode, size, symbol, carrier)
            after += grid[at : at + 2]
    return 0, after


def empty_first(mode, size, cell, mask, slot, carriers, grid, points, pilots=()):
    """(refusal, the points afterwards): of the lit subchannels' points those that stand on so many carriers from the
    grid's start, guards, DC and pilots counted too; no other float touched. Any count will do (document 02, wish 6)."""
    number = buffers_refusal(mode, size, cell, mask, slot, len(points), len(grid), pilots)
    if number:
        return number, list(points)
    after = list(points)
    for subchannel in lit_subchannels(mode, size, mask):
        for index in range(POINTS):
            symbol, carrier = placed(mode, size, cell, slot, subchannel, index, pilots)
            at = grid_at(mode, size, symbol, carrier)
            if at < 2 * carriers:
                to = points_at(mode, size, mask, subchannel, index)
                after[to : to + 2] = grid[at : at + 2]
    return 0, after


def look(mode, size, cell, mask, symbol, grid, carrier, pilots=()):
    """(refusal, what): ("nothing",), (PILOT, point) or (DATA, point, slot, subchannel, index)."""
    number = look_refusal(mode, size, cell, mask, symbol, len(grid), carrier, pilots)
    if number:
        return number, None
    _, what = locate(mode, size, cell, symbol, carrier, pilots)
    at = grid_at(mode, size, symbol, carrier)
    point = list(grid[at : at + 2])
    if what[0] in (GUARD, DC) or carrier not in lit_carriers(mode, size, cell, mask):
        return 0, ("nothing",)
    return 0, (what[0], point) + what[1:]


# --- meetings ---------------------------------------------------------------------------------


def ofusc_collisions_refusal(size, cell_a, subchannel_a, cell_b, subchannel_b):
    """Questions 2, 3, 3, 5, 5."""
    if size not in BIN_SIZES:
        return 2
    if cell_a >= cells(OFUSC, size) or cell_b >= cells(OFUSC, size):
        return 3
    return 0 if subchannel_a < n_of(size) and subchannel_b < n_of(size) else 5


def ofusc_collisions(size, cell_a, subchannel_a, cell_b, subchannel_b, slot=0):
    """(refusal, marks by group, their count). The answer is the same for every slot."""
    number = ofusc_collisions_refusal(size, cell_a, subchannel_a, cell_b, subchannel_b)
    if number:
        return number, [0] * 48, 0

    def carrier_in_group(cell, subchannel, group):
        index = [m for m in range(48) if (m + 23 * subchannel) % 48 == group][0]
        return placed(OFUSC, size, cell, slot, subchannel, index)[1]

    hits = [
        int(carrier_in_group(cell_a, subchannel_a, k) == carrier_in_group(cell_b, subchannel_b, k))
        for k in range(48)
    ]
    return 0, hits, sum(hits)


def amc_collisions(cell_a, cell_b):
    """(refusal, marks by index, their count). Question 3, twice. The answer is the same for every shape."""
    if cell_a >= cells(AMC, 2048) or cell_b >= cells(AMC, 2048):
        return 3, [0] * 48, 0
    hits = [int(amc_v(cell_a, j) == amc_v(cell_b, j)) for j in range(48)]
    return 0, hits, sum(hits)


# --- zone plans: a zone is (mode, cell, slots, mask); a plan has eight places -----------------

PLACES = 8
NO_ZONE = (0, 0, 0, 0)
PLAN_MODES = [PUSC_DL, OFUSC, *SHAPES, FUSC]


class Refused(Exception):
    def __init__(self, number):
        super().__init__(number)
        self.number = number


def read_value(data, at):
    """(value, the place after it). Questions 10 and 11."""
    groups = []
    while len(groups) < 3:
        if at == len(data):
            raise Refused(10)
        groups.append(data[at])
        at += 1
        if groups[-1] < 128:
            break
    if groups[-1] >= 128 or (len(groups) > 1 and groups[-1] == 0):
        raise Refused(11)
    return sum((group % 128) * 128**i for i, group in enumerate(groups)), at


def write_value(value):
    out = []
    while value >= 128:
        out.append(128 + value % 128)
        value //= 128
    return out + [value]


def zone_questions(mode, size, cell, slots, mask):
    """Of a zone by itself: of a plan's, and of the one that a list of bursts is for."""
    yield 1, mode in PLAN_MODES
    yield from setup_questions(mode, size, cell)
    yield 13, 1 <= slots <= SLOTS
    yield 17, mask in masks(mode)


zone_refusal = refusal(zone_questions)


def judge_zone(size, before, zone):
    """Questions 1, 2, 3, 13, 17, 14 of one zone; before is the zone before it, or None."""
    mode, cell, slots, mask = zone
    number = zone_refusal(mode, size, cell, slots, mask)
    if number:
        raise Refused(number)
    if size == 2048 and before is None and mode != PUSC_DL:
        raise Refused(14)
    if before is not None and before[0] in SHAPES and mode not in SHAPES:
        raise Refused(14)


def read_whole_plan(data):
    count, at = read_value(data, 0)
    if not 1 <= count <= PLACES:
        raise Refused(12)
    size, at = read_value(data, at)
    if size not in BIN_SIZES:
        raise Refused(2)
    zones = []
    for _ in range(count):
        mode, at = read_value(data, at)
        cell, at = read_value(data, at)
        slots, at = read_value(data, at)
        mask, at = read_value(data, at)
        judge_zone(size, zones[-1] if zones else None, (mode, cell, slots, mask))
        zones.append((mode, cell, slots, mask))
    if at != len(data):
        raise Refused(15)
    return count, size, zones + [NO_ZONE] * (PLACES - count)


def read_plan(data):
    """(refusal, count, size, eight zones)."""
    try:
        return (0,) + read_whole_plan(data)
    except Refused as refused:
        return refused.number, 0, 0, [NO_ZONE] * PLACES


def judge_plan(count, size, zones):
    """The questions of writing but the last."""
    if not 1 <= count <= PLACES or any(zone != NO_ZONE for zone in zones[count:]):
        raise Refused(12)
    if size not in BIN_SIZES:
        raise Refused(2)
    for i in range(count):
        judge_zone(size, zones[i - 1] if i else None, zones[i])


def write_plan(count, size, zones, dest):
    """(refusal, bytes written, the destination afterwards)."""
    try:
        judge_plan(count, size, zones)
    except Refused as refused:
        return refused.number, 0, list(dest)
    out = write_value(count) + write_value(size)
    for zone in zones[:count]:
        for value in zone:
            out += write_value(value)
    if len(out) > len(dest):
        return 16, 0, list(dest)
    return 0, len(out), out + list(dest[len(out) :])


def zones_text(data):
    """What the program prints for its input: at most 128 bytes of it count."""
    number, count, _, zones = read_plan(data[:128])
    if number:
        return "refused %d\n" % number
    return "".join("%d %d %d %d\n" % zone for zone in zones[:count])


# --- bursts: rectangles of subchannels by slots in one zone (document 02, wish 7) -------------

MOST_BURSTS = 64
NO_BURST = 64
ROW = 192  # the subchannels of the mode that has most


def bursts_of(numbers):
    """A list's numbers as bursts, four each: first subchannel, how many, first slot, how many."""
    return [tuple(numbers[i : i + 4]) for i in range(0, len(numbers), 4)]


def is_in_zone(burst, mode, size, slots):
    """Not empty, and wholly in the zone."""
    subchannel, how_many, slot, how_many_slots = burst
    return (
        how_many > 0
        and how_many_slots > 0
        and subchannel + how_many <= subchannels(mode, size)
        and slot + how_many_slots <= slots
    )


@lru_cache(maxsize=256)
def covered(burst):
    """Every (slot, subchannel) of a burst. One that is not in its zone may have more of them than there is room for."""
    subchannel, how_many, slot, how_many_slots = burst
    return frozenset(product(range(slot, slot + how_many_slots), range(subchannel, subchannel + how_many)))


def list_questions(mode, size, slots, numbers):
    """Of a list of bursts, the length first, then each burst in turn."""
    yield 18, len(numbers) % 4 == 0 and len(numbers) <= 4 * MOST_BURSTS
    taken = set()
    for burst in bursts_of(numbers):
        yield 18, is_in_zone(burst, mode, size, slots)
        yield 19, taken.isdisjoint(covered(burst))
        taken |= covered(burst)


@refusal
def bursts_check(mode, size, cell, slots, mask, numbers):
    yield from zone_questions(mode, size, cell, slots, mask)
    yield from list_questions(mode, size, slots, numbers)


@refusal
def burst_owner_refusal(mode, size, cell, slots, mask, slot, subchannel, numbers):
    yield from zone_questions(mode, size, cell, slots, mask)
    yield 4, slot < SLOTS
    yield 5, subchannel < subchannels(mode, size)
    yield from list_questions(mode, size, slots, numbers)


@refusal
def burst_owners_refusal(mode, size, cell, slots, mask, slot, numbers):
    yield from zone_questions(mode, size, cell, slots, mask)
    yield 4, slot < SLOTS
    yield from list_questions(mode, size, slots, numbers)


def owner_in(bursts, slot, subchannel):
    """(the position of the one burst that covers this, or NO_BURST; how many bursts were looked at)."""
    found = [position for position, burst in enumerate(bursts) if (slot, subchannel) in covered(burst)]
    assert len(found) <= 1
    return (found[0], found[0] + 1) if found else (NO_BURST, len(bursts))


def burst_owner(mode, size, cell, slots, mask, slot, subchannel, numbers):
    """(refusal, owner, how many bursts were looked at)."""
    number = burst_owner_refusal(mode, size, cell, slots, mask, slot, subchannel, numbers)
    if number:
        return number, NO_BURST, 0
    return 0, *owner_in(bursts_of(numbers), slot, subchannel)


def burst_owners(mode, size, cell, slots, mask, slot, numbers):
    """(refusal, the owners of a slot's subchannels): a row of 192, none past the mode's last."""
    number = burst_owners_refusal(mode, size, cell, slots, mask, slot, numbers)
    if number:
        return number, [NO_BURST] * ROW
    bursts = bursts_of(numbers)
    owners = [owner_in(bursts, slot, subchannel)[0] for subchannel in range(subchannels(mode, size))]
    return 0, owners + [NO_BURST] * (ROW - len(owners))
