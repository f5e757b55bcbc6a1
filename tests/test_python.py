#!/usr/bin/env python3
"""Holds the Python module to the reference and to its own rules.

    ./build.sh && python3 tests/test_python.py

Standard library only. What concerns numpy is tried where numpy is installed: if not for this python3, then by the
first of the PATH that has it.
"""

import contextlib
import ctypes
import doctest
import inspect
import itertools
import os
import pickle
import random
import re
import shutil
import subprocess
import sys
import tempfile
import tracemalloc
import types
import typing
import unittest
from array import array

import burst_lists
import pilot_lists
import reference as ref

ROOT = os.path.dirname(os.path.dirname(os.path.abspath(__file__)))
sys.path.insert(0, os.path.join(ROOT, "python"))

import bellpulsar as bp  # noqa: E402
from bellpulsar import Kind, library, refusals  # noqa: E402

try:
    import numpy
except ImportError:
    numpy = None
else:
    from bellpulsar import arrays

# The modes whose pilots are their own, and those of plans.
SETUPS = [(mode, size) for mode in range(7) for size in ref.sizes(mode)]
FUSC = (bp.FUSC, 2048)
PLAN_SETUPS = [setup for setup in SETUPS if setup[0] != ref.PUSC_UL] + [FUSC]
PLAN_MODES = "0, 2, 3, 4, 5, 6, 7"
MOST = 2**32 - 1
HUGE = 10**40
# Integers that no field takes.
NEVER = [-1, -HUGE, MOST, 2**32, 2**64, HUGE]
# Integers that are no carrier; cut to 32 bits most of them would be one.
NEVER_CARRIERS = [-HUGE, -(2**64), -(2**32), -(2**31), 2**31 - 1, 2**31, MOST, 2**32, 2**64 - 1, HUGE]


def as_engine(value):
    """As an integer reaches the engine."""
    return value if 0 <= value <= MOST else MOST


def refusal(call, *fields, **mask):
    """The number, or 0. Its words are never the question alone: they tell of this request."""
    try:
        call(*fields, **mask)
    except bp.Refusal as refused:
        assert refused.words != refused.question, refused
        return refused.number
    return 0


def words(call, *fields, **mask):
    """What a refusal says behind its number."""
    try:
        call(*fields, **mask)
    except bp.Refusal as refused:
        assert str(refused) == "refused %d: %s" % (refused.number, refused.words)
        return refused.words
    return None


def some_cells(mode, size, seed, more=3):
    last = ref.cells(mode, size) - 1
    return sorted({0, 1, last, *random.Random(seed).sample(range(last + 1), more)})


def floats(count, value=7.0):
    return array("f", [value]) * count


def points_for(mode, size):
    """Points that all differ."""
    return array("f", range(96 * ref.subchannels(mode, size)))


def grid_for(mode, size):
    return floats(ref.grid_floats(mode, size))


def bits(buffer):
    """A float buffer's bit patterns."""
    return memoryview(buffer).cast("B").cast("I").tolist()


# --- the map ----------------------------------------------------------------------------------


def as_located(what):
    """The reference's answer as the module gives it."""
    kind = {ref.GUARD: Kind.GUARD, ref.DC: Kind.DC, ref.PILOT: Kind.PILOT, ref.DATA: Kind.DATA}[what[0]]
    return bp.Located(kind, *what[1:])


class Map(unittest.TestCase):
    def test_every_point_of_some_slots(self):
        for mode, size in SETUPS:
            for cell, slot in zip(some_cells(mode, size, 1), (0, 1, 2, 511, 100, 77)):
                for subchannel in range(ref.subchannels(mode, size)):
                    for index in range(48):
                        fields = (mode, size, cell, slot, subchannel, index)
                        self.assertEqual((0, *bp.place(*fields)), ref.place(*fields), fields)

    def test_every_carrier_of_some_symbols(self):
        for mode, size in SETUPS:
            length = ref.SLOT_LENGTH[mode]
            for cell, slot in zip(some_cells(mode, size, 2), (0, 511, 1, 2, 300, 5)):
                for symbol in range(slot * length, (slot + 1) * length):
                    for carrier in ref.carriers(size):
                        fields = (mode, size, cell, symbol, carrier)
                        self.assertEqual(bp.locate(*fields), as_located(ref.locate(*fields)[1]), fields)

    def test_known_points(self):
        self.assertEqual(bp.place(2, 1024, 0, 0, 3, 5), (0, 41))
        self.assertEqual(bp.place(2, 1024, 0, 1, 3, 5), (1, 40))
        self.assertEqual(bp.place(2, 1024, 17, 0, 0, 0), (0, -425))
        self.assertEqual(bp.place(0, 2048, 0, 0, 1, 11), (0, 838))
        self.assertEqual(bp.place(0, 2048, 0, 0, 1, 35), bp.Place(symbol=1, carrier=837))
        self.assertEqual(bp.locate(0, 2048, 5, 0, -840).kind, Kind.DATA)
        self.assertEqual(bp.locate(0, 2048, 5, 1, -840), bp.Located(Kind.PILOT, None, None, None))
        self.assertEqual(bp.locate(0, 2048, 5, 0, -841).kind, Kind.GUARD)
        self.assertEqual(bp.locate(0, 2048, 5, 0, 0).kind, Kind.DC)
        self.assertEqual(bp.locate(1, 2048, 0, 1, -647), (Kind.DATA, 0, 1, 0))

    def test_the_middle_and_the_ends_of_a_symbol(self):
        """In every mode guards stand at both ends, DC in the middle, and none of either beside it."""
        used = {Kind.PILOT, Kind.DATA}
        for mode, size in SETUPS:
            half, cell, symbol = size // 2, ref.cells(mode, size) - 1, 512 * ref.SLOT_LENGTH[mode] - 1
            grid = array("f", range(ref.grid_floats(mode, size)))
            row = (ref.SLOT_LENGTH[mode] - 1) * size
            kinds = {-half: {Kind.GUARD}, -1: used, 0: {Kind.DC}, 1: used, half - 1: {Kind.GUARD}}
            for carrier, among in kinds.items():
                fields = (mode, size, cell, symbol, carrier)
                located = bp.locate(*fields)
                self.assertEqual(located, as_located(ref.locate(*fields)[1]), fields)
                self.assertIn(located.kind, among, fields)
                at = 2 * (row + half + carrier)
                seen = (located.kind, (at, at + 1)) if among is used else (Kind.NOTHING, None)
                self.assertEqual(bp.look(mode, size, cell, symbol, grid, carrier), (*seen, *located[1:]), fields)
            for carrier in (-half - 1, half, *NEVER_CARRIERS):
                fields = (mode, size, cell, symbol, carrier)
                shown = "%d is" % carrier if abs(carrier) < HUGE else "of more than 20 digits is"
                told = "carrier %s not one of size %d's: %d to %d" % (shown, size, -half, half - 1)
                self.assertEqual((refusal(bp.locate, *fields), words(bp.locate, *fields)), (7, told))
                fields = (*fields[:4], grid, carrier)
                self.assertEqual((refusal(bp.look, *fields), words(bp.look, *fields)), (7, told))

    def test_slot_shapes_of_amc(self):
        """By hand: v is 0 at index 0 of cell 0, 27 at index 1 of cell 176, 37 at index 47 of cell 2351."""
        for mode in (bp.AMC, bp.AMC_2X3, bp.AMC_3X2, bp.AMC_1X6):
            self.assertEqual(bp.place(mode, 256, 0, 0, 0, 0), (0, -108))
        self.assertEqual(bp.place(bp.AMC, 256, 176, 1, 1, 1), (1, -24))
        self.assertEqual(bp.place(bp.AMC_2X3, 256, 176, 1, 5, 1), (4, -6))
        self.assertEqual(bp.place(bp.AMC_3X2, 256, 176, 1, 5, 1), (3, 32))
        self.assertEqual(bp.place(bp.AMC_1X6, 256, 176, 1, 5, 1), (9, -59))
        self.assertEqual(bp.place(bp.AMC_1X6, 2048, 2351, 511, 191, 47), (3070, 862))
        self.assertEqual(bp.locate(bp.AMC_1X6, 2048, 2351, 3070, 862), (Kind.DATA, 511, 191, 47))
        self.assertEqual(bp.locate(bp.AMC_1X6, 2048, 2351, 3071, 863).kind, Kind.PILOT)

    def test_the_last_of_each_shape_and_the_next(self):
        for mode, subchannels, symbols in ((3, 32, 1), (4, 96, 3), (5, 64, 2), (6, 192, 6)):
            found = {bp.place(mode, 2048, 2351, 511, subchannels - 1, index).symbol for index in range(48)}
            self.assertEqual(found, set(range(511 * symbols, 512 * symbols)))
            self.assertEqual(refusal(bp.place, mode, 2048, 2351, 511, subchannels, 0), 5)
            self.assertEqual(bp.locate(mode, 2048, 2351, 512 * symbols - 1, -864)[:3], (Kind.DATA, 511, 0))
            self.assertEqual(refusal(bp.locate, mode, 2048, 2351, 512 * symbols, -864), 4)

    def test_answers_are_plain_numbers(self):
        for value in (*bp.place(2, 1024, 17, 0, 0, 0), *bp.locate(2, 1024, 17, 0, -425)[1:]):
            self.assertIs(type(value), int)


def places_of(mode, size, cell, slot, subchannel):
    """By the reference: where each point's floats start in the slot's grid, counted in points."""
    spots = [ref.place(mode, size, cell, slot, subchannel, index)[1:] for index in range(48)]
    return array("I", [ref.grid_at(mode, size, *spot) // 2 for spot in spots])


class Places(unittest.TestCase):
    """A subchannel's, and those of all that are lit."""

    def test_every_place_of_some_slots(self):
        for mode, size in SETUPS:
            for cell, slot in zip(some_cells(mode, size, 31, more=1), (0, 511, 1, 2)):
                wanted = [places_of(mode, size, cell, slot, s) for s in range(ref.subchannels(mode, size))]
                found = [bp.places(mode, size, cell, slot, s) for s in range(ref.subchannels(mode, size))]
                self.assertEqual(found, wanted, (mode, size, cell, slot))
                self.assertEqual(bp.slot_places(mode, size, cell, slot), sum(wanted, array("I")))

    def test_by_hand(self):
        """-425 from DC is place 512 - 425 of a row; 837 in the second symbol is 2048 + 1024 + 837."""
        self.assertEqual(bp.places(2, 1024, 17, 0, 0)[0], 87)
        self.assertEqual(bp.places(mode=0, size=2048, cell=0, slot=0, subchannel=1)[35], 3909)
        self.assertEqual(bp.places(6, 2048, 2351, 511, 191)[47], 4 * 2048 + 1024 + 862)

    def test_every_mask(self):
        """The places of the lit alone, by rising subchannel."""
        for mask in ref.masks(0):
            cell, slot = 7 * mask % 32, 8 * mask
            lit = [bp.places(0, 2048, cell, slot, s) for s in ref.lit_subchannels(0, 2048, mask)]
            self.assertEqual(bp.slot_places(0, 2048, cell, slot, mask=mask), sum(lit, array("I")))

    def test_where_empty_takes_the_points_from(self):
        """Each point of the grid is its own place: emptied, they are the places."""
        for mode, size, mask in [(*setup, None) for setup in SETUPS] + [(0, 2048, 0b100110), (0, 2048, 1)]:
            fields, count = (mode, size, ref.cells(mode, size) - 1, 100), ref.grid_floats(mode, size)
            points = floats(bp.lit_points_len(mode, size, mask))
            bp.empty(*fields, array("f", [float // 2 for float in range(count)]), points, mask=mask)
            self.assertEqual(list(points[::2]), list(bp.slot_places(*fields, mask=mask)))

    def test_the_slots_that_a_table_serves(self):
        """All of them, or those that agree mod 3."""
        for mode, size in SETUPS:
            cell, step = ref.cells(mode, size) - 1, 3 if mode in (2, 3, 5) else 1
            tables = [bp.slot_places(mode, size, cell, slot) for slot in (0, 1, 2)]
            for slot in (3, 4, 5, 300, 511):
                self.assertEqual(bp.slot_places(mode, size, cell, slot), tables[slot % 3])
            self.assertEqual(len({table.tobytes() for table in tables}), step)

    def test_what_is_given(self):
        """An array of its own, which nothing holds."""
        for row, length in ((bp.places(2, 256, 0, 0, 0), 48), (bp.slot_places(2, 256, 0, 0), 192)):
            self.assertEqual((type(row), row.typecode, len(row)), (array, "I", length))
            row.append(0)
        self.assertRaises(TypeError, bp.slot_places, 0, 2048, 0, 0, 63)

    def test_words(self):
        last = "subchannel 16 is not one of mode 2's at size 1024: 0 to 15"
        self.assertEqual(words(bp.places, 2, 1024, 17, 0, 16), last)
        self.assertEqual(words(slot_places_with, 0, 2048, 0, 64, 0), "mask 64 is not one of mode 0's: 1 to 63")


class Modes(unittest.TestCase):
    """By name."""

    def test_the_names_of_the_header(self):
        with open(os.path.join(ROOT, "include", "bellpulsar.h")) as file:
            body = re.search(r"enum bp_mode \{(.*?)\};", file.read(), re.DOTALL).group(1)
        told = {name: int(number) for name, number in re.findall(r"BP_(\w+) = (\d+)", body)}
        self.assertEqual({**told, "AMC_6X1": 3}, {name: int(mode) for name, mode in bp.Mode.__members__.items()})
        for name, number in told.items():
            self.assertEqual((getattr(bp, name), type(getattr(bp, name))), (number, int))

    def test_the_words_of_the_command_line(self):
        words = "pusc-dl pusc-ul ofusc amc-6x1 amc-2x3 amc-3x2 amc-1x6 fusc".split()
        self.assertEqual([mode.word for mode in bp.Mode], words)
        self.assertEqual([int(mode) for mode in bp.Mode], list(range(8)))

    def test_a_mode_is_its_number(self):
        for mode, size in SETUPS:
            named = bp.Mode(mode)
            self.assertEqual(bp.place(named, size, 1, 2, 3, 4), bp.place(mode, size, 1, 2, 3, 4))
            self.assertEqual(bp.slot_places(named, size, 1, 2), bp.slot_places(mode, size, 1, 2))
            self.assertEqual((str(named), "%s" % named, "%d" % named, format(named)), (str(mode),) * 4)
        told = "mode 1 is not one of a plan's: " + PLAN_MODES
        self.assertEqual(words(bp.bursts_check, bp.Mode.PUSC_UL, 2048, 0, 1, []), told)

    def test_answers_have_numbers(self):
        data = bp.plan_bytes(1024, [(bp.Mode.OFUSC, 17, 3, 0)])
        self.assertEqual(repr(bp.plan_read(data).zones[0]), "Zone(mode=2, cell=17, slots=3, mask=0)")


# --- collisions -------------------------------------------------------------------------------


class Collisions(unittest.TestCase):
    def test_optional_fusc_as_the_reference(self):
        rng = random.Random(3)
        for size in ref.BIN_SIZES:
            cells, n = ref.cells(2, size), ref.n_of(size)
            for _ in range(12):
                fields = (size, rng.randrange(cells), rng.randrange(n), rng.randrange(cells), rng.randrange(n))
                number, hits, count = ref.ofusc_collisions(*fields)
                self.assertEqual((number, 0), (0, refusal(bp.ofusc_collisions, *fields)))
                self.assertEqual(bp.ofusc_collisions(*fields), (tuple(hits), count), fields)

    def test_amc_as_the_reference(self):
        rng = random.Random(4)
        for _ in range(300):
            cells = (rng.randrange(2352), rng.randrange(2352))
            _, hits, count = ref.amc_collisions(*cells)
            self.assertEqual(bp.amc_collisions(*cells), (tuple(hits), count), cells)

    def test_amc_is_where_both_cells_place_an_index(self):
        """In every shape and size."""
        rng = random.Random(10)
        for mode, size in (setup for setup in SETUPS if setup[0] >= ref.AMC):
            for cells in ((48, 176), rng.sample(range(2352), 2), rng.sample(range(2352), 2)):
                slot, subchannel = rng.randrange(512), rng.randrange(ref.subchannels(mode, size))
                one, other = ([bp.place(mode, size, cell, slot, subchannel, j) for j in range(48)] for cell in cells)
                self.assertEqual(bp.amc_collisions(*cells).hits, tuple(a == b for a, b in zip(one, other)))

    def test_known_points(self):
        answer = bp.ofusc_collisions(2048, 0, 2, 1010, 0)
        self.assertEqual([k for k, hit in enumerate(answer.hits) if hit], [0, 1, 31, 32])
        self.assertEqual(answer.count, 4)
        self.assertEqual(bp.ofusc_collisions(1024, 0, 6, 17, 0).count, 7)
        answer = bp.amc_collisions(48, 176)
        self.assertEqual([j for j, hit in enumerate(answer.hits) if hit], [8, 24, 32])
        self.assertEqual({type(hit) for hit in answer.hits}, {bool})


# --- refusals ---------------------------------------------------------------------------------
#
# A call is tried with each field in range or not, in every combination; the number comes from the reference. Where a
# field is a length, the call is made with buffers of that length, which a refusal leaves as they were.


@contextlib.contextmanager
def kept_by_refusals(*buffers):
    before = [buffer.tobytes() for buffer in buffers]
    try:
        yield
    except bp.Refusal:
        assert [buffer.tobytes() for buffer in buffers] == before
        raise


def slot_places_with(mode, size, cell, mask, slot, **pilots):
    bp.slot_places(mode, size, cell, slot, mask=mask, **pilots)


def ground_with(mode, size, cell, mask, slot, grid_len, **pilots):
    grid = floats(grid_len)
    with kept_by_refusals(grid):
        bp.ground(mode, size, cell, slot, (1.0, 0.0), grid, mask=mask, **pilots)


def lay_with(mode, size, cell, mask, slot, subchannel, points_len, grid_len, **pilots):
    points, grid = floats(points_len, 3.0), floats(grid_len)
    with kept_by_refusals(points, grid):
        bp.lay(mode, size, cell, slot, subchannel, points, grid, mask=mask, **pilots)


def fill_with(mode, size, cell, mask, slot, points_len, grid_len, **pilots):
    points, grid = floats(points_len, 3.0), floats(grid_len)
    with kept_by_refusals(points, grid):
        bp.fill(mode, size, cell, slot, (1.0, 0.0), points, grid, mask=mask, **pilots)


def empty_with(mode, size, cell, mask, slot, points_len, grid_len, **pilots):
    points, grid = floats(points_len, 3.0), floats(grid_len)
    with kept_by_refusals(points, grid):
        bp.empty(mode, size, cell, slot, grid, points, mask=mask, **pilots)


def empty_first_with(mode, size, cell, mask, slot, points_len, grid_len, **pilots):
    points, grid = floats(points_len, 3.0), floats(grid_len)
    with kept_by_refusals(points, grid):
        bp.empty_first(mode, size, cell, slot, 100, grid, points, mask=mask, **pilots)


def look_with(mode, size, cell, mask, symbol, grid_len, carrier, **pilots):
    bp.look(mode, size, cell, symbol, floats(grid_len), carrier, mask=mask, **pilots)


def check_with(mode, size, cell, slots, mask, count):
    bp.bursts_check(mode, size, cell, slots, [(0, count, 0, 1)], mask=mask)


def owner_with(mode, size, cell, slots, mask, slot, subchannel, count):
    bp.burst_owner(mode, size, cell, slots, slot, subchannel, [(0, count, 0, 1)], mask=mask)


def owners_with(mode, size, cell, slots, mask, slot, count):
    bp.burst_owners(mode, size, cell, slots, slot, [(0, count, 0, 1)], mask=mask)


def of_every_index(mode, size, cell, slot, subchannel, *pilots):
    """The refusal of a whole subchannel's places."""
    return ref.place_refusal(mode, size, cell, slot, subchannel, 0, *pilots)


def of_a_slot(mode, size, cell, mask, slot, *pilots):
    """The refusal of a slot without buffers."""
    return ref.ground_refusal(mode, size, cell, mask, slot, ref.grid_len(mode, size), *pilots)


def of_a_list(expected):
    """A refusal of the reference's, with one burst of so many subchannels in slot 0 for a list."""
    return lambda *fields: expected(*fields[:-1], [0, fields[-1], 0, 1])


def burst_calls_of(mode, size):
    """Those of calls_of that have a list of bursts."""
    subs = ref.subchannels(mode, size)
    good = (mode, size, ref.cells(mode, size) - 1, 512, ref.full_mask(mode))
    past = (8, size + 1, good[2] + 1, 513, good[4] + 1)
    yield check_with, of_a_list(ref.bursts_check), (*good, subs), (*past, subs + 1)
    every = (*good, 511, subs - 1, subs), (*past, 512, subs, subs + 1)
    yield owner_with, of_a_list(ref.burst_owner_refusal), *every
    yield owners_with, of_a_list(ref.burst_owners_refusal), (*good, 511, subs), (*past, 512, subs + 1)


def calls_of(mode, size):
    """(call, its refusal in the reference, the last field values in range, a value out of range for each)."""
    cells, subs = ref.cells(mode, size), ref.subchannels(mode, size)
    symbols = 512 * ref.SLOT_LENGTH[mode]
    points, grid = 96 * subs, ref.grid_floats(mode, size)
    setup, past = (mode, size, cells - 1), (8, size + 1, cells)
    lit, unlit = (*setup, ref.full_mask(mode)), (*past, ref.full_mask(mode) + 1)
    yield bp.place, ref.place_refusal, (*setup, 511, subs - 1, 47), (*past, 512, subs, 48)
    yield bp.locate, ref.locate_refusal, (*setup, symbols - 1, size // 2 - 1), (*past, symbols, size // 2)
    yield bp.places, of_every_index, (*setup, 511, subs - 1), (*past, 512, subs)
    yield slot_places_with, of_a_slot, (*lit, 511), (*unlit, 512)
    yield ground_with, ref.ground_refusal, (*lit, 511, grid), (*unlit, 512, grid + 2)
    yield lay_with, ref.lay_refusal, (*lit, 511, subs - 1, 96, grid), (*unlit, 512, subs, points, grid - 2)
    yield fill_with, ref.buffers_refusal, (*lit, 511, points, grid), (*unlit, 512, points + 1, grid + 1)
    yield empty_with, ref.buffers_refusal, (*lit, 511, points, grid), (*unlit, 512, points - 1, grid - 1)
    yield empty_first_with, ref.buffers_refusal, (*lit, 511, points, grid), (*unlit, 512, points + 2, grid + 2)
    yield (
        look_with,
        ref.look_refusal,
        (*lit, symbols - 1, grid, size // 2 - 1),
        (*unlit, symbols, grid + 2, size // 2),
    )
    if mode != ref.PUSC_UL:
        yield from burst_calls_of(mode, size)
    if mode == ref.OFUSC:
        yield (
            bp.ofusc_collisions,
            ref.ofusc_collisions_refusal,
            (size, cells - 1, subs - 1, cells - 1, subs - 1),
            (size + 1, cells, subs, cells, subs),
        )


def amc_refusal(cell_a, cell_b):
    return ref.amc_collisions(cell_a, cell_b)[0]


AMC_COLLISIONS = (bp.amc_collisions, amc_refusal, (2351, 2351), (2352, 2352))
LENGTHS = {ground_with: (5,), lay_with: (6, 7), fill_with: (5, 6), empty_with: (5, 6), look_with: (5,)}
LENGTHS[empty_first_with] = (5, 6)
MASKS = {**dict.fromkeys(LENGTHS, 3), slot_places_with: 3, check_with: 4, owner_with: 4, owners_with: 4}
CARRIERS = {bp.locate: 4, look_with: 6}


def expected_of(expected, call, fields):
    """The number, for the fields as they reach the engine; the reference takes a carrier of any size."""
    carrier = CARRIERS.get(call)
    return expected(*(value if at == carrier else as_engine(value) for at, value in enumerate(fields)))


def below(call, good, at):
    """A value below a field's range; `good` has the last of each."""
    return -good[at] - 2 if at == CARRIERS.get(call) else -1


def all_calls():
    for mode, size in SETUPS:
        yield from calls_of(mode, size)
    yield from burst_calls_of(*FUSC)
    yield AMC_COLLISIONS


class Refusals(unittest.TestCase):
    def test_fields_in_range_are_taken(self):
        for call, expected, good, _ in all_calls():
            self.assertEqual((expected(*good), refusal(call, *good)), (0, 0), (call, good))

    def test_each_integer_field_out_of_range(self):
        for call, expected, good, past in all_calls():
            for at in range(len(good)):
                if at in LENGTHS.get(call, ()):
                    continue
                never = NEVER_CARRIERS if at == CARRIERS.get(call) else NEVER
                for value in [*never, below(call, good, at), past[at]]:
                    fields = good[:at] + (value,) + good[at + 1 :]
                    number = expected_of(expected, call, fields)
                    self.assertNotEqual(number, 0)
                    self.assertEqual(refusal(call, *fields), number, (call, fields))

    def test_the_first_question_that_fails(self):
        for call, expected, good, past in all_calls():
            for is_past in (False, True):
                for bad in itertools.product((False, True), repeat=len(good)):
                    lengths = LENGTHS.get(call, ())
                    fields = [
                        good[at] if not bad[at] else past[at] if is_past or at in lengths else below(call, good, at)
                        for at in range(len(good))
                    ]
                    number = expected_of(expected, call, fields)
                    self.assertEqual(refusal(call, *fields), number, (call, fields))

    def test_a_bad_field_comes_before_a_bad_length(self):
        wrong = floats(1)
        self.assertEqual(refusal(bp.ground, 2, 1024, 256, 512, (1, 0), wrong), 3)
        self.assertEqual(refusal(bp.ground, 2, 1024, 255, 512, (1, 0), wrong), 4)
        self.assertEqual(refusal(bp.ground, 2, 1024, 255, 511, (1, 0), wrong), 9)
        self.assertEqual(refusal(bp.lay, 2, 1024, 255, 512, 16, wrong, wrong[:0]), 4)
        self.assertEqual(refusal(bp.lay, 2, 1024, 255, 511, 16, wrong, wrong[:0]), 5)
        self.assertEqual(refusal(bp.lay, 2, 1024, 255, 511, -1, wrong, wrong[:0]), 5)
        self.assertEqual(refusal(bp.lay, 2, 1024, 255, 511, 15, wrong, wrong[:0]), 8)
        self.assertEqual(refusal(bp.lay, 2, 1024, 255, 511, 15, floats(1536), wrong[:0]), 8)
        self.assertEqual(refusal(bp.lay, 2, 1024, 255, 511, 15, floats(96), wrong[:0]), 9)
        self.assertEqual(refusal(bp.fill, 2, 1024, 256, 0, (1, 0), wrong, wrong[:0]), 3)
        self.assertEqual(refusal(bp.fill, 2, 1024, -1, 512, (1, 0), wrong, wrong[:0]), 3)
        self.assertEqual(refusal(bp.fill, 2, 1024, 255, 512, (1, 0), wrong, wrong[:0]), 4)
        self.assertEqual(refusal(bp.fill, 2, 1024, 255, 511, (1, 0), wrong, wrong[:0]), 8)
        self.assertEqual(refusal(bp.fill, 2, 1024, 255, 511, (1, 0), floats(1536), wrong[:0]), 9)
        for mask in (1, 63, -1):
            self.assertEqual(refusal(bp.ground, 2, 1024, 256, 512, (1, 0), wrong, mask=mask), 3)
            self.assertEqual(refusal(bp.ground, 2, 1024, 255, 512, (1, 0), wrong, mask=mask), 17)
            self.assertEqual(refusal(bp.lay, 2, 1024, 255, 512, 16, wrong, wrong[:0], mask=mask), 17)
            self.assertEqual(refusal(bp.fill, 2, 1024, 255, 512, (1, 0), wrong, wrong[:0], mask=mask), 17)
            self.assertEqual(refusal(bp.empty, 2, 1024, 255, 512, wrong[:0], wrong, mask=mask), 17)
            self.assertEqual(refusal(bp.empty_first, 2, 1024, 255, 512, 0, wrong[:0], wrong, mask=mask), 17)
            self.assertEqual(refusal(bp.look, 2, 1024, 255, 512, wrong, 512, mask=mask), 17)
        self.assertEqual(refusal(bp.look, 2, 1024, 255, 0, wrong, 512), 7)
        self.assertEqual(refusal(bp.look, 2, 1024, 255, 0, wrong, 511), 9)

    def test_what_is_no_integer(self):
        for value in (1.0, "1", None, b"1", 2 + 0j):
            for call, _, good, _ in calls_of(2, 256):
                for at in range(len(good)):
                    no_mask = value is None and at == MASKS.get(call)  # which lights all
                    if at not in LENGTHS.get(call, ()) and not no_mask:
                        with self.assertRaises(TypeError):
                            call(*good[:at], value, *good[at + 1 :])
            with self.assertRaises(TypeError):
                bp.amc_collisions(value, 0)
            for fields in ((value, 1024), (1, value)):
                with self.assertRaises(TypeError):
                    bp.plan_write(*fields, [UNUSED] * 8, bytearray(9))
            for zone in ((2, 0, value, 0), (2, 0, 1, value)):
                with self.assertRaises(TypeError):
                    bp.plan_bytes(1024, [zone])

    def test_whatever_counts_as_an_integer_is_one(self):
        class Index:
            def __index__(self):
                return 2

        self.assertEqual(bp.place(Index(), 1024, 17, False, False, False), (0, -425))
        self.assertEqual(bp.place(True, 2048, False, False, True, False), (1, -647))

    def test_number_question_and_text(self):
        with self.assertRaises(bp.Refusal) as caught:
            bp.place(2, 1024, 256, 0, 0, 0)
        refused = caught.exception
        self.assertEqual((refused.number, refused.question), (3, "Is the cell in range?"))
        self.assertEqual(str(refused), "refused 3: cell 256 is not one of mode 2's at size 1024: 0 to 255")
        self.assertEqual(str(pickle.loads(pickle.dumps(refused))), str(refused))
        self.assertFalse(isinstance(refused, (TypeError, ValueError, BufferError)))

    def test_the_value_given_and_what_would_be_accepted(self):
        """Each field out of range: the words have its name, its value, and the range that the reference has."""
        names = {
            bp.place: "mode size cell slot subchannel index",
            bp.locate: "mode size cell symbol carrier",
            bp.places: "mode size cell slot subchannel",
            slot_places_with: "mode size cell mask slot",
            ground_with: "mode size cell mask slot grid",
            lay_with: "mode size cell mask slot subchannel points grid",
            look_with: "mode size cell mask symbol grid carrier",
            bp.ofusc_collisions: "size cell_a subchannel_a cell_b subchannel_b",
            bp.amc_collisions: "cell_a cell_b",
            check_with: "mode size cell slots mask burst",
            owner_with: "mode size cell slots mask slot subchannel burst",
            owners_with: "mode size cell slots mask slot burst",
        }
        buffers = "mode size cell mask slot points grid"
        for call, _, good, past in all_calls():
            mode = {bp.ofusc_collisions: 2, bp.amc_collisions: 3}.get(call, good[0])
            for at, name in enumerate(names.get(call, buffers).split()):
                told = words(call, *good[:at], past[at], *good[at + 1 :])
                if name in ("points", "grid"):
                    self.assertEqual(told, "%s of %d floats, not %d" % (name, past[at], good[at]))
                    continue
                if name == "burst":
                    outside = "burst 0 is 0,%d,0,1: subchannels 0 to %d are not all of mode %d's"
                    self.assertTrue(told.startswith(outside % (past[at], good[at], mode)), told)
                    self.assertTrue(told.endswith(": 0 to %d" % (good[at] - 1)), told)
                    continue
                self.assertTrue(told.startswith("%s %d is not one of " % (name, past[at])), told)
                modes = PLAN_MODES if "burst" in names.get(call, "") else "0 to 7"
                accepted = {"mode": modes, "size": ", ".join(map(str, ref.sizes(mode))), "slots": "1 to 512"}
                accepted["carrier"] = "%d to %d" % (-good[at] - 1, good[at])
                accepted["mask"] = "1 to 63" if mode == 0 else "0"
                self.assertEqual(told.split(": ")[1], accepted.get(name, "0 to %d" % good[at]))

    def test_words_of_both_lengths(self):
        self.assertEqual(words(ground_with, 2, 1024, 0, 0, 0, 2046), "grid of 2046 floats, not 2048")
        self.assertEqual(words(lay_with, 2, 1024, 0, 0, 0, 0, 95, 2048), "points of 95 floats, not 96")
        self.assertEqual(words(lay_with, 6, 2048, 0, 0, 0, 191, 18432, 24576), "points of 18432 floats, not 96")
        self.assertEqual(words(lay_with, 6, 2048, 0, 0, 0, 191, 96, 4096), "grid of 4096 floats, not 24576")
        self.assertEqual(words(fill_with, 2, 1024, 0, 0, 0, 95, 2048), "points of 95 floats, not 1536")
        self.assertEqual(words(fill_with, 0, 2048, 0, 0b000011, 0, 5760, 8192), "points of 5760 floats, not 1920")
        self.assertEqual(words(empty_with, 0, 2048, 0, 0b100000, 0, 5760, 8192), "points of 5760 floats, not 768")
        self.assertEqual(words(empty_with, 2, 1024, 0, 0, 0, 1536, 0), "grid of 0 floats, not 2048")
        self.assertEqual(words(look_with, 0, 2048, 0, 63, 0, 5, 0), "grid of 5 floats, not 8192")
        self.assertEqual(words(fill_with, 6, 2048, 0, 0, 0, 3072, 4096), "points of 3072 floats, not 18432")
        self.assertEqual(words(look_with, 6, 2048, 0, 0, 3071, 4096, 0), "grid of 4096 floats, not 24576")

    def test_words_of_the_shapes(self):
        self.assertEqual(words(bp.place, 8, 2048, 0, 0, 0, 0), "mode 8 is not one of the map's: 0 to 7")
        last = "subchannel 192 is not one of mode 6's at size 2048: 0 to 191"
        self.assertEqual(words(bp.place, 6, 2048, 0, 0, 192, 0), last)
        self.assertEqual(words(lay_with, 6, 2048, 0, 0, 0, 192, 96, 24576), last)
        self.assertEqual(words(bp.locate, 6, 256, 0, 3072, 0), "symbol 3072 is not one of mode 6's: 0 to 3071")
        self.assertEqual(words(bp.place, 4, 128, 0, 0, 0, 0), "size 128 is not one of mode 4's: 256, 512, 1024, 2048")
        self.assertEqual(words(bp.place, 5, 256, 2352, 0, 0, 0), "cell 2352 is not one of mode 5's: 0 to 2351")
        self.assertEqual(words(bp.amc_collisions, 2352, 0), "cell_a 2352 is not one of AMC's: 0 to 2351")

    def test_words_of_masks(self):
        self.assertEqual(words(ground_with, 0, 2048, 0, 64, 0, 8192), "mask 64 is not one of mode 0's: 1 to 63")
        self.assertEqual(words(ground_with, 0, 2048, 0, 0, 0, 8192), "mask 0 is not one of mode 0's: 1 to 63")
        self.assertEqual(words(look_with, 2, 256, 0, 63, 0, 512, 0), "mask 63 is not one of mode 2's: 0")
        huge = "mask of more than 20 digits is not one of mode 0's: 1 to 63"
        self.assertEqual(words(ground_with, 0, 2048, 0, HUGE, 0, 8192), huge)
        told = "subchannel 25 is not one of those that mask %d lights: %s"
        lay = (25, 96, 8192)
        self.assertEqual(words(lay_with, 0, 2048, 0, 0b000011, 0, *lay), told % (3, "0 to 19"))
        self.assertEqual(words(lay_with, 0, 2048, 0, 0b111011, 0, *lay), told % (59, "0 to 19, 32 to 59"))
        self.assertEqual(words(lay_with, 0, 2048, 0, 0b100010, 0, *lay), told % (34, "12 to 19, 52 to 59"))
        past = "subchannel 60 is not one of mode 0's: 0 to 59"
        self.assertEqual(words(lay_with, 0, 2048, 0, 0b000011, 0, 60, 96, 8192), past)

    def test_words_of_plans(self):
        def read(text):
            return words(bp.plan_read, bytes.fromhex(text))

        def write(count, size, *zones, room=99):
            return words(bp.plan_write, count, size, list(zones) + [UNUSED] * (8 - len(zones)), bytearray(room))

        self.assertEqual(read(""), "0 bytes end within the count, and more must follow")
        self.assertEqual(read("0180"), "2 bytes end within the size, and more must follow")
        self.assertEqual(read("028008 02000100 030001"), "10 bytes end within zone 2's mask, and more must follow")
        self.assertEqual(read("028008 02000100 0300"), "9 bytes end within zone 2's slots, and more must follow")
        self.assertEqual(read("018000"), "the size is 80 00, which is not its shortest form")
        self.assertEqual(read("018008 02 808000"), "zone 1's cell is 80 80 00, which is not its shortest form")
        self.assertEqual(read("018008 02 8080808001"), "zone 1's cell is 80 80 80, and a fourth group is not accepted")
        self.assertEqual(read("018010 000001 8000"), "zone 1's mask is 80 00, which is not its shortest form")
        self.assertEqual(read("09"), "count 9 is not one of a plan's: 1 to 8")
        self.assertEqual(read("018001"), "size 128 is not one of a plan's: 256, 512, 1024, 2048")
        self.assertEqual(read("028008 02000100 0000013F"), "zone 2: size 1024 is not one of mode 0's: 2048")
        self.assertEqual(read("028008 02000100 01000100"), "zone 2: mode 1 is not one of a plan's: " + PLAN_MODES)
        self.assertEqual(write(1, 256, (8, 0, 1, 0)), "zone 1: mode 8 is not one of a plan's: " + PLAN_MODES)
        self.assertEqual(write(1, 1024, (7, 0, 1, 0)), "zone 1: size 1024 is not one of mode 7's: 2048")
        first = (0, 0, 1, 63)
        self.assertEqual(write(2, 2048, first, (7, 32, 1, 0)), "zone 2: cell 32 is not one of mode 7's: 0 to 31")
        self.assertEqual(write(2, 2048, first, (7, 31, 1, 63)), "zone 2: mask 63 is not one of mode 7's: 0")
        self.assertEqual(read("018008 02 8002 0100"), "zone 1: cell 256 is not one of mode 2's at size 1024: 0 to 255")
        self.assertEqual(read("018008 02 00 8104 00"), "zone 1: slots 513 is not one of a zone's: 1 to 512")
        self.assertEqual(read("018010 000001 40"), "zone 1: mask 64 is not one of mode 0's: 1 to 63")
        self.assertEqual(read("018010 000001 00"), "zone 1: mask 0 is not one of mode 0's: 1 to 63")
        self.assertEqual(write(2, 256, (2, 0, 1, 0), (3, 0, 1, 63)), "zone 2: mask 63 is not one of mode 3's: 0")
        self.assertEqual(write(1, 2048, (3, 5, 1, -1)), "zone 1: mask -1 is not one of mode 3's: 0")
        first = "zone 1: mode %d is first at size 2048, where only mode 0 is accepted"
        self.assertEqual(read("018010 02000100"), first % 2)
        self.assertEqual(write(1, 2048, (3, 5, 1, 0)), first % 3)
        self.assertEqual(write(1, 2048, (7, 5, 1, 0)), first % 7)
        self.assertEqual(write(1, 2048, (0, 32, 1, 63)), "zone 1: cell 32 is not one of mode 0's: 0 to 31")
        third = "zone 3: mode %d follows mode %d, after which only modes 3 to 6 are accepted"
        for mode in range(3, 7):
            amc = (mode, 0, 1, 0)
            self.assertEqual(write(1, 2048, amc), first % mode)
            self.assertEqual(write(3, 1024, (2, 0, 1, 0), amc, (2, 0, 1, 0)), third % (2, mode))
            self.assertEqual(write(3, 2048, (0, 0, 1, 63), amc, (0, 0, 1, 1)), third % (0, mode))
            self.assertEqual(write(3, 2048, (0, 0, 1, 63), amc, (7, 0, 1, 0)), third % (7, mode))
        self.assertEqual(read(EXAMPLE.hex() + "00" * 500), "512 bytes are given, and the plan ends after 12")
        self.assertEqual(write(-1, 1024), "count -1 is not one of a plan's: 1 to 8")
        place = "place 3 is 0,%s,1,0, where past the count of 1 only zeros are accepted"
        self.assertEqual(write(1, 1024, (2, 0, 1, 0), UNUSED, (0, -7, 1, 0)), place % -7)
        self.assertEqual(write(1, 1024, (2, 0, 1, 0), UNUSED, (0, HUGE, 1, 0)), place % "of more than 20 digits")
        self.assertEqual(write(1, 1024, (2, 200, 1, 0), room=3), "dest of 3 bytes, not 8 or more")
        self.assertEqual(words(bp.plan_bytes, 1024, [(2, 0, 1, 0)] * 9), "count 9 is not one of a plan's: 1 to 8")

    def test_words_of_bursts(self):
        def told(*bursts, mode=0, size=2048, slots=12):
            return words(bp.bursts_check, mode, size, 0, slots, bursts)

        good = (0, 60, 0, 2)
        side = "burst 1 is %s: %s are not all of %s: 0 to %d"
        self.assertEqual(told(good, (50, 11, 2, 1)), side % ("50,11,2,1", "subchannels 50 to 60", "mode 0's", 59))
        self.assertEqual(told(good, (0, 1, 2, 11)), side % ("0,1,2,11", "slots 2 to 12", "the zone's", 11))
        self.assertEqual(told(good, (-2, 4, 2, 1)), side % ("-2,4,2,1", "subchannels -2 to 1", "mode 0's", 59))
        most = side % ("0,%d,2,1" % MOST, "subchannels 0 to %d" % (MOST - 1), "mode 0's", 59)
        self.assertEqual(told(good, (0, MOST, 2, 1)), most)
        huge = side % ("5,of more than 20 digits,2,1", "its subchannels", "mode 0's", 59)
        self.assertEqual(told(good, (5, HUGE, 2, 1)), huge)
        huge = side % ("5,1,of more than 20 digits,3", "its slots", "the zone's", 11)
        self.assertEqual(told(good, (5, 1, HUGE, 3)), huge)
        both = "burst 0 is 30,9,1,9: subchannels 30 to 38 are not all of mode 2's at size 2048: 0 to 31"
        self.assertEqual(told((30, 9, 1, 9), mode=2, slots=3), both)
        last = "burst 0 is 0,1,0,2: slots 0 to 1 are not all of the zone's: 0"
        self.assertEqual(told((0, 1, 0, 2), mode=6, size=256, slots=1), last)
        one = "burst 0 is %s: %s is not one of %s: 0 to %d"
        self.assertEqual(told((60, 1, 0, 1)), one % ("60,1,0,1", "subchannel 60", "mode 0's", 59))
        self.assertEqual(told((0, 1, 12, 1)), one % ("0,1,12,1", "slot 12", "the zone's", 11))
        self.assertEqual(told((-1, 1, 12, 1)), one % ("-1,1,12,1", "subchannel -1", "mode 0's", 59))
        self.assertEqual(told(good, (0, 0, 0, 0)), "burst 1 is 0,0,0,0: 0 subchannels, not 1 or more")
        self.assertEqual(told(good, (7, 8, 9, 0)), "burst 1 is 7,8,9,0: 0 slots, not 1 or more")
        self.assertEqual(told(good, (7, -8, 9, 1)), "burst 1 is 7,-8,9,1: -8 subchannels, not 1 or more")
        self.assertEqual(told(good, (0, 1, 2)), "burst 1 has 3 numbers, not 4")
        self.assertEqual(told(good, (), good), "burst 1 has 0 numbers, not 4")
        self.assertEqual(told(*[good] * 65), "65 bursts are given, not 64 or fewer")
        self.assertEqual(told(*[good] * 1000), "1000 bursts are given, not 64 or fewer")
        over = "burst 2 is 20,3,1,5: it overlaps burst %d, which is %s"
        self.assertEqual(told((0, 20, 0, 12), (21, 1, 5, 1), (20, 3, 1, 5)), over % (1, "21,1,5,1"))
        self.assertEqual(told((0, 21, 5, 1), (21, 1, 5, 1), (20, 3, 1, 5), (0, 0, 0, 0)), over % (0, "0,21,5,1"))
        self.assertEqual(words(bp.bursts_check, 1, 2048, 0, 1, []), "mode 1 is not one of a plan's: " + PLAN_MODES)
        last = "burst 0 is 32,1,0,1: subchannel 32 is not one of mode 7's: 0 to 31"
        self.assertEqual(told((32, 1, 0, 1), mode=7), last)

    def test_the_ranges_that_words_are_made_of(self):
        for mode, size in [*SETUPS, FUSC]:
            told = refusals.MODES[mode]
            self.assertEqual(list(told.sizes), ref.sizes(mode))
            n = ref.n_of(size)
            self.assertEqual((told.cells(n), told.subchannels(n)), (ref.cells(mode, size), ref.subchannels(mode, size)))
            self.assertEqual(told.symbols, ref.SLOT_LENGTH[mode])
            self.assertEqual(list(told.masks), list(ref.masks(mode)))
        self.assertEqual(refusals.BURSTS, ref.MOST_BURSTS)
        self.assertEqual((refusals.PILOTS, refusals.USED), (ref.FUSC_PILOTS, len(ref.FUSC_USED)))

    def test_twenty_questions(self):
        self.assertEqual(sorted(bp.QUESTIONS), list(range(1, 21)))
        self.assertEqual(len(set(bp.QUESTIONS.values())), 20)
        self.assertTrue(all(text[0].isupper() and text.endswith("?") for text in bp.QUESTIONS.values()))

    def test_the_crate_in_rust_has_the_same_questions(self):
        with open(os.path.join(ROOT, "rust", "src", "refusal.rs")) as file:
            text = file.read()
        numbers = re.findall(r"^ +(\w+) = (\d+),$", text, re.MULTILINE)
        questions = dict(re.findall(r'^ +Refusal::(\w+) => "(.*\?)",$', text, re.MULTILINE))
        self.assertEqual({int(n): questions[name] for name, n in numbers}, dict(bp.QUESTIONS))

    def test_the_examples_in_c_have_the_same_questions(self):
        with open(os.path.join(ROOT, "examples", "c", "refusal.h")) as file:
            c = re.findall(r'^    "(.*)",$', file.read(), re.MULTILINE)
        self.assertEqual(c, [""] + [bp.QUESTIONS[n] for n in range(1, 21)])

    def test_every_number_comes_back(self):
        def read(text):
            return refusal(bp.plan_read, bytes.fromhex(text))

        numbers = [
            refusal(bp.place, 8, 1024, 0, 0, 0, 0),
            refusal(bp.place, 2, 128, 0, 0, 0, 0),
            refusal(bp.place, 2, 1024, 256, 0, 0, 0),
            refusal(bp.place, 2, 1024, 0, 512, 0, 0),
            refusal(bp.place, 2, 1024, 0, 0, 16, 0),
            refusal(bp.place, 2, 1024, 0, 0, 0, 48),
            refusal(bp.locate, 2, 1024, 0, 0, 512),
            refusal(bp.lay, 2, 1024, 0, 0, 0, floats(0), floats(0)),
            refusal(bp.look, 2, 1024, 0, 0, floats(0), 0),
            read(""),
            read("8100"),
            read("00"),
            read("01800802000000"),
            read("01801002000C00"),
            read(EXAMPLE.hex() + "00"),
            refusal(bp.plan_write, 1, 1024, [(2, 0, 1, 0)] + [UNUSED] * 7, bytearray(6)),
            read("01801002000C3F"),
            refusal(bp.bursts_check, 2, 1024, 0, 1, [(0, 0, 0, 1)]),
            refusal(bp.bursts_check, 2, 1024, 0, 1, [(0, 1, 0, 1)] * 2),
            refusal(bp.place, 7, 2048, 0, 0, 0, 0),
        ]
        self.assertEqual(numbers, list(range(1, 21)))


# --- grids ------------------------------------------------------------------------------------


def random_bits(rng, count):
    """Bit patterns of floats: any, among them NaNs with payloads, quiet and signalling, and both zeros."""
    odd = (0x7FC12345, 0x7F812345, 0xFFC00001, 0xFF800001, 0x7F800000, 0x80000000, 0, 1)
    return array("I", [rng.choice(odd) if rng.random() < 0.3 else rng.getrandbits(32) for _ in range(count)])


def as_floats(patterns):
    return memoryview(patterns).cast("B").cast("f")


def as_seen(what):
    """The reference's answer to a look as the module gives it."""
    kind = {"nothing": Kind.NOTHING, ref.PILOT: Kind.PILOT, ref.DATA: Kind.DATA}[what[0]]
    return bp.Seen(kind, *(tuple(part) if isinstance(part, list) else part for part in what[1:]))


def own(points, subchannel):
    """One subchannel's points, of all points of a slot."""
    return memoryview(points)[96 * subchannel : 96 * (subchannel + 1)]


class Grids(unittest.TestCase):
    def test_the_ground_to_the_bit(self):
        """Whatever the grid holds: the pilot point on pilots, +0.0 on every other carrier."""
        rng = random.Random(11)
        for mode, size in SETUPS:
            for cell, slot in zip(some_cells(mode, size, 12, more=1), (0, 1, 511)):
                pilot, grid = random_bits(rng, 2), random_bits(rng, ref.grid_floats(mode, size))
                before, wanted = pilot[:], array("I", [0]) * len(grid)
                for (symbol, carrier), what in ref.slot_map(mode, size, cell, slot).items():
                    if what[0] == ref.PILOT:
                        at = ref.grid_at(mode, size, symbol, carrier)
                        wanted[at : at + 2] = pilot
                bp.ground(mode, size, cell, slot, as_floats(pilot), as_floats(grid))
                self.assertEqual((grid, pilot), (wanted, before), (mode, size, cell, slot))

    def test_a_subchannel_and_no_other_float(self):
        """Whatever the grid holds: only where the reference places the subchannel's points it changes."""
        rng = random.Random(13)
        for mode, size in SETUPS:
            for cell, slot in zip(some_cells(mode, size, 14, more=1), (0, 1, 511)):
                grid = random_bits(rng, ref.grid_floats(mode, size))
                wanted = grid[:]
                for subchannel in range(ref.subchannels(mode, size)):
                    fields, points = (mode, size, cell, slot, subchannel), random_bits(rng, 96)
                    before = points[:]
                    for index in range(48):
                        at = ref.grid_at(mode, size, *ref.place(*fields, index)[1:])
                        wanted[at : at + 2] = points[2 * index : 2 * index + 2]
                    bp.lay(*fields, as_floats(points), as_floats(grid))
                    self.assertEqual((grid, points), (wanted, before), fields)

    def test_any_order_and_again(self):
        """The ground, then every subchannel in some order, some of them more than once: the last time counts."""
        rng = random.Random(15)
        for mode, size in SETUPS:
            setup = (mode, size, rng.randrange(ref.cells(mode, size)), rng.randrange(512))
            every = range(ref.subchannels(mode, size))
            points, pilot = random_bits(rng, 96 * len(every)), random_bits(rng, 2)
            wanted, grid = (random_bits(rng, ref.grid_floats(mode, size)) for _ in range(2))
            bp.fill(*setup, as_floats(pilot), as_floats(points), as_floats(wanted))
            order = rng.sample([*every, *rng.choices(every, k=len(every))], 2 * len(every))
            bp.ground(*setup, as_floats(pilot), as_floats(grid))
            for at, subchannel in enumerate(order):
                laid = random_bits(rng, 96) if subchannel in order[at + 1 :] else own(points, subchannel)
                bp.lay(*setup, subchannel, as_floats(laid), as_floats(grid))
            self.assertEqual(grid, wanted, setup)

    def test_bits_as_the_reference_and_back(self):
        rng = random.Random(5)
        for mode, size in SETUPS:
            for cell, slot in zip(some_cells(mode, size, 6, more=1), (0, 1, 511)):
                points = random_bits(rng, 96 * ref.subchannels(mode, size))
                pilot = random_bits(rng, 2)
                grid = random_bits(rng, ref.grid_floats(mode, size))
                setup = (mode, size, cell, ref.full_mask(mode), slot)
                after = ref.fill(*setup, pilot.tolist(), points.tolist(), grid.tolist())
                before = points[:], pilot[:]
                bp.fill(mode, size, cell, slot, as_floats(pilot), as_floats(points), as_floats(grid))
                self.assertEqual((0, grid.tolist()), after)
                self.assertEqual((points, pilot), before)
                again = random_bits(rng, len(points))
                bp.empty(mode, size, cell, slot, as_floats(grid), as_floats(again))
                self.assertEqual((again, (0, grid.tolist())), (points, after))

    def test_look_as_the_reference(self):
        rng = random.Random(7)
        for mode, size in SETUPS:
            grid = array("f", [rng.randrange(-1000, 1000) / 8 for _ in range(ref.grid_floats(mode, size))])
            cell, length = ref.cells(mode, size) - 1, ref.SLOT_LENGTH[mode]
            for symbol in range(5 * length, 6 * length):
                for carrier in ref.carriers(size):
                    what = ref.look(mode, size, cell, ref.full_mask(mode), symbol, grid, carrier)[1]
                    self.assertEqual(bp.look(mode, size, cell, symbol, grid, carrier), as_seen(what))

    def test_look_keeps_a_quiet_nan(self):
        patterns = array("I", [0xFFC12345, 0x7FC00007]) * 1024
        point = bp.look(2, 1024, 17, 0, as_floats(patterns), -425).point
        self.assertEqual(bits(array("f", point)), [0xFFC12345, 0x7FC00007])

    def test_pilot_as_numbers_or_as_a_buffer(self):
        points = points_for(2, 256)
        pilots = [(0.5, -2), [0.5, -2.0], array("f", [0.5, -2]), (ctypes.c_float * 2)(0.5, -2)]
        pilots += [memoryview(array("f", [0.5, -2])), memoryview(array("f", [9, 0.5, -2]))[1:]]
        pilots += [0.5 - 2j, complex(0.5, -2.0)]
        for pilot in pilots:
            grid, filled = grid_for(2, 256), grid_for(2, 256)
            bp.ground(2, 256, 0, 0, pilot, grid)
            bp.fill(2, 256, 0, 0, pilot, points, filled)
            for after in (grid, filled):
                self.assertEqual(bp.look(2, 256, 0, 0, after, -107), (Kind.PILOT, (0.5, -2.0), None, None, None))

    def test_pilot_may_stand_in_the_points_or_the_grid(self):
        points, grid = points_for(2, 256), grid_for(2, 256)
        bp.fill(2, 256, 0, 0, memoryview(points)[4:6], points, grid)
        self.assertEqual(bp.look(2, 256, 0, 0, grid, -107).point, (4.0, 5.0))
        for call, buffers in ((bp.ground, ()), (bp.fill, (points,))):
            grid = floats(512, 3.0)
            call(2, 256, 0, 0, memoryview(grid)[:2], *buffers, grid)
            self.assertEqual(bp.look(2, 256, 0, 0, grid, -107).point, (3.0, 3.0))
            self.assertEqual(grid[0], 0.0)


class Masks(unittest.TestCase):
    """A slot of PUSC downlink of which only some major groups are lit."""

    def test_without_a_mask_all_is_lit(self):
        rng = random.Random(16)
        self.assertEqual(bp.ALL_GROUPS, 63)
        for mode, size in SETUPS:
            setup, full = (mode, size, 1, 2), ref.full_mask(mode)
            points, pilot = random_bits(rng, 96 * ref.subchannels(mode, size)), as_floats(random_bits(rng, 2))
            one, other = grid_for(mode, size), grid_for(mode, size)
            for call, buffers in ((bp.ground, ()), (bp.fill, (as_floats(points),))):
                for mask in (None, full):
                    call(*setup, pilot, *buffers, one)
                    call(*setup, pilot, *buffers, other, mask=mask)
                    self.assertEqual(one.tobytes(), other.tobytes())
            again = random_bits(rng, len(points))
            bp.empty(*setup, one, as_floats(again), mask=full)
            self.assertEqual(again, points)
            again, other = random_bits(rng, len(points)), random_bits(rng, len(points))
            for mask in (None, full):
                bp.empty_first(*setup, MOST, one, as_floats(again))
                bp.empty_first(*setup, MOST, one, as_floats(other), mask=mask)
                self.assertEqual((again, other), (points, points))
            symbol = 2 * ref.SLOT_LENGTH[mode]
            for carrier in range(-20, 20):
                seen = [repr(bp.look(*setup[:3], symbol, one, carrier, mask=mask)) for mask in (None, full)]
                self.assertEqual(*seen)

    def test_every_mask_to_the_bit(self):
        """The ground and both moves, whatever the grid holds, and the lit points back."""
        rng = random.Random(17)
        for mask in ref.masks(0):
            setup, slot = (0, 2048, rng.randrange(32)), rng.randrange(512)
            lit = ref.lit_subchannels(0, 2048, mask)
            points, pilot, grid = random_bits(rng, 96 * len(lit)), random_bits(rng, 2), random_bits(rng, 8192)
            moved = grid[:]
            bp.ground(*setup, slot, as_floats(pilot), as_floats(grid), mask=mask)
            _, after = ref.ground(*setup, mask, slot, pilot.tolist(), moved.tolist())
            self.assertEqual(grid, array("I", after), mask)
            _, after = ref.fill(*setup, mask, slot, pilot.tolist(), points.tolist(), moved.tolist())
            bp.fill(*setup, slot, as_floats(pilot), as_floats(points), as_floats(moved), mask=mask)
            self.assertEqual(moved, array("I", after), mask)
            for rank, subchannel in rng.sample(list(enumerate(lit)), len(lit)):
                bp.lay(*setup, slot, subchannel, as_floats(own(points, rank)), as_floats(grid), mask=mask)
            self.assertEqual(grid, moved, mask)
            again = random_bits(rng, len(points))
            bp.empty(*setup, slot, as_floats(grid), as_floats(again), mask=mask)
            self.assertEqual(again, points, mask)
            self.assertEqual(grid, moved, mask)

    def test_a_lay_and_no_other_float(self):
        """Whatever the grid holds, on what is unlit too."""
        rng = random.Random(20)
        for mask in (1, 2, 12, 21, 42, 62):
            cell, slot = rng.randrange(32), rng.randrange(512)
            subchannel = rng.choice(ref.lit_subchannels(0, 2048, mask))
            grid, points = random_bits(rng, 8192), random_bits(rng, 96)
            _, after = ref.lay(0, 2048, cell, mask, slot, subchannel, points.tolist(), grid.tolist())
            bp.lay(0, 2048, cell, slot, subchannel, as_floats(points), as_floats(grid), mask=mask)
            self.assertEqual(grid, array("I", after), mask)

    def test_empty_reads_lit_data_alone(self):
        """And writes no float beside the points."""
        rng = random.Random(18)
        for mask in (1, 2, 12, 21, 42, 62):
            grid, points = random_bits(rng, 8192), random_bits(rng, 96 * len(ref.lit_subchannels(0, 2048, mask)))
            _, after = ref.empty(0, 2048, 7, mask, 3, grid.tolist(), points.tolist())
            large = array("I", [5]) + points + array("I", [6])
            bp.empty(0, 2048, 7, 3, as_floats(grid), as_floats(large)[1:-1], mask=mask)
            self.assertEqual(large, array("I", [5, *after, 6]), mask)

    def test_the_subchannels_of_every_mask(self):
        """Of the lit ones a lay is taken; the others meet 5, and nothing is written."""
        grid, points = grid_for(0, 2048), floats(96, 3.0)
        for mask in ref.masks(0):
            taken = [s for s in range(61) if refusal(bp.lay, 0, 2048, 31, 511, s, points, grid, mask=mask) == 0]
            self.assertEqual(taken, list(ref.lit_subchannels(0, 2048, mask)))
        for mask, subchannel in ((1, 12), (62, 11), (32, 51), (31, 52), (55, 39), (63, 60), (1, -1), (1, 2**32)):
            self.assertEqual(refusal(lay_with, 0, 2048, 31, mask, 511, subchannel, 95, 1), 5)
            self.assertEqual(refusal(lay_with, 0, 2048, 31, mask, 511, subchannel, 96, 8192), 5)

    def test_look_at_every_carrier(self):
        """Nothing on what is unlit, whatever the grid holds there."""
        rng = random.Random(19)
        grid = array("f", [rng.randrange(-1000, 1000) / 8 for _ in range(8192)])
        for mask, cell, symbol in ((1, 0, 0), (2, 31, 1), (12, 5, 6), (21, 17, 1023), (42, 30, 1022), (62, 1, 3)):
            for carrier in ref.carriers(2048):
                what = ref.look(0, 2048, cell, mask, symbol, grid, carrier)[1]
                self.assertEqual(bp.look(0, 2048, cell, symbol, grid, carrier, mask=mask), as_seen(what))

    def test_three_sectors_make_up_the_slot(self):
        """Each lights two groups: no float is two sectors', and all together they are the slot with everything lit."""
        points, whole = array("f", range(1, 5761)), grid_for(0, 2048)
        bp.fill(0, 2048, 5, 3, (-1, -2), points, whole)
        parts = []
        for sector, mask in enumerate((0b000011, 0b001100, 0b110000)):
            parts.append(grid_for(0, 2048))
            bp.fill(0, 2048, 5, 3, (-1, -2), points[1920 * sector :][:1920], parts[-1], mask=mask)
        for floats_there, float_whole in zip(zip(*parts), whole):
            self.assertEqual(sorted(floats_there, key=abs), [0.0, 0.0, float_whole])

    def test_masks_out_of_range(self):
        """Refused by every call that has a mask, and nothing is written."""
        for mode, size in SETUPS:
            points, grid = 96 * ref.subchannels(mode, size), ref.grid_floats(mode, size)
            for mask in (0, 64, 127, 128, 2**31, 2**32 + 1, 2**64 + 1, *NEVER) if mode == 0 else (1, 63, 64, *NEVER):
                setup = (mode, size, 0, mask)
                self.assertEqual(refusal(ground_with, *setup, 0, grid), 17)
                self.assertEqual(refusal(lay_with, *setup, 0, 0, 96, grid), 17)
                self.assertEqual(refusal(fill_with, *setup, 0, points, grid), 17)
                self.assertEqual(refusal(empty_with, *setup, 0, points, grid), 17)
                self.assertEqual(refusal(empty_first_with, *setup, 0, points, grid), 17)
                self.assertEqual(refusal(look_with, *setup, 0, grid, 0), 17)
                self.assertEqual(bp.lit_points_len(mode, size, mask), 0)

    def test_points_of_the_lit_alone(self):
        for mask in (1, 32, 21, 62):
            lit = 96 * len(ref.lit_subchannels(0, 2048, mask))
            for length in (0, 96, lit - 96, lit - 1, lit + 1, lit + 96, 5760):
                self.assertEqual(refusal(fill_with, 0, 2048, 0, mask, 0, length, 8192), 8)
                self.assertEqual(refusal(empty_with, 0, 2048, 0, mask, 0, length, 8192), 8)
                self.assertEqual(refusal(empty_first_with, 0, 2048, 0, mask, 0, length, 8192), 8)

    def test_given_by_name(self):
        grid = grid_for(0, 2048)
        points = points_for(0, 2048)
        for call, fields in ((bp.ground, ((1, 2), grid)), (bp.look, (grid, 0)), (bp.empty_first, (0, grid, points))):
            self.assertRaises(TypeError, call, 0, 2048, 0, 0, *fields, 63)
        for mask in (1.0, "1", b"1", [1]):
            self.assertRaises(TypeError, bp.ground, 0, 2048, 0, 0, (1, 2), grid, mask=mask)
            self.assertRaises(TypeError, bp.lit_points_len, 0, 2048, mask)
        self.assertEqual(grid, grid_for(0, 2048))


def emptied(mode, size, cell, mask, slot, carriers, grid, before):
    """The bits of the points after their first carriers are emptied; the grid stays as it is."""
    points, kept = before[:], grid[:]
    bp.empty_first(mode, size, cell, slot, carriers, as_floats(grid), as_floats(points), mask=mask)
    assert grid == kept
    return points


class FirstCarriers(unittest.TestCase):
    """Emptying the first carriers of a grid alone, to the bit, whatever grid and points hold."""

    def lent(self, rng, mode, size, mask):
        """Bits of a grid and of its points, all different: NaNs of both kinds with payloads, and numbers."""
        grid_len, points_len = ref.grid_floats(mode, size), ref.lit_points_len(mode, size, mask)
        both = array("I", [rng.choice((0x7F810000, 0xFFC10000, 0x3F810000)) + n for n in range(grid_len + points_len)])
        return both[:grid_len], both[grid_len:]

    def test_every_count_of_small_grids(self):
        """One carrier more writes its own point and no other float; which point that is, look says."""
        rng = random.Random(21)
        for mode, cell, slot in ((2, 15, 7), (3, 2351, 511), (4, 48, 2), (5, 176, 1), (6, 1000, 100)):
            setup, length = (mode, 256, cell, 0, slot), ref.SLOT_LENGTH[mode]
            grid, before = self.lent(rng, mode, 256, 0)
            wanted = before[:]
            self.assertEqual(emptied(*setup, 0, grid, before), before)
            for place in range(256 * length):
                offset, column = divmod(place, 256)
                seen = bp.look(mode, 256, cell, slot * length + offset, as_floats(grid), column - 128)
                if seen.kind is Kind.DATA:
                    at = 96 * seen.subchannel + 2 * seen.index
                    wanted[at : at + 2] = grid[2 * place : 2 * place + 2]
                self.assertEqual(emptied(*setup, place + 1, grid, before), wanted, (setup, place))
            whole = before[:]
            bp.empty(mode, 256, cell, slot, as_floats(grid), as_floats(whole))
            self.assertEqual(wanted, whole)

    def test_all_of_them_is_empty(self):
        rng = random.Random(22)
        for mode, size in SETUPS:
            for mask in (1, 42, 63) if mode == ref.PUSC_DL else (0,):
                setup = (mode, size, rng.randrange(ref.cells(mode, size)), mask, rng.randrange(512))
                grid, before = self.lent(rng, mode, size, mask)
                _, whole = ref.empty(*setup, grid.tolist(), before.tolist())
                for carriers in (len(grid) // 2, len(grid) // 2 + 1, 2**31, MOST, 2**32, 2**32 + 1, 2**64, HUGE):
                    self.assertEqual(emptied(*setup, carriers, grid, before), array("I", whole), (setup, carriers))

    def test_points_on_the_first_carriers_alone(self):
        """Where the reference places them, for masks too."""
        rng = random.Random(23)
        setups = [(mode, size, ref.full_mask(mode)) for mode, size in SETUPS]
        for mode, size, mask in setups + [(0, 2048, mask) for mask in ref.masks(0)]:
            setup = (mode, size, rng.randrange(ref.cells(mode, size)), mask, rng.randrange(512))
            grid, before = self.lent(rng, mode, size, mask)
            places = {}
            for subchannel, index in itertools.product(ref.lit_subchannels(mode, size, mask), range(48)):
                at = ref.grid_at(mode, size, *ref.place(*setup[:3], setup[4], subchannel, index)[1:])
                places[at // 2] = ref.points_at(mode, size, mask, subchannel, index)
            edge, last = rng.choice(list(places)), len(grid) // 2 - 1  # edge + 1 carriers just have a point
            for carriers in (0, 1, size // 2, size - 1, edge, edge + 1, rng.randrange(last), last):
                wanted = before[:]
                for place, at in places.items():
                    if place < carriers:
                        wanted[at : at + 2] = grid[2 * place : 2 * place + 2]
                self.assertEqual(emptied(*setup, carriers, grid, before), wanted, (setup, carriers))

    def test_a_larger_count_after_a_smaller_one(self):
        """Is the larger alone; a smaller one after it changes nothing more. What has not arrived is not read."""
        rng = random.Random(24)
        for mode, size in SETUPS:
            mask = rng.choice(ref.masks(mode))
            setup = (mode, size, rng.randrange(ref.cells(mode, size)), mask, rng.randrange(512))
            grid, before = self.lent(rng, mode, size, mask)
            for _ in range(4):
                less, more = sorted(rng.choices(range(len(grid) // 2 + 9), k=2))
                alone = emptied(*setup, more, grid, before)
                arrived = grid[: 2 * less] + random_bits(rng, len(grid) - 2 * less)
                self.assertEqual(emptied(*setup, more, grid, emptied(*setup, less, arrived, before)), alone)
                self.assertEqual(emptied(*setup, less, grid, alone), alone)
                self.assertEqual(emptied(*setup, less, arrived, before), emptied(*setup, less, grid, before))

    def test_no_question_about_the_count(self):
        """Whatever it is, the first question that fails is that of empty."""
        points, grid = 384, 512
        good, past = (2, 256, 15, 0, 511, points, grid), (8, 255, 16, 1, 512, points - 96, grid - 2)
        for bad in itertools.product((False, True), repeat=len(good)):
            fields = [past[at] if bad[at] else good[at] for at in range(len(good))]
            mode, size, cell, mask, slot, points_len, grid_len = fields
            for carriers in (0, 1, 256, 257, 2**31, MOST, 2**32, HUGE):
                lent = floats(grid_len), floats(points_len, 3.0)
                met = refusal(bp.empty_first, mode, size, cell, slot, carriers, *lent, mask=mask)
                self.assertEqual(met, ref.buffers_refusal(*fields), (fields, carriers))
                self.assertTrue(met == 0 or lent == (floats(grid_len), floats(points_len, 3.0)))

    def test_whatever_counts_as_an_integer_is_a_count(self):
        class Index:
            def __index__(self):
                return 200

        grid, before = self.lent(random.Random(25), 3, 256, 0)
        setup = (3, 256, 7, 0, 1)
        self.assertEqual(emptied(*setup, Index(), grid, before), emptied(*setup, 200, grid, before))
        self.assertEqual(emptied(*setup, False, grid, before), before)


# --- FUSC -------------------------------------------------------------------------------------

SPREAD = range(26, 1677, 10)  # a list that is not the reference's: every tenth used number
LISTED = (bp.place, bp.locate, bp.places, slot_places_with, ground_with, lay_with, fill_with, empty_with, look_with)
LISTED += (empty_first_with,)


def calls_with_pilots(mode, size):
    """Those of calls_of that take a list of pilots."""
    return [call for call in calls_of(mode, size) if call[0] in LISTED]


def some_lists(rng):
    return [*pilot_lists.GOOD.values(), pilot_lists.random_list(rng)]


class Fusc(unittest.TestCase):
    """Mode 7, whose pilots are a list of the caller's."""

    def test_by_hand(self):
        """Index 46 of subchannel 31 in cell 0 has data number 573: behind as many pilots as stand before it."""
        for pilots, used in ((pilot_lists.START, 573 + 166), (pilot_lists.END, 573), (SPREAD, 573 + 61)):
            place = bp.place(7, 2048, 0, 9, 31, 46, pilots=pilots)
            self.assertEqual(place, (9, used - 851))
            self.assertEqual(bp.locate(7, 2048, 0, *place, pilots=pilots), (Kind.DATA, 9, 31, 46))
            self.assertEqual(bp.places(7, 2048, 0, 9, 31, pilots=pilots)[46], 1024 + used - 851)
        last = range(1701 - 165, 1702)
        kinds = {-852: Kind.GUARD, -851: Kind.DATA, 0: Kind.DC, 1: Kind.DATA, 851: Kind.PILOT, 852: Kind.GUARD}
        for carrier, kind in {**kinds, -1024: Kind.GUARD, 1023: Kind.GUARD, 851 - 165: Kind.PILOT}.items():
            self.assertEqual(bp.locate(bp.Mode.FUSC, 2048, 31, 511, carrier, pilots=last).kind, kind, carrier)
        pilots = [carrier for carrier in ref.carriers(2048) if self.is_pilot(carrier, SPREAD)]
        self.assertEqual(pilots, [used - 851 if used < 851 else used - 850 for used in SPREAD])

    def is_pilot(self, carrier, pilots):
        return bp.locate(7, 2048, 0, 0, carrier, pilots=pilots).kind is Kind.PILOT

    def test_every_point_and_carrier_as_the_reference(self):
        rng = random.Random(40)
        for pilots, cell, slot in zip(some_lists(rng), (0, 31, 5, 17, 1, 30), (0, 511, 1, 2, 77, 300)):
            setup, places = (7, 2048, cell, slot), array("I")
            for subchannel in range(32):
                wanted = [ref.place(*setup, subchannel, index, pilots) for index in range(48)]
                found = [bp.place(*setup, subchannel, index, pilots=pilots) for index in range(48)]
                self.assertEqual([(0, *place) for place in found], wanted, (setup, subchannel))
                row = array("I", [ref.grid_at(7, 2048, *place[1:]) // 2 for place in wanted])
                self.assertEqual(bp.places(*setup, subchannel, pilots=pilots), row)
                places += row
            self.assertEqual(bp.slot_places(*setup, pilots=pilots), places)
            for carrier in ref.carriers(2048):
                wanted = as_located(ref.locate(*setup, carrier, pilots)[1])
                self.assertEqual(bp.locate(*setup, carrier, pilots=pilots), wanted, (setup, carrier))

    def test_grids_to_the_bit(self):
        """Both moves, both emptyings and looks, whatever the buffers hold."""
        rng = random.Random(41)
        for pilots, cell, slot in zip(some_lists(rng), (31, 0, 9, 16, 2, 29), (511, 0, 2, 1, 400, 5)):
            setup, lent = (7, 2048, cell, slot), {"pilots": pilots}
            points, pilot, grid = random_bits(rng, 3072), random_bits(rng, 2), random_bits(rng, 4096)
            before = grid.tolist()
            _, ground = ref.ground(7, 2048, cell, 0, slot, pilot.tolist(), before, pilots)
            bp.ground(*setup, as_floats(pilot), as_floats(grid), **lent)
            self.assertEqual(grid.tolist(), ground)
            _, wanted = ref.fill(7, 2048, cell, 0, slot, pilot.tolist(), points.tolist(), before, pilots)
            for subchannel in rng.sample(range(32), 32):
                bp.lay(*setup, subchannel, as_floats(own(points, subchannel)), as_floats(grid), **lent)
            self.assertEqual(grid.tolist(), wanted)
            grid = random_bits(rng, 4096)
            bp.fill(*setup, as_floats(pilot), as_floats(points), as_floats(grid), **lent)
            self.assertEqual(grid.tolist(), wanted)
            again = random_bits(rng, 3072)
            bp.empty(*setup, as_floats(grid), as_floats(again), **lent)
            self.assertEqual(again, points)
            for carriers in (0, 1, 173, 1024, 1025, rng.randrange(2048), 1875, 1876, 2048, MOST, HUGE):
                again = random_bits(rng, 3072)
                count, old = min(carriers, MOST), again.tolist()
                _, first = ref.empty_first(7, 2048, cell, 0, slot, count, grid.tolist(), old, pilots)
                bp.empty_first(*setup, carriers, as_floats(grid), as_floats(again), **lent)
                self.assertEqual(again.tolist(), first)
            held = array("f", [rng.randrange(-1000, 1000) / 8 for _ in range(4096)])
            for carrier in ref.carriers(2048):
                what = ref.look(7, 2048, cell, 0, slot, held, carrier, pilots)[1]
                self.assertEqual(bp.look(*setup, held, carrier, **lent), as_seen(what))

    def test_the_slots_that_a_table_serves(self):
        """All that have the same list; nothing but the symbol's number goes by the slot."""
        for pilots in (SPREAD, pilot_lists.ENDS):
            tables = {bp.slot_places(7, 2048, 5, slot, pilots=pilots).tobytes() for slot in (0, 1, 2, 3, 100, 511)}
            self.assertEqual(len(tables), 1)
        self.assertNotEqual(tables, {bp.slot_places(7, 2048, 5, 0, pilots=SPREAD).tobytes()})

    def test_the_first_question_that_fails(self):
        """With a good list, a damaged one and none, whichever other fields are wrong; so in other modes."""
        rng = random.Random(42)
        for setup in (FUSC, (2, 256), (0, 2048)):
            for call, expected, good, past in calls_with_pilots(*setup):
                for bad in itertools.product((False, True), repeat=len(good)):
                    fields = [two[is_bad] for is_bad, *two in zip(bad, good, past)]
                    for pilots in ((), SPREAD, pilot_lists.damaged(rng)[1], [-1], [HUGE] * 166):
                        number = expected(*fields, list(map(as_engine, pilots)))
                        self.assertEqual(refusal(call, *fields, pilots=pilots), number, (call, fields, pilots))
        self.assertEqual(len(calls_with_pilots(*FUSC)), 10)

    def test_damaged_lists(self):
        """Each kind of damage meets 20 in every call, and nothing is written."""
        rng = random.Random(43)
        for damage in pilot_lists.DAMAGES.values():
            pilots = damage(rng, pilot_lists.some_good(rng))
            for call, _, good, _ in calls_with_pilots(*FUSC):
                self.assertEqual(refusal(call, *good, pilots=pilots), 20, (call, pilots))
        for at in range(166):
            for entry in (1702, MOST, 2**32, 2**32 + SPREAD[at], 2**64 + SPREAD[at], -1, SPREAD[at] - 2**32, -HUGE):
                pilots = [*SPREAD[:at], entry, *SPREAD[at + 1 :]]
                self.assertEqual(refusal(bp.place, 7, 2048, 0, 0, 0, 0, pilots=pilots), 20, (at, entry))

    def test_a_list_in_another_mode(self):
        for mode, size in SETUPS:
            for call, _, good, _ in calls_with_pilots(mode, size):
                for pilots in (SPREAD, [0], [MOST], range(165), [-1]):
                    self.assertEqual(refusal(call, *good, pilots=pilots), 20, (call, good))
                for pilots in (None, [], (), array("I"), range(0), iter(())):
                    self.assertEqual(refusal(call, *good, pilots=pilots), 0, (call, good))

    def test_every_kind_of_sequence(self):
        class Index:
            def __init__(self, value):
                self.value = value

            def __index__(self):
                return self.value

        wanted = bp.place(7, 2048, 3, 4, 5, 6, pilots=SPREAD)
        kinds = [list(SPREAD), tuple(SPREAD), iter(SPREAD), (used for used in SPREAD), list(map(Index, SPREAD))]
        kinds += [array(code, SPREAD) for code in "hHiIlLqQ"] + [memoryview(array("I", SPREAD))]
        kinds += [(ctypes.c_uint32 * 166)(*SPREAD), (ctypes.c_int16 * 166)(*SPREAD), dict.fromkeys(SPREAD)]
        for pilots in kinds:
            self.assertEqual(bp.place(7, 2048, 3, 4, 5, 6, pilots=pilots), wanted, pilots)
        wanted = bp.place(7, 2048, 3, 4, 5, 6, pilots=range(166))
        for pilots in (bytes(range(166)), [False, True, *range(2, 166)], pilot_lists.START):
            self.assertEqual(bp.place(7, 2048, 3, 4, 5, 6, pilots=pilots), wanted)
        for call, _, good, _ in calls_with_pilots(*FUSC):  # one that can be gone through but once
            self.assertEqual(refusal(call, *good, pilots=iter(SPREAD)), 0, call)

    def test_what_is_no_list(self):
        """An error of Python's own, before every question."""
        for pilots in (5, 1.0, "123", [1.0], ["1"], [None], [[1]], [*SPREAD[:165], 1676.0], object(), [b"1"]):
            for setup in (FUSC, (2, 256)):
                for call, _, good, past in calls_with_pilots(*setup):
                    for fields in (good, (past[0], *good[1:])):
                        with self.assertRaisesRegex(TypeError, "^pilots: integers are needed, used numbers: ."):
                            call(*fields, pilots=pilots)

    def test_given_by_name(self):
        self.assertRaises(TypeError, bp.place, 7, 2048, 0, 0, 0, 0, SPREAD)
        self.assertRaises(TypeError, bp.locate, 7, 2048, 0, 0, 0, SPREAD)
        self.assertRaises(TypeError, bp.places, 7, 2048, 0, 0, 0, SPREAD)
        for call in (bp.place, bp.locate, bp.places, bp.slot_places, bp.ground, bp.lay, bp.fill, bp.empty, bp.look):
            self.assertIsNone(inspect.signature(call).parameters["pilots"].default)

    def test_without_one_none_is_made(self):
        self.assertIs(library.listed(None), library.listed(None))
        self.assertEqual(library.listed(None)[:2], (None, 0))
        self.assertIsNot(library.listed([]), library.listed(None))

    def test_the_callers_list_is_neither_held_nor_changed(self):
        pilots = array("I", SPREAD)
        for call, _, good, _ in calls_with_pilots(*FUSC):
            self.assertEqual(refusal(call, *good, pilots=pilots), 0)
            self.assertEqual(pilots, array("I", SPREAD))
            pilots.append(0)
            self.assertEqual(refusal(call, *good, pilots=pilots), 20)
            pilots.pop()

    def test_words(self):
        def told(pilots, mode=7, size=2048):
            return words(bp.place, mode, size, 0, 0, 0, 0, pilots=pilots)

        self.assertEqual(told(None), "0 pilots are given, not 166")
        self.assertEqual(told(SPREAD[:165]), "165 pilots are given, not 166")
        self.assertEqual(told([*SPREAD, 1700]), "167 pilots are given, not 166")
        self.assertEqual(told([0], mode=2), "1 pilots are given, and mode 2 takes none")
        self.assertEqual(told(SPREAD, mode=0), "166 pilots are given, and mode 0 takes none")
        used = "pilot %d is %s, not one of mode 7's used numbers: 0 to 1701"
        self.assertEqual(told([*SPREAD[:165], 1702]), used % (165, 1702))
        self.assertEqual(told([-1, *SPREAD[1:]]), used % (0, -1))
        self.assertEqual(told([*SPREAD[:9], 2**32 + 5, *SPREAD[10:]]), used % (9, 2**32 + 5))
        self.assertEqual(told([*SPREAD[:9], HUGE, *SPREAD[10:]]), used % (9, "of more than 20 digits"))
        rise = "pilot %d is %d, not larger than pilot %d, which is %d"
        self.assertEqual(told([26, 26, *SPREAD[2:]]), rise % (1, 26, 0, 26))
        self.assertEqual(told([*SPREAD[:165], 3]), rise % (165, 3, 164, 1666))
        self.assertEqual(told(SPREAD[::-1]), rise % (1, 1666, 0, 1676))
        self.assertEqual(words(bp.place, 7, 1024, 0, 0, 0, 0), "size 1024 is not one of mode 7's: 2048")
        self.assertEqual(words(bp.place, 7, 2048, 32, 0, 0, 0), "cell 32 is not one of mode 7's: 0 to 31")
        self.assertEqual(words(bp.place, 7, 2048, 31, 0, 32, 0), "subchannel 32 is not one of mode 7's: 0 to 31")
        self.assertEqual(words(bp.locate, 7, 2048, 31, 512, 0), "symbol 512 is not one of mode 7's: 0 to 511")
        self.assertEqual(words(ground_with, 7, 2048, 31, 63, 0, 0), "mask 63 is not one of mode 7's: 0")
        for call, _, good, _ in calls_with_pilots(*FUSC):
            self.assertEqual(words(call, *good, pilots=[1]), "1 pilots are given, not 166")

    def test_the_parts_of_its_slot(self):
        """As many points, pilots and carriers as it has, and an unlit one is none of its own."""
        pilots = pilot_lists.AROUND_DC
        kinds = [bp.locate(7, 2048, 0, 0, carrier, pilots=pilots).kind for carrier in ref.carriers(2048)]
        counts = {kind: kinds.count(kind) for kind in set(kinds)}
        self.assertEqual(counts, {Kind.GUARD: 173 + 172, Kind.DC: 1, Kind.PILOT: 166, Kind.DATA: 32 * 48})
        self.assertEqual((bp.lit_points_len(7, 2048), bp.lit_points_len(7, 2048, 63)), (3072, 0))
        self.assertEqual((bp.points_len(7, 1024), bp.grid_len(7, 1024)), (0, 0))


# --- lengths and lending ----------------------------------------------------------------------


class Lengths(unittest.TestCase):
    def test_as_the_reference(self):
        sizes = [*range(0, 4200), 2**16 + 256, 2**31, 2**32 - 1, 2**32 + 256, -256, HUGE]
        for mode in [*range(9), 256, 2**16, 2**32 - 1, 2**32, -1, HUGE]:
            for size in sizes:
                setup = as_engine(mode), as_engine(size)
                lengths = ref.points_len(*setup), ref.grid_len(*setup)
                self.assertEqual((bp.points_len(mode, size), bp.grid_len(mode, size)), lengths, (mode, size))
                for mask in (0, 1, 63, 64) if size in ref.BIN_SIZES or size == 2**32 + 256 else ():
                    self.assertEqual(bp.lit_points_len(mode, size, mask), ref.lit_points_len(*setup, mask))
        for mask in range(130):
            self.assertEqual(bp.lit_points_len(0, 2048, mask), ref.lit_points_len(0, 2048, mask))
        self.assertEqual((bp.lit_points_len(0, 2048), bp.lit_points_len(1, 2048)), (5760, 6720))
        self.assertEqual(bp.points_len(mode=1, size=2048), 6720)
        self.assertEqual((bp.points_len(bp.AMC_1X6, 2048), bp.grid_len(bp.AMC_1X6, 2048)), (18432, 24576))
        self.assertEqual((bp.points_len(bp.FUSC, 2048), bp.grid_len(bp.FUSC, 2048)), (3072, 4096))
        for value in (1.0, "1", None):
            for call in (bp.points_len, bp.grid_len):
                self.assertRaises(TypeError, call, value, 2048)
                self.assertRaises(TypeError, call, 0, value)


class Lending(unittest.TestCase):
    """The engine works on the memory that is lent, and on no more of it."""

    def test_a_part_of_a_larger_buffer(self):
        for mode, size in SETUPS:
            points, length = points_for(mode, size), ref.grid_floats(mode, size)
            plain = floats(length)
            bp.fill(mode, size, 1, 3, (1, 2), points, plain)
            large = floats(length + 12, 5.0)
            bp.fill(mode, size, 1, 3, (1, 2), points, memoryview(large)[5 : 5 + length])
            self.assertEqual(large, floats(5, 5.0) + plain + floats(7, 5.0))
            moved = floats(length + 12, 5.0)
            bp.ground(mode, size, 1, 3, (1, 2), memoryview(moved)[5 : 5 + length])
            for subchannel in range(ref.subchannels(mode, size)):
                bp.lay(mode, size, 1, 3, subchannel, own(points, subchannel), memoryview(moved)[5 : 5 + length])
            self.assertEqual(moved, large)
            taken = floats(len(points) + 9, 6.0)
            bp.empty(mode, size, 1, 3, memoryview(large)[5 : 5 + length], memoryview(taken)[2:-7])
            self.assertEqual(taken, floats(2, 6.0) + points + floats(7, 6.0))
            taken = floats(len(points) + 9, 6.0)
            bp.empty_first(mode, size, 1, 3, length, memoryview(large)[5 : 5 + length], memoryview(taken)[2:-7])
            self.assertEqual(taken, floats(2, 6.0) + points + floats(7, 6.0))

    def test_every_kind_of_buffer(self):
        points, plain = points_for(3, 512), grid_for(3, 512)
        bp.fill(3, 512, 100, 1, (1, 2), points, plain)
        sources = [
            memoryview(points),
            memoryview(points).toreadonly(),
            memoryview(points.tobytes()).cast("f"),
            memoryview(bytearray(points.tobytes())).cast("f"),
            memoryview(points.tobytes()).cast("f", shape=[8, 48, 2]),
            (ctypes.c_float * len(points))(*points),
            ((ctypes.c_float * 96) * 8).from_buffer_copy(points),
        ]
        grids = [
            memoryview(floats(1024)),
            memoryview(bytearray(4096)).cast("f"),
            memoryview(bytearray(4096)).cast("f", shape=[512, 2]),
            (ctypes.c_float * 1024)(),
            ((ctypes.c_float * 2) * 512)(),
        ]
        for source, grid in itertools.product(sources, grids):
            ctypes.memset((ctypes.c_byte * 4096).from_buffer(grid), 1, 4096)
            bp.fill(3, 512, 100, 1, (1, 2), source, grid)
            self.assertEqual(memoryview(grid).tobytes(), plain.tobytes())
            again = floats(len(points))
            bp.empty(3, 512, 100, 1, memoryview(grid).toreadonly(), again)
            self.assertEqual(again, points)
            again = floats(len(points))
            bp.empty_first(3, 512, 100, 1, 512, memoryview(grid).toreadonly(), again)
            self.assertEqual(again, points)

    def test_every_kind_of_buffer_in_two_moves(self):
        points, plain = points_for(3, 512), grid_for(3, 512)
        bp.fill(3, 512, 100, 1, (1, 2), points, plain)

        def sources(laid):
            """One subchannel's points."""
            return [
                laid,
                memoryview(laid),
                memoryview(laid).toreadonly(),
                memoryview(laid.tobytes()).cast("f"),
                memoryview(laid.tobytes()).cast("f", shape=[48, 2]),
                (ctypes.c_float * 96)(*laid),
                ((ctypes.c_float * 2) * 48).from_buffer_copy(laid),
                memoryview(floats(3) + laid)[3:],
            ]

        grids = [
            floats(1024),
            memoryview(floats(1024)),
            memoryview(bytearray(4096)).cast("f"),
            memoryview(bytearray(4096)).cast("f", shape=[1, 512, 2]),
            (ctypes.c_float * 1024)(),
            ((ctypes.c_float * 2) * 512)(),
        ]
        for grid, first in itertools.product(grids, range(8)):
            ctypes.memset((ctypes.c_byte * 4096).from_buffer(grid), 1, 4096)
            bp.ground(3, 512, 100, 1, (1, 2), grid)
            for subchannel in range(8):
                kinds = sources(points[96 * subchannel : 96 * (subchannel + 1)])
                bp.lay(3, 512, 100, 1, subchannel, kinds[(first + subchannel) % 8], grid)
            self.assertEqual(memoryview(grid).tobytes(), plain.tobytes())

    def test_nothing_is_copied(self):
        points, grid = points_for(1, 2048), grid_for(1, 2048)
        source = memoryview(points.tobytes()).cast("f")
        bp.fill(1, 2048, 0, 0, (1, 2), source, grid)
        tracemalloc.start()
        bp.ground(1, 2048, 0, 0, (1, 2), grid)
        bp.lay(1, 2048, 0, 0, 69, own(source, 69), grid)
        bp.fill(1, 2048, 0, 0, (1, 2), source, grid)
        bp.empty(1, 2048, 0, 0, grid, points)
        bp.empty_first(1, 2048, 0, 0, 5000, grid, points)
        bp.look(1, 2048, 0, 0, grid, 500)
        peak = tracemalloc.get_traced_memory()[1]
        tracemalloc.stop()
        self.assertLess(peak, 8192)

    def test_buffers_are_given_back(self):
        """An array that is still lent cannot grow."""
        points, grid = points_for(2, 256), grid_for(2, 256)
        own, dest, pilot = points[:96], bytearray(9), array("f", [1, 2])
        for cell in (0, 16):
            refusal(bp.ground, 2, 256, cell, 0, pilot, grid)
            refusal(bp.lay, 2, 256, cell, 0, 0, own, grid)
            refusal(bp.fill, 2, 256, cell, 0, pilot, points, grid)
            refusal(bp.empty, 2, 256, cell, 0, grid, points)
            refusal(bp.empty_first, 2, 256, cell, 0, 100, grid, points)
            refusal(bp.look, 2, 256, cell, 0, grid, 0)
            refusal(bp.plan_bytes, 256, [(2, cell, 1, 0)])
            refusal(bp.plan_write, 1, 256, [(2, cell, 1, 0)] + [UNUSED] * 7, dest)
            refusal(bp.plan_read, dest)
        self.assertRaises(ValueError, bp.fill, 2, 256, 0, 0, floats(3), points, grid)
        self.assertRaises(ValueError, bp.fill, 2, 256, 0, 0, pilot, grid, grid)
        self.assertRaises(TypeError, bp.fill, 2, 256, 0, 0, pilot, points, dest)
        self.assertRaises(TypeError, bp.ground, 2, 256, 0, 0, pilot, dest)
        self.assertRaises(ValueError, bp.lay, 2, 256, 0, 0, 0, grid, grid)
        self.assertRaises(TypeError, bp.lay, 2, 256, 0, 0, 0, points, dest)
        self.assertRaises(ValueError, bp.empty_first, 2, 256, 0, 0, 100, grid, grid)
        self.assertRaises(ValueError, bp.empty_first, 2, 256, 0, 0, -1, grid, points)
        for buffer in (points, own, grid, dest, pilot):
            buffer.append(0)

    def test_empty_buffers(self):
        for none in (array("f"), memoryview(bytearray()).cast("f"), (ctypes.c_float * 0)()):
            self.assertEqual(refusal(bp.ground, 2, 256, 0, 0, (1, 2), none), 9)
            self.assertEqual(refusal(bp.lay, 2, 256, 0, 0, 0, none, none), 8)
            self.assertEqual(refusal(bp.lay, 2, 256, 0, 0, 0, floats(96), none), 9)
            self.assertEqual(refusal(bp.fill, 2, 256, 0, 0, (1, 2), none, none), 8)
            self.assertEqual(refusal(bp.fill, 2, 256, 0, 0, (1, 2), points_for(2, 256), none), 9)
            self.assertEqual(refusal(bp.empty, 2, 256, 0, 0, none, none), 8)
            self.assertEqual(refusal(bp.empty_first, 2, 256, 0, 0, 0, none, none), 8)
            self.assertEqual(refusal(bp.empty_first, 2, 256, 0, 0, 0, none, points_for(2, 256)), 9)
            self.assertEqual(refusal(bp.look, 2, 256, 0, 0, none, 0), 9)

    def test_refused_calls_write_nothing(self):
        for mode, size in SETUPS:
            points, grid = points_for(mode, size), grid_for(mode, size)
            short = points[:-1], grid[:-1]
            bads = [(9, size, 0, 0), (mode, 3, 0, 0), (mode, size, 4000, 0), (mode, size, 0, 512), (mode, size, 0, -1)]
            for fields in bads:
                self.assertTrue(refusal(bp.ground, *fields, (1, 2), grid))
                self.assertTrue(refusal(bp.lay, *fields, 0, own(points, 0), grid))
                self.assertTrue(refusal(bp.fill, *fields, (1, 2), points, grid))
                self.assertTrue(refusal(bp.empty, *fields, grid, points))
                self.assertTrue(refusal(bp.empty_first, *fields, MOST, grid, points))
            self.assertEqual(refusal(bp.ground, mode, size, 0, 0, (1, 2), short[1]), 9)
            for subchannel in (ref.subchannels(mode, size), -1, 2**32):
                self.assertEqual(refusal(bp.lay, mode, size, 0, 0, subchannel, own(points, 0), grid), 5)
            for length in (0, 48, 94, 95, 97, 98, 192, len(points)):
                self.assertEqual(refusal(bp.lay, mode, size, 0, 0, 0, memoryview(points)[:length], grid), 8)
            self.assertEqual(refusal(bp.lay, mode, size, 0, 0, 0, own(points, 0), short[1]), 9)
            self.assertEqual(refusal(bp.fill, mode, size, 0, 0, (1, 2), short[0], grid), 8)
            self.assertEqual(refusal(bp.fill, mode, size, 0, 0, (1, 2), own(points, 0), grid), 8)
            self.assertEqual(refusal(bp.fill, mode, size, 0, 0, (1, 2), points, short[1]), 9)
            self.assertEqual(refusal(bp.empty, mode, size, 0, 0, grid, short[0]), 8)
            self.assertEqual(refusal(bp.empty, mode, size, 0, 0, short[1], points), 9)
            self.assertEqual(refusal(bp.empty_first, mode, size, 0, 0, MOST, grid, short[0]), 8)
            self.assertEqual(refusal(bp.empty_first, mode, size, 0, 0, MOST, short[1], points), 9)
            self.assertEqual((points, grid), (points_for(mode, size), grid_for(mode, size)))
            self.assertEqual(short, (points[:-1], grid[:-1]))


class NoRefusal(unittest.TestCase):
    """What the engine cannot see is an error of Python's own, and nothing is written."""

    def setUp(self):
        self.points, self.grid = points_for(2, 256), grid_for(2, 256)

    def fails(self, error, call, *fields):
        with self.assertRaises(error) as caught:
            call(*fields)
        self.assertNotIsInstance(caught.exception, bp.Refusal)
        self.assertRegex(str(caught.exception), "^(points|grid|pilot|carriers|zones|dest|data|bursts)( and grid|:)")
        self.assertEqual((self.points, self.grid), (points_for(2, 256), grid_for(2, 256)))

    def fails_everywhere(self, error, points, grid):
        """Of the two buffers one is bad; the other is good."""
        self.fails(error, bp.fill, 2, 256, 0, 0, (1, 2), points, grid)
        self.fails(error, bp.empty, 2, 256, 0, 0, grid, points)
        self.fails(error, bp.empty_first, 2, 256, 0, 0, 100, grid, points)
        self.fails(error, bp.lay, 2, 256, 0, 0, 0, own(points, 0) if points is self.points else points, grid)
        if grid is not self.grid:
            self.fails(error, bp.look, 2, 256, 0, 0, grid, 0)
            self.fails(error, bp.ground, 2, 256, 0, 0, (1, 2), grid)

    def test_elements_that_are_no_32_bit_floats(self):
        for kind in "dbBhHiIlLqQ":
            self.fails_everywhere(TypeError, array(kind, [0]) * 384, self.grid)
            self.fails_everywhere(TypeError, self.points, array(kind, [0]) * 512)
        for size in (384, 4 * 384):
            self.fails_everywhere(TypeError, bytearray(size), self.grid)
        other = ctypes.c_float.__ctype_be__ if sys.byteorder == "little" else ctypes.c_float.__ctype_le__
        self.fails_everywhere(TypeError, self.points, (other * 512)())
        self.fails_everywhere(TypeError, (ctypes.c_double * 384)(), self.grid)

    def test_what_is_no_buffer(self):
        for what in ([0.0] * 384, (0.0,) * 384, None, 5, "text", iter(())):
            self.fails_everywhere(TypeError, what, self.grid)
            self.fails_everywhere(TypeError, self.points, what)

    def test_not_contiguous(self):
        self.fails_everywhere(BufferError, memoryview(floats(768))[::2], self.grid)
        self.fails_everywhere(BufferError, self.points, memoryview(floats(1024))[::2])
        self.fails_everywhere(BufferError, self.points, memoryview(floats(512))[::-1])

    def test_read_only_destination(self):
        kept = bytes(2048)
        for grid in (memoryview(self.grid).toreadonly(), memoryview(kept).cast("f")):
            self.fails(BufferError, bp.ground, 2, 256, 0, 0, (1, 2), grid)
            self.fails(BufferError, bp.lay, 2, 256, 0, 0, 0, own(self.points, 0), grid)
            self.fails(BufferError, bp.fill, 2, 256, 0, 0, (1, 2), self.points, grid)
        self.assertEqual(kept, bytes(2048))
        self.fails(BufferError, bp.empty, 2, 256, 0, 0, self.grid, memoryview(self.points).toreadonly())
        self.fails(BufferError, bp.empty_first, 2, 256, 0, 0, 0, self.grid, memoryview(self.points).toreadonly())
        kept = bytes(64)
        self.fails(BufferError, bp.plan_write, 1, 1024, [(2, 0, 1, 0)] + [UNUSED] * 7, kept)
        self.assertEqual(kept, bytes(64))

    def test_not_aligned(self):
        for shift in (1, 2, 3):
            odd = memoryview(bytearray(2048 + shift))[shift:].cast("f")
            self.fails_everywhere(ValueError, odd[:384], self.grid)
            self.fails_everywhere(ValueError, self.points, odd)
            self.assertEqual(odd.tobytes(), bytes(2048))

    def fails_with_pilot(self, error, pilot):
        self.fails(error, bp.ground, 2, 256, 0, 0, pilot, self.grid)
        self.fails(error, bp.fill, 2, 256, 0, 0, pilot, self.points, self.grid)

    def test_pilot(self):
        for pilot in ((), (1,), (1, 2, 3), [1.0] * 3, floats(0), floats(1), floats(3), (ctypes.c_float * 4)()):
            self.fails_with_pilot(ValueError, pilot)
        for pilot in (1, 1.0, None, "12", array("d", [1, 2]), bytes(8), iter((1, 2)), ("1", "2"), (1j, 0), (None, 0)):
            self.fails_with_pilot(TypeError, pilot)
        self.fails_with_pilot(BufferError, memoryview(floats(4))[::2])

    def test_a_pilot_that_no_float_holds(self):
        for number in (3.5e38, -3.5e38, 1e308, 2**128, -(10**400)):
            for pilot in ((number, 0), [0, number]):
                self.fails_with_pilot(OverflowError, pilot)
        for pilot in (3.5e38 + 0j, 3.5e38j):
            self.fails_with_pilot(OverflowError, pilot)
        for number in (3.4028234663852886e38, -3.4028234663852886e38, float("inf"), 1e-60):
            bp.ground(2, 256, 0, 0, (number, 0), grid_for(2, 256))
            bp.fill(2, 256, 0, 0, (number, 0), points_for(2, 256), grid_for(2, 256))

    def test_points_and_grid_overlap(self):
        for at in (0, 1, 128, 383, 511):
            memory = floats(1024)
            points, grid = memoryview(memory)[at : at + 384], memoryview(memory)[:512]
            self.fails(ValueError, bp.fill, 2, 256, 0, 0, (1, 2), points, grid)
            self.fails(ValueError, bp.empty, 2, 256, 0, 0, grid, points)
            self.fails(ValueError, bp.empty_first, 2, 256, 0, 0, 0, grid, points)
            self.fails(ValueError, bp.lay, 2, 256, 0, 0, 0, points[:96], grid)
            grid = memoryview(memory)[at + 383 : at + 383 + 512]
            self.fails(ValueError, bp.fill, 2, 256, 0, 0, (1, 2), points, grid)
            self.fails(ValueError, bp.empty, 2, 256, 0, 0, grid, points)
            self.fails(ValueError, bp.empty_first, 2, 256, 0, 0, 0, grid, points)
            self.fails(ValueError, bp.lay, 2, 256, 0, 0, 0, points[-96:], grid)
            self.assertEqual(memory, floats(1024))

    def test_neighbours_do_not_overlap(self):
        memory = floats(384 + 512)
        view = memoryview(memory)
        bp.fill(2, 256, 0, 0, (1, 2), view[:384], view[384:])
        self.assertEqual(memory[:384], floats(384))
        bp.empty(2, 256, 0, 0, view[:512], view[512:])
        bp.empty_first(2, 256, 0, 0, 100, view[:512], view[512:])
        bp.empty_first(2, 256, 0, 0, 100, view[384:], view[:384])
        bp.lay(2, 256, 0, 0, 3, view[512 : 512 + 96], view[:512])
        bp.lay(2, 256, 0, 0, 3, view[384 - 96 : 384], view[384:])
        self.assertEqual(refusal(bp.lay, 2, 256, 0, 0, 0, view[5:5], view[:512]), 8)
        self.assertEqual(refusal(bp.fill, 2, 256, 0, 0, (1, 2), view[5:5], view[:512]), 8)
        self.assertEqual(refusal(bp.empty, 2, 256, 0, 0, view[5:5], view[:384]), 9)

    def test_they_come_before_every_question(self):
        self.fails(TypeError, bp.fill, 9, 256, 0, 0, (1, 2), array("d"), self.grid)
        self.fails(ValueError, bp.fill, 9, 256, 0, 0, (1,), self.points, self.grid)
        self.fails(ValueError, bp.ground, 9, 256, 0, 0, (1,), self.grid)
        self.fails(TypeError, bp.ground, 9, 256, 0, 0, (1, 2), array("d"))
        self.fails(TypeError, bp.lay, 9, 256, 0, 0, 0, array("d"), self.grid)
        self.fails(ValueError, bp.lay, 9, 256, 0, 0, 0, self.grid, self.grid)
        self.fails(ValueError, bp.empty, 9, 256, 0, 0, self.grid, self.grid)
        self.fails(ValueError, bp.empty_first, 9, 256, 0, 0, 0, self.grid, self.grid)
        self.fails(ValueError, bp.empty_first, 9, 256, 0, 0, -1, self.grid, self.points)

    def test_counts_of_carriers(self):
        """A negative one is none; what is no integer is no count."""
        for carriers in (-1, -256, -(2**31), -(2**32), 1 - 2**32, -HUGE):
            self.fails(ValueError, bp.empty_first, 2, 256, 0, 0, carriers, self.grid, self.points)
        for carriers in (1.0, "1", None, b"1", 2 + 0j):
            self.assertRaises(TypeError, bp.empty_first, 2, 256, 0, 0, carriers, self.grid, self.points)
        self.assertEqual((self.points, self.grid), (points_for(2, 256), grid_for(2, 256)))

    def test_zones_that_are_not_eight_by_four(self):
        zone = (2, 0, 1, 0)
        for zones in ([], [zone] * 7, [zone] * 9, [zone] * 7 + [(0,) * 3], [zone] * 7 + [(0,) * 5]):
            dest = bytearray(b"\x55" * 80)
            self.fails(ValueError, bp.plan_write, 1, 1024, zones, dest)
            self.assertEqual(dest, b"\x55" * 80)
        self.fails(TypeError, bp.plan_write, 1, 1024, [0] * 32, bytearray(80))
        self.fails(TypeError, bp.plan_bytes, 1024, zone)
        self.fails(ValueError, bp.plan_bytes, 1024, [(2, 0, 1)])
        self.fails(TypeError, bp.plan_write, 1, 1024, [zone] + [UNUSED] * 7, array("f", [0] * 9))
        self.fails(TypeError, bp.plan_read, "0280")
        self.fails(TypeError, bp.plan_read, array("H", [1, 2]))
        self.fails(BufferError, bp.plan_read, memoryview(bytes(8))[::2])


    def test_bursts_that_are_not_numbers(self):
        """Before every question; how many numbers one has is a question."""
        for bursts in ([0, 1, 0, 1], [None], ["0101"], [(0, 1, 0, 1.0)], [(0, 1, None, 1)], [("0", 1, 0)], [(0, 1j)]):
            self.fails(TypeError, bp.bursts_check, 2, 256, 0, 1, bursts)
            self.fails(TypeError, bp.bursts_check, 9, 256, 0, 1, [(0, 1, 0, 1), *bursts])
            self.fails(TypeError, bp.burst_owner, 2, 256, 0, 1, 512, 0, bursts)
            self.fails(TypeError, bp.burst_owners, 2, 256, 0, 1, 512, bursts)
        for bursts in (None, 5):
            self.assertRaises(TypeError, bp.bursts_check, 9, 256, 0, 1, bursts)


# --- plans ------------------------------------------------------------------------------------

EXAMPLE = bytes.fromhex("028008 02110300 03B0010100")
LARGEST = bytes([8, 0x80, 8]) + bytes([3, 0xAF, 0x12, 0x80, 4, 0]) * 8
UNUSED = (0, 0, 0, 0)


def random_plan(rng):
    """A plan that is nearly in order."""
    size = rng.choice(ref.BIN_SIZES + [128])
    zones = []
    for _ in range(rng.choice([1, 2, 3, 8])):
        modes = [0] if not zones and size == 2048 else [2, 3, 4, 5, 6, 7] if size == 2048 else [2, 3, 4, 5, 6]
        mode = rng.choice(range(9) if rng.random() < 0.2 else modes)
        cell = rng.choice([0, 5, 31, 31, 32] if mode in (0, 7) else [0, 15, 16, 255, 1023, 2351, 2352, MOST])
        masks = [63, 1, 32, 21] if mode == 0 else [0]
        mask = rng.choice([0, 1, 63, 64, MOST] if rng.random() < 0.2 else masks)
        zones.append((mode, cell, rng.choice([1, 3, 512, 1, 3, 512, 0, 513]), mask))
    return size, zones


def read_as_reference(data):
    number, count, size, zones = ref.read_plan(list(data))
    return number or (size, tuple(zones[:count]))


def read_as_module(data):
    try:
        return bp.plan_read(data)
    except bp.Refusal as refused:
        return refused.number


class Plans(unittest.TestCase):
    def test_known_plans(self):
        plan = bp.plan_read(EXAMPLE)
        self.assertEqual(plan, bp.Plan(1024, (bp.Zone(2, 17, 3, 0), bp.Zone(3, 176, 1, 0))))
        self.assertEqual((plan.size, plan.zones[1].cell), (1024, 176))
        self.assertEqual(bp.plan_read(bytes.fromhex("01801000000C3F")), (2048, ((0, 0, 12, 63),)))
        self.assertEqual(bp.plan_read(bytes.fromhex("01801000050C3F")), (2048, ((0, 5, 12, 63),)))
        self.assertEqual(bp.plan_read(bytes.fromhex("01801000050C15")).zones[0].mask, 0b010101)
        self.assertEqual(refusal(bp.plan_read, bytes.fromhex("01801002000C00")), 14)
        self.assertEqual(refusal(bp.plan_read, bytes.fromhex("01801002000C3F")), 17)
        self.assertEqual(len(LARGEST), 51)

    def test_every_kind_of_bytes(self):
        wanted = bp.plan_read(EXAMPLE)
        for data in (bytearray(EXAMPLE), memoryview(b"?" + EXAMPLE)[1:], array("B", EXAMPLE), array("b", [1])[:0]):
            self.assertEqual(read_as_module(data), wanted if len(data) else 10)
        self.assertEqual(bp.plan_read(ctypes.create_string_buffer(EXAMPLE, len(EXAMPLE))), wanted)
        self.assertEqual(bp.plan_read((ctypes.c_uint8 * len(EXAMPLE))(*EXAMPLE)), wanted)

    def test_reading_as_the_reference(self):
        rng = random.Random(8)
        for _ in range(4000):
            data = bytearray(rng.choice([EXAMPLE, LARGEST, bytes.fromhex("01801000000C3F")]))
            for _ in range(rng.randrange(3)):
                data[rng.randrange(len(data))] = rng.choice([*range(9), 0x3F, 0x40, 0x80, 0x81, rng.randrange(256)])
            data = data[: rng.randrange(len(data) + 1)] if rng.random() < 0.2 else data
            self.assertEqual(read_as_module(data), read_as_reference(data), data.hex())

    def test_writing_as_the_reference(self):
        rng, met = random.Random(9), set()
        for _ in range(4000):
            size, zones = random_plan(rng)
            count = len(zones) if rng.random() < 0.9 else rng.choice([0, 9, len(zones) - 1, -1, 2**32, HUGE])
            places = zones + [UNUSED] * (8 - len(zones))
            dest = bytearray(rng.randbytes(rng.choice([0, 6, 7, 50, 51, 60])))
            after = ref.write_plan(as_engine(count), size, places, dest)
            try:
                answer = (0, bp.plan_write(count, size, places, dest))
            except bp.Refusal as refused:
                answer = (refused.number, 0)
            self.assertEqual((*answer, list(dest)), after)
            met.add(answer[0])
        self.assertEqual(met, {0, 1, 2, 3, 12, 13, 14, 16, 17})

    def test_every_order_of_two_zones(self):
        """Only AMC, modes 3 to 6, follows AMC; at 2048 mode 0 is first."""
        for size in ref.BIN_SIZES:
            first, modes = ([(0, 5, 1, 63)], [0, 2, 3, 4, 5, 6, 7]) if size == 2048 else ([], [2, 3, 4, 5, 6])
            for one, other in itertools.product(modes, modes):
                zones = first + [(one, 0, 1, ref.full_mask(one)), (other, 1, 512, ref.full_mask(other))]
                number = refusal(bp.plan_bytes, size, zones)
                self.assertEqual(number, 14 if one in range(3, 7) and other not in range(3, 7) else 0, (size, zones))
                if number == 0:
                    self.assertEqual(bp.plan_read(bp.plan_bytes(size, zones)), (size, tuple(zones)))
            if size != 2048:
                self.assertEqual(refusal(bp.plan_bytes, size, [(2, 0, 1, 0), (7, 0, 1, 0)]), 2)
        firsts = [refusal(bp.plan_bytes, 2048, [(mode, 0, 1, ref.full_mask(mode))]) for mode in range(8)]
        self.assertEqual(firsts, [0, 1] + [14] * 6)
        self.assertEqual(refusal(bp.plan_bytes, 2048, [(8, 0, 1, 0)]), 1)

    def test_every_mask(self):
        """1 to 63 in mode 0, 0 in the others; in a plan it comes after the slots and before the order."""
        for mode, mask in itertools.product(range(8), [*range(130), *NEVER]):
            cell = 0 if mode == 0 else 3
            first = [(0, cell, 512, 63)] if mode else []
            zones = first + [(mode, cell, 2, mask)]
            number = 1 if mode == 1 else 0 if mask in ref.masks(mode) else 17
            self.assertEqual(refusal(bp.plan_bytes, 2048, zones), number, zones)
            if number == 0:
                self.assertEqual(bp.plan_read(bp.plan_bytes(2048, zones)), (2048, tuple(zones)))
        self.assertEqual(refusal(bp.plan_bytes, 2048, [(2, 0, 0, 63)]), 13)
        self.assertEqual(refusal(bp.plan_bytes, 2048, [(2, 0, 1, 63)]), 17)
        self.assertEqual(refusal(bp.plan_bytes, 2048, [(2, 0, 1, 0)]), 14)

    def test_integers_out_of_range(self):
        for value in NEVER:
            for number, at in ((1, 0), (3, 1), (13, 2), (17, 3)):
                zone = [2, 17, 3, 0]
                zone[at] = value
                self.assertEqual(refusal(bp.plan_bytes, 1024, [zone]), number)
                self.assertEqual(refusal(bp.plan_bytes, 1024, [(2, 17, 3, 0), zone]), number)
                past = [UNUSED] * 8
                past[0], past[7] = (2, 17, 3, 0), tuple(value if i == at else 0 for i in range(4))
                self.assertEqual(refusal(bp.plan_write, 1, 1024, past, bytearray(80)), 12)
            self.assertEqual(refusal(bp.plan_bytes, value, [(2, 17, 3, 0)]), 2)
            self.assertEqual(refusal(bp.plan_write, value, value, [(value,) * 4] * 8, bytearray()), 12)

    def test_places_past_the_count(self):
        for place in range(1, 8):
            for at in range(4):
                places = [[0, 0, 0, 0] for _ in range(8)]
                places[0], places[place][at] = [2, 17, 3, 0], 1
                self.assertEqual(refusal(bp.plan_write, 1, 1024, places, bytearray(80)), 12)

    def test_destination(self):
        places = [(2, 17, 3, 0), (3, 176, 1, 0)] + [UNUSED] * 6
        for length in range(16):
            dest = bytearray(b"\x55" * (length + 3))
            number = refusal(bp.plan_write, 2, 1024, places, memoryview(dest)[1 : 1 + length])
            self.assertEqual(number, 0 if length >= 12 else 16)
            written = EXAMPLE if length >= 12 else b""
            self.assertEqual(dest, b"\x55" + written + b"\x55" * (length + 2 - len(written)))
        self.assertEqual(bp.plan_write(2, 1024, places, bytearray(14)), 12)

    def test_bytes_and_back(self):
        for data in (EXAMPLE, LARGEST):
            self.assertEqual(bp.plan_bytes(*bp.plan_read(data)), data)
        self.assertIs(type(bp.plan_bytes(1024, [(2, 17, 3, 0)])), bytes)
        self.assertEqual(refusal(bp.plan_bytes, 1024, []), 12)
        self.assertEqual(refusal(bp.plan_bytes, 1024, [(2, 0, 1, 0)] * 8), 0)
        self.assertEqual(refusal(bp.plan_bytes, 1024, [(2, 0, 1, 0)] * 9), 12)


# --- bursts -----------------------------------------------------------------------------------


def flat(bursts):
    """As the reference takes them, and as they reach the engine."""
    return [as_engine(number) for burst in bursts for number in burst]


def as_owner(owner, looked):
    """The reference's answer as the module gives it."""
    return bp.Owner(None if owner == ref.NO_BURST else owner, looked)


class Bursts(unittest.TestCase):
    """Lists of bursts, and whose a subchannel in a slot is."""

    def test_by_hand(self):
        bursts = [(0, 60, 0, 1), bp.Burst(subchannel=0, subchannels=20, slot=1, slots=11), (20, 30, 1, 6)]
        zone = {"mode": 0, "size": 2048, "cell": 5, "slots": 12, "bursts": bursts}
        self.assertIsNone(bp.bursts_check(**zone))
        self.assertEqual(bp.burst_owner(**zone, slot=0, subchannel=59), bp.Owner(burst=0, looked=1))
        self.assertEqual(bp.burst_owner(**zone, slot=11, subchannel=19), (1, 2))
        self.assertEqual(bp.burst_owner(**zone, slot=6, subchannel=49), (2, 3))
        for slot, subchannel in ((7, 20), (6, 50), (11, 20), (12, 0), (511, 59)):
            self.assertEqual(bp.burst_owner(**zone, slot=slot, subchannel=subchannel), (None, 3))
        self.assertEqual(bp.burst_owners(**zone, slot=0), (0,) * 60 + (None,) * 132)
        self.assertEqual(bp.burst_owners(**zone, slot=6), (1,) * 20 + (2,) * 30 + (None,) * 142)
        self.assertEqual(bp.burst_owners(**zone, slot=7), (1,) * 20 + (None,) * 172)
        self.assertEqual(bp.burst_owners(**zone, slot=12), (None,) * 192)

    def test_every_place_of_some_zones(self):
        """Tilings, some with bursts left out: a call for each slot, and one for each subchannel, as the reference."""
        rng = random.Random(26)
        for mode, size in PLAN_SETUPS:
            subs, slots = ref.subchannels(mode, size), rng.choice([1, 3, 8])
            zone = (mode, size, ref.cells(mode, size) - 1, slots)
            for count, mask in zip((1, 9, 64), rng.choices(ref.masks(mode), k=3)):
                bursts = burst_lists.tiling(rng, (subs, slots), count)
                bursts = bursts[: rng.choice([len(bursts), len(bursts), len(bursts) // 2])]
                for slot in (*range(slots), slots, 511):
                    number, row = ref.burst_owners(*zone, mask, slot, flat(bursts))
                    wanted = tuple(None if owner == ref.NO_BURST else owner for owner in row)
                    self.assertEqual((number, bp.burst_owners(*zone, slot, bursts, mask=mask)), (0, wanted))
                    for subchannel in range(subs):
                        _, *owner = ref.burst_owner(*zone, mask, slot, subchannel, flat(bursts))
                        found = bp.burst_owner(*zone, slot, subchannel, bursts, mask=mask)
                        self.assertEqual(found, as_owner(*owner), (zone, slot, subchannel, bursts))

    def test_the_largest_zone(self):
        rng = random.Random(27)
        zone = (bp.AMC_1X6, 2048, 2351, 512)
        bursts = burst_lists.tiling(rng, (192, 512), 64)
        self.assertEqual(refusal(bp.bursts_check, *zone, bursts), 0)
        for position, (subchannel, wide, slot, long) in enumerate(bursts):
            for corner in itertools.product((slot, slot + long - 1), (subchannel, subchannel + wide - 1)):
                self.assertEqual(bp.burst_owner(*zone, *corner, bursts), (position, position + 1))
                left = [*bursts[:position], *bursts[position + 1 :]]
                self.assertEqual(bp.burst_owner(*zone, *corner, left), (None, 63))

    def test_lengths(self):
        """Up to 64 bursts are taken, none too; a longer list is refused before its bursts are looked at."""
        every = [(at, 1, 0, 1) for at in range(66)]
        for count in range(67):
            for bursts in (every[:count], iter(every[:count]), tuple(every[:count])):
                self.assertEqual(refusal(bp.bursts_check, 6, 2048, 0, 1, bursts), 0 if count <= 64 else 18)
        self.assertEqual(bp.burst_owner(6, 2048, 0, 1, 0, 63, every[:64]), (63, 64))
        self.assertEqual(bp.burst_owner(6, 2048, 0, 1, 0, 64, every[:64]), (None, 64))
        self.assertEqual(bp.burst_owner(6, 2048, 0, 1, 0, 64, []), (None, 0))
        self.assertEqual(refusal(bp.bursts_check, 6, 2048, 0, 1, every[:1] * 65), 18)
        self.assertEqual(refusal(bp.bursts_check, 6, 2048, 0, 1, every[:1] * 64), 19)

    def test_bursts_that_are_not_of_four_numbers(self):
        """Refused in their turn, also where the numbers of all together are four a burst."""
        good = (0, 1, 0, 1)
        for bursts in ([(1, 1, 0)], [()], [(1, 1, 0), (1, 2, 1, 0, 1)], [(1, 1, 0, 1, 2), (1, 0, 1)], [good * 2]):
            for every in (bursts, [good, *bursts], [*bursts, good], [good, good, *bursts], [(0, 0, 0, 0), *bursts]):
                self.assertEqual(refusal(bp.bursts_check, 2, 256, 0, 1, every), 18)
                self.assertEqual(refusal(bp.burst_owner, 2, 256, 0, 1, 511, 3, every), 18)
                self.assertEqual(refusal(bp.burst_owner, 2, 256, 0, 1, 511, 4, every), 5)
                self.assertEqual(refusal(bp.burst_owners, 2, 256, 0, 1, 511, every), 18)
                self.assertEqual(refusal(bp.burst_owners, 2, 256, 0, 1, 512, every), 4)
                self.assertEqual(refusal(bp.bursts_check, 2, 256, 0, 513, every), 13)
                self.assertEqual(refusal(bp.bursts_check, 2, 256, 0, 1, every, mask=1), 17)

    def test_every_kind_of_four_numbers(self):
        class Index:
            def __index__(self):
                return 3

        four = (3, 1, 0, 2)
        for burst in (four, list(four), bp.Burst(*four), array("B", four), (Index(), True, False, 2), iter(four)):
            self.assertEqual(bp.burst_owner(2, 256, 0, 2, 1, 3, [burst]), (0, 1))
        kept = [[0, 4, 0, 1], [0, 4, 0, 1]]
        self.assertEqual(refusal(bp.bursts_check, 2, 256, 0, 1, kept), 19)
        self.assertEqual(kept, [[0, 4, 0, 1], [0, 4, 0, 1]])

    def test_numbers_that_no_zone_has(self):
        """Whichever of a burst's four it is, and whatever it would be cut to 32 bits."""
        for mode, size, slots in ((0, 2048, 512), (6, 2048, 512), (2, 256, 1)):
            for at, value in itertools.product(range(4), [*NEVER, 2**31, 2**32 + 1, 2**64 + 1, 1 - 2**32]):
                burst = [0, 1, 0, 1]
                burst[at] = value
                for bursts in ([burst], [(1, 1, 0, 1), burst], [burst, (0, 0, 0, 0)]):
                    self.assertEqual(refusal(bp.bursts_check, mode, size, 0, slots, bursts), 18)
                    self.assertEqual(refusal(bp.burst_owner, mode, size, 0, slots, 0, 0, bursts), 18)
        for burst in ((1, MOST, 0, 1), (MOST, 2, 0, 1), (0, 1, 1, MOST), (0, 1, MOST, 2), (2**31, 2**31, 0, 1)):
            self.assertEqual(refusal(bp.bursts_check, 0, 2048, 0, 512, [burst]), 18)

    def test_the_first_burst_that_fails(self):
        """Each is asked for its place first and then for its overlap, in the list's order."""
        good, over, out = (0, 2, 0, 2), (1, 1, 1, 1), (0, 5, 0, 1)
        for bursts, number in (
            ([good, over, out], 19),
            ([good, out, over], 18),
            ([out, good, over], 18),
            ([good, (0, 5, 0, 2)], 18),
            ([good, (2, 2, 0, 2), (0, 4, 2, 6)], 0),
            ([good, (2, 2, 0, 2), (0, 4, 1, 6)], 19),
            ([good, (2, 2, 0, 2), (3, 1, 1, 1), (0, 1, 0, 0)], 19),
            ([good, (2, 2, 0, 2), (0, 1, 0, 0), (3, 1, 1, 1)], 18),
        ):
            self.assertEqual(refusal(bp.bursts_check, 2, 256, 0, 8, bursts), number, bursts)
            self.assertEqual(refusal(bp.burst_owner, 2, 256, 0, 8, 0, 0, bursts), number, bursts)
            self.assertEqual(refusal(bp.burst_owners, 2, 256, 0, 8, 0, bursts), number, bursts)

    def test_lists_of_every_kind_as_the_reference(self):
        """Some with a number beyond 32 bits, some with a wrong field."""
        rng, met = random.Random(28), {}
        for kind in 250 * [*burst_lists.KINDS]:
            mode, size = rng.choice(SETUPS)
            subs, slots = ref.subchannels(mode, size), rng.choice([1, 2, 5, 9])
            bursts = [list(burst) for burst in burst_lists.KINDS[kind][0](rng, (subs, slots))]
            if bursts and rng.random() < 0.1:
                rng.choice(bursts)[rng.randrange(4)] = rng.choice(NEVER)
            fields = [mode, size, rng.randrange(ref.cells(mode, size)), slots, rng.choice(ref.masks(mode))]
            fields += [rng.randrange(12), rng.randrange(subs)]
            if rng.random() < 0.1:
                fields[rng.randrange(7)] = rng.choice([0, 513, *NEVER])
            engine, zone, mask, at = [as_engine(field) for field in fields], fields[:4], fields[4], fields[5:]
            number, *owner = ref.burst_owner(*engine, flat(bursts))
            try:
                answer = (0, bp.burst_owner(*zone, *at, bursts, mask=mask))
            except bp.Refusal as refused:
                self.assertNotEqual(refused.words, refused.question)
                answer = (refused.number, bp.Owner(None, 0))
            self.assertEqual(answer, (number, as_owner(*owner)), (fields, bursts))
            number = ref.bursts_check(*engine[:5], flat(bursts))
            self.assertEqual(refusal(bp.bursts_check, *zone, bursts, mask=mask), number)
            met[number] = met.get(number, 0) + 1
        self.assertEqual(sorted(met), [0, 1, 2, 3, 13, 17, 18, 19])
        self.assertTrue(all(met[number] > 100 for number in (0, 1, 18, 19)), met)

    def test_the_mask_is_asked_for_and_lights_nothing(self):
        """What is unlit counts like what is lit; without a mask all is lit."""
        bursts = [(0, 30, 0, 4), (30, 30, 0, 4)]
        for mask in (None, *ref.masks(0)):
            self.assertEqual(bp.burst_owner(0, 2048, 0, 4, 3, 59, bursts, mask=mask), (1, 2))
            self.assertEqual(bp.burst_owners(0, 2048, 0, 4, 3, bursts, mask=mask)[:60], (0,) * 30 + (1,) * 30)
        for mask in (0, 64, *NEVER):
            self.assertEqual(refusal(bp.bursts_check, 0, 2048, 0, 4, [()], mask=mask), 17)
        self.assertRaises(TypeError, bp.bursts_check, 0, 2048, 0, 4, bursts, 63)
        self.assertRaises(TypeError, bp.burst_owners, 0, 2048, 0, 4, 0, bursts, 63)

    def test_answers_are_plain_numbers(self):
        zone, bursts = (2, 256, 0, 1, 0), [(0, 4, 0, 1)]
        for value in (*bp.burst_owner(*zone, 0, bursts), *bp.burst_owners(*zone, bursts)[:4]):
            self.assertIs(type(value), int)


# --- loading ----------------------------------------------------------------------------------


ASKED = "place 2 1024 17 0 0 0".split()
BUILT = os.path.join(ROOT, "build", "link", "libbellpulsar.so")


def run_python(*arguments, path=os.path.join(ROOT, "python"), library=""):
    env = dict(os.environ, PYTHONPATH=path, BELLPULSAR_LIBRARY=library)
    command = [sys.executable, *arguments]
    return subprocess.run(command, env=env, cwd="/", capture_output=True, text=True, timeout=60)


def imported_with(library, **path):
    lines = "import bellpulsar; print(bellpulsar.place(2, 1024, 17, 0, 0, 0))"
    return run_python("-c", lines, library=library, **path)


def last_line(done):
    """Of what an exception that nobody caught has said."""
    assert done.returncode == 1, done
    return done.stderr.splitlines()[-1]


def kind_of(parameter):
    """Of a parameter of the header: whether a number, a signed one, a length or a pointer."""
    if "*" in parameter or "[" in parameter:
        return "pointer"
    return {"uint32_t": "number", "int32_t": "signed", "size_t": "length"}[parameter.split()[0]]


def kind_passed(argument):
    """The same of an argument's type in the module."""
    kinds = {ctypes.c_uint32: "number", ctypes.c_int32: "signed", ctypes.c_size_t: "length"}
    return kinds.get(argument, "pointer")


class Loading(unittest.TestCase):
    def test_the_calls_as_the_header_has_them(self):
        with open(os.path.join(ROOT, "include", "bellpulsar.h")) as file:
            text = re.sub(r"/\*.*?\*/", "", file.read(), flags=re.DOTALL)
        calls = re.findall(r"^(?:uint32_t|size_t) (bp_\w+)\(([^)]*)\);", text, re.MULTILINE)
        told = {name: [] if fields == "void" else list(map(kind_of, fields.split(","))) for name, fields in calls}
        self.assertEqual(len(told), 19)
        self.assertEqual(told, {name: list(map(kind_passed, kinds)) for name, kinds in library._PROTOTYPES.items()})

    def test_the_library_is_found_from_anywhere(self):
        self.assertEqual(imported_with("").stdout, "Place(symbol=0, carrier=-425)\n")

    def test_another_library_by_the_environment(self):
        self.assertEqual(imported_with(BUILT).stdout, "Place(symbol=0, carrier=-425)\n")

    def test_no_library(self):
        last = last_line(imported_with("/none/libbellpulsar.so"))
        self.assertTrue(last.startswith("ImportError: "), last)
        self.assertIn("/none/libbellpulsar.so", last)
        self.assertIn("run ./build.sh", last)

    def test_something_else_than_the_library(self):
        for other in (os.path.join(ROOT, "README.md"), "/"):
            last = last_line(imported_with(other))
            self.assertTrue(last.startswith("ImportError: %s is not a Bellpulsar library" % other), last)

    def test_a_library_of_another_version(self):
        """Its interface is told first, then a call that it lacks."""
        with tempfile.TemporaryDirectory() as folder:
            for body, told in (
                ("int bp_place(void) { return 0; }", "it has no bp_version, which version %s has" % bp.__version__),
                ("unsigned bp_version(void) { return 60007; }", "its interface is version 6, and version 5 is needed"),
                ("unsigned bp_version(void) { return 40312; }", "its interface is version 4, and version 5 is needed"),
                ("unsigned bp_version(void) { return 4294967295u; }", "its interface is version 429496, and .*"),
                ("unsigned bp_version(void) { return 59999; }", "it has no bp_place, which version .* has"),
            ):
                other = os.path.join(folder, "other.so")
                compiler = [*os.environ.get("CC", "cc").split(), "-shared", "-fPIC", "-x", "c", "-", "-o", other]
                subprocess.run(compiler, input=body, text=True, check=True)
                unfit = "^ImportError: %s is not a Bellpulsar library that can be loaded: " % re.escape(other)
                self.assertRegex(last_line(imported_with(other)), unfit + told + "$")

    def test_the_command_line(self):
        for words, status, text in ((ASKED, 0, "symbol 0 carrier -425\n"), ([*ASKED[:-1], "x"], 2, "")):
            done = run_python("-m", "bellpulsar", *words)
            self.assertEqual((done.stdout, done.returncode), (text, status), done.stderr)

    def test_names(self):
        """What `from bellpulsar import *` gives is all that the module has for its users."""
        found = {}
        exec("from bellpulsar import *", found)
        calls = [name for name, thing in vars(bp).items() if getattr(thing, "__module__", "") == "bellpulsar"]
        public = {name for name in calls if not name.startswith("_")}
        modes = {"PUSC_DL", "PUSC_UL", "OFUSC", "AMC", "AMC_2X3", "AMC_3X2", "AMC_1X6", "FUSC"}
        self.assertEqual(sorted(getattr(bp, name) for name in modes), list(range(8)))
        self.assertEqual(set(found) - {"__builtins__"}, public | modes | {"ALL_GROUPS", "QUESTIONS"})
        self.assertEqual(len(bp.__all__), len(set(bp.__all__)))

    def test_what_is_said_of_numpy(self):
        """Where no other python3 has it either."""
        command = [sys.executable, os.path.abspath(__file__), "Numpy"]
        env = dict(os.environ, PATH="/none", BELLPULSAR_LIBRARY=BUILT)
        done = subprocess.run(command, env=env, capture_output=True, text=True, timeout=60)
        last = "with numpy" if numpy else "numpy not here: 4 skipped"
        self.assertEqual(done.returncode, 0, done.stderr)
        self.assertRegex(done.stdout, r"^python: \d tests, %s\n$" % last)

    def test_arrays_without_numpy(self):
        lines = "import sys; sys.modules['numpy'] = None; import bellpulsar; print(bellpulsar.__version__)"
        done = run_python("-c", lines + "; import bellpulsar.arrays")
        self.assertEqual(done.stdout, bp.__version__ + "\n")
        told = "^ImportError: bellpulsar.arrays needs numpy, 1.21 or later \\(bellpulsar itself does not\\): .*numpy.*$"
        self.assertRegex(last_line(done), told)

    def test_the_examples_of_the_module_and_the_documents(self):
        pages = [os.path.join(ROOT, name) for name in ("README.md", "docs/GUIDE.md")]
        for failed, tried in (doctest.testmod(bp), *(doctest.testfile(page, module_relative=False) for page in pages)):
            self.assertEqual(failed, 0)
            self.assertGreater(tried, 5)


class Installed(unittest.TestCase):
    """The package as an installation has it, away from its tree: a version and a library beside the modules."""

    def setUp(self):
        self.root = tempfile.mkdtemp()
        self.addCleanup(shutil.rmtree, self.root)
        self.path = os.path.join(self.root, "python")
        source = os.path.join(ROOT, "python", "bellpulsar")
        shutil.copytree(source, self.beside(), ignore=shutil.ignore_patterns("__pycache__"))

    def beside(self, *name):
        return os.path.join(self.path, "bellpulsar", *name)

    def write(self, name, text):
        with open(self.beside(name), "w") as file:
            file.write(text)

    def install(self):
        self.write("VERSION", bp.__version__ + "\n")
        shutil.copy(BUILT, self.beside(library.NAME))

    def version(self):
        return run_python("-c", "import bellpulsar; print(bellpulsar.__version__)", path=self.path)

    def test_the_version_is_the_headers_and_the_librarys(self):
        with open(os.path.join(ROOT, "include", "bellpulsar.h")) as file:
            told = re.findall(r"^#define BP_VERSION(?:_MINOR|_PATCH)? (\d+)$", file.read(), re.MULTILINE)
        self.assertEqual(bp.__version__, ".".join(told))
        first, second, third = map(int, told)
        self.assertEqual(library.engine.bp_version(), 10000 * first + 100 * second + third)
        self.assertEqual(library.VERSION, first)

    def test_the_version_needs_no_library(self):
        done = run_python("-c", "import bellpulsar; print(bellpulsar.__version__)", library="/none")
        self.assertEqual(done.stdout, bp.__version__ + "\n")

    def fails_by(self, path):
        told = "ImportError: %s does not tell the version of Bellpulsar" % path
        self.assertEqual(last_line(self.version()), told)

    def test_what_tells_the_version(self):
        """The file beside the modules, or else the header."""
        neither = "^ImportError: the version of Bellpulsar stands in .*/VERSION, or else in .*/include/bellpulsar.h, "
        self.assertRegex(last_line(self.version()), neither + "and neither can be read: No such file or directory$")
        header = os.path.join(self.root, "include", "bellpulsar.h")
        os.mkdir(os.path.dirname(header))
        for told in ("4", "4.8", "4.8.15"):
            with open(header, "w") as file:
                names = ("BP_VERSION", "BP_VERSION_MINOR", "BP_VERSION_PATCH")
                file.writelines("#define %s %s\n" % pair for pair in zip(names, told.split(".")))
            if told != "4.8.15":
                self.fails_by(header)
        self.assertEqual(self.version().stdout, "4.8.15\n")
        self.write("VERSION", "4.16.23\n")
        self.assertEqual(self.version().stdout, "4.16.23\n")
        for text in ("", "4.3\n", "4.3.0 4.3.1\n"):
            self.write("VERSION", text)
            self.fails_by(self.beside("VERSION"))

    def test_nothing_is_built(self):
        """The library beside the modules is taken, even where there is something to build."""
        self.install()
        with open(os.path.join(self.root, "build.sh"), "w") as file:
            file.write("#!/bin/sh\ntouch '%s/ran'\nexit 1\n" % self.root)
        os.chmod(os.path.join(self.root, "build.sh"), 0o755)
        for built in (None, os.path.join(self.root, "build")):
            if built:
                os.mkdir(built)
                shutil.copy("/dev/null", os.path.join(built, library.NAME))
            self.assertEqual(imported_with("", path=self.path).stdout, "Place(symbol=0, carrier=-425)\n")
            done = run_python("-m", "bellpulsar", *ASKED, path=self.path)
            self.assertEqual((done.stdout, done.stderr, done.returncode), ("symbol 0 carrier -425\n", "", 0))
        self.assertFalse(os.path.exists(os.path.join(self.root, "ran")))
        os.remove(self.beside(library.NAME))
        last = last_line(imported_with("", path=self.path))
        self.assertRegex(last, "^ImportError: .*/build/%s is old" % library.NAME)
        self.assertTrue(os.path.exists(os.path.join(self.root, "ran")))

    def test_the_environment_comes_first(self):
        self.install()
        last = last_line(imported_with("/none", path=self.path))
        self.assertRegex(last, "^ImportError: no Bellpulsar library at /none:")
        os.remove(self.beside(library.NAME))
        self.assertEqual(imported_with(BUILT, path=self.path).stdout, "Place(symbol=0, carrier=-425)\n")

    def test_without_its_library(self):
        self.install()
        os.remove(self.beside(library.NAME))
        told = "no Bellpulsar library at %s: install it again, or name the library in BELLPULSAR_LIBRARY"
        told %= self.beside(library.NAME)
        self.assertEqual(last_line(imported_with("", path=self.path)), "ImportError: " + told)
        done = run_python("-m", "bellpulsar", *ASKED, path=self.path)
        self.assertEqual((done.stdout, done.stderr, done.returncode), ("", "bellpulsar: %s\n" % told, 2))


def unhinted(module):
    """The public functions that have a parameter, or an answer, without a type hint."""
    functions = [thing for name, thing in vars(module).items() if name in module.__all__]
    functions = [thing for thing in functions if isinstance(thing, types.FunctionType)]
    assert functions
    return [f for f in functions if set(typing.get_type_hints(f)) != {*inspect.signature(f).parameters, "return"}]


class Hints(unittest.TestCase):
    def test_of_every_function(self):
        self.assertEqual(unhinted(bp), [])

    def test_are_for_users(self):
        self.assertTrue(os.path.exists(os.path.join(ROOT, "python", "bellpulsar", "py.typed")))

    def test_no_warning(self):
        done = run_python("-W", "error", "-c", "import bellpulsar; bellpulsar.slot_places(2, 256, 0, 0)")
        self.assertEqual((done.stderr, done.returncode), ("", 0))


@unittest.skipIf(numpy is None, "numpy is not installed")
class Numpy(unittest.TestCase):
    def test_float32_and_complex64(self):
        points = numpy.arange(96 * 60, dtype=numpy.float32)
        plain = grid_for(0, 2048)
        bp.fill(0, 2048, 3, 1, (1, 2), points, plain)
        for shape in ((8192,), (2, 2048, 2)):
            grid = numpy.ones(shape, numpy.float32)
            bp.fill(0, 2048, numpy.int64(3), numpy.uint8(1), (1, 2), points.reshape(60, 48, 2), grid)
            self.assertEqual(grid.tobytes(), plain.tobytes())
        grid = numpy.ones((2, 2048), numpy.complex64)
        bp.fill(0, 2048, 3, 1, numpy.array([1 + 2j], numpy.complex64), points.view(numpy.complex64), grid)
        self.assertEqual(grid.tobytes(), plain.tobytes())
        points = points.view(numpy.complex64).reshape(60, 48)
        for kind, shape in ((numpy.float32, (2, 2048, 2)), (numpy.complex64, (2, 2048))):
            grid = numpy.ones(shape, kind)
            bp.ground(0, 2048, 3, 1, numpy.array([1, 2], numpy.float32), grid)
            for subchannel in numpy.arange(60)[::-1]:
                bp.lay(0, 2048, 3, 1, subchannel, points[subchannel], grid)
            self.assertEqual(grid.tobytes(), plain.tobytes())
        again = numpy.zeros((60, 48), numpy.complex64)
        bp.empty(0, 2048, 3, 1, grid, again)
        self.assertEqual(again.tobytes(), points.tobytes())
        again = numpy.zeros((60, 48), numpy.complex64)
        bp.empty_first(0, 2048, 3, 1, numpy.uint32(grid.size), grid, again)
        self.assertEqual(again.tobytes(), points.tobytes())

    def test_bursts(self):
        bursts = numpy.array([[0, 20, 0, 12], [20, 30, 0, 6]])
        for kind in (numpy.uint32, numpy.int64, numpy.uint8):
            at = numpy.int16(3), numpy.uint8(25)
            self.assertEqual(bp.burst_owner(0, 2048, 5, 12, *at, bursts.astype(kind)), (1, 2))
        self.assertRaises(TypeError, bp.bursts_check, 0, 2048, 5, 12, bursts.astype(float))
        self.assertEqual(refusal(bp.bursts_check, 0, 2048, 5, 12, bursts[:, :3]), 18)

    def test_pilots(self):
        pilots, wanted = numpy.array(SPREAD), bp.place(7, 2048, 3, 4, 5, 6, pilots=SPREAD)
        for kind in (numpy.uint32, numpy.int64, numpy.uint16, ">u4"):
            self.assertEqual(bp.place(7, 2048, 3, 4, 5, 6, pilots=pilots.astype(kind)), wanted)
        self.assertEqual(bp.place(7, 2048, 3, 4, 5, 6, pilots=numpy.repeat(pilots, 3)[::3]), wanted)
        self.assertEqual(refusal(bp.place, 7, 2048, 3, 4, 5, 6, pilots=pilots[::-1]), 20)
        self.assertEqual(refusal(bp.place, 2, 256, 3, 4, 0, 6, pilots=pilots[:0]), 0)
        for other in (pilots.astype(float), pilots.reshape(2, 83), pilots.reshape(166, 1), numpy.int64(5)):
            self.assertRaisesRegex(TypeError, "^pilots: ", bp.place, 7, 2048, 3, 4, 5, 6, pilots=other)

    def test_what_is_not_taken(self):
        points = numpy.zeros(96 * 4, numpy.float32)
        for grid in (numpy.zeros(512), numpy.zeros(256, complex), numpy.zeros(512, ">f4")):
            self.assertRaises(TypeError, bp.ground, 2, 256, 0, 0, (1, 2), grid)
            self.assertRaises(TypeError, bp.lay, 2, 256, 0, 0, 0, points[:96], grid)
            self.assertRaises(TypeError, bp.fill, 2, 256, 0, 0, (1, 2), points, grid)
        for grid in (numpy.zeros(1024, numpy.float32)[::2], numpy.zeros((256, 2), numpy.float32).T):
            self.assertRaises(BufferError, bp.ground, 2, 256, 0, 0, (1, 2), grid)
            self.assertRaises(BufferError, bp.lay, 2, 256, 0, 0, 0, points[:96], grid)
            self.assertRaises(BufferError, bp.fill, 2, 256, 0, 0, (1, 2), points, grid)
        grid = numpy.zeros(512, numpy.float32)
        self.assertRaises(BufferError, bp.lay, 2, 256, 0, 0, 0, points[:192:2], grid)


def of_points(floats_of):
    """A refusal of the reference's, with lengths in points."""
    return lambda *fields: floats_of(*fields[:5], *(2 * length for length in fields[5:]))


def fill_of(mode, size, cell, mask, slot, points):
    arrays.fill(mode, size, cell, slot, 1j, numpy.zeros(points, numpy.complex64), mask=mask)


def empty_of(mode, size, cell, mask, slot, grid):
    arrays.empty(mode, size, cell, slot, numpy.zeros(grid, numpy.complex64), mask=mask)


def table_of(mode, size, cell, mask, slot):
    arrays.slot_places(mode, size, cell, slot, mask=mask)


def noise(rng, *shape):
    """Complex numbers of any bits."""
    patterns = random_bits(rng, 2 * int(numpy.prod(shape)))
    return numpy.frombuffer(patterns, numpy.complex64).reshape(shape)


@unittest.skipIf(numpy is None, "numpy is not installed")
class Arrays(unittest.TestCase):
    """Points and grids of complex64, in and out."""

    def slots(self):
        """(mode, size, cell, slot), and a mask with what it lights."""
        rng = random.Random(32)
        for mode, size in SETUPS:
            for mask in (None, 0b000011, 0b101010, 0b111111) if mode == 0 else (None,):
                setup = (mode, size, rng.randrange(ref.cells(mode, size)), rng.randrange(512))
                yield setup, mask, len(ref.lit_subchannels(mode, size, 63 if mask is None else mask))

    def same(self, found, wanted):
        """To the bit."""
        self.assertEqual((found.dtype, found.shape), (wanted.dtype, wanted.shape))
        self.assertEqual(found.tobytes(), wanted.tobytes())

    def test_filled_and_emptied_to_the_bit(self):
        rng = random.Random(33)
        for setup, mask, lit in self.slots():
            mode, size, *_ = setup
            points, pilot = noise(rng, lit, 48), noise(rng, 1)
            wanted = numpy.empty((ref.SLOT_LENGTH[mode], size), numpy.complex64)
            bp.fill(*setup, pilot, points, wanted, mask=mask)
            for given in (points, points.reshape(-1), points.reshape(1, lit, 48)):
                grid = arrays.fill(*setup, pilot, given, mask=mask)
                self.same(grid, wanted)
            for given in (grid, grid.reshape(-1)):
                self.same(arrays.empty(*setup, given, mask=mask), points)
            self.same(grid, wanted)

    def test_the_table_is_empty_and_lay(self):
        """Indexed with it a grid gives what empty does; assigned with it the points are laid, and nothing else."""
        rng = random.Random(34)
        for setup, mask, lit in self.slots():
            mode, size, *_ = setup
            table = arrays.slot_places(*setup, mask=mask)
            self.assertEqual((table.dtype, table.shape), (numpy.dtype(numpy.intp), (lit, 48)))
            self.assertEqual(table.reshape(-1).tolist(), list(bp.slot_places(*setup, mask=mask)))
            grid = noise(rng, ref.SLOT_LENGTH[mode], size).copy()
            self.same(grid.reshape(-1)[table], arrays.empty(*setup, grid, mask=mask))
            points, pilot = noise(rng, lit, 48), noise(rng, 1)
            bp.ground(*setup, pilot, grid, mask=mask)
            grid.reshape(-1)[table] = points
            self.same(grid, arrays.fill(*setup, pilot, points, mask=mask))

    def test_a_whole_zone_by_one_table(self):
        rng = random.Random(35)
        for mode, size, step in ((0, 2048, 1), (1, 2048, 1), (2, 512, 3), (5, 256, 3), (6, 256, 1)):
            zone = noise(rng, 6, ref.SLOT_LENGTH[mode], size)
            table = arrays.slot_places(mode, size, 3, 0)
            taken = zone[::step].reshape(6 // step, -1)[:, table]
            for row, slot in zip(taken, range(0, 6, step)):
                self.same(row, arrays.empty(mode, size, 3, slot, zone[slot]))

    def test_as_a_capture_delivers_it(self):
        """New points are nan where nothing has arrived; those that are given again are written in place."""
        rng = random.Random(36)
        for setup, mask, lit in self.slots():
            mode, size, *_ = setup
            grid = numpy.arange(1, 1 + ref.grid_floats(mode, size) // 2).astype(numpy.complex64)
            grid = grid.reshape(-1, size)
            whole = arrays.empty(*setup, grid, mask=mask)
            counts = sorted(rng.randrange(grid.size + 1) for _ in range(3))
            points = arrays.empty_first(*setup, 0, grid, mask=mask)
            self.assertEqual((points.shape, points.dtype), ((lit, 48), grid.dtype))
            self.assertTrue(numpy.isnan(points.view(numpy.float32)).all())
            for count in [*counts, grid.size, HUGE]:
                again = arrays.empty_first(*setup, count, grid, points, mask=mask)
                self.assertIs(again, points)
                arrived = whole.real <= count
                self.same(points[arrived], whole[arrived])
                self.assertTrue(numpy.isnan(points[~arrived].view(numpy.float32)).all())
                new = arrays.empty_first(*setup, count, grid, mask=mask)
                self.assertTrue(numpy.array_equal(new, points, equal_nan=True))

    def test_what_is_taken(self):
        """Whatever complex64 holds without rounding, wherever it lies."""
        rng = random.Random(37)
        numbers = numpy.array([rng.randrange(-100, 100) for _ in range(192)], numpy.int16).reshape(4, 48)
        wanted = arrays.fill(2, 256, 0, 0, 1j, numbers.astype(numpy.complex64))
        odd = numpy.zeros(192 * 8 + 1, numpy.uint8)[1:].view(numpy.complex64).reshape(4, 48)
        odd[:] = numbers
        every = [numbers, numbers.astype(numpy.int8), numbers.astype(numpy.float32), numbers.astype(">c8"), odd]
        every += [numpy.asfortranarray(numbers.astype(numpy.complex64)), numpy.repeat(numbers, 2, axis=0)[::2]]
        for points in every:
            before = points.copy()
            self.same(arrays.fill(2, 256, 0, 0, 1j, points), wanted)
            self.assertTrue(numpy.array_equal(points, before))
        for grid in (wanted.astype(">c8"), numpy.repeat(wanted, 3, axis=1)[:, ::3], numpy.asfortranarray(wanted)):
            self.same(arrays.empty(2, 256, 0, 0, grid), numbers.astype(numpy.complex64))
        for pilot in (1j, (0, 1), numpy.complex64(1j), numpy.complex128(1j), numpy.array([1j], numpy.complex64)):
            self.same(arrays.fill(2, 256, 0, 0, pilot, numbers), wanted)

    def test_what_is_not(self):
        """No rounding and no rows of another length: both come before every question."""
        for kind in (numpy.complex128, numpy.float64, numpy.int32, numpy.int64, object, "U1"):
            for mode in (2, 9):
                told = "^%s: complex64 is needed, or what it holds without rounding, not "
                with self.assertRaisesRegex(TypeError, told % "points"):
                    arrays.fill(mode, 256, 0, 0, 1j, numpy.zeros((4, 48), kind))
                for call in (arrays.empty, lambda *fields: arrays.empty_first(*fields[:4], 9, *fields[4:])):
                    self.assertRaisesRegex(TypeError, told % "grid", call, mode, 256, 0, 0, numpy.zeros((1, 256), kind))
        self.assertRaises(TypeError, arrays.fill, 2, 256, 0, 0, 1j, [1j] * 192)
        self.assertRaises(TypeError, arrays.fill, 2, 256, 0, 0, 1.0, numpy.zeros((4, 48), numpy.complex64))
        for shape in ((48, 4), (2, 96), (4, 48, 1), (192, 1)):
            with self.assertRaisesRegex(ValueError, "^points: rows of 48 are needed, not of %d$" % shape[-1]):
                arrays.fill(2, 256, 0, 0, 1j, numpy.zeros(shape, numpy.complex64))
        for shape in ((256, 1), (2, 128), (1, 256, 1)):
            with self.assertRaisesRegex(ValueError, "^grid: rows of 256 are needed, not of %d$" % shape[-1]):
                arrays.empty(2, 256, 0, 0, numpy.zeros(shape, numpy.complex64))
        grid = numpy.zeros((1, 256), numpy.complex64)
        for kind in (numpy.complex128, numpy.float64):
            self.assertRaises(TypeError, arrays.empty_first, 2, 256, 0, 0, 9, grid, numpy.zeros((4, 48), kind))
        points = numpy.zeros((4, 96), numpy.complex64)[:, ::2]
        self.assertRaises(BufferError, arrays.empty_first, 2, 256, 0, 0, 9, grid, points)
        self.assertRaises(ValueError, arrays.empty_first, 2, 256, 0, 0, 9, grid, grid[0, :192].reshape(4, 48))
        self.assertRaises(ValueError, arrays.empty_first, 2, 256, 0, 0, -1, grid)

    def test_refusals(self):
        """The first question that fails, whichever fields are wrong; lengths are in points here."""
        for mode, size in ((0, 2048), (2, 256), (6, 1024)):
            points, grid = 48 * ref.subchannels(mode, size), ref.grid_floats(mode, size) // 2
            good = (mode, size, ref.cells(mode, size) - 1, ref.full_mask(mode), 511)
            past = (8, size + 1, good[2] + 1, good[3] + 1, 512)
            ground = of_points(ref.ground_refusal)
            filled = of_points(lambda *fields: ref.buffers_refusal(*fields, ref.grid_len(*fields[:2])))
            for call, expected, own, wrong in (
                (fill_of, filled, (points,), (points - 48,)),
                (empty_of, ground, (grid,), (grid + 1,)),
                (table_of, of_a_slot, (), ()),
            ):
                for bad in itertools.product((False, True), repeat=5 + len(own)):
                    fields = [two[is_bad] for is_bad, *two in zip(bad, (*good, *own), (*past, *wrong))]
                    self.assertEqual(refusal(call, *fields), expected(*fields), (call, fields))

    def test_fusc(self):
        rng = random.Random(38)
        for pilots in (SPREAD, numpy.array(pilot_lists.ENDS), list(pilot_lists.random_list(rng))):
            setup, points, pilot = (7, 2048, rng.randrange(32), 3), noise(rng, 32, 48), noise(rng, 1)
            wanted = numpy.empty((1, 2048), numpy.complex64)
            bp.fill(*setup, pilot, points, wanted, pilots=pilots)
            self.same(arrays.fill(*setup, pilot, points, pilots=pilots), wanted)
            self.same(arrays.empty(*setup, wanted, pilots=pilots), points)
            self.same(wanted.reshape(-1)[arrays.slot_places(*setup, pilots=pilots)], points)
            self.same(arrays.empty_first(*setup, 2048, wanted, pilots=pilots), points)
            half = arrays.empty_first(*setup, 1024, wanted, numpy.zeros((32, 48), numpy.complex64), pilots=pilots)
            there = arrays.slot_places(*setup, pilots=pilots) < 1024
            self.same(half[there], points[there])
            self.assertFalse(half[~there].any())
        grid = numpy.zeros((1, 2048), numpy.complex64)
        for lent in ({}, {"pilots": range(165)}, {"pilots": SPREAD[::-1]}):
            for call, fields in (
                (arrays.slot_places, ()),
                (arrays.fill, (1j, points)),
                (arrays.empty, (grid,)),
                (arrays.empty_first, (9, grid)),
            ):
                self.assertEqual(refusal(call, 7, 2048, 0, 0, *fields, **lent), 20)
                self.assertEqual(refusal(call, 7, 2048, 0, 512, *fields, **lent), 4)

    def test_hints(self):
        self.assertEqual(unhinted(arrays), [])

    def test_the_examples(self):
        failed, tried = doctest.testmod(arrays)
        self.assertEqual((failed, tried > 9), (0, True))


# --- running ----------------------------------------------------------------------------------


def has_numpy(python):
    return subprocess.run([python, "-c", "import numpy"], capture_output=True).returncode == 0


def python_with_numpy():
    """The first python3 of the PATH that has numpy, or None."""
    paths = [os.path.join(folder, "python3") for folder in os.get_exec_path()]
    return next((path for path in paths if os.access(path, os.X_OK) and has_numpy(path)), None)


def main():
    tests = unittest.main(exit=False).result
    skipped = [test.id().partition(".")[2] for test, _ in tests.skipped]
    other = python_with_numpy() if skipped else None
    told = "with numpy" if numpy else "numpy not here: %d skipped" % len(skipped)
    status = not tests.wasSuccessful()
    if other:
        status |= subprocess.run([other, os.path.abspath(__file__), *skipped], stdout=sys.stderr).returncode
        told = "%d of them with numpy by %s" % (len(skipped), other)
    print("python: %d tests, %s" % (tests.testsRun, told))
    return status


if __name__ == "__main__":
    sys.exit(main())
