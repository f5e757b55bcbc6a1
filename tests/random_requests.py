"""Random requests through the C interface, good and bad, each held to the reference.

    python3 tests/random_requests.py [SEED]

Ten thousand requests a call. Every answer, every byte that is written and every byte that is not is compared (lent.py).
A thousand times a slot is filled in two moves: its ground, then lays of all its subchannels, unlit ones too, in any order
with repeats. Fails where one differs, and also where a refusal, a kind of carrier, lit or not, a mode, size and mask that a
call has (with carriers on both sides of DC, within the range and past it; with counts of carriers that write none, some and
all of the points), a mask refused in each mode, a mode after another that a plan may have, a kind of pilot list that FUSC
takes and each damage of one (pilot_lists.py), a list refused in each other mode and size, or a kind of list of bursts with each
of its answers (burst_lists.py), never occurred.
"""

import random
import sys
from array import array
from collections import Counter
from functools import lru_cache, partial
from itertools import cycle
from operator import itemgetter

import burst_lists
import lent
import pilot_lists
import reference as ref
from lent import Arena, signed_word, words

SEED = 802
ROUND = 40  # requests of each call over one mode, size, cell, mask and slot
SLOT_ROUND = 4  # slots filled in two moves, over the same
SETUPS = [(mode, size) for mode in ref.MODES for size in ref.sizes(mode)]
LIT = [(*setup, mask) for setup in SETUPS for mask in ref.masks(setup[0])]  # mode, size and mask
OFTEN = {ref.PUSC_DL: 1, ref.FUSC: 18}  # how often each mode, size and mask has its turn; the other modes' 9 times
TURNS = [lit for lit in LIT for _ in range(OFTEN.get(lit[0], 9))]
ORDERS = [(a, b) for a in ref.PLAN_MODES for b in ref.PLAN_MODES if a not in ref.SHAPES or b in ref.SHAPES]
KINDS = {ref.GUARD: 0, ref.DC: 1, ref.PILOT: 2, ref.DATA: 3}
LARGEST = 2**32 - 1
LEAST_CARRIER, GREATEST_CARRIER = -(2**31), 2**31 - 1
LAID = 96  # floats of one subchannel's points
MOST_POINTS, MOST_GRID = LAID * 192, 2 * 6 * 2048  # floats of the slot that has most
POINTS_ROOM, GRID_ROOM = 2 * MOST_POINTS, 2 * MOST_GRID


# --- fields -----------------------------------------------------------------------------------


def within(dice, limit):
    """A number below the limit, the ends more often."""
    return dice.choice([0, limit - 1] + [dice.randrange(limit)] * 4)


def beyond(dice, good, limit):
    """A number that is past a range, or at times within it: close by, cut to a good one, or any."""
    near = [limit, limit + 1, limit - 1, LARGEST]
    cut = [good + 2**8, good + 2**16, good + 2**31]
    return dice.choice(near + cut + [dice.randrange(limit, 2**32), dice.getrandbits(32)])


def other_size(dice, good, _):
    sizes = ref.BIN_SIZES + [0, 1, 64, 128, 768, 1536, 4096, good - 1, good + 1, good + 2**16, LARGEST]
    return dice.choice(sizes + [dice.getrandbits(32)])


def other_mask(dice, good, _):
    """A mask that the mode does not have, or at times one that it has: the limits, one cut to a good one, or any."""
    near = [0, 0, 1, 62, 63, 64, 64, 65, 127, 128, LARGEST, LARGEST - 1, 2**32 - 64, dice.randrange(64)]
    return dice.choice(near + [good + 2**6, good + 2**8, good + 2**16, good + 2**31, dice.getrandbits(32)])


def spoiled(dice, good, limits, others={}):
    """The fields as they are, or (half of the time) with some of them changed, most often one."""
    fields = list(good)
    if dice.randrange(2):
        for i in dice.sample(range(len(fields)), min(len(fields), dice.choice([1, 1, 1, 2, 3]))):
            fields[i] = others.get(i, beyond)(dice, good[i], limits[i])
    return fields


def setup_limits(mode, size):
    """The first number past each of mode, size and cell; the size's is not used."""
    return [len(ref.MODES), 0, ref.cells(mode, size)]


def lit_limits(mode, size):
    """The same with the mask behind it, whose limit is not used."""
    return setup_limits(mode, size) + [0]


def some_carrier(dice, mode, size):
    """A carrier of the symbol; the ends of the symbol and of the band, and DC, more often."""
    low, high = ref.band(mode, size)
    edges = [-size // 2, low - 1, low, -1, 0, 0, 1, high, high + 1, size // 2 - 1]
    return dice.choice(edges + [dice.choice(ref.carriers(size))] * 30)


def other_carrier(dice, good, size):
    """A carrier that is out of range, or at times within it: close by, cut to a good one, or any, on either side."""
    end = size // 2
    near = [-end - 2, -end - 1, -end, end - 1, end, end + 1, -size, size - 1, LEAST_CARRIER, GREATEST_CARRIER]
    cut = [good - 2**8, good + 2**8, good - 2**16, good + 2**16, good + 2**31 if good < 0 else good - 2**31]
    far = [dice.randrange(LEAST_CARRIER, -end), dice.randrange(end, 2**31), dice.randrange(LEAST_CARRIER, 2**31)]
    return dice.choice(near + cut + far)


def side(carrier):
    """On which side of DC a carrier is."""
    return (carrier > 0) - (carrier < 0)


def some_length(dice, right, other, room, last):
    """A buffer's length: most often right, else off by little, none, the other buffer's, doubled, or past 32 bits."""
    if dice.randrange(5):
        return right
    lengths = [right + 1, right + 2, right - 1, right - 2, 0, 1, other, 2 * right, right // 2, dice.randrange(room)]
    return dice.choice(lengths + [lent.LONG + right] * (last and lent.HAS_LONG))


def pointer(dice, address, length):
    """The buffer's address; where it has no length, at times another or none."""
    return address if length else dice.choice([address, address, 0, 4, 2**47])


# --- pilot lists ------------------------------------------------------------------------------

LIST_PIECE = 4 * (2 * pilot_lists.COUNT)  # bytes: twice the right length

# Cases of a call that has a pilot list: each kind and each damage in FUSC, and any list in another mode and size.
LISTS = [("list", kind) for kind in [*pilot_lists.GOOD, "random", *pilot_lists.DAMAGES] + ["long"] * lent.HAS_LONG]
LISTS += [("list", *setup) for setup in SETUPS if setup[0] != ref.FUSC]


class Lent:
    """A pilot list as it is lent to a call: its kind, its numbers, and the numbers that stand in memory."""

    in_turn = cycle(pilot_lists.GOOD.items())
    good = []  # the kinds and the lists that FUSC has in this turn

    @classmethod
    def next_turn(cls, dice):
        cls.good = [next(cls.in_turn), ("random", pilot_lists.random_list(dice))]

    def __init__(self, dice, mode, last=True):
        """Most often one that the mode takes. Behind it stand numbers that go on with it. Last: no other piece is behind
        it, so that its length can be one past 32 bits."""
        if mode == ref.FUSC:
            self.kind, self.numbers = dice.choice(self.good) if dice.randrange(4) else pilot_lists.damaged(dice)
        else:
            self.kind = "none" if dice.randrange(8) else "other"
            self.numbers = () if self.kind == "none" else pilot_lists.unfit(dice, mode)
        end = min(LARGEST - pilot_lists.COUNT, max(self.numbers, default=-1))
        self.given = words([*self.numbers, *range(end + 1, end + 1 + pilot_lists.COUNT)][: 2 * pilot_lists.COUNT])
        if last and lent.HAS_LONG and dice.randrange(20) == 0:
            # Too long, though its lowest 32 bits are not.
            self.kind, self.numbers = "long", range(lent.LONG + len(self.numbers))

    def arguments(self, dice, address):
        length = len(self.numbers)
        return [pointer(dice, address, length), length]

    def met(self, fields, number):
        """What LISTS has of it: the list was accepted, or was what the call refused."""
        if number not in (0, 20):
            return []
        mode, size = fields[:2]
        return [("list", self.kind)] if mode == ref.FUSC else [("list", mode, size)] if number == 20 else []


# --- the calls --------------------------------------------------------------------------------

# A request is a call's arguments, what the arena is given before, the refusal, what is written to the arena, and the
# cases that are met. `refusals` and `cases` of a call are those that must have occurred in the end.

# Cases of a call that has a mask: mode, size and mask accepted, and a mode and size whose mask was refused.
MASKS = LIT + [(*setup, "refused") for setup in SETUPS]


def masks_met(fields, number):
    """What MASKS has of a request's first fields, mode, size, cell and mask."""
    if number == 0:
        return [(*fields[:2], fields[3])]
    return [(*fields[:2], "refused")] if number == 17 else []


# Cases of a call that has a carrier: mode, size, the refusal and the carrier's side of DC.
CARRIERS = [(*setup, *case) for setup in SETUPS for case in ((0, -1), (0, 0), (0, 1), (7, -1), (7, 1))]


class Place:
    name, arena = "bp_place", Arena(4, 4, LIST_PIECE)
    refusals, cases = [1, 2, 3, 4, 5, 6, 20], [(*setup, side) for setup in SETUPS for side in (-1, 1)] + LISTS

    def request(self, dice, noise, mode, size, cell, mask, slot):
        limits = setup_limits(mode, size) + [ref.SLOTS, ref.subchannels(mode, size), ref.POINTS]
        good = [mode, size] + [within(dice, limit) for limit in limits[2:]]
        fields = spoiled(dice, good, limits, {1: other_size})
        pilots = Lent(dice, mode)
        number, symbol, carrier = ref.place(*fields, pilots.numbers)
        written = [] if number else [(0, words([symbol])), (1, signed_word(carrier))]
        met = ([] if number else [(*fields[:2], side(carrier))]) + pilots.met(fields, number)
        *outs, last = map(self.arena.address, range(3))
        return fields + pilots.arguments(dice, last) + outs, [(2, pilots.given)], number, written, met


class Places:
    name, arena = "bp_places", Arena(4 * ref.POINTS, LIST_PIECE)
    refusals, cases = [1, 2, 3, 4, 5, 20], SETUPS + LISTS

    def request(self, dice, noise, mode, size, cell, mask, slot):
        limits = setup_limits(mode, size) + [ref.SLOTS, ref.subchannels(mode, size)]
        good = [mode, size] + [within(dice, limit) for limit in limits[2:]]
        fields = spoiled(dice, good, limits, {1: other_size})
        pilots = Lent(dice, mode)
        number, places = ref.places(*fields, pilots.numbers)
        written = [] if number else [(0, words(places))]
        met = ([] if number else [tuple(fields[:2])]) + pilots.met(fields, number)
        out, last = map(self.arena.address, range(2))
        return fields + pilots.arguments(dice, last) + [out], [(1, pilots.given)], number, written, met


def place_in(dice, mode, size, slot):
    """A symbol of the slot and a carrier of it, and the limits of both."""
    length = ref.SLOT_LENGTH[mode]
    place = [slot * length + dice.randrange(length), some_carrier(dice, mode, size)]
    return place, [ref.SLOTS * length, size]


class Locate:
    name, arena = "bp_locate", Arena(4, 4, 4, 4, LIST_PIECE)
    FOUND = [(kind, mode) for kind in KINDS for mode in ref.MODES]
    refusals, cases = [1, 2, 3, 4, 7, 20], CARRIERS + FOUND + LISTS

    def request(self, dice, noise, mode, size, cell, mask, slot):
        place, limits = place_in(dice, mode, size, slot)
        others = {1: other_size, 4: other_carrier}
        fields = spoiled(dice, [mode, size, cell] + place, setup_limits(mode, size) + limits, others)
        pilots = Lent(dice, mode)
        number, what = ref.locate(*fields, pilots.numbers)
        written = [] if number else [(i, words([x])) for i, x in enumerate((KINDS[what[0]],) + what[1:])]
        met = [(*fields[:2], number, side(fields[4]))] + pilots.met(fields, number)
        met += [] if number else [(what[0], fields[0])]
        *outs, last = map(self.arena.address, range(5))
        return fields + pilots.arguments(dice, last) + outs, [(4, pilots.given)], number, written, met


class PointsLen:
    """Its answer is no refusal, but is compared as one; 0 is that of a mode and size which the map does not have."""

    name, arena, length = "bp_points_len", Arena(), staticmethod(ref.points_len)
    refusals, cases = sorted({ref.points_len(*setup) for setup in SETUPS}), []

    def request(self, dice, noise, mode, size, cell, mask, slot):
        fields = spoiled(dice, [mode, size], setup_limits(mode, size), {1: other_size})
        return fields, [], self.length(*fields), [], []


class LitPointsLen:
    """As PointsLen, by the mask too."""

    name, arena = "bp_lit_points_len", Arena()
    refusals, cases = sorted({ref.lit_points_len(*lit) for lit in LIT}), LIT

    def request(self, dice, noise, mode, size, cell, mask, slot):
        fields = spoiled(dice, [mode, size, mask], [len(ref.MODES), 0, 0], {1: other_size, 2: other_mask})
        return fields, [], ref.lit_points_len(*fields), [], [tuple(fields)]


class GridLen(PointsLen):
    name, length = "bp_grid_len", staticmethod(ref.grid_len)
    refusals = sorted({ref.grid_len(*setup) for setup in SETUPS})


@lru_cache(maxsize=64)
def ground_sources(mode, size, cell, mask, slot, pilots):
    """For each float of the ground, which of (0, the pilot's two) it is: the reference lays it with these numbers."""
    return itemgetter(*ref.ground(mode, size, cell, mask, slot, [1, 2], [9] * ref.grid_floats(mode, size), pilots)[1])


@lru_cache(maxsize=64)
def fill_sources(mode, size, cell, mask, slot, pilots):
    """For each float of the filled grid, which of (0, the pilot's two, the points') it is: the reference fills a grid
    with these numbers."""
    points, grid = list(range(3, 3 + ref.lit_points_len(mode, size, mask))), [0] * ref.grid_floats(mode, size)
    return itemgetter(*ref.fill(mode, size, cell, mask, slot, [1, 2], points, grid, pilots)[1])


@lru_cache(maxsize=64)
def empty_sources(mode, size, cell, mask, slot, pilots):
    """For each float of the points, which one of the grid it is."""
    points = [0] * ref.lit_points_len(mode, size, mask)
    return ref.empty(mode, size, cell, mask, slot, list(range(ref.grid_floats(mode, size))), points, pilots)[1]


def slot_fields(dice, mode, size, cell, mask, slot):
    others = {1: other_size, 3: other_mask}
    return spoiled(dice, [mode, size, cell, mask, slot], lit_limits(mode, size) + [ref.SLOTS], others)


class Ground:
    """The list lies before the grid or behind it, so that either's length can be one past 32 bits; so in the calls below."""

    name, arena = "bp_ground", Arena(8, LIST_PIECE, 4 * GRID_ROOM, LIST_PIECE)
    refusals, cases = [1, 2, 3, 17, 4, 20, 9], MASKS + LISTS

    def request(self, dice, noise, mode, size, cell, mask, slot):
        fields, piece = slot_fields(dice, mode, size, cell, mask, slot), dice.choice([1, 3])
        pilots, floats = Lent(dice, mode, piece == 3), LAID * ref.subchannels(mode, size)
        grid_len = some_length(dice, ref.grid_floats(mode, size), floats, GRID_ROOM, piece == 1)
        number = ref.ground_refusal(*fields, grid_len, pilots.numbers)
        pilot, grid, given = self.arena.address(0), self.arena.address(2), [(piece, pilots.given)]
        lent_list = pilots.arguments(dice, self.arena.address(piece))
        arguments = fields + lent_list + [pilot, pointer(dice, grid, grid_len), grid_len]
        met = masks_met(fields, number) + pilots.met(fields, number)
        if number:
            return arguments, given, number, [], met
        floats = array("I", noise.run(dice, 8))
        after = ground_sources(*fields, pilots.numbers)(array("I", [0]) + floats)
        written = [(2, array("I", after).tobytes())]
        return arguments, given + [(0, floats.tobytes())], 0, written, met


class Lay:
    """The points lie before the grid or behind it, so that either's length can be one past 32 bits."""

    name, arena = "bp_lay", Arena(LIST_PIECE, 4 * MOST_POINTS, 4 * GRID_ROOM, 4 * MOST_POINTS, LIST_PIECE)
    refusals, cases = [1, 2, 3, 17, 4, 5, 20, 8, 9], MASKS + LISTS + ["unlit"]

    def lengths(self, dice, mode, size, last):
        """The points' and the grid's; last is the piece behind all others."""
        points, grid = LAID * ref.subchannels(mode, size), ref.grid_floats(mode, size)
        points_len = some_length(dice, LAID, points, MOST_POINTS, last == 3)
        return points_len, some_length(dice, grid, points, GRID_ROOM, last == 2)

    def fields(self, dice, mode, size, cell, mask, slot):
        """The subchannel is any, or a lit one."""
        limits = lit_limits(mode, size) + [ref.SLOTS, ref.subchannels(mode, size)]
        subchannel = dice.choice([within(dice, limits[5]), dice.choice(ref.lit_subchannels(mode, size, mask))])
        return spoiled(dice, [mode, size, cell, mask, slot, subchannel], limits, {1: other_size, 3: other_mask})

    def request(self, dice, noise, mode, size, cell, mask, slot):
        fields = self.fields(dice, mode, size, cell, mask, slot)
        piece, list_piece = dice.choice([1, 3]), dice.choice([0, 4])
        pilots = Lent(dice, mode, list_piece == 4)
        points_len, grid_len = self.lengths(dice, mode, size, max(2, piece, list_piece))
        number = ref.lay_refusal(*fields, points_len, grid_len, pilots.numbers)
        points, grid, given = self.arena.address(piece), self.arena.address(2), [(list_piece, pilots.given)]
        arguments = fields + pilots.arguments(dice, self.arena.address(list_piece))
        arguments += [pointer(dice, points, points_len), points_len, pointer(dice, grid, grid_len), grid_len]
        met = masks_met(fields, number) + pilots.met(fields, number)
        if number:
            unlit = number == 5 and fields[5] < ref.subchannels(*fields[:2])
            return arguments, given, number, [], met + ["unlit"] * unlit
        laid, before = array("I", noise.run(dice, 4 * LAID)), array("I", noise.run(dice, 4 * grid_len))
        after = array("I", ref.lay(*fields, laid, before, pilots.numbers)[1])
        given += [(piece, laid.tobytes()), (2, before.tobytes())]
        return arguments, given, 0, [(2, after.tobytes())], met


def ground_and_lays(library, fields, pilots, pilot, lays, grid, grid_len):
    """Both moves; lays are pairs of a subchannel and where its points are. The greatest refusal, or 0."""
    numbers = [library.bp_ground(*fields, *pilots, pilot, grid, grid_len)]
    for subchannel, points in lays:
        numbers.append(library.bp_lay(*fields, subchannel, *pilots, points, LAID, grid, grid_len))
    return max(numbers)


class Slot:
    """A slot's points are laid in any order with repeats: any floats, and its own when a lit subchannel comes last. An
    unlit one is refused, with any floats. So the grid is the one that the reference fills."""

    OTHERS = 1000  # floats that any points are taken from
    name, arena = "ground_and_lays", Arena(8, 4 * MOST_POINTS, 4 * OTHERS, 4 * MOST_GRID, LIST_PIECE)
    refusals, cases, a_round = [5], LIT, SLOT_ROUND

    def lays(self, dice, subchannels, lit):
        order = [*range(subchannels), *dice.choices(range(subchannels), k=dice.randrange(subchannels))]
        dice.shuffle(order)
        last = {subchannel: n for n, subchannel in enumerate(order)}
        own = {subchannel: self.arena.address(1) + 4 * LAID * n for n, subchannel in enumerate(lit)}
        for n, subchannel in enumerate(order):
            other = self.arena.address(2) + 4 * dice.randrange(self.OTHERS - LAID)
            yield subchannel, (own.get(subchannel, other) if last[subchannel] == n else other)

    def request(self, dice, noise, mode, size, cell, mask, slot):
        fields, subchannels = (mode, size, cell, mask, slot), ref.subchannels(mode, size)
        lit = ref.lit_subchannels(mode, size, mask)
        pilot, grid, pilots = self.arena.address(0), self.arena.address(3), ()
        if mode == ref.FUSC:
            pilots = dice.choice(Lent.good)[1]
        lent_list = self.arena.address(4), len(pilots)
        lays = list(self.lays(dice, subchannels, lit))
        arguments = [fields, lent_list, pilot, lays, grid, ref.grid_floats(mode, size)]
        floats = array("I", noise.run(dice, 8 + 4 * LAID * len(lit)))
        after = fill_sources(*fields, pilots)(array("I", [0]) + floats)
        given, written = [(0, floats[:2].tobytes()), (1, floats[2:].tobytes())], [(3, array("I", after).tobytes())]
        given.append((4, words(pilots)))
        return arguments, given, 0 if len(lit) == subchannels else 5, written, [(mode, size, mask)]


class Empty:
    name, arena = "bp_empty", Arena(LIST_PIECE, 4 * GRID_ROOM, 4 * POINTS_ROOM, LIST_PIECE)
    refusals, cases = [1, 2, 3, 17, 4, 20, 8, 9], MASKS + LISTS

    def lent_list(self, dice, mode):
        """A pilot list, the piece where it lies, and its arguments."""
        piece = dice.choice([0, 3])
        pilots = Lent(dice, mode, piece == 3)
        return pilots, piece, pilots.arguments(dice, self.arena.address(piece))

    def buffers(self, dice, mode, size, mask, points_last):
        """The grid and the points, each a pointer and a length."""
        points_floats, grid_floats = ref.lit_points_len(mode, size, mask), ref.grid_floats(mode, size)
        others = [grid_floats, ref.points_len(mode, size), points_floats + LAID, points_floats - LAID]
        points_len = some_length(dice, points_floats, dice.choice(others), POINTS_ROOM, points_last)
        grid_len = some_length(dice, grid_floats, points_floats, GRID_ROOM, False)
        grid, points = map(self.arena.address, (1, 2))
        return [pointer(dice, grid, grid_len), grid_len, pointer(dice, points, points_len), points_len]

    def request(self, dice, noise, mode, size, cell, mask, slot):
        fields = slot_fields(dice, mode, size, cell, mask, slot)
        pilots, piece, lent_list = self.lent_list(dice, mode)
        buffers, given = self.buffers(dice, mode, size, mask, piece == 0), [(piece, pilots.given)]
        number = ref.buffers_refusal(*fields, buffers[3], buffers[1], pilots.numbers)
        arguments, met = fields + lent_list + buffers, masks_met(fields, number) + pilots.met(fields, number)
        if number:
            return arguments, given, number, [], met
        floats = array("I", noise.run(dice, 4 * buffers[1]))
        after = itemgetter(*empty_sources(*fields, pilots.numbers))(floats)
        return arguments, given + [(1, floats.tobytes())], 0, [(2, array("I", after).tobytes())], met


def some_count(dice, mode, size):
    """How many carriers of a grid: any of its own, an edge of a symbol, of its band or of DC, or past its end."""
    places, low, high = size * ref.SLOT_LENGTH[mode], *ref.band(mode, size)
    edge = dice.randrange(0, places, size) + size // 2 + dice.choice([-size // 2, low, 0, high, size // 2 - 1])
    ends = [0, 1, places - 1, places, places + 1, 2**16 + places // 2, 2**31 + places // 2, LARGEST]
    return dice.choice([dice.randrange(places)] * 3 + [edge, edge + 1, edge + 2, dice.choice(ends)])


class EmptyFirst(Empty):
    """The points on later carriers keep the floats that were there. The count is never refused."""

    name = "bp_empty_first"
    cases = Empty.cases + [(*setup, part) for setup in SETUPS for part in ("none", "some", "all")]

    def request(self, dice, noise, mode, size, cell, mask, slot):
        fields = slot_fields(dice, mode, size, cell, mask, slot)
        pilots, piece, lent_list = self.lent_list(dice, mode)
        buffers, count = self.buffers(dice, mode, size, mask, piece == 0), some_count(dice, mode, size)
        number = ref.buffers_refusal(*fields, buffers[3], buffers[1], pilots.numbers)
        arguments, given = fields + [count] + lent_list + buffers, [(piece, pilots.given)]
        met = masks_met(fields, number) + pilots.met(fields, number)
        if number:
            return arguments, given, number, [], met
        floats, old = (array("I", noise.run(dice, 4 * length)) for length in (buffers[1], buffers[3]))
        sources = empty_sources(*fields, pilots.numbers)
        after = array("I", [floats[source] if source < 2 * count else kept for source, kept in zip(sources, old)])
        part = "all" if max(sources) < 2 * count else "some" if min(sources) < 2 * count else "none"
        given += [(1, floats.tobytes()), (2, old.tobytes())]
        return arguments, given, 0, [(2, after.tobytes())], met + [(*fields[:2], part)]


class Look:
    name, arena = "bp_look", Arena(4, 8, 4, 4, 4, LIST_PIECE, 4 * GRID_ROOM, LIST_PIECE)
    # What is seen, and what the map has there: nothing also where a pilot or data is unlit.
    SEEN = [("nothing", kind) for kind in KINDS] + [(ref.PILOT, ref.PILOT), (ref.DATA, ref.DATA)]
    refusals, cases = [1, 2, 3, 17, 4, 7, 20, 9], CARRIERS + MASKS + SEEN + LISTS

    def request(self, dice, noise, mode, size, cell, mask, slot):
        place, limits = place_in(dice, mode, size, slot)
        others = {1: other_size, 3: other_mask, 5: other_carrier}
        fields = spoiled(dice, [mode, size, cell, mask] + place, lit_limits(mode, size) + limits, others)
        carrier, piece, floats = fields[5], dice.choice([5, 7]), 96 * ref.subchannels(mode, size)
        pilots = Lent(dice, mode, piece == 7)
        grid_len = some_length(dice, ref.grid_floats(mode, size), floats, GRID_ROOM, piece == 5)
        number = ref.look_refusal(*fields[:5], grid_len, carrier, pilots.numbers)
        outs, grid = list(map(self.arena.address, range(5))), pointer(dice, self.arena.address(6), grid_len)
        lent_list, given = pilots.arguments(dice, self.arena.address(piece)), [(piece, pilots.given)]
        arguments = fields[:5] + lent_list + [grid, grid_len, carrier] + outs
        met = [(*fields[:2], number, side(carrier))] + masks_met(fields, number) + pilots.met(fields, number)
        if number:
            return arguments, given, number, [], met
        patterns = array("I", noise.run(dice, 4 * grid_len))
        what = ref.look(*fields[:5], patterns, carrier, pilots.numbers)[1]
        written = [(0, words([KINDS.get(what[0], 0)]))]
        if what[0] != "nothing":
            written.append((1, words(what[1])))
            written += [(2 + i, words([x])) for i, x in enumerate(what[2:])]
        located = ref.locate(*fields[:3], *fields[4:], pilots.numbers)[1]
        return arguments, given + [(6, patterns.tobytes())], 0, written, met + [(what[0], located[0])]


class OfuscCollisions:
    name, arena = "bp_ofusc_collisions", Arena(48, 4)
    refusals, cases = [2, 3, 5], [(ref.OFUSC, size) for size in ref.BIN_SIZES]

    def request(self, dice, noise, *_):
        size = dice.choice(ref.BIN_SIZES)
        cells, subchannels = ref.cells(ref.OFUSC, size), ref.subchannels(ref.OFUSC, size)
        limits = [0, cells, subchannels, cells, subchannels]
        good = [size] + [within(dice, limit) for limit in limits[1:]]
        for i in (1, 2):
            if dice.randrange(8) == 0:
                good[i + 2] = good[i]
        fields = spoiled(dice, good, limits, {0: other_size})
        return self.answered(fields, ref.ofusc_collisions(*fields), [(ref.OFUSC, fields[0])])

    def answered(self, fields, answer, met):
        number, hits, count = answer
        written = [] if number else [(0, bytes(hits)), (1, words([count]))]
        return fields + list(map(self.arena.address, (0, 1))), [], number, written, [] if number else met


class AmcCollisions(OfuscCollisions):
    name = "bp_amc_collisions"
    refusals, cases = [3], []

    def request(self, dice, noise, *_):
        cells = ref.cells(ref.AMC, 2048)
        good = [within(dice, cells), within(dice, cells)]
        if dice.randrange(8) == 0:
            good[1] = good[0]
        fields = spoiled(dice, good, [cells, cells])
        return self.answered(fields, ref.amc_collisions(*fields), [])


# --- plans ------------------------------------------------------------------------------------


def good_zone(dice, mode, size):
    return mode, within(dice, ref.cells(mode, size)), 1 + within(dice, ref.SLOTS), dice.choice(ref.masks(mode))


def good_plan(dice):
    """A plan that is accepted: size and zones."""
    size, zones = dice.choice(ref.BIN_SIZES), []
    if size == 2048:
        zones.append(good_zone(dice, ref.PUSC_DL, size))
    for _ in range(dice.randrange(0 if zones else 1, 9 - len(zones))):
        amc = dice.choice(list(ref.SHAPES))
        modes = [ref.OFUSC, amc] + [ref.PUSC_DL, ref.FUSC] * (size == 2048)
        mode = amc if zones and zones[-1][0] in ref.SHAPES else dice.choice(modes)
        zones.append(good_zone(dice, mode, size))
    return size, zones


def orders(zones):
    """Each zone's mode with that of the next one."""
    modes = [zone[0] for zone in zones]
    return list(zip(modes, modes[1:]))


def other_number(dice, good, largest):
    """A number for one of a plan: the limits of its fields, or any."""
    close = [31, 32, 63, 64, 127, 128, 512, 513, 2351, 2352, 16383, 16384, good + 1, good + 2**8]
    return dice.choice([*range(10), *close, dice.randrange(largest + 1), largest])


def plan_numbers(dice, largest):
    """Count, size and the numbers of eight places; at times the zones in another order, or some numbers changed."""
    size, zones = good_plan(dice)
    if dice.randrange(8) == 0:
        dice.shuffle(zones)
    numbers = [len(zones), size] + [x for zone in zones for x in zone] + [0] * (32 - 4 * len(zones))
    if dice.randrange(3) == 0:
        places = [0, 1] + 3 * list(range(2, 2 + 4 * len(zones))) + [33]
        for i in sorted(set(dice.choices(places, k=dice.choice([1, 1, 2])))):
            other = other_size if i == 1 else other_number
            numbers[i] = min(largest, other(dice, numbers[i], largest))
    return numbers


def changed_bytes(dice, data):
    """Bytes cut, prolonged, with a bit changed, a group put in or others put between."""
    at, byte = dice.randrange(len(data)), dice.randrange(256)
    before, here, after = data[:at], data[at], data[at + 1 :]
    bit = [here ^ 1 << dice.randrange(8)]
    group = [here | 0x80, 0]
    between = [byte] * dice.randrange(1, 9) + [here]
    return dice.choice([before, data + [byte], before + bit + after, before + group + after, before + between + after])


def plan_bytes(dice):
    """The bytes of a plan, good or not; at times any bytes."""
    if dice.randrange(20) == 0:
        return [dice.randrange(256) for _ in range(dice.randrange(9))]
    numbers = plan_numbers(dice, 2**21 - 1)
    used = numbers[: 2 + 4 * min(numbers[0], ref.PLACES)] if dice.randrange(8) else numbers
    data = [byte for number in used for byte in ref.write_value(number)]
    return data if dice.randrange(3) else changed_bytes(dice, data)


class PlanRead:
    name, arena = "bp_zone_plan_read", Arena(4, 4, 128, 256)
    refusals, cases = [1, 2, 3, 10, 11, 12, 13, 14, 15, 17], ORDERS

    def request(self, dice, noise, *_):
        data = plan_bytes(dice)
        length = len(data)
        if lent.HAS_LONG and dice.randrange(20) == 0:
            # No plan is longer than 128 bytes, so these decide.
            data += [dice.randrange(256) for _ in range(128 - length)]
            length += lent.LONG
        number, count, size, zones = ref.read_plan(data)
        outs = list(map(self.arena.address, range(3)))
        arguments = [pointer(dice, self.arena.address(3), length), length] + outs
        flat = [x for zone in zones for x in zone]
        written = [] if number else [(0, words([count])), (1, words([size])), (2, words(flat))]
        return arguments, [(3, bytes(data))], number, written, orders(zones[:count])


class PlanWrite:
    name, arena = "bp_zone_plan_write", Arena(128, 4, 256)
    refusals, cases = [1, 2, 3, 12, 13, 14, 16, 17], ORDERS

    def request(self, dice, noise, *_):
        numbers = plan_numbers(dice, LARGEST)
        zones = [tuple(numbers[i : i + 4]) for i in range(2, 34, 4)]
        need = sum(len(ref.write_value(x)) for x in numbers[: 2 + 4 * min(numbers[0], 8)])
        length = dice.choice([need, need, 51, 56, 128, need + 1, need - 1, dice.randrange(need), 0])
        number, count, after = ref.write_plan(numbers[0], numbers[1], zones, [0] * length)
        if number == 16 and lent.HAS_LONG and dice.randrange(4) == 0:
            # Long enough, though its lowest 32 bits are not.
            number, count, after = ref.write_plan(numbers[0], numbers[1], zones, [0] * 128)
            length += lent.LONG
        places, out, dest = map(self.arena.address, range(3))
        arguments = numbers[:2] + [places, pointer(dice, dest, length), length, out]
        written = [] if number else [(1, words([count])), (2, bytes(after[:count]))]
        met = [] if number else orders(zones[: numbers[0]])
        return arguments, [(0, words(numbers[2:]))], number, written, met


# --- bursts -----------------------------------------------------------------------------------


LIST_ROOM = 4 * 4 * (2 * burst_lists.MOST + 1)  # bytes: twice the longest list, and a burst behind it


def some_slots(dice):
    """How many slots a zone has, most often few."""
    return dice.choice([1, 2] + [1 + dice.randrange(20)] * 14 + [ref.SLOTS, 1 + dice.randrange(ref.SLOTS)])


def other_mode(dice, good, limit):
    """As beyond, and often PUSC uplink, which no plan has."""
    return dice.choice([ref.PUSC_UL, beyond(dice, good, limit)])


def other_slots(dice, good, limit):
    return dice.choice([0, beyond(dice, good, limit)])


def about_a_burst(dice, numbers, limits):
    """A slot and a subchannel, each an end of a burst or next to it, within the limits."""
    bursts = ref.bursts_of(numbers)
    subchannel, many, slot, slots = dice.choice([bursts[0], bursts[-1], dice.choice(bursts)])
    places = [slot, slot + slots], [subchannel, subchannel + many]
    return [
        min(limit - 1, max(0, dice.choice([first, end - 1, dice.choice([first - 1, end])])))
        for (first, end), limit in zip(places, limits)
    ]


def zone_masks_met(fields, number):
    """As masks_met, of a call whose first fields are a zone's: mode, size, cell, slots and mask."""
    return masks_met(fields[:3] + fields[4:], number)


class BurstsCheck:
    """The list lies last, so that its length can be one past 32 bits. Behind it stand words that would be a burst."""

    OTHERS = {0: other_mode, 1: other_size, 3: other_slots, 4: other_mask}
    COUNTS = [("accepted", count) for count in (0, 1, 2, 63, 64)]
    LISTS = [(kind, number) for kind, (_, met) in burst_lists.KINDS.items() for number in met] + [("not fours", 18)]
    ZONES = [case for case in MASKS if case[0] in ref.PLAN_MODES]
    name, arena, asked = "bp_bursts_check", Arena(LIST_ROOM), 0  # asked: how many of slot and subchannel it has
    refusals, cases = [1, 2, 3, 13, 17, 18, 19], ZONES + LISTS + COUNTS

    def request(self, dice, noise, mode, size, cell, mask, slot):
        slots, subchannels = some_slots(dice), ref.subchannels(mode, size)
        kind, numbers = burst_lists.some_list(dice, (subchannels, slots))
        asked = [dice.choice([within(dice, slots), slot]), within(dice, subchannels)]
        if len(numbers) >= 4 and dice.randrange(2):
            asked = about_a_burst(dice, numbers[: len(numbers) // 4 * 4], [ref.SLOTS, subchannels])
        limits = setup_limits(mode, size) + [ref.SLOTS + 1, 0, ref.SLOTS, subchannels]
        fields = spoiled(dice, ([mode, size, cell, slots, mask] + asked)[: 5 + self.asked], limits, self.OTHERS)
        given, length = words(numbers + [0, 1, 0, 1]), len(numbers)
        if lent.HAS_LONG and dice.randrange(20) == 0:
            # Too long, whatever it holds and though its lowest 32 bits are not.
            length += lent.LONG
            kind, numbers = "long", range(length)
        number, written, met = self.answer(fields, numbers)
        *outs, last = map(self.arena.address, range(len(self.arena.at)))
        met = met + zone_masks_met(fields, number) + [(kind, number)] + [("accepted", length // 4)] * (number == 0)
        return fields + [pointer(dice, last, length), length] + outs, [(len(outs), given)], number, written, met

    def answer(self, fields, numbers):
        """The refusal, what is written, and the cases that the list's kind does not tell."""
        return ref.bursts_check(*fields, numbers), [], []


class BurstOwner(BurstsCheck):
    name, arena, asked = "bp_burst_owner", Arena(4, 4, LIST_ROOM), 2
    refusals = [1, 2, 3, 13, 17, 4, 5, 18, 19]
    # Of an owner: none or one, in a slot of the zone or past it, of a lit subchannel or not; and the last of a full list.
    FOUND = [("none", True, True), ("none", True, False), ("none", False, True), ("one", True, True), ("one", True, False)]
    cases = BurstsCheck.cases + FOUND + ["last of 64"]

    def answer(self, fields, numbers):
        number, owner, looked = ref.burst_owner(*fields, numbers)
        if number:
            return number, [], []
        mode, size, _, slots, mask, slot, subchannel = fields
        lit = subchannel in ref.lit_subchannels(mode, size, mask)
        met = [("none" if owner == ref.NO_BURST else "one", slot < slots, lit)] + ["last of 64"] * (owner == 63)
        return 0, [(0, words([owner])), (1, words([looked]))], met


class BurstOwners(BurstsCheck):
    name, arena, asked = "bp_burst_owners", Arena(ref.ROW, LIST_ROOM), 1
    refusals = [1, 2, 3, 13, 17, 4, 18, 19]
    cases = BurstsCheck.cases + ["past", "some none", "all owned"]

    def answer(self, fields, numbers):
        number, owners = ref.burst_owners(*fields, numbers)
        if number:
            return number, [], []
        own = owners[: ref.subchannels(*fields[:2])]
        met = "past" if fields[5] >= fields[3] else "some none" if ref.NO_BURST in own else "all owned"
        return 0, [(0, bytes(owners))], [met]


MAP_CALLS = [Place, Places, Locate, PointsLen, LitPointsLen, GridLen, Ground, Lay, Slot, Empty, EmptyFirst, Look]
CALLS = MAP_CALLS + [OfuscCollisions, AmcCollisions, PlanRead, PlanWrite, BurstsCheck, BurstOwner, BurstOwners]


# --- the run ----------------------------------------------------------------------------------


class Tally:
    """What was met in the requests of one call."""

    def __init__(self, call):
        self.call, self.numbers, self.met = call(), Counter(), set()
        self.a_round = getattr(call, "a_round", ROUND)

    def add(self, number, met):
        self.numbers[number] += 1
        self.met.update(met)

    def text(self):
        answers = ", ".join("%d: %d" % (n, self.numbers[n]) for n in sorted(self.numbers))
        return "%-20s %d requests; answers %s" % (self.call.name, sum(self.numbers.values()), answers)

    def missing(self):
        """The answers and the cases that never occurred."""
        answers = [number for number in [0] + self.call.refusals if number not in self.numbers]
        return answers + [case for case in self.call.cases if case not in self.met]


def put(library, dice, noise, tally, setup):
    """One request; ends the test where the engine does otherwise than the reference."""
    call = tally.call
    arguments, given, number, written, met = call.request(dice, noise, *setup)
    contents = noise.run(dice, call.arena.size)
    function = getattr(library, call.name)
    difference = call.arena.difference(contents, function, arguments, given, number, written)
    if difference:
        short = [data.hex(" ") for _, data in given if len(data) <= 4 * 256]
        sys.exit("%s %s; arguments %s, given %s" % (call.name, difference, arguments, short))
    tally.add(number, met)


def main():
    seed = int(sys.argv[1]) if len(sys.argv) > 1 else SEED
    print("random requests: seed %d" % seed)
    if not lent.HAS_LONG:
        print("lengths past 32 bits are left out: no address space for them here")
    library, dice = lent.load(), random.Random(seed)
    library.ground_and_lays = partial(ground_and_lays, library)
    noise = lent.Noise(dice)
    tallies = [Tally(call) for call in CALLS]
    for mode, size, mask in TURNS:
        Lent.next_turn(dice)
        setup = mode, size, within(dice, ref.cells(mode, size)), mask, within(dice, ref.SLOTS)
        for tally in tallies:
            for _ in range(tally.a_round):
                put(library, dice, noise, tally, setup)
    for tally in tallies:
        print(tally.text())
        if sum(tally.numbers.values()) < len(TURNS) * tally.a_round or tally.missing():
            sys.exit("%s: too few requests, or never met: %s" % (tally.call.name, tally.missing()))
    print("random requests: all agree with the reference")


if __name__ == "__main__":
    main()
