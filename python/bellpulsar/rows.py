"""What the carriers of a symbol are, which are lit, whose points stand on the first of a slot's, and where a zone's
bursts are, from the library's answers alone."""

import itertools
from array import array
from typing import NamedTuple

import bellpulsar
from bellpulsar import Kind, Located, Refusal
from bellpulsar.refusals import POINTS, carriers_of


PILOTS_REFUSED = 20  # the number of the question that follows the one about a subchannel


class Carrier(NamedTuple):
    """Guards and DC are never lit. Only lit data is awaited, where its point has not arrived."""

    what: Located
    lit: bool
    awaited: bool = False


def is_unlit(carrier):
    """Whether it is a pilot or data carrier that is not lit."""
    return not carrier.lit and carrier.what.kind in (Kind.PILOT, Kind.DATA)


def blank_grid(mode, size):
    return array("f", [0.0]) * bellpulsar.grid_len(mode, size)


def check_symbol(mode, size, cell, symbol, subchannel, mask, pilots):
    """Puts the questions of a symbol, and of a subchannel that is picked out, where one is. Refusals 1, 2, 3, 17, 4, 5,
    20."""
    try:
        bellpulsar.look(mode, size, cell, symbol, blank_grid(mode, size), 0, mask=mask, pilots=pilots)
    except Refusal as refusal:
        if refusal.number != PILOTS_REFUSED:
            raise
    check_picked(mode, size, cell, 0, subchannel, mask, pilots)
    check_slot(mode, size, cell, 0, mask, pilots)


def symbol_row(mode, size, cell, symbol, mask, pilots):
    """The carriers of a symbol of the zone, rising; its questions are put before."""
    grid, row = blank_grid(mode, size), []
    for carrier in carriers_of(size):
        seen = bellpulsar.look(mode, size, cell, symbol, grid, carrier, mask=mask, pilots=pilots)
        what = bellpulsar.locate(mode, size, cell, symbol, carrier, pilots=pilots)
        row.append(Carrier(what, seen.kind is not Kind.NOTHING))
    return row


def check_slot(mode, size, cell, slot, mask, pilots):
    """Puts the questions of a slot. Refusals 1, 2, 3, 17, 4, 20."""
    bellpulsar.ground(mode, size, cell, slot, (0.0, 0.0), blank_grid(mode, size), mask=mask, pilots=pilots)


def check_picked(mode, size, cell, slot, subchannel, mask, pilots):
    """Puts the questions of a subchannel that is picked out of a slot, where one is. Refusals 1, 2, 3, 17, 4, 5, 20."""
    if subchannel is not None:
        none = array("f", [0.0]) * (2 * POINTS)
        bellpulsar.lay(mode, size, cell, slot, subchannel, none, blank_grid(mode, size), mask=mask, pilots=pilots)


def subchannels_of(mode, size):
    """How many a slot has, lit or not."""
    return bellpulsar.points_len(mode, size) // (2 * POINTS)


def lit_subchannels(mode, size, mask):
    """Those whose points a slot has, rising."""
    return bellpulsar._lit(mode, size, bellpulsar._mask(mode, mask))


NOT_YET = -1  # the place of a point that has not arrived


def arrived(mode, size, cell, slot, carriers, mask, pilots):
    """Of each point of a slot, by lit subchannel and index, its place in the grid where that is one of the first
    `carriers`, else NOT_YET. Refusals 1, 2, 3, 17, 4, 20."""
    places = range(bellpulsar.grid_len(mode, size) // 2)
    grid = array("f", [part for place in places for part in (place, place)])
    points = array("f", [NOT_YET]) * bellpulsar.lit_points_len(mode, size, mask)
    bellpulsar.empty_first(mode, size, cell, slot, carriers, grid, points, mask=mask, pilots=pilots)
    return list(map(int, points[::2]))


def awaiting(rows, places):
    """The rows of a slot's symbols, with all points awaited but those that have arrived on these places of its grid."""
    size, there = len(rows[0]), set(places)

    def at(place, carrier):
        return carrier._replace(awaited=carrier.lit and carrier.what.kind is Kind.DATA and place not in there)

    return [[at(*numbered) for numbered in enumerate(row, size * offset)] for offset, row in enumerate(rows)]


def runs(things):
    """(thing, first, length) of each run of one thing."""
    at = 0
    for thing, members in itertools.groupby(things):
        length = len(list(members))
        yield thing, at, length
        at += length


def burst_boxes(mode, size, cell, slots, bursts, mask):
    """Where each burst of a list is, as a Burst, from the owners of every slot. Refusals 1, 2, 3, 13, 17, 18, 19."""
    bellpulsar.bursts_check(mode, size, cell, slots, bursts, mask=mask)
    across, down = {}, {}  # the slots and the subchannels of each burst
    for slot in range(slots):
        row = bellpulsar.burst_owners(mode, size, cell, slots, slot, bursts, mask=mask)
        for burst, first, length in runs(row):
            across.setdefault(burst, set()).add(slot)
            down.setdefault(burst, set()).update(range(first, first + length))
    return [bellpulsar.Burst(*extent(down[burst]), *extent(across[burst])) for burst in range(len(bursts))]


def extent(numbers):
    """The first of them, and how many there are up to the last."""
    return min(numbers), max(numbers) - min(numbers) + 1
