"""Slots as numpy arrays: points and grids of complex64, in and out. This module alone needs numpy.

A slot's points are an array of (lit subchannels, 48), its grid one of (symbols, size), each symbol by rising carrier:

    >>> import numpy
    >>> from bellpulsar import Mode, arrays
    >>> points = numpy.arange(16 * 48, dtype=numpy.float32).reshape(16, 48) * numpy.complex64(1 - 1j)
    >>> grid = arrays.fill(Mode.OFUSC, 1024, 17, 0, 1 + 0j, points)
    >>> grid.shape, grid.dtype
    ((1, 1024), dtype('complex64'))
    >>> numpy.array_equal(arrays.empty(Mode.OFUSC, 1024, 17, 0, grid), points)
    True

`slot_places` is a table for who fills and empties many slots. Indexed with it, the carriers of a slot in a row are the
points that `empty` gives, and what is assigned there is laid, at the speed of memory:

    >>> places = arrays.slot_places(Mode.OFUSC, 1024, 17, 0)
    >>> carriers = grid.reshape(-1)  # a view of the grid
    >>> numpy.array_equal(carriers[places], points)
    True
    >>> carriers[places] = 2 * points
    >>> numpy.array_equal(arrays.empty(Mode.OFUSC, 1024, 17, 0, grid), 2 * points)
    True

It serves every slot of its cell whose pilots are on the same carriers: all slots in modes 0, 1, 4 and 6, those that
agree mod 3 in modes 2, 3 and 5, those with the same list of pilots in mode 7. Here it takes the lit points of all
twelve slots of a zone at once:

    >>> zone = numpy.zeros((12, 2, 2048), numpy.complex64)
    >>> places = arrays.slot_places(Mode.PUSC_DL, 2048, 5, 0, mask=0b000011)
    >>> zone.reshape(12, -1)[:, places].shape
    (12, 20, 48)

In FUSC, mode 7, the pilots are a list of the caller's, which every function takes as `bellpulsar.place` does:

    >>> pilots = numpy.arange(26, 1677, 10)
    >>> points = numpy.ones((32, 48), numpy.complex64)
    >>> grid = arrays.fill(Mode.FUSC, 2048, 5, 0, 2 + 0j, points, pilots=pilots)
    >>> numpy.array_equal(numpy.flatnonzero(grid == 2) - 1024, numpy.where(pilots < 851, pilots - 851, pilots - 850))
    True
    >>> numpy.array_equal(arrays.empty(Mode.FUSC, 2048, 5, 0, grid, pilots=pilots), points)
    True

What is taken. Points and grids are arrays of complex64, or of a type that it holds without rounding (float32, or
integers of 16 bits), in any memory order; they are copied only where they are not contiguous complex64 already. Nothing
is rounded: complex128, which numpy.fft gives, is a TypeError, and astype(numpy.complex64) rounds it where that is
meant. An array has one dimension, or rows: of 48 points, or in a grid of as many carriers as the size; other rows are a
ValueError. How many points there are is the engine's question, 8 or 9. The pilot is as in `bellpulsar.ground`.
"""

import operator
from typing import Any, Optional

import bellpulsar

from .buffers import Pilot
from .library import Int, Mask, Pilots
from .refusals import POINTS

try:
    import numpy
    from numpy.typing import NDArray
except ImportError as error:
    raise ImportError("bellpulsar.arrays needs numpy, 1.21 or later (bellpulsar itself does not): %s" % error) from None

__all__ = ["slot_places", "fill", "empty", "empty_first"]

Array = NDArray[Any]
Complex = NDArray[numpy.complex64]


def _taken(given: Array, name: str, across: int) -> Complex:
    """An array as the engine takes it: the same memory where that is contiguous complex64."""
    points = numpy.asarray(given)
    if not numpy.can_cast(points.dtype, numpy.complex64):
        rounds = "%s: complex64 is needed, or what it holds without rounding, not %s; astype(numpy.complex64) rounds"
        raise TypeError(rounds % (name, points.dtype))
    if points.ndim > 1 and points.shape[-1] != across:
        raise ValueError("%s: rows of %d are needed, not of %d" % (name, across, points.shape[-1]))
    return numpy.require(points, numpy.complex64, ["C_CONTIGUOUS", "ALIGNED"])


def _lit(mode: Int, size: Int, mask: Mask) -> int:
    """How many subchannels are lit."""
    return bellpulsar.lit_points_len(mode, size, mask) // (2 * POINTS)


def slot_places(
    mode: Int, size: Int, cell: Int, slot: Int, *, mask: Mask = None, pilots: Pilots = None
) -> NDArray[numpy.intp]:
    """Where the points of a slot stand among all carriers of its grid in a row, as an array of (lit subchannels, 48).
    Refusals 1, 2, 3, 17, 4, 20."""
    places = bellpulsar.slot_places(mode, size, cell, slot, mask=mask, pilots=pilots)
    return numpy.array(places, numpy.intp).reshape(-1, POINTS)


def fill(
    mode: Int,
    size: Int,
    cell: Int,
    slot: Int,
    pilot: Pilot,
    points: Array,
    *,
    mask: Mask = None,
    pilots: Pilots = None,
) -> Complex:
    """A new grid of (symbols, size): the points on lit data carriers, the pilot on lit pilots, 0 on all else.
    Refusals 1, 2, 3, 17, 4, 20, 8."""
    source = _taken(points, "points", POINTS)
    grid = numpy.empty(bellpulsar.grid_len(mode, size) // 2, numpy.complex64)
    bellpulsar.fill(mode, size, cell, slot, pilot, source, grid, mask=mask, pilots=pilots)
    return grid.reshape(-1, operator.index(size))


def empty(
    mode: Int, size: Int, cell: Int, slot: Int, grid: Array, *, mask: Mask = None, pilots: Pilots = None
) -> Complex:
    """The points that stand on a grid, as a new array of (lit subchannels, 48). Refusals 1, 2, 3, 17, 4, 20, 9."""
    source = _taken(grid, "grid", operator.index(size))
    points = numpy.empty((_lit(mode, size, mask), POINTS), numpy.complex64)
    bellpulsar.empty(mode, size, cell, slot, source, points, mask=mask, pilots=pilots)
    return points


def empty_first(
    mode: Int,
    size: Int,
    cell: Int,
    slot: Int,
    carriers: Int,
    grid: Array,
    points: Optional[Complex] = None,
    *,
    mask: Mask = None,
    pilots: Pilots = None,
) -> Complex:
    """The points that stand on the first `carriers` carriers of a grid, as `bellpulsar.empty_first` counts them.

    points: what the last call gave, to be written to and given again as more of the grid arrives, contiguous and of
    complex64. Without it they are new, (lit subchannels, 48), with nan for every point that has not arrived.
    Refusals 1, 2, 3, 17, 4, 20, 8, 9.
    """
    source = _taken(grid, "grid", operator.index(size))
    if points is None:
        nothing = complex(numpy.nan, numpy.nan)
        points = numpy.full((_lit(mode, size, mask), POINTS), nothing, numpy.complex64)
    bellpulsar.empty_first(mode, size, cell, slot, carriers, source, points, mask=mask, pilots=pilots)
    return points
