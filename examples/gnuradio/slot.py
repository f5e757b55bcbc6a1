#!/usr/bin/env python3
"""Slots in GNU Radio's OFDM blocks, held to the engine: the carrier allocator lays a slot's points, the serializer
takes them off again.

    PYTHONPATH=python python3 examples/gnuradio/slot.py

Both blocks take a list of carriers for each symbol, counted from DC as the engine counts them, and go through a stream
of points in the order of the lists. The engine has a slot's points by subchannel and index; so they are streamed by
symbol, those of one symbol in their own order. A frame's vectors are the rows of the slot's grid as they stand, with DC
in the middle, which the blocks call shifted; `fft.fft_vcc` takes them so with `shift` set.

It prints a line a slot and ends with status 1 where a grid or points differ.
"""

import sys
from typing import Dict, NamedTuple, Optional, Sequence

import bellpulsar
import numpy
from bellpulsar import arrays
from gnuradio import blocks, digital, gr

PILOT = 1.5 - 0.5j
LENGTH_TAG = "packet_len"  # says to both blocks how many items of a stream belong together


class Slot(NamedTuple):
    mode: int
    size: int
    cell: int
    slot: int
    mask: Optional[int] = None  # None: all is lit
    pilots: Optional[Sequence[int]] = None  # of FUSC: the used numbers of its 166 pilots

    def lent(self) -> Dict[str, object]:
        """What the calls about a slot take by name."""
        return {"mask": self.mask, "pilots": self.pilots}

    def __str__(self):
        mask = "" if self.mask is None else " mask %d" % self.mask
        return "mode %d size %d cell %d%s slot %d" % (self.mode, self.size, self.cell, mask, self.slot)


SLOTS = (
    Slot(bellpulsar.PUSC_DL, 2048, 5, 3),
    Slot(bellpulsar.PUSC_DL, 2048, 5, 3, mask=0b000011),  # a sector that lights major groups 0 and 1
    Slot(bellpulsar.PUSC_UL, 2048, 69, 511),
    Slot(bellpulsar.OFUSC, 1024, 17, 1),
    Slot(bellpulsar.AMC, 512, 7, 9),
    Slot(bellpulsar.AMC_2X3, 256, 176, 1),
    Slot(bellpulsar.AMC_3X2, 1024, 2351, 2),
    Slot(bellpulsar.AMC_1X6, 2048, 48, 0),
    Slot(bellpulsar.FUSC, 2048, 5, 3, pilots=range(26, 1677, 10)),  # made up: every tenth used number
)


def by_symbol(places, grid):
    """The order in which the slot's points stream, and the carriers that they then have in each symbol."""
    symbols, size = grid.shape
    order = numpy.argsort(places // size, kind="stable")
    rows, columns = numpy.divmod(places[order], size)
    return order, [(columns[rows == row] - size // 2).tolist() for row in range(symbols)]


def pilots_by_symbol(at, grid):
    """The carriers of the lit pilots, which are all that a ground holds beside zeros."""
    bellpulsar.ground(*at[:4], PILOT, grid, **at.lent())
    return [(numpy.flatnonzero(row) - at.size // 2).tolist() for row in grid]


def passed(items, block, shape):
    """What a block makes of one packet, a row an item; the shape is that of what comes out."""
    (length, width), (out_length, out_width) = items.shape, shape
    source = blocks.vector_source_c(items.ravel().tolist(), False, width)
    tagged = blocks.stream_to_tagged_stream(gr.sizeof_gr_complex, width, length, LENGTH_TAG)
    sink = blocks.vector_sink_c(out_width)
    tagged.set_min_output_buffer(2 * length)  # both blocks take and give a packet whole
    block.set_min_output_buffer(2 * out_length)
    graph = gr.top_block()
    graph.connect(source, tagged, block, sink)
    graph.run()
    return numpy.array(sink.data(), numpy.complex64)


def differences(at, points, grid):
    """What GNU Radio and the engine make of a slot otherwise, by name."""
    order, carriers = by_symbol(arrays.slot_places(*at[:4], **at.lent()).ravel(), grid)
    pilots = pilots_by_symbol(at, grid)
    pilot_points = [[PILOT] * len(row) for row in pilots]
    allocator = digital.ofdm_carrier_allocator_cvc(at.size, carriers, pilots, pilot_points, [], LENGTH_TAG)
    serializer = digital.ofdm_serializer_vcc(at.size, carriers, LENGTH_TAG)

    streamed, emptied = points[order].reshape(-1, 1), numpy.zeros_like(points)  # a stream's items are single points
    bellpulsar.fill(*at[:4], PILOT, points, grid, **at.lent())
    bellpulsar.empty(*at[:4], grid, emptied, **at.lent())
    pairs = {
        "grid": (passed(streamed, allocator, grid.shape), grid),
        "points": (passed(grid, serializer, streamed.shape), emptied[order]),
    }
    return [name for name, (theirs, ours) in pairs.items() if theirs.tobytes() != ours.tobytes()]


def main():
    gr.logging().set_default_level(gr.log_levels.warn)
    status = 0
    for at in SLOTS:
        count = bellpulsar.lit_points_len(at.mode, at.size, at.mask) // 2
        points = numpy.arange(1, count + 1, dtype=numpy.complex64) * numpy.complex64(1 - 1j)
        grid = numpy.zeros((bellpulsar.grid_len(at.mode, at.size) // 2 // at.size, at.size), numpy.complex64)
        differing = differences(at, points, grid)
        status = 1 if differing else status
        told = "different " + " and ".join(differing) if differing else "grid and points agree"
        print("%s: %d points, %s" % (at, count, told), flush=True)
    return status


if __name__ == "__main__":
    sys.exit(main())
