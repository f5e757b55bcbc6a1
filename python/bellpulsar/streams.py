"""Slots from file to file: points filled into grids, and grids emptied into points.

The files are raw complex 32-bit floats, slot after slot. A block has places for many slots, and the calls for each of
its places are prepared once, since making a call's arguments takes longer than the call. Slots that agree mod 3 have
their points and their pilots on the same carriers, in every mode, under one list of pilots in FUSC; so the places are
of slots 0, 1 and 2, again and again, and a slot comes into any place of its like.
"""

import contextlib
import ctypes
import itertools
import os
import stat
import sys
import time
from array import array

import bellpulsar
from bellpulsar.buffers import FLOAT
from bellpulsar.files import STANDARD, named, reading, writing
from bellpulsar.library import engine, listed, uint
from bellpulsar.refusals import POINTS, SLOTS
from bellpulsar.rows import check_slot, lit_subchannels

BLOCK = 2**17  # bytes of grids, about
LIKES = 3  # slots, of which one is like any other


# --- a block ----------------------------------------------------------------------------------


def unchecked(call):
    """A call that takes prepared arguments, as they are. It keeps the interpreter's lock, which nobody else wants."""
    return ctypes.PYFUNCTYPE(uint)(ctypes.cast(call, ctypes.c_void_p).value)


def do_all(call, prepared):
    """Calls that cannot be refused: their questions were put before."""
    if any(itertools.starmap(call, prepared)):
        raise RuntimeError("the engine refused a slot that it had accepted")


class Memory:
    """The points or the grids of a block's places, so many floats each."""

    def __init__(self, places, floats):
        whole = array("f", [0.0]) * (places * floats)
        self.bytes, self.address = memoryview(whole).cast("B"), whole.buffer_info()[0]
        self.each = floats * FLOAT.bytes  # bytes
        self.length = ctypes.c_size_t.from_param(floats)

    def of(self, first, count):
        """The bytes of so many places."""
        return self.bytes[first * self.each : (first + count) * self.each]

    def at(self, place, start=0):
        """An argument: where a place's floats are, from `start` on."""
        return ctypes.c_void_p.from_param(self.address + place * self.each + start * FLOAT.bytes)


class Block:
    """Some places, as many as there are of slots 0, 1 and 2, with their points and their grids."""

    def __init__(self, options):
        mode, size, cell = options.mode, options.size, options.cell
        mask = bellpulsar._mask(mode, options.mask)
        grid_len = bellpulsar.grid_len(mode, size)
        self.places = LIKES * max(1, BLOCK // (LIKES * FLOAT.bytes * grid_len))
        self.slots = [[uint.from_param(field) for field in (mode, size, cell, mask, slot)] for slot in range(LIKES)]
        row = listed(options.pilots)
        self.pilots = ctypes.c_void_p.from_param(row.memory), ctypes.c_size_t.from_param(row.length)
        self.points = Memory(self.places, bellpulsar.lit_points_len(mode, size, mask))
        self.grids = Memory(self.places, grid_len)

    def grid(self, place):
        return self.grids.at(place), self.grids.length


class Filling(Block):
    """Every place has its ground, which no lay changes."""

    def __init__(self, options):
        super().__init__(options)
        self.source, self.target, self.call = self.points, self.grids, unchecked(engine.bp_lay)
        lit = lit_subchannels(options.mode, options.size, options.mask)
        lit = [uint.from_param(subchannel) for subchannel in lit]
        self.prepared = [list(self.lays(place, lit)) for place in range(self.places)]
        do_all(unchecked(engine.bp_ground), [self.ground(place, options.pilot) for place in range(self.places)])

    def ground(self, place, pilot):
        return (*self.slots[place % LIKES], *self.pilots, pilot, *self.grid(place))

    def lays(self, place, lit):
        slot, grid, own = self.slots[place % LIKES], self.grid(place), ctypes.c_size_t.from_param(2 * POINTS)
        for rank, subchannel in enumerate(lit):
            yield (*slot, subchannel, *self.pilots, self.points.at(place, 2 * POINTS * rank), own, *grid)


class Emptying(Block):
    def __init__(self, options):
        super().__init__(options)
        self.source, self.target, self.call = self.grids, self.points, unchecked(engine.bp_empty)
        self.prepared = [[self.empty(place)] for place in range(self.places)]

    def empty(self, place):
        slot = (*self.slots[place % LIKES], *self.pilots)
        return (*slot, *self.grid(place), self.points.at(place), self.points.length)


# --- from file to file ------------------------------------------------------------------------


class Progress:
    """A line on standard error that is written over and over, where that is a terminal and the work takes long."""

    PATIENCE, PAUSE, WIDTH = 0.5, 0.1, 40  # seconds before the first time and between two; characters of the bar

    def __init__(self, total):
        self.total, self.is_shown = total, False
        is_seen = sys.stderr is not None and sys.stderr.isatty()
        self.next = time.monotonic() + self.PATIENCE if is_seen else float("inf")

    def show(self, text):
        with contextlib.suppress(OSError):
            sys.stderr.write(text)
            sys.stderr.flush()

    def line(self, done):
        if not self.total or done > self.total:
            return "%d slots" % done
        bar = "#" * (self.WIDTH * done // self.total)
        return "[%-*s] %d of %d slots" % (self.WIDTH, bar, done, self.total)

    def at(self, done):
        if time.monotonic() >= self.next:
            self.show("\r" + self.line(done))
            self.next, self.is_shown = time.monotonic() + self.PAUSE, True

    def end(self):
        if self.is_shown:
            self.show("\r\x1b[K")


def check_slots(options):
    """The slots of a frame. Refusals 1, 2, 3, 17, 4, 20."""
    setup, first = (options.mode, options.size, options.cell), options.slot
    check_slot(*setup, first, options.mask, options.pilots)
    slots = range(first, SLOTS if options.slots is None else first + options.slots)
    check_slot(*setup, slots[-1], options.mask, options.pilots)
    return slots


def runs_of(slots, places):
    """For the slots of one frame after the other, which places they take: (first, how many), again and again."""
    for slots in itertools.repeat(slots):
        while slots:
            first = slots[0] % LIKES
            count = min(len(slots), places - first)
            yield first, count
            slots = slots[count:]


def known_bytes(source):
    """How many of a file are still to be read; 0 of what is no file, and brings any number."""
    status = os.fstat(source)
    return max(0, status.st_size - os.lseek(source, 0, os.SEEK_CUR)) if stat.S_ISREG(status.st_mode) else 0


def check_apart(source, target):
    """What is written as it comes must not come into the file that is read."""
    here, there = os.fstat(source), os.fstat(target.fileno())
    if stat.S_ISREG(here.st_mode) and os.path.samestat(here, there):
        raise OSError("input and output are the same file")


def check_whole(path, rest, each):
    """Of the bytes behind the last whole slot."""
    if rest:
        name = "standard input" if path == STANDARD else path
        raise OSError("%s: the last slot has %d bytes, not %d" % (name, rest, each))


def arrivals(path, source, memory, runs):
    """The places that have been read, (first, how many), as soon as a slot or more has arrived."""
    filled = 0
    for first, count in runs:
        while count:
            with named(path):
                got = os.readv(source, [memory.of(first, count)[filled:]])
            if not got:
                return check_whole(path, filled, memory.each)
            whole, filled = divmod(filled + got, memory.each)
            if whole:
                yield first, whole
            first, count = first + whole, count - whole


def work_through(path, source, target, block, slots, progress):
    done = 0
    for first, count in arrivals(path, source, block.source, runs_of(slots, block.places)):
        do_all(block.call, itertools.chain.from_iterable(block.prepared[first : first + count]))
        target.write(block.target.of(first, count))
        target.flush()
        done += count
        progress.at(done)


def from_file_to_file(kind, options):
    slots = check_slots(options)
    block = kind(options)
    with reading(options.source) as source:
        known = known_bytes(source)
        check_whole(options.source, known % block.source.each, block.source.each)
        progress = Progress(known // block.source.each)
        with writing(options.target) as target:
            check_apart(source, target)
            try:
                work_through(options.source, source, target, block, slots, progress)
            finally:
                progress.end()
    return ""


def fill(options):
    return from_file_to_file(Filling, options)


def empty(options):
    return from_file_to_file(Emptying, options)
