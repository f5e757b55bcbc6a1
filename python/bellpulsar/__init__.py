"""Bellpulsar from Python: the subcarrier map of IEEE 802.16e OFDMA, proved.

A first example (after `pip install` of a release's wheel, or in a clone of `.`; or there, after ./build.sh, with
PYTHONPATH=python):

    >>> import bellpulsar
    >>> bellpulsar.place(mode=2, size=1024, cell=17, slot=0, subchannel=0, index=0)
    Place(symbol=0, carrier=-425)
    >>> bellpulsar.locate(mode=2, size=1024, cell=17, symbol=0, carrier=-425)
    Located(kind=<Kind.DATA: 'data'>, slot=0, subchannel=0, index=0)
    >>> bellpulsar.place(mode=2, size=1024, cell=256, slot=0, subchannel=0, index=0)
    Traceback (most recent call last):
        ...
    bellpulsar.Refusal: refused 3: cell 256 is not one of mode 2's at size 1024: 0 to 255

A slot's grid is filled in two moves: the ground, which is pilots and zeros, and then the points of each subchannel, in
any order, and again where they change. Here all of them are taken off again:

    >>> from array import array
    >>> points = array("f", range(bellpulsar.points_len(2, 1024)))
    >>> grid = array("f", [0.0]) * bellpulsar.grid_len(2, 1024)
    >>> bellpulsar.ground(2, 1024, 17, 0, (1.0, 0.0), grid)
    >>> for subchannel in range(16):
    ...     own = memoryview(points)[96 * subchannel : 96 * (subchannel + 1)]
    ...     bellpulsar.lay(2, 1024, 17, 0, subchannel, own, grid)
    >>> at = 2 * (1024 // 2 - 425)  # a row starts with the lowest carrier, -512
    >>> grid[at : at + 2]
    array('f', [0.0, 1.0])
    >>> again = array("f", [0.0]) * len(points)
    >>> bellpulsar.empty(2, 1024, 17, 0, grid, again)
    >>> again == points
    True

While a capture still delivers the grid, `empty_first` takes the points off the carriers that have arrived, counted from
the grid's start. Called again with a larger count, it leaves what the last call alone would have given:

    >>> arrived = array("f", [-1.0]) * len(points)
    >>> bellpulsar.empty_first(2, 1024, 17, 0, 512, grid, arrived)  # those below DC
    >>> (len(arrived) - arrived.count(-1.0)) // 2
    384
    >>> bellpulsar.empty_first(2, 1024, 17, 0, 1024, grid, arrived)
    >>> arrived == points
    True

`slot_places` tells where all of them stand in a slot's grid, for a table that is kept and copied through:

    >>> places = bellpulsar.slot_places(2, 1024, 17, 0)
    >>> all(grid[2 * place] == points[2 * n] for n, place in enumerate(places))
    True

bellpulsar.arrays, which needs numpy, has the same as an array to index a grid with, and fills and empties with arrays
of complex64.

`fill` makes both moves, with the points of a whole slot. A sector of PUSC downlink that lights only some of the six
major groups gives a mask, bit g for group g. Here groups 0 and 1 are lit, which have subchannels 0 to 19:

    >>> points = array("f", range(bellpulsar.lit_points_len(0, 2048, mask=0b000011)))
    >>> len(points) // 96
    20
    >>> grid = array("f", [0.0]) * bellpulsar.grid_len(0, 2048)
    >>> bellpulsar.fill(0, 2048, 5, 3, (1.0, 0.0), points, grid, mask=0b000011)
    >>> bellpulsar.look(0, 2048, 5, 6, grid, -71, mask=0b000011)
    Seen(kind=<Kind.DATA: 'data'>, point=Point(i=0.0, q=1.0), slot=3, subchannel=0, index=0)
    >>> bellpulsar.look(0, 2048, 5, 6, grid, 254, mask=0b000011)  # of subchannel 59, which is unlit
    Seen(kind=<Kind.NOTHING: 'nothing'>, point=None, slot=None, subchannel=None, index=None)

A burst, or data region, is a rectangle of subchannels by slots in one zone of a plan: its first subchannel and how
many, its first slot and how many. In a list of them that is accepted, 64 at most, a subchannel in a slot is of one
burst at most, its owner:

    >>> bursts = [(0, 20, 0, 12), (20, 30, 0, 6)]
    >>> bellpulsar.bursts_check(0, 2048, 5, 12, bursts)
    >>> bellpulsar.burst_owner(0, 2048, 5, 12, slot=3, subchannel=25, bursts=bursts)
    Owner(burst=1, looked=2)
    >>> bellpulsar.burst_owner(0, 2048, 5, 12, slot=6, subchannel=25, bursts=bursts)
    Owner(burst=None, looked=2)
    >>> bellpulsar.burst_owners(0, 2048, 5, 12, slot=3, bursts=bursts)[18:22]
    (0, 0, 1, 1)
    >>> bellpulsar.bursts_check(0, 2048, 5, 12, [*bursts, (49, 1, 5, 7)])
    Traceback (most recent call last):
        ...
    bellpulsar.Refusal: refused 19: burst 2 is 49,1,5,7: it overlaps burst 1, which is 20,30,0,6

In FUSC, mode 7, the caller says where the pilots are: `pilots` has the used numbers of the 166 pilots of the slot's one
symbol, rising, and data takes what is left. Used number u is carrier u - 851 below 851, and u - 850 from there on. Here
they are every tenth:

    >>> pilots = range(26, 1677, 10)
    >>> len(pilots)
    166
    >>> bellpulsar.place(7, 2048, cell=0, slot=0, subchannel=31, index=46, pilots=pilots)
    Place(symbol=0, carrier=-217)
    >>> bellpulsar.locate(7, 2048, 0, 0, 26 - 851, pilots=pilots).kind
    <Kind.PILOT: 'pilot'>
    >>> points = array("f", range(bellpulsar.points_len(7, 2048)))
    >>> grid = array("f", [0.0]) * bellpulsar.grid_len(7, 2048)
    >>> bellpulsar.fill(7, 2048, 0, 0, (1.0, 0.0), points, grid, pilots=pilots)
    >>> bellpulsar.look(7, 2048, 0, 0, grid, -217, pilots=pilots)
    Seen(kind=<Kind.DATA: 'data'>, point=Point(i=3068.0, q=3069.0), slot=0, subchannel=31, index=46)
    >>> bellpulsar.place(7, 2048, 0, 0, 31, 46, pilots=range(166, 0, -1))
    Traceback (most recent call last):
        ...
    bellpulsar.Refusal: refused 20: pilot 1 is 165, not larger than pilot 0, which is 166

Modes and their ranges; N is size / 64. A mode is its number, or the Mode of that name, which counts as it:

    mode                    size                    cell        mask   subchannels  symbols a slot
    0 PUSC_DL PUSC downlink 2048                    0..31       1..63  60           2
    1 PUSC_UL PUSC uplink   2048                    0..69       0      70           3
    2 OFUSC   optional FUSC 256, 512, 1024, 2048    0..N*N-1    0      N            1
    3 AMC     AMC 6x1       256, 512, 1024, 2048    0..2351     0      N            1
    4 AMC_2X3 AMC 2x3       256, 512, 1024, 2048    0..2351     0      3 * N        3
    5 AMC_3X2 AMC 3x2       256, 512, 1024, 2048    0..2351     0      2 * N        2
    6 AMC_1X6 AMC 1x6       256, 512, 1024, 2048    0..2351     0      6 * N        6
    7 FUSC    FUSC          2048                    0..31       0      32           1

The cell is the permutation base. Slots are 0..511. A slot has 48 points a subchannel, with the indices 0..47. Carriers
are -size/2..size/2-1, by rising frequency, with DC at 0. AMC has four slot shapes, bins x symbols; a bin is nine
carriers in a row, of which one is a pilot.

The mask says which major groups of PUSC downlink are lit. Groups 0 to 5 have the subchannels 0..11, 12..19, 20..31,
32..39, 40..51 and 52..59. Without a mask, or with None, all is lit: in mode 0 that is ALL_GROUPS, in every other mode
0, which is all that these take. A slot's points are those of its lit subchannels, by rising subchannel.

The pilots of FUSC are any sequence or array of integers: a list, a range, array('I'), a numpy array. It belongs to the
slot's one symbol: a grid is emptied and looked at with the list that it was filled with. In the other modes there is no
list, and nothing is written in its place; an empty one is the same as none.

Numbers. Any integer may stand in any field. One that 32 bits do not hold, negative ones too, reaches the engine as
2**32 - 1, which no question lets pass, so it is refused in its turn; so are those of a list of pilots. A carrier is
signed: one beyond 32 bits reaches the engine as -2**31 or 2**31 - 1. About a count of carriers no question is put: one
beyond 32 bits means all of them, and a negative one is a ValueError.

Collisions. `ofusc_collisions` tells where one subchannel of a cell and one of a second cell share a carrier in optional
FUSC; `amc_collisions` where two cells put the same index of a subchannel on the same carrier of the same symbol in AMC.
The two cells may be different or the same. There is no such call for PUSC and for FUSC.

Refusals. A request that cannot be met raises Refusal, with the number of the first question that is answered no, as
QUESTIONS has them; its text says what was asked, the value given and what would be accepted. Nothing is written then.

Buffers. Points, grids, plans and destinations are lent: the engine works on the caller's memory and nothing is copied
(lists of pilots and of bursts are).
Points and grids are any contiguous buffer of 32-bit floats (array('f'), a memoryview of one, a ctypes array, a numpy
array of float32, or of complex64, which counts as two floats an element), in any number of dimensions. Their lengths
go to the engine as they are. What the engine cannot see is checked here, before any question is put, and is an error
that is no refusal: TypeError for the wrong kind of element, BufferError where the buffer is not contiguous or not
writable, ValueError where it is not aligned or two buffers overlap.
"""

import ctypes
import enum
import itertools
import operator
import sys
from array import array
from typing import TYPE_CHECKING, Any, Dict, Iterable, List, NamedTuple, Optional, Tuple

if sys.version_info < (3, 9):
    raise ImportError("Python 3.9 or later is needed, and this is %d.%d.%d" % sys.version_info[:3])

from . import refusals
from .buffers import BYTE, FLOAT, Buffer, Lent, Pilot, apart, lent, pilot_point
from .library import Hits, Int, Listed, Mask, Owners, Pair, Pilots, Places, Zones
from .library import counted, engine, int32, listed, numbers, signed, uint
from .refusals import QUESTIONS
from .version import __version__ as __version__

__all__ = [
    "Mode",
    "PUSC_DL",
    "PUSC_UL",
    "OFUSC",
    "AMC",
    "AMC_2X3",
    "AMC_3X2",
    "AMC_1X6",
    "FUSC",
    "ALL_GROUPS",
    "QUESTIONS",
    "Refusal",
    "Kind",
    "Place",
    "Located",
    "Point",
    "Seen",
    "Collisions",
    "Zone",
    "Plan",
    "Burst",
    "Owner",
    "place",
    "locate",
    "places",
    "slot_places",
    "points_len",
    "lit_points_len",
    "grid_len",
    "ground",
    "lay",
    "fill",
    "empty",
    "empty_first",
    "look",
    "ofusc_collisions",
    "amc_collisions",
    "plan_read",
    "plan_write",
    "plan_bytes",
    "bursts_check",
    "burst_owner",
    "burst_owners",
]

Fours = Iterable[Iterable[Int]]  # zones or bursts
if TYPE_CHECKING:
    Row = array[int]
else:
    Row = array  # which takes no parameter before Python 3.12


class Mode(enum.IntEnum):
    """The modes by name. A member counts as its number, and prints as it."""

    PUSC_DL = 0
    PUSC_UL = 1
    OFUSC = 2
    AMC_6X1 = 3
    AMC_2X3 = 4
    AMC_3X2 = 5
    AMC_1X6 = 6
    FUSC = 7
    AMC = AMC_6X1  # the header's name for it

    __str__ = int.__repr__  # before Python 3.11 it would be the name

    @property
    def word(self) -> str:
        """The name on the command line, as amc-2x3."""
        return self.name.lower().replace("_", "-")


PUSC_DL, PUSC_UL, OFUSC, AMC, AMC_2X3, AMC_3X2, AMC_1X6, FUSC = map(int, Mode)
ALL_GROUPS = 0b111111  # the mask of mode 0 that lights every major group


class Refusal(Exception):
    """The engine refused a request: `question` is the first that is answered no, `number` is its number in QUESTIONS,
    `words` say what was asked, the value given and what would be accepted."""

    def __init__(self, number: int, words: str) -> None:
        super().__init__(number, words)
        self.number = number
        self.question = QUESTIONS[number]
        self.words = words

    def __str__(self) -> str:
        return "refused %d: %s" % (self.number, self.words)


def _refusal(number: int, **asked: Any) -> Refusal:
    """Of a request's fields as they were given; a length is a pair, that given and the right one, pilots and what is lit
    are rows of numbers."""
    asked = {name: value if isinstance(value, tuple) else operator.index(value) for name, value in asked.items()}
    return Refusal(number, refusals.field_words(number, asked))


# --- answers ----------------------------------------------------------------------------------


class Kind(enum.Enum):
    """What a carrier holds. `look` says NOTHING for a guard, for DC and for what is unlit; `locate` tells guard and DC
    apart, and knows no mask."""

    GUARD = "guard"
    DC = "DC"
    PILOT = "pilot"
    DATA = "data"
    NOTHING = "nothing"


class Place(NamedTuple):
    """The zone's symbol and the carrier, which counts from DC."""

    symbol: int
    carrier: int


class Located(NamedTuple):
    """What a carrier is; slot, subchannel and index are None unless it is Kind.DATA."""

    kind: Kind
    slot: Optional[int] = None
    subchannel: Optional[int] = None
    index: Optional[int] = None  # type: ignore[assignment]  # a tuple has one of its own


class Point(NamedTuple):
    """In-phase and quadrature."""

    i: float
    q: float


class Seen(NamedTuple):
    """What a carrier holds; point is None at Kind.NOTHING, the rest is None unless it is Kind.DATA."""

    kind: Kind
    point: Optional[Point] = None
    slot: Optional[int] = None
    subchannel: Optional[int] = None
    index: Optional[int] = None  # type: ignore[assignment]  # a tuple has one of its own


class Collisions(NamedTuple):
    """48 marks, of groups (optional FUSC) or of indices (AMC), and how many are True.

    True where one subchannel of the first cell and one of the second share a carrier (optional FUSC), or where both
    cells put the same index of a subchannel on the same carrier of the same symbol (AMC).
    """

    hits: Tuple[bool, ...]
    count: int  # type: ignore[assignment]  # a tuple has one of its own


class Zone(NamedTuple):
    """A zone of a plan."""

    mode: int
    cell: int
    slots: int
    mask: int


class Plan(NamedTuple):
    """A zone plan: the FFT size and its one to eight zones. Unused places, which are all zero, are left out.

    At size 2048 the first zone is mode 0, with any of its cells; after AMC (modes 3 to 6) comes only AMC, of any shape.
    So FUSC, mode 7, which has size 2048 alone, is never first and never after AMC.
    """

    size: int
    zones: Tuple[Zone, ...]


class Burst(NamedTuple):
    """A data region: the first subchannel and how many, the first slot and how many."""

    subchannel: int
    subchannels: int
    slot: int
    slots: int


class Owner(NamedTuple):
    """The position of the burst that owns a subchannel in a slot, None where none does, and how many were looked at."""

    burst: Optional[int]
    looked: int


# --- the map ----------------------------------------------------------------------------------


def place(mode: Int, size: Int, cell: Int, slot: Int, subchannel: Int, index: Int, *, pilots: Pilots = None) -> Place:
    """Where point `index` of a subchannel lies, as Place(symbol, carrier). Refusals 1, 2, 3, 4, 5, 6, 20.

    pilots: in FUSC the used numbers of its 166 pilots, rising; in the other modes it is left out.
    """
    symbol, carrier, row = uint(), int32(), listed(pilots)
    fields = numbers(mode, size, cell, slot, subchannel, index)
    refused = engine.bp_place(*fields, row.memory, row.length, symbol, carrier)
    if refused:
        of = {"mode": mode, "size": size, "cell": cell, "slot": slot, "subchannel": subchannel, "index": index}
        raise _refusal(refused, **of, pilots=row.given)
    return Place(symbol.value, carrier.value)


_KINDS = (Kind.GUARD, Kind.DC, Kind.PILOT, Kind.DATA)


def locate(mode: Int, size: Int, cell: Int, symbol: Int, carrier: Int, *, pilots: Pilots = None) -> Located:
    """What a carrier is in a symbol of the zone, as Located(kind, slot, subchannel, index). Refusals 1, 2, 3, 4, 7, 20.

    kind is Kind.GUARD, Kind.DC, Kind.PILOT or Kind.DATA; the other three are None unless it is Kind.DATA.
    pilots: as in `place`, of this symbol.
    """
    kind, slot, subchannel, index, row = uint(), uint(), uint(), uint(), listed(pilots)
    fields, last = numbers(mode, size, cell, symbol), signed(carrier)
    refused = engine.bp_locate(*fields, last, row.memory, row.length, kind, slot, subchannel, index)
    if refused:
        of = {"mode": mode, "size": size, "cell": cell, "symbol": symbol, "carrier": carrier}
        raise _refusal(refused, **of, pilots=row.given)
    what = _KINDS[kind.value]
    if what is Kind.DATA:
        return Located(what, slot.value, subchannel.value, index.value)
    return Located(what)


# --- grids ------------------------------------------------------------------------------------


def _mask(mode: Int, mask: Mask) -> Int:
    """As it is given, or the one that lights all."""
    if mask is not None:
        return mask
    return ALL_GROUPS if operator.index(mode) == PUSC_DL else 0


def points_len(mode: Int, size: Int) -> int:
    """The floats of a slot's points where all is lit, 96 for each subchannel; 0 for a mode and size that the map does
    not have."""
    return int(engine.bp_points_len(*numbers(mode, size)))


def lit_points_len(mode: Int, size: Int, mask: Mask = None) -> int:
    """The floats of a slot's points under a mask, 96 for each lit subchannel; 0 for a mode and size that the map does
    not have, and for a mask that is not of that mode."""
    return int(engine.bp_lit_points_len(*numbers(mode, size, _mask(mode, mask))))


def grid_len(mode: Int, size: Int) -> int:
    """The floats of a slot's grid, 2 for each carrier of each of its symbols; 0 for a mode and size that the map does
    not have."""
    return int(engine.bp_grid_len(*numbers(mode, size)))


_SUBCHANNEL_LEN = 2 * refusals.POINTS  # the floats of one subchannel's points
_UNLIT = 5  # what a lay answers for a subchannel that is out of range or unlit
_NO_GRID = 9  # what a ground of no floats comes to where all its other fields are in range


def _lit(mode: Int, size: Int, mask: Int) -> Tuple[int, ...]:
    """The subchannels that are lit: of these, and no others, a lay of no floats comes to the question about them."""
    fields, none = numbers(mode, size, 0, mask, 0), (None, 0) * 3
    every = range(points_len(mode, size) // _SUBCHANNEL_LEN)
    return tuple(subchannel for subchannel in every if engine.bp_lay(*fields, subchannel, *none) != _UNLIT)


def _asked_of_slot(fields: List[int], row: Listed) -> int:
    """The first question about mode, size, cell, mask, slot and pilots that is answered no, or 0. The engine is asked
    for a ground of no floats, which it refuses, by 9 at the latest: so nothing is written."""
    refused = int(engine.bp_ground(*fields, row.memory, row.length, Pair(), None, 0))
    return 0 if refused == _NO_GRID else refused


def places(mode: Int, size: Int, cell: Int, slot: Int, subchannel: Int, *, pilots: Pilots = None) -> Row:
    """Where the 48 points of a subchannel stand in a slot's grid, by index, as array('I'). Refusals 1, 2, 3, 4, 5, 20.

    A place counts points: it is offset * size + size // 2 + carrier, for the symbol's offset in the slot. So the floats
    of its point are at 2 * place and the one after; in an array of complex numbers the point is at place.
    The row serves every slot of its cell whose pilots are on the same carriers: all slots in modes 0, 1, 4 and 6, those
    that agree mod 3 in modes 2, 3 and 5, those with the same list of pilots in mode 7.
    pilots: as in `place`.
    """
    answer, row = array("I", bytes(ctypes.sizeof(Places))), listed(pilots)
    fields = numbers(mode, size, cell, slot, subchannel)
    refused = engine.bp_places(*fields, row.memory, row.length, Places.from_buffer(answer))
    if refused:
        of = {"mode": mode, "size": size, "cell": cell, "slot": slot, "subchannel": subchannel}
        raise _refusal(refused, **of, pilots=row.given)
    return answer


def slot_places(mode: Int, size: Int, cell: Int, slot: Int, *, mask: Mask = None, pilots: Pilots = None) -> Row:
    """`places` of every lit subchannel, one after the other, as a slot's points are: point n of `empty` is the one that
    stands at place n of these. Refusals 1, 2, 3, 17, 4, 20."""
    mask, row = _mask(mode, mask), listed(pilots)
    refused = _asked_of_slot(numbers(mode, size, cell, mask, slot), row)
    if refused:
        raise _refusal(refused, mode=mode, size=size, cell=cell, mask=mask, slot=slot, pilots=row.given)
    rows = array("I")
    for subchannel in _lit(mode, size, mask):
        rows.extend(places(mode, size, cell, slot, subchannel, pilots=row.given))
    return rows


def ground(
    mode: Int,
    size: Int,
    cell: Int,
    slot: Int,
    pilot: Pilot,
    grid: Buffer,
    *,
    mask: Mask = None,
    pilots: Pilots = None,
) -> None:
    """Lays the ground of a slot's grid, the first move of filling it. Refusals 1, 2, 3, 17, 4, 20, 9.

    The whole grid is written: the pilot point on lit pilots, 0.0 on every other carrier, data carriers too.

    pilot: a complex number or two numbers (rounded to 32-bit floats), or a buffer of two floats, whose bits are copied
    as they are.
    pilots: as in `place`, where the pilots of FUSC are.
    grid: `grid_len(mode, size)` floats, symbol after symbol, each by rising carrier: the point of `carrier` in the
    symbol with this offset in the slot is at 2 * (offset * size + size // 2 + carrier).
    """
    mask, row = _mask(mode, mask), listed(pilots)
    fields, point = numbers(mode, size, cell, mask, slot), pilot_point(pilot)
    with lent(grid, "grid", FLOAT, writable=True) as target:
        refused = engine.bp_ground(*fields, row.memory, row.length, point, target.address, target.length)
    if refused:
        of = {"mode": mode, "size": size, "cell": cell, "mask": mask, "slot": slot}
        raise _refusal(refused, **of, pilots=row.given, grid=(target.length, grid_len(mode, size)))


def lay(
    mode: Int,
    size: Int,
    cell: Int,
    slot: Int,
    subchannel: Int,
    points: Buffer,
    grid: Buffer,
    *,
    mask: Mask = None,
    pilots: Pilots = None,
) -> None:
    """Lays the points of one lit subchannel on a slot's grid, the second move of filling it.

    No other float of the grid is written. Subchannels may be laid in any order, and again: the last time counts. Bits
    are copied as they are, those of a NaN too. Refusals 1, 2, 3, 17, 4, 5 (out of range or unlit), 20, 8, 9.

    points: the subchannel's 48 points by index, in-phase first: 96 floats. Where all is lit, they are those of a slot's
    points from 96 * subchannel on.
    grid: as in `ground`. A ground serves every slot whose pilots are on the same carriers: all slots in modes 0, 1, 4
    and 6, those that agree mod 3 in modes 2, 3 and 5, those with the same list of pilots in mode 7. Where all is lit it
    serves every cell too; else, in mode 0, only the same cell and mask.
    pilots: as in `ground`.
    """
    mask, row = _mask(mode, mask), listed(pilots)
    fields = (*numbers(mode, size, cell, mask, slot, subchannel), row.memory, row.length)
    with lent(points, "points", FLOAT) as source, lent(grid, "grid", FLOAT, writable=True) as target:
        apart(source, target)
        refused = engine.bp_lay(*fields, source.address, source.length, target.address, target.length)
    if refused:
        of = {"mode": mode, "size": size, "cell": cell, "mask": mask, "slot": slot, "subchannel": subchannel}
        lengths = {"points": (source.length, _SUBCHANNEL_LEN), "grid": (target.length, grid_len(mode, size))}
        raise _refusal(refused, **of, **lengths, pilots=row.given, lit=_lit(mode, size, mask))


def _slot_refusal(
    refused: int, mode: Int, size: Int, cell: Int, mask: Int, slot: Int, row: Listed, points: Lent, grid: Lent
) -> Refusal:
    """Of fill, empty and empty_first, which have all points of a slot."""
    lengths = {
        "points": (points.length, lit_points_len(mode, size, mask)),
        "grid": (grid.length, grid_len(mode, size)),
    }
    return _refusal(refused, mode=mode, size=size, cell=cell, mask=mask, slot=slot, pilots=row.given, **lengths)


def _fill_refusal(fields: List[int], row: Listed, points: Lent, grid: Lent) -> int:
    """The first of fill's questions that is answered no, or 0."""
    mode, size, _, mask, _ = fields
    refused = _asked_of_slot(fields, row)
    if refused:
        return refused
    if points.length != engine.bp_lit_points_len(mode, size, mask):
        return 8
    return 9 if grid.length != engine.bp_grid_len(mode, size) else 0


def fill(
    mode: Int,
    size: Int,
    cell: Int,
    slot: Int,
    pilot: Pilot,
    points: Buffer,
    grid: Buffer,
    *,
    mask: Mask = None,
    pilots: Pilots = None,
) -> None:
    """`ground`, and then `lay` for each lit subchannel. Refusals 1, 2, 3, 17, 4, 20, 8, 9.

    A convenience of this package: the engine has the two moves only. Every question is put before the first of them.

    points: `lit_points_len(mode, size, mask)` floats, by lit subchannel, rising, and index, in-phase first.
    pilot, pilots, grid: as in `ground`.
    """
    mask, row = _mask(mode, mask), listed(pilots)
    fields, point = numbers(mode, size, cell, mask, slot), pilot_point(pilot)
    with lent(points, "points", FLOAT) as source, lent(grid, "grid", FLOAT, writable=True) as target:
        apart(source, target)
        refused = _fill_refusal(fields, row, source, target)
        if refused:
            raise _slot_refusal(refused, mode, size, cell, mask, slot, row, source, target)
        into = (target.address, target.length)
        engine.bp_ground(*fields, row.memory, row.length, point, *into)
        subchannel, own = 0, source.address
        while own < source.end:
            laid = engine.bp_lay(*fields, subchannel, row.memory, row.length, own, _SUBCHANNEL_LEN, *into)
            own += 0 if laid == _UNLIT else FLOAT.bytes * _SUBCHANNEL_LEN
            subchannel += 1


def empty(
    mode: Int,
    size: Int,
    cell: Int,
    slot: Int,
    grid: Buffer,
    points: Buffer,
    *,
    mask: Mask = None,
    pilots: Pilots = None,
) -> None:
    """Takes the points of a slot's lit subchannels off its grid, into `points`. Refusals 1, 2, 3, 17, 4, 20, 8, 9.

    All points are written; only lit data carriers are read. Both buffers and the pilots are as in `fill`.
    """
    mask, row = _mask(mode, mask), listed(pilots)
    fields = (*numbers(mode, size, cell, mask, slot), row.memory, row.length)
    with lent(grid, "grid", FLOAT) as source, lent(points, "points", FLOAT, writable=True) as target:
        apart(target, source)
        refused = engine.bp_empty(*fields, source.address, source.length, target.address, target.length)
        if refused:
            raise _slot_refusal(refused, mode, size, cell, mask, slot, row, target, source)


def empty_first(
    mode: Int,
    size: Int,
    cell: Int,
    slot: Int,
    carriers: Int,
    grid: Buffer,
    points: Buffer,
    *,
    mask: Mask = None,
    pilots: Pilots = None,
) -> None:
    """Takes the points off the first `carriers` carriers of a slot's grid alone. Refusals 1, 2, 3, 17, 4, 20, 8, 9.

    They count from the grid's start, symbol after symbol, each by rising carrier, guards, DC and pilots too; a count
    past the grid's end, however large, means all of them. So a grid can be emptied while a capture still delivers it:
    call again with a larger count as more arrives.

    The points on these carriers are written, each where `empty` puts it, and no other float. Both buffers and the
    pilots are as in `empty`, of the whole slot. A negative count is a ValueError.
    """
    mask, row = _mask(mode, mask), listed(pilots)
    fields = (*numbers(mode, size, cell, mask, slot), counted(carriers), row.memory, row.length)
    with lent(grid, "grid", FLOAT) as source, lent(points, "points", FLOAT, writable=True) as target:
        apart(target, source)
        refused = engine.bp_empty_first(*fields, source.address, source.length, target.address, target.length)
        if refused:
            raise _slot_refusal(refused, mode, size, cell, mask, slot, row, target, source)


_SEEN = {0: Kind.NOTHING, 2: Kind.PILOT, 3: Kind.DATA}


def look(
    mode: Int,
    size: Int,
    cell: Int,
    symbol: Int,
    grid: Buffer,
    carrier: Int,
    *,
    mask: Mask = None,
    pilots: Pilots = None,
) -> Seen:
    """What the grid of the symbol's slot holds on a carrier, as Seen(kind, point, slot, subchannel, index).

    kind is Kind.NOTHING (guard, DC, or a pilot or data carrier that is unlit, whatever the grid holds there),
    Kind.PILOT with its point, or Kind.DATA with all of it. The point is a pair of Python floats, which hold every
    32-bit float; only a signalling NaN comes out as a quiet one. The pilots are as in `locate`.
    Refusals 1, 2, 3, 17, 4, 7, 20, 9.
    """
    mask, row = _mask(mode, mask), listed(pilots)
    fields, last = (*numbers(mode, size, cell, mask, symbol), row.memory, row.length), signed(carrier)
    kind, point, slot, subchannel, index = uint(), Pair(), uint(), uint(), uint()
    with lent(grid, "grid", FLOAT) as memory:
        refused = engine.bp_look(*fields, memory.address, memory.length, last, kind, point, slot, subchannel, index)
    if refused:
        of = {"mode": mode, "size": size, "cell": cell, "mask": mask, "symbol": symbol, "carrier": carrier}
        raise _refusal(refused, **of, pilots=row.given, grid=(memory.length, grid_len(mode, size)))
    what = _SEEN[kind.value]
    if what is Kind.NOTHING:
        return Seen(what)
    if what is Kind.PILOT:
        return Seen(what, Point(*point))
    return Seen(what, Point(*point), slot.value, subchannel.value, index.value)


# --- collisions -------------------------------------------------------------------------------


def _collisions(call: Any, fields: Dict[str, Int], **mode: Int) -> Collisions:
    hits, count = Hits(), uint()
    refused = call(*numbers(*fields.values()), hits, count)
    if refused:
        raise _refusal(refused, **fields, **mode)
    return Collisions(tuple(map(bool, bytes(hits))), count.value)


def ofusc_collisions(size: Int, cell_a: Int, subchannel_a: Int, cell_b: Int, subchannel_b: Int) -> Collisions:
    """Optional FUSC: in which groups one subchannel of cell_a and one subchannel of cell_b share a carrier.

    The answer is Collisions(hits, count). hits[k] is group k, the data numbers N*k to N*k+N-1 of a symbol; every symbol
    has the same answer. All N subchannels of cell_b together share a carrier with subchannel_a in all 48 groups,
    whichever the cells are.
    Refusals 2, 3 (cell_a), 3 (cell_b), 5 (subchannel_a), 5 (subchannel_b), in this order.
    """
    fields = {
        "size": size,
        "cell_a": cell_a,
        "subchannel_a": subchannel_a,
        "cell_b": cell_b,
        "subchannel_b": subchannel_b,
    }
    return _collisions(engine.bp_ofusc_collisions, fields, mode=OFUSC)


def amc_collisions(cell_a: Int, cell_b: Int) -> Collisions:
    """AMC: which indices one subchannel of cell_a and the same one of cell_b have on the same carrier of the same symbol.

    The answer is Collisions(hits, count). hits[j] is index j. A subchannel of AMC has the same carriers under every
    cell: what is counted is where both cells put the same index. The answer is the same in every shape (modes 3 to 6),
    size, slot and subchannel. Refusals 3 (cell_a), 3 (cell_b).
    """
    return _collisions(engine.bp_amc_collisions, {"cell_a": cell_a, "cell_b": cell_b})


# --- zone plans -------------------------------------------------------------------------------

_PLACES = 8  # the zones of a plan
_DECIDE = 128  # bytes: what follows them changes no answer


def plan_read(data: Buffer) -> Plan:
    """The zone plan that the bytes are, as Plan(size, zones). Refusals 10, 11, 12, 2, 1, 3, 13, 17, 14, 15.

    data: any contiguous buffer of bytes. zones has as many Zone(mode, cell, slots, mask) as the plan counts.
    """
    count, size, row = uint(), uint(), Zones()
    with lent(data, "data", BYTE) as memory:
        refused = engine.bp_zone_plan_read(memory.address, memory.length, count, size, row)
        if refused:
            start = ctypes.string_at(memory.address, min(memory.length, _DECIDE))
            raise Refusal(refused, refusals.read_words(refused, start, memory.length))
    zones = [Zone(*row[at : at + 4]) for at in range(0, 4 * count.value, 4)]
    return Plan(size.value, tuple(zones))


def _zone(zone: Iterable[Int]) -> Tuple[int, int, int, int]:
    """The four numbers of a place of a plan."""
    try:
        mode, cell, slots, mask = zone
    except (TypeError, ValueError) as error:
        needed = "zones: four numbers are needed for each, mode, cell, slots and mask, not %r"
        raise type(error)(needed % (zone,)) from None
    return operator.index(mode), operator.index(cell), operator.index(slots), operator.index(mask)


def plan_write(count: Int, size: Int, zones: Fours, dest: Buffer) -> int:
    """Writes a plan's bytes at the start of `dest` and returns how many they are; further bytes stay as they are.

    zones: all eight places of the plan, four numbers each (mode, cell, slots, mask); those past the count are to be
    zero.
    dest: any writable, contiguous buffer of bytes. Refusals 12, 2, for each zone 1, 2, 3, 13, 17, 14, then 16.
    `plan_bytes` is the same without count, unused places and destination.
    """
    count, size = operator.index(count), operator.index(size)
    rows = [_zone(zone) for zone in zones]
    if len(rows) != _PLACES:
        raise ValueError("zones: eight places are needed, not %d" % len(rows))
    row, written = Zones(*numbers(*itertools.chain(*rows))), uint()
    with lent(dest, "dest", BYTE, writable=True) as memory:
        refused = engine.bp_zone_plan_write(*numbers(count, size), row, memory.address, memory.length, written)
    if refused:
        raise Refusal(refused, refusals.write_words(refused, count, size, rows, memory.length))
    return written.value


_UNUSED = Zone(0, 0, 0, 0)
_LONGEST = 3 * (2 + 4 * _PLACES)  # bytes: a value takes three at most


def plan_bytes(size: Int, zones: Fours) -> bytes:
    """A plan's bytes: `plan_bytes(*plan_read(data))` is data. Refusals 12, 2, for each zone 1, 2, 3, 13, 17, 14.

    zones: Zone(mode, cell, slots, mask), or any four numbers, for each zone; none at all and more than eight are
    refused (12).
    """
    given, dest = list(zones), bytearray(_LONGEST)
    written = plan_write(len(given), size, (given + [_UNUSED] * _PLACES)[:_PLACES], dest)
    return bytes(dest[:written])


# --- bursts -----------------------------------------------------------------------------------

_NO_BURST = 64  # in place of a position


def _burst(burst: Iterable[Int]) -> Tuple[int, ...]:
    """The numbers of a burst, which are to be four."""
    try:
        return tuple(map(operator.index, burst))
    except TypeError:
        needed = "bursts: four numbers are needed for each, first subchannel, how many, first slot, how many, not %r"
        raise TypeError(needed % (burst,)) from None


def _in_a_row(bursts: List[Tuple[int, ...]]) -> ctypes.Array[uint]:
    """A list as the engine takes it. One that is not of four numbers each goes as a single number, which is refused in
    its turn: a burst of three beside one of five would pass for two of four."""
    row = list(itertools.chain(*bursts)) if all(len(burst) == 4 for burst in bursts) else [0]
    return (uint * len(row))(*numbers(*row))


def _ask_of_bursts(
    call: Any,
    mode: Int,
    size: Int,
    cell: Int,
    slots: Int,
    mask: Mask,
    bursts: Fours,
    *answer: Any,
    **asked: Int,
) -> None:
    """Puts a call's questions, of which `asked` are those of its own fields; its answer is written where it is
    accepted."""
    mask = _mask(mode, mask)
    fields = numbers(mode, size, cell, slots, mask, *asked.values())
    every = [_burst(burst) for burst in bursts]
    row = _in_a_row(every)
    refused = call(*fields, row, len(row), *answer)
    if refused:
        size, *zone = map(operator.index, (size, mode, cell, slots, mask))
        asked = {name: operator.index(value) for name, value in asked.items()}
        raise Refusal(refused, refusals.burst_words(refused, size, zone, every, asked))


def _position(owner: int) -> Optional[int]:
    return None if owner == _NO_BURST else owner


def bursts_check(mode: Int, size: Int, cell: Int, slots: Int, bursts: Fours, *, mask: Mask = None) -> None:
    """Is a list of bursts fit for its zone? Refusals 1, 2, 3, 13, 17, 18 (the list's length), for each burst 18, 19.

    slots: how many the zone has. mode: one that a plan's zone may have, 0 or 2 to 7.
    bursts: Burst(subchannel, subchannels, slot, slots), or any four numbers, for each; a list of none is accepted.
    Subchannels that are unlit count like those that are lit.

    18: more than 64 bursts, one that is not of four numbers, that has no subchannel or no slot, or that is not wholly
    in the zone. 19: one that overlaps an earlier one.
    """
    _ask_of_bursts(engine.bp_bursts_check, mode, size, cell, slots, mask, bursts)


def burst_owner(
    mode: Int, size: Int, cell: Int, slots: Int, slot: Int, subchannel: Int, bursts: Fours, *, mask: Mask = None
) -> Owner:
    """The burst that a subchannel in a slot belongs to, as Owner(burst, looked).

    burst is its position in the list, or None; looked is how many bursts were looked at to find it, its position + 1,
    or all of the list where there is none. A slot below 512 but past the zone's last has none.
    Refusals 1, 2, 3, 13, 17, 4, 5, then 18 and 19 as in `bursts_check`, whose zone and list these are.
    """
    owner, looked = uint(), uint()
    asked = {"slot": slot, "subchannel": subchannel}
    _ask_of_bursts(engine.bp_burst_owner, mode, size, cell, slots, mask, bursts, owner, looked, **asked)
    return Owner(_position(owner.value), looked.value)


def burst_owners(
    mode: Int, size: Int, cell: Int, slots: Int, slot: Int, bursts: Fours, *, mask: Mask = None
) -> Tuple[Optional[int], ...]:
    """The bursts that all subchannels of one slot belong to: a tuple of 192 positions, None where there is no burst and
    past the mode's last subchannel. Refusals 1, 2, 3, 13, 17, 4, then 18 and 19 as in `bursts_check`."""
    owners = Owners()
    _ask_of_bursts(engine.bp_burst_owners, mode, size, cell, slots, mask, bursts, owners, slot=slot)
    return tuple(map(_position, owners))
