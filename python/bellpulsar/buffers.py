"""Memory of the caller's that is lent to the engine for one call, after a look at all that the engine cannot see."""

import array
import contextlib
import ctypes
import struct
import sys
from typing import Any, Iterator, NamedTuple, Sequence, Tuple, Union

from .library import Pair

Buffer = Any  # what lends its memory: Python has no type for that before 3.12
Pilot = Union[complex, Sequence[float], Buffer]


class _Held(ctypes.Structure):
    """Py_buffer of Python's C interface; only `buf`, the address, is read here."""

    _fields_ = [
        ("buf", ctypes.c_void_p),
        ("obj", ctypes.c_void_p),
        ("len", ctypes.c_ssize_t),
        ("itemsize", ctypes.c_ssize_t),
        ("readonly", ctypes.c_int),
        ("ndim", ctypes.c_int),
        ("format", ctypes.c_char_p),
        ("shape", ctypes.c_void_p),
        ("strides", ctypes.c_void_p),
        ("suboffsets", ctypes.c_void_p),
        ("internal", ctypes.c_void_p),
    ]


_hold = ctypes.pythonapi.PyObject_GetBuffer
_hold.argtypes = [ctypes.py_object, ctypes.POINTER(_Held), ctypes.c_int]
_hold.restype = ctypes.c_int
_let_go = ctypes.pythonapi.PyBuffer_Release
_let_go.argtypes = [ctypes.POINTER(_Held)]
_let_go.restype = None


class _Element(NamedTuple):
    """The unit in which a buffer's length is counted, and the formats that are read as it."""

    name: str
    bytes: int
    formats: Tuple[str, ...]


FLOAT = _Element("32-bit floats", 4, ("f", "Zf"))
BYTE = _Element("bytes", 1, ("B", "b", "c"))
_NATIVE = "@=<" if sys.byteorder == "little" else "@=>"


def _check(view: memoryview, name: str, element: _Element, writable: bool) -> None:
    """Of a buffer, all that the engine cannot see but its address."""
    if view.format.lstrip(_NATIVE) not in element.formats:
        raise TypeError("%s: a buffer of %s is needed, not of format %r" % (name, element.name, view.format))
    if not view.c_contiguous:
        raise BufferError("%s: the buffer is not contiguous" % name)
    if writable and view.readonly:
        raise BufferError("%s: the buffer is read-only" % name)


def _view(buffer: Buffer, name: str, element: _Element) -> memoryview:
    try:
        return memoryview(buffer)
    except TypeError:
        raise TypeError("%s: a buffer of %s is needed, not %s" % (name, element.name, type(buffer).__name__)) from None


class Lent(NamedTuple):
    """A buffer's memory while it is lent; the length counts elements, `end` is the address past it."""

    address: int
    length: int
    end: int


@contextlib.contextmanager
def lent(buffer: Buffer, name: str, element: _Element, writable: bool = False) -> Iterator[Lent]:
    """Lends a buffer's own memory for one call, so that it neither moves nor goes away meanwhile."""
    with _view(buffer, name, element) as view:
        _check(view, name, element, writable)
        held = _Held()
        _hold(view, held, 0)  # 0: plain bytes; the view has told the rest
        try:
            address = held.buf or 0
            if view.nbytes and address % element.bytes:
                raise ValueError("%s: the buffer is not aligned to its elements" % name)
            yield Lent(address, view.nbytes // element.bytes, address + view.nbytes)
        finally:
            _let_go(held)


def apart(points: Lent, grid: Lent) -> None:
    if max(points.address, grid.address) < min(points.end, grid.end):
        raise ValueError("points and grid overlap")


def _rounded(pair: Sequence[float]) -> ctypes.Array[ctypes.c_float]:
    """Two numbers as 32-bit floats."""
    if len(pair) != 2:
        raise ValueError("pilot: two numbers are needed, not %d" % len(pair))
    try:
        return Pair.from_buffer_copy(struct.pack("=2f", *array.array("d", pair)))
    except OverflowError:
        raise OverflowError("pilot: a number is beyond 32-bit floats") from None
    except TypeError:
        raise TypeError("pilot: two numbers are needed, not %r" % (pair,)) from None


def pilot_point(pilot: Pilot) -> ctypes.Array[ctypes.c_float]:
    """The pilot point's own two floats, bit for bit where it is a buffer."""
    if isinstance(pilot, complex):
        return _rounded((pilot.real, pilot.imag))
    if isinstance(pilot, (tuple, list)):
        return _rounded(pilot)
    if isinstance(pilot, (int, float)):
        raise TypeError("pilot: a complex number or two numbers are needed, in-phase and quadrature, not one")
    with lent(pilot, "pilot", FLOAT) as memory:
        if memory.length != 2:
            raise ValueError("pilot: two floats are needed, not %d" % memory.length)
        return Pair.from_buffer_copy(ctypes.string_at(memory.address, 8))
