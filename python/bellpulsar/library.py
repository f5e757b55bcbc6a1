"""The engine's shared library: built where that is asked for, loaded at the first call."""

import ctypes
import operator
import os
import signal
import subprocess
import sys
from array import array
from typing import Any, Dict, Iterable, List, NamedTuple, Optional, SupportsIndex, Tuple

from .version import __version__

_HERE = os.path.dirname(os.path.abspath(__file__))
ROOT = os.path.dirname(os.path.dirname(_HERE))
BUILDER = os.path.join(ROOT, "build.sh")
VERSION = int(__version__.partition(".")[0])  # of the interface
NAME = "libbellpulsar.so.%d" % VERSION
BESIDE = os.path.join(_HERE, NAME)  # an installation has it there
BUILT = os.path.join(ROOT, "build", NAME)

Int = SupportsIndex  # whatever counts as an integer
Mask = Optional[Int]  # without one all is lit
Pilots = Optional[Iterable[Int]]  # of FUSC alone, used numbers; without them no list is given

uint = ctypes.c_uint32
int32 = ctypes.c_int32
Pair = ctypes.c_float * 2
Hits = ctypes.c_uint8 * 48
Places = uint * 48
Zones = uint * 32
Owners = ctypes.c_uint8 * 192

_out = ctypes.POINTER(uint)
_address = ctypes.c_void_p
_length = ctypes.c_size_t
_list = [_address, _length]  # of pilots

_PROTOTYPES: Dict[str, List[Any]] = {
    "bp_version": [],
    "bp_place": [uint] * 6 + _list + [_out, ctypes.POINTER(int32)],
    "bp_locate": [uint] * 4 + [int32] + _list + [_out] * 4,
    "bp_places": [uint] * 5 + _list + [Places],
    "bp_points_len": [uint] * 2,
    "bp_lit_points_len": [uint] * 3,
    "bp_grid_len": [uint] * 2,
    "bp_ground": [uint] * 5 + _list + [Pair, _address, _length],
    "bp_lay": [uint] * 6 + _list + [_address, _length, _address, _length],
    "bp_empty": [uint] * 5 + _list + [_address, _length, _address, _length],
    "bp_empty_first": [uint] * 6 + _list + [_address, _length, _address, _length],
    "bp_look": [uint] * 5 + _list + [_address, _length, int32, _out, Pair] + [_out] * 3,
    "bp_ofusc_collisions": [uint] * 5 + [Hits, _out],
    "bp_amc_collisions": [uint] * 2 + [Hits, _out],
    "bp_zone_plan_read": [_address, _length, _out, _out, Zones],
    "bp_zone_plan_write": [uint, uint, Zones, _address, _length, _out],
    "bp_bursts_check": [uint] * 5 + [_address, _length],
    "bp_burst_owner": [uint] * 7 + [_address, _length, _out, _out],
    "bp_burst_owners": [uint] * 6 + [_address, _length, Owners],
}


def _named() -> str:
    """The library that the environment names, or nothing."""
    return os.environ.get("BELLPULSAR_LIBRARY", "")


def _own() -> str:
    """This package's library: beside its modules where it is installed, else its tree's."""
    is_tree = os.path.exists(BUILDER) or os.path.exists(BUILT)
    return BUILT if is_tree and not os.path.lexists(BESIDE) else BESIDE


def _end_with_parent() -> None:
    """In a child: where the parent dies, it is told to end."""
    ctypes.CDLL(None).prctl(1, signal.SIGTERM)  # 1: PR_SET_PDEATHSIG


def build() -> None:
    """Builds the tree's library where it is missing or old; the builder tells so itself, on standard error. Nothing is
    done where another is used: one beside the modules, or one that the environment names."""
    if not _named() and _own() == BUILT:
        subprocess.run([BUILDER], stdout=sys.stderr or subprocess.DEVNULL, check=True, preexec_fn=_end_with_parent)
        engine.is_current = True


def _is_old() -> bool:
    return os.path.exists(BUILDER) and subprocess.run([BUILDER, "--check"]).returncode != 0


def _path(is_current: bool) -> str:
    """Of the library: named by the environment, or this package's own; a tree's must not be older than its source."""
    named = _named()
    path = named or _own()
    if not os.path.exists(path):
        mend = "run ./build.sh" if os.path.exists(BUILDER) else "install it again"
        raise ImportError("no Bellpulsar library at %s: %s, or name the library in BELLPULSAR_LIBRARY" % (path, mend))
    if not named and path == BUILT and not is_current and _is_old():
        raise ImportError("%s is old: the engine's source has changed since it was built; run ./build.sh" % path)
    return path


def _unfit(path: str, why: object) -> ImportError:
    return ImportError("%s is not a Bellpulsar library that can be loaded: %s" % (path, why))


def _call(library: ctypes.CDLL, path: str, name: str) -> Any:
    """One call of a library, its arguments declared."""
    try:
        call = getattr(library, name)
    except AttributeError:
        raise _unfit(path, "it has no %s, which version %s has" % (name, __version__)) from None
    call.argtypes = _PROTOTYPES[name]
    call.restype = _length if name.endswith("_len") else uint
    return call


def _load(path: str) -> Dict[str, Any]:
    """Each call by its name, of a library that has them all with the interface of this package."""
    try:
        library = ctypes.CDLL(os.path.abspath(path))
    except OSError as error:
        raise _unfit(path, error) from None
    told = _call(library, path, "bp_version")() // 10000
    if told != VERSION:
        raise _unfit(path, "its interface is version %d, and version %d is needed" % (told, VERSION))
    return {name: _call(library, path, name) for name in _PROTOTYPES}


class _Engine:
    """Its attributes are the calls; the first that is asked for loads them all."""

    is_current = False  # whether the library is known not to be old

    def __getattr__(self, name: str) -> Any:
        if name not in _PROTOTYPES:
            raise AttributeError(name)
        vars(self).update(_load(_path(self.is_current)))
        return vars(self)[name]


engine = _Engine()

_MOST = 2**32 - 1


def _number(value: Int) -> int:
    """As the engine takes it: what 32 bits do not hold becomes their largest, which every question refuses."""
    value = operator.index(value)
    return value if 0 <= value <= _MOST else _MOST


def numbers(*values: Int) -> List[int]:
    return [_number(value) for value in values]


class Listed(NamedTuple):
    """A list of pilots: the memory that a call is lent and its length, and the numbers as they were given."""

    memory: Optional[ctypes.Array[uint]]
    length: int
    given: Tuple[int, ...]


NO_PILOTS = Listed(None, 0, ())


def listed(pilots: Pilots) -> Listed:
    """A list as the engine takes it. What 32 bits do not hold becomes their largest, which is refused."""
    if pilots is None:
        return NO_PILOTS
    try:
        given = tuple(map(operator.index, pilots))
    except TypeError as error:
        raise TypeError("pilots: integers are needed, used numbers: %s" % error) from None
    try:
        row = array("I", given)
    except OverflowError:
        row = array("I", numbers(*given))
    return Listed((uint * len(row)).from_buffer_copy(row), len(row), given)


def signed(value: Int) -> int:
    """A carrier as the engine takes it: what 32 bits do not hold becomes the nearest that they do, which is refused."""
    return max(-(2**31), min(operator.index(value), 2**31 - 1))


def counted(value: Int) -> int:
    """A count of carriers as the engine takes it, which puts no question about it: what 32 bits do not hold becomes
    their largest, which is past every grid's end. A negative number is no count, and nothing would refuse it there."""
    value = operator.index(value)
    if value < 0:
        raise ValueError("carriers: a count is needed, 0 or more, not a negative number")
    return min(value, _MOST)
