"""The engine's shared library, and the memory that a test lends to its calls.

All that a call is lent lies in one arena: its buffers and out parameters, guard bytes between them, and random bytes
wherever nothing is given to the call. The arena is compared whole after the call, so a byte that was written beside, or
written without need, shows, as does one that was not written.
"""

import ctypes
import mmap
import os
import struct
import subprocess

ROOT = os.path.dirname(os.path.dirname(os.path.abspath(__file__)))
LIBRARY = os.path.join(ROOT, "build", "link", "libbellpulsar.so")

FIELD, CARRIER, LENGTH, POINTER = ctypes.c_uint32, ctypes.c_int32, ctypes.c_size_t, ctypes.c_void_p

# The arguments of each call: f a field, c a carrier, which has a sign, p a pointer, n a length.
SIGNATURES = {
    "bp_version": "",
    "bp_place": "ffffffpnpp",
    "bp_places": "fffffpnp",
    "bp_locate": "ffffcpnpppp",
    "bp_points_len": "ff",
    "bp_lit_points_len": "fff",
    "bp_grid_len": "ff",
    "bp_ground": "fffffpnppn",
    "bp_lay": "ffffffpnpnpn",
    "bp_empty": "fffffpnpnpn",
    "bp_empty_first": "ffffffpnpnpn",
    "bp_look": "fffffpnpncppppp",
    "bp_ofusc_collisions": "fffffpp",
    "bp_amc_collisions": "ffpp",
    "bp_zone_plan_read": "pnppp",
    "bp_zone_plan_write": "ffppnp",
    "bp_bursts_check": "fffffpn",
    "bp_burst_owner": "fffffffpnpp",
    "bp_burst_owners": "ffffffpnp",
}


def load():
    """The shared library, built where it is not up to date, each call's arguments declared."""
    subprocess.run([os.path.join(ROOT, "build.sh")], check=True)
    library = ctypes.CDLL(LIBRARY)
    for name, signature in SIGNATURES.items():
        call = getattr(library, name)
        call.argtypes = [{"f": FIELD, "c": CARRIER, "p": POINTER, "n": LENGTH}[kind] for kind in signature]
        call.restype = LENGTH if name.endswith("_len") else FIELD
    return library


# --- contents ---------------------------------------------------------------------------------


def pattern(dice):
    """The bits of a float: NaNs of both kinds with a payload, infinities, zeros, subnormals, or any, of either sign."""
    bits = dice.choice(
        [
            0x7FC00000 + dice.randrange(2**22),
            0x7F800000 + dice.randrange(1, 2**22),
            0x7F800000,
            0,
            dice.randrange(1, 2**23),
            dice.randrange(2**31),
            dice.randrange(2**31),
            dice.randrange(2**31),
        ]
    )
    return bits + dice.choice([0, 2**31])


class Noise:
    """Random floats, made once; a request takes a run of them that starts anywhere."""

    FLOATS = 2**17  # more than any arena has

    def __init__(self, dice):
        self.bytes = words([pattern(dice) for _ in range(self.FLOATS)])

    def run(self, dice, size):
        start = 4 * dice.randrange(self.FLOATS - size // 4)
        return bytearray(self.bytes[start : start + size])


def words(numbers):
    """Numbers as 32-bit words in memory."""
    return struct.pack("%dI" % len(numbers), *numbers)


def signed_word(number):
    return struct.pack("i", number)


# --- memory -----------------------------------------------------------------------------------

GUARD = 64
ROOM = 2**20  # more than any arena
LONG = 2**32  # a length that 32 bits do not hold
NO_RESERVE = 0x4000  # Linux: address space alone, no memory until it is touched


def reserve():
    """Memory for the arenas, if possible with address space behind it for LONG floats and more."""
    flags = mmap.MAP_PRIVATE | mmap.MAP_ANONYMOUS | NO_RESERVE
    try:
        return mmap.mmap(-1, 4 * LONG + ROOM, flags=flags)
    except OSError:
        return mmap.mmap(-1, ROOM)


MEMORY = reserve()
BASE = ctypes.addressof(ctypes.c_char.from_buffer(MEMORY))
HAS_LONG = len(MEMORY) > 4 * LONG  # whether a length past 32 bits may be given to the last piece of an arena


class Arena:
    """What is lent to one call: pieces of so many bytes, guard bytes around each."""

    def __init__(self, *rooms):
        self.at, self.size = [], GUARD
        for room in rooms:
            self.at.append(self.size)
            self.size += -(-room // 8) * 8 + GUARD
        assert self.size <= ROOM

    def address(self, piece):
        return BASE + self.at[piece]

    def put(self, contents, piece, data):
        at = self.at[piece]
        contents[at : at + len(data)] = data

    def difference(self, contents, call, arguments, given, refusal, written):
        """In words, where the call answers another number or writes anything but this; else nothing. What is given and
        what is written are pairs of a piece and its bytes."""
        for piece, data in given:
            self.put(contents, piece, data)
        MEMORY[: self.size] = bytes(contents)
        answer = call(*arguments)
        for piece, data in written:
            self.put(contents, piece, data)
        after = MEMORY[: self.size]
        if answer != refusal:
            return "answers %d instead of %d" % (answer, refusal)
        return "" if after == contents else "leaves %s" % self.first_difference(after, contents)

    def first_difference(self, after, wanted):
        """Counted from the start of the last piece that starts before it: past its length are guard bytes."""
        byte = [i for i in range(self.size) if after[i] != wanted[i]][0]
        piece = max([n for n, at in enumerate(self.at) if at <= byte], default=0)
        place = (byte - self.at[piece], piece, after[byte], wanted[byte])
        return "byte %d of piece %d as %02X instead of %02X" % place
