"""The words of the command line, each from text to its value; one that is not understood is an ArgumentTypeError."""

import argparse
import math
import re

from bellpulsar import Burst, Mode
from bellpulsar.buffers import pilot_point
from bellpulsar.files import start_of

# No argument can have it: before a word, it keeps the argument parser from taking -1 or -1,0,1 for an option.
SHIELD = "\0"

MODES = [mode.word for mode in Mode]  # by number


class NotUnderstood(Exception):
    """Of a command's words as a whole; `usage` says how it is used."""

    def __init__(self, message, usage=""):
        super().__init__(message)
        self.usage = usage


def path(text):
    return text.removeprefix(SHIELD)


def number(text):
    """A decimal number of any size; what lies far out becomes some number out of every range."""
    text = text.removeprefix(SHIELD)
    if not re.fullmatch("-?[0-9]+", text):
        raise argparse.ArgumentTypeError("%r is not a number" % text)
    digits = text.lstrip("-").lstrip("0") or "0"
    value = int(digits) if len(digits) <= 20 else 10**20
    return -value if "-" in text else value


def mode(text):
    """A number or a name."""
    name = text.removeprefix(SHIELD)
    if name in MODES:
        return MODES.index(name)
    if not re.search("[A-Za-z]", name):
        return number(text)
    raise argparse.ArgumentTypeError("%r is not a mode: 0 to %d or %s" % (name, len(MODES) - 1, ", ".join(MODES)))


def count(text):
    """A number that is not negative, of any size."""
    value = number(text)
    if value < 0:
        raise argparse.ArgumentTypeError("%r is not a count" % text.removeprefix(SHIELD))
    return value


def some(text):
    """A count of one or more."""
    value = count(text)
    if value == 0:
        raise argparse.ArgumentTypeError("%r is none, and one or more are needed" % text)
    return value


def mask(text):
    """A number, which may also be in base sixteen or two, after 0x or 0b."""
    digits = text.removeprefix(SHIELD)
    return int(digits, 0) if re.fullmatch("0[xX][0-9A-Fa-f]+|0[bB][01]+", digits) else number(text)


def decimal(text):
    """A number that may have a point and an exponent."""
    if not re.fullmatch(r"[-+]?([0-9]+\.?[0-9]*|\.[0-9]+)([eE][-+]?[0-9]+)?", text):
        raise argparse.ArgumentTypeError("%r is not a number" % text)
    value = float(text)
    if math.isinf(value):
        raise OverflowError
    return value


def pilot(text):
    """A point, as the engine takes it."""
    parts = text.split(",")
    if len(parts) != 2:
        raise argparse.ArgumentTypeError("%r is not a point: I,Q is needed" % text)
    try:
        return pilot_point(tuple(map(decimal, parts)))
    except OverflowError:
        raise argparse.ArgumentTypeError("%r is beyond 32-bit floats" % text) from None


def parted(text, name, form, between=","):
    """The four parts of a word or a line."""
    parts = re.split(between, text)
    if len(parts) != 4:
        raise argparse.ArgumentTypeError("%r is not a %s: %s is needed" % (text, name, form))
    return parts


def zone(text):
    own, *fields, lit = parted(text.removeprefix(SHIELD), "zone", "MODE,CELL,SLOTS,MASK")
    return (mode(own), *map(number, fields), mask(lit))


def burst(text, between=","):
    parts = parted(text.removeprefix(SHIELD), "burst", "SUBCHANNEL,SUBCHANNELS,SLOT,SLOTS", between)
    return Burst(*map(number, parts))


LIST_LIMIT = 2**20  # bytes: far more than 64 bursts or 166 pilots need
BETWEEN = "[ \t]*,[ \t]*|[ \t]+"  # two numbers of a line


def lines_of(path, read):
    """What `read` makes of each line of a file that has more than blanks and a comment."""
    data = start_of(path, LIST_LIMIT + 1)
    if len(data) > LIST_LIMIT:
        raise argparse.ArgumentTypeError("%s has more than %d bytes" % (path, LIST_LIMIT))
    text, things = data.decode("utf-8-sig", "replace").replace(SHIELD, "\ufffd"), []
    for at, line in enumerate(text.split("\n"), 1):
        line = line.partition("#")[0].strip(" \t\r")
        try:
            things += [read(line)] if line else []
        except argparse.ArgumentTypeError as error:
            raise argparse.ArgumentTypeError("%s, line %d: %s" % (path, at, error)) from None
    return things


def burst_list(path):
    """The bursts of a file, one on each line."""
    return lines_of(path, lambda line: burst(line, BETWEEN))


def pilots(text):
    """A list of pilots: numbers with commas, or the file that has them, one or more on each line."""
    text = text.removeprefix(SHIELD)
    if re.fullmatch("-?[0-9]+(,-?[0-9]+)*", text):
        return [number(part) for part in text.split(",")]
    rows = lines_of(text, lambda line: [number(part) for part in re.split(BETWEEN, line)])
    return [part for row in rows for part in row]


def cells(text):
    return [number(part) for part in text.removeprefix(SHIELD).split(",")]


def hex_word(text):
    text = text.removeprefix(SHIELD)
    if not re.fullmatch("([0-9A-Fa-f]{2})*", text):
        raise argparse.ArgumentTypeError("%r is not bytes in hex, two digits each" % text)
    return bytes.fromhex(text)
