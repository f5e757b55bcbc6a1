"""Prints the man page of the C calls, section 3, from the header, which says all of it.

    python3 installed/manual.py <include/bellpulsar.h

A comment at a line's start speaks of what follows it, up to the next one: the first of the whole, the others of names or of
a call. Two comments in a row speak of the same call.
"""

import re
import sys

HEAD = """\
.\\" Made from bellpulsar.h by installed/manual.py.
.TH BELLPULSAR 3 "" "bellpulsar {version}" "Library Functions"
.SH NAME
{names} \\- the subcarrier map of IEEE 802.16e OFDMA, proved
.SH SYNOPSIS
.EX
#include <bellpulsar.h>

{calls}
.EE
.PP
Link with
.BR \\-lbellpulsar .
.SH DESCRIPTION
"""
TAIL = """\
.SH SEE ALSO
.BR bellpulsar (1),
.BR pkg-config (1)
"""


def shielded(line):
    """A line of text as groff prints it unchanged."""
    for sign, name in (("\\", "\\e"), ("-", "\\-"), ("'", "\\(aq"), ("`", "\\(ga")):
        line = line.replace(sign, name)
    return "\\&" + line if line.startswith(".") else line


def verbatim(lines):
    return [".EX", *map(shielded, lines), ".EE"]


def is_verbatim(lines):
    """Of code and of tables."""
    return all(line.startswith("    ") for line in lines) or any("  " in line.strip() for line in lines)


def flowing(lines):
    """A new line stays one where the line before it ends a sentence."""
    yield shielded(lines[0].strip())
    for before, line in zip(lines, lines[1:]):
        if before.endswith("."):
            yield ".br"
        yield shielded(line.strip())


def told(comment):
    """The lines of the page that a comment makes."""
    lines = [re.sub(r"^ \* ?", "", line).rstrip() for line in comment.strip().splitlines()]
    for n, part in enumerate("\n".join(lines).split("\n\n")):
        if n > 0:
            yield ".PP"
        yield from verbatim(part.split("\n")) if is_verbatim(part.split("\n")) else flowing(part.split("\n"))


def page(header):
    calls = re.findall(r"^\w+ bp_\w+\([^;]*\);", header, re.MULTILINE)
    names = ["bellpulsar", *(re.search(r"bp_\w+", call)[0] for call in calls)]
    version = ".".join(re.findall(r"^#define BP_VERSION(?:_MINOR|_PATCH)? (\d+)$", header, re.MULTILINE))
    synopsis = "\n".join(shielded(line) for call in calls for line in call.splitlines())
    yield HEAD.format(version=version, names=", ".join(names), calls=synopsis).rstrip()
    _, whole, *parts = re.split(r"^/\*(.*?)\*/$", header, flags=re.MULTILINE | re.DOTALL)
    yield from told(whole)
    yield ".SH NAMES"
    waiting = []  # comments whose call is still to come
    for comment, code in zip(parts[1::2], parts[2::2]):
        waiting += [".PP", *told(comment)]
        call = re.match(r"\w+ (bp_\w+)\([^;]*\);", code.strip())
        if call:
            yield from [".SH CALLS"] if call[1] == names[1] else []
            yield from [".SS " + call[1], *verbatim(call[0].splitlines()), *waiting]
        elif code.strip():
            yield from [*waiting, ".PP", *verbatim(code.strip().splitlines())]
        waiting = [] if code.strip() else waiting
    yield TAIL.rstrip()


print("\n".join(page(sys.stdin.read())))
