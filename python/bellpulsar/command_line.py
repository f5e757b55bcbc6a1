"""The command line: its arguments, the library that it builds when needed, and its exit status.

0: answered. 1: refused by the engine. 2: not understood, or something could not be read, written or built.
"""

import argparse
import functools
import itertools
import os
import re
import signal
import subprocess
import sys
import traceback

from bellpulsar import Refusal, answers, batch, library, streams
from bellpulsar.files import STANDARD, put, reason_of, tell
from bellpulsar.version import __version__
from bellpulsar.words import (
    SHIELD,
    NotUnderstood,
    burst,
    burst_list,
    cells,
    count,
    hex_word,
    mask,
    mode,
    number,
    path,
    pilot,
    pilots,
    some,
    zone,
)

ANSWERED, REFUSED, FAILED = 0, 1, 2

RANGES = """\
modes and their ranges (N is SIZE / 64):
  MODE                        SIZE                  CELL      SUBCHANNEL  symbols a slot
  0 pusc-dl  PUSC downlink    2048                  0..31     0..59       2
  1 pusc-ul  PUSC uplink      2048                  0..69     0..69       3
  2 ofusc    optional FUSC    256 512 1024 2048     0..N*N-1  0..N-1      1
  3 amc-6x1  AMC 6x1          256 512 1024 2048     0..2351   0..N-1      1
  4 amc-2x3  AMC 2x3          256 512 1024 2048     0..2351   0..3*N-1    3
  5 amc-3x2  AMC 3x2          256 512 1024 2048     0..2351   0..2*N-1    2
  6 amc-1x6  AMC 1x6          256 512 1024 2048     0..2351   0..6*N-1    6
  7 fusc     FUSC             2048                  0..31     0..31       1

MODE is given by its number or its name. SIZE is the FFT size, CELL the permutation base. SLOT is 0..511, INDEX 0..47.
CARRIER is -SIZE/2..SIZE/2-1, by rising frequency, with DC at 0.
CARRIERS, of first and picture slot, is how many of a slot's carriers have arrived, symbol after symbol, each by rising
carrier, with guards, DC and pilots: 0 or more, and more than the slot has means all of them.
SLOTS, of bursts, owner, owners and picture zone, is how many slots the zone has, 1..512; there MODE is that of a plan's
zone, so never 1.
SYMBOL counts in the zone: slot times symbols a slot, plus the offset in the slot.
AMC has four slot shapes, bins x symbols; a bin is nine carriers in a row, of which one is a pilot.
MASK, of first, fill, empty, show, picture slot, all commands with bursts and a plan's zones, says which major groups of
mode 0 are lit: 1..63, bit g for group g. Groups 0 to 5 have the subchannels 0..11, 12..19, 20..31, 32..39, 40..51 and
52..59. In the other modes all is lit and MASK is 0.
PILOTS, of place, locate, table, first, fill, empty, show, picture slot and picture subchannel, are the pilots of mode
7, which needs them, as no other mode does: 166 used numbers, rising, below 1702. Used number u is carrier u - 851 below
851, and u - 850 from there on. They are one word, the numbers with commas between them, or a file that has them, one or
more on a line, apart by commas or blanks; # starts a comment, and - is standard input.
Any number may be given (of CARRIERS, any that is not negative): the engine refuses what is out of range."""

PLAN_RULES = """\
A plan has a SIZE (256, 512, 1024 or 2048) and one to eight zones, each of MODE 0 or 2 to 7, a CELL of that mode, 1 to
512 SLOTS and a MASK of that mode. At 2048 the first zone is mode 0, with any of its cells. After a zone of AMC (modes 3
to 6) come zones of AMC only, of any shape. A plan has no pilots.
bellpulsar --help has the modes, their cells and their masks."""

BURST_RULES = (
    """\
A BURST is a data region, a rectangle of subchannels by slots in the zone, as four numbers with commas: its first
subchannel, how many, its first slot, how many. Its position counts from 0. A list has 64 at most; none is empty or
reaches past the zone, and none overlaps an earlier one. Unlit subchannels count like lit ones.
In a file for --list a burst is a line, its numbers apart by commas or blanks; # starts a comment. A file may have none.

"""
    + RANGES
)

STREAM_RULES = (
    """\
Both files are raw complex 32-bit floats, in-phase first, in the byte order of this machine, as SDR tools write them;
- is standard input or output. A slot's points are those of its lit subchannels, rising, 48 each by index. A slot's grid
is its symbols one after the other, each SIZE points by rising carrier.
The slots of a frame follow one another, COUNT of them from FIRST on; then comes the next frame, from FIRST on again. In
mode 7 all of them have the same PILOTS. No bytes are no slots. An input that ends within a slot is an error, which says
how many bytes the last slot has and how many it should have; a file is told so before anything is written.
OUTPUT is written whole or left as it was, and may be INPUT itself; a pipe, a device and standard output have each slot
as soon as it is done. Where OUTPUT is -, a refusal is told on standard error.
Where standard error is a terminal, work that takes long shows there how far it is.

"""
    + RANGES
)

BATCH_RULES = """\
A line is a request, as the words of a command without bellpulsar: place, locate, collisions, plan write or owner; with
--json also first, plan read, bursts and owners. Words are apart by blanks; # starts a comment, and a line without words
has no answer. What has arrived is answered before more is read.
PILOTS of batch are those of each request in mode 7 that has no --pilots of its own.
The answer is what the command prints. A refusal is an answer too: "refused", its number and its words. A line that is
not understood is answered by "error:" and why; then the others follow, and at the end the exit status is 2, else 0.
bellpulsar --help has the modes and their ranges."""

OVERVIEW = """\
Where IEEE 802.16e OFDMA puts each point of a slot, and what belongs on a carrier, from an engine that is proved.
In a clone, the first use proves and builds the engine, in about two minutes."""

OVERVIEW_END = (
    RANGES
    + """

A request that cannot be met prints "refused", the number of the first question that is answered no, the value given
and what would be accepted; exit status 1.
What is not understood, read, written or built is told on standard error; exit status 2.
With --json, an answer is a JSON object on one line, whose fields the command's own help names, and a refusal is
{"refused": NUMBER, "words": TEXT}.

examples:
  bellpulsar place ofusc 1024 17 0 0 0
  bellpulsar locate 0 2048 5 1 -840 --json
  bellpulsar table amc-2x3 256 176 1 --csv
  bellpulsar first 3 256 176 0 100
  bellpulsar collisions ofusc 2048 0 2 1010 0
  bellpulsar fill pusc-dl 2048 5 points.cf32 grids.cf32
  bellpulsar batch <requests.txt >answers.txt
  bellpulsar plan read 02 80 08 02 11 03 00 03 B0 01 01 00
  bellpulsar owner 0 2048 5 12 3 25 0,20,0,12 20,30,0,6
  seq 26 10 1676 | bellpulsar place fusc 2048 0 0 31 46 --pilots -
  bellpulsar show 2 1024 17 0 --subchannel 3
  bellpulsar picture slot 0 2048 5 3 --mask 0b000011 --output slot.svg
  bellpulsar help place"""
)


# --- arguments --------------------------------------------------------------------------------

FIELDS = {
    "mode": "0 PUSC downlink, 1 PUSC uplink, 2 optional FUSC, 3 to 6 AMC 6x1, 2x3, 3x2, 1x6, 7 FUSC, or its name",
    "size": "the FFT size",
    "cell": "the permutation base",
    "cells": "one or more cells",
    "slots": "how many slots the zone has",
    "slot": "the slot's number in the zone",
    "subchannel": "the subchannel's number",
    "index": "the point's number in its subchannel and slot",
    "symbol": "the symbol's number in the zone",
    "carrier": "the carrier's number, counted from DC; below DC it is negative",
    "carriers": "how many of the slot's carriers have arrived",
    "cell_a": "the first cell",
    "subchannel_a": "a subchannel of the first cell",
    "cell_b": "the second cell",
    "subchannel_b": "a subchannel of the second cell",
}


# Of fields that are not any one number.
KINDS = {"mode": (mode, "MODE"), "cells": (cells, "CELL[,CELL..]"), "carriers": (count, "CARRIERS")}

# Options that take the next word, whatever it looks like, and those that take none.
VALUED = ("--carriers", "--file", "--list", "--mask", "--output", "--pilot", "--pilots", "--slot", "--slots")
VALUED += ("--subchannel",)
PLAIN = ("--csv", "--json")


def shielded(arguments):
    """As the argument parser takes them: options joined to their values; words that start like a number, or stand
    behind --, shielded."""
    words, rest = [], iter(arguments)
    for word in rest:
        if word in VALUED:
            words.append("=".join([word, *itertools.islice(rest, 1)]))
        elif word == "--":
            words += [SHIELD + more if more.startswith("-") else more for more in rest]
        elif re.match("-[0-9]", word):
            words.append(SHIELD + word)
        else:
            words.append(word)
    return words


def is_option(word):
    return word.partition("=")[0] in VALUED or word in PLAIN


class Parser(argparse.ArgumentParser):
    """Tells what it has to tell by `put`, or raises NotUnderstood, so that no failure is taken for an answer."""

    def __init__(self, **settings):
        formatter = argparse.RawDescriptionHelpFormatter
        super().__init__(allow_abbrev=False, formatter_class=formatter, **settings)

    def parse_known_args(self, args=None, namespace=None):
        """Of a command's own arguments, options go last: words of which there may be any number must stand together."""
        own = sorted(args, key=is_option) if self.get_default("answer") else args
        return super().parse_known_args(own, namespace)

    def print_help(self, file=None):
        put(self.format_help())

    def error(self, message):
        message = message.replace(SHIELD, "").replace(repr(SHIELD)[1:-1], "")
        raise NotUnderstood(message, "%s%s" % (self.format_usage(), self.prog))


class Version(argparse.Action):
    def __call__(self, parser, *_):
        put("bellpulsar %s\n" % __version__)
        parser.exit()


def sentence(summary):
    return summary[0].upper() + summary[1:] + "."


def command(commands, name, answer, summary, example, fields, notes=RANGES):
    """A command whose fields are numbers, or of KINDS; `answer` is the function that has its text."""
    parser = commands.add_parser(
        name,
        help=summary,
        description=sentence(summary),
        epilog="example:\n" + example + "\n\n" + notes,
    )
    parser.set_defaults(answer=answer, output=None, target=None, either=None, json=False, batch=None)
    parser.set_defaults(mode=None, pilots=None, source=None)
    for field in fields:
        kind, name = KINDS.get(field, (number, field.upper()))
        parser.add_argument(field, type=kind, metavar=name, help=FIELDS[field])
    return parser


def branch(commands, name, summary):
    """A command that has commands of its own."""
    more = "bellpulsar %s WHAT --help says how." % name
    parser = commands.add_parser(name, help=summary, description=sentence(summary), epilog=more)
    return parser.add_subparsers(required=True, metavar="WHAT", dest=name)


# Which answers a batch may have, since they are one line each.
AS_TEXT, AS_JSON = "text", "json"


def add_json(parser, fields, batch=AS_TEXT):
    parser.add_argument("--json", action="store_true", help="print a JSON object on one line: " + fields)
    parser.set_defaults(batch=batch)


class PilotList(argparse.Action):
    """Reads the list, from standard input only where the command's input does not come from there. A command's words
    are read before its options."""

    def __call__(self, parser, namespace, text, *_):
        if text == STANDARD and namespace.source == STANDARD:
            raise argparse.ArgumentError(self, "- is standard input, which has something else")
        try:
            namespace.pilots = pilots(text)
        except argparse.ArgumentTypeError as error:
            raise argparse.ArgumentError(self, str(error)) from None


def add_pilots(parser):
    told = "the pilots of mode 7, 166 used numbers with commas, or a file that has them; - is standard input"
    parser.add_argument("--pilots", action=PilotList, help=told)


def add_map(commands):
    example = "  bellpulsar place 2 1024 17 0 0 0\n  symbol 0 carrier -425"
    summary = "the symbol and carrier of a point"
    asking = command(commands, "place", answers.place, summary, example, batch.FIELDS["place"])
    add_pilots(asking)
    add_json(asking, "symbol, carrier")
    example = "  bellpulsar locate 2 1024 17 0 -425\n  data slot 0 subchannel 0 index 0"
    example += "\n\nprints guard, DC, pilot, or data with its slot, subchannel and index"
    summary = "what belongs on a carrier in a symbol of the zone"
    asking = command(commands, "locate", answers.locate, summary, example, batch.FIELDS["locate"])
    add_pilots(asking)
    add_json(asking, "kind (guard, DC, pilot, data), and of data slot, subchannel, index")


def add_table(commands):
    example = """\
  bellpulsar table 2 1024 17 0

prints a line for each point, by subchannel and index: the first is "subchannel 0 index 0 symbol 0 carrier -425\""""
    summary = "the symbol and carrier of every point of a slot"
    asking = command(commands, "table", answers.table, summary, example, ["mode", "size", "cell", "slot"])
    add_pilots(asking)
    forms = asking.add_mutually_exclusive_group()
    told = "print comma-separated values: a line of names, then the numbers of a point a line"
    forms.add_argument("--csv", action="store_true", help=told)
    told = "print a JSON object a line, for each point: subchannel, index, symbol, carrier"
    forms.add_argument("--json", action="store_true", help=told)


def add_collisions(commands):
    summary = "where one subchannel of a cell and one of a different cell share a carrier (optional FUSC), or\n"
    summary += "where both cells put the same index of a subchannel on the same carrier of the same symbol (AMC);\n"
    summary += "not for PUSC and FUSC"
    kinds = branch(commands, "collisions", summary)
    example = "  bellpulsar collisions ofusc 2048 0 2 1010 0\n  count 4 groups 0 1 31 32"
    example += """

A group is one of the 48 runs of N data numbers in a symbol. One subchannel and all subchannels of another cell together
share a carrier in all 48 groups, whichever the cells are. One cell may be given twice."""
    fields = batch.FIELDS["collisions ofusc"]
    summary = "optional FUSC: the groups in which one subchannel of a cell and one of a different cell share a carrier"
    add_json(command(kinds, "ofusc", answers.ofusc_collisions, summary, example, fields), "count, groups")
    example = "  bellpulsar collisions amc 48 176\n  count 3 indices 8 24 32"
    example += """

The answer is that of every subchannel, slot, slot shape and size. A subchannel has the same carriers under every cell:
what is counted is where both cells put the same index. One cell may be given twice."""
    summary = "AMC: the indices that a subchannel has on the same carrier of the same symbol under both cells"
    fields = batch.FIELDS["collisions amc"]
    add_json(command(kinds, "amc", answers.amc_collisions, summary, example, fields), "count, indices")


def add_source(parser, words, option, told, **settings):
    """An option that names a file in place of words; `told` says that either is needed."""
    parser.add_argument("--" + option, metavar="FILE", **settings)
    parser.set_defaults(either=(parser, words, option, told))


def add_plans(commands):
    kinds = branch(commands, "plan", "zone plans and their bytes")
    example = """\
  bellpulsar plan read 02 80 08 02 11 03 00 03 B0 01 01 00
  size 1024
  mode 2 cell 17 slots 3 mask 0
  mode 3 cell 176 slots 1 mask 0"""
    summary = "the size and the zones of a plan, a line each"
    reading = command(kinds, "read", answers.plan_read, summary, example, [], PLAN_RULES)
    reading.add_argument("words", nargs="*", type=hex_word, metavar="HEX", help="the plan's bytes, two hex digits each")
    told = "give the bytes either as HEX words or by --file"
    taken = "take the bytes from this file, as they are; - is standard input"
    add_source(reading, "words", "file", told, help=taken)
    add_json(reading, "size, zones; of each zone mode, cell, slots, mask", AS_JSON)
    example = "  bellpulsar plan write 2048 0,5,12,0x3F 3,176,1,0\n  02 80 10 00 05 0C 3F 03 B0 01 01 00"
    example += "\n\nMASK may also be in base sixteen or two, as 0x3F or 0b111111."
    summary = "the bytes of a plan, in hex"
    writing = command(kinds, "write", answers.plan_write, summary, example, ["size"], PLAN_RULES)
    name = "MODE,CELL,SLOTS,MASK"
    writing.add_argument("zones", nargs="*", type=zone, metavar=name, help="a zone, one to eight of them")
    add_json(writing, "bytes (in hex)")


def add_mask(parser):
    lit = "the major groups that are lit, in base ten, or as 0x.. or 0b..; without it all are"
    parser.add_argument("--mask", type=mask, help=lit)


def add_first(commands):
    example = """\
  bellpulsar first 3 256 176 0 100
  subchannel 0 points 48 of 48
  subchannel 1 points 23 of 48
  subchannel 2 points 0 of 48
  subchannel 3 points 0 of 48
  points 71 of 192

Each lit subchannel has a line, and the last line is their sum."""
    summary = "which points have arrived when the first carriers of a slot have"
    fields = ["mode", "size", "cell", "slot", "carriers"]
    asking = command(commands, "first", answers.first, summary, example, fields)
    add_mask(asking)
    add_pilots(asking)
    add_json(asking, "subchannels (of each subchannel, points, of), points, of", AS_JSON)


def add_stream(parser, source, target):
    """What fill and empty may be told, and their files."""
    parser.add_argument("source", type=path, metavar="INPUT", help="the file with the %s" % source)
    parser.add_argument("target", type=path, metavar="OUTPUT", help="the file for the %s" % target)
    first = "the number of the first slot (default 0)"
    parser.add_argument("--slot", type=number, default=0, metavar="FIRST", help=first)
    told = "how many slots a frame has, from FIRST on (default: all up to slot 511)"
    parser.add_argument("--slots", type=some, metavar="COUNT", help=told)
    add_mask(parser)
    add_pilots(parser)


def add_streams(commands):
    setup = ["mode", "size", "cell"]
    example = "  bellpulsar fill pusc-dl 2048 5 points.cf32 grids.cf32 --mask 0b000011 --pilot 1.333,0"
    summary = "fill points into grids, slot after slot, from file to file"
    filling = command(commands, "fill", streams.fill, summary, example, setup, STREAM_RULES)
    add_stream(filling, "points", "grids")
    point = "the point for every lit pilot (default 1,0)"
    filling.add_argument("--pilot", type=pilot, default="1,0", metavar="I,Q", help=point)
    example = "  bellpulsar empty amc-2x3 256 176 - - --slots 12 <grids.cf32 >points.cf32"
    summary = "take the points off grids, slot after slot, from file to file"
    add_stream(command(commands, "empty", streams.empty, summary, example, setup, STREAM_RULES), "grids", "points")


def add_batch(commands):
    example = """\
  printf 'place 2 1024 17 0 0 0\\nlocate ofusc 1024 17 0 -425\\n' | bellpulsar batch
  symbol 0 carrier -425
  data slot 0 subchannel 0 index 0"""
    summary = "answer requests, a line each, from standard input"
    asking = command(commands, "batch", batch_answers, summary, example, [], BATCH_RULES)
    told = "print every answer as a JSON object; of a line that is not understood: error"
    asking.add_argument("--json", action="store_true", help=told)
    told = "of requests in mode 7 without pilots of their own: 166 used numbers with commas, or a file that has them"
    asking.add_argument("--pilots", action=PilotList, help=told)
    asking.set_defaults(source=STANDARD)


def add_bursts(parser):
    """The list, and the mask of its zone."""
    parser.add_argument("bursts", nargs="*", type=burst, metavar="BURST", help="a burst, as four numbers with commas")
    told = "give the bursts either as BURST words or by --list"
    taken = "take the bursts from this file, four numbers a line; - is standard input"
    add_source(parser, "bursts", "list", told, type=burst_list, help=taken)
    add_mask(parser)


def add_owners(commands):
    zone = ["mode", "size", "cell", "slots"]
    example = """\
  bellpulsar bursts 0 2048 5 12 0,20,0,12 20,30,0,6
  burst 0 subchannels 0 to 19 slots 0 to 11 takes 240
  burst 1 subchannels 20 to 49 slots 0 to 5 takes 180
  bursts 2 take 420 of 720 free 300

A burst takes its subchannels times its slots, and the zone has all of its own."""
    summary = "whether a list of bursts is fit for its zone, and how much of it they take"
    asking = command(commands, "bursts", answers.bursts, summary, example, zone, BURST_RULES)
    add_bursts(asking)
    each = "bursts (of each subchannel, subchannels, slot, slots, takes), take, of, free"
    add_json(asking, each, AS_JSON)
    example = """\
  bellpulsar owner 0 2048 5 12 3 25 0,20,0,12 20,30,0,6
  burst 1 looked 2

prints the burst's position, or none, and how many bursts were looked at to find it"""
    summary = "the burst that a subchannel in a slot belongs to"
    fields = [*zone, "slot", "subchannel"]
    asking = command(commands, "owner", answers.owner, summary, example, fields, BURST_RULES)
    add_bursts(asking)
    add_json(asking, "burst (null where there is none), looked")
    example = """\
  bellpulsar owners 0 2048 5 12 3 0,20,0,12 20,30,0,6
  subchannels 0 to 19 burst 0
  subchannels 20 to 49 burst 1
  subchannels 50 to 59 burst none"""
    summary = "the bursts that all subchannels of one slot belong to"
    asking = command(commands, "owners", answers.owners, summary, example, [*zone, "slot"], BURST_RULES)
    add_bursts(asking)
    add_json(asking, "owners (of every subchannel its burst, or null)", AS_JSON)


def add_picks(drawing):
    """What show and the picture of a slot may be told."""
    drawing.add_argument("--subchannel", type=number, help="pick out the data of this subchannel, which must be lit")
    add_mask(drawing)
    add_pilots(drawing)


def add_show(commands):
    example = """\
  bellpulsar show 2 256 0 0 --subchannel 1

A row has 64 carriers, each a character; the number at the left is that of the row's first carrier."""
    summary = "a symbol of a zone as text, a character a carrier"
    add_picks(command(commands, "show", answers.show, summary, example, ["mode", "size", "cell", "symbol"]))


def add_output(drawing):
    drawing.add_argument("--output", metavar="FILE", help="the file to write; without it, or as -, standard output")


def add_pictures(commands):
    kinds = branch(commands, "picture", "SVG pictures")
    example = "  bellpulsar picture slot 0 2048 5 3 --mask 0b000011 --output slot.svg"
    summary = "a slot: carriers along x, symbols along y, a colour for each subchannel, hatched where unlit"
    drawing = command(kinds, "slot", answers.slot_picture, summary, example, ["mode", "size", "cell", "slot"])
    add_picks(drawing)
    pale = "draw the points pale that have not arrived when so many of the slot's carriers have"
    drawing.add_argument("--carriers", type=count, help=pale)
    add_output(drawing)
    example = "  bellpulsar picture zone 0 2048 5 12 0,20,0,12 20,30,0,6 --output zone.svg"
    example += "\n\nA burst has its number in it where there is room; all are in the legend."
    summary = "a zone: slots along x, subchannels along y, a colour for each burst, white where it is free"
    fields = ["mode", "size", "cell", "slots"]
    drawing = command(kinds, "zone", answers.zone_picture, summary, example, fields, BURST_RULES)
    add_bursts(drawing)
    add_output(drawing)
    example = "  bellpulsar picture subchannel 0 2048 0,1,31 0 1 --output subchannel.svg"
    summary = "a subchannel's points: carriers along x, indices along y, a panel for each cell"
    fields = ["mode", "size", "cells", "slot", "subchannel"]
    drawing = command(kinds, "subchannel", answers.subchannel_picture, summary, example, fields)
    add_pilots(drawing)
    add_output(drawing)


def add_help(commands):
    summary = "how a command is used, as COMMAND --help says it"
    example = "  bellpulsar help picture slot"
    asking = command(commands, "help", None, summary, example, [], "Without a COMMAND it says what there is.")
    asking.add_argument("words", nargs="*", metavar="COMMAND", help="the command, one word or two")


ADDING = (
    add_map,
    add_table,
    add_first,
    add_streams,
    add_batch,
    add_collisions,
    add_plans,
    add_owners,
    add_show,
    add_pictures,
    add_help,
)


@functools.cache
def argument_parser():
    parser = Parser(prog="bellpulsar", description=OVERVIEW, epilog=OVERVIEW_END)
    parser.add_argument("--version", action=Version, nargs=0, help="print the version and end")
    commands = parser.add_subparsers(required=True, metavar="COMMAND", dest="command")
    for add in ADDING:
        add(commands)
    return parser


def read_arguments(arguments):
    options = argument_parser().parse_args(shielded(arguments))
    if options.either:
        parser, words, option, told = options.either
        if bool(getattr(options, words)) == (getattr(options, option) is not None):
            parser.error(told)
    return options


# --- running ----------------------------------------------------------------------------------


def answer_to(options):
    """(exit status, text)."""
    try:
        return ANSWERED, options.answer(options)
    except Refusal as refusal:
        return REFUSED, answers.refused(refusal, options.json)


NO_REQUEST = ("-h", "--help", "--version")


def read_request(words, is_json):
    """The options of a line of a batch, whose answer must be a line as well."""
    if any(word == STANDARD or word.endswith("=" + STANDARD) for word in words):
        raise NotUnderstood("- is standard input, which has the requests")
    if any(word.startswith(NO_REQUEST) for word in words):
        raise NotUnderstood("%r is no request of a batch" % " ".join(words))
    options = read_arguments(words)
    options.json = options.json or is_json
    if options.batch == AS_JSON and not options.json:
        raise NotUnderstood("the answer has more than one line, where it is not a JSON object")
    if options.batch is None:
        raise NotUnderstood("%r is no request of a batch" % words[0])
    return options


def batch_answers(options):
    return batch.answer_all(options.json, options.pilots, lambda words: read_request(words, options.json), answer_to)


def main(arguments):
    """The exit status, once the answer is written or the failure told."""
    if arguments[:1] == ["help"] and "--help" not in arguments:
        arguments = [*arguments[1:], "--help"]
    try:
        options = read_arguments(arguments)
        library.build()
        status, text = answer_to(options)
        if status == REFUSED and options.target == STANDARD:
            tell(text)
        elif text:
            put(text, options.output if status == ANSWERED and options.output else STANDARD)
        return status
    except NotUnderstood as error:
        tell("%s: error: %s\n" % (error.usage, error))
        return FAILED
    except subprocess.CalledProcessError:
        message = "the engine could not be built"
    except OSError as error:
        message = reason_of(error)
    except ImportError as error:
        message = str(error)
    tell("bellpulsar: %s\n" % message)
    return FAILED


def run():
    """The command itself."""
    # A closed pipe and an interrupt end it without a word.
    signal.signal(signal.SIGPIPE, signal.SIG_DFL)
    signal.signal(signal.SIGINT, signal.SIG_DFL)
    try:
        status = main(sys.argv[1:])
    except SystemExit as ended:  # of the argument parser
        status = ended.code or ANSWERED
    except BaseException:
        tell(traceback.format_exc())
        status = FAILED
    # All is written. Python's own end would try again what a stream could not take, and end otherwise.
    os._exit(status)
