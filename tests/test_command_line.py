#!/usr/bin/env python3
"""Runs ./bellpulsar and holds what it prints to document 01's known points and to the reference.

    python3 tests/test_command_line.py
"""

import contextlib
import glob
import io
import itertools
import json
import os
import pty
import random
import re
import shlex
import signal
import struct
import subprocess
import sys
import tempfile
import threading
import time
import unittest
import xml.etree.ElementTree as ElementTree
from array import array

import pilot_lists
import reference as ref

ROOT = os.path.dirname(os.path.dirname(os.path.abspath(__file__)))
sys.path.insert(0, os.path.join(ROOT, "python"))

import bellpulsar  # noqa: E402
from bellpulsar import command_line, refusals  # noqa: E402

COMMAND = os.path.join(ROOT, "bellpulsar")
SVG = "{http://www.w3.org/2000/svg}"

# As a user has it: buffered output, and the library of this tree.
ENV = {name: value for name, value in os.environ.items() if name not in ("PYTHONUNBUFFERED", "BELLPULSAR_LIBRARY")}


def run(*arguments, env=ENV, **options):
    """Of a command: standard output, standard error and exit status."""
    command = [COMMAND, *map(str, arguments)]
    return subprocess.run(command, capture_output=True, timeout=60, env=env, **options)


def asked(*arguments):
    """The same in this process, which is much faster."""
    out, err = io.TextIOWrapper(io.BytesIO()), io.TextIOWrapper(io.BytesIO())
    with contextlib.redirect_stdout(out), contextlib.redirect_stderr(err):
        try:
            status = command_line.main([str(word) for word in arguments])
        except SystemExit as ended:
            status = ended.code or 0
        out.flush(), err.flush()
    return subprocess.CompletedProcess(arguments, status, out.buffer.getvalue(), err.buffer.getvalue())


@contextlib.contextmanager
def talking(*arguments, pipe=subprocess.PIPE):
    """A command with pipes; where it does not answer, it is ended after a while."""
    words = [COMMAND, *map(str, arguments)]
    with subprocess.Popen(words, stdin=pipe, stdout=pipe, stderr=pipe, env=ENV) as command:
        end = threading.Timer(60, command.kill)
        end.start()
        yield command
        end.cancel()


def send(command, *pieces):
    for piece in pieces:
        command.stdin.write(piece)
        command.stdin.flush()


def file_text(path):
    with open(os.path.join(ROOT, path), encoding="utf-8") as file:
        return file.read()


def run_shell(line):
    return subprocess.run(["sh", "-c", line], capture_output=True, timeout=60, env=ENV)


class Case(unittest.TestCase):
    def prints(self, line, text, **options):
        done = run(*shlex.split(line), **options) if options else asked(*shlex.split(line))
        self.assertEqual((done.stdout.decode(), done.stderr, done.returncode), (text, b"", 0), line)

    def refused(self, number, line, words=None, **options):
        """With these words, or with any that are not the question alone."""
        done = run(*shlex.split(line), **options) if options else asked(*shlex.split(line))
        start, told = done.stdout.decode().split(": ", 1)
        self.assertEqual((start, done.stderr, done.returncode), ("refused %d" % number, b"", 1), line)
        self.assertRegex(told, r"^[^?\n]+\n$", line)
        if words:
            self.assertEqual(told, words + "\n", line)

    def not_understood(self, *arguments):
        done = asked(*arguments)
        self.assertEqual((done.stdout, done.returncode), (b"", 2), arguments)
        self.assertRegex(done.stderr.decode(), r"^usage: bellpulsar[\s\S]*: error: [^\0]*\n$", arguments)
        self.assertNotIn(b"x00", done.stderr)

    def fails(self, message, *arguments, **options):
        done = run(*arguments, **options)
        self.assertEqual((done.stdout, done.stderr.decode(), done.returncode), (b"", message, 2))

    def ends_silently(self, line):
        """Of a command whose reader has gone before it writes: the signal of a closed pipe ends it."""
        with tempfile.NamedTemporaryFile() as file:
            done = run_shell("{ sleep 0.1; '%s' %s; echo $? >'%s'; } | true" % (COMMAND, line, file.name))
            self.assertEqual((done.stderr, file.read()), (b"", b"%d\n" % (128 + signal.SIGPIPE)), line)


# --- answers ----------------------------------------------------------------------------------

NAMES = {ref.DC: "DC"}  # what is told by another name than the reference's


def located(what):
    """What `locate` prints of what the reference has."""
    kind, *address = what
    return "data slot %d subchannel %d index %d" % tuple(address) if address else NAMES.get(kind, kind)


def as_word(pilots):
    return ",".join(map(str, pilots))


PILOTS = range(26, 1677, 10)  # of FUSC: every tenth used number
SPREAD = as_word(PILOTS)


def last_of_fusc():
    """The carrier of its last point under the last cell, with these pilots."""
    return ref.place(7, 2048, 31, 511, 31, 47, PILOTS)[2]


class Map(Case):
    def test_as_a_process(self):
        done = run("place", 2, 1024, 17, 0, 0, 0)
        self.assertEqual((done.stdout, done.stderr, done.returncode), (b"symbol 0 carrier -425\n", b"", 0))
        done = run("place", 2, 1024, 256, 0, 0, 0)
        self.assertEqual((done.stdout[:11], done.stderr, done.returncode), (b"refused 3: ", b"", 1))

    def test_place(self):
        self.prints("place 2 1024 0 0 3 5", "symbol 0 carrier 41\n")
        self.prints("place 2 1024 0 1 3 5", "symbol 1 carrier 40\n")
        self.prints("place 2 1024 17 0 0 0", "symbol 0 carrier -425\n")
        self.prints("place 0 2048 0 0 1 11", "symbol 0 carrier 838\n")
        self.prints("place 0 2048 0 0 1 35", "symbol 1 carrier 837\n")
        self.prints("place 1 2048 0 0 1 0", "symbol 1 carrier -647\n")
        self.prints("place 4 256 176 1 5 1", "symbol 4 carrier -6\n")

    def test_ranges(self):
        self.prints("place 2 256 15 0 0 0", "symbol 0 carrier %d\n" % ref.place(2, 256, 15, 0, 0, 0)[2])
        self.refused(3, "place 2 256 16 0 0 0")
        self.prints("place 3 256 2351 511 0 0", "symbol 511 carrier %d\n" % ref.place(3, 256, 2351, 511, 0, 0)[2])
        self.refused(3, "place 3 256 2352 511 0 0")
        self.refused(4, "place 3 256 2351 512 0 0")
        self.prints("place 6 2048 2351 511 191 47", "symbol 3070 carrier 862\n")
        self.refused(5, "place 6 2048 2351 511 192 47")
        self.prints("locate 6 2048 2351 3071 863", "pilot\n")
        self.refused(4, "locate 6 2048 2351 3072 863")
        self.prints("place 7 2048 31 511 31 47 --pilots " + SPREAD, "symbol 511 carrier %d\n" % last_of_fusc())
        self.refused(3, "place 7 2048 32 511 31 47 --pilots " + SPREAD)
        self.refused(5, "place 7 2048 31 511 32 47 --pilots " + SPREAD)
        self.refused(1, "place 8 2048 0 0 0 0")

    def test_locate(self):
        for cell in (0, 5, 31):
            slot, subchannel, index = ref.locate(0, 2048, cell, 0, -840)[1][1:]
            data = "data slot %d subchannel %d index %d\n" % (slot, subchannel, index)
            self.prints("locate 0 2048 %d 0 -840" % cell, data)
            self.prints("locate 0 2048 %d 1 -840" % cell, "pilot\n")
        self.prints("locate 0 2048 31 0 -841", "guard\n")
        self.prints("locate 0 2048 31 1 0", "DC\n")
        self.prints("locate 2 1024 17 0 -425", "data slot 0 subchannel 0 index 0\n")

    def test_the_middle_and_the_ends_of_a_symbol(self):
        for mode in range(7):
            for size in ref.sizes(mode):
                half = size // 2
                for carrier in (-half, -1, 0, 1, half - 1):
                    text = located(ref.locate(mode, size, 1, 1, carrier)[1])
                    self.prints("locate %d %d 1 1 %d" % (mode, size, carrier), text + "\n")
                for carrier in (-half - 1, half, -(2**31), 2**31 - 1, -(2**31) - 1, 2**31, 2**32 - 1, -(2**32), 2**64):
                    words = "carrier %d is not one of size %d's: %d to %d" % (carrier, size, -half, half - 1)
                    self.refused(7, "locate %d %d 1 1 %d" % (mode, size, carrier), words)

    def test_every_refusal_of_a_field(self):
        good = "2 1024 255 511 15 47".split()
        for at, bad in enumerate("8 2047 256 512 16 48".split()):
            self.refused(at + 1, "place " + " ".join(good[:at] + [bad] + good[at + 1 :]))
        good = "1 2048 69 1535 1023".split()
        for at, (bad, number) in enumerate([(8, 1), (1024, 2), (70, 3), (1536, 4), (1024, 7)]):
            self.refused(number, "locate " + " ".join(good[:at] + [str(bad)] + good[at + 1 :]))

    def test_numbers_of_any_size(self):
        huge = "9" * 6000
        for bad in ("-1", "4294967296", "18446744073709551616", huge, "-" + huge, "-0000001"):
            self.refused(1, "place %s %s 0 0 0 0" % (bad, bad))
            self.refused(6, "place 2 1024 17 0 0 %s" % bad)
        for bad in ("-513", "4294967295", "-4294967296", "18446744073709551615", huge, "-" + huge, "-0000513"):
            self.refused(7, "locate 2 1024 17 0 %s" % bad)
        self.prints("place 002 1024 17 -0 0 %s" % ("0" * 6000), "symbol 0 carrier -425\n")
        self.prints("locate 2 1024 17 0 -%s425" % ("0" * 6000), "data slot 0 subchannel 0 index 0\n")
        self.prints("locate 2 1024 17 0 -0", "DC\n")

    def test_the_first_refusal(self):
        self.refused(3, "place 2 1024 -1 -1 -1 -1")
        self.refused(2, "place 2 -1 -1 -1 -1 -1")
        self.refused(4, "locate 2 1024 0 512 512")
        self.refused(4, "locate 2 1024 0 -1 -513")

    def test_a_sign_makes_no_option(self):
        """A word that starts with - and a digit is a number, wherever it stands among options."""
        at = "data slot 0 subchannel 0 index 0\n"
        for line in ("locate 2 1024 17 0 -425", "locate 2 1024 17 0 -- -425", "locate -- 2 1024 17 0 -425"):
            self.prints(line, at, cwd="/")
        for line in ("locate 2 1024 17 0 -425 --help", "locate --help 2 1024 17 0 -425", "locate -h -1 -425"):
            self.assertEqual(asked(*line.split()).stdout, asked("locate", "--help").stdout)
        self.refused(1, "locate -1 -1 -1 -1 -1")
        for words in ("--subchannel -1 0 2048 31 7", "0 --subchannel -1 2048 31 7", "0 2048 31 7 --subchannel=-1"):
            self.refused(5, "show " + words)
        self.refused(1, "show --subchannel -1 -1 -1 -1 -1")
        for words in ("--mask -1 0 2048 31 7", "0 --mask -1 2048 31 7", "0 2048 31 7 --mask=-1"):
            self.refused(17, "show " + words)
        for words in ("--output -1 --subchannel -1 -1 256 0 0", "-1 256 --output -1 0 0 --subchannel -1"):
            self.refused(1, "picture slot " + words)
        self.refused(4, "picture subchannel 0 2048 0 -1 -1 --output -1")
        self.not_understood("locate", 2, 1024, 17, 0, -425, -1)
        self.not_understood("locate", 2, 1024, 17, -425)
        self.not_understood("locate", 2, 1024, 17, 0, "-425x")
        self.not_understood("locate", 2, 1024, 17, 0, "-x425")


class Words(Case):
    """A refusal says what was asked, the value given and what would be accepted."""

    def test_of_fields(self):
        self.refused(1, "place 8 1024 256 0 0 0", "mode 8 is not one of the map's: 0 to 7")
        self.refused(2, "place 7 1024 256 0 0 0", "size 1024 is not one of mode 7's: 2048")
        self.refused(2, "place 0 1024 0 0 0 0", "size 1024 is not one of mode 0's: 2048")
        self.refused(3, "place 2 1024 256 0 0 0", "cell 256 is not one of mode 2's at size 1024: 0 to 255")
        self.refused(4, "locate 1 2048 0 1536 0", "symbol 1536 is not one of mode 1's: 0 to 1535")
        self.refused(6, "place 2 1024 0 0 0 -1", "index -1 is not one of a subchannel's: 0 to 47")
        self.refused(7, "locate 3 256 0 0 256", "carrier 256 is not one of size 256's: -128 to 127")
        self.refused(7, "locate 3 256 0 0 -129", "carrier -129 is not one of size 256's: -128 to 127")
        self.refused(3, "collisions amc 0 2352", "cell_b 2352 is not one of AMC's: 0 to 2351")
        self.refused(5, "show 0 2048 0 0 --subchannel 60", "subchannel 60 is not one of mode 0's: 0 to 59")
        words = "subchannel 8 is not one of mode 3's at size 512: 0 to 7"
        self.refused(5, "picture slot 3 512 0 0 --subchannel 8", words)
        words = "subchannel 192 is not one of mode 6's at size 2048: 0 to 191"
        self.refused(5, "picture subchannel 6 2048 0 0 192", words)
        self.refused(4, "show 6 256 0 3072", "symbol 3072 is not one of mode 6's: 0 to 3071")
        self.refused(17, "show 0 2048 0 0 --mask 64", "mask 64 is not one of mode 0's: 1 to 63")
        self.refused(17, "picture slot 2 256 0 0 --mask 0x3F", "mask 63 is not one of mode 2's: 0")
        words = "subchannel 20 is not one of those that mask 35 lights: 0 to 19, 52 to 59"
        self.refused(5, "show 0 2048 0 0 --mask 0b100011 --subchannel 20", words)

    def test_of_any_size(self):
        self.refused(1, "place %d 0 0 0 0 0" % 2**64, "mode %d is not one of the map's: 0 to 7" % 2**64)
        words = "cell of more than 20 digits is not one of mode 0's: 0 to 31"
        self.refused(3, "place 0 2048 %s 0 0 0" % ("9" * 6000), words)

    def test_of_plans(self):
        self.refused(10, "plan read 01 80 08 02", "4 bytes end within zone 1's cell, and more must follow")
        self.refused(11, "plan read 81 00", "the count is 81 00, which is not its shortest form")
        self.refused(12, "plan write 1024", "count 0 is not one of a plan's: 1 to 8")
        for mode in range(3, 7):
            words = "zone 2: mode 2 follows mode %d, after which only modes 3 to 6 are accepted" % mode
            self.refused(14, "plan write 1024 %d,0,1,0 2,0,1,0" % mode, words)
        self.refused(1, "plan write 1024 8,0,1,0", "zone 1: mode 8 is not one of a plan's: 0, 2, 3, 4, 5, 6, 7")
        self.refused(2, "plan write 1024 7,0,1,0", "zone 1: size 1024 is not one of mode 7's: 2048")
        words = "zone 3: mode 7 follows mode 4, after which only modes 3 to 6 are accepted"
        self.refused(14, "plan write 2048 0,0,1,63 4,0,1,0 7,0,1,0", words)
        self.refused(17, "plan write 2048 0,0,1,0", "zone 1: mask 0 is not one of mode 0's: 1 to 63")
        self.refused(17, "plan write 2048 0,0,1,1 2,0,1,1", "zone 2: mask 1 is not one of mode 2's: 0")
        self.refused(15, "plan read %s 00" % EXAMPLE, "13 bytes are given, and the plan ends after 12")

    def test_of_bursts(self):
        for what in ("bursts 0 2048 5 12", "owner 0 2048 5 12 0 0", "owners 0 2048 5 12 0", "picture zone 0 2048 5 12"):
            words = "burst 1 is 50,11,2,1: subchannels 50 to 60 are not all of mode 0's: 0 to 59"
            self.refused(18, what + " 0,60,0,2 50,11,2,1", words)
            words = "burst 0 is 0,60,11,2: slots 11 to 12 are not all of the zone's: 0 to 11"
            self.refused(18, what + " 0,60,11,2", words)
            self.refused(18, what + " 0,60,0,0", "burst 0 is 0,60,0,0: 0 slots, not 1 or more")
            self.refused(18, what + " 0,-1,0,0", "burst 0 is 0,-1,0,0: -1 subchannels, not 1 or more")
            self.refused(18, what + " 0,1,0,1" * 65, "65 bursts are given, not 64 or fewer")
            words = "burst 2 is 20,3,1,5: it overlaps burst 1, which is 21,1,5,1"
            self.refused(19, what + " 0,20,0,12 21,1,5,1 20,3,1,5 0,0,0,0", words)


class Collisions(Case):
    def test_optional_fusc(self):
        self.prints("collisions ofusc 2048 0 2 1010 0", "count 4 groups 0 1 31 32\n")
        for line, count in (("1024 0 6 17 0", 7), ("1024 0 2 244 0", 8), ("512 9 3 9 4", 0), ("256 3 1 3 1", 48)):
            _, hits, found = ref.ofusc_collisions(*map(int, line.split()))
            self.assertEqual(found, count)
            groups = " ".join(str(k) for k in range(48) if hits[k]) or "none"
            self.prints("collisions ofusc " + line, "count %d groups %s\n" % (count, groups))

    def test_amc(self):
        self.prints("collisions amc 48 176", "count 3 indices 8 24 32\n")
        self.prints("collisions amc 7 7", "count 48 indices %s\n" % " ".join(map(str, range(48))))

    def test_refusals(self):
        self.refused(2, "collisions ofusc 128 0 0 0 0")
        self.refused(3, "collisions ofusc 256 15 4 -1 4")
        self.refused(5, "collisions ofusc 256 15 4 15 0")
        self.refused(5, "collisions ofusc 256 15 0 15 -1")
        self.refused(3, "collisions amc 2352 0")
        self.refused(3, "collisions amc 0 -1")


EXAMPLE = "02 80 08 02 11 03 00 03 B0 01 01 00"
EXAMPLE_TEXT = "size 1024\nmode 2 cell 17 slots 3 mask 0\nmode 3 cell 176 slots 1 mask 0\n"


class Plans(Case):
    def test_read_words(self):
        self.prints("plan read " + EXAMPLE, EXAMPLE_TEXT)
        self.prints("plan read 0280080211 030003b0010100", EXAMPLE_TEXT)
        self.prints("plan read 01 80 10 00 00 0C 3F", "size 2048\nmode 0 cell 0 slots 12 mask 63\n")
        self.prints("plan read 01 80 10 00 05 0C 3F", "size 2048\nmode 0 cell 5 slots 12 mask 63\n")
        self.prints("plan read 01 80 10 00 05 0C 01", "size 2048\nmode 0 cell 5 slots 12 mask 1\n")
        text = "size 1024\nmode 4 cell 0 slots 1 mask 0\nmode 3 cell 0 slots 1 mask 0\n"
        self.prints("plan read 02 80 08 04 00 01 00 03 00 01 00", text)
        text = "size 2048\nmode 0 cell 5 slots 12 mask 63\nmode 7 cell 31 slots 9 mask 0\n"
        self.prints("plan read 02 80 10 00 05 0C 3F 07 1F 09 00", text)

    def test_read_refusals(self):
        self.refused(14, "plan read 01 80 10 02 00 0C 00")
        self.refused(17, "plan read 01 80 10 02 00 0C 3F")
        self.refused(17, "plan read 01 80 10 00 00 0C 40")
        self.refused(10, "plan read 01 80 10 00 00 0C")
        self.refused(11, "plan read 81 00")
        self.refused(10, "plan read ''")
        self.refused(12, "plan read 00")
        self.refused(2, "plan read 01 00")
        self.refused(1, "plan read 01 80 08 01 00 01 00")
        self.refused(1, "plan read 01 80 08 08 00 01 00")
        self.refused(2, "plan read 01 80 08 07 00 01 00")
        self.refused(14, "plan read 01 80 10 07 00 01 00")
        self.refused(3, "plan read 02 80 10 00 05 0C 3F 07 20 01 00")
        self.refused(17, "plan read 02 80 10 00 05 0C 3F 07 1F 01 01")
        self.refused(3, "plan read 01 80 08 02 80 02 01 00")
        self.refused(13, "plan read 01 80 08 02 00 00 3F")
        self.refused(15, "plan read %s 00" % EXAMPLE)

    def test_read_files(self):
        data = bytes.fromhex(EXAMPLE)
        self.prints("plan read --file -", EXAMPLE_TEXT, input=data)
        self.refused(10, "plan read --file -", input=b"")
        self.refused(15, "plan read --file -", input=data + bytes(10000))
        self.refused(12, "plan read --file /dev/zero")
        with tempfile.TemporaryDirectory() as directory:
            path = os.path.join(directory, "a plan")
            with open(path, "wb") as file:
                file.write(data)
            self.prints("plan read --file '%s'" % path, EXAMPLE_TEXT)
            os.rename(path, os.path.join(directory, "-1"))
            self.prints("plan read --file -1", EXAMPLE_TEXT, cwd=directory)

    def test_write(self):
        self.prints("plan write 1024 2,17,3,0 3,176,1,0", EXAMPLE + "\n")
        for mask in ("63", "0x3F", "0X3f", "0b111111", "0B0111111", "0x00003f", "00063"):
            self.prints("plan write 2048 0,0,12,%s" % mask, "01 80 10 00 00 0C 3F\n")
        self.prints("plan write 2048 0,31,12,63 0,5,1,21", "02 80 10 00 1F 0C 3F 00 05 01 15\n")
        self.prints("plan write 256 %s" % " ".join(["3,0,1,0"] * 8), "08 80 02" + " 03 00 01 00" * 8 + "\n")
        amc = "plan write 256 2,0,1,0 6,0,1,0 5,0,1,0 4,0,1,0 3,0,1,0 4,0,1,0 5,0,1,0 6,0,1,0"
        self.prints(amc, "08 80 02 " + " ".join("%02X 00 01 00" % mode for mode in (2, 6, 5, 4, 3, 4, 5, 6)) + "\n")
        fusc = "plan write 2048 0,5,12,63 fusc,31,9,0 0,0,1,1 7,0,1,0 7,1,1,0 2,0,1,0 7,2,1,0 3,0,1,0"
        rest = " 07 1F 09 00 00 00 01 01 07 00 01 00 07 01 01 00 02 00 01 00 07 02 01 00 03 00 01 00"
        self.prints(fusc, "08 80 10 00 05 0C 3F" + rest + "\n")

    def test_write_refusals(self):
        self.refused(12, "plan write 1024")
        self.refused(12, "plan write 256 %s" % " ".join(["3,0,1,0"] * 9))
        self.refused(2, "plan write -1 2,17,3,0")
        self.refused(1, "plan write 1024 -1,17,3,0")
        self.refused(1, "plan write 1024 2,17,3,0 %d,17,3,0" % 2**64)
        self.refused(3, "plan write 1024 2,-1,3,0")
        self.refused(13, "plan write 1024 2,17,-1,0")
        for mask in (1, 63, -1, 2**32, 2**64, "9" * 6000, "0x" + "F" * 6000, "0b1"):
            self.refused(17, "plan write 1024 2,17,3,%s" % mask)
        for mask in (0, 64, -1, 2**32 + 1, "0x40", "0b0"):
            self.refused(17, "plan write 2048 0,5,3,%s" % mask)
        words = "zone 1: mode 2 is first at size 2048, where only mode 0 is accepted"
        self.refused(14, "plan write 2048 2,0,12,0", words)
        self.refused(3, "plan write 2048 0,32,12,63")
        self.refused(14, "plan write 1024 3,0,1,0 2,0,1,0")
        self.refused(14, "plan write 2048 0,0,1,63 6,0,1,0 0,0,1,63")
        self.refused(14, "plan write 2048 4,0,1,0")
        self.refused(14, "plan write 2048 fusc,0,1,0")
        for mode in range(3, 7):
            self.refused(14, "plan write 2048 0,0,1,63 %d,0,1,0 7,0,1,0" % mode)


# --- bursts -----------------------------------------------------------------------------------


def rows_text(line, bursts):
    """What `owners` says of the slot that a line has, from the reference."""
    mode, size, cell, slots, slot = map(int, line.split())
    numbers = [number for burst in bursts for number in burst]
    row = ref.burst_owners(mode, size, cell, slots, ref.full_mask(mode), slot, numbers)[1]
    row, text = row[: ref.subchannels(mode, size)], ""
    for owner, run in itertools.groupby(enumerate(row), key=lambda place: place[1]):
        subchannels = [subchannel for subchannel, _ in run]
        name = "none" if owner == ref.NO_BURST else owner
        text += "subchannels %d to %d burst %s\n" % (subchannels[0], subchannels[-1], name)
    return text


def as_words(bursts):
    return " ".join(",".join(map(str, burst)) for burst in bursts)


MAP = [(0, 60, 0, 1), (0, 20, 1, 11), (20, 30, 1, 6), (59, 1, 11, 1)]  # of a zone of PUSC downlink with 12 slots
FULL = [(at, 1, slot, 1) for slot in (1, 0) for at in range(32)]  # 64, of the smallest zone that has room


class Bursts(Case):
    def test_a_list(self):
        self.prints(
            "bursts 0 2048 5 12 " + as_words(MAP),
            "burst 0 subchannels 0 to 59 slots 0 to 0 takes 60\n"
            "burst 1 subchannels 0 to 19 slots 1 to 11 takes 220\n"
            "burst 2 subchannels 20 to 49 slots 1 to 6 takes 180\n"
            "burst 3 subchannels 59 to 59 slots 11 to 11 takes 1\n"
            "bursts 4 take 461 of 720 free 259\n",
        )
        self.prints("bursts 6 2048 0 512 --list /dev/null", "bursts 0 take 0 of 98304 free 98304\n")
        one = "burst 0 subchannels 0 to 191 slots 0 to 511 takes 98304\nbursts 1 take 98304 of 98304 free 0\n"
        self.prints("bursts 6 2048 2351 512 0,192,0,512", one)
        done = asked(*("bursts 2 2048 0 2 " + as_words(FULL)).split())
        self.assertEqual(done.stdout.decode().splitlines()[-1], "bursts 64 take 64 of 64 free 0")
        self.assertEqual(len(done.stdout.decode().splitlines()), 65)

    def test_an_owner(self):
        where = {(0, 59): 0, (1, 0): 1, (11, 19): 1, (6, 49): 2, (11, 59): 3}
        where.update(dict.fromkeys([(7, 20), (6, 50), (11, 58), (12, 0), (511, 59)]))
        for (slot, subchannel), owner in where.items():
            looked = 4 if owner is None else owner + 1
            told = "burst %s looked %d\n" % ("none" if owner is None else owner, looked)
            self.prints("owner 0 2048 5 12 %d %d %s" % (slot, subchannel, as_words(MAP)), told)
        self.prints("owner 2 256 0 1 0 0 --list /dev/null", "burst none looked 0\n")
        self.prints("owner 2 2048 0 2 0 31 " + as_words(FULL), "burst 63 looked 64\n")

    def test_owners(self):
        for slot in range(14):
            line = "0 2048 5 12 %d" % slot
            self.prints("owners %s %s" % (line, as_words(MAP)), rows_text(line, MAP))
        self.prints(
            "owners 0 2048 5 12 11 " + as_words(MAP),
            "subchannels 0 to 19 burst 1\nsubchannels 20 to 58 burst none\nsubchannels 59 to 59 burst 3\n",
        )
        for mode in (0, 2, 3, 4, 5, 6, 7):
            for size in ref.sizes(mode):
                last = ref.subchannels(mode, size)
                bursts = [(last - 1, 1, 0, 3), (0, 1, 1, 1), (1, last // 2, 1, 2)]
                for slot in (0, 1, 2, 3, 511):
                    line = "%d %d 1 3 %d" % (mode, size, slot)
                    self.prints("owners %s %s" % (line, as_words(bursts)), rows_text(line, bursts))

    def test_unlit_subchannels_count(self):
        for mask in (1, "0x1", "0b000001", 63):
            self.prints("owner 0 2048 5 12 0 59 --mask %s %s" % (mask, as_words(MAP)), "burst 0 looked 1\n")
            self.prints("owners 0 2048 5 12 0 --mask %s %s" % (mask, as_words(MAP)), "subchannels 0 to 59 burst 0\n")

    def test_options_among_the_words(self):
        told = "burst 2 looked 3\n"
        words = as_words(MAP).split()
        for line in (
            ["owner", 0, 2048, 5, 12, 1, 20, "--mask", 3, *words],
            ["owner", 0, 2048, 5, 12, 1, 20, words[0], "--mask=3", *words[1:]],
            ["owner", 0, 2048, 5, 12, 1, "--mask", "3", 20, *words],
            ["owner", 0, 2048, 5, 12, 1, 20, *words, "--mask=3"],
            ["owner", 0, 2048, 5, 12, 1, 20, "--mask=3", "--", *words],
            ["owner", "--mask=3", "--", 0, 2048, 5, 12, 1, 20, *words],
        ):
            self.prints(shlex.join(map(str, line)), told)
        words = "burst 0 is -1,1,0,1: subchannel -1 is not one of mode 0's: 0 to 59"
        self.refused(18, "bursts 0 2048 5 12 -1,1,0,1", words)
        self.refused(18, "bursts 0 2048 5 12 -- -1,1,0,1", words)
        self.refused(1, "bursts -1 2048 5 12 -1,1,0,1")

    def test_lists_from_files(self):
        answer = asked(*("bursts 0 2048 5 12 " + as_words(MAP)).split()).stdout.decode()
        plain = "".join("%d %d %d %d\n" % burst for burst in MAP)
        commas = as_words(MAP).replace(" ", "\n")
        mixed = "# of a frame\r\n\r\n 0,60,0,1\t# the map\r\n0 , 20 ,1\t 11#x\n\n\n\t20 30, 1 6  \n59,1 11,1\n#"
        for text in (plain, commas, mixed, "\ufeff" + plain, plain + "# \u00fc\ud83d\n", plain.rstrip()):
            data = text.encode("utf-8", "surrogatepass")
            self.prints("bursts 0 2048 5 12 --list -", answer, input=data)
            with tempfile.TemporaryDirectory() as directory:
                path = os.path.join(directory, "a list")
                with open(path, "wb") as file:
                    file.write(data)
                self.prints("bursts 0 2048 5 12 --list '%s'" % path, answer)
                self.prints("owner 0 2048 5 12 --list='%s' 6 49" % path, "burst 2 looked 3\n")
                self.prints("owners 0 2048 5 12 0 --list '%s'" % path, "subchannels 0 to 59 burst 0\n")
                drawn = asked("picture", "zone", 0, 2048, 5, 12, "--list", path).stdout
                self.assertEqual(drawn, asked("picture", "zone", 0, 2048, 5, 12, *as_words(MAP).split()).stdout)
                os.rename(path, os.path.join(directory, "-1"))
                self.prints("bursts 0 2048 5 12 --list -1", answer, cwd=directory)
        for text in (b"", b"\n\n", b"# 1 2 3 4", b" \t\r\n#"):
            self.prints("owner 2 256 0 1 0 0 --list -", "burst none looked 0\n", input=text)
        many = b"%d 1 0 1\n"
        every = b"".join(many % at for at in range(64))
        self.prints("owner 6 2048 0 1 0 63 --list -", "burst 63 looked 64\n", input=every)
        words = "65 bursts are given, not 64 or fewer"
        self.refused(18, "owner 6 2048 0 1 0 63 --list -", words, input=every + many % 64)
        self.refused(18, "bursts 0 2048 5 12 --list -", input=b"0 1 0 %s\n" % (b"9" * 6000))

    def test_lists_that_are_not_understood(self):
        good = "0 60 0 1\n"
        for text, line, word in (
            (good + "1 2 3\n", 2, "'1 2 3' is not a burst: SUBCHANNEL,SUBCHANNELS,SLOT,SLOTS is needed"),
            ("\n# x\n1 2 3 4 5 # y", 3, "'1 2 3 4 5' is not a burst: SUBCHANNEL,SUBCHANNELS,SLOT,SLOTS is needed"),
            ("1,2,,4\n", 1, "'' is not a number"),
            (good * 3 + "1 2 x 4\n" + good, 4, "'x' is not a number"),
            ("1 2 3 4,", 1, "'1 2 3 4,' is not a burst: SUBCHANNEL,SUBCHANNELS,SLOT,SLOTS is needed"),
            ("1;2;3;4", 1, "'1;2;3;4' is not a burst: SUBCHANNEL,SUBCHANNELS,SLOT,SLOTS is needed"),
            ("1 2 3 0x4", 1, "'0x4' is not a number"),
            ("1 2 3 +4", 1, "'+4' is not a number"),
            ("1 2 3 - 4", 1, "'1 2 3 - 4' is not a burst: SUBCHANNEL,SUBCHANNELS,SLOT,SLOTS is needed"),
            ("1 2 3\v4", 1, r"'1 2 3\x0b4' is not a burst: SUBCHANNEL,SUBCHANNELS,SLOT,SLOTS is needed"),
        ):
            done = run("bursts", 7, 2048, 5, 12, "--list", "-", input=text.encode())
            told = "bellpulsar bursts: error: argument --list: -, line %d: %s\n" % (line, word)
            self.assertEqual((done.stdout, done.returncode), (b"", 2))
            self.assertTrue(done.stderr.decode().endswith(told), done.stderr)
        odd = [b"\0000 60 0 1", b"0 60 0 \0001", b"\xff 60 0 1", "\u0663 1 0 1".encode(), b"1\xa02\xa03\xa04"]
        for data in (*odd, b"0 60 0 1\f", b"\v0 60 0 1", "0 60 0 1\u00a0".encode()):
            done = run("bursts", 0, 2048, 5, 12, "--list", "-", input=data)
            self.assertEqual((done.stdout, done.returncode), (b"", 2))
            self.assertIn(b"argument --list: -, line 1: ", done.stderr)
        done = run("bursts", 0, 2048, 5, 12, "--list", "/dev/zero")
        self.assertEqual((done.stdout, done.returncode), (b"", 2))
        self.assertTrue(done.stderr.endswith(b"argument --list: /dev/zero has more than 1048576 bytes\n"), done.stderr)

    def test_either_words_or_a_list(self):
        told = "error: give the bursts either as BURST words or by --list\n"
        for what in ("bursts 0 2048 5 12", "owner 0 2048 5 12 0 0", "owners 0 2048 5 12 0", "picture zone 0 2048 5 12"):
            for more in ("", "0,1,0,1 --list /dev/null", "--list /dev/null 0,1,0,1"):
                done = asked(*(what + " " + more).split())
                self.assertEqual((done.stdout, done.returncode), (b"", 2))
                self.assertTrue(done.stderr.decode().endswith(told), done.stderr)
            self.not_understood(*what.split(), "--list")
            self.assertEqual(asked(*what.split(), "--list", "/dev/null").returncode, 0)
            for word in ("1,2,3", "1,2,3,4,5", "", "1 2 3 4", "1;2;3;4"):
                done = asked(*what.split(), word)
                fault = "argument BURST: %r is not a burst: SUBCHANNEL,SUBCHANNELS,SLOT,SLOTS is needed\n" % word
                self.assertEqual((done.stdout, done.returncode), (b"", 2))
                self.assertTrue(done.stderr.decode().endswith(fault), done.stderr)

    def test_refusals(self):
        zones = [("1 2048 32 513", 64, 1), ("8 2048 32 513", 64, 1), ("0 1024 32 513", 64, 2), ("0 2048 32 513", 64, 3)]
        zones += [("7 1024 32 513", 64, 2), ("7 2048 32 513", 64, 3), ("7 2048 31 513", 64, 13), ("7 2048 31 1", 1, 17)]
        zones += [("0 2048 31 %d" % slots, 64, 13) for slots in (513, 0, -1, 2**32 + 1)]
        zones += [("0 2048 31 12", 64, 17), ("2 256 15 512", 63, 17), ("0 2048 31 12", 0, 17)]
        for zone, mask, number in zones:
            self.refused(number, "bursts %s 0,0,0,0 --mask %s" % (zone, mask))
            self.refused(number, "owner %s 512 60 0,0,0,0 --mask %s" % (zone, mask))
            self.refused(number, "owners %s 512 0,0,0,0 --mask %s" % (zone, mask))
            self.refused(number, "picture zone %s 0,0,0,0 --mask %s" % (zone, mask))
        self.refused(4, "owner 0 2048 31 12 512 60 0,0,0,0", "slot 512 is not one of a zone's: 0 to 511")
        self.refused(4, "owners 0 2048 31 12 -1 0,0,0,0")
        self.refused(5, "owner 0 2048 31 12 511 60 0,0,0,0", "subchannel 60 is not one of mode 0's: 0 to 59")
        self.refused(5, "owner 6 2048 31 12 511 192 0,0,0,0")
        self.refused(18, "owner 0 2048 31 12 511 59 0,0,0,0")
        self.refused(18, "bursts 0 2048 31 12 0,1,0,1 %d,1,0,1" % 2**32)
        self.refused(18, "bursts 0 2048 31 12 0,1,0,1 0,1,0,%s" % ("9" * 6000))
        self.refused(18, "bursts 0 2048 31 12 0,1,0,1 1,1,4294967295,2")
        self.refused(19, "bursts 0 2048 31 12 0,2,0,2 1,2,1,2")
        self.refused(1, "bursts 1 2048 0 1 0,1,0,1", "mode 1 is not one of a plan's: 0, 2, 3, 4, 5, 6, 7")


# --- a capture --------------------------------------------------------------------------------


def first_text(mode, size, cell, mask, slot, carriers):
    """How many points of each lit subchannel the reference places on the first carriers, and in all."""
    text, total, lit = "", 0, ref.lit_subchannels(mode, size, mask)
    for subchannel in lit:
        places = [ref.place(mode, size, cell, slot, subchannel, index)[1:] for index in range(48)]
        there = sum(ref.grid_at(mode, size, *place) < 2 * carriers for place in places)
        text += "subchannel %d points %d of 48\n" % (subchannel, there)
        total += there
    return text + "points %d of %d\n" % (total, 48 * len(lit))


class First(Case):
    def test_to_the_byte(self):
        self.prints(
            "first 2 256 0 0 128",
            "subchannel 0 points 24 of 48\n"
            "subchannel 1 points 24 of 48\n"
            "subchannel 2 points 24 of 48\n"
            "subchannel 3 points 24 of 48\n"
            "points 96 of 192\n",
        )
        both = "subchannel 52 points 0 of 48\nsubchannel 53 points 0 of 48\n"
        self.assertIn(both, asked("first", 0, 2048, 5, 3, 184, "--mask", "0b100000").stdout.decode())

    def test_every_mode_against_the_reference(self):
        for mode in range(7):
            for size in ref.sizes(mode):
                cell, carriers = ref.cells(mode, size) - 1, size * ref.SLOT_LENGTH[mode]
                for count in (0, 1, size // 3, size - 1, size, carriers // 2 + 5, carriers - size // 5, carriers):
                    wanted = first_text(mode, size, cell, ref.full_mask(mode), 511, count)
                    self.prints("first %d %d %d 511 %d" % (mode, size, cell, count), wanted)

    def test_masks_against_the_reference(self):
        for mask, cell, slot, count in ((1, 0, 0, 700), (42, 31, 511, 2500), (0b110000, 5, 7, 4000), (62, 17, 2, 1500)):
            for word in (mask, hex(mask), bin(mask)):
                line = "first 0 2048 %d %d %d --mask %s" % (cell, slot, count, word)
                self.prints(line, first_text(0, 2048, cell, mask, slot, count))

    def test_each_carrier_of_a_symbol(self):
        """Of optional FUSC: each brings just the point that locate finds there."""
        before = asked("first", 2, 256, 15, 2, 0).stdout.decode().splitlines()
        for count, carrier in enumerate(range(-128, 128), 1):
            after = asked("first", 2, 256, 15, 2, count).stdout.decode().splitlines()
            located = asked("locate", 2, 256, 15, 2, carrier).stdout.decode().split()
            changed = [line.split()[1] for line, old in zip(after[:-1], before) if line != old]
            self.assertEqual(changed, located[4:5])
            before = after

    def test_counts_of_any_size(self):
        wanted = first_text(4, 256, 176, 0, 1, 768)
        for count in (768, 769, 2**31, 2**32 - 1, 2**32, 2**32 + 1, 2**64, "9" * 6000, "0" * 6000 + "768"):
            self.prints("first 4 256 176 1 %s" % count, wanted)
        for count in ("0", "-0", "000", "-000"):
            self.prints("first 4 256 176 1 %s" % count, first_text(4, 256, 176, 0, 1, 0))
        for count in ("-1", "-%d" % 2**32, "-" + "9" * 6000):
            self.not_understood("first", 4, 256, 176, 1, count)
        told = asked("first", 7, 256, 176, 1, -5).stderr.decode()
        self.assertTrue(told.endswith(": error: argument CARRIERS: '-5' is not a count\n"), told)

    def test_refusals(self):
        self.refused(1, "first 8 2048 0 0 0")
        self.refused(2, "first 0 1024 0 0 0")
        self.refused(3, "first 0 2048 32 512 0 --mask 64")
        self.refused(4, "first 0 2048 31 512 %d" % 2**32, "slot 512 is not one of a zone's: 0 to 511")
        self.refused(4, "first 2 256 0 -1 0")
        for mask in (0, 64, -1, 2**32 + 1, "0x40", "0b0"):
            self.refused(17, "first 0 2048 31 512 0 --mask %s" % mask)
        self.refused(17, "first 2 256 0 0 0 --mask=63", "mask 63 is not one of mode 2's: 0")


# --- a symbol as text -------------------------------------------------------------------------


def is_unlit(mode, size, cell, mask, carrier, what):
    """Whether what the reference has on a carrier is a pilot or data, and unlit."""
    return what[0] in (ref.PILOT, ref.DATA) and carrier not in ref.lit_carriers(mode, size, cell, mask)


def shown(mode, size, cell, mask, symbol, picked):
    """The carriers of a symbol as the reference has them, a character each."""
    signs, text = {ref.GUARD: "-", ref.DC: "D", ref.PILOT: "P", ref.DATA: "."}, ""
    for carrier in ref.carriers(size):
        what = ref.locate(mode, size, cell, symbol, carrier)[1]
        sign = "#" if what[0] == ref.DATA and what[2] == picked else signs[what[0]]
        text += "x" if is_unlit(mode, size, cell, mask, carrier, what) else sign
    return text


class Show(Case):
    def test_to_the_byte(self):
        self.prints(
            "show 2 256 0 0 --subchannel 1",
            "carrier +0         10        20        30        40        50        60\n"
            "   -128  --------------------.P#...#...P#...#...P#...#...P#...#...P#...#.\n"
            "    -64  ..P#...#...P#...#...P#...#...P#...#...P#...#...P#...#...P#...#..\n"
            "      0  D.P#...#...P#...#...P#...#...P#...#...P#...#...P#...#...P#...#..\n"
            "     64  .P#...#...P#...#...P#...#...P#...#...P#...#..-------------------\n"
            "- guard  D DC  P pilot  . data  # data of subchannel 1\n",
        )

    def test_every_mode_against_the_reference(self):
        for mode in range(7):
            for size in ref.sizes(mode):
                last = ref.cells(mode, size) - 1, ref.subchannels(mode, size) - 1
                for cell, symbol, picked in ((0, 1, None), (last[0], 511, last[1]), (1, 2, 0)):
                    pick = [] if picked is None else ["--subchannel", picked]
                    done = asked("show", mode, size, cell, symbol, *pick)
                    rows = done.stdout.decode().splitlines()[1:-1]
                    self.assertEqual([int(row[:7]) for row in rows], list(range(-size // 2, size // 2, 64)))
                    self.assertEqual({row[7:9] for row in rows}, {"  "})
                    wanted = shown(mode, size, cell, ref.full_mask(mode), symbol, picked)
                    self.assertEqual("".join(row[9:] for row in rows), wanted)

    def test_masks_against_the_reference(self):
        for mask, cell, symbol, picked in ((1, 0, 0, 11), (42, 31, 1023, None), (0b110000, 5, 7, 40), (62, 17, 2, 12)):
            pick = [] if picked is None else ["--subchannel", picked]
            for word in (mask, hex(mask), bin(mask)):
                done = asked("show", 0, 2048, cell, symbol, "--mask", word, *pick)
                rows = done.stdout.decode().splitlines()[1:-1]
                self.assertEqual("".join(row[9:] for row in rows), shown(0, 2048, cell, mask, symbol, picked))

    def test_legend(self):
        for line, more in (
            ("3 256 0 0", ""),
            ("3 256 0 0 --mask 0", ""),
            ("0 2048 5 3 --mask 0x3F", ""),
            ("0 2048 5 3 --mask 1", "  x pilot or data, unlit"),
            ("0 2048 5 3 --mask 1 --subchannel 2", "  # data of subchannel 2  x pilot or data, unlit"),
        ):
            done = asked("show", *line.split())
            self.assertEqual(done.stdout.decode().splitlines()[-1], "- guard  D DC  P pilot  . data" + more)

    def test_refusals(self):
        self.refused(1, "show 8 2048 0 0")
        self.refused(2, "show 0 1024 0 0")
        self.refused(3, "show 0 2048 32 0 --subchannel 60")
        self.refused(4, "show 0 2048 31 1024 --subchannel 60")
        self.refused(5, "show 0 2048 31 1023 --subchannel 60")
        self.refused(5, "show 0 2048 31 1023 --subchannel=-1")
        self.refused(5, "show 0 2048 31 1023 --subchannel -1")
        self.refused(5, "show 0 2048 31 1023 --subchannel 59 --mask 31")
        self.refused(3, "show 0 2048 32 1024 --subchannel 60 --mask 64")
        for mask in (0, 64, -1, 2**32, 2**32 + 1, 2**64, "9" * 6000, "0x40", "0b0", "0x" + "f" * 6000):
            self.refused(17, "show 0 2048 31 1024 --subchannel 60 --mask %s" % mask)
            self.refused(17, "picture slot 0 2048 31 512 --subchannel 60 --mask=%s" % mask)
        for mask in (1, 63, -1, 2**32, "0b111111"):
            self.refused(17, "show 2 256 0 0 --mask %s" % mask)
            self.refused(17, "picture slot 6 2048 0 0 --mask %s" % mask)


# --- pictures ---------------------------------------------------------------------------------

CARRIER, SYMBOL, BAND = 5, 20, 256  # how a slot is drawn: width, height, carriers a band


def drawing(*arguments):
    done = asked("picture", *arguments)
    assert (done.stderr, done.returncode) == (b"", 0), done
    return ElementTree.fromstring(done.stdout)


def of_class(root, tag, name):
    return [node for node in root.iter(SVG + tag) if node.get("class", "").split()[:1] == [name]]


def drawn_slot(root):
    """The class of each (symbol in the slot, carrier), and what one is told who points at it, from the outlines."""
    found, told, bands = {}, {}, of_class(root, "g", "band")
    for number, band in enumerate(bands):
        first = BAND * number - BAND * len(bands) // 2
        for part in band.iter(SVG + "g"):
            for path in part.iter(SVG + "path") if part is not band else ():
                x, y, width = map(int, re.fullmatch(r"M(\d+) (\d+)h(\d+)v20h-\3z", path.get("d")).groups())
                for carrier in range(x // CARRIER, (x + width) // CARRIER):
                    place = (y // SYMBOL, first + carrier)
                    assert place not in found
                    found[place], told[place] = part.get("class"), path.find(SVG + "title").text
    return found, told


def is_awaited(mode, size, symbol, carrier, what, carriers):
    """Whether what the reference has on a carrier is data, and not among the first carriers where these are counted."""
    return what[0] == ref.DATA and carriers is not None and ref.grid_at(mode, size, symbol, carrier) >= 2 * carriers


def slot_as_drawn(mode, size, cell, mask, slot, picked, carriers=None, pilots=()):
    """The same from the reference."""
    first, found = slot * ref.SLOT_LENGTH[mode], {}
    for offset in range(ref.SLOT_LENGTH[mode]):
        for carrier in ref.carriers(size):
            what = ref.locate(mode, size, cell, first + offset, carrier, pilots)[1]
            data = "subchannel-%d" % what[2] if what[0] == ref.DATA and picked in (None, what[2]) else "other"
            lit = data if what[0] == ref.DATA else what[0]
            if is_awaited(mode, size, first + offset, carrier, what, carriers):
                lit = "awaited"
            found[offset, carrier] = "unlit" if is_unlit(mode, size, cell, mask, carrier, what) else lit
    return found


def is_told(title, symbol, carrier, what, more):
    """Whether a title says of this symbol and carrier what the reference has there, and this behind it."""
    where, content = title.split(": ")
    carriers = re.fullmatch(r"symbol (\d+), carriers? (-?\d+)(?: to (-?\d+))?", where).groups()
    first, last = int(carriers[1]), int(carriers[2] or carriers[1])
    wanted = "subchannel %d, index %d" % what[2:] if what[0] == ref.DATA else NAMES.get(what[0], what[0])
    return int(carriers[0]) == symbol and first <= carrier <= last and content == wanted + more


def reference_places(mode, size, cell, slot, subchannel):
    """(symbol, carrier) of a subchannel's points."""
    return [ref.place(mode, size, cell, slot, subchannel, index)[1:] for index in range(48)]


def texts(node):
    return [part.text for part in node.iter(SVG + "text")]


def carrier_axis(part):
    """The carriers that a band or panel has and those that are numbered under it; the numbers, and the mark of DC over
    it, stand where these carriers are."""
    middles = [label for label in part.iter(SVG + "text") if label.get("text-anchor") == "middle"]
    ticks = [label for label in middles if re.fullmatch("-?[0-9]+", label.text)]
    carriers = range(int(ticks[0].text), int(ticks[-1].text) + 1)
    marks = [label for label in middles if label.text == "DC"]
    assert len(marks) == (0 in carriers)
    for label in ticks + marks:
        drawn = float(label.get("x")) * len(carriers) / 1280 - 0.5 + carriers[0]
        assert round(drawn, 2) == (0 if label.text == "DC" else int(label.text))
    return carriers, [int(tick.text) for tick in ticks]


class Pictures(Case):
    def every_carrier(self, root, mode, size, cell, mask, slot, picked, carriers=None, pilots=()):
        """What is drawn, and told of it, is the reference's."""
        found, told = drawn_slot(root)
        self.assertEqual(found, slot_as_drawn(mode, size, cell, mask, slot, picked, carriers, pilots))
        for (offset, carrier), title in told.items():
            symbol = slot * ref.SLOT_LENGTH[mode] + offset
            what = ref.locate(mode, size, cell, symbol, carrier, pilots)[1]
            awaited = is_awaited(mode, size, symbol, carrier, what, carriers)
            unlit = is_unlit(mode, size, cell, mask, carrier, what)
            more = ", unlit" if unlit else ", not arrived yet" if awaited else ""
            self.assertTrue(is_told(title, symbol, carrier, what, more), title)

    def test_every_carrier_of_a_slot(self):
        slots = [(0, 2048, 5, 3), (1, 2048, 69, 511), (2, 256, 15, 2), (3, 1024, 2351, 1)]
        slots += [(4, 512, 176, 1), (5, 256, 48, 511), (6, 256, 0, 2), (6, 2048, 2351, 511)]
        for mode, size, cell, slot in slots:
            root = drawing("slot", mode, size, cell, slot)
            self.every_carrier(root, mode, size, cell, ref.full_mask(mode), slot, None)
            bands = of_class(root, "g", "band")
            firsts = range(-size // 2, size // 2, BAND)
            self.assertEqual([carrier_axis(band)[0] for band in bands], [range(at, at + BAND) for at in firsts])
            for band, first in zip(bands, firsts):
                self.assertEqual(carrier_axis(band)[1], [*range(first, first + BAND, 16), first + BAND - 1])
            fills = {part.get("class"): part.get("fill") for part in root.iter(SVG + "g") if part.get("fill")}
            self.assertEqual(len(set(fills.values())), 3 + ref.subchannels(mode, size))
            words = texts(root)
            for word in ("guard", "DC", "pilot", "carrier", "symbol"):
                self.assertIn(word, words)
            self.assertEqual(texts(of_class(root, "g", "legend")[1])[1:], numbered(ref.subchannels(mode, size)))
            length = ref.SLOT_LENGTH[mode]
            self.assertLessEqual({str(slot * length + offset) for offset in range(length)}, set(words))

    def test_slots_of_which_some_groups_are_lit(self):
        for mask, cell, slot, picked in ((3, 5, 3, None), (42, 31, 511, None), (8, 0, 0, 39), (62, 17, 1, 12)):
            pick = [] if picked is None else ["--subchannel", picked]
            root = drawing("slot", 0, 2048, cell, slot, "--mask", bin(mask), *pick)
            self.every_carrier(root, 0, 2048, cell, mask, slot, picked)
            hatch = root.find(SVG + "pattern")
            unlit = {part.get("fill") for part in of_class(root, "g", "unlit")}
            self.assertEqual(unlit, {"url(#%s)" % hatch.get("id")})
            kinds = of_class(root, "g", "legend")[0]
            self.assertEqual((texts(kinds)[-1], kinds[-2].get("fill")), ("pilot or data, unlit", *unlit))
            title = "PUSC downlink (mode 0), size 2048, cell %d, slot %d, mask %d" % (cell, slot, mask)
            told = root.find(SVG + "title").text
            self.assertEqual(told, title if picked is None else "%s, subchannel %d picked out" % (title, picked))
            if picked is None:
                scale = [box.get("fill") for box in of_class(root, "g", "legend")[1].iter(SVG + "rect")]
                hatched = [number for number, fill in enumerate(scale) if fill in unlit]
                lit = ref.lit_subchannels(0, 2048, mask)
                self.assertEqual(hatched, [number for number in range(60) if number not in lit])

    def test_slots_of_which_some_carriers_have_arrived(self):
        slots = [(0, 2048, 5, 3, 3, None, 2500), (0, 2048, 31, 42, 511, 15, 1000), (1, 2048, 69, 0, 0, None, 5000)]
        slots += [(2, 256, 15, 0, 2, 3, 100), (3, 256, 2351, 0, 1, None, 0), (4, 256, 176, 0, 1, None, 400)]
        slots += [(5, 256, 48, 0, 511, 7, 257), (6, 256, 0, 0, 2, None, 1300)]
        for mode, size, cell, mask, slot, picked, carriers in slots:
            pick = [] if picked is None else ["--subchannel", picked]
            root = drawing("slot", mode, size, cell, slot, "--mask", mask, "--carriers", carriers, *pick)
            self.every_carrier(root, mode, size, cell, mask, slot, picked, carriers)
            pale = {part.get("fill") for part in of_class(root, "g", "awaited")}
            kinds = of_class(root, "g", "legend")[0]
            self.assertEqual((texts(kinds)[-1], {kinds[-2].get("fill")}), ("data, not arrived yet", pale))
            others = {part.get("fill") for part in root.iter(SVG + "g") if part.get("class") != "awaited"}
            self.assertEqual((len(pale), pale & others), (1, set()))
            lit = ", mask %d" % mask if mode == ref.PUSC_DL else ""
            out = "" if picked is None else ", subchannel %d picked out" % picked
            title = "%s (mode %d), size %d, cell %d, slot %d%s, first %d carriers%s"
            name = refusals.MODES[mode].name
            self.assertEqual(root.find(SVG + "title").text, title % (name, mode, size, cell, slot, lit, carriers, out))

    def test_slots_of_fusc(self):
        for (name, pilots), cell, slot, picked, carriers in (
            (("even", pilot_lists.EVEN), 5, 3, None, None),
            (("ends", pilot_lists.ENDS), 31, 511, 31, None),
            (("around dc", pilot_lists.AROUND_DC), 0, 0, None, 1000),
        ):
            words = [] if picked is None else ["--subchannel", picked]
            words += [] if carriers is None else ["--carriers", carriers]
            root = drawing("slot", "fusc", 2048, cell, slot, *words, "--pilots", as_word(pilots))
            self.every_carrier(root, 7, 2048, cell, 0, slot, picked, carriers, pilots)
            told = "FUSC (mode 7), size 2048, cell %d, slot %d" % (cell, slot)
            told += "" if carriers is None else ", first 1000 carriers"
            told += "" if picked is None else ", subchannel 31 picked out"
            self.assertEqual(root.find(SVG + "title").text, told, name)

    def test_a_subchannel_of_fusc(self):
        """Under three cells; those that share a carrier are ringed."""
        root = drawing("subchannel", 7, 2048, "0,31,0", 9, 31, "--pilots", SPREAD)
        panels = of_class(root, "g", "panel")
        points = [[ref.place(7, 2048, cell, 9, 31, j, PILOTS)[1:] for j in range(48)] for cell in (0, 31, 0)]
        for at, (panel, places) in enumerate(zip(panels, points)):
            marks = of_class(panel, "circle", "point")
            drawn = [float(mark.get("cx")) * 2048 / 1280 - 0.5 - 1024 for mark in marks]
            self.assertEqual([round(carrier) for carrier in drawn], [carrier for _, carrier in places])
            others = {place for number, its in enumerate(points) if number != at for place in its}
            ringed = [mark.get("class") == "point shared" for mark in marks]
            self.assertEqual(ringed, [place in others for place in places])
            self.assertEqual(all(ringed), at != 1)
        self.assertEqual(len(panels), 3)

    def test_where_all_has_arrived_nothing_is_pale(self):
        for slot, carriers in (([4, 256, 176, 1], 768), ([0, 2048, 5, 3, "--mask", 3], 4096)):
            plain = asked("picture", "slot", *slot).stdout
            for count in (carriers, carriers + 1, 2**32, "9" * 6000):
                self.assertEqual(asked("picture", "slot", *slot, "--carriers", count).stdout, plain)

    def test_where_all_is_lit_nothing_is_hatched(self):
        plain = asked("picture", "slot", 0, 2048, 5, 3).stdout
        self.assertNotIn(b"hatch", plain)
        self.assertEqual(asked("picture", "slot", 0, 2048, 5, 3, "--mask", 63).stdout, plain)
        plain = asked("picture", "slot", 2, 256, 0, 0).stdout
        self.assertEqual(asked("picture", "slot", 2, 256, 0, 0, "--mask", "0x0").stdout, plain)

    def test_the_legend_has_the_colours_of_the_paths(self):
        root = drawing("slot", 0, 2048, 5, 3)
        fills = {part.get("class"): part.get("fill") for part in root.iter(SVG + "g")}
        swatches = [box.get("fill") for box in of_class(root, "g", "legend")[1].iter(SVG + "rect")]
        self.assertEqual(swatches, [fills["subchannel-%d" % number] for number in range(60)])

    def test_a_subchannel_picked_out(self):
        root = drawing("slot", 2, 1024, 17, 0, "--subchannel", 3)
        found, told = drawn_slot(root)
        self.assertEqual(found, slot_as_drawn(2, 1024, 17, 0, 0, 3))
        self.assertEqual(told[0, -425], "symbol 0, carrier -425: subchannel 0, index 0")
        self.assertEqual(told[0, -500], "symbol 0, carriers -512 to -433: guard")
        self.assertEqual(list(found.values()).count("subchannel-3"), 48)
        self.assertIn("data of subchannel 3", texts(root))

    def test_a_slot_of_each_shape_of_amc(self):
        """A subchannel is as many bins of nine carriers by as many symbols as the shape's name says."""
        for mode, bins, symbols in ((3, 6, 1), (4, 2, 3), (5, 3, 2), (6, 1, 6)):
            root = drawing("slot", mode, 256, 176, 1, "--subchannel", 0)
            found, _ = drawn_slot(root)
            picked = [place for place, name in found.items() if name == "subchannel-0"]
            pilots = [place for place, name in found.items() if name == "pilot" and place[1] < -108 + 9 * bins]
            block = {(offset, carrier) for offset in range(symbols) for carrier in range(-108, -108 + 9 * bins)}
            self.assertEqual(sorted(picked + pilots), sorted(block))
            places = {(offset, (carrier + 108) % 9) for offset, carrier in pilots}
            self.assertEqual(places, {(offset, 3 * ((symbols + offset) % 3) + 1) for offset in range(symbols)})
            title = "AMC %dx%d (mode %d), size 256, cell 176, slot 1, subchannel 0 picked out" % (bins, symbols, mode)
            self.assertEqual(root.find(SVG + "title").text, title)

    def bursts_of_a_zone(self, root, zone, mask, bursts):
        """What is drawn of them, and told, is the list's, by the scale of the zone's frame."""
        mode, size, cell, slots = zone
        subchannels, panel = ref.subchannels(mode, size), of_class(root, "g", "zone")[0]
        free, *boxes = [box for box in panel.iter(SVG + "rect") if box.find(SVG + "title") is not None]
        self.assertEqual((free.find(SVG + "title").text, free.get("fill")), ("free", "#ffffff"))
        slot, row = float(free.get("width")) / slots, float(free.get("height")) / subchannels
        self.assertTrue(2.5 <= slot <= 80 and 4 <= row <= 24)
        drawn = [tuple(float(box.get(side)) for side in ("x", "y", "width", "height")) for box in boxes]
        found = [(y / row, height / row, x / slot, width / slot) for x, y, width, height in drawn]
        self.assertEqual([tuple(round(number, 2) for number in burst) for burst in found], bursts)
        for number, (box, (first, count, slot_0, count_0)) in enumerate(zip(boxes, bursts)):
            told = (number, first, first + count - 1, slot_0, slot_0 + count_0 - 1)
            title = "burst %d: subchannels %d to %d, slots %d to %d" % told
            self.assertEqual(box.find(SVG + "title").text, title)
        self.numbers_fit(panel, drawn)
        fills = [box.get("fill") for box in boxes]
        self.assertEqual(len({*fills, "#ffffff"}), len(bursts) + 1)
        legends = of_class(root, "g", "legend")
        if bursts:
            self.assertEqual([box.get("fill") for box in legends[1].iter(SVG + "rect")], fills)
            self.assertEqual(texts(legends[1]), ["bursts, by position:", *numbered(len(bursts))])
        unlit = [s for s in range(subchannels) if s not in ref.lit_subchannels(mode, size, mask)]
        strips = [(float(box.get("y")), float(box.get("height"))) for box in of_class(panel, "rect", "unlit")]
        hatched = [s for y, height in strips for s in range(round(y / row), round((y + height) / row))]
        self.assertEqual(hatched, unlit)
        self.assertEqual(texts(legends[0]), ["free", "subchannel, unlit"] if unlit else ["free"])
        title = "%s (mode %d), size %d, cell %d, slots %d" % (refusals.MODES[mode].name, *zone)
        title += (", mask %d" % mask if unlit else "") + ", bursts %d" % len(bursts)
        self.assertEqual(root.find(SVG + "title").text, title)
        self.axis(panel, "middle", "x", slots, slot, 30)
        self.axis(panel, "end", "y", subchannels, row, 12)
        self.assertLessEqual({"slot", "subchannel"}, set(texts(panel)))

    def numbers_fit(self, panel, drawn):
        """Each box has its number in its middle, or no room for it."""
        labels = [label for label in panel.iter(SVG + "text") if label.get("pointer-events")]
        places = {label.text: (float(label.get("x")), float(label.get("y")) - 4) for label in labels}
        self.assertEqual(len(places), len(labels))
        for number, (x, y, width, height) in enumerate(drawn):
            has_room = width >= 8 * len(str(number)) and height >= 12
            self.assertEqual(str(number) in places, has_room)
            if has_room:
                middle = places[str(number)]
                self.assertTrue(abs(middle[0] - x - width / 2) < 0.01 and abs(middle[1] - y - height / 2) < 0.01)

    def axis(self, panel, anchor, side, count, scale, room):
        """The first and the last are numbered, each number stands where it belongs, and none on another."""
        labels = [label for label in panel.iter(SVG + "text") if label.get("text-anchor") == anchor]
        labels = [label for label in labels if label.text.isdigit() and not label.get("pointer-events")]
        told = [int(label.text) for label in labels]
        places = [float(label.get(side)) - (4 if side == "y" else 0) for label in labels]
        self.assertEqual((told[0], told[-1], sorted(set(told))), (0, count - 1, told))
        for number, place in zip(told, places):
            self.assertLess(abs(place - (number + 0.5) * scale), 0.01)
        for one, other in zip(places, places[1:]):
            self.assertGreaterEqual(other - one, room)
            self.assertLessEqual(other - one, max(4 * room, 2 * scale))

    def test_bursts_of_zones(self):
        corners = [(0, 1, 0, 1), (191, 1, 511, 1), (0, 1, 511, 1), (191, 1, 0, 1), (1, 3, 1, 6), (1, 4, 20, 3)]
        zones = [((0, 2048, 5, 12), 63, MAP), ((0, 2048, 5, 12), 3, MAP), ((0, 2048, 31, 1), 42, [(0, 60, 0, 1)])]
        zones += [((6, 2048, 2351, 512), 0, corners), ((6, 2048, 0, 512), 0, [(0, 192, 0, 512)])]
        zones += [((2, 256, 15, 1), 0, [(3, 1, 0, 1), (0, 1, 0, 1)]), ((3, 256, 0, 1), 0, []), ((5, 512, 9, 98), 0, [])]
        zones += [((7, 2048, 31, 5), 0, [(0, 32, 0, 1), (31, 1, 4, 1)])]
        zones += [((2, 2048, 1023, 2), 0, FULL), ((4, 1024, 176, 37), 0, [(0, 48, 0, 36), (0, 48, 36, 1)])]
        for zone, mask, bursts in zones:
            words = as_words(bursts).split() or ["--list", "/dev/null"]
            self.bursts_of_a_zone(drawing("zone", *zone, *words, "--mask", mask), zone, mask, bursts)

    def test_zones_of_any_number_of_slots(self):
        for slots in (*range(1, 70), 127, 128, 129, 200, 255, 256, 257, 300, 400, 511, 512):
            root = drawing("zone", 2, 256, 0, slots, "0,1,%d,1" % (slots - 1), "1,3,0,%d" % slots)
            self.bursts_of_a_zone(root, (2, 256, 0, slots), 0, [(0, 1, slots - 1, 1), (1, 3, 0, slots)])
            self.assertEqual(root.get("width"), "1380")

    def test_a_zone_whose_mask_lights_all(self):
        plain = asked("picture", "zone", 0, 2048, 5, 12, "0,60,0,1").stdout
        self.assertNotIn(b"hatch", plain)
        self.assertEqual(asked("picture", "zone", 0, 2048, 5, 12, "0,60,0,1", "--mask", "0x3f").stdout, plain)

    def test_subchannels(self):
        cases = [(0, 2048, [0, 1, 31], 3, 1), (1, 2048, [7], 0, 69), (2, 512, [9, 9], 4, 7), (3, 1024, [48, 176], 5, 2)]
        cases += [(4, 256, [0, 7], 511, 0), (5, 512, [2351, 48], 1, 15), (6, 256, [3], 0, 12)]
        cases += [(6, 2048, [48, 176], 511, 191), (4, 256, [0], 0, 5), (4, 256, [0], 0, 6)]  # the last two beside DC
        for mode, size, cells, slot, subchannel in cases:
            root = drawing("subchannel", mode, size, ",".join(map(str, cells)), slot, subchannel)
            panels = of_class(root, "g", "panel")
            self.assertEqual(len(panels), len(cells))
            points = [reference_places(mode, size, cell, slot, subchannel) for cell in cells]
            for at, (cell, panel, places) in enumerate(zip(cells, panels, points)):
                marks = of_class(panel, "circle", "point")
                carriers, ticks = carrier_axis(panel)
                self.assertEqual(len(carriers), {3: 64, 4: 32, 5: 32, 6: 16}.get(mode, size))
                self.assertEqual(ticks, [*carriers[: -1 : len(carriers) // 16], carriers[-1]])
                self.assertLessEqual({carrier for _, carrier in places}, set(carriers))
                self.assertLessEqual(set(carriers), set(ref.carriers(size)))
                drawn = [float(mark.get("cx")) * len(carriers) / 1280 - 0.5 + carriers[0] for mark in marks]
                self.assertEqual([round(carrier) for carrier in drawn], [carrier for _, carrier in places])
                heights = [float(mark.get("cy")) for mark in marks]
                self.assertEqual(heights, sorted(heights, reverse=True))
                self.assertEqual(len({mark.get("fill") for mark in marks}), ref.SLOT_LENGTH[mode])
                self.assertIn("cell %d" % cell, texts(panel))
                for index, (mark, place) in enumerate(zip(marks, places)):
                    others = [
                        (other, its.index(place))
                        for other, its in zip(cells[:at] + cells[at + 1 :], points[:at] + points[at + 1 :])
                        if place in its and (mode < ref.AMC or its.index(place) == index)
                    ]
                    self.assertEqual(mark.get("class") == "point shared", others != [], (cell, index))
                    title = "cell %d, symbol %d, carrier %d: " % (cell, *place)
                    title += "subchannel %d, index %d" % (subchannel, index)
                    title += "".join("; also index %d of cell %d" % (its, other) for other, its in others)
                    self.assertEqual(mark.find(SVG + "title").text, title)

    def rings(self, *arguments):
        """The indices that are ringed in each panel."""
        panels = of_class(drawing("subchannel", *arguments), "g", "panel")
        classes = [[mark.get("class") for mark in of_class(panel, "circle", "point")] for panel in panels]
        return [[index for index, name in enumerate(names) if name == "point shared"] for names in classes]

    def test_rings_agree_with_the_collisions(self):
        hits = [j for j, hit in enumerate(ref.amc_collisions(48, 176)[1]) if hit]
        self.assertEqual(hits, [8, 24, 32])
        self.assertEqual(self.rings(3, 256, "48,176", 0, 3), [hits, hits])
        self.assertEqual(self.rings(3, 2048, "7,7", 511, 31), [list(range(48))] * 2)
        for mode, subchannel in ((4, 95), (5, 63), (6, 191)):
            self.assertEqual(self.rings(mode, 2048, "48,176", 511, subchannel), [hits, hits])
        for cells in ((0, 244), (0, 17)):
            count = ref.ofusc_collisions(1024, cells[0], 2, cells[1], 2)[2]
            self.assertEqual([len(ringed) for ringed in self.rings(2, 1024, "%d,%d" % cells, 3, 2)], [count] * 2)

    def test_output(self):
        with tempfile.TemporaryDirectory() as directory:
            path = os.path.join(directory, "slot.svg")
            self.prints("picture slot 2 256 0 0 --output %s" % path, "")
            with open(path, "rb") as file:
                self.assertEqual(file.read(), run("picture", "slot", 2, 256, 0, 0).stdout)
            self.refused(3, "picture slot 2 256 16 0 --output %s" % path)
            self.assertGreater(os.path.getsize(path), 1000)
            os.remove(path)
            self.refused(3, "picture slot 2 256 16 0 --output %s" % path)
            self.assertEqual(os.listdir(directory), [])

    def test_output_of_any_name(self):
        picture = run("picture", "slot", 2, 256, 0, 0).stdout
        self.prints("picture slot 2 256 0 0 --output -", picture.decode())
        for name in ("-1.svg", "-x", "--help", " a b", "-1", "=", "\udcff"):
            with tempfile.TemporaryDirectory() as directory:
                for words in (["--output", name], ["--output=" + name]):
                    done = run("picture", "slot", 2, 256, 0, 0, *words, cwd=directory)
                    self.assertEqual((done.stdout, done.stderr, done.returncode), (b"", b"", 0))
                    self.assertEqual(os.listdir(directory), [name])
                    with open(os.path.join(directory, name), "rb") as file:
                        self.assertEqual(file.read(), picture)

    def test_output_over_what_is_there(self):
        with tempfile.TemporaryDirectory() as directory:
            real, link = os.path.join(directory, "real"), os.path.join(directory, "link")
            with open(real, "w"):
                os.chmod(real, 0o640)
            os.symlink("real", link)
            self.prints("picture slot 2 256 0 0 --output %s" % link, "")
            self.assertTrue(os.path.islink(link))
            self.assertGreater(os.path.getsize(real), 1000)
            self.assertEqual(os.stat(real).st_mode & 0o777, 0o640)
            pipe = os.path.join(directory, "pipe")
            os.mkfifo(pipe)
            done = run_shell("'%s' picture slot 2 256 0 0 --output '%s' & cat '%s'; wait $!" % (COMMAND, pipe, pipe))
            self.assertEqual((done.stdout, done.returncode), (run("picture", "slot", 2, 256, 0, 0).stdout, 0))

    def test_refusals(self):
        self.refused(1, "picture slot 8 2048 0 0")
        self.refused(5, "picture slot 4 2048 0 0 --subchannel 96")
        self.refused(4, "picture slot 0 2048 0 -1 --subchannel -1")
        self.refused(5, "picture slot 0 2048 0 0 --subchannel 60")
        self.refused(5, "picture slot 0 2048 0 0 --mask 1 --subchannel 12")
        self.refused(4, "picture slot 0 2048 0 512 --carriers 5")
        self.not_understood(*"picture slot 0 2048 0 512 --carriers -1".split())
        self.not_understood(*"picture slot 0 2048 0 0 --carriers".split())
        self.not_understood(*"picture slot 0 2048 0 0 --carriers x".split())
        self.refused(3, "picture subchannel 0 2048 0,32 0 1")
        self.refused(3, "picture subchannel 0 2048 -1,0 0 1")
        self.refused(4, "picture subchannel 0 2048 0 512 60")
        self.refused(5, "picture subchannel 0 2048 0 511 60")

    def test_the_pictures_of_the_documentation(self):
        with open(os.path.join(ROOT, "docs", "pictures", "README.md")) as file:
            commands = re.findall(r"^    \./bellpulsar (.*) --output (.*)$", file.read(), re.MULTILINE)
        self.assertGreaterEqual(len(commands), 2)
        for line, path in commands:
            with open(os.path.join(ROOT, path)) as file:
                text = file.read()
            self.prints(line.replace(" docs/", " %s/docs/" % ROOT), text)
            self.assertLess(len(text), 400000)


def numbered(count):
    return [str(number) for number in range(count)]


# --- modes by name ----------------------------------------------------------------------------

MODE_NAMES = ("pusc-dl", "pusc-ul", "ofusc", "amc-6x1", "amc-2x3", "amc-3x2", "amc-1x6", "fusc")


class Names(Case):
    def alike(self, line, mode):
        """A line with {} for its mode."""
        wanted, named = (asked(*shlex.split(line.format(word))) for word in (mode, MODE_NAMES[mode]))
        self.assertEqual((named.stdout, named.stderr, named.returncode), (wanted.stdout, b"", wanted.returncode), line)
        self.assertIn(wanted.returncode, (0, 1))

    def test_as_numbers(self):
        lines = ["place {} 2048 1 2 3 4", "locate {} 2048 1 2 -3", "first {} 2048 1 2 700", "table {} 2048 1 2"]
        lines += ["show {} 2048 1 2", "place {} 2048 2352 0 0 0", "picture subchannel {} 2048 0,1 0 1"]
        lines += ["bursts {} 2048 1 12 0,1,0,1", "owner {} 2048 1 12 0 0 0,1,0,1", "owners {} 2048 1 12 0 0,1,0,1"]
        lines += ["plan write 2048 0,0,1,63 {},1,2,0", "plan write 2048 {},0,1,63", "plan write 1024 {},0,1,0"]
        for mode in range(8):
            for line in lines:
                self.alike(line, mode)
        for line in lines[:5] + lines[6:7]:
            self.alike(line + " --pilots " + SPREAD, bellpulsar.FUSC)
        for line in ("picture slot {} 256 0 0", "picture zone {} 256 0 2 0,1,0,1", "place {} 256 16 0 0 0"):
            self.alike(line, 2)

    def test_names_of_the_help(self):
        for mode, name in enumerate(MODE_NAMES):
            self.assertIn("\n  %d %-7s  %s  " % (mode, name, refusals.MODES[mode].name), command_line.RANGES)

    def test_names_that_are_none(self):
        for name in ("pusc", "PUSC-DL", "pusc_dl", "amc", "amc-6x2", "amc-6x1x", "ofusc2", "FUSC", "x", "2a", "0x2"):
            for line in ("place {} 256 0 0 0 0", "locate {} 256 0 0 0", "table {} 256 0 0", "first {} 256 0 0 0"):
                self.not_understood(*line.format(name).split())
            self.not_understood("plan", "write", "256", "%s,0,1,0" % name)
            self.not_understood("bursts", name, "256", "0", "1", "0,1,0,1")
            self.not_understood("fill", name, "256", "0", "/dev/null", "/dev/null")
        told = asked("place", "amc", 256, 0, 0, 0, 0).stderr.decode()
        every = ", ".join(MODE_NAMES)
        self.assertTrue(told.endswith(": error: argument MODE: 'amc' is not a mode: 0 to 7 or %s\n" % every), told)
        for word in ("", "+2", "1.0", " 2", "2 ", "-"):
            self.not_understood("place", word, 256, 0, 0, 0, 0)
        self.not_understood("place", 2, "ofusc", 0, 0, 0, 0)
        self.not_understood("plan", "write", 256, "2,ofusc,1,0")


# --- tables -----------------------------------------------------------------------------------


class Table(Case):
    def test_to_the_byte(self):
        text = asked("table", 2, 1024, 17, 0).stdout.decode().splitlines()
        self.assertEqual((text[0], len(text)), ("subchannel 0 index 0 symbol 0 carrier -425", 768))
        text = asked("table", "ofusc", 1024, 0, 1, "--csv").stdout.decode().splitlines()
        self.assertEqual((text[0], text[1 + 3 * 48 + 5]), ("subchannel,index,symbol,carrier", "3,5,1,40"))

    def test_every_mode_against_the_reference(self):
        for mode in range(7):
            for size, slot in zip(ref.sizes(mode), (511, 0, 1, 2)):
                setup, last = (mode, size, ref.cells(mode, size) - 1, slot), ref.subchannels(mode, size)
                every = itertools.product(range(last), range(48))
                points = [(*point, *ref.place(*setup, *point)[1:]) for point in every]
                names = "subchannel %d index %d symbol %d carrier %d\n"
                line = "table %d %d %d %d" % setup
                self.prints(line, "".join(names % point for point in points))
                rows = "".join("%d,%d,%d,%d\n" % point for point in points)
                self.prints(line + " --csv", "subchannel,index,symbol,carrier\n" + rows)
                objects = [json.loads(row) for row in asked(*line.split(), "--json").stdout.splitlines()]
                self.assertEqual([tuple(row.values()) for row in objects], points)
                self.assertEqual({tuple(row) for row in objects}, {("subchannel", "index", "symbol", "carrier")})

    def test_refusals(self):
        self.refused(1, "table 8 2048 0 0")
        self.refused(2, "table 0 1024 0 0")
        self.refused(3, "table 2 256 16 512")
        self.refused(4, "table ofusc 256 15 512", "slot 512 is not one of a zone's: 0 to 511")
        self.refused(4, "table 2 256 15 -1 --csv")

    def test_one_form(self):
        self.not_understood("table", 2, 256, 0, 0, "--csv", "--json")
        self.not_understood("table", 2, 256, 0)
        self.not_understood("table", 2, 256, 0, 0, 0)
        self.assertEqual(asked("table", "--csv", 2, 256, 0, 0).stdout, asked("table", 2, 256, 0, 0, "--csv").stdout)


# --- answers as JSON --------------------------------------------------------------------------


def numbers_in(text):
    return [int(number) for number in re.findall(r"-?\d+", text)]


class Json(Case):
    def object(self, line, status=0):
        done = asked(*shlex.split(line), "--json")
        self.assertEqual((done.stderr, done.returncode), (b"", status), line)
        self.assertEqual(done.stdout.count(b"\n"), 1)
        answer = json.loads(done.stdout)
        self.assertEqual(done.stdout.decode(), json.dumps(answer) + "\n")  # the one form, names in their order
        self.assertEqual(asked("--json", *shlex.split(line)).returncode, 2)
        return answer

    def text(self, line):
        return asked(*shlex.split(line)).stdout.decode()

    def test_to_the_byte(self):
        self.prints("place 2 1024 17 0 0 0 --json", '{"symbol": 0, "carrier": -425}\n')
        self.prints("place 2 --json 1024 17 0 0 0", '{"symbol": 0, "carrier": -425}\n')
        self.prints("locate 0 2048 31 1 0 --json", '{"kind": "DC"}\n')
        data = '{"kind": "data", "slot": 0, "subchannel": 0, "index": 0}\n'
        self.prints("locate 2 1024 17 0 -425 --json", data)
        self.prints("collisions amc 48 176 --json", '{"count": 3, "indices": [8, 24, 32]}\n')
        self.prints("collisions ofusc 512 9 3 9 4 --json", '{"count": 0, "groups": []}\n')
        zones = '{"mode": 2, "cell": 17, "slots": 3, "mask": 0}, {"mode": 3, "cell": 176, "slots": 1, "mask": 0}'
        self.prints("plan read --json " + EXAMPLE, '{"size": 1024, "zones": [%s]}\n' % zones)
        self.prints("plan write 1024 2,17,3,0 3,176,1,0 --json", '{"bytes": "%s"}\n' % EXAMPLE)
        self.prints("owner 0 2048 5 12 --json 0 59 " + as_words(MAP), '{"burst": 0, "looked": 1}\n')
        self.prints("owner 2 256 0 1 0 0 --list /dev/null --json", '{"burst": null, "looked": 0}\n')
        burst = '{"subchannel": 0, "subchannels": 192, "slot": 0, "slots": 512, "takes": 98304}'
        whole = '{"bursts": [%s], "take": 98304, "of": 98304, "free": 0}\n' % burst
        self.prints("bursts 6 2048 2351 512 --json 0,192,0,512", whole)
        row = ", ".join(["1"] * 20 + ["null"] * 39 + ["3"])
        self.prints("owners 0 2048 5 12 11 %s --json" % as_words(MAP), '{"owners": [%s]}\n' % row)
        refusal = '{"refused": 3, "words": "cell 256 is not one of mode 2\'s at size 1024: 0 to 255"}\n'
        done = asked("place", 2, 1024, 256, 0, 0, 0, "--json")
        self.assertEqual((done.stdout.decode(), done.stderr, done.returncode), (refusal, b"", 1))

    def test_as_the_text(self):
        for line in ("place 4 256 176 1 5 1", "collisions ofusc 2048 0 2 1010 0", "collisions amc 7 7"):
            values = self.object(line).values()
            flat = [number for value in values for number in (value if isinstance(value, list) else [value])]
            self.assertEqual(flat, numbers_in(self.text(line)))
        for carrier in range(-128, 128, 5):
            line = "locate 5 256 9 7 %d" % carrier
            kind, *address = self.object(line).values()
            names = ["slot", "subchannel", "index"] if address else []
            told = " ".join([kind, *("%s %d" % pair for pair in zip(names, address))])
            self.assertEqual(told + "\n", self.text(line))
        line = "first 0 2048 5 3 2500 --mask 0b100001"
        answer = self.object(line)
        rows = ["subchannel %d points %d of %d\n" % tuple(each.values()) for each in answer["subchannels"]]
        self.assertEqual("".join(rows) + "points %d of %d\n" % (answer["points"], answer["of"]), self.text(line))
        line = "bursts 0 2048 5 12 " + as_words(MAP)
        answer = self.object(line)
        self.assertEqual([list(each.values())[:4] for each in answer["bursts"]], [list(burst) for burst in MAP])
        takes = [each["takes"] for each in answer["bursts"]]
        self.assertEqual(takes, [numbers_in(row)[-1] for row in self.text(line).splitlines()[:-1]])
        last = [len(MAP), answer["take"], answer["of"], answer["free"]]
        self.assertEqual(last, numbers_in(self.text(line).splitlines()[-1]))

    def test_refusals(self):
        lines = ["place 8 0 0 0 0 0", "place 7 2048 0 0 0 0", "locate 7 2048 0 0 0 --pilots 5", "locate 2 256 0 0 128"]
        lines += ["table 2 256 0 512", "first 0 2048 0 0 0 --mask 64"]
        lines += ["collisions amc 0 2352", "plan read 81 00", "plan write 1024", "bursts 2 256 0 1 0,0,0,0"]
        lines += ["owner 2 256 0 1 0 4 0,1,0,1", "owners 2 256 0 1 512 0,1,0,1"]
        for line in lines:
            answer = self.object(line, 1)
            self.assertEqual("refused %d: %s\n" % tuple(answer.values()), self.text(line))
            self.assertEqual(list(answer), ["refused", "words"])

    def test_where_there_is_none(self):
        for line in ("show 2 256 0 0", "picture slot 2 256 0 0", "fill 2 256 0 /dev/null /dev/null"):
            self.not_understood(*line.split(), "--json")


# --- slots from file to file ------------------------------------------------------------------


def some_points(mode, size, mask, slots):
    """Any bits, those of NaNs too."""
    return random.randbytes(4 * ref.lit_points_len(mode, size, mask) * slots)


def patterns(data):
    return list(array("I", data))


def filled(mode, size, cell, mask, numbers, points, pilot=(1.0, 0.0), pilots=()):
    """The grids of slots with these numbers, from the reference."""
    each = ref.lit_points_len(mode, size, mask)
    points, pilot = patterns(points), patterns(struct.pack("2f", *pilot))
    grid, data = [0] * ref.grid_len(mode, size), b""
    for at, slot in enumerate(numbers):
        own = points[at * each : (at + 1) * each]
        data += array("I", ref.fill(mode, size, cell, mask, slot, pilot, own, grid, pilots)[1]).tobytes()
    return data


class Files(Case):
    """Each test has a directory of its own."""

    def setUp(self):
        directory = tempfile.TemporaryDirectory()
        self.addCleanup(directory.cleanup)
        self.directory = directory.name
        random.seed(80216)

    def path(self, name):
        return os.path.join(self.directory, name)

    def put(self, name, data):
        with open(self.path(name), "wb") as file:
            file.write(data)
        return self.path(name)

    def data(self, name):
        with open(self.path(name), "rb") as file:
            return file.read()

    def done(self, *words):
        """A command that works without a word."""
        done = asked(*words)
        self.assertEqual((done.stdout, done.stderr, done.returncode), (b"", b"", 0), words)


class Streams(Files):
    def test_fill_against_the_reference(self):
        for mode, size, cell, mask, first, count in (
            (0, 2048, 5, 63, 3, 1),
            (0, 2048, 31, 0b100110, 0, 2),
            (1, 2048, 69, 0, 510, 2),
            (2, 256, 15, 0, 1, 4),
            (3, 512, 2351, 0, 2, 2),
            (4, 256, 176, 0, 0, 1),
            (5, 256, 9, 0, 508, 4),
            (6, 256, 176, 0, 7, 1),
        ):
            points = some_points(mode, size, mask, 5)
            numbers = list(itertools.islice(itertools.cycle(range(first, first + count)), 5))
            wanted = filled(mode, size, cell, mask, numbers, points)
            lit = ["--mask", mask] if mask != ref.full_mask(mode) else []
            setup = (MODE_NAMES[mode], size, cell, "--slot", first, "--slots", count, *lit)
            self.done("fill", *setup, self.put("points", points), self.path("grids"))
            self.assertTrue(self.data("grids") == wanted, setup)
            self.done("empty", *setup, self.path("grids"), self.path("again"))
            self.assertTrue(self.data("again") == points, setup)

    def test_there_and_back_in_every_mode(self):
        """Of slots that fill the block, and more than it."""
        for mode in range(7):
            for size in ref.sizes(mode):
                for mask in (1, 0b101010, 63) if mode == 0 else (0,):
                    slots = 2**17 // (4 * ref.grid_len(mode, size)) + 2
                    points = some_points(mode, size, mask, slots)
                    setup = (mode, size, 1, "--mask", bin(mask), "--slot", 506)
                    self.done("fill", *setup, self.put("points", points), self.path("grids"))
                    self.assertEqual(os.path.getsize(self.path("grids")), 4 * ref.grid_len(mode, size) * slots)
                    self.done("empty", *setup, self.path("grids"), self.path("again"))
                    self.assertTrue(self.data("again") == points, setup)

    def test_frames(self):
        """A thousand slots and more: from the first to 511, or as many as a frame has, then from the first again."""
        points = some_points(2, 256, 0, 1100)
        for words, numbers in (
            ([], range(512)),
            (["--slot", 200], range(200, 512)),
            (["--slots", 512], range(512)),
            (["--slots", 1], range(1)),
            (["--slots", 7, "--slot", 505], range(505, 512)),
            (["--slot=2", "--slots=64"], range(2, 66)),
        ):
            self.done("fill", "ofusc", 256, 3, *words, self.put("points", points), self.path("grids"))
            wanted, source, grid = bytearray(), array("f", points), array("f", [0.0]) * 512
            for at, slot in zip(range(1100), itertools.cycle(numbers)):
                bellpulsar.fill(2, 256, 3, slot, (1.0, 0.0), source[384 * at : 384 * (at + 1)], grid)
                wanted += grid.tobytes()
            self.assertTrue(self.data("grids") == wanted, words)

    def test_pilots(self):
        points = some_points(2, 256, 0, 1)
        self.put("points", points)
        words = {"1,0": (1, 0), "-1.5,2e-3": (-1.5, 2e-3), "+.5,5.": (0.5, 5), "1E38,-0": (1e38, -0.0)}
        for word, pilot in {**words, "0.1,1e-60": (0.1, 0)}.items():
            for option in (["--pilot", word], ["--pilot=" + word]):
                self.done("fill", 2, 256, 0, *option, self.path("points"), self.path("grids"))
                self.assertEqual(self.data("grids"), filled(2, 256, 0, 0, [0], points, pilot))
        words = ["", "1", "1,", "1,2,3", "x,0", "1_0,0", " 1,0", "1,0 ", "nan,0", "inf,0", "1e39,0", "1e999,0", "0x1,0"]
        for word in words:
            self.not_understood("fill", 2, 256, 0, "--pilot", word, self.path("points"), self.path("none"))
        self.not_understood("empty", 2, 256, 0, "--pilot", "1,0", self.path("points"), self.path("none"))

    def test_standard_streams(self):
        points = some_points(5, 256, 0, 70)
        grids = run("fill", 5, 256, 7, "-", "-", input=points)
        self.assertEqual((grids.stderr, grids.returncode), (b"", 0))
        self.done("fill", 5, 256, 7, self.put("points", points), self.path("grids"))
        self.assertTrue(self.data("grids") == grids.stdout)
        back = run("empty", 5, 256, 7, "-", self.path("again"), input=grids.stdout)
        self.assertEqual((back.stdout, back.stderr, back.returncode), (b"", b"", 0))
        self.assertTrue(self.data("again") == points)
        place = (COMMAND, self.path("points"), COMMAND)
        through = run_shell("'%s' fill 5 256 7 '%s' - | '%s' empty 5 256 7 - /dev/stdout | cat" % place)
        self.assertTrue((through.stdout, through.stderr) == (points, b""))
        place = (COMMAND, self.path("points"))
        rest = run_shell("(head -c 6144 >/dev/null; '%s' fill 5 256 7 --slot 2 - -) <'%s'" % place)
        self.assertTrue((rest.stdout, rest.stderr) == (grids.stdout[2 * 4096 :], b""))

    def test_each_slot_as_soon_as_it_has_arrived(self):
        points = some_points(3, 256, 0, 9)
        wanted = filled(3, 256, 5, 0, [0, 1, 2, 3] * 3, points)
        with talking("fill", 3, 256, 5, "--slots", 4, "-", "-") as filling:
            for at in range(9):
                own = points[1536 * at : 1536 * (at + 1)]
                send(filling, own[:100], own[100:1535], own[1535:])
                self.assertTrue(filling.stdout.read(2048) == wanted[2048 * at : 2048 * (at + 1)])
            filling.stdin.close()
            self.assertEqual((filling.stdout.read(), filling.wait(60)), (b"", 0))

    def test_no_slots(self):
        for what in ("fill", "empty"):
            self.done(what, 0, 2048, 5, self.put("none", b""), self.path("out"))
            self.assertEqual(self.data("out"), b"")
            self.done(what, 0, 2048, 5, "/dev/null", "/dev/null")
            os.remove(self.path("out"))

    def test_one_file_for_both(self):
        points = some_points(4, 256, 0, 8)
        path = self.put("slots", points)
        os.chmod(path, 0o640)
        os.symlink("slots", self.path("link"))
        self.done("fill", 4, 256, 7, path, self.path("link"))
        grids = self.data("slots")
        self.assertEqual((len(grids), os.stat(path).st_mode & 0o777), (4 * 1536 * 8, 0o640))
        self.done("empty", 4, 256, 7, self.path("link"), path)
        self.assertTrue(self.data("slots") == points)
        self.assertEqual(sorted(os.listdir(self.directory)), ["link", "slots"])
        for redirected in (">>'%s'", "1<>'%s'"):
            line = "ulimit -f 1000; '%s' fill 4 256 7 '%s' - " + redirected  # it would go on for ever
            done = run_shell(line % (COMMAND, path, path))
            told = (b"", b"bellpulsar: input and output are the same file\n", 2)
            self.assertEqual((done.stdout, done.stderr, done.returncode), told)
            self.assertTrue(self.data("slots") == points)

    def test_a_slot_that_is_short(self):
        whole, kept = some_points(0, 2048, 3, 2), b"kept"
        for short in (1, 7679, 7680 + 8):
            path, told = self.put("points", whole[:short]), "the last slot has %d bytes, not 7680" % (short % 7680)
            for target in (self.put("kept", kept), self.path("new")):
                done = asked("fill", 0, 2048, 5, "--mask", 3, path, target)
                message = "bellpulsar: %s: %s\n" % (path, told)
                self.assertEqual((done.stdout, done.stderr.decode(), done.returncode), (b"", message, 2))
            self.assertEqual((self.data("kept"), sorted(os.listdir(self.directory))), (kept, ["kept", "points"]))
            message = "bellpulsar: standard input: %s\n" % told
            done = run_shell("'%s' fill 0 2048 5 --mask 3 - - <'%s'" % (COMMAND, path))
            self.assertEqual((done.stdout, done.stderr.decode(), done.returncode), (b"", message, 2))
            done = run("fill", 0, 2048, 5, "--mask", 3, "-", self.path("kept"), input=whole[:short])
            self.assertEqual((self.data("kept"), done.stderr.decode(), done.returncode), (kept, message, 2))
            done = run("fill", 0, 2048, 5, "--mask", 3, "-", "-", input=whole[:short])
            self.assertEqual((done.stderr.decode(), done.returncode), (message, 2))
            self.assertEqual(len(done.stdout), short // 7680 * 32768)
        self.assertEqual(sorted(os.listdir(self.directory)), ["kept", "points"])
        path = self.put("grid", bytes(32767))
        told = "bellpulsar: %s: the last slot has 32767 bytes, not 32768\n" % path
        self.fails(told, "empty", 0, 2048, 5, "--mask", 3, path, self.path("new"))

    def test_refusals(self):
        for what in ("fill", "empty"):
            for number, setup in (
                (1, "8 2048 0"),
                (2, "0 1024 0"),
                (3, "0 2048 32 --mask 64 --slot 512"),
                (17, "0 2048 31 --mask 64 --slot 512"),
                (17, "ofusc 256 0 --mask 1"),
                (4, "0 2048 31 --mask 63 --slot 512"),
                (4, "2 256 0 --slot -1"),
                (4, "2 256 0 --slots 513"),
                (4, "2 256 0 --slot 511 --slots 2"),
                (4, "2 256 0 --slots %d" % 2**64),
            ):
                self.refused(number, "%s %s /none/a /none/b" % (what, setup))
            words = "slot 512 is not one of a zone's: 0 to 511"
            self.refused(4, what + " 2 256 0 --slot 512 x y", words)
            done = run(what, 2, 256, 0, "--slot", 512, "x", "-")  # standard output is for the slots
            self.assertEqual((done.stdout, done.stderr.decode(), done.returncode), (b"", "refused 4: %s\n" % words, 1))
            for words in ("--slots 0", "--slots -1", "--slots x", "--slot x", "--slots", "--mask x"):
                self.not_understood(what, 2, 256, 0, "a", "b", *words.split())
            for words in ("2 256 0 a", "2 256 0 a b c", "2 256 a b", "2 256 0 0 a b", "", "2 256 0 a b --csv"):
                self.not_understood(what, *words.split())
            self.not_understood(what, "amc", 256, 0, "a", "b")

    def test_names_of_any_kind(self):
        points = some_points(2, 256, 0, 1)
        for name in ("-1", "-x", "--mask", "--help", " a b", "="):
            self.put(name, points)
            done = run("fill", 2, 256, 0, "--", name, "-2", cwd=self.directory)
            self.assertEqual((done.stdout, done.stderr, done.returncode), (b"", b"", 0))
            self.assertEqual(self.data("-2"), filled(2, 256, 0, 0, [0], points))

    def test_what_cannot_be_read(self):
        for what in ("fill", "empty"):
            for target in (self.path("new"), "-"):
                self.fails("bellpulsar: /none/in: No such file or directory\n", what, 2, 256, 0, "/none/in", target)
                self.fails("bellpulsar: /: Is a directory\n", what, 2, 256, 0, "/", target)
        done = run_shell("'%s' fill 2 256 0 - '%s' <&-" % (COMMAND, self.path("new")))
        self.assertEqual((done.stderr, done.returncode), (b"bellpulsar: standard input is closed\n", 2))
        self.assertEqual(os.listdir(self.directory), [])

    def test_what_cannot_be_written(self):
        path = self.put("points", some_points(2, 256, 0, 1024))  # as many bytes as 768 grids: either is read from it
        for what in ("fill", "empty"):
            setup = (what, 2, 256, 0, path)
            self.fails("bellpulsar: /none/out: No such file or directory\n", *setup, "/none/out")
            self.fails("bellpulsar: /dev/full: No space left on device\n", *setup, "/dev/full")
            self.fails("bellpulsar: %s: Is a directory\n" % self.directory, *setup, self.directory)
            for target, message in (("/dev/full", "No space left on device"), ("&-", "standard output is closed")):
                done = run_shell("'%s' %s 2 256 0 '%s' - >%s" % (COMMAND, what, path, target))
                self.assertEqual((done.stderr.decode(), done.returncode), ("bellpulsar: %s\n" % message, 2))
        for kept in (None, b"kept"):
            if kept:
                self.put("out", kept)
            done = run_shell("ulimit -f 8; exec '%s' fill 2 256 0 '%s' '%s'" % (COMMAND, path, self.path("out")))
            message = "bellpulsar: %s: File too large\n" % self.path("out")
            self.assertEqual((done.stdout, done.stderr.decode(), done.returncode), (b"", message, 2))
            self.assertEqual(sorted(os.listdir(self.directory)), ["out", "points"] if kept else ["points"])
        self.assertEqual(self.data("out"), kept)

    def test_closed_pipe(self):
        path = self.put("points", some_points(2, 256, 0, 1024))
        for what in ("fill", "empty"):
            self.ends_silently("%s 2 256 0 '%s' -" % (what, path))
            done = run_shell("'%s' %s 2 256 0 '%s' - | head -c 5" % (COMMAND, what, path))
            self.assertEqual((len(done.stdout), done.stderr), (5, b""))

    def test_a_command_that_is_ended(self):
        """Nothing of its output stays."""
        for number in (signal.SIGINT, signal.SIGTERM, signal.SIGHUP):
            with talking("fill", 2, 256, 0, "-", self.path("grids")) as filling:
                send(filling, some_points(2, 256, 0, 2))
                while not os.listdir(self.directory) and filling.poll() is None:
                    time.sleep(0.01)
                self.assertRegex("".join(os.listdir(self.directory)), r"^\.bellpulsar-\d+$")
                filling.send_signal(number)
                self.assertEqual((filling.wait(60), filling.stderr.read()), (-number, b""))
            self.assertEqual(os.listdir(self.directory), [])


# --- FUSC -------------------------------------------------------------------------------------


class Fusc(Files):
    """Its pilots are a list, given as a word or by a file."""

    # What takes a list, with fields in range; a file named FILE is for the words of fill and empty.
    LINES = ("place 7 2048 5 3 31 46", "locate 7 2048 5 3 -100", "table 7 2048 5 3", "first 7 2048 5 3 700")
    LINES += ("show 7 2048 5 3", "picture slot 7 2048 5 3", "picture subchannel 7 2048 5 3 31")
    LINES += ("fill 7 2048 5 /dev/null /dev/null", "empty 7 2048 5 /dev/null /dev/null")

    def test_known_points(self):
        for pilots, carrier in ((pilot_lists.START, 739 - 851), (pilot_lists.END, 573 - 851), (PILOTS, 634 - 851)):
            self.prints("place 7 2048 0 9 31 46 --pilots " + as_word(pilots), "symbol 9 carrier %d\n" % carrier)
            told = "data slot 9 subchannel 31 index 46\n"
            self.prints("locate fusc 2048 0 9 %d --pilots=%s" % (carrier, as_word(pilots)), told)
        for carrier, told in ((0, "DC"), (-852, "guard"), (852, "guard"), (26 - 851, "pilot"), (1676 - 850, "pilot")):
            self.prints("locate 7 2048 0 9 %d --pilots %s" % (carrier, SPREAD), told + "\n")
        told = '{"kind": "pilot"}\n'
        self.prints("locate 7 2048 0 9 -825 --json --pilots " + SPREAD, told)

    def test_slots_against_the_reference(self):
        for pilots, cell, slot in ((pilot_lists.ENDS, 31, 511), (pilot_lists.EVEN, 0, 1)):
            setup, lent = "7 2048 %d %d" % (cell, slot), " --pilots " + as_word(pilots)
            every = itertools.product(range(32), range(48))
            points = [(*point, *ref.place(7, 2048, cell, slot, *point, pilots)[1:]) for point in every]
            rows = "".join("%d,%d,%d,%d\n" % point for point in points)
            self.prints("table %s --csv%s" % (setup, lent), "subchannel,index,symbol,carrier\n" + rows)
            for count in (0, 173, 900, 1024, 1700, 2048, 2**32):
                there = [sum(p[3] + 1024 < count for p in points if p[0] == s) for s in range(32)]
                told = "".join("subchannel %d points %d of 48\n" % pair for pair in enumerate(there))
                told += "points %d of 1536\n" % sum(there)
                self.prints("first %s %d%s" % (setup, count, lent), told)
            rows = asked(*("show %s --subchannel 31%s" % (setup, lent)).split()).stdout.decode().splitlines()
            self.assertEqual("".join(row[9:] for row in rows[1:-1]), self.shown(cell, slot, 31, pilots))
            self.assertEqual(rows[-1], "- guard  D DC  P pilot  . data  # data of subchannel 31")

    def shown(self, cell, symbol, picked, pilots):
        signs, text = {ref.GUARD: "-", ref.DC: "D", ref.PILOT: "P", ref.DATA: "."}, ""
        for carrier in ref.carriers(2048):
            what = ref.locate(7, 2048, cell, symbol, carrier, pilots)[1]
            text += "#" if what[0] == ref.DATA and what[2] == picked else signs[what[0]]
        return text

    def test_from_file_to_file(self):
        points = some_points(7, 2048, 0, 9)
        for pilots, words, numbers in (
            (PILOTS, [], range(9)),
            (pilot_lists.ENDS, ["--slot", 510], [510, 511] * 5),
            (pilot_lists.START, ["--slot=5", "--slots=2"], [5, 6] * 5),
        ):
            setup = ("7", 2048, 17, *words, "--pilots", as_word(pilots))
            self.done("fill", *setup, "--pilot=0.5,-2", self.put("points", points), self.path("grids"))
            wanted = filled(7, 2048, 17, 0, list(numbers)[:9], points, (0.5, -2), pilots)
            self.assertTrue(self.data("grids") == wanted, words)
            self.done("empty", *setup, self.path("grids"), self.path("again"))
            self.assertTrue(self.data("again") == points, words)
        grids = run("fill", "fusc", 2048, 17, "--pilots", self.put("list", SPREAD.encode()), "-", "-", input=points)
        self.put("grids", grids.stdout)
        back = run("empty", 7, 2048, 17, "--pilots", "-", self.path("grids"), "-", input=SPREAD.encode())
        self.assertTrue((back.stdout, back.stderr, back.returncode) == (points, b"", 0))

    def test_forms_of_a_list(self):
        told = "symbol 3 carrier %d\n" % ref.place(7, 2048, 5, 3, 31, 46, PILOTS)[2]
        lines = "".join("%d\n" % used for used in PILOTS)
        half = SPREAD[: SPREAD.index(",1026,")]
        mixed = "# of a cell\r\n\r\n %s\t# half\r\n\n\t%s  \n#" % (half, SPREAD[len(half) + 1 :].replace(",", " , "))
        texts = [lines, lines.rstrip(), "\n" + lines, SPREAD, SPREAD.replace(",", "\t \t"), mixed, "\ufeff" + lines]
        texts += [lines.replace("\n", "\r\n"), lines + "# \u00fc", lines.replace("26\n", "00026\n", 1)]
        for text in texts:
            self.prints("place 7 2048 5 3 31 46 --pilots -", told, input=text.encode())
            self.prints("place 7 2048 5 3 31 46 --pilots '%s'" % self.put("a list", text.encode()), told)
        for name in ("-1", "-x", "1,2", "7", "26,", "=", "--help"):
            self.put(name, lines.encode())
        for name in ("./-1", "-x", "./1,2", "./7", "26,", "=", "--help"):
            self.prints("place 7 2048 5 3 31 46 --pilots %s" % name, told, cwd=self.directory)
        for word in (SPREAD, "00" + SPREAD):
            self.prints("place 7 2048 5 3 31 46 --pilots %s" % word, told)
            self.prints("place --pilots=%s 7 2048 5 3 31 46" % word, told)
        for word in ("7", "1,2", "-1", "-1,-2"):  # lists, whatever files there are
            count = "%d pilots are given, not 166" % (1 + word.count(","))
            self.refused(20, "place 7 2048 5 3 31 46 --pilots %s" % word, count, cwd=self.directory)
        for data in (b"", b"\n\n", b"# 1 2 3", b" \t\r\n"):
            self.refused(20, "place 7 2048 5 3 31 46 --pilots -", "0 pilots are given, not 166", input=data)
            self.prints("place 2 1024 17 0 0 0 --pilots -", "symbol 0 carrier -425\n", input=data)

    def test_lists_that_are_not_understood(self):
        for text, line, word in (
            ("26\n36\nx\n46\n", 3, "'x' is not a number"),
            ("\n# x\n26 36 4 6x # y", 3, "'6x' is not a number"),
            ("1,2,,4\n", 1, "'' is not a number"),
            ("26,\n", 1, "'' is not a number"),
            ("26;36", 1, "'26;36' is not a number"),
            ("26\n0x24", 2, "'0x24' is not a number"),
            ("26\n+36", 2, "'+36' is not a number"),
            ("26\n3.6", 2, "'3.6' is not a number"),
            ("26\n- 36", 2, "'-' is not a number"),
            ("26\v36", 1, r"'26\x0b36' is not a number"),
        ):
            for line_asked in ("place 7 2048 5 3 31 46", "show 2 256 0 0"):
                done = run(*line_asked.split(), "--pilots", "-", input=text.encode())
                told = "bellpulsar %s: error: argument --pilots: -, line %d: %s\n" % (line_asked.split()[0], line, word)
                self.assertEqual((done.stdout, done.returncode), (b"", 2))
                self.assertTrue(done.stderr.decode().endswith(told), done.stderr)
        for data in (b"\00026", b"26\000", b"\xff", "\u0663".encode(), b"26\xa036", b"26\f", "26\u00a0".encode()):
            done = run("place", 7, 2048, 5, 3, 31, 46, "--pilots", "-", input=data)
            self.assertEqual((done.stdout, done.returncode), (b"", 2))
            self.assertIn(b"argument --pilots: -, line 1: ", done.stderr)
            self.assertNotIn(b"\0", done.stderr)
        done = run("place", 7, 2048, 5, 3, 31, 46, "--pilots", "/dev/zero")
        told = b"argument --pilots: /dev/zero has more than 1048576 bytes\n"
        self.assertTrue(done.stderr.endswith(told), done.stderr)
        self.assertEqual((done.stdout, done.returncode), (b"", 2))

    def test_files_that_cannot_be_read(self):
        for line in self.LINES:
            for name, why in (("/none", "No such file or directory"), ("/", "Is a directory"), ("1,x", "No such file")):
                done = asked(*line.split(), "--pilots", name)
                self.assertEqual((done.stdout, done.returncode), (b"", 2), line)
                self.assertTrue(done.stderr.decode().startswith("bellpulsar: %s: %s" % (name, why)), done.stderr)
        done = run_shell("'%s' place 7 2048 5 3 31 46 --pilots - <&-" % COMMAND)
        told = (b"", b"bellpulsar: standard input is closed\n", 2)
        self.assertEqual((done.stdout, done.stderr, done.returncode), told)

    def test_standard_input_has_one_thing(self):
        told = "argument --pilots: - is standard input, which has something else\n"
        for words in ("fill 7 2048 5 - - --pilots -", "empty --pilots=- 7 2048 5 - /dev/null", "batch --pilots -"):
            done = run(*words.split(), input=SPREAD.encode())
            self.assertEqual((done.stdout, done.returncode), (b"", 2), words)
            self.assertTrue(done.stderr.decode().endswith(told), done.stderr)
        self.put("points", some_points(7, 2048, 0, 1))
        done = run("fill", 7, 2048, 5, self.path("points"), "-", "--pilots", "-", input=SPREAD.encode())
        self.assertEqual((len(done.stdout), done.stderr, done.returncode), (4 * 4096, b"", 0))

    def test_refusals(self):
        """Each command that takes a list, without one, with a damaged one, and in another mode with one."""
        random.seed(80217)
        for line in self.LINES:
            self.assertEqual(asked(*line.split(), "--pilots", SPREAD).returncode, 0, line)
            self.refused(20, line, "0 pilots are given, not 166")
            for damage in pilot_lists.DAMAGES.values():
                pilots = damage(random, pilot_lists.some_good(random))
                if pilots:
                    self.refused(20, "%s --pilots %s" % (line, as_word(pilots)))
            other = line.replace("7 2048 5", "2 2048 5")
            self.refused(20, "%s --pilots %s" % (other, SPREAD), "166 pilots are given, and mode 2 takes none")
            self.assertEqual(asked(*other.split()).returncode, 0, other)
        place = "place 7 2048 5 3 31 46 --pilots "
        used = "pilot %d is %s, not one of mode 7's used numbers: 0 to 1701"
        self.refused(20, place + SPREAD.replace("1676", "1702"), used % (165, 1702))
        self.refused(20, place + SPREAD.replace("1676", str(2**32 + 1676)), used % (165, 2**32 + 1676))
        self.refused(20, place + SPREAD.replace("26,", "-26,", 1), used % (0, -26))
        self.refused(20, place + SPREAD.replace("1676", "9" * 6000), used % (165, "of more than 20 digits"))
        words = "pilot 165 is 1666, not larger than pilot 164, which is 1666"
        self.refused(20, place + SPREAD.replace("1676", "1666"), words)

    def test_the_first_refusal(self):
        """The list comes after every question about a field of its command."""
        for number, line in (
            (2, "place 7 1024 32 512 32 48"),
            (3, "place 7 2048 32 512 32 48"),
            (4, "place 7 2048 31 512 32 48"),
            (5, "place 7 2048 31 511 32 48"),
            (6, "place 7 2048 31 511 31 48"),
            (7, "locate 7 2048 31 511 1024"),
            (4, "table 7 2048 31 512"),
            (17, "first 7 2048 31 512 0 --mask 63"),
            (4, "first 7 2048 31 512 0"),
            (17, "show 7 2048 31 512 --subchannel 32 --mask 1"),
            (4, "show 7 2048 31 512 --subchannel 32"),
            (5, "show 7 2048 31 511 --subchannel 32"),
            (4, "picture slot 7 2048 31 512 --subchannel 32"),
            (5, "picture slot 7 2048 31 511 --subchannel 32"),
            (5, "picture subchannel 7 2048 31 511 32"),
            (17, "fill 7 2048 31 /none /none --mask 63 --slot 512"),
            (4, "empty 7 2048 31 /none /none --slot 512"),
        ):
            self.refused(number, line)
            self.refused(number, line + " --pilots 5")
        self.refused(3, "picture subchannel 7 2048 0,32 0 0 --pilots " + SPREAD)

    def test_in_a_batch(self):
        """A list for all requests in mode 7 that have none of their own, and for no other."""
        start, path = as_word(pilot_lists.START), self.put("list", SPREAD.replace(",", "\n").encode())
        lines = ["place 7 2048 0 9 31 46", "place 2 1024 17 0 0 0", "place fusc 2048 0 9 31 46 --pilots " + start]
        lines += ["place 07 2048 0 9 31 46", "locate 7 2048 0 9 -825", "place fusc 2048 0 9 31 46 --pilots " + path]
        lines += ["collisions amc 7 7", "place 7 2048 0 9 31 46 --pilots 7", "owner 7 2048 0 1 0 0 0,1,0,1"]
        lines += ["place 2 1024 17 0 0 0", "place 7 2048 0 9 31 46"]
        told = ["symbol 9 carrier -217", "symbol 0 carrier -425", "symbol 9 carrier -112"]
        told += ["symbol 9 carrier -217", "pilot", "symbol 9 carrier -217"]
        told += asked("collisions", "amc", 7, 7).stdout.decode().splitlines()
        told += ["refused 20: 1 pilots are given, not 166", "burst 0 looked 1"]
        told += ["symbol 0 carrier -425", "symbol 9 carrier -217"]
        for word in (path, SPREAD):
            done = batch("\n".join(lines), "--pilots", word)
            self.assertEqual((done.stdout.decode().splitlines(), done.stderr, done.returncode), (told, b"", 0))
        done = batch("first 7 2048 0 9 2048\n%s\n" % lines[0], "--json", "--pilots=" + SPREAD)
        first, place = map(json.loads, done.stdout.splitlines())
        self.assertEqual((first["points"], place), (1536, {"symbol": 9, "carrier": -217}))
        none = "refused 20: 0 pilots are given, not 166"
        self.assertEqual(batch(lines[0]).stdout.decode(), none + "\n")
        done = batch(lines[0] + " --pilots -\n" + lines[0] + " --pilots /none\n" + lines[1])
        told = ["error: - is standard input, which has the requests", "error: /none: No such file or directory"]
        self.assertEqual(done.stdout.decode().splitlines(), [*told, "symbol 0 carrier -425"])
        self.assertEqual(done.returncode, 2)
        self.fails("bellpulsar: /none: No such file or directory\n", "batch", "--pilots", "/none", input=b"")


class Bar(Files):
    def on_a_terminal(self, slots, pause):
        """What a terminal is told that is standard error; the slots come in two halves, with a pause between them."""
        terminal, errors = pty.openpty()
        points = some_points(2, 256, 0, slots)
        words = [COMMAND, "fill", "2", "256", "0", "-", self.path("grids")]
        with subprocess.Popen(words, stdin=subprocess.PIPE, stderr=errors, env=ENV) as filling:
            os.close(errors)
            send(filling, points[: len(points) // 2])
            while not os.listdir(self.directory) and filling.poll() is None:
                time.sleep(0.01)  # it has not started yet, which takes long on a busy machine
            time.sleep(pause)
            send(filling, points[len(points) // 2 :])
            filling.stdin.close()
            self.assertEqual(filling.wait(60), 0)
        told = b""
        with contextlib.suppress(OSError):  # the terminal's other end is closed
            while more := os.read(terminal, 1000):
                told += more
        os.close(terminal)
        self.assertEqual(os.path.getsize(self.path("grids")), 2048 * slots)
        return told.decode()

    def test_work_that_takes_long(self):
        self.assertRegex(self.on_a_terminal(8, 0.7), r"^\r8 slots\r\x1b\[K$")

    def test_work_that_is_soon_done(self):
        self.assertEqual(self.on_a_terminal(8, 0), "")

    def test_its_form(self):
        bar = command_line.streams.Progress(1000)
        self.assertEqual(bar.line(0), "[%s] 0 of 1000 slots" % (" " * 40))
        self.assertEqual(bar.line(312), "[%s] 312 of 1000 slots" % ("#" * 12 + " " * 28))
        self.assertEqual(bar.line(1000), "[%s] 1000 of 1000 slots" % ("#" * 40))
        self.assertEqual(bar.line(1001), "1001 slots")


# --- many requests ----------------------------------------------------------------------------


def batch(text, *words):
    data = text if isinstance(text, bytes) else text.encode()
    return run("batch", *words, input=data)


class Batch(Case):
    LINES = (
        "place 2 1024 17 0 0 0",
        "place ofusc 1024 17 0 0 0",
        "place 002 1024 17 -0 0 0",
        "locate 2 1024 17 0 -425",
        "locate 0 2048 31 0 -841",
        "locate pusc-dl 2048 31 1 0",
        "locate 0 2048 5 1 -840",
        "collisions ofusc 2048 0 2 1010 0",
        "collisions ofusc 512 9 3 9 4",
        "collisions amc 48 176",
        "plan write 1024 2,17,3,0 amc-6x1,176,1,0",
        "owner 0 2048 5 12 3 25 0,20,0,12 20,30,0,6",
        "owner 2 256 0 1 0 0 --list /dev/null",
        "owner 0 2048 5 12 0 59 --mask 0b000001 0,60,0,1",
        "place 7 2048 0 0 31 46 --pilots %s",
        "locate fusc 2048 0 0 -825 --pilots=%s",
        "locate fusc 2048 0 0 -825 --pilots %s --json",
        "place 7 2048 0 0 31 46",
        "place 7 2048 0 0 31 46 --pilots 5",
        "place 2 1024 17 0 0 0 --pilots %s",
        "owner 7 2048 5 12 3 25 0,20,0,12 20,12,0,6",
        "place 2 1024 256 0 0 0",
        "place 8 0 0 0 0 0",
        "place 2 1024 17 0 0 4294967296",
        "locate 6 2048 2351 3072 863",
        "collisions amc 0 2352",
        "collisions ofusc 256 15 4 -1 4",
        "plan write 1024",
        "owner 0 2048 5 12 0 0 0,0,0,0",
    )
    LINES = tuple(line.replace("%s", SPREAD) for line in LINES)
    OBJECTS = (
        "first 2 256 0 0 128",
        "first 7 2048 0 0 128 --pilots " + SPREAD,
        "first 0 2048 5 3 700 --mask 1",
        "plan read " + EXAMPLE,
        "plan read 81 00",
        "bursts 0 2048 5 12 0,20,0,12 20,30,0,6",
        "owners 0 2048 5 12 3 0,20,0,12",
    )

    def test_as_the_commands(self):
        wanted = "".join(asked(*shlex.split(line)).stdout.decode() for line in self.LINES)
        done = batch("\n".join(self.LINES) + "\n")
        self.assertEqual((done.stdout.decode(), done.stderr, done.returncode), (wanted, b"", 0))
        every = self.LINES + self.OBJECTS
        wanted = "".join(asked(*shlex.split(line), "--json").stdout.decode() for line in every)
        done = batch("\n".join(every), "--json")
        self.assertEqual((done.stdout.decode(), done.stderr, done.returncode), (wanted, b"", 0))
        done = batch("\n".join(line + " --json" for line in every))
        self.assertEqual((done.stdout.decode(), done.stderr, done.returncode), (wanted, b"", 0))

    def test_many_against_the_reference(self):
        """Fields in range and just past it. A zero in front of a number is understood by the argument parser alone."""
        random.seed(80216)
        lines, wanted = [], []
        for _ in range(2000):
            mode = random.randrange(7)
            size, slots = ref.sizes(mode)[0], 512 * ref.SLOT_LENGTH[mode]
            cell = random.choice([0, 1, ref.cells(mode, size) - 1, ref.cells(mode, size)])
            setup, named = (mode, size, cell), "%s %d %d" % (random.choice([mode, MODE_NAMES[mode]]), size, cell)
            point = random.randrange(ref.subchannels(mode, size) + 1), random.randrange(49)
            slot = random.choice([0, 1, 511, 512])
            refused, *answer = ref.place(*setup, slot, *point)
            lines.append("place %s %d %d %d" % (named, slot, *point))
            wanted.append("refused %d" % refused if refused else "symbol %d carrier %d" % tuple(answer))
            at = random.choice([0, 1, slots - 1, slots]), random.randrange(-size // 2 - 1, size // 2 + 1)
            refused, *answer = ref.locate(*setup, *at)
            lines.append("locate %s %d %d" % (named, *at))
            wanted.append("refused %d" % refused if refused else located(answer[0]))
        done = batch("\n".join(lines))
        self.assertEqual([answer.partition(":")[0] for answer in done.stdout.decode().splitlines()], wanted)
        odd = [" ".join([*line.split()[:2], "0" + line.split(" ", 2)[2]]) for line in lines[:300]]
        self.assertEqual(batch("\n".join(odd)).stdout.splitlines(), done.stdout.splitlines()[:300])

    def test_answers_before_the_end(self):
        """One who writes a line and waits for its answer has it, and needs no newline at the end."""
        with talking("batch") as asking:
            for index in (0, 1, 48, 2):
                line = "place 2 1024 17 0 0 %d" % index
                send(asking, line[:9].encode(), line[9:].encode(), b"\n")
                self.assertEqual(asking.stdout.readline(), asked(*line.split()).stdout)
            asking.stdin.write(b"collisions amc 48 176")
            asking.stdin.close()
            self.assertEqual((asking.stdout.read(), asking.wait(60)), (b"count 3 indices 8 24 32\n", 0))

    def test_lines_without_a_request(self):
        text = "\n# of a bench\n  \t\r\nplace 2 1024 17 0 0 0 # the first\r\n\n\tplace  2 1024\t17 0 0 0#x\n#"
        done = batch(text)
        self.assertEqual((done.stdout, done.stderr, done.returncode), (b"symbol 0 carrier -425\n" * 2, b"", 0))
        for text in ("", "\n", "#", "\n\n\n"):
            done = batch(text)
            self.assertEqual((done.stdout, done.stderr, done.returncode), (b"", b"", 0))

    def test_lines_that_are_not_understood(self):
        several = "the answer has more than one line, where it is not a JSON object"
        form = "MODE,CELL,SLOTS,MASK"
        told = {
            "place 2 1024 17 0 0": "the following arguments are required: INDEX",
            "place 2 1024 17 0 0 0 0": "unrecognized arguments: 0",
            "place 2 1024 17 0 0 x": "argument INDEX: 'x' is not a number",
            "place 2 ofusc 17 0 0 0": "argument SIZE: 'ofusc' is not a number",
            "place 2 1024 17 0 0 1_0": "argument INDEX: '1_0' is not a number",
            "place 2 1024 17 0 0 +1": "argument INDEX: '+1' is not a number",
            "plan write 1024 2,17,3": "argument %s: '2,17,3' is not a zone: %s is needed" % (form, form),
            "owner 2 256 0 1 0 0 --list -": "- is standard input, which has the requests",
            "owner 2 256 0 1 0 0 --list=-": "- is standard input, which has the requests",
            "owner 2 256 0 1 0 0 --list /none": "/none: No such file or directory",
            "show 2 256 0 0": "'show' is no request of a batch",
            "picture slot 2 256 0 0": "'picture' is no request of a batch",
            "table 2 256 0 0 --json": "'table' is no request of a batch",
            "fill 2 256 0 a b": "'fill' is no request of a batch",
            "batch": "'batch' is no request of a batch",
            "place --help": "'place --help' is no request of a batch",
            "-h": "'-h' is no request of a batch",
            "--version": "'--version' is no request of a batch",
            **dict.fromkeys(("plan read 02", "bursts 2 256 0 1 0,1,0,1", "first 2 256 0 0 0"), several),
            **dict.fromkeys(("nothing", "collisions", "collisions 48 176", "bellpulsar place 2 1024 17 0 0 0")),
        }
        good = "place 2 1024 17 0 0 0"
        done = batch("".join("%s\n\n%s\n" % (good, line) for line in told))
        rows = done.stdout.decode().splitlines()
        self.assertEqual(rows[::2], ["symbol 0 carrier -425"] * len(told))
        for row, (line, why) in zip(rows[1::2], told.items()):
            self.assertEqual(row if why else row[:7], "error: " + (why or ""), line)
        end = "bellpulsar: %d of %d requests not understood, the first on line 3\n" % (len(told), 2 * len(told))
        self.assertEqual((done.stderr.decode(), done.returncode), (end, 2))
        done = batch("x\n" + good, "--json")
        first, second = map(json.loads, done.stdout.splitlines())
        self.assertEqual((list(first), second, done.returncode), (["error"], {"symbol": 0, "carrier": -425}, 2))

    def test_odd_bytes(self):
        place = b"place 2 1024 17 0 0 "
        for data in (b"\0" + place + b"0", place + b"\0000", place + b"\xff", b"\xe9", b"\0"):
            done = batch(data + b"\nplace 2 1024 17 0 0 0\n")
            self.assertRegex(done.stdout, rb"^error: [^\0]+\nsymbol 0 carrier -425\n$")
            self.assertEqual(done.returncode, 2)
        done = run_shell("'%s' batch </dev/zero" % COMMAND)
        told = b"bellpulsar: standard input: a line has more than 1048576 bytes\n"
        self.assertEqual((done.stdout, done.stderr, done.returncode), (b"", told, 2))

    def test_what_cannot_be_read_or_written(self):
        for stream, message in (
            ("<&-", "standard input is closed"),
            (">/dev/full", "No space left on device"),
            (">&-", "standard output is closed"),
        ):
            done = run_shell("echo place 2 1024 17 0 0 0 | '%s' batch %s" % (COMMAND, stream))
            self.assertEqual((done.stdout, done.returncode), (b"", 2))
            self.assertEqual(done.stderr.decode(), "bellpulsar: %s\n" % message)
        done = run_shell("yes place 2 1024 17 0 0 0 | '%s' batch | head -1" % COMMAND)
        self.assertEqual((done.stdout, done.stderr), (b"symbol 0 carrier -425\n", b""))
        with tempfile.NamedTemporaryFile() as file:
            file.write(b"place 2 1024 17 0 0 0\n")
            file.flush()
            self.ends_silently("batch <'%s'" % file.name)
        self.not_understood("batch", "x")
        self.not_understood("batch", "--csv")


# --- usage ------------------------------------------------------------------------------------

COMMANDS = "place|locate|table|first|fill|empty|batch|collisions ofusc|collisions amc|plan read|plan write|bursts"
COMMANDS += "|owner|owners|show"
COMMANDS += "|picture slot|picture zone|picture subchannel|help"
OF_BURSTS = ("bursts", "owner", "owners", "picture zone")
PUBLIC_PLACES = "include/*.h python/*.py python/bellpulsar/*.py rust/*.rs rust/src/*.rs docs/bellpulsar.1 docs/GUIDE.md"
PUBLIC_PLACES += " examples/*.sh examples/c/*.* examples/rust/*.* examples/gnuradio/*.*"
PUBLIC_TEXTS = [name for place in PUBLIC_PLACES.split() for name in sorted(glob.glob(os.path.join(ROOT, place)))]
MASKED = ("first", "fill", "empty", "show", "picture slot", *OF_BURSTS)
LISTED = ("place", "locate", "table", "first", "fill", "empty", "show", "picture slot", "picture subchannel")


class Usage(Case):
    def test_help(self):
        text = run("--help").stdout.decode()
        for name in COMMANDS.split("|"):
            self.assertRegex(text, r"\n    %s\s" % name.split()[0])
        for words in ("PUSC downlink", "PUSC uplink", "optional FUSC", "AMC 6x1", "256 512 1024 2048", "0..2351"):
            self.assertIn(words, text)
        self.assertIn("  7 fusc     FUSC  ", text)

    def test_help_of_a_command(self):
        for name in ("", *COMMANDS.split("|"), "collisions", "picture"):
            told, same = asked("help", *name.split()), asked(*name.split(), "--help")
            self.assertEqual((told.stdout, told.stderr, told.returncode), (same.stdout, b"", 0), name)
        self.not_understood("help", "nothing")
        done = run_shell("echo help place | '%s' batch" % COMMAND)
        self.assertEqual((done.stdout, done.returncode), (b"error: 'help' is no request of a batch\n", 2))

    def test_a_python_that_is_too_old(self):
        """As if this one were: its number is another one before the command is run."""
        lines = "import runpy, sys; sys.version_info = (3, 8, 18, 'final', 0); runpy.run_path(sys.argv[1], run_name='__main__')"
        done = subprocess.run([sys.executable, "-c", lines, COMMAND], capture_output=True, text=True, timeout=60)
        told = "bellpulsar: Python 3.9 or later is needed, and this is 3.8.18\n"
        self.assertEqual((done.stdout, done.stderr, done.returncode), ("", told, 2))

    def test_version(self):
        with open(os.path.join(ROOT, "include", "bellpulsar.h")) as file:
            parts = re.findall(r"^#define BP_VERSION(?:_MINOR|_PATCH)? (\d+)$", file.read(), re.MULTILINE)
        self.assertEqual(len(parts), 3)
        told = "bellpulsar %s\n" % ".".join(parts)
        self.prints("--version", told, env=dict(ENV, BELLPULSAR_LIBRARY="/none"))
        for target in ("/dev/full", "&-"):
            done = run_shell("'%s' --version >%s" % (COMMAND, target))
            self.assertEqual(done.returncode, 2)
            self.assertRegex(done.stderr, b"^bellpulsar: .*\n$")
        self.not_understood("place", "--version")

    def test_masks_of_the_help(self):
        first, last = ref.masks(0)[0], ref.masks(0)[-1]
        self.assertIn("lit: %d..%d, bit g for group g." % (first, last), command_line.RANGES)
        groups = [ref.lit_subchannels(0, 2048, 1 << group) for group in range(6)]
        told = ["%d..%d" % (group[0], group[-1]) for group in groups]
        self.assertIn("%s and %s." % (", ".join(told[:-1]), told[-1]), command_line.RANGES.replace("\n", " "))
        for name in COMMANDS.split("|"):
            text = asked(*name.split(), "--help").stdout.decode()
            self.assertEqual("--mask MASK" in text, name in MASKED, name)
            self.assertEqual("--pilots PILOTS" in text, name in (*LISTED, "batch"), name)
            self.assertEqual("--list FILE" in text, name in OF_BURSTS, name)
            self.assertEqual("[BURST ...]" in text, name in OF_BURSTS, name)
            self.assertEqual("MODE,CELL,SLOTS,MASK" in text, name == "plan write", name)
            self.assertEqual("--carriers CARRIERS" in text, name == "picture slot", name)

    def test_pilots_of_the_help(self):
        told = command_line.RANGES.replace("\n", " ")
        self.assertIn("PILOTS, of %s and %s, are the pilots of mode 7" % (", ".join(LISTED[:-1]), LISTED[-1]), told)
        self.assertIn("7, which needs them, as no other mode does: 166 used numbers, rising, below 1702.", told)
        self.assertIn("Used number u is carrier u - 851 below 851, and u - 850 from there on.", told)
        for used in (200, 850, 851, 1701):
            carrier, pilots = used - 851 if used < 851 else used - 850, [*range(165), used]
            self.prints("locate 7 2048 0 0 %d --pilots %s" % (carrier, as_word(pilots)), "pilot\n")

    def test_ranges_of_the_help(self):
        row = r"^  (\d) [\w-]+ +([\w ]+?)  +([\d ]+?)  +0\.\.(\S+) +0\.\.(\S+) +(\d)$"
        rows = re.findall(row, command_line.RANGES, re.MULTILINE)
        self.assertEqual([int(row[0]) for row in rows], list(range(8)))
        for row in rows:
            mode, sizes = int(row[0]), list(map(int, row[2].split()))
            self.assertEqual(row[1], refusals.MODES[mode].name)
            self.assertEqual((sizes, int(row[5])), (ref.sizes(mode), ref.SLOT_LENGTH[mode]))
            for size in sizes:
                last = [eval(formula, {"N": size // 64}) for formula in row[3:5]]
                self.assertEqual(last, [ref.cells(mode, size) - 1, ref.subchannels(mode, size) - 1])

    def test_help_of_each_command(self):
        for name in COMMANDS.split("|"):
            done = asked(*name.split(), "--help")
            self.assertEqual((done.stderr, done.returncode), (b"", 0))
            self.assertTrue(done.stdout.startswith(b"usage: bellpulsar %s" % name.encode()), name)
            self.assertRegex(done.stdout, b"example:\n  (printf .*)?bellpulsar %s" % name.encode())
        for name in ("collisions", "plan", "picture"):
            done = asked(name, "--help")
            self.assertEqual((done.stderr, done.returncode), (b"", 0))
            self.assertIn(b"\nbellpulsar %s WHAT --help" % name.encode(), done.stdout)

    def test_examples_of_the_help(self):
        """Each example that has its output below it prints that."""
        tried = 0
        for name in COMMANDS.split("|"):
            text = asked(*name.split(), "--help").stdout.decode().split("example:\n")[1].split("\n\n")[0]
            line, *output = [part.strip() for part in text.splitlines()]
            if output:
                done = run_shell(line.replace("bellpulsar", "'%s'" % COMMAND))
                told = "".join(part + "\n" for part in output)
                self.assertEqual((done.stdout.decode(), done.stderr, done.returncode), (told, b"", 0), line)
                tried += 1
        self.assertGreaterEqual(tried, 10)

    def test_examples_of_the_documents(self):
        examples = []
        for name in ("README.md", "docs/GUIDE.md", "docs/RULES.md"):
            with open(os.path.join(ROOT, name)) as file:
                found = re.findall(r"^    \$ \./bellpulsar (.*)\n((?:    [^$\n].*\n)+)", file.read(), re.MULTILINE)
            self.assertGreaterEqual(len(found), 5, name)
            examples += found
        self.addCleanup(os.chdir, os.getcwd())
        with tempfile.TemporaryDirectory() as directory:
            os.chdir(directory)
            made = re.findall(r"^    \$ (seq .* >pilots\.txt)$", file_text("docs/GUIDE.md"), re.MULTILINE)
            self.assertEqual([run_shell(line).returncode for line in made], [0])
            for line, output in examples:
                text = "".join(part[4:] + "\n" for part in output.splitlines())
                self.assertEqual(asked(*shlex.split(line)).stdout.decode(), text, line)
            os.chdir("/")

    def test_public_texts_cite_no_paper(self):
        """Users do not have the papers: nothing is told them by the number of one."""
        self.assertGreaterEqual(len(PUBLIC_TEXTS), 30)
        for name in PUBLIC_TEXTS:
            self.assertNotRegex(file_text(name), r"(?i)\bdocuments? 0\d|\bpapers?\b", name)

    def test_not_understood(self):
        lines = ["", "nothing", "-1", "place 2 1024 17 0 0", "place 2 1024 17 0 0 0 0", "place 2 1024 17 0 0 0 -1"]
        lines += ["locate 2 1024 17 0 0 --index 3", "collisions 48 176", "show 2 256 0 0 --sub 1"]
        lines += ["plan", "plan read", "plan read 01 --file x", "plan write", "picture slot 0 2048 0 1 --output"]
        lines += ["picture subchannel 0 2048 0 1", "picture subchannel 0 2048 0, 1 1", "show 0 2048 0 0 --mask"]
        lines += ["place 0 2048 0 0 0 0 --mask 63", "locate 0 2048 0 0 0 --mask 63", "show 0 2048 0 0 63"]
        lines += ["picture subchannel 0 2048 0 0 0 --mask 63", "first 2 256 0 0", "first 2 256 0 0 128 0"]
        lines += ["first 2 256 0 0 --carriers 128", "first 2 256 0 0 128 --subchannel 1", "first 0 2048 0 0 0 --mask"]
        lines += ["bursts 2 256 0", "bursts 2 256 0 0,1,0,1", "owner 2 256 0 1 0 0,1,0,1", "owners 2 256 0 1 0,1,0,1"]
        lines += ["bursts 2 256 0 1 0,1,0,1 0", "bursts 2 256 0 1 0,1,0,1 --output x", "owner 2 256 0 1 0 0 0 0,1,0,1"]
        lines += ["bursts 2 256 0 1 0,1,0,1 --file x", "plan write 256 2,0,1,0 --list x", "picture zone 2 256 0"]
        # Options stand behind the command's words.
        lines += ["--mask 3 owner 0 2048 5 12 1 20 0,60,0,1", "--mask=3 owner 0 2048 5 12 1 20 0,60,0,1"]
        lines += ["--mask 3 show 0 2048 5 3", "--list x bursts 0 2048 5 12", "--output x picture slot 2 256 0 0"]
        lines += ["place 7 2048 0 0 0 0 --pilots", "picture zone 7 2048 0 1 0,1,0,1 --pilots 1"]
        lines += ["owner 7 2048 0 1 0 0 0,1,0,1 --pilots 1", "plan write 2048 0,0,1,63 --pilots 1"]
        lines += ["--pilots 1 place 7 2048 0 0 0 0", "collisions amc 0 1 --pilots 1", "plan read 01 --pilots 1"]
        lines += ["picture --output x slot 2 256 0 0", "picture --mask=3 zone 0 2048 5 12 0,60,0,1", "plan --file x read 01"]
        for line in lines:
            self.not_understood(*line.split())
        done = run("place", 2, 1024, 17, 0, 0, " 1")
        self.assertEqual((done.stdout, done.returncode), (b"", 2))
        self.assertRegex(done.stderr, rb"^usage: bellpulsar place[\s\S]*: argument INDEX: ' 1' is not a number\n$")

    def test_what_is_no_number(self):
        words = ["x", "1.0", "0x10", "1_000", "", "1 2", "+1", "--1", "-", "1e3", "\u0663", "12\n3x", "-1.svg"]
        for word in words + [" 1", "1 ", "\t1", "1\n", " -1", "- 1", "-1 ", "-\u0663"]:
            self.not_understood("place", 2, 1024, 17, 0, 0, word)
            self.not_understood("first", 2, 1024, 17, 0, word)
            self.not_understood("show", 2, 1024, 17, 0, "--subchannel", word)
            self.not_understood("plan", "write", 1024, "2,%s,1,0" % word)
            self.not_understood("bursts", 2, 256, 0, 1, "0,1,0,%s" % word)
            self.not_understood("owner", 2, 256, 0, 1, 0, 0, "0,1,0,1", "%s,1,0,1" % word)
            self.not_understood("owners", 2, 256, 0, 1, word, "0,1,0,1")
            if word != "0x10":
                self.not_understood("plan", "write", 1024, "2,0,1,%s" % word)
                self.not_understood("show", 0, 2048, 17, 0, "--mask", word)
        for word in ("0x", "0b", "0xG", "0b2", "3F", "x3F", "0o77", "-0x1", "-0b1", "0x-1", "+0x1", " 0b1", "0x1_0"):
            self.not_understood("plan", "write", 1024, "2,0,1,%s" % word)
            self.not_understood("show", 0, 2048, 17, 0, "--mask", word)
            self.not_understood("picture", "slot", 0, 2048, 17, 0, "--mask", word)
        for word in ("1,2", "1,2,3", "1,2,3,4,5", "1,2,x,4", "2;3;4;5", "1,,2,3", " 1,2,3,4", "1,2,3,4 ", "-1, 2,3,4"):
            self.not_understood("plan", "write", 1024, word)
        for word in ("8", "0g", "0x01", "-1", "1 2", " 01", "01 "):
            self.not_understood("plan", "read", "01", word)


# --- the rule sheet ---------------------------------------------------------------------------

ONE_AND_ONE = "one subchannel of a cell and one subchannel of a different cell (another permutation base)"
ONE_AND_SAME = "one subchannel of a cell and the same subchannel of a different cell (another permutation base)"


def in_turn(first, other, rows):
    """A list in words: the first row in the words of `first`, the others in those of `other`."""
    words = [first % rows[0]] + [other % row for row in rows[1:]]
    return "%s and %s" % (", ".join(words[:-1]), words[-1])


def rules_of(sheet):
    """The quotable sentences, by their letters."""
    rules = {}
    for block in re.findall(r"(?:^>.*\n)+", sheet, re.MULTILINE):
        words = " ".join(block.replace(">", " ").split())
        rules.update(re.findall(r"\*\*([a-z])\.\*\* (.+?)(?= \*\*|$)", words))
    return rules


def shown_in(sheet):
    """The collisions that it shows: kind and fields, and the count with the groups or indices."""
    shown = {}
    command = r"^    \$ \./bellpulsar collisions (\w+) ([\d ]+)\n    count (\d+) (?:groups|indices) (none|[\d ]+)$"
    for kind, fields, count, hits in re.findall(command, sheet, re.MULTILINE):
        found = [] if hits == "none" else list(map(int, hits.split()))
        shown[(kind, *map(int, fields.split()))] = (int(count), found)
    return shown


def theorems():
    """The statements of the record Figures, by their names."""
    fields = r"^  pub ([a-z][a-z_]*) : (.*(?:\n      .*)*)"
    found = re.findall(fields, file_text("crates/figures/specs/Figures.antt"), re.MULTILINE)
    return {name: " ".join(statement.split()) for name, statement in found}


class RuleSheet(Case):
    """docs/RULES.md says what the theorems say, in sentences that stand alone; its examples are of these figures."""

    @classmethod
    def setUpClass(cls):
        cls.sheet, cls.theorems = file_text("docs/RULES.md"), theorems()
        cls.rules, cls.shown = rules_of(cls.sheet), shown_in(cls.sheet)
        most = re.search(r"^most n = (.*)$", file_text("crates/figures/specs/Word.antt"), re.MULTILINE)[1]
        cls.most = {int(n): int(figure) for n, figure in re.findall(r"\(eqb n (\d+)\) (\d+)", most)}
        cls.by_size = [(figure, 64 * n) for n, figure in cls.most.items()]
        cls.row = cls.figure("b_row", r"count_of \(in_row \(n - 1\) k \(ofusc_of \(64 \* n\) a s b t\)\.hits\) ≤ (\d+)")
        cls.amc = cls.figure("g_most", r"\(a ≡ b → ⊥\) → \(amc_of a b\)\.count ≤ (\d+)")

    @classmethod
    def figure(cls, name, end):
        """The number in what a theorem ends with."""
        return int(re.search(end + "$", cls.theorems[name])[1])

    def test_every_theorem_is_named(self):
        named = re.findall(r"^\| ([a-z]) \| (`.*`) \|$", self.sheet, re.MULTILINE)
        self.assertEqual("".join(letter for letter, _ in named), "abcdefg")
        self.assertEqual("".join(self.rules), "abcdefg")
        self.assertEqual([name for _, names in named for name in re.findall("`(.*?)`", names)], list(self.theorems))
        for letter, names in named:
            self.assertRegex(names, "^`%s_[a-z_]+`(, `%s_[a-z_]+`)*$" % (letter, letter))

    def test_limits_of_optional_fusc(self):
        self.assertRegex(self.theorems["c_count"], r"\(a ≡ b → ⊥\) → \(ofusc_of \(64 \* n\) a s b t\)\.count ≤ most n$")
        self.assertEqual([size for _, size in self.by_size], ref.sizes(ref.OFUSC))
        share = "In optional FUSC, %s share a carrier in at most %%s." % ONE_AND_ONE
        rows = [(size // 64 - 1, size) for _, size in self.by_size]
        rows = in_turn("in at most %d of any %%d in a row at FFT size %%d" % self.row, "of any %d in a row at %d", rows)
        wanted = "%d of any N - 1 groups in a row within groups 0 to 47 (group 0 does not follow group 47)," % self.row
        wanted += " N being the number of subchannels of a cell: " + rows
        self.assertEqual(self.rules["b"], share % wanted)
        wanted = in_turn("%d of the 48 groups of a symbol at FFT size %d", "in at most %d at %d", self.by_size)
        self.assertEqual(self.rules["c"], share % wanted)
        wanted = in_turn("in %d of the 48 groups of a symbol at %d", "in %d at %d", self.by_size)
        told = "share a carrier in %d of some N - 1 groups in a row within groups 0 to 47, " % self.row
        self.assertIn(told, self.rules["d"])
        self.assertIn(" and %s; so no lower limit holds." % wanted, self.rules["d"])

    def test_title_and_table(self):
        told = "one subchannel of a cell and one subchannel of a different cell share a carrier\n"
        self.assertRegex(self.sheet, "^# Rule sheet for network planners: how often " + told)
        heading = re.search(r"^\| FFT size, .*$", self.sheet, re.MULTILINE)[0]
        for groups in ("any N - 1 groups in a row within groups 0 to 47", "all 48 groups"):
            told = "| one subchannel of a cell and one of a different cell share a carrier, of %s, in at most (" % groups
            self.assertIn(told, heading)
        row = r"^\| (\d+) \| (\d+) \| 0 to (\d+) \| (\d+) of any (\d+) in a row \| (\d+) of 48 \|$"
        rows = [tuple(map(int, found)) for found in re.findall(row, self.sheet, re.MULTILINE)]
        self.assertEqual(rows, [(64 * n, n, n * n - 1, self.row, n - 1, most) for n, most in self.most.items()])

    def test_at_one_size(self):
        """A rule that names no FFT size says that it is of one, or of each."""
        wanted = "In optional FUSC, at each FFT size, each subchannel of a cell has one carrier in each of the 48 groups of a"
        wanted += " symbol. Two subchannels of optional FUSC at one FFT size, of one cell or of two, collide in a group exactly"
        wanted += " when both have the same carrier there, in every symbol alike, and the count of the two subchannels is the"
        wanted += " number of groups in which they collide."
        self.assertEqual(self.rules["a"], wanted)
        for letter in "ef":
            self.assertRegex(self.rules[letter], "^In optional FUSC, at one FFT size, ")

    def test_where_there_is_no_figure(self):
        words = " ".join(self.sheet.replace(">", " ").split())
        self.assertIn("For PUSC, downlink and uplink, this sheet gives no figure:", words)
        self.assertIn("For FUSC, the mandatory full usage, no figure is given:", words)
        told = "For PUSC, downlink and uplink, and for FUSC (mode 7; optional FUSC is mode 2), no figure is given."
        self.assertIn(told, words)
        for name, told in (
            ("include/bellpulsar.h", "There is none for PUSC and for FUSC."),
            ("docs/bellpulsar.1", "There is none for PUSC and for FUSC."),
            ("python/bellpulsar/__init__.py", "There is no such call for PUSC and for FUSC."),
            ("docs/GUIDE.md", "For PUSC and for FUSC there is no such call."),
            ("docs/FIGURES.md", "there is none for PUSC and for FUSC."),
        ):
            self.assertIn(told, " ".join(file_text(name).replace("\n *", " ").split()), name)

    def test_sum_and_one_cell(self):
        total = self.figure("e_sum", r"sum n \(λ t\. \(ofusc_of \(64 \* n\) a s b t\)\.count\) ≡ (\d+)")
        self.assertIn("add up to %d," % total, self.rules["e"])
        equal = r"\(s ≡ t → \(ofusc_of \(64 \* n\) a s a t\)\.count ≡ (\d+)\) × \(\(s ≡ t → ⊥\) → .* ≡ 0\)"
        every = self.figure("f_one_cell", equal)
        self.assertIn("in all %d groups of a symbol where both use the same subchannel, and in none" % every, self.rules["f"])

    def test_figure_of_amc(self):
        wanted = "In AMC, at one FFT size and in one slot shape, a subchannel has the same carriers under every cell, and"
        wanted += " what is counted is where both cells put the same index:"
        wanted += " %s have the same index on the same carrier of the same symbol" % ONE_AND_SAME
        wanted += " for at most %d of the 48 indices. " % self.amc
        self.assertTrue(self.rules["g"].startswith(wanted), self.rules["g"])
        every = self.figure("g_same", r"\(amc_of a a\)\.count ≡ (\d+)")
        wanted = "for %d of the 48 indices, and two stations with the same permutation base for all %d." % (self.amc, every)
        self.assertTrue(self.rules["g"].endswith(wanted), self.rules["g"])

    def test_examples_reach_the_figures(self):
        """What the commands print is what the sheet shows: test_examples_of_the_documents."""
        for n, most in self.most.items():
            reached = [
                fields
                for fields, (count, hits) in self.shown.items()
                if fields[:2] == ("ofusc", 64 * n) and fields[2] != fields[4] and count == most == len(hits)
                if len([hit for hit in hits if hit < n - 1]) == self.row
            ]
            self.assertEqual(len(reached), 1, n)
        counts = [self.shown["ofusc", 256, 10, 0, 4, subchannel][0] for subchannel in range(4)]
        self.assertEqual(sum(counts), 48)
        self.assertEqual(self.shown["ofusc", 1024, 17, 3, 17, 4], (0, []))
        marked = list(map(int, re.findall(r"Marked \(amc_of 48 176\)\.hits (\d+)", self.theorems["g_reached"])))
        self.assertEqual(self.shown["amc", 48, 176], (self.amc, marked))

    def test_reasons(self):
        text = file_text("docs/FIGURES.md")
        self.assertEqual(re.findall(r"^### ([a-z])\. ", text, re.MULTILINE), list(self.rules))
        self.assertEqual(text.count("\nIn plain words: "), len(self.rules))
        figures = in_turn("%d", "%d", list(self.most.values()))
        self.assertIn("\n### b. At most %d of any N - 1 groups in a row\n" % self.row, text)
        self.assertIn("\n### c. At most %s of all 48 groups\n" % figures, text)
        self.assertIn("\n### g. At most %d of the 48 indices\n" % self.amc, text)
        rows = [47 // (n - 1) + 1 for n in self.most]
        self.assertEqual([self.row * many for many in rows], list(self.most.values()))
        words = " ".join(text.split())
        self.assertIn(": %s rows of at most %d marks." % (in_turn("%d", "%d", rows), self.row), words)
        sizes = [(64 * n, many) for n, many in zip(self.most, rows)]
        told = in_turn("At FFT size %d there are %d rows", "at %d there are %d", sizes)
        self.assertIn(told + ", so the figure is twice that.", words)

    def test_no_text_speaks_of_whole_cells(self):
        """The figures are of one subchannel with one: that two cells collide, or share so much, is said nowhere."""
        for name in PUBLIC_TEXTS + ["docs/RULES.md", "docs/FIGURES.md", "README.md"]:
            words = re.sub(r"\s*\n[ */!#>]*", " ", file_text(name))
            self.assertNotRegex(words, r"(?i)\btwo (different )?cells (collide|share|meet)\b", name)

    def test_to_collide_has_one_meaning(self):
        """The same carrier in the same symbol, as the sheet defines it: of AMC's marks, of equal indices, it is not used."""
        told = "Two subchannels **collide** where both have the same data carrier in the same symbol,"
        self.assertIn(told, " ".join(self.sheet.split()))
        self.assertNotRegex(self.rules["g"], r"(?i)\bcollid")
        for name in PUBLIC_TEXTS + ["docs/FIGURES.md", "README.md"]:
            self.assertNotRegex(file_text(name), r"(?i)\bcollid", name)
        both = "both cells put the same index of a subchannel on the same carrier of the same symbol"
        names = ("include/bellpulsar.h", "rust/src/collisions.rs", "python/bellpulsar/__init__.py", "docs/bellpulsar.1")
        for name in names:
            self.assertIn(both, re.sub(r"\s*\n[ */!#>]*", " ", file_text(name)), name)
        self.assertIn(both, " ".join(run("--help").stdout.decode().split()))


# --- failures ---------------------------------------------------------------------------------


class Failures(Case):
    def test_input_that_cannot_be_read(self):
        self.fails("bellpulsar: /none/plan: No such file or directory\n", "plan", "read", "--file", "/none/plan")
        self.fails("bellpulsar: /: Is a directory\n", "plan", "read", "--file", "/")
        for zone in (("bursts", 0, 2048, 5, 12), ("picture", "zone", 0, 2048, 5, 12)):
            self.fails("bellpulsar: /none/list: No such file or directory\n", *zone, "--list", "/none/list")
            self.fails("bellpulsar: /: Is a directory\n", *zone, "--list", "/")
        done = run_shell("'%s' bursts 0 2048 5 12 --list - <&-" % COMMAND)
        closed = b"bellpulsar: standard input is closed\n"
        self.assertEqual((done.stdout, done.stderr, done.returncode), (b"", closed, 2))

    def test_output_that_cannot_be_written(self):
        arguments = ("picture", "slot", 2, 256, 0, 0, "--output")
        self.fails("bellpulsar: /none/slot.svg: No such file or directory\n", *arguments, "/none/slot.svg")
        self.fails("bellpulsar: /dev/full: No space left on device\n", *arguments, "/dev/full")

    def test_a_picture_that_is_not_whole_is_not_there(self):
        with tempfile.TemporaryDirectory() as directory:
            path = os.path.join(directory, "slot.svg")
            line = "ulimit -f 8; exec '%s' picture slot 2 256 0 0 --output '%s'" % (COMMAND, path)
            for kept in (None, b"kept"):
                if kept:
                    with open(path, "wb") as file:
                        file.write(kept)
                done = run_shell(line)
                self.assertEqual((done.stdout, done.returncode), (b"", 2))
                self.assertEqual(done.stderr.decode(), "bellpulsar: %s: File too large\n" % path)
                self.assertEqual(os.listdir(directory), ["slot.svg"] if kept else [])
            with open(path, "rb") as file:
                self.assertEqual(file.read(), kept)

    def test_what_cannot_be_told_still_fails(self):
        """Where standard error is closed, full or read by nobody."""
        answer = "place 2 1024 17 0 0 0"
        failures = ["nothing", "place 2", answer + " >/dev/full", answer + " >&-", "plan read --file /none", "--help >&-"]
        for words in failures:
            for errors in ("2>&-", "2>/dev/full"):
                done = run_shell("'%s' %s %s" % (COMMAND, words, errors))
                self.assertEqual(done.returncode, 2, words + errors)
            with tempfile.NamedTemporaryFile() as file:
                run_shell("{ sleep 0.1; '%s' %s; echo $? >'%s'; } 2>&1 >/dev/null | true" % (COMMAND, words, file.name))
                self.assertEqual(file.read(), b"2\n", words)
        done = run_shell("BELLPULSAR_LIBRARY=/none '%s' %s 2>&-" % (COMMAND, answer))
        self.assertEqual((done.stdout, done.returncode), (b"", 2))
        done = run_shell("'%s' place 9 0 0 0 0 0 2>&-" % COMMAND)
        self.assertEqual((done.stdout[:10], done.returncode), (b"refused 1:", 1))

    def test_help_that_cannot_be_written(self):
        for words in ("--help", "place --help", "plan --help"):
            for target in ("/dev/full", "&-"):
                for buffered in ("", "PYTHONUNBUFFERED=1 "):
                    done = run_shell("%s'%s' %s >%s" % (buffered, COMMAND, words, target))
                    self.assertEqual(done.returncode, 2, words)
                    self.assertRegex(done.stderr, b"^bellpulsar: .*\n$")

    def test_standard_output_that_is_full_or_closed(self):
        for target, message in (("/dev/full", "No space left on device"), ("&-", "standard output is closed")):
            for words in ("place 2 1024 17 0 0 0", "table 2 256 0 0", "picture slot 2 256 0 0"):
                line = "'%s' %s >%s" % (COMMAND, words, target)
                done = run_shell(line)
                self.assertEqual((done.stderr.decode(), done.returncode), ("bellpulsar: %s\n" % message, 2))

    def test_closed_pipe(self):
        for words in ("show 0 2048 0 0", "picture slot 0 2048 5 3", "table 0 2048 5 3", "place 2 1024 17 0 0 0"):
            self.ends_silently(words)
            done = run_shell("'%s' %s | head -c 5" % (COMMAND, words))
            self.assertEqual((len(done.stdout), done.stderr), (5, b""), words)

    def test_no_library(self):
        done = run("place", 2, 1024, 17, 0, 0, 0, env=dict(ENV, BELLPULSAR_LIBRARY="/none"))
        self.assertEqual((done.stdout, done.returncode), (b"", 2))
        self.assertRegex(done.stderr.decode(), r"^bellpulsar: no Bellpulsar library at /none: run ./build.sh.*\n$")

    def test_help_needs_no_library(self):
        env = dict(ENV, BELLPULSAR_LIBRARY="/none")
        self.assertEqual(run("--help", env=env).returncode, 0)

    def test_from_anywhere(self):
        self.prints("place 2 1024 17 0 0 0", "symbol 0 carrier -425\n", cwd="/")
        with tempfile.TemporaryDirectory() as directory:
            link = os.path.join(directory, "map")
            os.symlink(COMMAND, link)
            done = subprocess.run([link, "collisions", "amc", "48", "176"], capture_output=True, timeout=60, env=ENV)
            self.assertEqual(done.stdout, b"count 3 indices 8 24 32\n")


if __name__ == "__main__":
    subprocess.run([os.path.join(ROOT, "build.sh")], check=True)
    # This process need not ask at each call whether the library is current.
    os.environ["BELLPULSAR_LIBRARY"] = os.path.join(ROOT, "build", "link", "libbellpulsar.so")
    unittest.main()
