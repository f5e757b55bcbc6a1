#!/usr/bin/env python3
"""Holds the command line's fill and batch to C over the library that does the same, bench/files.c: first both must
write the same bytes, then both are timed. --check leaves the timing out.

    sh bench/run.sh
"""

import os
import random
import resource
import subprocess
import sys
import tempfile
from typing import NamedTuple

ROOT = os.path.dirname(os.path.dirname(os.path.abspath(__file__)))
COMMAND = os.path.join(ROOT, "bellpulsar")
IN_C = os.path.join(ROOT, "build", "bench_files")
ENV = dict(os.environ, BELLPULSAR_LIBRARY=os.path.join(ROOT, "build", "link", "libbellpulsar.so"))

ROUNDS = 9
SLOTS = 1000  # that a time is for
FRAME = 500  # slots
WRITTEN = 2**26  # bytes of grids: where 1,000 slots have less, more of them are filled, so that there is enough to time
REQUESTS = 200000

MODES = ("pusc-dl", "pusc-ul", "ofusc", "amc-6x1", "amc-2x3", "amc-3x2", "amc-1x6", "fusc")
PILOTS = [str(1702 * i // 166) for i in range(166)]  # of FUSC, spread over the band


class Setup(NamedTuple):
    """The sizes' ends, with the floats of a slot's points and grid as the header has them."""

    mode: str
    size: int
    mask: int
    points: int
    grid: int

    def name(self):
        return "%s, %d%s" % (self.mode, self.size, "" if self.mask in (0, 63) else ", mask %d" % self.mask)


SETUPS = [
    Setup("pusc-dl", 2048, 63, 5760, 8192),
    Setup("pusc-dl", 2048, 0b001011, 2688, 8192),
    Setup("pusc-ul", 2048, 0, 6720, 12288),
    Setup("ofusc", 256, 0, 384, 512),
    Setup("ofusc", 2048, 0, 3072, 4096),
    Setup("amc-6x1", 256, 0, 384, 512),
    Setup("amc-6x1", 2048, 0, 3072, 4096),
    Setup("amc-2x3", 256, 0, 1152, 1536),
    Setup("amc-2x3", 2048, 0, 9216, 12288),
    Setup("amc-3x2", 256, 0, 768, 1024),
    Setup("amc-3x2", 2048, 0, 6144, 8192),
    Setup("amc-1x6", 256, 0, 2304, 3072),
    Setup("amc-1x6", 2048, 0, 18432, 24576),
    Setup("fusc", 2048, 0, 3072, 4096),
]
CELL = "11"


class Pair(NamedTuple):
    """The same work in C and by the command, each from standard input to standard output."""

    in_c: list
    command: list


def filling(setup, frame):
    size, mask, frame = str(setup.size), str(setup.mask), str(frame)
    in_c = [IN_C, "fill", str(MODES.index(setup.mode)), size, CELL, mask, frame]
    command = [COMMAND, "fill", setup.mode, size, CELL, "--mask", mask, "--slots", frame, "-", "-"]
    if setup.mode == "fusc":
        return Pair(in_c + PILOTS, command + ["--pilots", ",".join(PILOTS)])
    return Pair(in_c, command)


PLACING = Pair([IN_C, "place"], [COMMAND, "batch"])


class Bench:
    """The files that both sides work with."""

    def __init__(self, directory):
        self.source, self.none = os.path.join(directory, "source"), os.path.join(directory, "none")
        self.target = Pair(os.path.join(directory, "in_c"), os.path.join(directory, "command"))
        self.put(self.none, b"")

    def put(self, path, data):
        with open(path, "wb") as file:
            file.write(data)

    def run(self, words, source, target):
        """Seconds of processor time."""
        with open(source, "rb") as before, open(target, "wb") as after:
            start = resource.getrusage(resource.RUSAGE_CHILDREN)
            subprocess.run(words, stdin=before, stdout=after, env=ENV, check=True)
            end = resource.getrusage(resource.RUSAGE_CHILDREN)
        return end.ru_utime + end.ru_stime - start.ru_utime - start.ru_stime

    def compare(self, pair, data, name):
        self.put(self.source, data)
        for words, target in zip(pair, self.target):
            self.run(words, self.source, target)
        with open(self.target.in_c, "rb") as one, open(self.target.command, "rb") as other:
            written = one.read()
            if not written or written != other.read():
                sys.exit("bench: C and the command line differ: %s" % name)

    def time(self, pair):
        """Seconds of each side without its start-up, and the command's start-up: of each the least of all rounds."""
        rounds = []
        for _ in range(ROUNDS):
            for words, target in zip(pair, self.target):
                rounds.append((target, self.run(words, self.none, target), self.run(words, self.source, target)))
        least = [[min(times[at] for times in rounds if times[0] == target) for at in (1, 2)] for target in self.target]
        return [whole - start for start, whole in least] + [least[1][0]]


def points_of(setup, slots):
    """Any bits, those of NaNs too."""
    return random.randbytes(4 * setup.points) * slots


def requests(count):
    setups = [(0, 2048, 32, 60), (1, 2048, 70, 70), (2, 1024, 256, 16), (6, 2048, 2352, 192)]
    lines = []
    for _ in range(count):
        mode, size, cells, subchannels = random.choice(setups)
        below = (random.randrange(most) for most in (cells, 512, subchannels, 48))
        lines.append("place %d %d %d %d %d %d\n" % (mode, size, *below))
    return "".join(lines).encode()


# What else a batch may ask, each with the numbers below which its fields are drawn.
OTHERS = {
    "locate": ("locate ofusc 1024 17 %d %d", (512, 512)),
    "collisions ofusc": ("collisions ofusc 1024 %d %d %d %d", (256, 16, 256, 16)),
    "collisions amc": ("collisions amc %d %d", (2352, 2352)),
    "owner": ("owner pusc-dl 2048 5 12 %d %d 0,20,0,12 20,30,0,6", (12, 60)),
}


def others(name, count):
    line, below = OTHERS[name]
    return "".join(line % tuple(map(random.randrange, below)) + "\n" for _ in range(count)).encode()


def check(bench):
    for setup in SETUPS:
        points = b"".join(points_of(setup, 1) for _ in range(14))
        bench.compare(filling(setup, 5), points, setup.name())  # frames of 5 slots: no multiple of 3
    bench.compare(PLACING, requests(2000), "batch")
    print("bench: fill of %d setups and batch of 2000 requests: the command line writes what C does" % len(SETUPS))


def time_fill(bench, setup):
    slots = SLOTS * max(1, WRITTEN // (SLOTS * 4 * setup.grid))
    pair = filling(setup, FRAME)
    bench.compare(pair, points_of(setup, slots), setup.name())
    in_c, command, start = bench.time(pair)
    ms = 1000 * SLOTS / slots
    told = (setup.name(), ms * in_c, ms * command, command / in_c, 1000 * start)
    print("| %-22s | %8.2f | %8.2f | %5.2f | %8.1f |" % told, flush=True)


def time_batch(bench):
    bench.compare(PLACING, requests(REQUESTS), "batch")
    in_c, command, start = bench.time(PLACING)
    told = (REQUESTS, REQUESTS / in_c, REQUESTS / command, command / in_c, 1000 * start)
    print("\nbatch of %d places: C %.0f a second, the command %.0f, ratio %.1f, start-up %.1f ms" % told)
    for name in OTHERS:
        count = REQUESTS // 10
        bench.put(bench.source, others(name, count))
        least = min(bench.run(PLACING.command, bench.source, bench.target.command) for _ in range(ROUNDS))
        print("%s: %.0f a second" % (name, count / (least - start)))


def measure(bench):
    print(
        "\nThe command line's fill from a file to a file, by standard input and output, and C over the library that does\n"
        "the same: ms of processor time for %d slots, of as many thousands as write %d MB, in frames of %d. The start-up,\n"
        "which is what no slots take, is not in it. Best of %d rounds.\n\n"
        "| fill                   |        C |  command | ratio | start-up |\n"
        "|------------------------|---------:|---------:|------:|---------:|" % (SLOTS, WRITTEN >> 20, FRAME, ROUNDS)
    )
    for setup in SETUPS:
        time_fill(bench, setup)
    time_batch(bench)


if __name__ == "__main__":
    random.seed(80216)
    with tempfile.TemporaryDirectory(dir=os.path.join(ROOT, "build")) as folder:
        (check if sys.argv[1:] == ["--check"] else measure)(Bench(folder))
