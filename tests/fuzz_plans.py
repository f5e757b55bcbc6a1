"""Fuzzes bp_zone_plan_read: random bytes and changed plans, each held to the reference; what is accepted is written again.

    python3 tests/fuzz_plans.py [SEED [CASES]]

Ends by itself after its cases, or after a minute, whichever comes first; it then says how many cases there were. Every
answer and every byte lent is compared (lent.py). Fails where one differs, or where an answer of reading never occurred.
"""

import random
import sys
import time
from collections import Counter

import lent
import reference as ref
from lent import Arena, words
from random_requests import good_plan

SEED = 16
CASES = 200000
SECONDS = 60
CORPUS = 500
LONGEST = 300
ANSWERS = [0, 1, 2, 3, 10, 11, 12, 13, 14, 15, 17]

READ = Arena(4, 4, 128, LONGEST)  # count, size, zones, bytes
WRITE = Arena(128, 4, LONGEST)  # zones, written, destination


# --- bytes ------------------------------------------------------------------------------------


def plan_bytes(size, zones):
    numbers = [len(zones), size] + [x for zone in zones for x in zone]
    return [byte for number in numbers for byte in ref.write_value(number)]


def any_bytes(dice, most):
    return [dice.randrange(256) for _ in range(dice.randrange(most + 1))]


def values(data):
    """Bytes as values: runs that end with a byte below 128, a last run perhaps without one."""
    runs = [[]]
    for byte in data:
        runs[-1].append(byte)
        if byte < 128:
            runs.append([])
    return [run for run in runs if run]


def joined(runs):
    return [byte for run in runs for byte in run]


# Each changes bytes (never none) in one way.


def flip_bit(dice, data):
    at = dice.randrange(len(data))
    return data[:at] + [data[at] ^ 1 << dice.randrange(8)] + data[at + 1 :]


def set_byte(dice, data):
    at = dice.randrange(len(data))
    return data[:at] + [dice.choice([0, 1, 127, 128, 129, 255, dice.randrange(256)])] + data[at + 1 :]


def cut(dice, data):
    return data[: dice.randrange(len(data))]


def append(dice, data):
    return data + (any_bytes(dice, 3) or [0])


def insert(dice, data):
    at = dice.randrange(len(data) + 1)
    return data[:at] + any_bytes(dice, 4) + data[at:]


def remove(dice, data):
    at = dice.randrange(len(data))
    return data[:at] + data[at + dice.randrange(1, 4) :]


def repeat(dice, data):
    first, second = sorted(dice.choices(range(len(data) + 1), k=2))
    return data[:second] + data[first:]


def longer_value(dice, data):
    """One value spelled with more groups than it needs: too many, or no shortest form."""
    runs = values(data)
    at = dice.randrange(len(runs))
    run = runs[at]
    runs[at] = run[:-1] + [run[-1] | 128] + [128] * dice.randrange(3) + [0]
    return joined(runs)


def shorter_value(dice, data):
    """One value without its last group, the one before it made the last."""
    runs = values(data)
    at = dice.randrange(len(runs))
    run = runs[at][:-1]
    runs[at] = run[:-1] + [run[-1] % 128] if run else []
    return joined(runs)


def other_value(dice, data):
    """One value replaced by another in its shortest form, at or past the limit of some field."""
    runs = values(data)
    limits = [16, 32, 63, 64, 127, 128, 256, 512, 513, 1024, 2048, 2351, 2352, 16383, 16384, 2**21 - 1]
    runs[dice.randrange(len(runs))] = ref.write_value(dice.choice([*range(10), *limits, dice.randrange(2**21)]))
    return joined(runs)


def swap_values(dice, data):
    runs = values(data)
    a, b = dice.randrange(len(runs)), dice.randrange(len(runs))
    runs[a], runs[b] = runs[b], runs[a]
    return joined(runs)


def shuffle_zones(dice, data):
    """The zones, each of four values, in another order."""
    runs = values(data)
    head, zones = runs[:2], [runs[i : i + 4] for i in range(2, len(runs), 4)]
    dice.shuffle(zones)
    return joined(head + [run for zone in zones for run in zone])


ON_BYTES = [flip_bit, set_byte, cut, append, insert, remove, repeat]
ON_VALUES = [longer_value, shorter_value, other_value, other_value, swap_values, shuffle_zones]


def changed(dice, data):
    """Bytes after one change or a few."""
    for _ in range(dice.choice([1, 1, 1, 2, 3])):
        if data:
            data = dice.choice(ON_BYTES + ON_VALUES)(dice, data)
    return data[:LONGEST]


def some_bytes(dice, corpus):
    """A plan that is accepted, one that was, changed, or any bytes at all."""
    way = dice.randrange(20)
    if way == 0:
        return any_bytes(dice, dice.choice([4, 12, 50, LONGEST]))
    if way < 3:
        return plan_bytes(*good_plan(dice))
    return changed(dice, dice.choice(corpus))


# --- one case ---------------------------------------------------------------------------------


def read(library, contents, data, answer):
    """What differs where the bytes are read."""
    number, count, size, zones = answer
    arguments = [READ.address(3), len(data)] + list(map(READ.address, range(3)))
    written = [] if number else [(0, words([count])), (1, words([size])), (2, words(joined(zones)))]
    return READ.difference(contents, library.bp_zone_plan_read, arguments, [(3, bytes(data))], number, written)


def write(library, contents, data, answer, room):
    """What differs where the plan that was read is written to so many bytes; it is the bytes that were read."""
    _, count, size, zones = answer
    places, out, dest = map(WRITE.address, range(3))
    fits = room >= len(data)
    written = [(1, words([len(data)])), (2, bytes(data))] if fits else []
    arguments, given = [count, size, places, dest, room, out], [(0, words(joined(zones)))]
    return WRITE.difference(contents, library.bp_zone_plan_write, arguments, given, 0 if fits else 16, written)


def try_case(library, dice, noise, data):
    """The answer of reading; ends the run where the engine does otherwise than the reference."""
    answer = ref.read_plan(data)
    difference = read(library, noise.run(dice, READ.size), data, answer)
    if not difference and answer[0] == 0:
        for room in (len(data), len(data) - 1, dice.randrange(len(data), LONGEST)):
            difference = difference or write(library, noise.run(dice, WRITE.size), data, answer, room)
    if difference:
        sys.exit("plan %s: the engine %s" % (bytes(data).hex(" "), difference))
    return answer[0]


def keep(dice, corpus, data):
    """An accepted plan joins those that are changed; a full corpus gives one up for it."""
    if len(corpus) < CORPUS:
        corpus.append(data)
    else:
        corpus[dice.randrange(CORPUS)] = data


def main():
    seed, cases = [int(word) for word in sys.argv[1:3]] + [SEED, CASES][len(sys.argv[1:3]) :]
    print("plans: seed %d" % seed)
    library, dice = lent.load(), random.Random(seed)
    noise = lent.Noise(dice)
    longest = plan_bytes(1024, [(ref.AMC, 2351, 512, 0)] * ref.PLACES)
    corpus = [longest] + [plan_bytes(*good_plan(dice)) for _ in range(50)]
    answers = Counter(try_case(library, dice, noise, data) for data in corpus)
    end = time.monotonic() + SECONDS
    while sum(answers.values()) < cases and time.monotonic() < end:
        data = some_bytes(dice, corpus)
        number = try_case(library, dice, noise, data)
        answers[number] += 1
        if number == 0:
            keep(dice, corpus, data)
    refused = ", ".join("%d: %d" % (number, answers[number]) for number in sorted(answers) if number)
    print("plans: %d cases, %d accepted; refused %s" % (sum(answers.values()), answers[0], refused))
    missing = [number for number in ANSWERS if number not in answers]
    if missing:
        sys.exit("plans: answers that never occurred: %s" % missing)
    print("plans: all agree with the reference, and what is accepted is written again as the same bytes")


if __name__ == "__main__":
    main()
