"""Prints the lists of bursts and their answers that bursts_test.c includes, from a fixed seed: of every kind
(burst_lists.py), in a zone of every mode and size.

    python3 tests/capi/bursts_table.py > build/capi/bursts_table.h
"""

import os
import random
import sys

sys.path.insert(0, os.path.dirname(os.path.dirname(os.path.abspath(__file__))))

import burst_lists
import reference as ref
from table import SETUPS, initializer

FULL = ["full", "last overlaps", "last is past"]  # 64 bursts, and such as are at fault in the last


def some_slots(dice):
    return dice.choice([1, 2, 17, ref.SLOTS, dice.randrange(2, 40)])


def full_list(dice, zone, kind):
    """64 bursts, in a zone that has room for more; the last overlaps one before it or ends one past the zone."""
    bursts = burst_lists.tiling(dice, zone, burst_lists.MOST)
    if kind != "full":
        *bursts, (subchannel, many, slot, slots) = bursts
        other = dice.choice(bursts)
        bursts.append(other if kind == "last overlaps" else [subchannel, many, slot, zone[1] + 1 - slot])
    return burst_lists.numbers(bursts)


def lists(dice, subchannels):
    """Kind, slots of the zone and numbers: each kind, good ones more often, each count that has room, full lists."""
    for kind in [*burst_lists.KINDS, "good", "good"]:
        slots = some_slots(dice)
        yield kind, slots, burst_lists.numbers(burst_lists.KINDS[kind][0](dice, (subchannels, slots)))
    for count in burst_lists.COUNTS:
        slots = some_slots(dice)
        bursts = burst_lists.tiling(dice, (subchannels, slots), count)
        yield "%d bursts" % len(bursts), slots, burst_lists.numbers(bursts)
    for _ in range(6):
        slots = some_slots(dice)
        yield "not fours", slots, burst_lists.not_fours(dice, (subchannels, slots))
    for kind in FULL:
        slots = dice.choice([32, 61, ref.SLOTS])
        yield kind, slots, full_list(dice, (subchannels, slots), kind)


def asked_slots(dice, slots):
    """Slots of the zone, its last and the first past it, and the last that a request may have."""
    return {0, slots - 1, min(slots, ref.SLOTS - 1), dice.randrange(slots)}


def answers(zone, slot, numbers):
    """The owner of each subchannel, and how many bursts were looked at for it, of a list that is accepted."""
    bursts = ref.bursts_of(numbers)
    found = [ref.owner_in(bursts, slot, subchannel) for subchannel in range(ref.subchannels(*zone[:2]))]
    number, owners = ref.burst_owners(*zone, slot, numbers)
    assert number == 0 and owners[: len(found)] == [owner for owner, _ in found]
    return [slot, owners, [looked for _, looked in found]]


def print_list(dice, n, kind, zone, numbers):
    """Prints the list's arrays and gives its row."""
    number = ref.bursts_check(*zone, numbers)
    asked = [] if number else [answers(zone, slot, numbers) for slot in sorted(asked_slots(dice, zone[3]))]
    names = []
    for name, kind_of, values in (("list", "uint32_t", numbers), ("asked", "struct asked", asked)):
        names.append("%s_%d" % (name, n) if values else "0")
        if values:
            print("static const %s %s[] = %s;" % (kind_of, names[-1], initializer(values)))
    row = (initializer(list(zone)), kind, names[0], len(numbers), number, names[1], len(asked))
    return '{%s, "%s", %s, %du, %du, %s, %du}' % row, (kind, number)


def main():
    dice, rows, met = random.Random(7), [], set()
    for mode, size in SETUPS:
        if mode not in ref.PLAN_MODES:
            continue
        for kind, slots, numbers in lists(dice, ref.subchannels(mode, size)):
            zone = mode, size, dice.randrange(ref.cells(mode, size)), slots, dice.choice(ref.masks(mode))
            row, case = print_list(dice, len(rows), kind, zone, numbers)
            rows.append(row)
            met.add(case)
    made = {(kind, number) for kind, (_, numbers) in burst_lists.KINDS.items() for number in numbers}
    made |= {("not fours", 18), *zip(FULL, (0, 19, 18)), *(("%d bursts" % count, 0) for count in burst_lists.COUNTS)}
    assert made <= met, made - met
    print("static const struct list_row list_rows[] = {\n    %s,\n};" % ",\n    ".join(rows))


if __name__ == "__main__":
    main()
