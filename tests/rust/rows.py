"""Prints the requests and answers that callers.rs reads, from fixed seeds: one a line, its name and then numbers.

    python3 tests/rust/rows.py > build/rust/rows.txt

    list      n; the n pilots of a list. The rows below have a list by its number, of which 0 is the empty one
    place     mode size cell slot subchannel index list; refusal symbol carrier
    places    mode size cell slot subchannel list; refusal, where it is 0 places(48)
    locate    mode size cell symbol carrier list; refusal kind slot subchannel index
    length    mode size; points_len grid_len
    lit       mode size mask; lit_points_len
    grid      mode size cell mask slot list pilot(2) n; the n lit subchannels, their points, where each one's floats start in
              the grid, the ground, the grid; floats as bit patterns
    order     the number of a grid above; subchannels to lay, each at least once, unlit ones too
    first     the number of a grid above; how many of its carriers to empty
    ground    mode size cell mask slot list grid_len; refusal of ground
    lay       mode size cell mask slot subchannel list points_len grid_len; refusal of lay
    empty     mode size cell mask slot list points_len grid_len; refusal of empty and of empty_first
    look      the number of a grid above, symbol carrier; kind point(2) slot subchannel index
    unseen    mode size cell mask symbol carrier list grid_len; refusal of look
    ofusc     size cell subchannel cell subchannel; refusal count hits(48)
    amc       cell cell; refusal count hits(48)
    read      length bytes; refusal count size zones(32)
    write     length count size zones(32); refusal written, 56 bytes of which the first were lent
    bursts    mode size cell slots mask slot subchannel n; the n bursts; refusals of check, owner and owners; owner looked;
              where they are not refused owners(192)

What is not given by an answer stands as 0, an owner as 64. Only carriers may be negative.
"""

import os
import random
import sys

TESTS = os.path.dirname(os.path.dirname(os.path.abspath(__file__)))
sys.path[:0] = [TESTS, os.path.join(TESTS, "capi")]

import burst_lists
import bursts_table
import grid_table
import reference as ref
import table
import vectors

KINDS = {"nothing": 0, ref.PILOT: 2, ref.DATA: 3}


def line(name, numbers):
    # In one piece: where Python does not buffer its output, print would make a write of each number.
    sys.stdout.write(" ".join([name, *map(str, numbers)]) + "\n")


def wrong_length(dice, right, other):
    return dice.choice([right + 1, right + 2, right - 1, right - 2, 0, other, 2 * right])


def wrong_sets(good, wrong):
    """The fields with every set of them wrong but the empty one: so a wrong field stands beside a wrong length too."""
    for chosen in range(1, 2 ** len(good)):
        yield [wrong[i] if chosen >> i & 1 else good[i] for i in range(len(good))]


def setups(dice, mode, size, turn):
    """The first four fields, right and wrong. A right mask lights the last subchannel."""
    cells = ref.cells(mode, size)
    mask = [32, 63, 42, 61][turn % 4] if mode == ref.PUSC_DL else 0
    others = [0, 64, mask + 64, mask + 2**16] if mode == ref.PUSC_DL else [1, 63, 64, 2**16]
    return [mode, size, cells - 1, mask], [ref.UNLISTED, 128, cells, dice.choice(others + [2**32 - 1])]


def places_rows(dice, mode, size):
    for *fields, places in table.places_rows(dice, mode, size):
        yield fields + places


def lists(dice, mode):
    """The number of a list that a mode takes, and of one that it does not take."""
    goods, last = len(table.GOOD_LISTS), len(table.LISTS) - 1
    other = dice.choice([0, dice.randint(goods + 1, last)]) if mode == ref.FUSC else dice.randint(1, last)
    return table.some_list(dice, mode), other


def ground_rows(dice, mode, size):
    points, grid = 96 * ref.subchannels(mode, size), ref.grid_floats(mode, size)
    for turn in range(6):
        good, wrong = setups(dice, mode, size, turn)
        pilots, other = lists(dice, mode)
        for fields in wrong_sets(good + [511, pilots, grid], wrong + [512, other, wrong_length(dice, grid, points)]):
            *first, pilots, grid_len = fields
            yield fields + [ref.ground_refusal(*first, grid_len, table.LISTS[pilots])]


def lay_rows(dice, mode, size):
    """Wrong subchannels: unlit, and past the last. Wrong lengths of the points: about 96, and the whole slot's."""
    subchannels, grid = ref.subchannels(mode, size), ref.grid_floats(mode, size)
    for turn, length in enumerate(dice.sample([0, 94, 95, 97, 98, 96 * subchannels], 3)):
        good, wrong = setups(dice, mode, size, turn)
        lit = ref.lit_subchannels(mode, size, good[3])
        unlit = dice.choice([s for s in range(subchannels) if s not in lit] or [subchannels])
        pilots, other = lists(dice, mode)
        right = good + [511, subchannels - 1, pilots, 96, grid]
        for fields in wrong_sets(right, wrong + [512, unlit, other, length, wrong_length(dice, grid, 96 * subchannels)]):
            *first, pilots, points_len, grid_len = fields
            yield fields + [ref.lay_refusal(*first, points_len, grid_len, table.LISTS[pilots])]


def empty_rows(dice, mode, size):
    """Wrong lengths of the points: also one subchannel more or less, and all where not all are lit."""
    every, grid = 96 * ref.subchannels(mode, size), ref.grid_floats(mode, size)
    for turn in range(4):
        good, wrong = setups(dice, mode, size, turn)
        points = ref.lit_points_len(mode, size, good[3])
        other = [every if points < every else 0, wrong_length(dice, points, grid), points + 96, points - 96][turn]
        pilots, unfit = lists(dice, mode)
        wrong += [512, unfit, other, wrong_length(dice, grid, points)]
        for fields in wrong_sets(good + [511, pilots, points, grid], wrong):
            *first, pilots, points_len, grid_len = fields
            yield fields + [ref.buffers_refusal(*first, points_len, grid_len, table.LISTS[pilots])]


def unseen_rows(dice, mode, size):
    symbols, grid = 512 * ref.SLOT_LENGTH[mode], ref.grid_floats(mode, size)
    edges = [edge for edge in table.carrier_edges(size) if edge not in ref.carriers(size)]
    for turn, carrier in enumerate(edges):
        good, wrong = setups(dice, mode, size, turn)
        pilots, other = lists(dice, mode)
        right = good + [symbols - 1, dice.choice(ref.carriers(size)), pilots, grid]
        length = wrong_length(dice, grid, 96 * ref.subchannels(mode, size))
        for fields in wrong_sets(right, wrong + [symbols, carrier, other, length]):
            *first, at, pilots, grid_len = fields
            yield fields + [ref.look_refusal(*first, grid_len, at, table.LISTS[pilots])]


def look_rows(dice, number, mode, size, cell, mask, slot, grid, pilots):
    """Each offset of the slot: the edges of the range and of the band, DC and both beside it, and others."""
    length = ref.SLOT_LENGTH[mode]
    edges = [-size // 2, *ref.band(mode, size), -1, 0, 1, size // 2 - 1]
    for symbol in range(slot * length, (slot + 1) * length):
        for carrier in edges + dice.sample(ref.carriers(size), 60):
            what = ref.look(mode, size, cell, mask, symbol, grid, carrier, pilots)[1]
            told = list(what[1] if what[1:] else [0, 0]) + list(what[2:])
            yield [number, symbol, carrier, KINDS[what[0]]] + told + [0] * (5 - len(told))


def some_counts(dice, mode, size):
    """None and all, the edges of each symbol, of its band and of DC, others, and past the grid's end."""
    places, low, high = size * ref.SLOT_LENGTH[mode], *ref.band(mode, size)
    edges = [row + size // 2 + c for row in range(0, places, size) for c in (-size // 2, low, 0, high + 1)]
    counts = [edge + off for edge in edges for off in (0, 1)] + dice.sample(range(places), 10)
    return counts + [places, places + 1, 2**31, 2**32 - 1]


def some_order(dice, subchannels):
    """Each subchannel at least once, some more often, in any order."""
    order = [*range(subchannels), *dice.choices(range(subchannels), k=subchannels)]
    dice.shuffle(order)
    return order


def print_grids(dice):
    for number, (mode, size, mask, pilots) in enumerate(grid_table.CASES):
        cell, slot, pilot, points, grid = grid_table.case(dice, mode, size, mask, pilots)
        lit = ref.lit_subchannels(mode, size, mask)
        places = grid_table.places(mode, size, cell, mask, slot, pilots)
        ground = grid_table.grounded(mode, size, cell, mask, slot, pilot, pilots)
        fields = [mode, size, cell, mask, slot, table.LISTS.index(pilots)]
        line("grid", fields + pilot + [len(lit), *lit] + points + places + ground + grid)
        line("order", [number] + some_order(dice, ref.subchannels(mode, size)))
        for count in some_counts(dice, mode, size):
            line("first", [number, count])
        for row in look_rows(dice, number, mode, size, cell, mask, slot, grid, pilots):
            line("look", row)


def print_collisions(name, rows):
    for row in rows:
        number, hits, count = row[-1]
        line(name, row[:-1] + [number, count] + hits)


def bursts_row(fields, numbers):
    check = ref.bursts_check(*fields[:5], numbers)
    of_owner, owner, looked = ref.burst_owner(*fields, numbers)
    of_owners, owners = ref.burst_owners(*fields[:6], numbers)
    return fields + [len(numbers) // 4] + numbers + [check, of_owner, of_owners, owner, looked] + owners * (of_owners == 0)


def bursts_rows(dice, mode, size):
    """Lists of every kind but those that are not of four numbers each, which a slice of bursts cannot be; then wrong
    fields beside a list that is good or not."""
    cells, subchannels = ref.cells(mode, size), ref.subchannels(mode, size)
    for _, slots, numbers in bursts_table.lists(dice, subchannels):
        if len(numbers) % 4 == 0:
            mask, slot = dice.choice(ref.masks(mode)), dice.choice([dice.randrange(slots)] * 3 + [ref.SLOTS - 1])
            zone = [mode, size, dice.randrange(cells), slots, mask]
            yield bursts_row(zone + [slot, dice.randrange(subchannels)], numbers)
    for turn, kind in enumerate(["past", "corner", "both faults"]):
        (*setup, mask), (*wrong_setup, wrong_mask) = setups(dice, mode, size, turn)
        slots = [1, 9, ref.SLOTS][turn]
        lists = [burst_lists.numbers(burst_lists.KINDS[of][0](dice, (subchannels, slots))) for of in ("good", kind)]
        good = setup + [slots, mask, ref.SLOTS - 1, subchannels - 1, lists[0]]
        wrong = wrong_setup + [[0, 513][turn % 2], wrong_mask, ref.SLOTS, subchannels, lists[1]]
        wrong[0] = [ref.PUSC_UL, ref.UNLISTED][turn % 2]
        for *fields, numbers in wrong_sets(good, wrong):
            yield bursts_row(fields, numbers)


def print_plans():
    """The requests of the stored plan vectors, but for those with a number that 32 bits do not hold."""
    for request in vectors.plans_requests():
        if max(request[1:]) < 2**32:
            line({"r": "read", "w": "write"}[request[0]], list(request[1:]) + vectors.plans_answer(request).split())


def main():
    dice = random.Random(1)
    for pilots in table.LISTS:
        line("list", [len(pilots), *pilots])
    for mode, size in table.SETUPS:
        for name, rows in [
            ("place", table.place_rows),
            ("places", places_rows),
            ("locate", table.locate_rows),
            ("ground", ground_rows),
            ("lay", lay_rows),
            ("empty", empty_rows),
            ("unseen", unseen_rows),
        ]:
            for row in rows(dice, mode, size):
                line(name, row)
    for row in table.length_rows():
        line("length", row)
    for row in table.lit_rows():
        line("lit", row)
    print_grids(dice)
    for size in ref.BIN_SIZES:
        print_collisions("ofusc", table.ofusc_rows(dice, size))
    print_collisions("amc", table.amc_rows(dice))
    print_plans()
    for mode, size in table.SETUPS:
        for row in bursts_rows(dice, mode, size) if mode in ref.PLAN_MODES else []:
            line("bursts", row)


if __name__ == "__main__":
    main()
