"""Lists of bursts for the tests, good ones and such as are damaged in one way each. What is right about one is the
reference's to say; a kind's refusals are those that it is made to meet.

A burst is [first subchannel, how many, first slot, how many]. A zone is how many subchannels it has, and how many slots.
A run is what a burst has along one of the two: the first and how many.
"""

MOST = 64
COUNTS = [0, 1, 2, 3, 8, 62, 63, 64]
CUT = 2**32  # where 32 bits would wrap


# --- good lists -------------------------------------------------------------------------------


def halves(dice, burst):
    """A burst cut in two from side to side, where it is more than one wide."""
    at = dice.choice([i for i in (1, 3) if burst[i] > 1])
    low, high = list(burst), list(burst)
    low[at] = dice.randrange(1, burst[at])
    high[at] -= low[at]
    high[at - 1] += low[at]
    return [low, high]


def tiling(dice, zone, count):
    """The zone cut into so many bursts, or as many as it has room for, in any order."""
    large, single = [[0, zone[0], 0, zone[1]]][:count], []  # single: of one subchannel in one slot
    while large and len(large) + len(single) < count:
        for half in halves(dice, large.pop(dice.randrange(len(large)))):
            (large if half[1] * half[3] > 1 else single).append(half)
    bursts = large + single
    dice.shuffle(bursts)
    return bursts


def good(dice, zone, most=MOST):
    """A tiling, or one of which some are left out."""
    count = dice.choice([count for count in COUNTS if count <= most] + [dice.randrange(most + 1)])
    bursts = tiling(dice, zone, count)
    return bursts if dice.randrange(2) else bursts[: dice.randrange(len(bursts) + 1)]


# --- a burst that is not in its zone: one of its runs is not ----------------------------------


def some_run(dice, limit):
    first = dice.randrange(limit)
    return [first, dice.randrange(1, limit - first + 1)]


def empty_run(dice, limit):
    return [dice.choice([0, limit - 1, limit, CUT - 1, dice.randrange(limit)]), 0]


def past_run(dice, limit):
    """Ends one past the zone."""
    first = dice.choice([0, limit, dice.randrange(limit)])
    return [first, limit + 1 - first]


def far_run(dice, limit):
    """Large numbers, alone or both; cut to 8, 16 or 31 bits some are in the zone."""
    first, many = some_run(dice, limit)
    large = dice.choice([2**8] * (limit <= 2**8) + [2**16, 2**31, 2**31 - 1])  # of 512 slots, 2**8 is still one
    return dice.choice([[first + large, many], [first, many + large], [first + large, many + large], [CUT - 1, 1]])


def wrapped_run(dice, limit):
    """Ends in the zone where the sum is cut to 32 bits."""
    end = dice.randrange(limit + 1)
    first = dice.choice([end + 1, dice.randrange(end + 1, end + 1 + limit), CUT - 1, dice.randrange(end + 1, CUT)])
    return [first, CUT + end - first]


def stray(dice, zone, run):
    """A burst with such a run along its subchannels or its slots, at times along both."""
    runs = [some_run(dice, limit) for limit in zone]
    for axis in dice.choice([[0], [0], [1], [1], [0, 1]]):
        runs[axis] = run(dice, zone[axis])
    return runs[0] + runs[1]


def put_in(dice, bursts, burst):
    """The list with a burst more, anywhere; the last of a full one gives up its place."""
    kept = bursts[: MOST - 1]
    kept.insert(dice.randrange(len(kept) + 1), burst)
    return kept


def with_stray(run):
    return lambda dice, zone: put_in(dice, good(dice, zone), stray(dice, zone, run))


# --- two bursts that touch or overlap: how their runs lie along each of the two ---------------


def swapped(dice, runs):
    return runs if dice.randrange(2) else runs[::-1]


def one_shared(dice, limit):
    """One ends where the other starts, on the same one."""
    at = dice.randrange(limit)
    low = dice.randrange(at + 1)
    return swapped(dice, [[low, at - low + 1], [at, dice.randrange(1, limit - at + 1)]])


def side_by_side(dice, limit):
    """One ends just before the other starts; in one alone they are equal."""
    if limit == 1:
        return [[0, 1], [0, 1]]
    at = dice.randrange(1, limit)
    low = dice.randrange(at)
    return swapped(dice, [[low, at - low], [at, dice.randrange(1, limit - at + 1)]])


def inside(dice, limit):
    """The first is a part of the second."""
    first, many = some_run(dice, limit)
    off, part = some_run(dice, many)
    return [[first + off, part], [first, many]]


def around(dice, limit):
    return inside(dice, limit)[::-1]


def equal(dice, limit):
    return [some_run(dice, limit)] * 2


def pair(dice, zone, along_subchannels, along_slots):
    """Two bursts whose runs lie so."""
    runs = along_subchannels(dice, zone[0]), along_slots(dice, zone[1])
    return swapped(dice, [runs[0][i] + runs[1][i] for i in (0, 1)])


def with_pair(*ways):
    """The two in the zone's first slots, a good list in the others; the second at times behind all, with 64 in all."""

    def make(dice, zone):
        own = dice.randrange(min(2, zone[1]), zone[1] + 1)
        first, second = pair(dice, (zone[0], own), *dice.choice(ways))
        rest = good(dice, (zone[0], zone[1] - own), MOST - 2) if own < zone[1] else []
        bursts = put_in(dice, [[a, b, c + own, d] for a, b, c, d in rest], first)
        return put_in(dice, bursts, second) if dice.randrange(2) else bursts + [second]

    return make


OVERLAPS = [(one_shared, one_shared), (inside, inside), (inside, around), (equal, equal), (inside, one_shared)]
overlapping = with_pair(*OVERLAPS)


def two_faults(dice, zone):
    """An overlap, and a burst that is not in the zone before or behind it."""
    run = dice.choice([empty_run, past_run, far_run, wrapped_run])
    return put_in(dice, overlapping(dice, zone), stray(dice, zone, run))


def both_faults(dice, zone):
    """The last burst covers others and ends one past the zone."""
    bursts = good(dice, zone, MOST - 1) or tiling(dice, zone, 2)
    first, subchannels, slot, slots = dice.choice(bursts)
    past = dice.choice([[first, zone[0] + 1 - first, slot, slots], [first, subchannels, slot, zone[1] + 1 - slot]])
    return bursts + [past]


# --- lists of every kind ----------------------------------------------------------------------


def too_many(dice, zone):
    """One more than 64 or a few; a zone that is too small for them has some again."""
    count = dice.choice([MOST + 1, MOST + 1, MOST + 2, 2 * MOST])
    bursts = tiling(dice, zone, count)
    return bursts + dice.choices(bursts, k=count - len(bursts))


# Each kind: how it is made, and the refusals that it meets.
KINDS = {
    "good": (good, [0]),
    "too many": (too_many, [18]),
    "empty": (with_stray(empty_run), [18]),
    "past": (with_stray(past_run), [18]),
    "far": (with_stray(far_run), [18]),
    "wrapped": (with_stray(wrapped_run), [18]),
    "corner": (with_pair((one_shared, one_shared)), [19]),
    "edge": (with_pair((one_shared, inside), (around, one_shared)), [19]),
    "contained": (with_pair((inside, inside)), [19]),
    "cross": (with_pair((inside, around)), [19]),
    "equal": (with_pair((equal, equal)), [19]),
    "edges touch": (with_pair((side_by_side, inside), (inside, side_by_side)), [0]),
    "corners touch": (with_pair((side_by_side, side_by_side)), [0]),
    "two faults": (two_faults, [18, 19]),
    "both faults": (both_faults, [18]),
}


def numbers(bursts):
    return [number for burst in bursts for number in burst]


def not_fours(dice, zone):
    """A list's numbers with one to three more, or less."""
    good_numbers = numbers(good(dice, zone))
    off = dice.choice([-3, -2, -1, 1, 2, 3])
    return good_numbers[:off] if off < 0 and good_numbers else good_numbers + [0, 1, 0][: abs(off)]


def some_list(dice, zone):
    """A list's kind and its numbers, half of the time good."""
    kind = "good" if dice.randrange(2) else dice.choice([*KINDS, "not fours"])
    return kind, not_fours(dice, zone) if kind == "not fours" else numbers(KINDS[kind][0](dice, zone))
