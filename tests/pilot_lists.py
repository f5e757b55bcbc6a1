"""Pilot lists of FUSC for the tests, good ones and such as are damaged in one way each. What is right about one is the
reference's to say; a damaged list is made to meet question 20.
"""

COUNT, USED = 166, 1702
LARGEST = 2**32 - 1

# All at the start, all at the end, around DC (which stands before used number 851), and spread over the band.
START, END = tuple(range(COUNT)), tuple(range(USED - COUNT, USED))
AROUND_DC = tuple(range(USED // 2 - COUNT // 2, USED // 2 + COUNT // 2))
EVEN = tuple(USED * i // COUNT for i in range(COUNT))
# At both ends of each half: runs at the edges of the band and on both sides of DC.
ENDS = (*range(41), *range(809, 893), *range(1661, USED))
GOOD = {"start": START, "end": END, "around dc": AROUND_DC, "even": EVEN, "ends": ENDS}


def random_list(dice):
    return tuple(sorted(dice.sample(range(USED), COUNT)))


def of_mode(mode):
    """A list that a mode takes: FUSC is mode 7, the others have none."""
    return EVEN if mode == 7 else ()


def some_good(dice):
    return dice.choice([*GOOD.values(), random_list(dice), random_list(dice)])


# --- damaged in one way -----------------------------------------------------------------------


def changed(pilots, at, number):
    return pilots[:at] + (number,) + pilots[at + 1 :]


def one_less(dice, pilots):
    at = dice.choice([0, COUNT - 1, dice.randrange(COUNT)])
    return pilots[:at] + pilots[at + 1 :]


def one_more(dice, pilots):
    """Still rising, and none beyond the last used number."""
    other = dice.choice([used for used in range(USED) if used not in pilots])
    return tuple(sorted(pilots + (other,)))


def none(dice, pilots):
    return ()


def equal(dice, pilots):
    """One is the one before it."""
    at = dice.choice([1, COUNT - 1, dice.randrange(1, COUNT)])
    return changed(pilots, at, pilots[at - 1])


def falling(dice, pilots):
    """Two neighbours have changed places."""
    at = dice.choice([1, COUNT - 1, dice.randrange(1, COUNT)])
    return changed(changed(pilots, at, pilots[at - 1]), at - 1, pilots[at])


def beyond(dice, pilots):
    """The last past the last used number, or so large that its lowest bits are not; still rising."""
    return changed(pilots, COUNT - 1, dice.choice([USED, USED, 2**16 + pilots[-1], 2**31 + pilots[-1], LARGEST]))


def wrapped(dice, pilots):
    """One so large that its lowest bits are right."""
    at = dice.choice([0, COUNT - 1, dice.randrange(COUNT)])
    return changed(pilots, at, pilots[at] + dice.choice([2**11, 2**16, 2**31]))


def turned(dice, pilots):
    """The first behind the last, or falling throughout."""
    return dice.choice([pilots[1:] + pilots[:1], pilots[::-1]])


def shuffled(dice, pilots):
    other = list(pilots)
    while tuple(other) == pilots:
        dice.shuffle(other)
    return tuple(other)


DAMAGES = {
    "one less": one_less, "one more": one_more, "none": none, "equal": equal, "falling": falling,
    "beyond": beyond, "wrapped": wrapped, "turned": turned, "shuffled": shuffled,
}


def damaged(dice):
    """A damage's name and a list with it."""
    name = dice.choice(list(DAMAGES))
    return name, DAMAGES[name](dice, some_good(dice))


def unfit(dice, mode):
    """A list that a mode does not take: damaged in FUSC, any that is not empty in the others."""
    return damaged(dice)[1] if mode == 7 else dice.choice([some_good(dice), (0,), (LARGEST,), (5, 5)])
