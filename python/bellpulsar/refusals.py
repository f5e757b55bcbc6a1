"""A refusal in words: what was asked, the value given, and what would be accepted.

The engine alone judges a request. What stands here only explains the number that it gave, and where it finds nothing to
explain, the words are the question's.
"""

from typing import Any, Callable, Dict, List, Mapping, NamedTuple, Optional, Sequence, Tuple

Words = Optional[str]  # nothing where there is nothing to explain
Asked = Mapping[str, Any]  # a request's fields by name
Numbers = Sequence[int]  # of a zone or of a burst

# The questions that the engine puts, by number.
QUESTIONS = {
    1: "Is the mode listed (in a plan and of bursts: 0 or 2 to 7)?",
    2: "Is the size that mode's (of a plan: 256, 512, 1024 or 2048)?",
    3: "Is the cell in range?",
    4: "Is the slot below 512, the zone's symbol below 512 times the slot length?",
    5: "Is the subchannel in range (of a lay: and lit)?",
    6: "Is the index below 48?",
    7: "Is the carrier from -size/2 to size/2 - 1?",
    8: "Are the points just 96 floats for each subchannel that is lit (of a lay: 96)?",
    9: "Is the grid just 2 * size floats for each symbol of a slot?",
    10: "Do the bytes reach to the value's end or its third group?",
    11: "Does the value end by its third group, in shortest form?",
    12: "Is the count 1 to 8, and in writing every place past it zero?",
    13: "Are the slots 1 to 512?",
    14: "At 2048, is the first zone mode 0, and does only AMC (modes 3 to 6) follow AMC?",
    15: "Are the bytes used up?",
    16: "Is the destination long enough?",
    17: "Is the mask 1 to 63 in mode 0, 0 in the others?",
    18: "Are the bursts at most 64, of four numbers each, none empty and each wholly in its zone?",
    19: "Is the burst apart from every earlier one?",
    20: "Are the pilots 166 rising used numbers below 1702 in mode 7, none in the others?",
}

# --- ranges -----------------------------------------------------------------------------------

SIZES = (256, 512, 1024, 2048)
SLOTS = 512
POINTS = 48
AMC_CELLS = 2352
AMC_MODES = range(3, 7)
FUSC = 7
PILOTS = 166  # of a symbol of FUSC
USED = 1702  # numbers of its carriers
ALL_LIT = (0,)  # the masks of a mode that has no major groups


class Ranges(NamedTuple):
    """A mode's. Numbers of cells and subchannels are given by N, which is size / 64."""

    name: str
    sizes: Tuple[int, ...]
    cells: Callable[[int], int]
    subchannels: Callable[[int], int]
    symbols: int  # of a slot
    masks: Sequence[int] = ALL_LIT


def amc(bins: int, symbols: int) -> Ranges:
    """AMC in a slot of this shape. A symbol has 6 * N bins."""
    return Ranges("AMC %dx%d" % (bins, symbols), SIZES, lambda n: AMC_CELLS, lambda n: 6 * n // bins, symbols)


MODES = (
    Ranges("PUSC downlink", (2048,), lambda n: 32, lambda n: 60, 2, range(1, 64)),
    Ranges("PUSC uplink", (2048,), lambda n: 70, lambda n: 70, 3),
    Ranges("optional FUSC", SIZES, lambda n: n * n, lambda n: n, 1),
    amc(6, 1),
    amc(2, 3),
    amc(3, 2),
    amc(1, 6),
    Ranges("FUSC", (2048,), lambda n: 32, lambda n: 32, 1),
)
PLAN_MODES = (0, 2, *AMC_MODES, FUSC)
PLAN_COUNTS = range(1, 9)
PLAN_SLOTS = range(1, SLOTS + 1)
BURSTS = 64  # of a list, at most


def carriers_of(size: int) -> range:
    """Of a symbol, by rising frequency; DC is 0."""
    return range(-(size // 2), size // 2)


# --- words ------------------------------------------------------------------------------------


def shown(value: int) -> str:
    return str(value) if abs(value) < 10**20 else "of more than 20 digits"


def accepted_values(values: Sequence[int]) -> str:
    if isinstance(values, range) and values[0] != values[-1]:
        return "%d to %d" % (values[0], values[-1])
    return ", ".join(map(str, values))


def not_one_of(field: str, value: int, whose: str, values: Sequence[int]) -> Words:
    """The words, or nothing where the value would be accepted."""
    if value not in values:
        return "%s %s is not one of %s: %s" % (field, shown(value), whose, accepted_values(values))
    return None


def by_size(mode: int, size: int, count: Callable[[int], int]) -> str:
    """Whose a range is that goes by the mode, or by its size too."""
    whose = "mode %d's" % mode
    return whose if count(4) == count(32) else "%s at size %d" % (whose, size)


def mode_words(field: str, asked: Asked) -> Words:
    return not_one_of(field, asked[field], "the map's", range(len(MODES)))


def size_words(field: str, asked: Asked) -> Words:
    return not_one_of(field, asked[field], "mode %d's" % asked["mode"], MODES[asked["mode"]].sizes)


def cell_words(field: str, asked: Asked) -> Words:
    if "mode" not in asked:  # AMC's collisions, the same in all its modes and sizes
        return not_one_of(field, asked[field], "AMC's", range(AMC_CELLS))
    mode, size = asked["mode"], asked["size"]
    count = MODES[mode].cells
    return not_one_of(field, asked[field], by_size(mode, size, count), range(count(size // 64)))


def mask_words(field: str, asked: Asked) -> Words:
    return not_one_of(field, asked[field], "mode %d's" % asked["mode"], MODES[asked["mode"]].masks)


def slot_words(field: str, asked: Asked) -> Words:
    return not_one_of(field, asked[field], "a zone's", range(SLOTS))


def symbol_words(field: str, asked: Asked) -> Words:
    mode = asked["mode"]
    return not_one_of(field, asked[field], "mode %d's" % mode, range(SLOTS * MODES[mode].symbols))


def subchannels_of(mode: int, size: int) -> Tuple[str, range]:
    """Whose they are, and all of them."""
    count = MODES[mode].subchannels
    return by_size(mode, size, count), range(count(size // 64))


def subchannel_words(field: str, asked: Asked) -> Words:
    told = not_one_of(field, asked[field], *subchannels_of(asked["mode"], asked["size"]))
    return told or unlit_words(asked)


def runs(numbers: Numbers) -> List[range]:
    """Of rising numbers, a range for each run without a gap."""
    firsts = [number for number in numbers if number - 1 not in numbers]
    lasts = [number for number in numbers if number + 1 not in numbers]
    return [range(first, last + 1) for first, last in zip(firsts, lasts)]


def unlit_words(asked: Asked) -> Words:
    """Of a lay, which has the subchannels that are lit."""
    if "lit" in asked and asked["subchannel"] not in asked["lit"]:
        accepted = ", ".join(map(accepted_values, runs(asked["lit"])))
        told = (asked["subchannel"], asked["mask"], accepted)
        return "subchannel %d is not one of those that mask %d lights: %s" % told
    return None


def index_words(field: str, asked: Asked) -> Words:
    return not_one_of(field, asked[field], "a subchannel's", range(POINTS))


def carrier_words(field: str, asked: Asked) -> Words:
    size = asked["size"]
    return not_one_of(field, asked[field], "size %d's" % size, carriers_of(size))


def pilot_words(at: int, pilots: Numbers) -> Words:
    """Of one entry of a list of pilots, or nothing."""
    if pilots[at] not in range(USED):
        told = (at, shown(pilots[at]), FUSC, accepted_values(range(USED)))
        return "pilot %d is %s, not one of mode %d's used numbers: %s" % told
    if at > 0 and pilots[at] <= pilots[at - 1]:
        return "pilot %d is %d, not larger than pilot %d, which is %d" % (at, pilots[at], at - 1, pilots[at - 1])
    return None


def pilots_words(field: str, asked: Asked) -> Words:
    mode, pilots = asked["mode"], asked[field]
    if mode != FUSC and pilots:
        return "%d pilots are given, and mode %d takes none" % (len(pilots), mode)
    if mode == FUSC and len(pilots) != PILOTS:
        return "%d pilots are given, not %d" % (len(pilots), PILOTS)
    return next(filter(None, (pilot_words(at, pilots) for at in range(len(pilots)))), None)


def length_words(field: str, asked: Asked) -> Words:
    given, right = asked[field]
    return "%s of %d floats, not %d" % (field, given, right)


# By number: the fields that its question is about, each with its words.
FIELDS = {
    1: {"mode": mode_words},
    2: {"size": size_words},
    3: {"cell": cell_words, "cell_a": cell_words, "cell_b": cell_words},
    4: {"slot": slot_words, "symbol": symbol_words},
    5: {"subchannel": subchannel_words, "subchannel_a": subchannel_words, "subchannel_b": subchannel_words},
    6: {"index": index_words},
    7: {"carrier": carrier_words},
    8: {"points": length_words},
    9: {"grid": length_words},
    17: {"mask": mask_words},
    20: {"pilots": pilots_words},
}


def field_words(number: int, asked: Asked) -> str:
    """Of a request's fields by name, lengths as pairs of what is given and what would be accepted; `lit` has the
    subchannels that a lay's mask lights, `pilots` the numbers of a list."""
    for field, words in FIELDS[number].items():
        told = field in asked and words(field, asked)
        if told:
            return told
    return QUESTIONS[number]


# --- plans ------------------------------------------------------------------------------------


def order_words(size: int, zones: Sequence[Numbers], at: int) -> Words:
    mode = zones[at][0]
    if size == 2048 and at == 0 and mode != 0:
        return "mode %d is first at size 2048, where only mode 0 is accepted" % mode
    before = zones[at - 1][0] if at > 0 else mode
    if before in AMC_MODES and mode not in AMC_MODES:
        after = (mode, before, accepted_values(AMC_MODES))
        return "mode %d follows mode %d, after which only modes %s are accepted" % after
    return None


def zone_words(number: int, size: int, zone: Numbers) -> Words:
    """What one of 1, 2, 3, 13 and 17 finds in a zone, or nothing."""
    mode, cell, slots, mask = zone
    asked = {"mode": mode, "size": size, "cell": cell, "mask": mask}
    if number == 1:
        return not_one_of("mode", mode, "a plan's", PLAN_MODES)
    if number == 2:
        return size_words("size", asked)
    if number == 3:
        return cell_words("cell", asked)
    if number == 13:
        return not_one_of("slots", slots, "a zone's", PLAN_SLOTS)
    return mask_words("mask", asked) if number == 17 else None


def in_a_row(four: Numbers) -> str:
    return ",".join(map(shown, four))


def places_words(count: int, zones: Sequence[Numbers]) -> Words:
    """The first place past the count that is not all zero."""
    for at, zone in enumerate(zones[count:], count + 1):
        if any(zone):
            told = (at, in_a_row(zone), count)
            return "place %d is %s, where past the count of %d only zeros are accepted" % told
    return None


def plan_words(number: int, count: int, size: int, zones: Sequence[Numbers]) -> str:
    """Of a plan's own questions: 12, 2, and for each zone 1, 2, 3, 13, 17, 14."""
    if number == 12:
        return not_one_of("count", count, "a plan's", PLAN_COUNTS) or places_words(count, zones) or QUESTIONS[number]
    wrong_size = not_one_of("size", size, "a plan's", SIZES)
    if number == 2 and wrong_size:
        return wrong_size
    for at, zone in enumerate(zones[:count]):
        told = order_words(size, zones, at) if number == 14 else zone_words(number, size, zone)
        if told:
            return "zone %d: %s" % (at + 1, told)
    return QUESTIONS[number]


def value_length(value: int) -> int:
    """The bytes that a value takes."""
    return 1 + (value >= 2**7) + (value >= 2**14)


def value_name(at: int) -> str:
    """What the value of a plan at this place is."""
    if at < 2:
        return ("the count", "the size")[at]
    zone, part = divmod(at - 2, 4)
    return "zone %d's %s" % (zone + 1, ("mode", "cell", "slots", "mask")[part])


def values_of(data: bytes) -> Tuple[List[int], bytes]:
    """The values that the bytes start with, and the bytes behind the last that is whole and in its shortest form."""
    values: List[int] = []
    while True:
        length = next((at for at, byte in enumerate(data[:3], 1) if byte < 128), 0)
        value = sum((byte & 127) << 7 * at for at, byte in enumerate(data[:length]))
        if length == 0 or length != value_length(value):
            return values, data
        values.append(value)
        data = data[length:]


def value_words(number: int, data: bytes) -> str:
    """Of 10 and 11."""
    values, rest = values_of(data)
    name = value_name(len(values))
    if number == 10:
        return "%d bytes end within %s, and more must follow" % (len(data), name)
    last = next((at for at, byte in enumerate(rest[:3], 1) if byte < 128), 0)
    fault = "which is not its shortest form" if last else "and a fourth group is not accepted"
    return "%s is %s, %s" % (name, rest[: last or 3].hex(" ").upper(), fault)


def read_words(number: int, data: bytes, length: int) -> str:
    """Of a plan's bytes: those that decide, and how many there are."""
    if number in (10, 11):
        return value_words(number, data)
    values, _ = values_of(data)
    zones = [tuple(values[at : at + 4]) for at in range(2, len(values) - 3, 4)]
    if number == 15:
        used = sum(value_length(value) for value in values[: 2 + 4 * values[0]])
        return "%d bytes are given, and the plan ends after %d" % (length, used)
    return plan_words(number, values[0], values[1] if values[1:] else 0, zones)


def write_words(number: int, count: int, size: int, zones: Sequence[Numbers], room: int) -> str:
    """Of a plan in numbers, and of its destination's bytes."""
    if number == 16:
        need = sum(map(value_length, [count, size, *(value for zone in zones[:count] for value in zone)]))
        return "dest of %d bytes, not %d or more" % (room, need)
    return plan_words(number, count, size, zones)


# --- bursts -----------------------------------------------------------------------------------


def length_of_list_words(bursts: Sequence[Numbers]) -> Words:
    """Of a list as a whole, or nothing."""
    for at, burst in enumerate(bursts):
        if len(burst) != 4:
            return "burst %d has %d numbers, not 4" % (at, len(burst))
    if len(bursts) > BURSTS:
        return "%d bursts are given, not %d or fewer" % (len(bursts), BURSTS)
    return None


def side_words(field: str, first: int, count: int, whose: str, values: range) -> Words:
    """Of a burst's subchannels or slots, from the first on so many, or nothing."""
    if count < 1:
        return "%s %ss, not 1 or more" % (shown(count), field)
    if count == 1:
        return not_one_of(field, first, whose, values)
    last = first + count - 1
    if first not in values or last not in values:
        own = "%ss %d to %d" % (field, first, last) if abs(first) + count < 10**20 else "its %ss" % field
        return "%s are not all of %s: %s" % (own, whose, accepted_values(values))
    return None


def outside_words(size: int, zone: Numbers, burst: Numbers) -> Words:
    """Of a burst that is empty or not wholly in its zone, or nothing."""
    subchannel, subchannels, slot, slots = burst
    told = side_words("subchannel", subchannel, subchannels, *subchannels_of(zone[0], size))
    return told or side_words("slot", slot, slots, "the zone's", range(zone[2]))


def meet(first: int, count: int, other: int, others: int) -> bool:
    """Whether two runs of numbers, from a first on so many, have one in common."""
    return first < other + others and other < first + count


def overlap_words(bursts: Sequence[Numbers], at: int) -> Words:
    """Of a burst that overlaps an earlier one, or nothing."""
    for before, burst in enumerate(bursts[:at]):
        if meet(*bursts[at][:2], *burst[:2]) and meet(*bursts[at][2:], *burst[2:]):
            return "it overlaps burst %d, which is %s" % (before, in_a_row(burst))
    return None


def burst_words(number: int, size: int, zone: Numbers, bursts: Sequence[Numbers], asked: Asked) -> str:
    """Of a list of bursts, their zone (mode, cell, slots, mask) and, for 4 and 5, the slot and subchannel asked for."""
    if number in (4, 5):
        return field_words(number, {"mode": zone[0], "size": size, **asked})
    if number not in (18, 19):
        return zone_words(number, size, zone) or QUESTIONS[number]
    told = length_of_list_words(bursts)
    if told:
        return told
    for at, burst in enumerate(bursts):
        told = outside_words(size, zone, burst) if number == 18 else overlap_words(bursts, at)
        if told:
            return "burst %d is %s: %s" % (at, in_a_row(burst), told)
    return QUESTIONS[number]
