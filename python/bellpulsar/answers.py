"""What the command line prints: a function for each command, from its arguments to text."""

import itertools
import json

import bellpulsar
from bellpulsar import Kind, picture
from bellpulsar.files import start_of
from bellpulsar.refusals import POINTS, carriers_of
from bellpulsar.rows import NOT_YET, arrived, check_symbol, is_unlit, lit_subchannels, runs, subchannels_of, symbol_row

PLAN_LIMIT = 128  # bytes: no plan is that long, so what follows does not matter


def lines(*texts):
    return "".join(text + "\n" for text in texts)


def as_json(**fields):
    """An object on one line."""
    return json.dumps(fields) + "\n"


def refused(refusal, is_json):
    return as_json(refused=refusal.number, words=refusal.words) if is_json else lines(str(refusal))


def not_understood(told, is_json):
    """Of a batch, where it takes the answer's place."""
    return as_json(error=told) if is_json else lines("error: %s" % told)


# The forms of those that are asked for most: json.dumps would take as long as all the rest.
PLACE = "symbol %d carrier %d\n", '{"symbol": %d, "carrier": %d}\n'
DATA = "data slot %d subchannel %d index %d\n", '{"kind": "data", "slot": %d, "subchannel": %d, "index": %d}\n'
OTHER = "%s\n", '{"kind": "%s"}\n'


def place(options):
    slot, point = (options.mode, options.size, options.cell, options.slot), (options.subchannel, options.index)
    return PLACE[options.json] % bellpulsar.place(*slot, *point, pilots=options.pilots)


def locate(options):
    symbol = (options.mode, options.size, options.cell, options.symbol)
    answer = bellpulsar.locate(*symbol, options.carrier, pilots=options.pilots)
    if answer.kind is Kind.DATA:
        return DATA[options.json] % answer[1:]
    return OTHER[options.json] % answer.kind.value


# --- a slot -----------------------------------------------------------------------------------

POINT = ("subchannel", "index", "symbol", "carrier")  # of which a table has a line
TEXT_POINT = " ".join(name + " %d" for name in POINT)
JSON_POINT = "{%s}" % ", ".join('"%s": %%d' % name for name in POINT)
CSV_POINT = ",".join("%d" for _ in POINT)


def table(options):
    slot, pilots = (options.mode, options.size, options.cell, options.slot), options.pilots
    bellpulsar.place(*slot, 0, 0, pilots=pilots)  # refusals 1, 2, 3, 4, 20
    form = CSV_POINT if options.csv else JSON_POINT if options.json else TEXT_POINT
    every = itertools.product(range(subchannels_of(options.mode, options.size)), range(POINTS))
    points = (form % (*point, *bellpulsar.place(*slot, *point, pilots=pilots)) for point in every)
    return lines(*([",".join(POINT)] if options.csv else []), *points)


def first(options):
    slot, mask = (options.mode, options.size, options.cell, options.slot), options.mask
    there = [place != NOT_YET for place in arrived(*slot, options.carriers, mask, options.pilots)]
    lit = lit_subchannels(options.mode, options.size, mask)
    counts = [sum(there[POINTS * rank : POINTS * (rank + 1)]) for rank in range(len(lit))]
    if options.json:
        each = [{"subchannel": own, "points": count, "of": POINTS} for own, count in zip(lit, counts)]
        return as_json(subchannels=each, points=sum(there), of=len(there))
    each = ["subchannel %d points %d of %d" % (own, count, POINTS) for own, count in zip(lit, counts)]
    return lines(*each, "points %d of %d" % (sum(there), len(there)))


# --- collisions -------------------------------------------------------------------------------


MARKS = range(POINTS)
MARK_WORDS = [str(mark) for mark in MARKS]


def hits_text(options, answer, what):
    if options.json:
        return as_json(count=answer.count, **{what: list(itertools.compress(MARKS, answer.hits))})
    hits = " ".join(itertools.compress(MARK_WORDS, answer.hits))
    return "count %d %s %s\n" % (answer.count, what, hits or "none")


def ofusc_collisions(options):
    answer = bellpulsar.ofusc_collisions(
        options.size, options.cell_a, options.subchannel_a, options.cell_b, options.subchannel_b
    )
    return hits_text(options, answer, "groups")


def amc_collisions(options):
    return hits_text(options, bellpulsar.amc_collisions(options.cell_a, options.cell_b), "indices")


# --- plans ------------------------------------------------------------------------------------


def plan_read(options):
    data = b"".join(options.words) if options.file is None else start_of(options.file, PLAN_LIMIT)
    plan = bellpulsar.plan_read(data)
    if options.json:
        return as_json(size=plan.size, zones=[zone._asdict() for zone in plan.zones])
    return lines("size %d" % plan.size, *("mode %d cell %d slots %d mask %d" % zone for zone in plan.zones))


def plan_write(options):
    data = bellpulsar.plan_bytes(options.size, options.zones).hex(" ").upper()
    return as_json(bytes=data) if options.json else lines(data)


# --- bursts -----------------------------------------------------------------------------------


def zone_of(options):
    """As the calls about bursts take it."""
    return options.mode, options.size, options.cell, options.slots


def listed(options):
    """The bursts, as words or from a file."""
    return options.bursts if options.list is None else options.list


def from_to(first, count):
    return "%d to %d" % (first, first + count - 1)


def taken(burst):
    return burst.subchannels * burst.slots


def burst_line(position, burst):
    sides = (from_to(burst.subchannel, burst.subchannels), from_to(burst.slot, burst.slots))
    return "burst %d subchannels %s slots %s takes %d" % (position, *sides, taken(burst))


def bursts(options):
    zone, every = zone_of(options), listed(options)
    bellpulsar.bursts_check(*zone, every, mask=options.mask)
    whole = subchannels_of(options.mode, options.size) * options.slots
    total = sum(map(taken, every))
    if options.json:
        each = [{**burst._asdict(), "takes": taken(burst)} for burst in every]
        return as_json(bursts=each, take=total, of=whole, free=whole - total)
    last = "bursts %d take %d of %d free %d" % (len(every), total, whole, whole - total)
    return lines(*itertools.starmap(burst_line, enumerate(every)), last)


def owned_by(burst):
    return "burst none" if burst is None else "burst %d" % burst


def owner(options):
    at = (options.slot, options.subchannel)
    answer = bellpulsar.burst_owner(*zone_of(options), *at, listed(options), mask=options.mask)
    if options.json:
        return as_json(**answer._asdict())
    return lines("%s looked %d" % (owned_by(answer.burst), answer.looked))


def owners(options):
    row = bellpulsar.burst_owners(*zone_of(options), options.slot, listed(options), mask=options.mask)
    own = row[: subchannels_of(options.mode, options.size)]
    if options.json:
        return as_json(owners=own)
    return lines(*("subchannels %s %s" % (from_to(first, count), owned_by(burst)) for burst, first, count in runs(own)))


# --- a symbol as text -------------------------------------------------------------------------

ROW = 64  # carriers; every size is a multiple of it
SIGNS = {Kind.GUARD: "-", Kind.DC: "D", Kind.PILOT: "P", Kind.DATA: "."}
PICKED, UNLIT = "#", "x"


def sign(carrier, picked):
    if is_unlit(carrier):
        return UNLIT
    what = carrier.what
    return PICKED if picked is not None and what.subchannel == picked else SIGNS[what.kind]


def ruler():
    """Tens of the carriers of a row."""
    return "carrier +" + "".join("%-10d" % tens for tens in range(0, ROW, 10)).rstrip()


def legend(picked, has_unlit):
    parts = ["%s %s" % (sign, kind.value) for kind, sign in SIGNS.items()]
    parts += ["%s data of subchannel %d" % (PICKED, picked)] if picked is not None else []
    return "  ".join(parts + (["%s pilot or data, unlit" % UNLIT] if has_unlit else []))


def show(options):
    at, lent = (options.mode, options.size, options.cell, options.symbol), (options.mask, options.pilots)
    check_symbol(*at, options.subchannel, *lent)
    symbol = symbol_row(*at, *lent)
    signs = "".join(sign(carrier, options.subchannel) for carrier in symbol)
    carriers = carriers_of(options.size)
    rows = ["%7d  %s" % (carriers[at], signs[at : at + ROW]) for at in range(0, options.size, ROW)]
    return lines(ruler(), *rows, legend(options.subchannel, any(map(is_unlit, symbol))))


# --- pictures ---------------------------------------------------------------------------------


def slot_picture(options):
    slot = (options.mode, options.size, options.cell, options.slot)
    return picture.slot(*slot, options.subchannel, options.mask, options.carriers, options.pilots)


def zone_picture(options):
    return picture.zone(*zone_of(options), listed(options), options.mask)


def subchannel_picture(options):
    slot = (options.mode, options.size, options.cells, options.slot)
    return picture.subchannel(*slot, options.subchannel, options.pilots)
