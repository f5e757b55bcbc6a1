"""Pictures of the map as SVG text, drawn from the library's answers alone.

`slot` draws a slot: carriers along x, in bands under each other, symbols along y, a colour for each subchannel. What is
unlit is hatched; points that a capture has still to deliver are pale.
`zone` draws the bursts of a zone: slots along x, subchannels along y, a colour for each burst, white where it is free.
`subchannel` draws one subchannel's points: carriers along x, the index along y, a panel for each cell, a colour for
each symbol. Where all points lie close together, as in AMC, it has only the carriers around them.
What one points at has a title: symbol, carrier and what is there, or which burst it is.
"""

import collections
import colorsys
from typing import NamedTuple

import bellpulsar
from bellpulsar import Kind
from bellpulsar.refusals import AMC_MODES, MODES, carriers_of
from bellpulsar.rows import arrived, awaiting, burst_boxes, check_picked, check_slot, is_unlit, lit_subchannels
from bellpulsar.rows import runs, subchannels_of, symbol_row

LEFT, RIGHT, TOP, BOTTOM = 76, 24, 64, 16  # margins
WIDTH = 1280  # of a band or panel

GUARD, DC, PILOT, OTHER, PICKED = "#d4d4d4", "#ffffff", "#000000", "#cfe3f5", "#d7301f"
UNLIT = "url(#hatch)"
AWAITED = "#f4efdf"


# --- SVG --------------------------------------------------------------------------------------


def element(tag, content="", **attributes):
    """An element; underscores in attribute names stand for hyphens, a last one is dropped (class_)."""
    words = ['%s="%s"' % (name.rstrip("_").replace("_", "-"), value) for name, value in attributes.items()]
    head = " ".join([tag] + words)
    return "<%s>%s</%s>" % (head, content, tag) if content else "<%s/>" % head


def text(x, y, content, **attributes):
    return element("text", str(content), x=x, y=y, **attributes)


def line(x1, y1, x2, y2, **attributes):
    return element("line", x1=x1, y1=y1, x2=x2, y2=y2, **{"stroke": "#444444", **attributes})


def box(x, y, width, height, **attributes):
    return element("rect", x=x, y=y, width=width, height=height, **attributes)


def group(x, y, parts, **attributes):
    return element("g", "\n" + "\n".join(parts) + "\n", transform="translate(%d,%d)" % (x, y), **attributes)


def document(height, title, parts):
    width = LEFT + WIDTH + RIGHT
    head = [
        element("title", title),
        box(0, 0, width, height, fill="#ffffff"),
        text(LEFT, 26, title, font_size=18, font_weight="bold"),
    ]
    size = {"width": width, "height": height, "viewBox": "0 0 %d %d" % (width, height)}
    font = {"font-family": "sans-serif", "font-size": 12}
    whole = "\n" + "\n".join(head + parts) + "\n"
    return element("svg", whole, xmlns="http://www.w3.org/2000/svg", **size, **font) + "\n"


def upright(x, y, content):
    """A title of a y axis."""
    turn = "rotate(-90 %d %d)" % (x, y)
    return text(x, y, content, text_anchor="middle", transform=turn)


def ticks_under(y, numbers, scale):
    """Ticks and numbers under a band or panel; the first number is at its left."""
    parts = []
    for number in numbers:
        x = "%g" % ((number - numbers[0] + 0.5) * scale)
        parts += [line(x, y, x, y + 5), text(x, y + 18, number, text_anchor="middle")]
    return parts


def carrier_ticks(y, first, last, step, scale):
    return ticks_under(y, [*range(first, last, step), last], scale)


# --- a slot -----------------------------------------------------------------------------------

BAND = 256  # carriers
CARRIER = WIDTH // BAND
SYMBOL = 20
GAP = 54  # between bands: tick labels and the mark of DC
SWATCH = 36


def slot_symbols(mode, size, cell, slot, pilots):
    """The zone's symbols that a slot has; each subchannel has points on all of them."""
    return sorted({place.symbol for place in places_of(mode, size, cell, slot, 0, pilots)})


def hatch():
    """What UNLIT names: thin lines, so that it is told from every plain colour."""
    lines = box(0, 0, 5, 5, fill="#f7f7f7") + line(0, 5, 5, 0, stroke="#9a9a9a")
    return element("pattern", lines, id="hatch", width=5, height=5, patternUnits="userSpaceOnUse")


def hue(number, total):
    """Colours that rise with the number around the wheel, in three depths, so that neighbours differ."""
    lightness = (0.42, 0.58, 0.74)[number % 3]
    red, green, blue = colorsys.hls_to_rgb(0.85 * number / total, lightness, 0.75)
    return "#%02x%02x%02x" % (round(255 * red), round(255 * green), round(255 * blue))


def class_of(carrier, picked):
    """The SVG class of a carrier."""
    if is_unlit(carrier):
        return "unlit"
    if carrier.awaited:
        return "awaited"
    located = carrier.what
    if located.kind is not Kind.DATA:
        return located.kind.value.lower()
    if picked is None or located.subchannel == picked:
        return "subchannel-%d" % located.subchannel
    return "other"


def styles(total, picked, unlit):
    """How each class is drawn; the legend has the subchannels that are unlit too."""
    fills = {"guard": GUARD, "dc": DC, "pilot": PILOT, "other": OTHER, "unlit": UNLIT, "awaited": AWAITED}
    for number in range(total):
        colour = UNLIT if number in unlit else hue(number, total)
        fills["subchannel-%d" % number] = colour if picked is None else PICKED
    return {name: {"fill": fill} for name, fill in fills.items()} | {"dc": {"fill": DC, "stroke": "#000000"}}


def content_of(carrier):
    located = carrier.what
    data = located.kind is Kind.DATA
    content = "subchannel %d, index %d" % (located.subchannel, located.index) if data else located.kind.value
    if is_unlit(carrier):
        return content + ", unlit"
    return content + ", not arrived yet" if carrier.awaited else content


def titled_path(symbol, carrier, content, outline, length):
    """What is drawn by itself: a carrier, or guards in a row."""
    carriers = "carrier %d" % carrier if length == 1 else "carriers %d to %d" % (carrier, carrier + length - 1)
    return element("path", element("title", "symbol %d, %s: %s" % (symbol, carriers, content)), d=outline)


def band_paths(first, rows, symbols, picked, style):
    """A group for each class, DC over all others; rows are what the band's carriers are, a row a symbol."""
    paths = collections.defaultdict(list)
    for number, (symbol, row) in enumerate(zip(symbols, rows)):
        for carrier, at, length in runs(row):  # guards are equal, points and pilots stand apart
            width = CARRIER * length
            outline = "M%d %dh%dv%dh-%dz" % (CARRIER * at, SYMBOL * number, width, SYMBOL, width)
            path = titled_path(symbol, first + at, content_of(carrier), outline, length)
            paths[class_of(carrier, picked)].append(path)
    order = sorted(paths, key=lambda name: (name == "dc", name))
    return [element("g", "\n" + "\n".join(paths[name]) + "\n", class_=name, **style[name]) for name in order]


def guard_labels(classes, height):
    wide = [(first, length) for name, first, length in runs(classes) if name == "guard" and length > 9]
    middles = ["%g" % ((first + length / 2) * CARRIER) for first, length in wide]
    return [text(x, height // 2 + 4, "guard", text_anchor="middle", fill="#555555") for x in middles]


def dc_label(classes):
    if "dc" not in classes:
        return []
    x = (classes.index("dc") + 0.5) * CARRIER
    pointer = element("path", d="M%g -2l-5 -8h10z" % x, fill="#000000")
    return [pointer, text("%g" % x, -14, "DC", text_anchor="middle", font_weight="bold")]


def symbol_labels(symbols):
    places = [SYMBOL * row + SYMBOL / 2 + 4 for row in range(len(symbols))]
    return [text(-8, "%g" % y, symbol, text_anchor="end") for y, symbol in zip(places, symbols)]


def band(first, rows, symbols, picked, style):
    height, classes = SYMBOL * len(rows), [class_of(carrier, picked) for carrier in rows[0]]
    parts = band_paths(first, rows, symbols, picked, style)
    parts += [line(0, SYMBOL * row, WIDTH, SYMBOL * row, stroke="#ffffff") for row in range(1, len(rows))]
    parts += [box(0, 0, CARRIER * len(rows[0]), height, fill="none", stroke="#444444")]
    parts += guard_labels(classes, height) + dc_label(classes)
    parts += symbol_labels(symbols) + [upright(-48, height // 2, "symbol")]
    return parts + carrier_ticks(height, first, first + len(rows[0]) - 1, 16, CARRIER)


def swatch(x, label, fill):
    return [box(x, 0, SWATCH, SYMBOL, fill=fill, stroke="#444444"), text(x + SWATCH + 8, 14, label)]


def legend_kinds(style, picked, unlit, awaited):
    """Guard, DC, pilot, data where one subchannel is picked out, and what is unlit or awaited where something is."""
    labels = [("guard", "guard"), ("dc", "DC"), ("pilot", "pilot")]
    if picked is not None:
        labels += [("subchannel-%d" % picked, "data of subchannel %d" % picked), ("other", "data of other subchannels")]
    if unlit:
        labels += [("unlit", "pilot or data, unlit")]
    if awaited:
        labels += [("awaited", "data, not arrived yet")]
    parts = []
    for x, (name, label) in zip((0, 110, 220, 330, 560, 790, 1020), labels):
        parts += swatch(x, label, style[name]["fill"])
    return parts


def ink(fill):
    """Black or white, whichever reads better on a colour or on the hatching."""
    if fill == UNLIT:
        return "#000000"
    red, green, blue = (int(fill[at : at + 2], 16) for at in (1, 3, 5))
    return "#000000" if 299 * red + 587 * green + 114 * blue > 125000 else "#ffffff"


ACROSS = WIDTH // SWATCH  # swatches in a row of a scale


def legend_scale(label, fills):
    """Colours with their numbers."""
    parts = [text(0, 0, label)]
    for number, fill in enumerate(fills):
        x, y = SWATCH * (number % ACROSS), 10 + 26 * (number // ACROSS)
        parts.append(box(x, y, SWATCH, 22, fill=fill))
        parts.append(text(x + SWATCH // 2, y + 16, number, text_anchor="middle", fill=ink(fill)))
    return parts


def scale_height(total):
    return 10 + 26 * (1 + (total - 1) // ACROSS)


def slot(mode, size, cell, slot, picked=None, mask=None, carriers=None, pilots=None):
    """A slot of a zone; with `picked`, one subchannel of it picked out; with `carriers`, when so many of its carriers
    have arrived. Refusals 1, 2, 3, 17, 4, 5, 20."""
    check_picked(mode, size, cell, slot, picked, mask, pilots)
    check_slot(mode, size, cell, slot, mask, pilots)
    symbols = slot_symbols(mode, size, cell, slot, pilots)
    rows = [symbol_row(mode, size, cell, symbol, mask, pilots) for symbol in symbols]
    if carriers is not None:
        rows = awaiting(rows, arrived(mode, size, cell, slot, carriers, mask, pilots))
    awaited = any(carrier.awaited for row in rows for carrier in row)
    total = 1 + max(carrier.what.subchannel for carrier in rows[0] if carrier.what.kind is Kind.DATA)
    dark = [carrier.what for row in rows for carrier in row if is_unlit(carrier)]
    unlit = {what.subchannel for what in dark if what.kind is Kind.DATA}
    style = styles(total, picked, unlit)
    height = SYMBOL * len(symbols) + GAP
    parts, y = [hatch()] if unlit else [], TOP
    for at in range(0, size, BAND):
        part = [row[at : at + BAND] for row in rows]
        parts.append(group(LEFT, y, band(carriers_of(size)[at], part, symbols, picked, style), class_="band"))
        y += height
    parts.append(text(LEFT + WIDTH / 2, y - 10, "carrier", text_anchor="middle"))
    parts.append(group(LEFT, y + 12, legend_kinds(style, picked, unlit, awaited), class_="legend"))
    y += 58
    if picked is None:
        fills = [style["subchannel-%d" % number]["fill"] for number in range(total)]
        parts.append(group(LEFT, y, legend_scale("data, by subchannel:", fills), class_="legend"))
        y += scale_height(total)
    title = "%s (mode %d), size %d, cell %d, slot %d" % (MODES[mode].name, mode, size, cell, slot)
    if unlit:
        title += ", mask %d" % mask
    if awaited:
        title += ", first %d carriers" % carriers
    if picked is not None:
        title += ", subchannel %d picked out" % picked
    return document(y + BOTTOM, title, parts)


# --- a zone -----------------------------------------------------------------------------------

SLOT = 80  # width of a slot at most
ROWS = (4, 24)  # height of a subchannel at least and at most
TALL = 768  # height that all subchannels have together, where the rows let them
STRIP = 12  # width of the hatching beside unlit subchannels
DIGIT, LINE, TICK = (8, 12), 14, 32  # room for a digit, for a number in a column and for one in a row
FREE = "#ffffff"


def numbered(count, scale, room):
    """Some of the numbers below count, the first and the last among them, so that each has room."""
    last = count - 1
    step = next(step for step in (1, 2, 4, 8, 16, 32) if step * scale >= room)
    return [number for number in range(0, last, step) if (last - number) * scale >= room] + [last]


def burst_parts(number, burst, fill, slot, row):
    """A burst with its title, and its number where there is room for it."""
    x, y, width, height = slot * burst.slot, row * burst.subchannel, slot * burst.slots, row * burst.subchannels
    ends = (burst.subchannel + burst.subchannels - 1, burst.slot + burst.slots - 1)
    told = (number, burst.subchannel, ends[0], burst.slot, ends[1])
    title = element("title", "burst %d: subchannels %d to %d, slots %d to %d" % told)
    look = {"class_": "burst", "fill": fill, "stroke": "#444444", "stroke_width": 0.5}
    parts = [element("rect", title, x="%g" % x, y=y, width="%g" % width, height=height, **look)]
    if width >= DIGIT[0] * len(str(number)) and height >= DIGIT[1]:
        look = {"text_anchor": "middle", "fill": ink(fill), "pointer_events": "none"}
        parts.append(text("%g" % (x + width / 2), "%g" % (y + height / 2 + 4), number, **look))
    return parts


def subchannel_ticks(subchannels, row):
    parts = []
    for number in numbered(subchannels, row, LINE):
        y = row * number + row / 2
        parts += [line(-5, "%g" % y, 0, "%g" % y), text(-8, "%g" % (y + 4), number, text_anchor="end")]
    return parts


def zone_panel(slots, boxes, fills, lights, slot, row):
    """The zone itself, with its axes; `lights` says of each subchannel whether it is lit."""
    width, height = slot * slots, row * len(lights)
    parts = [element("rect", element("title", "free"), x=0, y=0, width="%g" % width, height=height, fill=FREE)]
    for number, (burst, fill) in enumerate(zip(boxes, fills)):
        parts += burst_parts(number, burst, fill, slot, row)
    parts.append(box(0, 0, "%g" % width, height, fill="none", stroke="#444444"))
    for lit, first, count in runs(lights):
        if not lit:
            parts.append(box("%g" % width, row * first, STRIP, row * count, class_="unlit", fill=UNLIT))
    parts += ticks_under(height, numbered(slots, slot, TICK), slot) + subchannel_ticks(len(lights), row)
    parts.append(text("%g" % (width / 2), height + 34, "slot", text_anchor="middle"))
    return parts + [upright(-48, height // 2, "subchannel")]


def zone(mode, size, cell, slots, bursts, mask=None):
    """The bursts of a zone; beside it is hatched what is unlit. Refusals 1, 2, 3, 13, 17, 18, 19."""
    boxes = burst_boxes(mode, size, cell, slots, bursts, mask)
    fills = [hue(number, len(boxes)) for number in range(len(boxes))]
    lit, subchannels = set(lit_subchannels(mode, size, mask)), subchannels_of(mode, size)
    lights = [number in lit for number in range(subchannels)]
    slot, row = min(SLOT, WIDTH / slots), max(ROWS[0], min(ROWS[1], TALL // subchannels))
    parts, kinds = [], swatch(0, "free", FREE)
    if not all(lights):
        parts, kinds = [hatch()], kinds + swatch(110, "subchannel, unlit", UNLIT)
    parts.append(group(LEFT, TOP, zone_panel(slots, boxes, fills, lights, slot, row), class_="zone"))
    y = TOP + row * subchannels + GAP
    parts.append(group(LEFT, y, kinds, class_="legend"))
    y += 46
    if boxes:
        parts.append(group(LEFT, y, legend_scale("bursts, by position:", fills), class_="legend"))
        y += scale_height(len(boxes))
    title = "%s (mode %d), size %d, cell %d, slots %d" % (MODES[mode].name, mode, size, cell, slots)
    if not all(lights):
        title += ", mask %d" % mask
    return document(y + BOTTOM, title + ", bursts %d" % len(boxes), parts)


# --- a subchannel -----------------------------------------------------------------------------

INDEX = 5  # height of an index
PANEL = 48 * INDEX
BETWEEN = 58
SYMBOL_COLOURS = ("#1f77b4", "#e07b00", "#2a9134", "#b0369a", "#7a5230", "#00a5a5")
INDEX_TICKS = (0, 12, 24, 36, 47)
CLOSE = (16, 32, 64)  # carriers: a panel has no more where all points lie within as many
LABEL = 140  # width of a symbol's label


def places_of(mode, size, cell, slot, subchannel, pilots):
    return [bellpulsar.place(mode, size, cell, slot, subchannel, index, pilots=pilots) for index in range(48)]


def index_height(index):
    """Index 0 is at the bottom."""
    return PANEL - INDEX * index - INDEX / 2


def window(size, points):
    """The carriers that every panel has: all, or those around the points."""
    carriers = [place.carrier for places in points for place in places]
    lowest, highest = min(carriers), max(carriers)
    wide = next(wide for wide in (*CLOSE, size) if highest - lowest < wide)
    first = min(max((lowest + highest + 1 - wide) // 2, -size // 2), size // 2 - wide)
    return range(first, first + wide)


class Mark(NamedTuple):
    """A point of a panel: where it is placed, what its title says, and whether it is ringed."""

    place: bellpulsar.Place
    title: str
    shared: bool


def marks_of(mode, cells, subchannel, points):
    """The marks of each panel. A point is shared where another cell of the picture has one on the same symbol and
    carrier. In AMC, where all cells share a subchannel's bins, that one must have the same index too, as in its
    collisions."""
    panels = []
    for at, (cell, places) in enumerate(zip(cells, points)):
        others = [(other, its) for number, (other, its) in enumerate(zip(cells, points)) if number != at]
        marks = []
        for index, place in enumerate(places):
            also = [(its.index(place), other) for other, its in others if place in its]
            if mode in AMC_MODES:
                also = [(its, other) for its, other in also if its == index]
            title = "cell %d, symbol %d, carrier %d: subchannel %d, index %d" % (cell, *place, subchannel, index)
            title += "".join("; also index %d of cell %d" % (its, other) for its, other in also)
            marks.append(Mark(place, title, also != []))
        panels.append(marks)
    return panels


def carrier_middle(carriers, carrier):
    """Where a carrier is in a panel of these carriers."""
    return "%g" % ((carrier - carriers[0] + 0.5) * WIDTH / len(carriers))


def circles(marks, carriers, first_symbol):
    """A circle for each point; those that another cell has too are ringed."""
    parts = []
    for index, mark in enumerate(marks):
        x, y = carrier_middle(carriers, mark.place.carrier), "%g" % index_height(index)
        fill = SYMBOL_COLOURS[mark.place.symbol - first_symbol]
        if mark.shared:
            look = {"class_": "point shared", "r": 4, "stroke": "#000000", "stroke_width": 2}
        else:
            look = {"class_": "point", "r": 3}
        parts.append(element("circle", element("title", mark.title), cx=x, cy=y, fill=fill, **look))
    return parts


def panel_frame(carriers):
    parts = [box(0, 0, WIDTH, PANEL, fill="#f7f7f7", stroke="#444444")]
    for index in INDEX_TICKS:
        y = "%g" % index_height(index)
        parts += [line(0, y, WIDTH, y, stroke="#dddddd"), line(-5, y, 0, y)]
        parts += [text(-8, index_height(index) + 4, index, text_anchor="end")]
    has_dc, middle = 0 in carriers, carrier_middle(carriers, 0)
    parts += [line(middle, 0, middle, PANEL, stroke_dasharray="5 4")] if has_dc else []
    parts += [upright(-48, PANEL // 2, "index")]
    parts += [text(middle, -6, "DC", text_anchor="middle", font_weight="bold")] if has_dc else []
    return parts + carrier_ticks(PANEL, carriers[0], carriers[-1], len(carriers) // 16, WIDTH / len(carriers))


def panel(carriers, cell, marks, first_symbol):
    parts = panel_frame(carriers) + [text(0, -6, "cell %d" % cell, font_weight="bold")]
    return parts + circles(marks, carriers, first_symbol)


RINGED = "on a carrier that another cell of the picture has in the same symbol"
RINGED_AMC = "where another cell of the picture puts the same index"


def subchannel_legend(symbols, ringed):
    parts = []
    for at, symbol in enumerate(symbols):
        parts += [element("circle", cx=LABEL * at + 6, cy=0, r=5, fill=SYMBOL_COLOURS[at])]
        parts += [text(LABEL * at + 18, 4, "point, symbol %d" % symbol)]
    if ringed:
        x = LABEL * len(symbols)
        parts += [element("circle", cx=x + 6, cy=0, r=5, fill="none", stroke="#000000", stroke_width=2)]
        parts += [text(x + 18, 4, ringed)]
    return parts


def subchannel(mode, size, cells, slot, subchannel, pilots=None):
    """One subchannel's points under each of the cells. Refusals 1, 2, 3, 4, 5, 20, those of the first cell first."""
    points = [places_of(mode, size, cell, slot, subchannel, pilots) for cell in cells]
    symbols, carriers = sorted({place.symbol for place in points[0]}), window(size, points)
    parts, y = [], TOP + 6
    for cell, marks in zip(cells, marks_of(mode, cells, subchannel, points)):
        parts.append(group(LEFT, y, panel(carriers, cell, marks, symbols[0]), class_="panel"))
        y += PANEL + BETWEEN
    ringed = "" if len(cells) == 1 else RINGED_AMC if mode in AMC_MODES else RINGED
    parts.append(text(LEFT + WIDTH / 2, y - 18, "carrier", text_anchor="middle"))
    parts.append(group(LEFT, y + 6, subchannel_legend(symbols, ringed), class_="legend"))
    names = (MODES[mode].name, mode, size, slot, subchannel)
    return document(y + 20 + BOTTOM, "%s (mode %d), size %d, slot %d, subchannel %d" % names, parts)
