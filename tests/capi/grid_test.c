/* Holds ground, lay, empty, empty_first and look to the bits of every float: the whole grids of grid_table.h, which the
   reference made, and grids of every mode and size worked out here by place and locate. NaNs of both kinds with
   payloads, infinities, signed zeros and subnormals stand among the points and in the pilot point. Each lay is made
   alone, where every float but its own keeps its bits, and all are made in a shuffled order with repeats, where the last
   one of a subchannel counts; an unlit one is refused. The first carriers are emptied by every count from 0 to past the
   grid's end, and by two counts in turn. All 63 masks of PUSC downlink are gone through, and pilot lists of every kind in
   FUSC. Then every set of wrong fields, of place, places and locate too: the first refusal, and nothing written. Floats are
   read and written as bit patterns only. Run by run.sh. */
#include <inttypes.h>
#include <stddef.h>
#include <stdint.h>
#include <stdio.h>
#include <string.h>

#include "bellpulsar.h"
#include "common.h"

/* A slot, the pilot list that is lent for it, and the bits that its buffers hold: the points of its lit subchannels, its
   ground, and its grid when each of these is laid. places: where the two floats of each point start in the grid. */
struct grid_row {
    uint32_t mode, size, cell, mask, slot;
    const struct pilot_list *list;
    uint32_t pilot[2];
    const uint32_t *points, *places, *ground, *grid;
};

#include "grid_table.h"

enum { KIND_GUARD = 0, KIND_DC = 1, KIND_PILOT = 2, KIND_DATA = 3, POINTS = 48 };
enum { CLUSTER = 14 }; /* of PUSC downlink: so many used numbers */
enum { LAID = 2 * POINTS }; /* the floats of one subchannel */
enum { MOST_POINTS = LAID * MOST_SUBCHANNELS, MOST_GRID = 2 * 6 * 2048, EDGE = 4 };

/* The lowest carrier is minus half the size, the highest is half the size less 1. */
static int32_t half(const struct setup *s) { return (int32_t)(s->size / 2); }

static size_t grid_floats(const struct setup *s) { return 2 * (size_t)s->size * s->symbols; }

/* --- what a mask lights ---------------------------------------------------------------------- */

static int lit_subchannel(const struct setup *s, uint32_t mask, uint32_t subchannel)
{
    return s->mode != PUSC_DL || (mask >> subchannel_groups[subchannel] & 1);
}

/* Of a used carrier: its cluster's group. */
static int lit_carrier(const struct setup *s, uint32_t cell, uint32_t mask, int32_t carrier)
{
    int32_t used = carrier + CLUSTER * 60 - (carrier > 0);
    return s->mode != PUSC_DL || (mask >> cluster_groups[cell][used / CLUSTER] & 1);
}

/* The lit subchannels, rising, and how many they are. */
static uint32_t lit_list(const struct setup *s, uint32_t mask, uint32_t *list)
{
    uint32_t n = 0;
    for (uint32_t subchannel = 0; subchannel < s->subchannels; subchannel++)
        if (lit_subchannel(s, mask, subchannel))
            list[n++] = subchannel;
    return n;
}

/* How many lit subchannels are below this one. */
static uint32_t rank_of(const struct setup *s, uint32_t mask, uint32_t subchannel)
{
    uint32_t list[MOST_SUBCHANNELS], end = lit_list(s, mask, list), rank = 0;
    while (rank < end && list[rank] < subchannel)
        rank++;
    return rank;
}

/* The floats of the lit subchannels' points. */
static size_t points_floats(const struct setup *s, uint32_t mask)
{
    uint32_t list[MOST_SUBCHANNELS];
    return LAID * (size_t)lit_list(s, mask, list);
}

/* --- buffers between guard words ------------------------------------------------------------- */

struct points {
    float before[EDGE], at[MOST_POINTS], after[EDGE];
};

/* The points of one subchannel. */
struct laid {
    float before[EDGE], at[LAID], after[EDGE];
};

struct grid {
    float before[EDGE], at[MOST_GRID], after[EDGE];
};

struct pair {
    float before[EDGE], at[2], after[EDGE];
};

static void copy_bits(float *at, const uint32_t *bits, size_t n) { memcpy(at, bits, n * sizeof *bits); }

static int same_bits(const float *at, const uint32_t *bits, size_t n) { return memcmp(at, bits, n * sizeof *bits) == 0; }

/* What a buffer holds before a call: signalling NaNs, each its own. No buffer is longer than a grid. */
static uint32_t old_bits[sizeof(struct grid) / sizeof(float)];

static void make_old_bits(void)
{
    for (uint32_t n = 0; n < COUNT(old_bits); n++)
        old_bits[n] = 0xFF900000u + n;
}

static void spoil(void *buffer, size_t bytes) { memcpy(buffer, old_bits, bytes); }

/* Whether these floats of a buffer hold what spoil wrote. */
static int spoiled(const void *buffer, size_t from, size_t to)
{
    return same_bits((const float *)buffer + from, old_bits + from, to - from);
}

/* Whether a spoiled buffer holds these bits behind its first guard words, and nothing else was written. */
static int holds(const void *buffer, size_t bytes, const uint32_t *bits, size_t n)
{
    return spoiled(buffer, 0, EDGE) && same_bits((const float *)buffer + EDGE, bits, n) &&
           spoiled(buffer, EDGE + n, bytes / sizeof(float));
}

static int untouched(const void *buffer, size_t bytes) { return spoiled(buffer, 0, bytes / sizeof(float)); }

/* --- points ---------------------------------------------------------------------------------- */

/* Float n of a slot's points: of every kind and sign, its own payload where it has room for one. */
static uint32_t point_bits(uint32_t n)
{
    static const uint32_t plain[] = {0x7F800000u, 0xFF800000u, 0x00000000u, 0x80000000u};
    switch ((n + n / 8) % 8) {
    case 0:
        return 0x7FC00000u + n; /* a quiet NaN */
    case 1:
        return 0x7F800001u + n; /* a signalling NaN */
    case 2:
        return 0xFFC00000u + n;
    case 3:
        return 0xFF800001u + n;
    case 4:
        return 0x00000001u + n; /* a subnormal */
    case 5:
        return 0x80000001u + n;
    case 6:
        return plain[n / 8 % 4]; /* an infinity or a zero */
    default:
        return 0x3F800000u + n;
    }
}

static const uint32_t pilots[][2] = {
    {0x7F800123u, 0x7FC00456u}, {0xFFC07890u, 0xFF80ABCDu}, {0x80000000u, 0x7F800000u},
    {0xFF800000u, 0x00000001u}, {0x807FFFFFu, 0x80000000u}, {0x3F800000u, 0xBF000000u},
};

/* --- a slot's grid by place and locate ------------------------------------------------------- */

static uint32_t want_points[MOST_POINTS], want_places[MOST_POINTS / 2], want_ground[MOST_GRID], want_grid[MOST_GRID];
static uint32_t want_kinds[MOST_GRID / 2];

static size_t grid_at(const struct setup *s, uint32_t symbol, int32_t carrier)
{
    return 2 * ((size_t)(symbol % s->symbols) * s->size + (size_t)(half(s) + carrier));
}

/* What look tells of a carrier: nothing of guards, of DC, and of what is unlit. */
static uint32_t seen_kind(const struct setup *s, uint32_t cell, uint32_t mask, int32_t carrier, uint32_t kind)
{
    int used = kind == KIND_PILOT || kind == KIND_DATA;
    return used && lit_carrier(s, cell, mask, carrier) ? kind : BP_NOTHING;
}

/* The kinds of all carriers as look tells them, and the pilot point on lit pilots. */
static int work_out_ground(const struct setup *s, const struct grid_row *row)
{
    memset(want_ground, 0, sizeof want_ground);
    for (uint32_t offset = 0; offset < s->symbols; offset++) {
        for (int32_t carrier = -half(s); carrier < half(s); carrier++) {
            uint32_t symbol = row->slot * s->symbols + offset, kind, of, subchannel, index;
            size_t at = grid_at(s, symbol, carrier);
            if (bp_locate(s->mode, s->size, row->cell, symbol, carrier, row->list->numbers, row->list->len, &kind, &of,
                          &subchannel, &index))
                return 0;
            want_kinds[at / 2] = seen_kind(s, row->cell, row->mask, carrier, kind);
            if (want_kinds[at / 2] == KIND_PILOT)
                memcpy(want_ground + at, row->pilot, sizeof row->pilot);
        }
    }
    return 1;
}

/* Every point of the lit subchannels, its place, and the ground with all of them on it. Each lies on a lit carrier. */
static int work_out_points(const struct setup *s, const struct grid_row *row)
{
    uint32_t list[MOST_SUBCHANNELS], points_end = POINTS * lit_list(s, row->mask, list);
    memcpy(want_grid, want_ground, sizeof want_grid);
    for (uint32_t n = 0; n < points_end; n++) {
        uint32_t symbol;
        int32_t carrier;
        want_points[2 * n] = point_bits(2 * n);
        want_points[2 * n + 1] = point_bits(2 * n + 1);
        if (bp_place(s->mode, s->size, row->cell, row->slot, list[n / POINTS], n % POINTS, row->list->numbers,
                     row->list->len, &symbol, &carrier))
            return 0;
        size_t at = grid_at(s, symbol, carrier);
        if (want_kinds[at / 2] != KIND_DATA)
            return 0;
        want_places[n] = (uint32_t)at;
        memcpy(want_grid + at, want_points + 2 * n, 2 * sizeof *want_points);
    }
    return 1;
}

/* --- the calls ------------------------------------------------------------------------------- */

static struct points points;
static struct laid laid;
static struct grid grid;
static struct pair pair;

static int ground_agrees(const struct setup *s, const struct grid_row *row)
{
    spoil(&grid, sizeof grid);
    spoil(&pair, sizeof pair);
    copy_bits(pair.at, row->pilot, 2);
    return bp_ground(s->mode, s->size, row->cell, row->mask, row->slot, row->list->numbers, row->list->len, pair.at, grid.at,
                     grid_floats(s)) == 0 &&
           holds(&grid, sizeof grid, row->ground, grid_floats(s)) && holds(&pair, sizeof pair, row->pilot, 2);
}

/* Lays these bits on the grid as it stands; an unlit subchannel is refusal 5. */
static int lay(const struct setup *s, const struct grid_row *row, uint32_t subchannel, const uint32_t *bits)
{
    uint32_t refusal = lit_subchannel(s, row->mask, subchannel) ? 0 : 5;
    spoil(&laid, sizeof laid);
    copy_bits(laid.at, bits, LAID);
    return bp_lay(s->mode, s->size, row->cell, row->mask, row->slot, subchannel, row->list->numbers, row->list->len, laid.at,
                  LAID, grid.at, grid_floats(s)) == refusal &&
           holds(&laid, sizeof laid, bits, LAID);
}

/* One lay alone, on a grid of its own bits: just the floats of the n-th lit subchannel change. */
static int lay_agrees(const struct setup *s, const struct grid_row *row, uint32_t subchannel, uint32_t n)
{
    static uint32_t after[MOST_GRID];
    const uint32_t *bits = row->points + LAID * n, *places = row->places + POINTS * n;
    spoil(&grid, sizeof grid);
    memcpy(after, old_bits + EDGE, sizeof after);
    for (uint32_t index = 0; index < POINTS; index++)
        memcpy(after + places[index], bits + 2 * index, 2 * sizeof *bits);
    return lay(s, row, subchannel, bits) && holds(&grid, sizeof grid, after, grid_floats(s));
}

/* An unlit lay, on a grid of its own bits: they all stay. */
static int unlit_lay_agrees(const struct setup *s, const struct grid_row *row, uint32_t subchannel)
{
    spoil(&grid, sizeof grid);
    return lay(s, row, subchannel, row->points) && untouched(&grid, sizeof grid);
}

static int lays_agree(const struct setup *s, const struct grid_row *row)
{
    uint32_t n = 0;
    for (uint32_t subchannel = 0; subchannel < s->subchannels; subchannel++) {
        int lit = lit_subchannel(s, row->mask, subchannel);
        if (!(lit ? lay_agrees(s, row, subchannel, n) : unlit_lay_agrees(s, row, subchannel)))
            return 0;
        n += (uint32_t)lit;
    }
    return 1;
}

/* A number below n, from a fixed seed. */
static uint32_t below(uint32_t n)
{
    static uint32_t state = 4;
    state = state * 1664525u + 1013904223u;
    return (uint32_t)((uint64_t)state * n >> 32);
}

/* Each subchannel once and as many drawn at random, shuffled. */
static void draw_order(uint32_t *order, uint32_t subchannels)
{
    for (uint32_t n = 0; n < 2 * subchannels; n++)
        order[n] = n < subchannels ? n : below(subchannels);
    for (uint32_t n = 2 * subchannels; n > 1; n--) {
        uint32_t m = below(n), last = order[n - 1];
        order[n - 1] = order[m];
        order[m] = last;
    }
}

static int occurs(const uint32_t *from, const uint32_t *to, uint32_t number)
{
    while (from < to && *from != number)
        from++;
    return from < to;
}

/* The ground, then lays in any order with repeats: every bit turned over, but not when a subchannel comes last. The unlit
   ones, whichever bits they are given, leave nothing. */
static int moves_agree(const struct setup *s, const struct grid_row *row)
{
    uint32_t order[2 * MOST_SUBCHANNELS], bits[LAID], *end = order + 2 * s->subchannels;
    draw_order(order, s->subchannels);
    if (!ground_agrees(s, row))
        return 0;
    for (const uint32_t *subchannel = order; subchannel < end; subchannel++) {
        uint32_t turned = occurs(subchannel + 1, end, *subchannel) ? UINT32_MAX : 0;
        uint32_t rank = lit_subchannel(s, row->mask, *subchannel) ? rank_of(s, row->mask, *subchannel) : 0;
        for (uint32_t n = 0; n < LAID; n++)
            bits[n] = row->points[LAID * rank + n] ^ turned;
        if (!lay(s, row, *subchannel, bits))
            return 0;
    }
    return holds(&grid, sizeof grid, row->grid, grid_floats(s));
}

static int empty_agrees(const struct setup *s, const struct grid_row *row)
{
    spoil(&points, sizeof points);
    spoil(&grid, sizeof grid);
    copy_bits(grid.at, row->grid, grid_floats(s));
    uint32_t refusal = bp_empty(s->mode, s->size, row->cell, row->mask, row->slot, row->list->numbers, row->list->len,
                                grid.at, grid_floats(s), points.at, points_floats(s, row->mask));
    return refusal == 0 && holds(&points, sizeof points, row->points, points_floats(s, row->mask)) &&
           holds(&grid, sizeof grid, row->grid, grid_floats(s));
}

/* --- the first carriers ---------------------------------------------------------------------- */

/* The points of a slot after its first carriers are emptied, over the old bits. */
static uint32_t first_points[MOST_POINTS];

static uint32_t carriers_of(const struct setup *s) { return s->size * s->symbols; }

/* The bits of the points on these places of the grid. */
static void want_first(const struct setup *s, const struct grid_row *row, uint32_t carriers)
{
    size_t floats = points_floats(s, row->mask);
    memcpy(first_points, old_bits + EDGE, sizeof first_points);
    for (size_t n = 0; n < floats; n += 2)
        if (row->places[n / 2] / 2 < carriers)
            memcpy(first_points + n, row->points + n, 2 * sizeof *first_points);
}

/* A grid with the row's bits on its first places alone. */
static void arrive(const struct setup *s, const struct grid_row *row, uint32_t carriers)
{
    uint32_t end = carriers < carriers_of(s) ? carriers : carriers_of(s);
    spoil(&grid, sizeof grid);
    copy_bits(grid.at, row->grid, 2 * (size_t)end);
}

/* The call on the grid and the points as they stand. */
static uint32_t empty_first(const struct setup *s, const struct grid_row *row, uint32_t carriers)
{
    return bp_empty_first(s->mode, s->size, row->cell, row->mask, row->slot, carriers, row->list->numbers, row->list->len,
                          grid.at, grid_floats(s), points.at, points_floats(s, row->mask));
}

/* Of a grid that holds the row's bits, over points of their own: those that are wanted, and the grid is only read. */
static int first_agrees(const struct setup *s, const struct grid_row *row, uint32_t carriers)
{
    spoil(&points, sizeof points);
    return empty_first(s, row, carriers) == 0 &&
           holds(&points, sizeof points, first_points, points_floats(s, row->mask)) &&
           holds(&grid, sizeof grid, row->grid, grid_floats(s));
}

/* By one count, where the carriers past it have not arrived; then by a larger one: both are the larger alone. */
static int turns_agree(const struct setup *s, const struct grid_row *row, uint32_t carriers, uint32_t larger)
{
    arrive(s, row, carriers);
    spoil(&points, sizeof points);
    want_first(s, row, carriers);
    if (empty_first(s, row, carriers) != 0 ||
        !holds(&points, sizeof points, first_points, points_floats(s, row->mask)))
        return 0;
    arrive(s, row, larger);
    want_first(s, row, larger);
    return empty_first(s, row, larger) == 0 && holds(&points, sizeof points, first_points, points_floats(s, row->mask));
}

/* Any two counts, none and then all, and all twice. */
static int pairs_agree(const struct setup *s, const struct grid_row *row)
{
    for (uint32_t n = 0; n < 8; n++) {
        uint32_t a = below(carriers_of(s) + 2), b = below(carriers_of(s) + 2);
        if (!turns_agree(s, row, a < b ? a : b, a < b ? b : a))
            return 0;
    }
    return turns_agree(s, row, 0, carriers_of(s)) && turns_agree(s, row, carriers_of(s), UINT32_MAX);
}

/* Up to the start of each symbol and up to DC, one carrier less and one more; past the grid's end; and pairs. */
static int firsts_agree(const struct setup *s, const struct grid_row *row)
{
    const uint32_t past_end[] = {carriers_of(s) + 3, 0x10000u, 0x10000u + s->size, 0x80000000u, UINT32_MAX};
    arrive(s, row, UINT32_MAX);
    for (uint32_t edge = 0; edge <= carriers_of(s); edge += s->size / 2) {
        for (uint32_t carriers = edge - (edge > 0); carriers <= edge + 1; carriers++) {
            want_first(s, row, carriers);
            if (!first_agrees(s, row, carriers))
                return 0;
        }
    }
    want_first(s, row, UINT32_MAX);
    for (size_t n = 0; n < COUNT(past_end); n++)
        if (!first_agrees(s, row, past_end[n]))
            return 0;
    return pairs_agree(s, row);
}

/* Every count from 0 to past the end: each has one place more than the one before it, and the point there if any. */
static int every_first_agrees(const struct setup *s, const struct grid_row *row)
{
    static uint32_t points_of[MOST_GRID / 2];
    const uint32_t none = UINT32_MAX, floats = (uint32_t)points_floats(s, row->mask);
    memset(points_of, 0xFF, sizeof points_of);
    for (uint32_t n = 0; n < floats; n += 2)
        points_of[row->places[n / 2] / 2] = n;
    arrive(s, row, UINT32_MAX);
    want_first(s, row, 0);
    for (uint32_t carriers = 0; carriers <= carriers_of(s) + 3; carriers++) {
        if (!first_agrees(s, row, carriers))
            return 0;
        uint32_t n = carriers < carriers_of(s) ? points_of[carriers] : none;
        if (n != none)
            memcpy(first_points + n, row->points + n, 2 * sizeof *first_points);
    }
    return same_bits(points.at, row->points, floats);
}

/* Look at one carrier of the grid as it stands, which has the row's bits. */
static int look_agrees(const struct setup *s, const struct grid_row *row, uint32_t symbol, int32_t carrier)
{
    struct out kind = fresh(), slot = fresh(), subchannel = fresh(), index = fresh();
    uint32_t what = 0, a = untold, b = untold, m = untold;
    spoil(&pair, sizeof pair);
    if (bp_look(s->mode, s->size, row->cell, row->mask, symbol, row->list->numbers, row->list->len, grid.at, grid_floats(s),
                carrier, &kind.value, pair.at, &slot.value, &subchannel.value, &index.value) != 0)
        return 0;
    if (bp_locate(s->mode, s->size, row->cell, symbol, carrier, row->list->numbers, row->list->len, &what, &a, &b, &m) != 0)
        return 0;
    uint32_t seen = seen_kind(s, row->cell, row->mask, carrier, what);
    int data = seen == KIND_DATA;
    return told(&kind, seen) && told(&slot, data ? a : untold) && told(&subchannel, data ? b : untold) &&
           told(&index, data ? m : untold) &&
           (seen == BP_NOTHING ? untouched(&pair, sizeof pair)
                               : holds(&pair, sizeof pair, row->grid + grid_at(s, symbol, carrier), 2));
}

static int looks_agree(const struct setup *s, const struct grid_row *row)
{
    spoil(&grid, sizeof grid);
    copy_bits(grid.at, row->grid, grid_floats(s));
    for (uint32_t offset = 0; offset < s->symbols; offset++)
        for (int32_t carrier = -half(s); carrier < half(s); carrier++)
            if (!look_agrees(s, row, row->slot * s->symbols + offset, carrier))
                return 0;
    return holds(&grid, sizeof grid, row->grid, grid_floats(s));
}

/* What differs first, or nothing. */
static const char *difference(const struct setup *s, const struct grid_row *row)
{
    static const struct {
        const char *name;
        int (*agrees)(const struct setup *s, const struct grid_row *row);
    } calls[] = {
        {"ground", ground_agrees}, {"a lay alone", lays_agree}, {"the slot laid in any order", moves_agree},
        {"look", looks_agree},     {"empty", empty_agrees},       {"empty_first", firsts_agree},
    };
    for (size_t i = 0; i < COUNT(calls); i++)
        if (!calls[i].agrees(s, row))
            return calls[i].name;
    return NULL;
}

/* Everything but lit data written over: empty and empty_first go by the data alone, look sees nothing on guards, on DC
   and on what is unlit. */
static int data_alone_agrees(const struct setup *s, const struct grid_row *row)
{
    for (uint32_t n = 0; n < grid_floats(s); n++)
        if (want_kinds[n / 2] != KIND_DATA)
            want_grid[n] = 0x7F812345u + n;
    return empty_agrees(s, row) && firsts_agree(s, row) && looks_agree(s, row);
}

/* The small grids, and those with one major group lit; of the others it is the rows of grid_table.h. */
static int has_every_count(const struct setup *s, uint32_t mask)
{
    return s->size == 256 || (s->mode == PUSC_DL && (mask & (mask - 1)) == 0);
}

/* A list that the mode takes: the first one is empty, the others are FUSC's. */
static const struct pilot_list *good_list(const struct setup *s, unsigned turn)
{
    return &good_lists[s->mode == FUSC ? 1 + turn % (COUNT(good_lists) - 1) : 0];
}

static const char *slot_difference(const struct setup *s, uint32_t cell, uint32_t mask, uint32_t slot, uint32_t turn)
{
    const uint32_t *pilot = pilots[turn % COUNT(pilots)];
    const struct grid_row row = {s->mode, s->size, cell, mask, slot, good_list(s, turn), {pilot[0], pilot[1]},
                                 want_points, want_places, want_ground, want_grid};
    if (!work_out_ground(s, &row) || !work_out_points(s, &row))
        return "place or locate";
    const char *what = difference(s, &row);
    if (!what && !data_alone_agrees(s, &row))
        what = "empty, empty_first or look by the data alone";
    if (!what && has_every_count(s, mask) && !every_first_agrees(s, &row))
        what = "empty_first by every count";
    return what;
}

static int slot_differs(const struct setup *s, uint32_t cell, uint32_t mask, uint32_t slot)
{
    static uint32_t turn = 0;
    const char *what = slot_difference(s, cell, mask, slot, turn++);
    if (what)
        printf("%s differs: mode %" PRIu32 " size %" PRIu32 " cell %" PRIu32 " mask %" PRIu32 " slot %" PRIu32 "\n", what,
               s->mode, s->size, cell, mask, slot);
    return what != NULL;
}

/* The mask that lights all. */
static uint32_t full_mask(const struct setup *s) { return s->mode == PUSC_DL ? FULL_MASK : 0; }

static int test_slots(void)
{
    static const uint32_t slots[] = {0, 1, 2, 300, SLOTS - 1};
    int wrong = 0;
    for (const struct setup *s = setups; s < setups + COUNT(setups); s++) {
        const uint32_t cells[] = {0, 1, s->cells / 2 + 1, s->cells - 1};
        for (size_t j = 0; j < COUNT(cells); j++)
            for (size_t k = 0; k < COUNT(slots); k++)
                wrong |= slot_differs(s, cells[j], full_mask(s), slots[k]);
    }
    return wrong;
}

/* Every mask, each at two cells; in all, every cell occurs. */
static int test_masks(void)
{
    const struct setup *s = &setups[PUSC_DL];
    int wrong = 0;
    for (uint32_t mask = 1; mask <= FULL_MASK; mask++)
        wrong |= slot_differs(s, mask % s->cells, mask, mask) | slot_differs(s, mask * 5 % s->cells, mask, SLOTS - mask);
    return wrong;
}

static int test_rows(void)
{
    int wrong = COUNT(grid_rows) <= COUNT(setups);
    for (size_t i = 0; i < COUNT(grid_rows); i++) {
        const struct grid_row *row = &grid_rows[i];
        /* Those past all setups are for masks, and for the lists of FUSC, the last setup. */
        const struct setup *s = &setups[i < COUNT(setups) ? i : row->mode == PUSC_DL ? PUSC_DL : COUNT(setups) - 1];
        const char *what = row->mode == s->mode && row->size == s->size ? difference(s, row) : "the table";
        if (!what && !every_first_agrees(s, row))
            what = "empty_first by every count";
        if (!what)
            continue;
        wrong = 1;
        printf("%s differs from the reference: mode %" PRIu32 " size %" PRIu32 " mask %" PRIu32 "\n", what, row->mode,
               row->size, row->mask);
    }
    return wrong;
}

/* --- refusals -------------------------------------------------------------------------------- */

/* The fields that every call has, the first five of a set. Look has the zone's symbol for the slot. */
struct fields {
    uint32_t mode, size, cell, mask, slot;
};

static struct fields fields_of(const struct setup *s, uint32_t slots, unsigned wrong_fields, unsigned turn)
{
    struct fields f = {s->mode, s->size, s->cells - 1, good_mask(s, turn), slots - 1};
    if (wrong_fields & 1)
        f.mode = past(UNLISTED, turn);
    if (wrong_fields & 2)
        f.size = turn % 2 ? 128 : s->size + 0x10000u;
    if (wrong_fields & 4)
        f.cell = past(s->cells, turn);
    if (wrong_fields & 8)
        f.mask = wrong_mask(s, turn);
    if (wrong_fields & 16)
        f.slot = past(slots, turn);
    return f;
}

/* A wrong length: one or two floats more or less, or none. */
static size_t wrong_length(size_t right, unsigned turn)
{
    const size_t lengths[] = {right + 2, right - 2, right + 1, right - 1, 0};
    return lengths[turn % COUNT(lengths)];
}

/* Of one subchannel's points: these too, half or twice as many, or the whole slot's. */
static size_t wrong_laid(const struct setup *s, unsigned turn)
{
    const size_t others[] = {LAID * (size_t)s->subchannels, LAID / 2, 2 * LAID};
    return turn % 8 < COUNT(others) ? others[turn % 8] : wrong_length(LAID, turn % 8 - COUNT(others));
}

/* Of emptied points: these too, one subchannel more or less, or all where not all are lit. */
static size_t wrong_points(const struct setup *s, size_t right, unsigned turn)
{
    const size_t all = LAID * (size_t)s->subchannels, others[] = {right == all ? right - LAID : all, right + LAID};
    return turn % 8 < COUNT(others) ? others[turn % 8] : wrong_length(right, turn % 8 - COUNT(others));
}

/* A wrong list: one that no mode takes, or one that is another mode's. */
static const struct pilot_list *wrong_list(const struct setup *s, unsigned turn)
{
    static unsigned next = 0;
    if (turn == 0)
        return &good_lists[s->mode == FUSC ? 0 : 1];
    return &bad_lists[next++ % COUNT(bad_lists)];
}

static const struct pilot_list *some_list(const struct setup *s, int wrong, unsigned turn)
{
    return wrong ? wrong_list(s, turn) : good_list(s, turn);
}

/* A wrong subchannel: past the last, or one that is not lit. */
static uint32_t wrong_subchannel(const struct setup *s, unsigned turn)
{
    uint32_t subchannel = below(s->subchannels);
    return lit_subchannel(s, good_mask(s, turn), subchannel) ? past(s->subchannels, turn) : subchannel;
}

static void spoil_all(void)
{
    spoil(&points, sizeof points);
    spoil(&grid, sizeof grid);
    spoil(&pair, sizeof pair);
}

static int all_untouched(void)
{
    return untouched(&points, sizeof points) && untouched(&grid, sizeof grid) && untouched(&pair, sizeof pair);
}

static int ground_refusal_agrees(const struct setup *s, unsigned wrong_fields, unsigned turn)
{
    static const uint32_t questions[] = {1, 2, 3, 17, 4, 20, 9, 0};
    struct fields f = fields_of(s, SLOTS, wrong_fields, turn);
    const struct pilot_list *list = some_list(s, wrong_fields & 32, turn);
    size_t grid_len = wrong_fields & 64 ? wrong_length(grid_floats(s), turn) : grid_floats(s);
    spoil_all();
    return bp_ground(f.mode, f.size, f.cell, f.mask, f.slot, list->numbers, list->len, pair.at, grid.at, grid_len) ==
               first_refusal(wrong_fields, questions) &&
           all_untouched();
}

static int lay_refusal_agrees(const struct setup *s, unsigned wrong_fields, unsigned turn)
{
    static const uint32_t questions[] = {1, 2, 3, 17, 4, 5, 20, 8, 9, 0};
    struct fields f = fields_of(s, SLOTS, wrong_fields, turn);
    uint32_t subchannel = wrong_fields & 32 ? wrong_subchannel(s, turn) : s->subchannels - 1;
    const struct pilot_list *list = some_list(s, wrong_fields & 64, turn);
    size_t points_len = wrong_fields & 128 ? wrong_laid(s, turn) : LAID;
    size_t grid_len = wrong_fields & 256 ? wrong_length(grid_floats(s), turn / 2) : grid_floats(s);
    spoil_all();
    return bp_lay(f.mode, f.size, f.cell, f.mask, f.slot, subchannel, list->numbers, list->len, points.at, points_len,
                  grid.at, grid_len) == first_refusal(wrong_fields, questions) &&
           all_untouched();
}

static int empty_refusal_agrees(const struct setup *s, unsigned wrong_fields, unsigned turn)
{
    static const uint32_t questions[] = {1, 2, 3, 17, 4, 20, 8, 9, 0};
    struct fields f = fields_of(s, SLOTS, wrong_fields, turn);
    const struct pilot_list *list = some_list(s, wrong_fields & 32, turn);
    size_t right = points_floats(s, good_mask(s, turn));
    size_t points_len = wrong_fields & 64 ? wrong_points(s, right, turn) : right;
    size_t grid_len = wrong_fields & 128 ? wrong_length(grid_floats(s), turn / 2) : grid_floats(s);
    spoil_all();
    return bp_empty(f.mode, f.size, f.cell, f.mask, f.slot, list->numbers, list->len, grid.at, grid_len, points.at,
                    points_len) == first_refusal(wrong_fields, questions) &&
           all_untouched();
}

/* The count has no part in a refusal. */
static int empty_first_refusal_agrees(const struct setup *s, unsigned wrong_fields, unsigned turn)
{
    static const uint32_t questions[] = {1, 2, 3, 17, 4, 20, 8, 9, 0};
    const uint32_t counts[] = {0, 1, carriers_of(s), UINT32_MAX};
    struct fields f = fields_of(s, SLOTS, wrong_fields, turn);
    const struct pilot_list *list = some_list(s, wrong_fields & 32, turn);
    size_t right = points_floats(s, good_mask(s, turn));
    size_t points_len = wrong_fields & 64 ? wrong_points(s, right, turn) : right;
    size_t grid_len = wrong_fields & 128 ? wrong_length(grid_floats(s), turn / 2) : grid_floats(s);
    spoil_all();
    for (size_t n = 0; n < COUNT(counts); n++)
        if (bp_empty_first(f.mode, f.size, f.cell, f.mask, f.slot, counts[n], list->numbers, list->len, grid.at, grid_len,
                           points.at, points_len) != first_refusal(wrong_fields, questions))
            return 0;
    return all_untouched();
}

/* A wrong carrier: just past the range, at the ends of 32 bits, counted from 0, or cut to a right one, on either side. */
static int32_t wrong_carrier(const struct setup *s, unsigned turn)
{
    const int32_t carriers[] = {half(s), -half(s) - 1, INT32_MAX, INT32_MIN, 2 * half(s) - 1,
                                -2 * half(s), 1 + 65536, -1 - 65536, INT32_MAX - 1, INT32_MIN + 1};
    return carriers[turn % COUNT(carriers)];
}

static int look_refusal_agrees(const struct setup *s, unsigned wrong_fields, unsigned turn)
{
    static const uint32_t questions[] = {1, 2, 3, 17, 4, 7, 20, 9, 0};
    struct fields f = fields_of(s, SLOTS * s->symbols, wrong_fields, turn);
    int32_t right = turn % 2 ? -half(s) : half(s) - 1;
    int32_t carrier = wrong_fields & 32 ? wrong_carrier(s, turn) : right;
    const struct pilot_list *list = some_list(s, wrong_fields & 64, turn);
    size_t grid_len = wrong_fields & 128 ? wrong_length(grid_floats(s), turn) : grid_floats(s);
    struct out kind = fresh(), slot = fresh(), subchannel = fresh(), index = fresh();
    spoil_all();
    return bp_look(f.mode, f.size, f.cell, f.mask, f.slot, list->numbers, list->len, grid.at, grid_len, carrier, &kind.value,
                   pair.at, &slot.value, &subchannel.value, &index.value) == first_refusal(wrong_fields, questions) &&
           told(&kind, untold) && told(&slot, untold) && told(&subchannel, untold) && told(&index, untold) &&
           all_untouched();
}

/* Of a call without a mask: the fourth field of a set is the slot. */
static struct fields maskless(const struct setup *s, uint32_t slots, unsigned wrong_fields, unsigned turn)
{
    return fields_of(s, slots, (wrong_fields & 7) | (wrong_fields & 8) << 1, turn);
}

static int place_refusal_agrees(const struct setup *s, unsigned wrong_fields, unsigned turn)
{
    static const uint32_t questions[] = {1, 2, 3, 4, 5, 6, 20, 0};
    struct fields f = maskless(s, SLOTS, wrong_fields, turn);
    uint32_t subchannel = wrong_fields & 16 ? past(s->subchannels, turn) : s->subchannels - 1;
    uint32_t index = wrong_fields & 32 ? past(POINTS, turn) : POINTS - 1;
    const struct pilot_list *list = some_list(s, wrong_fields & 64, turn);
    struct out symbol = fresh();
    int32_t carrier = INT32_MIN;
    return bp_place(f.mode, f.size, f.cell, f.slot, subchannel, index, list->numbers, list->len, &symbol.value, &carrier) ==
               first_refusal(wrong_fields, questions) &&
           told(&symbol, untold) && carrier == INT32_MIN;
}

static int places_refusal_agrees(const struct setup *s, unsigned wrong_fields, unsigned turn)
{
    static const uint32_t questions[] = {1, 2, 3, 4, 5, 20, 0};
    struct fields f = maskless(s, SLOTS, wrong_fields, turn);
    uint32_t subchannel = wrong_fields & 16 ? past(s->subchannels, turn) : s->subchannels - 1;
    const struct pilot_list *list = some_list(s, wrong_fields & 32, turn);
    uint32_t places[POINTS];
    memcpy(places, old_bits, sizeof places);
    return bp_places(f.mode, f.size, f.cell, f.slot, subchannel, list->numbers, list->len, places) ==
               first_refusal(wrong_fields, questions) &&
           memcmp(places, old_bits, sizeof places) == 0;
}

static int locate_refusal_agrees(const struct setup *s, unsigned wrong_fields, unsigned turn)
{
    static const uint32_t questions[] = {1, 2, 3, 4, 7, 20, 0};
    struct fields f = maskless(s, SLOTS * s->symbols, wrong_fields, turn);
    int32_t carrier = wrong_fields & 16 ? wrong_carrier(s, turn) : turn % 2 ? -half(s) : half(s) - 1;
    const struct pilot_list *list = some_list(s, wrong_fields & 32, turn);
    struct out kind = fresh(), slot = fresh(), subchannel = fresh(), index = fresh();
    return bp_locate(f.mode, f.size, f.cell, f.slot, carrier, list->numbers, list->len, &kind.value, &slot.value,
                     &subchannel.value, &index.value) == first_refusal(wrong_fields, questions) &&
           told(&kind, untold) && told(&slot, untold) && told(&subchannel, untold) && told(&index, untold);
}

/* Each call and how many of its fields can be wrong. */
static const struct refusing {
    const char *name;
    unsigned fields;
    int (*agrees)(const struct setup *s, unsigned wrong_fields, unsigned turn);
} refusing[] = {
    {"ground", 7, ground_refusal_agrees},
    {"lay", 9, lay_refusal_agrees},
    {"empty", 8, empty_refusal_agrees},
    {"empty_first", 8, empty_first_refusal_agrees},
    {"look", 8, look_refusal_agrees},
    {"place", 7, place_refusal_agrees},
    {"places", 6, places_refusal_agrees},
    {"locate", 6, locate_refusal_agrees},
};

static int call_refuses(const struct refusing *call, const struct setup *s)
{
    int right = 1;
    for (unsigned turn = 0; turn < 10; turn++) {
        for (unsigned wrong_fields = 1; wrong_fields < 1u << call->fields; wrong_fields++) {
            if (call->agrees(s, wrong_fields, turn))
                continue;
            right = 0;
            printf("a refusal of %s differs: mode %" PRIu32 " size %" PRIu32 " fields %u\n", call->name, s->mode,
                   s->size, wrong_fields);
        }
    }
    return right;
}

static int test_refusals(void)
{
    int wrong = 0;
    for (size_t i = 0; i < COUNT(setups); i++)
        for (size_t j = 0; j < COUNT(refusing); j++)
            wrong |= !call_refuses(&refusing[j], &setups[i]);
    return wrong;
}

int main(void)
{
    make_old_bits();
    int wrong = test_rows() | test_slots() | test_masks() | test_refusals();
    if (!wrong)
        puts("capi: ground, lay, empty, empty_first and look keep every bit");
    return wrong;
}
