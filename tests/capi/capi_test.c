/* Holds the exported functions to the reference: the answers of table.h, that a refusal writes
   nothing, that locate writes an address only at data, and that nothing beside an out parameter
   is written. Run by run.sh. */
#include <inttypes.h>
#include <stdint.h>
#include <stdio.h>
#include <string.h>

#include "bellpulsar.h"

/* The pilot list of a row is that of its number. */
struct pilot_list {
    uint32_t len, numbers[167];
};

struct place_row {
    uint32_t mode, size, cell, slot, subchannel, index, list;
    uint32_t refusal, symbol;
    int32_t carrier;
};

enum { INDICES = 48, MARKS = 48 };

struct places_row {
    uint32_t mode, size, cell, slot, subchannel, list;
    uint32_t refusal, places[INDICES];
};

struct locate_row {
    uint32_t mode, size, cell, symbol;
    int32_t carrier;
    uint32_t list, refusal, kind, slot, subchannel, index;
};

/* What a collision call must give: the refusal, the marks and their count. */
struct met {
    uint32_t refusal;
    uint8_t hits[MARKS];
    uint32_t count;
};

struct ofusc_row {
    uint32_t size, cell_a, subchannel_a, cell_b, subchannel_b;
    struct met met;
};

struct amc_row {
    uint32_t cell_a, cell_b;
    struct met met;
};

struct length_row {
    uint32_t mode, size;
    size_t points_len, grid_len;
};

struct lit_row {
    uint32_t mode, size, mask;
    size_t points_len;
};

#include "table.h"

#define COUNT(rows) (sizeof(rows) / sizeof((rows)[0]))

/* An out parameter between two guard words; a carrier has a sign. */
struct out {
    uint32_t before, value, after;
};

struct carrier_out {
    uint32_t before;
    int32_t value;
    uint32_t after;
};

/* Each request is put twice, over different words, so that a value written by chance shows. */
static const uint32_t fills[2] = {0xA5A5A5A5u, 0x5A5A5A5Au};

/* A list as it is lent: the empty one has any pointer. */
static const uint32_t *lent(uint32_t list, uint32_t fill)
{
    return pilot_lists[list].len || fill == fills[0] ? pilot_lists[list].numbers : NULL;
}

static struct out fresh(uint32_t fill)
{
    struct out out = {~fill, fill, ~fill};
    return out;
}

/* Whether the parameter holds this value and its guard words stand. */
static int holds(const struct out *out, uint32_t fill, uint32_t value)
{
    return out->before == ~fill && out->value == value && out->after == ~fill;
}

static int place_agrees(const struct place_row *row, uint32_t fill)
{
    struct out symbol = fresh(fill);
    struct carrier_out carrier = {~fill, (int32_t)fill, ~fill};
    uint32_t refusal = bp_place(row->mode, row->size, row->cell, row->slot, row->subchannel,
                                row->index, lent(row->list, fill), pilot_lists[row->list].len, &symbol.value,
                                &carrier.value);
    int accepted = row->refusal == 0;
    return refusal == row->refusal && holds(&symbol, fill, accepted ? row->symbol : fill) && carrier.before == ~fill &&
           carrier.value == (accepted ? row->carrier : (int32_t)fill) && carrier.after == ~fill;
}

/* The row between two guard words: all of it written, or nothing. */
static int places_agree(const struct places_row *row, uint32_t fill)
{
    struct { uint32_t before, places[INDICES], after; } out = {.before = ~fill, .after = ~fill};
    for (int i = 0; i < INDICES; i++)
        out.places[i] = fill;
    uint32_t refusal = bp_places(row->mode, row->size, row->cell, row->slot, row->subchannel, lent(row->list, fill),
                                 pilot_lists[row->list].len, out.places);
    int same = refusal == row->refusal && out.before == ~fill && out.after == ~fill;
    for (int i = 0; i < INDICES; i++)
        same &= out.places[i] == (row->refusal == 0 ? row->places[i] : fill);
    return same;
}

static int locate_agrees(const struct locate_row *row, uint32_t fill)
{
    struct out kind = fresh(fill), slot = fresh(fill), subchannel = fresh(fill), index = fresh(fill);
    uint32_t refusal = bp_locate(row->mode, row->size, row->cell, row->symbol, row->carrier, lent(row->list, fill),
                                 pilot_lists[row->list].len, &kind.value, &slot.value, &subchannel.value, &index.value);
    int accepted = row->refusal == 0;
    int data = accepted && row->kind == BP_DATA;
    return refusal == row->refusal && holds(&kind, fill, accepted ? row->kind : fill) &&
           holds(&slot, fill, data ? row->slot : fill) &&
           holds(&subchannel, fill, data ? row->subchannel : fill) &&
           holds(&index, fill, data ? row->index : fill);
}

/* The marks between two guard words. */
struct marks {
    uint32_t before;
    uint8_t values[MARKS];
    uint32_t after;
};

static struct marks fresh_marks(uint32_t fill)
{
    struct marks marks = {.before = ~fill, .after = ~fill};
    memset(marks.values, (int)(fill & 0xFF), MARKS);
    return marks;
}

/* Whether the call gave what the row says: on a refusal both parameters are as they were. */
static int gave(const struct met *met, uint32_t refusal, const struct marks *hits, const struct out *count,
                uint32_t fill)
{
    struct marks expected = fresh_marks(fill);
    int accepted = met->refusal == 0;
    if (accepted)
        memcpy(expected.values, met->hits, MARKS);
    return refusal == met->refusal && hits->before == expected.before && hits->after == expected.after &&
           memcmp(hits->values, expected.values, MARKS) == 0 &&
           holds(count, fill, accepted ? met->count : fill);
}

static int ofusc_agrees(const struct ofusc_row *row, uint32_t fill)
{
    struct marks hits = fresh_marks(fill);
    struct out count = fresh(fill);
    uint32_t refusal = bp_ofusc_collisions(row->size, row->cell_a, row->subchannel_a, row->cell_b,
                                           row->subchannel_b, hits.values, &count.value);
    return gave(&row->met, refusal, &hits, &count, fill);
}

static int amc_agrees(const struct amc_row *row, uint32_t fill)
{
    struct marks hits = fresh_marks(fill);
    struct out count = fresh(fill);
    uint32_t refusal = bp_amc_collisions(row->cell_a, row->cell_b, hits.values, &count.value);
    return gave(&row->met, refusal, &hits, &count, fill);
}

static int test_place(void)
{
    int wrong = 0;
    for (size_t i = 0; i < COUNT(place_rows); i++) {
        const struct place_row *row = &place_rows[i];
        if (place_agrees(row, fills[0]) && place_agrees(row, fills[1]))
            continue;
        wrong = 1;
        printf("bp_place differs: mode %" PRIu32 " size %" PRIu32 " cell %" PRIu32 " slot %" PRIu32
               " subchannel %" PRIu32 " index %" PRIu32 " list %" PRIu32 "\n",
               row->mode, row->size, row->cell, row->slot, row->subchannel, row->index, row->list);
    }
    return wrong;
}

static int test_places(void)
{
    int wrong = 0;
    for (size_t i = 0; i < COUNT(places_rows); i++) {
        const struct places_row *row = &places_rows[i];
        if (places_agree(row, fills[0]) && places_agree(row, fills[1]))
            continue;
        wrong = 1;
        printf("bp_places differs: mode %" PRIu32 " size %" PRIu32 " cell %" PRIu32 " slot %" PRIu32 " subchannel %" PRIu32
               " list %" PRIu32 "\n",
               row->mode, row->size, row->cell, row->slot, row->subchannel, row->list);
    }
    return wrong;
}

static int are_placed(uint32_t mode, uint32_t size, uint32_t cell, uint32_t slot, uint32_t subchannel, size_t grid_len)
{
    const uint32_t symbols = (uint32_t)(grid_len / 2 / size);
    const struct pilot_list *list = &pilot_lists[mode == BP_FUSC ? 1 + slot % 5 : 0];
    uint32_t places[INDICES], symbol;
    int32_t carrier;
    if (bp_places(mode, size, cell, slot, subchannel, list->numbers, list->len, places) != 0)
        return 0;
    for (uint32_t m = 0; m < INDICES; m++)
        if (bp_place(mode, size, cell, slot, subchannel, m, list->numbers, list->len, &symbol, &carrier) != 0 ||
            (int64_t)places[m] != (int64_t)(symbol % symbols) * size + size / 2 + carrier)
            return 0;
    return 1;
}

/* Every subchannel of every mode and size, in some cells and slots, index by index where bp_place puts it. */
static int test_places_are_placed(void)
{
    for (size_t i = 0; i < COUNT(length_rows); i++) {
        const struct length_row *row = &length_rows[i];
        for (uint32_t s = 0; s < row->points_len / (2 * INDICES); s++) {
            if (are_placed(row->mode, row->size, 7 * s % 16, 31 * s % 512, s, row->grid_len))
                continue;
            printf("bp_places is not where bp_place is: mode %" PRIu32 " size %" PRIu32 " subchannel %" PRIu32 "\n", row->mode,
                   row->size, s);
            return 1;
        }
    }
    return 0;
}

static int test_locate(void)
{
    int wrong = 0;
    for (size_t i = 0; i < COUNT(locate_rows); i++) {
        const struct locate_row *row = &locate_rows[i];
        if (locate_agrees(row, fills[0]) && locate_agrees(row, fills[1]))
            continue;
        wrong = 1;
        printf("bp_locate differs: mode %" PRIu32 " size %" PRIu32 " cell %" PRIu32
               " symbol %" PRIu32 " carrier %" PRId32 " list %" PRIu32 "\n",
               row->mode, row->size, row->cell, row->symbol, row->carrier, row->list);
    }
    return wrong;
}

static int test_ofusc_collisions(void)
{
    int wrong = 0;
    for (size_t i = 0; i < COUNT(ofusc_rows); i++) {
        const struct ofusc_row *row = &ofusc_rows[i];
        if (ofusc_agrees(row, fills[0]) && ofusc_agrees(row, fills[1]))
            continue;
        wrong = 1;
        printf("bp_ofusc_collisions differs: size %" PRIu32 " cell %" PRIu32 " subchannel %" PRIu32
               " and cell %" PRIu32 " subchannel %" PRIu32 "\n",
               row->size, row->cell_a, row->subchannel_a, row->cell_b, row->subchannel_b);
    }
    return wrong;
}

static int test_amc_collisions(void)
{
    int wrong = 0;
    for (size_t i = 0; i < COUNT(amc_rows); i++) {
        const struct amc_row *row = &amc_rows[i];
        if (amc_agrees(row, fills[0]) && amc_agrees(row, fills[1]))
            continue;
        wrong = 1;
        printf("bp_amc_collisions differs: cells %" PRIu32 " and %" PRIu32 "\n", row->cell_a, row->cell_b);
    }
    return wrong;
}

static int test_lengths(void)
{
    int wrong = 0;
    for (size_t i = 0; i < COUNT(length_rows); i++) {
        const struct length_row *row = &length_rows[i];
        if (bp_points_len(row->mode, row->size) == row->points_len && bp_grid_len(row->mode, row->size) == row->grid_len)
            continue;
        wrong = 1;
        printf("bp_points_len or bp_grid_len differs: mode %" PRIu32 " size %" PRIu32 "\n", row->mode, row->size);
    }
    return wrong;
}

static int test_lit_lengths(void)
{
    int wrong = 0;
    for (size_t i = 0; i < COUNT(lit_rows); i++) {
        const struct lit_row *row = &lit_rows[i];
        if (bp_lit_points_len(row->mode, row->size, row->mask) == row->points_len)
            continue;
        wrong = 1;
        printf("bp_lit_points_len differs: mode %" PRIu32 " size %" PRIu32 " mask %" PRIu32 "\n", row->mode, row->size,
               row->mask);
    }
    return wrong;
}

int main(void)
{
    int wrong = test_place() | test_places() | test_places_are_placed() | test_locate() | test_ofusc_collisions() |
                test_amc_collisions() | test_lengths() | test_lit_lengths();
    if (!wrong)
        puts("capi: place, places, locate, both collision calls and the three lengths agree with the reference");
    return wrong;
}
