// Holds the engine against plain C of the same formulas, call by call, and whole slots, which the engine fills in two
// moves, and where points are copied against a copy by a table of places that the caller keeps: first all must give the
// same answers, then all are timed. bench --check leaves the timing out.
#include "bellpulsar.h"
#include "plain.h"
#include "plain_ranges.h"
#include "requests.h"

#include <stdio.h>
#include <stdlib.h>
#include <string.h>
#include <time.h>

enum { ROUNDS = 15, ROUND_MS = 10 }; // a round is as long as that or up to twice as long
enum { MOST_SUBCHANNELS = 192 };
enum { LAID = 2 * INDICES, MOST_POINTS = LAID * MOST_SUBCHANNELS, MOST_GRID = 2 * 6 * 2048 }; // floats; LAID of one

// The calls of one side.
struct side {
    uint32_t (*place)(uint32_t, uint32_t, uint32_t, uint32_t, uint32_t, uint32_t, const uint32_t *, size_t, uint32_t *,
                      int32_t *);
    uint32_t (*places)(uint32_t, uint32_t, uint32_t, uint32_t, uint32_t, const uint32_t *, size_t, uint32_t *);
    uint32_t (*locate)(uint32_t, uint32_t, uint32_t, uint32_t, int32_t, const uint32_t *, size_t, uint32_t *,
                       uint32_t *, uint32_t *, uint32_t *);
    uint32_t (*slot)(uint32_t, uint32_t, uint32_t, uint32_t, uint32_t, const uint32_t *, size_t, const float *,
                     const float *, size_t, float *, size_t);
    uint32_t (*ground)(uint32_t, uint32_t, uint32_t, uint32_t, uint32_t, const uint32_t *, size_t, const float *,
                       float *, size_t);
    uint32_t (*lay)(uint32_t, uint32_t, uint32_t, uint32_t, uint32_t, uint32_t, const uint32_t *, size_t, const float *,
                    size_t, float *, size_t);
    uint32_t (*empty)(uint32_t, uint32_t, uint32_t, uint32_t, uint32_t, const uint32_t *, size_t, const float *, size_t,
                      float *, size_t);
    uint32_t (*empty_first)(uint32_t, uint32_t, uint32_t, uint32_t, uint32_t, uint32_t, const uint32_t *, size_t,
                            const float *, size_t, float *, size_t);
    uint32_t (*look)(uint32_t, uint32_t, uint32_t, uint32_t, uint32_t, const uint32_t *, size_t, const float *, size_t,
                     int32_t, uint32_t *, float *, uint32_t *, uint32_t *, uint32_t *);
    uint32_t (*ofusc_collisions)(uint32_t, uint32_t, uint32_t, uint32_t, uint32_t, uint8_t *, uint32_t *);
    uint32_t (*amc_collisions)(uint32_t, uint32_t, uint8_t *, uint32_t *);
    uint32_t (*plan_read)(const uint8_t *, size_t, uint32_t *, uint32_t *, uint32_t *);
    uint32_t (*plan_write)(uint32_t, uint32_t, const uint32_t *, uint8_t *, size_t, uint32_t *);
    uint32_t (*bursts_check)(uint32_t, uint32_t, uint32_t, uint32_t, uint32_t, const uint32_t *, size_t);
    uint32_t (*burst_owner)(uint32_t, uint32_t, uint32_t, uint32_t, uint32_t, uint32_t, uint32_t, const uint32_t *,
                            size_t, uint32_t *, uint32_t *);
    uint32_t (*burst_owners)(uint32_t, uint32_t, uint32_t, uint32_t, uint32_t, uint32_t, const uint32_t *, size_t,
                             uint8_t *);
};

// A whole slot as a caller of the engine fills it: its ground, then a lay for every 96 floats of its points, which an
// unlit subchannel leaves to the next.
static uint32_t engine_slot(uint32_t mode, uint32_t size, uint32_t cell, uint32_t mask, uint32_t slot,
                            const uint32_t *pilots, size_t pilots_len, const float *pilot, const float *points,
                            size_t points_len, float *grid, size_t grid_len) {
    const float *end = points + points_len;
    uint32_t refusal = bp_ground(mode, size, cell, mask, slot, pilots, pilots_len, pilot, grid, grid_len);
    for (uint32_t s = 0; s < subchannels(mode, size) && points < end && !refusal; s++) {
        refusal = bp_lay(mode, size, cell, mask, slot, s, pilots, pilots_len, points, LAID, grid, grid_len);
        if (refusal == BP_REFUSED_SUBCHANNEL)
            refusal = 0;
        else
            points += LAID;
    }
    return refusal;
}

static const struct side engine = {
    bp_place,           bp_places,           bp_locate,         engine_slot,
    bp_ground,          bp_lay,              bp_empty,          bp_empty_first,
    bp_look,            bp_ofusc_collisions, bp_amc_collisions, bp_zone_plan_read,
    bp_zone_plan_write, bp_bursts_check,     bp_burst_owner,    bp_burst_owners};
static const struct side plain = {
    plain_place,      plain_places,           plain_locate,         plain_fill,
    plain_ground,     plain_lay,              plain_empty,          plain_empty_first,
    plain_look,       plain_ofusc_collisions, plain_amc_collisions, plain_plan_read,
    plain_plan_write, plain_bursts_check,     plain_burst_owner,    plain_burst_owners};

// All that a call may write.
struct outcome {
    uint32_t symbol, places[INDICES], kind, slot, subchannel, index, count, size, written, zones[32], owner, looked;
    int32_t carrier;
    uint8_t hits[48], bytes[PLAN_ROOM], owners[MOST_SUBCHANNELS];
    float point[2], points[MOST_POINTS], grid[MOST_GRID];
};

static struct outcome engine_outcome, plain_outcome, table_outcome;
static float pilot[2] = {-1.0f, -2.0f}, source_points[MOST_POINTS], source_grid[MOST_GRID];

// --- the calls -------------------------------------------------------------------------------------------------------

// Each makes one call (run_slot those of a slot) for every request from `from` to before `to` and gives the sum of
// their refusals. The calls stand in other files, so that the compiler can neither leave one out nor take one out of
// the loop.

typedef uint32_t run_fn(const struct side *side, struct outcome *o, uint32_t from, uint32_t to);

// The points are as many as the mask lights, in the strays too. So question 8, which plain_fill puts once and the
// engine with each lay, is answered yes; the others but 5, which every lay of a lit subchannel passes, are the ground's.
static uint32_t run_slot(const struct side *side, struct outcome *o, uint32_t from, uint32_t to) {
    uint32_t sum = 0;
    for (const struct request *q = requests + from; q < requests + to; q++) {
        size_t points_len = LAID * (size_t)lit_subchannels(q->mode, q->size, q->mask);
        sum += side->slot(q->mode, q->size, q->cell, q->mask, q->slot, q->pilots, q->pilots_len, pilot, source_points,
                          points_len, o->grid, q->grid_len);
    }
    return sum;
}

static uint32_t run_ground(const struct side *side, struct outcome *o, uint32_t from, uint32_t to) {
    uint32_t sum = 0;
    for (const struct request *q = requests + from; q < requests + to; q++)
        sum += side->ground(q->mode, q->size, q->cell, q->mask, q->slot, q->pilots, q->pilots_len, pilot, o->grid,
                            q->grid_len);
    return sum;
}

static uint32_t run_lay(const struct side *side, struct outcome *o, uint32_t from, uint32_t to) {
    uint32_t sum = 0;
    for (const struct request *q = requests + from; q < requests + to; q++)
        sum += side->lay(q->mode, q->size, q->cell, q->mask, q->slot, q->subchannel, q->pilots, q->pilots_len,
                         source_points, q->lay_len, o->grid, q->grid_len);
    return sum;
}

static uint32_t run_empty(const struct side *side, struct outcome *o, uint32_t from, uint32_t to) {
    uint32_t sum = 0;
    for (const struct request *q = requests + from; q < requests + to; q++)
        sum += side->empty(q->mode, q->size, q->cell, q->mask, q->slot, q->pilots, q->pilots_len, source_grid,
                           q->grid_len, o->points, q->points_len);
    return sum;
}

// So many times the request's carriers: once is half of the grid, twice all of it.
static inline uint32_t empty_first(const struct side *side, struct outcome *o, uint32_t from, uint32_t to,
                                   uint32_t times) {
    uint32_t sum = 0;
    for (const struct request *q = requests + from; q < requests + to; q++)
        sum += side->empty_first(q->mode, q->size, q->cell, q->mask, q->slot, times * q->carriers, q->pilots,
                                 q->pilots_len, source_grid, q->grid_len, o->points, q->points_len);
    return sum;
}

static uint32_t run_empty_half(const struct side *side, struct outcome *o, uint32_t from, uint32_t to) {
    return empty_first(side, o, from, to, 1);
}

static uint32_t run_empty_whole(const struct side *side, struct outcome *o, uint32_t from, uint32_t to) {
    return empty_first(side, o, from, to, 2);
}

static uint32_t run_place(const struct side *side, struct outcome *o, uint32_t from, uint32_t to) {
    uint32_t sum = 0;
    for (const struct request *q = requests + from; q < requests + to; q++)
        sum += side->place(q->mode, q->size, q->cell, q->slot, q->subchannel, q->index, q->pilots, q->pilots_len,
                           &o->symbol, &o->carrier);
    return sum;
}

static uint32_t run_places(const struct side *side, struct outcome *o, uint32_t from, uint32_t to) {
    uint32_t sum = 0;
    for (const struct request *q = requests + from; q < requests + to; q++)
        sum += side->places(q->mode, q->size, q->cell, q->slot, q->subchannel, q->pilots, q->pilots_len, o->places);
    return sum;
}

static uint32_t run_locate(const struct side *side, struct outcome *o, uint32_t from, uint32_t to) {
    uint32_t sum = 0;
    for (const struct request *q = requests + from; q < requests + to; q++)
        sum += side->locate(q->mode, q->size, q->cell, q->symbol, q->carrier, q->pilots, q->pilots_len, &o->kind,
                            &o->slot, &o->subchannel, &o->index);
    return sum;
}

static uint32_t run_look(const struct side *side, struct outcome *o, uint32_t from, uint32_t to) {
    uint32_t sum = 0;
    for (const struct request *q = requests + from; q < requests + to; q++)
        sum += side->look(q->mode, q->size, q->cell, q->mask, q->symbol, q->pilots, q->pilots_len, source_grid,
                          q->grid_len, q->carrier, &o->kind, o->point, &o->slot, &o->subchannel, &o->index);
    return sum;
}

static uint32_t run_ofusc_collisions(const struct side *side, struct outcome *o, uint32_t from, uint32_t to) {
    uint32_t sum = 0;
    for (const struct request *q = requests + from; q < requests + to; q++)
        sum += side->ofusc_collisions(q->size, q->cell, q->subchannel, q->cell_b, q->subchannel_b, o->hits, &o->count);
    return sum;
}

static uint32_t run_amc_collisions(const struct side *side, struct outcome *o, uint32_t from, uint32_t to) {
    uint32_t sum = 0;
    for (const struct request *q = requests + from; q < requests + to; q++)
        sum += side->amc_collisions(q->cell, q->cell_b, o->hits, &o->count);
    return sum;
}

static uint32_t run_plan_read(const struct side *side, struct outcome *o, uint32_t from, uint32_t to) {
    uint32_t sum = 0;
    for (const struct plan *p = plans + from; p < plans + to; p++)
        sum += side->plan_read(p->bytes, p->len, &o->count, &o->size, o->zones);
    return sum;
}

static uint32_t run_plan_write(const struct side *side, struct outcome *o, uint32_t from, uint32_t to) {
    uint32_t sum = 0;
    for (const struct plan *p = plans + from; p < plans + to; p++)
        sum += side->plan_write(p->count, p->size, p->zones, o->bytes, p->dest_len, &o->written);
    return sum;
}

static uint32_t run_bursts_check(const struct side *side, struct outcome *o, uint32_t from, uint32_t to) {
    uint32_t sum = 0;
    (void)o; // it writes nothing
    for (const struct list *l = lists + from; l < lists + to; l++)
        sum += side->bursts_check(l->mode, l->size, l->cell, l->slots, l->mask, l->numbers, l->len);
    return sum;
}

static uint32_t run_burst_owner(const struct side *side, struct outcome *o, uint32_t from, uint32_t to) {
    uint32_t sum = 0;
    for (const struct list *l = lists + from; l < lists + to; l++)
        sum += side->burst_owner(l->mode, l->size, l->cell, l->slots, l->mask, l->slot, l->subchannel, l->numbers,
                                 l->len, &o->owner, &o->looked);
    return sum;
}

static uint32_t run_burst_owners(const struct side *side, struct outcome *o, uint32_t from, uint32_t to) {
    uint32_t sum = 0;
    for (const struct list *l = lists + from; l < lists + to; l++)
        sum += side->burst_owners(l->mode, l->size, l->cell, l->slots, l->mask, l->slot, l->numbers, l->len, o->owners);
    return sum;
}

// --- by table --------------------------------------------------------------------------------------------------------

// What a caller keeps who stays in one cell and with one pilot list, for the slots whose pilots are on the same carriers: the places of all lit
// subchannels, the number of each of these among them, and the ground.
static struct kept {
    uint32_t lit, number[MOST_SUBCHANNELS], places[INDICES * MOST_SUBCHANNELS];
    float ground[MOST_GRID];
} kept[3];

// The first slot whose pilots are on the same carriers as those of the request's; what is kept of it serves for both.
static uint32_t first_alike(const struct request *q) {
    bool pilots_move = q->mode == OFUSC || q->mode == AMC || q->mode == AMC_3X2;
    return pilots_move ? q->slot % 3 : 0;
}

// What serves for a request that is accepted.
static void keep(const struct request *q) {
    uint32_t slot = first_alike(q);
    struct kept *k = &kept[slot];
    k->lit = 0;
    for (uint32_t s = 0; s < subchannels(q->mode, q->size); s++) {
        if (!is_lit(q->mode, q->mask, s)) continue;
        k->number[s] = k->lit++;
        bp_places(q->mode, q->size, q->cell, slot, s, q->pilots, q->pilots_len, k->places + INDICES * k->number[s]);
    }
    bp_ground(q->mode, q->size, q->cell, q->mask, slot, q->pilots, q->pilots_len, pilot, k->ground, q->grid_len);
}

// What serves for all slots of a request's cell, and of its pilot list.
static void keep_cell(struct request q) {
    for (q.slot = 0; q.slot < 3; q.slot++) keep(&q);
}

// These do by what is kept, whatever the request's cell and pilots, what run_slot, run_lay and run_empty do by a side's calls.

static uint32_t put_slot(const struct side *none, struct outcome *o, uint32_t from, uint32_t to) {
    (void)none;
    for (const struct request *q = requests + from; q < requests + to; q++) {
        const struct kept *k = &kept[first_alike(q)];
        memcpy(o->grid, k->ground, sizeof(float) * q->grid_len);
        plain_put(k->places, INDICES * k->lit, source_points, o->grid);
    }
    return 0;
}

static uint32_t put_subchannel(const struct side *none, struct outcome *o, uint32_t from, uint32_t to) {
    (void)none;
    for (const struct request *q = requests + from; q < requests + to; q++) {
        const struct kept *k = &kept[first_alike(q)];
        plain_put(k->places + INDICES * k->number[q->subchannel], INDICES, source_points, o->grid);
    }
    return 0;
}

static uint32_t take_slot(const struct side *none, struct outcome *o, uint32_t from, uint32_t to) {
    (void)none;
    for (const struct request *q = requests + from; q < requests + to; q++) {
        const struct kept *k = &kept[first_alike(q)];
        plain_take(k->places, INDICES * k->lit, source_grid, o->points);
    }
    return 0;
}

// --- a row of the table ----------------------------------------------------------------------------------------------

// A call in one setup, and how it is done by table, or NULL. `timed` requests are timed, the strays after them only
// compared; times are for one of `units` a request. before: the ratio that is known of an earlier way to do it, or 0.
struct row {
    const char *call, *setup;
    run_fn *run, *by_table;
    uint32_t timed, units;
    double before;
};

static bool timing;
static uint32_t rows, compared, refused, also_by_table;

static void fail(const struct row *r, uint32_t i, const char *what) {
    printf("bench: %s, %s, request %u: %s\n", r->call, r->setup, i, what);
    exit(1);
}

// A request that the engine accepted: the table's way writes the same and leaves the same alone.
static void compare_table(const struct row *r, uint32_t i) {
    memset(&table_outcome, 0xA5, sizeof table_outcome);
    keep(&requests[i]);
    r->by_table(NULL, &table_outcome, i, i + 1);
    if (memcmp(&engine_outcome, &table_outcome, sizeof table_outcome)) fail(r, i, "by table it is written differently");
    also_by_table++;
}

// Every request alone: both sides give the same refusal, write the same and leave the same alone.
static void compare(const struct row *r) {
    for (uint32_t i = 0; i < r->timed + STRAYS; i++) {
        memset(&engine_outcome, 0xA5, sizeof engine_outcome);
        memset(&plain_outcome, 0xA5, sizeof plain_outcome);
        uint32_t refusal = r->run(&engine, &engine_outcome, i, i + 1);
        if (r->run(&plain, &plain_outcome, i, i + 1) != refusal) fail(r, i, "the sides refuse differently");
        if (memcmp(&engine_outcome, &plain_outcome, sizeof plain_outcome)) fail(r, i, "the sides write differently");
        if (i < r->timed && refusal) fail(r, i, "refused, and should be timed");
        if (r->by_table && !refusal) compare_table(r, i);
        refused += refusal != 0;
    }
    compared += r->timed + STRAYS;
    rows++;
}

static double seconds(void) {
    struct timespec t;
    clock_gettime(CLOCK_PROCESS_CPUTIME_ID, &t);
    return (double)t.tv_sec + 1e-9 * (double)t.tv_nsec;
}

// A way to do a row: by the calls of a side, or by table.
struct way {
    run_fn *run;
    const struct side *side;
    struct outcome *outcome;
};
enum { ENGINE, PLAIN, BY_TABLE, WAYS };

static double seconds_of(const struct row *r, const struct way *way, uint32_t passes) {
    double start = seconds();
    for (uint32_t i = 0; i < passes; i++)
        if (way->run(way->side, way->outcome, 0, r->timed)) fail(r, 0, "refused while it was timed");
    return seconds() - start;
}

// How many passes over the requests fill a round; warms the way up.
static uint32_t passes_a_round(const struct row *r, const struct way *way) {
    uint32_t passes = 1;
    while (seconds_of(r, way, passes) < 1e-3 * ROUND_MS) passes *= 2;
    return passes;
}

static double lesser(double a, double b) { return a < b ? a : b; }

// The best of several rounds of each way, taken in turn, in ns; 0 by table where there is none.
static void time_ways(const struct row *r, double ns[WAYS]) {
    const struct way ways[WAYS] = {{r->run, &engine, &engine_outcome},
                                   {r->run, &plain, &plain_outcome},
                                   {r->by_table, NULL, &table_outcome}};
    uint32_t passes[WAYS], count = r->by_table ? WAYS : BY_TABLE;
    ns[BY_TABLE] = 0;
    for (uint32_t w = 0; w < count; w++) {
        passes[w] = passes_a_round(r, &ways[w]);
        ns[w] = 1e9;
    }
    for (uint32_t i = 0; i < ROUNDS; i++)
        for (uint32_t w = 0; w < count; w++) ns[w] = lesser(ns[w], seconds_of(r, &ways[w], passes[w]));
    for (uint32_t w = 0; w < count; w++) ns[w] *= 1e9 / ((double)passes[w] * r->timed * r->units);
}

// A figure in its column; 0 is none.
static void print_figure(int width, double figure) {
    if (figure > 0)
        printf(" %*.2f |", width, figure);
    else
        printf(" %*s |", width, "");
}

static void time_row(const struct row *r) {
    double ns[WAYS];
    if (r->by_table) keep_cell(requests[0]);
    time_ways(r, ns);
    printf("| %-24s | %-19s |", r->call, r->setup);
    print_figure(8, ns[ENGINE]);
    print_figure(8, ns[PLAIN]);
    print_figure(5, ns[ENGINE] / ns[PLAIN]);
    print_figure(8, ns[BY_TABLE]);
    print_figure(6, r->before);
    printf("\n");
    fflush(stdout);
}

static void do_row(struct row r) {
    compare(&r);
    if (timing) time_row(&r);
}

// --- the table -------------------------------------------------------------------------------------------------------

enum extent { ENDS, ALL_SIZES, SOME_LIT }; // of a call's rows: each has what the one before it has

// Each mode at its sizes, all lit; and PUSC downlink with half of its groups.
static const struct setup {
    const char *name;
    uint32_t mode, size, mask;
    enum extent from;    // sizes between a mode's smallest and its largest are from ALL_SIZES on
    double empty_before; // the published ratio of empty when it went subchannel by subchannel; 0 where there is none
} setups[] = {
    {"PUSC downlink, 2048", PUSC_DL, 2048, FULL_MASK, ENDS, 0.24},
    {"groups 0, 2, 4 lit", PUSC_DL, 2048, 0x15, SOME_LIT, 0.24},
    {"groups 0, 1, 3 lit", PUSC_DL, 2048, 0x0B, SOME_LIT, 0.24},
    {"PUSC uplink, 2048", PUSC_UL, 2048, 0, ENDS, 0.14},
    {"optional FUSC, 256", OFUSC, 256, 0, ENDS, 0.13},
    {"optional FUSC, 512", OFUSC, 512, 0, ALL_SIZES, 0},
    {"optional FUSC, 1024", OFUSC, 1024, 0, ALL_SIZES, 0},
    {"optional FUSC, 2048", OFUSC, 2048, 0, ENDS, 0.08},
    {"AMC 6x1, 256", AMC, 256, 0, ENDS, 0.10},
    {"AMC 6x1, 512", AMC, 512, 0, ALL_SIZES, 0},
    {"AMC 6x1, 1024", AMC, 1024, 0, ALL_SIZES, 0},
    {"AMC 6x1, 2048", AMC, 2048, 0, ENDS, 0.08},
    {"AMC 2x3, 256", AMC_2X3, 256, 0, ENDS, 0.06},
    {"AMC 2x3, 512", AMC_2X3, 512, 0, ALL_SIZES, 0},
    {"AMC 2x3, 1024", AMC_2X3, 1024, 0, ALL_SIZES, 0},
    {"AMC 2x3, 2048", AMC_2X3, 2048, 0, ENDS, 0.06},
    {"AMC 3x2, 256", AMC_3X2, 256, 0, ENDS, 0.06},
    {"AMC 3x2, 512", AMC_3X2, 512, 0, ALL_SIZES, 0},
    {"AMC 3x2, 1024", AMC_3X2, 1024, 0, ALL_SIZES, 0},
    {"AMC 3x2, 2048", AMC_3X2, 2048, 0, ENDS, 0.06},
    {"AMC 1x6, 256", AMC_1X6, 256, 0, ENDS, 0.06},
    {"AMC 1x6, 512", AMC_1X6, 512, 0, ALL_SIZES, 0},
    {"AMC 1x6, 1024", AMC_1X6, 1024, 0, ALL_SIZES, 0},
    {"AMC 1x6, 2048", AMC_1X6, 2048, 0, ENDS, 0.06},
    {"FUSC, 2048", FUSC, 2048, 0, ENDS, 0},
};
enum { SETUPS = sizeof setups / sizeof setups[0] };

enum unit { CALL, POINT }; // what the times are for: a point is one of the slot's data points, lit or not

static void map_rows(const char *call, run_fn *run, run_fn *by_table, enum extent extent, enum unit unit) {
    for (const struct setup *s = setups; s < setups + SETUPS; s++) {
        if (s->from > extent) continue;
        uint32_t points = INDICES * subchannels(s->mode, s->size);
        draw_requests(s->mode, s->size, s->mask);
        do_row((struct row){call, s->name, run, by_table, REQUESTS, unit == POINT ? points : 1,
                            run == run_empty ? s->empty_before : 0});
    }
}

static void collision_rows(void) {
    draw_requests(OFUSC, 256, 0);
    do_row((struct row){"optional FUSC collisions", "256", run_ofusc_collisions, NULL, REQUESTS, 1, 0});
    draw_requests(OFUSC, 2048, 0);
    do_row((struct row){"optional FUSC collisions", "2048", run_ofusc_collisions, NULL, REQUESTS, 1, 0});
    draw_requests(AMC, 2048, 0);
    do_row((struct row){"AMC collisions", "any size and shape", run_amc_collisions, NULL, REQUESTS, 1, 0});
}

static void plan_rows(const char *call, run_fn *run) {
    draw_plans(SHORTEST_PLAN);
    do_row((struct row){call, "1 zone, 7 bytes", run, NULL, PLANS, 1, 0});
    draw_plans(LONGEST_PLAN);
    do_row((struct row){call, "8 zones, 51 bytes", run, NULL, PLANS, 1, 0});
}

// Zones of 512 slots with the fewest subchannels, 60, and the most.
static void burst_rows(const char *call, run_fn *run, uint32_t bursts) {
    draw_lists(OFUSC, 256, 0, bursts);
    do_row((struct row){call, "optional FUSC, 256", run, NULL, LISTS, 1, 0});
    draw_lists(PUSC_DL, 2048, FULL_MASK, bursts);
    do_row((struct row){call, "PUSC downlink, 2048", run, NULL, LISTS, 1, 0});
    draw_lists(AMC_1X6, 2048, 0, bursts);
    do_row((struct row){call, "AMC 1x6, 2048", run, NULL, LISTS, 1, 0});
}

static void heading(void) {
    printf("ns a data point of the slot for slot, ground, empty and empty_first, ns a call for the others; the loop\n"
           "around a call is in its time. slot: the engine's ground and a lay for each subchannel, questions and all,\n"
           "against plain C that fills the slot in one call. lay: one subchannel, 48 points. places: those of one\n"
           "subchannel. empty_first: half of the grid's carriers, and all. Groups lit: of PUSC downlink. A data point\n"
           "of the slot is any of it, lit or not, emptied or not, so that these rows can be held to those with all.\n"
           "by table: plain C of a caller who stays in one cell and keeps, made before the timing, the places of all\n"
           "lit subchannels as bp_places gives them, 4 bytes a point, and the slot's ground; three of each where the\n"
           "pilots move from slot to slot (optional FUSC, AMC 6x1, AMC 3x2), else one. It asks nothing. slot: a copy\n"
           "of the ground, then of each point to its place; lay, empty: a copy of each point.\n"
           "FUSC: the list of 166 pilots is checked in every call, and plain C passes over it for each point; by table it\n"
           "is one list for all slots.\n"
           "before: the ratio published for empty when it went subchannel by subchannel, from another run, where\n"
           "there is one; it goes by carrier now.\n"
           "Bursts: so many in a list, which is checked in every call; the zone has 512 slots, and the bursts tile\n"
           "it, where there are any. The owner of any slot and subchannel, the owners of any slot.\n"
           "Warm buffers: %d requests (%d plans, %d lists), drawn at random from what the call accepts, again and\n"
           "again. Best of %d rounds of %d to %d ms of processor time, all ways in turn.\n"
           "Each row first compared all ways on its requests and on %d more, many of which are refused.\n"
           "Plain C: %s, %s. The engine: its static archive.\n\n",
           REQUESTS, PLANS, LISTS, ROUNDS, ROUND_MS, 2 * ROUND_MS, STRAYS, BENCH_COMPILER, BENCH_FLAGS);
    printf("| call                     | setup               |   engine |  plain C | ratio | by table | before |\n"
           "|--------------------------|---------------------|---------:|---------:|------:|---------:|-------:|\n");
}

int main(int argc, char **argv) {
    timing = argc == 1;
    if (argc > 2 || (argc == 2 && strcmp(argv[1], "--check") != 0)) {
        fprintf(stderr, "usage: bench [--check]\n");
        return 2;
    }
    plain_tables();
    for (int i = 0; i < MOST_POINTS; i++) source_points[i] = (float)i + 0.5f;
    for (int i = 0; i < MOST_GRID; i++) source_grid[i] = (float)i + 0.25f;
    if (timing) heading();
    map_rows("slot", run_slot, put_slot, ALL_SIZES, POINT);
    map_rows("ground", run_ground, NULL, SOME_LIT, POINT);
    map_rows("lay", run_lay, put_subchannel, ALL_SIZES, CALL);
    map_rows("empty", run_empty, take_slot, SOME_LIT, POINT);
    map_rows("empty_first, half", run_empty_half, NULL, SOME_LIT, POINT);
    map_rows("empty_first, all", run_empty_whole, NULL, SOME_LIT, POINT);
    map_rows("place", run_place, NULL, ENDS, CALL);
    map_rows("places", run_places, NULL, ENDS, CALL);
    map_rows("locate", run_locate, NULL, ENDS, CALL);
    map_rows("look", run_look, NULL, ENDS, CALL);
    collision_rows();
    plan_rows("plan read", run_plan_read);
    plan_rows("plan write", run_plan_write);
    burst_rows("bursts check, 64", run_bursts_check, 64);
    burst_rows("bursts check, 8", run_bursts_check, 8);
    burst_rows("bursts check, none", run_bursts_check, 0);
    burst_rows("burst owner, 64", run_burst_owner, 64);
    burst_rows("burst owner, 8", run_burst_owner, 8);
    burst_rows("burst owner, none", run_burst_owner, 0);
    burst_rows("burst owners, 64", run_burst_owners, 64);
    burst_rows("burst owners, 8", run_burst_owners, 8);
    burst_rows("burst owners, none", run_burst_owners, 0);
    if (!timing)
        printf("bench: %u rows, %u requests, %u of them refused, %u done by table too: all agree\n", rows, compared,
               refused, also_by_table);
    return 0;
}
