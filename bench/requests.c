#include "requests.h"
#include "plain_ranges.h"

struct request requests[REQUESTS + STRAYS];
struct plan plans[PLANS + STRAYS];
struct list lists[LISTS + STRAYS];

static uint32_t state;

// A number below n.
static uint32_t below(uint32_t n) {
    state = state * 1664525u + 1013904223u;
    return (uint32_t)((uint64_t)state * n >> 32);
}

// Lists of pilots: those that are right, one after the other, and a damaged one for each stray.
enum { RIGHT_LISTS = 16 };
static uint32_t right_lists[RIGHT_LISTS][PILOTS], stray_lists[STRAYS][PILOTS];

// Every used number is in it as likely as any other.
static void draw_list(uint32_t *list) {
    uint32_t count = 0;
    for (uint32_t used = 0; used < FUSC_USED; used++)
        if (below(FUSC_USED - used) < PILOTS - count) list[count++] = used;
}

// One in `odds` times puts into a field its own limit, or a limit of another one, or a number next to these.
static void disturb(uint32_t *field, uint32_t limit, uint32_t odds) {
    static const uint32_t limits[] = {0,    2,    4,    6,    8,    16,   24,   32,    48,    60,    64,
                                      70,   96,   128,  192,  256,  384,  512,  1024,  1152,  1536,  2048,
                                      2304, 2352, 3072, 4096, 6144, 8192, 9216, 12288, 18432, 24576, INT32_MAX,
                                      UINT32_MAX - 1};
    uint32_t other = limits[below(sizeof limits / sizeof limits[0])];
    if (below(odds) == 0) *field = (below(2) ? limit : other) + below(3) - 1;
}

// Every subchannel is drawn: where not all are lit, a lay may be refused.
static struct request accepted_request(uint32_t mode, uint32_t size, uint32_t mask) {
    uint32_t cell_count = cells(mode, size), subchannel_count = subchannels(mode, size);
    return (struct request){
        .mode = mode,
        .size = size,
        .cell = below(cell_count),
        .mask = mask,
        .slot = below(SLOTS),
        .subchannel = below(subchannel_count),
        .index = below(INDICES),
        .symbol = below(SLOTS * symbols(mode)),
        .carrier = (int32_t)below(size) - (int32_t)(size / 2),
        .cell_b = below(cell_count),
        .subchannel_b = below(subchannel_count),
        .lay_len = 2 * INDICES,
        .points_len = 2 * INDICES * lit_subchannels(mode, size, mask),
        .grid_len = 2 * size * symbols(mode),
        .carriers = size * symbols(mode) / 2,
        .pilots = mode == FUSC ? right_lists[below(RIGHT_LISTS)] : NULL,
        .pilots_len = mode == FUSC ? PILOTS : 0,
    };
}

// One in six times another length, and one in three a list that is not strictly rising or goes beyond the band, at one
// entry, most often the last or the first.
static void disturb_pilots(struct request *q, uint32_t *list) {
    uint32_t at[4] = {0, PILOTS - 1, below(PILOTS), 1 + below(PILOTS - 1)}, i = at[below(4)];
    draw_list(list);
    q->pilots = list;
    if (below(6) == 0) q->pilots_len = q->pilots_len == PILOTS ? below(PILOTS) : 1 + below(PILOTS);
    if (below(3)) return;
    uint32_t others[4] = {list[i > 0 ? i - 1 : 0], list[i < PILOTS - 1 ? i + 1 : i], FUSC_USED - 1 + below(3),
                          list[i] + (1u << below(32))};
    list[i] = others[below(4)];
}

// PUSC downlink has any mask half of the time, with the points that it lights.
static void disturb_request(struct request *q, uint32_t *list) {
    uint32_t cell_count = cells(q->mode, q->size), subchannel_count = subchannels(q->mode, q->size);
    if (q->mode == PUSC_DL && below(2)) q->mask = below(FULL_MASK + 2);
    q->points_len = 2 * INDICES * lit_subchannels(q->mode, q->size, q->mask);
    q->carriers = below(q->size * symbols(q->mode) + 2);
    const struct {
        uint32_t *field, limit;
    } fields[] = {
        {&q->mode, MODES},
        {&q->size, q->size},
        {&q->cell, cell_count},
        {&q->mask, FULL_MASK + 1},
        {&q->slot, SLOTS},
        {&q->subchannel, subchannel_count},
        {&q->index, INDICES},
        {&q->symbol, SLOTS * symbols(q->mode)},
        {(uint32_t *)&q->carrier, q->size / 2},
        {&q->cell_b, cell_count},
        {&q->subchannel_b, subchannel_count},
        {&q->lay_len, q->lay_len},
        {&q->points_len, q->points_len},
        {&q->grid_len, q->grid_len},
        {&q->carriers, q->size},
    };
    for (uint32_t i = 0; i < sizeof fields / sizeof fields[0]; i++) disturb(fields[i].field, fields[i].limit, 6);
    if (below(2)) q->carrier = ~q->carrier; // the range is its own mirror image, and so are the numbers past it
    disturb_pilots(q, list);
}

void draw_requests(uint32_t mode, uint32_t size, uint32_t mask) {
    state = 64 * size + mode;
    for (uint32_t n = 0; n < RIGHT_LISTS; n++) draw_list(right_lists[n]);
    for (uint32_t i = 0; i < REQUESTS + STRAYS; i++) requests[i] = accepted_request(mode, size, mask);
    for (uint32_t n = 0; n < STRAYS; n++) disturb_request(&requests[REQUESTS + n], stray_lists[n]);
}

// A zone with any mask that its mode has.
static void set_zone(struct plan *p, uint32_t k, uint32_t mode, uint32_t cell, uint32_t slots) {
    uint32_t *zone = p->zones + 4 * k;
    zone[0] = mode;
    zone[1] = cell;
    zone[2] = slots;
    zone[3] = mode == PUSC_DL ? 1 + below(FULL_MASK) : 0;
}

static uint32_t any_amc(void) { return AMC + below(AMC_1X6 + 1 - AMC); }

// One zone, each value but the size in one byte: 7 bytes.
static void shortest_plan(struct plan *p) {
    p->count = 1;
    p->size = 256;
    set_zone(p, 0, OFUSC, below(cells(OFUSC, p->size)), 1 + below(127));
}

// Eight zones, optional FUSC before AMC of any shape, each cell and number of slots in two bytes: 51 bytes.
static void longest_plan(struct plan *p) {
    uint32_t amc_from = below(9);
    p->count = 8;
    p->size = 1024;
    for (uint32_t k = 0; k < p->count; k++) {
        uint32_t mode = k < amc_from ? OFUSC : any_amc();
        set_zone(p, k, mode, 128 + below(cells(mode, p->size) - 128), 128 + below(SLOTS - 127));
    }
}

// Any number of zones, now and then of a mode that may not stand there.
static void any_plan(struct plan *p) {
    p->count = 1 + below(8);
    p->size = 256u << below(4);
    uint32_t amc_from = 1 + below(8);
    for (uint32_t k = 0; k < p->count; k++) {
        uint32_t other = p->size != 2048 ? OFUSC : k > 0 && below(2) ? FUSC : PUSC_DL;
        uint32_t mode = below(12) == 0 ? below(MODES) : k < amc_from ? other : any_amc();
        set_zone(p, k, mode, below(cells(mode, p->size)), 1 + below(SLOTS));
    }
}

static void put_value(struct plan *p, uint32_t value) {
    for (; value >= 128; value /= 128) p->bytes[p->len++] = (uint8_t)(128 + value % 128);
    p->bytes[p->len++] = (uint8_t)value;
}

// The plan's bytes, and just room enough to write them.
static void encode(struct plan *p) {
    put_value(p, p->count);
    put_value(p, p->size);
    for (uint32_t i = 0; i < 4 * p->count; i++) put_value(p, p->zones[i]);
    p->dest_len = p->len;
}

static void disturb_plan(struct plan *p) {
    for (uint32_t k = 0; k < 8; k++) {
        uint32_t *zone = p->zones + 4 * k;
        disturb(&zone[1], cells(zone[0], p->size), 60);
        disturb(&zone[0], MODES - 1, 60);
        disturb(&zone[2], SLOTS + 1, 60);
        disturb(&zone[3], FULL_MASK + 1, 60);
    }
    disturb(&p->count, 8, 12);
    disturb(&p->size, p->size, 12);
    p->dest_len = below(4) ? PLAN_ROOM : p->len - below(2);
    for (uint32_t i = 0; i < p->len; i++)
        if (below(60) == 0) p->bytes[i] = (uint8_t)(below(2) ? below(256) : p->bytes[i] ^ 128);
    if (below(6) == 0) p->len = below(PLAN_ROOM + 1);
}

void draw_plans(enum plan_kind kind) {
    state = kind;
    for (struct plan *p = plans; p < plans + PLANS; p++) {
        *p = (struct plan){0};
        kind == SHORTEST_PLAN ? shortest_plan(p) : longest_plan(p);
        encode(p);
    }
    for (struct plan *p = plans + PLANS; p < plans + PLANS + STRAYS; p++) {
        *p = (struct plan){0};
        any_plan(p);
        encode(p);
        disturb_plan(p);
    }
}

static void copy_burst(uint32_t *to, const uint32_t *from) {
    for (uint32_t i = 0; i < 4; i++) to[i] = from[i];
}

// Cuts a burst of a list in two, the second behind all others; not one that has one subchannel in one slot.
static void cut(struct list *l, uint32_t *burst) {
    uint32_t axis = 2 * below(2), *half = l->numbers + l->len;
    if (burst[axis + 1] == 1) axis = 2 - axis;
    if (burst[axis + 1] == 1) return;
    uint32_t kept = 1 + below(burst[axis + 1] - 1);
    copy_burst(half, burst);
    half[axis] += kept;
    half[axis + 1] -= kept;
    burst[axis + 1] = kept;
    l->len += 4;
}

// The zone cut into so many bursts, in any order; it has room for them.
static void tile(struct list *l, uint32_t bursts) {
    uint32_t *first = l->numbers, other[4];
    first[1] = subchannels(l->mode, l->size);
    first[3] = l->slots;
    l->len = bursts ? 4 : 0;
    while (l->len < 4 * bursts) cut(l, first + 4 * below(l->len / 4));
    for (uint32_t n = bursts; n > 1; n--) {
        uint32_t *last = first + 4 * (n - 1), *any = first + 4 * below(n);
        copy_burst(other, any);
        copy_burst(any, last);
        copy_burst(last, other);
    }
}

static struct list accepted_list(uint32_t mode, uint32_t size, uint32_t mask, uint32_t slots, uint32_t bursts) {
    struct list l = {
        .mode = mode,
        .size = size,
        .cell = below(cells(mode, size)),
        .slots = slots,
        .mask = mask,
        .slot = below(SLOTS),
        .subchannel = below(subchannels(mode, size)),
    };
    tile(&l, bursts);
    return l;
}

// Some bursts left out, one that is a little larger, one put over another, numbers and fields changed, any length; half
// of the time any mask.
static void disturb_list(struct list *l) {
    uint32_t subchannel_count = subchannels(l->mode, l->size), bursts = l->len / 4;
    if (below(2)) l->len = 4 * below(bursts + 1);
    if (bursts && below(6) == 0) l->numbers[4 * below(bursts) + 1 + 2 * below(2)]++;
    if (bursts && below(6) == 0) copy_burst(l->numbers + 4 * below(bursts), l->numbers + 4 * below(bursts));
    for (uint32_t i = 0; i < l->len; i++) disturb(&l->numbers[i], i % 4 < 2 ? subchannel_count : l->slots, 200);
    if (below(6) == 0) l->len = below(4 * (MOST_BURSTS + 1) + 1);
    if (l->mode == PUSC_DL && below(2)) l->mask = below(FULL_MASK + 2);
    disturb(&l->mode, MODES, 12);
    disturb(&l->size, l->size, 12);
    disturb(&l->cell, cells(l->mode, l->size), 12);
    disturb(&l->slots, SLOTS + 1, 12);
    disturb(&l->mask, FULL_MASK + 1, 12);
    disturb(&l->slot, SLOTS, 12);
    disturb(&l->subchannel, subchannel_count, 12);
}

// Those that are timed have a zone of 512 slots, which their bursts cover, where there are any.
void draw_lists(uint32_t mode, uint32_t size, uint32_t mask, uint32_t bursts) {
    state = 64 * size + mode;
    for (struct list *l = lists; l < lists + LISTS; l++) *l = accepted_list(mode, size, mask, SLOTS, bursts);
    for (struct list *l = lists + LISTS; l < lists + LISTS + STRAYS; l++) {
        *l = accepted_list(mode, size, mask, MOST_BURSTS + below(SLOTS - MOST_BURSTS), below(MOST_BURSTS + 2));
        disturb_list(l);
    }
}
