/* Holds bp_bursts_check, bp_burst_owner and bp_burst_owners to the reference: the lists of bursts_table.h, of every kind in
   a zone of every mode and size, with the owner of each subchannel of some slots. Then to what is worked out here: every two
   bursts of a small zone, in it or not, by pictures of it; a burst of any large numbers; every length of a list; and every
   set of wrong fields with a list that is wrong in each way. All that is lent is compared: the list is never written, and a
   refusal writes nothing. Run by run.sh. */
#include <inttypes.h>
#include <stddef.h>
#include <stdint.h>
#include <stdio.h>
#include <string.h>

#include "bellpulsar.h"
#include "common.h"

enum { FOUR = 4, MOST_NUMBERS = 256, ROOM = 2 * MOST_NUMBERS, EDGE = 8 };

struct zone {
    uint32_t mode, size, cell, slots, mask;
};

/* A slot, the owner of each subchannel in it, and how many bursts were looked at for each that the mode has. */
struct asked {
    uint32_t slot;
    uint8_t owners[MOST_SUBCHANNELS], looked[MOST_SUBCHANNELS];
};

/* A list of a kind, and the refusal that it meets; where there is none, what is asked of it. */
struct list_row {
    struct zone zone;
    const char *kind;
    const uint32_t *numbers;
    uint32_t len, refusal;
    const struct asked *asked;
    uint32_t asked_len;
};

#include "bursts_table.h"

static uint32_t subchannels_of(const struct zone *z)
{
    const struct setup *s = setups;
    while (s->mode != z->mode || s->size != z->size)
        s++;
    return s->subchannels;
}

/* --- what is lent ---------------------------------------------------------------------------- */

/* The list and the row of owners between guards. Behind the list stand words that would be a burst: 0, 1, 0, 1. */
static struct lent {
    uint32_t before[EDGE], numbers[ROOM], between[EDGE];
    uint8_t owners[MOST_SUBCHANNELS];
    uint32_t after[EDGE];
} lent, kept;

static void lend(const uint32_t *numbers, size_t len)
{
    uint32_t words[sizeof lent / sizeof *numbers];
    for (uint32_t n = 0; n < COUNT(words); n++)
        words[n] = n % 2;
    memcpy(&lent, words, sizeof lent);
    memset(lent.owners, 0xEE, sizeof lent.owners);
    if (len)
        memcpy(lent.numbers, numbers, len * sizeof *numbers);
    kept = lent;
}

static int unchanged(void) { return memcmp(&lent, &kept, sizeof lent) == 0; }

static int check_agrees(const struct zone *z, size_t len, uint32_t refusal)
{
    return bp_bursts_check(z->mode, z->size, z->cell, z->slots, z->mask, lent.numbers, len) == refusal && unchanged();
}

static int owner_agrees(const struct zone *z, uint32_t slot, uint32_t subchannel, size_t len, uint32_t refusal,
                        uint32_t owner, uint32_t looked)
{
    struct out found = fresh(), count = fresh();
    uint32_t number = bp_burst_owner(z->mode, z->size, z->cell, z->slots, z->mask, slot, subchannel, lent.numbers, len,
                                     &found.value, &count.value);
    return number == refusal && told(&found, refusal ? untold : owner) && told(&count, refusal ? untold : looked) &&
           unchanged();
}

/* The owners of a refusal are not looked at. */
static int owners_agree(const struct zone *z, uint32_t slot, size_t len, uint32_t refusal, const uint8_t *owners)
{
    uint32_t number = bp_burst_owners(z->mode, z->size, z->cell, z->slots, z->mask, slot, lent.numbers, len, lent.owners);
    struct lent old = kept;
    if (!refusal)
        memcpy(kept.owners, owners, sizeof kept.owners);
    int agrees = number == refusal && unchanged();
    lent = kept = old;
    return agrees;
}

/* All three of a list that is refused, and of a slot and subchannel that are not. */
static int all_refuse(const struct zone *z, size_t len, uint32_t refusal)
{
    const uint32_t slots[] = {0, z->slots - 1, SLOTS - 1}, subchannels[] = {0, subchannels_of(z) - 1};
    int agree = check_agrees(z, len, refusal);
    for (size_t i = 0; i < COUNT(slots); i++) {
        agree = agree && owners_agree(z, slots[i], len, refusal, NULL);
        for (size_t j = 0; j < COUNT(subchannels); j++)
            agree = agree && owner_agrees(z, slots[i], subchannels[j], len, refusal, 0, 0);
    }
    return agree;
}

/* Every subchannel of the slot, and those that the mode does not have. */
static int answers_agree(const struct zone *z, size_t len, const struct asked *a)
{
    uint32_t subchannels = subchannels_of(z);
    int agree = owners_agree(z, a->slot, len, 0, a->owners);
    for (uint32_t s = 0; s < subchannels; s++)
        agree = agree && owner_agrees(z, a->slot, s, len, 0, a->owners[s], a->looked[s]);
    for (uint32_t s = subchannels; s <= MOST_SUBCHANNELS; s++)
        agree = agree && owner_agrees(z, a->slot, s, len, BP_REFUSED_SUBCHANNEL, 0, 0);
    return agree;
}

static int report(const char *what, const struct zone *z, size_t len)
{
    printf("bursts, %s, differ: mode %" PRIu32 " size %" PRIu32 " cell %" PRIu32 " slots %" PRIu32 " mask %" PRIu32 ",",
           what, z->mode, z->size, z->cell, z->slots, z->mask);
    for (size_t n = 0; n < len && n < ROOM; n++)
        printf(" %" PRIu32, lent.numbers[n]);
    printf("\n");
    return 1;
}

/* --- lists of the reference ------------------------------------------------------------------ */

static int row_agrees(const struct list_row *row)
{
    lend(row->numbers, row->len);
    if (row->refusal)
        return all_refuse(&row->zone, row->len, row->refusal);
    int agree = row->asked_len > 1 && check_agrees(&row->zone, row->len, 0);
    for (uint32_t n = 0; n < row->asked_len; n++)
        agree = agree && answers_agree(&row->zone, row->len, &row->asked[n]);
    return agree;
}

static int test_rows(void)
{
    int wrong = COUNT(list_rows) < 700;
    for (const struct list_row *row = list_rows; row < list_rows + COUNT(list_rows); row++)
        if (!row_agrees(row))
            wrong = report(row->kind, &row->zone, row->len);
    return wrong;
}

/* --- every two bursts of a small zone -------------------------------------------------------- */

enum { WIDE = 4, LONG = 4, STEPS = 6, BURSTS = STEPS * STEPS * STEPS * STEPS }; /* STEPS: numbers that a burst may have */
static const struct zone small = {BP_OFUSC, 256, 15, LONG, 0};

static void burst_of(uint32_t n, uint32_t *burst)
{
    for (uint32_t i = 0; i < FOUR; i++, n /= STEPS)
        burst[i] = n % STEPS;
}

/* The zone with a bit for each subchannel of each slot that the burst has; 0 where it has none or one beside the zone. */
static uint32_t picture(const uint32_t *burst)
{
    uint32_t drawn = 0;
    for (uint32_t slot = burst[2]; slot < burst[2] + burst[3]; slot++)
        for (uint32_t subchannel = burst[0]; subchannel < burst[0] + burst[1]; subchannel++) {
            if (slot >= LONG || subchannel >= WIDE)
                return 0;
            drawn |= 1u << (WIDE * slot + subchannel);
        }
    return drawn;
}

/* Every slot, and the first past the zone. */
static int pair_agrees(uint32_t first, uint32_t second)
{
    for (uint32_t slot = 0; slot <= LONG; slot++) {
        struct asked asked = {.slot = slot};
        memset(asked.owners, BP_NO_BURST, sizeof asked.owners);
        for (uint32_t s = 0; s < WIDE; s++) {
            uint32_t bit = slot < LONG ? 1u << (WIDE * slot + s) : 0;
            if (first & bit)
                asked.owners[s] = 0;
            if (second & bit)
                asked.owners[s] = 1;
            asked.looked[s] = first & bit ? 1 : 2;
        }
        if (!answers_agree(&small, 2 * FOUR, &asked))
            return 0;
    }
    return 1;
}

static int test_pairs(void)
{
    uint32_t numbers[2 * FOUR], accepted = 0;
    int wrong = 0;
    for (uint32_t a = 0; a < BURSTS; a++) {
        burst_of(a, numbers);
        uint32_t first = picture(numbers);
        for (uint32_t b = 0; b < BURSTS; b++) {
            burst_of(b, numbers + FOUR);
            uint32_t second = picture(numbers + FOUR);
            uint32_t refusal = !first || !second ? BP_REFUSED_BURST : first & second ? BP_REFUSED_OVERLAP : 0;
            lend(numbers, 2 * FOUR);
            if (!check_agrees(&small, 2 * FOUR, refusal) || (!refusal && !pair_agrees(first, second)))
                wrong = report("two of them", &small, 2 * FOUR);
            accepted += !refusal;
        }
    }
    return wrong || accepted < 1000;
}

/* --- large numbers --------------------------------------------------------------------------- */

/* A burst of any of these, alone and behind one in the zone's last corner; its ends do not wrap. */
static int test_large(void)
{
    static const uint32_t values[] = {0, 1, 2, 3, 4, 5, 0x100, 0x10001, 0x7FFFFFFF, 0x80000000, 0x80000001,
                                      UINT32_MAX - 3, UINT32_MAX - 2, UINT32_MAX - 1, UINT32_MAX};
    enum { VALUES = COUNT(values) };
    int wrong = 0;
    for (uint32_t n = 0; n < VALUES * VALUES * VALUES * VALUES; n++) {
        uint32_t numbers[2 * FOUR] = {3, 1, 3, 1}, *burst = numbers + FOUR;
        for (uint32_t i = 0, rest = n; i < FOUR; i++, rest /= VALUES)
            burst[i] = values[rest % VALUES];
        uint64_t end = (uint64_t)burst[0] + burst[1], end_slot = (uint64_t)burst[2] + burst[3];
        int in = burst[1] && burst[3] && end <= WIDE && end_slot <= LONG, meets = end > 3 && end_slot > 3;
        lend(burst, FOUR);
        if (!(in ? check_agrees(&small, FOUR, 0) : all_refuse(&small, FOUR, BP_REFUSED_BURST)))
            wrong = report("large numbers", &small, FOUR);
        lend(numbers, 2 * FOUR);
        if (!check_agrees(&small, 2 * FOUR, !in ? BP_REFUSED_BURST : meets ? BP_REFUSED_OVERLAP : 0))
            wrong = report("large numbers", &small, 2 * FOUR);
    }
    return wrong;
}

/* --- lengths --------------------------------------------------------------------------------- */

/* Bursts of one subchannel in one slot, along the subchannels of the first slot, which has room for all. */
static int test_lengths(void)
{
    static const struct zone zone = {BP_AMC_1X6, 2048, 0, 2, 0}, uplink = {BP_PUSC_UL, 2048, 0, 2, 0};
    uint32_t numbers[ROOM], owner = 7, looked = 7;
    int wrong = 0;
    for (uint32_t n = 0; n < ROOM; n += FOUR)
        memcpy(numbers + n, (uint32_t[FOUR]){n / FOUR, 1, 0, 1}, FOUR * sizeof *numbers);
    for (size_t len = 0; len <= ROOM; len++) {
        uint32_t bursts = (uint32_t)(len / FOUR);
        struct asked asked = {.slot = 0};
        for (uint32_t s = 0; s < MOST_SUBCHANNELS; s++) {
            asked.owners[s] = (uint8_t)(s < bursts ? s : BP_NO_BURST);
            asked.looked[s] = (uint8_t)(s < bursts ? s + 1 : bursts);
        }
        lend(numbers, ROOM);
        int fits = len % FOUR == 0 && len <= MOST_NUMBERS;
        int agree = fits ? check_agrees(&zone, len, 0) && answers_agree(&zone, len, &asked)
                         : all_refuse(&zone, len, BP_REFUSED_BURST);
        if (!agree || !all_refuse(&uplink, len, BP_REFUSED_MODE))
            wrong = report("a length", &zone, len);
    }
    /* A list of no length may have any pointer. */
    return wrong || bp_bursts_check(BP_AMC_1X6, 2048, 0, 2, 0, NULL, 0) != 0 ||
           bp_burst_owner(BP_AMC_1X6, 2048, 0, 2, 0, 1, 191, NULL, 0, &owner, &looked) != 0 || owner != BP_NO_BURST ||
           looked != 0;
}

/* --- refusals -------------------------------------------------------------------------------- */

/* Lends a list for a zone of so many subchannels and slots, good or wrong in some way; gives its refusal. */
static uint32_t lend_list(uint32_t subchannels, uint32_t slots, int right, unsigned turn, size_t *len)
{
    const uint32_t last = subchannels - 1, last_slot = slots - 1, most = UINT32_MAX;
    const struct {
        uint32_t len, refusal, numbers[3 * FOUR];
    } lists[] = {
        {8, 18, {0, subchannels, 0, slots, 0, 0, 0, 1}},
        {8, 18, {0, 1, 0, 1, 1, last, 0, slots + 1}},
        {4, 18, {0, subchannels + 1, 0, slots}},
        {8, 19, {0, subchannels, 0, slots, last, 1, last_slot, 1}},
        {12, 19, {0, subchannels, 0, slots, 0, 1, 0, 1, 0, 0, 0, 0}},
        {12, 18, {0, subchannels, 0, slots, last, 1, slots, 1, 0, 1, 0, 1}},
        {8, 18, {0, subchannels, 0, slots, last, 2, 0, 1}},
        {8, 19, {last, 1, last_slot, 1, 0, subchannels, 0, slots}},
        {5, 18, {0, subchannels, 0, slots, 0}},
        {260, 18, {0, 1, 0, 1}},
        {4, 18, {1, most, 0, 1}},
        {4, 18, {0, 1, most, 2}},
        {3, 18, {0, 1, 0}},
    };
    static const uint32_t none[MOST_NUMBERS + FOUR];
    size_t n = turn % COUNT(lists);
    *len = right ? FOUR : lists[n].len;
    lend(none, COUNT(none));
    memcpy(lent.numbers, right ? (uint32_t[3 * FOUR]){0, subchannels, 0, slots} : lists[n].numbers, sizeof lists[n].numbers);
    kept = lent;
    return right ? 0 : lists[n].refusal;
}

enum { ZONE_FIELDS = 5, TURNS = 26 };

/* The zone's fields are the first five of a set of wrong ones. */
static struct zone zone_of(const struct setup *s, uint32_t slots, unsigned wrong_fields, unsigned turn)
{
    struct zone z = {s->mode, s->size, s->cells - 1, slots, good_mask(s, turn)};
    if (wrong_fields & 1)
        z.mode = turn % 3 ? past(UNLISTED, turn) : BP_PUSC_UL;
    if (wrong_fields & 2)
        z.size = turn % 2 ? 128 : s->size + 0x10000u;
    if (wrong_fields & 4)
        z.cell = past(s->cells, turn);
    if (wrong_fields & 8)
        z.slots = turn % 3 ? past(SLOTS + 1, turn) : 0;
    if (wrong_fields & 16)
        z.mask = wrong_mask(s, turn);
    return z;
}

/* Which of the fields past the zone's a call has; the last of a set is the list. */
enum call { CHECK, OWNERS, OWNER };
static const char *const names[] = {"bp_bursts_check", "bp_burst_owners", "bp_burst_owner"};

static int refusal_agrees(enum call call, const struct setup *s, unsigned wrong_fields, unsigned turn)
{
    uint32_t questions[] = {1, 2, 3, 13, 17, 4, 5, 0, 0}, slots = turn % 2 ? SLOTS : 3;
    unsigned list = ZONE_FIELDS + call;
    struct zone z = zone_of(s, slots, wrong_fields, turn);
    uint32_t slot = call > CHECK && (wrong_fields >> ZONE_FIELDS & 1) ? past(SLOTS, turn) : SLOTS - 1;
    uint32_t subchannel = call == OWNER && (wrong_fields >> (ZONE_FIELDS + 1) & 1) ? past(s->subchannels, turn)
                                                                                    : s->subchannels - 1;
    size_t len;
    questions[list] = lend_list(s->subchannels, slots, !(wrong_fields >> list & 1), turn, &len);
    questions[list + 1] = 0;
    uint32_t refusal = first_refusal(wrong_fields, questions), owner = slots == SLOTS ? 0 : BP_NO_BURST;
    uint8_t owners[MOST_SUBCHANNELS];
    memset(owners, BP_NO_BURST, sizeof owners);
    memset(owners, (int)owner, s->subchannels);
    return call == CHECK    ? check_agrees(&z, len, refusal)
           : call == OWNERS ? owners_agree(&z, slot, len, refusal, owners)
                            : owner_agrees(&z, slot, subchannel, len, refusal, owner, 1);
}

/* Every set of wrong fields, none too, of every mode and size that a plan may have. */
static int test_refusals(void)
{
    int wrong = 0;
    for (const struct setup *s = setups; s < setups + COUNT(setups); s++)
        for (enum call call = CHECK; call <= OWNER && s->mode != BP_PUSC_UL; call++)
            for (unsigned turn = 0; turn < TURNS; turn++)
                for (unsigned wrong_fields = 0; wrong_fields < 2u << (ZONE_FIELDS + call); wrong_fields++) {
                    if (refusal_agrees(call, s, wrong_fields, turn))
                        continue;
                    wrong = 1;
                    printf("a refusal of %s differs: mode %" PRIu32 " size %" PRIu32 " fields %u turn %u\n", names[call],
                           s->mode, s->size, wrong_fields, turn);
                }
    return wrong;
}

int main(void)
{
    int wrong = test_rows() | test_pairs() | test_large() | test_lengths() | test_refusals();
    if (!wrong)
        puts("capi: lists of bursts and their owners agree with the reference");
    return wrong;
}
