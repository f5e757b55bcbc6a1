/* What several of the C tests have in common: every mode and size, pilot lists, wrong fields and the refusal that they meet,
   and out parameters between guard words. */
#ifndef COMMON_H
#define COMMON_H

#include <stddef.h>
#include <stdint.h>

#define COUNT(rows) (sizeof(rows) / sizeof((rows)[0]))

enum { SLOTS = 512, MOST_SUBCHANNELS = 192 };
enum { PUSC_DL = 0, FULL_MASK = 63 };
enum { FUSC = 7, PILOTS = 166 }; /* the mode that is lent its pilots, and how many it has */
enum { UNLISTED = 8 }; /* the first number that is no mode */

struct setup {
    uint32_t mode, size, cells, subchannels, symbols;
};

static const struct setup setups[] = {
    {0, 2048, 32, 60, 2}, {1, 2048, 70, 70, 3},
    {2, 256, 16, 4, 1}, {2, 512, 64, 8, 1}, {2, 1024, 256, 16, 1}, {2, 2048, 1024, 32, 1},
    {3, 256, 2352, 4, 1}, {3, 512, 2352, 8, 1}, {3, 1024, 2352, 16, 1}, {3, 2048, 2352, 32, 1},
    {4, 256, 2352, 12, 3}, {4, 512, 2352, 24, 3}, {4, 1024, 2352, 48, 3}, {4, 2048, 2352, 96, 3},
    {5, 256, 2352, 8, 2}, {5, 512, 2352, 16, 2}, {5, 1024, 2352, 32, 2}, {5, 2048, 2352, 64, 2},
    {6, 256, 2352, 24, 6}, {6, 512, 2352, 48, 6}, {6, 1024, 2352, 96, 6}, {6, 2048, 2352, 192, 6},
    {7, 2048, 32, 32, 1},
};

struct pilot_list {
    uint32_t len, numbers[PILOTS + 1];
};

struct out {
    uint32_t before, value, after;
};

static const uint32_t untold = 0xA5A5A5A5u;

static inline struct out fresh(void)
{
    struct out out = {~untold, untold, ~untold};
    return out;
}

static inline int told(const struct out *out, uint32_t value)
{
    return out->before == ~untold && out->value == value && out->after == ~untold;
}

/* A set of wrong fields is a bit a field, in the order of the questions, which end with 0. */
static inline uint32_t first_refusal(unsigned wrong_fields, const uint32_t *questions)
{
    while (*questions && !(wrong_fields & 1)) {
        wrong_fields >>= 1;
        questions++;
    }
    return *questions;
}

/* A number past a range: the first, the last, or one that is cut to the last within it. */
static inline uint32_t past(uint32_t limit, unsigned turn)
{
    const uint32_t numbers[] = {limit, UINT32_MAX, limit - 1 + 0x10000u, limit - 1 + 0x80000000u};
    return numbers[turn % COUNT(numbers)];
}

/* A good mask lights the last subchannel; not each lights the first one, nor all. */
static inline uint32_t good_mask(const struct setup *s, unsigned turn)
{
    static const uint32_t masks[] = {FULL_MASK, 32, 42, 61, 33};
    return s->mode == PUSC_DL ? masks[turn % COUNT(masks)] : 0;
}

/* A wrong mask: another mode's, just past the range, the last, or one that is cut to a good one. */
static inline uint32_t wrong_mask(const struct setup *s, unsigned turn)
{
    static const uint32_t no_groups[] = {FULL_MASK, 1, UINT32_MAX, 64, 0x10000u, 0x80000000u, 32};
    const uint32_t groups[] = {0, FULL_MASK + 1, UINT32_MAX, good_mask(s, turn) + 64, good_mask(s, turn) + 0x100u,
                               good_mask(s, turn) + 0x10000u, good_mask(s, turn) + 0x80000000u};
    return s->mode == PUSC_DL ? groups[turn % COUNT(groups)] : no_groups[turn % COUNT(no_groups)];
}

#endif
