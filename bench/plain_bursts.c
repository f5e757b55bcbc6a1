// Plain C of bursts.
#include "plain.h"
#include "plain_ranges.h"

#include <string.h>

enum { VALUES = 4, MOST_VALUES = 64 * VALUES, NO_BURST = 64, MOST_SUBCHANNELS = 192 }; // VALUES: of a burst

static inline bool is_run_in(uint32_t first, uint32_t count, uint32_t limit) {
    return count > 0 && first < limit && count <= limit - first;
}

// Without a branch: which of the four is false cannot be told ahead.
static inline bool overlap(const uint32_t *a, const uint32_t *b) {
    return (a[0] < b[0] + b[1]) & (b[0] < a[0] + a[1]) & (a[2] < b[2] + b[3]) & (b[2] < a[2] + a[3]);
}

static inline bool covers(const uint32_t *burst, uint32_t slot, uint32_t subchannel) {
    return subchannel >= burst[0] && subchannel < burst[0] + burst[1] && slot >= burst[2] && slot < burst[2] + burst[3];
}

// Questions 18 and 19: the length, then each burst in turn.
static uint32_t list_refusal(uint32_t mode, uint32_t size, uint32_t slots, const uint32_t *bursts, size_t len) {
    uint32_t subchannel_count = subchannels(mode, size);
    if (len % VALUES != 0 || len > MOST_VALUES) return 18;
    for (const uint32_t *burst = bursts; burst < bursts + len; burst += VALUES) {
        if (!is_run_in(burst[0], burst[1], subchannel_count) || !is_run_in(burst[2], burst[3], slots)) return 18;
        uint32_t any = 0; // as wide as the numbers, so that the compiler tests several pairs at a time
        for (const uint32_t *earlier = bursts; earlier < burst; earlier += VALUES) any |= overlap(earlier, burst);
        if (any) return 19;
    }
    return 0;
}

uint32_t plain_bursts_check(uint32_t mode, uint32_t size, uint32_t cell, uint32_t slots, uint32_t mask,
                            const uint32_t *bursts, size_t bursts_len) {
    uint32_t refusal = zone_refusal(mode, size, cell, slots, mask);
    return refusal ? refusal : list_refusal(mode, size, slots, bursts, bursts_len);
}

uint32_t plain_burst_owner(uint32_t mode, uint32_t size, uint32_t cell, uint32_t slots, uint32_t mask, uint32_t slot,
                           uint32_t subchannel, const uint32_t *bursts, size_t bursts_len, uint32_t *owner,
                           uint32_t *looked) {
    uint32_t refusal = zone_refusal(mode, size, cell, slots, mask);
    if (refusal) return refusal;
    if (slot >= SLOTS) return 4;
    if (subchannel >= subchannels(mode, size)) return 5;
    if ((refusal = list_refusal(mode, size, slots, bursts, bursts_len))) return refusal;
    uint32_t count = (uint32_t)(bursts_len / VALUES), n = 0;
    while (n < count && !covers(bursts + VALUES * n, slot, subchannel)) n++;
    *owner = n < count ? n : NO_BURST;
    *looked = n < count ? n + 1 : count;
    return 0;
}

uint32_t plain_burst_owners(uint32_t mode, uint32_t size, uint32_t cell, uint32_t slots, uint32_t mask, uint32_t slot,
                            const uint32_t *bursts, size_t bursts_len, uint8_t owners[192]) {
    uint32_t refusal = zone_refusal(mode, size, cell, slots, mask);
    if (refusal) return refusal;
    if (slot >= SLOTS) return 4;
    if ((refusal = list_refusal(mode, size, slots, bursts, bursts_len))) return refusal;
    memset(owners, NO_BURST, MOST_SUBCHANNELS);
    for (uint32_t n = 0; n < bursts_len / VALUES; n++) {
        const uint32_t *burst = bursts + VALUES * n;
        if (slot >= burst[2] && slot < burst[2] + burst[3]) memset(owners + burst[0], (int)n, burst[1]);
    }
    return 0;
}
