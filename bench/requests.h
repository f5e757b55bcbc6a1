// The requests that both sides are given, drawn from a fixed seed.
#ifndef REQUESTS_H
#define REQUESTS_H

#include <stddef.h>
#include <stdint.h>

// Each array starts with requests that are accepted; these are timed. The strays after them are compared alone: some of
// their fields are changed to limits of document 01 and numbers next to them, so that many are refused.
enum { REQUESTS = 512, PLANS = 128, LISTS = 128, STRAYS = 512, PLAN_ROOM = 56, MOST_BURSTS = 64 };

// All fields that a call of the map may have; the second cell and subchannel are those of the collision calls, lay_len
// is the points' length in lay. carriers, of empty_first, is half of the grid, in a stray any number to past its end. pilots
// is the pilot list, of which several requests may have the same; a stray's may be unfit.
struct request {
    uint32_t mode, size, cell, mask, slot, subchannel, index, symbol, cell_b, subchannel_b;
    uint32_t lay_len, points_len, grid_len, carriers;
    int32_t carrier;
    const uint32_t *pilots;
    size_t pilots_len;
};

// A plan as its fields and as its bytes, and the room for writing it.
struct plan {
    uint32_t count, size, zones[32], dest_len, len;
    uint8_t bytes[PLAN_ROOM];
};

// A list of bursts, its zone, and the slot and subchannel whose owner is asked for; a stray may have a burst too many.
struct list {
    uint32_t mode, size, cell, slots, mask, slot, subchannel, len, numbers[4 * (MOST_BURSTS + 1)];
};

enum plan_kind { SHORTEST_PLAN, LONGEST_PLAN };

extern struct request requests[REQUESTS + STRAYS];
extern struct plan plans[PLANS + STRAYS];
extern struct list lists[LISTS + STRAYS];

void draw_requests(uint32_t mode, uint32_t size, uint32_t mask);
void draw_plans(enum plan_kind kind);
void draw_lists(uint32_t mode, uint32_t size, uint32_t mask, uint32_t bursts);

#endif
