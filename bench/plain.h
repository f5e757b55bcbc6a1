// The benchmark's other side: the engine's calls in plain C. The same formulas, the same questions in the same order,
// the same signatures; bellpulsar.h says what they mean.
//
// Each place is worked out by itself from mode, size, cell, slot, subchannel and index, also in places, lay, empty and
// empty_first, which then tests whether it is one of the first. place goes by the inverse table of R, locate and look
// by those of Q, P and both B; plain_tables works them out once.
// In FUSC the pilot list is checked once a call, and each point passes over the list: a data number is past as many used
// numbers as there are pilots at or before it. Both without a branch, so that the compiler takes several entries at a time.
// A list of bursts is checked in each call that has one, every burst against all before it, by four comparisons without a
// branch, and one branch a burst; the owner is the first burst that covers, a row is set to none and marked burst by burst.
// plain_fill is no call of the engine: it writes at once what the ground and a lay of each lit subchannel write, and
// puts questions 1 2 3 17 4 20 8 9, 8 about the points of the whole slot.
// plain_put and plain_take are what is left of lay and empty where the caller keeps the places: they copy so many
// points to a grid and from it, and ask nothing.
#ifndef PLAIN_H
#define PLAIN_H

#include <stddef.h>
#include <stdint.h>

// The inverse tables and both sequences of optional FUSC. Once, before the calls.
void plain_tables(void);

uint32_t plain_place(uint32_t mode, uint32_t size, uint32_t cell, uint32_t slot, uint32_t subchannel, uint32_t index,
                     const uint32_t *pilots, size_t pilots_len, uint32_t *symbol, int32_t *carrier);
uint32_t plain_places(uint32_t mode, uint32_t size, uint32_t cell, uint32_t slot, uint32_t subchannel,
                      const uint32_t *pilots, size_t pilots_len, uint32_t places[48]);
uint32_t plain_locate(uint32_t mode, uint32_t size, uint32_t cell, uint32_t symbol, int32_t carrier,
                      const uint32_t *pilots, size_t pilots_len, uint32_t *kind, uint32_t *slot, uint32_t *subchannel,
                      uint32_t *index);
uint32_t plain_ground(uint32_t mode, uint32_t size, uint32_t cell, uint32_t mask, uint32_t slot,
                      const uint32_t *pilots, size_t pilots_len, const float pilot[2], float *grid, size_t grid_len);
uint32_t plain_lay(uint32_t mode, uint32_t size, uint32_t cell, uint32_t mask, uint32_t slot, uint32_t subchannel,
                   const uint32_t *pilots, size_t pilots_len, const float *points, size_t points_len, float *grid,
                   size_t grid_len);
uint32_t plain_fill(uint32_t mode, uint32_t size, uint32_t cell, uint32_t mask, uint32_t slot, const uint32_t *pilots,
                    size_t pilots_len, const float pilot[2], const float *points, size_t points_len, float *grid,
                    size_t grid_len);
void plain_put(const uint32_t *places, size_t count, const float *points, float *grid);
void plain_take(const uint32_t *places, size_t count, const float *grid, float *points);
uint32_t plain_empty(uint32_t mode, uint32_t size, uint32_t cell, uint32_t mask, uint32_t slot, const uint32_t *pilots,
                     size_t pilots_len, const float *grid, size_t grid_len, float *points, size_t points_len);
uint32_t plain_empty_first(uint32_t mode, uint32_t size, uint32_t cell, uint32_t mask, uint32_t slot, uint32_t carriers,
                           const uint32_t *pilots, size_t pilots_len, const float *grid, size_t grid_len, float *points,
                           size_t points_len);
uint32_t plain_look(uint32_t mode, uint32_t size, uint32_t cell, uint32_t mask, uint32_t symbol, const uint32_t *pilots,
                    size_t pilots_len, const float *grid, size_t grid_len, int32_t carrier, uint32_t *kind,
                    float point[2], uint32_t *slot, uint32_t *subchannel, uint32_t *index);
uint32_t plain_ofusc_collisions(uint32_t size, uint32_t cell_a, uint32_t subchannel_a, uint32_t cell_b,
                                uint32_t subchannel_b, uint8_t hits[48], uint32_t *count);
uint32_t plain_amc_collisions(uint32_t cell_a, uint32_t cell_b, uint8_t hits[48], uint32_t *count);
uint32_t plain_plan_read(const uint8_t *bytes, size_t len, uint32_t *count, uint32_t *size, uint32_t zones[32]);
uint32_t plain_plan_write(uint32_t count, uint32_t size, const uint32_t zones[32], uint8_t *dest, size_t dest_len,
                          uint32_t *written);
uint32_t plain_bursts_check(uint32_t mode, uint32_t size, uint32_t cell, uint32_t slots, uint32_t mask,
                            const uint32_t *bursts, size_t bursts_len);
uint32_t plain_burst_owner(uint32_t mode, uint32_t size, uint32_t cell, uint32_t slots, uint32_t mask, uint32_t slot,
                           uint32_t subchannel, const uint32_t *bursts, size_t bursts_len, uint32_t *owner,
                           uint32_t *looked);
uint32_t plain_burst_owners(uint32_t mode, uint32_t size, uint32_t cell, uint32_t slots, uint32_t mask, uint32_t slot,
                            const uint32_t *bursts, size_t bursts_len, uint8_t owners[192]);

#endif
