// Plain C of the map, of grids and of collisions.
#include "plain.h"
#include "plain_ranges.h"

#include <string.h>

enum { GUARD, DC, PILOT, DATA };

static const uint8_t r_table[120] = {
    6,  108, 37, 81, 31,  100, 42,  116, 32,  107, 30,  93, 54, 78, 10,  75, 50,  111, 58,  106, 23, 105, 16, 117,
    39, 95,  7,  115, 25, 119, 53,  71,  22,  98,  28,  79, 17, 63, 27,  72, 29,  86,  5,   101, 49, 104, 9,  68,
    1,  73,  36, 74, 43,  62,  20,  84,  52,  64,  34,  60, 66, 48, 97,  21, 91,  40,  102, 56,  92, 47,  90, 33,
    114, 18, 70, 15, 110, 51,  118, 46,  83,  45,  76,  57, 99, 35, 67,  55, 85,  59,  113, 11,  82, 38,  88, 19,
    77, 3,   87, 12, 89,  26,  65,  41,  109, 44,  69,  8,  61, 13, 96,  14, 103, 2,   80,  24,  112, 4,  94, 0};
static const uint8_t q_table[70] = {
    6,  48, 58, 57, 50, 1,  13, 26, 46, 44, 30, 3,  27, 53, 22, 18, 61, 7,  55, 36, 45, 37, 52, 15,
    40, 2,  20, 4,  34, 31, 10, 5,  41, 9,  69, 63, 21, 11, 12, 19, 68, 56, 43, 23, 25, 39, 66, 42,
    16, 47, 51, 8,  62, 14, 33, 24, 32, 17, 54, 29, 67, 49, 65, 35, 38, 59, 64, 28, 60, 0};
static const uint8_t b12_table[12] = {6, 9, 4, 8, 10, 11, 5, 2, 7, 3, 1, 0};
static const uint8_t b8_table[8] = {7, 4, 0, 2, 1, 5, 3, 6};
// The sequence of FUSC.
static const uint8_t b32_table[32] = {3,  18, 2,  8, 16, 10, 11, 15, 26, 22, 6, 9,  27, 20, 25, 1,
                                      29, 7,  21, 5, 28, 31, 23, 17, 4,  24, 0, 13, 12, 19, 14, 30};
// P of document 004, two digits to base 7.
static const uint8_t p_table[48] = {1,  22, 46, 52, 42, 41, 26, 50, 5,  33, 62, 43, 63, 65, 32, 40,
                                    4,  11, 23, 61, 21, 24, 13, 60, 6,  55, 31, 25, 35, 36, 51, 20,
                                    2,  44, 15, 34, 14, 12, 45, 30, 3,  66, 54, 16, 56, 53, 64, 10};
// Of the six major groups of PUSC downlink.
static const uint8_t first_cluster[GROUPS] = {0, 24, 40, 64, 80, 104};

static uint8_t r_inverse[120], q_inverse[70], b12_inverse[12], b8_inverse[8], b32_inverse[32];
static uint8_t p_inverse[49]; // by the number in base 7
static uint8_t p1[33][32], p2[33][32];

static void invert(const uint8_t *table, uint8_t *inverse, uint32_t entries) {
    for (uint32_t i = 0; i < entries; i++) inverse[table[i]] = (uint8_t)i;
}

void plain_tables(void) {
    static const uint32_t moduli[4] = {7, 11, 19, 37};
    invert(r_table, r_inverse, 120);
    invert(q_table, q_inverse, 70);
    invert(b12_table, b12_inverse, 12);
    invert(b8_table, b8_inverse, 8);
    invert(b32_table, b32_inverse, 32);
    for (uint32_t i = 0; i < 48; i++) p_inverse[7 * (p_table[i] / 10) + p_table[i] % 10] = (uint8_t)i;
    for (uint32_t a = 0; a < 4; a++) {
        uint32_t n = 4u << a, x = 1;
        for (uint32_t i = 0; i < n - 1; i++) {
            p1[n][i] = (uint8_t)x;
            x *= 2;
            if (x >= n) x ^= moduli[a];
        }
        for (uint32_t i = 0; i < n - 1; i++) p2[n][i] = p1[n][2 * i % (n - 1)];
    }
}

// --- carriers --------------------------------------------------------------------------------------------------------

// What a point goes through is inline. The compiler would else call place for each point: with eight modes it is long.

static inline uint32_t left_guards(uint32_t mode, uint32_t size) {
    return mode < OFUSC ? 184 : mode == FUSC ? 173 : 5 * (size / 64);
}

static inline uint32_t used_numbers(uint32_t mode, uint32_t size) {
    return mode < OFUSC ? 1680 : mode == FUSC ? FUSC_USED : 54 * (size / 64);
}

// The column of DC in its symbol's row of a grid. A carrier is its column less that.
static inline int32_t dc_column(uint32_t size) { return (int32_t)(size / 2); }

// The column of a used number: past the left guards, and past DC in the upper half.
static inline uint32_t column_of(uint32_t mode, uint32_t size, uint32_t used) {
    return left_guards(mode, size) + used + (used >= used_numbers(mode, size) / 2);
}

// The major group of a logical cluster.
static inline uint32_t group_of_cluster(uint32_t logical) {
    uint32_t g = 0;
    while (g < GROUPS - 1 && logical >= first_cluster[g + 1]) g++;
    return g;
}

static inline uint32_t logical_cluster(uint32_t cell, uint32_t used) { return r_table[(used / 14 + 13 * cell) % 120]; }

// Whether a mask lights a used number.
static inline bool is_lit_used(uint32_t mode, uint32_t cell, uint32_t mask, uint32_t used) {
    return mode != PUSC_DL || mask >> group_of_cluster(logical_cluster(cell, used)) & 1;
}

static inline bool is_pilot(uint32_t mode, uint32_t symbol, uint32_t used) {
    uint32_t place = used % 14, corner = used % 4;
    if (mode == PUSC_DL) return symbol % 2 == 0 ? place == 4 || place == 8 : place == 0 || place == 12;
    if (mode == PUSC_UL) return symbol % 3 != 1 && (corner == 0 || corner == 3);
    return used % 9 == 3 * (symbol % 3) + 1;
}

// --- placing ---------------------------------------------------------------------------------------------------------

static inline uint32_t used_pusc_dl(uint32_t cell, uint32_t s, uint32_t m, uint32_t *row) {
    uint32_t g = group_of_subchannel(s), count = g % 2 ? 8 : 12, k = m % 24;
    s -= first_subchannel[g];
    uint32_t n = (k + 13 * s) % 24;
    const uint8_t *b = count == 12 ? b12_table : b8_table;
    uint32_t data = count * n + (b[(n + s) % count] + cell) % count;
    uint32_t logical = first_cluster[g] + data / 12, place = data % 12;
    uint32_t physical = (r_inverse[logical] + 120 * 4 - 13 * cell) % 120;
    *row = m / 24;
    if (*row == 0) {
        if (place >= 4) place++;
        if (place >= 8) place++;
    } else {
        place++;
        if (place >= 12) place++;
    }
    return 14 * physical + place;
}

static inline uint32_t used_pusc_ul(uint32_t cell, uint32_t s, uint32_t m, uint32_t *row) {
    uint32_t q = (m + 13 * s) % 48, t, c;
    if (q < 12) {
        *row = 0, t = q / 2, c = 1 + q % 2;
    } else if (q < 36) {
        *row = 1, t = (q - 12) / 4, c = (q - 12) % 4;
    } else {
        *row = 2, t = (q - 36) / 2, c = 1 + (q - 36) % 2;
    }
    return 4 * (70 * t + (q_table[(s + t) % 70] + cell) % 70) + c;
}

// Optional FUSC: what a cell adds to the subchannel's number in a group, in the field.
static inline uint32_t mask_ofusc(uint32_t n, uint32_t cell, uint32_t group) {
    uint32_t k = group % (n - 1), c1 = cell % n, c2 = cell / n, e = 0;
    if (c1) e ^= p1[n][(k + c1) % (n - 1)];
    if (c2) e ^= p2[n][(k + c2) % (n - 1)];
    return e;
}

// The used number of a data number of a symbol, eight to a bin.
static inline uint32_t used_of_data(uint32_t symbol, uint32_t data) {
    uint32_t place = data % 8;
    if (place >= 3 * (symbol % 3) + 1) place++;
    return 9 * (data / 8) + place;
}

static inline uint32_t used_ofusc(uint32_t n, uint32_t cell, uint32_t slot, uint32_t s, uint32_t m, uint32_t *row) {
    uint32_t group = (m + 23 * s) % 48;
    *row = 0;
    return used_of_data(slot, n * group + (s ^ mask_ofusc(n, cell, group)));
}

// AMC: the place of an index in its subchannel.
static inline uint32_t place_amc(uint32_t cell, uint32_t m) {
    uint32_t per = cell % 48, off = cell / 48, x = p_table[(m + per) % 48];
    uint32_t e = 7 * ((x / 10 + off / 7) % 7) + (x % 10 + off % 7) % 7;
    return (e == 0 ? off : e) - 1;
}

// The places of a subchannel run over its bins, eight each, and then over the rows. Each shape has a line of its own,
// where every divisor is a constant.
static inline uint32_t used_amc(uint32_t mode, uint32_t cell, uint32_t slot, uint32_t s, uint32_t m, uint32_t *row) {
    uint32_t v = place_amc(cell, m);
    uint32_t symbol, data;
    if (mode == AMC)
        *row = 0, symbol = slot, data = 48 * s + v;
    else if (mode == AMC_2X3)
        *row = v / 16, symbol = 3 * slot + *row, data = 16 * s + v % 16;
    else if (mode == AMC_3X2)
        *row = v / 24, symbol = 2 * slot + *row, data = 24 * s + v % 24;
    else
        *row = v / 8, symbol = 6 * slot + *row, data = 8 * s + v % 8;
    return used_of_data(symbol, data);
}

// The used number of a data number of FUSC: the i-th pilot has pilots[i] - i data numbers before it.
static inline uint32_t past_pilots(const uint32_t *pilots, uint32_t data) {
    uint32_t used = data;
    for (uint32_t i = 0; i < PILOTS; i++) used += pilots[i] - i <= data;
    return used;
}

static inline uint32_t used_fusc(uint32_t cell, uint32_t s, uint32_t m, const uint32_t *pilots, uint32_t *row) {
    uint32_t n = (m + 13 * s) % 48;
    *row = 0;
    return past_pilots(pilots, 32 * n + (b32_table[(n + s) % 32] + cell) % 32);
}

// The column of a point, and its row by pointer.
static inline uint32_t place(uint32_t mode, uint32_t size, uint32_t cell, uint32_t slot, uint32_t s, uint32_t m,
                             const uint32_t *pilots, uint32_t *row) {
    if (mode == PUSC_DL) return column_of(mode, size, used_pusc_dl(cell, s, m, row));
    if (mode == PUSC_UL) return column_of(mode, size, used_pusc_ul(cell, s, m, row));
    if (mode == OFUSC) return column_of(mode, size, used_ofusc(size / 64, cell, slot, s, m, row));
    if (mode == FUSC) return column_of(mode, size, used_fusc(cell, s, m, pilots, row));
    return column_of(mode, size, used_amc(mode, cell, slot, s, m, row));
}

// The place of a point in its slot's grid, which is counted in points.
static inline uint32_t grid_place(uint32_t mode, uint32_t size, uint32_t cell, uint32_t slot, uint32_t s, uint32_t m,
                                  const uint32_t *pilots) {
    uint32_t row, column = place(mode, size, cell, slot, s, m, pilots, &row);
    return row * size + column;
}

// The first of questions 1, 2, 3, 4 and 5 that is answered no, or 0.
static uint32_t subchannel_refusal(uint32_t mode, uint32_t size, uint32_t cell, uint32_t slot, uint32_t subchannel) {
    uint32_t refusal = setup_refusal(mode, size, cell);
    if (refusal) return refusal;
    if (slot >= SLOTS) return 4;
    return subchannel < subchannels(mode, size) ? 0 : 5;
}

uint32_t plain_place(uint32_t mode, uint32_t size, uint32_t cell, uint32_t slot, uint32_t subchannel, uint32_t index,
                     const uint32_t *pilots, size_t pilots_len, uint32_t *symbol, int32_t *carrier) {
    uint32_t row, refusal = subchannel_refusal(mode, size, cell, slot, subchannel);
    if (refusal) return refusal;
    if (index >= INDICES) return 6;
    if (!is_pilot_list(mode, pilots, pilots_len)) return 20;
    *carrier = (int32_t)place(mode, size, cell, slot, subchannel, index, pilots, &row) - dc_column(size);
    *symbol = slot * symbols(mode) + row;
    return 0;
}

uint32_t plain_places(uint32_t mode, uint32_t size, uint32_t cell, uint32_t slot, uint32_t subchannel,
                      const uint32_t *pilots, size_t pilots_len, uint32_t places[48]) {
    uint32_t refusal = subchannel_refusal(mode, size, cell, slot, subchannel);
    if (refusal) return refusal;
    if (!is_pilot_list(mode, pilots, pilots_len)) return 20;
    for (uint32_t m = 0; m < INDICES; m++) places[m] = grid_place(mode, size, cell, slot, subchannel, m, pilots);
    return 0;
}

// --- locating --------------------------------------------------------------------------------------------------------

// Each of these gives the subchannel, and the index by pointer, of a used or data number that holds a point.

static inline uint32_t address_pusc_dl(uint32_t cell, uint32_t row, uint32_t used, uint32_t *index) {
    uint32_t place = used % 14, logical = logical_cluster(cell, used), g = group_of_cluster(logical);
    if (row == 0)
        place -= (place > 4) + (place > 8);
    else
        place -= 1 + (place > 12);
    uint32_t count = g % 2 ? 8 : 12, data = 12 * (logical - first_cluster[g]) + place;
    uint32_t n = data / count, x = (data % count + 48 - cell) % count;
    uint32_t s = ((count == 12 ? b12_inverse[x] : b8_inverse[x]) + 24 - n) % count;
    *index = 24 * row + (n + 24 * 7 - 13 * s) % 24;
    return first_subchannel[g] + s;
}

static inline uint32_t address_pusc_ul(uint32_t cell, uint32_t row, uint32_t used, uint32_t *index) {
    uint32_t tile = used / 4, c = used % 4, t = tile / 70;
    uint32_t s = (q_inverse[(tile % 70 + 70 - cell) % 70] + 70 - t) % 70;
    uint32_t q = row == 0 ? 2 * t + c - 1 : row == 1 ? 12 + 4 * t + c : 36 + 2 * t + c - 1;
    *index = (q + 48 * 19 - 13 * s) % 48;
    return s;
}

static inline uint32_t address_ofusc(uint32_t n, uint32_t cell, uint32_t data, uint32_t *index) {
    uint32_t group = data / n, s = data % n ^ mask_ofusc(n, cell, group);
    *index = (group + 48 * 15 - 23 * s) % 48;
    return s;
}

// AMC: the index of a place. E is off where the sum was zero, so that P's entry is the negative of off.
static inline uint32_t index_amc(uint32_t cell, uint32_t v) {
    uint32_t per = cell % 48, off = cell / 48, e = v + 1;
    if (e == off) e = 0;
    uint32_t x = 7 * ((e / 7 + 7 - off / 7) % 7) + (e % 7 + 7 - off % 7) % 7;
    return (p_inverse[x] + 48 - per) % 48;
}

static inline uint32_t address_amc(uint32_t mode, uint32_t cell, uint32_t symbol, uint32_t data, uint32_t *slot,
                                   uint32_t *index) {
    uint32_t s, v;
    if (mode == AMC)
        *slot = symbol, s = data / 48, v = data % 48;
    else if (mode == AMC_2X3)
        *slot = symbol / 3, s = data / 16, v = 16 * (symbol % 3) + data % 16;
    else if (mode == AMC_3X2)
        *slot = symbol / 2, s = data / 24, v = 24 * (symbol % 2) + data % 24;
    else
        *slot = symbol / 6, s = data / 8, v = 8 * (symbol % 6) + data % 8;
    *index = index_amc(cell, v);
    return s;
}

static inline uint32_t address_fusc(uint32_t cell, uint32_t data, uint32_t *index) {
    uint32_t n = data / 32, s = (b32_inverse[(data % 32 + 32 - cell) % 32] + 64 - n) % 32;
    *index = (n + 48 * 9 - 13 * s) % 48;
    return s;
}

static inline uint32_t address(uint32_t mode, uint32_t size, uint32_t cell, uint32_t symbol, uint32_t used,
                               uint32_t *slot, uint32_t *index) {
    if (mode == PUSC_DL) return *slot = symbol / 2, address_pusc_dl(cell, symbol % 2, used, index);
    if (mode == PUSC_UL) return *slot = symbol / 3, address_pusc_ul(cell, symbol % 3, used, index);
    uint32_t place = used % 9, data = 8 * (used / 9) + place - (place > 3 * (symbol % 3) + 1);
    if (mode == OFUSC) return *slot = symbol, address_ofusc(size / 64, cell, data, index);
    return address_amc(mode, cell, symbol, data, slot, index);
}

// A used number of FUSC: one pass over the list tells whether it is a pilot and how many are before it.
static inline void locate_fusc(uint32_t cell, uint32_t symbol, uint32_t used, const uint32_t *pilots, uint32_t *kind,
                               uint32_t *slot, uint32_t *subchannel, uint32_t *index) {
    uint32_t before = 0, is_listed = 0;
    for (uint32_t i = 0; i < PILOTS; i++) {
        before += pilots[i] < used;
        is_listed |= pilots[i] == used;
    }
    *kind = is_listed ? PILOT : DATA;
    if (!is_listed) *slot = symbol, *subchannel = address_fusc(cell, used - before, index);
}

uint32_t plain_locate(uint32_t mode, uint32_t size, uint32_t cell, uint32_t symbol, int32_t carrier,
                      const uint32_t *pilots, size_t pilots_len, uint32_t *kind, uint32_t *slot, uint32_t *subchannel,
                      uint32_t *index) {
    uint32_t refusal = setup_refusal(mode, size, cell);
    if (refusal) return refusal;
    if (symbol >= SLOTS * symbols(mode)) return 4;
    if (carrier < -dc_column(size) || carrier >= dc_column(size)) return 7;
    if (!is_pilot_list(mode, pilots, pilots_len)) return 20;
    uint32_t column = (uint32_t)(dc_column(size) + carrier);
    uint32_t left = left_guards(mode, size), used = column - left - (carrier > 0);
    if (column < left || column > left + used_numbers(mode, size)) {
        *kind = GUARD;
    } else if (carrier == 0) {
        *kind = DC;
    } else if (mode == FUSC) {
        locate_fusc(cell, symbol, used, pilots, kind, slot, subchannel, index);
    } else if (is_pilot(mode, symbol, used)) {
        *kind = PILOT;
    } else {
        *kind = DATA;
        *subchannel = address(mode, size, cell, symbol, used, slot, index);
    }
    return 0;
}

// --- grids -----------------------------------------------------------------------------------------------------------

static size_t grid_floats(uint32_t mode, uint32_t size) { return 2 * (size_t)size * symbols(mode); }

// Questions 1, 2, 3, 17 and 4 of a call that has a slot.
static uint32_t slot_refusal(uint32_t mode, uint32_t size, uint32_t cell, uint32_t mask, uint32_t slot) {
    uint32_t refusal = setup_refusal(mode, size, cell);
    if (refusal) return refusal;
    if (!is_mask(mode, mask)) return 17;
    return slot < SLOTS ? 0 : 4;
}

// Questions 20, 8 and 9, about the points of the whole slot.
static uint32_t buffers_refusal(uint32_t mode, uint32_t size, uint32_t mask, const uint32_t *pilots, size_t pilots_len,
                                size_t points_len, size_t grid_len) {
    if (!is_pilot_list(mode, pilots, pilots_len)) return 20;
    if (points_len != 2 * INDICES * (size_t)lit_subchannels(mode, size, mask)) return 8;
    return grid_len == grid_floats(mode, size) ? 0 : 9;
}

static void copy_point(float *to, const float *from) { memcpy(to, from, 2 * sizeof(float)); }

void plain_put(const uint32_t *places, size_t count, const float *points, float *grid) {
    for (size_t i = 0; i < count; i++) copy_point(grid + 2 * (size_t)places[i], points + 2 * i);
}

void plain_take(const uint32_t *places, size_t count, const float *grid, float *points) {
    for (size_t i = 0; i < count; i++) copy_point(points + 2 * i, grid + 2 * (size_t)places[i]);
}

static inline void put_ground(uint32_t mode, uint32_t size, uint32_t cell, uint32_t mask, uint32_t slot,
                              const uint32_t *pilots, const float pilot[2], float *grid) {
    memset(grid, 0, sizeof(float) * grid_floats(mode, size));
    if (mode == FUSC) {
        for (uint32_t i = 0; i < PILOTS; i++) copy_point(grid + 2 * column_of(mode, size, pilots[i]), pilot);
        return;
    }
    for (uint32_t row = 0; row < symbols(mode); row++)
        for (uint32_t used = 0; used < used_numbers(mode, size); used++)
            if (is_pilot(mode, slot * symbols(mode) + row, used) && is_lit_used(mode, cell, mask, used))
                copy_point(grid + 2 * (row * size + column_of(mode, size, used)), pilot);
}

static inline void put_points(uint32_t mode, uint32_t size, uint32_t cell, uint32_t slot, uint32_t subchannel,
                              const uint32_t *pilots, const float *points, float *grid) {
    for (uint32_t m = 0; m < INDICES; m++)
        copy_point(grid + 2 * grid_place(mode, size, cell, slot, subchannel, m, pilots), points + 2 * m);
}

uint32_t plain_ground(uint32_t mode, uint32_t size, uint32_t cell, uint32_t mask, uint32_t slot,
                      const uint32_t *pilots, size_t pilots_len, const float pilot[2], float *grid, size_t grid_len) {
    uint32_t refusal = slot_refusal(mode, size, cell, mask, slot);
    if (refusal) return refusal;
    if (!is_pilot_list(mode, pilots, pilots_len)) return 20;
    if (grid_len != grid_floats(mode, size)) return 9;
    put_ground(mode, size, cell, mask, slot, pilots, pilot, grid);
    return 0;
}

uint32_t plain_lay(uint32_t mode, uint32_t size, uint32_t cell, uint32_t mask, uint32_t slot, uint32_t subchannel,
                   const uint32_t *pilots, size_t pilots_len, const float *points, size_t points_len, float *grid,
                   size_t grid_len) {
    uint32_t refusal = slot_refusal(mode, size, cell, mask, slot);
    if (refusal) return refusal;
    if (subchannel >= subchannels(mode, size) || !is_lit(mode, mask, subchannel)) return 5;
    if (!is_pilot_list(mode, pilots, pilots_len)) return 20;
    if (points_len != 2 * INDICES) return 8;
    if (grid_len != grid_floats(mode, size)) return 9;
    put_points(mode, size, cell, slot, subchannel, pilots, points, grid);
    return 0;
}

uint32_t plain_fill(uint32_t mode, uint32_t size, uint32_t cell, uint32_t mask, uint32_t slot, const uint32_t *pilots,
                    size_t pilots_len, const float pilot[2], const float *points, size_t points_len, float *grid,
                    size_t grid_len) {
    uint32_t refusal = slot_refusal(mode, size, cell, mask, slot);
    if (!refusal) refusal = buffers_refusal(mode, size, mask, pilots, pilots_len, points_len, grid_len);
    if (refusal) return refusal;
    put_ground(mode, size, cell, mask, slot, pilots, pilot, grid);
    for (uint32_t s = 0; s < subchannels(mode, size); s++) {
        if (!is_lit(mode, mask, s)) continue;
        put_points(mode, size, cell, slot, s, pilots, points, grid);
        points += 2 * INDICES;
    }
    return 0;
}

uint32_t plain_empty(uint32_t mode, uint32_t size, uint32_t cell, uint32_t mask, uint32_t slot, const uint32_t *pilots,
                     size_t pilots_len, const float *grid, size_t grid_len, float *points, size_t points_len) {
    uint32_t refusal = slot_refusal(mode, size, cell, mask, slot);
    if (!refusal) refusal = buffers_refusal(mode, size, mask, pilots, pilots_len, points_len, grid_len);
    if (refusal) return refusal;
    for (uint32_t s = 0; s < subchannels(mode, size); s++) {
        if (!is_lit(mode, mask, s)) continue;
        for (uint32_t m = 0; m < INDICES; m++)
            copy_point(points + 2 * m, grid + 2 * grid_place(mode, size, cell, slot, s, m, pilots));
        points += 2 * INDICES;
    }
    return 0;
}

uint32_t plain_empty_first(uint32_t mode, uint32_t size, uint32_t cell, uint32_t mask, uint32_t slot, uint32_t carriers,
                           const uint32_t *pilots, size_t pilots_len, const float *grid, size_t grid_len, float *points,
                           size_t points_len) {
    uint32_t refusal = slot_refusal(mode, size, cell, mask, slot);
    if (!refusal) refusal = buffers_refusal(mode, size, mask, pilots, pilots_len, points_len, grid_len);
    if (refusal) return refusal;
    for (uint32_t s = 0; s < subchannels(mode, size); s++) {
        if (!is_lit(mode, mask, s)) continue;
        for (uint32_t m = 0; m < INDICES; m++) {
            uint32_t at = grid_place(mode, size, cell, slot, s, m, pilots);
            if (at < carriers) copy_point(points + 2 * m, grid + 2 * at);
        }
        points += 2 * INDICES;
    }
    return 0;
}

uint32_t plain_look(uint32_t mode, uint32_t size, uint32_t cell, uint32_t mask, uint32_t symbol, const uint32_t *pilots,
                    size_t pilots_len, const float *grid, size_t grid_len, int32_t carrier, uint32_t *kind,
                    float point[2], uint32_t *slot, uint32_t *subchannel, uint32_t *index) {
    uint32_t what, at_slot, at_subchannel, at_index, refusal = setup_refusal(mode, size, cell);
    if (refusal) return refusal;
    if (!is_mask(mode, mask)) return 17;
    refusal = plain_locate(mode, size, cell, symbol, carrier, pilots, pilots_len, &what, &at_slot, &at_subchannel,
                           &at_index);
    if (refusal) return refusal;
    if (grid_len != grid_floats(mode, size)) return 9;
    uint32_t column = (uint32_t)(dc_column(size) + carrier), used = column - left_guards(mode, size) - (carrier > 0);
    if (what == DC || (what != GUARD && !is_lit_used(mode, cell, mask, used))) what = GUARD;
    *kind = what;
    if (what == PILOT || what == DATA) copy_point(point, grid + 2 * (symbol % symbols(mode) * size + column));
    if (what == DATA) *slot = at_slot, *subchannel = at_subchannel, *index = at_index;
    return 0;
}

// --- collisions ------------------------------------------------------------------------------------------------------

uint32_t plain_ofusc_collisions(uint32_t size, uint32_t cell_a, uint32_t subchannel_a, uint32_t cell_b,
                                uint32_t subchannel_b, uint8_t hits[48], uint32_t *count) {
    uint32_t n = size / 64, found = 0;
    if (!is_bin_size(size)) return 2;
    if (cell_a >= n * n || cell_b >= n * n) return 3;
    if (subchannel_a >= n || subchannel_b >= n) return 5;
    for (uint32_t k = 0; k < 48; k++) {
        hits[k] = (subchannel_a ^ mask_ofusc(n, cell_a, k)) == (subchannel_b ^ mask_ofusc(n, cell_b, k));
        found += hits[k];
    }
    *count = found;
    return 0;
}

uint32_t plain_amc_collisions(uint32_t cell_a, uint32_t cell_b, uint8_t hits[48], uint32_t *count) {
    uint32_t found = 0;
    if (cell_a >= AMC_CELLS || cell_b >= AMC_CELLS) return 3;
    for (uint32_t j = 0; j < INDICES; j++) {
        hits[j] = place_amc(cell_a, j) == place_amc(cell_b, j);
        found += hits[j];
    }
    *count = found;
    return 0;
}
