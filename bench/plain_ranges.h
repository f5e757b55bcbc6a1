// The ranges of documents 01 and 02, what a mask lights, their first three questions, that of the mask and those of a
// zone, for the map, for plans and for bursts.
#ifndef PLAIN_RANGES_H
#define PLAIN_RANGES_H

#include <stdbool.h>
#include <stddef.h>
#include <stdint.h>

enum { PUSC_DL, PUSC_UL, OFUSC, AMC, AMC_2X3, AMC_3X2, AMC_1X6, FUSC, MODES };
enum { SLOTS = 512, INDICES = 48, AMC_CELLS = 2352 };
enum { GROUPS = 6, FULL_MASK = 63 }; // of PUSC downlink; the other modes have mask 0
enum { PILOTS = 166, FUSC_USED = 1702 }; // of FUSC: the entries of its pilot list, and its used numbers
static const uint8_t first_subchannel[GROUPS] = {0, 12, 20, 32, 40, 52};

static inline bool is_bin_size(uint32_t size) { return size == 256 || size == 512 || size == 1024 || size == 2048; }
static inline bool is_amc(uint32_t mode) { return mode >= AMC && mode <= AMC_1X6; }
static inline bool has_bins(uint32_t mode) { return mode == OFUSC || is_amc(mode); }

static inline uint32_t cells(uint32_t mode, uint32_t size) {
    uint32_t n = size / 64;
    return mode == PUSC_DL || mode == FUSC ? 32 : mode == PUSC_UL ? 70 : mode == OFUSC ? n * n : AMC_CELLS;
}

// Symbols a slot.
static inline uint32_t symbols(uint32_t mode) {
    return mode == PUSC_DL || mode == AMC_3X2 ? 2 : mode == PUSC_UL || mode == AMC_2X3 ? 3 : mode == AMC_1X6 ? 6 : 1;
}

// A subchannel of AMC is six bins in all, so that there are N for each symbol. FUSC has 32, which is N at its size.
static inline uint32_t subchannels(uint32_t mode, uint32_t size) {
    return mode == PUSC_DL ? 60 : mode == PUSC_UL ? 70 : size / 64 * symbols(mode);
}

// How many subchannels a mask lights: 12 in each even major group, 8 in each odd one.
static inline uint32_t lit_subchannels(uint32_t mode, uint32_t size, uint32_t mask) {
    uint32_t count = 0;
    if (mode != PUSC_DL) return subchannels(mode, size);
    for (uint32_t g = 0; g < GROUPS; g++)
        if (mask >> g & 1) count += g % 2 ? 8 : 12;
    return count;
}

// The major group of a subchannel of PUSC downlink.
static inline uint32_t group_of_subchannel(uint32_t s) {
    uint32_t g = 0;
    while (g < GROUPS - 1 && s >= first_subchannel[g + 1]) g++;
    return g;
}

static inline bool is_lit(uint32_t mode, uint32_t mask, uint32_t s) {
    return mode != PUSC_DL || mask >> group_of_subchannel(s) & 1;
}

// Question 17.
static inline bool is_mask(uint32_t mode, uint32_t mask) {
    return mode == PUSC_DL ? mask >= 1 && mask <= FULL_MASK : mask == 0;
}

// Question 20: a list that rises has none beyond its last.
static inline bool is_pilot_list(uint32_t mode, const uint32_t *pilots, size_t len) {
    uint32_t falls = 0;
    if (mode != FUSC) return len == 0;
    if (len != PILOTS) return false;
    for (uint32_t i = 1; i < PILOTS; i++) falls |= pilots[i - 1] >= pilots[i];
    return !falls && pilots[PILOTS - 1] < FUSC_USED;
}

// The first of questions 1, 2 and 3 that is answered no, or 0.
static inline uint32_t setup_refusal(uint32_t mode, uint32_t size, uint32_t cell) {
    if (mode >= MODES) return 1;
    if (has_bins(mode) ? !is_bin_size(size) : size != 2048) return 2;
    return cell < cells(mode, size) ? 0 : 3;
}

// The first of a zone's questions 1, 2, 3, 13 and 17 that is answered no, or 0.
static inline uint32_t zone_refusal(uint32_t mode, uint32_t size, uint32_t cell, uint32_t slots, uint32_t mask) {
    if (mode == PUSC_UL) return 1;
    uint32_t refusal = setup_refusal(mode, size, cell);
    if (refusal) return refusal;
    if (slots < 1 || slots > SLOTS) return 13;
    return is_mask(mode, mask) ? 0 : 17;
}

#endif
