/* Bellpulsar: the subcarrier map of IEEE 802.16e OFDMA, proved.
 *
 * Link with libbellpulsar.a or the shared libbellpulsar.so.5; nothing else is needed but the C library. The engine keeps no
 * state, so calls may run side by side on different buffers.
 *
 * ANSWERS. Every call but bp_version and those whose names end in _len returns 0, or the number of the first question that is
 * answered no (enum bp_refusal has what each refuses). The questions are put in the order in which a call lists its refusals,
 * each only after a yes to all before it. On a refusal nothing is written: every out parameter and buffer keeps its contents.
 * Buffers that are `const` are never written.
 *
 * POINTERS are aligned for their type, and what is written overlaps nothing else. They are not null and are valid for
 * their stated length whatever the other fields hold, except that a buffer of length 0 may have any pointer.
 *
 * FIELDS. Any number may stand in any field and any length may be given: what is out of range is refused. In range are:
 *
 *   mode               size   cell      mask    subchannel   slot     symbol    points_len   grid_len
 *   0 PUSC downlink    2048   0..31     1..63   0..59        0..511   0..1023         5760       8192
 *   1 PUSC uplink      2048   0..69     0       0..69        0..511   0..1535         6720      12288
 *   2 optional FUSC     256   0..15     0       0..3         0..511   0..511           384        512
 *   2 optional FUSC     512   0..63     0       0..7         0..511   0..511           768       1024
 *   2 optional FUSC    1024   0..255    0       0..15        0..511   0..511          1536       2048
 *   2 optional FUSC    2048   0..1023   0       0..31        0..511   0..511          3072       4096
 *   3 AMC 6x1           256   0..2351   0       0..3         0..511   0..511           384        512
 *   3 AMC 6x1           512   0..2351   0       0..7         0..511   0..511           768       1024
 *   3 AMC 6x1          1024   0..2351   0       0..15        0..511   0..511          1536       2048
 *   3 AMC 6x1          2048   0..2351   0       0..31        0..511   0..511          3072       4096
 *   4 AMC 2x3           256   0..2351   0       0..11        0..511   0..1535         1152       1536
 *   4 AMC 2x3           512   0..2351   0       0..23        0..511   0..1535         2304       3072
 *   4 AMC 2x3          1024   0..2351   0       0..47        0..511   0..1535         4608       6144
 *   4 AMC 2x3          2048   0..2351   0       0..95        0..511   0..1535         9216      12288
 *   5 AMC 3x2           256   0..2351   0       0..7         0..511   0..1023          768       1024
 *   5 AMC 3x2           512   0..2351   0       0..15        0..511   0..1023         1536       2048
 *   5 AMC 3x2          1024   0..2351   0       0..31        0..511   0..1023         3072       4096
 *   5 AMC 3x2          2048   0..2351   0       0..63        0..511   0..1023         6144       8192
 *   6 AMC 1x6           256   0..2351   0       0..23        0..511   0..3071         2304       3072
 *   6 AMC 1x6           512   0..2351   0       0..47        0..511   0..3071         4608       6144
 *   6 AMC 1x6          1024   0..2351   0       0..95        0..511   0..3071         9216      12288
 *   6 AMC 1x6          2048   0..2351   0       0..191       0..511   0..3071        18432      24576
 *   7 FUSC             2048   0..31     0       0..31        0..511   0..511          3072       4096
 *
 *   index: 0..47, the points of one subchannel in one slot. carrier: -size/2..size/2-1, by rising frequency, DC at 0.
 *   mask: the major groups of PUSC downlink that are lit, bit g for group g; BP_ALL_GROUPS lights all six. Their subchannels
 *   are 0..11, 12..19, 20..31, 32..39, 40..51 and 52..59, group after group. In every other mode all is lit and the mask is 0.
 *   points_len: all points of a slot where all is lit, for bp_empty and bp_empty_first; bp_lit_points_len has it for any mask.
 *   bp_lay has the points of one subchannel, and its points_len is 96 in every mode.
 *   carriers, of bp_empty_first: any number. It is a count and has no range, so no question is put about it.
 *
 * size is the FFT size, cell the permutation base. symbol is the symbol's number in the zone: the slot times the slot's
 * length (2 symbols in mode 0, 3 in mode 1, 1 in modes 2 and 7; 1, 3, 2 and 6 in modes 3 to 6) plus the offset in the slot.
 * AMC has four slot shapes, a mode for each, named bins x symbols: a subchannel is 6, 2, 3 or 1 bins in a row (modes 3
 * to 6), in every symbol of the slot. A bin is nine carriers in a row, of which one is a pilot.
 * In PUSC downlink a cluster, 14 carriers in a row, is of one major group with its data and its pilots; which one goes by the
 * cell. bp_place and bp_locate have no mask: where points belong is the same whatever is lit.
 *
 * THE PILOT LIST. In FUSC, mode 7, the caller says where the pilots are: pilots has the used numbers of the 166 pilots of the
 * slot's one symbol, each larger than the one before, and data takes what is left. Used numbers are 0..1701, the carriers that
 * are neither guard nor DC, by rising frequency: used number u is carrier u - 851 below 851, and u - 850 from there on. So the
 * used carriers are -851..-1 and 1..851. The list belongs to its one symbol, and may be another one for each slot: a
 * grid is emptied and looked at with the list that it was filled with.
 * In mode 7 pilots_len is 166. In every other mode, where the pilots are the mode's own, it is 0, with any pointer. Any
 * numbers may stand in a list, and it may have any length: what is not as here is refused (20), in its turn among a call's
 * refusals. No call writes to a list, and it may overlap what is only read.
 *
 * POINTS AND GRIDS. A point is two floats, in-phase first; its bits are copied as they are, those of a NaN too. Lengths
 * count floats and are exact: a longer buffer is refused as a shorter one is.
 * The points of a slot are those of its lit subchannels, by rising subchannel, then index: point `index` is at
 * 2 * (48 * rank + index), rank being how many lit subchannels come before its own. So the points of one subchannel are the 96
 * floats from 96 * rank on; where all is lit, the rank is the subchannel itself.
 * The grid of a slot stands symbol after symbol, each by rising carrier: the point on `carrier` in the symbol with this
 * offset in the slot is at 2 * (offset * size + size / 2 + carrier).
 * Complex numbers fit: an array of `float complex` (C) or `std::complex<float>` (C++) is such a buffer, cast to float *, with
 * two floats for each of its elements, the real part first. Before an inverse FFT that takes DC first, the two halves of a
 * symbol's row change places, since the point of DC is the row's point size / 2: carrier k is bin k mod size of an FFT.
 */
#ifndef BELLPULSAR_H
#define BELLPULSAR_H

#include <stddef.h>
#include <stdint.h>

#ifdef __cplusplus
extern "C" {
#endif

/* The version, as three numbers; BP_VERSION, the first, is that of the interface. It goes up where a call changes for its
 * callers, and is in the shared library's soname, libbellpulsar.so.5. The second goes up where calls are added: a program that
 * calls one of these needs a library that has it, and all others run with any of the same BP_VERSION. The third goes up where
 * neither does. docs/CHANGES.md has the history. A caller can hold itself to it:
 *
 *     #if BP_VERSION != 5
 *     #error "this program is written for version 5 of bellpulsar.h"
 *     #endif
 *
 * Version 5 has FUSC, mode 7, and for it the pilot list, as pilots and pilots_len behind the fields of bp_place, bp_locate,
 * bp_places, bp_ground, bp_lay, bp_empty, bp_empty_first and bp_look. A caller in another mode gives NULL and 0. Plans and
 * bursts take mode 7 too; their calls are called as before.
 * Version 4 has the mask: after the cell in bp_ground, bp_lay, bp_empty and bp_look, and as the fourth number of a plan's place,
 * so that bp_zone_plan_read and bp_zone_plan_write with zones[32] are in place of bp_plan_read and bp_plan_write with zones[24].
 * 4.1 added bp_empty_first, 4.2 bp_bursts_check, bp_burst_owner and bp_burst_owners, 4.3 bp_places and bp_version.
 * Since version 3 a slot is filled in two moves, bp_ground and bp_lay, and there is no bp_fill. Since version 2 carriers are
 * signed and count from DC; before that they were 0..size-1. */
#define BP_VERSION 5
#define BP_VERSION_MINOR 0
#define BP_VERSION_PATCH 0

/* The three as one number, 50000 for 5.0.0, and as text. */
#define BP_VERSION_NUMBER (BP_VERSION * 10000 + BP_VERSION_MINOR * 100 + BP_VERSION_PATCH)
#define BP_VERSION_STRING BP_TEXT_OF(BP_VERSION) "." BP_TEXT_OF(BP_VERSION_MINOR) "." BP_TEXT_OF(BP_VERSION_PATCH)
#define BP_TEXT_OF(number) BP_TEXT(number)
#define BP_TEXT(number) #number

/* The mask of mode 0 that lights every major group. */
#define BP_ALL_GROUPS 63

/* In place of a burst's position: no burst is there. No list has more than 64 bursts, so their positions are 0..63. */
#define BP_NO_BURST 64

/* Numbers by name: modes, kinds and refusals, which are uint32_t wherever a call takes or gives one. */
enum bp_mode {
    BP_PUSC_DL = 0, /* PUSC downlink */
    BP_PUSC_UL = 1, /* PUSC uplink */
    BP_OFUSC = 2,   /* optional FUSC */
    BP_AMC = 3,     /* AMC 6x1, the default of the four shapes */
    BP_AMC_2X3 = 4, /* AMC 2x3 */
    BP_AMC_3X2 = 5, /* AMC 3x2 */
    BP_AMC_1X6 = 6, /* AMC 1x6 */
    BP_FUSC = 7     /* FUSC, whose pilots are a list of the caller's */
};

/* What a carrier holds. bp_look tells guard, DC and what is unlit alike, as BP_NOTHING. */
enum bp_kind {
    BP_GUARD = 0,
    BP_DC = 1,
    BP_PILOT = 2,
    BP_DATA = 3,
    BP_NOTHING = 0
};

enum bp_refusal {
    BP_ACCEPTED = 0,
    BP_REFUSED_MODE = 1,        /* the mode is none of 0 to 7 (in a zone plan and of bursts: none of 0 and 2 to 7) */
    BP_REFUSED_SIZE = 2,        /* the size is not one of that mode's (of a plan: none of 256, 512, 1024, 2048) */
    BP_REFUSED_CELL = 3,        /* the cell is out of range */
    BP_REFUSED_SLOT = 4,        /* the slot, or the zone's symbol, is out of range */
    BP_REFUSED_SUBCHANNEL = 5,  /* the subchannel is out of range, or (bp_lay) unlit */
    BP_REFUSED_INDEX = 6,       /* the index is not below 48 */
    BP_REFUSED_CARRIER = 7,     /* the carrier is not from -size/2 to size/2 - 1 */
    BP_REFUSED_POINTS_LEN = 8,  /* points_len is not that of the mode, size and mask (bp_lay: not 96) */
    BP_REFUSED_GRID_LEN = 9,    /* grid_len is not that of the mode and size */
    BP_REFUSED_CUT_SHORT = 10,  /* a plan's bytes end within a value, before its third group */
    BP_REFUSED_FORM = 11,       /* a value goes on after its third group, or is not in its shortest form */
    BP_REFUSED_COUNT = 12,      /* a plan's count of zones is not 1 to 8, or (writing) a place past it is not all zero */
    BP_REFUSED_ZONE_SLOTS = 13, /* a zone's slots are not 1 to 512 */
    BP_REFUSED_ORDER = 14,      /* at size 2048 the first zone is not mode 0; another mode follows AMC (modes 3 to 6) */
    BP_REFUSED_LEFT_OVER = 15,  /* bytes are left over behind a plan */
    BP_REFUSED_DEST_LEN = 16,   /* the destination is too short for the plan */
    BP_REFUSED_MASK = 17,       /* the mask is not 1 to 63 in mode 0, or not 0 in another mode */
    BP_REFUSED_BURST = 18,      /* more than 64 bursts, not four numbers each, or one is empty or not wholly in its zone */
    BP_REFUSED_OVERLAP = 19,    /* a burst overlaps an earlier one */
    BP_REFUSED_PILOTS = 20      /* the pilot list is not 166 rising used numbers in mode 7, or not empty in another mode */
};

/* The version of the library: BP_VERSION_NUMBER of the header that it was built with. */
uint32_t bp_version(void);

/* Where point `index` of a subchannel lies in a slot.
 *
 * Written where it is accepted: *symbol, the zone's symbol (in the slot asked for), and *carrier.
 * Refusals, in this order: 1 mode, 2 size, 3 cell, 4 slot, 5 subchannel, 6 index, 20 pilots. */
uint32_t bp_place(uint32_t mode, uint32_t size, uint32_t cell, uint32_t slot, uint32_t subchannel, uint32_t index,
                  const uint32_t *pilots, size_t pilots_len, uint32_t *symbol, int32_t *carrier);

/* What a carrier holds in a symbol of the zone: the reverse of bp_place.
 *
 * Written where it is accepted: *kind (enum bp_kind), 0 guard, 1 DC, 2 pilot, 3 data; and where that is 3 (else they keep
 * their contents) *slot, *subchannel and *index, whose point bp_place puts there.
 * Refusals, in this order: 1 mode, 2 size, 3 cell, 4 symbol, 7 carrier, 20 pilots. */
uint32_t bp_locate(uint32_t mode, uint32_t size, uint32_t cell, uint32_t symbol, int32_t carrier,
                   const uint32_t *pilots, size_t pilots_len,
                   uint32_t *kind, uint32_t *slot, uint32_t *subchannel, uint32_t *index);

/* Where the 48 points of a subchannel stand in a slot's grid, for a caller who keeps the table and copies through it.
 *
 * Written where it is accepted: all of places, places[index] being offset * size + size / 2 + carrier for the symbol's offset in
 * the slot and the carrier where bp_place puts the point; so its floats are at 2 * places[index] of the grid and the one after.
 * A table serves every slot of its cell whose pilots are on the same carriers: all slots in modes 0, 1, 4 and 6, those that
 * agree mod 3 in modes 2, 3 and 5, those with the same list in mode 7. Another cell has another table.
 * Refusals, in this order: 1 mode, 2 size, 3 cell, 4 slot, 5 subchannel, 20 pilots. */
uint32_t bp_places(uint32_t mode, uint32_t size, uint32_t cell, uint32_t slot, uint32_t subchannel,
                   const uint32_t *pilots, size_t pilots_len, uint32_t places[48]);

/* The floats of a slot's points where all is lit, 96 for each subchannel; 0 for a mode and size that the map does not have. */
size_t bp_points_len(uint32_t mode, uint32_t size);

/* The floats of a slot's points under a mask, 96 for each lit subchannel: the points of bp_empty and bp_empty_first. 0 for a
 * mode and size that the map does not have, and for a mask that is not of that mode. */
size_t bp_lit_points_len(uint32_t mode, uint32_t size, uint32_t mask);

/* The floats of a slot's grid, 2 for each carrier of each symbol of a slot; 0 for a mode and size that the map does not
 * have. */
size_t bp_grid_len(uint32_t mode, uint32_t size);

/* A slot is filled in two moves, with the same mode, size, cell, mask, slot and pilot list: the ground once, then the points of
 * each lit subchannel, in any order, and again where they change. With all points of the slot, of which an unlit subchannel
 * takes none:
 *
 *     if (bp_ground(mode, size, cell, mask, slot, pilots, pilots_len, pilot, grid, grid_len) == BP_ACCEPTED)
 *         for (uint32_t s = 0, laid = 0; laid < bp_lit_points_len(mode, size, mask); s++)
 *             if (bp_lay(mode, size, cell, mask, slot, s, pilots, pilots_len, points + laid, 96, grid, grid_len) == BP_ACCEPTED)
 *                 laid += 96;
 *
 * (Where the ground is accepted, a lay of 96 floats can only meet 5, and then the next subchannel has the points.)
 *
 * The grid then holds the point that was laid last on each lit data carrier, the pilot point on lit pilots, +0.0 on all else.
 * A ground serves every slot whose pilots are on the same carriers: all slots in modes 0, 1, 4 and 6, those that agree mod 3
 * in modes 2, 3 and 5, those with the same list in mode 7. Where all is lit it serves every cell too; else, in mode 0, only
 * the same cell and mask. */

/* Lays the ground of a slot's grid: pilots and zeros.
 *
 * pilot: the point for every lit pilot; it is read on a refusal too. grid: grid_len floats, whatever they hold.
 * Written where it is accepted: the whole grid, the pilot point on lit pilots, +0.0 on every other carrier, data too.
 * Refusals, in this order: 1 mode, 2 size, 3 cell, 17 mask, 4 slot, 20 pilots, 9 grid_len. */
uint32_t bp_ground(uint32_t mode, uint32_t size, uint32_t cell, uint32_t mask, uint32_t slot,
                   const uint32_t *pilots, size_t pilots_len, const float pilot[2], float *grid, size_t grid_len);

/* Lays the points of one lit subchannel on a slot's grid.
 *
 * points: the subchannel's 48 points by index; points_len is 96. grid: grid_len floats, whatever they hold.
 * Written where it is accepted: the 96 floats of the carriers where bp_place puts the subchannel's points. Every other
 * float of the grid keeps its contents.
 * Refusals, in this order: 1 mode, 2 size, 3 cell, 17 mask, 4 slot, 5 subchannel (out of range or unlit), 20 pilots,
 * 8 points_len, 9 grid_len. */
uint32_t bp_lay(uint32_t mode, uint32_t size, uint32_t cell, uint32_t mask, uint32_t slot, uint32_t subchannel,
                const uint32_t *pilots, size_t pilots_len, const float *points, size_t points_len,
                float *grid, size_t grid_len);

/* Takes a slot's points off its grid: the reverse of laying every lit subchannel.
 *
 * grid: grid_len floats; only lit data carriers are read, all others may hold anything.
 * Written where it is accepted: all points_len floats of points, 96 for each lit subchannel, rising.
 * Refusals, in this order: 1 mode, 2 size, 3 cell, 17 mask, 4 slot, 20 pilots, 8 points_len, 9 grid_len. */
uint32_t bp_empty(uint32_t mode, uint32_t size, uint32_t cell, uint32_t mask, uint32_t slot,
                  const uint32_t *pilots, size_t pilots_len,
                  const float *grid, size_t grid_len, float *points, size_t points_len);

/* Takes the points off the first carriers of a slot's grid alone: bp_empty for a grid of which only the start is there yet.
 *
 * A capture delivers a slot's carriers in the order in which the grid stands, symbol after symbol, each by rising carrier. As
 * more of them arrive, call it again on the same grid and points with a larger count: points then holds what the last call
 * alone would have given, and after a count of all carriers what bp_empty gives.
 *
 * carriers: how many have arrived, guards, DC and pilots counted too. 0 writes nothing; any number from symbols a slot * size
 * (grid_len / 2) on is all of them.
 * grid: grid_len floats, the whole slot's; only lit data carriers among the first `carriers` are read, all others may hold
 * anything.
 * Written where it is accepted: the points that stand on these carriers, each where bp_empty puts it. Every other float of
 * points keeps its contents.
 * Refusals, in this order: 1 mode, 2 size, 3 cell, 17 mask, 4 slot, 20 pilots, 8 points_len, 9 grid_len. None is about
 * carriers. */
uint32_t bp_empty_first(uint32_t mode, uint32_t size, uint32_t cell, uint32_t mask, uint32_t slot, uint32_t carriers,
                        const uint32_t *pilots, size_t pilots_len,
                        const float *grid, size_t grid_len, float *points, size_t points_len);

/* The point on a carrier in a symbol of the zone, and whose it is.
 *
 * grid: grid_len floats, the whole grid of the symbol's slot; the point is read from it as it stands.
 * Written where it is accepted: *kind (enum bp_kind), 0 nothing (a guard, DC, or a pilot or data carrier that is unlit,
 * whatever stands there), 2 pilot, 3 data; point[0] and point[1] where that is 2 or 3; *slot, *subchannel and *index where it
 * is 3. What is not written keeps its contents.
 * Refusals, in this order: 1 mode, 2 size, 3 cell, 17 mask, 4 symbol, 7 carrier, 20 pilots, 9 grid_len. */
uint32_t bp_look(uint32_t mode, uint32_t size, uint32_t cell, uint32_t mask, uint32_t symbol,
                 const uint32_t *pilots, size_t pilots_len,
                 const float *grid, size_t grid_len, int32_t carrier, uint32_t *kind, float point[2],
                 uint32_t *slot, uint32_t *subchannel, uint32_t *index);

/* COLLISIONS. There are two calls, over two cells that may be different or the same. That of optional FUSC tells where one
 * subchannel of the first cell and one of the second share a carrier; that of AMC where both cells put the same index of a
 * subchannel on the same carrier of the same symbol. There is none for PUSC and for FUSC. */

/* Optional FUSC: in which groups one subchannel, subchannel_a of cell_a, and one other, subchannel_b of cell_b, share a carrier.
 *
 * Sizes, cells and subchannels are those of mode 2. Group k of a symbol (0..47) is its data numbers N*k to N*k+N-1, N
 * being size / 64; each subchannel has one point there, and every symbol has the same answer. One cell may be given twice.
 * All N subchannels of cell_b together share a carrier with subchannel_a in all 48 groups, whichever the cells are.
 * Written where it is accepted: all of hits, hits[k] being 1 where the two subchannels share a carrier in group k and else 0;
 * and *count, how many are 1.
 * Refusals, in this order: 2 size, 3 cell_a, 3 cell_b, 5 subchannel_a, 5 subchannel_b. */
uint32_t bp_ofusc_collisions(uint32_t size, uint32_t cell_a, uint32_t subchannel_a,
                             uint32_t cell_b, uint32_t subchannel_b, uint8_t hits[48], uint32_t *count);

/* AMC: which indices one subchannel of cell_a and the same subchannel of cell_b have on the same carrier of the same symbol.
 *
 * A subchannel of AMC has the same carriers under every cell: what is counted is where both cells put the same index. The answer
 * is the same in every shape (modes 3 to 6), size, slot and subchannel. Cells are those of AMC, 0..2351. One cell may be given
 * twice.
 * Written where it is accepted: all of hits, hits[j] being 1 where both cells put index j on the same carrier of the same
 * symbol and else 0; and *count, how many are 1.
 * Refusals, in this order: 3 cell_a, 3 cell_b. */
uint32_t bp_amc_collisions(uint32_t cell_a, uint32_t cell_b, uint8_t hits[48], uint32_t *count);

/* Reads a zone plan from its bytes.
 *
 * The bytes are values: the count of zones (1..8), the size (256, 512, 1024, 2048), then mode (0 or 2 to 7), cell, slots
 * (1..512) and mask of each zone. At size 2048 the first zone is mode 0, with any cell of that mode; after AMC (modes 3 to
 * 6) comes only AMC, of any shape. So mode 7, which has size 2048 alone, is never first and never after AMC. A plan has no
 * pilot lists.
 * A value is one to three groups of seven bits, lowest first, with the top bit set where more follow, in its shortest form.
 * len may be any number; no plan has more than 51 bytes.
 * Written where it is accepted: *count, *size, and all of zones: mode, cell, slots and mask of eight places one after the
 * other, the places past the count all zero.
 * Refusals, in this order: 10 and 11 at each value as it is read; 12 directly after the count; 2 directly after the size;
 * after each zone's four values 1 mode, 2 size for that mode, 3 cell, 13 slots, 17 mask, 14 order; at the end 15. */
uint32_t bp_zone_plan_read(const uint8_t *bytes, size_t len, uint32_t *count, uint32_t *size, uint32_t zones[32]);

/* Writes a zone plan as its bytes: the reverse of bp_zone_plan_read.
 *
 * count, size and zones are as bp_zone_plan_read gives them; places past the count must be all zero.
 * Written where it is accepted: the plan's bytes, at most 51, at the start of dest, and *written, how many they are; the
 * bytes of dest behind them keep their contents.
 * Refusals, in this order: 12 count and the places past it; 2 size; for each zone in turn 1 mode, 2 size for that mode,
 * 3 cell, 13 slots, 17 mask, 14 order; at the end 16 dest_len. */
uint32_t bp_zone_plan_write(uint32_t count, uint32_t size, const uint32_t zones[32],
                            uint8_t *dest, size_t dest_len, uint32_t *written);

/* A burst (data region) is a rectangle of subchannels by slots in one zone. A list of bursts is four numbers each, one burst
 * after the other: first subchannel, how many, first slot, how many; bursts_len counts these numbers, so it is four times the
 * bursts. The zone is that of a plan, wherever it stands there: mode (0 or 2 to 7), size, cell, slots (1..512, how many it has)
 * and mask. Its slots count from 0, and so do a list's positions. Subchannels that are unlit count like those that are lit.
 *
 * Each of the three calls puts the same questions to a list, after those to the zone and to its own fields: 18 bursts_len is a
 * multiple of four and at most 256; then for each burst in the list's order 18, neither count is 0 and it lies wholly in the
 * zone, and 19, it overlaps none before it. Any number may stand in a burst: no sum of two wraps. A list of length 0 is
 * accepted. In a list that is accepted, a subchannel in a slot is of one burst at most, its owner. */

/* Is a list of bursts fit for its zone?
 *
 * Refusals, in this order: 1 mode, 2 size, 3 cell, 13 slots, 17 mask, 18 bursts_len; for each burst in turn 18 empty or not
 * wholly in the zone, 19 overlap. */
uint32_t bp_bursts_check(uint32_t mode, uint32_t size, uint32_t cell, uint32_t slots, uint32_t mask,
                         const uint32_t *bursts, size_t bursts_len);

/* The burst that a subchannel in a slot belongs to.
 *
 * slot: 0..511, also past the zone's last, where no burst is.
 * Written where it is accepted: *owner, the burst's position in the list, or BP_NO_BURST (64); and *looked, how many bursts
 * were looked at to find it: its position plus 1, or all of the list where there is none, so never more than 64.
 * Refusals, in this order: 1 mode, 2 size, 3 cell, 13 slots, 17 mask, 4 slot, 5 subchannel, then 18 and 19 as
 * bp_bursts_check. */
uint32_t bp_burst_owner(uint32_t mode, uint32_t size, uint32_t cell, uint32_t slots, uint32_t mask,
                        uint32_t slot, uint32_t subchannel, const uint32_t *bursts, size_t bursts_len,
                        uint32_t *owner, uint32_t *looked);

/* The bursts that all subchannels of one slot belong to.
 *
 * slot: as in bp_burst_owner.
 * Written where it is accepted: all of owners, owners[s] being what bp_burst_owner gives for subchannel s, and BP_NO_BURST
 * (64) past the mode's last subchannel.
 * Refusals, in this order: 1 mode, 2 size, 3 cell, 13 slots, 17 mask, 4 slot, then 18 and 19 as bp_bursts_check. */
uint32_t bp_burst_owners(uint32_t mode, uint32_t size, uint32_t cell, uint32_t slots, uint32_t mask,
                         uint32_t slot, const uint32_t *bursts, size_t bursts_len, uint8_t owners[192]);

#ifdef __cplusplus
}
#endif

#endif
