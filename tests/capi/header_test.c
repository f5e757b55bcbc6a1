/* The header from C and from C++: this file is compiled and run as either. One accepted use of each call, with an
   answer that document 01 knows where it knows one; each refusal by its name. The buffers are each language's own complex
   numbers. Run by header.sh. */
#include "bellpulsar.h"

#include <stdio.h>
#include <string.h>

#if BP_VERSION != 5
#error "written for version 5 of the header"
#endif

#ifdef __cplusplus
#include <complex>
typedef std::complex<float> complex_float;
#else
#include <complex.h>
typedef float complex complex_float;
#endif

static complex_float points[192], back[192], grid[256], sector[960], sector_back[960], sector_grid[4096];
static complex_float fusc_points[1536], fusc_back[1536];

static float *floats(complex_float *numbers) { return (float *)numbers; }

/* The calls that have a row, a carrier, a mask, a pilot list or bursts, by their whole types: a compiler takes no other. */
static uint32_t (*const place)(uint32_t, uint32_t, uint32_t, uint32_t, uint32_t, uint32_t, const uint32_t *, size_t,
                               uint32_t *, int32_t *) = bp_place;
static uint32_t (*const version)(void) = bp_version;
static uint32_t (*const places_of)(uint32_t, uint32_t, uint32_t, uint32_t, uint32_t, const uint32_t *, size_t,
                                   uint32_t *) = bp_places;
static uint32_t (*const locate)(uint32_t, uint32_t, uint32_t, uint32_t, int32_t, const uint32_t *, size_t, uint32_t *,
                                uint32_t *, uint32_t *, uint32_t *) = bp_locate;
static size_t (*const lit_points_len)(uint32_t, uint32_t, uint32_t) = bp_lit_points_len;
static uint32_t (*const ground)(uint32_t, uint32_t, uint32_t, uint32_t, uint32_t, const uint32_t *, size_t, const float *,
                                float *, size_t) = bp_ground;
static uint32_t (*const lay)(uint32_t, uint32_t, uint32_t, uint32_t, uint32_t, uint32_t, const uint32_t *, size_t,
                             const float *, size_t, float *, size_t) = bp_lay;
static uint32_t (*const empty)(uint32_t, uint32_t, uint32_t, uint32_t, uint32_t, const uint32_t *, size_t, const float *,
                               size_t, float *, size_t) = bp_empty;
static uint32_t (*const empty_first)(uint32_t, uint32_t, uint32_t, uint32_t, uint32_t, uint32_t, const uint32_t *, size_t,
                                     const float *, size_t, float *, size_t) = bp_empty_first;
static uint32_t (*const look)(uint32_t, uint32_t, uint32_t, uint32_t, uint32_t, const uint32_t *, size_t, const float *,
                              size_t, int32_t, uint32_t *, float *, uint32_t *, uint32_t *, uint32_t *) = bp_look;
static uint32_t (*const check)(uint32_t, uint32_t, uint32_t, uint32_t, uint32_t, const uint32_t *, size_t) = bp_bursts_check;
static uint32_t (*const owner_of)(uint32_t, uint32_t, uint32_t, uint32_t, uint32_t, uint32_t, uint32_t, const uint32_t *,
                                  size_t, uint32_t *, uint32_t *) = bp_burst_owner;
static uint32_t (*const owners_of)(uint32_t, uint32_t, uint32_t, uint32_t, uint32_t, uint32_t, const uint32_t *, size_t,
                                   uint8_t *) = bp_burst_owners;

static int map_is_right(void)
{
    uint32_t symbol, kind, slot, subchannel, index;
    int32_t carrier;
    if (place(BP_OFUSC, 1024, 17, 0, 0, 0, NULL, 0, &symbol, &carrier) != BP_ACCEPTED || symbol != 0 || carrier != -425 ||
        place(BP_OFUSC, 1024, 0, 1, 3, 5, NULL, 0, &symbol, &carrier) != BP_ACCEPTED || symbol != 1 || carrier != 40)
        return 0;
    if (locate(BP_OFUSC, 1024, 0, symbol, 0, NULL, 0, &kind, &slot, &subchannel, &index) != BP_ACCEPTED || kind != BP_DC ||
        locate(BP_PUSC_DL, 2048, 5, 0, -841, NULL, 0, &kind, &slot, &subchannel, &index) != BP_ACCEPTED || kind != BP_GUARD ||
        locate(BP_PUSC_DL, 2048, 5, 1, -840, NULL, 0, &kind, &slot, &subchannel, &index) != BP_ACCEPTED || kind != BP_PILOT)
        return 0;
    return locate(BP_OFUSC, 1024, 0, symbol, carrier, NULL, 0, &kind, &slot, &subchannel, &index) == BP_ACCEPTED &&
           kind == BP_DATA && slot == 1 && subchannel == 3 && index == 5;
}

/* The library is the header's. */
static int version_is_right(void)
{
    char text[16];
    snprintf(text, sizeof text, "%d.%d.%d", BP_VERSION, BP_VERSION_MINOR, BP_VERSION_PATCH);
    return version() == BP_VERSION_NUMBER && BP_VERSION_NUMBER / 10000 == BP_VERSION &&
           strcmp(text, BP_VERSION_STRING) == 0;
}

/* Carrier -425 at 1024 is the row's 87, since the row starts at -512. In AMC 1x6 at 512, carrier 209 of the slot's fifth symbol
   is 465 in that row. */
static int places_are_right(void)
{
    uint32_t row[48] = {9};
    if (places_of(BP_OFUSC, 1024, 17, 512, 0, NULL, 0, row) != BP_REFUSED_SLOT || row[0] != 9 ||
        places_of(BP_OFUSC, 1024, 17, 511, 16, NULL, 0, row) != BP_REFUSED_SUBCHANNEL || row[0] != 9)
        return 0;
    if (places_of(BP_OFUSC, 1024, 17, 0, 0, NULL, 0, row) != BP_ACCEPTED || row[0] != 87)
        return 0;
    return places_of(BP_AMC_1X6, 512, 0, 1, 47, NULL, 0, row) == BP_ACCEPTED && row[2] == 4 * 512 + 465;
}

/* The slot shapes of AMC by name. In cell 0 index 2 is at traffic place 33: with one bin in each symbol that is place 1 in
   the fifth, with two bins in the third; with three it is place 1 of the second bin in the second symbol. */
static int shapes_are_right(void)
{
    uint32_t symbol;
    int32_t carrier;
    return BP_AMC == 3 && BP_AMC_2X3 == 4 && BP_AMC_3X2 == 5 && BP_AMC_1X6 == 6 &&
           bp_place(BP_AMC, 256, 0, 0, 3, 2, NULL, 0, &symbol, &carrier) == BP_ACCEPTED && symbol == 0 && carrier == 93 &&
           bp_place(BP_AMC_2X3, 256, 0, 0, 5, 2, NULL, 0, &symbol, &carrier) == BP_ACCEPTED && symbol == 2 && carrier == -17 &&
           bp_place(BP_AMC_3X2, 256, 0, 1, 7, 2, NULL, 0, &symbol, &carrier) == BP_ACCEPTED && symbol == 3 && carrier == 93 &&
           bp_place(BP_AMC_1X6, 512, 0, 1, 47, 2, NULL, 0, &symbol, &carrier) == BP_ACCEPTED && symbol == 10 && carrier == 209;
}

/* The ground of a slot of optional FUSC at 256 has the pilot point on its 24 pilots, and nothing but zeros beside them,
   whatever the grid held. */
static int ground_is_right(void)
{
    const float pilot[2] = {-1, 0};
    int pilots = 0, zeros = 0;
    for (int n = 0; n < 512; n++)
        floats(grid)[n] = 7;
    if (ground(BP_OFUSC, 256, 5, 0, 0, NULL, 0, pilot, floats(grid), 512) != BP_ACCEPTED)
        return 0;
    for (int n = 0; n < 512; n += 2) {
        pilots += floats(grid)[n] == -1 && floats(grid)[n + 1] == 0;
        zeros += floats(grid)[n] == 0 && floats(grid)[n + 1] == 0;
    }
    return pilots == 24 && zeros == 256 - 24;
}

/* Every point of the slot goes onto that ground, by subchannel, and comes back; one is looked at, and nothing at DC. */
static int grid_is_right(void)
{
    const size_t points_len = bp_points_len(BP_OFUSC, 256), grid_len = bp_grid_len(BP_OFUSC, 256);
    float point[2];
    uint32_t symbol, kind, slot, subchannel, index;
    int32_t carrier;
    if (points_len != 384 || grid_len != 512 || bp_points_len(BP_PUSC_UL, 2048) != 6720 || bp_grid_len(BP_AMC, 128) != 0)
        return 0;
    if (bp_points_len(BP_AMC_1X6, 2048) != 18432 || bp_grid_len(BP_AMC_1X6, 2048) != 24576)
        return 0;
    for (int n = 0; n < 384; n++)
        floats(points)[n] = (float)n;
    for (uint32_t s = 0; s < 4; s++)
        if (lay(BP_OFUSC, 256, 5, 0, 0, s, NULL, 0, floats(points) + 96 * s, 96, floats(grid), grid_len) != BP_ACCEPTED)
            return 0;
    if (empty(BP_OFUSC, 256, 5, 0, 0, NULL, 0, floats(grid), grid_len, floats(back), points_len) != BP_ACCEPTED)
        return 0;
    for (int n = 0; n < 192; n++)
        if (back[n] != points[n])
            return 0;
    if (look(BP_OFUSC, 256, 5, 0, 0, NULL, 0, floats(grid), grid_len, 0, &kind, point, &slot, &subchannel, &index) !=
            BP_ACCEPTED ||
        kind != BP_NOTHING || bp_place(BP_OFUSC, 256, 5, 0, 1, 2, NULL, 0, &symbol, &carrier) != BP_ACCEPTED)
        return 0;
    return grid[128 + carrier] == points[48 + 2] &&
           look(BP_OFUSC, 256, 5, 0, symbol, NULL, 0, floats(grid), grid_len, carrier, &kind, point, &slot, &subchannel,
                &index) == BP_ACCEPTED &&
           kind == BP_DATA && point[0] == 100 && point[1] == 101 && slot == 0 && subchannel == 1 && index == 2;
}

/* The same grid as it arrives. Below DC are half of its 192 points; the others keep what stood there until all has arrived.
   None is on the first 20 carriers, which are guards, and the next carrier has the first. */
static int arrival_is_right(void)
{
    const uint32_t counts[6] = {0, 20, 21, 128, 65536, UINT32_MAX}, points_there[6] = {0, 0, 1, 96, 192, 192};
    for (int n = 0; n < 384; n++)
        floats(back)[n] = -1;
    for (int c = 0; c < 6; c++) {
        uint32_t there = 0;
        if (empty_first(BP_OFUSC, 256, 5, 0, 0, counts[c], NULL, 0, floats(grid), 512, floats(back), 384) != BP_ACCEPTED)
            return 0;
        for (int n = 0; n < 192; n++)
            if (back[n] == points[n])
                there++;
            else if (floats(back)[2 * n] != -1 || floats(back)[2 * n + 1] != -1)
                return 0;
        if (there != points_there[c])
            return 0;
    }
    return empty_first(BP_OFUSC, 256, 5, 0, 0, 0, NULL, 0, floats(grid), 512, floats(back), 383) == BP_REFUSED_POINTS_LEN &&
           empty_first(BP_OFUSC, 256, 5, 0, 0, 0, NULL, 0, floats(grid), 511, floats(back), 384) == BP_REFUSED_GRID_LEN &&
           empty_first(BP_OFUSC, 256, 5, 1, 512, 0, NULL, 0, floats(grid), 512, floats(back), 384) == BP_REFUSED_MASK;
}

/* FUSC with its pilots on the lowest 166 used carriers, -851 to -686, so that data number d is on carrier d - 685, and one
   higher from DC on. Cell 0, subchannel 31, index 46 is data number 573. The ground has the pilots alone; laid and emptied
   with the list, all points come back. A list is refused where it is one short, where two are equal and where the last is
   past the band; and any in another mode. */
static int lent_pilots_are_right(void)
{
    const uint32_t mode = BP_FUSC, size = 2048, cell = 0, slot = 7;
    const float pilot[2] = {-1, 0};
    uint32_t list[166], of[4] = {9, 9, 9, 9}, symbol, row[48];
    float *all = floats(sector_grid), *own = floats(fusc_points), *again = floats(fusc_back), point[2];
    int32_t carrier, pilots = 0;
    for (uint32_t n = 0; n < 166; n++)
        list[n] = n;
    if (bp_points_len(mode, size) != 3072 || bp_grid_len(mode, size) != 4096 || lit_points_len(mode, size, 0) != 3072 ||
        bp_points_len(mode, 1024) != 0)
        return 0;
    if (place(mode, size, cell, slot, 31, 46, list, 166, &symbol, &carrier) != BP_ACCEPTED || symbol != slot ||
        carrier != -112 || places_of(mode, size, cell, slot, 31, list, 166, row) != BP_ACCEPTED || row[46] != 912)
        return 0;
    if (locate(mode, size, cell, slot, -112, list, 166, &of[0], &of[1], &of[2], &of[3]) != BP_ACCEPTED || of[0] != BP_DATA ||
        of[1] != slot || of[2] != 31 || of[3] != 46 ||
        locate(mode, size, cell, slot, -686, list, 166, &of[0], &of[1], &of[2], &of[3]) != BP_ACCEPTED || of[0] != BP_PILOT ||
        locate(mode, size, cell, slot, 852, list, 166, &of[0], &of[1], &of[2], &of[3]) != BP_ACCEPTED || of[0] != BP_GUARD)
        return 0;

    if (ground(mode, size, cell, 0, slot, list, 166, pilot, all, 4096) != BP_ACCEPTED)
        return 0;
    for (int n = 0; n < 4096; n += 2)
        pilots += all[n] == -1;
    for (int n = 0; n < 3072; n++)
        own[n] = (float)(n + 1);
    for (uint32_t s = 0; s < 32; s++)
        if (lay(mode, size, cell, 0, slot, s, list, 166, own + 96 * s, 96, all, 4096) != BP_ACCEPTED)
            return 0;
    if (look(mode, size, cell, 0, slot, list, 166, all, 4096, -112, &of[0], point, &of[1], &of[2], &of[3]) != BP_ACCEPTED ||
        of[0] != BP_DATA || point[0] != (float)(2 * (31 * 48 + 46) + 1))
        return 0;
    if (empty_first(mode, size, cell, 0, slot, 1024, list, 166, all, 4096, again, 3072) != BP_ACCEPTED ||
        empty(mode, size, cell, 0, slot, list, 166, all, 4096, again, 3072) != BP_ACCEPTED)
        return 0;
    for (int n = 0; n < 1536; n++)
        if (fusc_back[n] != fusc_points[n])
            return 0;

    if (pilots != 166 || place(mode, size, cell, slot, 0, 0, list, 165, &symbol, &carrier) != BP_REFUSED_PILOTS ||
        place(BP_OFUSC, size, cell, slot, 0, 0, list, 166, &symbol, &carrier) != BP_REFUSED_PILOTS)
        return 0;
    list[165] = 164;
    if (empty(mode, size, cell, 0, slot, list, 166, all, 4096, again, 3071) != BP_REFUSED_PILOTS)
        return 0;
    list[165] = 1702;
    return look(mode, size, cell, 0, slot, list, 166, all, 4095, 0, &of[0], point, &of[1], &of[2], &of[3]) ==
           BP_REFUSED_PILOTS;
}

/* A sector that lights groups 1 and 2, subchannels 12 to 31, filled as the header says. Its 40 clusters have four pilots in a
   slot. Subchannels 0 and 59 are unlit, whatever the grid holds where they belong, and the sector's points come back. */
static int sector_is_right(void)
{
    const float pilot[2] = {-1, 0};
    const uint32_t mode = BP_PUSC_DL, size = 2048, cell = 5, mask = 6, slot = 3;
    const size_t grid_len = bp_grid_len(mode, size);
    float *own = floats(sector), *all = floats(sector_grid), point[2] = {7, 7};
    uint32_t of[4], symbol;
    int32_t carrier, pilots = 0;
    if (lit_points_len(mode, size, mask) != 1920 || lit_points_len(mode, size, BP_ALL_GROUPS) != bp_points_len(mode, size) ||
        lit_points_len(mode, size, 64) != 0 || lit_points_len(mode, size, 0) != 0 || lit_points_len(BP_OFUSC, 256, 0) != 384 ||
        lit_points_len(BP_OFUSC, 256, BP_ALL_GROUPS) != 0 || lit_points_len(mode, 1024, mask) != 0)
        return 0;
    for (int n = 0; n < 1920; n++)
        own[n] = (float)(n + 1);

    if (ground(mode, size, cell, mask, slot, NULL, 0, pilot, all, grid_len) != BP_ACCEPTED)
        return 0;
    for (size_t n = 0; n < grid_len; n += 2)
        pilots += all[n] == -1;
    for (uint32_t s = 0, laid = 0; laid < lit_points_len(mode, size, mask); s++)
        if (lay(mode, size, cell, mask, slot, s, NULL, 0, own + laid, 96, all, grid_len) != BP_REFUSED_SUBCHANNEL)
            laid += 96;

    for (uint32_t s = 0; s < 60; s += 59) {
        of[0] = 9;
        if (lay(mode, size, cell, mask, slot, s, NULL, 0, own, 96, all, grid_len) != BP_REFUSED_SUBCHANNEL ||
            place(mode, size, cell, slot, s, 0, NULL, 0, &symbol, &carrier) != BP_ACCEPTED ||
            all[2 * ((symbol % 2) * 2048 + 1024 + carrier)] != 0)
            return 0;
        all[2 * ((symbol % 2) * 2048 + 1024 + carrier)] = 9;
        if (look(mode, size, cell, mask, symbol, NULL, 0, all, grid_len, carrier, &of[0], point, &of[1], &of[2], &of[3]) !=
                BP_ACCEPTED ||
            of[0] != BP_NOTHING || point[0] != 7)
            return 0;
    }
    if (empty(mode, size, cell, mask, slot, NULL, 0, all, grid_len, floats(sector_back), 1920) != BP_ACCEPTED)
        return 0;
    for (int n = 0; n < 960; n++)
        if (sector_back[n] != sector[n])
            return 0;
    return pilots == 160 && place(mode, size, cell, slot, 13, 2, NULL, 0, &symbol, &carrier) == BP_ACCEPTED &&
           look(mode, size, cell, mask, symbol, NULL, 0, all, grid_len, carrier, &of[0], point, &of[1], &of[2], &of[3]) ==
               BP_ACCEPTED &&
           of[0] == BP_DATA && point[0] == 101 && of[1] == slot && of[2] == 13 && of[3] == 2;
}

/* Each refusal of a field, of a length and of a plan, in the order of their numbers. */
static int refusals_are_right(void)
{
    uint32_t u[4], zones[32] = {2, 0, 1, 0};
    int32_t carrier;
    float pilot[2] = {0, 0};
    uint8_t none[1] = {0x80}, form[2] = {0x81, 0}, count[1] = {9}, slots[7] = {1, 0x80, 8, 2, 0, 0, 0};
    uint8_t order[7] = {1, 0x80, 0x10, 2, 0, 1, 0}, over[8] = {1, 0x80, 8, 2, 0, 1, 0, 0};
    const uint32_t twice[8] = {0, 1, 0, 1, 0, 1, 0, 1};
    const uint32_t met[21] = {
        bp_place(BP_AMC, 256, 2351, 511, 3, 47, NULL, 0, &u[0], &carrier),
        bp_place(8, 256, 0, 0, 0, 0, NULL, 0, &u[0], &carrier),
        bp_place(BP_PUSC_DL, 256, 0, 0, 0, 0, NULL, 0, &u[0], &carrier),
        bp_place(BP_AMC, 256, 2352, 0, 0, 0, NULL, 0, &u[0], &carrier),
        bp_place(BP_AMC, 256, 0, 512, 0, 0, NULL, 0, &u[0], &carrier),
        bp_place(BP_AMC, 256, 0, 0, 4, 0, NULL, 0, &u[0], &carrier),
        bp_place(BP_AMC, 256, 0, 0, 0, 48, NULL, 0, &u[0], &carrier),
        bp_locate(BP_AMC, 256, 0, 0, 128, NULL, 0, &u[0], &u[1], &u[2], &u[3]),
        lay(BP_OFUSC, 256, 0, 0, 0, 0, NULL, 0, floats(points), 384, floats(grid), 512),
        ground(BP_OFUSC, 256, 0, 0, 0, NULL, 0, pilot, floats(grid), 511),
        bp_zone_plan_read(none, 1, &u[0], &u[1], zones),
        bp_zone_plan_read(form, 2, &u[0], &u[1], zones),
        bp_zone_plan_read(count, 1, &u[0], &u[1], zones),
        bp_zone_plan_read(slots, 7, &u[0], &u[1], zones),
        bp_zone_plan_read(order, 7, &u[0], &u[1], zones),
        bp_zone_plan_read(over, 8, &u[0], &u[1], zones),
        bp_zone_plan_write(1, 256, zones, none, 1, &u[0]),
        ground(BP_OFUSC, 256, 0, BP_ALL_GROUPS, 512, NULL, 0, pilot, floats(grid), 511),
        check(BP_OFUSC, 256, 0, 1, 0, twice, 7),
        check(BP_OFUSC, 256, 0, 1, 0, twice, 8),
        bp_place(BP_OFUSC, 256, 0, 0, 0, 0, twice, 1, &u[0], &carrier),
    };
    const uint32_t named[21] = {
        BP_ACCEPTED,           BP_REFUSED_MODE,       BP_REFUSED_SIZE,     BP_REFUSED_CELL,      BP_REFUSED_SLOT,
        BP_REFUSED_SUBCHANNEL, BP_REFUSED_INDEX,      BP_REFUSED_CARRIER,  BP_REFUSED_POINTS_LEN, BP_REFUSED_GRID_LEN,
        BP_REFUSED_CUT_SHORT,  BP_REFUSED_FORM,       BP_REFUSED_COUNT,    BP_REFUSED_ZONE_SLOTS, BP_REFUSED_ORDER,
        BP_REFUSED_LEFT_OVER,  BP_REFUSED_DEST_LEN,   BP_REFUSED_MASK,     BP_REFUSED_BURST,     BP_REFUSED_OVERLAP,
        BP_REFUSED_PILOTS,
    };
    for (uint32_t n = 0; n < 21; n++)
        if (met[n] != n || named[n] != n)
            return 0;
    return 1;
}

static int collisions_are_right(void)
{
    uint8_t groups[48], indices[48];
    uint32_t count, same;
    return bp_ofusc_collisions(2048, 0, 2, 1010, 0, groups, &count) == 0 && count == 4 && groups[31] == 1 &&
           groups[30] == 0 && bp_amc_collisions(48, 176, indices, &same) == 0 && same == 3 && indices[24] == 1 &&
           indices[25] == 0;
}

static int plan_is_right(void)
{
    const uint8_t bytes[7] = {0x01, 0x80, 0x10, 0x00, 0x05, 0x0C, 0x3F};
    uint8_t again[7] = {0, 0, 0, 0, 0, 0, 0};
    uint32_t count, size, zones[32], written;
    if (bp_zone_plan_read(bytes, 7, &count, &size, zones) != 0 || count != 1 || size != 2048 || zones[1] != 5 ||
        zones[3] != BP_ALL_GROUPS)
        return 0;
    if (bp_zone_plan_write(count, size, zones, again, 7, &written) != 0 || written != 7)
        return 0;
    for (int n = 0; n < 7; n++)
        if (again[n] != bytes[n])
            return 0;
    return 1;
}

/* A zone of three slots of optional FUSC at 256, which has four subchannels: all of slot 0, and subchannel 2 of the others. The
   row has no burst past the last subchannel, and a slot past the zone has none at all. */
static int bursts_are_right(void)
{
    const uint32_t bursts[8] = {0, 4, 0, 1, 2, 1, 1, 2}, wanted[4] = {BP_NO_BURST, BP_NO_BURST, 1, BP_NO_BURST};
    uint32_t owner, looked;
    uint8_t owners[192];
    if (check(BP_OFUSC, 256, 15, 3, 0, bursts, 8) != BP_ACCEPTED || check(BP_OFUSC, 256, 15, 1, 0, NULL, 0) != BP_ACCEPTED ||
        check(BP_OFUSC, 256, 15, 2, 0, bursts, 8) != BP_REFUSED_BURST ||
        check(BP_PUSC_UL, 2048, 0, 3, 0, bursts, 8) != BP_REFUSED_MODE)
        return 0;
    for (uint32_t s = 0; s < 4; s++)
        if (owner_of(BP_OFUSC, 256, 15, 3, 0, 0, s, bursts, 8, &owner, &looked) != BP_ACCEPTED || owner != 0 || looked != 1 ||
            owner_of(BP_OFUSC, 256, 15, 3, 0, 2, s, bursts, 8, &owner, &looked) != BP_ACCEPTED || owner != wanted[s] ||
            looked != 2 || owner_of(BP_OFUSC, 256, 15, 3, 0, 511, s, bursts, 8, &owner, &looked) != BP_ACCEPTED ||
            owner != BP_NO_BURST || looked != 2)
            return 0;
    if (owner_of(BP_OFUSC, 256, 15, 3, 0, 512, 4, bursts, 7, &owner, &looked) != BP_REFUSED_SLOT ||
        owner_of(BP_OFUSC, 256, 15, 3, 0, 511, 4, bursts, 7, &owner, &looked) != BP_REFUSED_SUBCHANNEL ||
        owners_of(BP_OFUSC, 256, 15, 3, 0, 1, bursts, 8, owners) != BP_ACCEPTED)
        return 0;
    for (int s = 0; s < 192; s++)
        if (owners[s] != (s == 2 ? 1 : BP_NO_BURST))
            return 0;
    return owners_of(BP_OFUSC, 256, 15, 3, 0, 512, bursts, 7, owners) == BP_REFUSED_SLOT;
}

int main(void)
{
    if (version_is_right() && map_is_right() && places_are_right() && shapes_are_right() && ground_is_right() &&
        grid_is_right() && arrival_is_right() && lent_pilots_are_right() && sector_is_right() && refusals_are_right() &&
        collisions_are_right() && plan_is_right() && bursts_are_right())
        return 0;
    puts("a call through the header gave a wrong answer");
    return 1;
}
