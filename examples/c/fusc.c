/* FUSC, whose pilots are a list of the caller's: here 166 used numbers FIRST, FIRST + STEP, .. Places a point and looks what is
 * found there, fills the slot's grid in two moves, counts what stands on its carriers, and takes all points off the grid:
 * fusc CELL SLOT SUBCHANNEL INDEX FIRST STEP */
#include <stdio.h>
#include <string.h>

#include "bellpulsar.h"
#include "field.h"
#include "refusal.h"

/* The list's length, the floats of a subchannel's points, of the slot's and of its grid. */
enum { SIZE = 2048, PILOTS = 166, OWN = 96, POINTS = 3072, GRID = 4096 };

static uint32_t cell, slot, pilots[PILOTS];
static float points[POINTS], grid[GRID], back[POINTS];

/* Prints where a point is placed and what is found there; a refusal's number, or 0. */
static uint32_t print_point(uint32_t subchannel, uint32_t index)
{
    uint32_t symbol, kind, of_slot, of_subchannel, of_index;
    int32_t carrier;
    uint32_t refused = bp_place(BP_FUSC, SIZE, cell, slot, subchannel, index, pilots, PILOTS, &symbol, &carrier);
    if (refused == BP_ACCEPTED)
        refused = bp_locate(BP_FUSC, SIZE, cell, symbol, carrier, pilots, PILOTS, &kind, &of_slot, &of_subchannel, &of_index);
    if (refused != BP_ACCEPTED)
        return refused;
    printf("symbol %u carrier %d\n", symbol, carrier);
    if (kind == BP_DATA)
        printf("holds slot %u subchannel %u index %u\n", of_slot, of_subchannel, of_index);
    return BP_ACCEPTED;
}

/* The ground, then each subchannel, with the same list; a refusal's number, or 0. */
static uint32_t fill(void)
{
    const float pilot[2] = {1, 0};
    uint32_t refused = bp_ground(BP_FUSC, SIZE, cell, 0, slot, pilots, PILOTS, pilot, grid, GRID);
    for (uint32_t s = 0; refused == BP_ACCEPTED && s < POINTS / OWN; s++)
        refused = bp_lay(BP_FUSC, SIZE, cell, 0, slot, s, pilots, PILOTS, points + OWN * s, OWN, grid, GRID);
    return refused;
}

/* Prints how many carriers hold a pilot, a point, and nothing; a refusal's number, or 0. */
static uint32_t print_counts(void)
{
    uint32_t kind, of_slot, of_subchannel, index, counts[4] = {0};
    float point[2];
    for (int32_t carrier = -SIZE / 2; carrier < SIZE / 2; carrier++) {
        uint32_t refused = bp_look(BP_FUSC, SIZE, cell, 0, slot, pilots, PILOTS, grid, GRID, carrier, &kind, point, &of_slot,
                                   &of_subchannel, &index);
        if (refused != BP_ACCEPTED)
            return refused;
        counts[kind]++;
    }
    printf("%u pilots, %u points, %u carriers with nothing\n", counts[BP_PILOT], counts[BP_DATA], counts[BP_NOTHING]);
    return BP_ACCEPTED;
}

int main(int argc, char **argv)
{
    if (argc != 7) {
        fprintf(stderr, "usage: fusc CELL SLOT SUBCHANNEL INDEX FIRST STEP\n");
        return 2;
    }
    cell = field(argv[1]), slot = field(argv[2]);
    uint32_t subchannel = field(argv[3]), index = field(argv[4]), first = field(argv[5]), step = field(argv[6]);
    for (uint32_t n = 0; n < PILOTS; n++)
        pilots[n] = first + n * step;
    for (size_t n = 0; n < POINTS / 2; n++)
        points[2 * n] = (float)(n + 1), points[2 * n + 1] = -(float)(n + 1);

    uint32_t refused = print_point(subchannel, index);
    if (refused == BP_ACCEPTED)
        refused = fill();
    if (refused == BP_ACCEPTED)
        refused = print_counts();
    if (refused == BP_ACCEPTED)
        refused = bp_empty(BP_FUSC, SIZE, cell, 0, slot, pilots, PILOTS, grid, GRID, back, POINTS);
    if (refused != BP_ACCEPTED)
        return print_refusal(refused);
    printf("%d points: %s\n", POINTS / 2, memcmp(points, back, sizeof points) == 0 ? "all back" : "not all back");
    return output_status();
}
