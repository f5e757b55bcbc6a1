/* Fills a slot's grid in two moves: the ground, then the points of each lit subchannel. Looks at a point of the first
 * subchannel and of the last, lays the last lit one again with other points, counts the floats that this changed, and takes
 * all points off the grid:
 * slot MODE SIZE CELL MASK SLOT */
#include <stdio.h>
#include <stdlib.h>
#include <string.h>

#include "bellpulsar.h"
#include "field.h"
#include "refusal.h"

enum { OWN = 96 }; /* the floats of one subchannel's points */

static uint32_t mode, size, cell, mask, slot;

/* Prints what the grid holds where point 0 of a subchannel belongs; a refusal's number, or 0. */
static uint32_t print_point(uint32_t subchannel, const float *grid, size_t grid_len)
{
    uint32_t symbol, kind, of_slot, of_subchannel, index;
    int32_t carrier;
    float point[2];
    uint32_t refused = bp_place(mode, size, cell, slot, subchannel, 0, NULL, 0, &symbol, &carrier);
    if (refused == BP_ACCEPTED)
        refused = bp_look(mode, size, cell, mask, symbol, NULL, 0, grid, grid_len, carrier, &kind, point, &of_slot,
                          &of_subchannel, &index);
    if (refused == BP_ACCEPTED && kind == BP_DATA)
        printf("symbol %u carrier %d: point (%g, %g) of slot %u subchannel %u index %u\n", symbol, carrier, point[0],
               point[1], of_slot, of_subchannel, index);
    else if (refused == BP_ACCEPTED)
        printf("symbol %u carrier %d: nothing, subchannel %u is unlit\n", symbol, carrier, subchannel);
    return refused;
}

int main(int argc, char **argv)
{
    if (argc != 6) {
        fprintf(stderr, "usage: slot MODE SIZE CELL MASK SLOT\n");
        return 2;
    }
    mode = field(argv[1]), size = field(argv[2]), cell = field(argv[3]), mask = field(argv[4]), slot = field(argv[5]);
    size_t points_len = bp_lit_points_len(mode, size, mask), grid_len = bp_grid_len(mode, size);
    float *points = calloc(points_len + 1, sizeof(float)); /* and one more: no length is 0, so none is null */
    float *back = calloc(points_len + 1, sizeof(float));
    float *grid = calloc(grid_len + 1, sizeof(float)), *before = calloc(grid_len + 1, sizeof(float));
    if (points == NULL || back == NULL || grid == NULL || before == NULL) {
        fprintf(stderr, "no memory\n");
        return 2;
    }
    const float pilot[2] = {1, 0};
    for (size_t n = 0; n < points_len / 2; n++)
        points[2 * n] = (float)(n + 1), points[2 * n + 1] = -(float)(n + 1);

    /* The ground once; then the subchannels. One that is unlit is refused, and the next takes these points. */
    uint32_t refused = bp_ground(mode, size, cell, mask, slot, NULL, 0, pilot, grid, grid_len), last = 0;
    size_t laid = 0;
    for (uint32_t s = 0; refused == BP_ACCEPTED && laid < points_len; s++) {
        refused = bp_lay(mode, size, cell, mask, slot, s, NULL, 0, points + laid, OWN, grid, grid_len);
        if (refused == BP_ACCEPTED)
            last = s, laid += OWN;
        else if (refused == BP_REFUSED_SUBCHANNEL)
            refused = BP_ACCEPTED;
    }
    if (refused != BP_ACCEPTED)
        return print_refusal(refused);
    uint32_t count = (uint32_t)(bp_points_len(mode, size) / OWN);
    printf("%zu of %u subchannels lit\n", laid / OWN, count);
    refused = print_point(0, grid, grid_len);
    if (refused == BP_ACCEPTED)
        refused = print_point(count - 1, grid, grid_len);

    /* Other points for the last one that is lit: pilots, zeros and the other subchannels stay as they are. */
    memcpy(before, grid, grid_len * sizeof(float));
    for (size_t n = points_len - OWN; n < points_len; n++)
        points[n] = -points[n];
    if (refused == BP_ACCEPTED)
        refused = bp_lay(mode, size, cell, mask, slot, last, NULL, 0, points + points_len - OWN, OWN, grid, grid_len);
    if (refused != BP_ACCEPTED)
        return print_refusal(refused);
    size_t changed = 0;
    for (size_t n = 0; n < grid_len; n++)
        changed += grid[n] != before[n];
    printf("subchannel %u again: %zu of %zu floats changed\n", last, changed, grid_len);

    refused = print_point(last, grid, grid_len);
    if (refused == BP_ACCEPTED)
        refused = bp_empty(mode, size, cell, mask, slot, NULL, 0, grid, grid_len, back, points_len);
    if (refused != BP_ACCEPTED)
        return print_refusal(refused);
    printf("%zu points: %s\n", points_len / 2,
           memcmp(points, back, points_len * sizeof(float)) == 0 ? "all back" : "not all back");
    free(points), free(back), free(grid), free(before);
    return output_status();
}
