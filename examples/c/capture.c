/* Takes a slot's points off its grid while a capture delivers it, half a symbol at a time, and holds them to what bp_empty
 * takes off the whole grid: capture MODE SIZE CELL MASK SLOT */
#include <stdio.h>
#include <stdlib.h>
#include <string.h>

#include "bellpulsar.h"
#include "field.h"
#include "refusal.h"

int main(int argc, char **argv)
{
    if (argc != 6) {
        fprintf(stderr, "usage: capture MODE SIZE CELL MASK SLOT\n");
        return 2;
    }
    uint32_t mode = field(argv[1]), size = field(argv[2]), cell = field(argv[3]);
    uint32_t mask = field(argv[4]), slot = field(argv[5]);
    size_t points_len = bp_lit_points_len(mode, size, mask), grid_len = bp_grid_len(mode, size);
    float *sent = calloc(grid_len + 1, sizeof(float)); /* and one more: no length is 0, so none is null */
    float *grid = calloc(grid_len + 1, sizeof(float));
    float *points = calloc(points_len + 1, sizeof(float)), *whole = calloc(points_len + 1, sizeof(float));
    if (sent == NULL || grid == NULL || points == NULL || whole == NULL) {
        fprintf(stderr, "no memory\n");
        return 2;
    }
    for (size_t n = 0; n < grid_len; n++)
        sent[n] = (float)(n + 1), grid[n] = -1;
    uint32_t refused = bp_empty(mode, size, cell, mask, slot, NULL, 0, sent, grid_len, whole, points_len);

    /* The grid may hold anything where nothing has arrived, here -1: the points that are still to come stay 0. */
    uint32_t half = size / 2;
    for (uint32_t carriers = half; refused == BP_ACCEPTED && carriers <= grid_len / 2; carriers += half) {
        memcpy(grid, sent, 2 * carriers * sizeof(float));
        refused = bp_empty_first(mode, size, cell, mask, slot, carriers, NULL, 0, grid, grid_len, points, points_len);
        if (refused != BP_ACCEPTED)
            break;
        size_t there = 0;
        for (size_t n = 0; n < points_len; n += 2)
            there += points[n] != 0;
        printf("%u of %zu carriers: %zu of %zu points\n", carriers, grid_len / 2, there, points_len / 2);
    }
    if (refused != BP_ACCEPTED)
        return print_refusal(refused);
    int same = memcmp(points, whole, points_len * sizeof(float)) == 0;
    printf("points %s\n", same ? "as emptied at once" : "not as emptied at once");
    free(sent), free(grid), free(points), free(whole);
    return output_status();
}
