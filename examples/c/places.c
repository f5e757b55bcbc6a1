/* Where the points of a subchannel lie, and their places in the slot's grid: places MODE SIZE CELL SLOT SUBCHANNEL */
#include <stdio.h>

#include "bellpulsar.h"
#include "field.h"
#include "refusal.h"

int main(int argc, char **argv)
{
    if (argc != 6) {
        fprintf(stderr, "usage: places MODE SIZE CELL SLOT SUBCHANNEL\n");
        return 2;
    }
    uint32_t f[5];
    for (int i = 0; i < 5; i++)
        f[i] = field(argv[i + 1]);

    uint32_t places[48];
    uint32_t refused = bp_places(f[0], f[1], f[2], f[3], f[4], NULL, 0, places);
    if (refused != BP_ACCEPTED)
        return print_refusal(refused);
    /* A place counts the size for each symbol of the slot, and its row starts with the lowest carrier. */
    const uint32_t size = f[1], first = f[3] * (uint32_t)(bp_grid_len(f[0], size) / 2 / size);
    for (uint32_t index = 0; index < 48; index++) {
        const int32_t carrier = (int32_t)(places[index] % size) - (int32_t)(size / 2);
        printf("index %u symbol %u carrier %d place %u\n", index, first + places[index] / size, carrier, places[index]);
    }
    return output_status();
}
