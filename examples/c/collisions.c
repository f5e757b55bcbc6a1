/* Optional FUSC: collisions SIZE CELL SUBCHANNEL CELL SUBCHANNEL, the groups in which one subchannel of the first cell and one
   of the second share a carrier. AMC: collisions CELL CELL, the indices of a subchannel, any one, that both cells put on the
   same carrier of the same symbol */
#include <stdio.h>

#include "bellpulsar.h"
#include "field.h"
#include "refusal.h"

int main(int argc, char **argv)
{
    uint32_t f[5], count, refused;
    uint8_t hits[48];
    if (argc != 6 && argc != 3) {
        fprintf(stderr, "usage: collisions SIZE CELL SUBCHANNEL CELL SUBCHANNEL, or collisions CELL CELL\n");
        return 2;
    }
    for (int i = 0; i + 1 < argc; i++)
        f[i] = field(argv[i + 1]);

    if (argc == 6)
        refused = bp_ofusc_collisions(f[0], f[1], f[2], f[3], f[4], hits, &count);
    else
        refused = bp_amc_collisions(f[0], f[1], hits, &count);
    if (refused != BP_ACCEPTED)
        return print_refusal(refused);
    printf("%s", argc == 6 ? "groups" : "indices");
    for (int k = 0; k < 48; k++)
        if (hits[k])
            printf(" %d", k);
    printf("\ncount %u\n", count);
    return output_status();
}
