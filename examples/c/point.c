/* Where a point is placed, and what the engine finds there: point MODE SIZE CELL SLOT SUBCHANNEL INDEX */
#include <stdio.h>

#include "bellpulsar.h"
#include "field.h"
#include "refusal.h"

int main(int argc, char **argv)
{
    if (argc != 7) {
        fprintf(stderr, "usage: point MODE SIZE CELL SLOT SUBCHANNEL INDEX\n");
        return 2;
    }
    uint32_t f[6];
    for (int i = 0; i < 6; i++)
        f[i] = field(argv[i + 1]);

    uint32_t symbol, kind, slot, subchannel, index;
    int32_t carrier;
    uint32_t refused = bp_place(f[0], f[1], f[2], f[3], f[4], f[5], NULL, 0, &symbol, &carrier);
    if (refused == BP_ACCEPTED)
        refused = bp_locate(f[0], f[1], f[2], symbol, carrier, NULL, 0, &kind, &slot, &subchannel, &index);
    if (refused != BP_ACCEPTED)
        return print_refusal(refused);
    printf("symbol %u carrier %d\n", symbol, carrier);
    if (kind == BP_DATA)
        printf("holds slot %u subchannel %u index %u\n", slot, subchannel, index);
    return output_status();
}
