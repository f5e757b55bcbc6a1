/* What a carrier, counted from DC, holds in a symbol of the zone: carrier MODE SIZE CELL SYMBOL CARRIER */
#include <stdio.h>

#include "bellpulsar.h"
#include "field.h"
#include "refusal.h"

int main(int argc, char **argv)
{
    if (argc != 6) {
        fprintf(stderr, "usage: carrier MODE SIZE CELL SYMBOL CARRIER\n");
        return 2;
    }
    uint32_t mode = field(argv[1]), size = field(argv[2]), cell = field(argv[3]), symbol = field(argv[4]);
    int32_t carrier = signed_field(argv[5]);

    uint32_t kind, slot, subchannel, index;
    uint32_t refused = bp_locate(mode, size, cell, symbol, carrier, NULL, 0, &kind, &slot, &subchannel, &index);
    if (refused != BP_ACCEPTED)
        return print_refusal(refused);
    if (kind == BP_DATA)
        printf("data slot %u subchannel %u index %u\n", slot, subchannel, index);
    else
        printf("%s\n", kind == BP_GUARD ? "guard" : kind == BP_DC ? "DC" : "pilot");
    return output_status();
}
