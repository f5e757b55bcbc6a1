/* Checks a list of bursts, and tells whose a subchannel in a slot is and whose all subchannels of that slot are:
 * bursts MODE SIZE CELL SLOTS MASK SLOT SUBCHANNEL and four numbers for each burst, its first subchannel, how many, its first
 * slot, how many. */
#include <stdio.h>
#include <stdlib.h>

#include "bellpulsar.h"
#include "field.h"
#include "refusal.h"

static void print_owner(uint32_t owner)
{
    if (owner == BP_NO_BURST)
        printf("no burst");
    else
        printf("burst %u", owner);
}

int main(int argc, char **argv)
{
    if (argc < 8 || argc % 4 != 0) {
        fprintf(stderr, "usage: bursts MODE SIZE CELL SLOTS MASK SLOT SUBCHANNEL [SUBCHANNEL SUBCHANNELS SLOT SLOTS]..\n");
        return 2;
    }
    uint32_t mode = field(argv[1]), size = field(argv[2]), cell = field(argv[3]), slots = field(argv[4]);
    uint32_t mask = field(argv[5]), slot = field(argv[6]), subchannel = field(argv[7]), owner, looked;
    uint8_t owners[192];
    size_t len = (size_t)argc - 8;
    uint32_t *bursts = calloc(len + 1, sizeof *bursts); /* one more, so that null means no memory */
    if (bursts == NULL) {
        fprintf(stderr, "no memory\n");
        return 2;
    }
    for (size_t n = 0; n < len; n++)
        bursts[n] = field(argv[8 + n]);

    uint32_t refused = bp_bursts_check(mode, size, cell, slots, mask, bursts, len);
    if (refused == BP_ACCEPTED)
        refused = bp_burst_owner(mode, size, cell, slots, mask, slot, subchannel, bursts, len, &owner, &looked);
    if (refused == BP_ACCEPTED)
        refused = bp_burst_owners(mode, size, cell, slots, mask, slot, bursts, len, owners);
    free(bursts);
    if (refused != BP_ACCEPTED)
        return print_refusal(refused);
    printf("%zu bursts\nslot %u subchannel %u: ", len / 4, slot, subchannel);
    print_owner(owner);
    printf(", %u looked at\n", looked);

    /* The row has a place for each of 192 subchannels; the mode has as many as there are points for. */
    size_t subchannels = bp_points_len(mode, size) / 96;
    for (size_t first = 0, next; first < subchannels; first = next) {
        for (next = first + 1; next < subchannels && owners[next] == owners[first];)
            next++;
        printf("subchannels %zu to %zu: ", first, next - 1);
        print_owner(owners[first]);
        printf("\n");
    }
    return output_status();
}
