/* Reads a zone plan, prints its zones, and writes it again: plan BYTE.. (each byte two hex digits). The first 128 bytes
   decide: no plan is that long. */
#include <stdio.h>
#include <stdlib.h>
#include <string.h>

#include "bellpulsar.h"
#include "refusal.h"

static uint8_t byte(const char *word)
{
    if (strlen(word) != 2 || strspn(word, "0123456789ABCDEFabcdef") != 2) {
        fprintf(stderr, "not two hex digits: %s\n", word);
        exit(2);
    }
    return (uint8_t)strtoul(word, NULL, 16);
}

int main(int argc, char **argv)
{
    uint8_t bytes[128], again[128];
    size_t len = 0;
    uint32_t count, size, zones[32], written;
    for (int i = 1; i < argc; i++) {
        uint8_t next = byte(argv[i]);
        if (len < sizeof bytes)
            bytes[len++] = next;
    }

    uint32_t refused = bp_zone_plan_read(bytes, len, &count, &size, zones);
    if (refused == BP_ACCEPTED)
        refused = bp_zone_plan_write(count, size, zones, again, sizeof again, &written);
    if (refused != BP_ACCEPTED)
        return print_refusal(refused);
    printf("size %u\n", size);
    for (uint32_t k = 0; k < count; k++)
        printf("mode %u cell %u slots %u mask %u\n", zones[4 * k], zones[4 * k + 1], zones[4 * k + 2], zones[4 * k + 3]);
    printf("bytes");
    for (uint32_t i = 0; i < written; i++)
        printf(" %02X", again[i]);
    printf("\n");
    return output_status();
}
