/* Holds bp_zone_plan_read and bp_zone_plan_write to the stored answers of crates/plan_vectors, which come from
   the reference: standard input is that crate's file `stdout`. A refusal writes nothing, and nothing
   beside an out parameter is written. Run by run.sh. */
#include <stdint.h>
#include <stdio.h>
#include <stdlib.h>
#include <string.h>

#include "bellpulsar.h"

enum { FIELDS = 128, PLACES = 32, ROOM = 56, BEFORE = 238 };

/* The out parameters of a call between guard words. */
struct outs {
    uint32_t before, first, middle, second, after, zones[PLACES], end;
};

static struct outs fresh(uint32_t fill)
{
    struct outs outs;
    uint32_t *words = &outs.before;
    for (size_t i = 0; i < sizeof outs / sizeof *words; i++)
        words[i] = fill + (uint32_t)i;
    return outs;
}

static int read_agrees(const uint32_t *asked, const uint32_t *answer, uint32_t fill)
{
    uint8_t bytes[FIELDS];
    struct outs outs = fresh(fill), expected = outs;
    for (size_t i = 0; i < asked[0]; i++)
        bytes[i] = (uint8_t)asked[1 + i];
    if (answer[0] == 0) {
        expected.first = answer[1];
        expected.second = answer[2];
        memcpy(expected.zones, answer + 3, sizeof expected.zones);
    }
    return bp_zone_plan_read(bytes, asked[0], &outs.first, &outs.second, outs.zones) == answer[0] &&
           memcmp(&outs, &expected, sizeof outs) == 0;
}

static int write_agrees(const uint32_t *asked, const uint32_t *answer, uint32_t fill)
{
    uint8_t dest[ROOM];
    struct outs outs = fresh(fill), expected = outs;
    memset(dest, BEFORE, sizeof dest);
    if (answer[0] == 0)
        expected.first = answer[1];
    if (bp_zone_plan_write(asked[1], asked[2], asked + 3, dest, asked[0], &outs.first) != answer[0])
        return 0;
    for (size_t i = 0; i < ROOM; i++)
        if (dest[i] != answer[2 + i])
            return 0;
    return memcmp(&outs, &expected, sizeof outs) == 0;
}

/* The numbers of a text; 0 where one of them has no place in 32 bits. */
static int numbers(char *text, uint32_t *fields)
{
    memset(fields, 0, FIELDS * sizeof *fields);
    int n = 0;
    for (char *word = strtok(text, " \n"); word && n < FIELDS; word = strtok(NULL, " \n")) {
        unsigned long long number = strtoull(word, NULL, 10);
        if (number > UINT32_MAX)
            return 0;
        fields[n++] = (uint32_t)number;
    }
    return 1;
}

int main(void)
{
    static char line[4096];
    uint32_t asked[FIELDS], answer[FIELDS];
    int wrong = 0, tried = 0;
    while (fgets(line, sizeof line, stdin)) {
        char *colon = strchr(line, ':');
        if (!colon)
            return 1;
        *colon = 0;
        if (!numbers(line + 1, asked) || !numbers(colon + 1, answer))
            continue;
        int (*agrees)(const uint32_t *, const uint32_t *, uint32_t) = line[0] == 'r' ? read_agrees : write_agrees;
        tried++;
        if (agrees(asked, answer, 0xA5A5A500u) && agrees(asked, answer, 0x5A5A5A00u))
            continue;
        wrong = 1;
        printf("bp_zone_plan_%s differs: line %d of those that fit\n", line[0] == 'r' ? "read" : "write", tried);
    }
    if (tried < 1000)
        return 1;
    if (!wrong)
        puts("capi: plans agree with the reference");
    return wrong;
}
