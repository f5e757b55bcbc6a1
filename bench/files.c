// What the command line's fill and batch do, in C over the library, for bench/files.py to hold them to:
//
//     files fill MODE SIZE CELL MASK SLOTS [PILOT..] <points >grids
//     files place <requests >answers
//
// fill takes the points of SLOTS slots in a row again and again, the first of them slot 0, all with the same pilots. place
// takes lines of six numbers behind the word place, of modes that have no pilot list.
#include "bellpulsar.h"

#include <stdio.h>
#include <stdlib.h>
#include <string.h>
#include <unistd.h>

enum { LAID = 96, PHASES = 3, MOST_SUBCHANNELS = 192, MOST_PILOTS = 166, FILL_WORDS = 7 };
enum { BLOCK = 1 << 17 }; // bytes of grids, about

static void fail(const char *what) {
    fprintf(stderr, "files: %s\n", what);
    exit(2);
}

static uint32_t number(const char *text) { return (uint32_t)strtoul(text, NULL, 10); }

// As many of the bytes as there are.
static size_t read_bytes(void *to, size_t bytes) {
    size_t got = 0;
    while (got < bytes) {
        ssize_t more = read(STDIN_FILENO, (char *)to + got, bytes - got);
        if (more < 0) fail("standard input cannot be read");
        if (more == 0) break;
        got += (size_t)more;
    }
    return got;
}

static void write_bytes(const void *from, size_t bytes) {
    for (size_t put = 0; put < bytes;) {
        ssize_t more = write(STDOUT_FILENO, (const char *)from + put, bytes - put);
        if (more < 0) fail("standard output cannot be written");
        put += (size_t)more;
    }
}

struct zone {
    uint32_t mode, size, cell, mask, slots, pilots[MOST_PILOTS];
    size_t pilots_len;
};

// The subchannels that a lay accepts.
static uint32_t lit_subchannels(const struct zone *z, uint32_t lit[MOST_SUBCHANNELS], float *grid, size_t grid_len) {
    static const float points[LAID];
    uint32_t count = 0;
    for (uint32_t s = 0; s < MOST_SUBCHANNELS; s++)
        if (bp_lay(z->mode, z->size, z->cell, z->mask, 0, s, z->pilots, z->pilots_len, points, LAID, grid, grid_len) ==
            BP_ACCEPTED)
            lit[count++] = s;
    return count;
}

// A block of slots at a time, in places whose ground serves every slot that agrees mod 3 with the one it was laid for.
static int fill(const struct zone *z) {
    size_t points_len = bp_lit_points_len(z->mode, z->size, z->mask), grid_len = bp_grid_len(z->mode, z->size), got;
    size_t room = BLOCK / (grid_len * sizeof(float)) / PHASES * PHASES;
    room = room ? room : PHASES;
    float *points = malloc(room * points_len * sizeof *points), *grids = calloc(room * grid_len, sizeof *grids);
    uint32_t *phases = malloc(room * sizeof *phases), lit[MOST_SUBCHANNELS], slot = 0;
    if (!points || !grids || !phases) fail("no memory");
    memset(phases, 0xFF, room * sizeof *phases);
    uint32_t count = lit_subchannels(z, lit, grids, grid_len);
    while ((got = read_bytes(points, room * points_len * sizeof *points) / (points_len * sizeof *points))) {
        for (size_t at = 0; at < got; at++, slot = (slot + 1) % z->slots) {
            float pilot[2] = {1, 0}, *own = points + at * points_len, *grid = grids + at * grid_len;
            uint32_t refused = 0;
            if (phases[at] != slot % PHASES)
                refused |= bp_ground(z->mode, z->size, z->cell, z->mask, slot, z->pilots, z->pilots_len, pilot, grid,
                                     grid_len);
            phases[at] = slot % PHASES;
            for (uint32_t rank = 0; rank < count; rank++, own += LAID)
                refused |= bp_lay(z->mode, z->size, z->cell, z->mask, slot, lit[rank], z->pilots, z->pilots_len, own,
                                  LAID, grid, grid_len);
            if (refused) fail("refused");
        }
        write_bytes(grids, got * grid_len * sizeof *grids);
    }
    return 0;
}

static int place(void) {
    char line[256];
    while (fgets(line, sizeof line, stdin)) {
        uint32_t field[6], symbol;
        int32_t carrier;
        char *at = line + strlen("place");
        for (int i = 0; i < 6; i++) field[i] = (uint32_t)strtoul(at, &at, 10);
        if (bp_place(field[0], field[1], field[2], field[3], field[4], field[5], NULL, 0, &symbol, &carrier))
            fail("refused");
        printf("symbol %u carrier %d\n", symbol, carrier);
    }
    return 0;
}

int main(int argc, char **argv) {
    if (argc >= FILL_WORDS && argc <= FILL_WORDS + MOST_PILOTS && strcmp(argv[1], "fill") == 0) {
        struct zone z = {.mode = number(argv[2]), .size = number(argv[3]), .cell = number(argv[4]),
                         .mask = number(argv[5]), .slots = number(argv[6])};
        for (int i = FILL_WORDS; i < argc; i++) z.pilots[z.pilots_len++] = number(argv[i]);
        return fill(&z);
    }
    if (argc == 2 && strcmp(argv[1], "place") == 0) return place();
    fail("usage: files fill MODE SIZE CELL MASK SLOTS [PILOT..], or files place");
}
