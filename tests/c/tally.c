/*
 * Tally by document 01's table, which the library does not have: what each value of a byte adds, in
 * a map of one byte and at every place of longer maps, with unused pairs and with later bytes.
 */
#include "check.h"

#include <string.h>

static const uint8_t table[256] = {
#include "../tally_table.inc"
};

/* Lengths about those at which a counter in wide steps, or of 8 bits, would begin anew. */
static const size_t lengths[] = {1, 2, 7, 8, 9, 31, 32, 33, 63, 64, 65, 96, 97, 160};
#define LENGTHS (sizeof lengths / sizeof lengths[0])
#define LONGEST 160

/* One byte more than is counted, which nobody may look at. */
static uint8_t map[LONGEST + 1];

/* A map of some bytes that are all alike. */
static void alike(size_t length, uint8_t byte) {
    memset(map, byte, length);
    map[length] = 0xFF;
}

/* The tally of n blocks, where one byte has this entry and each other byte `patch` and `full`. */
static void tallies(size_t length, uint64_t n, unsigned entry, unsigned patch, unsigned full) {
    thx_tallied r = thx_tally(map, length + 1, n);
    unsigned others = (unsigned)length - 1;
    if (entry == 255) {
        CHECK(r.number == THX_BAD_PAIR && r.patch == 0 && r.full == 0);
    } else {
        CHECK(r.number == THX_DONE && r.patch == others * patch + entry % 8
              && r.full == others * full + entry / 8);
    }
}

/* Each value at each place, between bytes that hold one PATCH and one full pair. */
static void each_value(size_t length) {
    size_t place;
    unsigned value;
    for (place = 0; place < length; place++) {
        alike(length, 0x09);
        for (value = 0; value < 256; value++) {
            map[place] = (uint8_t)value;
            tallies(length, 4 * length, table[value], 1, 1);
        }
    }
}

/* Each value in a last byte of which 1, 2 or 3 pairs are unused: those must be 0. */
static void each_last_byte(size_t length) {
    static const unsigned used[4] = {256, 64, 16, 4};
    unsigned unused, value;
    alike(length, 0x24);
    for (unused = 1; unused < 4; unused++) {
        for (value = 0; value < 256; value++) {
            map[length - 1] = (uint8_t)value;
            tallies(length, 4 * length - unused, value < used[unused] ? table[value] : 255, 1, 1);
        }
    }
}

/* Four pairs of a sort in every byte: the largest sums. */
static void all_alike(size_t length) {
    alike(length, 0xAA);
    tallies(length, 4 * length, table[0xAA], 4, 0);
    alike(length, 0x55);
    tallies(length, 4 * length, table[0x55], 0, 4);
}

void every_tally(void) {
    size_t k;
    for (k = 0; k < LENGTHS; k++) {
        each_value(lengths[k]);
        each_last_byte(lengths[k]);
        all_alike(lengths[k]);
    }
}
