/*
 * Maps by hand: what a write makes of a lent map, and what a read by a map gives, for every byte
 * that a map can have, over slots of every sort. Every byte of every buffer is looked at.
 */
#include "check.h"

#include <string.h>

#define BLOCKS 6
static uint8_t patch[512 + 512 * BLOCKS], full[4096 + 8192 * BLOCKS];
static uint8_t patch_after[sizeof patch], full_after[sizeof full];
static uint8_t zeros[8192], small[8192], fives[8192], page[8192], wanted[8192];

/* EMPTY, PATCH and FULL_REF over a base of zeros; the payload's length and the pair of each. */
static const uint8_t *const pages[3] = {zeros, small, fives};
static const uint32_t lengths[3] = {0, 2, 0};
static const unsigned kind_pairs[3] = {0, 2, 1};

/* A fresh store of n blocks and as many places; the lengths of its areas. */
static size_t patch_len, full_len;
static void fresh(size_t n) {
    patch_len = 512 + 512 * n;
    full_len = 4096 + 8192 * n;
    CHECK(thx_format(patch, patch_len, full, full_len).number == THX_DONE);
}

/* One pair of a byte, counted out and not shifted. */
static unsigned pair_of(uint8_t byte, unsigned which) {
    unsigned rest = byte;
    while (which-- > 0) {
        rest /= 4;
    }
    return rest % 4;
}

/* A page written by the pair, over a base of zeros. */
static thx_written write_page(uint8_t *map, size_t map_len, uint64_t block, const uint8_t *as) {
    store to = {patch, patch_len, full, full_len, map, map_len};
    return write_by_pair(&to, block, NULL, 0, as, 8192);
}

/* What each kind makes of the byte of blocks 0 to 5, where it was 00 and where it was FF. */
static const struct {
    size_t byte;
    uint8_t over_00[3], over_ff[3];
} kept[BLOCKS] = {
    {0, {0x00, 0x02, 0x01}, {0xFC, 0xFE, 0xFD}}, {0, {0x00, 0x08, 0x04}, {0xF3, 0xFB, 0xF7}},
    {0, {0x00, 0x20, 0x10}, {0xCF, 0xEF, 0xDF}}, {0, {0x00, 0x80, 0x40}, {0x3F, 0xBF, 0x7F}},
    {1, {0x00, 0x02, 0x01}, {0xFC, 0xFE, 0xFD}}, {1, {0x00, 0x08, 0x04}, {0xF3, 0xFB, 0xF7}},
};

/* Each kind into each block: both areas as without a map, one byte of the map, no other. */
static void own_pairs(void) {
    unsigned block, kind, ff;
    for (block = 0; block < BLOCKS; block++) {
        for (kind = 0; kind < 3; kind++) {
            for (ff = 0; ff < 2; ff++) {
                store without = {patch_after, sizeof patch, full_after, sizeof full, NULL, 0};
                uint8_t map[4], after[4];
                thx_written r;
                memset(map, ff ? 0xFF : 0x00, sizeof map);
                memcpy(after, map, sizeof map);
                after[kept[block].byte] = ff ? kept[block].over_ff[kind] : kept[block].over_00[kind];
                fresh(BLOCKS);
                memcpy(patch_after, patch, sizeof patch);
                memcpy(full_after, full, sizeof full);
                r = write_by_pair(&without, block, NULL, 0, pages[kind], 8192);
                CHECK(r.number == THX_DONE && r.kind == kind && r.length == lengths[kind]);
                r = write_page(map, sizeof map, block, pages[kind]);
                CHECK(r.number == THX_DONE && r.kind == kind && r.length == lengths[kind]);
                CHECK(memcmp(map, after, sizeof map) == 0);
                CHECK(memcmp(patch, patch_after, sizeof patch) == 0);
                CHECK(memcmp(full, full_after, sizeof full) == 0);
            }
        }
    }
}

/* A run of writes and the map after each; then it is the built one, and reads by it are Read's. */
static void a_run(void) {
    static const struct {
        uint64_t block;
        unsigned kind;
        uint8_t map[2];
    } run[] = {
        {0, 1, {0x02, 0x00}}, {1, 2, {0x06, 0x00}}, {3, 1, {0x86, 0x00}}, {5, 2, {0x86, 0x04}},
        {4, 1, {0x86, 0x06}}, {2, 2, {0x96, 0x06}}, {0, 2, {0x95, 0x06}}, {1, 1, {0x99, 0x06}},
        {3, 0, {0x19, 0x06}}, {5, 0, {0x19, 0x02}}, {0, 0, {0x18, 0x02}},
    };
    uint8_t map[2] = {0, 0}, built[2] = {0xEE, 0xEE};
    size_t k;
    uint64_t block;
    fresh(BLOCKS);
    for (k = 0; k < sizeof run / sizeof run[0]; k++) {
        CHECK(write_page(map, sizeof map, run[k].block, pages[run[k].kind]).kind == run[k].kind);
        CHECK(memcmp(map, run[k].map, sizeof map) == 0);
    }
    CHECK(thx_build(patch, patch_len, full, full_len, built, sizeof built).number == THX_DONE);
    CHECK(memcmp(map, built, sizeof map) == 0);
    for (block = 0; block <= BLOCKS; block++) {
        thx_reading by_slot, by_map;
        memset(page, 0xEE, sizeof page);
        memset(wanted, 0xEE, sizeof wanted);
        by_slot = thx_read(patch, patch_len, full, full_len, block, fives, 8192, wanted, 8192);
        by_map = thx_read_mapped(patch, patch_len, full, full_len, map, sizeof map, block, fives,
                                 8192, page, 8192);
        CHECK(by_slot.number == by_map.number && by_slot.kind == by_map.kind);
        CHECK(by_slot.number == (block < BLOCKS ? THX_DONE : THX_BAD_BLOCK));
        CHECK(by_map.offset == 0 && memcmp(page, wanted, sizeof page) == 0);
    }
}

/*
 * A decision that is refused leaves every byte of the map, and of both areas. The payload, 00 07 and
 * zeros, and the page of fives are lent with it, as far as their lengths say.
 */
static void left(uint32_t number, size_t map_len, uint64_t block, uint32_t kind, size_t payload_len,
                 size_t page_len) {
    static const uint8_t bytes[3] = {0x00, 0xFF, 0x2D}, payload[506] = {0x00, 0x07};
    unsigned k;
    for (k = 0; k < 3; k++) {
        uint8_t map[3], before[3];
        thx_written r;
        memset(map, bytes[k], sizeof map);
        memcpy(before, map, sizeof map);
        memcpy(patch_after, patch, sizeof patch);
        memcpy(full_after, full, sizeof full);
        r = thx_carry_out_mapped(patch, patch_len, full, full_len, map, map_len, block, kind,
                                 payload, payload_len, fives, page_len, THX_STORES_ALL);
        CHECK(r.number == number && r.kind == 0 && r.length == 0);
        CHECK(memcmp(map, before, sizeof map) == 0);
        CHECK(memcmp(patch, patch_after, sizeof patch) == 0);
        CHECK(memcmp(full, full_after, sizeof full) == 0);
    }
}

static void refused_writes(void) {
    fresh(BLOCKS);
    left(THX_BAD_PAGE_LENGTH, 1, 9, 2, 2, 8191);
    left(THX_SHORT_BUFFER, 1, 0, 1, 2, 8191); /* a PATCH asks for no page */
    left(THX_SHORT_BUFFER, 0, 0, 0, 0, 0);
    left(THX_BAD_BLOCK, 2, 6, 2, 2, 8192);
    left(THX_BAD_BLOCK, 2, UINT64_C(1) << 55, 3, 0, 0);
    left(THX_BAD_SLOT, 2, 5, 3, 0, 0);
    left(THX_BAD_SLOT, 2, 0, UINT32_MAX, 2, 8192);
    left(THX_BAD_PAYLOAD, 2, 0, 1, 0, 8192);
    left(THX_BAD_PAYLOAD, 2, 5, 1, 3, 8192);
    left(THX_BAD_PAYLOAD, 2, 5, 1, 505, 0);
    left(THX_BAD_PAYLOAD, 2, 5, 1, 506, 0);
    full_len = 4096 + 8192; /* one place */
    left(THX_NO_FULL_PAGE, 2, 1, 2, 0, 8192);
    left(THX_NO_FULL_PAGE, 2, 5, 2, 3, 8192);
    left(THX_NO_FULL_PAGE, 3, 5, 2, 506, 8192);
    patch[8] = 1;
    left(THX_BAD_VERSION, 2, 9, 3, 0, 0);
    left(THX_SHORT_BUFFER, 1, 9, 2, 2, 8192); /* the map's length before the headers */
    full_len++;
    left(THX_BAD_AREA_LENGTH, 1, 9, 1, 0, 8192); /* and after the areas' */
    left(THX_BAD_PAGE_LENGTH, 1, 9, 2, 2, 8193); /* which come after a FULL_REF's page */
}

/* Every byte of a map, for three blocks, whose fourth pair is unused, and for four. */
static void every_write(void) {
    unsigned n, byte, block, kind, pair;
    for (n = 3; n <= 4; n++) {
        fresh(n);
        for (byte = 0; byte < 256; byte++) {
            for (block = 0; block < n; block++) {
                for (kind = 0; kind < 3; kind++) {
                    uint8_t map[2];
                    map[0] = map[1] = (uint8_t)byte;
                    CHECK(write_page(map, sizeof map, block, pages[kind]).kind == kind);
                    CHECK(map[1] == byte);
                    for (pair = 0; pair < 4; pair++) {
                        CHECK(pair_of(map[0], pair) == (pair == block
                              ? kind_pairs[kind] : pair_of((uint8_t)byte, pair)));
                    }
                }
            }
        }
    }
}

/*
 * What stands in a slot: EMPTY, PATCH, PATCH with an entry cut off at 2, PATCH with a jump below 255
 * by the long code at 2, FULL_REF, no sound slot.
 */
enum { EMPTY, SOUND, BROKEN, SHORT_JUMP, FULL_REF, UNSOUND, SORTS };
static const uint8_t slots[SORTS][14] = {
    {0, 0, 0, 0, 0, 0, 0, 0, 0, 0, 0, 0, 0, 0}, {1, 1, 2, 0, 0, 0, 0, 0, 0, 7, 0, 0, 0, 0},
    {1, 1, 3, 0, 0, 0, 0, 0, 0, 7, 0, 0, 0, 0}, {1, 1, 6, 0, 0, 0, 0, 0, 0, 7, 255, 254, 0, 5},
    {2, 0, 0, 0, 0, 0, 0, 0, 0, 0, 0, 0, 0, 0}, {3, 0, 0, 0, 0, 0, 0, 0, 0, 0, 0, 0, 0, 0},
};

/* The answer by a pair; `wanted` becomes the page afterwards. The base is fives, places are nines. */
static thx_reading read_by(unsigned pair, unsigned sort, int has_place) {
    thx_reading r = {THX_DONE, 0, 0};
    memset(wanted, 0xEE, sizeof wanted);
    if (pair == 0) {
        r.kind = THX_KIND_EMPTY;
        memset(wanted, 5, sizeof wanted);
    } else if (pair == 1 && has_place) {
        r.kind = THX_KIND_FULL;
        memset(wanted, 9, sizeof wanted);
    } else if (pair == 1) {
        r.number = THX_NO_FULL_PAGE;
    } else if (pair == 3) {
        r.number = THX_BAD_PAIR;
    } else if (sort == SOUND) {
        r.kind = THX_KIND_PATCH;
        memset(wanted, 5, sizeof wanted);
        wanted[0] = 7;
    } else if (sort == BROKEN || sort == SHORT_JUMP) {
        r.number = THX_BAD_PAYLOAD;
        r.offset = 2;
    } else {
        r.number = THX_BAD_SLOT;
    }
    return r;
}

/* Every byte of a map over every sort of slot; two of the four blocks have a place. */
static void every_read(void) {
    unsigned sort, byte, block;
    for (sort = 0; sort < SORTS; sort++) {
        fresh(4);
        full_len = 4096 + 8192 * 2;
        memset(full + 4096, 9, 8192 * 2);
        for (block = 0; block < 4; block++) {
            memcpy(patch + 512 + 512 * block, slots[sort], sizeof slots[sort]);
        }
        memcpy(patch_after, patch, sizeof patch);
        memcpy(full_after, full, sizeof full);
        for (byte = 0; byte < 256; byte++) {
            for (block = 0; block < 4; block++) {
                uint8_t map[2];
                thx_reading r, want = read_by(pair_of((uint8_t)byte, block), sort, block < 2);
                map[0] = map[1] = (uint8_t)byte;
                memset(page, 0xEE, sizeof page);
                r = thx_read_mapped(patch, patch_len, full, full_len, map, 1 + byte % 2, block,
                                    fives, 8192, page, 8192);
                CHECK(r.number == want.number && r.kind == want.kind && r.offset == want.offset);
                CHECK(memcmp(page, wanted, sizeof page) == 0);
                CHECK(map[0] == byte && map[1] == byte && fives[0] == 5);
            }
        }
        CHECK(memcmp(patch, patch_after, sizeof patch) == 0);
        CHECK(memcmp(full, full_after, sizeof full) == 0);
    }
}

void every_map(void) {
    small[0] = 7;
    memset(fives, 5, sizeof fives);
    own_pairs();
    a_run();
    refused_writes();
    every_write();
    every_read();
}
