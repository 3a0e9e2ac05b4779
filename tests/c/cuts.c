/*
 * Cuts by hand. In a store whose slots, places and pairs hold anything but zeros each byte tells
 * whether it was dropped or kept: every k is cut at, with and without a full area and a map. Then a
 * day with cuts, and the highest block, with every sort of slot below it and above it.
 */
#include "check.h"

#include <string.h>

#define MOST 9
static uint8_t patch[512 + 512 * MOST], full[4096 + 8192 * MOST], map[4];
static uint8_t patch_after[sizeof patch], full_after[sizeof full], map_after[sizeof map];

/* A fresh store of n blocks and m places, or with no full area; the lengths of its areas. */
#define ABSENT SIZE_MAX
static size_t blocks, patch_len, full_len;
static void fresh(size_t n, size_t m) {
    blocks = n;
    patch_len = 512 + 512 * n;
    full_len = m == ABSENT ? 0 : 4096 + 8192 * m;
    CHECK(thx_format(patch, patch_len, full, full_len).number == THX_DONE);
}

/*
 * What a store holds before a cut: no sound slot and no zero byte; EMPTY slots and stray bytes in
 * every place; PATCH, FULL_REF and EMPTY in turn, as a store should be.
 */
enum { NOISE, STRAY, SOUND, FILLINGS };

static void fill(int filling) {
    size_t at;
    for (at = 512; at < patch_len; at++) {
        patch[at] = (uint8_t)(filling == NOISE ? 1 + at % 255 : 0);
    }
    for (at = 4096; at < full_len; at++) {
        full[at] = (uint8_t)(filling == SOUND ? 0 : 1 + at % 255);
    }
    for (at = 0; at < blocks && filling == SOUND; at++) {
        static const uint8_t patch_slot[10] = {1, 1, 2, 0, 0, 0, 0, 0, 0x00, 0x07};
        if (at % 3 == 0) {
            memcpy(patch + 512 + 512 * at, patch_slot, sizeof patch_slot);
        } else if (at % 3 == 1) {
            patch[512 + 512 * at] = 2;
            if (4096 + 8192 * at < full_len) {
                memset(full + 4096 + 8192 * at, 5, 8192);
            }
        }
    }
}

/* A byte of the map after a cut: pairs of blocks k to n - 1 are 0, counted out and not shifted. */
static uint8_t cut_byte(uint8_t byte, size_t number, uint64_t k) {
    unsigned pair, weight = 1, left = 0;
    for (pair = 0; pair < 4; pair++) {
        size_t block = 4 * number + pair;
        if (block < k || block >= blocks) {
            left += byte / weight % 4 * weight;
        }
        weight *= 4;
    }
    return (uint8_t)left;
}

static void zero_from(uint8_t *bytes, size_t length, size_t from) {
    if (from < length) {
        memset(bytes + from, 0, length - from);
    }
}

/* A cut that must give a number, with a map of some length or none: every byte is looked at. */
#define NO_MAP SIZE_MAX
static void cut_at(uint64_t k, size_t map_len, uint32_t number) {
    uint8_t *places = full_len == 0 ? NULL : full;
    thx_done r;
    size_t at;
    memcpy(patch_after, patch, sizeof patch);
    memcpy(full_after, full, full_len);
    memcpy(map_after, map, sizeof map);
    if (number == THX_DONE) {
        zero_from(patch_after, patch_len, 512 + 512 * (size_t)k);
        zero_from(full_after, full_len, 4096 + 8192 * (size_t)k);
        for (at = 0; at < sizeof map && map_len != NO_MAP; at++) {
            map_after[at] = cut_byte(map[at], at, k);
        }
    }
    r = map_len == NO_MAP
            ? thx_cut(patch, patch_len, places, full_len, k)
            : thx_cut_mapped(patch, patch_len, places, full_len, map_len == 0 ? NULL : map, map_len,
                             k);
    CHECK(r.number == number);
    CHECK(memcmp(patch, patch_after, sizeof patch) == 0);
    CHECK(memcmp(full, full_after, full_len) == 0);
    CHECK(memcmp(map, map_after, sizeof map) == 0);
}

/* Every k of every store of up to nine blocks and every full area, with a map and without. */
static void every_k(void) {
    size_t n, m, k;
    int filling;
    for (n = 0; n <= MOST; n++) {
        for (m = 0; m <= n + 1; m++) {
            for (k = 0; k <= n + 1; k++) {
                for (filling = 0; filling < FILLINGS; filling++) {
                    uint32_t number = k <= n ? THX_DONE : THX_BAD_BLOCK;
                    fresh(n, m <= n ? m : ABSENT);
                    fill(filling);
                    cut_at(k, NO_MAP, number);
                    fill(filling);
                    memset(map, 0xA6, sizeof map);
                    cut_at(k, (n + 3) / 4, number);
                }
            }
        }
    }
}

/* Where a number could be cut to 32 bits, or its product with 512 or 8,192 could wrap. */
static void far_k(void) {
    static const uint64_t far[] = {
        131071, 131072, 131073, UINT64_C(0x7FFFFFFF), UINT64_C(0x80000000), UINT64_C(0xFFFFFFFF),
        UINT64_C(0x100000000), UINT64_C(0x100000001), UINT64_C(0x100000003),
        (UINT64_C(1) << 51) - 1, UINT64_C(1) << 51, (UINT64_C(1) << 51) + 1,
        (UINT64_C(1) << 55) - 1, UINT64_C(1) << 55, (UINT64_C(1) << 55) + 1,
        UINT64_C(0x7FFFFFFFFFFFFFFF), UINT64_C(0x8000000000000000), UINT64_C(0x8000000000000001),
        UINT64_C(0xFFFFFFFFFFFFFFFD), UINT64_C(0xFFFFFFFFFFFFFFFE), UINT64_C(0xFFFFFFFFFFFFFFFF),
    };
    size_t n, at;
    for (n = 0; n <= MOST; n++) {
        for (at = 0; at < sizeof far / sizeof far[0]; at++) {
            fresh(n, at % 2 == 0 ? n : ABSENT);
            fill(NOISE);
            memset(map, 0xFF, sizeof map);
            cut_at(far[at], NO_MAP, THX_BAD_BLOCK);
            cut_at(far[at], 3, THX_BAD_BLOCK);
            cut_at(far[at], 0, n == 0 ? THX_BAD_BLOCK : THX_SHORT_BUFFER);
        }
    }
}

/*
 * Every byte that a map can have, in its first byte, its last one and behind it, for every k. The
 * pairs below k, those past n and the bytes behind stay, 3 or not. A map of any other length is too
 * short, whatever k is, or long enough.
 */
static void every_pair(void) {
    size_t n, k, length, at;
    unsigned byte;
    for (n = 0; n <= MOST; n++) {
        for (k = 0; k <= n + 1; k++) {
            fresh(n, ABSENT);
            fill(NOISE);
            for (length = 0; length <= sizeof map; length++) {
                uint32_t number = length < (n + 3) / 4 ? THX_SHORT_BUFFER
                                  : k > n              ? THX_BAD_BLOCK
                                                       : THX_DONE;
                for (byte = 0; byte < 256; byte += length == (n + 3) / 4 ? 1 : 15) {
                    for (at = 0; at < sizeof map; at++) {
                        map[at] = (uint8_t)(at % 2 == 0 ? byte : 255 - byte);
                    }
                    cut_at(k, length, number);
                }
            }
        }
    }
}

/* Pages over a base of zeros, one of each kind, and another base. */
static uint8_t zeros[8192], small[8192], fives[8192], nines[8192], page[8192], wanted[8192];
static const uint8_t *const pages[3] = {zeros, small, fives};

static void write_page(uint64_t block, const uint8_t *base, const uint8_t *as, uint32_t kind) {
    store to = {patch, patch_len, full, full_len, map, 2};
    thx_written r = write_by_pair(&to, block, base, 8192, as, 8192);
    CHECK(r.number == THX_DONE && r.kind == kind);
}

/* A block reads as a page, by its slot and by the map. */
static void reads_as(uint64_t block, const uint8_t *base, const uint8_t *as, uint32_t kind) {
    thx_reading r;
    memset(page, 0xEE, sizeof page);
    r = thx_read(patch, patch_len, full, full_len, block, base, 8192, page, 8192);
    CHECK(r.number == THX_DONE && r.kind == kind && memcmp(page, as, sizeof page) == 0);
    memset(page, 0xEE, sizeof page);
    r = thx_read_mapped(patch, patch_len, full, full_len, map, 2, block, base, 8192, page, 8192);
    CHECK(r.number == THX_DONE && r.kind == kind && memcmp(page, as, sizeof page) == 0);
}

/* The map is what it should be and what Build makes of areas that it accepts; then the highest. */
static void stands(uint8_t first, uint8_t second, uint64_t highest) {
    uint8_t built[2] = {0xEE, 0xEE};
    thx_extent r = thx_highest(patch, patch_len);
    CHECK(map[0] == first && map[1] == second);
    CHECK(thx_build(patch, patch_len, full, full_len, built, sizeof built).number == THX_DONE);
    CHECK(memcmp(map, built, sizeof built) == 0);
    CHECK(r.number == THX_DONE && r.blocks == highest);
}

/* Six blocks, written, cut, and written again where they were cut over another base. */
static void a_day(void) {
    static const uint32_t kinds[6] = {1, 2, 2, 1, 1, 2};
    uint64_t block;
    fresh(6, 6);
    memset(map, 0, sizeof map);
    stands(0x00, 0x00, 0);
    for (block = 0; block < 6; block++) {
        write_page(block, zeros, pages[kinds[block]], kinds[block]);
    }
    stands(0x96, 0x06, 6);
    cut_at(6, 2, THX_DONE);
    stands(0x96, 0x06, 6);
    cut_at(3, 2, THX_DONE);
    stands(0x16, 0x00, 3);
    for (block = 0; block < 6; block++) {
        if (block < 3) {
            reads_as(block, zeros, pages[kinds[block]], kinds[block]);
        } else { /* as the base, whichever that is now */
            reads_as(block, zeros, zeros, THX_KIND_EMPTY);
            reads_as(block, nines, nines, THX_KIND_EMPTY);
        }
    }
    memcpy(wanted, nines, sizeof wanted);
    wanted[8191] = 1;
    write_page(4, nines, wanted, THX_KIND_PATCH);
    stands(0x16, 0x02, 5);
    reads_as(4, nines, wanted, THX_KIND_PATCH);
    /* The last page becomes its base: it is EMPTY, though the file is as long as before. */
    write_page(4, nines, nines, THX_KIND_EMPTY);
    stands(0x16, 0x00, 3);
    cut_at(2, 2, THX_DONE);
    stands(0x06, 0x00, 2);
    cut_at(0, 2, THX_DONE);
    stands(0x00, 0x00, 0);
}

/* A cut leaves what the writes below it alone leave; at 0, fresh areas, whatever was there. */
static void as_never_written(void) {
    static const uint32_t kinds[6] = {1, 2, 0, 1, 2, 1};
    uint64_t k, block;
    for (k = 0; k <= 6; k++) {
        fresh(6, 4);
        memset(map, 0, sizeof map);
        for (block = 0; block < k; block++) {
            write_page(block, zeros, pages[block == 4 ? 1 : kinds[block]],
                       block == 4 ? 1 : kinds[block]);
        }
        memcpy(patch_after, patch, sizeof patch);
        memcpy(full_after, full, sizeof full);
        memcpy(map_after, map, sizeof map);
        for (block = 6; block-- > k;) {
            write_page(block, zeros, small, THX_KIND_PATCH);
            patch[512 + 512 * block + 511] = 1; /* not sound any more */
        }
        for (block = k; block < 4; block++) {
            full[4096 + 8192 * block + 77] = 1; /* stray */
        }
        CHECK(thx_cut_mapped(patch, patch_len, full, full_len, map, 2, k).number == THX_DONE);
        CHECK(memcmp(patch, patch_after, sizeof patch) == 0);
        CHECK(memcmp(full, full_after, sizeof full) == 0);
        CHECK(memcmp(map, map_after, sizeof map) == 0);
    }
}

/* What the header says of a map that missed a cut: 6 for a patch, zeros for a full page. */
static void a_map_that_missed_a_cut(void) {
    thx_reading r;
    fresh(2, 2);
    memset(map, 0, sizeof map);
    write_page(0, nines, fives, THX_KIND_FULL);
    write_page(1, zeros, small, THX_KIND_PATCH);
    cut_at(0, NO_MAP, THX_DONE);
    CHECK(map[0] == 0x09);
    r = thx_read_mapped(patch, patch_len, full, full_len, map, 1, 0, nines, 8192, page, 8192);
    CHECK(r.number == THX_DONE && r.kind == THX_KIND_FULL && memcmp(page, zeros, 8192) == 0);
    r = thx_read_mapped(patch, patch_len, full, full_len, map, 1, 1, nines, 8192, page, 8192);
    CHECK(r.number == THX_BAD_SLOT);
}

void every_cut(void) {
    small[0] = 7;
    memset(fives, 5, sizeof fives);
    memset(nines, 9, sizeof nines);
    every_k();
    far_k();
    every_pair();
    a_day();
    as_never_written();
    a_map_that_missed_a_cut();
}

/* Sorts of slots: the first bytes, and one more that is 1. The first four are sound. */
typedef struct {
    uint8_t head[4];
    size_t one;
} sort;

#define SOUND_SORTS 4
static const sort sorts[] = {
    {{0, 0, 0, 0}, 0},                                   /* EMPTY */
    {{1, 1, 2, 0}, 8},                                   /* PATCH */
    {{1, 1, 3, 0}, 8},                                   /* PATCH, its payload is cut off */
    {{2, 0, 0, 0}, 0},                                   /* FULL_REF */
    {{3, 0, 0, 0}, 0},   {{255, 0, 0, 0}, 0},            /* no such kind */
    {{0, 1, 0, 0}, 0},   {{0, 0, 0, 0}, 511},            /* EMPTY is zero */
    {{2, 1, 0, 0}, 0},   {{2, 0, 0, 0}, 511},            /* FULL_REF is zero but for its kind */
    {{1, 1, 0, 0}, 0},   {{1, 1, 249, 1}, 8},            /* payload lengths 0 and 505 */
    {{1, 0, 2, 0}, 8},   {{1, 3, 2, 0}, 8},              /* other flags */
    {{1, 1, 2, 0}, 7},   {{1, 1, 2, 0}, 511},            /* not zero before and after the payload */
};
#define SORTS (sizeof sorts / sizeof sorts[0])

static void set_slot(size_t block, const sort *as) {
    uint8_t *slot = patch + 512 + 512 * block;
    memset(slot, 0, 512);
    memcpy(slot, as->head, sizeof as->head);
    if (as->one != 0) {
        slot[as->one] = 1;
    }
}

static void highest_is(uint32_t number, uint64_t highest) {
    thx_extent r;
    memcpy(patch_after, patch, sizeof patch);
    r = thx_highest(patch, patch_len);
    CHECK(r.number == number && r.blocks == highest);
    CHECK(memcmp(patch, patch_after, sizeof patch) == 0);
}

/* Every row of up to six slots of the four sound sorts and one that is not sound. */
static void every_row(void) {
    size_t n, row, rows = 1, block;
    for (n = 0; n <= 6; n++) {
        fresh(n, ABSENT);
        for (row = 0; row < rows; row++) {
            size_t rest = row, highest = 0, unsound = 0;
            for (block = 0; block < n; block++) {
                size_t which = rest % 5;
                rest /= 5;
                set_slot(block, &sorts[which]);
                highest = which != 0 ? block + 1 : highest;
                unsound += which == SOUND_SORTS;
            }
            highest_is(unsound == 0 ? THX_DONE : THX_BAD_SLOT, unsound == 0 ? highest : 0);
        }
        rows *= 5;
    }
}

/* Every sort that is not sound at every place, with the highest block at every other. */
static void every_unsound(void) {
    size_t n, highest, which, block;
    for (n = 1; n <= MOST; n++) {
        fresh(n, ABSENT);
        for (highest = 0; highest <= n; highest++) {
            for (block = 0; block < n; block++) {
                /* Below the highest are EMPTY blocks and others. */
                size_t below = block < highest ? block % 2 : 0;
                set_slot(block, &sorts[block + 1 == highest ? 1 + highest % 3 : below]);
            }
            highest_is(THX_DONE, highest);
            for (block = 0; block < n; block++) {
                uint8_t slot[512];
                memcpy(slot, patch + 512 + 512 * block, sizeof slot);
                for (which = SOUND_SORTS; which < SORTS; which++) {
                    set_slot(block, &sorts[which]);
                    highest_is(THX_BAD_SLOT, 0);
                }
                memcpy(patch + 512 + 512 * block, slot, sizeof slot);
            }
        }
    }
}

void every_highest(void) {
    every_row();
    every_unsound();
}
