/*
 * Sweeps by hand: every row of up to four slots of five sorts, with every full area and a page in
 * each place; which of two faults is given; single bytes at the edges of a place. Then what a map
 * from before a stop gives once the areas are swept.
 */
#include "check.h"

#include <string.h>

#define PLACES 4
static uint8_t patch[512 + 512 * PLACES], full[4096 + 8192 * PLACES];
static uint8_t patch_after[sizeof patch], full_after[sizeof full];
static uint8_t zeros[8192], base[8192], fives[8192], nines[8192], page[8192], wanted[8192];

/* Sorts of slots: the first bytes, one more that is 1, and the number by which it is refused. */
typedef struct {
    uint8_t head[4];
    size_t one;
    uint32_t number;
} slot_sort;
#define BROKEN_SORT 2
#define FULL_SORT 3
#define ROW_SORTS 5
static const slot_sort slots[] = {
    {{0, 0, 0, 0}, 0, THX_DONE},       /* EMPTY */
    {{1, 1, 2, 0}, 8, THX_DONE},       /* PATCH */
    {{1, 1, 3, 0}, 8, THX_DONE},       /* PATCH, its payload is cut off, which is not looked at */
    {{2, 0, 0, 0}, 0, THX_DONE},       /* FULL_REF */
    {{3, 0, 0, 0}, 0, THX_BAD_SLOT},   /* no such kind */
    {{255, 0, 0, 0}, 0, THX_BAD_SLOT}, {{0, 1, 0, 0}, 0, THX_BAD_SLOT},
    {{0, 0, 0, 0}, 511, THX_BAD_SLOT}, {{2, 1, 0, 0}, 0, THX_BAD_SLOT},
    {{2, 0, 0, 0}, 511, THX_BAD_SLOT}, {{1, 1, 0, 0}, 0, THX_BAD_SLOT},
    {{1, 1, 249, 1}, 8, THX_BAD_SLOT}, {{1, 0, 2, 0}, 8, THX_BAD_SLOT},
    {{1, 3, 2, 0}, 8, THX_BAD_SLOT},   {{1, 1, 2, 0}, 7, THX_BAD_SLOT},
    {{1, 1, 2, 0}, 511, THX_BAD_SLOT},
};
#define SLOT_SORTS (sizeof slots / sizeof slots[0])

/* A store of n blocks and m places, or without a full area; no byte of a place is zero. */
#define ABSENT SIZE_MAX
static size_t blocks, places, patch_len, full_len;
static void litter(size_t n, size_t m) {
    size_t at;
    blocks = n;
    places = m == ABSENT ? 0 : m;
    patch_len = 512 + 512 * n;
    full_len = m == ABSENT ? 0 : 4096 + 8192 * m;
    CHECK(thx_format(patch, patch_len, full, full_len).number == THX_DONE);
    for (at = 4096; at < full_len; at++) {
        full[at] = (uint8_t)(1 + at % 255);
    }
}

static void set_slot(size_t block, const slot_sort *as) {
    uint8_t *slot = patch + 512 + 512 * block;
    memset(slot, 0, 512);
    memcpy(slot, as->head, sizeof as->head);
    if (as->one != 0) {
        slot[as->one] = 1;
    }
}

/* A sweep that must give a number; if it is done, the places of the blocks named become zeros. */
static void sweep_gives(uint32_t number, const size_t *zeroed, size_t count) {
    size_t k;
    memcpy(patch_after, patch, sizeof patch);
    memcpy(full_after, full, sizeof full);
    for (k = 0; k < count && number == THX_DONE; k++) {
        memset(full_after + 4096 + 8192 * zeroed[k], 0, 8192);
    }
    CHECK(thx_sweep(patch, patch_len, full_len == 0 ? NULL : full, full_len).number == number);
    CHECK(memcmp(patch, patch_after, sizeof patch) == 0);
    CHECK(memcmp(full, full_after, sizeof full) == 0);
}

/* The fault of a block: its slot's own, or a FULL_REF slot without a place. */
static uint32_t fault_of(size_t which, int has_place) {
    return which == FULL_SORT && !has_place ? THX_NO_FULL_PAGE : slots[which].number;
}

/* What a row of slots comes to: the lowest block's fault, or the places that become zeros. */
static uint32_t row_gives(const size_t *row, size_t *zeroed, size_t *count) {
    size_t block;
    *count = 0;
    for (block = 0; block < blocks; block++) {
        uint32_t fault = fault_of(row[block], block < places);
        if (fault != THX_DONE) {
            return fault;
        }
        if (row[block] != FULL_SORT && block < places) {
            zeroed[(*count)++] = block;
        }
    }
    return THX_DONE;
}

/* The answers and pages of all blocks, one after the other. */
static uint8_t pages_read[2][PLACES][8192];
static thx_reading readings[2][PLACES];
static void read_all(int which) {
    size_t block;
    memset(pages_read[which], 0xEE, sizeof pages_read[which]);
    memset(readings[which], 0, sizeof readings[which]);
    for (block = 0; block < blocks; block++) {
        readings[which][block] =
            thx_read(patch, patch_len, full_len == 0 ? NULL : full, full_len, block, base,
                     sizeof base, pages_read[which][block], 8192);
    }
}

/* After an accepted sweep each block reads as before, Build gives no 10, and another is none. */
static void swept_well(const size_t *row) {
    uint8_t built = 0xEE;
    uint32_t number = THX_DONE;
    size_t block;
    for (block = 0; block < blocks; block++) {
        number = row[block] == BROKEN_SORT ? THX_BAD_PAYLOAD : number;
    }
    read_all(1);
    CHECK(memcmp(pages_read[0], pages_read[1], sizeof pages_read[0]) == 0);
    CHECK(memcmp(readings[0], readings[1], sizeof readings[0]) == 0);
    CHECK(thx_build(patch, patch_len, full_len == 0 ? NULL : full, full_len, &built, 1).number
          == number);
    sweep_gives(THX_DONE, NULL, 0);
}

/* Every row of up to four slots of five sorts, with every full area and without one. */
static void every_row(void) {
    size_t n, m, number, rows = 1, block;
    for (n = 0; n <= PLACES; n++) {
        for (number = 0; number < rows; number++) {
            size_t row[PLACES] = {0, 0, 0, 0}, rest = number;
            for (block = 0; block < n; block++) {
                row[block] = rest % ROW_SORTS;
                rest /= ROW_SORTS;
            }
            for (m = 0; m <= n + 1; m++) {
                size_t zeroed[PLACES], count;
                uint32_t gives;
                litter(n, m <= n ? m : ABSENT);
                for (block = 0; block < n; block++) {
                    set_slot(block, &slots[row[block]]);
                }
                read_all(0);
                gives = row_gives(row, zeroed, &count);
                sweep_gives(gives, zeroed, count);
                if (gives == THX_DONE) {
                    swept_well(row);
                }
            }
        }
        rows *= ROW_SORTS;
    }
}

/*
 * Slots of every sort in blocks 1 and 3, where the first two blocks have a place and where none has:
 * of two faults the lower block's is given.
 */
static void lowest_fault(void) {
    static const size_t zeroed[2] = {0, 1};
    size_t low, high;
    int absent;
    for (low = 0; low < SLOT_SORTS; low++) {
        for (high = 0; high < SLOT_SORTS; high++) {
            for (absent = 0; absent < 2; absent++) {
                uint32_t number = fault_of(low, !absent);
                litter(4, absent ? ABSENT : 2);
                set_slot(1, &slots[low]);
                set_slot(3, &slots[high]);
                sweep_gives(number != THX_DONE ? number : fault_of(high, 0), zeroed,
                            absent ? 0 : low == FULL_SORT ? 1 : 2);
            }
        }
    }
}

/* The same store by hand: which number, and which places; FULL_REF in block 1 of three places. */
static void by_hand(void) {
    static const size_t first_and_last[2] = {0, 2}, all[3] = {0, 1, 2};
    litter(4, 3);
    set_slot(1, &slots[FULL_SORT]);
    sweep_gives(THX_DONE, first_and_last, 2);
    CHECK(full[4095] == 0 && full[4096] == 0 && full[12287] == 0); /* block 0 */
    CHECK(full[12288] != 0 && full[20479] != 0);                   /* block 1 */
    CHECK(full[20480] == 0 && full[28671] == 0);                   /* block 2, the last below m */
    litter(4, 3);
    set_slot(3, &slots[FULL_SORT]); /* block m */
    sweep_gives(THX_NO_FULL_PAGE, NULL, 0);
    set_slot(2, &slots[SLOT_SORTS - 1]);
    sweep_gives(THX_BAD_SLOT, NULL, 0);
    set_slot(3, &slots[0]);
    set_slot(2, &slots[1]);
    sweep_gives(THX_DONE, all, 3);
    /* A FULL_REF place of zeros is a page of zeros, and what Build accepts is not changed. */
    set_slot(0, &slots[FULL_SORT]);
    sweep_gives(THX_DONE, NULL, 0);
    /* No blocks at all, with a full area that has a header alone and without one. */
    litter(0, 0);
    sweep_gives(THX_DONE, NULL, 0);
    litter(0, ABSENT);
    sweep_gives(THX_DONE, NULL, 0);
}

/* One byte that is not zero in each place in turn, at its edges: it becomes zero, and no other. */
static void single_bytes(void) {
    static const size_t at[] = {0, 1, 511, 512, 4095, 4096, 8190, 8191};
    size_t block, k;
    for (block = 0; block < PLACES; block++) {
        for (k = 0; k < sizeof at / sizeof at[0]; k++) {
            litter(PLACES, PLACES);
            memset(full + 4096, 0, sizeof full - 4096);
            set_slot((block + 1) % PLACES, &slots[FULL_SORT]);
            memset(full + 4096 + 8192 * ((block + 1) % PLACES), 5, 8192);
            full[4096 + 8192 * block + at[k]] = 1;
            sweep_gives(THX_DONE, &block, 1);
        }
    }
}

/*
 * A map from before a stop, after the sweep: what a block held and what it was to become, told one;
 * the pair, and what a read by it gives.
 */
enum { OLD_PAGE, NEW_PAGE, THE_BASE, NOTHING_BUT_ZEROS, REFUSED };
static const struct {
    uint32_t held, becomes;
    uint32_t pair, kind;
    int gives;
} old_maps[] = {
    {2, 1, 1, 2, NOTHING_BUT_ZEROS}, /* the trap: neither the old page nor the new one */
    {2, 0, 1, 2, NOTHING_BUT_ZEROS},
    {0, 1, 0, 0, THE_BASE}, /* the page of before, though the write stands */
    {1, 0, 2, 0, REFUSED},
    {1, 1, 2, 1, NEW_PAGE}, /* the pair is right by chance */
    {2, 2, 1, 2, NEW_PAGE},
    {0, 2, 0, 0, THE_BASE}, /* right: the write is not there */
    {1, 2, 2, 1, OLD_PAGE}, /* and so here */
};

static const uint8_t seven[2] = {0x00, 0x07}, nine[2] = {0x00, 0x09};

/* The page that a block held, and the one that it was to become. */
static const uint8_t *page_of(uint32_t kind, int as) {
    memcpy(wanted, base, sizeof wanted);
    if (kind == THX_KIND_FULL) {
        memset(wanted, as == OLD_PAGE ? 5 : 9, sizeof wanted);
    } else if (kind == THX_KIND_PATCH) {
        wanted[0] = as == OLD_PAGE ? 7 : 9;
    }
    return wanted;
}

static void expect_by_old_map(size_t k) {
    if (old_maps[k].gives == OLD_PAGE) {
        page_of(old_maps[k].held, OLD_PAGE);
    } else if (old_maps[k].gives == NEW_PAGE) {
        page_of(old_maps[k].becomes, NEW_PAGE);
    } else if (old_maps[k].gives == THE_BASE) {
        memcpy(wanted, base, sizeof wanted);
    } else {
        memset(wanted, old_maps[k].gives == REFUSED ? 0xEE : 0, sizeof wanted);
    }
}

static void read_by_old_map(size_t k, uint8_t *old, size_t old_len) {
    thx_reading r;
    CHECK(thx_look_up(old, old_len, 2, 1).pair == old_maps[k].pair);
    memset(page, 0xEE, sizeof page);
    expect_by_old_map(k);
    r = thx_read_mapped(patch, 1536, full, 4096 + 8192 * 2, old, old_len, 1, base, sizeof base,
                        page, sizeof page);
    CHECK(r.number == (old_maps[k].gives == REFUSED ? THX_BAD_SLOT : THX_DONE));
    CHECK(r.kind == old_maps[k].kind && memcmp(page, wanted, sizeof page) == 0);
}

/* Block 1 of two is written with a map and written again, stopped; the areas are swept. */
static void a_map_from_before(size_t k) {
    uint8_t old = 0, built = 0xEE;
    store to = {patch, 1536, full, 4096 + 8192 * 2, &old, 1};
    int first_page = old_maps[k].becomes == THX_KIND_FULL && old_maps[k].held != THX_KIND_FULL;
    thx_reading by_slot, by_map;
    CHECK(thx_format(to.patch, to.patch_len, to.full, to.full_len).number == THX_DONE);
    CHECK(carry_out(&to, 1, old_maps[k].held, seven, 2, fives, 8192).number == THX_DONE);
    CHECK(carry_out_told(&to, 1, old_maps[k].becomes, nine, 2, nines, 8192, 1).number == THX_DONE);
    CHECK(thx_sweep(to.patch, to.patch_len, to.full, to.full_len).number == THX_DONE);
    read_by_old_map(k, &old, 1);
    /* By a map built anew it is the new page; the old one if it was to get its first full page. */
    CHECK(thx_build(to.patch, to.patch_len, to.full, to.full_len, &built, 1).number == THX_DONE);
    page_of(first_page ? old_maps[k].held : old_maps[k].becomes, first_page ? OLD_PAGE : NEW_PAGE);
    by_slot = thx_read(to.patch, to.patch_len, to.full, to.full_len, 1, base, 8192, page, 8192);
    CHECK(by_slot.number == THX_DONE && memcmp(page, wanted, sizeof page) == 0);
    by_map = thx_read_mapped(to.patch, to.patch_len, to.full, to.full_len, &built, 1, 1, base, 8192,
                             page, 8192);
    CHECK(by_map.number == THX_DONE && by_map.kind == by_slot.kind);
    CHECK(memcmp(page, wanted, sizeof page) == 0);
}

/* Before the sweep the old page still stands where the old pair leads; afterwards it does not. */
static void the_trap(void) {
    uint8_t old = 0;
    store to = {patch, 1024, full, 4096 + 8192, &old, 1};
    CHECK(thx_format(to.patch, to.patch_len, to.full, to.full_len).number == THX_DONE);
    CHECK(carry_out(&to, 0, THX_KIND_FULL, NULL, 0, fives, 8192).number == THX_DONE);
    CHECK(old == 0x01);
    CHECK(carry_out_told(&to, 0, THX_KIND_PATCH, nine, 2, NULL, 0, 1).number == THX_DONE);
    CHECK(old == 0x01 && patch[512] == 1 && memcmp(full + 4096, fives, 8192) == 0);
    CHECK(thx_read_mapped(patch, 1024, full, 4096 + 8192, &old, 1, 0, base, 8192, page, 8192).kind
          == THX_KIND_FULL);
    CHECK(memcmp(page, fives, sizeof page) == 0);
    CHECK(thx_sweep(patch, 1024, full, 4096 + 8192).number == THX_DONE);
    CHECK(thx_read_mapped(patch, 1024, full, 4096 + 8192, &old, 1, 0, base, 8192, page, 8192).kind
          == THX_KIND_FULL);
    CHECK(memcmp(page, zeros, sizeof page) == 0);
}

void every_sweep(void) {
    size_t k;
    memset(base, 3, sizeof base);
    memset(fives, 5, sizeof fives);
    memset(nines, 9, sizeof nines);
    every_row();
    lowest_fault();
    by_hand();
    single_bytes();
    for (k = 0; k < sizeof old_maps / sizeof old_maps[0]; k++) {
        a_map_from_before(k);
    }
    the_trap();
}
