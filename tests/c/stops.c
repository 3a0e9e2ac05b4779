/*
 * Writes that are stopped, by hand. Each kind is carried out on blocks of every sort, told none, one
 * and all of its stores by many numbers; every byte is looked at, and what each block reads as. Then
 * every run of three writes and cuts with a stop at each of its writes, swept.
 */
#include "check.h"

#include <string.h>

/* Seven blocks, of which four have a place or none; a map with an unused pair, and a later byte. */
#define BLOCKS 7
#define PLACES 4
static uint8_t patch[512 + 512 * BLOCKS], full[4096 + 8192 * PLACES], map[3];
static uint8_t patch_before[sizeof patch], full_before[sizeof full], map_before[sizeof map];
static uint8_t patch_after[sizeof patch], full_after[sizeof full], map_after[sizeof map];
static uint8_t base[8192], nines[8192], page[8192], wanted[8192];
static size_t full_len;

/* What stands in the slots: of blocks with a place, and then of those that never have one. */
enum { EMPTY, SEVEN, FIVES, NOISE };
static const int sorts[BLOCKS] = {EMPTY, SEVEN, FIVES, NOISE, EMPTY, SEVEN, NOISE};

static const uint8_t seven_slot[10] = {1, 1, 2, 0, 0, 0, 0, 0, 0x00, 0x07};
static const uint8_t nine_slot[10] = {1, 1, 2, 0, 0, 0, 0, 0, 0x00, 0x09};
static const uint8_t nine[2] = {0x00, 0x09};

/*
 * The store before a write. The places of the first two blocks are zeros, those of the others are
 * not. Pairs are true where a slot is sound, and 3 where it is not, where one is unused and in the
 * later byte. Without places block 2 is EMPTY.
 */
static void set_store(int with_places) {
    uint64_t block;
    full_len = with_places ? sizeof full : 0;
    CHECK(thx_format(patch, sizeof patch, full, full_len).number == THX_DONE);
    for (block = 0; block < BLOCKS; block++) {
        uint8_t *slot = patch + 512 + 512 * block;
        if (sorts[block] == SEVEN) {
            memcpy(slot, seven_slot, sizeof seven_slot);
        } else if (sorts[block] == NOISE) {
            memset(slot, 0xEE, 512);
        }
    }
    map[0] = with_places ? 0xD8 : 0xC8;
    map[1] = 0xF8;
    map[2] = 0xFF;
    if (with_places) {
        patch[512 + 512 * 2] = 2;
        memset(full + 4096 + 8192 * 2, 5, 8192);
        memset(full + 4096 + 8192 * 3, 0xDD, 8192);
    }
    memcpy(patch_before, patch, sizeof patch);
    memcpy(full_before, full, sizeof full);
    memcpy(map_before, map, sizeof map);
}

static store the_store(int with_map) {
    store to = {patch, sizeof patch, NULL, 0, NULL, 0};
    to.full = full_len == 0 ? NULL : full;
    to.full_len = full_len;
    to.map = with_map ? map : NULL;
    to.map_len = with_map ? 2 : 0;
    return to;
}

static int has_place(uint64_t block) {
    return full_len != 0 && block < PLACES;
}

/* EMPTY, the payload 00 09, or the page of nines; a FULL_REF without a place is refused. */
static thx_written write_told(uint64_t block, uint32_t kind, uint64_t stores, int with_map) {
    store to = the_store(with_map);
    return carry_out_told(&to, block, kind, nine, sizeof nine, nines, sizeof nines, stores);
}

static int refused(uint64_t block, uint32_t kind) {
    return kind == THX_KIND_FULL && !has_place(block);
}

/* Numbers of stores that are 0 or 1 and that would be if they were cut to fewer bits. */
static const uint64_t numbers[] = {
    0, 1, 2, 3, 4, 255, 256, 257, 65536, 65537, UINT64_C(0x7FFFFFFF), UINT64_C(0x80000000),
    UINT64_C(0x80000001), UINT64_C(0xFFFFFFFF), UINT64_C(0x100000000), UINT64_C(0x100000001),
    UINT64_C(0x200000000), UINT64_C(0x7FFFFFFFFFFFFFFF), UINT64_C(0x8000000000000000),
    UINT64_C(0x8000000000000001), UINT64_C(0xFFFFFFFFFFFFFFFE), UINT64_C(0xFFFFFFFFFFFFFFFF),
};
#define NUMBERS (sizeof numbers / sizeof numbers[0])

enum { NONE, ONE, ALL };
static int told(uint64_t stores) {
    return stores == 0 ? NONE : stores == 1 ? ONE : ALL;
}

/*
 * What becomes of slot and place, by what is told and by the kind; of a block without a place, only
 * the slot.
 */
enum { AS_BEFORE, ZEROS, PATCHED, REFERRING, PAGE_OF_NINES };
static const struct {
    int slot, place;
} stored[3][3] = {
    {{AS_BEFORE, AS_BEFORE}, {AS_BEFORE, AS_BEFORE}, {AS_BEFORE, AS_BEFORE}},
    {{ZEROS, AS_BEFORE}, {PATCHED, AS_BEFORE}, {AS_BEFORE, PAGE_OF_NINES}},
    {{ZEROS, ZEROS}, {PATCHED, ZEROS}, {REFERRING, PAGE_OF_NINES}},
};

/* The map's byte of each block after a write told all, by the kind, with places and without. */
static const uint8_t pair_byte[2][BLOCKS][3] = {
    {{0xC8, 0xCA, 0}, {0xC0, 0xC8, 0}, {0xC8, 0xE8, 0}, {0x08, 0x88, 0},
     {0xF8, 0xFA, 0}, {0xF0, 0xF8, 0}, {0xC8, 0xE8, 0}},
    {{0xD8, 0xDA, 0xD9}, {0xD0, 0xD8, 0xD4}, {0xC8, 0xE8, 0xD8}, {0x18, 0x98, 0x58},
     {0xF8, 0xFA, 0}, {0xF0, 0xF8, 0}, {0xC8, 0xE8, 0}},
};

/* The bytes as they must be after a write that is not refused. */
static void expect(uint64_t block, uint32_t kind, int how_many, int with_map) {
    uint8_t *slot = patch_after + 512 + 512 * block;
    int as = stored[how_many][kind].slot;
    memcpy(patch_after, patch_before, sizeof patch);
    memcpy(full_after, full_before, sizeof full);
    memcpy(map_after, map_before, sizeof map);
    if (as != AS_BEFORE) {
        memset(slot, 0, 512);
        if (as == PATCHED) {
            memcpy(slot, nine_slot, sizeof nine_slot);
        } else if (as == REFERRING) {
            slot[0] = 2;
        }
    }
    as = stored[how_many][kind].place;
    if (as != AS_BEFORE && has_place(block)) {
        memset(full_after + 4096 + 8192 * block, as == PAGE_OF_NINES ? 9 : 0, 8192);
    }
    if (how_many == ALL && with_map) {
        map_after[block / 4] = pair_byte[full_len != 0][block][kind];
    }
}

static void expect_nothing(void) {
    memcpy(patch_after, patch_before, sizeof patch);
    memcpy(full_after, full_before, sizeof full);
    memcpy(map_after, map_before, sizeof map);
}

static void as_expected(void) {
    CHECK(memcmp(patch, patch_after, sizeof patch) == 0);
    CHECK(memcmp(full, full_after, sizeof full) == 0);
    CHECK(memcmp(map, map_after, sizeof map) == 0);
}

/* The answer is the same whatever is told. */
static void answers(thx_written r, uint64_t block, uint32_t kind) {
    if (refused(block, kind)) {
        CHECK(r.number == THX_NO_FULL_PAGE && r.kind == 0 && r.length == 0);
    } else {
        CHECK(r.number == THX_DONE && r.kind == kind && r.length == (kind == 1 ? 2u : 0u));
    }
}

/* The page of a block of the store before the write, over the base. */
static thx_reading read_before(uint64_t block) {
    thx_reading r = {THX_DONE, 0, 0};
    int sort = sorts[block];
    memcpy(wanted, base, sizeof wanted);
    if (sort == NOISE) {
        r.number = THX_BAD_SLOT;
        memset(wanted, 0xEE, sizeof wanted);
    } else if (sort == SEVEN) {
        r.kind = THX_KIND_PATCH;
        wanted[0] = 7;
    } else if (sort == FIVES && full_len != 0) {
        r.kind = THX_KIND_FULL;
        memset(wanted, 5, sizeof wanted);
    }
    return r;
}

/* The page of a block after the whole write. */
static thx_reading read_after(uint32_t kind) {
    thx_reading r = {THX_DONE, 0, 0};
    r.kind = kind;
    memcpy(wanted, kind == THX_KIND_FULL ? nines : base, sizeof wanted);
    if (kind == THX_KIND_PATCH) {
        wanted[0] = 9;
    }
    return r;
}

/* Whether a write told one leaves its block as after the whole: not if it is its first full page. */
static int seen_at_one(uint64_t block, uint32_t kind) {
    return kind != THX_KIND_FULL || sorts[block] == FIVES;
}

/* Every block reads as before, and the written one as before or as its new page, as it must. */
static void reads(uint64_t written, uint32_t kind, int how_many) {
    int seen = how_many == ALL || (how_many == ONE && seen_at_one(written, kind));
    uint64_t block;
    for (block = 0; block < BLOCKS; block++) {
        int after = block == written && seen && !refused(written, kind);
        thx_reading r, want = after ? read_after(kind) : read_before(block);
        memset(page, 0xEE, sizeof page);
        r = thx_read(patch, sizeof patch, full_len == 0 ? NULL : full, full_len, block, base,
                     sizeof base, page, sizeof page);
        CHECK(r.number == want.number && r.kind == want.kind && r.offset == 0);
        CHECK(memcmp(page, wanted, sizeof page) == 0);
    }
}

/* One write by one number; the areas, the map and the answer, and what all blocks read as. */
static void stop(uint64_t block, uint32_t kind, uint64_t stores, int with_map) {
    if (refused(block, kind)) {
        expect_nothing();
    } else {
        expect(block, kind, told(stores), with_map);
    }
    answers(write_told(block, kind, stores, with_map), block, kind);
    as_expected();
    reads(block, kind, told(stores));
}

/* Each kind on each block, with places and without, with a map and without, told each number. */
static void every_told(void) {
    int with_places, with_map;
    uint64_t block;
    uint32_t kind;
    size_t k;
    for (with_places = 0; with_places < 2; with_places++) {
        for (with_map = 0; with_map < 2; with_map++) {
            for (block = 0; block < BLOCKS; block++) {
                for (kind = 0; kind < 3; kind++) {
                    for (k = 0; k < NUMBERS; k++) {
                        set_store(with_places);
                        stop(block, kind, numbers[k], with_map);
                    }
                }
            }
        }
    }
}

/*
 * The same write told fewer and then told all is the whole write, which is how a stop is made safe
 * on files; and a whole write told again, none, one or all, changes nothing more.
 */
static void told_twice(void) {
    static const uint64_t first[] = {0, 1, 2};
    int with_map;
    uint64_t block;
    uint32_t kind;
    size_t k;
    for (with_map = 0; with_map < 2; with_map++) {
        for (block = 0; block < BLOCKS; block++) {
            for (kind = 0; kind < 3; kind++) {
                for (k = 0; k < 3 && !refused(block, kind); k++) {
                    set_store(1);
                    answers(write_told(block, kind, first[k], with_map), block, kind);
                    stop(block, kind, THX_STORES_ALL, with_map);
                    answers(write_told(block, kind, first[k], with_map), block, kind);
                    as_expected();
                }
            }
        }
    }
}

/* A write that is refused leaves all, whatever it is told. */
static void refused_told(void) {
    static const uint8_t cut_off[3] = {0x00, 0x09, 0x00};
    const store *to;
    store with, without;
    size_t k;
    set_store(1);
    expect_nothing();
    with = the_store(1);
    without = the_store(0);
    for (k = 0; k < 2 * NUMBERS; k++) {
        uint64_t n = numbers[k / 2];
        to = k % 2 == 0 ? &without : &with;
        CHECK(carry_out_told(to, 1, 2, nine, 2, nines, 8191, n).number == THX_BAD_PAGE_LENGTH);
        CHECK(carry_out_told(to, 7, 0, nine, 2, nines, 8192, n).number == THX_BAD_BLOCK);
        CHECK(carry_out_told(to, 1, 3, nine, 2, nines, 8192, n).number == THX_BAD_SLOT);
        CHECK(carry_out_told(to, 4, 2, nine, 2, nines, 8192, n).number == THX_NO_FULL_PAGE);
        CHECK(carry_out_told(to, 1, 1, cut_off, 3, nines, 8192, n).number == THX_BAD_PAYLOAD);
        CHECK(carry_out_told(to, 1, 1, NULL, 0, nines, 8192, n).number == THX_BAD_PAYLOAD);
        with.map_len = 1;
        CHECK(carry_out_told(&with, 1, 0, NULL, 0, NULL, 0, n).number == THX_SHORT_BUFFER);
        with.map_len = 2;
        as_expected();
    }
}

/*
 * Runs of three steps on two blocks: every write, told all, and every cut. In a step's payload or
 * page is its mark, so that each step leaves other bytes.
 */
#define STEPS 9
#define RUN 3
typedef struct {
    int cut;
    uint64_t block; /* or k */
    uint32_t kind;
} step;
static const step steps[STEPS] = {
    {0, 0, 0}, {0, 0, 1}, {0, 0, 2}, {0, 1, 0}, {0, 1, 1},
    {0, 1, 2}, {1, 0, 0}, {1, 1, 0}, {1, 2, 0},
};

/* What each of the two blocks holds: a kind, and the mark of the step that left it. */
typedef struct {
    uint32_t kind;
    uint8_t mark;
} held;
static uint8_t run_patch[1536], run_full[4096 + 8192 * 2];
static uint8_t fresh_patch[sizeof run_patch], fresh_full[sizeof run_full];
static uint64_t run_places;
static size_t run_full_len;

static uint8_t mark_of(int at) {
    return (uint8_t)(11 + at);
}

/* A step by the library. A FULL_REF without a place is refused. */
static void do_step(const step *s, int at, uint64_t stores) {
    uint8_t payload[2] = {0x00, 0x00};
    store to = {run_patch, sizeof run_patch, NULL, 0, NULL, 0};
    to.full = run_full_len == 0 ? NULL : run_full;
    to.full_len = run_full_len;
    if (s->cut) {
        CHECK(thx_cut(to.patch, to.patch_len, to.full, to.full_len, s->block).number == THX_DONE);
    } else {
        uint32_t number = s->kind == 2 && s->block >= run_places ? THX_NO_FULL_PAGE : THX_DONE;
        payload[1] = mark_of(at);
        memset(page, mark_of(at), sizeof page);
        CHECK(carry_out_told(&to, s->block, s->kind, payload, 2, page, 8192, stores).number
              == number);
    }
}

/* The same step, whole, by the rules. */
static void hold_step(held blocks[2], const step *s, int at) {
    uint64_t block;
    for (block = s->block; block < 2 && s->cut; block++) {
        blocks[block].kind = 0;
    }
    if (!s->cut && (s->kind != 2 || s->block < run_places)) {
        blocks[s->block].kind = s->kind;
        blocks[s->block].mark = mark_of(at);
    }
}

/* Both areas hold just this, and Build makes its map. */
static void areas_hold(const held blocks[2]) {
    static const uint8_t pairs[3] = {0, 2, 1};
    uint8_t built = 0xEE;
    uint64_t block;
    memcpy(patch_after, fresh_patch, sizeof fresh_patch);
    memcpy(full_after, fresh_full, sizeof fresh_full);
    for (block = 0; block < 2; block++) {
        uint8_t *slot = patch_after + 512 + 512 * block;
        if (blocks[block].kind == 1) {
            memcpy(slot, nine_slot, sizeof nine_slot);
            slot[9] = blocks[block].mark;
        } else if (blocks[block].kind == 2) {
            slot[0] = 2;
            memset(full_after + 4096 + 8192 * block, blocks[block].mark, 8192);
        }
    }
    CHECK(memcmp(run_patch, patch_after, sizeof run_patch) == 0);
    CHECK(memcmp(run_full, full_after, run_full_len) == 0);
    CHECK(thx_build(run_patch, sizeof run_patch, run_full_len == 0 ? NULL : run_full, run_full_len,
                    &built, 1).number == THX_DONE);
    CHECK(built == pairs[blocks[0].kind] + 4 * pairs[blocks[1].kind]);
}

/* A run with one write stopped; swept, it is the run with that write or without it, by the rule. */
static void stopped_run(const step *const run[RUN], int stopped, uint64_t stores) {
    held blocks[2] = {{0, 0}, {0, 0}};
    int at;
    memcpy(run_patch, fresh_patch, sizeof run_patch);
    memcpy(run_full, fresh_full, sizeof run_full);
    for (at = 0; at < RUN; at++) {
        const step *s = run[at];
        int without = at == stopped
                      && (stores == 0 || (s->kind == 2 && blocks[s->block].kind != 2));
        do_step(s, at, at == stopped ? stores : THX_STORES_ALL);
        if (!without) {
            hold_step(blocks, s, at);
        }
    }
    CHECK(thx_sweep(run_patch, sizeof run_patch, run_full_len == 0 ? NULL : run_full, run_full_len)
              .number == THX_DONE);
    areas_hold(blocks);
}

/* Every run with a stop at each of its writes; without a full area, with one place and with two. */
static void every_run(void) {
    int number, stopped;
    for (run_places = 0; run_places <= 2; run_places++) {
        run_full_len = run_places == 0 ? 0 : 4096 + 8192 * (size_t)run_places;
        CHECK(thx_format(fresh_patch, sizeof fresh_patch, fresh_full, run_full_len).number
              == THX_DONE);
        for (number = 0; number < STEPS * STEPS * STEPS; number++) {
            const step *run[RUN];
            run[0] = &steps[number % STEPS];
            run[1] = &steps[number / STEPS % STEPS];
            run[2] = &steps[number / STEPS / STEPS];
            for (stopped = 0; stopped < RUN; stopped++) {
                if (!run[stopped]->cut) {
                    stopped_run(run, stopped, THX_STORES_NONE);
                    stopped_run(run, stopped, THX_STORES_ONE);
                }
            }
        }
    }
}

void every_stop(void) {
    memset(base, 3, sizeof base);
    memset(nines, 9, sizeof nines);
    every_told();
    told_twice();
    refused_told();
    every_run();
}
