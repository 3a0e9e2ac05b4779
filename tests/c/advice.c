/*
 * The header's table ON REFUSAL N, DO THIS, tried by following it: a call that gives the number,
 * then what the table says, then the call again. Where the table says what not to do, what that
 * gives. Then areas that grow as AREAS IN FILES says; the texts and the version.
 */
#include "check.h"

#include <stdio.h>
#include <stdlib.h>
#include <string.h>

/* A call gives a number; which numbers have been tried. */
static unsigned tried;
#define GIVES(call, wanted) (CHECK((call).number == (wanted)), tried |= BIT(wanted))

static uint8_t base[8192], fives[8192], seven[8192], zeros[8192], again[8192];
static const uint8_t no_area[8192] = {1}, long_map[32769] = {0};

/* The store, in buffers that grow as files do, and a copy of it. */
static store made, copy;

static uint8_t *room(uint8_t *old, size_t length) {
    uint8_t *bytes = (uint8_t *)realloc(old, length == 0 ? 1 : length);
    if (bytes == NULL) {
        printf("out of memory\n");
        exit(2);
    }
    return bytes;
}

static void append(uint8_t **bytes, size_t *length, size_t more) {
    *bytes = room(*bytes, *length + more);
    memset(*bytes + *length, 0, more);
    *length += more;
}

static void append_slots(size_t count) {
    append(&made.patch, &made.patch_len, 512 * count);
}

static void append_places(size_t count) {
    append(&made.full, &made.full_len, 8192 * count);
}

static uint64_t blocks(void) {
    return made.patch_len / 512 - 1;
}

/* Zeros to the map, up to n / 4 bytes, rounded up. */
static void append_pairs(void) {
    append(&made.map, &made.map_len, (size_t)(blocks() + 3) / 4 - made.map_len);
}

/* Areas of n blocks and m places, of bytes that are no area yet, and a map of zeros. */
static void lay_out(size_t n, size_t full_len) {
    made.patch_len = made.full_len = made.map_len = 0;
    append_slots(n + 1);
    append(&made.full, &made.full_len, full_len);
    append_pairs();
}

static void put_back(store *to, const store *from) {
    to->patch = room(to->patch, from->patch_len);
    to->full = room(to->full, from->full_len);
    memcpy(to->patch, from->patch, to->patch_len = from->patch_len);
    memcpy(to->full, from->full, to->full_len = from->full_len);
}

static thx_done format(void) {
    return thx_format(made.patch, made.patch_len, made.full, made.full_len);
}

static thx_built build(void) {
    return thx_build(made.patch, made.patch_len, made.full, made.full_len, made.map, made.map_len);
}

static thx_done sweep(void) {
    return thx_sweep(made.patch, made.patch_len, made.full, made.full_len);
}

static thx_extent highest(void) {
    return thx_highest(made.patch, made.patch_len);
}

static thx_reading read_block(uint64_t block) {
    return thx_read(made.patch, made.patch_len, made.full, made.full_len, block, base, sizeof base,
                    again, sizeof again);
}

static thx_reading read_mapped(uint64_t block) {
    return thx_read_mapped(made.patch, made.patch_len, made.full, made.full_len, made.map,
                           made.map_len, block, base, sizeof base, again, sizeof again);
}

static thx_written put(uint64_t block, const uint8_t *page) {
    return write_by_pair(&made, block, base, sizeof base, page, 8192);
}

/* A block reads as a page, by its slot and by the map. */
static void reads_as(uint64_t block, uint32_t kind, const uint8_t *page) {
    thx_reading r;
    memset(again, 0xEE, sizeof again);
    r = read_block(block);
    CHECK(r.number == THX_DONE && r.kind == kind && memcmp(again, page, 8192) == 0);
    memset(again, 0xEE, sizeof again);
    r = read_mapped(block);
    CHECK(r.number == THX_DONE && r.kind == kind && memcmp(again, page, 8192) == 0);
}

/* The store as it begins: a full page, a patch and an EMPTY block, which has no place; n 3, m 2. */
static void begin(void) {
    lay_out(3, 4096 + 8192 * 2);
    CHECK(format().number == THX_DONE);
    CHECK(put(0, fives).kind == THX_KIND_FULL && put(1, seven).kind == THX_KIND_PATCH);
    put_back(&copy, &made);
}

/* The three blocks read as at the beginning, and the map that is kept is Build's. */
static void as_begun(void) {
    uint8_t kept = made.map[0];
    reads_as(0, THX_KIND_FULL, fives);
    reads_as(1, THX_KIND_PATCH, seven);
    reads_as(2, THX_KIND_EMPTY, base);
    CHECK(build().number == THX_DONE && made.map[0] == kept);
}

/* Both areas as in the copy, and the map built. */
static void restore(void) {
    put_back(&made, &copy);
    memset(made.map, 0xEE, made.map_len);
    CHECK(build().number == THX_DONE);
    as_begun();
}

/* 1: the lengths of page and base. No area was looked at, not even one that is none. */
static void page_lengths(void) {
    uint8_t payload[504];
    begin();
    GIVES(thx_compare(base, 8192, fives, 8191, payload, 504), THX_BAD_PAGE_LENGTH);
    GIVES(thx_compare(base, 8192, fives, 8192, payload, 504), THX_DONE);
    GIVES(thx_compare(base, 100, fives, 8192, payload, 504), THX_BAD_PAGE_LENGTH);
    GIVES(thx_compare(base, 0, fives, 8192, payload, 504), THX_DONE);
    GIVES(thx_apply(base, 100, zeros, 2, again, 8192), THX_BAD_PAGE_LENGTH);
    GIVES(thx_apply(base, 0, zeros, 2, again, 8192), THX_DONE);
    GIVES(thx_read(no_area, 3, no_area, 3, 9, base, 100, again, 8192), THX_BAD_PAGE_LENGTH);
    GIVES(carry_out(&made, 0, THX_KIND_FULL, NULL, 0, fives, 8191), THX_BAD_PAGE_LENGTH);
    GIVES(carry_out(&made, 0, THX_KIND_FULL, NULL, 0, fives, 8192), THX_DONE);
    as_begun();
    /* A block past the base's end is written and read over a base of length 0. */
    GIVES(write_by_pair(&made, 2, base, 100, seven, 8192), THX_BAD_PAGE_LENGTH);
    append_places(1);
    GIVES(write_by_pair(&made, 2, base, 0, seven, 8192), THX_DONE);
    GIVES(thx_read(made.patch, made.patch_len, made.full, made.full_len, 2, base, 0, again, 8192),
          THX_DONE);
    CHECK(memcmp(again, seven, 8192) == 0);
}

/* 2: what is lent, m over n, zeros that were appended in part, a file that has lost its end. */
static void area_lengths(void) {
    begin();
    GIVES(thx_build(made.full, made.full_len, made.patch, made.patch_len, made.map, 1),
          THX_BAD_AREA_LENGTH);
    GIVES(thx_build(made.patch, made.full_len, made.full, made.patch_len, made.map, 1),
          THX_BAD_AREA_LENGTH);
    GIVES(build(), THX_DONE);
    append_places(2); /* before the slots */
    GIVES(build(), THX_BAD_AREA_LENGTH);
    GIVES(highest(), THX_DONE); /* so it is not the patch area */
    append_slots(1);
    GIVES(build(), THX_DONE);
    append(&made.patch, &made.patch_len, 100); /* stopped halfway */
    GIVES(build(), THX_BAD_AREA_LENGTH);
    GIVES(highest(), THX_BAD_AREA_LENGTH);
    append(&made.patch, &made.patch_len, 412);
    append_pairs();
    GIVES(build(), THX_DONE);
    as_begun();

    begin();
    made.patch_len -= 512 + 1; /* block 2 and the last byte of block 1, a zero */
    GIVES(read_block(1), THX_BAD_AREA_LENGTH);
    restore();
    made.patch_len -= 1024 + 1; /* block 1 too; filled up, it reads as its base */
    append(&made.patch, &made.patch_len, 1024 + 1);
    GIVES(build(), THX_DONE);
    reads_as(1, THX_KIND_EMPTY, base);
    restore();
    made.full_len--;
    GIVES(read_block(0), THX_BAD_AREA_LENGTH);
    GIVES(highest(), THX_DONE);
    restore();

    GIVES(thx_judge(made.patch + 512, 511), THX_BAD_AREA_LENGTH);
    GIVES(thx_judge(made.patch + 512, 512), THX_DONE);
    GIVES(thx_look_up(long_map, sizeof long_map, 131073, 0), THX_BAD_AREA_LENGTH);
    GIVES(thx_look_up(made.map, made.map_len, blocks(), 0), THX_DONE);
    GIVES(thx_tally(long_map, sizeof long_map, 131073), THX_BAD_AREA_LENGTH);
    GIVES(thx_tally(made.map, made.map_len, blocks()), THX_DONE);
}

/* 3: another file, a new one, a header that is damaged; which of the two is told by Highest. */
static void headers(void) {
    begin();
    GIVES(thx_read(no_area, sizeof no_area, made.full, made.full_len, 0, base, 8192, again, 8192),
          THX_BAD_HEADER);
    GIVES(read_block(0), THX_DONE);
    made.patch[511] = 1;
    GIVES(build(), THX_BAD_HEADER);
    GIVES(highest(), THX_BAD_HEADER);
    restore();
    made.full[4095] = 1;
    GIVES(build(), THX_BAD_HEADER);
    GIVES(highest(), THX_DONE);
    GIVES(format(), THX_DONE); /* in the place of restoring */
    GIVES(build(), THX_DONE);
    reads_as(0, THX_KIND_EMPTY, base);
    reads_as(1, THX_KIND_EMPTY, base);
    restore();

    lay_out(3, 4096 + 8192 * 2); /* new files */
    GIVES(put(0, fives), THX_BAD_HEADER);
    GIVES(format(), THX_DONE);
    GIVES(put(0, fives), THX_DONE);
    reads_as(0, THX_KIND_FULL, fives);
}

/* 4: the version; which of the two is told by Highest. */
static void versions(void) {
    begin();
    made.patch[8] = 1;
    GIVES(build(), THX_BAD_VERSION);
    GIVES(highest(), THX_BAD_VERSION);
    restore();
    made.full[8] = 2;
    GIVES(read_block(0), THX_BAD_VERSION);
    GIVES(highest(), THX_DONE);
    restore();
}

/* 5: slots are appended, or the block is as its base; unless the area was longer once. */
static void past_the_area(void) {
    begin();
    GIVES(put(9, seven), THX_BAD_BLOCK);
    GIVES(read_block(9), THX_BAD_BLOCK);
    append_slots(7);
    GIVES(put(9, seven), THX_SHORT_BUFFER);
    append_pairs();
    reads_as(9, THX_KIND_EMPTY, base); /* as was said while it was past the area */
    GIVES(put(9, seven), THX_DONE);
    reads_as(9, THX_KIND_PATCH, seven);
    as_begun();

    GIVES(thx_cut(made.patch, made.patch_len, made.full, made.full_len, 11), THX_BAD_BLOCK);
    CHECK(highest().blocks <= 11); /* there is nothing to drop */
    GIVES(thx_cut(made.patch, made.patch_len, made.full, made.full_len, 10), THX_DONE);
    reads_as(9, THX_KIND_PATCH, seven);
    GIVES(thx_look_up(made.map, made.map_len, 9, 9), THX_BAD_BLOCK);
    CHECK(thx_look_up(made.map, made.map_len, blocks(), 9).pair == THX_PAIR_PATCH);

    put_back(&copy, &made);
    made.patch_len -= 512; /* the area was longer once */
    GIVES(build(), THX_DONE);
    GIVES(read_block(9), THX_BAD_BLOCK);
    append_slots(1); /* in the place of restoring */
    GIVES(build(), THX_DONE);
    reads_as(9, THX_KIND_EMPTY, base);
    restore();
    reads_as(9, THX_KIND_PATCH, seven);
}

/* 6 and 7 of a block: the store is restored, or the block's page is written again. */
static void damaged(size_t at, uint8_t byte, uint32_t number) {
    thx_built built;
    begin();
    made.patch[at] = byte;
    GIVES(read_block(1), number);
    GIVES(read_mapped(1), number);
    built = build();
    GIVES(built, number);
    CHECK(built.block == 1);
    restore();
    made.patch[at] = byte;
    GIVES(put(1, seven), THX_DONE);
    as_begun();
}

/* 6: a kind that is none, a slot that is damaged, a map that is wrong. */
static void slots(void) {
    uint8_t payload[504];
    thx_compared c = thx_compare(base, 8192, seven, 8192, payload, sizeof payload);
    begin();
    GIVES(carry_out(&made, 1, 3, payload, c.length, seven, 8192), THX_BAD_SLOT);
    GIVES(c, THX_DONE);
    GIVES(carry_out(&made, 1, c.kind, payload, c.length, seven, 8192), THX_DONE);
    as_begun();
    damaged(1024 + 1, 0, THX_BAD_SLOT);
    made.patch[1024 + 1] = 0;
    GIVES(highest(), THX_BAD_SLOT);
    GIVES(sweep(), THX_BAD_SLOT);
    CHECK(build().block == 1);
    restore();
    GIVES(highest(), THX_DONE);
    GIVES(sweep(), THX_DONE);
    as_begun();
    made.map[0] = 0x29; /* as if it had missed that block 2 became EMPTY */
    GIVES(read_mapped(2), THX_BAD_SLOT);
    GIVES(build(), THX_DONE);
    as_begun();
    memset(made.patch + 1024, 0, 512); /* block 1, of which the map has missed nothing */
    GIVES(read_mapped(1), THX_BAD_SLOT);
    restore();
    memset(made.patch + 1024, 0, 512);
    GIVES(build(), THX_DONE); /* in the place of restoring */
    reads_as(1, THX_KIND_EMPTY, base);
    restore();
}

/* 7: more than the payload is lent; a payload that is damaged. */
static void payloads(void) {
    uint8_t buffer[504];
    thx_compared c;
    thx_applied applied;
    memset(buffer, 0xEE, sizeof buffer);
    c = thx_compare(base, 8192, seven, 8192, buffer, sizeof buffer);
    GIVES(c, THX_DONE);
    CHECK(c.kind == THX_DIFFERENCE_PATCH && c.length == 2);
    begin();
    GIVES(carry_out(&made, 1, c.kind, buffer, sizeof buffer, seven, 8192), THX_BAD_PAYLOAD);
    applied = thx_apply(base, 8192, buffer, sizeof buffer, again, 8192);
    GIVES(applied, THX_BAD_PAYLOAD);
    CHECK(applied.offset == 2 + 2 * 34); /* 34 jumps of EE after position 0 stay in the page */
    GIVES(carry_out(&made, 1, c.kind, buffer, c.length, seven, 8192), THX_DONE);
    GIVES(thx_apply(base, 8192, buffer, c.length, again, 8192), THX_DONE);
    CHECK(memcmp(again, seven, 8192) == 0);
    as_begun();
    damaged(1024 + 8, 0xFF, THX_BAD_PAYLOAD);
}

/* 8 from carrying out: places are appended, to a full area or to a new one. */
static void no_place(void) {
    uint8_t scratch[512] = {0};
    begin();
    GIVES(put(2, fives), THX_NO_FULL_PAGE);
    append_places(1);
    GIVES(put(2, fives), THX_DONE);
    reads_as(2, THX_KIND_FULL, fives);
    reads_as(0, THX_KIND_FULL, fives);
    reads_as(1, THX_KIND_PATCH, seven);
    GIVES(build(), THX_DONE);

    lay_out(3, 0);
    GIVES(format(), THX_DONE);
    GIVES(put(1, seven), THX_DONE);
    GIVES(put(2, fives), THX_NO_FULL_PAGE);
    made.full_len = 0;
    append(&made.full, &made.full_len, 4096);
    GIVES(put(2, fives), THX_BAD_HEADER); /* not yet */
    GIVES(thx_format(scratch, sizeof scratch, made.full, made.full_len), THX_DONE);
    GIVES(put(2, fives), THX_NO_FULL_PAGE);
    append_places(3);
    GIVES(put(2, fives), THX_DONE);
    reads_as(0, THX_KIND_EMPTY, base);
    reads_as(1, THX_KIND_PATCH, seven);
    reads_as(2, THX_KIND_FULL, fives);
    GIVES(build(), THX_DONE);
    GIVES(format(), THX_DONE); /* with the store's own patch area */
    GIVES(build(), THX_DONE);
    reads_as(1, THX_KIND_EMPTY, base);
}

/* 8 from the others: a full area that has lost its end is restored, or a block reads as zeros. */
static void lost_places(size_t full_len) {
    thx_built built;
    begin();
    made.full_len = full_len;
    GIVES(read_block(0), THX_NO_FULL_PAGE);
    GIVES(read_mapped(0), THX_NO_FULL_PAGE);
    GIVES(sweep(), THX_NO_FULL_PAGE);
    built = build();
    GIVES(built, THX_NO_FULL_PAGE);
    CHECK(built.block == 0);
    restore();
    if (full_len != 0) {
        made.full_len = full_len;
        append_places(2); /* in the place of restoring */
        GIVES(build(), THX_DONE);
        reads_as(0, THX_KIND_FULL, zeros);
        restore();
    }
    made.map[0] = 0x19; /* another store's: says FULL of block 2 */
    GIVES(read_mapped(2), THX_NO_FULL_PAGE);
    GIVES(build(), THX_DONE);
    as_begun();
}

/* 9: a longer buffer; zeros to a map that is kept. */
static void buffers(void) {
    uint8_t payload[504], kept[2];
    begin();
    GIVES(thx_compare(base, 8192, base, 8192, payload, 503), THX_SHORT_BUFFER);
    GIVES(thx_compare(base, 8192, base, 8192, payload, 504), THX_DONE);
    append_slots(2);
    GIVES(read_mapped(1), THX_SHORT_BUFFER);
    GIVES(put(4, seven), THX_SHORT_BUFFER);
    GIVES(build(), THX_SHORT_BUFFER);
    GIVES(thx_cut_mapped(made.patch, made.patch_len, made.full, made.full_len, made.map,
                         made.map_len, 5), THX_SHORT_BUFFER);
    GIVES(thx_look_up(made.map, made.map_len, blocks(), 4), THX_SHORT_BUFFER);
    GIVES(thx_tally(made.map, made.map_len, blocks()), THX_SHORT_BUFFER);
    append_pairs();
    GIVES(thx_look_up(made.map, made.map_len, blocks(), 4), THX_DONE);
    GIVES(thx_tally(made.map, made.map_len, blocks()), THX_DONE);
    GIVES(put(4, seven), THX_DONE);
    reads_as(4, THX_KIND_PATCH, seven);
    GIVES(thx_cut_mapped(made.patch, made.patch_len, made.full, made.full_len, made.map,
                         made.map_len, 5), THX_DONE);
    memcpy(kept, made.map, 2);
    GIVES(build(), THX_DONE);
    CHECK(memcmp(kept, made.map, 2) == 0);
    as_begun();
}

/* 10 after a known stop, to a full page and from one: swept, then built. */
static void stray_after_stop(void) {
    static const uint8_t nothing[1] = {0};
    thx_built built;
    begin();
    GIVES(carry_out_told(&made, 1, THX_KIND_FULL, NULL, 0, fives, 8192, THX_STORES_ONE), THX_DONE);
    built = build();
    GIVES(built, THX_STRAY_PAGE);
    CHECK(built.block == 1);
    GIVES(sweep(), THX_DONE);
    GIVES(build(), THX_DONE);
    as_begun();
    GIVES(carry_out_told(&made, 0, THX_KIND_EMPTY, nothing, 0, NULL, 0, THX_STORES_ONE), THX_DONE);
    GIVES(build(), THX_STRAY_PAGE);
    GIVES(sweep(), THX_DONE);
    GIVES(build(), THX_DONE);
    reads_as(0, THX_KIND_EMPTY, base);
    reads_as(1, THX_KIND_PATCH, seven);
}

/* 10 without a stop: restored, the page is there; swept, it is gone, and no call says so. */
static void stray_by_loss(void) {
    thx_built built;
    begin();
    memset(made.patch + 512, 0, 512);
    built = build();
    GIVES(built, THX_STRAY_PAGE);
    CHECK(built.block == 0 && read_block(0).kind == THX_KIND_EMPTY);
    CHECK(memcmp(again, base, 8192) == 0 && memcmp(made.full + 4096, fives, 8192) == 0);
    restore();
    memset(made.patch + 512, 0, 512);
    GIVES(sweep(), THX_DONE); /* in the place of restoring */
    GIVES(build(), THX_DONE);
    reads_as(0, THX_KIND_EMPTY, base);
    CHECK(memcmp(made.full + 4096, zeros, 8192) == 0);
    restore();
    /* The patch area of before a write, the full area of after it. */
    GIVES(put(1, fives), THX_DONE);
    memcpy(made.patch, copy.patch, made.patch_len);
    GIVES(build(), THX_STRAY_PAGE);
    restore();
}

/* 11: the map is built anew, or lent with its own n. */
static void pairs(void) {
    begin();
    made.map[0] |= 3;
    GIVES(read_mapped(0), THX_BAD_PAIR);
    GIVES(thx_look_up(made.map, made.map_len, 3, 0), THX_BAD_PAIR);
    GIVES(thx_tally(made.map, made.map_len, 3), THX_BAD_PAIR);
    GIVES(build(), THX_DONE);
    GIVES(thx_look_up(made.map, made.map_len, 3, 0), THX_DONE);
    GIVES(thx_tally(made.map, made.map_len, 3), THX_DONE);
    as_begun();
    GIVES(thx_tally(made.map, made.map_len, 1), THX_BAD_PAIR); /* of a store of one block */
    GIVES(thx_tally(made.map, made.map_len, blocks()), THX_DONE);
}

/* A block of a store that grows: full where it has a place, else a patch, and some are EMPTY. */
static uint32_t kind_of(uint64_t block, uint64_t places) {
    return block % 3 == 1 ? THX_KIND_EMPTY : block < places ? THX_KIND_FULL : THX_KIND_PATCH;
}

/* The first blocks hold what was written, later ones nothing; the map that is kept is Build's. */
static void holds(uint64_t written, uint64_t places) {
    uint8_t kept[2];
    uint64_t block;
    for (block = 0; block < blocks(); block++) {
        uint32_t kind = block < written ? kind_of(block, places) : THX_KIND_EMPTY;
        reads_as(block, kind, kind == THX_KIND_EMPTY ? base : kind == 1 ? seven : fives);
    }
    memcpy(kept, made.map, made.map_len);
    CHECK(build().number == THX_DONE && memcmp(kept, made.map, made.map_len) == 0);
}

static void write_from(uint64_t block, uint64_t places) {
    for (; block < blocks(); block++) {
        uint32_t kind = kind_of(block, places);
        CHECK(put(block, kind == THX_KIND_EMPTY ? base : kind == 1 ? seven : fives).number
              == THX_DONE);
    }
}

/* A full area of each length for every n, grown to every other: slots, then pairs, then places. */
static void grow(size_t n, size_t m, size_t more_n, size_t more_m) {
    lay_out(n, 4096 + 8192 * m);
    CHECK(format().number == THX_DONE);
    write_from(0, m);
    holds(n, m);
    append_slots(more_n);
    append_pairs();
    holds(n, m);
    append_places(more_m);
    holds(n, m);
    write_from(0, m + more_m);
    holds(n + more_n, m + more_m);
}

static void every_growth(void) {
    size_t n, m, more_n, more_m;
    for (n = 0; n <= 6; n++) {
        for (m = 0; m <= n; m++) {
            for (more_n = 0; n + more_n <= 6; more_n++) {
                for (more_m = 0; m + more_m <= n + more_n; more_m++) {
                    grow(n, m, more_n, more_m);
                }
            }
        }
    }
}

/* Each number has a text and an advice of its own, of one line; all others have one in common. */
static void texts(const char *(*text)(uint32_t)) {
    static const uint32_t others[] = {13, 255, 256, 65536, 0x80000000, 0xFFFFFFFF};
    uint32_t a, b;
    size_t k;
    for (a = 0; a <= 12; a++) {
        CHECK(text(a) != NULL && strlen(text(a)) >= 4 && strlen(text(a)) <= 90);
        CHECK(strchr(text(a), '\n') == NULL);
        for (b = 0; b < a; b++) {
            CHECK(strcmp(text(a), text(b)) != 0);
        }
    }
    for (k = 0; k < sizeof others / sizeof others[0]; k++) {
        CHECK(strcmp(text(others[k]), text(12)) == 0);
    }
}

#if THX_VERSION < 700
#error "this is the interface of Request 07 or later"
#endif

static void version(void) {
    char parts[40];
    sprintf(parts, "%d.%d.%d", THX_VERSION_MAJOR, THX_VERSION_MINOR, THX_VERSION_PATCH);
    CHECK(strcmp(THX_VERSION_STRING, parts) == 0);
    CHECK(THX_VERSION / 10000 == THX_VERSION_MAJOR && THX_VERSION / 100 % 100 == THX_VERSION_MINOR);
    CHECK(THX_VERSION % 100 == THX_VERSION_PATCH);
}

void every_advice(void) {
    memset(base, 3, sizeof base);
    memset(fives, 5, sizeof fives);
    memcpy(seven, base, sizeof seven);
    seven[0] = 7;
    page_lengths();
    area_lengths();
    headers();
    versions();
    past_the_area();
    slots();
    payloads();
    no_place();
    lost_places(0);
    lost_places(4096);
    buffers();
    stray_after_stop();
    stray_by_loss();
    pairs();
    CHECK(tried == 0xFFF); /* each number */
    every_growth();
    texts(thx_refusal_text);
    texts(thx_refusal_advice);
    CHECK(strcmp(thx_refusal_text(0), "done") == 0);
    CHECK(strcmp(thx_refusal_text(12), "no number of this library") == 0);
    version();
    free(made.patch);
    free(made.full);
    free(made.map);
    free(copy.patch);
    free(copy.full);
}
