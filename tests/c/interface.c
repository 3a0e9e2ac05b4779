/*
 * The header and the archive as a C program sees them: the header's names, the structs, an example
 * through every call, the largest area. Prints a line at the end, with status 1 if anything is not
 * as the header and document 01 say.
 */
#include "check.h"

#include <stdio.h>
#include <stdlib.h>
#include <string.h>

static unsigned long checks;
static unsigned long failures;

void check(int holds, const char *what, const char *file, int line) {
    checks++;
    if (!holds) {
        failures++;
        if (failures <= 20) {
            printf("%s:%d: not so: %s\n", file, line, what);
        }
    }
}

/* Each name in the header is the number that document 01 writes. */
static void names(void) {
    CHECK(THX_PAGE_SIZE == 8192);
    CHECK(THX_SLOT_SIZE == 512);
    CHECK(THX_PAYLOAD_SIZE == 504);
    CHECK(THX_PATCH_HEADER_SIZE == 512);
    CHECK(THX_FULL_HEADER_SIZE == 4096);
    CHECK(THX_MAX_BLOCKS == 131072);
    CHECK(THX_DONE == 0);
    CHECK(THX_BAD_PAGE_LENGTH == 1);
    CHECK(THX_BAD_AREA_LENGTH == 2);
    CHECK(THX_BAD_HEADER == 3);
    CHECK(THX_BAD_VERSION == 4);
    CHECK(THX_BAD_BLOCK == 5);
    CHECK(THX_BAD_SLOT == 6);
    CHECK(THX_BAD_PAYLOAD == 7);
    CHECK(THX_NO_FULL_PAGE == 8);
    CHECK(THX_SHORT_BUFFER == 9);
    CHECK(THX_STRAY_PAGE == 10);
    CHECK(THX_BAD_PAIR == 11);
    CHECK(THX_KIND_EMPTY == 0 && THX_KIND_PATCH == 1 && THX_KIND_FULL == 2);
    CHECK(THX_STORES_NONE == 0 && THX_STORES_ONE == 1 && THX_STORES_ALL == 2);
    CHECK(THX_DIFFERENCE_SAME == 0 && THX_DIFFERENCE_PATCH == 1 && THX_DIFFERENCE_LARGE == 2);
    CHECK(THX_PAIR_EMPTY == 0 && THX_PAIR_FULL == 1 && THX_PAIR_PATCH == 2);
}

static uint8_t base[THX_PAGE_SIZE];
static uint8_t page[THX_PAGE_SIZE];
static uint8_t again[THX_PAGE_SIZE];
static uint8_t payload[THX_PAYLOAD_SIZE];
static uint8_t patch[THX_PATCH_HEADER_SIZE + 2 * THX_SLOT_SIZE];
static uint8_t full[THX_FULL_HEADER_SIZE + 2 * THX_PAGE_SIZE];
static uint8_t map[1];

/* The structs have the members and the layout that other languages are told about. */
static void structs(void) {
    CHECK(sizeof(thx_done) == 4);
    CHECK(sizeof(thx_compared) == 20 && offsetof(thx_compared, last) == 16);
    CHECK(sizeof(thx_applied) == 16 && offsetof(thx_applied, last) == 8);
    CHECK(offsetof(thx_applied, offset) == 12);
    CHECK(sizeof(thx_judged) == 12 && offsetof(thx_judged, length) == 8);
    CHECK(sizeof(thx_part) == 16 && offsetof(thx_part, len) == 8);
    CHECK(sizeof(thx_reading) == 12 && offsetof(thx_reading, kind) == 4);
    CHECK(offsetof(thx_reading, offset) == 8);
    CHECK(sizeof(thx_written) == 12 && offsetof(thx_written, length) == 8);
    CHECK(sizeof(thx_built) == 24 && offsetof(thx_built, block) == 8);
    CHECK(offsetof(thx_built, offset) == 16);
    CHECK(sizeof(thx_pair) == 8 && offsetof(thx_pair, pair) == 4);
    CHECK(sizeof(thx_tallied) == 24 && offsetof(thx_tallied, full) == 16);
    CHECK(sizeof(thx_entry) == 24 && offsetof(thx_entry, found) == 4);
    CHECK(offsetof(thx_entry, at) == 8 && offsetof(thx_entry, position) == 16);
    CHECK(offsetof(thx_entry, value) == 20);
    CHECK(sizeof(thx_extent) == 16 && offsetof(thx_extent, blocks) == 8);
}

static const uint8_t stream[2] = {0x00, 0x07};
static const store whole = {patch, sizeof patch, full, sizeof full, NULL, 0};

/* Byte 0 of a page of zeros becomes 07: through every call, each member of each answer. */
static void example_page(void) {
    thx_compared compared;
    thx_applied applied;

    page[0] = 7;
    memset(payload, 0xEE, sizeof payload);
    compared = thx_compare(NULL, 0, page, sizeof page, payload, sizeof payload);
    CHECK(compared.number == THX_DONE && compared.kind == THX_DIFFERENCE_PATCH);
    CHECK(compared.length == 2 && compared.entries == 1 && compared.last == 0);
    CHECK(memcmp(payload, stream, 2) == 0 && payload[2] == 0xEE);

    compared = thx_compare(base, sizeof base, base, sizeof base, payload, sizeof payload);
    CHECK(compared.number == THX_DONE && compared.kind == THX_DIFFERENCE_SAME);
    CHECK(compared.length == 0 && compared.entries == 0 && compared.last == -1);

    memset(again, 0xEE, sizeof again);
    applied = thx_apply(base, sizeof base, stream, sizeof stream, again, sizeof again);
    CHECK(applied.number == THX_DONE && applied.entries == 1 && applied.last == 0);
    CHECK(applied.offset == 0);
    CHECK(memcmp(again, page, sizeof page) == 0);
}

static void example_block(void) {
    thx_judged judged;
    thx_part part;
    thx_reading reading;
    thx_written written;

    memset(patch, 0xEE, sizeof patch);
    memset(full, 0xEE, sizeof full);
    CHECK(thx_format(patch, sizeof patch, full, sizeof full).number == THX_DONE);
    CHECK(memcmp(patch, "PBKPATCH\2", 9) == 0 && memcmp(full, "PBKFULL\0\1", 9) == 0);

    written = thx_carry_out(patch, sizeof patch, full, sizeof full, 1, THX_KIND_PATCH, stream,
                            sizeof stream, NULL, 0, THX_STORES_ALL);
    CHECK(written.number == THX_DONE && written.kind == THX_KIND_PATCH && written.length == 2);

    judged = thx_judge(patch + 1024, THX_SLOT_SIZE);
    CHECK(judged.number == THX_DONE && judged.kind == THX_KIND_PATCH && judged.length == 2);

    part = thx_show(patch, sizeof patch, 1);
    CHECK(part.at == 1032 && part.len == 2 && memcmp(patch + part.at, stream, 2) == 0);
    part = thx_show(patch, sizeof patch, 0);
    CHECK(part.at == 0 && part.len == 0);

    memset(again, 0xEE, sizeof again);
    reading = thx_read(patch, sizeof patch, full, sizeof full, 1, NULL, 0, again, sizeof again);
    CHECK(reading.number == THX_DONE && reading.kind == THX_KIND_PATCH && reading.offset == 0);
    CHECK(memcmp(again, page, sizeof page) == 0);
}

/* Block 0 becomes a full page, then the map. */
static void example_map(void) {
    thx_written written;
    thx_built built;
    thx_pair pair;
    thx_tallied tallied;

    memset(page, 9, sizeof page);
    written = thx_carry_out(patch, sizeof patch, full, sizeof full, 0, THX_KIND_FULL, NULL, 0, page,
                            sizeof page, THX_STORES_ALL);
    CHECK(written.number == THX_DONE && written.kind == THX_KIND_FULL && written.length == 0);
    CHECK(memcmp(full + THX_FULL_HEADER_SIZE, page, sizeof page) == 0);

    built = thx_build(patch, sizeof patch, full, sizeof full, map, sizeof map);
    CHECK(built.number == THX_DONE && built.block == 0 && built.offset == 0 && map[0] == 0x09);
    pair = thx_look_up(map, sizeof map, 2, 0);
    CHECK(pair.number == THX_DONE && pair.pair == THX_PAIR_FULL);
    pair = thx_look_up(map, sizeof map, 2, 1);
    CHECK(pair.number == THX_DONE && pair.pair == THX_PAIR_PATCH);
    tallied = thx_tally(map, sizeof map, 2);
    CHECK(tallied.number == THX_DONE && tallied.patch == 1 && tallied.full == 1);
}

/* The same store with a map kept: it is the built one, and reads by it are those of thx_read. */
static void example_kept_map(void) {
    static uint8_t kept[1];
    thx_written written;
    thx_reading reading;

    CHECK(thx_format(patch, sizeof patch, full, sizeof full).number == THX_DONE);
    written = thx_carry_out_mapped(patch, sizeof patch, full, sizeof full, kept, sizeof kept, 0,
                                   THX_KIND_FULL, NULL, 0, page, sizeof page, THX_STORES_ALL);
    CHECK(written.number == THX_DONE && written.kind == THX_KIND_FULL && written.length == 0);
    CHECK(kept[0] == 0x01 && memcmp(full + THX_FULL_HEADER_SIZE, page, sizeof page) == 0);
    written = thx_carry_out_mapped(patch, sizeof patch, full, sizeof full, kept, sizeof kept, 1,
                                   THX_KIND_PATCH, stream, sizeof stream, NULL, 0,
                                   THX_STORES_ALL);
    CHECK(written.number == THX_DONE && written.kind == THX_KIND_PATCH && written.length == 2);
    CHECK(kept[0] == 0x09 && memcmp(patch + 1032, stream, 2) == 0);
    map[0] = 0xEE;
    CHECK(thx_build(patch, sizeof patch, full, sizeof full, map, sizeof map).number == THX_DONE);
    CHECK(map[0] == kept[0]);

    memset(again, 0xEE, sizeof again);
    reading = thx_read_mapped(patch, sizeof patch, full, sizeof full, kept, sizeof kept, 0, NULL, 0,
                              again, sizeof again);
    CHECK(reading.number == THX_DONE && reading.kind == THX_KIND_FULL && reading.offset == 0);
    CHECK(memcmp(again, page, sizeof page) == 0);
    reading = thx_read_mapped(patch, sizeof patch, full, sizeof full, kept, sizeof kept, 1, base,
                              sizeof base, again, sizeof again);
    CHECK(reading.number == THX_DONE && reading.kind == THX_KIND_PATCH && reading.offset == 0);
    CHECK(again[0] == 7 && memcmp(again + 1, base + 1, sizeof again - 1) == 0);
}

/* The same store cut short at block 1, and then emptied; the example is left as it was found. */
static void example_cut(void) {
    static uint8_t patch_before[sizeof patch], full_before[sizeof full];
    static uint8_t kept[1] = {0x09};
    thx_extent extent;

    memcpy(patch_before, patch, sizeof patch);
    memcpy(full_before, full, sizeof full);
    extent = thx_highest(patch, sizeof patch);
    CHECK(extent.number == THX_DONE && extent.blocks == 2);
    CHECK(thx_cut(patch, sizeof patch, full, sizeof full, 3).number == THX_BAD_BLOCK);
    CHECK(thx_cut(patch, sizeof patch, full, sizeof full, 2).number == THX_DONE);
    CHECK(memcmp(patch, patch_before, sizeof patch) == 0);
    CHECK(memcmp(full, full_before, sizeof full) == 0);

    CHECK(thx_cut_mapped(patch, sizeof patch, full, sizeof full, kept, sizeof kept, 1).number
          == THX_DONE);
    CHECK(kept[0] == 0x01 && memcmp(patch, patch_before, 1024) == 0);
    CHECK(thx_judge(patch + 1024, THX_SLOT_SIZE).kind == THX_KIND_EMPTY);
    CHECK(memcmp(full, full_before, sizeof full) == 0); /* block 1 had no full page */
    extent = thx_highest(patch, sizeof patch);
    CHECK(extent.number == THX_DONE && extent.blocks == 1);

    CHECK(thx_cut(patch, sizeof patch, full, sizeof full, 0).number == THX_DONE);
    CHECK(memcmp(patch, patch_before, 512) == 0 && memcmp(full, full_before, 4096) == 0);
    CHECK(full[4096] == 0 && memcmp(full + 4096, full + 4097, sizeof full - 4097) == 0);
    extent = thx_highest(patch, sizeof patch);
    CHECK(extent.number == THX_DONE && extent.blocks == 0);
    memcpy(patch, patch_before, sizeof patch);
    memcpy(full, full_before, sizeof full);
}

/* Block 1 of the same store on its way to a full page: stopped, swept, and written whole. */
static void example_stop(void) {
    static uint8_t patch_before[sizeof patch], full_before[sizeof full];
    thx_written written;
    thx_built built;

    memcpy(patch_before, patch, sizeof patch);
    memcpy(full_before, full, sizeof full);
    written = carry_out_told(&whole, 1, THX_KIND_FULL, NULL, 0, page, sizeof page, THX_STORES_ONE);
    CHECK(written.number == THX_DONE && written.kind == THX_KIND_FULL && written.length == 0);
    CHECK(memcmp(patch, patch_before, sizeof patch) == 0);
    CHECK(memcmp(full + THX_FULL_HEADER_SIZE + THX_PAGE_SIZE, page, sizeof page) == 0);
    built = thx_build(patch, sizeof patch, full, sizeof full, map, sizeof map);
    CHECK(built.number == THX_STRAY_PAGE && built.block == 1);
    CHECK(thx_sweep(patch, sizeof patch, full, sizeof full).number == THX_DONE);
    CHECK(memcmp(patch, patch_before, sizeof patch) == 0);
    CHECK(memcmp(full, full_before, sizeof full) == 0);
}

/* Buffers that a call only reads may be the same or overlap. */
static void overlap(void) {
    thx_reading reading;
    const uint8_t *inside = full + THX_FULL_HEADER_SIZE;
    memset(again, 0xEE, sizeof again);
    reading = thx_read(patch, sizeof patch, full, sizeof full, 0, inside, THX_PAGE_SIZE, again,
                       sizeof again);
    CHECK(reading.number == THX_DONE && reading.kind == THX_KIND_FULL);
    CHECK(memcmp(again, inside, sizeof again) == 0);
    /* A map in the header's zeros, and as the base. */
    reading = thx_read_mapped(patch, sizeof patch, full, sizeof full, full + 100, 1, 0, inside,
                              THX_PAGE_SIZE, again, sizeof again);
    CHECK(reading.number == THX_DONE && reading.kind == THX_KIND_EMPTY);
    CHECK(memcmp(again, inside, sizeof again) == 0);
    reading = thx_read_mapped(patch, sizeof patch, full, sizeof full, base, sizeof base, 1, base,
                              sizeof base, again, sizeof again);
    CHECK(reading.number == THX_DONE && memcmp(again, base, sizeof again) == 0);
    /* The payload inside the page, and the page as the payload: one of them is looked at. */
    CHECK(carry_out(&whole, 1, THX_KIND_PATCH, base + 6, 2, base, sizeof base).length == 2);
    CHECK(memcmp(patch + 1024, "\1\1\2\0\0\0\0\0\0\0", 10) == 0);
    CHECK(carry_out(&whole, 1, THX_KIND_FULL, page, sizeof page, page, sizeof page).number
          == THX_DONE);
    CHECK(memcmp(full + THX_FULL_HEADER_SIZE + THX_PAGE_SIZE, page, sizeof page) == 0);
}

/* The archive takes each size of the header, and neither a byte less nor a byte more. */
static void sizes(void) {
    static uint8_t room[THX_PAGE_SIZE + 1], result[THX_PAGE_SIZE + 1], map_room[32769];
    int more;
    for (more = -1; more <= 1; more++) {
        uint32_t page_number = more == 0 ? THX_DONE : THX_BAD_PAGE_LENGTH;
        uint32_t area_number = more == 0 ? THX_DONE : THX_BAD_AREA_LENGTH;
        CHECK(thx_compare(NULL, 0, room, THX_PAGE_SIZE + more, result, THX_PAYLOAD_SIZE).number
              == page_number);
        CHECK(thx_compare(room, THX_PAGE_SIZE + more, base, THX_PAGE_SIZE, result, THX_PAYLOAD_SIZE)
                  .number == page_number);
        CHECK(thx_judge(room, THX_SLOT_SIZE + more).number == area_number);
        CHECK(thx_format(result, THX_PATCH_HEADER_SIZE + more, NULL, 0).number == area_number);
        CHECK(thx_format(patch, THX_PATCH_HEADER_SIZE + THX_SLOT_SIZE + more, NULL, 0).number
              == area_number);
        CHECK(thx_format(patch, sizeof patch, result, THX_FULL_HEADER_SIZE + more).number
              == area_number);
        CHECK(thx_format(patch, sizeof patch, full, THX_FULL_HEADER_SIZE + THX_PAGE_SIZE + more)
                  .number == area_number);
        /* The longest payload, of entries 00 00. A longer one has none, a shorter one breaks. */
        CHECK(thx_next(room, THX_PAYLOAD_SIZE + more, 502, 250).found == (more == 0 ? 1u : 0u));
        CHECK(thx_apply(NULL, 0, room, THX_PAYLOAD_SIZE + more, result, THX_PAGE_SIZE).offset
              == (more < 0 ? 502u : 0u));
        /* A longer payload buffer and a smaller n are as good. */
        CHECK(thx_compare(NULL, 0, page, THX_PAGE_SIZE, result, THX_PAYLOAD_SIZE + more).number
              == (more < 0 ? THX_SHORT_BUFFER : THX_DONE));
        CHECK(thx_tally(map_room, sizeof map_room, THX_MAX_BLOCKS + more).number
              == (more > 0 ? THX_BAD_AREA_LENGTH : THX_DONE));
        CHECK(thx_look_up(map_room, sizeof map_room, THX_MAX_BLOCKS + more, 0).number
              == (more > 0 ? THX_BAD_AREA_LENGTH : THX_DONE));
    }
}

/* A patch area of 131,072 blocks, the last of them written; a map of it. */
static void largest_area(uint8_t *area, size_t length, uint8_t *bits) {
    store to = {area, length, NULL, 0, NULL, 0};
    thx_part part;
    thx_tallied tallied;
    memset(again, 0, sizeof again);
    again[8191] = 1;
    CHECK(thx_format(area, length, NULL, 0).number == THX_DONE);
    CHECK(write_by_pair(&to, 131072, NULL, 0, again, 8192).number == THX_BAD_BLOCK);
    CHECK(write_by_pair(&to, 131071, NULL, 0, again, 8192).length == 4);
    CHECK(memcmp(area + 67108864, "\1\1\4\0\0\0\0\0\xFF\xFF\x1F\1", 12) == 0);
    part = thx_show(area, length, 131071);
    CHECK(part.at == 67108872 && part.len == 4);
    CHECK(thx_read(area, length, NULL, 0, 131071, NULL, 0, page, 8192).kind == THX_KIND_PATCH);
    CHECK(memcmp(page, again, sizeof page) == 0);
    CHECK(thx_build(area, length, NULL, 0, bits, 32767).number == THX_SHORT_BUFFER);
    CHECK(bits[0] == 0xEE && memcmp(bits, bits + 1, 32767) == 0);
    CHECK(thx_build(area, length, NULL, 0, bits, 32768).number == THX_DONE);
    CHECK(bits[0] == 0 && memcmp(bits, bits + 1, 32766) == 0 && bits[32767] == 0x80);
    CHECK(thx_look_up(bits, 32768, 131072, 131071).pair == THX_PAIR_PATCH);
    tallied = thx_tally(bits, 32768, 131072);
    CHECK(tallied.number == THX_DONE && tallied.patch == 1 && tallied.full == 0);
}

/* The same area, written with its map and read by it. The map has no byte too many. */
static void largest_map(uint8_t *area, size_t length, uint8_t *bits) {
    store to = {area, length, NULL, 0, bits, 32768}, shorter = {area, length, NULL, 0, bits, 32767};
    CHECK(write_by_pair(&shorter, 131070, NULL, 0, again, 8192).number == THX_SHORT_BUFFER);
    CHECK(write_by_pair(&to, 131072, NULL, 0, again, 8192).number == THX_BAD_BLOCK);
    CHECK(bits[32767] == 0x80);
    CHECK(write_by_pair(&to, 131070, NULL, 0, again, 8192).length == 4);
    CHECK(bits[0] == 0 && memcmp(bits, bits + 1, 32766) == 0 && bits[32767] == 0xA0);
    memset(page, 0xEE, sizeof page);
    CHECK(thx_read_mapped(area, length, NULL, 0, bits, 32767, 131070, NULL, 0, page, 8192).number
          == THX_SHORT_BUFFER);
    CHECK(page[0] == 0xEE && memcmp(page, page + 1, sizeof page - 1) == 0);
    CHECK(thx_read_mapped(area, length, NULL, 0, bits, 32768, 131070, NULL, 0, page, 8192).kind
          == THX_KIND_PATCH);
    CHECK(memcmp(page, again, sizeof page) == 0);
    CHECK(thx_read_mapped(area, length, NULL, 0, bits, 32768, 131069, NULL, 0, page, 8192).kind
          == THX_KIND_EMPTY);
}

/* The same area cut at its end, before its last block and at its beginning; its highest block. */
static void largest_cut(uint8_t *area, size_t length, uint8_t *bits) {
    store to = {area, length, NULL, 0, NULL, 0};
    CHECK(thx_highest(area, length).blocks == 131072);
    CHECK(thx_cut(area, length, NULL, 0, 131073).number == THX_BAD_BLOCK);
    CHECK(thx_cut(area, length, NULL, 0, 131072).number == THX_DONE);
    CHECK(thx_cut_mapped(area, length, NULL, 0, bits, 32767, 131072).number == THX_SHORT_BUFFER);
    CHECK(thx_cut_mapped(area, length, NULL, 0, bits, 32768, 131073).number == THX_BAD_BLOCK);
    CHECK(thx_cut_mapped(area, length, NULL, 0, bits, 32768, 131072).number == THX_DONE);
    CHECK(area[67108864] == 1 && bits[32767] == 0xA0);
    CHECK(thx_cut_mapped(area, length, NULL, 0, bits, 32768, 131071).number == THX_DONE);
    CHECK(bits[0] == 0 && memcmp(bits, bits + 1, 32766) == 0 && bits[32767] == 0x20);
    CHECK(area[67108864] == 0 && memcmp(area + 67108864, area + 67108865, 511) == 0);
    CHECK(area[67108352] == 1 && thx_highest(area, length).blocks == 131071);
    area[67109375] = 1; /* the very last byte */
    CHECK(thx_highest(area, length).number == THX_BAD_SLOT);
    CHECK(thx_highest(area, length).blocks == 0);
    CHECK(thx_cut_mapped(area, length, NULL, 0, bits, 32768, 0).number == THX_DONE);
    CHECK(memcmp(area, "PBKPATCH\2", 9) == 0 && bits[32767] == 0);
    CHECK(area[512] == 0 && memcmp(area + 512, area + 513, length - 513) == 0);
    CHECK(thx_highest(area, length).number == THX_DONE);
    CHECK(thx_highest(area, length).blocks == 0);
    CHECK(write_by_pair(&to, 131071, NULL, 0, again, 8192).length == 4);
    CHECK(thx_highest(area, length).blocks == 131072);
}

/* The same area swept: all slots are checked, the last one too, though no block has a place. */
static void largest_sweep(uint8_t *area, size_t length) {
    CHECK(thx_sweep(area, length, NULL, 0).number == THX_DONE);
    area[67108352] = 2; /* block 131070 */
    CHECK(thx_sweep(area, length, NULL, 0).number == THX_NO_FULL_PAGE);
    area[67108352] = 0;
    area[67109375] = 1; /* the very last byte */
    CHECK(thx_sweep(area, length, NULL, 0).number == THX_BAD_SLOT);
    area[67109375] = 0;
    CHECK(thx_sweep(area, length, NULL, 0).number == THX_DONE);
    CHECK(area[67108864] == 1 && thx_highest(area, length).blocks == 131072);
}

/* The same area with a block more is refused by every call that takes it. */
static void too_large_area(uint8_t *area, size_t length, uint8_t *bits) {
    thx_part part = thx_show(area, length, 131071);
    uint64_t stores;
    CHECK(part.at == 0 && part.len == 0);
    CHECK(thx_read(area, length, NULL, 0, 131071, NULL, 0, page, 8192).number
          == THX_BAD_AREA_LENGTH);
    for (stores = 0; stores <= THX_STORES_ALL; stores++) {
        CHECK(thx_carry_out(area, length, NULL, 0, 131071, 0, NULL, 0, NULL, 0, stores).number
              == THX_BAD_AREA_LENGTH);
        /* n is too large before the map is too short for it. */
        CHECK(thx_carry_out_mapped(area, length, NULL, 0, bits, 32768, 0, 0, NULL, 0, NULL, 0,
                                   stores).number == THX_BAD_AREA_LENGTH);
    }
    CHECK(thx_build(area, length, NULL, 0, bits, 32768).number == THX_BAD_AREA_LENGTH);
    CHECK(thx_read_mapped(area, length, NULL, 0, bits, 32768, 0, NULL, 0, page, 8192).number
          == THX_BAD_AREA_LENGTH);
    CHECK(thx_format(area, length, NULL, 0).number == THX_BAD_AREA_LENGTH);
    CHECK(thx_cut(area, length, NULL, 0, 0).number == THX_BAD_AREA_LENGTH);
    CHECK(thx_cut_mapped(area, length, NULL, 0, bits, 32768, 0).number == THX_BAD_AREA_LENGTH);
    CHECK(thx_highest(area, length).number == THX_BAD_AREA_LENGTH);
    CHECK(thx_highest(area, length).blocks == 0);
    CHECK(thx_sweep(area, length, NULL, 0).number == THX_BAD_AREA_LENGTH);
    CHECK(memcmp(area, "PBKPATCH\2", 9) == 0 && area[67108864] == 1);
}

static void largest(void) {
    const size_t length = 512 + 512 * (size_t)131072;
    uint8_t *area = (uint8_t *)calloc(length + 512, 1);
    uint8_t *bits = (uint8_t *)malloc(32768);
    if (area == NULL || bits == NULL) {
        printf("out of memory\n");
        exit(2);
    }
    memset(bits, 0xEE, 32768);
    largest_area(area, length, bits);
    largest_map(area, length, bits);
    largest_cut(area, length, bits);
    largest_sweep(area, length);
    too_large_area(area, length + 512, bits);
    free(area);
    free(bits);
}

int main(void) {
    names();
    if (failures == 0) { /* the tests lend buffers of these sizes */
        structs();
        example_page();
        example_block();
        example_map();
        example_kept_map();
        example_cut();
        example_stop();
        overlap();
        sizes();
        largest();
        every_refusal();
        every_fault_left();
        every_length();
        every_number();
        every_step();
        every_payload();
        every_map();
        every_tally();
        every_cut();
        every_highest();
        every_decision();
        every_stop();
        every_sweep();
        every_advice();
        every_file();
    }
    printf("%lu checks, %lu failed\n", checks, failures);
    return failures == 0 ? EXIT_SUCCESS : EXIT_FAILURE;
}
