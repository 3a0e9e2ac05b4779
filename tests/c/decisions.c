/*
 * Compare and carrying out, by hand: the right caller, decisions that are not Compare's, what is not
 * looked at, and the two mistakes of the header with what they give. Every byte is looked at, of a
 * store in which slots, places and map held noise before.
 */
#include "check.h"

#include <string.h>

thx_written carry_out_told(const store *to, uint64_t block, uint32_t kind, const uint8_t *payload,
                           size_t payload_len, const uint8_t *page, size_t page_len,
                           uint64_t stores) {
    return to->map == NULL
               ? thx_carry_out(to->patch, to->patch_len, to->full, to->full_len, block, kind,
                               payload, payload_len, page, page_len, stores)
               : thx_carry_out_mapped(to->patch, to->patch_len, to->full, to->full_len, to->map,
                                      to->map_len, block, kind, payload, payload_len, page,
                                      page_len, stores);
}

thx_written carry_out(const store *to, uint64_t block, uint32_t kind, const uint8_t *payload,
                      size_t payload_len, const uint8_t *page, size_t page_len) {
    return carry_out_told(to, block, kind, payload, payload_len, page, page_len, THX_STORES_ALL);
}

/* The lines that the header shows. */
static thx_written header_lines(uint8_t *patch, size_t patch_len, uint8_t *full, size_t full_len,
                                uint64_t block, const uint8_t *base, size_t base_len,
                                const uint8_t *page, size_t page_len) {
    uint8_t buffer[THX_PAYLOAD_SIZE];
    thx_compared c = thx_compare(base, base_len, page, page_len, buffer, sizeof buffer);
    thx_written w = {c.number, 0, 0};
    if (c.number == THX_DONE)
        w = thx_carry_out(patch, patch_len, full, full_len, block, c.kind, buffer,
                          c.kind == THX_DIFFERENCE_PATCH ? c.length : 0, page, page_len,
                          THX_STORES_ALL);
    return w;
}

thx_written write_by_pair(const store *to, uint64_t block, const uint8_t *base, size_t base_len,
                          const uint8_t *page, size_t page_len) {
    uint8_t buffer[THX_PAYLOAD_SIZE];
    thx_compared c;
    if (to->map == NULL) {
        return header_lines(to->patch, to->patch_len, to->full, to->full_len, block, base, base_len,
                            page, page_len);
    }
    c = thx_compare(base, base_len, page, page_len, buffer, sizeof buffer);
    if (c.number != THX_DONE) {
        thx_written refused = {c.number, 0, 0};
        return refused;
    }
    return carry_out(to, block, c.kind, buffer, c.kind == THX_DIFFERENCE_PATCH ? c.length : 0, page,
                     page_len);
}

/* Three blocks, of which two have a place; a map with an unused pair, and later bytes. */
#define BLOCKS 3
#define PLACES 2
static uint8_t patch[512 + 512 * BLOCKS], full[4096 + 8192 * PLACES], map[3];
static uint8_t patch_after[sizeof patch], full_after[sizeof full], map_after[sizeof map];
static const store plain = {patch, sizeof patch, full, sizeof full, NULL, 0};
static const store mapped = {patch, sizeof patch, full, sizeof full, map, sizeof map};

static uint8_t fives[8192], page[8192], again[8192];

/* No slot is sound, places hold stray bytes, and each byte of the map has the pairs 3, 2, 1, 0. */
static void noise(void) {
    CHECK(thx_format(patch, sizeof patch, full, sizeof full).number == THX_DONE);
    memset(patch + 512, 0xEE, sizeof patch - 512);
    memset(full + 4096, 0xDD, sizeof full - 4096);
    memset(map, 0x1B, sizeof map);
}

/* What the map's first byte 1B becomes when a block gets a kind. */
static const uint8_t byte_after[BLOCKS][3] = {
    {0x18, 0x1A, 0x19}, {0x13, 0x1B, 0x17}, {0x0B, 0x2B, 0x1B}};

/* The slot, the place if there is one, and the block's pair, as they must be afterwards. */
static void expect(uint64_t block, uint32_t kind, const uint8_t *payload, size_t length,
                   const uint8_t *as, int with_map) {
    uint8_t *slot = patch_after + 512 + 512 * block;
    memset(slot, 0, 512);
    slot[0] = (uint8_t)kind;
    if (kind == 1) {
        slot[1] = 1;
        slot[2] = (uint8_t)(length % 256);
        slot[3] = (uint8_t)(length / 256);
        memcpy(slot + 8, payload, length);
    }
    if (block < PLACES && kind == 2) {
        memcpy(full_after + 4096 + 8192 * block, as, 8192);
    } else if (block < PLACES) {
        memset(full_after + 4096 + 8192 * block, 0, 8192);
    }
    if (with_map) {
        map_after[0] = byte_after[block][kind];
    }
}

/* A decision carried out over noise, without a map and with one; it must give the number. */
static void carried(uint32_t number, uint64_t block, uint32_t kind, const uint8_t *payload,
                    size_t payload_len, const uint8_t *as, size_t page_len) {
    int with_map;
    for (with_map = 0; with_map < 2; with_map++) {
        thx_written r;
        noise();
        memcpy(patch_after, patch, sizeof patch);
        memcpy(full_after, full, sizeof full);
        memcpy(map_after, map, sizeof map);
        if (number == THX_DONE) {
            expect(block, kind, payload, payload_len, as, with_map);
        }
        r = carry_out(with_map ? &mapped : &plain, block, kind, payload, payload_len, as, page_len);
        CHECK(r.number == number);
        CHECK(r.kind == (number == THX_DONE ? kind : 0));
        CHECK(r.length == (number == THX_DONE && kind == 1 ? payload_len : 0));
        CHECK(memcmp(patch, patch_after, sizeof patch) == 0);
        CHECK(memcmp(full, full_after, sizeof full) == 0);
        CHECK(memcmp(map, map_after, sizeof map) == 0);
    }
}

static const uint8_t seven[2] = {0x00, 0x07};

/* Each kind on each block, and kinds that are none: 0, 1 or 2 if cut to fewer bits. */
static void every_kind(void) {
    static const uint32_t none[] = {3, 4, 7, 254, 255, 256, 257, 258, 65536, 65537, 65538,
                                    0x7FFFFFFF, 0x80000000, 0x80000001, 0x80000002, 0xFFFFFFFE,
                                    0xFFFFFFFF};
    uint64_t block;
    size_t k;
    for (block = 0; block < BLOCKS; block++) {
        carried(THX_DONE, block, 0, seven, 2, fives, 8192);
        carried(THX_DONE, block, 1, seven, 2, fives, 8192);
        carried(block < PLACES ? THX_DONE : THX_NO_FULL_PAGE, block, 2, seven, 2, fives, 8192);
        for (k = 0; k < sizeof none / sizeof none[0]; k++) {
            carried(THX_BAD_SLOT, block, none[k], seven, 2, fives, 8192);
            carried(THX_BAD_SLOT, block, none[k], NULL, 0, NULL, 0);
            carried(THX_BAD_BLOCK, 3 + block, none[k], seven, 2, fives, 8192);
        }
    }
}

/* What is not looked at: NULL, or bytes that would be refused where they are looked at. */
static void not_looked_at(void) {
    static const uint8_t cut_off[3] = {0x00, 0x07, 0x00}, many[65536 + 8192] = {0};
    carried(THX_DONE, 1, 0, NULL, 0, NULL, 0);
    carried(THX_DONE, 1, 0, cut_off, 3, fives, 8191);
    carried(THX_DONE, 1, 0, fives, 8192, fives, 1);
    carried(THX_DONE, 1, 1, seven, 2, NULL, 0);
    carried(THX_DONE, 1, 1, seven, 2, fives, 8191);
    carried(THX_DONE, 1, 2, NULL, 0, fives, 8192);
    carried(THX_DONE, 1, 2, cut_off, 3, fives, 8192);
    carried(THX_DONE, 1, 2, fives, 505, fives, 8192);
    carried(THX_DONE, 1, 0, many, sizeof many, many, sizeof many);
    /* And where they are; 65,538 and 73,728 are 2 and 8,192 if cut to 16 bits. */
    carried(THX_BAD_PAYLOAD, 1, 1, NULL, 0, fives, 8192);
    carried(THX_BAD_PAYLOAD, 1, 1, cut_off, 3, fives, 8192);
    carried(THX_BAD_PAYLOAD, 1, 1, fives, 505, fives, 8192);
    carried(THX_BAD_PAYLOAD, 1, 1, many, 65538, fives, 8192);
    carried(THX_BAD_PAGE_LENGTH, 1, 2, seven, 2, NULL, 0);
    carried(THX_BAD_PAGE_LENGTH, 1, 2, seven, 2, fives, 8191);
    carried(THX_BAD_PAGE_LENGTH, 1, 2, seven, 2, many, sizeof many);
    carried(THX_BAD_PAGE_LENGTH, 9, 2, NULL, 0, fives, 1);
}

/* A block reads as a page over a base, by its slot and by the map. */
static void reads_as(uint64_t block, const uint8_t *base, size_t base_len, const uint8_t *as,
                     uint32_t kind) {
    thx_reading r;
    memset(again, 0xEE, sizeof again);
    r = thx_read(patch, sizeof patch, full, sizeof full, block, base, base_len, again, 8192);
    CHECK(r.number == THX_DONE && r.kind == kind && memcmp(again, as, 8192) == 0);
    memset(again, 0xEE, sizeof again);
    r = thx_read_mapped(patch, sizeof patch, full, sizeof full, map, sizeof map, block, base,
                        base_len, again, 8192);
    CHECK(r.number == THX_DONE && r.kind == kind && memcmp(again, as, 8192) == 0);
}

/*
 * Sound payloads that Compare would not make: of the base's own bytes, and of as many entries as
 * there can be. They are stored as they are, and read as the base with their entries.
 */
static void sound_payloads(void) {
    static const uint8_t zero[2] = {0x00, 0x00}, same[4] = {0x00, 0x05, 0x00, 0x09}, none[504] = {0};
    static const uint8_t far[4] = {0xFF, 0xFF, 0x1F, 0x05};
    static const uint8_t zeros[8192] = {0};

    carried(THX_DONE, 0, 1, zero, 2, NULL, 0); /* with the map last, so that it is read by it */
    reads_as(0, NULL, 0, zeros, THX_KIND_PATCH);
    memcpy(page, fives, sizeof page);
    page[0] = 0;
    reads_as(0, fives, 8192, page, THX_KIND_PATCH);

    carried(THX_DONE, 2, 1, same, 4, NULL, 0);
    page[0] = 5;
    page[1] = 9;
    reads_as(2, fives, 8192, page, THX_KIND_PATCH);

    carried(THX_DONE, 1, 1, far, 4, NULL, 0);
    reads_as(1, fives, 8192, fives, THX_KIND_PATCH);

    carried(THX_DONE, 1, 1, none, 504, NULL, 0);
    memcpy(page, fives, sizeof page);
    memset(page, 0, 252);
    reads_as(1, fives, 8192, page, THX_KIND_PATCH);
    carried(THX_BAD_PAYLOAD, 1, 1, none, 503, NULL, 0);
}

/*
 * The right caller: pages that differ from the base in their first bytes, each one entry of two
 * bytes. So 252 of them fill a slot and 253 take a full page, which block 2 has no place for.
 */
static void right_caller(const uint8_t *base, size_t base_len, uint8_t byte, const store *to) {
    static const uint8_t pairs[3] = {0, 2, 1};
    unsigned count;
    for (count = 0; count <= 260; count++) {
        uint32_t kind = count == 0 ? 0 : count <= 252 ? 1 : 2;
        uint64_t block = count % BLOCKS;
        int refused = kind == 2 && block == 2;
        thx_written r;
        memset(page, byte, sizeof page);
        memset(page, 7, count);
        noise();
        r = write_by_pair(to, block, base, base_len, page, 8192);
        CHECK(r.number == (refused ? THX_NO_FULL_PAGE : THX_DONE));
        CHECK(r.kind == (refused ? 0 : kind) && r.length == (kind == 1 ? 2 * count : 0));
        CHECK(patch[512 + 512 * block] == (refused ? 0xEE : kind));
        map[0] = (uint8_t)(to->map == NULL ? pairs[kind] << 2 * block : map[0]);
        if (!refused) {
            reads_as(block, base, base_len, page, kind);
        }
    }
}

/* What Compare refuses, the right caller does not carry out. */
static void right_caller_refused(void) {
    noise();
    memcpy(patch_after, patch, sizeof patch);
    memcpy(full_after, full, sizeof full);
    CHECK(write_by_pair(&mapped, 1, fives, 8191, fives, 8192).number == THX_BAD_PAGE_LENGTH);
    CHECK(write_by_pair(&mapped, 1, fives, 8192, fives, 8191).number == THX_BAD_PAGE_LENGTH);
    CHECK(write_by_pair(&plain, 1, fives, 8192, NULL, 0).number == THX_BAD_PAGE_LENGTH);
    CHECK(memcmp(patch, patch_after, sizeof patch) == 0 && map[0] == 0x1B);
    CHECK(memcmp(full, full_after, sizeof full) == 0);
}

/*
 * The first mistake: the whole buffer is lent and not its first two bytes. 00 07 and 502 zeros are a
 * sound payload of 252 entries, and bytes 1 to 251 of the page become zero.
 */
static void whole_buffer(const store *to) {
    static uint8_t buffer[504];
    thx_compared c;
    thx_written w;
    memcpy(page, fives, sizeof page);
    page[0] = 7;
    c = thx_compare(fives, 8192, page, 8192, buffer, sizeof buffer);
    CHECK(c.number == THX_DONE && c.kind == THX_DIFFERENCE_PATCH && c.length == 2);
    CHECK(memcmp(buffer, seven, 2) == 0 && buffer[2] == 0);
    noise();
    w = carry_out(to, 1, c.kind, buffer, sizeof buffer, page, 8192); /* wrong */
    CHECK(w.number == THX_DONE && w.kind == THX_KIND_PATCH && w.length == 504);
    CHECK(thx_apply(fives, 8192, buffer, sizeof buffer, again, 8192).entries == 252);
    CHECK(thx_apply(fives, 8192, buffer, sizeof buffer, again, 8192).last == 251);
    map[0] = 0x08;
    memset(page + 1, 0, 251);
    reads_as(1, fives, 8192, page, THX_KIND_PATCH);
    CHECK(page[0] == 7 && page[251] == 0 && page[252] == 5);

    w = carry_out(to, 1, c.kind, buffer, c.length, page, 8192); /* right */
    CHECK(w.number == THX_DONE && w.kind == THX_KIND_PATCH && w.length == 2);
    memset(page + 1, 5, 251);
    reads_as(1, fives, 8192, page, THX_KIND_PATCH);
}

/*
 * The second mistake: a refused Compare is carried out. Its kind is 0, and the block becomes EMPTY:
 * the page that it held is lost, whatever the new one is.
 */
static void refused_compare(const store *to, size_t page_len, size_t buffer_len, uint32_t number) {
    static const uint8_t nines_at_end[4] = {0xFF, 0xFF, 0x1F, 0x09};
    static uint8_t buffer[504];
    thx_compared c;
    thx_written w;
    noise();
    CHECK(carry_out(to, 1, THX_KIND_PATCH, nines_at_end, 4, NULL, 0).number == THX_DONE);
    memcpy(page, fives, sizeof page);
    page[8191] = 9;
    map[0] = 0x08;
    reads_as(1, fives, 8192, page, THX_KIND_PATCH);
    page[0] = 7;
    c = thx_compare(fives, 8192, page, page_len, buffer, buffer_len);
    CHECK(c.number == number && c.kind == 0 && c.length == 0 && c.entries == 0 && c.last == 0);
    w = carry_out(to, 1, c.kind, buffer, c.length, page, page_len); /* wrong */
    CHECK(w.number == THX_DONE && w.kind == THX_KIND_EMPTY && w.length == 0);
    CHECK(map[0] == (to->map == NULL ? 0x08 : 0x00));
    map[0] = 0x00;
    reads_as(1, fives, 8192, fives, THX_KIND_EMPTY);
}

void every_decision(void) {
    const store *const both[2] = {&plain, &mapped};
    int k;
    memset(fives, 5, sizeof fives);
    every_kind();
    not_looked_at();
    sound_payloads();
    right_caller_refused();
    for (k = 0; k < 2; k++) {
        right_caller(NULL, 0, 0, both[k]);
        right_caller(fives, 8192, 5, both[k]);
        whole_buffer(both[k]);
        refused_compare(both[k], 8191, 504, THX_BAD_PAGE_LENGTH);
        refused_compare(both[k], 8192, 503, THX_SHORT_BUFFER);
    }
}
