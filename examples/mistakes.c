/*
 * Mistakes that a caller of the C interface can make, on a real page: the two of a write, and a read
 * by a map from before a stop. What the right caller gets, and what each of the others gets instead.
 * Ends with status 1 if it is not as it says.
 *
 *   mistakes FILE     its first 8,192 bytes are the page in the base; byte 0 becomes 7
 */
#include "thonxiliko.h"

#include <stdio.h>
#include <stdlib.h>
#include <string.h>

static uint8_t base[THX_PAGE_SIZE], page[THX_PAGE_SIZE], again[THX_PAGE_SIZE];
/* A store of one block; its full area is lent only where a write is stopped. */
static uint8_t patch[THX_PATCH_HEADER_SIZE + THX_SLOT_SIZE];
static uint8_t full[THX_FULL_HEADER_SIZE + THX_PAGE_SIZE];

static void must(int holds, const char *what) {
    if (!holds) {
        printf("not so: %s\n", what);
        exit(EXIT_FAILURE);
    }
}

static thx_written carry_out(uint32_t kind, const uint8_t *payload, size_t payload_len,
                             size_t page_len) {
    return thx_carry_out(patch, sizeof patch, NULL, 0, 0, kind, payload, payload_len, page,
                         page_len, THX_STORES_ALL);
}

/* How many bytes of the block that was read are not the page's. */
static unsigned not_the_page(void) {
    unsigned at, wrong = 0;
    for (at = 0; at < THX_PAGE_SIZE; at++) {
        wrong += again[at] != page[at];
    }
    return wrong;
}

/* The block read back: how many of its bytes are not the page's. */
static unsigned wrong_bytes(void) {
    must(thx_read(patch, sizeof patch, NULL, 0, 0, base, sizeof base, again, sizeof again).number
             == THX_DONE, "the block reads");
    return not_the_page();
}

static void right_caller(void) {
    uint8_t buffer[THX_PAYLOAD_SIZE] = {0};
    thx_compared c = thx_compare(base, sizeof base, page, sizeof page, buffer, sizeof buffer);
    thx_written w = {c.number, 0, 0};
    printf("Compare: number %u, kind %u, length %u: %02X %02X. It would take a patch.\n",
           (unsigned)c.number, (unsigned)c.kind, (unsigned)c.length, buffer[0], buffer[1]);
    if (c.number == THX_DONE)
        w = carry_out(c.kind, buffer, c.kind == THX_DIFFERENCE_PATCH ? c.length : 0, sizeof page);
    printf("right:   lent 2 bytes, number %u, kind %u, length %u; bytes that read wrongly: %u\n",
           (unsigned)w.number, (unsigned)w.kind, (unsigned)w.length, wrong_bytes());
    must(w.number == THX_DONE && w.length == 2 && wrong_bytes() == 0, "the right caller is right");
}

/* 00 07 and 502 zeros are 252 sound entries; 251 of them write zeros at bytes 1 to 251. */
static void whole_buffer(void) {
    uint8_t buffer[THX_PAYLOAD_SIZE] = {0};
    thx_compared c = thx_compare(base, sizeof base, page, sizeof page, buffer, sizeof buffer);
    thx_written w = carry_out(c.kind, buffer, sizeof buffer, sizeof page); /* not c.length */
    unsigned at, lost = 0;
    for (at = 1; at <= 251; at++) {
        lost += page[at] != 0;
    }
    printf("wrong:   lent 504 bytes, number %u, kind %u, length %u; bytes that read wrongly: %u\n",
           (unsigned)w.number, (unsigned)w.kind, (unsigned)w.length, wrong_bytes());
    must(w.number == THX_DONE && w.length == 504, "the whole buffer is a sound payload");
    must(lost > 0 && wrong_bytes() == lost, "it zeroes bytes 1 to 251");
}

/* A page of 8,191 bytes is refused; the kind of that answer is 0, which is EMPTY too. */
static void refused_compare(void) {
    uint8_t buffer[THX_PAYLOAD_SIZE] = {0};
    thx_compared c = thx_compare(base, sizeof base, page, 8191, buffer, sizeof buffer);
    thx_written w = carry_out(c.kind, buffer, c.length, 8191); /* though c.number is not 0 */
    printf("wrong:   Compare gave number %u, kind %u, and was carried out: number %u, kind %u;\n",
           (unsigned)c.number, (unsigned)c.kind, (unsigned)w.number, (unsigned)w.kind);
    must(c.number == THX_BAD_PAGE_LENGTH && w.number == THX_DONE, "a refused Compare is carried out");
    must(wrong_bytes() == 1 && memcmp(again, base, sizeof base) == 0, "the block reads as its base");
    printf("         the block is EMPTY and reads as its base: its page is lost\n");
}

/* The block read by a map. */
static void read_by(uint8_t map, uint32_t kind, const char *whose) {
    thx_reading r = thx_read_mapped(patch, sizeof patch, full, sizeof full, &map, 1, 0, base,
                                    sizeof base, again, sizeof again);
    printf("%s number %u, kind %u; bytes that read wrongly: %u\n", whose, (unsigned)r.number,
           (unsigned)r.kind, not_the_page());
    must(r.number == THX_DONE && r.kind == kind, "the block reads by the map");
}

/*
 * A full page is to become a patch, 00 07, with a map that is kept. The write is stopped after its
 * first store and swept. The map has not seen it, and leads to a place that is zeros now.
 */
static void old_map(void) {
    static const uint8_t payload[2] = {0x00, 0x07}, zeros[THX_PAGE_SIZE] = {0};
    static uint8_t old[THX_PAGE_SIZE];
    uint8_t map = 0;
    memset(old, 'o', sizeof old);
    must(thx_format(patch, sizeof patch, full, sizeof full).number == THX_DONE, "a fresh store");
    must(thx_carry_out_mapped(patch, sizeof patch, full, sizeof full, &map, 1, 0, THX_KIND_FULL,
                              NULL, 0, old, sizeof old, THX_STORES_ALL).number == THX_DONE,
         "the block has a full page");
    must(thx_carry_out_mapped(patch, sizeof patch, full, sizeof full, &map, 1, 0, THX_KIND_PATCH,
                              payload, sizeof payload, NULL, 0, THX_STORES_ONE).number == THX_DONE,
         "a write is stopped");
    must(thx_sweep(patch, sizeof patch, full, sizeof full).number == THX_DONE, "it is swept");
    printf("A full page was to become a patch; the write was stopped after one store, and swept.\n");
    read_by(map, THX_KIND_FULL, "wrong:   by the map from before the stop:");
    must(memcmp(again, zeros, sizeof zeros) == 0, "the old map gives zeros");
    printf("         the block reads as zeros: neither the old page nor the new one\n");
    must(thx_build(patch, sizeof patch, full, sizeof full, &map, 1).number == THX_DONE,
         "Build accepts the swept store");
    read_by(map, THX_KIND_PATCH, "right:   by the map built anew:");
    must(not_the_page() == 0, "the map built anew gives the new page");
}

int main(int count, char **words) {
    FILE *file = count == 2 ? fopen(words[1], "rb") : NULL;
    if (file == NULL || fread(base, 1, sizeof base, file) != sizeof base) {
        printf("usage: mistakes FILE, with a page in it\n");
        return 2;
    }
    fclose(file);
    memcpy(page, base, sizeof page);
    page[0] = 7;
    must(base[0] != 7, "byte 0 of the page is another");
    must(thx_format(patch, sizeof patch, NULL, 0).number == THX_DONE, "a fresh store");
    right_caller();
    whole_buffer();
    right_caller();
    refused_compare();
    old_map();
    return 0;
}
