/*
 * Payloads worked by hand: their entries, and where they break. Each is read by thx_next from its
 * beginning to its end or stop and two steps further, applied, put into a slot to be read, read by a
 * map and built, and carried out. Then every 16-bit jump, where the rule is counted out here.
 */
#include "check.h"

#include <stdio.h>
#include <string.h>

#define SOUND (-1)

typedef struct {
    size_t length;
    uint8_t bytes[10];
    int32_t breaks_at; /* SOUND, or the offset */
    uint32_t entries;  /* that a reader gives */
    int32_t position[2];
    uint8_t value[2];
} worked;

static const worked payloads[] = {
    {2, {0x00, 0x07}, SOUND, 1, {0, 0}, {7, 0}},
    {2, {0xFE, 0x01}, SOUND, 1, {254, 0}, {1, 0}},
    {4, {0xFF, 0xFF, 0x00, 0x01}, SOUND, 1, {255, 0}, {1, 0}},
    {4, {0xFF, 0xFF, 0x1F, 0x01}, SOUND, 1, {8191, 0}, {1, 0}},
    {4, {0x00, 0x01, 0xFE, 0x01}, SOUND, 2, {0, 255}, {1, 1}},
    {6, {0x00, 0x01, 0xFF, 0xFF, 0x00, 0x01}, SOUND, 2, {0, 256}, {1, 1}},
    {4, {0xFF, 0x00, 0x01, 0x01}, SOUND, 1, {256, 0}, {1, 0}},
    {4, {0xFF, 0xFE, 0x01, 0x01}, SOUND, 1, {510, 0}, {1, 0}},
    {6, {0x00, 0x01, 0xFF, 0x00, 0x01, 0x02}, SOUND, 2, {0, 257}, {1, 2}},
    {8, {0xFF, 0xFF, 0x00, 0x01, 0xFF, 0xFF, 0x00, 0x02}, SOUND, 2, {255, 511}, {1, 2}},
    {8, {0xFF, 0xFF, 0x1E, 0x01, 0xFF, 0xFF, 0x00, 0x02}, SOUND, 2, {7935, 8191}, {1, 2}},
    {6, {0xFF, 0xFF, 0x00, 0xFF, 0x00, 0x05}, SOUND, 2, {255, 256}, {255, 5}},
    /* a jump below 255 by the long code; P12 is the first */
    {4, {0xFF, 0x00, 0x00, 0x05}, 0, 0, {0, 0}, {0, 0}},
    {4, {0xFF, 0x01, 0x00, 0x01}, 0, 0, {0, 0}, {0, 0}},
    {4, {0xFF, 0xFE, 0x00, 0x01}, 0, 0, {0, 0}, {0, 0}},
    {6, {0xFF, 0x00, 0x00, 0x05, 0x00, 0x07}, 0, 0, {0, 0}, {0, 0}},
    {6, {0x00, 0x01, 0xFF, 0xFE, 0x00, 0x02}, 2, 1, {0, 0}, {1, 0}},
    {8, {0x00, 0x01, 0xFE, 0x02, 0xFF, 0xFE, 0x00, 0x03}, 4, 2, {0, 255}, {1, 2}},
    {8, {0xFF, 0xFF, 0x00, 0x01, 0xFF, 0x00, 0x00, 0x02}, 4, 1, {255, 0}, {1, 0}},
    {8, {0xFF, 0xFF, 0x1F, 0x01, 0xFF, 0x00, 0x00, 0x02}, 4, 1, {8191, 0}, {1, 0}},
    {8, {0xFF, 0x00, 0x1F, 0x01, 0xFF, 0xFE, 0x00, 0x02}, 4, 1, {7936, 0}, {1, 0}},
    {10, {0x00, 0x01, 0xFF, 0x00, 0x00, 0x02, 0xFF, 0x00, 0x20, 0x03}, 2, 1, {0, 0}, {1, 0}},
    {10, {0x00, 0x01, 0xFF, 0x00, 0x20, 0x02, 0xFF, 0x00, 0x00, 0x03}, 2, 1, {0, 0}, {1, 0}},
    /* out of the page */
    {4, {0xFF, 0x00, 0x20, 0x01}, 0, 0, {0, 0}, {0, 0}},
    {6, {0xFF, 0xFF, 0x1F, 0x01, 0x00, 0x02}, 4, 1, {8191, 0}, {1, 0}},
    {6, {0xFF, 0xFE, 0x1F, 0x01, 0x01, 0x02}, 4, 1, {8190, 0}, {1, 0}},
    {6, {0x00, 0x07, 0xFF, 0xFF, 0xFF, 0x01}, 2, 1, {0, 0}, {7, 0}},
    {5, {0xFF, 0x00, 0x20, 0x01, 0x00}, 0, 0, {0, 0}, {0, 0}},
    /* cut off */
    {1, {0x00}, 0, 0, {0, 0}, {0, 0}},
    {1, {0xFF}, 0, 0, {0, 0}, {0, 0}},
    {2, {0xFF, 0x00}, 0, 0, {0, 0}, {0, 0}},
    {3, {0xFF, 0x00, 0x00}, 0, 0, {0, 0}, {0, 0}},
    {3, {0x00, 0x07, 0x00}, 2, 1, {0, 0}, {7, 0}},
    {3, {0x00, 0x07, 0xFF}, 2, 1, {0, 0}, {7, 0}},
    {5, {0x00, 0x01, 0xFF, 0xFE, 0x00}, 2, 1, {0, 0}, {1, 0}},
    {5, {0x00, 0x01, 0xFF, 0xFF, 0x00}, 2, 1, {0, 0}, {1, 0}},
    {5, {0xFF, 0xFF, 0x00, 0x01, 0xFE}, 4, 1, {255, 0}, {1, 0}},
    {8, {0x00, 0x01, 0xFF, 0xFF, 0x00, 0x01, 0xFF, 0x00}, 6, 2, {0, 256}, {1, 1}},
    /* empty */
    {0, {0}, 0, 0, {0, 0}, {0, 0}},
};
#define PAYLOADS (sizeof payloads / sizeof payloads[0])

/* A check about a payload; if it does not hold the payload is told. */
static void check_payload(int holds, const char *what, const worked *w, int line) {
    char text[300] = "";
    size_t k;
    int at;
    if (!holds) {
        at = snprintf(text, 200, "%s; payload", what);
        at = at < 200 ? at : 199;
        for (k = 0; k < w->length; k++) {
            at += sprintf(text + at, " %02X", (unsigned)w->bytes[k]);
        }
    }
    check(holds, text, __FILE__, line);
}
#define HOLDS(condition) check_payload((condition) ? 1 : 0, #condition, w, __LINE__)

static uint32_t number_of(const worked *w) {
    return w->breaks_at == SOUND ? THX_DONE : THX_BAD_PAYLOAD;
}

static uint32_t offset_of(const worked *w) {
    return w->breaks_at == SOUND ? 0 : (uint32_t)w->breaks_at;
}

static void read_through(const worked *w) {
    thx_entry e = {0, 0, 0, -1, 0};
    uint64_t stands_at = w->breaks_at == SOUND ? w->length : (uint64_t)w->breaks_at;
    int32_t last = -1;
    uint32_t k;
    for (k = 0; k < w->entries; k++) {
        e = thx_next(w->bytes, w->length, e.at, e.position);
        HOLDS(e.number == THX_DONE && e.found == 1);
        HOLDS(e.position == w->position[k] && e.value == w->value[k]);
        last = w->position[k];
    }
    for (k = 0; k < 3; k++) {
        e = thx_next(w->bytes, w->length, e.at, e.position);
        HOLDS(e.number == number_of(w) && e.found == 0 && e.value == 0);
        HOLDS(e.at == stands_at && e.position == last);
    }
}

/* The base, of zeros, lent or left out; a page before a call, and as it must be afterwards. */
static const uint8_t base[8192] = {0};
static uint8_t page[8192], expected[8192];
static void set_pages(const worked *w) {
    uint32_t k;
    memset(page, 0xEE, sizeof page);
    memset(expected, w->breaks_at == SOUND ? 0 : 0xEE, sizeof expected);
    for (k = 0; k < w->entries && w->breaks_at == SOUND; k++) {
        expected[w->position[k]] = w->value[k];
    }
}

static void apply(const worked *w, size_t base_len) {
    thx_applied applied;
    set_pages(w);
    applied = thx_apply(base, base_len, w->bytes, w->length, page, sizeof page);
    HOLDS(applied.number == number_of(w) && applied.offset == offset_of(w));
    if (w->breaks_at == SOUND) {
        HOLDS(applied.entries == w->entries && applied.last == w->position[w->entries - 1]);
    } else {
        HOLDS(applied.entries == 0 && applied.last == 0);
    }
    HOLDS(memcmp(page, expected, sizeof page) == 0);
}

/* One spelling: no value here is the base's, so the page's stream is the sound payload itself. */
static void spell(const worked *w) {
    uint8_t stream[THX_PAYLOAD_SIZE];
    thx_compared compared;
    if (w->breaks_at == SOUND) {
        set_pages(w);
        compared = thx_compare(base, sizeof base, expected, sizeof expected, stream, sizeof stream);
        HOLDS(compared.kind == THX_DIFFERENCE_PATCH && compared.length == w->length);
        HOLDS(memcmp(stream, w->bytes, w->length) == 0);
    }
}

/* The payload in block 1 of three. */
static void read_and_build(const worked *w, size_t base_len) {
    static uint8_t patch[2048];
    static const uint8_t patch_pair = 0x08;
    uint8_t map = 0xEE;
    thx_reading reading;
    thx_built built;
    int sound = w->breaks_at == SOUND;
    if (patch[0] == 0) {
        HOLDS(thx_format(patch, sizeof patch, NULL, 0).number == THX_DONE);
    }
    memset(patch + 1024, 0, 512);
    patch[1024] = 1;
    patch[1025] = 1;
    patch[1026] = (uint8_t)w->length;
    memcpy(patch + 1032, w->bytes, w->length);
    set_pages(w);
    reading = thx_read(patch, sizeof patch, NULL, 0, 1, base, base_len, page, sizeof page);
    HOLDS(reading.number == number_of(w) && reading.offset == offset_of(w));
    HOLDS(reading.kind == (sound ? THX_KIND_PATCH : 0u));
    HOLDS(memcmp(page, expected, sizeof page) == 0);
    memset(page, 0xEE, sizeof page);
    reading = thx_read_mapped(patch, sizeof patch, NULL, 0, &patch_pair, 1, 1, base, base_len, page,
                              sizeof page);
    HOLDS(reading.number == number_of(w) && reading.offset == offset_of(w));
    HOLDS(reading.kind == (sound ? THX_KIND_PATCH : 0u));
    HOLDS(memcmp(page, expected, sizeof page) == 0);
    built = thx_build(patch, sizeof patch, NULL, 0, &map, 1);
    HOLDS(built.number == number_of(w) && built.offset == offset_of(w));
    HOLDS(built.block == (sound ? 0u : 1u) && map == (sound ? patch_pair : 0xEE));
}

/* The payload carried out over a slot that is not sound: taken as it is, or refused with 7 alone. */
static void carry(const worked *w) {
    static uint8_t patch[1536], wanted[1536];
    store to = {patch, sizeof patch, NULL, 0, NULL, 0};
    int sound = w->breaks_at == SOUND;
    thx_written r;
    if (patch[0] == 0) {
        HOLDS(thx_format(patch, sizeof patch, NULL, 0).number == THX_DONE);
    }
    memset(patch + 512, 0xEE, 1024);
    memcpy(wanted, patch, sizeof patch);
    if (sound) {
        memset(wanted + 512, 0, 512);
        wanted[512] = 1;
        wanted[513] = 1;
        wanted[514] = (uint8_t)w->length;
        memcpy(wanted + 520, w->bytes, w->length);
    }
    r = carry_out(&to, 0, THX_KIND_PATCH, w->bytes, w->length, NULL, 0);
    HOLDS(r.number == number_of(w) && r.kind == (sound ? THX_KIND_PATCH : 0u));
    HOLDS(r.length == (sound ? w->length : 0u));
    HOLDS(memcmp(patch, wanted, sizeof patch) == 0);
}

/*
 * FF, a 16-bit jump and a value, alone or after the entry 00 01. By the rule it is sound if the
 * jump is 255 or more and stays in the page.
 */
static worked long_entry(uint32_t jump, uint32_t before) {
    worked w;
    uint8_t *entry = w.bytes + 2 * before;
    int32_t position = (int32_t)(before + jump);
    int sound = jump >= 255 && position <= 8191;
    memset(&w, 0, sizeof w);
    w.bytes[1] = 1;
    w.value[0] = 1;
    entry[0] = 255;
    entry[1] = (uint8_t)(jump % 256);
    entry[2] = (uint8_t)(jump / 256);
    entry[3] = (uint8_t)(1 + jump % 255);
    w.length = 2 * before + 4;
    w.breaks_at = sound ? SOUND : 2 * (int32_t)before;
    w.entries = before + (sound ? 1 : 0);
    if (sound) {
        w.position[before] = position;
        w.value[before] = entry[3];
    }
    return w;
}

/* Slots take longer. After 00 01 only jumps near an edge stand in one, and every 17th. */
static int in_a_slot(uint32_t jump, uint32_t before) {
    return before == 0 || jump < 1024 || (jump >= 8184 && jump < 8200) || jump % 17 == 0;
}

static void every_long_entry(void) {
    uint32_t jump, before;
    for (before = 0; before < 2; before++) {
        for (jump = 0; jump < 65536; jump++) {
            worked w = long_entry(jump, before);
            read_through(&w);
            apply(&w, sizeof base);
            spell(&w);
            carry(&w);
            if (in_a_slot(jump, before)) {
                read_and_build(&w, sizeof base);
            }
        }
    }
}

/* The loop that the header shows, with a text to print into. */
static void header_loop(const uint8_t *payload, size_t payload_len, const char *wanted) {
    char text[200];
    int at = 0;
    thx_entry e = {0, 0, 0, -1, 0};
    do {
        e = thx_next(payload, payload_len, e.at, e.position);
        if (e.found)
            at += sprintf(text + at, "byte %d becomes %u\n", (int)e.position, (unsigned)e.value);
    } while (e.found);
    if (e.number == THX_DONE)
        at += sprintf(text + at, "end\n");
    else
        at += sprintf(text + at, "stopped at offset %u\n", (unsigned)e.at);
    CHECK(strcmp(text, wanted) == 0);
}

void every_payload(void) {
    static const uint8_t two[4] = {0x00, 0x07, 0xFE, 0x01}, cut[3] = {0x00, 0x07, 0x00};
    static const uint8_t short_jump[6] = {0x00, 0x07, 0xFF, 0xFE, 0x00, 0x01};
    size_t k;
    for (k = 0; k < PAYLOADS; k++) {
        read_through(&payloads[k]);
        apply(&payloads[k], 0);
        apply(&payloads[k], sizeof base);
        spell(&payloads[k]);
        carry(&payloads[k]);
        if (payloads[k].length != 0) {
            read_and_build(&payloads[k], 0);
            read_and_build(&payloads[k], sizeof base);
        }
    }
    header_loop(two, sizeof two, "byte 0 becomes 7\nbyte 255 becomes 1\nend\n");
    header_loop(cut, sizeof cut, "byte 0 becomes 7\nstopped at offset 2\n");
    header_loop(short_jump, sizeof short_jump, "byte 0 becomes 7\nstopped at offset 2\n");
    header_loop(NULL, 0, "stopped at offset 0\n");
    every_long_entry();
}
