/*
 * Documents 01 and 02 for the asks of the scene in calls.c: the number, the other members of the answer and
 * the bytes after a call that is done. Lengths are as document 01 writes them. Numbers, kinds and
 * pairs are by the header's names, so that the archive is held against the names.
 */
#include "check.h"

#include <string.h>

/* How a page differs from the base, or from zeros. */
typedef struct {
    uint32_t kind, length, entries;
    int32_t last;
    uint8_t stream[4];
} difference;

static const difference from_base[3] = {
    {THX_DIFFERENCE_SAME, 0, 0, -1, {0, 0, 0, 0}},
    {THX_DIFFERENCE_PATCH, 2, 1, 0, {0x00, 7, 0, 0}},
    {THX_DIFFERENCE_LARGE, 16384, 8192, 8191, {0, 0, 0, 0}},
};
static const difference from_zeros[3] = {
    {THX_DIFFERENCE_PATCH, 2, 1, 100, {0x64, 9, 0, 0}},
    {THX_DIFFERENCE_PATCH, 4, 2, 100, {0x00, 7, 0x63, 9}},
    {THX_DIFFERENCE_LARGE, 16384, 8192, 8191, {0, 0, 0, 0}},
};

static const difference *page_difference(const ask *a) {
    return a->length[BASE] == 0 ? &from_zeros[a->block % 3] : &from_base[a->block % 3];
}

/* The kind of the scene's slot of a block. */
static uint32_t slot_kind(uint64_t block) {
    return block == 0 ? THX_KIND_PATCH : block == 1 ? THX_KIND_FULL : THX_KIND_EMPTY;
}

/* The pair of a block in the scene's map, and the kind that it stands for. */
static uint32_t pair_of(uint64_t block) {
    static const uint32_t pairs[4] = {THX_PAIR_PATCH, THX_PAIR_FULL, THX_PAIR_EMPTY,
                                      THX_PAIR_EMPTY};
    return pairs[block % 4];
}

static uint32_t pair_kind(uint64_t block) {
    static const uint32_t kinds[3] = {THX_KIND_EMPTY, THX_KIND_FULL, THX_KIND_PATCH};
    return kinds[pair_of(block)];
}

/* The kind by which a block is read. */
static uint32_t read_kind(const ask *a) {
    return a->call == READ_MAPPED ? pair_kind(a->block) : slot_kind(a->block);
}

static int reads(int call) {
    return call == READ || call == READ_MAPPED;
}

/* How many blocks there are: as told, or seen in the patch area. */
static uint64_t blocks(const ask *a) {
    return takes(a->call, PATCH) ? (a->length[PATCH] - 512) / 512 : a->n;
}

/* How many full pages there is room for. */
static uint64_t places(const ask *a) {
    return a->length[FULL] == 0 ? 0 : (a->length[FULL] - 4096) / 8192;
}

/* 1, 2 and 9: all about lengths. */
static uint32_t length_refusal(const ask *a) {
    const size_t *len = a->length;
    if (takes(a->call, BASE) && len[BASE] != 0 && len[BASE] != 8192) {
        return THX_BAD_PAGE_LENGTH;
    }
    /* Carrying out looks at the page for FULL_REF alone. */
    if (takes(a->call, PAGE) && len[PAGE] != 8192
        && (!carries(a->call) || a->kind == THX_KIND_FULL)) {
        return THX_BAD_PAGE_LENGTH;
    }
    if (takes(a->call, PATCH) && (len[PATCH] < 512 || len[PATCH] % 512 != 0)) {
        return THX_BAD_AREA_LENGTH;
    }
    if (takes(a->call, FULL) && len[FULL] != 0
        && (len[FULL] < 4096 || len[FULL] % 8192 != 4096 || places(a) > blocks(a))) {
        return THX_BAD_AREA_LENGTH;
    }
    if (takes(a->call, SLOT) && len[SLOT] != 512) {
        return THX_BAD_AREA_LENGTH;
    }
    if (takes(a->call, MAP) && blocks(a) > 131072) {
        return THX_BAD_AREA_LENGTH;
    }
    if (takes(a->call, MAP) && len[MAP] < (blocks(a) + 3) / 4) {
        return THX_SHORT_BUFFER;
    }
    if (a->call == COMPARE && len[PAYLOAD] < 504) {
        return THX_SHORT_BUFFER;
    }
    return THX_DONE;
}

/* What the scene's payload has at a reader's place: 00 07 there, or 07 00 inside an entry. */
static int32_t jump_at(const ask *a) {
    return a->at % 2 == 0 ? 0 : 7;
}

static int at_end(const ask *a) {
    return a->at >= a->length[PAYLOAD];
}

/* 7 from a reader, or 0 with an entry and at the end. */
static uint32_t step_refusal(const ask *a) {
    size_t payload = a->length[PAYLOAD];
    if (payload == 0 || payload > 504) {
        return THX_BAD_PAYLOAD;
    }
    if (at_end(a)) {
        return THX_DONE;
    }
    if (a->position < -1 || a->position > 8191) {
        return THX_BAD_PAYLOAD;
    }
    if (a->at + 2 > payload || a->position + jump_at(a) + 1 > 8191) {
        return THX_BAD_PAYLOAD;
    }
    return THX_DONE;
}

/* Every entry is 00 07, so an odd payload ends inside one. */
static int sound_payload(const ask *a) {
    size_t payload = a->length[PAYLOAD];
    return payload != 0 && payload <= 504 && payload % 2 == 0;
}

/* 6, 8 and 7 of a decision, once the block is right; the payload is looked at for PATCH alone. */
static uint32_t decision_refusal(const ask *a) {
    if (a->kind > 2) {
        return THX_BAD_SLOT;
    }
    if (a->kind == THX_KIND_FULL && a->block >= places(a)) {
        return THX_NO_FULL_PAGE;
    }
    if (a->kind == THX_KIND_PATCH && !sound_payload(a)) {
        return THX_BAD_PAYLOAD;
    }
    return THX_DONE;
}

/*
 * 5, 6, 8, 7 and 11, once the lengths are right. The headers and slots of the scene are sound, and
 * no pair of its map is 3.
 */
static uint32_t later_refusal(const ask *a) {
    int has_block = a->call == SHOW || reads(a->call) || carries(a->call) || a->call == LOOK_UP;
    if (has_block && a->block >= blocks(a)) {
        return THX_BAD_BLOCK;
    }
    /* A cut at n is none, but no fault. */
    if (cuts(a->call) && a->block > blocks(a)) {
        return THX_BAD_BLOCK;
    }
    /* Where the map says PATCH the slot must be one. */
    if (a->call == READ_MAPPED && pair_of(a->block) == THX_PAIR_PATCH
        && slot_kind(a->block) != THX_KIND_PATCH) {
        return THX_BAD_SLOT;
    }
    if (reads(a->call) && read_kind(a) == THX_KIND_FULL && a->block >= places(a)) {
        return THX_NO_FULL_PAGE;
    }
    if (carries(a->call)) {
        return decision_refusal(a);
    }
    if ((a->call == BUILD || a->call == SWEEP) && blocks(a) > 1 && places(a) < 2) {
        return THX_NO_FULL_PAGE;
    }
    if (a->call == APPLY && !sound_payload(a)) {
        return THX_BAD_PAYLOAD;
    }
    if (a->call == NEXT) {
        return step_refusal(a);
    }
    /* In each byte of the map the second pair is not 0. */
    if (a->call == TALLY && a->n % 4 == 1) {
        return THX_BAD_PAIR;
    }
    return THX_DONE;
}

/* The other members of the answer of a call that is done. */
static void set_members(const ask *a, int64_t rest[4]) {
    const difference *differs = page_difference(a);
    uint32_t kind = slot_kind(a->block);
    if (a->call == COMPARE) {
        rest[0] = differs->kind;
        rest[1] = differs->length;
        rest[2] = differs->entries;
        rest[3] = differs->last;
    } else if (carries(a->call)) {
        rest[0] = a->kind;
        rest[1] = a->kind == THX_KIND_PATCH ? (int64_t)a->length[PAYLOAD] : 0;
    } else if (a->call == APPLY) {
        rest[0] = (int64_t)a->length[PAYLOAD] / 2;
        rest[1] = rest[0] - 1;
    } else if (a->call == JUDGE) {
        rest[0] = kind;
        rest[1] = kind == THX_KIND_PATCH ? 2 : 0;
    } else if (a->call == SHOW && kind == THX_KIND_PATCH) {
        rest[0] = 520;
        rest[1] = 2;
    } else if (reads(a->call)) {
        rest[0] = read_kind(a);
    } else if (a->call == LOOK_UP) {
        rest[0] = pair_of(a->block);
    } else if (a->call == TALLY) {
        rest[0] = (int64_t)(a->n + 3) / 4;
        rest[1] = (int64_t)(a->n + 2) / 4;
    } else if (a->call == HIGHEST) {
        /* Blocks 0 and 1 are not EMPTY, every later one is. */
        rest[0] = blocks(a) < 2 ? (int64_t)blocks(a) : 2;
    } else if (a->call == NEXT && !at_end(a)) {
        rest[0] = 1;
        rest[1] = (int64_t)a->at + 2;
        rest[2] = a->position + jump_at(a) + 1;
        rest[3] = a->at % 2 == 0 ? 7 : 0;
    }
}

/* The other members of a refusal that are not 0: Build's block and Apply's offset. */
static void set_refused(const ask *a, uint32_t number, int64_t rest[4]) {
    if (a->call == BUILD && number == THX_NO_FULL_PAGE) {
        rest[0] = 1;
    } else if (a->call == APPLY && number == THX_BAD_PAYLOAD) {
        /* The entry without a value; none counts in a payload that is empty or too long. */
        size_t payload = a->length[PAYLOAD];
        rest[2] = payload == 0 || payload > 504 ? 0 : (int64_t)payload - 1;
    }
}

answer answer_of(const ask *a) {
    answer r;
    memset(&r, 0, sizeof r);
    r.number = length_refusal(a);
    if (r.number == THX_DONE) {
        r.number = later_refusal(a);
    }
    if (a->call == NEXT) { /* without an entry it stands where it stood */
        r.rest[1] = (int64_t)a->at;
        r.rest[2] = a->position;
    }
    if (r.number == THX_DONE) {
        set_members(a, r.rest);
    } else {
        set_refused(a, r.number, r.rest);
    }
    return r;
}

static void format_bytes(const ask *a, uint8_t *const bytes[ROLES]) {
    memset(bytes[PATCH], 0, a->length[PATCH]);
    memcpy(bytes[PATCH], "PBKPATCH\2\0\0\0\0\x20\0\0\0\2\0\0", 20);
    if (a->length[FULL] != 0) {
        memset(bytes[FULL], 0, a->length[FULL]);
        memcpy(bytes[FULL], "PBKFULL\0\1\0\0\0\0\x20\0\0", 16);
    }
}

/* The base or zeros, with sevens from the payload's entries; or the page in the full area. */
static void page_bytes(const ask *a, uint8_t *const bytes[ROLES]) {
    uint32_t kind = a->call == APPLY ? THX_KIND_PATCH : read_kind(a);
    memset(bytes[PAGE], 0, 8192);
    if (a->length[BASE] != 0) {
        memcpy(bytes[PAGE], bytes[BASE], 8192);
    }
    if (kind == THX_KIND_PATCH) {
        memset(bytes[PAGE], 7, a->call == APPLY ? a->length[PAYLOAD] / 2 : 1);
    } else if (kind == THX_KIND_FULL) {
        memcpy(bytes[PAGE], bytes[FULL] + 4096 + 8192 * a->block, 8192);
    }
}

/* The slot of the kind. */
static void slot_bytes(const ask *a, uint8_t *const bytes[ROLES]) {
    uint8_t *slot = bytes[PATCH] + 512 + 512 * a->block;
    memset(slot, 0, 512);
    slot[0] = (uint8_t)a->kind;
    if (a->kind == THX_KIND_PATCH) {
        slot[1] = 1;
        slot[2] = (uint8_t)(a->length[PAYLOAD] % 256);
        slot[3] = (uint8_t)(a->length[PAYLOAD] / 256);
        memcpy(slot + 8, bytes[PAYLOAD], a->length[PAYLOAD]);
    }
}

/* The block's place, if it has one: the page or zeros. */
static void place_bytes(const ask *a, uint8_t *const bytes[ROLES]) {
    if (a->block < places(a)) {
        uint8_t *place = bytes[FULL] + 4096 + 8192 * a->block;
        memset(place, 0, 8192);
        if (a->kind == THX_KIND_FULL) {
            memcpy(place, bytes[PAGE], 8192);
        }
    }
}

/* The block's own pair for the kind that was stored: its two bits of its byte, and no others. */
static void pair_bytes(const ask *a, uint8_t *const bytes[ROLES]) {
    static const uint8_t others[4] = {0xFC, 0xF3, 0xCF, 0x3F};
    static const uint8_t own[3][4] = {
        {0x00, 0x00, 0x00, 0x00}, {0x02, 0x08, 0x20, 0x80}, {0x01, 0x04, 0x10, 0x40}};
    uint8_t *byte = bytes[MAP] + a->block / 4;
    *byte = (uint8_t)((*byte & others[a->block % 4]) | own[a->kind][a->block % 4]);
}

/* Page then slot, or slot then place, as far as it is told; the pair only if it is told all. */
static void carry_bytes(const ask *a, uint8_t *const bytes[ROLES]) {
    int all = a->stores != 0 && a->stores != 1;
    int full = a->kind == THX_KIND_FULL;
    if (all || (a->stores == 1 && full)) {
        place_bytes(a, bytes);
    }
    if (all || (a->stores == 1 && !full)) {
        slot_bytes(a, bytes);
    }
    if (all && a->call == CARRY_OUT_MAPPED) {
        pair_bytes(a, bytes);
    }
}

/* Every place but that of the FULL_REF block. */
static void sweep_bytes(const ask *a, uint8_t *const bytes[ROLES]) {
    uint64_t block;
    for (block = 0; block < places(a); block++) {
        if (slot_kind(block) != THX_KIND_FULL) {
            memset(bytes[FULL] + 4096 + 8192 * block, 0, 8192);
        }
    }
}

/* Slots, places and pairs of blocks k and up, block by block; other pairs of the map stay. */
static void cut_bytes(const ask *a, uint8_t *const bytes[ROLES]) {
    static const uint8_t others[4] = {0xFC, 0xF3, 0xCF, 0x3F};
    uint64_t block;
    for (block = a->block; block < blocks(a); block++) {
        memset(bytes[PATCH] + 512 + 512 * block, 0, 512);
        if (block < places(a)) {
            memset(bytes[FULL] + 4096 + 8192 * block, 0, 8192);
        }
        if (a->call == CUT_MAPPED) {
            bytes[MAP][block / 4] = (uint8_t)(bytes[MAP][block / 4] & others[block % 4]);
        }
    }
}

void change(const ask *a, uint8_t *const bytes[ROLES]) {
    if (a->call == FORMAT) {
        format_bytes(a, bytes);
    } else if (a->call == COMPARE && page_difference(a)->kind == THX_DIFFERENCE_PATCH) {
        memcpy(bytes[PAYLOAD], page_difference(a)->stream, page_difference(a)->length);
    } else if (a->call == APPLY || reads(a->call)) {
        page_bytes(a, bytes);
    } else if (carries(a->call)) {
        carry_bytes(a, bytes);
    } else if (cuts(a->call)) {
        cut_bytes(a, bytes);
    } else if (a->call == SWEEP) {
        sweep_bytes(a, bytes);
    } else if (a->call == BUILD) {
        memset(bytes[MAP], 0, (blocks(a) + 3) / 4);
        if (blocks(a) > 0) {
            bytes[MAP][0] = blocks(a) == 1 ? 0x02 : 0x06;
        }
    }
}
