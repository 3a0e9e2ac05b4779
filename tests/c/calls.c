/*
 * The scene, and one way to make any call on it.
 *
 * The store has three blocks and room for three full pages:
 *
 *   block 0   PATCH, byte 0 becomes 7
 *   block 1   FULL_REF, a page of fives
 *   block 2   EMPTY
 *
 * The base is zeros but for byte 100. Compare and carrying out get a page by the block: for block 0
 * the base itself, for block 1 the base with byte 0 changed, for block 2 the fives. So a FULL_REF
 * carried out changes the place of every block. A payload has entries 00 07 as far as it goes. A map
 * has the pairs PATCH, full, EMPTY, EMPTY over and over, which is the map of the three blocks. Sweep
 * finds a page of fives in every place. All bytes are set by hand from document 01. A buffer that a
 * call only writes to is full of EE before.
 */
#include "check.h"

#include <stdio.h>
#include <stdlib.h>
#include <string.h>

/* More than any length tried. */
#define ROOM 40960
static uint8_t patch[ROOM], full[ROOM], base[ROOM], pages[3][ROOM], payload[ROOM], map[ROOM];
static uint8_t old[ROOM], littered[ROOM];

static const struct {
    const char *name;
    unsigned takes, writes;
} calls[CALLS] = {
    {"thx_format", BIT(PATCH) | BIT(FULL), BIT(PATCH) | BIT(FULL)},
    {"thx_compare", BIT(BASE) | BIT(PAGE) | BIT(PAYLOAD), BIT(PAYLOAD)},
    {"thx_apply", BIT(BASE) | BIT(PAYLOAD) | BIT(PAGE), BIT(PAGE)},
    {"thx_judge", BIT(SLOT), 0},
    {"thx_show", BIT(PATCH), 0},
    {"thx_read", BIT(PATCH) | BIT(FULL) | BIT(BASE) | BIT(PAGE), BIT(PAGE)},
    {"thx_carry_out", BIT(PATCH) | BIT(FULL) | BIT(PAYLOAD) | BIT(PAGE), BIT(PATCH) | BIT(FULL)},
    {"thx_build", BIT(PATCH) | BIT(FULL) | BIT(MAP), BIT(MAP)},
    {"thx_look_up", BIT(MAP), 0},
    {"thx_tally", BIT(MAP), 0},
    {"thx_next", BIT(PAYLOAD), 0},
    {"thx_carry_out_mapped", BIT(PATCH) | BIT(FULL) | BIT(MAP) | BIT(PAYLOAD) | BIT(PAGE),
     BIT(PATCH) | BIT(FULL) | BIT(MAP)},
    {"thx_read_mapped", BIT(PATCH) | BIT(FULL) | BIT(MAP) | BIT(BASE) | BIT(PAGE), BIT(PAGE)},
    {"thx_cut", BIT(PATCH) | BIT(FULL), BIT(PATCH) | BIT(FULL)},
    {"thx_cut_mapped", BIT(PATCH) | BIT(FULL) | BIT(MAP), BIT(PATCH) | BIT(FULL) | BIT(MAP)},
    {"thx_highest", BIT(PATCH), 0},
    {"thx_sweep", BIT(PATCH) | BIT(FULL), BIT(FULL)},
};

int takes(int call, int role) {
    return (calls[call].takes & BIT(role)) != 0;
}

int cuts(int call) {
    return call == CUT || call == CUT_MAPPED;
}

int carries(int call) {
    return call == CARRY_OUT || call == CARRY_OUT_MAPPED;
}

static void set_scene(void) {
    static const uint8_t head[20] = {'P', 'B', 'K', 'P', 'A', 'T', 'C', 'H', 2, 0,
                                     0,   0,   0,   32,  0,   0,   0,   2,   0, 0};
    static const uint8_t full_head[16] = {'P', 'B', 'K', 'F', 'U', 'L', 'L', 0,
                                          1,   0,   0,   0,   0,   32,  0,   0};
    static const uint8_t patch_slot[10] = {1, 1, 2, 0, 0, 0, 0, 0, 0x00, 0x07};
    size_t at;
    memcpy(patch, head, sizeof head);
    memcpy(patch + 512, patch_slot, sizeof patch_slot);
    patch[1024] = 2;
    memcpy(full, full_head, sizeof full_head);
    memset(full + 12288, 5, 8192);
    memcpy(littered, full, 4096);
    memset(littered + 4096, 5, ROOM - 4096);
    base[100] = 9;
    pages[0][100] = 9;
    pages[1][100] = 9;
    pages[1][0] = 7;
    memset(pages[2], 5, ROOM);
    for (at = 1; at < ROOM; at += 2) {
        payload[at] = 7; /* entries 00 07 */
    }
    memset(map, 0x06, ROOM);
    memset(old, 0xEE, ROOM);
}

ask sound_ask(int call) {
    static const size_t sound[ROLES] = {2048, 28672, 8192, 8192, 0, 1, 512};
    ask a;
    if (old[0] == 0) {
        set_scene();
    }
    memset(&a, 0, sizeof a);
    a.call = call;
    memcpy(a.length, sound, sizeof sound);
    a.length[PAYLOAD] = call == COMPARE ? 504 : 2;
    a.kind = THX_KIND_PATCH;
    a.stores = THX_STORES_ALL;
    a.n = 3;
    a.position = -1;
    return a;
}

/* The bytes that a buffer has before the call, but for those made wrong. */
static const uint8_t *before(const ask *a, int role) {
    /* Some calls find a store in what they write; other buffers that are written hold anything. */
    int keeps = carries(a->call) || cuts(a->call) || a->call == SWEEP;
    if ((calls[a->call].writes & BIT(role)) != 0 && !keeps) {
        return old;
    }
    if (a->call == SWEEP && role == FULL) {
        return littered;
    }
    switch (role) {
    case PATCH: return patch;
    case FULL: return full;
    case BASE: return base;
    case PAGE: return pages[a->block % 3];
    case PAYLOAD: return payload;
    case MAP: return map;
    default: return patch + 512 + 512 * (a->block % 3);
    }
}

static answer give(uint32_t number, int64_t first, int64_t second, int64_t third, int64_t fourth) {
    answer given;
    given.number = number;
    given.rest[0] = first;
    given.rest[1] = second;
    given.rest[2] = third;
    given.rest[3] = fourth;
    return given;
}

static answer carry(const ask *a, uint8_t *const at[ROLES]) {
    const size_t *len = a->length;
    thx_written r;
    if (a->call == CARRY_OUT) {
        r = thx_carry_out(at[PATCH], len[PATCH], at[FULL], len[FULL], a->block, a->kind,
                          at[PAYLOAD], len[PAYLOAD], at[PAGE], len[PAGE], a->stores);
    } else {
        r = thx_carry_out_mapped(at[PATCH], len[PATCH], at[FULL], len[FULL], at[MAP], len[MAP],
                                 a->block, a->kind, at[PAYLOAD], len[PAYLOAD], at[PAGE], len[PAGE],
                                 a->stores);
    }
    return give(r.number, r.kind, r.length, 0, 0);
}

/* The calls that answer with a number alone. */
static answer call_to_be_done(const ask *a, uint8_t *const at[ROLES]) {
    const size_t *len = a->length;
    thx_done r;
    if (a->call == FORMAT) {
        r = thx_format(at[PATCH], len[PATCH], at[FULL], len[FULL]);
    } else if (a->call == CUT) {
        r = thx_cut(at[PATCH], len[PATCH], at[FULL], len[FULL], a->block);
    } else if (a->call == CUT_MAPPED) {
        r = thx_cut_mapped(at[PATCH], len[PATCH], at[FULL], len[FULL], at[MAP], len[MAP], a->block);
    } else {
        r = thx_sweep(at[PATCH], len[PATCH], at[FULL], len[FULL]);
    }
    return give(r.number, 0, 0, 0, 0);
}

static answer call_on_areas(const ask *a, uint8_t *const at[ROLES]) {
    const size_t *len = a->length;
    if (carries(a->call)) {
        return carry(a, at);
    } else if (a->call == FORMAT || cuts(a->call) || a->call == SWEEP) {
        return call_to_be_done(a, at);
    } else if (a->call == SHOW) {
        thx_part r = thx_show(at[PATCH], len[PATCH], a->block);
        return give(0, (int64_t)r.at, (int64_t)r.len, 0, 0);
    } else if (a->call == READ) {
        thx_reading r = thx_read(at[PATCH], len[PATCH], at[FULL], len[FULL], a->block, at[BASE],
                                 len[BASE], at[PAGE], len[PAGE]);
        return give(r.number, r.kind, r.offset, 0, 0);
    } else if (a->call == READ_MAPPED) {
        thx_reading r = thx_read_mapped(at[PATCH], len[PATCH], at[FULL], len[FULL], at[MAP],
                                        len[MAP], a->block, at[BASE], len[BASE], at[PAGE],
                                        len[PAGE]);
        return give(r.number, r.kind, r.offset, 0, 0);
    } else if (a->call == HIGHEST) {
        thx_extent r = thx_highest(at[PATCH], len[PATCH]);
        return give(r.number, (int64_t)r.blocks, 0, 0, 0);
    } else {
        thx_built r = thx_build(at[PATCH], len[PATCH], at[FULL], len[FULL], at[MAP], len[MAP]);
        return give(r.number, (int64_t)r.block, r.offset, 0, 0);
    }
}

static answer call_on(const ask *a, uint8_t *const at[ROLES]) {
    const size_t *len = a->length;
    if (a->call == COMPARE) {
        thx_compared r = thx_compare(at[BASE], len[BASE], at[PAGE], len[PAGE], at[PAYLOAD],
                                     len[PAYLOAD]);
        return give(r.number, r.kind, r.length, r.entries, r.last);
    } else if (a->call == APPLY) {
        thx_applied r = thx_apply(at[BASE], len[BASE], at[PAYLOAD], len[PAYLOAD], at[PAGE],
                                  len[PAGE]);
        return give(r.number, r.entries, r.last, r.offset, 0);
    } else if (a->call == JUDGE) {
        thx_judged r = thx_judge(at[SLOT], len[SLOT]);
        return give(r.number, r.kind, r.length, 0, 0);
    } else if (a->call == LOOK_UP) {
        thx_pair r = thx_look_up(at[MAP], len[MAP], a->n, a->block);
        return give(r.number, r.pair, 0, 0, 0);
    } else if (a->call == TALLY) {
        thx_tallied r = thx_tally(at[MAP], len[MAP], a->n);
        return give(r.number, (int64_t)r.patch, (int64_t)r.full, 0, 0);
    } else if (a->call == NEXT) {
        thx_entry r = thx_next(at[PAYLOAD], len[PAYLOAD], a->at, a->position);
        return give(r.number, r.found, (int64_t)r.at, r.position, r.value);
    }
    return call_on_areas(a, at);
}

/* A check of a call; if it does not hold the whole ask is told. */
static void check_call(int holds, const char *what, const ask *a) {
    char text[400] = "";
    if (!holds) {
        const size_t *len = a->length;
        snprintf(text, sizeof text,
                 "%s of %s: patch %lu, full %lu, base %lu, page %lu, payload %lu, map %lu, "
                 "slot %lu; block %lu, kind %lu, stores %lu, n %lu, at %lu, position %ld; "
                 "bytes made wrong: %d",
                 what, calls[a->call].name, (unsigned long)len[PATCH], (unsigned long)len[FULL],
                 (unsigned long)len[BASE], (unsigned long)len[PAGE], (unsigned long)len[PAYLOAD],
                 (unsigned long)len[MAP], (unsigned long)len[SLOT], (unsigned long)a->block,
                 (unsigned long)a->kind, (unsigned long)a->stores, (unsigned long)a->n,
                 (unsigned long)a->at, (long)a->position, a->pokes);
    }
    check(holds, text, __FILE__, __LINE__);
}

/*
 * Lends bytes at an odd address, with nothing allocated after the last one: valgrind then sees a
 * call that goes too far.
 */
static uint8_t *lend(const uint8_t *bytes, size_t length) {
    uint8_t *room;
    room = (uint8_t *)malloc(length + 1);
    if (room == NULL) {
        printf("out of memory\n");
        exit(2);
    }
    memcpy(room + 1, bytes, length);
    return room + 1;
}

/* Makes a call, then checks every member of the answer and every byte of every buffer. */
void try_call(const ask *a, const answer *wanted) {
    static uint8_t expected[ROLES][ROOM];
    uint8_t *lent[ROLES], *after[ROLES];
    answer given;
    int role, k;
    for (role = 0; role < ROLES; role++) {
        after[role] = expected[role];
        if (takes(a->call, role)) {
            memcpy(expected[role], before(a, role), a->length[role]);
        }
    }
    for (k = 0; k < a->pokes; k++) {
        expected[a->wrong[k].role][a->wrong[k].at] = a->wrong[k].value;
    }
    for (role = 0; role < ROLES; role++) {
        int some = takes(a->call, role) && a->length[role] != 0;
        lent[role] = some ? lend(expected[role], a->length[role]) : a->nowhere;
    }
    given = call_on(a, lent);
    check_call(given.number == wanted->number || a->call == SHOW, "the number", a);
    check_call(memcmp(given.rest, wanted->rest, sizeof given.rest) == 0, "the other members", a);
    if (wanted->number == 0) {
        change(a, after);
    }
    for (role = 0; role < ROLES; role++) {
        if (takes(a->call, role) && a->length[role] != 0) {
            check_call(memcmp(lent[role], expected[role], a->length[role]) == 0, "the bytes", a);
            free(lent[role] - 1);
        }
    }
}
