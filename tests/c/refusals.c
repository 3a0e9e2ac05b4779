/*
 * Every refusal that each call can give, one wrong thing at a time and two at a time. Each row is
 * checked by the header's name for its number and by the number itself.
 */
#include "check.h"

#include <string.h>

enum { LENGTH, BYTE, COUNT, BLOCK, KIND, PLACE, POSITION, SHORT_JUMP };

typedef struct {
    unsigned calls;
    uint32_t number, paper;
    int sort;       /* what is wrong: a length, a byte, n, block, kind, a reader's start, an entry */
    int role;       /* the buffer, for a length, a byte and an entry */
    size_t at;      /* length, place of the byte or entry, n, kind, a reader's place or position */
    uint8_t value;  /* the byte */
    uint64_t block; /* the block asked for or, with Build and Sweep, at fault */
    int64_t offset; /* where the payload breaks */
} row;

/* The block does not matter. */
#define ANY UINT64_MAX

#define READS (BIT(READ) | BIT(READ_MAPPED))
#define CARRIES (BIT(CARRY_OUT) | BIT(CARRY_OUT_MAPPED))
#define MAPPED (BIT(CARRY_OUT_MAPPED) | BIT(READ_MAPPED))
#define BASES (BIT(COMPARE) | BIT(APPLY) | READS)
#define CUTS (BIT(CUT) | BIT(CUT_MAPPED))
#define IN_TURN (BIT(BUILD) | BIT(SWEEP)) /* that take blocks in rising order */
#define AREAS (READS | CARRIES | IN_TURN | CUTS)
#define PATCHES (AREAS | BIT(SHOW) | BIT(HIGHEST))
#define BLOCKS (BIT(SHOW) | READS | CARRIES)
#define SLOTS (BIT(SHOW) | BIT(READ) | IN_TURN | BIT(HIGHEST))
#define MAPS (BIT(LOOK_UP) | BIT(TALLY))
#define PAYLOADS (BIT(APPLY) | CARRIES)

/*
 * In the order of document 01: of two rows for one call the upper one is given. A read by the map
 * gives 11 after 5. Where the map says PATCH, as of block 0, its 6 and 7 are Read's. What is carried
 * out is of the kind with which the row's number can be given; see spoil.
 */
static const row rows[] = {
    {BASES, THX_BAD_PAGE_LENGTH, 1, LENGTH, BASE, 8191, 0, ANY, 0},
    {BASES | CARRIES, THX_BAD_PAGE_LENGTH, 1, LENGTH, PAGE, 8191, 0, ANY, 0},
    {BASES | CARRIES, THX_BAD_PAGE_LENGTH, 1, LENGTH, PAGE, 8193, 0, ANY, 0},
    {BASES | CARRIES, THX_BAD_PAGE_LENGTH, 1, LENGTH, PAGE, 0, 0, ANY, 0}, /* no page of zeros */
    {PATCHES | BIT(FORMAT), THX_BAD_AREA_LENGTH, 2, LENGTH, PATCH, 2047, 0, ANY, 0},
    {AREAS | BIT(FORMAT), THX_BAD_AREA_LENGTH, 2, LENGTH, FULL, 4095, 0, ANY, 0},
    {AREAS | BIT(FORMAT), THX_BAD_AREA_LENGTH, 2, LENGTH, FULL, 36864, 0, ANY, 0}, /* m over n */
    {BIT(JUDGE), THX_BAD_AREA_LENGTH, 2, LENGTH, SLOT, 511, 0, ANY, 0},
    {MAPS, THX_BAD_AREA_LENGTH, 2, COUNT, 0, 131073, 0, ANY, 0},
    {BIT(COMPARE), THX_SHORT_BUFFER, 9, LENGTH, PAYLOAD, 503, 0, ANY, 0},
    {MAPS | BIT(BUILD) | MAPPED | BIT(CUT_MAPPED), THX_SHORT_BUFFER, 9, LENGTH, MAP, 0, 0, ANY, 0},
    {PATCHES, THX_BAD_HEADER, 3, BYTE, PATCH, 0, 'b', ANY, 0},
    {PATCHES, THX_BAD_VERSION, 4, BYTE, PATCH, 8, 1, ANY, 0},
    {PATCHES, THX_BAD_HEADER, 3, BYTE, PATCH, 10, 1, ANY, 0},
    {PATCHES, THX_BAD_HEADER, 3, BYTE, PATCH, 13, 0, ANY, 0},
    {PATCHES, THX_BAD_HEADER, 3, BYTE, PATCH, 17, 0, ANY, 0},
    {PATCHES, THX_BAD_HEADER, 3, BYTE, PATCH, 511, 1, ANY, 0},
    {AREAS, THX_BAD_HEADER, 3, BYTE, FULL, 7, 'L', ANY, 0},
    {AREAS, THX_BAD_VERSION, 4, BYTE, FULL, 8, 2, ANY, 0},
    {AREAS, THX_BAD_HEADER, 3, BYTE, FULL, 11, 1, ANY, 0},
    {AREAS, THX_BAD_HEADER, 3, BYTE, FULL, 13, 0, ANY, 0},
    {AREAS, THX_BAD_HEADER, 3, BYTE, FULL, 17, 2, ANY, 0},
    {AREAS, THX_BAD_HEADER, 3, BYTE, FULL, 4095, 1, ANY, 0},
    {BLOCKS, THX_BAD_BLOCK, 5, BLOCK, 0, 0, 0, 5, 0},
    {BIT(LOOK_UP) | BLOCKS, THX_BAD_BLOCK, 5, BLOCK, 0, 0, 0, 3, 0},
    {CUTS, THX_BAD_BLOCK, 5, BLOCK, 0, 0, 0, 4, 0}, /* k above n; k = 3 is none */
    {CARRIES, THX_BAD_SLOT, 6, KIND, 0, 3, 0, ANY, 0},
    {CARRIES, THX_BAD_SLOT, 6, KIND, 0, 255, 0, ANY, 0},
    {CARRIES, THX_BAD_SLOT, 6, KIND, 0, 256, 0, ANY, 0}, /* 0, 1 and 2 if cut to a byte */
    {CARRIES, THX_BAD_SLOT, 6, KIND, 0, 257, 0, ANY, 0},
    {CARRIES, THX_BAD_SLOT, 6, KIND, 0, 258, 0, ANY, 0},
    {CARRIES, THX_BAD_SLOT, 6, KIND, 0, 0x80000000, 0, ANY, 0},
    {CARRIES, THX_BAD_SLOT, 6, KIND, 0, 0x80000001, 0, ANY, 0},
    {CARRIES, THX_BAD_SLOT, 6, KIND, 0, 0xFFFFFFFF, 0, ANY, 0},
    {BIT(READ_MAPPED), THX_BAD_PAIR, 11, BYTE, MAP, 0, 0x07, 0, 0},
    {BIT(READ_MAPPED), THX_BAD_PAIR, 11, BYTE, MAP, 0, 0x0E, 1, 0},
    {BIT(READ_MAPPED), THX_BAD_PAIR, 11, BYTE, MAP, 0, 0x36, 2, 0},
    {BIT(READ_MAPPED), THX_BAD_SLOT, 6, BYTE, MAP, 0, 0x0A, 1, 0}, /* PATCH over FULL_REF */
    {BIT(READ_MAPPED), THX_BAD_SLOT, 6, BYTE, MAP, 0, 0x26, 2, 0}, /* PATCH over EMPTY */
    {BIT(JUDGE), THX_BAD_SLOT, 6, BYTE, SLOT, 0, 3, 0, 0},
    {BIT(JUDGE), THX_BAD_SLOT, 6, BYTE, SLOT, 2, 0, 0, 0},   /* payload length 0 */
    {BIT(JUDGE), THX_BAD_SLOT, 6, BYTE, SLOT, 511, 1, 1, 0}, /* FULL_REF is zero but for its kind */
    {BIT(JUDGE), THX_BAD_SLOT, 6, BYTE, SLOT, 8, 1, 2, 0},   /* EMPTY is zero */
    {SLOTS | BIT(READ_MAPPED), THX_BAD_SLOT, 6, BYTE, PATCH, 512, 3, 0, 0},
    {SLOTS | BIT(READ_MAPPED), THX_BAD_SLOT, 6, BYTE, PATCH, 513, 0, 0, 0},
    {SLOTS | BIT(READ_MAPPED), THX_BAD_SLOT, 6, BYTE, PATCH, 515, 2, 0, 0}, /* payload length 514 */
    {SLOTS | BIT(READ_MAPPED), THX_BAD_SLOT, 6, BYTE, PATCH, 519, 1, 0, 0},
    {SLOTS | BIT(READ_MAPPED), THX_BAD_SLOT, 6, BYTE, PATCH, 1023, 1, 0, 0}, /* not zero after the payload */
    {SLOTS, THX_BAD_SLOT, 6, BYTE, PATCH, 1535, 1, 1, 0},
    {SLOTS, THX_BAD_SLOT, 6, BYTE, PATCH, 1536, 4, 2, 0},
    {READS | IN_TURN, THX_NO_FULL_PAGE, 8, LENGTH, FULL, 12288, 0, 1, 0},
    {CARRIES, THX_NO_FULL_PAGE, 8, LENGTH, FULL, 20480, 0, 2, 0},
    {CARRIES, THX_NO_FULL_PAGE, 8, LENGTH, FULL, 4096, 0, 0, 0}, /* a full area without a place */
    {PAYLOADS, THX_BAD_PAYLOAD, 7, LENGTH, PAYLOAD, 0, 0, 0, 0},
    {PAYLOADS, THX_BAD_PAYLOAD, 7, LENGTH, PAYLOAD, 505, 0, 0, 0},
    {PAYLOADS, THX_BAD_PAYLOAD, 7, LENGTH, PAYLOAD, 506, 0, 0, 0}, /* entries, but too many */
    {PAYLOADS, THX_BAD_PAYLOAD, 7, BYTE, PAYLOAD, 0, 255, 0, 0}, /* ends inside its entry */
    {PAYLOADS, THX_BAD_PAYLOAD, 7, SHORT_JUMP, PAYLOAD, 0, 0, 0, 0},
    {PAYLOADS, THX_BAD_PAYLOAD, 7, LENGTH, PAYLOAD, 3, 0, 0, 2}, /* ends inside the next entry */
    {READS | BIT(BUILD), THX_BAD_PAYLOAD, 7, BYTE, PATCH, 520, 255, 0, 0},
    {READS | BIT(BUILD), THX_BAD_PAYLOAD, 7, SHORT_JUMP, PATCH, 520, 0, 0, 0},
    {READS | BIT(BUILD), THX_BAD_PAYLOAD, 7, BYTE, PATCH, 514, 3, 0, 2}, /* payload length 3 */
    {BIT(BUILD), THX_STRAY_PAGE, 10, BYTE, FULL, 4096, 1, 0, 0},
    {BIT(BUILD), THX_STRAY_PAGE, 10, BYTE, FULL, 28671, 1, 2, 0},
    {MAPS, THX_BAD_PAIR, 11, BYTE, MAP, 0, 0xC7, 0, 0}, /* the pairs of blocks 0 and 3 are 3 */
    {BIT(TALLY), THX_BAD_PAIR, 11, BYTE, MAP, 0, 0x46, 0, 0}, /* the pair past n */
    /* A reader's own order, with the end among what keeps it from an entry. */
    {BIT(NEXT), THX_BAD_PAYLOAD, 7, LENGTH, PAYLOAD, 0, 0, ANY, 0},
    {BIT(NEXT), THX_BAD_PAYLOAD, 7, LENGTH, PAYLOAD, 505, 0, ANY, 0},
    {BIT(NEXT), THX_DONE, 0, PLACE, 0, 505, 0, ANY, 0},
    {BIT(NEXT), THX_DONE, 0, PLACE, 0, SIZE_MAX, 0, ANY, 0},
    {BIT(NEXT), THX_BAD_PAYLOAD, 7, POSITION, 0, 8192, 0, ANY, 0},
    {BIT(NEXT), THX_BAD_PAYLOAD, 7, POSITION, 0, (size_t)-2, 0, ANY, 0},
    {BIT(NEXT), THX_BAD_PAYLOAD, 7, POSITION, 0, INT32_MAX, 0, ANY, 0},
    {BIT(NEXT), THX_BAD_PAYLOAD, 7, POSITION, 0, 8191, 0, ANY, 0},  /* the entry leaves the page */
    {BIT(NEXT), THX_BAD_PAYLOAD, 7, BYTE, PAYLOAD, 0, 255, ANY, 0}, /* ends inside its entry */
    {BIT(NEXT), THX_BAD_PAYLOAD, 7, SHORT_JUMP, PAYLOAD, 0, 0, ANY, 0},
};
#define ROWS (sizeof rows / sizeof rows[0])

static void set_byte(ask *a, int role, size_t at, uint8_t value) {
    a->wrong[a->pokes].role = role;
    a->wrong[a->pokes].at = at;
    a->wrong[a->pokes].value = value;
    a->pokes++;
}

/* The payload 00 07 becomes FF 07 00 and a value, four bytes: jump 7 by the long code. */
static void short_jump(ask *a, const row *r) {
    set_byte(a, r->role, r->at, 255);
    if (r->role == PATCH) {
        set_byte(a, PATCH, 514, 4);
    } else {
        a->length[PAYLOAD] = 4;
    }
}

/*
 * Makes an ask wrong. To be refused with 1 and 8 a FULL_REF is carried out, with 7 a PATCH; a later
 * call for another row may change that, and then what was made wrong here is not looked at.
 */
static void spoil(ask *a, const row *r) {
    if (r->block != ANY) {
        a->block = r->block;
    }
    if (r->sort == KIND) {
        a->kind = (uint32_t)r->at;
    } else if (r->number == THX_BAD_PAGE_LENGTH || r->number == THX_NO_FULL_PAGE) {
        a->kind = THX_KIND_FULL;
    } else if (r->number == THX_BAD_PAYLOAD) {
        a->kind = THX_KIND_PATCH;
    }
    if (r->sort == LENGTH) {
        a->length[r->role] = r->at;
    } else if (r->sort == COUNT) {
        a->n = r->at;
    } else if (r->sort == PLACE) {
        a->at = r->at;
    } else if (r->sort == POSITION) {
        a->position = (int32_t)r->at;
    } else if (r->sort == BYTE) {
        set_byte(a, r->role, r->at, r->value);
    } else if (r->sort == SHORT_JUMP) {
        short_jump(a, r);
    }
}

static void try_refusal(const ask *a, const row *r) {
    answer wanted;
    memset(&wanted, 0, sizeof wanted);
    wanted.number = r->number;
    if (a->call == BUILD) {
        wanted.rest[0] = r->block != ANY ? (int64_t)r->block : 0;
        wanted.rest[1] = r->offset;
    } else if (a->call == READ || a->call == READ_MAPPED) {
        wanted.rest[1] = r->offset;
    } else if (a->call == APPLY) {
        wanted.rest[2] = r->offset;
    } else if (a->call == NEXT) { /* it stands where it stood */
        wanted.rest[1] = (int64_t)a->at;
        wanted.rest[2] = a->position;
    }
    try_call(a, &wanted);
}

/* What is carried out is refused alike whatever it is told; other calls are told nothing. */
static void try_told(ask a, const row *r) {
    static const uint64_t told[] = {THX_STORES_ALL, 0, 1};
    size_t k;
    for (k = 0; k < (carries(a.call) ? 3 : 1); k++) {
        a.stores = told[k];
        try_refusal(&a, r);
    }
}

/*
 * Two wrong things at once. Build and Sweep take blocks in rising order; else the upper row comes
 * first.
 */
static void try_both(int call, const row *upper, const row *lower) {
    ask a = sound_ask(call);
    int in_turn = (IN_TURN & BIT(call)) != 0;
    int lower_first = in_turn && upper->block != ANY && lower->block < upper->block;
    spoil(&a, lower);
    spoil(&a, upper);
    try_told(a, lower_first ? lower : upper);
}

void every_refusal(void) {
    size_t upper, lower;
    int call;
    for (upper = 0; upper < ROWS; upper++) {
        CHECK(rows[upper].number == rows[upper].paper);
        for (call = 0; call < CALLS; call++) {
            if ((rows[upper].calls & BIT(call)) != 0) {
                ask a = sound_ask(call);
                spoil(&a, &rows[upper]);
                try_told(a, &rows[upper]);
                for (lower = upper + 1; lower < ROWS; lower++) {
                    if ((rows[lower].calls & BIT(call)) != 0) {
                        try_both(call, &rows[upper], &rows[lower]);
                    }
                }
            }
        }
    }
}

/*
 * An ask made wrong in what the call does not look at: done, for each block and, if they are told,
 * each kind and number of stores.
 */
static void try_done(int call, const row *r) {
    uint32_t kinds = carries(call) ? 3 : 1;
    ask a = sound_ask(call);
    spoil(&a, r);
    for (a.block = 0; a.block <= (cuts(call) ? 3u : 2u); a.block++) {
        for (a.kind = 0; a.kind < kinds; a.kind++) {
            for (a.stores = 0; a.stores <= (carries(call) ? THX_STORES_ALL : 0u); a.stores++) {
                answer wanted = answer_of(&a);
                CHECK(wanted.number == THX_DONE);
                try_call(&a, &wanted);
            }
        }
    }
}

/*
 * What a call does not look at is no fault. A cut is done whatever the slots, payloads, places and
 * pairs are, in the blocks that it drops and in those that it keeps; highest is done whatever the
 * payloads are, and so is a sweep, which also takes any place for what it is; carrying out whatever
 * the slots, places and pairs are, its own block's and others.
 */
void every_fault_left(void) {
    static const int calls[] = {CUT, CUT_MAPPED, HIGHEST, SWEEP, CARRY_OUT, CARRY_OUT_MAPPED};
    size_t call, at;
    for (call = 0; call < sizeof calls / sizeof calls[0]; call++) {
        for (at = 0; at < ROWS; at++) {
            const row *r = &rows[at];
            int byte = (r->sort == BYTE || r->sort == SHORT_JUMP) && r->role != PAYLOAD;
            if (byte && takes(calls[call], r->role) && (r->calls & BIT(calls[call])) == 0) {
                try_done(calls[call], r);
            }
        }
    }
}
