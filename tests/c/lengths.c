/* Any lengths and any numbers: each call gives what rules.c says and changes nothing else. */
#include "check.h"

#include <string.h>

static void try_by_rules(const ask *a) {
    answer wanted = answer_of(a);
    try_call(a, &wanted);
}

/* Every length from 0 to 1,024 for one buffer, then both sides of every length that is right. */
static void try_lengths(ask a, int role) {
    static const size_t longer[] = {1536,  2047,  2048,  2049,  2560,  4095,  4096,  4097,
                                    8191,  8192,  8193,  12287, 12288, 12289, 16384, 20479,
                                    20480, 20481, 28671, 28672, 28673, 36864};
    size_t at;
    a.length[role] = 0;
    a.nowhere = (uint8_t *)1; /* it may be anything */
    try_by_rules(&a);
    a.nowhere = NULL;
    for (at = 0; at <= 1024; at++) {
        a.length[role] = at;
        try_by_rules(&a);
    }
    for (at = 0; at < sizeof longer / sizeof longer[0]; at++) {
        a.length[role] = longer[at];
        try_by_rules(&a);
    }
}

/* One buffer of a call, the others being right, with the full area and without it. */
static void try_both_ways(ask a, int role) {
    try_lengths(a, role);
    if (takes(a.call, MAP) && takes(a.call, PATCH) && role == PATCH) {
        ask longer = a; /* enough for every length of the patch area */
        longer.length[MAP] = 20;
        try_lengths(longer, role);
    }
    if (takes(a.call, FULL) && role != FULL) {
        ask without = a;
        without.length[FULL] = 0;
        try_lengths(without, role);
    }
}

/*
 * Carrying out: each buffer with each kind on one block or another. Of the payload, which PATCH alone
 * looks at, and of the page, which FULL_REF alone looks at, every length with every kind on every
 * block, and with kinds above 2.
 */
static void try_kinds(ask a, int role) {
    for (a.kind = 0; a.kind < 3; a.kind++) {
        a.block = (a.kind + (uint32_t)role) % 3;
        try_both_ways(a, role);
        for (a.block = 0; a.block < 3 && (role == PAYLOAD || role == PAGE); a.block++) {
            try_lengths(a, role);
        }
    }
    a.block = 1;
    a.kind = 3;
    try_lengths(a, role);
    a.kind = UINT32_MAX;
    try_lengths(a, role);
}

/* Each buffer of each call in turn, the others being right, with the full area and without it. */
void every_length(void) {
    int call, role;
    for (call = 0; call < CALLS; call++) {
        for (role = 0; role < ROLES; role++) {
            ask a = sound_ask(call);
            a.n = 2000; /* so Look up and Tally want a map of 500 bytes */
            if (takes(call, role) && carries(call)) {
                for (a.stores = 0; a.stores <= THX_STORES_ALL; a.stores++) {
                    try_kinds(a, role);
                }
            } else if (takes(call, role)) {
                /* A cut at 3, which is n, changes nothing and is refused as any other. */
                for (a.block = 0; a.block < (cuts(call) ? 4u : 3u); a.block++) {
                    try_both_ways(a, role);
                }
            }
        }
    }
}

/*
 * Every length of a payload from 0 to 506, read from the places near its edges and from any other,
 * with positions on both sides of each edge.
 */
void every_step(void) {
    static const int32_t positions[] = {-1,   0,    8183, 8184,      8190,
                                        8191, 8192, -2,   INT32_MAX, INT32_MIN};
    static const uint64_t far[] = {506, 507, UINT64_C(0x100000000), UINT64_C(0x100000002),
                                   UINT64_C(0x8000000000000000), UINT64_C(0xFFFFFFFFFFFFFFFF)};
    ask a = sound_ask(NEXT);
    size_t k, length, position;
    for (length = 0; length <= 506; length++) {
        a.length[PAYLOAD] = length;
        for (position = 0; position < sizeof positions / sizeof positions[0]; position++) {
            a.position = positions[position];
            for (k = 0; k < 4; k++) {
                a.at = k;
                try_by_rules(&a);
                a.at = length - 2 + k; /* of a payload of 0 or 1 bytes far past its end */
                try_by_rules(&a);
            }
            for (k = 0; k < sizeof far / sizeof far[0]; k++) {
                a.at = far[k];
                try_by_rules(&a);
            }
        }
    }
}

/* Where a number could be cut to 31 or 32 bits, or a product with 512 or 8,192 could wrap. */
static const uint64_t numbers[] = {
    0, 1, 2, 3, 4, 5, 8, 1999, 2000, 131071, 131072, 131073,
    UINT64_C(0x7FFFFFFF), UINT64_C(0x80000000), UINT64_C(0xFFFFFFFF),
    UINT64_C(0x100000000), UINT64_C(0x100000001), UINT64_C(0x100000002),
    UINT64_C(1) << 51, UINT64_C(1) << 55, (UINT64_C(1) << 55) + 1,
    UINT64_C(0x7FFFFFFFFFFFFFFF), UINT64_C(0x8000000000000000),
    UINT64_C(0xFFFFFFFFFFFFFFFD), UINT64_C(0xFFFFFFFFFFFFFFFE), UINT64_C(0xFFFFFFFFFFFFFFFF),
};
#define NUMBERS (sizeof numbers / sizeof numbers[0])

/*
 * Every buffer is NULL. Of kinds, where they are told, all four sorts come up with every block; of
 * stores any number.
 */
static void no_buffers(int call) {
    ask a = sound_ask(call);
    size_t n, block;
    memset(a.length, 0, sizeof a.length);
    for (n = 0; n < NUMBERS; n++) {
        for (block = 0; block < NUMBERS; block++) {
            a.n = numbers[n];
            a.block = numbers[block];
            a.kind = (uint32_t)n % 4;
            a.stores = numbers[(n + block) % NUMBERS];
            try_by_rules(&a);
        }
    }
}

/* Every n, every block, and maps that are long enough or not. */
static void blocks_of_a_map(ask a) {
    static const size_t lengths[] = {0, 1, 499, 500, 32767, 32768, 32769};
    size_t n, block, length;
    for (n = 0; n < NUMBERS; n++) {
        for (length = 0; length < sizeof lengths / sizeof lengths[0]; length++) {
            for (block = 0; block < (a.call == TALLY ? 1 : NUMBERS); block++) {
                a.n = numbers[n];
                a.length[MAP] = lengths[length];
                a.block = numbers[block];
                try_by_rules(&a);
            }
        }
    }
}

/* Every block in areas of few blocks and few full pages. */
static void blocks_of_a_store(ask a) {
    static const size_t patches[] = {512, 1024, 1536, 2048, 2560};
    static const size_t fulls[] = {0, 4096, 12288, 20480, 28672};
    size_t block, patch, full;
    for (block = 0; block < NUMBERS; block++) {
        for (patch = 0; patch < 5; patch++) {
            for (full = 0; full < (takes(a.call, FULL) ? 5 : 1); full++) {
                a.block = numbers[block];
                a.length[PATCH] = patches[patch];
                a.length[FULL] = fulls[full];
                try_by_rules(&a);
            }
        }
    }
}

/* Every block in areas of up to nine blocks, and maps of every length around what they want. */
static void blocks_of_a_mapped_store(ask a) {
    static const size_t fulls[] = {0, 4096, 12288, 20480, 36864};
    size_t block, n, full, map;
    for (block = 0; block < NUMBERS; block++) {
        for (n = 0; n <= 9; n++) {
            for (map = 0; map <= 4; map++) {
                for (full = 0; full < 5; full++) {
                    a.block = numbers[block];
                    a.length[PATCH] = 512 + 512 * n;
                    a.length[FULL] = fulls[full];
                    a.length[MAP] = map;
                    try_by_rules(&a);
                }
            }
        }
    }
}

/*
 * Kinds 0, 1 and 2 and one above, in as many stores as any other call is tried on, told none, one
 * and all.
 */
static void every_kind(ask a, void (*blocks)(ask)) {
    for (a.kind = 0; a.kind <= 3; a.kind++) {
        for (a.stores = 0; a.stores <= THX_STORES_ALL; a.stores++) {
            blocks(a);
        }
    }
}

void every_number(void) {
    int call;
    for (call = 0; call < CALLS; call++) {
        ask a = sound_ask(call);
        no_buffers(call);
        if (call == LOOK_UP || call == TALLY) {
            blocks_of_a_map(a);
        } else if (call == SHOW || call == READ) {
            blocks_of_a_store(a);
            a.length[BASE] = 0;
            blocks_of_a_store(a);
        } else if (call == READ_MAPPED) {
            blocks_of_a_mapped_store(a);
            a.length[BASE] = 0;
            blocks_of_a_mapped_store(a);
        } else if (call == CARRY_OUT) {
            every_kind(a, blocks_of_a_store);
        } else if (call == CARRY_OUT_MAPPED) {
            every_kind(a, blocks_of_a_mapped_store);
        } else if (call == CUT || call == SWEEP) {
            blocks_of_a_store(a);
        } else if (call == CUT_MAPPED) {
            blocks_of_a_mapped_store(a);
        }
    }
}
