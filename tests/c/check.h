/*
 * What the files here share. They are compiled as C11 and as C++11, so they keep to what both have.
 *
 * Most calls are made on one scene, a sound store of three blocks with pages and a map (calls.c).
 * An ask is a call with its lengths and numbers, perhaps with a few bytes made wrong. What an ask
 * without wrong bytes must give is in rules.c, written from document 01 and Requests 02, 04, 06 and
 * 07.
 */
#ifndef CHECK_H
#define CHECK_H

#include "thonxiliko.h"

/* Counts a check and prints it if it does not hold; CHECK does so for a condition. */
void check(int holds, const char *what, const char *file, int line);
#define CHECK(condition) check((condition) ? 1 : 0, #condition, __FILE__, __LINE__)

enum {
    FORMAT, COMPARE, APPLY, JUDGE, SHOW, READ, CARRY_OUT, BUILD, LOOK_UP, TALLY, NEXT,
    CARRY_OUT_MAPPED, READ_MAPPED, CUT, CUT_MAPPED, HIGHEST, SWEEP, CALLS
};
enum { PATCH, FULL, BASE, PAGE, PAYLOAD, MAP, SLOT, ROLES };
#define BIT(number) (1u << (number))

/* A byte of a buffer that is made wrong before the call. */
typedef struct {
    int role;
    size_t at;
    uint8_t value;
} poke;

typedef struct {
    int call;
    size_t length[ROLES]; /* those of buffers that the call does not take are not used */
    uint64_t n;           /* for Look up and Tally; the others see n in the patch area */
    uint64_t block;       /* a cut's k; it also chooses the page of some calls and Judge's slot */
    uint32_t kind;        /* for carrying out */
    uint64_t stores;      /* for carrying out */
    uint64_t at;          /* for Next */
    int32_t position;     /* for Next */
    uint8_t *nowhere;     /* the pointer lent for a buffer of length 0 */
    int pokes;
    poke wrong[4];
} ask;

/* The number and the other members of the struct, in their order. Show has no number: 0. */
typedef struct {
    uint32_t number;
    int64_t rest[4];
} answer;

/*
 * calls.c: whether a call takes a buffer; whether it is a cut or carries out; a sound ask; a call
 * made, everything about it checked.
 */
int takes(int call, int role);
int cuts(int call);
int carries(int call);
ask sound_ask(int call);
void try_call(const ask *asked, const answer *wanted);

/* rules.c: the answer, and what a call that is done makes of its buffers. */
answer answer_of(const ask *asked);
void change(const ask *asked, uint8_t *const bytes[ROLES]);

/* A store lent to a call; without a map where map is NULL. */
typedef struct {
    uint8_t *patch;
    size_t patch_len;
    uint8_t *full;
    size_t full_len;
    uint8_t *map;
    size_t map_len;
} store;

/*
 * decisions.c: a decision carried out, told how many stores or told all; a page written by the pair,
 * as the header shows it.
 */
thx_written carry_out_told(const store *to, uint64_t block, uint32_t kind, const uint8_t *payload,
                           size_t payload_len, const uint8_t *page, size_t page_len,
                           uint64_t stores);
thx_written carry_out(const store *to, uint64_t block, uint32_t kind, const uint8_t *payload,
                      size_t payload_len, const uint8_t *page, size_t page_len);
thx_written write_by_pair(const store *to, uint64_t block, const uint8_t *base, size_t base_len,
                          const uint8_t *page, size_t page_len);

/*
 * refusals.c, lengths.c, payloads.c, maps.c, tally.c, cuts.c, decisions.c, stops.c, sweeps.c,
 * advice.c and files.c: tests.
 */
void every_refusal(void);
void every_fault_left(void);
void every_length(void);
void every_number(void);
void every_step(void);
void every_payload(void);
void every_map(void);
void every_tally(void);
void every_cut(void);
void every_highest(void);
void every_decision(void);
void every_stop(void);
void every_sweep(void);
void every_advice(void);
void every_file(void);

#endif
