/* Functions of the library compared with those of the independent implementation: what a call and a function is. A program is calls.c,
 * a file that lists its functions, and a file for each of them. */
#ifndef CALLS_H
#define CALLS_H

#include "draw.h"

/* ==== A call ==== */

/* An answer as a row of numbers, so that every struct of the header fits: number, place, second, bytes, and what a function answers
 * more; 0 where it has no such number. */
enum { NUMBER, PLACE, SECOND, BYTES, MORE, VALUES = MORE + 3 };

typedef struct {
    uint64_t of[VALUES];
} outcome;

/* What a run of bytes is to a call. */
enum role {
    READ_ONLY,
    ROOM, /* its first bytes are written, as many as outcome.of[counted_by] x unit; it holds a pattern before */
    ROW,  /* it is read, and its first bytes are written over in the same way */
    STATE /* it is read, and all of it may be written over */
};

typedef struct {
    enum role role;
    const uint8_t *bytes; /* what it holds, of a room NULL */
    size_t length;
    int counted_by;
    size_t unit;
} lent_run;

enum { RUNS_MOST = 5, NUMBERS_MOST = 8 };

typedef struct call {
    lent_run runs[RUNS_MOST];
    size_t count;
    uint64_t numbers[NUMBERS_MOST]; /* what is handed over beside the runs */
    /* The call itself; at[n] is where run n stands. */
    outcome (*library)(const struct call *, uint8_t *const at[]);
    outcome (*independent)(const struct call *, uint8_t *const at[]);
} call;

/* Lends every run to both, each run once ending or beginning at a page that may not be touched, and ends the program with the case's
 * number if answers or bytes differ, or a byte was written that is not answered for. */
outcome compare(const call *c);

/* The number of the case, for cases that are counted through and not drawn. */
uint64_t case_number(void);

/* A law over several calls of the library does not hold: ends the program with the case's number. */
void law_broken(const char *law);

/* It holds (0), or one of its calls was refused by this number. */
void law_answered(uint64_t number);

/* ==== A function ==== */

typedef struct {
    const char *name;
    const char *can_answer; /* a letter for each number: y if it can occur; those behind the last cannot */
    void (*one_case)(void); /* draws a case and makes its calls */
} compared;

/* What the program compares: in the file that lists its functions. */
extern const compared *const functions[];
extern const size_t function_count;
extern const size_t run_most; /* bytes of the longest run */

#endif
