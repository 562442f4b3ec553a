/* What the files of the program `cases` share. */
#ifndef CASES_H
#define CASES_H

#include <inttypes.h>
#include <stdio.h>

#include "independent.h"

#define LOG_ROOM 32769     /* one byte above the limit */
#define CAPTURE_ROOM 32768 /* twenty groups of 511 words, and a bit more */
#define TIMES_ROOM 1024    /* 128 frame times */

typedef struct {
    uint32_t words, tracks, frame_time, crc, parity;
    int full; /* K5: the functions that take the whole plan are called; else label and code are 3 and 0 */
    uint32_t crc_label, fill_bus;
    uint8_t kinds[16];
    uint32_t kinds_len;
} plan_numbers;

typedef struct {
    ind_answer answer;
    uint64_t first, second; /* digests of the lent buffers: out and 0, or log and times */
} result;

/* What a case lends. */
extern uint8_t log_in[LOG_ROOM], times_in[TIMES_ROOM], capture[CAPTURE_ROOM];
extern uint8_t log_out[LOG_ROOM], times_out[TIMES_ROOM], out[CAPTURE_ROOM];

/* The calls: composing log_in and times_in into out; reading capture into log_out and times_out. */
result composing(plan_numbers p, uint32_t log_len, uint32_t times_len, uint32_t out_len);
result reading(int closed, plan_numbers p, uint32_t capture_len, uint32_t log_len, uint32_t times_len);
uint64_t fold(uint64_t digest, uint64_t value);

/* What cases are made of. */
plan_numbers plan(uint32_t words, uint32_t tracks, uint32_t frame_time, uint32_t crc, uint32_t parity);
plan_numbers with_label(plan_numbers p, uint32_t crc_label, uint32_t fill_bus);
uint32_t odd_parity(uint32_t bits);
uint32_t fill_of(plan_numbers p); /* the plan's fill */
uint32_t put(uint32_t bit, uint32_t width, uint64_t value); /* bits at a bit of log_in; returns the bit behind them */
uint32_t put_end(uint32_t bit);            /* ends the log; returns its length in bytes */
void put_time(uint32_t index, uint64_t time);
void word(uint32_t place, uint32_t bits);  /* a word of the capture */
void take_composed(uint32_t length);       /* what was composed becomes the capture to read */

/* The cases. */
void named_cases(void);
void random_cases(void);

#endif
