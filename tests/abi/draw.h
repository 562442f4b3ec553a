/* The cases' generator: everything drawn for case N of a seed depends on that seed and N alone. */
#ifndef DRAW_H
#define DRAW_H

#include <stdbool.h>
#include <stddef.h>
#include <stdint.h>

#define DRAWN_LOG_MAX 40000      /* a log above the limit, too */
#define DRAWN_TIMES_MAX 100000   /* bytes */
#define DRAWN_CAPTURE_MAX 1060000

typedef struct {
    uint32_t words, tracks, frame_time, crc, parity;
    bool full;                    /* for the functions that take the whole plan (K5); else label 3 and code 0 */
    uint32_t crc_label, fill_bus;
    uint8_t kinds[32];
    size_t kinds_len;
} drawn_plan;

typedef struct {
    drawn_plan plan;
    bool legal;           /* the plan was not spoiled */
    uint8_t log[DRAWN_LOG_MAX];
    size_t log_len;
    uint8_t times[DRAWN_TIMES_MAX];
    size_t times_len;
    uint64_t groups;      /* that the log needs, if log and plan were not spoiled */
    uint8_t capture[DRAWN_CAPTURE_MAX];
    size_t capture_len;
} drawn;

void draw_start(uint64_t seed, uint64_t number);
uint32_t draw(uint32_t below);
bool one_in(uint32_t n);

void draw_plan(drawn *d);                /* plan and legal */
void draw_log(drawn *d);                 /* log, times and groups */
void draw_damage(drawn *d);              /* changes a capture that was composed */
void draw_loose_capture(drawn *d);       /* a capture of items with fill between, and faults */
void draw_loose_groups(drawn *d, uint32_t groups); /* the same, of so many groups */
size_t draw_near(uint64_t length, size_t most); /* that length, one less, one more, none, or some other up to most */

#endif
