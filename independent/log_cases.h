/* What the files of the program `log_cases` share. A call is a file log_cases_NAME.c, and a line in `calls` of log_cases.c. */
#ifndef LOG_CASES_H
#define LOG_CASES_H

#include <inttypes.h>
#include <stdbool.h>
#include <stdio.h>

#include "independent.h"

#define RUN_ROOM 70000 /* more than a log, or a row of events, can have */

/* A run of bytes that a line names; of a room, what it holds. */
typedef struct {
    uint8_t bytes[RUN_ROOM];
    size_t length;
} run;

/* The field behind so many spaces, as text. */
const char *field(const char *line, int spaces);

/* The same: a number, decimal or hexadecimal behind an x; a run of bytes; a room of so many bytes, all A5. */
uint64_t number_field(const char *line, int spaces);
void run_field(const char *line, int spaces, run *r);
void room_field(const char *line, int spaces, run *r);

/* A number for what a room holds, over its lent length. */
uint64_t digest_of(const run *r);

/* Writes an answer and the room's digest behind the call's name, and `differs` if `asked`, what stands from `->` on, asks for another
 * answer or other bytes; say_call without the line's end, for a call that has more to say. */
void say_call(const char *name, ind_answer a, const run *out, const char *asked);
void say_made(const char *name, ind_answer a, const run *out, const char *asked);

/* Whether an answer, and what was written, are as asked for; `differs` where they are not. */
bool is_asked(ind_answer a, uint64_t second, const char *asked);
bool is_made(uint64_t bytes, const run *out, const char *asked);
void say_unless(bool good);

/* The seven numbers of a call's whole plan; its kinds, a run, stand behind them. */
#define PLAN_FIELDS(line) \
    small_field(line, 1), small_field(line, 2), small_field(line, 3), small_field(line, 4), small_field(line, 5), small_field(line, 6), \
        small_field(line, 7)
uint32_t small_field(const char *line, int spaces);

/* As say_call, where a refusal may have a second place, which is asked for behind what is made; an entry of that is so many bytes. */
void say_found(const char *name, ind_answer a, size_t unit, const run *out, const char *asked);

/* A row, of times or of a report: its digest, and whether so many entries were counted and it begins as asked for, from the field
 * `spaces` on. */
void say_times(uint64_t entries, const run *times, const char *asked, int spaces);

/* Each makes the call of a line. */
void pick_line(const char *line, const char *asked);
void join_line(const char *line, const char *asked);
void shift_line(const char *line, const char *asked);
void profile_line(const char *line, const char *asked);
void replay_line(const char *line, const char *asked);
void slots_line(const char *line, const char *asked);
void items_line(const char *line, const char *asked);
void salvage_line(const char *line, const char *asked);
void cut_line(const char *line, const char *asked);
void add_line(const char *line, const char *asked);
void end_line(const char *line, const char *asked);

#endif
