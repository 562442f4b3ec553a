/* What the benchmarks share: a table with a line a row of traffic and a column a function, the library and fast C timed in turns. */
#ifndef TABLE_H
#define TABLE_H

#include <stddef.h>

#include "../include/vinculampe.h"
#include "../independent/independent.h"

enum who { LIBRARY, FAST, INDEPENDENT };

/* A function: its calls. More than a vin_answer can say of one stands in its numbers, packed. */
typedef struct {
    const char *name;
    vin_answer (*call)(enum who who);
} column;

/* How many logs the calls take in turn: what LOGS says in the environment, at most LOGS_MAX; 1 if it is not set. */
enum { LOGS_MAX = 16 };
int logs_in_turn(void);

/* Takes the program's arguments (SAMPLES and ROWS) and prints the head: what a figure is by, as "a word" and "words", and what the lines are. */
void table_begin(int argc, char **argv, const char *by, const char *units, const char *lines, const column *columns, int count);

/* Whether the row of this name is wanted. */
int is_wanted(const char *name);

/* A line: its name and size, then each column in turn, timed over so many units or left blank. */
void line_begin(const char *name, size_t size);
void line_figure(int column, double units);
void line_blank(void);
void line_end(void);

/* The worst ratio of each column, and fast C's figures. */
void table_end(void);

/* Ends the program if one of them does not give on this row what the independent implementation gives. */
void must_agree(int good, const char *row, enum who who, const char *function);

/* An independent answer as the header's. */
static inline vin_answer as_vin(ind_answer a)
{
    return (vin_answer){a.number, a.place, a.second, a.bytes, a.times};
}

#endif
