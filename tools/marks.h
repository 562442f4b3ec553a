/* A capture word by word: the items that its words make, and every fault. */
#ifndef MARKS_H
#define MARKS_H

#include "walk.h"

typedef struct {
    uint32_t item;  /* which item the word is of, counted from 1; 0: of none */
    bool starts;    /* it is that item's first word */
    bool timed;     /* it ends a time */
    uint64_t time;  /* that time */
    unsigned fault; /* a refusal's number, 9 to 15; 0: none */
    char *why;      /* the fault in words; NULL where there is none, or no memory */
} mark;

/* A mark for each stored word; NULL if there is no memory. A word that breaks off an item is tried as the
 * start of another, so that one fault does not hide the next. Open notices, 15, and then misplaced fill, 14, are
 * looked for last, as the readings do: only where there is no other fault. */
mark *mark_words(const vin_plan *plan, const run *capture);

void drop_marks(mark *marks, uint64_t count);

#endif
