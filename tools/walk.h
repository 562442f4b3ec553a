/* What the data words of a capture start and continue, word by word in dealt order, and why one does neither.
 *
 * The library decides what is refused; this says why, and numbers the items of a dump. */
#ifndef WALK_H
#define WALK_H

#include "capture.h"

/* What the last words wait for. A tag may come; the others must. */
enum awaited { AWAIT_NOTHING, AWAIT_TAG, AWAIT_STATUS, AWAIT_LOW_SYLLABLE, AWAIT_LOW, AWAIT_MICRO };

typedef struct {
    enum awaited awaits;
    stored first;       /* of the item that waits */
    uint32_t high, low; /* of its time */
    size_t items;       /* begun so far */
} walk;

enum step { STEP_FILL, STEP_STARTS, STEP_GOES_ON, STEP_ENDS, STEP_BREAKS };

/* Takes a data slot's word. What breaks off an item leaves nothing waiting. */
enum step walk_word(walk *w, const vin_plan *plan, const stored *s);

/* Is an item unfinished, so that no word may start another? */
bool is_unfinished(const walk *w);

/* The microseconds of the time that ends in this micro. */
uint64_t walk_time(const walk *w, uint32_t micro);

enum { WHY_MOST = 240 };

/* Why the word breaks what waited before it. */
void tell_break(const vin_plan *plan, const walk *before, const stored *s, char why[WHY_MOST]);

/* What the end of the capture, or of the words, cuts. */
void tell_cut(const vin_plan *plan, const walk *at_end, char why[WHY_MOST]);

/* An open notice. */
void tell_open(uint32_t bus, char why[WHY_MOST]);

#endif
