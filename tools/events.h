/* Events of a front-end buffer: items that arrive and groups that leave, as text or as the library's bytes.
 */
#ifndef EVENTS_H
#define EVENTS_H

#include "files.h"

/* The row of events as the library takes it, one more than it may have at most, and what it adds up to. */
typedef struct {
    run row;
    uint64_t count, arrivals;
} events;

/* Reads a file of events. Text: lines "item", "12 items", "group", "3 groups"; blank lines and comments (#)
 * are passed over. A file that begins with a byte 0 or 1 is the library's row itself, a byte an event. What
 * is wrong is said with its line. The events are to be dropped in any case. */
bool read_events(const char *name, events *e);

/* A group leaves after each so many of these items. */
bool events_every(uint64_t arrivals, uint64_t items, events *e);

void drop_events(events *e);

#endif
