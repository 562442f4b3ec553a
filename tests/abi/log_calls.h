/* The functions that work on logs alone, compared with the independent implementation. A function is a file here that defines
 * NAME_function, and its name in EVERY_FUNCTION; tests/abi/run compiles every file whose name begins with log_. */
#ifndef LOG_CALLS_H
#define LOG_CALLS_H

#include "calls.h"

#define EVERY_FUNCTION(one) one(pick) one(join) one(shift) one(profile) one(replay) one(laws)

#define DECLARE_FUNCTION(name) extern const compared name##_function;
EVERY_FUNCTION(DECLARE_FUNCTION)

/* ==== What is drawn ==== */

/* A log of items on few or all buses: most have some dozens of items, some none, some as many as a log can hold; a third has faults. */
typedef struct {
    uint8_t bytes[DRAWN_LOG_MAX];
    size_t length;
    size_t used; /* behind so many bytes there are zeros */
} drawn_log;

void draw_any_log(drawn_log *l);

/* Rooms: exact, one byte less or more, none, far more. */
size_t draw_room(uint64_t needed);

#endif
