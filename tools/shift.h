/* A shift in time as the user writes it. */
#ifndef SHIFT_H
#define SHIFT_H

#include <stdbool.h>
#include <stdint.h>

/* "-1.5s", "+250ms", "-3600000000": microseconds, or another unit behind the number. One that is too large
 * for 64 bits is given as the largest, which is refused as it should be. What is wrong is said. */
bool read_shift(const char *command, const char *text, int64_t *microseconds);

#endif
