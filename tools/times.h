/* Frame times: text of one decimal number of microseconds a line, and the library's eight bytes each. */
#ifndef TIMES_H
#define TIMES_H

#include "files.h"

/* Times as the library takes them, and for messages where each stands in its file and what is written there.
 */
typedef struct {
    const char *name; /* of the file; NULL: there is none */
    run bytes;
    size_t *line_numbers;
    const char **written;
    run text;
} times_file;

/* Reads a text of times. Blank lines and comments (#) are passed over. What is wrong is said with its line.
 * The times are to be dropped in any case. */
bool read_times(const char *name, times_file *times);

void drop_times(times_file *times);

/* The text of so many times. */
bool times_text(const uint8_t *times, size_t count, run *text);

/* The time at this index. */
uint64_t time_at(const uint8_t *times, size_t index);

#endif
