/* Files read whole. "-" is standard input or standard output. */
#ifndef FILES_H
#define FILES_H

#include <stdbool.h>
#include <stddef.h>
#include <stdint.h>

#include "say.h"

/* A run of bytes on the heap. */
typedef struct {
    uint8_t *bytes;
    size_t length;
} run;

/* Is it "-"? */
bool is_standard(const char *name);

/* The names as messages have them. */
shown_name input_name(const char *name);
shown_name output_name(const char *name);

/* Reads at most `most` bytes and one more, so that a file that is too long is seen by its length. What is
 * wrong is said, and the run is then empty. */
bool read_file(const char *name, size_t most, run *to);

/* The same from an open file, whose name is only for messages. */
bool read_open(int file, const char *name, size_t most, run *to);

/* The bytes of a regular file; 0 if it is another kind. */
uint64_t file_size(const char *name);

/* Says so if there is no room. */
bool out_of_memory(void *room);

#endif
