/* Files written whole or not at all. */
#ifndef OUTPUTS_H
#define OUTPUTS_H

#include "files.h"

typedef struct {
    const char *name;
    const uint8_t *bytes;
    size_t length;
} output;

enum { OUTPUTS_MOST = 3 };

/* Writes every output or says what is wrong. A regular file gets its name only when all outputs are written
 * in full, so that none is ever half-written; signals wait meanwhile. Standard output, devices and pipes come
 * first, since they cannot be taken back. */
bool write_files(const output *outputs, size_t count);

/* The same for one output, as an exit status. */
int write_one(const char *name, const run *bytes);

/* Standard output, an open file by its name, or a file that exists and is not regular: a device, a pipe. */
bool is_direct(const char *name);

bool write_open(int file, const uint8_t *bytes, size_t length);

#endif
