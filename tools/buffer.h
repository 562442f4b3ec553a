/* A text that grows. */
#ifndef BUFFER_H
#define BUFFER_H

#include "files.h"

typedef struct {
    run text;
    size_t room;
    bool failed; /* no memory: what is added then is lost */
} buffer;

void add(buffer *b, const char *format, ...) __attribute__((format(printf, 2, 3)));

/* Writes it to this file, or standard output for NULL, and drops it. Answers the exit status. */
int write_buffer(buffer *b, const char *to);

#endif
