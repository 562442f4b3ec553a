/* A file that grows, for the command that writes as its input comes: NAME.part, which gets its name when it
 * is whole. */
#ifndef GROWING_H
#define GROWING_H

#include "files.h"

typedef struct {
    const char *name; /* as the user has it; NULL: there is none */
    char *whole;      /* behind all links */
    char *part;       /* NULL: standard output, a device or a pipe, which is written as it is */
    int file;
} growing;

/* Begins the file, or says what is wrong. Of the name NULL nothing is written. It is to be dropped in any
 * case. */
bool begin_growing(growing *g, const char *name);

/* Writes what comes next, or says what is wrong. */
bool grow(growing *g, const uint8_t *bytes, size_t length);

/* It is whole: gives it its name, or says what is wrong. */
bool end_growing(growing *g);

/* Says where what was written stays. */
void say_part(const growing *g);

void drop_growing(growing *g);

/* NAME.part, on the heap; NULL if that name is written as it is, or, said, where there is no memory. */
char *part_of(const char *name);

#endif
