/* What a file's name means: which file, or which that is not there yet. */
#ifndef PATHS_H
#define PATHS_H

#include <stdbool.h>
#include <sys/stat.h>

/* The name behind all links, on the heap, whether a file is there or not; NULL with errno for links in a
 * circle. */
char *follow_links(const char *name);

/* A file that is there, or the folder and the name that it would have. */
typedef struct {
    bool known, there;
    struct stat at; /* the file's, or the folder's */
    char last[256]; /* the name in that folder */
} identity;

/* Of a name; "-" is this open file. */
identity identity_of(const char *name, int standard);

bool same_identity(const identity *one, const identity *other);

#endif
