/* Messages on standard error, and the exit statuses. */
#ifndef SAY_H
#define SAY_H

#include <stdint.h>

enum status {
    DONE = 0,
    REFUSED = 1, /* by a number of include/vinculampe.h */
    MISUSE = 2   /* a wrong command line or text, or a file that cannot be read or written */
};

/* Writes "vin: ", the message and a line feed. */
void complain(const char *format, ...) __attribute__((format(printf, 1, 2)));

/* The same with what errno says behind the message. */
void complain_errno(const char *format, ...) __attribute__((format(printf, 1, 2)));

/* What stands behind a word that counts so many. */
const char *plural(uint64_t count);

/* A word of the user's as it can be shown: what cannot be printed becomes '?', and a long one ends in "..".
 */
typedef struct {
    char text[41];
} shown;

shown show(const char *word);

/* A file's name likewise; letters beyond ASCII stay, and of a long name the end is kept behind "..". */
typedef struct {
    char text[224];
} shown_name;

shown_name show_name(const char *name);

#endif
