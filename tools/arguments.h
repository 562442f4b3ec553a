/* What stands behind a command's name: files, words and options. */
#ifndef ARGUMENTS_H
#define ARGUMENTS_H

#include <stdbool.h>
#include <stddef.h>
#include <stdint.h>

/* Every option of every command; arguments.c has their names. */
enum option_id {
    OPT_OUT,
    OPT_TIMES,
    OPT_TIMES_OUT,
    OPT_JSON,
    OPT_CSV,
    OPT_DECODE,
    OPT_STORED,
    OPT_TEXT,
    OPT_FROM,
    OPT_COUNT,
    OPT_GROUP,
    OPT_BUS,
    OPT_NO_FILL,
    OPT_FAULTS,
    OPT_BY,
    OPT_CAPACITY,
    OPT_LEAST,
    OPT_EVENTS,
    OPT_EVERY,
    OPT_SLOTS,
    OPT_PLAN,
    OPT_REPORT,
    OPT_STRICT,
    OPT_LIST,
    OPT_PIECE,
    OPT_QUIET,
    OPTIONS
};

/* What a command makes of an option. */
enum option_role { FLAG, NUMBER, WORD, INPUT, OUTPUT };

typedef struct {
    enum option_id id;
    enum option_role role;
    const char *value; /* what stands behind it, as help has it; NULL for a flag */
    const char *about; /* NULL: an old name, which help does not have */
} option_row;

enum { FILES_MOST = 64 };

typedef struct {
    const char *files[FILES_MOST];
    size_t count;
    const char *values[OPTIONS]; /* NULL: not given; a flag that is given has its name */
    uint64_t numbers[OPTIONS];   /* of a NUMBER that is given */
} arguments;

struct command;

/* Takes the words behind the command's own. Answers DONE, or MISUSE once it is said; help_asked is set if
 * help is asked for. */
int take_arguments(const struct command *c, int count, char **words, arguments *a, bool *help_asked);

/* "-o" and the like. */
const char *option_name(enum option_id id);

#endif
