/* The commands of vin. A new one is a file in commands/ that defines NAME_command, and its name here. */
#ifndef COMMANDS_H
#define COMMANDS_H

#include "arguments.h"

#define EVERY_COMMAND(one) \
    one(compose) one(read) one(words) one(items) one(follow) one(salvage) one(check) one(dump) one(info) one(list) one(pack) one(pick) \
        one(join) one(shift) one(profile) one(replay) one(plan) one(explain)

/* Where the command's main output goes. */
enum main_output {
    PRINTS,    /* a text for standard output, or -o where the command takes it */
    NEEDS_OUT, /* -o must be given */
    FILTERS    /* -o left out is standard output, unless that is a terminal */
};

typedef struct command {
    const char *name, *usage, *about; /* usage: what stands behind the name */
    const char *more;                 /* a text for help, its lines ended; or "" */
    size_t least, most;               /* arguments that are no options */
    size_t words;                     /* so many of them, the first ones, name no file */
    enum main_output output;
    const option_row *options;     /* ended by one whose id is OPTIONS */
    int (*run)(const arguments *); /* answers the exit status: enum status */
} command;

#define DECLARE_COMMAND(name) extern const command name##_command;
EVERY_COMMAND(DECLARE_COMMAND)

/* The table, and the command of a name, or NULL. */
extern const command *const commands[];
extern const size_t command_count;
const command *command_named(const char *name);

#endif
