#include "commands.h"

#include <string.h>

#define COMMAND_ROW(name) &name##_command,

const command *const commands[] = {EVERY_COMMAND(COMMAND_ROW)};
const size_t command_count = sizeof commands / sizeof *commands;

const command *command_named(const char *name)
{
    for (size_t n = 0; n < command_count; n++)
        if (strcmp(commands[n]->name, name) == 0)
            return commands[n];
    return NULL;
}
