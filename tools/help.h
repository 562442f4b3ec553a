/* What vin --help and vin COMMAND --help say. */
#ifndef HELP_H
#define HELP_H

#include <stdio.h>

#include "commands.h"

void help_all(FILE *to);
void help_command(FILE *to, const command *c);

/* The command whose name is this word but for a slip or two; or NULL. */
const command *command_like(const char *word);

#endif
