/* No output of a command is one of its inputs, or another output. */
#ifndef APART_H
#define APART_H

#include "commands.h"

/* Says what is wrong. Two names that mean one file are one, however they are spelt and through links too; "-"
 * is what standard input or output is. */
bool are_apart(const command *c, const arguments *a);

#endif
