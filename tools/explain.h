/* What each refusal's number means. */
#ifndef EXPLAIN_H
#define EXPLAIN_H

#include <stdbool.h>
#include <stdio.h>

/* Writes all that is known of a number; false if there is no such number. */
bool explain(FILE *to, unsigned long number);

/* Writes a line for every number. */
void explain_all(FILE *to);

#endif
