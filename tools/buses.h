/* A set of buses as the user writes it. */
#ifndef BUSES_H
#define BUSES_H

#include <stdbool.h>
#include <stdint.h>

/* "2", "2,5-7", "all": bit c of the set is bus c. What is wrong is said. */
bool read_buses(const char *command, const char *text, uint16_t *set);

#endif
