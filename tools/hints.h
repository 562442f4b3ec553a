/* Does a capture look like one of another plan? */
#ifndef HINTS_H
#define HINTS_H

#include "capture.h"

/* Says what the capture looks like on standard error, each line as "vin: NAME: WORD: ..". The capture need
 * not be whole groups. */
void say_hints(const char *word, const char *name, const vin_plan *plan, const run *capture);

#endif
