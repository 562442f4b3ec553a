/* The proved lister, a program of its own beside this one. */
#ifndef LISTER_H
#define LISTER_H

#include "files.h"

/* The lister's text of a log. DONE; or the exit status, once it is said: the log of this name is refused, or
 * the lister did not run. Then nothing is to be freed. */
int list_log(const char *name, const run *log, run *text);

#endif
