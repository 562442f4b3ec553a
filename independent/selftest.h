/* What the files of the program `selftest` share. */
#ifndef SELFTEST_H
#define SELFTEST_H

#include <stdio.h>
#include <stdlib.h>

#include "rules.h"

#define CHECK(claim) \
    do { \
        if (!(claim)) { \
            printf("%s:%d: %s\n", __FILE__, __LINE__, #claim); \
            exit(1); \
        } \
    } while (0)

/* Document 02's requests, each in a file of its own. */
void selftest_full_plan(void);
void selftest_split(void);
void selftest_salvage(void);
void selftest_stream(void);
void selftest_pick_join(void);
void selftest_shift(void);
void selftest_profile(void);
void selftest_replay(void);

#endif
