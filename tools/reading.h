/* A capture read by the library, for the commands that read one. */
#ifndef READING_H
#define READING_H

#include "refusal.h"

/* The call, its room and the answer. */
typedef struct {
    call call;
    uint8_t *log, *times; /* room for any capture */
    vin_answer answer;
} reading;

typedef vin_answer reader(const vin_plan *, const uint8_t *, size_t, uint8_t *, size_t, uint8_t *, size_t);

/* Reads plan and capture from these files and has the capture read. DONE; or the exit status, once it is
 * said. The reading is to be dropped in any case. */
int read_capture(const char *plan_name, const char *capture_name, reader *by, reading *r);

void drop_reading(reading *r);

/* Says on standard error what could be a slip: an empty capture, one that looks like another plan's. */
void say_notes(const reading *r);

/* That so many frame times were read and no file of them is named, where the log went to this one. */
void say_times_unwritten(const char *capture_name, uint64_t times, const char *log_to);

#endif
