/* Refusals for a person: where the place is, and what stands there. */
#ifndef REFUSAL_H
#define REFUSAL_H

#include "capture.h"
#include "files.h"
#include "plan.h"
#include "times.h"

/* What a call was given. A name is a file's; times of no file have the name NULL. */
typedef struct {
    plan_file plan;
    const char *log_name, *capture_name;
    run log, capture;
    times_file times;
} call;

void drop_call(call *c);

/* Each says on standard error by which number the call was refused, and where. */
void say_composing_refused(const call *c, vin_answer a);
void say_reading_refused(const call *c, vin_answer a);
/* Of a log that was listed, or worked on without a plan. */
void say_listing_refused(const char *log_name, const run *log, unsigned number, uint64_t place);

/* A refusal at a log's item that is whole, and why. */
void say_at_item(const char *log_name, const run *log, unsigned number, uint64_t bit, const char *why);

/* Why a reading refuses this word of the capture by the answer; in WHY_MOST bytes (walk.h). */
void tell_bad_word(const call *c, const stored *s, const vin_answer *a, char *why);

/* A refusal whose place says no more. */
void say_plainly(const char *name, vin_answer a);

#endif
