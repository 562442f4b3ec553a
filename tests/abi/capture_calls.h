/* The functions on captures beside composing and the readings, compared with the independent implementation. A function is a file here
 * that defines NAME_function, and its name in EVERY_FUNCTION; tests/abi/run compiles every file whose name begins with capture_. */
#ifndef CAPTURE_CALLS_H
#define CAPTURE_CALLS_H

#include "../../include/vinculampe.h"
#include "../../independent/rules.h"
#include "calls.h"

#define EVERY_FUNCTION(one) one(read_words) one(read_items) one(halves) one(salvage) one(dropouts) one(account) one(stream_open) one(stream_feed) one(stream_close) one(twisted) one(cuttings) one(buses)

#define DECLARE_FUNCTION(name) extern const compared name##_function;
EVERY_FUNCTION(DECLARE_FUNCTION)

/* ==== What is drawn ==== */

/* A plan, one in twelve spoiled, and a capture: composed, damaged, with fill between items, with faults. */
extern drawn the_case;
void draw_case(void);

/* The plan's numbers, as a call lists them. */
#define PLAN_NUMBERS(p) (p).words, (p).tracks, (p).frame_time, (p).crc, (p).parity, (p).crc_label, (p).fill_bus

/* The plan's kinds as the first run of a call, and the seven numbers before them. */
#define KINDS_RUN {READ_ONLY, the_case.plan.kinds, the_case.plan.kinds_len, 0, 0}

/* The drawn plan as the header has it, where its kinds are sixteen. */
vin_plan plan_struct(void);

/* A run's pointer for the header's functions: null where the length is 0. */
void *null_for_none(const call *c, uint8_t *const at[], size_t n);

/* An answer as a row of numbers. */
outcome outcome_of(vin_answer a);
outcome outcome_of_independent(ind_answer a);

#endif
