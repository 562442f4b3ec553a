/* The functions on captures that are compared, and what they are drawn from. */
#include "capture_calls.h"

#include <string.h>

#define FUNCTION_ROW(name) &name##_function,

const compared *const functions[] = {EVERY_FUNCTION(FUNCTION_ROW)};
const size_t function_count = sizeof functions / sizeof *functions, run_most = 3000000;

drawn the_case;

/* What composing makes of the drawn log, and its times where their number is wrong. */
static void compose(void)
{
    static uint8_t times[DRAWN_TIMES_MAX];
    const drawn_plan *p = &the_case.plan;
    ind_answer a = ind_compose_full(PLAN_NUMBERS(*p), p->kinds, p->kinds_len, the_case.log, the_case.log_len, the_case.times,
                                    the_case.times_len, the_case.capture, DRAWN_CAPTURE_MAX);
    if (a.number == 5)
        a = ind_compose_full(PLAN_NUMBERS(*p), p->kinds, p->kinds_len, the_case.log, the_case.log_len, times,
                             a.place <= DRAWN_TIMES_MAX / 8 ? 8 * (size_t)a.place : 0, the_case.capture, DRAWN_CAPTURE_MAX);
    the_case.capture_len = (size_t)a.bytes;
}

void draw_case(void)
{
    draw_plan(&the_case);
    the_case.capture_len = 0;
    if (!the_case.legal) {
        the_case.capture_len = draw(2000);
        for (size_t n = 0; n < the_case.capture_len; n++)
            the_case.capture[n] = (uint8_t)draw(256);
        return;
    }
    if (one_in(2)) {
        draw_loose_capture(&the_case);
    } else {
        draw_log(&the_case);
        compose();
    }
    if (one_in(2))
        draw_damage(&the_case);
}

vin_plan plan_struct(void)
{
    const drawn_plan *p = &the_case.plan;
    vin_plan plan = VIN_PLAN_INIT(p->words, p->tracks);
    plan.frame_time = p->frame_time;
    plan.crc = p->crc;
    plan.parity = p->parity;
    plan.crc_label = p->crc_label;
    plan.fill_bus = p->fill_bus;
    memcpy(plan.kinds, p->kinds, 16);
    return plan;
}

void *null_for_none(const call *c, uint8_t *const at[], size_t n)
{
    return c->runs[n].length == 0 ? NULL : at[n];
}

outcome outcome_of(vin_answer a)
{
    return (outcome){{a.number, a.place, a.second, a.bytes, a.times}};
}

outcome outcome_of_independent(ind_answer a)
{
    return (outcome){{a.number, a.place, a.second, a.bytes, a.times}};
}
