/* Refusals of logs and of frame times: 2 to 5, and 15. */
#include "refusal.h"

#include <inttypes.h>
#include <stdio.h>
#include <stdlib.h>
#include <string.h>

#include "items.h"

void drop_call(call *c)
{
    free(c->log.bytes);
    free(c->capture.bytes);
    drop_times(&c->times);
}

void say_plainly(const char *name, vin_answer a)
{
    complain("%s: refused by %" PRIu32 " at %" PRIu64 ": %s", input_name(name).text, a.number, a.place,
             vin_text(a.number));
}

/* ==== In a log: 2 to 4, and 15 ==== */

enum { TEXT = 200 };

/* Is it a capture by mistake? */
static bool begins_with_sync(const run *log)
{
    static const uint8_t sync[] = {0xFA, 0xF3, 0x20};
    return log->length >= sizeof sync && memcmp(log->bytes, sync, sizeof sync) == 0;
}

static void bad_log(const run *log, spot s, char *text)
{
    if (log->length == 0)
        snprintf(text, TEXT, "the file is empty, and the empty log is a byte 00");
    else if (begins_with_sync(log))
        snprintf(text, TEXT, "it begins with FAF320, as a capture does, and is no log");
    else if (s.left < 4)
        snprintf(text, TEXT, "the log ends here, without its end mark");
    else if (s.kind == END_MARK)
        snprintf(text, TEXT,
                 "the end mark stands here, and more follows it than the zero bits that fill its byte");
    else if (s.kind >= KINDS)
        snprintf(text, TEXT, "kind %u is unknown: the kinds are 1 to %d, and 0 ends the log", s.kind,
                 KINDS - 1);
    else
        snprintf(text, TEXT, "%s begins here, and the log ends inside it", kind_text(s.kind));
}

static void bad_bus(const vin_plan *plan, spot s, char *text)
{
    unsigned kind = plan->kinds[s.bus];
    if (kind == VIN_KIND_UNUSED)
        snprintf(text, TEXT, "%s on bus %u, which the plan does not use", kind_text(s.kind), s.bus);
    else
        snprintf(text, TEXT, "%s on bus %u, which is %s in the plan", kind_text(s.kind), s.bus,
                 kind_name(kind));
}

static void bad_limit(spot s, char *text)
{
    snprintf(text, TEXT, "%s on bus %u whose %s is %u: it must be below 10000", kind_text(s.kind), s.bus,
             s.kind == STATUS ? "response" : "micro", s.fine);
}

static void bad_notice(spot s, char *text)
{
    snprintf(text, TEXT, "%s on bus %u without its ARINC word: the channel's next notice, or the end, comes first",
             kind_text(s.kind), s.bus);
}

void say_at_item(const char *log_name, const run *log, unsigned number, uint64_t bit, const char *why)
{
    complain("%s: refused by %u at bit %" PRIu64 " (byte %" PRIu64 ", bit %u, item %zu): %s",
             input_name(log_name).text, number, bit, bit / 8, (unsigned)(bit % 8),
             spot_at(log->bytes, log->length, bit).number, why);
}

static void say_log_refused(const char *name, const run *log, const vin_plan *plan, unsigned number,
                            uint64_t bit)
{
    char text[TEXT];
    if (log->length > VIN_LOG_MAX) {
        complain("%s: refused by %u at 0: the log has more than %d bytes", input_name(name).text, number,
                 VIN_LOG_MAX);
        return;
    }
    spot s = spot_at(log->bytes, log->length, bit);
    if (number == VIN_LOG)
        bad_log(log, s, text);
    else if (number == VIN_BUS && plan)
        bad_bus(plan, s, text);
    else if (number == VIN_LIMIT)
        bad_limit(s, text);
    else if (number == VIN_NOTICE)
        bad_notice(s, text);
    else
        snprintf(text, TEXT, "%s", vin_text(number));
    say_at_item(name, log, number, bit, text);
}

void say_listing_refused(const char *log_name, const run *log, unsigned number, uint64_t place)
{
    say_log_refused(log_name, log, NULL, number, place);
}

/* ==== In times: 5 ==== */

/* The frame times that the log needs: composing without any says it, as the header has it. */
static uint64_t times_needed(const call *c)
{
    vin_answer a = vin_plan_compose(&c->plan.plan, c->log.bytes, c->log.length, NULL, 0, NULL, 0);
    return a.number == VIN_TIMES ? a.place : 0;
}

/* A time that is too large, as it is written, with its line. */
static void say_time_refused(const times_file *times, uint64_t index)
{
    complain("%s:%zu: refused by 5 at time %" PRIu64
             " (counted from 0): %s microseconds, and times are below %" PRIu64,
             input_name(times->name).text, times->line_numbers[index], index,
             show(times->written[index]).text, VIN_TIME_LIMIT);
}

static void say_times_refused(const call *c, uint64_t place)
{
    uint64_t given = c->times.bytes.length / VIN_TIME_BYTES, needed = times_needed(c);
    shown_name name = input_name(c->times.name ? c->times.name : c->log_name);
    if (given == needed)
        say_time_refused(&c->times, place);
    else if (!c->plan.plan.frame_time)
        complain("%s: refused by 5 at 0: the plan has no frame time and takes no times; given: %" PRIu64,
                 name.text, given);
    else if (!c->times.name)
        complain("%s: refused by 5 at %" PRIu64
                 ": the plan has frame time, and no file of times is named; needed: %" PRIu64 ", one a group",
                 name.text, place, needed);
    else
        complain("%s: refused by 5 at %" PRIu64 ": frame times needed: %" PRIu64
                 ", one a group; given: %" PRIu64,
                 name.text, place, needed, given);
}

void say_composing_refused(const call *c, vin_answer a)
{
    switch (a.number) {
    case VIN_PLAN: say_illegal(&c->plan); break;
    case VIN_LOG:
    case VIN_BUS:
    case VIN_NOTICE:
    case VIN_LIMIT: say_log_refused(c->log_name, &c->log, &c->plan.plan, a.number, a.place); break;
    case VIN_TIMES: say_times_refused(c, a.place); break;
    default: say_plainly(c->log_name, a);
    }
}
