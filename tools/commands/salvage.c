#include <inttypes.h>
#include <stdlib.h>

#include "../buffer.h"
#include "../commands.h"
#include "../hints.h"
#include "../outputs.h"
#include "../reading.h"
#include "../walk.h"

enum { TIMES_ROOM = VIN_READ_GROUPS_MAX * VIN_TIME_BYTES };

/* The call, its room and the answer. */
typedef struct {
    call call;
    uint8_t *log, *times;
    uint64_t *report; /* room for any capture */
    vin_salvaged answer;
} salvage;

/* What the report adds up to. */
typedef struct {
    uint64_t groups, dropped_groups, dropped_words;
} tally;

/* ==== The report in words ==== */

/* The word that its group was dropped for: the first half of a reading refuses the group by itself, and says. */
static stored broken_word(const salvage *s, uint64_t group, vin_answer *a)
{
    const vin_plan *plan = &s->call.plan.plan;
    size_t bytes = VIN_GROUP_BYTES(plan->words, plan->tracks);
    *a = vin_plan_read_words(plan, s->call.capture.bytes + group * bytes, bytes, NULL, 0, NULL, 0);
    a->place += group * group_words(plan);
    return stored_at(plan, &s->call.capture, a->place);
}

static void add_group(buffer *to, const salvage *s, uint64_t group, bool json)
{
    char why[WHY_MOST];
    vin_answer a;
    stored w = broken_word(s, group, &a);
    tell_bad_word(&s->call, &w, &a, why);
    if (json)
        add(to, "{\"group\":%" PRIu64 ",\"fault\":%" PRIu32 ",\"place\":%" PRIu64 ",\"word\":\"%06" PRIX32 "\"}\n",
            group, a.number, w.place, w.word);
    else
        add(to, "group %" PRIu64 " dropped: %" PRIu32 " at %s: %06" PRIX32 ": %s\n", group, a.number,
            tell_place(&w).text, w.word, why);
}

static void add_word(buffer *to, const salvage *s, uint64_t place, bool json)
{
    const vin_plan *plan = &s->call.plan.plan;
    stored w = stored_at(plan, &s->call.capture, place);
    if (json)
        add(to,
            "{\"place\":%" PRIu64 ",\"group\":%" PRIu64 ",\"track\":%" PRIu32 ",\"position\":%" PRIu32
            ",\"word\":\"%06" PRIX32 "\",\"bus\":%" PRIu32 ",\"label\":%" PRIu32 "}\n",
            place, w.group, w.track, w.position, w.word, w.bus, w.label);
    else
        add(to,
            "word %" PRIu64 " dropped (group %" PRIu64 ", track %" PRIu32 ", word %" PRIu32 "): %06" PRIX32
            " %s on bus %" PRIu32 "\n",
            place, w.group, w.track, w.position, w.word, word_meaning(plan, &w), w.bus);
}

static tally tally_of(const salvage *s)
{
    const vin_plan *plan = &s->call.plan.plan;
    tally t = {VIN_READ_GROUPS(s->call.capture.length, plan->words, plan->tracks), 0, 0};
    for (uint64_t n = 0; n < s->answer.entries; n++)
        if (VIN_ENTRY_NUMBER(s->report[n]) == VIN_DONE)
            t.dropped_words++;
        else
            t.dropped_groups++;
    return t;
}

static void add_tally(buffer *to, const tally *t, bool json)
{
    uint64_t kept = t->groups - t->dropped_groups;
    if (json)
        add(to,
            "{\"kept\":%" PRIu64 ",\"groups\":%" PRIu64 ",\"dropped_groups\":%" PRIu64
            ",\"dropped_words\":%" PRIu64 "}\n",
            kept, t->groups, t->dropped_groups, t->dropped_words);
    else
        add(to, "kept %" PRIu64 " of %" PRIu64 " group%s; dropped %" PRIu64 " group%s, %" PRIu64 " word%s\n",
            kept, t->groups, plural(t->groups), t->dropped_groups, plural(t->dropped_groups),
            t->dropped_words, plural(t->dropped_words));
}

static void add_report(buffer *to, const salvage *s, const tally *t, bool json)
{
    for (uint64_t n = 0; n < s->answer.entries; n++)
        if (VIN_ENTRY_NUMBER(s->report[n]) == VIN_DONE)
            add_word(to, s, VIN_ENTRY_INDEX(s->report[n]), json);
        else
            add_group(to, s, VIN_ENTRY_INDEX(s->report[n]), json);
    add_tally(to, t, json);
}

/* ==== The outputs ==== */

static bool write_outputs(const salvage *s, const tally *t, const arguments *given)
{
    output outputs[3] = {{given->values[OPT_OUT], s->log, s->answer.bytes}};
    size_t count = 1;
    run text = {NULL, 0};
    buffer report = {{NULL, 0}, 0, false};
    bool good = true;
    if (given->values[OPT_TIMES_OUT]) {
        good = times_text(s->times, s->answer.times, &text);
        outputs[count++] = (output){given->values[OPT_TIMES_OUT], text.bytes, text.length};
    }
    if (given->values[OPT_REPORT]) {
        add_report(&report, s, t, given->values[OPT_JSON]);
        good = good && !out_of_memory(report.failed ? NULL : report.text.bytes);
        outputs[count++] = (output){given->values[OPT_REPORT], report.text.bytes, report.text.length};
    }
    good = good && write_files(outputs, count);
    free(text.bytes);
    free(report.text.bytes);
    return good;
}

/* On standard error, always: what was kept, and what was dropped. */
static void say_tally(const salvage *s, const tally *t)
{
    buffer b = {{NULL, 0}, 0, false};
    add_tally(&b, t, false);
    if (!b.failed)
        complain("%s: %.*s", input_name(s->call.capture_name).text, (int)b.text.length - 1,
                 (const char *)b.text.bytes);
    free(b.text.bytes);
}

static int write_salvaged(const salvage *s, const arguments *given)
{
    tally t = tally_of(s);
    if (!write_outputs(s, &t, given))
        return MISUSE;
    say_tally(s, &t);
    say_hints("note", s->call.capture_name, &s->call.plan.plan, &s->call.capture);
    if (!given->values[OPT_TIMES_OUT])
        say_times_unwritten(s->call.capture_name, s->answer.times, given->values[OPT_OUT]);
    return given->values[OPT_STRICT] && s->answer.entries > 0 ? REFUSED : DONE;
}

/* ==== The call ==== */

static int salvage_call(salvage *s, const arguments *given)
{
    call *c = &s->call;
    s->log = malloc(VIN_LOG_MAX);
    s->times = malloc(TIMES_ROOM);
    s->report = malloc(VIN_WORDS_MAX * sizeof *s->report);
    if (out_of_memory(s->log) || out_of_memory(s->times) || out_of_memory(s->report))
        return MISUSE;
    s->answer = vin_plan_salvage(&c->plan.plan, c->capture.bytes, c->capture.length, s->log, VIN_LOG_MAX,
                                 s->times, TIMES_ROOM, s->report, VIN_WORDS_MAX);
    if (s->answer.number == VIN_DONE)
        return write_salvaged(s, given);
    say_reading_refused(c, (vin_answer){s->answer.number, s->answer.place, 0, 0, 0});
    return REFUSED;
}

static int run_salvage(const arguments *given)
{
    salvage s = {0};
    int status = MISUSE;
    if (given->values[OPT_JSON] && !given->values[OPT_REPORT]) {
        complain("salvage: --json is a form of the report: --report FILE names it");
        return MISUSE;
    }
    s.call.capture_name = given->files[1];
    if (read_plan(given->files[0], &s.call.plan)
        && read_file(s.call.capture_name, VIN_CAPTURE_MAX, &s.call.capture))
        status = salvage_call(&s, given);
    drop_call(&s.call);
    free(s.log);
    free(s.times);
    free(s.report);
    return status;
}

static const option_row options[] = {
    {OPT_OUT, OUTPUT, "LOG", "the log of what is left"},
    {OPT_TIMES_OUT, OUTPUT, "FILE", "the frame times of the groups that are kept"},
    {OPT_REPORT, OUTPUT, "FILE", "what was dropped, a line each"},
    {OPT_JSON, FLAG, NULL, "the report as JSON, an object a line"},
    {OPT_STRICT, FLAG, NULL, "status 1 if anything was dropped"},
    {OPTIONS, FLAG, NULL, NULL},
};

const command salvage_command = {
    .name = "salvage",
    .usage = "PLAN CAPTURE -o LOG [--times-out FILE] [--report FILE [--json]] [--strict]",
    .about = "read what is left of a damaged capture, and report what is not",
    .more =
        "\nA group with a wrong sync word, parity, CRC word or frame time is dropped whole, with its frame\n"
        "time. Of the others each word that starts and continues no item is dropped, and so are the words\n"
        "of an item that breaks off. Nothing is joined across a dropped group; a command or ARINC word\n"
        "that is the last data before one, its time tag not yet seen, is dropped as well. What was kept\n"
        "and dropped is said on standard error.\n",
    .least = 2,
    .most = 2,
    .output = NEEDS_OUT,
    .options = options,
    .run = run_salvage,
};
