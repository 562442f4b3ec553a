/* Why a plan is illegal, in words. */
#include "plan.h"

#include <stdarg.h>
#include <stdio.h>

#include "files.h"

/* An empty log composes under every legal plan. */
bool plan_is_legal(const vin_plan *plan)
{
    static const uint8_t empty[] = {0};
    return vin_plan_compose(plan, empty, sizeof empty, NULL, 0, NULL, 0).number != VIN_PLAN;
}

/* Says a broken rule, with the line that breaks it; 0 is no line. */
static void say_rule(const plan_file *p, size_t line, const char *format, ...)
    __attribute__((format(printf, 3, 4)));

static void say_rule(const plan_file *p, size_t line, const char *format, ...)
{
    char text[160], where[32] = "";
    va_list values;
    va_start(values, format);
    vsnprintf(text, sizeof text, format, values);
    va_end(values);
    if (line > 0)
        snprintf(where, sizeof where, ":%zu", line);
    complain("%s%s: refused by %d at 0: %s", input_name(p->name).text, where, VIN_PLAN, text);
}

static bool wrong_words(const plan_file *p)
{
    uint32_t words = p->plan.words;
    if (words >= WORDS_LEAST && words <= WORDS_MOST)
        return false;
    say_rule(p, p->key_lines[KEY_WORDS], "words is %u: a frame has %d to %d words", words, WORDS_LEAST,
             WORDS_MOST);
    return true;
}

static bool wrong_tracks(const plan_file *p)
{
    uint32_t tracks = p->plan.tracks;
    if (tracks >= 1 && tracks <= TRACKS_MOST)
        return false;
    say_rule(p, p->key_lines[KEY_TRACKS], "tracks is %u: a group has 1 to %d tracks", tracks, TRACKS_MOST);
    return true;
}

static bool wrong_buses(const plan_file *p)
{
    unsigned used = 0;
    for (unsigned bus = 0; bus < BUSES; bus++)
        used += p->plan.kinds[bus] != VIN_KIND_UNUSED;
    if (p->plan.tracks <= 1 || used == 1)
        return false;
    say_rule(p, p->key_lines[KEY_TRACKS], "more than one track needs exactly one used bus; used: %u", used);
    return true;
}

static bool wrong_parity(const plan_file *p)
{
    bool wrong = false;
    for (unsigned bus = BUSES_WITH_PARITY; p->plan.parity && bus < BUSES; bus++)
        if (p->plan.kinds[bus] != VIN_KIND_UNUSED) {
            say_rule(p, p->bus_lines[bus], "bus %u is used: with parity the buses are 0 to %d", bus,
                     BUSES_WITH_PARITY - 1);
            wrong = true;
        }
    return wrong;
}

static bool wrong_label(const plan_file *p)
{
    if (p->plan.crc_label <= LABEL_MOST)
        return false;
    say_rule(p, p->key_lines[KEY_CRC_LABEL], "crc-label is %u: the CRC word's label is 0 to %d",
             p->plan.crc_label, LABEL_MOST);
    return true;
}

static bool wrong_fill_bus(const plan_file *p)
{
    uint32_t code = p->plan.fill_bus;
    if (code < (p->plan.parity ? BUSES_WITH_PARITY : BUSES))
        return false;
    if (code < BUSES)
        say_rule(p, p->key_lines[KEY_FILL_BUS], "fill-bus is %u: with parity the buses are 0 to %d", code,
                 BUSES_WITH_PARITY - 1);
    else
        say_rule(p, p->key_lines[KEY_FILL_BUS], "fill-bus is %u: a bus is 0 to %d", code, BUSES - 1);
    return true;
}

void say_illegal(const plan_file *p)
{
    static bool (*const rules[])(const plan_file *) = {wrong_words,  wrong_tracks, wrong_buses,
                                                       wrong_parity, wrong_label,  wrong_fill_bus};
    bool said = false;
    for (size_t n = 0; n < sizeof rules / sizeof *rules; n++)
        said = rules[n](p) || said;
    if (!said)
        say_rule(p, 0, "%s", vin_text(VIN_PLAN));
}
