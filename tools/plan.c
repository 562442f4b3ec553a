#include "plan.h"

#include <stdlib.h>
#include <string.h>

#include "text.h"

enum { PLAN_MOST = 65536 }; /* bytes of text */

const char *kind_name(unsigned kind)
{
    static const char *const names[] = {"unused", "MIL-STD-1553", "ARINC 429"};
    return kind < sizeof names / sizeof *names ? names[kind] : "unknown";
}

/* ==== The keys ==== */

typedef bool take(const lines *at, const char *value, uint32_t *to);

static bool take_number(const lines *at, const char *value, uint32_t *to)
{
    size_t digits = strspn(value, "0123456789");
    if (digits == 0 || digits > 9 || value[digits]) {
        complain_line(at, "\"%s\" is not a number of at most nine digits", show(value).text);
        return false;
    }
    *to = (uint32_t)strtoul(value, NULL, 10);
    return true;
}

static bool take_choice(const lines *at, const char *value, uint32_t *to)
{
    *to = strcmp(value, "yes") == 0;
    if (*to || strcmp(value, "no") == 0)
        return true;
    complain_line(at, "\"%s\" is neither yes nor no", show(value).text);
    return false;
}

/* Every key with one value; a new line of the plan is a new row here. */
static const struct {
    const char *name;
    take *value;
    size_t offset;
    bool needed;
} keys[KEYS] = {
    [KEY_WORDS] = {"words", take_number, offsetof(vin_plan, words), true},
    [KEY_TRACKS] = {"tracks", take_number, offsetof(vin_plan, tracks), true},
    [KEY_FRAME_TIME] = {"frame-time", take_choice, offsetof(vin_plan, frame_time), false},
    [KEY_CRC] = {"crc", take_choice, offsetof(vin_plan, crc), false},
    [KEY_PARITY] = {"parity", take_choice, offsetof(vin_plan, parity), false},
    [KEY_CRC_LABEL] = {"crc-label", take_number, offsetof(vin_plan, crc_label), false},
    [KEY_FILL_BUS] = {"fill-bus", take_number, offsetof(vin_plan, fill_bus), false},
};

static bool is_new(const lines *at, const char *what, size_t *given)
{
    if (*given) {
        complain_line(at, "%s is given again; line %zu has it", what, *given);
        return false;
    }
    *given = at->number;
    return true;
}

static bool take_bus(const lines *at, const char *code, const char *kind, plan_file *p)
{
    static const char *const kinds[] = {"unused", "1553", "arinc"};
    uint32_t bus, k = 0;
    if (!take_number(at, code, &bus))
        return false;
    if (bus >= BUSES) {
        complain_line(at, "bus %u: a bus is 0 to %d", bus, BUSES - 1);
        return false;
    }
    while (k < sizeof kinds / sizeof *kinds && strcmp(kind, kinds[k]) != 0)
        k++;
    if (k == sizeof kinds / sizeof *kinds) {
        complain_line(at, "\"%s\" is no kind of bus: 1553, arinc or unused", show(kind).text);
        return false;
    }
    p->plan.kinds[bus] = (uint8_t)k;
    return is_new(at, "this bus", &p->bus_lines[bus]);
}

static bool unknown_key(const lines *at, const char *key)
{
    char names[KEYS * 16] = ""; /* a name and a comma each */
    for (size_t k = 0; k < KEYS; k++)
        strcat(strcat(names, keys[k].name), k + 1 < KEYS ? ", " : "");
    complain_line(at, "unknown key \"%s\"; the keys are %s and bus", show(key).text, names);
    return false;
}

static bool take_key(const lines *at, const char *key, const char *value, plan_file *p)
{
    size_t k = 0;
    while (k < KEYS && strcmp(key, keys[k].name) != 0)
        k++;
    if (k == KEYS)
        return unknown_key(at, key);
    return keys[k].value(at, value, (uint32_t *)(void *)((char *)&p->plan + keys[k].offset))
           && is_new(at, key, &p->key_lines[k]);
}

/* ==== Lines ==== */

enum { LINE_WORDS = 3 };

static bool take_line(const lines *at, char *text, plan_file *p)
{
    char *words[LINE_WORDS];
    size_t count = cut_words(text, words, LINE_WORDS);
    if (count == 0)
        return true;
    bool is_bus = strcmp(words[0], "bus") == 0;
    if (is_bus && count == 3)
        return take_bus(at, words[1], words[2], p);
    if (!is_bus && count == 2)
        return take_key(at, words[0], words[1], p);
    if (is_bus)
        complain_line(at, "a bus line is: bus CODE 1553, or bus CODE arinc");
    else
        complain_line(at, "a line is a key and its value; see vin(1)");
    return false;
}

static bool take_lines(lines *at, plan_file *p)
{
    for (char *line; (line = next_line(at));)
        if (!take_line(at, line, p))
            return false;
    for (size_t k = 0; k < KEYS; k++)
        if (keys[k].needed && !p->key_lines[k]) {
            complain("%s: no line \"%s ..\"", at->file.text, keys[k].name);
            return false;
        }
    return true;
}

bool read_plan(const char *name, plan_file *to)
{
    run text;
    *to = (plan_file){name, VIN_PLAN_INIT(0, 0), {0}, {0}};
    if (!read_text(name, PLAN_MOST, "this is no plan: a plan is a short text", &text))
        return false;
    lines at = lines_of(name, &text);
    bool good = take_lines(&at, to);
    free(text.bytes);
    return good;
}
