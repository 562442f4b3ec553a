#include "events.h"

#include <stdlib.h>
#include <string.h>

#include "../include/vinculampe.h"
#include "text.h"

enum {
    TEXT_MOST = 1 << 22
}; /* bytes: 65535 lines of one event have 460000, comments and blanks may stand in it */

static bool begin_events(events *e)
{
    *e = (events){{malloc(VIN_EVENTS_MAX + 1), 0}, 0, 0};
    return !out_of_memory(e->row.bytes);
}

void drop_events(events *e)
{
    free(e->row.bytes);
    *e = (events){{NULL, 0}, 0, 0};
}

/* Of a row that is too long one event more than allowed is kept: enough to be refused. */
static void add_events(events *e, uint8_t event, uint64_t count)
{
    size_t room = VIN_EVENTS_MAX + 1 - e->row.length, kept = count < room ? (size_t)count : room;
    memset(e->row.bytes + e->row.length, event, kept);
    e->row.length += kept;
    e->count += count;
    if (event == VIN_ITEM_ARRIVES)
        e->arrivals += count;
}

bool events_every(uint64_t arrivals, uint64_t items, events *e)
{
    if (!begin_events(e))
        return false;
    for (; items >= arrivals; items -= arrivals) {
        add_events(e, VIN_ITEM_ARRIVES, arrivals);
        add_events(e, VIN_GROUP_LEAVES, 1);
    }
    add_events(e, VIN_ITEM_ARRIVES, items);
    return true;
}

/* ==== Text ==== */

static bool is_word(const char *word, const char *one, const char *many)
{
    return strcmp(word, one) == 0 || strcmp(word, many) == 0;
}

static bool take_line(const lines *at, char *line, events *e)
{
    char *words[2];
    shown whole = show(line + strspn(line, " \t"));
    size_t count = cut_words(line, words, 2);
    uint64_t many = 1;
    const char *what = count > 0 ? words[count == 2] : "";
    if (count == 0)
        return true;
    bool good = count <= 2 && (is_word(what, "item", "items") || is_word(what, "group", "groups"));
    if (good && count == 2) {
        good = strlen(words[0]) <= 9 && strspn(words[0], "0123456789") == strlen(words[0]);
        many = strtoull(words[0], NULL, 10);
    }
    if (!good) {
        complain_line(at, "\"%s\": a line of events is item, group, or a number and items or groups",
                      whole.text);
        return false;
    }
    add_events(e, what[0] == 'i' ? VIN_ITEM_ARRIVES : VIN_GROUP_LEAVES, many);
    return true;
}

static bool take_text(const char *name, const run *text, events *e)
{
    lines at = lines_of(name, text);
    for (char *line; (line = next_line(&at));)
        if (!take_line(&at, line, e))
            return false;
    return true;
}

/* ==== Bytes ==== */

static bool is_row(const run *file)
{
    return file->length > 0 && file->bytes[0] <= VIN_GROUP_LEAVES;
}

static void take_row(const run *file, events *e)
{
    e->count = file->length;
    e->row.length = file->length <= VIN_EVENTS_MAX ? file->length : VIN_EVENTS_MAX + 1;
    memcpy(e->row.bytes, file->bytes, e->row.length);
    for (size_t n = 0; n < file->length; n++)
        e->arrivals += file->bytes[n] == VIN_ITEM_ARRIVES;
}

bool read_events(const char *name, events *e)
{
    run file;
    *e = (events){{NULL, 0}, 0, 0};
    if (!read_file(name, TEXT_MOST, &file))
        return false;
    bool row = is_row(&file);
    if (!row && !as_text(name, TEXT_MOST, "these are no events: lines as 12 items and 1 group", &file))
        return false;
    bool good = begin_events(e);
    if (good && row)
        take_row(&file, e);
    else if (good)
        good = take_text(name, &file, e);
    free(file.bytes);
    return good;
}
