/* Document 02, K11: the one-bus test profile. */
#include "rules.h"

/* "Only one bus occurs": the first item's. */
static bool is_on_another_bus(const item *items, size_t n)
{
    return items[n].bus != items[0].bus;
}

/* ".. with no ARINC item." */
static bool is_arinc(const item *items, size_t n)
{
    return items[n].kind == ARINC_WORD || items[n].kind == NOTICE;
}

/* "Every command is tagged, unless the item just before is a tagged command on the same A or B side." */
static bool is_command_without_tag(const item *items, size_t n)
{
    if (items[n].kind != COMMAND || items[n].tagged)
        return false;
    if (n == 0)
        return true;
    return !(items[n - 1].kind == COMMAND && items[n - 1].tagged && items[n - 1].b == items[n].b);
}

/* "Every status has its response time." */
static bool is_status_without_response(const item *items, size_t n)
{
    return items[n].kind == STATUS && !items[n].timed;
}

/* "Tags never go back.": not behind the last tag before. */
static bool has_tag_that_goes_back(const item *items, size_t n)
{
    if (!items[n].tagged)
        return false;
    for (size_t before = n; before > 0; before--)
        if (items[before - 1].tagged)
            return time_join(items[n].time) < time_join(items[before - 1].time);
    return false;
}

/* "No user words." */
static bool is_user_word(const item *items, size_t n)
{
    return items[n].kind == USER;
}

static bool breaks_a_rule(const item *items, size_t n)
{
    return is_on_another_bus(items, n) || is_arinc(items, n) || is_command_without_tag(items, n)
           || is_status_without_response(items, n) || has_tag_that_goes_back(items, n) || is_user_word(items, n);
}

/* "we want a yes or the first item that breaks it": "2, 4 as in composing; then 18 at the first bit of the earliest item that breaks a
 * rule"; "the empty log passes". */
ind_answer ind_profile(const uint8_t *log, size_t log_len)
{
    item items[ITEMS_MAX];
    uint64_t bit = 0;
    ind_answer fault = log_fault(log, log_len);
    if (fault.number != 0)
        return fault;
    for (size_t n = 0;; n++) {
        uint64_t first_bit = bit;
        if (log_next(log, log_len, &bit, &items[n]) == STANDS_END)
            return passed();
        if (breaks_a_rule(items, n))
            return refused(18, first_bit);
    }
}
