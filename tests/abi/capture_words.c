/* vin_read_words and vin_read_items (document 02, K3): each by itself, and that a reading is the one and then the other. */
#include <string.h>

#include "capture_calls.h"

enum { ROW_MOST = 349525 };

/* ==== The first half ==== */

static outcome words_library(const call *c, uint8_t *const at[])
{
    const lent_run *r = c->runs;
    if (c->numbers[7] != 0 && r[0].length == 16) {
        vin_plan plan = plan_struct();
        return outcome_of(vin_plan_read_words(&plan, null_for_none(c, at, 1), r[1].length, null_for_none(c, at, 2), r[2].length / 4,
                                              null_for_none(c, at, 3), r[3].length));
    }
    return outcome_of(vin_read_words(PLAN_NUMBERS(the_case.plan), at[0], r[0].length, at[1], r[1].length, (uint32_t *)(void *)at[2],
                                     r[2].length / 4, at[3], r[3].length));
}

static outcome words_independent(const call *c, uint8_t *const at[])
{
    const lent_run *r = c->runs;
    return outcome_of_independent(ind_read_words(PLAN_NUMBERS(the_case.plan), at[0], r[0].length, at[1], r[1].length,
                                                 (uint32_t *)(void *)at[2], r[2].length / 4, at[3], r[3].length));
}

static outcome read_words(size_t room, size_t times_len)
{
    call c = {{KINDS_RUN,
               {READ_ONLY, the_case.capture, the_case.capture_len, 0, 0},
               {ROOM, NULL, 4 * room, BYTES, 4},
               {ROOM, NULL, times_len, MORE, 8}},
              4,
              {PLAN_NUMBERS(the_case.plan), draw(2)},
              words_library,
              words_independent};
    return compare(&c);
}

/* Without room, to learn what is needed; then with rooms around it. */
static void words_case(void)
{
    outcome o;
    size_t needed, groups = VIN_READ_GROUPS_MAX;
    draw_case();
    o = read_words(one_in(20) ? ROW_MOST : 0, 8 * VIN_READ_GROUPS_MAX);
    if (o.of[NUMBER] != VIN_DONE && o.of[NUMBER] != VIN_ROOM)
        return;
    needed = (size_t)(o.of[NUMBER] == VIN_ROOM ? o.of[PLACE] : o.of[BYTES]);
    if (the_case.legal)
        groups = the_case.plan.frame_time ? VIN_READ_GROUPS(the_case.capture_len, the_case.plan.words, the_case.plan.tracks) : 0;
    read_words(draw_near(needed, needed + 1000), draw_near(8 * groups, 8 * groups + 20));
}

/* "the first gives 1, 8 to 12, then 6 .., then 7" */
const compared read_words_function = {"read_words", "yy....yyyyyyy", words_case};

/* ==== The second half ==== */

static uint32_t row[ROW_MOST + 2];
static size_t row_len;

/* The dealt words of the case's capture, whatever their faults. */
static void row_of_capture(void)
{
    plan p;
    tape c;
    row_len = 0;
    if (!plan_of(&p, PLAN_NUMBERS(the_case.plan), the_case.plan.kinds, the_case.plan.kinds_len))
        return;
    capture_of(&c, &p, the_case.capture, the_case.capture_len);
    for (uint64_t group = 0; group < c.groups; group++)
        for (uint64_t slot = 0; slot < group_slots(&p) && row_len < ROW_MOST; slot++)
            row[row_len++] = stored(c.bytes, slot_place(&c, group, slot));
}

/* Words with any bit of 24 or of 32 changed, doubled, left out; the row cut anywhere. */
static void change_row(void)
{
    for (uint32_t n = one_in(2) ? 0 : draw(4); n > 0 && row_len > 0; n--) {
        size_t at = draw((uint32_t)row_len), from = draw((uint32_t)row_len);
        switch (draw(5)) {
        case 0: row[at] ^= 1u << draw(32); break;
        case 1: row[at] ^= 1u << draw(24); break;
        case 2: row[at] = row[from]; break;
        case 3: row[at] |= 1u << (24 + draw(8)); break;
        default: memmove(row + at, row + at + 1, 4 * (--row_len - at)); break;
        }
    }
    if (the_case.plan.parity == 1 && one_in(2)) /* of which no notice is taken */
        for (size_t n = 0; n < row_len; n++)
            row[n] ^= one_in(2) ? 0x800000 : 0;
    if (one_in(3))
        row_len = draw((uint32_t)row_len + 1);
    else if (row_len > 0 && one_in(8))
        row_len--;
}

/* Fill up to the most words that are taken, or one more. */
static void longest_row(void)
{
    size_t most = ROW_MOST + draw(2);
    while (row_len < most)
        row[row_len++] = 0x01AAAA;
}

static outcome items_library(const call *c, uint8_t *const at[])
{
    const lent_run *r = c->runs;
    if (c->numbers[7] != 0 && r[0].length == 16) {
        vin_plan plan = plan_struct();
        return outcome_of(vin_plan_read_items(&plan, null_for_none(c, at, 1), r[1].length / 4, null_for_none(c, at, 2), r[2].length));
    }
    return outcome_of(vin_read_items(PLAN_NUMBERS(the_case.plan), at[0], r[0].length, (const uint32_t *)(const void *)at[1],
                                     r[1].length / 4, at[2], r[2].length));
}

static outcome items_independent(const call *c, uint8_t *const at[])
{
    const lent_run *r = c->runs;
    return outcome_of_independent(ind_read_items(PLAN_NUMBERS(the_case.plan), at[0], r[0].length, (const uint32_t *)(const void *)at[1],
                                                 r[1].length / 4, at[2], r[2].length));
}

static outcome read_items(size_t room)
{
    call c = {{KINDS_RUN, {READ_ONLY, (const uint8_t *)row, 4 * row_len, 0, 0}, {ROOM, NULL, room, BYTES, 1}},
              3,
              {PLAN_NUMBERS(the_case.plan), draw(2)},
              items_library,
              items_independent};
    return compare(&c);
}

static void items_case(void)
{
    outcome o;
    draw_case();
    row_of_capture();
    change_row();
    if (one_in(1000))
        longest_row();
    o = read_items(one_in(2) ? VIN_LOG_MAX : 0);
    if (o.of[NUMBER] == VIN_DONE || o.of[NUMBER] == VIN_ROOM)
        read_items(draw_near(o.of[NUMBER] == VIN_ROOM ? o.of[PLACE] : o.of[BYTES], VIN_LOG_MAX + 100));
}

/* "the second gives 1, 8 .., 13 .., 15, 6" */
const compared read_items_function = {"read_items", "yy....y.y....y.y", items_case};

/* ==== Both ==== */

/* Where a word of the row is stored. */
static uint64_t stored_at(const plan *p, uint64_t word)
{
    return dealt_place(p, word / group_slots(p), furniture(p) + word % group_slots(p));
}

/* "Where the first gives one of 9 to 12, plain reading gives the same, or a 13 in an earlier group": a word that is no item's, in the
 * groups before. Behind these groups stands a number that is no word, so that no item is cut there: 13 at it is none in them. */
static vin_answer bad_word_before(const plan *p, vin_answer fault, const uint8_t *kinds, const uint8_t *capture)
{
    static uint8_t log[VIN_LOG_MAX];
    size_t groups = (size_t)(fault.place / group_words(p)), words = groups * (size_t)group_slots(p);
    vin_answer bad;
    static uint8_t times[8 * VIN_READ_GROUPS_MAX];
    vin_read_words(PLAN_NUMBERS(the_case.plan), kinds, 16, capture, groups * 3 * (size_t)group_words(p), row, ROW_MOST, times, sizeof times);
    row[words] = 0x1000000;
    bad = vin_read_items(PLAN_NUMBERS(the_case.plan), kinds, 16, row, words + 1, log, sizeof log);
    if (bad.place == words)
        return fault;
    bad.place = stored_at(p, bad.place);
    bad.second = stored_at(p, bad.second);
    return bad;
}

/* The plain reading, of the two halves alone. */
static vin_answer by_halves(const call *c, uint8_t *const at[])
{
    static uint8_t log[VIN_LOG_MAX], times[8 * VIN_READ_GROUPS_MAX];
    const lent_run *r = c->runs;
    plan p;
    vin_answer words = vin_read_words(PLAN_NUMBERS(the_case.plan), at[0], r[0].length, at[1], r[1].length, row, ROW_MOST, times, sizeof times);
    vin_answer items;
    if (words.number == VIN_PLAN || words.number == VIN_CAPTURE)
        return words;
    plan_of(&p, PLAN_NUMBERS(the_case.plan), the_case.plan.kinds, 16);
    if (words.number != VIN_DONE)
        return bad_word_before(&p, words, at[0], at[1]);
    items = vin_read_items(PLAN_NUMBERS(the_case.plan), at[0], r[0].length, row, (size_t)words.bytes, log,
                           r[2].length < sizeof log ? r[2].length : sizeof log);
    if (items.number == VIN_DATA_WORD || items.number == VIN_NOTICE)
        items.place = stored_at(&p, items.place);
    if (items.number == VIN_DATA_WORD)
        items.second = stored_at(&p, items.second);
    if (items.number != VIN_DONE)
        return items;
    if (r[3].length / 8 < words.times)
        return (vin_answer){VIN_TIME_ROOM, words.times, 0, 0, 0};
    memcpy(at[2], log, (size_t)items.bytes);
    memcpy(at[3], times, 8 * (size_t)words.times);
    items.times = words.times;
    return items;
}

static outcome halves_together(const call *c, uint8_t *const at[])
{
    return outcome_of(by_halves(c, at));
}

static outcome plain_reading(const call *c, uint8_t *const at[])
{
    const lent_run *r = c->runs;
    return outcome_of(vin_read_full(PLAN_NUMBERS(the_case.plan), at[0], r[0].length, at[1], r[1].length, at[2], r[2].length, at[3],
                                    r[3].length));
}

static void halves_case(void)
{
    call c;
    draw_case();
    c = (call){{KINDS_RUN,
                {READ_ONLY, the_case.capture, the_case.capture_len, 0, 0},
                {ROOM, NULL, one_in(4) ? draw(3000) : VIN_LOG_MAX, BYTES, 1},
                {ROOM, NULL, one_in(8) ? draw(9) : 8 * VIN_READ_GROUPS_MAX, MORE, 8}},
               4,
               {PLAN_NUMBERS(the_case.plan)},
               halves_together,
               plain_reading};
    compare(&c);
}

/* "Plain .. reading keep[s] every answer." */
const compared halves_function = {"halves", "yy....yyyyyyyy.y", halves_case};
