/* vin_salvage (document 02, K10): captures that come back damaged, the account of every data word, and the plain reading beside it. */
#include <string.h>

#include "capture_calls.h"

enum { TIMES = MORE, ENTRIES = MORE + 1 };

/* ==== Damage ==== */

/* What a tape holds where nothing was recorded: zeros, ones, noise, or what stood before. */
static void drop_out(size_t at, size_t length)
{
    uint32_t kind = draw(4);
    for (size_t n = at; n < at + length && n < the_case.capture_len; n++) {
        if (kind == 0)
            the_case.capture[n] = 0;
        else if (kind == 1)
            the_case.capture[n] = 0xFF;
        else if (kind == 2)
            the_case.capture[n] = (uint8_t)draw(256);
        else
            the_case.capture[n] = n >= 3 ? the_case.capture[n - 3] : 0;
    }
}

static void flip_bit(size_t bit)
{
    if (bit / 8 < the_case.capture_len)
        the_case.capture[bit / 8] ^= (uint8_t)(0x80 >> bit % 8);
}

/* A few bits of some words that stand next to each other. */
static void burst(size_t bit)
{
    uint32_t span = 1 + draw(200);
    for (uint32_t n = 1 + draw(12); n > 0; n--)
        flip_bit(bit + draw(span));
}

/* A track's frame from some word on, of one group or of all from there on. */
static void lose_track(size_t at)
{
    size_t frame = 3 * (size_t)the_case.plan.words, group = frame * the_case.plan.tracks;
    size_t first = at / frame * frame + (one_in(2) ? 0 : 3 * draw(the_case.plan.words));
    uint32_t groups = one_in(2) ? 1 : 1 + draw(4);
    for (size_t from = first; groups > 0 && from < the_case.capture_len; from += group, groups--)
        drop_out(from, frame - (first - at / frame * frame));
}

/* A byte is lost: those behind it move up; the capture is not whole groups any more, or a byte comes behind it. */
static void lose_byte(size_t at)
{
    memmove(the_case.capture + at, the_case.capture + at + 1, the_case.capture_len - at - 1);
    if (one_in(2))
        the_case.capture_len--;
    else
        the_case.capture[the_case.capture_len - 1] = (uint8_t)draw(256);
}

/* Two groups change places, so that items are torn and nothing else is wrong. */
static void exchange_groups(size_t at, size_t other)
{
    size_t group = 3 * (size_t)the_case.plan.words * the_case.plan.tracks;
    at = at / group * group;
    other = other / group * group;
    for (size_t n = 0; n < group && at + n < the_case.capture_len && other + n < the_case.capture_len; n++) {
        uint8_t byte = the_case.capture[at + n];
        the_case.capture[at + n] = the_case.capture[other + n];
        the_case.capture[other + n] = byte;
    }
}

static void one_damage(void)
{
    size_t at = draw((uint32_t)the_case.capture_len), other = draw((uint32_t)the_case.capture_len);
    switch (draw(8)) {
    case 0: case 1: drop_out(at, 1 + draw(one_in(3) ? 2000 : 40)); break;
    case 2: burst(8 * at + draw(8)); break;
    case 3: lose_track(at); break;
    case 4: case 5: flip_bit(8 * at + draw(8)); break;
    case 6: exchange_groups(at, other); break;
    default:
        if (one_in(4))
            lose_byte(at);
    }
}

/* A capture of the case, damaged or not. */
static void draw_tape(void)
{
    draw_case();
    if (!the_case.legal || one_in(5))
        return;
    for (uint32_t n = one_in(4) ? draw(12) : 1 + draw(2); n > 0 && the_case.capture_len > 0; n--)
        one_damage();
}

/* ==== The call ==== */

static outcome library(const call *c, uint8_t *const at[])
{
    const lent_run *r = c->runs;
    vin_salvaged a;
    if (c->numbers[7] != 0 && r[0].length == 16) {
        vin_plan plan = plan_struct();
        a = vin_plan_salvage(&plan, null_for_none(c, at, 1), r[1].length, null_for_none(c, at, 2), r[2].length, null_for_none(c, at, 3),
                             r[3].length, null_for_none(c, at, 4), r[4].length / 8);
    } else
        a = vin_salvage(PLAN_NUMBERS(the_case.plan), at[0], r[0].length, at[1], r[1].length, at[2], r[2].length, at[3], r[3].length,
                        (uint64_t *)(void *)at[4], r[4].length / 8);
    return (outcome){{a.number, a.place, a.second, a.bytes, a.times, a.entries}};
}

static outcome independent(const call *c, uint8_t *const at[])
{
    const lent_run *r = c->runs;
    ind_salvaged a = ind_salvage(PLAN_NUMBERS(the_case.plan), at[0], r[0].length, at[1], r[1].length, at[2], r[2].length, at[3], r[3].length,
                                 (uint64_t *)(void *)at[4], r[4].length / 8);
    return (outcome){{a.number, a.place, a.second, a.bytes, a.times, a.entries}};
}

static outcome salvage(size_t log_len, size_t times_len, size_t report_len)
{
    call c = {{KINDS_RUN,
               {READ_ONLY, the_case.capture, the_case.capture_len, 0, 0},
               {ROOM, NULL, log_len, BYTES, 1},
               {ROOM, NULL, times_len, TIMES, 8},
               {ROOM, NULL, 8 * report_len, ENTRIES, 8}},
              5,
              {PLAN_NUMBERS(the_case.plan), draw(2)},
              library,
              independent};
    return compare(&c);
}

/* With room for all that can be; then with rooms around what is needed, two of three exact or more. */
static void salvage_with_rooms(void)
{
    const drawn_plan *p = &the_case.plan;
    size_t groups = 1, most = 10, bytes, times, entries;
    outcome o;
    if (the_case.legal) {
        groups = VIN_READ_GROUPS(the_case.capture_len, p->words, p->tracks);
        most = VIN_REPORT_ENTRIES(the_case.capture_len, p->words, p->tracks, p->frame_time, p->crc);
    }
    o = salvage(VIN_LOG_MAX, 8 * groups, most);
    if (o.of[NUMBER] == VIN_ROOM) /* a log above the limit, whatever is lent */
        salvage((size_t)o.of[PLACE] + draw(2), 8 * groups, most);
    if (o.of[NUMBER] != VIN_DONE)
        return;
    bytes = (size_t)o.of[BYTES];
    times = 8 * (size_t)o.of[TIMES];
    entries = (size_t)o.of[ENTRIES];
    switch (draw(4)) {
    case 0: salvage(draw_near(bytes, bytes + 100), times + draw(9), entries); break;
    case 1: salvage(bytes, draw_near(times, times + 20), entries + draw(2)); break;
    case 2: salvage(bytes + draw(2), times, draw_near(entries, entries + 20)); break;
    default: salvage(draw_near(bytes, bytes + 100), draw_near(times, times + 20), draw_near(entries, entries + 20)); break;
    }
}

static void salvage_case(void)
{
    draw_tape();
    salvage_with_rooms();
}

/* "Refusals: 1, 8, then 6, 7, then 20" */
const compared salvage_function = {"salvage", "yy....yyy...........y", salvage_case};

/* ==== Dropouts ==== */

/* Of every length at every place of a small capture, in words, counted through by the case's number; two groups of one track. */
enum { SMALL_WORDS = 256, SMALL_DROPOUTS = SMALL_WORDS * (SMALL_WORDS + 1) / 2 };

static void dropouts_case(void)
{
    size_t place = 0, length = (size_t)(case_number() % SMALL_DROPOUTS), ragged = one_in(2) ? draw(3) : 0;
    for (; length >= SMALL_WORDS - place; place++)
        length -= SMALL_WORDS - place;
    do
        draw_plan(&the_case);
    while (!the_case.legal);
    the_case.plan.words = SMALL_WORDS / 2;
    the_case.plan.tracks = 1;
    draw_loose_groups(&the_case, 2);
    drop_out(3 * place + ragged, 3 * (length + 1) - (ragged > 0 ? draw(3) : 0));
    salvage_with_rooms();
}

const compared dropouts_function = {"dropouts", "y.....yy............y", dropouts_case};

/* ==== The account ==== */

static uint8_t log_made[VIN_LOG_MAX], log_read[VIN_LOG_MAX], times_made[8 * VIN_READ_GROUPS_MAX], times_read[8 * VIN_READ_GROUPS_MAX];
static uint64_t report[VIN_WORDS_MAX];

/* The words of the log's items, one by one. */
static struct {
    size_t length;
    uint64_t bit;
    word words[ITEM_WORDS_MAX];
    uint32_t count, taken;
} items;

static bool next_word(word *w)
{
    item i;
    if (items.taken == items.count) {
        if (log_next(log_made, items.length, &items.bit, &i) != STANDS_ITEM)
            return false;
        items.count = item_words(&i, items.words);
        items.taken = 0;
    }
    *w = items.words[items.taken++];
    return true;
}

/* A group's data words: each is the report's next entry, or the next word of the log's items. */
static void account_group(const tape *c, uint64_t group, uint64_t *entry, uint64_t entries)
{
    for (uint64_t slot = 0; slot < group_slots(c->p); slot++) {
        uint64_t place = slot_place(c, group, slot);
        word w = word_at(c, place), of_item;
        if (is_fill(w))
            continue;
        if (*entry < entries && report[*entry] == place)
            ++*entry;
        else if (!next_word(&of_item) || of_item.bus != w.bus || of_item.label != w.label || of_item.information != w.information)
            law_broken("a data word is in one item, one report entry or a reported group");
    }
}

/* "Every data word is in one item, one report entry or a reported group", in dealt order; no item has words on both sides of a dropped group;
 * "The time row has the kept groups only." */
static void account(const tape *c, vin_salvaged a)
{
    uint64_t entry = 0, kept = 0;
    word w;
    items.length = (size_t)a.bytes;
    items.bit = items.count = items.taken = 0;
    for (uint64_t group = 0; group < c->groups; group++) {
        uint32_t number = group_fault(c, group).number;
        if (entry < a.entries && VIN_ENTRY_NUMBER(report[entry]) != 0 && VIN_ENTRY_INDEX(report[entry]) == group) {
            if (number != VIN_ENTRY_NUMBER(report[entry++]))
                law_broken("a group is reported with its fault's number");
            if (items.taken != items.count)
                law_broken("no item has words on both sides of a dropped group");
            continue;
        }
        if (number != 0)
            law_broken("a group with a fault 9 to 12 is reported");
        if (c->p->frame_time && time_from_bytes(times_made + 8 * kept) != frame_time_of(c, group))
            law_broken("the time row has the kept groups only");
        kept++;
        account_group(c, group, &entry, a.entries);
    }
    if (entry != a.entries || next_word(&w))
        law_broken("nothing is reported or kept twice");
    if (a.times != (c->p->frame_time ? kept : 0))
        law_broken("a time for each kept group");
}

/* "A capture that plain reading accepts gives the same log and an empty report." An open notice alone changes nothing; and nothing is
 * dropped of no other capture. */
static void as_plain(vin_salvaged a)
{
    vin_answer plain = vin_read_full(PLAN_NUMBERS(the_case.plan), the_case.plan.kinds, 16, the_case.capture, the_case.capture_len, log_read,
                                     sizeof log_read, times_read, sizeof times_read);
    if ((plain.number == VIN_DONE || plain.number == VIN_NOTICE) != (a.entries == 0))
        law_broken("the report is empty where plain reading accepts but for open notices");
    if (plain.number == VIN_DONE && (plain.bytes != a.bytes || plain.times != a.times || memcmp(log_made, log_read, (size_t)a.bytes) != 0
                                     || memcmp(times_made, times_read, 8 * (size_t)a.times) != 0))
        law_broken("what plain reading accepts is salvaged to the same log and times");
}

static void account_case(void)
{
    vin_salvaged a;
    plan p;
    tape c;
    draw_tape();
    a = vin_salvage(PLAN_NUMBERS(the_case.plan), the_case.plan.kinds, the_case.plan.kinds_len, the_case.capture, the_case.capture_len,
                    log_made, sizeof log_made, times_made, sizeof times_made, report, VIN_WORDS_MAX);
    law_answered(a.number);
    if (a.number != VIN_DONE)
        return;
    plan_of(&p, PLAN_NUMBERS(the_case.plan), the_case.plan.kinds, the_case.plan.kinds_len);
    capture_of(&c, &p, the_case.capture, the_case.capture_len);
    account(&c, a);
    as_plain(a);
}

const compared account_function = {"account", "yy....y.y", account_case};
