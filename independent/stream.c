/* Document 02, K4: a capture as it arrives. What 02 leaves to choose, the layout of the state and the written test, is as docs/RULES.md,
 * "A capture as it arrives", has it. */
#include <string.h>

#include "rules.h"

#define PIECE_MAX 4096u                 /* "at most 4,096 a call" */
#define LOG_ROOM 12288u                 /* "less than 12,288 bytes lent for log" */
#define SIZE_MOST (UINT64_C(1) << 40)   /* "a capture may run to 2^40 bytes" */
#define GROUP_MOST 6144u                /* 3 x 512 x 4 */
#define NUMBERED 2048u                  /* the numbers of a group's words; no group has more words */

/* "the state holding less than one group, the unfinished item and bits, and the unanswered notices' places" */
typedef struct {
    enum { CLOSED, WORKING, FAILED } stage;
    ind_answer fault; /* failed: "the state then repeats the refusal" */
    plan p;
    uint64_t groups;     /* taken so far */
    uint32_t bits, last; /* the log's bits that are not yet a byte: how many, and which */
    held h;
    uint64_t since; /* where the first word of what is held is stored; if nothing is, the last data word */
    word words[4];  /* of what is held */
    uint64_t word_count;
    notices unanswered;
    uint64_t waiting;
    uint8_t group[GROUP_MOST]; /* the bytes that wait, less than a group */
} stream;

static uint64_t group_bytes(const plan *p)
{
    return 3 * group_words(p);
}

/* "bytes so far" */
static uint64_t taken(const stream *s)
{
    return s->groups * group_bytes(&s->p) + s->waiting;
}

/* ---- Words by their number, which rises in dealt order: the dealt word d of group g has the number g x 2,048 + d + 1 ---- */

static uint64_t number_of(uint64_t group, uint64_t dealt)
{
    return group * NUMBERED + dealt + 1;
}

static uint64_t stored_at(const plan *p, uint64_t number)
{
    return dealt_place(p, number / NUMBERED, number % NUMBERED - 1);
}

/* ---- The state as bytes: 101 numbers of eight bytes, zeros up to 1,024, the bytes that wait, zeros ---- */

enum {
    AT_STAGE = 0, AT_PLAN = 1, AT_BITS = 8, AT_LAST = 9, AT_GROUPS = 10, AT_SINCE = 11, AT_FAULT = 12, AT_PLACE = 13, AT_SECOND = 14,
    AT_WORD_COUNT = 15, AT_WORDS = 16, AT_KINDS = 20, AT_NOTICES = 36, AT_WAITING = 100, IN_FRONT = 101, WAITING_FROM = 1024
};

enum { STAMP_WORKING = 1025, STAMP_FAILED = 1026 }; /* the layout's version, 4, x 256, and the stage; a closed state is all zeros */

static uint64_t number_at(const uint8_t *state, uint32_t n)
{
    return time_from_bytes(state + 8 * n);
}

static void put_number(uint8_t *state, uint32_t n, uint64_t number)
{
    time_to_bytes(state + 8 * n, number);
}

static void save_working(const stream *s, uint8_t *state)
{
    const uint64_t choices[7] = {s->p.length, s->p.tracks, s->p.frame_time, s->p.crc, s->p.parity, s->p.crc_label, s->p.fill_bus};
    put_number(state, AT_STAGE, STAMP_WORKING);
    for (uint32_t n = 0; n < 7; n++)
        put_number(state, AT_PLAN + n, choices[n]);
    put_number(state, AT_BITS, s->bits);
    put_number(state, AT_LAST, s->last);
    put_number(state, AT_GROUPS, s->groups);
    put_number(state, AT_SINCE, s->since);
    put_number(state, AT_WORD_COUNT, s->word_count);
    for (uint32_t n = 0; n < s->word_count; n++)
        put_number(state, AT_WORDS + n, s->words[n].bus << 20 | s->words[n].label << 16 | s->words[n].information);
    for (uint32_t bus = 0; bus < 16; bus++) {
        put_number(state, AT_KINDS + bus, s->p.kinds[bus]);
        for (uint32_t channel = 0; channel < 4; channel++)
            put_number(state, AT_NOTICES + 4 * bus + channel, s->unanswered.waiting[bus][channel]);
    }
    put_number(state, AT_WAITING, s->waiting);
    memcpy(state + WAITING_FROM, s->group, s->waiting);
}

static void save(const stream *s, uint8_t *state)
{
    memset(state, 0, IND_STATE_BYTES);
    if (s->stage == WORKING)
        save_working(s, state);
    if (s->stage == FAILED) {
        put_number(state, AT_STAGE, STAMP_FAILED);
        put_number(state, AT_FAULT, s->fault.number);
        put_number(state, AT_PLACE, s->fault.place);
        put_number(state, AT_SECOND, s->fault.second);
    }
}

/* ---- "Which states fit together is one written test." ---- */

static bool zeros(const uint8_t *bytes, size_t from, size_t to)
{
    for (; from < to; from++)
        if (bytes[from] != 0)
            return false;
    return true;
}

static bool fits_plan(stream *s, const uint8_t *state)
{
    uint32_t choices[7];
    uint8_t kinds[16];
    for (uint32_t n = 0; n < 7; n++) {
        if (number_at(state, AT_PLAN + n) > UINT32_MAX)
            return false;
        choices[n] = (uint32_t)number_at(state, AT_PLAN + n);
    }
    for (uint32_t bus = 0; bus < 16; bus++) {
        if (number_at(state, AT_KINDS + bus) > BUS_ARINC)
            return false;
        kinds[bus] = (uint8_t)number_at(state, AT_KINDS + bus);
    }
    return plan_of(&s->p, choices[0], choices[1], choices[2], choices[3], choices[4], choices[5], choices[6], kinds, 16);
}

/* Less than a group waits, and not more than 2^40 bytes were taken; where nothing waits there are zeros. */
static bool fits_size(stream *s, const uint8_t *state)
{
    s->groups = number_at(state, AT_GROUPS);
    s->waiting = number_at(state, AT_WAITING);
    if (s->waiting >= group_bytes(&s->p) || s->groups > SIZE_MOST || taken(s) > SIZE_MOST)
        return false;
    memcpy(s->group, state + WAITING_FROM, s->waiting);
    return zeros(state, WAITING_FROM + s->waiting, IND_STATE_BYTES);
}

static bool fits_bits(stream *s, const uint8_t *state)
{
    if (number_at(state, AT_BITS) > 7 || number_at(state, AT_LAST) >> number_at(state, AT_BITS) != 0)
        return false;
    s->bits = (uint32_t)number_at(state, AT_BITS);
    s->last = (uint32_t)number_at(state, AT_LAST);
    return true;
}

/* The words are the first of one item, which they do not complete; its place is of the words read. */
static bool fits_held(stream *s, const uint8_t *state)
{
    log_writer none;
    log_begin(&none);
    s->since = number_at(state, AT_SINCE);
    s->word_count = number_at(state, AT_WORD_COUNT);
    if (s->word_count > 4 || (s->since != 0 && s->since >= s->groups * group_words(&s->p)))
        return false;
    for (uint32_t n = 0; n < 4; n++) {
        uint64_t bits = number_at(state, AT_WORDS + n);
        if (n >= s->word_count) {
            if (bits != 0)
                return false;
            continue;
        }
        if (bits > 0xFFFFFF)
            return false;
        s->words[n] = (word){(uint32_t)bits >> 20, (uint32_t)bits >> 16 & 15, (uint32_t)bits & 0xFFFF};
        if (!reader_feed(&s->h, &s->p, s->words[n], s->since, &none) || s->h.stage == NOTHING || none.bits != 0)
            return false;
    }
    return true;
}

/* Each is none, or the number of a data slot in the groups read, and its bus is ARINC. */
static bool fits_notices(stream *s, const uint8_t *state)
{
    for (uint32_t n = 0; n < 64; n++) {
        uint64_t number = number_at(state, AT_NOTICES + n), dealt = number % NUMBERED;
        s->unanswered.waiting[n / 4][n % 4] = number;
        if (number == 0)
            continue;
        if (s->p.kinds[n / 4] != BUS_ARINC || number >= s->groups * NUMBERED)
            return false;
        if (dealt <= furniture(&s->p) || dealt > furniture(&s->p) + group_slots(&s->p))
            return false;
    }
    return true;
}

static bool fits_working(stream *s, const uint8_t *state)
{
    s->stage = WORKING;
    return fits_plan(s, state) && fits_size(s, state) && fits_bits(s, state) && fits_held(s, state) && fits_notices(s, state)
           && zeros(state, 8 * AT_FAULT, 8 * (AT_SECOND + 1)) && zeros(state, 8 * IN_FRONT, WAITING_FROM);
}

/* A fault 9 to 13 or 15 at places that a capture has; "In every other answer the second place is 0." (K8); and nothing else. */
static bool fits_failed(stream *s, const uint8_t *state)
{
    uint64_t number = number_at(state, AT_FAULT), place = number_at(state, AT_PLACE), second = number_at(state, AT_SECOND);
    s->stage = FAILED;
    s->fault = (ind_answer){.number = (uint32_t)number, .place = place, .second = second};
    if (number < 9 || number > 15 || number == 14 || place > SIZE_MOST / 3 || second > (number == 13 ? SIZE_MOST / 3 : 0))
        return false;
    return zeros(state, 8 * AT_PLAN, 8 * AT_FAULT) && zeros(state, 8 * (AT_SECOND + 1), IND_STATE_BYTES);
}

/* Whether a call can work on the state: it passes the test and is not closed. */
static bool load(stream *s, const uint8_t *state, size_t state_len)
{
    memset(s, 0, sizeof *s);
    if (state_len != IND_STATE_BYTES)
        return false;
    if (number_at(state, AT_STAGE) == STAMP_WORKING)
        return fits_working(s, state);
    return number_at(state, AT_STAGE) == STAMP_FAILED && fits_failed(s, state);
}

/* ---- The log's bits as they come ---- */

static void take_up_bits(const stream *s, log_writer *made)
{
    log_begin(made);
    made->bits = s->bits;
    made->bytes[0] = (uint8_t)(s->last << (8 - s->bits));
}

static void leave_bits(stream *s, const log_writer *made)
{
    s->bits = (uint32_t)(made->bits % 8);
    s->last = s->bits == 0 ? 0 : made->bytes[made->bits / 8] >> (8 - s->bits);
}

/* ---- A group ---- */

/* A data word was taken: what is held now, by its words. */
static void note_words(stream *s, word w, uint64_t place)
{
    if (s->h.stage == NOTHING || s->h.first == place)
        s->word_count = 0;
    if (s->h.stage != NOTHING)
        s->words[s->word_count++] = w;
    s->since = s->h.stage == NOTHING ? place : s->h.first;
}

/* The group that is whole, "before the refused group": 9 to 12, then 13, then "15 last, when a second notice .. shows one open (in a group the
 * first shown ..)". */
static ind_answer take_group(stream *s, log_writer *made)
{
    tape c = {&s->p, s->group, 1};
    uint64_t words_before = s->groups * group_words(&s->p), shown = 0;
    ind_answer fault = group_fault(&c, 0);
    if (fault.number != 0)
        return refused(fault.number, words_before + fault.place);
    for (uint64_t slot = 0; slot < group_slots(&s->p); slot++) {
        uint64_t place = words_before + slot_place(&c, 0, slot), open;
        uint64_t first_word = reader_unfinished(&s->h) ? s->h.first : place;
        word w = word_at(&c, slot_place(&c, 0, slot));
        if (is_fill(w))
            continue;
        if (!reader_feed(&s->h, &s->p, w, place, made))
            return broken(place, first_word);
        note_words(s, w, place);
        open = notices_see(&s->unanswered, &s->p, w, number_of(s->groups, furniture(&s->p) + slot));
        if (shown == 0)
            shown = open;
    }
    return shown == 0 ? passed() : refused(15, stored_at(&s->p, shown));
}

/* "On a fault they are the whole bytes of the items complete before the refused group .., and the times of the groups before it". */
static void fill_group(stream *s, log_writer *made, uint8_t *times, uint64_t *time_count)
{
    uint64_t bits_before = made->bits;
    s->fault = take_group(s, made);
    if (s->fault.number != 0) {
        made->bits = bits_before;
        s->stage = FAILED;
        return;
    }
    if (s->p.frame_time) {
        tape c = {&s->p, s->group, 1};
        time_to_bytes(times + 8 * (*time_count)++, frame_time_of(&c, 0));
    }
    s->groups++;
    s->waiting = 0;
}

/* ---- The calls ---- */

ind_answer ind_stream_open(uint32_t words, uint32_t tracks, uint32_t frame_time, uint32_t crc, uint32_t parity, uint32_t crc_label,
                           uint32_t fill_bus, const uint8_t *kinds, size_t kinds_len, uint8_t *state, size_t state_len)
{
    stream s;
    memset(&s, 0, sizeof s);
    if (state_len != IND_STATE_BYTES)
        return refused(16, 0);
    /* "1 at the opening (the state is then closed)" */
    if (plan_of(&s.p, words, tracks, frame_time, crc, parity, crc_label, fill_bus, kinds, kinds_len))
        s.stage = WORKING;
    save(&s, state);
    return s.stage == WORKING ? passed() : refused(1, 0);
}

ind_answer ind_stream_feed(uint8_t *state, size_t state_len, const uint8_t *piece, size_t piece_len, uint8_t *log, size_t log_len,
                           uint8_t *times, size_t times_len)
{
    stream s;
    log_writer made;
    uint64_t time_count = 0;
    /* "16 first in the others (place 0), for a piece too long, less than 12,288 bytes lent for log, with frame time fewer lent entries than
     * the groups its bytes fill (none after a fault), a call after the close, or a state whose own numbers do not fit together" */
    if (!load(&s, state, state_len) || piece_len > PIECE_MAX || log_len < LOG_ROOM)
        return refused(16, 0);
    if (s.stage == WORKING && s.p.frame_time && times_len / 8 < (s.waiting + piece_len) / group_bytes(&s.p))
        return refused(16, 0);
    if (s.stage == FAILED)
        return s.fault;
    /* "8 when the size is crossed, that piece unread and the state unchanged" */
    if (taken(&s) + piece_len > SIZE_MOST)
        return refused(8, taken(&s));
    take_up_bits(&s, &made);
    for (size_t n = 0; n < piece_len && s.stage == WORKING; n++) {
        s.group[s.waiting++] = piece[n];
        if (s.waiting == group_bytes(&s.p))
            fill_group(&s, &made, times, &time_count);
    }
    leave_bits(&s, &made);
    save(&s, state);
    memcpy(log, made.bytes, made.bits / 8);
    /* "The call that meets a fault in a group still writes these": its lengths are theirs */
    return (ind_answer){.number = s.fault.number, .place = s.fault.place, .second = s.fault.second, .bytes = made.bits / 8, .times = time_count};
}

/* What ends the capture here, number 0 if nothing does: "8 .. at the close for a part group, before 13 (place: bytes so far); 15 last, when
 * .. the close shows one open (.. at the close the earliest)". An item that is finished and may yet be tagged is complete. */
static ind_answer end_of(stream *s, log_writer *made)
{
    uint64_t open = notices_earliest(&s->unanswered);
    if (s->stage == FAILED)
        return s->fault;
    if (s->waiting != 0)
        return refused(8, taken(s));
    if (!reader_end(&s->h, made))
        return broken(s->h.first, s->h.first);
    return open == 0 ? passed() : refused(15, stored_at(&s->p, open));
}

ind_answer ind_stream_close(uint8_t *state, size_t state_len, uint8_t *log, size_t log_len)
{
    stream s;
    log_writer made;
    ind_answer answer;
    if (!load(&s, state, state_len) || log_len < LOG_ROOM)
        return refused(16, 0);
    take_up_bits(&s, &made);
    answer = end_of(&s, &made);
    memset(state, 0, IND_STATE_BYTES); /* closed, whatever the answer is */
    if (answer.number != 0)
        return answer;
    answer.bytes = log_end(&made);
    memcpy(log, made.bytes, answer.bytes);
    return answer;
}
