/* vin_stream_open, vin_stream_feed and vin_stream_close (document 02, K4): captures cut in several ways, each call compared, the state after
 * it byte by byte; states that are twisted; and that all cuttings hand out the same. */
#include <string.h>

#include "capture_calls.h"

/* The state between two calls, as the library left it. */
static uint8_t state[VIN_STATE_BYTES + 1];

/* ==== The calls ==== */

static outcome open_library(const call *c, uint8_t *const at[])
{
    const lent_run *r = c->runs;
    outcome o;
    if (c->numbers[7] != 0 && r[0].length == 16) {
        vin_plan plan = plan_struct();
        o = outcome_of(vin_plan_stream_open(&plan, null_for_none(c, at, 1), r[1].length));
    } else
        o = outcome_of(vin_stream_open(PLAN_NUMBERS(the_case.plan), at[0], r[0].length, at[1], r[1].length));
    memcpy(state, at[1], r[1].length);
    return o;
}

static outcome open_independent(const call *c, uint8_t *const at[])
{
    const lent_run *r = c->runs;
    return outcome_of_independent(ind_stream_open(PLAN_NUMBERS(the_case.plan), at[0], r[0].length, at[1], r[1].length));
}

static outcome open_state(size_t state_len)
{
    call c = {{KINDS_RUN, {STATE, state, state_len, 0, 0}}, 2, {PLAN_NUMBERS(the_case.plan), draw(2)}, open_library, open_independent};
    return compare(&c);
}

static outcome feed_library(const call *c, uint8_t *const at[])
{
    const lent_run *r = c->runs;
    outcome o = outcome_of(c->numbers[0] != 0 ? vin_plan_stream_feed(null_for_none(c, at, 0), r[0].length, null_for_none(c, at, 1), r[1].length,
                                                                     null_for_none(c, at, 2), r[2].length, null_for_none(c, at, 3), r[3].length)
                                              : vin_stream_feed(at[0], r[0].length, at[1], r[1].length, at[2], r[2].length, at[3], r[3].length));
    memcpy(state, at[0], r[0].length);
    return o;
}

static outcome feed_independent(const call *c, uint8_t *const at[])
{
    const lent_run *r = c->runs;
    return outcome_of_independent(ind_stream_feed(at[0], r[0].length, at[1], r[1].length, at[2], r[2].length, at[3], r[3].length));
}

static outcome feed(size_t state_len, const uint8_t *piece, size_t piece_len, size_t log_len, size_t times_len)
{
    call c = {{{STATE, state, state_len, 0, 0},
               {READ_ONLY, piece, piece_len, 0, 0},
               {ROOM, NULL, log_len, BYTES, 1},
               {ROOM, NULL, times_len, MORE, 8}},
              4,
              {draw(2)},
              feed_library,
              feed_independent};
    return compare(&c);
}

static outcome close_library(const call *c, uint8_t *const at[])
{
    const lent_run *r = c->runs;
    outcome o = outcome_of(c->numbers[0] != 0
                               ? vin_plan_stream_close(null_for_none(c, at, 0), r[0].length, null_for_none(c, at, 1), r[1].length)
                               : vin_stream_close(at[0], r[0].length, at[1], r[1].length));
    memcpy(state, at[0], r[0].length);
    return o;
}

static outcome close_independent(const call *c, uint8_t *const at[])
{
    const lent_run *r = c->runs;
    return outcome_of_independent(ind_stream_close(at[0], r[0].length, at[1], r[1].length));
}

static outcome close_state(size_t state_len, size_t log_len)
{
    call c = {{{STATE, state, state_len, 0, 0}, {ROOM, NULL, log_len, BYTES, 1}}, 2, {draw(2)}, close_library, close_independent};
    return compare(&c);
}

/* A room that is enough, mostly just so. */
static size_t log_room(void)
{
    return VIN_STREAM_LOG_ROOM + (one_in(4) ? draw(100) : 0);
}

static size_t group_size(void)
{
    size_t bytes = VIN_GROUP_BYTES(the_case.plan.words, the_case.plan.tracks);
    return bytes == 0 ? 3 : bytes; /* of a plan that is refused, too */
}

/* ==== Opening ==== */

/* The state may hold anything before. */
static void spoil_state(void)
{
    uint8_t with = (uint8_t)draw(256);
    for (size_t n = 0; n < sizeof state; n++)
        state[n] = with;
}

static void open_case(void)
{
    draw_plan(&the_case);
    spoil_state();
    open_state(one_in(8) ? draw_near(VIN_STATE_BYTES, VIN_STATE_BYTES + 1) : VIN_STATE_BYTES);
    if (one_in(4)) /* and again, over what the first has left */
        open_state(VIN_STATE_BYTES);
}

/* "1 at the opening"; 16 for a state run of another length */
const compared stream_open_function = {"stream_open", "yy..............y", open_case};

/* ==== Feeding ==== */

/* How a capture is cut: the length of the piece that begins at a byte of it. */
static struct {
    enum { PIECES_MOST, PIECES_DRAWN, PIECES_OF_GROUPS, EDGES, SINGLE_BYTES, CUTS } way;
    size_t size, from, to; /* of SINGLE_BYTES: where a byte a call is fed */
} cut;

enum { SINGLES = 24 };

static void draw_cut(size_t total)
{
    size_t group = group_size();
    cut.way = draw(CUTS);
    cut.size = one_in(2) ? 1 + draw(VIN_PIECE_MAX) : group - 1 + draw(3);
    cut.from = draw((uint32_t)total + 1);
    if (one_in(2) && cut.from >= group) /* before a group's edge */
        cut.from = cut.from / group * group - draw(SINGLES / 2);
    cut.to = cut.from + SINGLES;
    if (total <= 2 * group && one_in(40)) /* the whole of a small capture */
        cut.from = 0, cut.to = total;
}

static size_t to_place(size_t at, size_t place)
{
    return place > at && place - at < VIN_PIECE_MAX ? place - at : VIN_PIECE_MAX;
}

static size_t length_at(size_t at)
{
    size_t group = group_size(), before = group - at % group; /* up to the next edge */
    switch (cut.way) {
    case PIECES_DRAWN: return draw(cut.size + 1);
    case PIECES_OF_GROUPS: return cut.size;
    case EDGES: return before <= 4 || (at >= group && at % group < 4) ? 1 : to_place(at, at + before - 4);
    case SINGLE_BYTES: return at >= cut.from && at < cut.to ? 1 : to_place(at, cut.from);
    default: return VIN_PIECE_MAX;
    }
}

static size_t piece_at(size_t at)
{
    size_t length = length_at(at);
    if (length == 0 && one_in(2))
        length = VIN_PIECE_MAX; /* not too many that are empty */
    if (length > VIN_PIECE_MAX)
        length = VIN_PIECE_MAX;
    return length < the_case.capture_len - at ? length : the_case.capture_len - at;
}

/* The groups that a piece fills, and so the frame times that it needs. */
static size_t times_for(size_t at, size_t length)
{
    return the_case.plan.frame_time == 1 ? (at % group_size() + length) / group_size() : 0;
}

/* A call that is refused by 16, or needs no more than it has; the state stays as it was if it is. */
static void try_refused(size_t at, bool fault)
{
    static uint8_t before[VIN_STATE_BYTES];
    size_t length = piece_at(at), times = times_for(at, length);
    outcome o;
    memcpy(before, state, sizeof before);
    switch (draw(7)) {
    case 0: o = feed(VIN_STATE_BYTES, the_case.capture, VIN_PIECE_MAX + 1 + (one_in(4) ? draw(3000) : 0), log_room(), 8 * 30); break;
    case 1: o = feed(VIN_STATE_BYTES, the_case.capture + at, length, one_in(2) ? VIN_STREAM_LOG_ROOM - 1 : draw(VIN_STREAM_LOG_ROOM), 8 * times); break;
    case 2: o = feed(VIN_STATE_BYTES - 1, the_case.capture + at, length, log_room(), 8 * times); break;
    case 3: o = feed(one_in(2) ? VIN_STATE_BYTES + 1 : draw(VIN_STATE_BYTES), the_case.capture + at, length, log_room(), 8 * times); break;
    case 4: o = close_state(VIN_STATE_BYTES, one_in(2) ? VIN_STREAM_LOG_ROOM - 1 : draw(VIN_STREAM_LOG_ROOM)); break;
    case 5: o = close_state(one_in(2) ? VIN_STATE_BYTES - 1 : VIN_STATE_BYTES + 1, log_room()); break;
    default:
        if (times == 0 || fault)
            return;
        o = feed(VIN_STATE_BYTES, the_case.capture + at, length, log_room(), 8 * times - 1 - (one_in(4) ? draw(8 * (uint32_t)times) : 0));
    }
    if (o.of[NUMBER] != VIN_STREAM || memcmp(state, before, sizeof before) != 0)
        law_broken("what is not as it must be is 16, and the state is unchanged");
}

/* The piece at a byte, fed; whether it met a fault. */
static bool feed_piece(size_t at, size_t length)
{
    size_t times = times_for(at, length);
    return feed(VIN_STATE_BYTES, the_case.capture + at, length, log_room(), 8 * times + (one_in(4) ? draw(20) : 0)).of[NUMBER] != VIN_DONE;
}

/* The case's capture from a byte on, cut as drawn; after a fault a few calls more. */
static void feed_from(size_t at)
{
    uint32_t after = 0;
    while (at < the_case.capture_len && after < 3) {
        size_t length = piece_at(at);
        if (one_in(12))
            try_refused(at, after > 0);
        if (after > 0) /* "none after a fault" */
            feed(VIN_STATE_BYTES, the_case.capture + at, length, log_room(), draw(20));
        if (after > 0 || feed_piece(at, length))
            after++;
        at += length;
    }
}

static void after_close(void)
{
    if (one_in(2))
        feed(VIN_STATE_BYTES, the_case.capture, draw(10), log_room(), 8);
    close_state(VIN_STATE_BYTES, log_room());
}

/* A word in the place of fill, at a data slot; the CRC word of its frame is right again. */
static void put_for_fill(const tape *c, uint64_t group, uint64_t slot, word w)
{
    uint64_t place = slot_place(c, group, slot), frame = place / c->p->length * c->p->length;
    if (!is_fill(word_at(c, place)))
        return;
    store(the_case.capture, place, sent(c->p, w));
    if (c->p->crc)
        store(the_case.capture, frame + c->p->length - 1, crc_word(c->p, the_case.capture + 3 * frame));
}

/* Notices of a few channels, so that some are open; and, as the capture's last word, one that begins an item. */
static void add_words(void)
{
    plan p;
    tape c;
    uint32_t bus = draw(16), channels = 1 + draw(4);
    if (!plan_of(&p, PLAN_NUMBERS(the_case.plan), the_case.plan.kinds, the_case.plan.kinds_len))
        return;
    for (uint32_t n = 0; n < 16 && p.kinds[bus] != BUS_ARINC; n++)
        bus = (bus + 1) % 16;
    if (p.kinds[bus] != BUS_ARINC || !capture_of(&c, &p, the_case.capture, the_case.capture_len) || c.groups == 0)
        return;
    for (uint32_t n = 1 + draw(6); n > 0; n--) {
        uint64_t group = draw((uint32_t)c.groups), slot = draw((uint32_t)group_slots(&p));
        uint32_t channel = draw(channels);
        put_for_fill(&c, group, slot, (word){bus, LABEL_NOTICE, high_label(channel) << 12 | low_label(channel) << 8 | draw(256)});
    }
    if (one_in(3))
        put_for_fill(&c, c.groups - 1, group_slots(&p) - 1, (word){bus, high_label(draw(4)), draw(65536)});
}

/* Long captures are for the tool's tests. */
static void draw_short_case(void)
{
    draw_case();
    if (one_in(the_case.plan.tracks > 1 ? 2 : 4))
        add_words();
    if (the_case.legal && the_case.capture_len > 16000)
        the_case.capture_len = one_in(2) ? 16000 / group_size() * group_size() : 16000;
}

static void feed_case(void)
{
    draw_short_case();
    open_state(VIN_STATE_BYTES);
    if (!the_case.legal) {
        after_close();
        return;
    }
    draw_cut(the_case.capture_len);
    feed_from(0);
    if (one_in(4))
        try_refused(the_case.capture_len, true);
    close_state(VIN_STATE_BYTES, log_room());
    if (one_in(4))
        after_close();
}

/* "16 first in the others"; the fault; 8; 9 to 13; 15; and at the end the close's */
const compared stream_feed_function = {"stream_feed", "yy......yyyyyy.yy", feed_case};

/* ==== Closing ==== */

/* Fed to a capture's end, or to some byte of it, by the library alone. */
static void feed_unseen(size_t total)
{
    static uint8_t log[VIN_STREAM_LOG_ROOM], times[8 * VIN_STREAM_TIMES_MAX];
    size_t length;
    vin_stream_open(PLAN_NUMBERS(the_case.plan), the_case.plan.kinds, the_case.plan.kinds_len, state, VIN_STATE_BYTES);
    for (size_t at = 0; at < total; at += length) {
        length = total - at < VIN_PIECE_MAX ? total - at : VIN_PIECE_MAX;
        vin_stream_feed(state, VIN_STATE_BYTES, the_case.capture + at, length, log, sizeof log, times, sizeof times);
    }
}

static void close_case(void)
{
    size_t total;
    draw_short_case();
    total = the_case.capture_len;
    if (the_case.legal && one_in(3)) /* whole groups, so that items are cut, or not */
        total = draw((uint32_t)(total / group_size()) + 1) * group_size();
    else if (one_in(4))
        total = draw((uint32_t)total + 1);
    feed_unseen(total);
    if (one_in(4))
        try_refused(0, true);
    close_state(VIN_STATE_BYTES, log_room());
    if (one_in(8))
        close_state(VIN_STATE_BYTES, log_room());
}

/* 16; the fault; 8; 13; 15 */
const compared stream_close_function = {"stream_close", "y.......yyyyyy.yy", close_case};

/* ==== Twisted states ==== */

/* Where the state's numbers stand (docs/RULES.md). */
enum {
    AT_STAGE = 0, AT_PLAN = 1, AT_BITS = 8, AT_LAST = 9, AT_GROUPS = 10, AT_SINCE = 11, AT_FAULT = 12, AT_PLACE = 13, AT_SECOND = 14,
    AT_WORD_COUNT = 15, AT_WORDS = 16, AT_KINDS = 20, AT_NOTICES = 36, AT_WAITING = 100, AT_BYTES = 1024
};

static uint64_t number(size_t n)
{
    return time_from_bytes(state + 8 * n);
}

static void set_number(size_t n, uint64_t value)
{
    time_to_bytes(state + 8 * n, value);
}

/* That number, one less or one more. */
static uint64_t around(uint64_t value)
{
    return value - 1 + draw(3);
}

/* The words of an item that is not complete, on that bus; how many. */
static uint32_t draw_held(uint32_t bus, uint32_t row[4])
{
    uint32_t count = 0, label = 9 + 2 * draw(4), times = draw(3), at = bus << 20;
    if (number(AT_KINDS + bus) == VIN_KIND_ARINC) {
        row[count++] = at | label << 16 | draw(65536);
        if (one_in(4))
            return count;
        row[count++] = at | (label - 1) << 16 | draw(65536);
    } else {
        if (one_in(3)) {
            row[count++] = at | LABEL_RESPONSE << 16 | (one_in(2) ? 9999 + draw(2) : draw(9999));
            return count;
        }
        row[count++] = at | (one_in(2) ? 15 : 11) << 16 | draw(65536);
    }
    for (uint32_t n = 0; n < times; n++)
        row[count++] = at | (LABEL_HIGH - n) << 16 | draw(65536);
    return count;
}

/* Of such words, or of these with something wrong: a bit, a label, their number, one too many. */
static void twist_held(void)
{
    uint32_t bus = draw(16), row[4] = {0}, count, which;
    for (uint32_t n = 0; n < 16 && number(AT_KINDS + bus) == VIN_KIND_UNUSED; n++)
        bus = (bus + 1) % 16;
    count = draw_held(bus, row);
    for (uint32_t n = 0; n < 4; n++)
        set_number(AT_WORDS + n, n < count ? row[n] : 0);
    set_number(AT_WORD_COUNT, count);
    which = AT_WORDS + draw(one_in(4) ? 4 : count);
    switch (draw(10)) {
    case 0: set_number(which, number(which) ^ UINT64_C(1) << draw(64)); break;
    case 1: set_number(which, number(which) ^ UINT64_C(1) << (16 + draw(8))); break;
    case 2: set_number(which, number(which) | UINT64_C(1) << (24 + draw(8))); break;
    case 3: set_number(AT_WORD_COUNT, around(count)); break;
    case 4: if (count < 4) set_number(AT_WORDS + count, row[draw(count)] & 0xF0FFFF); break;
    case 5: if (count < 4) set_number(AT_WORDS + 3, row[0]); break;
    case 6: /* a whole item */
        set_number(AT_WORDS, row[0] = bus << 20 | (LABEL_USER + draw(2)) << 16 | draw(65536));
        break;
    }
}

/* A notice's number: a data slot of a group that was read, or near one of the limits. */
static void twist_notice(void)
{
    uint32_t channel = draw(64);
    plan p;
    uint64_t groups = number(AT_GROUPS), group, dealt;
    if (!plan_of(&p, PLAN_NUMBERS(the_case.plan), the_case.plan.kinds, 16))
        return;
    for (uint32_t n = 0; n < 64 && one_in(8) == false && number(AT_KINDS + channel / 4) != 2; n++) /* mostly an ARINC bus */
        channel = (channel + 4) % 64;
    group = one_in(4) ? around(groups) : groups == 0 ? 0 : draw((uint32_t)(groups < 5000 ? groups : 5000));
    switch (draw(4)) {
    case 0: dealt = around(furniture(&p)); break;
    case 1: dealt = around(furniture(&p) + group_slots(&p)); break;
    case 2: dealt = draw(2048); break;
    default: dealt = 1 + furniture(&p) + draw((uint32_t)group_slots(&p)); break;
    }
    set_number(AT_NOTICES + channel, group * 2048 + dealt);
}

/* Groups: so many that 2^40 bytes are near, or any. */
static void twist_groups(void)
{
    uint64_t most = VIN_STREAM_MAX / group_size();
    switch (draw(4)) {
    case 0: set_number(AT_GROUPS, UINT64_C(1) << draw(64)); break;
    case 1: set_number(AT_GROUPS, draw(1000)); break;
    default: set_number(AT_GROUPS, most - 1 + draw(one_in(4) ? 3 : 2)); break;
    }
}

static void twist_places(void)
{
    uint64_t words = number(AT_GROUPS) * the_case.plan.words * the_case.plan.tracks;
    set_number(AT_SINCE, one_in(2) ? around(words) : words == 0 ? draw(2) : draw((uint32_t)(words < 1000000 ? words : 1000000)));
}

static void twist_waiting(void)
{
    uint64_t waiting = one_in(2) ? around(group_size()) : draw((uint32_t)group_size());
    set_number(AT_WAITING, one_in(10) ? UINT64_C(1) << draw(64) : waiting);
    if (waiting < VIN_STATE_BYTES - AT_BYTES && one_in(2)) /* what does not wait is zero */
        memset(state + AT_BYTES + waiting, 0, VIN_STATE_BYTES - AT_BYTES - (size_t)waiting);
}

static void twist_bits(void)
{
    uint64_t bits = draw(one_in(4) ? 10 : 8);
    set_number(AT_BITS, bits);
    set_number(AT_LAST, one_in(4) ? around(UINT64_C(1) << bits) : draw(UINT32_C(1) << bits));
}

/* A plan's number, or a kind. */
static void twist_plan(void)
{
    static const uint64_t values[7][5] = {{127, 128, 512, 513, 300}, {0, 1, 4, 5, 2}, {0, 1, 2, 1, 0}, {0, 1, 2, 1, 0}, {0, 1, 2, 1, 0},
                                          {0, 7, 8, 3, 5}, {0, 7, 8, 15, 16}};
    uint32_t which = draw(10);
    if (which < 7)
        set_number(AT_PLAN + which, values[which][draw(5)]);
    else
        set_number(AT_KINDS + draw(16), draw(one_in(4) ? 4 : 3));
}

/* A state with a fault. */
static void twist_fault(void)
{
    memset(state, 0, VIN_STATE_BYTES);
    set_number(AT_STAGE, one_in(10) ? around(1026) : 1026);
    set_number(AT_FAULT, 8 + draw(10));
    set_number(AT_PLACE, one_in(2) ? draw(100000) : around(VIN_STREAM_MAX / 3));
    set_number(AT_SECOND, number(AT_FAULT) != 13 && !one_in(4) ? 0 : one_in(2) ? draw(100000) : around(VIN_STREAM_MAX / 3));
}

static void twist_any(void)
{
    size_t n = draw(101);
    switch (draw(4)) {
    case 0: set_number(n, UINT64_C(1) << draw(64)); break;
    case 1: set_number(n, number(n) ^ UINT64_C(1) << draw(64)); break;
    case 2: set_number(n, around(number(n))); break;
    default: state[draw(VIN_STATE_BYTES)] ^= (uint8_t)(1 + draw(255)); break;
    }
}

static void twist(void)
{
    switch (draw(10)) {
    case 0: twist_held(); break;
    case 1: case 2: twist_notice(); break;
    case 3: twist_groups(); break;
    case 4: twist_places(); break;
    case 5: twist_waiting(); break;
    case 6: twist_bits(); break;
    case 7: twist_plan(); break;
    case 8: if (one_in(3)) twist_fault(); break;
    default: twist_any(); break;
    }
}

/* Each byte changed in its turn, by the case's number; or numbers twisted, one or several. */
static void twist_state(void)
{
    if (one_in(2))
        state[case_number() % VIN_STATE_BYTES] ^= (uint8_t)(one_in(2) ? 1u << draw(8) : 1 + draw(255));
    else
        for (uint32_t n = 1 + (one_in(2) ? draw(4) : 0); n > 0; n--)
            twist();
}

/* The capture goes on where it was, or its next whole group comes, as the twisted state says it. */
static void feed_twisted(size_t at)
{
    static uint8_t before[VIN_STATE_BYTES];
    size_t most = the_case.capture_len - at, length = most < VIN_PIECE_MAX ? most : VIN_PIECE_MAX;
    outcome o;
    memcpy(before, state, sizeof before);
    if (one_in(3))
        length = draw((uint32_t)length + 1);
    o = feed(VIN_STATE_BYTES, the_case.capture + at, length, log_room(), 8 * VIN_STREAM_TIMES_MAX);
    if (o.of[NUMBER] == VIN_STREAM && memcmp(before, state, sizeof before) != 0)
        law_broken("a state that does not fit together is unchanged");
    if (o.of[NUMBER] == VIN_CAPTURE && memcmp(before, state, sizeof before) != 0)
        law_broken("where the size is crossed the state is unchanged");
    if (o.of[NUMBER] != VIN_STREAM && one_in(2)) /* what is left is a state, too */
        feed(VIN_STATE_BYTES, the_case.capture + at, length, log_room(), 8 * VIN_STREAM_TIMES_MAX);
}

static void twisted_case(void)
{
    size_t at;
    do
        draw_short_case();
    while (!the_case.legal);
    at = draw((uint32_t)the_case.capture_len + 1);
    if (one_in(2))
        at = at / group_size() * group_size();
    feed_unseen(at);
    twist_state();
    if (!one_in(4))
        feed_twisted(at);
    close_state(VIN_STATE_BYTES, log_room());
}

/* "a state whose own numbers do not fit together", "or worked on as they say" */
const compared twisted_function = {"twisted", "y.......yyyyyy.yy", twisted_case};

/* ==== All cuttings ==== */

typedef struct {
    uint8_t log[80000], times[8 * 400], state[VIN_STATE_BYTES]; /* the state before the close */
    size_t log_len, time_count;
    vin_answer end;
    bool in_group; /* a piece met the end's fault, not the close */
} handed;

static uint8_t piece_log[VIN_STREAM_LOG_ROOM], piece_times[8 * VIN_STREAM_TIMES_MAX];

static void take_out(handed *h, vin_answer a)
{
    memcpy(h->log + h->log_len, piece_log, (size_t)a.bytes);
    h->log_len += (size_t)a.bytes;
    memcpy(h->times + 8 * h->time_count, piece_times, 8 * (size_t)a.times);
    h->time_count += (size_t)a.times;
}

/* The whole capture, cut as drawn. */
static void stream_all(handed *h)
{
    vin_answer a;
    h->log_len = h->time_count = 0;
    h->in_group = false;
    vin_stream_open(PLAN_NUMBERS(the_case.plan), the_case.plan.kinds, 16, state, VIN_STATE_BYTES);
    for (size_t at = 0, length; at < the_case.capture_len; at += length) {
        length = piece_at(at);
        a = vin_stream_feed(state, VIN_STATE_BYTES, the_case.capture + at, length, piece_log, sizeof piece_log, piece_times, sizeof piece_times);
        take_out(h, a);
        h->in_group = a.number != VIN_DONE;
    }
    memcpy(h->state, state, sizeof h->state);
    h->end = vin_stream_close(state, VIN_STATE_BYTES, piece_log, sizeof piece_log);
    take_out(h, h->end);
    if (!h->in_group && h->end.number != VIN_DONE && h->end.bytes != 0)
        law_broken("a refused close writes nothing");
}

static bool same_end(vin_answer one, vin_answer other)
{
    return one.number == other.number && one.place == other.place && one.second == other.second;
}

/* "hand out the same bytes and times and end alike"; the state before the close is the same, too */
static void same_handed(const handed *one, const handed *other)
{
    if (one->log_len != other->log_len || memcmp(one->log, other->log, one->log_len) != 0)
        law_broken("all cuttings hand out the same bytes");
    if (one->time_count != other->time_count || memcmp(one->times, other->times, 8 * one->time_count) != 0)
        law_broken("all cuttings hand out the same times");
    if (!same_end(one->end, other->end))
        law_broken("all cuttings end alike");
    if (memcmp(one->state, other->state, sizeof one->state) != 0)
        law_broken("all cuttings leave the same state");
}

static uint8_t log_read[VIN_LOG_MAX], times_read[8 * VIN_READ_GROUPS_MAX];

static vin_answer plain_of(size_t bytes)
{
    return vin_read_full(PLAN_NUMBERS(the_case.plan), the_case.plan.kinds, 16, the_case.capture, bytes, log_read, sizeof log_read, times_read,
                         sizeof times_read);
}

/* "On a fault they are the whole bytes of the items complete before the refused group": the front of what those groups read to alone. */
static void before_fault(const handed *h)
{
    size_t groups = (size_t)(h->end.place / (VIN_GROUP_BYTES(the_case.plan.words, the_case.plan.tracks) / 3));
    vin_answer a = plain_of(groups * group_size());
    if (a.number == VIN_DONE && (h->log_len > a.bytes || memcmp(h->log, log_read, h->log_len) != 0))
        law_broken("on a fault the log's front is handed out");
    if (h->time_count != (the_case.plan.frame_time == 1 ? groups : 0))
        law_broken("on a fault the times of the groups before are handed out");
}

/* "plain reading's log and times where it accepts, its number and place where it refuses by 9 to 13, unless a 15 was shown first" */
static void as_plain(const handed *h)
{
    vin_answer plain = plain_of(the_case.capture_len);
    if (plain.number == VIN_DONE && (!same_end(plain, h->end) || plain.bytes != h->log_len || memcmp(log_read, h->log, h->log_len) != 0))
        law_broken("where plain reading accepts, its log is handed out");
    if (plain.number == VIN_DONE && (plain.times != h->time_count || memcmp(times_read, h->times, 8 * h->time_count) != 0))
        law_broken("where plain reading accepts, its times are handed out");
    if (plain.number >= VIN_SYNC && plain.number <= VIN_DATA_WORD && !same_end(plain, h->end) && !(h->end.number == VIN_NOTICE && h->in_group))
        law_broken("where plain reading refuses by 9 to 13, so does the stream, unless a 15 was shown first");
    if (plain.number == VIN_NOTICE && h->end.number != VIN_NOTICE)
        law_broken("where plain reading gives 15, so does the stream");
    if (plain.number == VIN_CAPTURE && !h->in_group && !same_end(plain, h->end))
        law_broken("a part group is 8 at the close");
    if (plain.number == VIN_ROOM && (h->end.number != VIN_DONE || h->log_len != plain.place))
        law_broken("a log above 32,768 bytes is handed out");
    if (h->in_group && h->end.number >= VIN_SYNC && h->end.number <= VIN_FRAME_TIME)
        before_fault(h);
}

static void cuttings_case(void)
{
    static handed one, other;
    do
        draw_case();
    while (!the_case.legal);
    if (one_in(4))
        add_words();
    if (the_case.capture_len > 60000)
        the_case.capture_len = 60000 / group_size() * group_size();
    draw_cut(the_case.capture_len);
    cut.way = PIECES_MOST;
    stream_all(&one);
    law_answered(one.end.number);
    as_plain(&one);
    for (uint32_t n = 0; n < 2; n++) {
        draw_cut(the_case.capture_len);
        stream_all(&other);
        same_handed(&one, &other);
    }
}

const compared cuttings_function = {"cuttings", "y.......yyyyyy.y", cuttings_case};
