/* A capture as it arrives, for speed (K4). A whole group is read as fast_read.c reads it, from the piece itself where it stands there whole;
 * what is complete is taken a stretch at a time, the last few words item by item. Notices are followed as bits, and by their numbers only in a
 * group that leaves one waiting, or finds one. The state's test is made in every call, as the library makes it. */
#include "fast_reading.h"

enum {
    AT_STAGE, AT_WORDS_OF_FRAME, AT_TRACKS, AT_FRAME_TIME, AT_CRC, AT_PARITY, AT_LABEL, AT_FILL_BUS, AT_BITS, AT_LAST, AT_GROUPS, AT_SINCE,
    AT_FAULT, AT_PLACE, AT_SECOND, AT_COUNT, AT_HELD, AT_KINDS = 20, AT_NOTICES = 36, AT_WAITING = 100, IN_FRONT, WAITING_FROM = 1024
};

enum { CLOSED = 0, WORKING = 1025, FAILED = 1026, GROUP_BYTES_MAX = 6144, HELD_MAX = 4 };

typedef struct {
    fast_plan p;
    uint8_t kinds[16];
    uint64_t groups, since, waiting, table[64];
    uint32_t data[HELD_MAX + GROUP_SLOTS_MAX + 8]; /* what is held, then a group's data words */
    size_t held;
    notices notes; /* bits of the table; and whether one is open */
    writer log;
} stream;

static uint64_t number_at(const uint8_t *state, uint32_t n)
{
    return load64(state + 8 * n);
}

static void put_number(uint8_t *state, uint32_t n, uint64_t number)
{
    store64(state + 8 * n, number);
}

/* ==== The test ==== */

static int zeros(const uint8_t *b, size_t length)
{
    return length == 0 || (b[0] == 0 && memcmp(b, b + 1, length - 1) == 0);
}

/* Whether these are all the words of one item that is not complete. */
static int is_begun(const uint8_t *kinds, const uint32_t *w, size_t count)
{
    uint32_t high = w[0] >> 16, label = high & 15, kind = kinds[w[0] >> 20], bus_7 = (high & 0xF0) | 7;
    size_t n = 1;
    if (kind == 1 && label == 4)
        return count == 1 && (w[0] & 0xFFFF) < 10000;
    if (kind == 2 && label >= 9 && (label & 1)) {
        if (count == 1)
            return 1;
        if (w[1] >> 16 != high - 1)
            return 0;
        n = 2;
    } else if (kind != 1 || (label | 4) != 15)
        return 0;
    return count == n || (w[n] >> 16 == bus_7 && (count == n + 1 || (w[n + 1] >> 16 == bus_7 - 1 && count == n + 2)));
}

static int plan_fits(stream *s, const uint8_t *state)
{
    uint64_t large = 0;
    for (uint32_t n = AT_WORDS_OF_FRAME; n <= AT_FILL_BUS; n++)
        large |= number_at(state, n) >> 32;
    for (uint32_t bus = 0; bus < 16; bus++) {
        uint64_t kind = number_at(state, AT_KINDS + bus);
        large |= kind >> 8;
        s->kinds[bus] = (uint8_t)kind;
    }
    return large == 0
           && fast_plan_of(&s->p, (uint32_t)number_at(state, AT_WORDS_OF_FRAME), (uint32_t)number_at(state, AT_TRACKS),
                           (uint32_t)number_at(state, AT_FRAME_TIME), (uint32_t)number_at(state, AT_CRC), (uint32_t)number_at(state, AT_PARITY),
                           (uint32_t)number_at(state, AT_LABEL), (uint32_t)number_at(state, AT_FILL_BUS), s->kinds, 16);
}

static int held_fits(stream *s, const uint8_t *state)
{
    s->held = number_at(state, AT_COUNT);
    if (s->held > HELD_MAX)
        return 0;
    for (uint32_t n = 0; n < HELD_MAX; n++) {
        uint64_t w = number_at(state, AT_HELD + n);
        if (w > (n < s->held ? 0xFFFFFF : 0))
            return 0;
        s->data[n] = (uint32_t)w;
    }
    return s->held == 0 || is_begun(s->kinds, s->data, s->held);
}

static int table_fits(stream *s, const uint8_t *state)
{
    s->notes.waiting = s->notes.open = 0;
    for (uint32_t key = 0; key < 64; key++) {
        uint64_t number = number_at(state, AT_NOTICES + key), dealt = number & 2047;
        s->table[key] = number;
        if (number == 0)
            continue;
        if (number >> 11 >= s->groups || dealt <= s->p.furniture || dealt > s->p.furniture + s->p.slots || s->kinds[key >> 2] != 2)
            return 0;
        s->notes.waiting |= UINT64_C(1) << key;
    }
    return 1;
}

static int working_fits(stream *s, const uint8_t *state)
{
    uint64_t bits = number_at(state, AT_BITS), last = number_at(state, AT_LAST);
    s->groups = number_at(state, AT_GROUPS);
    s->since = number_at(state, AT_SINCE);
    s->waiting = number_at(state, AT_WAITING);
    if (!plan_fits(s, state) || s->waiting >= s->p.group_bytes || s->groups > VIN_STREAM_MAX
        || s->groups * s->p.group_bytes + s->waiting > VIN_STREAM_MAX || bits > 7 || last >> bits != 0)
        return 0;
    if (s->since != 0 && s->since >= s->groups * s->p.tracks * s->p.length)
        return 0;
    s->log.bits = bits;
    s->log.part = bits == 0 ? 0 : last << (64 - bits);
    return held_fits(s, state) && table_fits(s, state) && zeros(state + 8 * AT_FAULT, 24) && zeros(state + 8 * IN_FRONT, WAITING_FROM - 8 * IN_FRONT)
           && zeros(state + WAITING_FROM + s->waiting, GROUP_BYTES_MAX - s->waiting);
}

static int failed_fits(const uint8_t *state)
{
    uint64_t number = number_at(state, AT_FAULT);
    return number >= 9 && number <= 15 && number != 14 && number_at(state, AT_PLACE) <= VIN_STREAM_MAX / 3
           && number_at(state, AT_SECOND) <= (number == 13 ? VIN_STREAM_MAX / 3 : 0) && zeros(state + 8, 8 * AT_FAULT - 8)
           && zeros(state + 8 * AT_COUNT, VIN_STATE_BYTES - 8 * AT_COUNT);
}

/* WORKING or FAILED; CLOSED for a state that is, or does not pass. */
static uint64_t stage_of(stream *s, const uint8_t *state, size_t state_len)
{
    uint64_t stage;
    if (state_len != VIN_STATE_BYTES)
        return CLOSED;
    stage = number_at(state, AT_STAGE);
    if (stage == WORKING)
        return working_fits(s, state) ? WORKING : CLOSED;
    return stage == FAILED && failed_fits(state) ? FAILED : CLOSED;
}

static vin_answer fault_of(const uint8_t *state)
{
    return (vin_answer){(uint32_t)number_at(state, AT_FAULT), number_at(state, AT_PLACE), number_at(state, AT_SECOND), 0, 0};
}

/* ==== A group ==== */

static uint64_t place_of(const fast_plan *p, uint64_t group, uint64_t dealt)
{
    return (group * p->tracks + dealt % p->tracks) * p->length + 1 + dealt / p->tracks;
}

static vin_answer refused_notice(const stream *s, uint64_t number)
{
    return refused(15, place_of(&s->p, number >> 11, (number & 2047) - 1));
}

/* The group's notices by their numbers; that of the first shown open, or 0. */
static uint64_t follow_notices(stream *s, const uint32_t *slot)
{
    uint64_t shown = 0, number = s->groups << 11 | (s->p.furniture + 1);
    for (size_t n = 0; n < s->p.slots; n++, number++) {
        uint32_t w = slot[n], label = w >> 16 & 15, key = w >> 20 << 2;
        if (s->kinds[w >> 20] != 2 || (w & 0xFFFFF) == FILL)
            continue;
        if (label == 4) {
            key |= w >> 13 & 3;
            if (shown == 0)
                shown = s->table[key];
            s->table[key] = number;
        } else if (label >= 9 && (label & 1))
            s->table[key | (label >> 1 & 3)] = 0;
    }
    return shown;
}

/* Takes what is complete, and holds the rest; false if a word is wrong. */
static inline int take_complete(stream *s, size_t count)
{
    size_t n = 0, taken;
    memset(s->data + count, 0xFF, 4 * sizeof *s->data); /* NO_WORD */
    if (count > 2 * HELD_MAX) {
        n = take_items(s->kinds, s->data, count - HELD_MAX - 1, &s->log, &s->notes);
        if (n == (size_t)-1)
            return 0;
    }
    while (n < count && !(count - n <= HELD_MAX && is_begun(s->kinds, s->data + n, count - n))) {
        taken = take_items(s->kinds, s->data + n, 1, &s->log, &s->notes);
        if (taken == (size_t)-1)
            return 0;
        n += taken;
    }
    s->held = count - n;
    memmove(s->data, s->data + n, s->held * sizeof *s->data);
    if (s->held > 0 && s->kinds[s->data[0] >> 20] == 2) /* its high syllable answers */
        on_word(&s->notes, s->data[0] >> 20, s->data[0] >> 17 & 3);
    return 1;
}

/* Where what is held begins, if it does in this group; if nothing is held, the group's last data word. */
static void find_since(stream *s, const uint32_t *slot, size_t drawn)
{
    size_t from_end = s->held == 0 ? 1 : s->held, n = s->p.slots;
    if (drawn < from_end)
        return;
    while (from_end > 0)
        from_end -= (slot[--n] & 0xFFFFF) != FILL;
    s->since = place_of(&s->p, s->groups, s->p.furniture + n);
}

/* A group; false if it is refused. Nothing of it is kept then but what the log's writer has. */
static inline __attribute__((always_inline)) int take_group(stream *s, const uint8_t *group, uint64_t *time, uint64_t *shown, const int crc,
                                                            const int parity)
{
    const fast_plan *p = &s->p;
    uint32_t dealt[GROUP_SLOTS_MAX + 4], *slot = dealt + p->furniture;
    uint64_t waited = s->notes.waiting;
    size_t drawn;
    *shown = 0;
    for (uint32_t track = 0; track < p->tracks; track++)
        if (!read_frame(group + (size_t)3 * track * p->length, dealt + track, p->tracks, p->rows, p->label, crc, parity))
            return 0;
    if (p->furniture && !frame_time_of(dealt, time))
        return 0;
    drawn = draw_together(slot, p->slots, s->data + s->held);
    if (!take_complete(s, s->held + drawn))
        return 0;
    if (UNLIKELY((waited | s->notes.waiting | s->notes.open) != 0)) {
        *shown = follow_notices(s, slot);
        if (*shown != 0)
            return 0;
    }
    find_since(s, slot, drawn);
    s->groups++;
    return 1;
}

/* What is wrong with the group, before which this was held. */
static vin_answer refuse_group(const stream *s, const uint8_t *group, const uint32_t *held, size_t count, uint64_t shown)
{
    uint64_t before = s->groups * s->p.tracks * s->p.length;
    vin_answer a;
    if (shown != 0)
        return refused_notice(s, shown);
    a = refuse_group_words(&s->p, group, held, count, (size_t)(s->since - before));
    a.place += before;
    if (a.number == 13)
        a.second += before;
    return a;
}

/* ==== The calls ==== */

static void put_fault(uint8_t *state, vin_answer a)
{
    memset(state, 0, VIN_STATE_BYTES);
    put_number(state, AT_STAGE, FAILED);
    put_number(state, AT_FAULT, a.number);
    put_number(state, AT_PLACE, a.place);
    put_number(state, AT_SECOND, a.second);
}

static void put_stream(const stream *s, uint8_t *state)
{
    uint32_t left = s->log.bits & 7;
    put_number(state, AT_BITS, left);
    put_number(state, AT_LAST, left == 0 ? 0 : s->log.part >> (64 - left));
    put_number(state, AT_GROUPS, s->groups);
    put_number(state, AT_SINCE, s->since);
    put_number(state, AT_COUNT, s->held);
    for (uint32_t n = 0; n < HELD_MAX; n++)
        put_number(state, AT_HELD + n, n < s->held ? s->data[n] : 0);
    for (uint32_t key = 0; key < 64; key++)
        put_number(state, AT_NOTICES + key, s->table[key]);
}

static void put_waiting(uint8_t *state, size_t was, const uint8_t *rest, size_t length)
{
    memcpy(state + WAITING_FROM, rest, length);
    if (length < was)
        memset(state + WAITING_FROM + length, 0, was - length);
    put_number(state, AT_WAITING, length);
}

vin_answer fast_stream_open(uint32_t words, uint32_t tracks, uint32_t frame_time, uint32_t crc, uint32_t parity, uint32_t crc_label,
                            uint32_t fill_bus, const uint8_t *kinds, size_t kinds_len, uint8_t *state, size_t state_len)
{
    const uint32_t choices[7] = {words, tracks, frame_time, crc, parity, crc_label, fill_bus};
    fast_plan p;
    if (state_len != VIN_STATE_BYTES)
        return refused(16, 0);
    memset(state, 0, VIN_STATE_BYTES);
    if (!fast_plan_of(&p, words, tracks, frame_time, crc, parity, crc_label, fill_bus, kinds, kinds_len))
        return refused(1, 0);
    put_number(state, AT_STAGE, WORKING);
    for (uint32_t n = 0; n < 7; n++)
        put_number(state, AT_WORDS_OF_FRAME + n, choices[n]);
    for (uint32_t bus = 0; bus < 16; bus++)
        put_number(state, AT_KINDS + bus, kinds[bus]);
    return refused(0, 0);
}

/* The groups that the piece fills: one from what waits and the piece, the others as they stand in it. */
static inline __attribute__((always_inline)) vin_answer take_groups(stream *s, uint8_t *state, const uint8_t *piece, size_t groups,
                                                                    uint64_t *times, const int crc, const int parity)
{
    uint8_t first[GROUP_BYTES_MAX];
    for (size_t n = 0; n < groups; n++) {
        const uint8_t *group = first;
        uint32_t held[HELD_MAX];
        size_t count = s->held;
        uint64_t shown;
        writer before = s->log;
        if (n == 0 && s->waiting > 0) {
            memcpy(first, state + WAITING_FROM, s->waiting);
            memcpy(first + s->waiting, piece, s->p.group_bytes - s->waiting);
            piece += s->p.group_bytes - s->waiting;
        } else {
            group = piece;
            piece += s->p.group_bytes;
        }
        memcpy(held, s->data, count * sizeof *held);
        if (UNLIKELY(!take_group(s, group, &times[n], &shown, crc, parity))) {
            vin_answer a = refuse_group(s, group, held, count, shown);
            s->log = before;
            a.times = n;
            return a;
        }
    }
    return (vin_answer){0, 0, 0, 0, groups};
}

vin_answer fast_stream_feed(uint8_t *state, size_t state_len, const uint8_t *piece, size_t piece_len, uint8_t *log, size_t log_len,
                            uint8_t *times, size_t times_len)
{
    stream s;
    uint8_t made[VIN_STREAM_LOG_ROOM];
    uint64_t read_times[VIN_STREAM_TIMES_MAX], stage = stage_of(&s, state, state_len);
    size_t groups, rest;
    vin_answer a;
    if (stage == CLOSED || piece_len > VIN_PIECE_MAX || log_len < VIN_STREAM_LOG_ROOM)
        return refused(16, 0);
    if (stage == FAILED)
        return fault_of(state);
    groups = (s.waiting + piece_len) / s.p.group_bytes;
    if (s.p.frame_time && times_len / 8 < groups)
        return refused(16, 0);
    if (s.groups * s.p.group_bytes + s.waiting + piece_len > VIN_STREAM_MAX)
        return refused(8, s.groups * s.p.group_bytes + s.waiting);
    if (groups == 0) {
        memcpy(state + WAITING_FROM + s.waiting, piece, piece_len);
        put_number(state, AT_WAITING, s.waiting + piece_len);
        return refused(0, 0);
    }
    s.log.bytes = made;
    if (s.p.crc)
        a = s.p.parity ? take_groups(&s, state, piece, groups, read_times, 1, 1) : take_groups(&s, state, piece, groups, read_times, 1, 0);
    else
        a = s.p.parity ? take_groups(&s, state, piece, groups, read_times, 0, 1) : take_groups(&s, state, piece, groups, read_times, 0, 0);
    if (a.number == 0) {
        rest = (s.waiting + piece_len) - groups * s.p.group_bytes;
        put_stream(&s, state);
        put_waiting(state, s.waiting, piece + piece_len - rest, rest);
    } else
        put_fault(state, a);
    a.bytes = s.log.bits >> 3;
    memcpy(log, made, a.bytes);
    if (!s.p.frame_time)
        a.times = 0;
    for (size_t n = 0; n < a.times; n++)
        store64(times + 8 * n, read_times[n]);
    return a;
}

/* The end of a stream: what is held is complete, or cut; then the earliest notice that waits. */
static vin_answer end_of(stream *s)
{
    notices any = {0, 0};
    uint64_t earliest = UINT64_MAX;
    if (s->waiting > 0)
        return refused(8, s->groups * s->p.group_bytes + s->waiting);
    memset(s->data + s->held, 0xFF, 4 * sizeof *s->data); /* NO_WORD */
    if (s->held > 0 && take_items(s->kinds, s->data, 1, &s->log, &any) != s->held)
        return broken(s->since, s->since);
    for (uint32_t key = 0; key < 64; key++)
        if (s->table[key] != 0 && s->table[key] < earliest)
            earliest = s->table[key];
    return earliest == UINT64_MAX ? refused(0, 0) : refused_notice(s, earliest);
}

vin_answer fast_stream_close(uint8_t *state, size_t state_len, uint8_t *log, size_t log_len)
{
    stream s;
    uint8_t made[32];
    uint64_t stage = stage_of(&s, state, state_len);
    vin_answer a;
    if (stage == CLOSED || log_len < VIN_STREAM_LOG_ROOM)
        return refused(16, 0);
    s.log.bytes = made;
    a = stage == FAILED ? fault_of(state) : end_of(&s);
    memset(state, 0, VIN_STATE_BYTES);
    if (a.number != 0)
        return a;
    put(&s.log, 0, 4);
    a.bytes = (s.log.bits + 7) / 8;
    memcpy(log, made, a.bytes);
    return a;
}
