/* The entry points as bench/unproved compiles them: each run of bytes is handed over by the address of its own address and length. */
#include "../include/vinculampe.h"

typedef struct {
    const void *bytes;
    size_t length;
} run;

#define PLAN uint32_t words, uint32_t tracks, uint32_t frame_time, uint32_t crc, uint32_t parity
#define FULL PLAN, uint32_t crc_label, uint32_t fill_bus
#define INNER(name) void inner_##name(vin_answer *answer, PLAN, const run *kinds, const run *a, const run *b, const run *c)
#define INNER_FULL(name) void inner_##name(vin_answer *answer, FULL, const run *kinds, const run *a, const run *b, const run *c)
INNER(vin_compose);
INNER(vin_read);
INNER(vin_read_closed);
INNER_FULL(vin_compose_full);
INNER_FULL(vin_read_full);
INNER_FULL(vin_read_closed_full);

#define GIVE(name, ...) \
    vin_answer answer; \
    run k = {kinds, kinds_len}, ra = {a, a_len}, rb = {b, b_len}, rc = {c, c_len}; \
    inner_##name(&answer, __VA_ARGS__, &k, &ra, &rb, &rc); \
    return answer
#define CALL(name) GIVE(name, words, tracks, frame_time, crc, parity)
#define CALL_FULL(name) GIVE(name, words, tracks, frame_time, crc, parity, crc_label, fill_bus)

vin_answer vin_compose(PLAN, const uint8_t *kinds, size_t kinds_len, const uint8_t *a, size_t a_len, const uint8_t *b, size_t b_len,
                       uint8_t *c, size_t c_len)
{
    CALL(vin_compose);
}

vin_answer vin_read(PLAN, const uint8_t *kinds, size_t kinds_len, const uint8_t *a, size_t a_len, uint8_t *b, size_t b_len, uint8_t *c,
                    size_t c_len)
{
    CALL(vin_read);
}

vin_answer vin_read_closed(PLAN, const uint8_t *kinds, size_t kinds_len, const uint8_t *a, size_t a_len, uint8_t *b, size_t b_len,
                           uint8_t *c, size_t c_len)
{
    CALL(vin_read_closed);
}

vin_answer vin_compose_full(FULL, const uint8_t *kinds, size_t kinds_len, const uint8_t *a, size_t a_len, const uint8_t *b, size_t b_len,
                            uint8_t *c, size_t c_len)
{
    CALL_FULL(vin_compose_full);
}

vin_answer vin_read_full(FULL, const uint8_t *kinds, size_t kinds_len, const uint8_t *a, size_t a_len, uint8_t *b, size_t b_len,
                         uint8_t *c, size_t c_len)
{
    CALL_FULL(vin_read_full);
}

vin_answer vin_read_closed_full(FULL, const uint8_t *kinds, size_t kinds_len, const uint8_t *a, size_t a_len, uint8_t *b, size_t b_len,
                                uint8_t *c, size_t c_len)
{
    CALL_FULL(vin_read_closed_full);
}

INNER_FULL(vin_read_words);
void inner_vin_read_items(vin_answer *answer, FULL, const run *kinds, const run *words_in, const run *log);

vin_answer vin_read_words(FULL, const uint8_t *kinds, size_t kinds_len, const uint8_t *a, size_t a_len, uint32_t *b, size_t b_len,
                          uint8_t *c, size_t c_len)
{
    CALL_FULL(vin_read_words);
}

vin_answer vin_read_items(FULL, const uint8_t *kinds, size_t kinds_len, const uint32_t *words_in, size_t words_in_len, uint8_t *log,
                          size_t log_len)
{
    vin_answer answer;
    run k = {kinds, kinds_len}, w = {words_in, words_in_len}, l = {log, log_len};
    inner_vin_read_items(&answer, words, tracks, frame_time, crc, parity, crc_label, fill_bus, &k, &w, &l);
    return answer;
}

void inner_vin_stream_open(vin_answer *answer, FULL, const run *kinds, const run *state);
void inner_vin_stream_feed(vin_answer *answer, const run *state, const run *piece, const run *log, const run *times);
void inner_vin_stream_close(vin_answer *answer, const run *state, const run *log);

vin_answer vin_stream_open(FULL, const uint8_t *kinds, size_t kinds_len, uint8_t *state, size_t state_len)
{
    vin_answer answer;
    run k = {kinds, kinds_len}, s = {state, state_len};
    inner_vin_stream_open(&answer, words, tracks, frame_time, crc, parity, crc_label, fill_bus, &k, &s);
    return answer;
}

vin_answer vin_stream_feed(uint8_t *state, size_t state_len, const uint8_t *piece, size_t piece_len, uint8_t *log, size_t log_len,
                           uint8_t *times, size_t times_len)
{
    vin_answer answer;
    run s = {state, state_len}, p = {piece, piece_len}, l = {log, log_len}, t = {times, times_len};
    inner_vin_stream_feed(&answer, &s, &p, &l, &t);
    return answer;
}

vin_answer vin_stream_close(uint8_t *state, size_t state_len, uint8_t *log, size_t log_len)
{
    vin_answer answer;
    run s = {state, state_len}, l = {log, log_len};
    inner_vin_stream_close(&answer, &s, &l);
    return answer;
}

void inner_vin_salvage(vin_salvaged *answer, FULL, const run *kinds, const run *capture, const run *log, const run *times, const run *report);

vin_salvaged vin_salvage(FULL, const uint8_t *kinds, size_t kinds_len, const uint8_t *capture, size_t capture_len, uint8_t *log, size_t log_len,
                         uint8_t *times, size_t times_len, uint64_t *report, size_t report_len)
{
    vin_salvaged answer;
    run k = {kinds, kinds_len}, c = {capture, capture_len}, l = {log, log_len}, t = {times, times_len}, r = {report, report_len};
    inner_vin_salvage(&answer, words, tracks, frame_time, crc, parity, crc_label, fill_bus, &k, &c, &l, &t, &r);
    return answer;
}

void inner_vin_pick(vin_answer *answer, const run *log, uint16_t buses, const run *out);
void inner_vin_join(vin_answer *answer, const run *first, const run *second, const run *out);

vin_answer vin_pick(const uint8_t *log, size_t log_len, uint16_t buses, uint8_t *out, size_t out_len)
{
    vin_answer answer;
    run l = {log, log_len}, o = {out, out_len};
    inner_vin_pick(&answer, &l, buses, &o);
    return answer;
}

vin_answer vin_join(const uint8_t *first, size_t first_len, const uint8_t *second, size_t second_len, uint8_t *out, size_t out_len)
{
    vin_answer answer;
    run f = {first, first_len}, s = {second, second_len}, o = {out, out_len};
    inner_vin_join(&answer, &f, &s, &o);
    return answer;
}

void inner_vin_shift(vin_answer *answer, const run *log, int64_t microseconds, const run *times, const run *out);

vin_answer vin_shift(const uint8_t *log, size_t log_len, int64_t microseconds, uint8_t *times, size_t times_len, uint8_t *out,
                     size_t out_len)
{
    vin_answer answer;
    run l = {log, log_len}, t = {times, times_len}, o = {out, out_len};
    inner_vin_shift(&answer, &l, microseconds, &t, &o);
    return answer;
}

void inner_vin_profile(vin_answer *answer, const run *log);

vin_answer vin_profile(const uint8_t *log, size_t log_len)
{
    vin_answer answer;
    run l = {log, log_len};
    inner_vin_profile(&answer, &l);
    return answer;
}

void inner_vin_replay(vin_replayed *answer, const run *log, const run *events, uint32_t capacity, uint32_t slots, const run *out);

vin_replayed vin_replay(const uint8_t *log, size_t log_len, const uint8_t *events, size_t events_len, uint32_t capacity, uint32_t slots,
                        uint8_t *out, size_t out_len)
{
    vin_replayed answer;
    run l = {log, log_len}, e = {events, events_len}, o = {out, out_len};
    inner_vin_replay(&answer, &l, &e, capacity, slots, &o);
    return answer;
}
