/* Document 01's second program, over the independent implementation: the named cases, which standard input has, and ten blocks of
 * 200 pseudo-random cases. The program `cases` of the library runs the same over the library and must write the same bytes.
 *
 *     target/independent/cases <crates/cases/stdin
 *
 * A line of a named case: its name, then for each call a letter (c composing, r reading, x the closed reading), number, place, second,
 * bytes, times, and the digest of each lent buffer over its lent length (out and 0, or log and times), and `differs` if number, place,
 * second or length are not those that the case asks for. Lent buffers hold A5 before. A line of a block: `block N` and one digest of all
 * that. */
#include "cases.h"

#define UNTOUCHED 0xA5

uint8_t log_in[LOG_ROOM], times_in[TIMES_ROOM], capture[CAPTURE_ROOM];
uint8_t log_out[LOG_ROOM], times_out[TIMES_ROOM], out[CAPTURE_ROOM];

/* ==== The digest ==== */

uint64_t fold(uint64_t digest, uint64_t value)
{
    return (digest * 31 + value % 4294967291u) % 4294967291u;
}

static uint64_t fold_bytes(uint64_t digest, const uint8_t *bytes, uint32_t length)
{
    for (uint32_t n = 0; n < length; n++)
        digest = fold(digest, bytes[n]);
    return digest;
}

/* ==== The calls ==== */

static void untouched(uint8_t *bytes, uint32_t length)
{
    for (uint32_t n = 0; n < length; n++)
        bytes[n] = UNTOUCHED;
}

result composing(plan_numbers p, uint32_t log_len, uint32_t times_len, uint32_t out_len)
{
    result r;
    untouched(out, out_len);
    if (p.full)
        r.answer = ind_compose_full(p.words, p.tracks, p.frame_time, p.crc, p.parity, p.crc_label, p.fill_bus, p.kinds, p.kinds_len,
                                    log_in, log_len, times_in, times_len, out, out_len);
    else
        r.answer = ind_compose(p.words, p.tracks, p.frame_time, p.crc, p.parity, p.kinds, p.kinds_len,
                               log_in, log_len, times_in, times_len, out, out_len);
    r.first = fold_bytes(0, out, out_len);
    r.second = 0;
    return r;
}

static ind_answer read_by(int closed, plan_numbers p, uint32_t capture_len, uint32_t log_len, uint32_t times_len)
{
    if (p.full)
        return (closed ? ind_read_closed_full : ind_read_full)(p.words, p.tracks, p.frame_time, p.crc, p.parity, p.crc_label, p.fill_bus,
                                                               p.kinds, p.kinds_len, capture, capture_len, log_out, log_len, times_out,
                                                               times_len);
    return (closed ? ind_read_closed : ind_read)(p.words, p.tracks, p.frame_time, p.crc, p.parity, p.kinds, p.kinds_len, capture,
                                                 capture_len, log_out, log_len, times_out, times_len);
}

result reading(int closed, plan_numbers p, uint32_t capture_len, uint32_t log_len, uint32_t times_len)
{
    result r;
    untouched(log_out, log_len);
    untouched(times_out, times_len);
    r.answer = read_by(closed, p, capture_len, log_len, times_len);
    r.first = fold_bytes(0, log_out, log_len);
    r.second = fold_bytes(0, times_out, times_len);
    return r;
}

/* ==== What cases are made of ==== */

plan_numbers plan(uint32_t words, uint32_t tracks, uint32_t frame_time, uint32_t crc, uint32_t parity)
{
    plan_numbers p = {words, tracks, frame_time, crc, parity, 0, 3, 0, {0}, 16};
    return p;
}

plan_numbers with_label(plan_numbers p, uint32_t crc_label, uint32_t fill_bus)
{
    p.full = 1;
    p.crc_label = crc_label;
    p.fill_bus = fill_bus;
    return p;
}

uint32_t odd_parity(uint32_t bits)
{
    uint32_t ones = 0;
    for (uint32_t n = 0; n < 24; n++)
        ones = ones + ((bits >> n) & 1);
    return ones % 2 == 1 ? bits : bits ^ 0x800000;
}

uint32_t fill_of(plan_numbers p)
{
    uint32_t bits = p.fill_bus % 16 * 1048576 + 0x01AAAA;
    return p.parity == 1 ? odd_parity(bits) : bits;
}

uint32_t put(uint32_t bit, uint32_t width, uint64_t value)
{
    for (uint32_t n = width; n > 0; n--) {
        uint32_t one = (value >> (n - 1)) & 1;
        uint32_t byte = bit / 8, shift = 7 - bit % 8;
        if (byte < LOG_ROOM) {
            uint32_t others = log_in[byte] & (255 - (1u << shift));
            log_in[byte] = (uint8_t)(others | (one << shift));
        }
        bit = bit + 1;
    }
    return bit;
}

uint32_t put_end(uint32_t bit)
{
    bit = put(bit, 4, 0);
    while (bit % 8 != 0)
        bit = put(bit, 1, 0);
    return bit / 8;
}

void put_time(uint32_t index, uint64_t time)
{
    for (uint32_t n = 0; n < 8; n++)
        times_in[8 * index + n] = (time >> (56 - 8 * n)) & 255;
}

void word(uint32_t place, uint32_t bits)
{
    capture[3 * place] = (bits >> 16) & 255;
    capture[3 * place + 1] = (bits >> 8) & 255;
    capture[3 * place + 2] = bits & 255;
}

void take_composed(uint32_t length)
{
    for (uint32_t n = 0; n < length; n++)
        capture[n] = out[n];
}

int main(void)
{
    named_cases();
    random_cases();
    return 0;
}
