/* Document 01, the rules of Vinculampe, and the requests of document 02, once more in plain C11.
 *
 * This implementation was written from these two and the decisions of docs/DECISIONS.md alone, without a look at the
 * library, and it is written to be read: each rule stands once, under the sentence that states it. It is what the tests
 * compare the library with. It is slow; bench/fast.c is the fast one.
 *
 * ind_NAME takes what vin_NAME of include/vinculampe.h takes and answers as that must answer. The functions use no heap,
 * keep nothing between calls, and take a null pointer for a run of length 0. */
#ifndef INDEPENDENT_H
#define INDEPENDENT_H

#include <stddef.h>
#include <stdint.h>

typedef struct {
    uint32_t number; /* 0, or the refusal's number */
    uint64_t place;  /* the refusal's place */
    uint64_t second; /* 13's second place (K8); else 0 */
    uint64_t bytes;  /* composing: bytes of capture written; reading and the functions on logs: bytes of log written */
    uint64_t times;  /* reading and shifting: frame times written */
} ind_answer;

/* Plans without label and code: the CRC word has label 3, and fill is on bus 0. */
ind_answer ind_compose(uint32_t words, uint32_t tracks, uint32_t frame_time, uint32_t crc, uint32_t parity,
                       const uint8_t *kinds, size_t kinds_len,
                       const uint8_t *log, size_t log_len,
                       const uint8_t *times, size_t times_len,
                       uint8_t *out, size_t out_len);

ind_answer ind_read(uint32_t words, uint32_t tracks, uint32_t frame_time, uint32_t crc, uint32_t parity,
                    const uint8_t *kinds, size_t kinds_len,
                    const uint8_t *capture, size_t capture_len,
                    uint8_t *log, size_t log_len,
                    uint8_t *times, size_t times_len);

ind_answer ind_read_closed(uint32_t words, uint32_t tracks, uint32_t frame_time, uint32_t crc, uint32_t parity,
                           const uint8_t *kinds, size_t kinds_len,
                           const uint8_t *capture, size_t capture_len,
                           uint8_t *log, size_t log_len,
                           uint8_t *times, size_t times_len);

/* Document 02, K5: the same with the whole plan, the CRC word's label and the fill bus code. */
ind_answer ind_compose_full(uint32_t words, uint32_t tracks, uint32_t frame_time, uint32_t crc, uint32_t parity, uint32_t crc_label,
                            uint32_t fill_bus, const uint8_t *kinds, size_t kinds_len,
                            const uint8_t *log, size_t log_len,
                            const uint8_t *times, size_t times_len,
                            uint8_t *out, size_t out_len);

ind_answer ind_read_full(uint32_t words, uint32_t tracks, uint32_t frame_time, uint32_t crc, uint32_t parity, uint32_t crc_label,
                         uint32_t fill_bus, const uint8_t *kinds, size_t kinds_len,
                         const uint8_t *capture, size_t capture_len,
                         uint8_t *log, size_t log_len,
                         uint8_t *times, size_t times_len);

ind_answer ind_read_closed_full(uint32_t words, uint32_t tracks, uint32_t frame_time, uint32_t crc, uint32_t parity, uint32_t crc_label,
                                uint32_t fill_bus, const uint8_t *kinds, size_t kinds_len,
                                const uint8_t *capture, size_t capture_len,
                                uint8_t *log, size_t log_len,
                                uint8_t *times, size_t times_len);

/* Document 02, K3: what vin_read_words and vin_read_items must answer. The bytes that the first answers count words. */
ind_answer ind_read_words(uint32_t words, uint32_t tracks, uint32_t frame_time, uint32_t crc, uint32_t parity, uint32_t crc_label,
                          uint32_t fill_bus, const uint8_t *kinds, size_t kinds_len, const uint8_t *capture, size_t capture_len,
                          uint32_t *row, size_t row_len, uint8_t *times, size_t times_len);
ind_answer ind_read_items(uint32_t words, uint32_t tracks, uint32_t frame_time, uint32_t crc, uint32_t parity, uint32_t crc_label,
                          uint32_t fill_bus, const uint8_t *kinds, size_t kinds_len, const uint32_t *row, size_t row_len, uint8_t *log,
                          size_t log_len);

/* Document 02, K10: what vin_salvage must answer. An entry of the report is number x 2^32 + index: of a dropped group its fault's number, 9
 * to 12, and its index; of a dropped word 0 and its place. */
typedef struct {
    uint32_t number;                /* 0, or the refusal's number */
    uint64_t place, second;         /* the refusal's place; always 0 */
    uint64_t bytes, times, entries; /* of log, frame times and report written */
} ind_salvaged;

ind_salvaged ind_salvage(uint32_t words, uint32_t tracks, uint32_t frame_time, uint32_t crc, uint32_t parity, uint32_t crc_label,
                         uint32_t fill_bus, const uint8_t *kinds, size_t kinds_len, const uint8_t *capture, size_t capture_len, uint8_t *log,
                         size_t log_len, uint8_t *times, size_t times_len, uint64_t *report, size_t report_len);

/* Document 02, K4: what vin_stream_open, vin_stream_feed and vin_stream_close must answer. The state is IND_STATE_BYTES bytes, read and
 * written over. */
#define IND_STATE_BYTES 7168

ind_answer ind_stream_open(uint32_t words, uint32_t tracks, uint32_t frame_time, uint32_t crc, uint32_t parity, uint32_t crc_label,
                           uint32_t fill_bus, const uint8_t *kinds, size_t kinds_len, uint8_t *state, size_t state_len);
ind_answer ind_stream_feed(uint8_t *state, size_t state_len, const uint8_t *piece, size_t piece_len, uint8_t *log, size_t log_len,
                           uint8_t *times, size_t times_len);
ind_answer ind_stream_close(uint8_t *state, size_t state_len, uint8_t *log, size_t log_len);

/* Document 02, K7: what vin_pick and vin_join must answer. Bit c of `buses` is bus code c. */
ind_answer ind_pick(const uint8_t *log, size_t log_len, uint16_t buses, uint8_t *out, size_t out_len);
ind_answer ind_join(const uint8_t *first, size_t first_len, const uint8_t *second, size_t second_len, uint8_t *out, size_t out_len);

/* Document 02, K9: what vin_shift must answer; `times` is read and written over. */
ind_answer ind_shift(const uint8_t *log, size_t log_len, int64_t microseconds, uint8_t *times, size_t times_len, uint8_t *out,
                     size_t out_len);

/* Document 02, K11: what vin_profile must answer. */
ind_answer ind_profile(const uint8_t *log, size_t log_len);

/* Document 02, K13: what vin_replay must answer. An event is a byte: 0, the next item arrives; 1, a group leaves. */
typedef struct {
    uint32_t number;           /* 0, or the refusal's number */
    uint64_t place, second;    /* the refusal's place; always 0 */
    uint64_t bytes;            /* of log written */
    uint64_t sent, lost, held; /* words sent, items lost, words held */
} ind_replayed;

ind_replayed ind_replay(const uint8_t *log, size_t log_len, const uint8_t *events, size_t events_len, uint32_t capacity, uint32_t slots,
                        uint8_t *out, size_t out_len);

/* The lister's text for what it reads from standard input. Returns the text's length and writes as much of it as `room`
 * holds, without a closing zero; IND_TEXT_MAX bytes hold every text. */
size_t ind_list(const uint8_t *log, size_t log_len, char *text, size_t room);

#define IND_TEXT_MAX 200000

#endif
