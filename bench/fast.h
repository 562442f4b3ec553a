/* The same functions written for speed: what the library is timed against. */
#ifndef FAST_H
#define FAST_H

#include "../include/vinculampe.h"

vin_answer fast_compose(uint32_t words, uint32_t tracks, uint32_t frame_time, uint32_t crc, uint32_t parity,
                        const uint8_t *kinds, size_t kinds_len, const uint8_t *log, size_t log_len,
                        const uint8_t *times, size_t times_len, uint8_t *out, size_t out_len);
vin_answer fast_read(uint32_t words, uint32_t tracks, uint32_t frame_time, uint32_t crc, uint32_t parity,
                     const uint8_t *kinds, size_t kinds_len, const uint8_t *capture, size_t capture_len,
                     uint8_t *log, size_t log_len, uint8_t *times, size_t times_len);
vin_answer fast_read_closed(uint32_t words, uint32_t tracks, uint32_t frame_time, uint32_t crc, uint32_t parity,
                            const uint8_t *kinds, size_t kinds_len, const uint8_t *capture, size_t capture_len,
                            uint8_t *log, size_t log_len, uint8_t *times, size_t times_len);
vin_answer fast_compose_full(uint32_t words, uint32_t tracks, uint32_t frame_time, uint32_t crc, uint32_t parity, uint32_t crc_label,
                             uint32_t fill_bus, const uint8_t *kinds, size_t kinds_len, const uint8_t *log, size_t log_len,
                             const uint8_t *times, size_t times_len, uint8_t *out, size_t out_len);
vin_answer fast_read_full(uint32_t words, uint32_t tracks, uint32_t frame_time, uint32_t crc, uint32_t parity, uint32_t crc_label,
                          uint32_t fill_bus, const uint8_t *kinds, size_t kinds_len, const uint8_t *capture, size_t capture_len,
                          uint8_t *log, size_t log_len, uint8_t *times, size_t times_len);
vin_answer fast_read_closed_full(uint32_t words, uint32_t tracks, uint32_t frame_time, uint32_t crc, uint32_t parity, uint32_t crc_label,
                                 uint32_t fill_bus, const uint8_t *kinds, size_t kinds_len, const uint8_t *capture, size_t capture_len,
                                 uint8_t *log, size_t log_len, uint8_t *times, size_t times_len);
vin_answer fast_read_words(uint32_t words, uint32_t tracks, uint32_t frame_time, uint32_t crc, uint32_t parity, uint32_t crc_label,
                           uint32_t fill_bus, const uint8_t *kinds, size_t kinds_len, const uint8_t *capture, size_t capture_len,
                           uint32_t *words_out, size_t words_out_len, uint8_t *times, size_t times_len);
vin_answer fast_read_items(uint32_t words, uint32_t tracks, uint32_t frame_time, uint32_t crc, uint32_t parity, uint32_t crc_label,
                           uint32_t fill_bus, const uint8_t *kinds, size_t kinds_len, const uint32_t *words_in, size_t words_in_len,
                           uint8_t *log, size_t log_len);
vin_answer fast_stream_open(uint32_t words, uint32_t tracks, uint32_t frame_time, uint32_t crc, uint32_t parity, uint32_t crc_label,
                            uint32_t fill_bus, const uint8_t *kinds, size_t kinds_len, uint8_t *state, size_t state_len);
vin_answer fast_stream_feed(uint8_t *state, size_t state_len, const uint8_t *piece, size_t piece_len, uint8_t *log, size_t log_len,
                            uint8_t *times, size_t times_len);
vin_answer fast_stream_close(uint8_t *state, size_t state_len, uint8_t *log, size_t log_len);
vin_salvaged fast_salvage(uint32_t words, uint32_t tracks, uint32_t frame_time, uint32_t crc, uint32_t parity, uint32_t crc_label,
                          uint32_t fill_bus, const uint8_t *kinds, size_t kinds_len, const uint8_t *capture, size_t capture_len,
                          uint8_t *log, size_t log_len, uint8_t *times, size_t times_len, uint64_t *report, size_t report_len);
vin_answer fast_pick(const uint8_t *log, size_t log_len, uint16_t buses, uint8_t *out, size_t out_len);
vin_answer fast_join(const uint8_t *first, size_t first_len, const uint8_t *second, size_t second_len, uint8_t *out, size_t out_len);
vin_answer fast_shift(const uint8_t *log, size_t log_len, int64_t microseconds, uint8_t *times, size_t times_len, uint8_t *out,
                      size_t out_len);
vin_answer fast_profile(const uint8_t *log, size_t log_len);
vin_replayed fast_replay(const uint8_t *log, size_t log_len, const uint8_t *events, size_t events_len, uint32_t capacity, uint32_t slots,
                         uint8_t *out, size_t out_len);

#endif
