/* What include/vinculampe.h 0.2.0 had of plans, composing and reading, word for word: the header before the plan had a CRC label and a
 * fill bus (K5). ../older.c is compiled with it and with the header of today. */
#ifndef VINCULAMPE_H
#define VINCULAMPE_H

#include <stddef.h>
#include <stdint.h>

#ifdef __cplusplus
extern "C" {
#endif

enum vin_kind {
    VIN_KIND_UNUSED = 0,
    VIN_KIND_1553 = 1, /* MIL-STD-1553 */
    VIN_KIND_ARINC = 2 /* ARINC 429 */
};

typedef struct {
    uint32_t number; /* VIN_DONE, or the refusal's number: enum vin_number */
    uint64_t place;  /* the refusal's place; 0 if done */
    uint64_t second; /* always 0; kept for a second place, so that no caller need be compiled again */
    uint64_t bytes;  /* bytes written: composing: of capture; all others: of log; 0 if refused */
    uint64_t times;  /* reading, shifting: frame times written, of eight bytes each; 0 if refused */
} vin_answer;

vin_answer vin_compose(uint32_t words, uint32_t tracks,
                       uint32_t frame_time, uint32_t crc, uint32_t parity,
                       const uint8_t *kinds, size_t kinds_len,
                       const uint8_t *log, size_t log_len,
                       const uint8_t *times, size_t times_len,
                       uint8_t *out, size_t out_len);
vin_answer vin_read(uint32_t words, uint32_t tracks,
                    uint32_t frame_time, uint32_t crc, uint32_t parity,
                    const uint8_t *kinds, size_t kinds_len,
                    const uint8_t *capture, size_t capture_len,
                    uint8_t *log, size_t log_len,
                    uint8_t *times, size_t times_len);
vin_answer vin_read_closed(uint32_t words, uint32_t tracks,
                           uint32_t frame_time, uint32_t crc, uint32_t parity,
                           const uint8_t *kinds, size_t kinds_len,
                           const uint8_t *capture, size_t capture_len,
                           uint8_t *log, size_t log_len,
                           uint8_t *times, size_t times_len);

typedef struct {
    uint32_t words, tracks;
    uint32_t frame_time, crc, parity; /* 0 or 1 */
    uint8_t kinds[16];                /* enum vin_kind */
} vin_plan;

/* A plan of so many words and tracks, without frame time, CRC and parity, and with no bus used. Begin
 * every plan with it: a field that a later version adds, at the struct's end, then has the value that
 * means what was so before, which need not be 0. */
#define VIN_PLAN_INIT(words, tracks) {(uint32_t)(words), (uint32_t)(tracks), 0, 0, 0, {0}}

static inline const uint8_t *vin_run_(const uint8_t *given_)
{
    static const uint8_t nothing_[1] = {0};
    return given_ ? given_ : nothing_;
}

static inline uint8_t *vin_room_(uint8_t *given_)
{
    static uint8_t nothing_[1];
    return given_ ? given_ : nothing_;
}

static inline vin_answer vin_plan_compose(const vin_plan *plan_,
                                          const uint8_t *log_, size_t log_len_,
                                          const uint8_t *times_, size_t times_len_,
                                          uint8_t *out_, size_t out_len_)
{
    return vin_compose(plan_->words, plan_->tracks, plan_->frame_time, plan_->crc, plan_->parity,
                       plan_->kinds, sizeof plan_->kinds,
                       vin_run_(log_), log_len_,
                       vin_run_(times_), times_len_,
                       vin_room_(out_), out_len_);
}

static inline vin_answer vin_plan_read(const vin_plan *plan_,
                                       const uint8_t *capture_, size_t capture_len_,
                                       uint8_t *log_, size_t log_len_,
                                       uint8_t *times_, size_t times_len_)
{
    return vin_read(plan_->words, plan_->tracks, plan_->frame_time, plan_->crc, plan_->parity,
                    plan_->kinds, sizeof plan_->kinds,
                    vin_run_(capture_), capture_len_,
                    vin_room_(log_), log_len_,
                    vin_room_(times_), times_len_);
}

static inline vin_answer vin_plan_read_closed(const vin_plan *plan_,
                                              const uint8_t *capture_, size_t capture_len_,
                                              uint8_t *log_, size_t log_len_,
                                              uint8_t *times_, size_t times_len_)
{
    return vin_read_closed(plan_->words, plan_->tracks, plan_->frame_time, plan_->crc, plan_->parity,
                           plan_->kinds, sizeof plan_->kinds,
                           vin_run_(capture_), capture_len_,
                           vin_room_(log_), log_len_,
                           vin_room_(times_), times_len_);
}

#ifdef __cplusplus
}
#endif

#endif
