/* Captures made by hand, of words as they are, by small plans. */
#ifndef SELFTEST_CAPTURE_H
#define SELFTEST_CAPTURE_H

#include "selftest.h"

#define L 128
#define GROUP (3 * L)

/* Words on bus 2, which is 1553, and on bus 5, which is ARINC where tracks are 1. */
#define DATA_1 0x2D0001u    /* five ones */
#define COMMAND_9 0x2F0009u /* seven */
#define HIGH_TIME 0x270001u /* five */
#define RESPONSE 0x240005u  /* four */
#define FILL_ON_0 0x01AAAAu
#define NOTICE_0 0x549800u  /* channel 0 of bus 5 */
#define SYLLABLE_0 0x590001u
#define LOW_0 0x580002u

/* The plan at hand, with label 3 and fill on bus 0, and the capture. */
extern uint32_t tracks, frame_time, crc, parity;
extern uint8_t kinds[16], capture_bytes[8 * GROUP];

void plan_is(uint32_t t, uint32_t f, uint32_t c, uint32_t o);
plan the_plan(void);

/* Groups of these data words, as they are, and fill behind them; the capture's bytes. A group's frame time has its
 * index in each of its three words. */
size_t capture_words(const uint32_t *words, size_t count);

#endif
