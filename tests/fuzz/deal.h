/* Captures made of whatever data words the fuzzer has. */
#ifndef DEAL_H
#define DEAL_H

#include <stddef.h>
#include <stdint.h>

/* Data words dealt into groups of the plan of these numbers, and so many groups of fill behind; all else is right. Answers the bytes
 * written, none for an illegal plan. */
size_t deal(uint32_t words, uint32_t tracks, uint32_t frame_time, uint32_t crc, uint32_t parity, uint32_t crc_label, uint32_t fill_bus,
            const uint8_t kinds[16], const uint8_t *rest, size_t size, uint64_t more, uint8_t *to, size_t room);

#endif
