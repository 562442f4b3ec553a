/* Document 01, "The 24-bit word", and the CRC word of "Groups". */
#include "rules.h"

bool odd(uint32_t bits)
{
    uint32_t ones = 0;
    for (int i = 0; i < 24; i++)
        ones += (bits >> i) & 1;
    return ones % 2 == 1;
}

/* "Bits 1-4 hold the bus code, 5-8 the content label, 9-24 the information. With parity, bit 1 is set so that the word
 * has an odd number of ones among its 24 bits, and bits 2-4 hold the code." */
uint32_t sent(const plan *p, word w)
{
    uint32_t bits = w.bus << 20 | w.label << 16 | w.information;
    if (p->parity && !odd(bits))
        bits |= UINT32_C(1) << 23;
    return bits;
}

word received(const plan *p, uint32_t bits)
{
    word w = {(bits >> 20) & (p->parity ? 7 : 15), (bits >> 16) & 15, bits & 0xFFFF};
    return w;
}

/* "Fill is label 1 with information AAAA" */
bool is_fill(word w)
{
    return w.label == LABEL_FILL && w.information == FILL_INFORMATION;
}

/* "we write it on" the plan's fill bus code (K5) */
word fill(const plan *p)
{
    word w = {p->fill_bus, LABEL_FILL, FILL_INFORMATION};
    return w;
}

/* "Bit 1 is the most significant and is sent first; a word is stored as three bytes in that order." */
uint32_t stored(const uint8_t *bytes, uint64_t index)
{
    const uint8_t *b = bytes + 3 * index;
    return (uint32_t)b[0] << 16 | (uint32_t)b[1] << 8 | b[2];
}

void store(uint8_t *bytes, uint64_t index, uint32_t bits)
{
    uint8_t *b = bytes + 3 * index;
    b[0] = (uint8_t)(bits >> 16);
    b[1] = (uint8_t)(bits >> 8);
    b[2] = (uint8_t)bits;
}

/* One bit of the message, by long division: the remainder of (remainder x X + bit) by X^16 + X^15 + X^2 + 1. */
static uint32_t divide_bit(uint32_t remainder, uint32_t bit)
{
    remainder = remainder << 1 | bit;
    return remainder & 0x10000 ? remainder ^ 0x18005 : remainder;
}

/* "the last word of every frame is the CRC word: bus 0," the plan's "CRC word's label" (K5), "with parity like any word; its
 * information is the remainder by X^16 + X^15 + X^2 + 1 over all earlier words of that frame in sent order and then 16 zero bits,
 * starting from zero, not inverted." */
uint32_t crc_word(const plan *p, const uint8_t *frame)
{
    word w = {0, p->crc_label, 0};
    uint32_t remainder = 0;
    for (uint32_t index = 0; index + 1 < p->length; index++)
        for (int bit = 23; bit >= 0; bit--)
            remainder = divide_bit(remainder, stored(frame, index) >> bit & 1);
    for (int zero = 0; zero < 16; zero++)
        remainder = divide_bit(remainder, 0);
    w.information = remainder;
    return sent(p, w);
}

/* "A time is 10000 x (65536 x high + low) + micro, in microseconds, with micro below 10000." */
uint64_t time_join(time_words t)
{
    return UINT64_C(10000) * (UINT64_C(65536) * t.high + t.low) + t.micro;
}

time_words time_split(uint64_t time)
{
    time_words t = {(uint32_t)(time / 10000 / 65536), (uint32_t)(time / 10000 % 65536), (uint32_t)(time % 10000)};
    return t;
}

/* "a frame time crossing as eight bytes, most significant first" */
uint64_t time_from_bytes(const uint8_t *bytes)
{
    uint64_t time = 0;
    for (int i = 0; i < 8; i++)
        time = time << 8 | bytes[i];
    return time;
}

void time_to_bytes(uint8_t *bytes, uint64_t time)
{
    for (int i = 0; i < 8; i++)
        bytes[i] = (uint8_t)(time >> (56 - 8 * i));
}
