#include "capture.h"

#include <inttypes.h>
#include <stdio.h>

uint64_t capture_words(const run *capture)
{
    return capture->length / 3;
}

uint64_t group_words(const vin_plan *plan)
{
    return (uint64_t)plan->words * plan->tracks;
}

static enum slot slot_of(const vin_plan *plan, uint32_t track, uint32_t position)
{
    uint64_t dealt = (uint64_t)(position - 2) * plan->tracks + track - 1;
    if (position == 1)
        return SLOT_SYNC;
    if (plan->crc && position == plan->words)
        return SLOT_CRC;
    return plan->frame_time && dealt < FRAME_TIME_WORDS ? SLOT_HIGH + (enum slot)dealt : SLOT_DATA;
}

stored word_alone(const vin_plan *plan, uint32_t word, uint64_t place)
{
    stored s = {0};
    s.word = word;
    s.bus = s.word >> 20 & (plan->parity ? 7u : 15u);
    s.label = s.word >> 16 & 15;
    s.info = s.word & 0xFFFF;
    s.place = place;
    s.slot = SLOT_DATA;
    return s;
}

stored stored_at(const vin_plan *plan, const run *capture, uint64_t place)
{
    const uint8_t *at = capture->bytes + 3 * place;
    uint32_t in_group = (uint32_t)(place % group_words(plan));
    stored s = word_alone(plan, (uint32_t)at[0] << 16 | (uint32_t)at[1] << 8 | at[2], place);
    s.group = place / group_words(plan);
    s.track = in_group / plan->words + 1;
    s.position = in_group % plan->words + 1;
    s.slot = slot_of(plan, s.track, s.position);
    return s;
}

uint64_t dealt_place(const vin_plan *plan, uint64_t group, uint64_t n)
{
    return group * group_words(plan) + n % plan->tracks * plan->words + n / plan->tracks;
}

uint64_t dealt_number(const vin_plan *plan, const stored *s)
{
    return (uint64_t)(s->position - 1) * plan->tracks + s->track - 1;
}

bool is_fill(const stored *s)
{
    return s->label == LABEL_FILL && s->info == FILL_INFO;
}

unsigned count_ones(uint32_t word)
{
    unsigned ones = 0;
    for (; word; word >>= 1)
        ones += word & 1;
    return ones;
}

/* The remainder by X^16 + X^15 + X^2 + 1 of the bytes and 16 zero bits. */
static uint32_t remainder_of(const uint8_t *bytes, size_t length)
{
    uint32_t rest = 0;
    for (size_t n = 0; n < length; n++) {
        rest ^= (uint32_t)bytes[n] << 8;
        for (int bit = 0; bit < 8; bit++)
            rest = rest & 0x8000 ? (rest << 1 ^ 0x8005) & 0xFFFF : rest << 1;
    }
    return rest;
}

uint32_t frame_crc(const vin_plan *plan, const run *capture, uint64_t frame)
{
    uint32_t word =
        plan->crc_label << 16 | remainder_of(capture->bytes + 3 * frame, 3 * ((size_t)plan->words - 1));
    return plan->parity && count_ones(word) % 2 == 0 ? word | 1u << 23 : word;
}

const char *label_name(unsigned kind, unsigned label)
{
    static const char *const common[] = {"overflow", "fill",       "user",     "user",
                                         "",         "time micro", "time low", "time high"};
    static const char *const mil1553[] = {"error B", "data B", "status B", "command B",
                                          "error A", "data A", "status A", "command A"};
    static const char *const arinc[] = {"low syllable 1",  "high syllable 1", "low syllable 2",
                                        "high syllable 2", "low syllable 3",  "high syllable 3",
                                        "low syllable 4",  "high syllable 4"};
    if (label == LABEL_4)
        return kind == VIN_KIND_1553 ? "response time" : "error notice";
    if (label < 8)
        return common[label];
    return kind == VIN_KIND_1553 ? mil1553[label - 8] : arinc[label - 8];
}

const char *word_meaning(const vin_plan *plan, const stored *s)
{
    static const char *const furniture[] = {"sync", "frame time high", "frame time low", "frame time micro",
                                            "CRC"};
    if (s->slot != SLOT_DATA)
        return furniture[s->slot];
    if (s->label == LABEL_FILL)
        return is_fill(s) ? "fill" : "fill, not AAAA";
    if (plan->kinds[s->bus] == VIN_KIND_UNUSED)
        return "bus not used";
    return label_name(plan->kinds[s->bus], s->label);
}

unsigned channel_of(unsigned label)
{
    return (label - 8) / 2 + 1;
}

place_text tell_place(const stored *s)
{
    place_text t;
    if (s->track == 0)
        snprintf(t.text, sizeof t.text, "word %" PRIu64, s->place);
    else
        snprintf(t.text, sizeof t.text,
                 "word %" PRIu64 " (group %" PRIu64 ", track %" PRIu32 ", word %" PRIu32 ")", s->place,
                 s->group, s->track, s->position);
    return t;
}
