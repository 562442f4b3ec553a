/* The words of a capture, as stored and as dealt. */
#ifndef CAPTURE_H
#define CAPTURE_H

#include "files.h"
#include "plan.h"

#define SYNC_WORD UINT32_C(0xFAF320)

enum slot { SLOT_SYNC, SLOT_HIGH, SLOT_LOW, SLOT_MICRO, SLOT_CRC, SLOT_DATA };

/* Labels that both kinds of bus have, and the first of those that differ. */
enum label {
    LABEL_OVERFLOW,
    LABEL_FILL,
    LABEL_USER_2,
    LABEL_USER_3,
    LABEL_4,
    LABEL_MICRO,
    LABEL_LOW,
    LABEL_HIGH
};
#define FILL_INFO 0xAAAAu

/* A stored word, and where it stands: the group counted from 0, as frame times are; track and word from 1, as
 * Chapter 8 has them. */
typedef struct {
    uint32_t word, bus, label, info;
    uint64_t place, group;
    uint32_t track, position;
    enum slot slot;
} stored;

stored stored_at(const vin_plan *plan, const run *capture, uint64_t place);

/* A data slot's word alone, as vin_read_words gives it: its place counts such words, and it has no track. */
stored word_alone(const vin_plan *plan, uint32_t word, uint64_t place);

uint64_t capture_words(const run *capture);
uint64_t group_words(const vin_plan *plan);

/* The place of a group's n-th word in dealt order: the sync words first, then row by row, the CRC words last.
 */
uint64_t dealt_place(const vin_plan *plan, uint64_t group, uint64_t n);

/* And back: which of its group's words in dealt order this one is. */
uint64_t dealt_number(const vin_plan *plan, const stored *s);

bool is_fill(const stored *s);
unsigned count_ones(uint32_t word);

/* The CRC word that the frame at this place should end in, by the plan's label. */
uint32_t frame_crc(const vin_plan *plan, const run *capture, uint64_t frame);

/* "command A", "low syllable" and the like. */
const char *label_name(unsigned kind, unsigned label);

/* What the word is where it stands: "CRC", "command A", "bus not used" and the like. */
const char *word_meaning(const vin_plan *plan, const stored *s);

/* The ARINC channel, 1 to 4, of a syllable's label. */
unsigned channel_of(unsigned label);

/* "word 386 (group 0, track 4, word 0)"; of a word alone "word 386" */
typedef struct {
    char text[80];
} place_text;

place_text tell_place(const stored *s);

#endif
