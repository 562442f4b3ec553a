/* What the files of this folder share: the plan, the word, the item, and the functions over them. */
#ifndef RULES_H
#define RULES_H

#include <stdbool.h>
#include <stddef.h>
#include <stdint.h>

#include "independent.h"

#define LOG_MAX 32768u                          /* "At most 32,768 bytes." */
#define CAPTURE_MAX 1048576u                    /* "capture above 1,048,576 bytes" */
#define MICRO_LIMIT 10000u                      /* "with micro below 10000. Response times are below 10000." */
#define TIME_LIMIT UINT64_C(42949672960000)     /* "or one is 42,949,672,960,000 or more" */
#define WORDS_MAX 15420u /* more than a log can hold: no item has fewer than 17 bits for each of its words */

/* "A refusal returns number, place and lengths 0". Number 0 from a check says that it found no fault. */
static inline ind_answer refused(uint32_t number, uint64_t place)
{
    return (ind_answer){.number = number, .place = place};
}

/* K8: "Answer 13 shall also give the first word of the item that was unfinished when the bad word came"; "In every other answer the
 * second place is 0." */
static inline ind_answer broken(uint64_t place, uint64_t first_word)
{
    return (ind_answer){.number = 13, .place = place, .second = first_word};
}

static inline ind_answer passed(void)
{
    return refused(0, 0);
}

/* ---- The plan (plan.c) ---- */

enum { UNUSED = 0, BUS_1553 = 1, BUS_ARINC = 2 };

typedef struct {
    uint32_t length; /* L, words in a frame */
    uint32_t tracks; /* T */
    bool frame_time, crc, parity;
    uint32_t crc_label; /* K5: the CRC word's label */
    uint32_t fill_bus;  /* K5: the bus code of fill */
    uint8_t kinds[16];
} plan;

/* Before K5: "the CRC word: bus 0, label 3"; of fill "we write it on bus 0". */
enum { CRC_LABEL_BEFORE = 3, FILL_BUS_BEFORE = 0 };

/* Makes a plan of the C interface's numbers; false if it is illegal or a number names no choice or kind. */
bool plan_of(plan *p, uint32_t words, uint32_t tracks, uint32_t frame_time, uint32_t crc, uint32_t parity, uint32_t crc_label,
             uint32_t fill_bus, const uint8_t *kinds, size_t kinds_len);
uint64_t group_words(const plan *p);  /* stored words in a group */
uint64_t furniture(const plan *p);    /* frame time words dealt before the first data slot: 3 or 0 */
uint64_t group_slots(const plan *p);  /* data slots in a group */
/* The stored word at which a group's dealt word stands, the group's time words counted. */
uint64_t dealt_place(const plan *p, uint64_t group, uint64_t dealt);

/* ---- The word (word.c) ---- */

enum { LABEL_HIGH = 7, LABEL_LOW = 6, LABEL_MICRO = 5, LABEL_RESPONSE = 4, LABEL_NOTICE = 4,
       LABEL_USER = 2, LABEL_FILL = 1, LABEL_OVERFLOW = 0 };

#define SYNC 0xFAF320u
#define FILL_INFORMATION 0xAAAAu

typedef struct {
    uint32_t bus, label, information;
} word;

typedef struct {
    uint32_t high, low, micro;
} time_words;

uint32_t sent(const plan *p, word w);          /* the 24 bits, with parity if the plan has it */
word received(const plan *p, uint32_t bits);   /* and back; the parity bit is no part of a word */
bool odd(uint32_t bits);                       /* has an odd number of ones */
bool is_fill(word w);
word fill(const plan *p);                      /* the fill that composing writes */
uint32_t stored(const uint8_t *bytes, uint64_t index);       /* the word stored at three bytes */
void store(uint8_t *bytes, uint64_t index, uint32_t bits);
uint32_t crc_word(const plan *p, const uint8_t *frame);      /* the CRC word of a frame, from all its earlier words */
time_words time_split(uint64_t time);
uint64_t time_join(time_words t);
uint64_t time_from_bytes(const uint8_t *bytes);
void time_to_bytes(uint8_t *bytes, uint64_t time);

/* ---- Items (item.c) ---- */

enum { END = 0, COMMAND = 1, STATUS = 2, DATA = 3, BUS_ERROR = 4, ARINC_WORD = 5, NOTICE = 6, USER = 7, OVERFLOW_MARK = 8 };

typedef struct {
    uint32_t kind, bus;
    uint32_t b;        /* 1 for channel B of a 1553 bus */
    uint32_t channel;  /* ARINC: 0 to 3 */
    uint32_t label3;   /* user: 1 for label 3, 0 for label 2 */
    uint32_t word;     /* 16 bits; an ARINC word's 32; a notice's diagnostics */
    bool tagged;       /* command, ARINC word: its time follows */
    bool timed;        /* status: its response precedes */
    time_words time;
    uint32_t response;
} item;

#define ITEM_WORDS_MAX 5

uint32_t item_words(const item *i, word words[ITEM_WORDS_MAX]); /* how many */
bool item_on_right_bus(const item *i, const plan *p);
bool item_within_limits(const item *i);
uint32_t high_label(uint32_t channel);
uint32_t low_label(uint32_t channel);

/* ---- The house log (log.c) ---- */

enum stands { STANDS_ITEM, STANDS_END, STANDS_FAULT };

/* What stands at a bit of a log. An item is read and the bit moved behind it; a fault is document 01's number 2. */
enum stands log_next(const uint8_t *log, size_t log_len, uint64_t *bit, item *i);

/* The first fault 2 or 4 of a whole log, without a plan; number 0 if it has none. */
ind_answer log_fault(const uint8_t *log, size_t log_len);

#define ITEMS_MAX 14564u /* more than a log can hold: no item has fewer than 18 bits, and the end mark has 4 */

/* A log being written. Bits beyond LOG_MAX bytes are counted and not kept. */
typedef struct {
    uint8_t bytes[LOG_MAX];
    uint64_t bits;
} log_writer;

void log_begin(log_writer *w);
void log_put(log_writer *w, const item *i);
uint64_t log_end(log_writer *w); /* the length in bytes */

/* ---- The reader (reader.c) ---- */

/* What is held of the item whose words are being read. */
typedef struct {
    enum { NOTHING, GOT_RESPONSE, GOT_HIGH_SYLLABLE, MAY_BE_TAGGED, GOT_HIGH_TIME, GOT_LOW_TIME } stage;
    item it;
    uint64_t first; /* where its first word is stored */
} held;

/* Whether an item is unfinished, "until then no word starts another item". */
bool reader_unfinished(const held *h);
/* Feeds one data word; false if it starts or continues no item. */
bool reader_feed(held *h, const plan *p, word w, uint64_t place, log_writer *log);
/* Ends the reading; false if an item is cut. */
bool reader_end(held *h, log_writer *log);

/* ---- Notices (notices.c) ---- */

/* What a data word begins: NOTICE or ARINC_WORD and its channel; END if neither. */
uint32_t word_begins(const plan *p, word w, uint32_t *channel);

/* For each bus and channel the notice that no ARINC word has answered yet, by a number that rises in dealt order; 0 for none. */
typedef struct {
    uint64_t waiting[16][4];
} notices;

/* A data word with its number, in dealt order; the number of the notice that it shows open, being the next of its channel; or 0. */
uint64_t notices_see(notices *n, const plan *p, word w, uint64_t number);
uint64_t notices_earliest(const notices *n);
uint64_t earlier(uint64_t one, uint64_t other); /* of two such numbers */

/* ---- A capture (capture.c) ---- */

/* A capture and the plan it is read by. */
typedef struct {
    const plan *p;
    const uint8_t *bytes;
    uint64_t groups;
} tape;

bool capture_of(tape *c, const plan *p, const uint8_t *bytes, size_t bytes_len); /* false: 8 */
word word_at(const tape *c, uint64_t place);
ind_answer group_fault(const tape *c, uint64_t group); /* the first of 9 to 12; number 0 if there is none */
uint64_t frame_time_of(const tape *c, uint64_t group);
uint64_t slot_place(const tape *c, uint64_t group, uint64_t slot); /* where a data slot is stored */
uint64_t times_of(const tape *c);                                  /* how many frame times it has */
void put_times(const tape *c, uint8_t *times);

#endif
