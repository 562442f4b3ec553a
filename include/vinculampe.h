/* vinculampe.h: MIL-STD-1553 and ARINC 429 traffic in 24-bit PCM words of IRIG 106 Chapter 8, and
 * back.
 *
 * Composing makes a capture (PCM frames) of a house log and frame times. Reading gives log and
 * times back: vin_compose_full, vin_read_full and vin_read_closed_full; over them vin_plan_compose,
 * vin_plan_read and vin_plan_read_closed, which take the plan as a struct and null pointers for
 * runs of length 0; and vin_compose, vin_read and vin_read_closed, with the usual CRC label and fill
 * bus, as they were before these could be chosen. vin_read_words and vin_read_items are the two halves
 * of a reading: the words in the data slots, and the log that such words are. vin_stream_open,
 * vin_stream_feed and vin_stream_close read a capture as it arrives, piece by piece. vin_salvage reads what is left
 * of a damaged capture, and reports what it dropped. Logs alone, without a plan, are worked on by
 * vin_pick, vin_join, vin_shift, vin_profile and vin_replay; over them functions of the same names
 * with vin_log_ in front, as vin_log_pick, take null pointers for runs of length 0. C99 or later, or
 * C++. Link with libvinculampe.a (x86-64, System V calling convention; that of `make NATIVE=yes` is
 * for the machine it was made on).
 *
 * What every function promises
 *   - Every input is taken. Either the work is done and the answer's number is 0, or the call is
 *     refused by a number and a place, both fixed for each input (enum vin_number).
 *     The earliest fault in the stated order is the one returned.
 *   - A refused call has changed no lent byte. A successful call has changed only the lengths it
 *     answers; beyond them the lent buffers keep their old content. (Of a stream, see there: its state
 *     is changed by some refusals too, and the call that meets a fault hands out what is whole.)
 *   - What was composed reads back to the same log and times. The closed reading accepts a capture
 *     exactly when some log and times compose to those very bytes; there is only one such log, and
 *     that is what it returns.
 *
 * What the caller promises
 *   - A pointer is valid for its length. Null pointers, with length 0, are taken by the functions
 *     whose names begin with vin_plan_ or vin_log_, and by no other.
 *   - The runs of one call that are written (out; log, words, times and report of a reading; the times
 *     of vin_shift and the state of a stream, which are both read and written) overlap no other run of
 *     that call.
 *     Runs that are only read may overlap each other: vin_join may be given one log twice.
 *
 * Threads: the functions keep nothing between calls (a stream's state is lent, and all of it) and use
 * no heap, no global and no file. They
 * may be called from any number of threads at once, as long as no run that one call writes is used
 * elsewhere meanwhile. A call needs up to VIN_STACK_BYTES of the thread's stack, also for one item,
 * the functions on logs alone up to VIN_LOG_STACK_BYTES: give a thread that calls them a stack of
 * that and what the program itself needs.
 *
 * An example: a log of one data word, composed and read back.
 *
 *     // kind 3, bus 2, A, BEEF, the end mark
 *     static const uint8_t log[] = {0x32, 0x5F, 0x77, 0x80};
 *     static uint8_t capture[VIN_COMPOSED_MAX], back[VIN_LOG_MAX];
 *     vin_plan plan = VIN_PLAN_INIT(129, 1); // 129 words, 1 track
 *     plan.parity = 1;
 *     plan.kinds[2] = VIN_KIND_1553;
 *     vin_answer a = vin_plan_compose(&plan, log, sizeof log, NULL, 0, capture, sizeof capture);
 *     if (a.number != VIN_DONE)
 *         fprintf(stderr, "%s at %llu\n", vin_text(a.number), (unsigned long long)a.place);
 *     a = vin_plan_read_closed(&plan, capture, a.bytes, back, sizeof back, NULL, 0);
 *     // a.number is VIN_DONE, a.bytes is 4, and back begins with the bytes of log
 */
#ifndef VINCULAMPE_H
#define VINCULAMPE_H

#include <stddef.h>
#include <stdint.h>

/* The version of library, header and tool; and as a number, to compare: 10000 x major + 100 x minor
 * + patch. */
#define VIN_VERSION "0.3.0"
#define VIN_VERSION_NUMBER 300

#ifdef __cplusplus
extern "C" {
#endif

/* ==== The plan ===================================================================================
 *
 *   words       L, the words of a frame, the sync word counted: 128 to 512
 *   tracks      T, the frames of a group: 1 to 4
 *   frame_time  1: three frame time words open every group; 0: none
 *   crc         1: the last word of every frame is the CRC word; 0: it is a data slot
 *   parity      1: bit 1 of a word makes its number of ones odd, and bits 2-4 hold the bus;
 *               0: bits 1-4 hold the bus
 *   crc_label   the label of the CRC word: 0 to 7; usually 3
 *   fill_bus    the bus code of fill: 0 to 15, with parity 0 to 7; usually 0. It may be of an unused
 *               bus or of a used one; fill, CRC and frame time words make no bus used
 *   kinds       sixteen bytes, one for each bus code 0 to 15: enum vin_kind
 *
 * All functions on captures take all of these, in this order, but for vin_compose, vin_read and
 * vin_read_closed: these take no crc_label and no fill_bus, and are vin_compose_full and so on with the
 * usual ones.
 *
 * Illegal, and refused by VIN_PLAN: words or tracks outside; tracks above 1 with other than exactly
 * one used bus; parity with a used bus above 7; a crc_label above 7, also without CRC; a fill_bus
 * above 15, or above 7 with parity; a yes/no choice that is not 0 or 1; a kind above 2; kinds_len
 * other than 16. One track with no used bus is legal. */

enum vin_kind {
    VIN_KIND_UNUSED = 0,
    VIN_KIND_1553 = 1, /* MIL-STD-1553 */
    VIN_KIND_ARINC = 2 /* ARINC 429 */
};

/* ==== The house log ==============================================================================
 *
 * Bit-packed, most significant bit first. Each item is a kind of 4 bits, a bus of 4 bits, and its
 * fields:
 *
 *   1 command        B 1, tagged 1, word 16, and if tagged: high 16, low 16, micro 14     1553 bus
 *   2 status         B 1, timed 1, word 16, and if timed: response 14                     1553 bus
 *   3 data           B 1, word 16                                                         1553 bus
 *   4 bus error      B 1, word 16                                                         1553 bus
 *   5 ARINC word     channel 2, tagged 1, word 32, and if tagged the same                 ARINC bus
 *   6 ARINC notice   channel 2, diagnostics 8                                             ARINC bus
 *   7 user           label 3 rather than 2: 1, word 16                                    either
 *   8 overflow       word 16                                                              either
 *
 * B is 0 for channel A. ARINC channel c is channel c + 1 of Chapter 8's Table 8-3, with the labels
 * 9 + 2c and 8 + 2c. Micro and response are below 10000. Kind 0 alone, without a bus, ends the log;
 * zero bits fill its last byte and nothing follows, so the empty log is the byte 00. A log has at
 * most VIN_LOG_MAX bytes.
 *
 * ==== Times ======================================================================================
 *
 * A time is 10000 x (65536 x high + low) + micro microseconds and below VIN_TIME_LIMIT. A frame
 * time crosses as eight bytes, most significant first, one for each group; none at all if frame
 * time is off.
 *
 * ==== The capture ================================================================================
 *
 * Whole groups. A group is T frames, track 1 first; a frame is L words; a word is three bytes, bit
 * 1 first: bus (4 bits), label (4), information (16). Word 1 of each frame is the sync word FAF320.
 * The other words are dealt row by row: word 2 of track 1, of track 2 and so on, then word 3; first
 * the three frame time words, on bus 0, then the data slots. Behind the last item's words the slots
 * hold fill: label 1 and AAAA, on the plan's fill_bus (01AAAA on bus 0; with parity 91AAAA on bus 1).
 * The CRC word has bus 0, the plan's crc_label and the remainder by X^16 + X^15 + X^2 + 1 over all
 * earlier words of its frame and 16 zero bits. It is no data word and no fill, whatever it reads as. */

/* ==== Answers ================================================================================= */

typedef struct {
    uint32_t number; /* VIN_DONE, or the refusal's number: enum vin_number */
    uint64_t place;  /* the refusal's place; 0 if done */
    uint64_t second; /* VIN_DATA_WORD's second place: where the item that broke begins; else 0 */
    uint64_t bytes;  /* bytes written: composing: of capture; all others: of log; vin_read_words: the
                        words written; 0 if refused, but for the vin_stream_feed that meets a fault */
    uint64_t times;  /* reading, shifting: frame times written, of eight bytes each; 0 if refused, but
                        for the same */
} vin_answer;

/* C marks a number that composing can answer, R one that the readings can, L one that the functions
 * on logs alone can; the order of the checks stands with each function below. A bit's place counts
 * the log's bits from 0; a word's place counts the capture's stored words from 0, so that its bytes
 * begin at 3 x place. */
enum vin_number {
    VIN_DONE = 0, /* C R L  done */

    /* C R    The plan is illegal, or a number names no choice or kind. Place 0. */
    VIN_PLAN = 1,

    /* C   L  The log is too long, cut, has an unknown kind or a bad ending. Place: the first bit of
     *        that item or end mark; where the log runs out, the bit where the next kind would stand;
     *        0 if the log is too long. A log of no bytes is cut at 0. */
    VIN_LOG = 2,

    /* C      An item's bus is unused or of the wrong kind. Place: the item's first bit. */
    VIN_BUS = 3,

    /* C   L  A micro or response of 10000 or more. Place: the item's first bit. */
    VIN_LIMIT = 4,

    /* C      The number of frame times is wrong, or the run is not whole eights: place is the number
     *        needed (0 if frame time is off). Or a frame time is VIN_TIME_LIMIT or more: place is its
     *        index. Number before size. */
    VIN_TIMES = 5,

    /* C R L  The room for the output is too short; or, in reading, salvaging and joining, the log would be
     *        above VIN_LOG_MAX, whatever the room. Place: the bytes needed; of vin_read_words the words. */
    VIN_ROOM = 6,

    /*   R    The room for frame times is too short. Place: the frame times needed, of eight bytes
     *        each. */
    VIN_TIME_ROOM = 7,

    /*   R    The capture is above VIN_CAPTURE_MAX bytes or not whole groups: place is its length in
     *        bytes. Of vin_read_items: there are more than VIN_WORDS_MAX words: place is their
     *        number. Of vin_stream_feed: the capture would be above VIN_STREAM_MAX bytes: place is the
     *        bytes before that piece; of vin_stream_close: the bytes so far are not whole groups. */
    VIN_CAPTURE = 8,

    /*   R    A frame's first word is not FAF320. Place: that word. */
    VIN_SYNC = 9,

    /*   R    With parity, a word other than a frame's first has an even number of ones. Place: that
     *        word. */
    VIN_PARITY = 10,

    /*   R    A CRC word is wrong in any of its 24 bits, its label among them. Place: that word. */
    VIN_CRC = 11,

    /*   R    A frame time word has a bus other than 0, another label than its own, or a micro of
     *        10000 or more. Place: that word. */
    VIN_FRAME_TIME = 12,

    /*   R    A data word starts or continues no item (also fill without AAAA): place is that word, and
     *        answer.second the first word of the item that was unfinished when it came, or that word
     *        itself if none was. A command, or an ARINC word after its low syllable, is finished; from
     *        its high time word on it is unfinished again. Or the capture ends inside an item: place
     *        and answer.second are that item's first word. With several tracks answer.second may be
     *        the larger number: words are dealt over the tracks, and places count them as stored. */
    VIN_DATA_WORD = 13,

    /*   R    Closed reading only: misplaced fill. A data word follows it, or neither its group nor a
     *        later one has a data word, or its bus is not the plan's fill_bus. Place: the earliest
     *        such word in dealt order. */
    VIN_FILL = 14,

    /* C R    An error notice is open: no ARINC word of its bus and channel stands between it and their
     *        next notice, or the end. Place: of the earliest open one the item's first bit; in reading
     *        its word, the earliest in dealt order. Composing tests it after 2, 3 and 4 over the whole
     *        log and before 5; reading after the cut item and before 14. Of a stream: the one that a
     *        second notice shows open, in a group the first shown; at the close the earliest. */
    VIN_NOTICE = 15,

    /*   R    vin_stream_feed and vin_stream_close only, before all else: a piece above VIN_PIECE_MAX
     *        bytes; less than VIN_STREAM_LOG_ROOM bytes lent for log; with frame time fewer lent
     *        entries than the groups that the piece fills (none are needed after a fault); a call
     *        after the close; a state whose numbers do not fit together; a state run of another length
     *        than VIN_STATE_BYTES, of vin_stream_open too. Place 0, and the state is unchanged. */
    VIN_STREAM = 16,

    /*     L  Shifting only: the shift is above VIN_SHIFT_MOST either way: place 0. Or a time tag would
     *        fall below zero or reach VIN_TIME_LIMIT: place is its item's first bit. Or a frame time
     *        would: place is its index. In this order. */
    VIN_SHIFT = 17,

    /*     L  vin_profile only: an item breaks a rule of the one-bus test profile. Place: the first
     *        bit of the earliest item that does. */
    VIN_PROFILE = 18,

    /*     L  vin_replay only: an overflow mark stands in the log: place is its first bit. Or a limit
     *        is broken, an event is of neither kind, or more items arrive than the log has: place
     *        0. */
    VIN_REPLAY = 19,

    /*   R    vin_salvage only: the room for the report is too short. Place: the entries needed. */
    VIN_REPORT_ROOM = 20
};

/* A few English words for an answer's number; never null. */
static inline const char *vin_text(uint32_t number_)
{
    switch (number_) {
    case VIN_DONE: return "done";
    case VIN_PLAN: return "the plan is illegal";
    case VIN_LOG: return "the log is too long, cut, or has an unknown kind or a bad ending";
    case VIN_BUS: return "an item's bus is unused or of the wrong kind";
    case VIN_LIMIT: return "a micro or response is 10000 or more";
    case VIN_TIMES: return "the number of frame times is wrong, or one is too large";
    case VIN_ROOM: return "the output is too short, or the log would be above 32768 bytes";
    case VIN_TIME_ROOM: return "the room for frame times is too short";
    case VIN_CAPTURE: return "the capture is too long or not whole groups";
    case VIN_SYNC: return "a sync word is wrong";
    case VIN_PARITY: return "a word's parity is even";
    case VIN_CRC: return "a CRC word is wrong";
    case VIN_FRAME_TIME: return "a frame time word is wrong";
    case VIN_DATA_WORD: return "a data word starts or continues no item, or an item is cut";
    case VIN_FILL: return "misplaced fill";
    case VIN_NOTICE: return "an error notice has no ARINC word behind it";
    case VIN_STREAM: return "a stream's piece, room or state is not as it must be";
    case VIN_SHIFT: return "the shift is too large, or a time would leave its range";
    case VIN_PROFILE: return "an item breaks a rule of the one-bus test profile";
    case VIN_REPLAY: return "a mark in the log, a limit broken, or events that are wrong";
    case VIN_REPORT_ROOM: return "the room for the report is too short";
    default: return "no such number";
    }
}

/* ==== Limits and sizes ===========================================================================
 *
 * The largest capture composed. An item makes at most 5 words of 89 bits (the tagged ARINC word);
 * every other item needs more bits for a word: a notice 18, a tagged command 72 for 4. A log of n
 * bytes has 8 n - 4 bits before its end mark, so it makes at most (8 n - 4) x 5 / 89 words, for
 * 32,768 bytes 14,726. That many it does hold: 2,945 tagged ARINC words and one notice, 262,123 of
 * 262,140 bits. Groups are whole, so the capture is largest where the last group is nearly all
 * fill: of all legal plans with L 462, T 4 and CRC. There a group has 4 x 461 - 4 = 1,840 slots
 * (1,837 with frame time), 8 groups hold 14,720 (14,696) words, and a 9th is needed: 9 x 4 x 462 x
 * 3 = 49,896 bytes. The most groups are 120: L 128, T 1, CRC and frame time, 123 slots. */

#define VIN_LOG_MAX 32768            /* bytes of a log */
#define VIN_CAPTURE_MAX 1048576      /* bytes of a capture that is read */
#define VIN_COMPOSED_MAX 49896       /* bytes of a capture that is composed, by any plan */
#define VIN_COMPOSED_GROUPS_MAX 120  /* its groups, by any plan */
#define VIN_READ_GROUPS_MAX 2730     /* groups of a capture that is read: 1,048,576 / (3 x 128) */
#define VIN_WORDS_MAX 349525         /* words that vin_read_items takes: 1,048,576 / 3 */
#define VIN_TIME_BYTES 8             /* bytes of a frame time */
#define VIN_CRC_LABEL 3              /* the usual label of the CRC word */
#define VIN_FILL_BUS 0               /* the usual bus code of fill */
#define VIN_STATE_BYTES 7168         /* bytes of a stream's state */
#define VIN_PIECE_MAX 4096           /* bytes of a piece */
#define VIN_STREAM_LOG_ROOM 12288    /* bytes to be lent for log in each call of a stream */
#define VIN_STREAM_MAX UINT64_C(1099511627776) /* bytes of a capture that arrives: 2^40 */
#define VIN_STACK_BYTES 73728        /* stack that a call needs: measured, tests/abi/stack.c */
#define VIN_LOG_STACK_BYTES 36864    /* the same of a call of a function on logs alone */

/* Times are below this: 10000 x 65536 x 65536 microseconds, 497 days. */
#define VIN_TIME_LIMIT UINT64_C(42949672960000)

/* The largest shift either way, in microseconds: 366 days. */
#define VIN_SHIFT_MOST INT64_C(31622400000000)

/* For a legal plan: bytes of a group, and its data slots. The arguments of these macros are
 * evaluated once or more. */
#define VIN_GROUP_BYTES(words, tracks) ((size_t)3 * (size_t)(words) * (size_t)(tracks))
#define VIN_GROUP_SLOTS(words, tracks, frame_time, crc) \
    ((size_t)(tracks) * ((size_t)(words) - 1) - ((crc) ? (size_t)(tracks) : 0) \
     - ((frame_time) ? (size_t)3 : 0))

/* Composing a log of log_len bytes, up to VIN_LOG_MAX: never more words, groups, bytes of capture
 * than these (none for a log of no bytes, which is refused). The exact numbers: without frame time,
 * call with out_len 0: refused by VIN_ROOM at the bytes needed (or done, if the log is empty). With
 * frame time, call with times_len 0: refused by VIN_TIMES at the number of groups. */
#define VIN_COMPOSED_WORDS(log_len) \
    ((log_len) > 0 ? (8 * (size_t)(log_len) - 4) * 5 / 89 : (size_t)0)
#define VIN_COMPOSED_GROUPS(log_len, words, tracks, frame_time, crc) \
    ((VIN_COMPOSED_WORDS(log_len) + VIN_GROUP_SLOTS(words, tracks, frame_time, crc) - 1) / \
     VIN_GROUP_SLOTS(words, tracks, frame_time, crc))
#define VIN_COMPOSED_BYTES(log_len, words, tracks, frame_time, crc) \
    (VIN_COMPOSED_GROUPS(log_len, words, tracks, frame_time, crc) * VIN_GROUP_BYTES(words, tracks))

/* Reading a capture of capture_len bytes: bytes of room for the log and for the frame times that
 * always suffice. A data word gives at most 26 bits of log (a command or a status of one word), the
 * end mark 4. For the exact number of the log call with log_len 0: a capture without other faults
 * is refused by VIN_ROOM at the bytes needed. */
#define VIN_READ_LOG_BYTES(capture_len) \
    (VIN_LOG_OF_WORDS_((size_t)(capture_len) / 3) < VIN_LOG_MAX \
         ? VIN_LOG_OF_WORDS_((size_t)(capture_len) / 3) : VIN_LOG_MAX)
#define VIN_LOG_OF_WORDS_(words) ((26 * (words) + 4 + 7) / 8)
#define VIN_READ_GROUPS(capture_len, words, tracks) \
    ((size_t)(capture_len) / VIN_GROUP_BYTES(words, tracks))
#define VIN_READ_TIMES_BYTES(capture_len, words, tracks, frame_time) \
    ((frame_time) ? VIN_TIME_BYTES * VIN_READ_GROUPS(capture_len, words, tracks) : 0)

/* The halves of a reading: the words that vin_read_words makes of a capture of whole groups, exactly;
 * and bytes of room that always suffice for the log of so many words. */
#define VIN_READ_WORDS(capture_len, words, tracks, frame_time, crc) \
    (VIN_READ_GROUPS(capture_len, words, tracks) * VIN_GROUP_SLOTS(words, tracks, frame_time, crc))
#define VIN_ITEMS_LOG_BYTES(words_len) \
    (VIN_LOG_OF_WORDS_((size_t)(words_len)) < VIN_LOG_MAX ? VIN_LOG_OF_WORDS_((size_t)(words_len)) \
                                                          : VIN_LOG_MAX)

/* A stream: the most groups that a piece of piece_len bytes fills, so many frame times are to be lent with frame
 * time; VIN_STREAM_TIMES_MAX is that of any plan and piece. (The log that a call hands out is never longer
 * than 8,859 bytes: two groups of three tracks of 455 words have 2,724 data words of at most 26 bits, and there
 * are at most 7 bits and an item of 43 from before.) */
#define VIN_STREAM_GROUPS(piece_len, words, tracks) \
    ((VIN_GROUP_BYTES(words, tracks) - 1 + (size_t)(piece_len)) / VIN_GROUP_BYTES(words, tracks))
#define VIN_STREAM_TIMES_MAX 11

/* Salvaging: entries of the report that always suffice. A dropped group is one entry, and each data slot
 * of any other at most one. Log and times need no more than those of a reading. For the exact number lend
 * room for log and times, and call with report_len 0: refused by VIN_REPORT_ROOM at the entries needed (or
 * done, if nothing is dropped). */
#define VIN_REPORT_ENTRIES(capture_len, words, tracks, frame_time, crc) \
    VIN_READ_WORDS(capture_len, words, tracks, frame_time, crc)

/* An entry of a report: what was dropped, and which. The number is VIN_DONE for a data word, and the rest
 * its place; VIN_SYNC to VIN_FRAME_TIME for a group, and the rest its index, counted from 0. */
#define VIN_ENTRY_NUMBER(entry) ((uint32_t)((uint64_t)(entry) >> 32))
#define VIN_ENTRY_INDEX(entry) ((uint32_t)((uint64_t)(entry) & 0xFFFFFFFF))

/* Picking from a log of log_len bytes, and joining two: bytes of room that always suffice. (Shifting
 * needs log_len, no more and no less.) A log has
 * at most 8 n - 4 bits of items, and one end mark is saved by joining, so that the joined log has as
 * many bytes as both, or one less. For the exact number call with out_len 0: logs without faults are
 * refused by VIN_ROOM at the bytes needed. */
#define VIN_PICKED_BYTES(log_len) ((size_t)(log_len))
#define VIN_JOINED_BYTES(first_len, second_len) \
    ((size_t)(first_len) + (size_t)(second_len) < VIN_LOG_MAX \
         ? (size_t)(first_len) + (size_t)(second_len) : VIN_LOG_MAX)

/* A set of buses for vin_pick is the sum of these. */
#define VIN_BUS_BIT(bus) ((uint16_t)(1u << (bus)))
#define VIN_ALL_BUSES ((uint16_t)0xFFFF)

/* Replaying: the limits of a buffer, in words, of the slots of a group, and of the events. */
#define VIN_BUFFER_LEAST 8
#define VIN_BUFFER_MOST 4096
#define VIN_SLOTS_MOST 2048
#define VIN_EVENTS_MAX 65535

/* Replaying a log of log_len bytes: bytes of room that always suffice. A lost item may give way to a
 * mark, and a mark has more bits, 24, than a notice, 18; but an item is stored behind each mark, so
 * that 36 bits become at most 42. For the exact number call with out_len 0: refused by VIN_ROOM at
 * the bytes needed. */
#define VIN_REPLAYED_BYTES(log_len) \
    ((size_t)(log_len) + (size_t)(log_len) / 6 + 1 < VIN_LOG_MAX \
         ? (size_t)(log_len) + (size_t)(log_len) / 6 + 1 : VIN_LOG_MAX)

/* ==== The functions =========================================================================== */

/* Composes a log and frame times into a capture: the fewest groups that hold the items' words, fill
 * after the last. The empty log gives no bytes. vin_compose is vin_compose_full with VIN_CRC_LABEL
 * and VIN_FILL_BUS.
 *
 *   log, log_len       the house log
 *   times, times_len   one frame time a group, eight bytes each; times_len 0 if frame time is off
 *   out, out_len       room for the capture; answer.bytes are written
 *
 * Checks, in this order: VIN_PLAN; VIN_LOG for the length; the items in order, each for VIN_LOG,
 * VIN_BUS, VIN_LIMIT; VIN_NOTICE; VIN_TIMES; VIN_ROOM. */
vin_answer vin_compose_full(uint32_t words, uint32_t tracks,
                            uint32_t frame_time, uint32_t crc, uint32_t parity,
                            uint32_t crc_label, uint32_t fill_bus,
                            const uint8_t *kinds, size_t kinds_len,
                            const uint8_t *log, size_t log_len,
                            const uint8_t *times, size_t times_len,
                            uint8_t *out, size_t out_len);
vin_answer vin_compose(uint32_t words, uint32_t tracks,
                       uint32_t frame_time, uint32_t crc, uint32_t parity,
                       const uint8_t *kinds, size_t kinds_len,
                       const uint8_t *log, size_t log_len,
                       const uint8_t *times, size_t times_len,
                       uint8_t *out, size_t out_len);

/* Reads a capture. Fill is dropped on any bus in any slot, whatever the plan's fill_bus is. A capture
 * of no bytes gives the empty log and no times. vin_read is vin_read_full with VIN_CRC_LABEL and
 * VIN_FILL_BUS.
 *
 *   capture, capture_len   the capture
 *   log, log_len           room for the log; answer.bytes are written
 *   times, times_len       room for the frame times; answer.times of eight bytes each are written.
 *                          Bytes beyond whole eights count for nothing and stay. If frame time is
 *                          off nothing is written, and times_len may be 0
 *
 * Checks, in this order: VIN_PLAN, VIN_CAPTURE; then group by group: each word as stored (VIN_SYNC
 * for a frame's first word, VIN_PARITY for any other, VIN_CRC after that for a CRC word), then
 * VIN_FRAME_TIME, then VIN_DATA_WORD, both in dealt order; after the last group VIN_DATA_WORD for a
 * cut item, VIN_NOTICE, VIN_ROOM, VIN_TIME_ROOM. */
vin_answer vin_read_full(uint32_t words, uint32_t tracks,
                         uint32_t frame_time, uint32_t crc, uint32_t parity,
                         uint32_t crc_label, uint32_t fill_bus,
                         const uint8_t *kinds, size_t kinds_len,
                         const uint8_t *capture, size_t capture_len,
                         uint8_t *log, size_t log_len,
                         uint8_t *times, size_t times_len);
vin_answer vin_read(uint32_t words, uint32_t tracks,
                    uint32_t frame_time, uint32_t crc, uint32_t parity,
                    const uint8_t *kinds, size_t kinds_len,
                    const uint8_t *capture, size_t capture_len,
                    uint8_t *log, size_t log_len,
                    uint8_t *times, size_t times_len);

/* Reads a capture and refuses misplaced fill: accepts exactly what composing by the same plan makes.
 * As vin_read_full, with VIN_FILL checked after VIN_NOTICE and before VIN_ROOM. vin_read_closed is
 * vin_read_closed_full with VIN_CRC_LABEL and VIN_FILL_BUS. */
vin_answer vin_read_closed_full(uint32_t words, uint32_t tracks,
                                uint32_t frame_time, uint32_t crc, uint32_t parity,
                                uint32_t crc_label, uint32_t fill_bus,
                                const uint8_t *kinds, size_t kinds_len,
                                const uint8_t *capture, size_t capture_len,
                                uint8_t *log, size_t log_len,
                                uint8_t *times, size_t times_len);
vin_answer vin_read_closed(uint32_t words, uint32_t tracks,
                           uint32_t frame_time, uint32_t crc, uint32_t parity,
                           const uint8_t *kinds, size_t kinds_len,
                           const uint8_t *capture, size_t capture_len,
                           uint8_t *log, size_t log_len,
                           uint8_t *times, size_t times_len);

/* The first half of a reading: undoes frames and tracks. Hands out the words of the data slots of all
 * groups, in dealt order, as stored: of 24 bits, the parity bit with them, and fill among them. Nothing
 * is asked of the data words themselves; a capture of no bytes gives no words.
 *
 *   capture, capture_len      the capture
 *   words_out, words_out_len  room for the words, an entry each; answer.bytes entries, not bytes, are
 *                             written: VIN_READ_WORDS of the capture
 *   times, times_len          room for the frame times, as vin_read has it
 *
 * Checks, in this order: VIN_PLAN, VIN_CAPTURE; then group by group, as vin_read does, VIN_SYNC,
 * VIN_PARITY, VIN_CRC and VIN_FRAME_TIME; then VIN_ROOM, its place the words needed, VIN_TIME_ROOM. */
vin_answer vin_read_words(uint32_t words, uint32_t tracks,
                          uint32_t frame_time, uint32_t crc, uint32_t parity,
                          uint32_t crc_label, uint32_t fill_bus,
                          const uint8_t *kinds, size_t kinds_len,
                          const uint8_t *capture, size_t capture_len,
                          uint32_t *words_out, size_t words_out_len,
                          uint8_t *times, size_t times_len);

/* The second half: turns such words into a log. Any number of words up to VIN_WORDS_MAX, not only those
 * of whole groups; none at all give the empty log. Fill is dropped on any bus. With parity no notice is
 * taken of bit 1: its test is the first half's. Of the plan only kinds and parity matter, but all of it
 * must be legal.
 *
 *   words_in, words_in_len   the words, an entry each; a number above 24 bits is no word, nor fill
 *   log, log_len             room for the log; answer.bytes are written
 *
 * Checks, in this order: VIN_PLAN; VIN_CAPTURE for the number of words; VIN_DATA_WORD word by word, also
 * for a number above 24 bits in its turn; VIN_DATA_WORD for a cut item; VIN_NOTICE; VIN_ROOM. Places
 * count the words given, from 0.
 *
 * Where both halves are done, vin_read_full of the capture is, with the same log and times. Where the
 * second is refused by VIN_DATA_WORD or VIN_NOTICE, vin_read_full is by the same number, at the words as
 * they are stored; where the first is refused, vin_read_full is as well, at the same place, or by
 * VIN_DATA_WORD in an earlier group. */
vin_answer vin_read_items(uint32_t words, uint32_t tracks,
                          uint32_t frame_time, uint32_t crc, uint32_t parity,
                          uint32_t crc_label, uint32_t fill_bus,
                          const uint8_t *kinds, size_t kinds_len,
                          const uint32_t *words_in, size_t words_in_len,
                          uint8_t *log, size_t log_len);

/* ---- A capture as it arrives ----
 *
 * vin_stream_open prepares a state, vin_stream_feed takes a piece of the capture and hands out the log
 * and the frame times of the groups that it completes, vin_stream_close ends the capture and hands out the
 * log's end. The bytes and times that the calls hand out, one after the other, are the log and its
 * times. The rules are those of vin_read_full, but the capture may run to VIN_STREAM_MAX bytes, and the
 * log is not bounded; so VIN_ROOM and VIN_TIME_ROOM cannot be answered, nor can VIN_FILL.
 *
 * However a capture is cut, where no call is refused by VIN_STREAM, the same bytes and times are handed
 * out and the end is the same: where vin_read_full is done, its log and times; where it is refused by 9
 * to 13, its number and both places, unless VIN_NOTICE was shown first.
 *
 * A group is taken whole or not at all. A command or an ARINC word is complete when the next data word
 * shows whether it is tagged, or at the close. On a fault in a group, what is handed out are the whole
 * bytes of the items that were complete before that group, with no end mark, and the times of the groups
 * before it. The call that meets the fault hands these out still, and answers their lengths with the
 * fault's number and places. From then on the state repeats number and places and nothing is written,
 * until vin_stream_close has repeated them: then the state is closed.
 *
 *   state, state_len   VIN_STATE_BYTES bytes that the caller keeps between the calls, and copies or stores
 *                      as he likes: they hold no pointer. They are the same on every machine;
 *                      docs/RULES.md describes them. Any other bytes are taken too: those that pass
 *                      the written test are worked on as they say, all others are VIN_STREAM. A closed
 *                      state is all zeros. At the opening they may hold anything
 *
 * An example, without frame time; `ready` and `receive` are the program's own.
 *
 *     static uint8_t state[VIN_STATE_BYTES], piece[VIN_PIECE_MAX], log[VIN_STREAM_LOG_ROOM];
 *     vin_answer a = vin_plan_stream_open(&plan, state, sizeof state);
 *     while (a.number == VIN_DONE && ready()) {
 *         a = vin_plan_stream_feed(state, sizeof state, piece, receive(piece), log, sizeof log, NULL, 0);
 *         fwrite(log, 1, a.bytes, out);
 *     }
 *     if (a.number == VIN_DONE) {
 *         a = vin_plan_stream_close(state, sizeof state, log, sizeof log);
 *         fwrite(log, 1, a.bytes, out);
 *     }
 */

/* Opens a stream: the state is written whole.
 *
 * Checks, in this order: VIN_STREAM for state_len; VIN_PLAN, and the state is then closed. It never looks
 * at what the state holds, so that a stream can be opened anew at any time. */
vin_answer vin_stream_open(uint32_t words, uint32_t tracks,
                           uint32_t frame_time, uint32_t crc, uint32_t parity,
                           uint32_t crc_label, uint32_t fill_bus,
                           const uint8_t *kinds, size_t kinds_len,
                           uint8_t *state, size_t state_len);

/* Feeds a piece, which may be empty.
 *
 *   piece, piece_len   the next bytes of the capture, VIN_PIECE_MAX at most
 *   log, log_len       room for log, VIN_STREAM_LOG_ROOM bytes or more; answer.bytes are written
 *   times, times_len   room for the frame times of the groups that the piece fills, bytes waiting
 *                      from earlier pieces counted; answer.times of eight bytes each are written. Bytes
 *                      beyond whole eights count for nothing. If frame time is off times_len may be 0
 *
 * Checks, in this order: VIN_STREAM, and the state is unchanged; the fault of a state that has one; VIN_CAPTURE
 * if more than VIN_STREAM_MAX bytes would be taken, the piece is then unread and the state unchanged; then group
 * by group VIN_SYNC, VIN_PARITY, VIN_CRC, VIN_FRAME_TIME, VIN_DATA_WORD as vin_read_full has them, and
 * VIN_NOTICE last, for a notice that a second one shows open. Places count the stored words of the whole
 * capture from 0. */
vin_answer vin_stream_feed(uint8_t *state, size_t state_len,
                           const uint8_t *piece, size_t piece_len,
                           uint8_t *log, size_t log_len,
                           uint8_t *times, size_t times_len);

/* Closes a stream: writes the item that was complete but might yet have been tagged, the end mark and zero
 * bits up to a whole byte, 7 bytes at most. But for VIN_STREAM the state is closed then, whatever the answer
 * is; a refused close writes nothing else.
 *
 *   log, log_len   room for log, VIN_STREAM_LOG_ROOM bytes or more, too; answer.bytes are written
 *
 * Checks, in this order: VIN_STREAM, and the state is unchanged; the fault of a state that has one;
 * VIN_CAPTURE if the bytes so far are not whole groups; VIN_DATA_WORD for a cut item; VIN_NOTICE for the
 * earliest notice, in dealt order, that is open. */
vin_answer vin_stream_close(uint8_t *state, size_t state_len,
                            uint8_t *log, size_t log_len);

/* What vin_salvage answers. */
typedef struct {
    uint32_t number;  /* VIN_DONE, or the refusal's number: enum vin_number */
    uint64_t place;   /* the refusal's place; 0 if done */
    uint64_t second;  /* always 0; in vin_answer a second place */
    uint64_t bytes;   /* bytes of log written; this and the following are 0 if refused */
    uint64_t times;   /* frame times written, of eight bytes each: of the groups that were kept */
    uint64_t entries; /* entries of the report written */
} vin_salvaged;

/* Salvages a damaged capture: reads what is left of it, and reports what is not in the log. No group is
 * refused for its faults, and no word:
 *
 *   - a group with a VIN_SYNC, VIN_PARITY, VIN_CRC or VIN_FRAME_TIME is dropped, with its frame time
 *   - a data word that cannot continue the unfinished item drops that item's words, all of them, and is
 *     tried as a start; if it starts nothing it is dropped too
 *   - nothing is joined across a dropped group: what is unfinished when one comes is dropped, and so is a
 *     command, or an ARINC word, that is the last data before one, its time tag not yet seen, also where
 *     fill or whole groups of fill stand between
 *   - an item left unfinished at the end is dropped
 *
 * Behind a dropped group there is no such caution: a status whose response time was lost is kept without
 * one. Open notices remain, and others may become open: what is salvaged need not compose.
 *
 * The report has an entry for each dropped group, and for each dropped data word of the other groups, in
 * dealt order: number x 2^32 + index. Of a group the number is its first fault, 9 to 12, in the order of
 * vin_read_full, and the index counts the capture's groups from 0; of a word the number is 0 and the index
 * its place (VIN_ENTRY_NUMBER, VIN_ENTRY_INDEX). With several tracks the places need not rise: words are
 * dealt over the tracks, and places count them as stored.
 *
 *   capture, capture_len   the capture: whole groups, for a lost byte is not salvaged
 *   log, log_len           room for the log; answer.bytes are written
 *   times, times_len       room for the frame times of the groups that are kept, as vin_read has it
 *   report, report_len     room for the report, an entry each; answer.entries are written
 *
 * Always: the data words of the groups that are kept, without those reported, are the words of the log's
 * items, in order. A capture that vin_read_full accepts gives the same log and times and no entries; if
 * there are no entries, vin_read_full is done or refused by VIN_NOTICE, given room. No item has words on
 * both sides of a dropped group.
 *
 * Checks, in this order, and all before anything is written: VIN_PLAN, VIN_CAPTURE; VIN_ROOM, also for a
 * log above VIN_LOG_MAX, at its true length; VIN_TIME_ROOM; VIN_REPORT_ROOM. */
vin_salvaged vin_salvage(uint32_t words, uint32_t tracks,
                         uint32_t frame_time, uint32_t crc, uint32_t parity,
                         uint32_t crc_label, uint32_t fill_bus,
                         const uint8_t *kinds, size_t kinds_len,
                         const uint8_t *capture, size_t capture_len,
                         uint8_t *log, size_t log_len,
                         uint8_t *times, size_t times_len,
                         uint64_t *report, size_t report_len);

/* ==== The functions on logs alone ================================================================
 *
 * They take no plan: one bus may carry 1553 and ARINC items, and no bus is wrong. The log that they
 * give is a log of its own, with its end mark; but for the times that vin_shift moves its items are
 * as they were.
 *
 * They may be reordered. Of calls that all answer VIN_DONE it is proved that the same bytes come out,
 * also in the time row:
 *
 *   - picking from a joined log, and joining the picked logs
 *   - picking buses s, then t, and picking s & t
 *   - joining (a with b) with c, and a with (b with c); a log joined with the empty log (one byte
 *     00) on either side, and that log
 *   - shifting by m, then by n, and shifting by m + n; shifting by 0, and not shifting
 *   - picking and then shifting, and shifting and then picking
 *
 * Whether the calls of one order answer VIN_DONE says nothing of the other's; but where shifting by
 * m and then by n do, and m + n is at most VIN_SHIFT_MOST either way, so does shifting by m + n with
 * room for log_len bytes. */

/* Picks the items on a set of buses, in the log's order: exactly those.
 *
 *   log, log_len   the house log
 *   buses          the set: bit c for bus code c (VIN_BUS_BIT); every number is a set
 *   out, out_len   room for the log of the items picked; answer.bytes are written: 1 if none is, and
 *                  never more than log_len
 *
 * Checks, in this order: VIN_LOG for the length; the items in order, picked or not, each for VIN_LOG,
 * VIN_LIMIT; VIN_ROOM. */
vin_answer vin_pick(const uint8_t *log, size_t log_len,
                    uint16_t buses,
                    uint8_t *out, size_t out_len);

/* Joins two logs: the first one's items, then the second's.
 *
 *   first, first_len, second, second_len   the house logs
 *   out, out_len                           room for the joined log; answer.bytes are written
 *
 * Checks, in this order: of the first log VIN_LOG for the length, then the items in order, each for
 * VIN_LOG, VIN_LIMIT; the same of the second log; VIN_ROOM, also for a joined log above VIN_LOG_MAX,
 * at its true length. The place of VIN_LOG and VIN_LIMIT is a bit of the log that has the fault; the
 * answer does not say which of the two that is (vin_pick of the first does). */
vin_answer vin_join(const uint8_t *first, size_t first_len,
                    const uint8_t *second, size_t second_len,
                    uint8_t *out, size_t out_len);

/* Moves every time by so many microseconds: the time tags of commands and of ARINC words, and the
 * frame times. Response times, all else of the items, their order and the log's length stay.
 *
 *   log, log_len       the house log
 *   microseconds       the shift, forward or, if negative, back: at most VIN_SHIFT_MOST either way
 *   times, times_len   frame times of eight bytes each, as many as there are, and written over;
 *                      answer.times of them. Bytes beyond whole eights count for nothing and stay.
 *                      An entry may be any number: what counts is whether it comes into the range
 *   out, out_len       room for the moved log; answer.bytes are written, as many as log_len
 *
 * Checks, in this order: VIN_LOG for the length; the items in order, each for VIN_LOG, VIN_LIMIT;
 * VIN_SHIFT for the shift, then for the tags in order, then for the frame times in order; VIN_ROOM.
 * A place 0 of VIN_SHIFT may be any of the three; without times, and with a shift within
 * VIN_SHIFT_MOST, it is an item. */
vin_answer vin_shift(const uint8_t *log, size_t log_len,
                     int64_t microseconds,
                     uint8_t *times, size_t times_len,
                     uint8_t *out, size_t out_len);

/* Says whether a log keeps the one-bus test profile of acceptance flights. VIN_DONE is a yes, given
 * exactly when every item keeps every rule; nothing is written, and the answer's lengths are 0. An
 * item is judged with those before it:
 *
 *   - it is on the first item's bus, and is neither an ARINC word nor a notice
 *   - a command is tagged, unless the item just before it, whatever its kind, is a tagged command on
 *     the same side, A or B
 *   - a status has its response time
 *   - a tag is no earlier than the tag before it, on either side; it may be the same
 *   - it is no user word
 *
 * Data words, bus errors and overflow marks are free. The empty log passes.
 *
 *   log, log_len   the house log
 *
 * Checks, in this order: VIN_LOG for the length; the items in order, each for VIN_LOG, VIN_LIMIT;
 * VIN_PROFILE, so that a fault at the log's end comes before a rule broken at its start. */
vin_answer vin_profile(const uint8_t *log, size_t log_len);

/* What happens to a front-end buffer, and what vin_replay answers. */
enum vin_event { VIN_ITEM_ARRIVES = 0, VIN_GROUP_LEAVES = 1 };

typedef struct {
    uint32_t number; /* VIN_DONE, or the refusal's number: enum vin_number */
    uint64_t place;  /* the refusal's place; 0 if done */
    uint64_t second; /* always 0; in vin_answer a second place */
    uint64_t bytes;  /* bytes of log written; this and the following are 0 if refused */
    uint64_t sent;   /* words that left in groups */
    uint64_t lost;   /* items lost */
    uint64_t held;   /* words that are in the buffer at the end */
} vin_replayed;

/* Replays a front-end buffer, to see before a flight whether it is large enough. The log's items
 * arrive one by one, and groups leave, as the events say. An item that arrives needs as much of the
 * buffer as it has words (vin_compose makes so many of it), and one word more for a mark if items
 * were lost since the last mark. If that fits in the free room, the mark, an overflow mark on the
 * bus of the first item lost since then with the number lost, and behind it the item are stored;
 * otherwise the item is lost whole. A group that leaves takes the oldest words, as many as there are
 * up to its slots, and their room is free again. Items lost behind the last stored one have no mark.
 *
 *   log, log_len         the house log, without overflow marks
 *   events, events_len   an event a byte, in order: VIN_ITEM_ARRIVES, the log's next item;
 *                        VIN_GROUP_LEAVES. At most VIN_EVENTS_MAX; items may be left over
 *   capacity             words of the buffer: VIN_BUFFER_LEAST to VIN_BUFFER_MOST
 *   slots                data slots of a group: 1 to VIN_SLOTS_MOST; VIN_GROUP_SLOTS of a plan
 *   out, out_len         room for the log of what was stored, marks and all; answer.bytes are
 *                        written: VIN_REPLAYED_BYTES at most. It may be longer than the log
 *
 * Always: items that arrived are those stored, marks not counted, and those lost; the marks' numbers
 * and the losses not yet marked are all losses; the words of the log that is written are those sent
 * and those held; and no more is held than the capacity.
 *
 * Checks, in this order: VIN_LOG for the length; the items in order, also those that never arrive,
 * each for VIN_LOG, VIN_LIMIT; VIN_REPLAY for the earliest mark, then for the rest, before anything
 * is replayed; VIN_ROOM, also for a result above VIN_LOG_MAX, at its true length. */
vin_replayed vin_replay(const uint8_t *log, size_t log_len,
                        const uint8_t *events, size_t events_len,
                        uint32_t capacity, uint32_t slots,
                        uint8_t *out, size_t out_len);

/* ==== The same with the plan in a struct, and null pointers of length 0 ==========================
 *
 * A null pointer with length 0 becomes a pointer to a byte that is never read nor written. A null
 * pointer with another length is the caller's fault, as for memcpy. (Names in these functions end
 * in an underscore, so that they hide none of the includer's.) */

typedef struct {
    uint32_t words, tracks;
    uint32_t frame_time, crc, parity; /* 0 or 1 */
    uint8_t kinds[16];                /* enum vin_kind */
    uint32_t full;                    /* 1: the next two say what they say; VIN_PLAN_INIT sets it */
    uint32_t crc_label, fill_bus;
} vin_plan;

/* A plan of so many words and tracks, without frame time, CRC and parity, with no bus used, and with
 * the usual crc_label and fill_bus. Begin every plan with it: a field that a later version adds, at
 * the struct's end, then has the value that means what was so before, which need not be 0.
 *
 * A program from before `full`, crc_label and fill_bus means the usual two, however it is compiled.
 * One that is only linked again calls vin_compose, vin_read and vin_read_closed. One that is compiled
 * again with this header begins its plans with VIN_PLAN_INIT; or, if it does not, leaves the three
 * fields 0, and that is a plan with VIN_CRC_LABEL and VIN_FILL_BUS. A plan whose `full` is not 1 while
 * one of the three is not 0 is refused by VIN_PLAN: no label or bus that was set is passed over. (Parts
 * of one program that hand a vin_plan to each other are compiled with one header.) */
#define VIN_PLAN_INIT(words, tracks) \
    {(uint32_t)(words), (uint32_t)(tracks), 0, 0, 0, {0}, 1, VIN_CRC_LABEL, VIN_FILL_BUS}

/* The label that a plan's fields mean; of a plan that is refused, one that is. */
static inline uint32_t vin_plan_label_(const vin_plan *plan_)
{
    if (plan_->full == 1)
        return plan_->crc_label;
    return (plan_->full | plan_->crc_label | plan_->fill_bus) == 0 ? VIN_CRC_LABEL : UINT32_MAX;
}

static inline const uint8_t *vin_run_(const uint8_t *given_)
{
    static const uint8_t nothing_[1] = {0};
    return given_ ? given_ : nothing_;
}

static inline uint8_t *vin_room_(uint8_t *given_)
{
    static uint8_t nothing_[1];
    return given_ ? given_ : nothing_;
}

static inline vin_answer vin_plan_compose(const vin_plan *plan_,
                                          const uint8_t *log_, size_t log_len_,
                                          const uint8_t *times_, size_t times_len_,
                                          uint8_t *out_, size_t out_len_)
{
    return vin_compose_full(plan_->words, plan_->tracks, plan_->frame_time, plan_->crc, plan_->parity,
                            vin_plan_label_(plan_), plan_->fill_bus,
                            plan_->kinds, sizeof plan_->kinds,
                            vin_run_(log_), log_len_,
                            vin_run_(times_), times_len_,
                            vin_room_(out_), out_len_);
}

static inline vin_answer vin_plan_read(const vin_plan *plan_,
                                       const uint8_t *capture_, size_t capture_len_,
                                       uint8_t *log_, size_t log_len_,
                                       uint8_t *times_, size_t times_len_)
{
    return vin_read_full(plan_->words, plan_->tracks, plan_->frame_time, plan_->crc, plan_->parity,
                         vin_plan_label_(plan_), plan_->fill_bus,
                         plan_->kinds, sizeof plan_->kinds,
                         vin_run_(capture_), capture_len_,
                         vin_room_(log_), log_len_,
                         vin_room_(times_), times_len_);
}

static inline vin_answer vin_plan_read_closed(const vin_plan *plan_,
                                              const uint8_t *capture_, size_t capture_len_,
                                              uint8_t *log_, size_t log_len_,
                                              uint8_t *times_, size_t times_len_)
{
    return vin_read_closed_full(plan_->words, plan_->tracks, plan_->frame_time, plan_->crc,
                                plan_->parity, vin_plan_label_(plan_), plan_->fill_bus,
                                plan_->kinds, sizeof plan_->kinds,
                                vin_run_(capture_), capture_len_,
                                vin_room_(log_), log_len_,
                                vin_room_(times_), times_len_);
}

static inline vin_answer vin_plan_read_words(const vin_plan *plan_,
                                             const uint8_t *capture_, size_t capture_len_,
                                             uint32_t *words_, size_t words_len_,
                                             uint8_t *times_, size_t times_len_)
{
    static uint32_t nothing_[1];
    return vin_read_words(plan_->words, plan_->tracks, plan_->frame_time, plan_->crc, plan_->parity,
                          vin_plan_label_(plan_), plan_->fill_bus,
                          plan_->kinds, sizeof plan_->kinds,
                          vin_run_(capture_), capture_len_,
                          words_ ? words_ : nothing_, words_len_,
                          vin_room_(times_), times_len_);
}

static inline vin_answer vin_plan_read_items(const vin_plan *plan_,
                                             const uint32_t *words_, size_t words_len_,
                                             uint8_t *log_, size_t log_len_)
{
    static const uint32_t nothing_[1] = {0};
    return vin_read_items(plan_->words, plan_->tracks, plan_->frame_time, plan_->crc, plan_->parity,
                          vin_plan_label_(plan_), plan_->fill_bus,
                          plan_->kinds, sizeof plan_->kinds,
                          words_ ? words_ : nothing_, words_len_,
                          vin_room_(log_), log_len_);
}

static inline vin_answer vin_plan_stream_open(const vin_plan *plan_,
                                              uint8_t *state_, size_t state_len_)
{
    return vin_stream_open(plan_->words, plan_->tracks, plan_->frame_time, plan_->crc, plan_->parity,
                           vin_plan_label_(plan_), plan_->fill_bus,
                           plan_->kinds, sizeof plan_->kinds,
                           vin_room_(state_), state_len_);
}

/* These two take no plan: the state has it. */
static inline vin_answer vin_plan_stream_feed(uint8_t *state_, size_t state_len_,
                                              const uint8_t *piece_, size_t piece_len_,
                                              uint8_t *log_, size_t log_len_,
                                              uint8_t *times_, size_t times_len_)
{
    return vin_stream_feed(vin_room_(state_), state_len_, vin_run_(piece_), piece_len_,
                           vin_room_(log_), log_len_, vin_room_(times_), times_len_);
}

static inline vin_answer vin_plan_stream_close(uint8_t *state_, size_t state_len_,
                                               uint8_t *log_, size_t log_len_)
{
    return vin_stream_close(vin_room_(state_), state_len_, vin_room_(log_), log_len_);
}

static inline vin_salvaged vin_plan_salvage(const vin_plan *plan_,
                                            const uint8_t *capture_, size_t capture_len_,
                                            uint8_t *log_, size_t log_len_,
                                            uint8_t *times_, size_t times_len_,
                                            uint64_t *report_, size_t report_len_)
{
    static uint64_t nothing_[1];
    return vin_salvage(plan_->words, plan_->tracks, plan_->frame_time, plan_->crc, plan_->parity,
                       vin_plan_label_(plan_), plan_->fill_bus,
                       plan_->kinds, sizeof plan_->kinds,
                       vin_run_(capture_), capture_len_,
                       vin_room_(log_), log_len_,
                       vin_room_(times_), times_len_,
                       report_ ? report_ : nothing_, report_len_);
}

static inline vin_answer vin_log_pick(const uint8_t *log_, size_t log_len_,
                                      uint16_t buses_,
                                      uint8_t *out_, size_t out_len_)
{
    return vin_pick(vin_run_(log_), log_len_, buses_, vin_room_(out_), out_len_);
}

static inline vin_answer vin_log_join(const uint8_t *first_, size_t first_len_,
                                      const uint8_t *second_, size_t second_len_,
                                      uint8_t *out_, size_t out_len_)
{
    return vin_join(vin_run_(first_), first_len_, vin_run_(second_), second_len_,
                    vin_room_(out_), out_len_);
}

static inline vin_answer vin_log_shift(const uint8_t *log_, size_t log_len_,
                                       int64_t microseconds_,
                                       uint8_t *times_, size_t times_len_,
                                       uint8_t *out_, size_t out_len_)
{
    return vin_shift(vin_run_(log_), log_len_, microseconds_, vin_room_(times_), times_len_,
                     vin_room_(out_), out_len_);
}

static inline vin_answer vin_log_profile(const uint8_t *log_, size_t log_len_)
{
    return vin_profile(vin_run_(log_), log_len_);
}

static inline vin_replayed vin_log_replay(const uint8_t *log_, size_t log_len_,
                                          const uint8_t *events_, size_t events_len_,
                                          uint32_t capacity_, uint32_t slots_,
                                          uint8_t *out_, size_t out_len_)
{
    return vin_replay(vin_run_(log_), log_len_, vin_run_(events_), events_len_, capacity_, slots_,
                      vin_room_(out_), out_len_);
}

#ifdef __cplusplus
}
#endif

#endif
