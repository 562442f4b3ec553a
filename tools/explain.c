#include "explain.h"

#include "../include/vinculampe.h"

#define BIT "the bit of the log where the item or end mark begins, counted from 0"
#define GROUP_FAULT "read, words, follow, check, info; dump marks it, salvage drops the group"
#define WORD "the word's number in the capture, counted from 0; its bytes begin at three times that"

/* By number, some of which no refusal has: who gives it, what its place counts, what it means to a person,
 * and what its second place is, if it has one. The short text is the header's. */
static const struct {
    const char *given_by, *place, *meaning, *second;
} numbers[] = {
    [VIN_DONE] = {"every command", "0", "The work is done."},
    [VIN_PLAN] =
        {"compose, read, words, items, follow, salvage, check, dump, info, plan", "0",
         "The plan breaks a rule. vin names the rule: the number of words or tracks is outside its\n"
         "limits, several tracks go with other than exactly one used bus, parity goes with a used bus\n"
         "above 7, the CRC word's label is above 7, or fill's bus is above 15, or above 7 with parity."},
    [VIN_LOG] =
        {"compose, list, info, pick, join, shift, profile, replay", BIT,
         "The log is longer than 32768 bytes (place 0), ends inside an item or without its end mark,\n"
         "has a kind other than 0 to 8, or something follows its end mark. Most often the file was\n"
         "cut, or is no house log."},
    [VIN_BUS] =
        {"compose", BIT,
         "An item is on a bus that the plan does not use or has as another kind. Mend the plan's bus\n"
         "lines, or compose with the plan that the log was made for."},
    [VIN_LIMIT] = {"compose, list, info, pick, join, shift, profile, replay", BIT,
                   "The micro of a time tag, or a response time, is 10000 or more."},
    [VIN_TIMES] =
        {"compose", "the number of times needed; or the index of the time that is too large, counted from 0",
         "A plan with frame time needs one time for each group, a plan without it none; and a time is\n"
         "below 42949672960000 microseconds."},
    [VIN_ROOM] =
        {"read, items, salvage, check, info, join, replay", "the bytes that the log would have",
         "The capture's log, or the joined log, would be longer than 32768 bytes. (To a caller in C\n"
         "also: the room lent for the output is too short. vin lends enough.)"},
    [VIN_TIME_ROOM] = {"callers in C only", "the number of times needed",
                       "The room lent for the frame times is too short. vin lends enough."},
    [VIN_CAPTURE] =
        {"read, words, items, follow, salvage, check, dump, info",
         "the capture's length in bytes; of items the number of words; of follow the bytes so far",
         "The capture is longer than 1048576 bytes, or is not whole groups: the file was cut, or the\n"
         "plan's words or tracks are not those of the capture. Of items: there are more than 349525\n"
         "words. Of follow: more than 2^40 bytes came, or the capture ended inside a group."},
    [VIN_SYNC] =
        {GROUP_FAULT, WORD,
         "A frame does not begin with the sync word FAF320. At word 0 the file is no capture; at the\n"
         "second frame the plan's words are probably wrong; later, words were lost."},
    [VIN_PARITY] = {GROUP_FAULT, WORD,
                    "The plan has parity and this word has an even number of ones: it was damaged, or the\n"
                    "capture was made without parity."},
    [VIN_CRC] = {GROUP_FAULT, WORD,
                 "The last word of this frame is not the CRC word of the words before it, with the plan's\n"
                 "label: the frame was damaged, or the capture was made without CRC or with another\n"
                 "crc-label."},
    [VIN_FRAME_TIME] =
        {GROUP_FAULT, WORD,
         "A group begins with three words of frame time on bus 0: label 7 (high), 6 (low) and 5\n"
         "(micro, below 10000). This is not such a word: it was damaged, or the capture was made\n"
         "without frame time."},
    [VIN_DATA_WORD] =
        {"read, items, follow, check, info; dump marks it, salvage drops the word",
         WORD "; of items its number among the words",
         "This word starts or continues no item: its bus is unused; its label does not follow what\n"
         "came before it (a low syllable without its high one, a time word without its command); it is\n"
         "a word of another bus or item inside an item that is not finished; a micro or response is\n"
         "10000 or more; a notice's two labels are not one channel's pair; or it is fill other than\n"
         "AAAA. Or the capture ends inside an item; then the place is that item's first word. vin says\n"
         "which it is, what was awaited, and where the unfinished item began: the second place. With\n"
         "several tracks that may be the larger number, for words are dealt over the tracks.",
         "the first word of the item that was unfinished when the word came, or the word itself if\n"
         "          none was: a command, or an ARINC word after its low syllable, is finished"},
    [VIN_FILL] =
        {"check; dump marks it", WORD,
         "Fill stands where composing puts none: before a data word, in a group after the last data\n"
         "word's group, or on another bus than the plan's fill-bus; vin says which. The plain reading,\n"
         "vin read, passes over such fill."},
    [VIN_NOTICE] =
        {"compose, read, items, follow, check, info",
         "in a log the bit where the notice begins, in a capture its word, both counted from 0",
         "An error notice tells of the next ARINC word of its bus and channel. This one is open: the\n"
         "channel's next notice, or the end, comes before such a word. It is the earliest such notice;\n"
         "in a capture of several tracks the earliest in dealt order; follow names the first that it sees to\n"
         "be open. vin list shows such a log."},
    [VIN_STREAM] =
        {"callers in C only", "0",
         "Of a capture as it arrives: a piece is longer than 4096 bytes, less than 12288 bytes are lent for\n"
         "the log, or, with frame time, fewer entries than the groups that the piece fills; the state was\n"
         "closed, is not of 7168 bytes, or its numbers do not fit together. It comes before all else and\n"
         "changes nothing. vin follow lends enough and keeps its state."},
    [VIN_SHIFT] =
        {"shift",
         "0 for the shift; the bit of the log where the item begins; or the frame time's index; each from 0",
         "Times are moved by at most 31622400000000 microseconds, 366 days, either way; and a time tag\n"
         "or a frame time may neither fall below zero nor reach 42949672960000. vin says which it is."},
    [VIN_PROFILE] =
        {"profile", BIT,
         "This item breaks a rule of the one-bus test profile, and no item before it does: it is on\n"
         "another bus than the first item; it is an ARINC word or a notice; it is a command without its\n"
         "time tag, and the item just before it is no tagged command on the same side; it is a status\n"
         "without its response time; its time tag is earlier than the tag before it; or it is a user\n"
         "word. vin says which."},
    [VIN_REPLAY] =
        {"replay", "the bit of the log where its first overflow mark begins, counted from 0; or 0",
         "A log that is replayed has no overflow marks. Or a limit is broken: a buffer has 8 to 4096\n"
         "words, a group 1 to 2048 slots, and there are at most 65535 events; or an event is neither an\n"
         "item that arrives nor a group that leaves; or more items arrive than the log has. vin says\n"
         "which."},
    [VIN_REPORT_ROOM] = {"callers in C only", "the number of entries needed",
                         "The room lent for the report of a salvage is too short. vin lends enough."},
};
enum { NUMBERS = sizeof numbers / sizeof *numbers };

bool explain(FILE *to, unsigned long number)
{
    if (number >= NUMBERS || !numbers[number].meaning)
        return false;
    fprintf(to, "%lu: %s\n\n%s\n\nGiven by: %s\nPlace:    %s\n", number, vin_text((uint32_t)number),
            numbers[number].meaning, numbers[number].given_by, numbers[number].place);
    if (numbers[number].second)
        fprintf(to, "Second:   %s\n", numbers[number].second);
    return true;
}

void explain_all(FILE *to)
{
    for (uint32_t n = 0; n < NUMBERS; n++)
        if (numbers[n].meaning)
            fprintf(to, "%2u  %s\n", n, vin_text(n));
}
