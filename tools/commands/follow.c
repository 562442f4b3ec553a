#define _XOPEN_SOURCE 700
#include <errno.h>
#include <fcntl.h>
#include <inttypes.h>
#include <stdio.h>
#include <stdlib.h>
#include <string.h>
#include <time.h>
#include <unistd.h>

#include "../commands.h"
#include "../growing.h"
#include "../paths.h"
#include "../reading.h"
#include "../unpack.h"
#include "../walk.h"

enum { GROUP_MOST = 3 * 512 * 4, TIMES_ROOM = VIN_STREAM_TIMES_MAX * VIN_TIME_BYTES };

/* What is followed, and what is made of it. */
typedef struct {
    plan_file plan;
    const char *name; /* of the capture */
    int file;
    size_t piece;   /* bytes of one at most */
    uint64_t taken; /* bytes so far */
    uint64_t timed; /* frame times so far */
    bool list, progress;
    growing log, times;
    unpacking items;
    uint8_t state[VIN_STATE_BYTES];
    uint8_t bytes[GROUP_MOST
                  + VIN_PIECE_MAX]; /* those of the last group that was not whole, then the last piece */
    size_t waiting;                 /* of them, before the last piece */
} following;

/* ==== What is handed out ==== */

/* A small number of the state (docs/RULES.md): 8 is how many of the log's bits are not yet a byte, 9 has
 * them. */
static unsigned state_number(const following *f, size_t n)
{
    return f->state[8 * n + 7];
}

static bool hand_out(following *f, const uint8_t *log, const uint8_t *times, const vin_answer *a)
{
    run text = {NULL, 0};
    bool good = grow(&f->log, log, a->bytes);
    f->timed += a->times;
    if (good && f->times.name && a->times > 0) {
        good = times_text(times, a->times, &text) && grow(&f->times, text.bytes, text.length);
        free(text.bytes);
    }
    if (good && f->list) {
        unpack(&f->items, log, a->bytes, state_number(f, 8), state_number(f, 9), stdout);
        good = fflush(stdout) == 0;
        if (!good)
            complain_errno("standard output");
    }
    return good;
}

/* ==== Progress ==== */

static void say_progress(const following *f, bool last)
{
    static time_t said;
    time_t now = time(NULL);
    if (!f->progress || (now == said && !last))
        return;
    said = now;
    fprintf(stderr, last ? "\r%*s\r" : "\r%*s\rvin: %s: %" PRIu64 " bytes", 79, "", input_name(f->name).text,
            f->taken);
    fflush(stderr);
}

/* ==== Refusals ==== */

/* Where a word stands, which need not be at hand. */
static place_text place_of(const vin_plan *plan, uint64_t place)
{
    uint64_t in_group = place % group_words(plan);
    stored s = {0};
    s.place = place;
    s.group = place / group_words(plan);
    s.track = (uint32_t)(in_group / plan->words) + 1;
    s.position = (uint32_t)(in_group % plan->words) + 1;
    return tell_place(&s);
}

/* Why a word of the group that was refused is; that group is at hand, what stands before it is not. */
static void tell_why(const following *f, const vin_answer *a, uint32_t *word, char why[WHY_MOST])
{
    const vin_plan *plan = &f->plan.plan;
    uint64_t words = group_words(plan), first = (f->taken - f->waiting) / 3, group = a->place / words;
    call c = {.plan = f->plan, .capture_name = f->name};
    vin_answer here = *a;
    c.capture.bytes = (uint8_t *)f->bytes + 3 * (group * words - first);
    c.capture.length = 3 * words;
    here.place -= group * words;
    stored s = stored_at(plan, &c.capture, here.place);
    *word = s.word;
    if (a->number != VIN_DATA_WORD || a->second / words == group) {
        here.second = a->number == VIN_DATA_WORD ? a->second - group * words : 0;
        tell_bad_word(&c, &s, &here, why);
    } else
        snprintf(why, WHY_MOST, "it does not continue the item that begins at %s",
                 place_of(plan, a->second).text);
}

/* Is the refused word in the groups that the last piece filled? */
static bool is_at_hand(const following *f, size_t piece, const vin_answer *a)
{
    uint64_t group_bytes = 3 * group_words(&f->plan.plan), group = 3 * a->place / group_bytes * group_bytes;
    return group + f->waiting >= f->taken && group + group_bytes <= f->taken + piece;
}

static void say_word_refused(const following *f, size_t piece, const vin_answer *a)
{
    char why[WHY_MOST];
    uint32_t word;
    shown_name name = input_name(f->name);
    place_text place = place_of(&f->plan.plan, a->place);
    if (piece > 0 && is_at_hand(f, piece, a)) {
        tell_why(f, a, &word, why);
        complain("%s: refused by %" PRIu32 " at %s: %06" PRIX32 ": %s", name.text, a->number, place.text,
                 word, why);
    } else if (a->number == VIN_DATA_WORD)
        complain("%s: refused by 13 at %s: the capture ends inside the item that begins here", name.text,
                 place.text);
    else
        complain("%s: refused by %" PRIu32 " at %s: %s: the channel's next notice, or the end, comes first",
                 name.text, a->number, place.text, vin_text(a->number));
}

/* By a piece of so many bytes, or, of none, by the close. */
static int say_refused(following *f, size_t piece, const vin_answer *a)
{
    uint64_t group = 3 * group_words(&f->plan.plan);
    shown_name name = input_name(f->name);
    say_progress(f, true);
    if (a->number != VIN_CAPTURE)
        say_word_refused(f, piece, a);
    else if (piece > 0)
        complain("%s: refused by 8 at %" PRIu64 ": the capture has more than %" PRIu64 " bytes", name.text,
                 a->place, VIN_STREAM_MAX);
    else
        complain("%s: refused by 8 at %" PRIu64 ": %" PRIu64 " bytes are not whole groups of %" PRIu64
                 " bytes; left over: %" PRIu64,
                 name.text, a->place, a->place, group, a->place % group);
    say_part(&f->log);
    say_part(&f->times);
    return REFUSED;
}

/* ==== Following ==== */

/* The bytes that wait behind the last whole group. */
static void keep_waiting(following *f, size_t piece)
{
    size_t group = VIN_GROUP_BYTES(f->plan.plan.words, f->plan.plan.tracks), all = f->waiting + piece;
    memmove(f->bytes, f->bytes + all / group * group, all % group);
    f->waiting = all % group;
    f->taken += piece;
}

/* A piece of the bytes, which stands behind those that wait. */
static int follow_piece(following *f, size_t piece)
{
    uint8_t log[VIN_STREAM_LOG_ROOM], times[TIMES_ROOM];
    vin_answer a = vin_plan_stream_feed(f->state, sizeof f->state, f->bytes + f->waiting, piece, log,
                                        sizeof log, times, sizeof times);
    if (!hand_out(f, log, times, &a))
        return MISUSE;
    if (a.number != VIN_DONE)
        return say_refused(f, piece, &a);
    keep_waiting(f, piece);
    say_progress(f, false);
    return DONE;
}

static int follow_end(following *f)
{
    uint8_t log[VIN_STREAM_LOG_ROOM];
    vin_answer a = vin_plan_stream_close(f->state, sizeof f->state, log, sizeof log);
    if (a.number != VIN_DONE)
        return say_refused(f, 0, &a);
    say_progress(f, true);
    if (!hand_out(f, log, NULL, &a))
        return MISUSE;
    if (f->list)
        end_unpacking(&f->items, stdout);
    if (!end_growing(&f->log) || !end_growing(&f->times))
        return MISUSE;
    if (f->log.name && !f->times.name)
        say_times_unwritten(f->name, f->timed, f->log.name);
    return DONE;
}

/* What is read at once: a listing has one group at most, so that the bits that are left behind its last item
 * are at hand. */
static size_t piece_most(const following *f)
{
    size_t left = VIN_GROUP_BYTES(f->plan.plan.words, f->plan.plan.tracks) - f->waiting;
    return f->list && left < f->piece ? left : f->piece;
}

/* Each piece as it comes: what a read gives, however little. */
static int follow_all(following *f)
{
    for (;;) {
        ssize_t got = read(f->file, f->bytes + f->waiting, piece_most(f));
        if (got == 0)
            return follow_end(f);
        if (got > 0) {
            int status = follow_piece(f, (size_t)got);
            if (status != DONE)
                return status;
        } else if (errno != EINTR) {
            say_progress(f, true);
            complain_errno("%s", input_name(f->name).text);
            say_part(&f->log);
            say_part(&f->times);
            return MISUSE;
        }
    }
}

/* ==== The command ==== */

/* A part is written over: it may be no other file of the command. */
static bool part_is_apart(const char *name, const char *const others[], size_t count)
{
    char *part = part_of(name);
    bool apart = true;
    if (!part)
        return true;
    identity is = identity_of(part, STDOUT_FILENO);
    for (size_t n = 0; n < count && apart; n++)
        if (others[n] && !is_standard(others[n])) {
            identity other = identity_of(others[n], STDIN_FILENO);
            apart = !same_identity(&is, &other);
        }
    if (!apart)
        complain("follow: %s is written first, and is named, too", show_name(part).text);
    free(part);
    return apart;
}

static bool good_arguments(const arguments *given, const following *f)
{
    const char *out = given->values[OPT_OUT], *times = given->values[OPT_TIMES_OUT];
    const char *const names[] = {given->files[0], f->name, out, times};
    if (!out && !f->list)
        complain("follow: no output is named: -o FILE, -o - for standard output, or --list");
    else if (f->list && ((out && is_standard(out)) || (times && is_standard(times))))
        complain("follow: --list takes standard output, and so does another output");
    else if (is_standard(given->files[0]) && is_standard(f->name))
        complain("follow: standard input can be read only once");
    else if (f->piece < 1 || f->piece > VIN_PIECE_MAX)
        complain("follow: --piece is 1 to %d bytes", VIN_PIECE_MAX);
    else
        return part_is_apart(out, names, 4) && part_is_apart(times, names, 4);
    return false;
}

static int follow_files(following *f, const arguments *given)
{
    vin_answer a;
    if (!read_plan(given->files[0], &f->plan))
        return MISUSE;
    a = vin_plan_stream_open(&f->plan.plan, f->state, sizeof f->state);
    if (a.number != VIN_DONE) {
        say_illegal(&f->plan);
        return REFUSED;
    }
    f->file = is_standard(f->name) ? STDIN_FILENO : open(f->name, O_RDONLY | O_CLOEXEC);
    if (f->file < 0) {
        complain_errno("%s", input_name(f->name).text);
        return MISUSE;
    }
    if (!begin_growing(&f->log, given->values[OPT_OUT])
        || !begin_growing(&f->times, given->values[OPT_TIMES_OUT]))
        return MISUSE;
    return follow_all(f);
}

static int run_follow(const arguments *given)
{
    static following f;
    memset(&f, 0, sizeof f);
    f.name = given->count > 1 ? given->files[1] : "-";
    f.file = f.log.file = f.times.file = -1;
    f.list = given->values[OPT_LIST];
    f.piece = given->values[OPT_PIECE] ? (size_t)given->numbers[OPT_PIECE] : VIN_PIECE_MAX;
    f.progress = isatty(STDERR_FILENO) && !given->values[OPT_QUIET];
    if (!good_arguments(given, &f))
        return MISUSE;
    int status = follow_files(&f, given);
    if (f.file >= 0 && f.file != STDIN_FILENO)
        close(f.file);
    drop_growing(&f.log);
    drop_growing(&f.times);
    return status;
}

static const option_row options[] = {
    {OPT_OUT, OUTPUT, "LOG", "the log, as it comes"},
    {OPT_TIMES_OUT, OUTPUT, "FILE", "the frame times, as they come"},
    {OPT_LIST, FLAG, NULL, "print the items as they are complete, a line each, as vin list does"},
    {OPT_PIECE, NUMBER, "BYTES", "read at most so many bytes at once: 1 to 4096, which is usual"},
    {OPT_QUIET, FLAG, NULL, "no progress, which is shown where standard error is a terminal"},
    {OPTIONS, FLAG, NULL, NULL},
};

const command follow_command = {
    .name = "follow",
    .usage = "PLAN [CAPTURE] (-o LOG | --list) [--times-out FILE] [--piece BYTES] [--quiet]",
    .about = "read a capture as it arrives, of any length up to 2^40 bytes",
    .more =
        "\nCAPTURE is by default standard input. The plain reading, group by group; the log may be longer "
        "than\n"
        "other commands take. On a fault what was complete before its group is kept, without an end mark.\n"
        "LOG and FILE are written as LOG.part and FILE.part and get their names when the capture has ended\n"
        "well; after a fault the parts stay.\n",
    .least = 1,
    .most = 2,
    .output = PRINTS,
    .options = options,
    .run = run_follow,
};
