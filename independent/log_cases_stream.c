/* cut PLAN CAPTURE FIRST LOG TIMES -> NUMBER PLACE MADE SECOND ENTRIES ROW
 * add STATE PIECE LOG TIMES -> NUMBER PLACE MADE SECOND ENTRIES ROW
 * end STATE LOG -> NUMBER PLACE MADE SECOND
 *
 * The calls of a capture as it arrives (document 02, K4). */
#include <string.h>

#include "log_cases.h"

enum { STATE_ROOM = 8000 };

static void say_numbers(ind_answer a)
{
    printf(" %" PRIu32 " %" PRIu64 " %" PRIu64 " %" PRIu64 " %" PRIu64, a.number, a.place, a.second, a.bytes, a.times);
}

/* The answer asked for, and the log; a refusal may have both. */
static void say_handed(ind_answer a, uint64_t bytes, const run *log, const char *asked)
{
    printf(" %" PRIu64, digest_of(log));
    say_unless(a.number == number_field(asked, 1) && a.place == number_field(asked, 2) && a.second == number_field(asked, 4));
    say_unless(is_made(bytes, log, asked));
}

/* The room behind so many bytes of it, which were written: as many as there are, at most so many. */
static size_t room_behind(const run *r, size_t written, size_t room)
{
    return r->length - written < room ? r->length - written : room;
}

/* Opened; the capture's first bytes fed, then the rest; closed. What the calls hand out stands one behind the other. The answer is that of
 * the first call that is refused, or of the close. */
void cut_line(const char *line, const char *asked)
{
    static run kinds, capture, log, times;
    static uint8_t state[IND_STATE_BYTES];
    size_t first = (size_t)number_field(line, 10), room = (size_t)number_field(line, 11), times_room = (size_t)number_field(line, 12);
    size_t bytes = 0, entries = 0;
    ind_answer calls[4], answer;
    run_field(line, 8, &kinds);
    run_field(line, 9, &capture);
    log.length = 40000, times.length = 1024;
    memset(log.bytes, 0xA5, sizeof log.bytes);
    memset(times.bytes, 0xA5, sizeof times.bytes);
    if (first > capture.length)
        first = capture.length;
    calls[0] = ind_stream_open(PLAN_FIELDS(line), kinds.bytes, kinds.length, state, sizeof state);
    for (int n = 1; n < 3; n++) {
        calls[n] = ind_stream_feed(state, sizeof state, capture.bytes + (n == 1 ? 0 : first), n == 1 ? first : capture.length - first,
                                   log.bytes + bytes, room_behind(&log, bytes, room), times.bytes + 8 * entries,
                                   room_behind(&times, 8 * entries, times_room));
        bytes += (size_t)calls[n].bytes;
        entries += (size_t)calls[n].times;
    }
    calls[3] = ind_stream_close(state, sizeof state, log.bytes + bytes, room_behind(&log, bytes, room));
    bytes += (size_t)calls[3].bytes;
    answer = calls[3];
    printf("cut");
    for (int n = 3; n >= 0; n--)
        if (calls[n].number != 0)
            answer = calls[n];
    for (int n = 0; n < 4; n++)
        say_numbers(calls[n]);
    say_handed(answer, bytes, &log, asked);
    say_times(entries, &times, asked, 5);
    printf("\n");
}

void add_line(const char *line, const char *asked)
{
    static run state, piece, log, times;
    ind_answer a;
    run_field(line, 1, &state);
    run_field(line, 2, &piece);
    room_field(line, 3, &log);
    room_field(line, 4, &times);
    if (state.length > STATE_ROOM)
        state.length = STATE_ROOM;
    a = ind_stream_feed(state.bytes, state.length, piece.bytes, piece.length, log.bytes, log.length, times.bytes, times.length);
    printf("add");
    say_numbers(a);
    say_handed(a, a.bytes, &log, asked);
    say_times(a.times, &times, asked, 5);
    printf(" %" PRIu64 "\n", digest_of(&state));
}

void end_line(const char *line, const char *asked)
{
    static run state, log;
    ind_answer a;
    run_field(line, 1, &state);
    room_field(line, 2, &log);
    if (state.length > STATE_ROOM)
        state.length = STATE_ROOM;
    a = ind_stream_close(state.bytes, state.length, log.bytes, log.length);
    printf("end");
    say_numbers(a);
    say_handed(a, a.bytes, &log, asked);
    printf(" %" PRIu64 "\n", digest_of(&state));
}
