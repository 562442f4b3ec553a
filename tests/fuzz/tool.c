/* A libFuzzer target over the tool's own code: its parsers, its messages and its walk over a capture, on whatever bytes the fuzzer
 * makes. The library is asked too, and what the tool says of a word must be what the library answers.
 *
 * The input: a byte that says what is done with the rest: 0 a plan, 1 times, 2 a listing, 3 a log, 4 a capture, 5 data words dealt into
 * a capture, 6 as 5 with a byte changed, 7 a word that is a set of buses or a shift, 8 events. For 4 to 6 seven bytes make a plan, one
 * says whether a group of fill is behind, or which byte is changed, and one how; where that one is a multiple of eight, the commands are
 * run as well. With the last bit of the plan's third byte these two are also its CRC label and its fill bus. */
#define _GNU_SOURCE
#include <stdio.h>
#include <stdlib.h>
#include <string.h>
#include <sys/mman.h>
#include <unistd.h>

#include "../../include/vinculampe.h"
#include "../../tools/buses.h"
#include "../../tools/commands.h"
#include "../../tools/events.h"
#include "../../tools/hints.h"
#include "../../tools/lister.h"
#include "../../tools/listing.h"
#include "../../tools/marks.h"
#include "../../tools/picture.h"
#include "../../tools/refusal.h"
#include "../../tools/shift.h"
#include "deal.h"

size_t ind_list(const uint8_t *log, size_t log_len, char *text, size_t room);

enum { TEXT_ROOM = 262400, CAPTURE_ROOM = 400000 };

static void must(bool holds)
{
    if (!holds)
        abort();
}

/* ==== In the place of the lister, which is a program of its own ==== */

int list_log(const char *name, const run *log, run *text)
{
    unsigned number;
    unsigned long long place;
    text->bytes = malloc(TEXT_ROOM + 1);
    must(text->bytes != NULL);
    text->length = ind_list(log->bytes, log->length, (char *)text->bytes, TEXT_ROOM);
    text->bytes[text->length] = 0;
    if (sscanf((char *)text->bytes, "refused %u at %llu", &number, &place) != 2)
        return DONE;
    say_listing_refused(name, log, number, place);
    free(text->bytes);
    return REFUSED;
}

/* ==== Files that the tool can open ==== */

typedef struct {
    int file;
    char name[32];
} memory;

static memory file_of(const uint8_t *bytes, size_t length)
{
    memory m;
    m.file = memfd_create("fuzz", 0);
    must(m.file >= 0 && write(m.file, bytes, length) == (ssize_t)length);
    snprintf(m.name, sizeof m.name, "/dev/fd/%d", m.file);
    return m;
}

static run bytes_of(const memory *m)
{
    off_t size = lseek(m->file, 0, SEEK_END);
    run all = {malloc((size_t)size + 1), (size_t)size};
    must(all.bytes != NULL && pread(m->file, all.bytes, all.length, 0) == size);
    return all;
}

/* Runs a command on files, -o being a new one; what it wrote. */
static int run_files(const command *c, const memory *one, const memory *two, run *wrote)
{
    memory out = file_of(NULL, 0);
    arguments a = {{one->name, two ? two->name : NULL}, two ? 2 : 1, {NULL}, {0}};
    a.values[OPT_OUT] = out.name;
    int status = c->run(&a);
    *wrote = bytes_of(&out);
    close(out.file);
    return status;
}

static void try_plan(const uint8_t *rest, size_t size)
{
    plan_file p;
    memory m = file_of(rest, size);
    if (read_plan(m.name, &p)) {
        if (plan_is_legal(&p.plan)) {
            char picture[8192];
            FILE *to = fmemopen(picture, sizeof picture, "w");
            must(to != NULL);
            draw_plan(to, &p.plan);
            fclose(to);
        } else
            say_illegal(&p);
    }
    close(m.file);
}

static void try_times(const uint8_t *rest, size_t size)
{
    times_file times;
    run text = {NULL, 0};
    memory m = file_of(rest, size);
    if (read_times(m.name, &times)) {
        must(times_text(times.bytes.bytes, times.bytes.length / VIN_TIME_BYTES, &text));
        free(text.bytes);
    }
    drop_times(&times);
    close(m.file);
}

/* A log that is listed packs to itself. */
static void packs_to_itself(const run *log)
{
    run text, again;
    memory m;
    must(list_log("log", log, &text) == DONE);
    m = file_of(text.bytes, text.length);
    must(run_files(&pack_command, &m, NULL, &again) == DONE);
    must(again.length == log->length && memcmp(again.bytes, log->bytes, log->length) == 0);
    free(text.bytes);
    free(again.bytes);
    close(m.file);
}

/* What packs is a log. */
static void try_listing(const uint8_t *rest, size_t size)
{
    run log;
    memory m = file_of(rest, size);
    if (run_files(&pack_command, &m, NULL, &log) == DONE)
        packs_to_itself(&log);
    free(log.bytes);
    close(m.file);
}

/* The line that a message has of an item is the listing's. */
static void same_line(void *with, const item *i, size_t number, size_t bit)
{
    const char **line = with;
    item_line l = line_of_item(i);
    (void)number;
    (void)bit;
    must(strncmp(*line, l.text, strlen(l.text)) == 0 && (*line)[strlen(l.text)] == '\n');
    *line += strlen(l.text) + 1;
}

static void same_lines(run *text)
{
    char *whole = strdup((const char *)text->bytes);
    const char *line = whole;
    must(whole != NULL && each_item(text, same_line, &line) && strncmp(line, "end ", 4) == 0);
    free(whole);
}

static void try_log(const uint8_t *rest, size_t size)
{
    static const command *const commands_of_logs[] = {&list_command, &info_command};
    run log = {(uint8_t *)rest, size}, text;
    memory m = file_of(rest, size);
    int status = list_log("log", &log, &text);
    if (status == DONE) {
        same_lines(&text);
        free(text.bytes);
        packs_to_itself(&log);
    }
    must((run_files(&profile_command, &m, NULL, &text) == DONE) == (vin_log_profile(log.bytes, log.length).number == VIN_DONE));
    free(text.bytes);
    for (int n = 0; n < 2; n++) {
        must(run_files(commands_of_logs[n], &m, NULL, &text) == status);
        free(text.bytes);
    }
    close(m.file);
}

/* Events that are read are no more than the library may be given, and the command ends as the library answers. */
static void try_events(const uint8_t *rest, size_t size)
{
    static const uint8_t log[] = {0x12, 0x42, 0x10, 0xC0, 0, 0, 0, 0x40, 0x05, 0x32, 0x5F, 0x77, 0x80};
    static uint8_t stored[VIN_LOG_MAX];
    events e;
    memory m = file_of(rest, size), l = file_of(log, sizeof log), out = file_of(NULL, 0);
    arguments a = {{l.name}, 1, {NULL}, {0}};
    int status = MISUSE;
    if (read_events(m.name, &e)) {
        must(e.count > VIN_EVENTS_MAX ? e.row.length == VIN_EVENTS_MAX + 1 : e.row.length == e.count);
        vin_replayed r = vin_log_replay(log, sizeof log, e.row.bytes, e.row.length, 8, 1, stored, sizeof stored);
        status = r.number == VIN_DONE ? DONE : REFUSED;
    }
    drop_events(&e);
    a.values[OPT_OUT] = out.name;
    a.values[OPT_EVENTS] = m.name;
    a.values[OPT_CAPACITY] = a.values[OPT_SLOTS] = "";
    a.numbers[OPT_CAPACITY] = 8;
    a.numbers[OPT_SLOTS] = 1;
    must(replay_command.run(&a) == status);
    close(m.file);
    close(l.file);
    close(out.file);
}

/* ==== Captures ==== */

static uint8_t log_room[VIN_LOG_MAX], times_room[VIN_READ_GROUPS_MAX * VIN_TIME_BYTES], made[CAPTURE_ROOM];

/* The first fault of the marks is the refusal; without one both readings accept. */
static void marks_agree(const vin_plan *plan, const run *capture, vin_answer plain, vin_answer closed)
{
    uint64_t count = capture_words(capture), faults = 0, items = 0;
    mark *marks = mark_words(plan, capture);
    must(marks != NULL);
    for (uint64_t n = 0; n < count; n++) {
        faults += marks[n].fault != 0;
        items += marks[n].starts;
    }
    if ((plain.number >= VIN_SYNC && plain.number <= VIN_DATA_WORD) || plain.number == VIN_NOTICE)
        must(marks[plain.place].fault == plain.number && marks[plain.place].why);
    else if (closed.number == VIN_FILL)
        must(marks[closed.place].fault == VIN_FILL && marks[closed.place].why);
    else
        must(faults == 0);
    if (plain.number == VIN_DONE) {
        run log = {log_room, plain.bytes}, text;
        must(list_log("log", &log, &text) == DONE);
        text.bytes[text.length] = 0;
        must(strtoull(strstr((char *)text.bytes, "end ") + 4, NULL, 10) == items);
        free(text.bytes);
    }
    drop_marks(marks, count);
}

static memory text_of(const vin_plan *p)
{
    static const char *const kinds[] = {"unused", "1553", "arinc"}, *const choices[] = {"no", "yes"};
    char text[1024];
    int n = snprintf(text, sizeof text, "words %u\ntracks %u\nframe-time %s\ncrc %s\nparity %s\ncrc-label %u\nfill-bus %u\n", p->words,
                     p->tracks, choices[p->frame_time], choices[p->crc], choices[p->parity], p->crc_label, p->fill_bus);
    for (int bus = 0; bus < 16; bus++)
        n += snprintf(text + n, sizeof text - (size_t)n, "bus %d %s\n", bus, kinds[p->kinds[bus]]);
    return file_of((uint8_t *)text, (size_t)n);
}

/* Salvage with its report: a line an entry and one behind; the log is the library's. */
static void try_salvage(const run *capture, const vin_plan *p, const memory *plan_text, const memory *file)
{
    static uint64_t report[CAPTURE_ROOM / 3];
    vin_salvaged s = vin_plan_salvage(p, capture->bytes, capture->length, log_room, sizeof log_room, times_room, sizeof times_room, report,
                                      sizeof report / sizeof *report);
    memory out = file_of(NULL, 0), text = file_of(NULL, 0);
    arguments a = {{plan_text->name, file->name}, 2, {NULL}, {0}};
    uint64_t lines = 0;
    a.values[OPT_OUT] = out.name;
    a.values[OPT_REPORT] = text.name;
    a.values[OPT_JSON] = capture->length % 2 ? "" : NULL;
    must(salvage_command.run(&a) == (s.number == VIN_DONE ? DONE : REFUSED));
    run wrote = bytes_of(&out), said = bytes_of(&text);
    for (size_t n = 0; n < said.length; n++)
        lines += said.bytes[n] == '\n';
    must(wrote.length == s.bytes && memcmp(wrote.bytes, log_room, wrote.length) == 0);
    must(lines == (s.number == VIN_DONE ? s.entries + 1 : 0));
    free(wrote.bytes);
    free(said.bytes);
    close(out.file);
    close(text.file);
}

/* A capture as it arrives: it ends as the plain reading does, but for a log that is too long; where that accepts the log is the same. */
static void try_follow(const vin_plan *p, const run *capture, vin_answer plain, const memory *plan_text, const memory *file)
{
    memory out = file_of(NULL, 0);
    arguments a = {{plan_text->name, file->name}, 2, {NULL}, {0}};
    bool accepts = plain.number == VIN_DONE || plain.number == VIN_ROOM;
    a.values[OPT_OUT] = out.name;
    a.values[OPT_PIECE] = capture->length % 2 ? "" : NULL;
    a.numbers[OPT_PIECE] = 1 + capture->length % VIN_PIECE_MAX;
    must(follow_command.run(&a) == (accepts ? DONE : REFUSED));
    run wrote = bytes_of(&out);
    if (plain.number == VIN_DONE) {
        vin_plan_read(p, capture->bytes, capture->length, log_room, sizeof log_room, times_room, sizeof times_room);
        must(wrote.length == plain.bytes && memcmp(wrote.bytes, log_room, wrote.length) == 0);
    }
    free(wrote.bytes);
    close(out.file);
}

/* The commands over files, which take longer: they end as the library answers. */
static void try_commands(const run *capture, const vin_plan *p, vin_answer plain, vin_answer closed)
{
    memory m = file_of(capture->bytes, capture->length), text = text_of(p), *plan_text = &text;
    bool dealt = plain.number != VIN_PLAN && plain.number != VIN_CAPTURE;
    run wrote;
    must(run_files(&read_command, plan_text, &m, &wrote) == (plain.number == VIN_DONE ? DONE : REFUSED));
    must(wrote.length == plain.bytes && memcmp(wrote.bytes, log_room, wrote.length) == 0);
    free(wrote.bytes);
    must(run_files(&check_command, plan_text, &m, &wrote) == (closed.number == VIN_DONE ? DONE : REFUSED));
    free(wrote.bytes);
    must(run_files(&info_command, plan_text, &m, &wrote) == (plain.number == VIN_DONE ? DONE : REFUSED));
    free(wrote.bytes);
    must(run_files(&dump_command, plan_text, &m, &wrote) == (dealt ? DONE : REFUSED));
    free(wrote.bytes);
    try_salvage(capture, p, plan_text, &m);
    try_follow(p, capture, plain, plan_text, &m);
    close(m.file);
    close(text.file);
}

static void try_capture(const uint8_t *data, size_t size, int how)
{
    if (size < 9)
        return;
    vin_plan p = VIN_PLAN_INIT(((uint32_t)data[0] << 8 | data[1]) % 640, 1 + (data[2] >> 6));
    const uint8_t *rest = data + 9;
    run capture = {(uint8_t *)rest, size - 9};
    p.frame_time = data[2] >> 1 & 1;
    p.crc = data[2] >> 2 & 1;
    p.parity = data[2] >> 3 & 1;
    if (data[2] & 1) {
        p.crc_label = data[7] % 9;
        p.fill_bus = data[8] % 18;
    }
    for (int bus = 0; bus < 16; bus++)
        p.kinds[bus] = (uint8_t)((data[3 + bus / 4] >> (6 - 2 * (bus % 4)) & 3) % 3);
    if (how > 4) {
        capture = (run){made, deal(p.words, p.tracks, p.frame_time, p.crc, p.parity, p.crc_label, p.fill_bus, p.kinds, rest, size - 9,
                                   data[7] >= 192, made, sizeof made)};
        if (how == 6 && capture.length > 0)
            made[(size_t)data[7] * 4099 % capture.length] ^= data[8] | 1;
    }
    vin_answer closed = vin_plan_read_closed(&p, capture.bytes, capture.length, log_room, sizeof log_room, times_room, sizeof times_room);
    vin_answer plain = vin_plan_read(&p, capture.bytes, capture.length, log_room, sizeof log_room, times_room, sizeof times_room);
    if (plain.number != VIN_PLAN && plain.number != VIN_CAPTURE && plain.number != VIN_ROOM)
        marks_agree(&p, &capture, plain, closed);
    if (plain.number != VIN_PLAN)
        say_hints("note", "capture", &p, &capture);
    if (data[8] % 8 == 0)
        try_commands(&capture, &p, plain, closed);
}

/* What the user writes behind pick and --by. */
static void try_word(const uint8_t *rest, size_t size)
{
    char word[64];
    uint16_t buses = 0;
    int64_t shift = 0;
    size_t length = size < sizeof word - 1 ? size : sizeof word - 1;
    memcpy(word, rest, length);
    word[length] = 0;
    if (read_buses("pick", word, &buses))
        must(buses != 0);
    if (read_shift("shift", word, &shift))
        must(word[0] == '-' ? shift <= 0 : shift >= 0);
}

int LLVMFuzzerTestOneInput(const uint8_t *data, size_t size)
{
    if (size < 1)
        return 0;
    int what = data[0] % 9;
    switch (what) {
    case 0: try_plan(data + 1, size - 1); break;
    case 1: try_times(data + 1, size - 1); break;
    case 2: try_listing(data + 1, size - 1); break;
    case 3: try_log(data + 1, size - 1); break;
    case 7: try_word(data + 1, size - 1); break;
    case 8: try_events(data + 1, size - 1); break;
    default: try_capture(data + 1, size - 1, what);
    }
    return 0;
}
