#include "picture.h"

enum { COLUMN = 10 };

/* What stands in a track's word, both counted from 1. */
static void draw_word(FILE *to, const vin_plan *plan, uint32_t track, uint32_t word)
{
    static const char *const times[] = {"high", "low", "micro"};
    char text[COLUMN + 1];
    size_t dealt = (size_t)(word - 2) * plan->tracks + track - 1;
    if (word == 1)
        snprintf(text, sizeof text, "sync");
    else if (plan->crc && word == plan->words)
        snprintf(text, sizeof text, "CRC");
    else if (plan->frame_time && dealt < FRAME_TIME_WORDS)
        snprintf(text, sizeof text, "%s", times[dealt]);
    else
        snprintf(text, sizeof text, "d%zu", dealt + 1 - (plan->frame_time ? FRAME_TIME_WORDS : 0));
    fprintf(to, "%-*s", word == plan->words ? 0 : COLUMN, text);
}

/* Calls for the first five words of a frame, 0 for the gap, and the last three. */
static uint32_t column(const vin_plan *plan, unsigned n)
{
    return n < 5 ? n + 1 : n == 5 ? 0 : plan->words + n - 8;
}

enum { COLUMNS = 9 };

static void draw_group(FILE *to, const vin_plan *plan)
{
    for (uint32_t track = 0; track <= plan->tracks; track++) {
        if (track == 0)
            fprintf(to, "  %-9s", "");
        else
            fprintf(to, "  track %-3u", track);
        for (unsigned n = 0; n < COLUMNS; n++) {
            uint32_t word = column(plan, n);
            if (word == 0)
                fputs("..  ", to);
            else if (track == 0)
                fprintf(to, word == plan->words ? "word %u" : "word %-5u", word);
            else
                draw_word(to, plan, track, word);
        }
        fputc('\n', to);
    }
}

void draw_plan(FILE *to, const vin_plan *plan)
{
    fprintf(to, "legal\n");
    fprintf(to, "  words       %u in a frame, the sync word counted\n", plan->words);
    fprintf(to, "  tracks      %u in a group\n", plan->tracks);
    fprintf(to, "  frame time  %s\n", plan->frame_time ? "yes: three words open every group" : "no");
    if (plan->crc)
        fprintf(to, "  CRC         yes: the last word of every frame, with label %u\n", plan->crc_label);
    else
        fprintf(to, "  CRC         no\n");
    fprintf(to, "  parity      %s\n", plan->parity ? "yes: bit 1 of every word but the sync word" : "no");
    fprintf(to, "  fill        on bus %u\n", plan->fill_bus);
    for (unsigned bus = 0; bus < BUSES; bus++)
        if (plan->kinds[bus] != VIN_KIND_UNUSED)
            fprintf(to, "  bus %-7u %s\n", bus, kind_name(plan->kinds[bus]));
    fprintf(to, "\n%zu slots for data in a group, %zu bytes a group\n",
            VIN_GROUP_SLOTS(plan->words, plan->tracks, plan->frame_time, plan->crc),
            VIN_GROUP_BYTES(plan->words, plan->tracks));
    fputs("\nA group as it is stored, track by track; d1, d2, .. are its data slots in the order they are "
          "filled:\n\n",
          to);
    draw_group(to, plan);
}
