/* Document 02, K2, of data words as they come: "Call a notice open if no ARINC word of its bus and channel stands between it and their
 * next notice, or the end." */
#include "rules.h"

/* A notice's information begins with its channel's high label, an ARINC word with its high syllable. */
uint32_t word_begins(const plan *p, word w, uint32_t *channel)
{
    uint32_t label;
    if (is_fill(w) || p->kinds[w.bus] != BUS_ARINC)
        return END;
    label = w.label == LABEL_NOTICE ? w.information >> 12 : w.label;
    for (*channel = 0; *channel < 4; ++*channel)
        if (label == high_label(*channel))
            return w.label == LABEL_NOTICE ? NOTICE : ARINC_WORD;
    return END;
}

uint64_t notices_see(notices *n, const plan *p, word w, uint64_t number)
{
    uint32_t channel, kind = word_begins(p, w, &channel);
    uint64_t shown = 0;
    if (kind == ARINC_WORD)
        n->waiting[w.bus][channel] = 0;
    if (kind == NOTICE) {
        shown = n->waiting[w.bus][channel];
        n->waiting[w.bus][channel] = number;
    }
    return shown;
}

uint64_t earlier(uint64_t one, uint64_t other)
{
    if (one == 0 || other == 0)
        return one + other;
    return one < other ? one : other;
}

uint64_t notices_earliest(const notices *n)
{
    uint64_t earliest = 0;
    for (uint32_t bus = 0; bus < 16; bus++)
        for (uint32_t channel = 0; channel < 4; channel++)
            earliest = earlier(earliest, n->waiting[bus][channel]);
    return earliest;
}
