/* Drawn captures: composed ones that are damaged, and loose ones, whose items have fill between. For these the plan is legal. */
#include <string.h>

#include "../../independent/rules.h"
#include "draw.h"

static plan rules_plan(const drawn *d)
{
    plan p;
    plan_of(&p, d->plan.words, d->plan.tracks, d->plan.frame_time, d->plan.crc, d->plan.parity, d->plan.crc_label, d->plan.fill_bus,
            d->plan.kinds, 16);
    return p;
}

/* A used bus; with `strays` now and then another. */
static uint32_t draw_bus(const plan *p, bool strays)
{
    uint32_t bus = draw(16);
    for (uint32_t n = 0; n < 16 && !(strays && one_in(20)); n++, bus = (bus + 1) % 16)
        if (p->kinds[bus] != UNUSED)
            break;
    return p->parity ? bus % 8 : bus;
}

static uint32_t draw_information(void)
{
    static const uint32_t edges[] = {0, 1, 9998, 9999, 10000, 10001, 0xAAAA, 0xAAAB, 0x9800, 0xBA11, 0xDC22, 0xFE33, 0x8900, 0xFFFF};
    return one_in(2) ? edges[draw(sizeof edges / sizeof *edges)] : draw(65536);
}

static uint32_t draw_fill(const plan *p)
{
    word w = fill(p);
    if (one_in(8))
        w.bus = draw(p->parity ? 8 : 16);
    else if (one_in(16))
        w.bus = 0;
    return sent(p, w);
}

static uint32_t draw_word(const plan *p)
{
    word w;
    w.bus = draw_bus(p, true);
    w.label = draw(16);
    w.information = draw_information();
    return one_in(5) ? draw_fill(p) : sent(p, w);
}

/* Makes the parity and the CRC words right again. */
static void mend(drawn *d, const plan *p)
{
    for (uint64_t frame = 0; 3 * (frame + 1) * p->length <= d->capture_len; frame++) {
        uint8_t *bytes = d->capture + 3 * frame * p->length;
        for (uint32_t n = 1; n < p->length && p->parity; n++)
            if (!odd(stored(bytes, n)))
                store(bytes, n, stored(bytes, n) ^ 0x800000);
        if (p->crc)
            store(bytes, p->length - 1, crc_word(p, bytes));
    }
}

static void one_change(drawn *d, const plan *p)
{
    uint32_t words = (uint32_t)(d->capture_len / 3), place = draw(words);
    uint32_t group = draw((uint32_t)(words / group_words(p)));
    uint64_t dealt = dealt_place(p, group, draw((uint32_t)(furniture(p) + group_slots(p))));
    uint32_t drawn_word = draw_word(p), noise = draw(1 << 24), other = draw(words), n = draw(4), information = draw_information();
    switch (draw(9)) {
    case 0: store(d->capture, place, drawn_word); break;
    case 1: store(d->capture, place, noise); break;
    case 2: d->capture[3 * place + n % 3] ^= (uint8_t)(1u << noise % 8); break;
    case 3: store(d->capture, dealt, drawn_word); break;
    case 4: store(d->capture, dealt, sent(p, fill(p))); break;
    case 5: store(d->capture, dealt, stored(d->capture, other)); break;
    case 6: store(d->capture, dealt_place(p, group, noise % 3), (4 + n) << 16 | information); break; /* a frame time word */
    case 7: store(d->capture, group * group_words(p) + n % p->tracks * p->length, one_in(2) ? 0xFAF321 : noise); break;
    default: store(d->capture, dealt, stored(d->capture, dealt) ^ 1u << noise % 24); break;
    }
}

/* A group of fill behind the last, or in front of the first. */
static void fill_group(drawn *d, const plan *p, bool front)
{
    size_t bytes = 3 * (size_t)group_words(p);
    uint8_t *at = d->capture + (front ? 0 : d->capture_len);
    if (d->capture_len + bytes > DRAWN_CAPTURE_MAX)
        return;
    if (front)
        memmove(d->capture + bytes, d->capture, d->capture_len);
    for (uint32_t n = 0; n < group_words(p); n++)
        store(at, n, n % p->length == 0 ? SYNC : sent(p, fill(p)));
    for (uint64_t n = 0; n < furniture(p); n++)
        store(at, dealt_place(p, 0, n), sent(p, (word){0, LABEL_HIGH - (uint32_t)n, draw(10000)}));
    d->capture_len += bytes;
}

/* K5: a CRC word of label 1 may read as fill. The word before it becomes a user word on a used bus, with the information by which the
 * remainder is AAAA; then words may be wrong, but none because of it. */
static void crc_as_fill(drawn *d, const plan *p)
{
    uint32_t frame = draw((uint32_t)(d->capture_len / (3 * (size_t)p->length))), bus = draw_bus(p, true);
    uint8_t *bytes = d->capture + 3 * (size_t)frame * p->length;
    word as_fill = {0, LABEL_FILL, FILL_INFORMATION};
    plan two = *p; /* the remainder over the last word but one, and over all before it: by a frame of two words, as sums of both */
    uint8_t last[6] = {0};
    uint32_t before;
    if (!p->crc || p->crc_label != LABEL_FILL || d->capture_len == 0)
        return;
    if (p->parity && p->length % 2 == 0) /* an odd number of words with an odd number of ones: so is the remainder's */
        return;
    store(bytes, p->length - 2, 0);
    before = crc_word(p, bytes) & 0xFFFF;
    two.length = 2;
    for (uint32_t information = 0; information < 0x10000; information++) {
        store(last, 0, sent(p, (word){bus, LABEL_USER, information}));
        if ((before ^ (crc_word(&two, last) & 0xFFFF)) != FILL_INFORMATION)
            continue;
        store(bytes, p->length - 2, stored(last, 0));
        store(bytes, p->length - 1, sent(p, as_fill));
        return;
    }
}

/* The last word of a frame, which may be its CRC word: one or two bits, or only its bus and label; or fill in its place. */
static void spoil_last_word(drawn *d, const plan *p)
{
    uint32_t frame = draw((uint32_t)(d->capture_len / (3 * (size_t)p->length)));
    uint64_t place = (uint64_t)(frame + 1) * p->length - 1;
    uint32_t bits = 1u << draw(24);
    if (one_in(2))
        bits ^= 1u << draw(24);
    if (one_in(2))
        bits = 3u << (16 + draw(7));
    if (one_in(6))
        store(d->capture, place, sent(p, fill(p)));
    else
        store(d->capture, place, stored(d->capture, place) ^ bits);
}

void draw_damage(drawn *d)
{
    plan p = rules_plan(d);
    if (one_in(8))
        fill_group(d, &p, one_in(3));
    if (d->capture_len > 0)
        for (uint32_t n = draw(4); n > 0; n--)
            one_change(d, &p);
    if (!one_in(3))
        mend(d, &p);
    if (one_in(12))
        crc_as_fill(d, &p);
    if (d->capture_len > 0 && one_in(6))
        spoil_last_word(d, &p);
    if (one_in(12) && d->capture_len + 8 < DRAWN_CAPTURE_MAX)
        d->capture_len = draw_near(d->capture_len, d->capture_len + 8);
}

/* A word of an item that is being put, with fill in front of it now and then, and now and then wrong. */
typedef struct {
    uint32_t queue[32];
    uint32_t count, taken;
} loose;

/* Its words, with fill and faults between. */
static void loose_words(loose *l, const plan *p, const item *i, uint32_t fills, uint32_t faults)
{
    word words[ITEM_WORDS_MAX];
    uint32_t n = item_words(i, words);
    for (uint32_t k = 0; k < n; k++) {
        if (fills > 0 && one_in(fills))
            l->queue[l->count++] = draw_fill(p);
        if (faults > 0 && one_in(faults))
            l->queue[l->count++] = draw_word(p);
        l->queue[l->count++] = sent(p, words[k]);
    }
}

/* A notice has its word right behind it (K2), but for one in `open` of them. */
static void loose_item(loose *l, const plan *p, uint32_t fills, uint32_t faults, uint32_t open)
{
    static const uint32_t kinds[2][8] = {{COMMAND, COMMAND, STATUS, STATUS, DATA, BUS_ERROR, USER, OVERFLOW_MARK},
                                         {ARINC_WORD, ARINC_WORD, ARINC_WORD, ARINC_WORD, NOTICE, NOTICE, USER, OVERFLOW_MARK}};
    uint32_t bus = draw_bus(p, faults > 0), flag = draw(2);
    uint32_t kind = kinds[p->kinds[bus] == BUS_ARINC][draw(8)];
    item i = {.kind = kind, .bus = bus, .label3 = flag};
    i.b = draw(2);
    i.channel = draw(4);
    i.word = draw(kind == NOTICE ? 256 : 65536);
    if (kind == ARINC_WORD)
        i.word = i.word << 16 | draw(65536);
    i.tagged = flag && (kind == COMMAND || kind == ARINC_WORD);
    i.timed = flag && kind == STATUS;
    i.time.high = draw(65536);
    i.time.low = draw(65536);
    i.time.micro = draw(10000);
    i.response = draw(10000);
    if (faults > 0 && one_in(faults))
        i.time.micro = i.response = 10000;
    l->count = l->taken = 0;
    loose_words(l, p, &i, fills, faults);
    if (kind == NOTICE && (open == 0 || !one_in(open))) {
        i.kind = ARINC_WORD;
        i.word = draw(65536) << 16;
        loose_words(l, p, &i, fills, faults);
    }
}

static uint32_t draw_groups(const plan *p)
{
    uint32_t most = (uint32_t)(CAPTURE_MAX / (3 * group_words(p)));
    if (one_in(1500)) /* up to the limit, and one group above */
        return one_in(2) ? most + draw(2) : draw(most + 1);
    if (one_in(100)) /* around the longest log */
        return (uint32_t)((9000 + draw(7000)) / group_words(p)) + 1;
    return draw(one_in(10) ? 8 : 3);
}

void draw_loose_groups(drawn *d, uint32_t groups)
{
    static const uint32_t rare[] = {0, 0, 3, 30, 300}, faulty[] = {0, 0, 0, 50, 500, 5000}, opens[] = {0, 1, 4, 40};
    plan p = rules_plan(d);
    loose l = {{0}, 0, 0};
    uint32_t fills = rare[draw(5)], faults = faulty[draw(6)], open = opens[draw(4)];
    bool whole = !one_in(3); /* the last item is not cut */
    uint64_t data = one_in(2) ? UINT64_MAX : draw((uint32_t)(groups * group_slots(&p)) + 2); /* slots before the last fill */
    if (data > groups * group_slots(&p))
        data = groups * group_slots(&p);
    d->capture_len = 0;
    for (uint32_t group = 0; group < groups; group++) {
        size_t at = d->capture_len;
        fill_group(d, &p, false);
        if (d->capture_len == at)
            break;
        for (uint64_t slot = 0; slot < group_slots(&p) && data > 0; slot++, data--) {
            if (l.taken == l.count)
                loose_item(&l, &p, fills, faults, open);
            if (whole && l.taken == 0 && l.count > data)
                break;
            store(d->capture + at, dealt_place(&p, 0, furniture(&p) + slot), l.queue[l.taken++]);
        }
    }
    mend(d, &p);
}

void draw_loose_capture(drawn *d)
{
    plan p = rules_plan(d);
    draw_loose_groups(d, draw_groups(&p));
}
