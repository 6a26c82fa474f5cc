/* Cases at the seams of an engine that does rows by blocks of at most 64 words and goes back to the order word by word
 * where it must. Widths, gaps between a source and D, sets of channels, edges of memory, rows of a column and rows that
 * fill a block are gone through one by one; function, shifts, masks, data registers and what memory holds are drawn, by
 * the case's number. */
#include <inttypes.h>
#include <stdio.h>
#include <string.h>

#include "differ.h"

enum { DESCENDING = 0x02, CARRY = 0x04, INCLUSIVE = 0x08, EXCLUSIVE = 0x10 };
enum { WIDEST = 64, LEAST_GAP = -2, GREATEST_GAP = 66, MOST_AHEAD = 20, MOST_ROWS = 4, COLUMN_ROWS = 70 };

/* The channels in use, the fill, and the source whose place beside D is gone through; D itself where there is none. */
struct set {
    uint16_t uses, fill;
    int source;
};

/* First the sets a loop of its own may be written for, then some of the others. */
static const struct set sets[] = {
    {USE_D, 0, D_CHANNEL},
    {USE_A | USE_D, 0, A_CHANNEL},
    {USE_B | USE_C | USE_D, 0, B_CHANNEL},
    {USE_B | USE_C | USE_D, 0, C_CHANNEL},
    {USE_A | USE_B | USE_C | USE_D, 0, A_CHANNEL},
    {USE_A | USE_B | USE_C | USE_D, 0, B_CHANNEL},
    {USE_A | USE_B | USE_C | USE_D, 0, C_CHANNEL},
    {USE_A | USE_D, INCLUSIVE, A_CHANNEL},
    {USE_A | USE_D, EXCLUSIVE, A_CHANNEL},
    {USE_A | USE_B | USE_D, 0, A_CHANNEL},
    {USE_A | USE_B | USE_D, 0, B_CHANNEL},
    {USE_A | USE_C | USE_D, 0, C_CHANNEL},
    {USE_B | USE_D, 0, B_CHANNEL},
    {USE_C | USE_D, 0, C_CHANNEL},
    {USE_D, INCLUSIVE, D_CHANNEL},
    {0, 0, D_CHANNEL},
    {USE_A, 0, D_CHANNEL},
    {USE_A | USE_B | USE_C, 0, D_CHANNEL}
};

enum { SETS = sizeof sets / sizeof *sets };

/* Half the modulos: none; one for all; each channel its own, some of them back to the row's start; such that the
 * source's next row begins where D's last one ended, at the word still to be stored; such that in its second row D is
 * one word ahead of the source. */
enum modulos { NONE, ALIKE, OWN, PENDING, CLOSING, MODULOS };

/* A case as it is made: its blit, and by channel how many words D begins ahead of it as the blit goes, or that it lies
 * apart from D. */
struct seam {
    struct plan plan;
    int32_t ahead[CHANNELS];
    bool apart[CHANNELS];
};

static struct seam seam;
static uint64_t cases;

static bool used(int channel)
{
    return seam.plan.file[0] & (channel == D_CHANNEL ? USE_D : USE_C << channel);
}

static bool descends(void) { return seam.plan.file[1] & DESCENDING; }
static int32_t half_of(int channel) { return (int16_t)seam.plan.file[FIRST_MODULO + channel] / 2; }
static void set_half(int channel, int32_t half) { seam.plan.file[FIRST_MODULO + channel] = (uint32_t)half * 2; }

static uint16_t pick_shift(void)
{
    static const uint8_t shifts[] = {0, 1, 15};
    uint32_t which = below(4);
    return which < 3 ? shifts[which] : 2 + below(13);
}

/* Half of them the exclusive or of A, B and C, in which no difference of a source is lost. */
static uint16_t pick_function(void)
{
    static const uint8_t functions[] = {0xCA, 0xF0, 0xE2, 0xCC, 0xAA, 0x00};
    return one_in(2) ? 0x96 : one_in(2) ? functions[below(sizeof functions)] : below(256);
}

/* Begins the next case, all sources apart from D. Pointers are anywhere, and those of unused channels stay so. */
static void begin(const struct set *set, bool descending)
{
    uint16_t *file = seam.plan.file;
    start_random(++cases);
    file[0] = pick_shift() << 12 | set->uses | pick_function();
    file[1] = pick_shift() << 12 | set->fill | (descending ? DESCENDING : 0) | (one_in(2) ? CARRY : 0);
    file[2] = one_in(2) ? 0xFFFF : random64();
    file[3] = one_in(2) ? 0xFFFF : random64();
    for (int i = 16; i < BLITTER; i++)
        file[i] = random_word();
    pick_screen(file);
    for (int channel = 0; channel < CHANNELS; channel++) {
        set_pointer(&seam.plan, FIRST_POINTER + 2 * channel, below(POINTERS));
        set_half(channel, 0);
        seam.ahead[channel] = channel == D_CHANNEL ? 0 : 3 * channel;
        seam.apart[channel] = channel != D_CHANNEL;
    }
}

static void set_size(uint32_t rows, uint32_t width)
{
    seam.plan.height = rows;
    seam.plan.width = width;
    seam.plan.size = rows % 1024 << 6 | width % 64;
}

static void lay_beside(int channel, int32_t ahead)
{
    seam.ahead[channel] = ahead;
    seam.apart[channel] = false;
}

static void set_modulos(enum modulos modulos, int32_t ahead)
{
    int32_t width = seam.plan.width, one = one_in(2) ? 19 : 1 + (int32_t)below(5);
    for (int channel = 0; channel < CHANNELS; channel++)
        switch (modulos) {
        case ALIKE: set_half(channel, one); break;
        case OWN: set_half(channel, one_in(4) ? -width : (int32_t)below(9) - 4); break;
        case PENDING: set_half(channel, ahead - 1); break;
        case CLOSING: set_half(channel, channel == D_CHANNEL ? one + 1 - ahead : one); break;
        default: set_half(channel, 0);
        }
}

/* Where a channel begins, seen from D's start. */
static int32_t start_of(int channel) { return descends() ? seam.ahead[channel] : -seam.ahead[channel]; }

/* From the lowest to the highest word of the used channels apart from D, or of D and those beside it. */
static struct reach span(bool apart)
{
    struct reach all = {0, -1};
    bool none = true;
    for (int channel = 0; channel < CHANNELS; channel++) {
        struct reach own = reach_of(&seam.plan, half_of(channel));
        if (!used(channel) || seam.apart[channel] != apart)
            continue;
        own.lowest += start_of(channel);
        own.highest += start_of(channel);
        all.lowest = none || own.lowest < all.lowest ? own.lowest : all.lowest;
        all.highest = none || own.highest > all.highest ? own.highest : all.highest;
        none = false;
    }
    return all;
}

static int32_t words_of(struct reach reach) { return reach.highest - reach.lowest + 1; }

/* Lays the channels from a word on, both groups next to each other, either of them first; gives the words they need. */
static size_t lay(int32_t from)
{
    struct reach beside = span(false), apart = span(true);
    bool apart_first = one_in(2);
    int32_t zero = from + (apart_first ? words_of(apart) : 0) - beside.lowest;
    int32_t zero_apart = from + (apart_first ? 0 : words_of(beside)) - apart.lowest;
    for (int channel = 0; channel < CHANNELS; channel++)
        if (used(channel))
            set_pointer(&seam.plan, FIRST_POINTER + 2 * channel,
                        (seam.apart[channel] ? zero_apart : zero) + start_of(channel));
    int32_t words = words_of(beside) + words_of(apart);
    return words == 0 ? 1 : words;
}

static void print_seam(void)
{
    printf("%" PRIu32 " rows of %" PRIu32 " words, %s", seam.plan.height, seam.plan.width, descends() ? "down" : "up");
    for (int channel = 0; channel < CHANNELS; channel++) {
        const uint16_t *pointer = seam.plan.file + FIRST_POINTER + 2 * channel;
        if (used(channel))
            printf("; %c from word %" PRIu32 ", half its modulo %" PRId32, "CBAD"[channel],
                   ((uint32_t)pointer[0] << 16 | pointer[1]) / 2, half_of(channel));
    }
    printf("\n");
}

/* Whether both sides end alike in memory of so many words. */
static bool alike(size_t ram_words)
{
    static struct test test;
    test.call = BLIT;
    test.ram_words = ram_words;
    test.ram_seed = random64() << 2 | (one_in(16) ? 3 : below(3));
    test.file_words = FILE_WORDS;
    memcpy(test.file, seam.plan.file, sizeof seam.plan.file);
    test.size = seam.plan.size;
    if (difference(&test) == NULL)
        return true;
    print_seam();
    report(&test, "the seam of number", cases);
    return false;
}

/* Makes a blit of one source beside D, the others apart; for 0 rows their number is drawn. */
static void make_beside(const struct set *set, bool descending, uint32_t rows, uint32_t width, enum modulos modulos,
                        int32_t ahead)
{
    begin(set, descending);
    set_size(rows == 0 ? 1 + below(MOST_ROWS) : rows, width);
    if (set->source != D_CHANNEL)
        lay_beside(set->source, ahead);
    set_modulos(modulos, ahead);
}

/* Every gap at every width, with all modulos. */
static bool gaps(const struct set *set, bool descending)
{
    int32_t greatest = set->source == D_CHANNEL ? LEAST_GAP : GREATEST_GAP;
    for (uint32_t width = 1; width <= WIDEST; width++)
        for (int32_t ahead = LEAST_GAP; ahead <= greatest; ahead++)
            for (int modulos = NONE; modulos < MODULOS; modulos++) {
                make_beside(set, descending, 0, width, modulos, ahead);
                if (!alike(lay(0)))
                    return false;
            }
    return true;
}

/* The small gaps in memory that has all words that pointers have, where D goes round, or a source, or both. */
static bool rounds(const struct set *set, bool descending)
{
    for (uint32_t width = 1; width <= WIDEST; width++)
        for (int32_t ahead = -1; ahead <= 2; ahead++) {
            make_beside(set, descending, 0, width, (width + ahead) % MODULOS, ahead);
            lay(-(int32_t)below(3 * width));
            if (!alike(POINTERS))
                return false;
        }
    return true;
}

/* One-word columns: D over the source, near it, or a row's distance of 20 words ahead, or nearly. */
static bool columns(const struct set *set, bool descending)
{
    static const int8_t aheads[] = {-2, -1, 0, 1, 2, 3, 19, 20, 21, 66};
    for (uint32_t rows = 1; rows <= COLUMN_ROWS; rows++)
        for (size_t i = 0; i < (set->source == D_CHANNEL ? 1 : sizeof aheads); i++)
            for (int modulos = NONE; modulos < MODULOS; modulos++) {
                make_beside(set, descending, rows, 1, modulos, aheads[i]);
                if (!alike(lay(0)))
                    return false;
            }
    return true;
}

/* One, two or three blocks filled exactly, a row fewer or a row more, D so many strides ahead of the source, or nearly. */
static bool block_ends(const struct set *set, bool descending, uint32_t rows, uint32_t width, uint32_t strides)
{
    for (int32_t near = -1; near <= (set->source == D_CHANNEL ? -1 : 1); near++)
        for (int modulos = NONE; modulos <= ALIKE; modulos++) {
            make_beside(set, descending, rows, width, modulos, 0);
            if (set->source != D_CHANNEL)
                lay_beside(set->source, (int32_t)strides * ((int32_t)width + half_of(set->source)) + near);
            if (!alike(lay(0)))
                return false;
        }
    return true;
}

static bool blocks(const struct set *set, bool descending)
{
    for (uint32_t width = 1; width <= WIDEST; width++) {
        uint32_t most = WIDEST / width;
        const uint32_t rows[] = {most > 1 ? most - 1 : 1, most, most + 1, 2 * most, 2 * most + 1, 3 * most + 1};
        const uint32_t strides[] = {0, 1, 2, most};
        for (size_t i = 0; i < sizeof rows / sizeof *rows; i++)
            for (size_t j = 0; j < sizeof strides / sizeof *strides; j++)
                if (!block_ends(set, descending, rows[i], width, strides[j]))
                    return false;
    }
    return true;
}

/* A alone in rows without a gap, unmasked, by functions of A: D behind it, at it, or some words ahead of it. */
static bool smears(const struct set *set, bool descending)
{
    static const uint8_t functions[] = {0xF0, 0x0F, 0x00, 0xFF, 0xF1};
    for (uint32_t width = 1; width <= WIDEST; width++)
        for (int32_t ahead = LEAST_GAP; ahead <= MOST_AHEAD; ahead++)
            for (size_t i = 0; i < sizeof functions; i++) {
                make_beside(set, descending, 0, width, NONE, ahead);
                seam.plan.file[0] = (seam.plan.file[0] & 0xFF00) | functions[i];
                seam.plan.file[2] = seam.plan.file[3] = 0xFFFF;
                if (!alike(lay(0)))
                    return false;
            }
    return true;
}

/* Functions that ignore some source, in one block or several, with that source at D or near it: its register gets the last
 * word that it would have fetched. */
static bool ignoring(const struct set *set, bool descending)
{
    static const uint8_t functions[] = {0xF0, 0xCC, 0xAA, 0x00, 0xC0, 0xA0, 0x88};
    for (uint32_t width = 1; width <= WIDEST; width++)
        for (int32_t ahead = LEAST_GAP; ahead <= -LEAST_GAP; ahead++)
            for (size_t i = 0; i < sizeof functions; i++) {
                make_beside(set, descending, 1 + below(3 * WIDEST / width), width, i % (ALIKE + 1), ahead);
                seam.plan.file[0] = (seam.plan.file[0] & 0xFF00) | functions[i];
                if (!alike(lay(0)))
                    return false;
            }
    return true;
}

/* Rows without a gap in memory that has all words that pointers have: one of them begins at word 0, a word before it or a
 * word behind it, so that all of them are one row, or nearly. */
static bool turns(const struct set *set, bool descending)
{
    for (uint32_t width = 1; width <= WIDEST; width++)
        for (uint32_t row = 0; row <= MOST_ROWS; row++)
            for (int32_t near = -1; near <= 1; near++) {
                make_beside(set, descending, MOST_ROWS, width, NONE, 0);
                lay(near - (int32_t)(row * width));
                if (!alike(POINTERS))
                    return false;
            }
    return true;
}

/* All sources beside D at once: C at D, one before it or one behind it, B and A near. */
static bool crowds(const struct set *set, bool descending)
{
    for (uint32_t width = 1; width <= WIDEST; width++)
        for (int32_t c = -1; c <= 1; c++)
            for (int32_t b = -1; b <= 2; b++)
                for (int modulos = NONE; modulos < MODULOS; modulos++) {
                    begin(set, descending);
                    set_size(1 + below(MOST_ROWS), width);
                    lay_beside(C_CHANNEL, c);
                    lay_beside(B_CHANNEL, b);
                    lay_beside(A_CHANNEL, (int32_t)below(4) - 1);
                    set_modulos(modulos, one_in(2) ? c : b);
                    if (!alike(lay(0)))
                        return false;
                }
    return true;
}

/* Either fill at every width, with the carry in clear and set, D apart from A and over it. */
static bool fills(const struct set *set)
{
    for (uint32_t which = 0; which < WIDEST * MOST_ROWS * 8; which++) {
        begin(set, true);
        seam.plan.file[1] &= ~(CARRY | INCLUSIVE | EXCLUSIVE);
        seam.plan.file[1] |= (which & 1 ? INCLUSIVE : EXCLUSIVE) | (which & 2 ? CARRY : 0);
        if (which & 4)
            lay_beside(A_CHANNEL, 0);
        set_size(1 + which / 8 % MOST_ROWS, 1 + which / 8 / MOST_ROWS);
        set_modulos(one_in(2) ? NONE : OWN, 0);
        if (!alike(lay(0)))
            return false;
    }
    return true;
}

/* Anywhere inside memory; a channel too long for it does its first row over and over. */
static void lay_inside(int channel, int32_t n)
{
    int32_t width = seam.plan.width;
    set_half(channel, one_in(2) ? 0 : (int32_t)below(7) - 1);
    if (words_of(reach_of(&seam.plan, half_of(channel))) > n)
        set_half(channel, -width);
    struct reach reach = reach_of(&seam.plan, half_of(channel));
    set_pointer(&seam.plan, FIRST_POINTER + 2 * channel, below(n - words_of(reach) + 1) - reach.lowest);
}

/* How many words of a channel lie past an edge of memory: none, one, or some or all. */
enum past { NONE_PAST, ONE_PAST, SOME_PAST, PASTS };

static void lay_past(int channel, int32_t n, bool upper, enum past past)
{
    struct reach reach = reach_of(&seam.plan, half_of(channel));
    int32_t words = past == SOME_PAST ? 1 + below(words_of(reach)) : past;
    set_pointer(&seam.plan, FIRST_POINTER + 2 * channel, upper ? n - 1 + words - reach.highest : -words - reach.lowest);
}

/* Rows that end at memory's end or begin at its start, exactly, or that go past it: refused, or going round where
 * memory has all words that pointers have. */
static bool edge(const struct set *set, bool descending, int32_t n, uint32_t width, int channel, bool upper)
{
    for (int past = NONE_PAST; past < PASTS; past++) {
        begin(set, descending);
        set_size(1 + below(MOST_ROWS), width);
        for (int other = 0; other < CHANNELS; other++)
            lay_inside(other, n);
        lay_past(channel, n, upper, past);
        if (!alike(n))
            return false;
    }
    return true;
}

static bool edges(const struct set *set, bool descending)
{
    static const int32_t sizes[] = {1, 2, 64, 65, 200, POINTERS - 1, POINTERS};
    for (size_t i = 0; i < sizeof sizes / sizeof *sizes; i++)
        for (uint32_t width = 1; width <= at_most(sizes[i], WIDEST); width++)
            for (int which = 0; which < 4; which++)
                if (!edge(set, descending, sizes[i], width, which & 1 ? set->source : D_CHANNEL, which & 2))
                    return false;
    return true;
}

static bool all_of(const struct set *set, bool descending)
{
    bool alone = set->uses == (USE_A | USE_D), many = (set->uses & (USE_B | USE_C)) == (USE_B | USE_C);
    return gaps(set, descending) && columns(set, descending) && blocks(set, descending) && rounds(set, descending)
        && turns(set, descending) && ignoring(set, descending) && edges(set, descending)
        && (!alone || smears(set, descending)) && (!many || crowds(set, descending)) && (!descending || fills(set));
}

uint64_t seams(void)
{
    for (size_t i = 0; i < SETS; i++)
        for (int descending = sets[i].fill != 0; descending < 2; descending++)
            if (!all_of(&sets[i], descending))
                return 0;
    uint64_t pictures = picture_seams();
    uint64_t lines = pictures == 0 ? 0 : line_seams();
    uint64_t rounds = lines == 0 ? 0 : round_seams();
    return rounds == 0 ? 0 : cases + pictures + lines + rounds;
}
