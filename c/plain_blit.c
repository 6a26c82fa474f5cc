/* The area blit of paper 01, word by word, with the order of fetches and stores of paper 02's W2 and W12's yes for a
 * pointer that goes round. A blit with the line bit is a line, which plain_line.c does. */
#include "plain.h"
#include "plain_parts.h"

struct channel {
    bool used;
    uint32_t at;      /* the pointer, a word number below POINTERS */
    int32_t step;     /* one up, or one down if descending */
    int32_t modulo;   /* half the modulo, or if descending what is added where that is taken away */
};

struct source {
    struct channel channel;
    uint16_t data;     /* its data register: the last word fetched, or the constant */
    uint16_t earlier;  /* the word before, as it came to the shifter */
};

/* A blit on its way. */
struct blit {
    struct source a, b, c;
    struct channel d;
    uint32_t height, width;
    uint16_t first_mask, last_mask;
    uint32_t shift_a, shift_b;
    uint16_t minterm[8];
    bool descending, inclusive, exclusive;
    uint32_t carry_in, carry;
};

const uint16_t plain_kept[FILE_WORDS] = {
    0xFFFF, 0xFFFF, 0xFFFF, 0xFFFF,
    0x0007, 0xFFFE, 0x0007, 0xFFFE, 0x0007, 0xFFFE, 0x0007, 0xFFFE,
    0xFFFE, 0xFFFE, 0xFFFE, 0xFFFE,
    0xFFFF, 0xFFFF, 0xFFFF,
    0x0002,
    0x0FFF, 0x0FFF, 0x0FFF, 0x0FFF, 0x0FFF, 0x0FFF, 0x0FFF, 0x0FFF,
    0x0FFF, 0x0FFF, 0x0FFF, 0x0FFF, 0x0FFF, 0x0FFF, 0x0FFF, 0x0FFF,
    0x0FFF, 0x0FFF, 0x0FFF, 0x0FFF, 0x0FFF, 0x0FFF, 0x0FFF, 0x0FFF,
    0x0FFF, 0x0FFF, 0x0FFF, 0x0FFF, 0x0FFF, 0x0FFF, 0x0FFF, 0x0FFF,
    0x0001
};

bool plain_memory_lawful(size_t ram_words)
{
    return ram_words >= 1 && ram_words <= POINTERS;
}

bool plain_file_lawful(const uint16_t *file, size_t file_words)
{
    if (file_words != FILE_WORDS)
        return false;
    for (size_t i = 0; i < FILE_WORDS; i++)
        if (file[i] & ~plain_kept[i])
            return false;
    return true;
}

uint32_t plain_height(uint16_t size)
{
    uint32_t height = size >> 6;
    return height == 0 ? 1024 : height;
}

uint32_t plain_width(uint16_t size)
{
    uint32_t width = size & 63;
    return width == 0 ? 64 : width;
}

static struct channel channel_of(const uint16_t *file, uint16_t use, int pointer_high, int modulo)
{
    bool descending = file[BLTCON1] >> 1 & 1;
    int32_t half = (int16_t)file[modulo] / 2;
    struct channel channel;
    channel.used = file[BLTCON0] & use;
    channel.at = ((uint32_t)file[pointer_high] << 16 | file[pointer_high + 1]) / 2;
    channel.step = descending ? -1 : 1;
    channel.modulo = descending ? -half : half;
    return channel;
}

static struct source source_of(const uint16_t *file, uint16_t use, int pointer_high, int modulo, int data)
{
    struct source source;
    source.channel = channel_of(file, use, pointer_high, modulo);
    source.data = file[data];
    source.earlier = 0;
    return source;
}

void plain_minterms(uint16_t con0, uint16_t *minterm)
{
    for (int setting = 0; setting < 8; setting++)
        minterm[setting] = con0 >> setting & 1 ? 0xFFFF : 0;
}

static struct blit blit_of(const uint16_t *file, uint16_t size)
{
    struct blit blit;
    blit.a = source_of(file, USE_A, BLTAPTH, BLTAMOD, BLTADAT);
    blit.b = source_of(file, USE_B, BLTBPTH, BLTBMOD, BLTBDAT);
    blit.c = source_of(file, USE_C, BLTCPTH, BLTCMOD, BLTCDAT);
    blit.d = channel_of(file, USE_D, BLTDPTH, BLTDMOD);
    blit.height = plain_height(size);
    blit.width = plain_width(size);
    blit.first_mask = file[BLTAFWM];
    blit.last_mask = file[BLTALWM];
    blit.shift_a = file[BLTCON0] >> 12;
    blit.shift_b = file[BLTCON1] >> 12;
    plain_minterms(file[BLTCON0], blit.minterm);
    blit.exclusive = file[BLTCON1] >> 4 & 1;
    blit.inclusive = file[BLTCON1] >> 3 & 1;
    blit.carry_in = file[BLTCON1] >> 2 & 1;
    blit.descending = file[BLTCON1] >> 1 & 1;
    blit.carry = blit.carry_in;
    return blit;
}

/* After a word; after a row's last word the modulo comes on top, as a move of its own. Whether either went round. */
static bool move(struct channel *channel, bool row_ends)
{
    if (!channel->used)
        return false;
    bool round = plain_moved(&channel->at, channel->step);
    if (row_ends)
        round |= plain_moved(&channel->at, channel->modulo);
    return round;
}

/* Whether the channel touches a word at N or above. Where a pointer only passes or ends, nothing is touched. */
static bool leaves(struct channel channel, uint32_t height, uint32_t width, size_t ram_words)
{
    if (!channel.used)
        return false;
    for (uint32_t row = 0; row < height; row++)
        for (uint32_t column = 0; column < width; column++) {
            if (channel.at >= ram_words)
                return true;
            move(&channel, column + 1 == width);
        }
    return false;
}

/* 14, 15, 16 or 17 for the first of A, B, C and D that leaves memory, whichever does so earlier; 0 if none does. */
static uint32_t leaving(const struct blit *blit, size_t ram_words)
{
    const struct channel channels[] = {blit->a.channel, blit->b.channel, blit->c.channel, blit->d};
    for (uint32_t i = 0; i < 4; i++)
        if (leaves(channels[i], blit->height, blit->width, ram_words))
            return 14 + i;
    return 0;
}

static uint32_t refusal(const struct blit *blit, size_t ram_words)
{
    if (blit->exclusive && blit->inclusive)
        return 8;
    if ((blit->exclusive || blit->inclusive) && !blit->descending)
        return 9;
    return leaving(blit, ram_words);
}

uint32_t plain_blit_refusal(const uint16_t *file, size_t ram_words, uint16_t size)
{
    if (file[BLTCON1] & LINE)
        return plain_line_refusal(file, ram_words, size);
    struct blit blit = blit_of(file, size);
    return refusal(&blit, ram_words);
}

static void fetch(struct source *source, const uint16_t *ram)
{
    if (source->channel.used)
        source->data = ram[source->channel.at];
}

static void fetch_sources(struct blit *blit, const uint16_t *ram)
{
    fetch(&blit->a, ram);
    fetch(&blit->b, ram);
    fetch(&blit->c, ram);
}

/* The pair has 32 bits and n is at most 15, so a shift by nought is a shift like the others. */
static uint16_t shifted(struct source *source, uint16_t word, uint32_t n, bool descending)
{
    uint32_t earlier = source->earlier;
    source->earlier = word;
    if (descending)
        return ((uint32_t)word << 16 | earlier) << n >> 16;
    return (earlier << 16 | word) >> n;
}

/* Bit 4a + 2b + c of the function, for the sixteen bits at once: each minterm holds where its setting stands. */
uint16_t plain_logic(const uint16_t *minterm, uint16_t a, uint16_t b, uint16_t c)
{
    return (minterm[0] & ~a & ~b & ~c) | (minterm[1] & ~a & ~b & c) | (minterm[2] & ~a & b & ~c)
         | (minterm[3] & ~a & b & c) | (minterm[4] & a & ~b & ~c) | (minterm[5] & a & ~b & c)
         | (minterm[6] & a & b & ~c) | (minterm[7] & a & b & c);
}

static uint16_t filled(struct blit *blit, uint16_t word)
{
    uint32_t carry = blit->carry;
    uint32_t result = 0;
    for (uint32_t i = 0; i < 16; i++) {
        uint32_t bit = word >> i & 1;
        carry ^= bit;
        result |= (blit->exclusive ? carry : carry | bit) << i;
    }
    blit->carry = carry;
    return result;
}

/* The blit's next word, from the sources as fetched: masked, shifted, combined and filled. */
static uint16_t next_word(struct blit *blit, bool first, bool last)
{
    uint16_t a = blit->a.data;
    uint16_t b = blit->b.data;
    uint16_t c = blit->c.data;
    if (first)
        a &= blit->first_mask;
    if (last)
        a &= blit->last_mask;
    a = shifted(&blit->a, a, blit->shift_a, blit->descending);
    b = shifted(&blit->b, b, blit->shift_b, blit->descending);
    uint16_t word = plain_logic(blit->minterm, a, b, c);
    if (first)
        blit->carry = blit->carry_in;
    if (blit->exclusive || blit->inclusive)
        word = filled(blit, word);
    return word;
}

/* All four channels after a word: whether some used one went round. */
static bool move_all(struct blit *blit, bool row_ends)
{
    bool round = move(&blit->a.channel, row_ends);
    round |= move(&blit->b.channel, row_ends);
    round |= move(&blit->c.channel, row_ends);
    round |= move(&blit->d, row_ends);
    return round;
}

/* Does the words in their order: the next word's sources, in the next row too, are fetched before a word is stored.
 * Words are stored in memory, or listed instead where there is a list. Gives whether all were zero, and whether a
 * channel went round: each used one has an access at every word, so that the moves behind the last word don't count. */
static bool do_words(struct blit *blit, uint16_t *ram, struct store *list, bool *round)
{
    uint16_t ones = 0;
    *round = false;
    fetch_sources(blit, ram);
    for (uint32_t row = 0; row < blit->height; row++)
        for (uint32_t column = 0; column < blit->width; column++) {
            bool last = column + 1 == blit->width;
            struct store store = {blit->d.at, next_word(blit, column == 0, last)};
            ones |= store.word;
            bool moved_round = move_all(blit, last);
            if (!last || row + 1 < blit->height) {
                *round |= moved_round;
                fetch_sources(blit, ram);
            }
            if (list)
                *list++ = store;
            else if (blit->d.used)
                ram[store.at] = store.word;
        }
    return ones == 0;
}

static void keep_pointer(uint16_t *file, int high, const struct channel *channel)
{
    file[high] = channel->at * 2 >> 16;
    file[high + 1] = channel->at * 2 & 0xFFFF;
}

/* Unused channels have moved nothing and fetched nothing, so they write back what was there. */
static void keep(uint16_t *file, const struct blit *blit, bool all_zero)
{
    keep_pointer(file, BLTAPTH, &blit->a.channel);
    keep_pointer(file, BLTBPTH, &blit->b.channel);
    keep_pointer(file, BLTCPTH, &blit->c.channel);
    keep_pointer(file, BLTDPTH, &blit->d);
    file[BLTADAT] = blit->a.data;
    file[BLTBDAT] = blit->b.data;
    file[BLTCDAT] = blit->c.data;
    file[ZERO_FLAG] = all_zero;
}

uint32_t plain_blit_done(uint16_t *ram, uint16_t *file, uint16_t size, bool *round)
{
    if (file[BLTCON1] & LINE)
        return plain_line_done(ram, file, size, round);
    struct blit blit = blit_of(file, size);
    keep(file, &blit, do_words(&blit, ram, NULL, round));
    return blit.d.used ? blit.height * blit.width : 0;
}

uint32_t plain_blit_stores(uint16_t *file, uint16_t size, struct store *stores, bool *round)
{
    struct blit blit = blit_of(file, size);
    keep(file, &blit, do_words(&blit, NULL, stores, round));
    return blit.height * blit.width;
}

void plain_blit(uint16_t *ram, size_t ram_words, uint16_t *file, size_t file_words, uint16_t size,
                uint32_t *number, uint32_t *stored, uint32_t *round)
{
    bool went_round = false;
    *stored = 0;
    if (!plain_memory_lawful(ram_words))
        *number = 1;
    else if (!plain_file_lawful(file, file_words))
        *number = 2;
    else
        *number = plain_blit_refusal(file, ram_words, size);
    if (*number == 0)
        *stored = plain_blit_done(ram, file, size, &went_round);
    *round = went_round;
}
