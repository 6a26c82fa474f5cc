/* The blits of the differential test: register files whose blits lie in memory, often against its edge, and whose D
 * often lies over a source. */
#include <string.h>

#include "differ.h"

static uint64_t state;

void start_random(uint64_t seed)
{
    state = seed;
    state = random64();
}

/* splitmix64 */
uint64_t random64(void)
{
    uint64_t z = state += 0x9E3779B97F4A7C15u;
    z = (z ^ z >> 30) * 0xBF58476D1CE4E5B9u;
    z = (z ^ z >> 27) * 0x94D049BB133111EBu;
    return z ^ z >> 31;
}

uint32_t below(uint32_t end) { return (random64() >> 32) * end >> 32; }
bool one_in(uint32_t chances) { return below(chances) == 0; }
uint32_t at_most(uint32_t value, uint32_t most) { return value < most ? value : most; }

uint16_t random_word(void)
{
    switch (below(6)) {
    case 0: return 0;
    case 1: return 0xFFFF;
    case 2: return 1u << below(16);
    default: return random64();
    }
}

void fill_ram(uint16_t *ram, size_t words, uint64_t seed)
{
    size_t tile = words < 1024 ? words : 1024;
    uint64_t before = state;
    state = seed;
    for (size_t i = 0; i < tile; i++) {
        uint16_t random = seed % 4 == 3 ? 0 : random64();
        ram[i] = seed == 0 ? i : seed % 4 == 2 ? random & random64() & random64() : random;
    }
    state = before;
    /* by the tile: an emulator may do one long copy byte by byte */
    for (size_t done = tile; done < words; done += tile)
        memcpy(ram + done, ram, (tile < words - done ? tile : words - done) * sizeof *ram);
}

/* Height and width; a settled blit has at most 64 words, and 65 now and then. */
static void pick_size(struct plan *plan, uint32_t n, bool settled)
{
    uint32_t wide = one_in(12) ? 64 : one_in(4) ? 20 : 5;
    plan->width = one_in(4) ? 1 : 1 + below(at_most(n, wide));
    plan->height = 1 + below(one_in(12) ? 40 : 5);
    if (settled && plan->height * plan->width > 64)
        plan->height = 1 + below(64 / plan->width);
    if (settled && one_in(12)) {
        static const uint32_t widths[] = {1, 8, 64, 5, 1, 4};
        static const uint32_t heights[] = {64, 8, 1, 13, 65, 16};
        uint32_t which = below(6);
        plan->width = widths[which];
        plan->height = heights[which];
    }
    if (!settled && one_in(300)) {
        plan->width = one_in(6) ? 64 - below(3) : at_most(plan->width, 3);
        plan->height = 1024 - below(3);
    }
    plan->size = (plan->height % 1024) << 6 | plan->width % 64;
}

static uint16_t pick_con0(bool settled)
{
    static const uint8_t functions[] = {0x00, 0xFF, 0xF0, 0xCC, 0xAA, 0xCA, 0x3C, 0x0F, 0x5A};
    uint16_t uses = settled ? USE_D : below(16) << 8;
    uint16_t shift = one_in(3) ? 0 : one_in(4) ? 15 : below(16);
    uint16_t function = one_in(2) ? functions[below(sizeof functions)] : below(256);
    if (!one_in(4))
        uses |= USE_D;
    return shift << 12 | uses | function;
}

/* Fills go with descending, and the line bit isn't set, unless at risk. Bits 11 to 5 have no sense for an area. */
static uint16_t pick_con1(bool risk)
{
    uint16_t con1 = (one_in(2) ? 0 : one_in(4) ? 15 : below(16)) << 12;
    if (one_in(2))
        con1 |= 0x02 | (one_in(3) ? 0x08 : one_in(2) ? 0x10 : 0);
    if (one_in(3))
        con1 |= 0x04;
    if (one_in(8))
        con1 |= random64() & 0x0FE0;
    if (risk && one_in(3))
        con1 ^= 1u << (one_in(2) ? 0 : 3 + below(2));
    return con1;
}

struct reach reach_of(const struct plan *plan, int32_t half)
{
    int32_t width = plan->width, last_row = (int32_t)(plan->height - 1) * (width + half);
    struct reach up = {last_row < 0 ? last_row : 0, (last_row < 0 ? 0 : last_row) + width - 1};
    struct reach down = {-up.highest, -up.lowest};
    return plan->file[1] >> 1 & 1 ? down : up;
}

void set_pointer(struct plan *plan, int pointer, uint32_t word)
{
    uint32_t address = word % POINTERS * 2;
    plan->file[pointer] = address >> 16;
    plan->file[pointer + 1] = address & 0xFFFF;
}

static int32_t word_at(const struct plan *plan, int pointer)
{
    return ((uint32_t)plan->file[pointer] << 16 | plan->file[pointer + 1]) / 2;
}

/* A channel's modulo and pointer: mostly all its words lie inside memory, often against an edge of it. */
static void place_channel(struct plan *plan, int channel, uint32_t n, bool risk)
{
    int32_t width = plan->width, lowest, highest, half, start;
    for (uint32_t tries = 0; ; tries++) {
        half = tries > 3 ? -width : one_in(3) ? 0 : one_in(8) ? -2 * width : (int32_t)below(9) - 4;
        if (one_in(40))
            half = (int32_t)below(32768) - 16384;
        struct reach reach = reach_of(plan, half);
        lowest = reach.lowest;
        highest = reach.highest;
        if (tries > 4 || highest - lowest < (int32_t)n)
            break;
    }
    int32_t room = (int32_t)n - (highest - lowest);
    if (n == POINTERS)
        start = one_in(2) ? (int32_t)below(16) - 8 : (int32_t)below(POINTERS);
    else if (room <= 0)
        start = below(n);
    else if (risk && one_in(3))
        start = one_in(2) ? -lowest - 1 : -lowest + room;
    else
        start = -lowest + (int32_t)(one_in(4) ? 0 : one_in(4) ? (uint32_t)room - 1 : below(room));
    if (risk && one_in(8))
        start = random64() % POINTERS;
    set_pointer(plan, FIRST_POINTER + 2 * channel, start);
    plan->file[FIRST_MODULO + channel] = (uint32_t)half * 2;
}

/* D over a used source: two words behind it to three ahead of it as the blit goes, often one ahead, with the source's
 * modulo or its own. A place from which D would leave memory is left alone. */
static void lay_over(struct plan *plan, uint32_t n)
{
    int source = below(D_CHANNEL);
    uint16_t modulo = plan->file[FIRST_MODULO + (one_in(4) ? D_CHANNEL : source)];
    struct reach reach = reach_of(plan, (int16_t)modulo / 2);
    int32_t ahead = one_in(2) ? 1 : (int32_t)below(6) - 2;
    int32_t start = word_at(plan, FIRST_POINTER + 2 * source) + (plan->file[1] >> 1 & 1 ? -ahead : ahead);
    if (n < POINTERS && (start + reach.lowest < 0 || start + reach.highest >= (int32_t)n))
        return;
    set_pointer(plan, FIRST_POINTER + 2 * D_CHANNEL, start);
    plan->file[FIRST_MODULO + D_CHANNEL] = modulo;
    plan->file[0] |= USE_D | USE_C << source;
}

void pick_screen(uint16_t *file)
{
    file[BLITTER] = below(2) * 2;
    for (int i = BLITTER + 1; i < REGISTERS; i++)
        file[i] = random_word() & 0x0FFF;
    file[ZERO_FLAG] = below(2);
}

/* One blit in so many is a line, fewer where it could be settled; of the others one in so many is laid where the
 * pointers end, unless D lies over a source. */
enum { LINE_SHARE = 3, LINE_SHARE_AMONG_SETTLED = 8, ROUND_SHARE = 8 };

void make_plan(struct plan *plan, uint32_t n, bool settled, bool risk)
{
    if (one_in(settled ? LINE_SHARE_AMONG_SETTLED : LINE_SHARE)) {
        make_line(plan, n, risk);
        return;
    }
    pick_size(plan, n, settled);
    plan->file[0] = pick_con0(settled);
    plan->file[1] = pick_con1(risk);
    plan->file[2] = random_word();
    plan->file[3] = random_word();
    for (int channel = 0; channel <= D_CHANNEL; channel++)
        place_channel(plan, channel, n, risk);
    if (!settled && one_in(2))
        lay_over(plan, n);
    else if (one_in(ROUND_SHARE))
        lay_round(plan, n);
    for (int i = 16; i < BLITTER; i++)
        plan->file[i] = random_word();
    pick_screen(plan->file);
}
