/* The frames of the differential test: Copper lists with their place in memory, the place of the beam, and the number of
 * instructions lent. Lists that a blit of theirs overwrites, before the Copper comes to a word or behind it, are many. */
#include <string.h>

#include "differ.h"

enum { POSITIONS = 227, LINES = 262, PLACES = LINES * POSITIONS };
enum { BLTSIZE = 0x058, DANGER = 0x0002, COPY = USE_A | USE_D | 0xF0, LONGEST_LIST = 400 };

/* A list as it is made: the blit that its MOVEs are for, and the line to which its WAITs have come. */
struct list {
    struct test *test;
    struct plan plan;
    uint32_t line;
    enum care care;
};

/* Bits 15 to 9 of a MOVE's first word have no sense. */
static void put_move(struct list *list, uint16_t offset, uint16_t value)
{
    put(list->test, offset | (one_in(8) ? random64() & 0xFE00 : 0));
    put(list->test, value);
}

static void put_colour(struct list *list)
{
    put_move(list, offsets[BLITTER + 1 + below(32)], random_word());
}

static bool is_line(const struct list *list) { return list->plan.file[1] & LINE; }

/* One of the Blitter's registers, or both halves of a pointer, or for a line all pointers; then the blit, or not. */
static void put_blitter(struct list *list)
{
    uint32_t which = below(BLITTER), last = which;
    if (which >= FIRST_POINTER && which < FIRST_MODULO) {
        which = is_line(list) ? FIRST_POINTER : which - which % 2;
        last = is_line(list) ? FIRST_MODULO - 1 : which + 1;
    }
    for (uint32_t i = which; i <= last; i++)
        put_move(list, offsets[i], one_in(16) ? random_word() : list->plan.file[i]);
    if (one_in(2))
        put_move(list, BLTSIZE, list->plan.size);
}

static uint16_t pick_size(const struct list *list)
{
    if (one_in(3))
        return is_line(list) ? 0x0042 : 0x0041 + below(3);
    return list->care != LAWFUL && one_in(16) ? random64() : list->plan.size;
}

/* Offsets next to the ones that count, or any: forbidden, with danger or without, or not modelled. */
static uint16_t pick_offset(void)
{
    static const uint16_t near[] = {
        0x000, 0x02C, 0x02E, 0x030, 0x03E, 0x040, 0x056, 0x058, 0x05A, 0x05E, 0x060, 0x066, 0x068, 0x06E, 0x070,
        0x074, 0x076, 0x07E, 0x080, 0x088, 0x09C, 0x0E0, 0x100, 0x17E, 0x180, 0x1BE, 0x1C0, 0x1FE
    };
    return one_in(2) ? near[below(sizeof near / sizeof *near)] : random64() & 0x01FE;
}

/* The line and position of a WAIT or SKIP: a little on from the one before, near the lines that compare alike, at a
 * line's end, or any. */
static uint16_t pick_position(struct list *list)
{
    uint32_t position = one_in(3) ? 0 : one_in(4) ? 220 + below(36) : below(POSITIONS), chance = below(40);
    if (chance == 0)
        list->line = 252 + below(10);
    else if (chance == 1)
        return random64() | 1;
    else if (chance == 2)
        return one_in(2) ? 0xFFFF : 0xFFDF;
    else
        list->line = at_most(list->line + below(one_in(8) ? 60 : 4), LINES - 1);
    return list->line % 256 << 8 | position | 1;
}

static uint16_t pick_mask(void)
{
    static const uint16_t masks[] = {0xFFFE, 0x7FFE, 0xFF00, 0x80FE, 0x80FE, 0x8F00, 0x00FE, 0x0000, 0xFE00};
    return one_in(8) ? random64() : one_in(3) ? 0xFFFE : masks[below(sizeof masks / sizeof *masks)];
}

static void put_wait(struct list *list)
{
    put(list->test, pick_position(list));
    put(list->test, pick_mask() & 0xFFFE);
}

static void put_skip(struct list *list)
{
    put(list->test, pick_position(list));
    put(list->test, pick_mask() | 1);
}

static void put_instruction(struct list *list)
{
    uint32_t chance = below(32);
    if (chance < 11 || (chance >= 30 && list->care == LAWFUL))
        put_colour(list);
    else if (chance < 14)
        put_blitter(list);
    else if (chance < 17)
        put_move(list, BLTSIZE, pick_size(list));
    else if (chance < 25)
        put_wait(list);
    else if (chance < 30)
        put_skip(list);
    else if (chance == 30)
        put_move(list, pick_offset(), random_word());
    else
        put(list->test, random64()), put(list->test, random64());
}

/* The blit copies instructions of the list over others of it, where memory has all of them. */
static void copy_in_list(struct list *list, uint32_t n)
{
    const struct test *test = list->test;
    uint32_t words = 2 * (1 + below(3)), pairs = LONGEST_LIST < n ? LONGEST_LIST / 8 : n / 8 + 1;
    uint32_t from = test->list_at + 2 * below(pairs), to = test->list_at + 2 * below(pairs);
    if (from + words > n || to + words > n)
        return;
    memset(list->plan.file, 0, BLITTER * sizeof *list->plan.file);
    list->plan.file[0] = COPY;
    list->plan.file[2] = list->plan.file[3] = 0xFFFF;
    set_pointer(&list->plan, FIRST_POINTER + 2 * A_CHANNEL, from);
    set_pointer(&list->plan, FIRST_POINTER + 2 * D_CHANNEL, to);
    list->plan.size = 0x0040 | words;
}

static size_t pick_list_words(uint32_t n)
{
    uint32_t most = one_in(8) ? LONGEST_LIST : one_in(2) ? 80 : 24;
    return one_in(30) ? 0 : 1 + below(at_most(most, n + 2));
}

/* Anywhere in memory; often at its end, with the last instruction's words inside or beyond it. */
static uint32_t pick_list_at(uint32_t n, uint32_t words)
{
    uint32_t room = n > words ? n - words : 0;
    if (one_in(3))
        return 0;
    return one_in(3) ? room + below(2) : below(room + 1);
}

static uint32_t pick_start(const struct test *test, uint32_t n, enum care care)
{
    const uint32_t ends[] = {n - 2, n - 1, n, n + 1, UINT32_MAX - 2, UINT32_MAX - 1, UINT32_MAX, 0x80000000u};
    if (care != LAWFUL && one_in(10))
        return one_in(4) ? random64() : ends[below(sizeof ends / sizeof *ends)];
    return test->list_at + (one_in(12) ? below(test->job_words + 1) : 0);
}

/* Mostly the frame's start; else any place, one in the last lines, the last places, or the frame over. */
static uint32_t pick_beam(void)
{
    switch (below(10)) {
    case 0: return below(PLACES);
    case 1: return (254 + below(8)) * POSITIONS + below(POSITIONS);
    case 2: return PLACES - 1 - below(14);
    case 3: return one_in(4) ? PLACES + below(3) : one_in(8) ? UINT32_MAX - below(8) : below(PLACES);
    default: return 0;
    }
}

static void pick_lent(struct test *test)
{
    uint32_t chance = below(16);
    test->exact = chance >= 4 && chance < 7;
    test->spare = (int)below(3) - 1;
    test->lent = chance == 0 ? 0 : chance < 4 ? below(12) : chance == 7 ? random64() : UINT32_MAX;
    test->cut = random64();
}

static void make_list(struct list *list, uint32_t n)
{
    struct test *test = list->test;
    size_t words = pick_list_words(n);
    test->list_at = pick_list_at(n, words);
    make_plan(&list->plan, n, one_in(3), list->care != LAWFUL && one_in(3));
    if (one_in(2))
        copy_in_list(list, n);
    while (test->job_words < words)
        put_instruction(list);
    if (list->care != LAWFUL && one_in(3))
        put_move(list, pick_offset(), random_word());
    else if (!one_in(4))
        put(test, 0xFFFF), put(test, 0xFFFE);
}

void make_frame(struct test *test, enum care care)
{
    static struct list list;
    list.test = test;
    list.care = care;
    list.line = 0;
    test->ram_words = one_in(8) ? pick_ram_words() : 2 + below(one_in(2) ? 600 : 120);
    if (care == DAMAGED && one_in(10))
        test->ram_words = one_in(2) ? 0 : POINTERS + 1;
    test->ram_seed = random64();
    test->file_words = FILE_WORDS;
    uint32_t n = test->ram_words == 0 ? 1 : at_most(test->ram_words, POINTERS);
    make_list(&list, n);
    memcpy(test->file, list.plan.file, sizeof list.plan.file);
    test->file[BLITTER] = one_in(6) ? 0 : DANGER;
    if (care == DAMAGED && one_in(8))
        damage_file(test);
    test->start = pick_start(test, n, care);
    test->beam = pick_beam();
    pick_lent(test);
}
