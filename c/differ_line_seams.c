/* Lines of every kind, always the same ones. Settings of BLTCON1, shifts, first bits of the texture, slopes, numbers of
 * dots, edges of memory and what is refused are gone through one by one; the rest is drawn, by the line's number. */
#include <inttypes.h>
#include <stdio.h>
#include <string.h>

#include "differ.h"

enum { SETTINGS = 64, SHIFTS = 16, FUNCTIONS = 256, WIDTHS = 64, SETS = 16, POINTER_BITS = 18, MOST_DOTS = 1024 };
enum { LONGEST_SIDE = 40, DRAWS = 8, SMALL = 4096 };

static struct plan line;
static uint64_t cases;

static void set_shift(uint32_t shift) { line.file[0] = (line.file[0] & 0x0FFF) | shift << 12; }
static void set_texture_bit(uint32_t bit) { line.file[1] = (line.file[1] & 0x0FFF) | bit << 12; }
static void set_function(uint32_t function) { line.file[0] = (line.file[0] & 0xFF00) | function; }

/* Bits 6 to 1, bit 5 without sense among them. */
static void set_setting(uint32_t setting) { line.file[1] = (line.file[1] & 0xFF80) | setting << 1 | LINE; }

/* The three bits of an octant, SUD, SUL and AUL, and SING. */
static void set_octant(uint32_t octant, bool sing)
{
    line.file[1] = (line.file[1] & ~(SUD | SUL | AUL | SING)) | octant << 2 | (sing ? SING : 0);
}

/* Begins the next line, of one dot. */
static void begin(void)
{
    start_random(++cases);
    pick_line(&line);
    set_dots(&line, 1);
}

static bool alike(size_t ram_words)
{
    static struct test test;
    test.call = BLIT;
    test.ram_words = ram_words;
    test.ram_seed = random64() << 2 | (one_in(16) ? 3 : below(3));
    test.file_words = FILE_WORDS;
    memcpy(test.file, line.file, sizeof line.file);
    test.size = line.size;
    if (difference(&test) == NULL)
        return true;
    report(&test, "the line of number", cases);
    return false;
}

/* In memory that the line just fills, or that is longer by a word or two; where it would be long, in any. */
static bool alike_inside(void)
{
    struct reach way = way_of(&line);
    int32_t words = way.highest - way.lowest + 1, before = below(3);
    if (words > SMALL) {
        set_line_pointer(&line, below(POINTERS));
        return alike(one_in(16) ? POINTERS : 1 + below(SMALL));
    }
    set_line_pointer(&line, before - way.lowest);
    return alike(before + words + below(2));
}

/* Every setting with every shift and every first bit. */
static bool settings(void)
{
    for (uint32_t which = 0; which < SETTINGS * SHIFTS * SHIFTS * DRAWS; which++) {
        begin();
        set_dots(&line, 1 + below(one_in(2) ? 4 : 40));
        set_setting(which % SETTINGS);
        set_shift(which / SETTINGS % SHIFTS);
        set_texture_bit(which / SETTINGS / SHIFTS % SHIFTS);
        if (!alike_inside())
            return false;
    }
    return true;
}

/* Every line of the manual's set-up whose longer side is at most 40, in every octant, with SING and without. */
static bool slopes(void)
{
    for (uint32_t octant = 0; octant < 16; octant++)
        for (uint32_t long_side = 0; long_side <= LONGEST_SIDE; long_side++)
            for (uint32_t short_side = 0; short_side <= long_side; short_side++) {
                begin();
                set_dots(&line, long_side + 1);
                set_octant(octant % 8, octant >= 8);
                set_slope(&line, long_side, short_side);
                if (!alike_inside())
                    return false;
            }
    return true;
}

/* Every number of dots, 0 in the size being 1,024. Of the last ones more than memory has rows. */
static bool lengths(void)
{
    for (uint32_t dots = 1; dots <= MOST_DOTS; dots++)
        for (int kind = 0; kind < 3; kind++) {
            begin();
            set_dots(&line, dots);
            if (kind == 0)
                set_slope(&line, dots - 1, below(dots));
            if (kind == 1)
                line.file[FIRST_MODULO + C_CHANNEL] = one_in(2) ? 0 : 2;
            set_line_pointer(&line, below(SMALL));
            if (kind == 2 ? !alike(1 + below(SMALL)) : !alike_inside())
                return false;
        }
    return true;
}

/* The accumulator at the ends of its sign, with every two modulos that bring it there or past it. */
static bool accumulators(void)
{
    static const uint16_t starts[] = {0, 2, 0x7FFE, 0x8000, 0x8002, 0xFFFE};
    static const uint16_t modulos[] = {0, 2, 4, 0x7FFE, 0x8000, 0x8002, 0xFFFC, 0xFFFE};
    for (uint32_t which = 0; which < 6 * 8 * 8 * 4; which++) {
        begin();
        set_dots(&line, 20);
        set_setting(which & 1 ? 0x20 : 0);
        line.file[1] |= (which & 2 ? SUD : 0) | (random64() & (SUL | AUL | SING));
        line.file[A_LOW] = starts[which / 4 % 6];
        line.file[FIRST_MODULO + A_CHANNEL] = modulos[which / 24 % 8];
        line.file[FIRST_MODULO + B_CHANNEL] = modulos[which / 24 / 8];
        if (!alike_inside())
            return false;
    }
    return true;
}

/* Every function, with the mark that the manual has and with any. */
static bool functions(void)
{
    for (uint32_t function = 0; function < FUNCTIONS; function++)
        for (int which = 0; which < 4; which++) {
            begin();
            set_dots(&line, 1 + below(20));
            set_function(function);
            line.file[2] = which & 1 ? 0xFFFF : random64();
            line.file[18] = which & 2 ? 0x8000 : random64();
            if (!alike_inside())
                return false;
        }
    return true;
}

/* Lines that come back: C's modulo 0, or a word against the horizontal moves, so that dots are fetched that were
 * stored. */
static bool returns(void)
{
    static const uint16_t rows[] = {0, 2, 0xFFFE, 4, 0xFFFC};
    for (uint32_t setting = 0; setting < SETTINGS; setting++)
        for (uint32_t which = 0; which < 5 * DRAWS; which++) {
            begin();
            set_dots(&line, 1 + below(80));
            set_setting(setting);
            set_function(one_in(2) ? 0x5A : 0x96);
            line.file[FIRST_MODULO + C_CHANNEL] = rows[which % 5];
            if (!alike_inside())
                return false;
        }
    return true;
}

/* One dot at memory's last word or its first one: the step behind it may leave memory, and touches nothing. */
static bool last_steps(size_t n)
{
    for (uint32_t setting = 0; setting < SETTINGS; setting++)
        for (uint32_t shift = 0; shift < SHIFTS; shift++) {
            begin();
            set_setting(setting);
            set_shift(shift);
            set_line_pointer(&line, one_in(4) ? 0 : n - 1);
            if (!alike(n))
                return false;
        }
    return true;
}

/* Lines whose outermost dot is memory's last word or its first one, or one or some words past it: refused, or going
 * round where memory has all words that pointers have. */
static bool edges(int32_t n)
{
    for (uint32_t setting = 0; setting < SETTINGS; setting++)
        for (int which = 0; which < 6; which++) {
            begin();
            set_dots(&line, 1 + below(n < 16 ? 16 : 60));
            set_setting(setting);
            if (which % 3 != 2)
                line.file[FIRST_MODULO + C_CHANNEL] = n < 60 ? 0 : 2 * below(4);
            struct reach way = way_of(&line);
            int32_t past = which % 3 == 2 ? 2 + (int32_t)below(20) : which % 3;
            set_line_pointer(&line, which < 3 ? n - 1 + past - way.highest : -past - way.lowest);
            if (!alike(n))
                return false;
        }
    return true;
}

/* Straight up or down by long strides, which go round more than once: one dot at the last word of memory, or at the one
 * word that pointers have and memory hasn't. */
static bool strides(void)
{
    static const uint16_t modulos[] = {0x4000, 0xC000, 0x7FFE, 0x8000, 0x8002, 0x5556, 0x1000, 0xFFFE};
    for (uint32_t which = 0; which < 8 * 2 * 2; which++)
        for (uint32_t dot = 0; dot < 40; dot += 1 + below(4)) {
            begin();
            set_dots(&line, 40);
            set_setting(0x20 | (which & 1 ? AUL >> 1 : 0) | below(2));
            line.file[A_LOW] = 0x8000;
            line.file[FIRST_MODULO + B_CHANNEL] = 0;
            line.file[FIRST_MODULO + C_CHANNEL] = modulos[which / 4];
            int32_t stride = (int16_t)modulos[which / 4] / 2 * (which & 1 ? 1 : -1);
            set_line_pointer(&line, POINTERS - 1 - (which >> 1 & 1) + (uint32_t)stride * dot);
            if (!alike(POINTERS - 1))
                return false;
        }
    return true;
}

static bool all_edges(void)
{
    static const int32_t sizes[] = {1, 2, 3, 17, 64, 500, POINTERS - 1, POINTERS};
    for (size_t i = 0; i < sizeof sizes / sizeof *sizes; i++)
        if (!edges(sizes[i]) || (sizes[i] < POINTERS - 1 && !last_steps(sizes[i])))
            return false;
    return true;
}

/* A short line of this width and these channels, in memory of 64 words or outside it, whose C and D differ in some
 * bits. */
static bool alike_with(uint32_t width, uint32_t uses, bool outside, uint32_t apart)
{
    uint32_t word = (outside ? 64 : 10) + below(40);
    line.file[0] = (line.file[0] & 0xF0FF) | uses;
    line.file[FIRST_MODULO + C_CHANNEL] = 0;
    line.size = (line.size & ~63u) | width;
    set_line_pointer(&line, word);
    set_pointer(&line, FIRST_POINTER + 2 * D_CHANNEL, word ^ apart);
    return alike(64);
}

static bool widths_and_sets(void)
{
    for (uint32_t width = 0; width < WIDTHS; width++)
        for (uint32_t set = 0; set < SETS; set++) {
            begin();
            set_dots(&line, 1 + below(8));
            if (!alike_with(width, set << 8, one_in(2), one_in(2) ? 0 : 1u << below(POINTER_BITS)))
                return false;
        }
    return true;
}

static bool pointer_bits(void)
{
    for (uint32_t bit = 0; bit < POINTER_BITS; bit++)
        for (int outside = 0; outside < 2; outside++) {
            begin();
            set_dots(&line, 1 + below(8));
            if (!alike_with(2, LINE_USES, outside, 1u << bit))
                return false;
        }
    return true;
}

/* Every set of four faults, so that 18 is given before 19 and 19 before 16. */
static bool orders(void)
{
    for (uint32_t which = 0; which < 16 * DRAWS; which++) {
        begin();
        set_dots(&line, 1 + below(8));
        uint32_t width = which & 1 ? 3 + below(WIDTHS - 3) : 2;
        uint32_t uses = which & 2 ? LINE_USES ^ USE_D << below(4) : LINE_USES;
        if (!alike_with(width, uses, which & 4, which & 8 ? 1u << below(POINTER_BITS) : 0))
            return false;
    }
    return true;
}

uint64_t line_seams(void)
{
    bool all = settings() && slopes() && lengths() && accumulators() && functions() && returns() && all_edges()
        && strides() && widths_and_sets() && pointer_bits() && orders();
    return all ? cases : 0;
}
