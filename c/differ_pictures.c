/* The pictures of the differential test, done on both sides: random ones, lawful, near the edge and with one or two
 * faults, and one for every pair of delays, number of planes and number of words. */
#include <inttypes.h>
#include <stdio.h>
#include <string.h>

#include "desk.h"
#include "differ.h"
#include "plain.h"

enum { COLOR00 = 20, COLOURS = 32, MOST_PLANES = 5, MOST_WORDS = 40, DELAYS = 16, WORD_PIXELS = 16, PLANES_FILLED = 8 };

/* What is wrong with a picture, in the order in which it is judged. */
enum { BAD_MEMORY = 1, BAD_FILE = 2, BAD_NUMBERS = 4, BAD_OUT = 8, BAD_PLANE = 16, FAULTS = 5 };

static uint64_t pixels, with_two_faults;

static uint32_t pick_faults(enum care care)
{
    if (care == LAWFUL)
        return 0;
    if (care == RISKY)
        return one_in(2) ? 0 : BAD_NUMBERS << below(3);
    uint32_t first = below(FAULTS), second = below(FAULTS);
    with_two_faults += first != second;
    return 1u << first | 1u << second;
}

static size_t pick_memory(bool bad)
{
    if (bad)
        return one_in(4) ? POINTERS + 1 : 0;
    return one_in(4) ? pick_ram_words() : 1 + below(one_in(2) ? 60 : 300);
}

/* The Blitter's registers play no part. Mostly no colour is like another. */
static void pick_file(struct test *test)
{
    struct plan plan;
    make_plan(&plan, POINTERS, false, false);
    memcpy(test->file, plan.file, sizeof plan.file);
    test->file_words = FILE_WORDS;
    if (one_in(8))
        return;
    for (int i = 0; i < COLOURS; i++)
        test->file[COLOR00 + i] = random64() & 0x0FFF;
}

static void spoil_file(struct test *test)
{
    if (one_in(2))
        damage_file(test);
    else
        test->file[COLOR00 + below(COLOURS)] |= 0x1000u << below(4);
}

/* More than memory has are a plane's fault too. */
static uint32_t pick_words(uint32_t n, bool bad_plane)
{
    static const uint32_t some[] = {1, 2, 20, MOST_WORDS};
    if (bad_plane && n < MOST_WORDS && one_in(4))
        return n + 1 + below(MOST_WORDS - n);
    return at_most(n, one_in(2) ? some[below(4)] : 1 + below(MOST_WORDS));
}

static uint32_t pick_delay(void) { return one_in(4) ? 0 : one_in(4) ? DELAYS - 1 : below(DELAYS); }

/* At an end of memory, on the plane before, over a part of it or next to it, or anywhere. */
static uint32_t pick_start(const struct test *test, uint32_t n, uint32_t plane)
{
    uint32_t last = n - test->words, before = plane == 0 ? 0 : test->planes[plane - 1];
    switch (below(5)) {
    case 0: return 0;
    case 1: return last;
    case 2: return before;
    case 3: return at_most(before + below(test->words + 1), last);
    default: return below(last + 1);
    }
}

/* A start whose words memory hasn't all: by one, by all, or by so many that the sum goes round in 32 bits. */
static uint32_t pick_far_start(const struct test *test, uint32_t n)
{
    const uint32_t words = test->words, starts[] = {
        n - words + 1, n - below(words), n, n + 1, POINTERS, UINT32_MAX - words, UINT32_MAX - words + 1, UINT32_MAX,
        UINT32_MAX - below(words), 0x80000000u
    };
    return one_in(16) ? n + below(UINT32_MAX - n) : starts[below(sizeof starts / sizeof *starts)];
}

/* Behind the planes given, where nothing may look, stand others, some of them far. */
static void pick_planes(struct test *test, uint32_t n, bool bad)
{
    for (uint32_t i = 0; i < PLANES_FILLED; i++)
        test->planes[i] = pick_start(test, n, i);
    for (uint32_t i = test->plane_count; i < PLANES_FILLED; i++)
        if (one_in(2))
            test->planes[i] = pick_far_start(test, n);
    if (bad)
        test->planes[below(test->plane_count)] = pick_far_start(test, n);
    if (bad && one_in(4))
        test->planes[below(test->plane_count)] = pick_far_start(test, n);
}

static uint32_t pick_out_words(uint32_t line, bool bad)
{
    if (bad)
        return one_in(2) ? line - 1 : one_in(4) ? line - WORD_PIXELS : below(line);
    return line + (one_in(2) ? 0 : 1 + below(40));
}

/* One number past what W9 takes; half of the even delays with one plane, which they don't delay. */
static void spoil_number(struct test *test)
{
    static const uint32_t counts[] = {0, 6, 6, 7, 8, 32, 33, PLANE_ROOM - 1, PLANE_ROOM};
    static const uint32_t widths[] = {0, 41, 42, 64, 257, 0x10001, 0x08000001, 0x10000000, 0x80000000u, UINT32_MAX};
    static const uint32_t delays[] = {16, 16, 17, 31, 32, 256, 0x10000, 0x7FFFFFFF, 0x80000000u, UINT32_MAX};
    switch (below(4)) {
    case 0: test->plane_count = counts[below(sizeof counts / sizeof *counts)]; break;
    case 1: test->words = widths[below(sizeof widths / sizeof *widths)]; break;
    case 2: test->odd_delay = delays[below(sizeof delays / sizeof *delays)]; break;
    default:
        test->even_delay = delays[below(sizeof delays / sizeof *delays)];
        test->plane_count = one_in(2) ? 1 : test->plane_count;
    }
}

void make_picture(struct test *test, enum care care)
{
    uint32_t faults = pick_faults(care);
    test->ram_words = pick_memory(faults & BAD_MEMORY);
    test->ram_seed = random64();
    uint32_t n = test->ram_words == 0 ? 1 : at_most(test->ram_words, POINTERS);
    pick_file(test);
    test->plane_count = 1 + below(MOST_PLANES);
    test->words = pick_words(n, faults & BAD_PLANE);
    test->odd_delay = pick_delay();
    test->even_delay = pick_delay();
    test->out_words = pick_out_words(WORD_PIXELS * test->words, faults & BAD_OUT);
    pick_planes(test, n, faults & BAD_PLANE);
    if (faults & BAD_FILE)
        spoil_file(test);
    if (faults & BAD_NUMBERS)
        spoil_number(test);
    if (faults & BAD_NUMBERS && one_in(4))
        spoil_number(test);
}

static void set_up_planes(struct side *side, const struct test *test)
{
    memset(side->planes, 0xA5, sizeof side->planes);
    memcpy(side->planes + FENCE, test->planes, sizeof test->planes);
}

static void set_up_picture(struct side *side, const struct test *test)
{
    set_up(side, test);
    set_up_planes(side, test);
    set_up_out(side, test->out_words);
}

/* Compares what the archive was lent to read with the same as it was laid out for the other side. */
static const char *difference_of_lent(void)
{
    if (memcmp(desk.ram, plain.ram, (FENCE + desk.ram_words + FENCE) * sizeof *desk.ram) != 0)
        return "memory, which is only read";
    if (memcmp(desk.file, plain.file, sizeof desk.file) != 0)
        return "register file, which is only read";
    return memcmp(desk.planes, plain.planes, sizeof desk.planes) != 0 ? "bit planes, which are only read" : NULL;
}

const char *difference_of_pictures(const struct test *test)
{
    set_up_picture(&desk, test);
    set_up_picture(&plain, test);
    desk_picture(desk.ram + FENCE, test->ram_words, desk.file + FENCE, test->file_words, desk.planes + FENCE,
                 test->plane_count, test->words, test->odd_delay, test->even_delay, desk.out + FENCE, test->out_words,
                 &desk.number);
    const char *changed = difference_of_lent();
    plain_picture(plain.ram + FENCE, test->ram_words, plain.file + FENCE, test->file_words, plain.planes + FENCE,
                  test->plane_count, test->words, test->odd_delay, test->even_delay, plain.out + FENCE, test->out_words,
                  &plain.number);
    outcomes[PICTURE][plain.number]++;
    pixels += plain.number == 0 ? WORD_PIXELS * test->words : 0;
    if (desk.number != plain.number)
        return "number";
    if (memcmp(desk.out, plain.out, (FENCE + test->out_words + FENCE) * sizeof *desk.out) != 0)
        return "output";
    return changed;
}

enum { PICTURE_SEAMS = DELAYS * DELAYS * MOST_PLANES * MOST_WORDS };

/* The number's digits are the delays, the planes and the words; the rest is drawn. */
static void make_seam(struct test *test, uint32_t number)
{
    start_random(number);
    memset(test, 0, sizeof *test);
    test->call = PICTURE;
    test->odd_delay = number % DELAYS;
    test->even_delay = number / DELAYS % DELAYS;
    test->plane_count = 1 + number / (DELAYS * DELAYS) % MOST_PLANES;
    test->words = 1 + number / (DELAYS * DELAYS * MOST_PLANES);
    test->ram_words = MOST_PLANES * test->words + below(9);
    test->ram_seed = random64() << 2 | below(3);
    test->out_words = WORD_PIXELS * test->words + below(2);
    pick_file(test);
    pick_planes(test, test->ram_words, false);
}

uint64_t picture_seams(void)
{
    static struct test test;
    for (uint32_t number = 0; number < PICTURE_SEAMS; number++) {
        make_seam(&test, number);
        if (difference(&test) != NULL) {
            report(&test, "the picture of number", number);
            return 0;
        }
    }
    return PICTURE_SEAMS;
}

void print_pictures(void)
{
    printf("pixels compared: %" PRIu64 "; pictures with two faults: %" PRIu64 "\n", pixels, with_two_faults);
}

void print_line(const struct side *side, const struct test *test)
{
    for (uint32_t i = 0; i < test->out_words && i / WORD_PIXELS <= at_most(test->words, MOST_WORDS); i++)
        printf("%s%03X", i % WORD_PIXELS == 0 ? "\n " : " ", side->out[FENCE + i]);
}
