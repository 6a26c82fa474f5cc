/* Pointers that go round: blits and lines laid around the words 0 and 262,143, how often a pointer went round in each
 * kind of call, and seams that go through both ends one by one. */
#include <inttypes.h>
#include <stdio.h>
#include <string.h>

#include "differ.h"

enum { DESCENDING = 0x02, NEAREST = 2, MOST_ROWS = 3, SETTLED_WORDS = 64, FEW = 70, LINE_DOTS = 20 };

/* Memory of so many words or more has nearly all that pointers have. */
enum { NEARLY_ALL = POINTERS - 19 };

/* What was said of pointers: by blits and lines called alone, by runs, by refused runs, by foldings, by a folded job
 * and its original alike; and how many blits and lines called alone said it in memory that has fewer words than
 * pointers. */
static uint64_t in_areas[2], in_lines[2], in_runs[2], in_refused, in_foldings[2], in_pairs, in_small[2];

void count_round(const struct test *test)
{
    bool line = test->file[1] & LINE;
    if (plain.number != 0 && test->call != RUN)
        return;
    if (test->call == RUN) {
        in_runs[plain.round]++;
        in_refused += plain.number != 0 && plain.round;
    } else if (test->call == FOLD) {
        in_foldings[plain.round]++;
    } else {
        (line ? in_lines : in_areas)[plain.round]++;
        in_small[line] += plain.round && test->ram_words < POINTERS;
    }
}

void count_round_of_pair(const struct side *side) { in_pairs += side->round; }

void print_rounds(void)
{
    printf("gone round: %" PRIu64 " area blits of %" PRIu64 ", %" PRIu64 " lines of %" PRIu64
           ", in fewer words than pointers have %" PRIu64 " and %" PRIu64 "; ",
           in_areas[1], in_areas[0] + in_areas[1], in_lines[1], in_lines[0] + in_lines[1], in_small[0], in_small[1]);
    printf("%" PRIu64 " runs of %" PRIu64 ", refused later %" PRIu64 "; %" PRIu64 " pairs of runs; ",
           in_runs[1], in_runs[0] + in_runs[1], in_refused, in_pairs);
    printf("%" PRIu64 " foldings of %" PRIu64 " kept a blit for that alone\n",
           in_foldings[1], in_foldings[0] + in_foldings[1]);
}

bool rounds_came(bool in_jobs)
{
    bool came = in_areas[0] && in_areas[1] && in_lines[0] && in_lines[1] && in_small[0] && in_small[1]
        && in_foldings[0] && in_foldings[1] && in_pairs;
    if (in_jobs)
        came = came && in_runs[0] && in_runs[1] && in_refused;
    if (!came)
        printf("in some kind of call no pointer went round\n");
    return came;
}

static bool descends(const struct plan *plan) { return plan->file[1] & DESCENDING; }

static void set_half(struct plan *plan, int channel, int32_t half)
{
    plan->file[FIRST_MODULO + channel] = (uint32_t)half * 2;
}

/* A move of a channel: the words and the modulos that were moved by then. */
struct move {
    int32_t words, modulos;
};

/* Lays a channel so that behind a move its pointer is at a word, -1 being the highest. */
static void lay_channel(struct plan *plan, int channel, int32_t half, struct move move, int32_t word)
{
    int32_t way = move.words + move.modulos * half;
    set_half(plan, channel, half);
    set_pointer(plan, FIRST_POINTER + 2 * channel, word - (descends(plan) ? -way : way));
}

/* Near word 0, or near the highest, which is the word below it. */
static int32_t pick_end(void) { return (int32_t)below(2 * NEAREST + 1) - NEAREST; }

/* Half a modulo: a row again, a word less or more; none, a word; some words; any. */
static int32_t pick_half(int32_t width)
{
    int32_t near = (int32_t)below(3) - 1;
    switch (below(8)) {
    case 0: return (int32_t)below(32768) - 16384;
    case 1: return (int32_t)below(200) - 100;
    case 2: case 3: case 4: return near - width;
    default: return near;
    }
}

/* A move behind some word of some row, or that row's modulo; now and then the one behind the last word. */
static struct move pick_move(const struct plan *plan)
{
    int32_t row = one_in(3) ? plan->height : 1 + below(plan->height), width = plan->width;
    struct move move = {(row - 1) * width + (one_in(3) ? 1 + (int32_t)below(width) : width), row - 1};
    if (move.words == row * width && one_in(2))
        move.modulos++;
    return move;
}

/* The channels other than one in the middle of the pointers, rows without a gap, so that none of them goes round. */
static void lay_others(struct plan *plan, int channel)
{
    for (int other = 0; other < CHANNELS; other++)
        if (other != channel) {
            set_half(plan, other, 0);
            set_pointer(plan, FIRST_POINTER + 2 * other, POINTERS / 2 + 1000 * other);
        }
}

void lay_round(struct plan *plan, uint32_t n)
{
    int channel = one_in(2) ? D_CHANNEL : below(CHANNELS);
    int32_t width = plan->width;
    if (n >= NEARLY_ALL) {
        if (one_in(2))
            lay_others(plan, channel);
        lay_channel(plan, channel, pick_half(width), pick_move(plan), pick_end());
    } else if (descends(plan) && (uint32_t)width < n) {
        /* lawful are rows that end at word 0 and are led back by the modulo, or nearly */
        struct move first = {width, 0};
        int32_t up = (int32_t)below(at_most(n - width, 3));
        lay_channel(plan, channel, -width - up, first, (int32_t)below(2) - 1);
    }
}

/* How many words a line's pointer has moved behind so many dots. */
static int32_t way_behind(const struct plan *plan, uint32_t dots)
{
    struct plan part = *plan;
    part.height = dots + 1;
    return last_of(&part);
}

void lay_line_round(struct plan *plan, uint32_t n)
{
    if (n == POINTERS) {
        uint32_t dots = one_in(3) ? plan->height : 1 + below(plan->height);
        set_line_pointer(plan, pick_end() - way_behind(plan, dots));
        return;
    }
    /* lawful are two moves of one step that lead out and back: over a word's end, and up or down by a word */
    bool left = plan->file[1] & (plan->file[1] & SUD ? AUL : SUL);
    plan->file[0] = (plan->file[0] & 0x0FFF) | (left ? 0 : 0xF000);
    plan->file[1] &= ~SIGN;
    plan->file[FIRST_MODULO + C_CHANNEL] = one_in(2) ? 2 : 0xFFFE;
    set_dots(plan, 2 + below(6));
    set_line_pointer(plan, (one_in(4) ? 1 : 0) - way_of(plan).lowest);
}

static struct plan plan;
static uint64_t cases;

/* Whether both sides end alike: the blit called alone in memory of so many words. */
static bool alike(size_t ram_words)
{
    static struct test test;
    test.call = BLIT;
    test.ram_words = ram_words;
    test.ram_seed = random64();
    test.file_words = FILE_WORDS;
    memcpy(test.file, plan.file, sizeof plan.file);
    test.size = plan.size;
    if (difference(&test) == NULL)
        return true;
    report(&test, "the round of number", cases);
    return false;
}

/* The next case: a blit of these channels and this size, the registers besides drawn. */
static void begin(uint16_t uses, bool descending, uint32_t rows, uint32_t width)
{
    start_random(++cases);
    plan.file[0] = below(16) << 12 | uses | (one_in(2) ? 0x96 : below(256));
    plan.file[1] = below(16) << 12 | (descending ? DESCENDING : 0);
    plan.file[2] = random_word();
    plan.file[3] = random_word();
    for (int i = 16; i < BLITTER; i++)
        plan.file[i] = random_word();
    pick_screen(plan.file);
    plan.height = rows;
    plan.width = width;
    plan.size = rows << 6 | width % 64;
}

static const uint8_t widths[] = {1, 2, 3, 64};
enum { WIDTHS = sizeof widths / sizeof *widths, HALVES = 7 };

/* A row again, a word less or more; none, a word; a row back and forth. */
static int32_t half_of(uint32_t width, int which)
{
    const int32_t halves[HALVES] = {-(int32_t)width - 1, -(int32_t)width, 1 - (int32_t)width, -1, 0, 1, width};
    return halves[which];
}

/* One channel at an end with each move of its rows, the others in the middle. */
static bool moves(uint16_t uses, int channel, bool descending, uint32_t rows, uint32_t width, int32_t half)
{
    for (uint32_t row = 1; row <= rows; row++)
        for (int which = 0; which < 3; which++)
            for (int32_t word = -NEAREST; word <= NEAREST; word++) {
                struct move move = {row * width - (which == 0), row - (which != 2)};
                begin(uses, descending, rows, width);
                lay_others(&plan, channel);
                lay_channel(&plan, channel, half, move, word);
                if (!alike(POINTERS - (one_in(4) ? below(3) : 0)))
                    return false;
            }
    return true;
}

/* D alone from every word near either end. */
static bool starts(bool descending, uint32_t rows, uint32_t width, int32_t half)
{
    int32_t near = width == 64 ? FEW : 3 * (int32_t)width + 2;
    struct move none = {0, 0};
    for (int32_t start = -near; start <= near; start += 1 + (width == 64 && near - (start < 0 ? -start : start) > 8)) {
        begin(USE_D, descending, rows, width);
        lay_others(&plan, D_CHANNEL);
        lay_channel(&plan, D_CHANNEL, half, none, start);
        if (!alike(POINTERS))
            return false;
    }
    return true;
}

static bool areas(bool descending, uint32_t rows, uint32_t width, int32_t half)
{
    static const struct { uint16_t uses; int channel; } sets[] = {
        {USE_D, D_CHANNEL}, {USE_A | USE_D, A_CHANNEL}, {USE_A | USE_D, D_CHANNEL}, {USE_A, A_CHANNEL},
        {USE_B | USE_C | USE_D, B_CHANNEL}, {USE_B | USE_C, C_CHANNEL}, {USE_A, D_CHANNEL}
    };
    for (size_t i = 0; i < sizeof sets / sizeof *sets; i++)
        if (!moves(sets[i].uses, sets[i].channel, descending, rows, width, half))
            return false;
    return starts(descending, rows, width, half);
}

/* Memory of few words: D alone, or A with D apart, from each of its first words on. */
static bool small(bool descending, uint32_t rows, uint32_t width, int32_t half)
{
    static const uint16_t sizes[] = {1, 2, 16, 64, 200};
    struct move none = {0, 0};
    for (size_t i = 0; i < sizeof sizes / sizeof *sizes; i++)
        for (int32_t start = 0; start <= FEW && start < sizes[i]; start++) {
            bool with_a = one_in(4);
            begin(with_a ? USE_A : USE_D, descending, rows, width);
            lay_others(&plan, D_CHANNEL);
            lay_channel(&plan, with_a ? A_CHANNEL : D_CHANNEL, half, none, start);
            if (!alike(sizes[i]))
                return false;
        }
    return true;
}

/* Whether both sides fold a job alike: D's blit, a register left out or none, and the same blit again. */
static bool folds_alike(size_t ram_words)
{
    static const uint8_t registers[] = {0, 1, 2, 3, 10, 11, 15, 18};
    static struct test test;
    uint32_t left_out = one_in(6) ? below(sizeof registers) : sizeof registers;
    memset(&test, 0, sizeof test);
    test.call = FOLD;
    test.ram_words = ram_words;
    test.ram_seed = random64();
    test.file_words = FILE_WORDS;
    memcpy(test.file, plan.file, sizeof plan.file);
    for (uint32_t i = 0; i < sizeof registers; i++)
        if (i != left_out)
            put(&test, offsets[registers[i]]), put(&test, plan.file[registers[i]]);
    for (uint32_t times = 1 + below(2); times > 0; times--)
        put(&test, 0x058), put(&test, plan.size);
    if (difference(&test) == NULL)
        return true;
    report(&test, "the folded round of number", cases);
    return false;
}

/* Blits of D alone that could be settled: with each move at an end, and in few words from the first ones on. */
static bool foldings(bool descending, uint32_t rows, uint32_t width, int32_t half)
{
    struct move none = {0, 0};
    for (uint32_t row = 1; row <= rows; row++)
        for (int modulo = 0; modulo < 2; modulo++)
            for (int32_t word = -NEAREST; word <= NEAREST; word++) {
                struct move move = {row * width, row - 1 + modulo};
                begin(USE_D, descending, rows, width);
                plan.file[0] = (plan.file[0] & 0xFF00) | (one_in(2) ? 0x00 : 0xF0);
                lay_others(&plan, D_CHANNEL);
                lay_channel(&plan, D_CHANNEL, half, move, word);
                if (!folds_alike(POINTERS - (one_in(4) ? below(3) : 0)))
                    return false;
                lay_channel(&plan, D_CHANNEL, half, none, below(4) + (descending ? width - 1 : 0));
                if (!folds_alike(1 + below(2 * SETTLED_WORDS)))
                    return false;
            }
    return true;
}

static bool all_areas(void)
{
    for (int descending = 0; descending < 2; descending++)
        for (uint32_t rows = 1; rows <= MOST_ROWS; rows++)
            for (int i = 0; i < WIDTHS; i++)
                for (int which = 0; which < HALVES; which++) {
                    uint32_t width = widths[i];
                    int32_t half = half_of(width, which);
                    if (!areas(descending, rows, width, half) || !small(descending, rows, width, half)
                        || !foldings(descending, rows, width, half))
                        return false;
                }
    return true;
}

/* A line whose pointer, behind so many of its dots, is at a word near an end; in few words, whose first dot is there.
 */
static bool alike_line(uint32_t dots, int32_t word)
{
    set_line_pointer(&plan, word - way_behind(&plan, dots));
    if (!alike(POINTERS - (one_in(4) ? below(3) : 0)))
        return false;
    set_line_pointer(&plan, word + NEAREST);
    return alike(1 + below(8));
}

/* Every octant, with SING and without, either sign, at a word's ends and inside it, rows of no word, one or two, down
 * and up, behind the first dot, the last and the last but one. */
static bool all_lines(void)
{
    static const int8_t rows[] = {0, 1, -1, 2, -2};
    static const uint8_t shifts[] = {0, 15, 7}, lengths[] = {1, 2, 3, LINE_DOTS};
    for (uint32_t which = 0; which < 32 * 5 * 3 * 4; which++)
        for (int32_t word = -NEAREST; word <= NEAREST; word++) {
            uint32_t dots = lengths[which / 480];
            start_random(++cases);
            pick_line(&plan);
            set_dots(&plan, dots);
            plan.file[0] = (plan.file[0] & 0x0FFF) | shifts[which / 160 % 3] << 12;
            plan.file[1] = (plan.file[1] & ~(LINE_BITS | SIGN)) | (which & 15) << 1 | (which & 16 ? SIGN : 0);
            set_half(&plan, C_CHANNEL, rows[which / 32 % 5]);
            if (!alike_line(dots == 1 ? 1 : one_in(3) ? 1 : dots - below(2), word))
                return false;
        }
    return true;
}

uint64_t round_seams(void)
{
    return all_areas() && all_lines() ? cases : 0;
}
