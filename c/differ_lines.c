/* The lines of the differential test: register files whose lines lie in memory, often against its edge, by the manual's
 * set-up or with any registers; and how many lines of each kind were compared. */
#include <inttypes.h>
#include <stdio.h>
#include <string.h>

#include "differ.h"

enum { MOST_DOTS = 1024, OCTANTS = 8 };

/* One line in so many is laid where the pointers end. */
enum { ROUND_SHARE = 6 };

/* Lines called alone: by number; the done ones by their bits SUD, SUL and AUL; those with SING, those with a dot that
 * isn't stored, and those with no stored word but zeros. Lines done in jobs, in jobs that a folding changes, and in
 * lists. */
static uint64_t by_number[NUMBERS], by_bits[OCTANTS], single, with_gaps, all_zero, in_runs, in_folded, in_frames;

void set_dots(struct plan *plan, uint32_t dots)
{
    plan->height = dots;
    plan->width = 2;
    plan->size = dots % MOST_DOTS << 6 | 2;
}

void set_slope(struct plan *plan, uint32_t long_side, uint32_t short_side)
{
    uint32_t accumulator = 4 * short_side - 2 * long_side;
    plan->file[A_LOW] = accumulator;
    plan->file[FIRST_MODULO + A_CHANNEL] = 4 * short_side - 4 * long_side;
    plan->file[FIRST_MODULO + B_CHANNEL] = 4 * short_side;
    plan->file[1] = (plan->file[1] & ~SIGN) | (accumulator & 0x8000 ? SIGN : 0);
}

static int32_t word_of(int32_t pixel) { return (pixel - (pixel < 0 ? 15 : 0)) / 16; }

/* Dots are followed as pixels of one long row, so that a word's end needs no thought. Gives the last one. */
static int32_t follow(const struct plan *plan, int32_t *lowest, int32_t *highest)
{
    const uint16_t *file = plan->file;
    int32_t row = (int16_t)file[FIRST_MODULO + C_CHANNEL] / 2 * 16, pixel = file[0] >> 12;
    int32_t sometimes = file[1] & SUD ? row : 1, always = file[1] & SUD ? 1 : row;
    uint16_t accumulator = file[A_LOW];
    bool sign = file[1] & SIGN;
    *lowest = *highest = pixel;
    for (uint32_t dot = 1; dot < plan->height; dot++) {
        if (!sign)
            pixel += file[1] & SUL ? -sometimes : sometimes;
        pixel += file[1] & AUL ? -always : always;
        accumulator += file[FIRST_MODULO + (sign ? B_CHANNEL : A_CHANNEL)];
        sign = accumulator >> 15;
        *lowest = pixel < *lowest ? pixel : *lowest;
        *highest = pixel > *highest ? pixel : *highest;
    }
    return pixel;
}

struct reach way_of(const struct plan *plan)
{
    int32_t lowest, highest;
    follow(plan, &lowest, &highest);
    struct reach way = {word_of(lowest), word_of(highest)};
    return way;
}

int32_t last_of(const struct plan *plan)
{
    int32_t lowest, highest;
    return word_of(follow(plan, &lowest, &highest));
}

void set_line_pointer(struct plan *plan, uint32_t word)
{
    set_pointer(plan, FIRST_POINTER + 2 * C_CHANNEL, word);
    set_pointer(plan, FIRST_POINTER + 2 * D_CHANNEL, word);
}

/* The manual's functions, the exclusive or of A and C, in which nothing is lost, or any. */
static uint16_t pick_function(void)
{
    static const uint8_t functions[] = {0xCA, 0x4A, 0xFA, 0x0A, 0x5A, 0x96};
    return one_in(4) ? below(256) : functions[below(sizeof functions)];
}

static uint16_t pick_modulo(void)
{
    static const uint16_t modulos[] = {0, 2, 4, 0x7FFE, 0x8000, 0x8002, 0xFFFC, 0xFFFE};
    return one_in(2) ? modulos[below(8)] : random64() & 0xFFFE;
}

/* C's modulo: a row of some words, upward too; none; a word; or any. */
static uint16_t pick_row(void)
{
    uint32_t chance = below(16);
    if (chance == 0)
        return pick_modulo();
    if (chance < 3)
        return 0;
    uint32_t words = one_in(4) ? 1 : 1 + below(12);
    return chance < 6 ? -2 * words : 2 * words;
}

void pick_line(struct plan *plan)
{
    uint16_t *file = plan->file;
    uint32_t long_side = below(40);
    file[0] = below(16) << 12 | LINE_USES | pick_function();
    file[1] = below(16) << 12 | (one_in(8) ? random64() & 0x0FA0 : 0) | (random64() & LINE_BITS) | LINE;
    file[2] = one_in(3) ? random_word() : 0xFFFF;
    file[3] = one_in(2) ? random_word() : 0xFFFF;
    for (int channel = 0; channel < CHANNELS; channel++)
        set_pointer(plan, FIRST_POINTER + 2 * channel, below(POINTERS));
    for (int channel = 0; channel < CHANNELS; channel++)
        file[FIRST_MODULO + channel] = pick_modulo();
    file[FIRST_MODULO + C_CHANNEL] = pick_row();
    if (!one_in(4))
        set_slope(plan, long_side, below(long_side + 1));
    file[16] = random_word();
    file[17] = one_in(3) ? 0xFFFF : random64();
    file[18] = one_in(3) ? random_word() : 0x8000;
    pick_screen(file);
}

static uint32_t pick_dots(void)
{
    return one_in(60) ? MOST_DOTS - below(3) : one_in(5) ? 1 + below(3) : 1 + below(one_in(4) ? 100 : 30);
}

/* Mostly inside memory, often against an edge of it, or one word past it where at risk. */
static uint32_t pick_start(struct reach way, uint32_t n, bool risk)
{
    int32_t room = (int32_t)n - (way.highest - way.lowest);
    if (n == POINTERS)
        return one_in(2) ? (int32_t)below(16) - 8 : (int32_t)below(POINTERS);
    if (room <= 0)
        return below(n);
    if (risk && one_in(3))
        return one_in(2) ? -way.lowest - 1 : -way.lowest + room;
    return -way.lowest + (int32_t)(one_in(4) ? 0 : one_in(4) ? (uint32_t)room - 1 : below(room));
}

/* What 18 and 19 are given for: another width, other channels, C and D apart by one bit or by any. */
static void spoil_line(struct plan *plan)
{
    const uint16_t *d = plan->file + FIRST_POINTER + 2 * D_CHANNEL;
    uint32_t word = ((uint32_t)d[0] << 16 | d[1]) / 2;
    uint32_t chance = below(6);
    if (chance < 2)
        plan->size = (plan->size & ~63u) | below(64);
    if (chance == 1 || chance == 2)
        plan->file[0] = (plan->file[0] & 0xF0FF) | below(16) << 8;
    if (chance > 2)
        set_pointer(plan, FIRST_POINTER + 2 * D_CHANNEL, word ^ (one_in(4) ? below(POINTERS) : 1u << below(18)));
}

void make_line(struct plan *plan, uint32_t n, bool risk)
{
    struct reach way;
    uint32_t tries = 0;
    pick_line(plan);
    set_dots(plan, pick_dots());
    for (way = way_of(plan); tries < 4 && way.highest - way.lowest >= (int32_t)n; tries++, way = way_of(plan))
        if (tries % 2 == 0)
            set_dots(plan, 1 + plan->height / 4);
        else
            plan->file[FIRST_MODULO + C_CHANNEL] = one_in(2) ? 0 : 0xFFFE;
    set_line_pointer(plan, pick_start(way, n, risk));
    if (one_in(ROUND_SHARE))
        lay_line_round(plan, n);
    if (risk && one_in(3))
        spoil_line(plan);
}

void count_line(const struct test *test)
{
    uint16_t con1 = test->file[1];
    if (plain.number == 1 || plain.number == 2 || !(con1 & LINE))
        return;
    by_number[plain.number]++;
    if (plain.number != 0)
        return;
    by_bits[con1 >> 2 & 7]++;
    single += con1 & SING ? 1 : 0;
    with_gaps += plain.count % MOST_DOTS != test->size >> 6;
    all_zero += plain.file[FENCE + ZERO_FLAG];
}

/* Lines among a job's steps up to a place, with BLTCON1 as the file has it and the steps leave it. */
static uint64_t lines_of(const struct test *test, size_t end)
{
    uint16_t con1 = test->file[1];
    uint64_t lines = 0;
    for (size_t at = 0; at < end && at < test->job_words;) {
        uint16_t first = test->job[at];
        if (first == 0x042)
            con1 = test->job[at + 1];
        lines += first == 0x058 && con1 & LINE;
        at += first >= 0xC000 ? 1 : first >= 0x8000 ? 3 : 2;
    }
    return lines;
}

void count_lines_of_run(const struct test *test, const struct side *side, bool folded)
{
    uint64_t lines = lines_of(test, side->number == 0 ? test->job_words : side->place);
    in_runs += folded ? 0 : lines;
    in_folded += folded ? lines : 0;
}

void count_line_of_frame(void) { in_frames++; }

void describe_line(const struct test *test)
{
    uint16_t con1 = test->file[1];
    const uint16_t *pointer = test->file + FIRST_POINTER + 2 * C_CHANNEL;
    const char *horizontal[] = {"right", "left"}, *vertical[] = {"down", "up"};
    const char **sometimes = con1 & SUD ? vertical : horizontal, **always = con1 & SUD ? horizontal : vertical;
    printf("line of %u dots from word %" PRIu32 ", always %s, sometimes %s, sign %u%s\n",
           test->size >> 6 == 0 ? MOST_DOTS : test->size >> 6, ((uint32_t)pointer[0] << 16 | pointer[1]) / 2,
           always[con1 / AUL & 1], sometimes[con1 / SUL & 1], con1 / SIGN & 1u, con1 & SING ? ", SING" : "");
}

/* By the manual's number of the octant, from SUD, SUL and AUL. */
static const int octants[OCTANTS] = {6, 1, 5, 2, 7, 4, 0, 3};

void print_lines(void)
{
    uint64_t by_octant[OCTANTS];
    for (int bits = 0; bits < OCTANTS; bits++)
        by_octant[octants[bits]] = by_bits[bits];
    printf("lines by number:");
    for (int number = 0; number < NUMBERS; number++)
        if (by_number[number] != 0)
            printf(" %d: %" PRIu64, number, by_number[number]);
    printf("; done by octant:");
    for (int octant = 0; octant < OCTANTS; octant++)
        printf(" %" PRIu64, by_octant[octant]);
    printf("; with SING: %" PRIu64 ", with a dot not stored: %" PRIu64 ", of zeros alone: %" PRIu64
           "; done in jobs: %" PRIu64 ", in jobs that a folding changes: %" PRIu64 ", in lists: %" PRIu64 "\n",
           single, with_gaps, all_zero, in_runs, in_folded, in_frames);
}

bool lines_came(bool in_jobs)
{
    bool came = by_number[0] && by_number[16] && by_number[18] && by_number[19] && with_gaps && all_zero;
    for (int bits = 0; bits < OCTANTS; bits++)
        came = came && by_bits[bits];
    if (in_jobs)
        came = came && in_runs && in_folded && in_frames;
    if (!came)
        printf("some kind of line never came\n");
    return came;
}
