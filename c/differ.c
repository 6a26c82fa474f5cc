/* differ [CASES [SEED]]: does random cases with the archive and with the plain engine and compares all that comes out.
 * Case i has the seed SEED + i, so `differ 1 S` does the case of seed S again.
 * differ seams: the same with the cases of differ_seams.c, pictures of all sizes and delays, lines of all kinds and
 * blits around the pointers' ends, always the same ones.
 * On the first difference the case is shrunk and printed, and the program ends with 1; so it does where among the
 * seams, or among many random cases, no line of some kind came, or no pointer went round in some kind of call. */
#include <inttypes.h>
#include <stdio.h>
#include <stdlib.h>
#include <string.h>

#include "desk.h"
#include "differ.h"
#include "plain.h"

enum { FENCE_WORD = 0xA55A };

struct side desk, plain;
uint64_t outcomes[CALLS][NUMBERS];

static uint64_t changed, pairs, pairs_refused;

static void fence(uint16_t *words, size_t length)
{
    for (size_t i = 0; i < FENCE; i++)
        words[i] = words[FENCE + length + i] = FENCE_WORD;
}

/* The words of a list that memory has no room for are left out. */
static void lay_list(struct side *side, const struct test *test)
{
    for (size_t i = 0; i < test->job_words && test->list_at + i < side->ram_words; i++)
        side->ram[FENCE + test->list_at + i] = test->job[i];
}

void set_up(struct side *side, const struct test *test)
{
    side->ram_words = test->ram_words <= RAM_ROOM ? test->ram_words : 0;
    fence(side->ram, side->ram_words);
    fence(side->file, FILE_ROOM);
    fill_ram(side->ram + FENCE, side->ram_words, test->ram_seed);
    memcpy(side->file + FENCE, test->file, sizeof test->file);
    if (test->call == FRAME)
        lay_list(side, test);
    side->number = side->count = side->why = side->word = side->round = 0xDEAD;
    side->place = test->call == BLIT ? 0 : 0xDEAD;
}

void set_up_out(struct side *side, size_t out_words)
{
    for (size_t i = 0; i < FENCE + out_words + FENCE; i++)
        side->out[i] = FENCE_WORD + i;
}

const char *compare(void)
{
    if (desk.number != plain.number)
        return "number";
    if (desk.count != plain.count)
        return "count";
    if (desk.round != plain.round)
        return "whether a pointer went round";
    if (memcmp(desk.ram, plain.ram, (FENCE + desk.ram_words + FENCE) * sizeof *desk.ram) != 0)
        return "memory";
    if (memcmp(desk.file, plain.file, sizeof desk.file) != 0)
        return "register file";
    return NULL;
}

static const char *difference_of_blits(const struct test *test)
{
    set_up(&desk, test);
    set_up(&plain, test);
    desk_blit(desk.ram + FENCE, test->ram_words, desk.file + FENCE, test->file_words, test->size,
              &desk.number, &desk.count, &desk.round);
    plain_blit(plain.ram + FENCE, test->ram_words, plain.file + FENCE, test->file_words, test->size,
               &plain.number, &plain.count, &plain.round);
    outcomes[BLIT][plain.number]++;
    count_line(test);
    count_round(test);
    return compare();
}

static const char *difference_of_runs(const struct test *test)
{
    set_up(&desk, test);
    set_up(&plain, test);
    desk_run(desk.ram + FENCE, test->ram_words, desk.file + FENCE, test->file_words, test->job, test->job_words,
             &desk.number, &desk.place, &desk.count, &desk.round);
    plain_run(plain.ram + FENCE, test->ram_words, plain.file + FENCE, test->file_words, test->job, test->job_words,
              &plain.number, &plain.place, &plain.count, &plain.round);
    outcomes[RUN][plain.number]++;
    count_lines_of_run(test, &plain, false);
    count_round(test);
    if (desk.number == plain.number && desk.place != plain.place)
        return "place";
    return compare();
}

/* The length of output that leaves the wanted number of words spare. */
static size_t out_words_of(const struct test *test)
{
    uint32_t number, place, length, round;
    plain_fold(test->ram_words, test->job, test->job_words, plain.out + FENCE, OUT_ROOM,
               &number, &place, &length, &round);
    if (number == 11)
        return OUT_ROOM + test->spare - 40;
    return test->spare < 0 && length == 0 ? 0 : length + test->spare;
}

/* Demand 3, by the archive alone: on one memory and one file the folded job and its original end alike. */
static const char *difference_of_pair(const struct test *test, const uint16_t *folded, size_t folded_words, bool alike)
{
    set_up(&desk, test);
    set_up(&plain, test);
    desk_run(desk.ram + FENCE, test->ram_words, desk.file + FENCE, test->file_words, test->job, test->job_words,
             &desk.number, &desk.place, &desk.count, &desk.round);
    desk_run(plain.ram + FENCE, test->ram_words, plain.file + FENCE, test->file_words, folded, folded_words,
             &plain.number, &plain.place, &plain.count, &plain.round);
    pairs++;
    count_round_of_pair(&desk);
    pairs_refused += desk.number != 0;
    if (!alike)
        count_lines_of_run(test, &desk, true);
    return compare() == NULL ? NULL : "end of the folded job, both run by the archive";
}

static const char *difference_of_foldings(const struct test *test)
{
    size_t out_words = out_words_of(test);
    set_up_out(&desk, out_words);
    set_up_out(&plain, out_words);
    desk.round = plain.round = 0xDEAD;
    desk_fold(test->ram_words, test->job, test->job_words, desk.out + FENCE, out_words,
              &desk.number, &desk.place, &desk.count, &desk.round);
    plain_fold(test->ram_words, test->job, test->job_words, plain.out + FENCE, out_words,
               &plain.number, &plain.place, &plain.count, &plain.round);
    outcomes[FOLD][plain.number]++;
    count_round(test);
    if (desk.number != plain.number)
        return "number";
    if (desk.place != plain.place)
        return "place";
    if (desk.count != plain.count)
        return "length";
    if (desk.round != plain.round)
        return "whether a blit was kept for going round alone";
    if (memcmp(desk.out, plain.out, (FENCE + out_words + FENCE) * sizeof *desk.out) != 0)
        return "output";
    if (plain.number != 0)
        return NULL;
    bool alike = desk.count == test->job_words
        && memcmp(desk.out + FENCE, test->job, desk.count * sizeof *desk.out) == 0;
    changed += !alike;
    return difference_of_pair(test, desk.out + FENCE, desk.count, alike);
}

/* The file that a widening makes is accepted: an empty job runs on it. */
static const char *difference_of_new_file(void)
{
    uint16_t ram[1] = {0}, file[FILE_WORDS];
    uint32_t number, place, stored, round;
    memcpy(file, desk.out + FENCE, sizeof file);
    desk_run(ram, 1, file, FILE_WORDS, ram, 0, &number, &place, &stored, &round);
    return number == 0 ? NULL : "the widened file is refused by the archive";
}

static const char *difference_of_widenings(const struct test *test)
{
    set_up_out(&desk, test->target_words);
    set_up_out(&plain, test->target_words);
    memcpy(desk.file, test->file, sizeof test->file);
    desk_widen(desk.file, test->file_words, desk.out + FENCE, test->target_words, &desk.number);
    plain_widen(test->file, test->file_words, plain.out + FENCE, test->target_words, &plain.number);
    outcomes[WIDEN][plain.number]++;
    if (desk.number != plain.number)
        return "number";
    if (memcmp(desk.file, test->file, sizeof test->file) != 0)
        return "old file";
    if (memcmp(desk.out, plain.out, (FENCE + test->target_words + FENCE) * sizeof *desk.out) != 0)
        return "target";
    return plain.number == 0 ? difference_of_new_file() : NULL;
}

const char *difference(const struct test *test)
{
    switch (test->call) {
    case BLIT: return difference_of_blits(test);
    case RUN: return difference_of_runs(test);
    case WIDEN: return difference_of_widenings(test);
    case FRAME: return difference_of_frames(test);
    case PICTURE: return difference_of_pictures(test);
    default: return difference_of_foldings(test);
    }
}

static void print_outcomes(void)
{
    static const char *const names[] = {"blits", "runs", "foldings", "widenings", "frames", "pictures"};
    for (int call = 0; call < CALLS; call++) {
        printf("%s by number:", names[call]);
        for (int number = 0; number < NUMBERS; number++)
            if (outcomes[call][number] != 0)
                printf(" %d: %" PRIu64, number, outcomes[call][number]);
        printf(call < CALLS - 1 ? "; " : "\n");
    }
    print_frames();
    print_pictures();
    print_lines();
    print_rounds();
    printf("foldings unlike their job: %" PRIu64 "; pairs of runs compared: %" PRIu64 ", refused alike: %" PRIu64 "\n",
           changed, pairs, pairs_refused);
}

static void print_answer(const char *name, const struct side *side, const struct test *test)
{
    printf("%s: number %" PRIu32, name, side->number);
    if (test->call == PICTURE)
        print_line(side, test);
    else
        printf(", place %" PRIu32 ", count %" PRIu32, side->place, side->count);
    if (test->call == BLIT || test->call == RUN || test->call == FOLD)
        printf(", round %" PRIu32, side->round);
    if (test->call == FRAME)
        printf(", why %" PRIu32 ", word %" PRIu32, side->why, side->word);
    printf("\n");
}

void report(struct test *test, const char *which, uint64_t number)
{
    printf("%s %" PRIu64 " differs: %s\n", which, number, difference(test));
    shrink(test);
    printf("shrunk, it differs: %s\n", difference(test));
    print_test(test);
    print_answer("archive", &desk, test);
    print_answer("plain", &plain, test);
}

/* Does the cases of so many seeds: how many, or 0 after a report. */
static uint64_t random_cases(uint64_t cases, uint64_t seed)
{
    static struct test test;
    for (uint64_t i = 0; i < cases; i++) {
        make_test(&test, seed + i);
        if (difference(&test) != NULL) {
            report(&test, "the case of seed", seed + i);
            return 0;
        }
    }
    return cases;
}

/* So many random cases have lines of every kind, and pointers that go round in every kind of call. */
enum { MANY = 10000 };

int main(int words, char **word)
{
    uint64_t cases;
    bool of_seams = words > 1 && strcmp(word[1], "seams") == 0;
    if (of_seams)
        cases = seams();
    else
        cases = random_cases(words > 1 ? strtoull(word[1], NULL, 10) : 200000,
                             words > 2 ? strtoull(word[2], NULL, 10) : 1985);
    if (cases == 0)
        return 1;
    print_outcomes();
    if (cases >= MANY && (!lines_came(!of_seams) || !rounds_came(!of_seams)))
        return 1;
    printf("differ: %" PRIu64 " cases, 0 differences\n", cases);
    return 0;
}
