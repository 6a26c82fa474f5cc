/* Shrinks a case that differs: what can go without the difference going too is taken away. */
#include <inttypes.h>
#include <stdio.h>
#include <string.h>

#include "differ.h"

static struct test smaller;
static unsigned tries_left = 10000;

/* Takes the smaller case if it differs still. */
static bool taken(struct test *test)
{
    if (tries_left == 0)
        return false;
    tries_left--;
    if (difference(&smaller) == NULL)
        return false;
    *test = smaller;
    return true;
}

static bool drop_words(struct test *test, size_t at, size_t words)
{
    smaller = *test;
    smaller.job_words -= words;
    memmove(smaller.job + at, smaller.job + at + words, (smaller.job_words - at) * sizeof *smaller.job);
    return taken(test);
}

static bool drop_steps(struct test *test)
{
    bool any = false;
    for (size_t words = test->job_words; words > 0; words = words > 8 ? words / 2 : words - 1)
        for (size_t at = 0; at + words <= test->job_words;)
            if (drop_words(test, at, words))
                any = true;
            else
                at += words > 8 ? words / 2 : 1;
    return any;
}

static bool clear_words(struct test *test)
{
    bool any = false;
    for (size_t i = 0; i < test->job_words; i++)
        if (test->job[i] != 0) {
            smaller = *test;
            smaller.job[i] = 0;
            any |= taken(test);
        }
    for (size_t i = 0; i < FILE_ROOM; i++)
        if (test->file[i] != 0) {
            smaller = *test;
            smaller.file[i] = 0;
            any |= taken(test);
        }
    return any;
}

/* Tries a lower number in the smaller case, which is test but for that number. */
static bool lower(struct test *test, uint32_t *number, uint32_t value)
{
    if (*number <= value)
        return false;
    *number = value;
    return taken(test);
}

/* The list and the start together to memory's start, then the numbers one by one. */
static bool lessen_frame(struct test *test)
{
    bool any = false;
    smaller = *test;
    smaller.start -= test->list_at;
    any |= test->start >= test->list_at && lower(test, &smaller.list_at, 0);
    smaller = *test;
    any |= lower(test, &smaller.start, test->list_at);
    smaller = *test;
    any |= lower(test, &smaller.beam, 0);
    smaller = *test;
    smaller.exact = false;
    smaller.lent = UINT32_MAX;
    any |= test->exact && taken(test);
    for (uint32_t few = 0; few < 8; few++) {
        smaller = *test;
        any |= lower(test, &smaller.cut, few);
        smaller = *test;
        any |= !test->exact && lower(test, &smaller.lent, few);
    }
    return any;
}

/* Fewer planes, words and pixels of delay, planes nearer to memory's start, and then an output as long as the line, or
 * little longer. */
static bool lessen_picture(struct test *test)
{
    uint32_t *const numbers[] = {
        &smaller.plane_count, &smaller.words, &smaller.odd_delay, &smaller.even_delay, &smaller.planes[0],
        &smaller.planes[1], &smaller.planes[2], &smaller.planes[3], &smaller.planes[4]
    };
    bool any = false;
    for (size_t i = 0; i < sizeof numbers / sizeof *numbers; i++)
        for (uint32_t few = 0; few < 8; few++) {
            smaller = *test;
            any |= lower(test, numbers[i], few);
        }
    for (uint32_t few = 0; few < 8; few++) {
        smaller = *test;
        any |= lower(test, &smaller.out_words, 16 * at_most(test->words, 40) + few);
    }
    return any;
}

static bool lessen(struct test *test)
{
    bool any = false;
    if (test->ram_seed != 0) {
        smaller = *test;
        smaller.ram_seed = 0;
        any |= taken(test);
    }
    for (size_t words = test->ram_words / 2; words > 0; words /= 2)
        if (words < test->ram_words) {
            smaller = *test;
            smaller.ram_words -= words;
            any |= taken(test);
        }
    static const uint16_t sizes[] = {0x0041, 0x0042, 0x0081, 0x0082};
    for (size_t i = 0; i < 4 && test->call == BLIT; i++)
        if (test->size > sizes[i] || test->size == 0) {
            smaller = *test;
            smaller.size = sizes[i];
            any |= taken(test);
        }
    return any;
}

void shrink(struct test *test)
{
    bool any = true;
    for (int rounds = 0; any && rounds < 10; rounds++) {
        any = drop_steps(test);
        any |= clear_words(test);
        any |= lessen(test);
        any |= test->call == FRAME && lessen_frame(test);
        any |= test->call == PICTURE && lessen_picture(test);
    }
}

static void print_words(const char *name, const uint16_t *words, size_t length)
{
    printf("%s:", name);
    for (size_t i = 0; i < length; i++)
        printf(" %04X", words[i]);
    printf("\n");
}

static void print_frame(const struct test *test)
{
    printf("the list laid from word %" PRIu32 " on, start %" PRIu32 ", beam %" PRIu32 ", cut %" PRIu32 ", lent: ",
           test->list_at, test->start, test->beam, test->cut);
    if (test->exact)
        printf("those done with any number, and %d\n", test->spare);
    else
        printf("%" PRIu32 "\n", test->lent);
}

static void print_picture(const struct test *test)
{
    printf("%" PRIu32 " planes from words", test->plane_count);
    for (uint32_t i = 0; i < at_most(test->plane_count, PLANE_ROOM); i++)
        printf(" %" PRIu32, test->planes[i]);
    printf(", %" PRIu32 " words a line, odd delay %" PRIu32 ", even delay %" PRIu32 ", %" PRIu32 " words of output\n",
           test->words, test->odd_delay, test->even_delay, test->out_words);
}

void print_test(const struct test *test)
{
    static const char *const calls[] = {"blit", "run", "fold", "widen", "frame", "picture"};
    printf("%s, %zu words of memory, ", calls[test->call], test->ram_words);
    if (test->ram_seed == 0)
        printf("word i is i modulo 1,024\n");
    else
        printf("filled from %" PRIu64 "\n", test->ram_seed);
    print_words("file", test->file, test->file_words < FILE_ROOM ? test->file_words : FILE_ROOM);
    if (test->call == BLIT)
        printf("size: %04X\n", test->size);
    else if (test->call == PICTURE)
        print_picture(test);
    else
        print_words(test->call == FRAME ? "list" : "job", test->job, test->job_words);
    if (test->call == BLIT && test->file[1] & LINE)
        describe_line(test);
    if (test->call == FRAME)
        print_frame(test);
    if (test->call == WIDEN)
        printf("words of the target: %zu\n", test->target_words);
    if (test->call == FOLD)
        printf("words of output spare: %d\n", test->spare);
}
