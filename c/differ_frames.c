/* The frames of the differential test, done on both sides; and, by the archive alone, cut and gone on with. */
#include <inttypes.h>
#include <stdio.h>

#include "desk.h"
#include "differ.h"
#include "plain.h"

enum { USED_UP = 1, WHYS = 3 };

static uint64_t whys[WHYS], instructions, cuts;

static void do_desk(const struct test *test, uint32_t beam, uint32_t start, uint32_t lent)
{
    desk_frame_from(desk.ram + FENCE, test->ram_words, desk.file + FENCE, test->file_words, beam, start, lent,
                    &desk.why, &desk.number, &desk.count, &desk.word, &desk.place);
}

static void do_plain(const struct test *test, uint32_t lent)
{
    plain_frame_from(plain.ram + FENCE, test->ram_words, plain.file + FENCE, test->file_words, test->beam, test->start,
                     lent, &plain.why, &plain.number, &plain.count, &plain.word, &plain.place);
}

static uint32_t lent_of(const struct test *test)
{
    if (!test->exact)
        return test->lent;
    set_up(&plain, test);
    do_plain(test, UINT32_MAX);
    return test->spare < 0 && plain.count == 0 ? 0 : plain.count + test->spare;
}

static const char *compare_frames(void)
{
    if (desk.why != plain.why)
        return "why";
    if (desk.word != plain.word)
        return "word";
    if (desk.place != plain.place)
        return "the beam's place";
    return compare();
}

/* desk_frame is desk_frame_from with the beam at its start; it doesn't tell the beam's place. */
static const char *difference_of_entries(const struct test *test, uint32_t lent)
{
    set_up(&desk, test);
    desk_frame(desk.ram + FENCE, test->ram_words, desk.file + FENCE, test->file_words, test->start, lent,
               &desk.why, &desk.number, &desk.count, &desk.word);
    desk.place = plain.place;
    return compare_frames();
}

/* A frame that ends because the number is used up goes on from the word and the place it told, with the rest of the
 * number, and ends as the whole one. */
static const char *difference_of_cut(const struct test *test, uint32_t lent)
{
    uint32_t cut = test->cut % (plain.count + 1);
    set_up(&desk, test);
    do_desk(test, test->beam, test->start, cut);
    if (desk.why == USED_UP) {
        cuts++;
        do_desk(test, desk.place, desk.word, lent - cut);
        desk.count += cut;
    }
    return compare_frames() == NULL ? NULL : "end of the frame that was cut, both parts done by the archive";
}

/* Does so many instructions of a frame again, one at a time, and counts the MOVEs to 058 among them that found the line
 * bit set. */
static void count_lines(const struct test *test, uint32_t done)
{
    set_up(&plain, test);
    plain.place = test->beam;
    plain.word = test->start;
    for (uint32_t i = 0; i < done; i++) {
        uint16_t first = plain.ram[FENCE + plain.word];
        if (first % 2 == 0 && (first & 0x01FE) == 0x058 && plain.file[FENCE + 1] & LINE)
            count_line_of_frame();
        plain_frame_from(plain.ram + FENCE, test->ram_words, plain.file + FENCE, test->file_words,
                         plain.place, plain.word, 1, &plain.why, &plain.number, &plain.count, &plain.word, &plain.place);
    }
}

const char *difference_of_frames(const struct test *test)
{
    uint32_t lent = lent_of(test);
    set_up(&desk, test);
    set_up(&plain, test);
    do_desk(test, test->beam, test->start, lent);
    do_plain(test, lent);
    outcomes[FRAME][plain.number]++;
    whys[plain.why]++;
    instructions += plain.count;
    const char *found = compare_frames();
    if (found == NULL && test->beam == 0)
        found = difference_of_entries(test, lent);
    if (found == NULL)
        found = difference_of_cut(test, lent);
    if (found == NULL && test->file[1] & LINE)
        count_lines(test, plain.count);
    return found;
}

void print_frames(void)
{
    printf("frames by their end: over %" PRIu64 ", number used up %" PRIu64 ", refused %" PRIu64
           "; instructions done: %" PRIu64 "; frames cut and gone on with: %" PRIu64 "\n",
           whys[0], whys[1], whys[2], instructions, cuts);
}
