/* boundary: calls every entry of the archive from C, with valid and with damaged input. Every buffer, and every number
 * the results are written into, stands between fences that must survive; every result is compared with what is written
 * out beside the call. */
#include <stdio.h>
#include <stdlib.h>
#include <string.h>

#include "boundary.h"
#include "desk.h"

enum { FENCE = 16, ROOM = 262145, PLANE_ROOM = 8, FENCE_WORD = 0x5AA5, OUT_WORD = 0xEEEE };

/* A run of words between two fences, and the same run as it must be afterwards. */
struct run {
    uint16_t lent[FENCE + ROOM + FENCE];
    uint16_t after[ROOM];
    size_t words;
};

/* Where planes begin, between two fences, and the same before the call. */
struct planes {
    uint32_t lent[FENCE + PLANE_ROOM + FENCE];
    uint32_t before[FENCE + PLANE_ROOM + FENCE];
    size_t count;
};

/* Six numbers between fences. */
struct numbers {
    uint32_t fence0, number, fence1, place, fence2, count, fence3, why, fence4, word, fence5, round, fence6;
};

static struct run ram, file, job, out;
static struct planes planes;
static struct numbers numbers;
static unsigned long checks, failed;

static void check(const char *name, const char *what, int holds)
{
    checks++;
    if (holds)
        return;
    failed++;
    printf("%s: %s\n", name, what);
}

static void check_number(const char *name, const char *what, uint32_t given, uint32_t wanted)
{
    checks++;
    if (given == wanted)
        return;
    failed++;
    printf("%s: %s is %lu, not %lu\n", name, what, (unsigned long)given, (unsigned long)wanted);
}

/* Reads words written in hex; gives their count. */
static size_t read_words(uint16_t *words, const char *text)
{
    size_t count = 0;
    char *end = (char *)text;
    for (;;) {
        unsigned long word = strtoul(text, &end, 16);
        if (end == text)
            return count;
        unsigned long times = *end == '*' ? strtoul(end + 1, &end, 10) : 1;
        for (text = end; times > 0; times--)
            words[count++] = word;
    }
}

/* Lends the words written before; they must be those written after, or the same. */
static uint16_t *lend(struct run *run, const char *before, const char *after)
{
    uint16_t *words = run->lent + FENCE;
    run->words = read_words(words, before);
    read_words(run->after, after == SAME ? before : after);
    for (size_t i = 0; i < FENCE; i++)
        run->lent[i] = words[run->words + i] = FENCE_WORD;
    return words;
}

static void check_run(const char *name, const char *what, const char *fence, const struct run *run)
{
    const uint16_t *words = run->lent + FENCE;
    int same = 1, whole = 1;
    for (size_t i = 0; i < run->words; i++)
        same &= words[i] == run->after[i];
    for (size_t i = 0; i < FENCE; i++)
        whole &= run->lent[i] == FENCE_WORD && words[run->words + i] == FENCE_WORD;
    check(name, what, same);
    check(name, fence, whole);
}

static void lend_numbers(void)
{
    static const struct numbers unwritten = {1, 0xDEAD, 2, 0xDEAD, 3, 0xDEAD, 4, 0xDEAD, 5, 0xDEAD, 6, 0xDEAD, 7};
    numbers = unwritten;
}

static void check_fences_of_numbers(const char *name)
{
    check(name, "the fence of a number", numbers.fence0 == 1 && numbers.fence1 == 2 && numbers.fence2 == 3 &&
          numbers.fence3 == 4 && numbers.fence4 == 5 && numbers.fence5 == 6 && numbers.fence6 == 7);
}

static void blit_saying(uint32_t round, const char *name, const char *ram_before, const char *file_before,
                        uint16_t size, uint32_t number, uint32_t stored, const char *ram_after, const char *file_after)
{
    uint16_t *ram_words = lend(&ram, ram_before, ram_after), *file_words = lend(&file, file_before, file_after);
    lend_numbers();
    desk_blit(ram_words, ram.words, file_words, file.words, size, &numbers.number, &numbers.count, &numbers.round);
    check_number(name, "number", numbers.number, number);
    check_number(name, "stored", numbers.count, stored);
    check_number(name, "round", numbers.round, round);
    check_fences_of_numbers(name);
    check_run(name, "memory", "the fence of memory", &ram);
    check_run(name, "file", "the fence of the file", &file);
}

void blit(const char *name, const char *ram_before, const char *file_before, uint16_t size,
          uint32_t number, uint32_t stored, const char *ram_after, const char *file_after)
{
    blit_saying(0, name, ram_before, file_before, size, number, stored, ram_after, file_after);
}

void round_blit(const char *name, const char *ram_before, const char *file_before, uint16_t size,
                uint32_t number, uint32_t stored, const char *ram_after, const char *file_after)
{
    blit_saying(1, name, ram_before, file_before, size, number, stored, ram_after, file_after);
}

static void run_saying(uint32_t round, const char *name, const char *ram_before, const char *file_before,
                       const char *job_before, uint32_t number, uint32_t place, uint32_t stored,
                       const char *ram_after, const char *file_after)
{
    uint16_t *ram_words = lend(&ram, ram_before, ram_after), *file_words = lend(&file, file_before, file_after);
    uint16_t *job_words = lend(&job, job_before, SAME);
    lend_numbers();
    desk_run(ram_words, ram.words, file_words, file.words, job_words, job.words,
             &numbers.number, &numbers.place, &numbers.count, &numbers.round);
    check_number(name, "number", numbers.number, number);
    check_number(name, "place", numbers.place, place);
    check_number(name, "stored", numbers.count, stored);
    check_number(name, "round", numbers.round, round);
    check_fences_of_numbers(name);
    check_run(name, "memory", "the fence of memory", &ram);
    check_run(name, "file", "the fence of the file", &file);
    check_run(name, "job", "the fence of the job", &job);
}

void run(const char *name, const char *ram_before, const char *file_before, const char *job_before,
         uint32_t number, uint32_t place, uint32_t stored, const char *ram_after, const char *file_after)
{
    run_saying(0, name, ram_before, file_before, job_before, number, place, stored, ram_after, file_after);
}

void round_run(const char *name, const char *ram_before, const char *file_before, const char *job_before,
               uint32_t number, uint32_t place, uint32_t stored, const char *ram_after, const char *file_after)
{
    run_saying(1, name, ram_before, file_before, job_before, number, place, stored, ram_after, file_after);
}

/* The output, or a target: EEEE throughout, and afterwards the folded job, the new file or the line, with EEEE beyond
 * it. */
static uint16_t *lend_out(size_t words, const char *written)
{
    uint16_t *lent = lend(&out, "", SAME);
    out.words = words;
    for (size_t i = 0; i < words; i++)
        lent[i] = out.after[i] = OUT_WORD;
    for (size_t i = 0; i < FENCE; i++)
        lent[words + i] = FENCE_WORD;
    read_words(out.after, written);
    return lent;
}

static void fold_saying(uint32_t round, const char *name, size_t ram_words, const char *job_before, size_t out_words,
                        uint32_t number, uint32_t place, uint32_t length, const char *folded)
{
    uint16_t *job_words = lend(&job, job_before, SAME), *lent = lend_out(out_words, folded);
    lend_numbers();
    desk_fold(ram_words, job_words, job.words, lent, out.words,
              &numbers.number, &numbers.place, &numbers.count, &numbers.round);
    check_number(name, "number", numbers.number, number);
    check_number(name, "place", numbers.place, place);
    check_number(name, "length", numbers.count, length);
    check_number(name, "round", numbers.round, round);
    check_fences_of_numbers(name);
    check_run(name, "job", "the fence of the job", &job);
    check_run(name, "output", "the fence of the output", &out);
}

void fold(const char *name, size_t ram_words, const char *job_before, size_t out_words,
          uint32_t number, uint32_t place, uint32_t length, const char *folded)
{
    fold_saying(0, name, ram_words, job_before, out_words, number, place, length, folded);
}

void round_fold(const char *name, size_t ram_words, const char *job_before, size_t out_words,
                uint32_t number, uint32_t place, uint32_t length, const char *folded)
{
    fold_saying(1, name, ram_words, job_before, out_words, number, place, length, folded);
}

void widen(const char *name, const char *old_before, size_t target_words, uint32_t number, const char *new_file)
{
    uint16_t *old_words = lend(&file, old_before, SAME), *lent = lend_out(target_words, new_file);
    lend_numbers();
    desk_widen(old_words, file.words, lent, out.words, &numbers.number);
    check_number(name, "number", numbers.number, number);
    check_fences_of_numbers(name);
    check_run(name, "old file", "the fence of the old file", &file);
    check_run(name, "target", "the fence of the target", &out);
}

/* One call of either entry; desk_frame doesn't tell the beam's place. */
static void one_frame(const char *name, int whole, uint32_t beam, uint32_t start, uint32_t lent)
{
    uint16_t *ram_words = ram.lent + FENCE, *file_words = file.lent + FENCE;
    lend_numbers();
    if (whole)
        desk_frame(ram_words, ram.words, file_words, file.words, start, lent,
                   &numbers.why, &numbers.number, &numbers.count, &numbers.word);
    else
        desk_frame_from(ram_words, ram.words, file_words, file.words, beam, start, lent,
                        &numbers.why, &numbers.number, &numbers.count, &numbers.word, &numbers.place);
    check_fences_of_numbers(name);
    check_run(name, "memory", "the fence of memory", &ram);
    check_run(name, "file", "the fence of the file", &file);
}

void frame(const char *name, const char *ram_before, const char *file_before,
           uint32_t beam, uint32_t start, uint32_t lent,
           uint32_t why, uint32_t number, uint32_t done, uint32_t word, uint32_t place,
           const char *ram_after, const char *file_after)
{
    for (int whole = 0; whole <= (beam == 0); whole++) {
        lend(&ram, ram_before, ram_after);
        lend(&file, file_before, file_after);
        one_frame(name, whole, beam, start, lent);
        check_number(name, "why", numbers.why, why);
        check_number(name, "number", numbers.number, number);
        check_number(name, "done", numbers.count, done);
        check_number(name, "word", numbers.word, word);
        if (!whole)
            check_number(name, "the beam's place", numbers.place, place);
    }
}

/* Lends word numbers written in decimal; a fence looks like planes that no memory has. */
static uint32_t *lend_planes(const char *text)
{
    char *end = (char *)text;
    memset(planes.lent, 0xA5, sizeof planes.lent);
    for (planes.count = 0; ; planes.count++, text = end) {
        unsigned long plane = strtoul(text, &end, 10);
        if (end == text)
            break;
        planes.lent[FENCE + planes.count] = plane;
    }
    memcpy(planes.before, planes.lent, sizeof planes.lent);
    return planes.lent + FENCE;
}

void picture(const char *name, const char *ram_before, const char *file_before, const char *planes_before,
             uint32_t words, uint32_t odd_delay, uint32_t even_delay, size_t out_words,
             uint32_t number, const char *line)
{
    uint16_t *ram_words = lend(&ram, ram_before, SAME), *file_words = lend(&file, file_before, SAME);
    uint16_t *lent = lend_out(out_words, line);
    uint32_t *starts = lend_planes(planes_before);
    lend_numbers();
    desk_picture(ram_words, ram.words, file_words, file.words, starts, planes.count, words, odd_delay, even_delay,
                 lent, out.words, &numbers.number);
    check_number(name, "number", numbers.number, number);
    check_fences_of_numbers(name);
    check_run(name, "memory", "the fence of memory", &ram);
    check_run(name, "file", "the fence of the file", &file);
    check(name, "the planes or their fence", memcmp(planes.lent, planes.before, sizeof planes.lent) == 0);
    check_run(name, "output", "the fence of the output", &out);
}

int main(void)
{
    blits();
    runs();
    foldings();
    screens();
    frames();
    pictures();
    lines();
    rounds();
    printf("boundary: %lu checks, %lu failed\n", checks, failed);
    return failed != 0;
}
