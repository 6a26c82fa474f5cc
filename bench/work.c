/* work ENGINE CASE SIZE TIMES [MEMORY]: does one case so many times with an engine, desk or plain. SIZE is rows x words
 * of a blit, or the words of a job to fold; MEMORY is 262,144 words if nothing else is said. First both engines do the
 * case once and must leave the same; that costs the same whatever TIMES is, so it falls out of the difference of two
 * counts. Prints the words stored, or of the job. */
#include <stdio.h>
#include <stdlib.h>
#include <string.h>

#include "../c/plain.h"
#include "desk.h"

enum { RAM_ROOM = 262144, FILE_WORDS = 53, JOB_WORDS = 4096, PITCH = 20 };

/* Channels in the order of the register file. */
enum { C, B, A, D, CHANNELS, REGION = RAM_ROOM / CHANNELS };

typedef void blit_call(uint16_t *ram, size_t ram_words, uint16_t *file, size_t file_words, uint16_t size,
                       uint32_t *number, uint32_t *stored, uint32_t *round);
typedef void fold_call(size_t ram_words, const uint16_t *job, size_t job_words, uint16_t *out, size_t out_words,
                       uint32_t *number, uint32_t *place, uint32_t *length, uint32_t *round);

/* A blit's control. Each channel has a quarter of memory to itself, but D may lie over another, so many words on. */
struct blit_case {
    const char *name;
    uint16_t con0, con1;
    int over, ahead;
};

static const struct blit_case blit_cases[] = {
    {"clear", 0x0100, 0x0000, D, 0},
    {"copy", 0x09F0, 0x0000, D, 0},
    {"shifted", 0x59F0, 0x0000, D, 0},
    {"cookie", 0x57CA, 0x5000, D, 0},
    {"sign", 0x57CA, 0x5000, C, 0},
    {"four", 0x5FCA, 0x5000, D, 0},
    {"fill", 0x09F0, 0x000A, D, 0},
    {"column", 0x09F0, 0x0000, D, 0},
    {"back", 0x09F0, 0x0000, A, -1},
    {"one", 0x09F0, 0x0000, A, 1},
    {"two", 0x09F0, 0x0000, A, 2},
    {"row", 0x09F0, 0x0000, A, 20}
};

static size_t ram_words = RAM_ROOM;
static uint16_t ram[RAM_ROOM], other_ram[RAM_ROOM];
static uint16_t job[JOB_WORDS], out[JOB_WORDS], other_out[JOB_WORDS];

static void fail(const char *why)
{
    fprintf(stderr, "work: %s\n", why);
    exit(1);
}

static void fill_ram(uint16_t *words)
{
    uint32_t state = 1;
    for (size_t i = 0; i < RAM_ROOM; i++) {
        state = state * 1664525 + 1013904223;
        words[i] = state >> 16;
    }
}

/* The register file of a case: rows stand without a gap, those of a column PITCH words apart. */
static void make_file(uint16_t *file, const struct blit_case *blit, uint32_t rows, uint32_t words)
{
    uint32_t gap = strcmp(blit->name, "column") == 0 ? PITCH - words : 0;
    uint32_t last = blit->con1 & 2 ? rows * (words + gap) - 1 : 0;
    memset(file, 0, FILE_WORDS * sizeof *file);
    file[0] = blit->con0;
    file[1] = blit->con1;
    file[2] = file[3] = 0xFFFF;
    for (int channel = 0; channel < CHANNELS; channel++) {
        uint32_t start = channel == D ? blit->over * REGION + blit->ahead : channel * REGION;
        uint32_t address = (start + last) * 2;
        file[4 + 2 * channel] = address >> 16;
        file[5 + 2 * channel] = address & 0xFFFF;
        file[12 + channel] = gap * 2;
    }
    file[18] = 0xF0F0;
}

static uint32_t blit_once(blit_call *engine, uint16_t *words, const uint16_t *file, uint16_t size)
{
    uint16_t own[FILE_WORDS];
    uint32_t number, stored, round;
    memcpy(own, file, sizeof own);
    engine(words, ram_words, own, FILE_WORDS, size, &number, &stored, &round);
    if (number != 0)
        fail("the blit was refused");
    return stored;
}

static void blits(blit_call *engine, const struct blit_case *blit, const char *text, unsigned long times)
{
    unsigned rows, words;
    uint16_t file[FILE_WORDS];
    if (sscanf(text, "%ux%u", &rows, &words) != 2 || rows == 0 || rows > 1024 || words == 0 || words > 64)
        fail("SIZE is ROWSxWORDS");
    uint16_t size = (rows % 1024) << 6 | words % 64;
    make_file(file, blit, rows, words);
    fill_ram(ram);
    fill_ram(other_ram);
    uint32_t stored = blit_once(desk_blit, ram, file, size);
    if (blit_once(plain_blit, other_ram, file, size) != stored || memcmp(ram, other_ram, sizeof ram) != 0)
        fail("the engines leave different memories");
    for (; times > 0; times--)
        blit_once(engine, ram, file, size);
    printf("%lu\n", (unsigned long)stored);
}

/* A job of some steps over and over; flags fill what is left. */
static void lay(const uint16_t *steps, size_t step_words, size_t words)
{
    size_t at = 0;
    for (; at + step_words <= words; at += step_words)
        memcpy(job + at, steps, step_words * sizeof *job);
    for (; at < words; at++)
        job[at] = 0xC000;
}

/* kept: a copy of one word, a store and a flag. settled: the paper's P11, which clears two words. */
static void make_job(const char *name, size_t words)
{
    static const uint16_t copy[] = {
        0x0040, 0x09F0, 0x0042, 0x0000, 0x0050, 0x0000, 0x0052, 0x0000, 0x0054, 0x0000, 0x0056, 0x0010, 0x0058, 0x0041,
        0x8000, 0x0020, 0x1234, 0xC001
    };
    static const uint16_t clear[] = {
        0x0040, 0x0100, 0x0042, 0x0000, 0x0054, 0x0000, 0x0056, 0x0010, 0x0066, 0x0000, 0x0058, 0x0042
    };
    if (strcmp(name, "kept") == 0)
        lay(copy, sizeof copy / sizeof *copy, words);
    else
        lay(clear, sizeof clear / sizeof *clear, words);
}

static uint32_t fold_once(fold_call *engine, size_t words, uint16_t *folded)
{
    uint32_t number, place, length, round;
    engine(ram_words, job, words, folded, JOB_WORDS, &number, &place, &length, &round);
    if (number != 0)
        fail("the job was refused");
    return length;
}

static void foldings(fold_call *engine, const char *name, const char *text, unsigned long times)
{
    size_t words = strtoul(text, NULL, 10);
    if (words > JOB_WORDS)
        fail("SIZE is at most 4096");
    make_job(name, words);
    uint32_t length = fold_once(desk_fold, words, out);
    if (fold_once(plain_fold, words, other_out) != length || memcmp(out, other_out, sizeof out) != 0)
        fail("the engines fold differently");
    for (; times > 0; times--)
        fold_once(engine, words, out);
    printf("%lu\n", (unsigned long)words);
}

int main(int words, char **word)
{
    if (words != 5 && words != 6)
        fail("usage: work desk|plain CASE SIZE TIMES [MEMORY]");
    if (words == 6)
        ram_words = strtoul(word[5], NULL, 10);
    if (ram_words > RAM_ROOM)
        fail("MEMORY is at most 262144");
    int desk = strcmp(word[1], "desk") == 0;
    unsigned long times = strtoul(word[4], NULL, 10);
    for (size_t i = 0; i < sizeof blit_cases / sizeof *blit_cases; i++)
        if (strcmp(word[2], blit_cases[i].name) == 0) {
            blits(desk ? desk_blit : plain_blit, &blit_cases[i], word[3], times);
            return 0;
        }
    if (strcmp(word[2], "kept") != 0 && strcmp(word[2], "settled") != 0)
        fail("no such case");
    foldings(desk ? desk_fold : plain_fold, word[2], word[3], times);
    return 0;
}
