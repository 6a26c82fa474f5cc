/* frames ENGINE LIST TIMES: runs a Copper list for a frame so many times with an engine, desk or plain. First both engines
 * run it once and must leave the same; that costs the same whatever TIMES is, so it falls out of the difference of two
 * counts. Prints the instructions done in a frame. */
#include <stdio.h>
#include <stdlib.h>
#include <string.h>

#include "../c/plain.h"
#include "desk.h"

enum { RAM_WORDS = 32768, FILE_WORDS = 53, COPCON = 19, DANGER = 2, MOST = 14869 };

typedef void frame_call(uint16_t *ram, size_t ram_words, uint16_t *file, size_t file_words, uint32_t start, uint32_t lent,
                        uint32_t *why, uint32_t *number, uint32_t *done, uint32_t *word);

/* A list is some words, laid so many times one after the other; then a WAIT that is never satisfied. */
struct list {
    const char *name;
    size_t times, words;
    uint16_t word[24];
};

static const struct list lists[] = {
    {"end", 0, 0, {0}},
    {"sky", 1, 22, {0x0180, 0x0004, 0x2C01, 0xFFFE, 0x0180, 0x0026, 0x5401, 0xFFFE, 0x0180, 0x004A, 0x7C01, 0xFFFE,
                    0x0180, 0x028E, 0xA401, 0xFFFE, 0x0180, 0x0ACF, 0xCC01, 0xFFFE, 0x0180, 0x0DB6}},
    {"tried", 1, 4, {0x00FF, 0x80FE, 0x80FF, 0x80FE}},
    {"moves", MOST, 2, {0x0182, 0x0F00}},
    {"skips", MOST, 2, {0xFFFF, 0xFFFF}},
    {"blits", MOST, 2, {0x0058, 0x0041}}
};

static uint16_t ram[RAM_WORDS], other_ram[RAM_WORDS], file[FILE_WORDS], other_file[FILE_WORDS];

static void fail(const char *why)
{
    fprintf(stderr, "frames: %s\n", why);
    exit(1);
}

static const struct list *named(const char *name)
{
    for (size_t i = 0; i < sizeof lists / sizeof *lists; i++)
        if (strcmp(name, lists[i].name) == 0)
            return &lists[i];
    fail("no such list");
    return NULL;
}

/* The list from word 0 on. Its blits store one word, behind the list. */
static void set_up(const struct list *list, uint16_t *words, uint16_t *registers)
{
    size_t at = 0;
    for (size_t i = 0; i < list->times; i++, at += list->words)
        memcpy(words + at, list->word, list->words * sizeof *words);
    words[at] = 0xFFFF;
    words[at + 1] = 0xFFFE;
    memset(registers, 0, FILE_WORDS * sizeof *registers);
    registers[0] = 0x0100;
    registers[11] = (RAM_WORDS - 1) * 2;
    registers[15] = 0xFFFE;
    registers[COPCON] = DANGER;
}

static uint32_t once(frame_call *engine, uint16_t *words, uint16_t *registers)
{
    uint32_t why, number, done, word;
    engine(words, RAM_WORDS, registers, FILE_WORDS, 0, UINT32_MAX, &why, &number, &done, &word);
    if (why != 0)
        fail("the frame didn't come to its end");
    return done;
}

int main(int words, char **word)
{
    if (words != 4)
        fail("usage: frames desk|plain LIST TIMES");
    const struct list *list = named(word[2]);
    frame_call *engine = strcmp(word[1], "desk") == 0 ? desk_frame : plain_frame;
    set_up(list, ram, file);
    set_up(list, other_ram, other_file);
    uint32_t done = once(desk_frame, ram, file);
    if (once(plain_frame, other_ram, other_file) != done || memcmp(ram, other_ram, sizeof ram) != 0
        || memcmp(file, other_file, sizeof file) != 0)
        fail("the engines leave different memories or files");
    for (unsigned long times = strtoul(word[3], NULL, 10); times > 0; times--)
        once(engine, ram, file);
    printf("%lu\n", (unsigned long)done);
    return 0;
}
