/* lines ENGINE CASE DOTS TIMES [MEMORY]: draws a line of so many dots so many times with an engine, desk or plain.
 * MEMORY is 262,144 words if nothing else is said. First both engines draw it once and must leave the same memory and
 * register file; that costs the same whatever TIMES is, so it falls out of the difference of two counts. Prints the
 * dots. */
#include <stdio.h>
#include <stdlib.h>
#include <string.h>

#include "../c/plain.h"
#include "desk.h"

/* Rows of 1,024 pixels, and room for 1,024 rows above and below the line's first dot. */
enum { RAM_ROOM = 262144, FILE_WORDS = 53, PITCH = 64, FIRST_ROW = 1500, MOST_DOTS = 1024 };

enum { USES = 0x0B00, LINE = 0x01, SING = 0x02, SIGN = 0x40 };

/* SUD, SUL and AUL of the octants that are drawn in. */
enum { RIGHT_DOWN = 0x10, LEFT_UP = 0x1C, DOWN_RIGHT = 0x00, UP_LEFT = 0x0C };

typedef void blit_call(uint16_t *ram, size_t ram_words, uint16_t *file, size_t file_words, uint16_t size,
                       uint32_t *number, uint32_t *stored, uint32_t *round);

/* A line's function, octant and texture. Its shorter side is so many quarters of its longer one. */
struct line_case {
    const char *name;
    uint16_t function, octant, texture;
    uint32_t quarters;
};

static const struct line_case line_cases[] = {
    {"horizontal", 0xCA, RIGHT_DOWN, 0xFFFF, 0},
    {"flat", 0xCA, RIGHT_DOWN, 0xFFFF, 1},
    {"flat-back", 0xCA, LEFT_UP, 0xFFFF, 1},
    {"flat-xor", 0x4A, RIGHT_DOWN, 0xFFFF, 1},
    {"flat-single", 0x4A, RIGHT_DOWN | SING, 0xFFFF, 1},
    {"flat-textured", 0xCA, RIGHT_DOWN, 0xF0C5, 1},
    {"diagonal", 0xCA, RIGHT_DOWN, 0xFFFF, 4},
    {"steep", 0xCA, DOWN_RIGHT, 0xFFFF, 1},
    {"steep-back", 0xCA, UP_LEFT, 0xFFFF, 1},
    {"steep-xor", 0x4A, DOWN_RIGHT, 0xFFFF, 1},
    {"steep-single", 0x4A, DOWN_RIGHT | SING, 0xFFFF, 1},
    {"steep-textured", 0xCA, DOWN_RIGHT, 0xF0C5, 1},
    {"vertical", 0xCA, DOWN_RIGHT, 0xFFFF, 0}
};

static size_t ram_words = RAM_ROOM;
static uint16_t ram[RAM_ROOM], other_ram[RAM_ROOM];

static void fail(const char *why)
{
    fprintf(stderr, "lines: %s\n", why);
    exit(1);
}

static const struct line_case *named(const char *name)
{
    for (size_t i = 0; i < sizeof line_cases / sizeof *line_cases; i++)
        if (strcmp(name, line_cases[i].name) == 0)
            return &line_cases[i];
    fail("no such line");
    return NULL;
}

static void fill_ram(uint16_t *words)
{
    uint32_t state = 1;
    for (size_t i = 0; i < RAM_ROOM; i++) {
        state = state * 1664525 + 1013904223;
        words[i] = state >> 16;
    }
}

/* The manual's set-up. A line to the left begins at a row's last pixel. */
static void make_file(uint16_t *file, const struct line_case *line, uint32_t dots)
{
    uint32_t long_side = dots - 1, short_side = long_side * line->quarters / 4;
    uint32_t accumulator = 4 * short_side - 2 * long_side;
    uint32_t pixel = line->octant == LEFT_UP || line->octant == UP_LEFT ? 16 * PITCH - 1 : 0;
    uint32_t address = (FIRST_ROW * PITCH + pixel / 16) * 2;
    memset(file, 0, FILE_WORDS * sizeof *file);
    file[0] = pixel % 16 << 12 | USES | line->function;
    file[1] = line->octant | LINE | (accumulator & 0x8000 ? SIGN : 0);
    file[2] = file[3] = 0xFFFF;
    file[4] = file[10] = address >> 16;
    file[5] = file[11] = address & 0xFFFF;
    file[9] = accumulator & 0xFFFF;
    file[12] = file[15] = PITCH * 2;
    file[13] = 4 * short_side;
    file[14] = 4 * short_side - 4 * long_side;
    file[17] = line->texture;
    file[18] = 0x8000;
}

static void once(blit_call *engine, uint16_t *words, uint16_t *left, const uint16_t *file, uint16_t size)
{
    uint32_t number, stored, round;
    memcpy(left, file, FILE_WORDS * sizeof *left);
    engine(words, ram_words, left, FILE_WORDS, size, &number, &stored, &round);
    if (number != 0)
        fail("the line was refused");
}

int main(int words, char **word)
{
    uint16_t file[FILE_WORDS], left[FILE_WORDS], other_left[FILE_WORDS];
    if (words != 5 && words != 6)
        fail("usage: lines desk|plain CASE DOTS TIMES [MEMORY]");
    blit_call *engine = strcmp(word[1], "desk") == 0 ? desk_blit : plain_blit;
    uint32_t dots = strtoul(word[3], NULL, 10);
    if (dots == 0 || dots > MOST_DOTS)
        fail("DOTS is 1 to 1024");
    if (words == 6)
        ram_words = strtoul(word[5], NULL, 10);
    if (ram_words > RAM_ROOM)
        fail("MEMORY is at most 262144");
    uint16_t size = dots % MOST_DOTS << 6 | 2;
    make_file(file, named(word[2]), dots);
    fill_ram(ram);
    fill_ram(other_ram);
    once(desk_blit, ram, left, file, size);
    once(plain_blit, other_ram, other_left, file, size);
    if (memcmp(ram, other_ram, sizeof ram) != 0 || memcmp(left, other_left, sizeof left) != 0)
        fail("the engines leave different memories or files");
    for (unsigned long times = strtoul(word[4], NULL, 10); times > 0; times--)
        once(engine, ram, left, file, size);
    printf("%lu\n", (unsigned long)dots);
    return 0;
}
