/* matrix ENGINE: does every blit of the matrix with an engine, desk or plain, and every job of the list. Each line that it
 * writes is a mark at which bench/insn.c tells the instructions so far: the name before the case, one behind it done
 * once, one behind it done twice more. So a case costs the third mark less the second, less the second less the first;
 * what writing a line costs falls out. Before a case both engines do it once and must leave the same. */
#include <stdio.h>
#include <stdlib.h>
#include <string.h>

#include "../c/plain.h"
#include "desk.h"

enum { RAM_WORDS = 262144, FILE_WORDS = 53, ROWS = 64, REGION = 8192, SEEN = 5 * REGION, PITCH = 20 };

/* Channels in the order of the register file. */
enum { C, B, A, D, CHANNELS };

/* The blits: channels used, a sense, and the logic function in hex. Where C and D are both used they lie on the same words,
 * unless they are apart. `own`: D lies on A. */
static const char *const blit_names[] = {
    "D:clear-00", "D:constA-F0", "AD:copy-F0", "AD:invert-0F", "AD:copy-F0-own", "BD:copy-CC", "CD:copy-AA",
    "CD:rectclear-0A", "CD:rectset-FA", "CD:rectinvert-5A", "ABD:and-C0", "ABD:or-FC", "ACD:or-FA", "ACD:erase-0A",
    "ACD:and-A0-apart", "BCD:cookie-CA", "BCD:or-EE-apart", "ABCD:cookie-CA", "ABCD:cookie-CA-apart", "-:00",
    "-:constA-F0", "A-:F0", "A-:0F", "B-:CC", "C-:AA", "AB-:C0", "AC-:A0", "BC-:88", "ABC-:CA", "ABC-:80"
};

static const struct { const char *name; uint16_t con1; } ways[] = {
    {"up", 0x0000}, {"down", 0x0002}, {"fillinc", 0x000A}, {"fillexc", 0x0012}
};

static const unsigned widths[] = {1, 2, 3, 6, 20, 40, 64};

typedef void blit_call(uint16_t *ram, size_t ram_words, uint16_t *file, size_t file_words, uint16_t size,
                       uint32_t *number, uint32_t *stored, uint32_t *round);

/* One blit: its register file, and its size. */
struct blit {
    uint16_t file[FILE_WORDS], size;
};

enum { MOST = 320 };
static struct blit work[MOST];
static size_t blits;
static uint16_t ram[RAM_WORDS], other_ram[RAM_WORDS];
static blit_call *engine;

static void fail(const char *why)
{
    fprintf(stderr, "matrix: %s\n", why);
    exit(1);
}

static void mark(const char *text)
{
    puts(text);
    fflush(stdout);
}

static void do_all(blit_call *with, uint16_t *words)
{
    for (size_t i = 0; i < blits; i++) {
        uint16_t file[FILE_WORDS];
        uint32_t number, stored, round;
        memcpy(file, work[i].file, sizeof file);
        with(words, RAM_WORDS, file, FILE_WORDS, work[i].size, &number, &stored, &round);
        if (number != 0)
            fail("a blit was refused");
    }
}

/* Counts what all blits of the work cost. */
static void count(const char *name)
{
    memcpy(other_ram, ram, SEEN * sizeof *ram);
    do_all(desk_blit, ram);
    do_all(plain_blit, other_ram);
    if (memcmp(ram, other_ram, SEEN * sizeof *ram) != 0)
        fail("the engines leave different memories");
    mark(name);
    do_all(engine, ram);
    mark("once");
    do_all(engine, ram);
    do_all(engine, ram);
    mark("twice more");
}

/* Another blit of the work: where each channel begins, and how many words lie between its rows. */
static void add(uint16_t con0, uint16_t con1, const uint32_t start[CHANNELS], uint32_t gap, unsigned rows, unsigned words,
                const uint16_t masks[2])
{
    struct blit *blit = &work[blits++];
    memset(blit, 0, sizeof *blit);
    blit->file[0] = con0;
    blit->file[1] = con1;
    blit->file[2] = masks[0];
    blit->file[3] = masks[1];
    for (int channel = 0; channel < CHANNELS; channel++) {
        uint32_t last = con1 & 2 ? rows * words + (rows - 1) * gap - 1 : 0;
        uint32_t address = (start[channel] + last) * 2;
        blit->file[4 + 2 * channel] = address >> 16;
        blit->file[5 + 2 * channel] = address & 0xFFFF;
        blit->file[12 + channel] = gap * 2;
        if (channel != D)
            blit->file[16 + channel] = 0xF0F0 >> channel;
    }
    blit->size = (rows % 1024) << 6 | words % 64;
}

static const uint16_t full[2] = {0xFFFF, 0xFFFF}, part[2] = {0x0FFF, 0xFFF0};

static void blit_cases(const char *name)
{
    uint16_t uses = 0;
    const char *at = name;
    for (; *at != ':'; at++)
        uses |= *at == 'A' ? 0x0800 : *at == 'B' ? 0x0400 : *at == 'C' ? 0x0200 : *at == 'D' ? 0x0100 : 0;
    const char *apart = strstr(name, "-apart"), *own = strstr(name, "-own");
    const char *end = apart != NULL ? apart : own != NULL ? own : name + strlen(name);
    uint16_t function = strtoul(end - 2, NULL, 16);
    uint32_t start[CHANNELS] = {0, REGION, 2 * REGION, 3 * REGION};
    if (own != NULL)
        start[D] = start[A];
    else if ((uses & 0x0300) == 0x0300 && apart == NULL)
        start[D] = start[C];
    for (size_t way = 0; way < sizeof ways / sizeof *ways; way++)
        for (unsigned shift = 0; shift <= 5; shift += 5)
            for (int whole = 1; whole >= 0; whole--)
                for (size_t width = 0; width < sizeof widths / sizeof *widths; width++) {
                    char text[80];
                    blits = 0;
                    add(shift << 12 | uses | function, shift << 12 | ways[way].con1, start, 0, ROWS, widths[width],
                        whole ? full : part);
                    sprintf(text, "%s %s s%u %s %u", name, ways[way].name, shift, whole ? "full" : "part", widths[width]);
                    count(text);
                }
}

/* 320 glyphs on a plane of PITCH words a row, every other one a word wide and 8 rows high, two wide and 16 high. Font and
 * mask stand word below word. */
static void board(const char *name, uint16_t con0)
{
    blits = 0;
    for (uint32_t i = 0; i < MOST; i++) {
        unsigned words = 1 + i % 2, rows = 8 * words;
        uint32_t place = i / 2 % 10 * 2 + i / 20 % 12 * 16 * PITCH, glyph = i % 64 * 32;
        uint32_t start[CHANNELS] = {place, REGION + glyph, 2 * REGION + glyph, place};
        add(con0, 0, start, 0, rows, words, full);
        for (int channel = 0; channel < CHANNELS; channel++)
            if (channel == C || channel == D)
                work[i].file[12 + channel] = (PITCH - words) * 2;
    }
    count(name);
}

/* Three planes of 200 rows, each by a blit of its own. */
static void planes(const char *name, uint16_t con0, uint16_t con1, unsigned words, uint32_t from, uint32_t to)
{
    blits = 0;
    for (uint32_t plane = 0; plane < 3; plane++) {
        uint32_t start[CHANNELS] = {0, 0, plane * REGION + from, plane * REGION + to};
        add(con0, con1, start, PITCH - words, 200, words, full);
    }
    count(name);
}

/* A polygon's outline filled, then laid on a picture through itself. */
static void polygon(const char *name)
{
    static const uint32_t outline[CHANNELS] = {0, 0, REGION, 2 * REGION};
    static const uint32_t laid[CHANNELS] = {0, 3 * REGION, 2 * REGION, 0};
    blits = 0;
    add(0x09F0, 0x000A, outline, 0, 200, PITCH, full);
    add(0x0FCA, 0x0000, laid, 0, 200, PITCH, full);
    count(name);
}

int main(int words, char **word)
{
    if (words != 2)
        fail("usage: matrix desk|plain");
    engine = strcmp(word[1], "desk") == 0 ? desk_blit : plain_blit;
    uint32_t state = 1;
    for (size_t i = 0; i < SEEN; i++) {
        state = state * 1664525 + 1013904223;
        ram[i] = state >> 16;
    }
    for (size_t i = 0; i < sizeof blit_names / sizeof *blit_names; i++)
        blit_cases(blit_names[i]);
    board("board", 0x0FCA);
    board("or", 0x0BFA);
    planes("clear", 0x0100, 0x0000, 20, 0, 0);
    planes("scroll1", 0x09F0, 0x0000, 19, 1, 0);
    planes("scroll4", 0x49F0, 0x0002, 20, 0, 0);
    polygon("polygon");
    return 0;
}
