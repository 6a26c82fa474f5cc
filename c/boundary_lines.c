/* Lines in the boundary test. What each must give is written out from paper 01's rules for a line, paper 02's W3 and
 * the manual's examples. */
#include <stdio.h>
#include <string.h>

#include "boundary.h"

#define ZEROS "0000*16"
#define MOST_RAM "0000*262144"
#define OVER_RAM "0000*262145"
#define CLEAR_AT_8 "0040 0100 0042 0000 0054 0000 0056 0010 0066 0000 "

/* What of the register file a line goes by. The pointer of C and D and the accumulator are what it changes. */
struct line {
    const char *control;      /* BLTCON0, BLTCON1, BLTAFWM, BLTALWM */
    const char *at;           /* the pointer of C and of D, high half and low half */
    const char *accumulator;  /* the low half of A's pointer */
    const char *modulos;      /* of C, B and A */
    const char *data;         /* of B and A */
};

enum { ROOM = 400 };

/* The other registers have numbers that none of them would have by chance, and keep them. */
static void write_file(char *text, const struct line *line, const char *at_d, int flag)
{
    sprintf(text, "%s  %s 5 4320 3 %s %s  %s 6666  1234 %s  0002 0ABC*32 000%d", line->control, line->at, line->accumulator,
            at_d, line->modulos, line->data, flag);
}

/* A line that is done, by blit or round_blit. The flag is the other one before. */
typedef void blit_call(const char *name, const char *ram, const char *file, uint16_t size,
                       uint32_t number, uint32_t stored, const char *ram_after, const char *file_after);

static void drawn_by(blit_call *call, const char *name, const char *ram, struct line line, uint16_t size,
                     uint32_t stored, const char *ram_after, const char *at_after, const char *accumulator_after,
                     int flag)
{
    char before[ROOM], after[ROOM];
    write_file(before, &line, line.at, !flag);
    line.at = at_after;
    line.accumulator = accumulator_after;
    write_file(after, &line, line.at, flag);
    call(name, ram, before, size, 0, stored, ram_after, after);
}

static void drawn(const char *name, const char *ram, struct line line, uint16_t size,
                  uint32_t stored, const char *ram_after, const char *at_after, const char *accumulator_after, int flag)
{
    drawn_by(blit, name, ram, line, size, stored, ram_after, at_after, accumulator_after, flag);
}

/* One whose pointer goes round on its way. */
static void round_drawn(const char *name, const char *ram, struct line line, uint16_t size, uint32_t stored,
                        const char *ram_after, const char *at_after, const char *accumulator_after, int flag)
{
    drawn_by(round_blit, name, ram, line, size, stored, ram_after, at_after, accumulator_after, flag);
}

/* A line that is refused, D's pointer apart or not. */
static void refused_apart(const char *name, const char *ram, struct line line, const char *at_d, uint16_t size,
                          uint32_t number)
{
    char file[ROOM];
    for (int flag = 0; flag < 2; flag++) {
        write_file(file, &line, at_d, flag);
        blit(name, ram, file, size, number, 0, SAME, SAME);
    }
}

static void refused(const char *name, const char *ram, struct line line, uint16_t size, uint32_t number)
{
    refused_apart(name, ram, line, line.at, size, number);
}

/* The manual's set-up for a line 5 along and 2 across, rows of one word: accumulator 4 x 2 - 2 x 5, modulos 4 x 2 and
 * 4 x (2 - 5), 6 dots. */
#define FIVE_BY_TWO "FFFE", "2 8 FFF4", "FFFF 8000"

static void manuals(void)
{
    drawn("5 right, 2 down", "0*4", (struct line){"0BFA 0051 FFFF FFFF", "0 0", FIVE_BY_TWO}, 0x0182, 6,
          "C000 3000 0C00 0", "0 4", "0006", 0);
    drawn("5 right, 2 down, one dot a row", "0*4", (struct line){"0BFA 0053 FFFF FFFF", "0 0", FIVE_BY_TWO}, 0x0182, 3,
          "8000 2000 0800 0", "0 4", "0006", 0);
    drawn("bits rotated", "0*16", (struct line){"3BCA F049 FFFF FFFF", "0 0", "FFE2", "2 0 FFC4", "A5C3 8000"}, 0x0402,
          16, "1000 0 1000 0 0 1000 0 1000 1000 1000 0 0 0 0 1000 1000", "0 20", "FFE2", 0);
    drawn("bits rotated over ones", "FFFF*16",
          (struct line){"3BCA F049 FFFF FFFF", "0 0", "FFE2", "2 0 FFC4", "A5C3 8000"}, 0x0402, 16,
          "FFFF EFFF FFFF EFFF EFFF FFFF EFFF FFFF FFFF FFFF EFFF EFFF EFFF EFFF FFFF FFFF", "0 20", "FFE2", 0);
}

/* The same shape from the ninth pixel of word 5, in the eight octants by their numbers in the manual. Steep ones end
 * above or below memory. */
static void octants(void)
{
    static const struct { const char *control, *single, *after, *single_after, *at; } ways[] = {
        {"8BFA 0059 FFFF FFFF", "8BFA 005B FFFF FFFF", "0*3 000C 0030 00C0 0*5", "0*3 0008 0020 0080 0*5", "0 6"},
        {"8BFA 0045 FFFF FFFF", "8BFA 0047 FFFF FFFF", "0020*2 0040*2 0080*2 0*5", "0020*2 0040*2 0080*2 0*5", "7 FFFE"},
        {"8BFA 004D FFFF FFFF", "8BFA 004F FFFF FFFF", "0200*2 0100*2 0080*2 0*5", "0200*2 0100*2 0080*2 0*5", "7 FFFE"},
        {"8BFA 005D FFFF FFFF", "8BFA 005F FFFF FFFF", "0*3 1800 0600 0180 0*5", "0*3 0800 0200 0080 0*5", "0 6"},
        {"8BFA 0055 FFFF FFFF", "8BFA 0057 FFFF FFFF", "0*5 0180 0600 1800 0*3", "0*5 0080 0200 0800 0*3", "0 E"},
        {"8BFA 0049 FFFF FFFF", "8BFA 004B FFFF FFFF", "0*5 0080*2 0100*2 0200*2", "0*5 0080*2 0100*2 0200*2", "0 16"},
        {"8BFA 0041 FFFF FFFF", "8BFA 0043 FFFF FFFF", "0*5 0080*2 0040*2 0020*2", "0*5 0080*2 0040*2 0020*2", "0 16"},
        {"8BFA 0051 FFFF FFFF", "8BFA 0053 FFFF FFFF", "0*5 00C0 0030 000C 0*3", "0*5 0080 0020 0008 0*3", "0 E"}
    };
    for (int octant = 0; octant < 8; octant++) {
        char name[32];
        sprintf(name, "octant %d", octant);
        drawn(name, "0*11", (struct line){ways[octant].control, "0 A", FIVE_BY_TWO}, 0x0182, 6, ways[octant].after,
              ways[octant].at, "0006", 0);
        sprintf(name, "octant %d, SING", octant);
        drawn(name, "0*11", (struct line){ways[octant].single, "0 A", FIVE_BY_TWO}, 0x0182,
              strstr(ways[octant].after, "*2") == NULL ? 3 : 6, ways[octant].single_after, ways[octant].at, "0006", 0);
    }
}

/* An accumulator of 8000 and a B modulo of 0: the sign stays, and only the always move is made. */
#define LEVEL "8000", "4 0 0", "FFFF 8000"

#define FIVE(text) text text text text text

static void ends_of_memory(void)
{
    drawn("N - 1, right with shift 15", ZEROS, (struct line){"FBFA 0051 FFFF FFFF", "0 1E", LEVEL}, 0x0042, 1,
          "0*15 0001", "0 20", "8000", 0);
    refused("N - 1, right with shift 15, a dot more", ZEROS, (struct line){"FBFA 0051 FFFF FFFF", "0 1E", LEVEL}, 0x0082,
            16);
    refused("the dot more isn't stored", ZEROS, (struct line){"FBFA 0053 FFFF FFFF", "0 1E", LEVEL}, 0x0082, 16);
    drawn("N - 1, right with shift 14, two dots", ZEROS, (struct line){"EBFA 0051 FFFF FFFF", "0 1E", LEVEL}, 0x0082, 2,
          "0*15 0003", "0 20", "8000", 0);
    drawn("word 0, left with shift 0", ZEROS, (struct line){"0BFA 0055 FFFF FFFF", "0 0", LEVEL}, 0x0042, 1,
          "8000 0*15", "7 FFFE", "8000", 0);
    refused("word 0, left with shift 0, a dot more", ZEROS, (struct line){"0BFA 0055 FFFF FFFF", "0 0", LEVEL}, 0x0082, 16);
    drawn("word 0, left with shift 1, two dots", ZEROS, (struct line){"1BFA 0055 FFFF FFFF", "0 0", LEVEL}, 0x0082, 2,
          "C000 0*15", "7 FFFE", "8000", 0);
    drawn("the last row, down", ZEROS, (struct line){"0BFA 0041 FFFF FFFF", "0 1C", LEVEL}, 0x0042, 1,
          "0*14 8000 0", "0 20", "8000", 0);
    refused("the last row, down, a dot more", ZEROS, (struct line){"0BFA 0041 FFFF FFFF", "0 1C", LEVEL}, 0x0082, 16);
    drawn("the first row, up", ZEROS, (struct line){"0BFA 0045 FFFF FFFF", "0 2", LEVEL}, 0x0042, 1,
          "0 8000 0*14", "7 FFFE", "8000", 0);
    refused("the first row, up, a dot more", ZEROS, (struct line){"0BFA 0045 FFFF FFFF", "0 2", LEVEL}, 0x0082, 16);
    drawn("down by a modulo of 8000", ZEROS,
          (struct line){"0BFA 0041 FFFF FFFF", "0 A", "8000", "8000 0 0", "FFFF 8000"}, 0x0042, 1, "0*5 8000 0*10",
          "7 800A", "8000", 0);
    drawn("up by a modulo of 8000", ZEROS,
          (struct line){"0BFA 0045 FFFF FFFF", "0 A", "8000", "8000 0 0", "FFFF 8000"}, 0x0042, 1, "0*5 8000 0*10",
          "0 800A", "8000", 0);
    refused("out of memory and back again", ZEROS,
            (struct line){"0BFA 0041 FFFF FFFF", "0 A", "8000", "8000 0 0", "FFFF 8000"}, 0x0442, 16);
    round_drawn("the same where nothing is outside", MOST_RAM,
                (struct line){"0BFA 0041 FFFF FFFF", "0 A", "8000", "8000 0 0", "FFFF 8000"}, 0x0442, 17,
                "0*5 " FIVE("8000 0*16383 ") FIVE("8000 0*16383 ") FIVE("8000 0*16383 ") "8000 0*16378", "7 800A",
                "8000", 0);
    round_drawn("round the top, to the right", MOST_RAM, (struct line){"FBFA 0051 FFFF FFFF", "7 FFFE", LEVEL}, 0x0082,
                2, "8000 0*262142 0001", "0 0", "8000", 0);
    round_drawn("round the top, to the left", MOST_RAM, (struct line){"0BFA 0055 FFFF FFFF", "0 0", LEVEL}, 0x0082, 2,
                "8000 0*262142 0001", "7 FFFE", "8000", 0);
    round_drawn("round the top, down", MOST_RAM, (struct line){"0BFA 0041 FFFF FFFF", "7 FFFC", LEVEL}, 0x0082, 2,
                "8000 0*262141 8000 0", "0 4", "8000", 0);
    round_drawn("round the top, up", MOST_RAM, (struct line){"0BFA 0045 FFFF FFFF", "0 2", LEVEL}, 0x0082, 2,
                "0 8000 0*262141 8000", "7 FFFA", "8000", 0);
    refused("round the top of one word less", "0*262143", (struct line){"0BFA 0055 FFFF FFFF", "0 0", LEVEL}, 0x0082, 16);
}

/* The step behind the last dot doesn't count. Of a step's two moves each counts by itself, even if they lead back. */
static void round_or_not(void)
{
    drawn("round the top behind the last dot, to the right", MOST_RAM,
          (struct line){"EBFA 0051 FFFF FFFF", "7 FFFE", LEVEL}, 0x0082, 2, "0*262143 0003", "0 0", "8000", 0);
    drawn("round the top behind the last dot, up", MOST_RAM, (struct line){"0BFA 0045 FFFF FFFF", "0 4", LEVEL}, 0x0082,
          2, "8000 0 8000 0*262141", "7 FFFC", "8000", 0);
    drawn("to word 0 and no further", MOST_RAM, (struct line){"0BFA 0045 FFFF FFFF", "0 8", LEVEL}, 0x00C2, 3,
          "8000 0 8000 0 8000 0*262139", "7 FFFC", "8000", 0);
    drawn("to the highest word and no further", MOST_RAM, (struct line){"0BFA 0041 FFFF FFFF", "7 FFFA", LEVEL}, 0x0082,
          2, "0*262141 8000 0 8000", "0 2", "8000", 0);
    round_drawn("up by a modulo of FFFC, round the top", MOST_RAM,
                (struct line){"0BFA 0045 FFFF FFFF", "7 FFFE", "8000", "FFFC 0 0", "FFFF 8000"}, 0x0082, 2,
                "0 8000 0*262141 8000", "0 6", "8000", 0);
    round_drawn("down by a modulo of FFFC, round the bottom", MOST_RAM,
                (struct line){"0BFA 0041 FFFF FFFF", "0 2", "8000", "FFFC 0 0", "FFFF 8000"}, 0x0082, 2,
                "0 8000 0*262141 8000", "7 FFFA", "8000", 0);
    drawn("a modulo of 0 at word 0, up", MOST_RAM,
          (struct line){"0BFA 0045 FFFF FFFF", "0 0", "8000", "0 0 0", "FFFF 8000"}, 0x0082, 2, "8000 0*262143", "0 0",
          "8000", 0);
    round_drawn("left, then down: out and back in 16 words", ZEROS,
                (struct line){"0BFA 0009 FFFF FFFF", "0 0", "0", "2 0 8000", "FFFF 8000"}, 0x0082, 2, "8001 0*15",
                "0 2", "8000", 0);
    drawn("down, then left: never out", ZEROS,
          (struct line){"0BFA 0015 FFFF FFFF", "0 0", "0", "2 0 8000", "FFFF 8000"}, 0x0082, 2, "8001 0*15", "0 0",
          "8000", 0);
    round_drawn("up, then right: out and back in 16 words", ZEROS,
                (struct line){"FBFA 0019 FFFF FFFF", "0 0", "0", "2 0 8000", "FFFF 8000"}, 0x0082, 2, "8001 0*15",
                "0 0", "8000", 0);
    drawn("right, then up: never out", ZEROS,
          (struct line){"FBFA 0005 FFFF FFFF", "0 0", "0", "2 0 8000", "FFFF 8000"}, 0x0082, 2, "8001 0*15", "7 FFFE",
          "8000", 0);
    round_drawn("round the top to a dot that isn't stored", MOST_RAM,
                (struct line){"FBFA 0053 FFFF FFFF", "7 FFFE", LEVEL}, 0x0082, 1, "0*262143 0001", "0 0", "8000", 0);
    round_drawn("round the top in the middle of a line", MOST_RAM,
                (struct line){"EBFA 0051 FFFF FFFF", "7 FFFE", LEVEL}, 0x0102, 4, "C000 0*262142 0003", "0 0", "8000",
                0);
}

static void longest(void)
{
    drawn("1,024 dots down", "0*1024", (struct line){"0BFA 0041 FFFF FFFF", "0 0", "8000", "2 0 0", "FFFF 8000"}, 0x0002,
          1024, "8000*1024", "0 800", "8000", 0);
    refused("1,024 dots down in 1,023 words", "0*1023",
            (struct line){"0BFA 0041 FFFF FFFF", "0 0", "8000", "2 0 0", "FFFF 8000"}, 0x0002, 16);
    drawn("1,023 dots down in 1,023 words", "0*1023",
          (struct line){"0BFA 0041 FFFF FFFF", "0 0", "8000", "2 0 0", "FFFF 8000"}, 0xFFC2, 1023, "8000*1023", "0 7FE",
          "8000", 0);
    drawn("1,024 dots to the right", "0*64", (struct line){"0BFA 0051 FFFF FFFF", "0 0", LEVEL}, 0x0002, 1024, "FFFF*64",
          "0 80", "8000", 0);
    drawn("1,024 dots to the right, SING", "0*64", (struct line){"0BFA 0053 FFFF FFFF", "0 0", LEVEL}, 0x0002, 1,
          "8000 0*63", "0 80", "8000", 0);
    refused("1,024 dots to the right, SING, in 63 words", "0*63", (struct line){"0BFA 0053 FFFF FFFF", "0 0", LEVEL},
            0x0002, 16);
    drawn("1,024 dots on one word", "FFFF", (struct line){"0B5A 0043 FFFF FFFF", "0 0", "8000", "0 0 0", "0 8000"},
          0x0002, 1024, SAME, "0 0", "8000", 0);
    round_drawn("1,024 dots round the top", "FFFF*262144",
                (struct line){"FB0A 0045 FFFF FFFF", "0 3FE", "8000", "2 0 0", "0 8000"}, 0x0002, 1024,
                "FFFE*512 FFFF*261120 FFFE*512", "7 FBFE", "8000", 0);
}

/* A is its data through the first mask alone, moved by its shift, and nothing of the dot before comes into it. */
static void marks(void)
{
    drawn("the first mask, the shift", "0", (struct line){"4BF0 0051 F0F0 0000", "0 0", "8000", "2 0 0", "0 FFFF"}, 0x0042,
          1, "0F0F", "0 0", "8000", 0);
    drawn("a mark that is masked away", "0*2", (struct line){"0BFA 0051 7FFF FFFF", "0 0", LEVEL}, 0x0082, 2, SAME, "0 0",
          "8000", 1);
    drawn("a wide mark, two dots", "0", (struct line){"0BF0 0051 FFFF FFFF", "0 0", "8000", "2 0 0", "0 FFFF"}, 0x0082, 2,
          "7FFF", "0 0", "8000", 0);
    drawn("a wide mark over a word's end", "0*2", (struct line){"EBF0 0051 FFFF FFFF", "0 0", "8000", "2 0 0", "0 FFFF"},
          0x00C2, 3, "0001 FFFF", "0 2", "8000", 0);
    drawn("a wide mark to the left", "0*2", (struct line){"0BF0 0055 FFFF 0000", "0 2", "8000", "2 0 0", "0 FFFF"},
          0x0082, 2, "0001 FFFF", "0 0", "8000", 0);
}

/* B is one bit of the texture: the named one, then one lower for each dot, stored or not, 15 after 0. */
static void textures(void)
{
    drawn("from bit 15", "FFFF", (struct line){"0BCA F051 FFFF FFFF", "0 0", "8000", "2 0 0", "A5C3 8000"}, 0x0402, 16,
          "A5C3", "0 2", "8000", 0);
    drawn("from bit 3", "FFFF*2", (struct line){"0BCA 3051 FFFF FFFF", "0 0", "8000", "2 0 0", "A5C3 8000"}, 0x0442, 17,
          "3A5C 7FFF", "0 2", "8000", 0);
    drawn("from bit 0", "0", (struct line){"0BCA 0051 FFFF FFFF", "0 0", "8000", "2 0 0", "0001 8000"}, 0x0402, 16,
          "8000", "0 2", "8000", 0);
    drawn("dots that aren't stored count", "0*4",
          (struct line){"0BCA F053 FFFF FFFF", "0 0", "FFFE", "2 8 FFF4", "8800 8000"}, 0x0182, 3, "8000 0 0800 0", "0 4",
          "0006", 0);
    drawn("B throughout the word", "0", (struct line){"0BCC 0051 FFFF FFFF", "0 0", "8000", "2 0 0", "0001 8000"}, 0x0042,
          1, "FFFF", "0 0", "8000", 0);
}

static void signs(void)
{
    drawn("sign 0 over a negative accumulator", "0*4",
          (struct line){"0BFA 0011 FFFF FFFF", "0 0", "FFFE", "2 8 FFF4", "FFFF 8000"}, 0x0082, 2, "8000 4000 0 0", "0 2",
          "FFFA", 0);
    drawn("sign 1 over a positive accumulator", "0*4",
          (struct line){"0BFA 0051 FFFF FFFF", "0 0", "0002", "2 8 FFF4", "FFFF 8000"}, 0x0082, 2, "C000 0 0 0", "0 2",
          "FFFE", 0);
    drawn("the accumulator passes 7FFE", "0*4",
          (struct line){"0BFA 0011 FFFF FFFF", "0 0", "7FFE", "2 0 2", "FFFF 8000"}, 0x00C2, 3, "8000 6000 0 0", "0 2",
          "8000", 0);
    drawn("the accumulator passes FFFE", "0*4",
          (struct line){"0BFA 0051 FFFF FFFF", "0 0", "FFFE", "2 4 0", "FFFF 8000"}, 0x00C2, 3, "C000 2000 0 0", "0 4",
          "0002", 0);
    drawn("the accumulator goes round by 8000", "0*4",
          (struct line){"0BFA 0051 FFFF FFFF", "0 0", "8000", "2 8000 8000", "FFFF 8000"}, 0x0082, 2, "C000 0 0 0",
          "0 2", "8000", 0);
    drawn("bits 5 and 11 to 7 have no part", "0*4", (struct line){"0BFA 0FF1 FFFF FFFF", "0 0", FIVE_BY_TWO}, 0x0182, 6,
          "C000 3000 0C00 0", "0 4", "0006", 0);
}

/* The flag is 1 where every word stored was zero; a dot is fetched as the one before it left it. */
static void flags_and_orders(void)
{
    drawn("zero stored, and a dot that would not be", "8000",
          (struct line){"0BCA 0053 FFFF FFFF", "0 0", "8000", "2 0 0", "8000 8000"}, 0x0082, 1, "0000", "0 0", "8000", 1);
    drawn("zero stored, then ones", "8000",
          (struct line){"0BCA 0051 FFFF FFFF", "0 0", "8000", "2 0 0", "8000 8000"}, 0x0082, 2, "4000", "0 0", "8000", 0);
    drawn("ones stored, then zero", "0",
          (struct line){"0B5A 0041 FFFF FFFF", "0 0", "8000", "0 0 0", "0 8000"}, 0x0082, 2, "0", "0 0", "8000", 0);
    drawn("four dots that undo each other", "1234",
          (struct line){"0B5A 0043 FFFF FFFF", "0 0", "8000", "0 0 0", "0 8000"}, 0x0102, 4, SAME, "0 0", "8000", 0);
    drawn("three dots, two of which undo each other", "1234",
          (struct line){"0B5A 0043 FFFF FFFF", "0 0", "8000", "0 0 0", "0 8000"}, 0x00C2, 3, "9234", "0 0", "8000", 0);
    drawn("SING, every move vertical by 0 words", "0*2",
          (struct line){"0BFA 0043 FFFF FFFF", "0 0", "8000", "0 0 0", "0 8000"}, 0x00C2, 3, "8000 0", "0 0", "8000", 0);
    drawn("function 00", "1234", (struct line){"0B00 0051 FFFF FFFF", "0 0", LEVEL}, 0x0082, 2, "0", "0 0", "8000", 1);
}

static void widths_and_uses(void)
{
    struct line line = {"0BFA 0051 FFFF FFFF", "0 0", LEVEL};
    char name[32], control[32];
    for (uint16_t width = 0; width < 64; width++) {
        sprintf(name, "width %d", width);
        if (width != 2)
            refused(name, ZEROS, line, 0x0040 | width, 18);
    }
    for (int uses = 0; uses < 16; uses++) {
        sprintf(name, "uses %X", (unsigned)uses);
        sprintf(control, "0%XFA 0051 FFFF FFFF", (unsigned)uses);
        line.control = control;
        if (uses != 0xB)
            refused(name, ZEROS, line, 0x0042, 18);
    }
}

/* 1, 2, 18, 19, 16, and none of an area's. */
static void orders(void)
{
    struct line line = {"0BFA 0051 FFFF FFFF", "0 20", LEVEL}, other = {"0FFA 0051 FFFF FFFF", "0 20", LEVEL};
    struct line far = {"0BFA 0051 FFFF FFFF", "7 0", LEVEL}, fills = {"0BFA 0059 FFFF FFFF", "0 0", LEVEL};
    refused("1 before 18, 19 and 16", "", other, 0x0041, 1);
    refused("1 before 18, memory too long", OVER_RAM, other, 0x0041, 1);
    blit("2 before 18, 19 and 16", ZEROS, "0FFA 0051 0000*50", 0x0041, 2, 0, SAME, SAME);
    blit("2 before a line that could be done", ZEROS, "0BFA 0051 0000*50 0002", 0x0042, 2, 0, SAME, SAME);
    blit("an accumulator of an odd number", ZEROS, "0BFA 0051 0000*7 0001 0000*43", 0x0042, 2, 0, SAME, SAME);
    refused_apart("18 before 19 and 16, by the width", ZEROS, line, "0 22", 0x0041, 18);
    refused_apart("18 before 19 and 16, by the channels", ZEROS, other, "0 22", 0x0042, 18);
    refused_apart("19 before 16, low halves", ZEROS, line, "0 22", 0x0042, 19);
    refused_apart("19 before 16, high halves", ZEROS, line, "4 20", 0x0042, 19);
    refused_apart("19, D outside", ZEROS, (struct line){"0BFA 0051 FFFF FFFF", "0 0", LEVEL}, "0 20", 0x0042, 19);
    refused_apart("19, C outside", ZEROS, line, "0 0", 0x0042, 19);
    refused_apart("19, both inside", ZEROS, (struct line){"0BFA 0051 FFFF FFFF", "0 0", LEVEL}, "0 2", 0x0042, 19);
    refused_apart("19, the same words of other halves", MOST_RAM, far, "6 0", 0x0042, 19);
    refused("16, the first dot at N", ZEROS, line, 0x0042, 16);
    refused("16, the first dot far", ZEROS, far, 0x0042, 16);
    drawn("bits of both fills, not descending", ZEROS, fills, 0x0042, 1, "8000 0*15", "0 0", "8000", 0);
    drawn("A and B outside", "0", (struct line){"0BFA 0051 FFFF FFFF", "0 0", "FFFE", "2 0 0", "FFFF 8000"}, 0x0042, 1,
          "8000", "0 0", "FFFE", 0);
}

/* The registers as the manual's SimpleLine writes them, from (2,1) to (20,9), rows of 4 bytes. */
#define SIMPLE_LINE "0062 0020 0050 FFFF 0052 FFFC 0040 2BFA 0042 0051 0060 0004 0066 0004 0064 FFD8 0074 8000 0044 FFFF " \
                    "0046 FFFF 0048 0000 004A 0004 0054 0000 0056 0004 "
/* Its registers in the file before and after. */
#define FILE_OF(at, accumulator) "2BFA 0051 FFFF FFFF  0 " at " 0 0 7 " accumulator " 0 " at "  4 20 FFD8 4  0 0 8000  "
#define BLACK "0*33 "
#define SIMPLE_LINE_DRAWN "0 0 3000 0 0C00 0 0300 0 00C0 0 0038 0 0006 0 0001 8000 0 6000 0 1800"

static void jobs(void)
{
    run("the manual's SimpleLine", "0*20", "0*53", SIMPLE_LINE "0058 04C2", 0, 0, 19, SIMPLE_LINE_DRAWN,
        FILE_OF("26", "1C") BLACK "0");
    run("the same in 19 words", "0*19", "0*53", SIMPLE_LINE "0058 04C2 C001", 16, 30, 0, SAME,
        FILE_OF("4", "FFFC") BLACK "0");
    run("a store, a line of width 1", "0*20", "0*53", "8000 0000 1111 " SIMPLE_LINE "0058 04C1 C001", 18, 33, 1,
        "1111 0*19", FILE_OF("4", "FFFC") BLACK "0");
    run("a line that uses B too", "0*20", "0*53", SIMPLE_LINE "0040 2FFA 0058 04C2", 18, 32, 0, SAME,
        "2FFA 0051 FFFF FFFF  0 4 0 0 7 FFFC 0 4  4 20 FFD8 4  0 0 8000  " BLACK "0");
    run("D's pointer left out", "0*20", "0*53", SIMPLE_LINE "0056 0006 0058 04C2", 19, 32, 0, SAME,
        "2BFA 0051 FFFF FFFF  0 4 0 0 7 FFFC 0 6  4 20 FFD8 4  0 0 8000  " BLACK "0");
    run("drawn twice by exclusive or", "1234 5678 9ABC*18", "0*53",
        SIMPLE_LINE "0040 2B4A 0072 FFFF 0058 04C2 0052 FFFC 004A 0004 0056 0004 0058 04C2", 0, 0, 38, SAME,
        "2B4A 0051 FFFF FFFF  0 26 0 0 7 1C 0 26  4 20 FFD8 4  0 FFFF 8000  " BLACK "0");
    run("a line, then an area as registers stand", "1111*20", "0*53",
        SIMPLE_LINE "0058 0042 0040 0100 0042 0000 0056 0000 0058 0042", 0, 0, 3, "0 0 3111 1111*17",
        "0100 0 FFFF FFFF  0 4 0 0 7 1C 0 8  4 20 FFD8 4  0 0 8000  " BLACK "1");
    run("no 7 is given", ZEROS, "0*53", "0042 0001 0058 0041", 18, 2, 0, SAME, "0000 0001 0*51");
}

/* A line is kept, and its pointers and data registers are no longer known; B's data register is. */
static void foldings_of_lines(void)
{
    static const char alone[] = CLEAR_AT_8 "0042 0001 0058 0042";
    static const char line[] = CLEAR_AT_8 "0040 0BFA 0042 0051 0058 0042 0040 0100 0042 0000 0058 0041";
    fold("the line bit with D alone", 16, alone, 40, 0, 0, 14, alone);
    fold("D's pointer after a line", 16, line, 40, 0, 0, 22, line);
    fold("D's pointer written again after a line", 16,
         CLEAR_AT_8 "0040 0BFA 0042 0051 0058 0042 0040 0100 0042 0000 0054 0000 0056 0010 0058 0041", 40, 0, 0, 32,
         CLEAR_AT_8 "0040 0BFA 0042 0051 0058 0042 0040 0100 0042 0000 0054 0000 0056 0010"
         " 8000 0010 0000 0054 0000 0056 0012 C001");
    fold("a settled blit before a line, and one after it", 16,
         CLEAR_AT_8 "0058 0041 0040 0BFA 0042 0051 0058 0042 0040 0100 0042 0000 0054 0000 0056 0010 0058 0041", 50, 0, 0,
         40,
         CLEAR_AT_8 "8000 0010 0000 0054 0000 0056 0012 C001 0040 0BFA 0042 0051 0058 0042 0040 0100 0042 0000 0054 0000"
         " 0056 0010 8000 0010 0000 0054 0000 0056 0012 C001");
    fold("B's data after a line", 16, CLEAR_AT_8
         "0072 1234 0040 0BFA 0042 0051 0058 0042 0040 01CC 0042 0000 0054 0000 0056 0010 0058 0041", 40, 0, 0, 34,
         CLEAR_AT_8 "0072 1234 0040 0BFA 0042 0051 0058 0042 0040 01CC 0042 0000 0054 0000 0056 0010"
         " 8000 0010 1234 0054 0000 0056 0012 C000");
    fold("C's data after a line", 16, CLEAR_AT_8
         "0070 1234 0040 0BFA 0042 0051 0058 0042 0040 01AA 0042 0000 0054 0000 0056 0010 0058 0041", 40, 0, 0, 28,
         CLEAR_AT_8 "0070 1234 0040 0BFA 0042 0051 0058 0042 0040 01AA 0042 0000 0054 0000 0056 0010 0058 0041");
    fold("A's data after a line", 16, CLEAR_AT_8 "0044 FFFF 0046 FFFF "
         "0074 1234 0040 0BFA 0042 0051 0058 0042 0040 01F0 0042 0000 0054 0000 0056 0010 0058 0041", 40, 0, 0, 32,
         CLEAR_AT_8 "0044 FFFF 0046 FFFF "
         "0074 1234 0040 0BFA 0042 0051 0058 0042 0040 01F0 0042 0000 0054 0000 0056 0010 0058 0041");
    fold("SimpleLine", 20, SIMPLE_LINE "0058 04C2", 40, 0, 0, 32, SIMPLE_LINE "0058 04C2");
}

enum { OVER, USED, REFUSED };

/* Lines that a MOVE to 058 draws; the danger bit is set. The line rewrites the next instruction, or is refused. */
static void lists(void)
{
#define OF_LIST(con0, con1, at, d) con0 " " con1 " FFFF FFFF  0 " at " 0 0 0 8000 0 " d "  4 0 0 0  0 FFFF 8000  0002 "
    frame("a colour rewritten by a line", "0058 0082 0180 0110 FFFF FFFE", OF_LIST("EBFA", "0051", "6", "6") "0*33", 0, 0,
          0xFFFFFFFF, OVER, 0, 3, 6, 59474, "0058 0082 0180 0113 FFFF FFFE",
          OF_LIST("EBFA", "0051", "8", "8") "0113 0*32");
    frame("a line of width 1", "0180 0111 0058 0041", OF_LIST("EBFA", "0051", "6", "8") "0*33", 0, 0, 0xFFFFFFFF, REFUSED,
          18, 1, 2, 4, SAME, OF_LIST("EBFA", "0051", "6", "8") "0111 0*32");
    frame("a line without A", "0180 0111 0058 0042", OF_LIST("E3FA", "0051", "6", "6") "0*33", 0, 0, 0xFFFFFFFF, REFUSED,
          18, 1, 2, 4, SAME, OF_LIST("E3FA", "0051", "6", "6") "0111 0*32");
    frame("a line with C and D apart", "0180 0111 0058 0042", OF_LIST("EBFA", "0051", "6", "8") "0*33", 0, 0, 0xFFFFFFFF,
          REFUSED, 19, 1, 2, 4, SAME, OF_LIST("EBFA", "0051", "6", "8") "0111 0*32");
    frame("a line that leaves memory", "0180 0111 0058 00C2", OF_LIST("EBFA", "0051", "6", "6") "0*33", 0, 0, 0xFFFFFFFF,
          REFUSED, 16, 1, 2, 4, SAME, OF_LIST("EBFA", "0051", "6", "6") "0111 0*32");
    frame("a line without the danger bit", "0058 0042", "EBFA 0051 FFFF FFFF 0*49", 0, 0, 0xFFFFFFFF, REFUSED, 21, 0, 0, 0,
          SAME, SAME);
}

void lines(void)
{
    manuals();
    octants();
    ends_of_memory();
    round_or_not();
    longest();
    marks();
    textures();
    signs();
    flags_and_orders();
    widths_and_uses();
    orders();
    jobs();
    foldings_of_lines();
    lists();
}
