/* Copper lists in the boundary test. What each frame must give is written out from paper 02, W8, and paper 01's rules for
 * the Copper. A place of the beam is line x 227 + position: line 150 begins at 34,050, line 255 at 57,885, line 256 at
 * 58,112, line 261 at 59,247, and the frame is over at 59,474. */
#include <stdio.h>

#include "boundary.h"

#define ZERO_FILE "0000*53"
#define DANGER "0000*19 0002 0000*33"
#define BLACK "0*32 "
#define STOP "FFFF FFFE "

enum { OVER, USED, REFUSED };

static const uint32_t all = 0xFFFFFFFF, end = 59474;

static void lengths(void)
{
    frame("no memory", "", ZERO_FILE, 0, 0, all, REFUSED, 1, 0, 0, 0, SAME, SAME);
    frame("no memory, nothing lent, the frame over", "", ZERO_FILE, all, 5, 0, REFUSED, 1, 0, 0, all, SAME, SAME);
    frame("one word past the longest memory", "FFFF*262145", ZERO_FILE, 0, 0, all, REFUSED, 1, 0, 0, 0, SAME, SAME);
    frame("no memory and no file", "", "", 0, 0, all, REFUSED, 1, 0, 0, 0, SAME, SAME);
    frame("no file", "0000*16", "", 0, 0, all, REFUSED, 2, 0, 0, 0, SAME, SAME);
    frame("a file of 20 words", "0000*16", "0000*20", 0, 0, all, REFUSED, 2, 0, 0, 0, SAME, SAME);
    frame("a file of 52 words", "0000*16", "0000*52", 0, 0, all, REFUSED, 2, 0, 0, 0, SAME, SAME);
    frame("a file of 54 words", "0000*16", "0000*54", 0, 0, all, REFUSED, 2, 0, 0, 0, SAME, SAME);
    frame("a file of all ones", "0000*16", "FFFF*53", 0, 0, all, REFUSED, 2, 0, 0, 0, SAME, SAME);
    frame("COPCON 0001, start at N", "0000*16", "0000*19 0001 0000*33", 7, 16, all, REFUSED, 2, 0, 0, 7, SAME, SAME);
    frame("a flag of 2, nothing lent", "0000*16", "0000*52 0002", 0, 3, 0, REFUSED, 2, 0, 0, 0, SAME, SAME);
    frame("a flag of 2, the frame over", STOP, "0000*52 0002", end, 0, all, REFUSED, 2, 0, 0, end, SAME, SAME);
    frame("one word of memory", "FFFF", ZERO_FILE, 0, 0, all, REFUSED, 23, 0, 0, 0, SAME, SAME);
    frame("two words of memory", STOP, ZERO_FILE, 0, 0, all, OVER, 0, 1, 2, end, SAME, SAME);
    frame("the end of the longest memory", "0000*262142 " STOP, ZERO_FILE, 0, 262142, all, OVER, 0, 1, 262144, end,
          SAME, SAME);
    frame("the last word of the longest memory", "FFFF*262144", ZERO_FILE, 0, 262143, all, REFUSED, 23, 0, 262143, 0,
          SAME, SAME);
    /* FFFF FFFF is a SKIP that is never satisfied: 14,868 of them come to place 59,472, and one more starts there */
    frame("the longest memory, all ones", "FFFF*262144", ZERO_FILE, 0, 0, all, OVER, 0, 14869, 29738, 59476, SAME, SAME);
    frame("the same, one instruction less", "FFFF*262144", ZERO_FILE, 0, 0, 14868, USED, 0, 14868, 29736, 59472,
          SAME, SAME);
    frame("sixteen words, all ones", "FFFF*16", ZERO_FILE, 0, 0, all, REFUSED, 23, 8, 16, 32, SAME, SAME);
    frame("sixteen words, all zeros", "0000*16", ZERO_FILE, 0, 0, all, REFUSED, 21, 0, 0, 0, SAME, SAME);
    frame("a file of all kept bits", "0180 0123 " STOP,
          "FFFF*4 0007 FFFE 0007 FFFE 0007 FFFE 0007 FFFE*5 FFFF*3 0002 0FFF*32 0001", 0, 0, all, OVER, 0, 2, 4, end, SAME,
          "FFFF*4 0007 FFFE 0007 FFFE 0007 FFFE 0007 FFFE*5 FFFF*3 0002 0123 0FFF*31 0001");
}

static void starts(void)
{
    frame("start at N - 2", "0000*14 0180 0FFF", ZERO_FILE, 0, 14, all, REFUSED, 23, 1, 16, 4, SAME,
          "0000*20 0FFF 0000*32");
    frame("start at N - 2, one lent", "0000*14 0180 0FFF", ZERO_FILE, 0, 14, 1, USED, 0, 1, 16, 4, SAME,
          "0000*20 0FFF 0000*32");
    frame("start at N - 1", "0000*15 0180", ZERO_FILE, 0, 15, all, REFUSED, 23, 0, 15, 0, SAME, SAME);
    frame("start at N", "0180*16", ZERO_FILE, 0, 16, all, REFUSED, 23, 0, 16, 0, SAME, SAME);
    frame("start at 2^32 - 1", "0180*16", ZERO_FILE, 0, all, all, REFUSED, 23, 0, all, 0, SAME, SAME);
    frame("start at 2^32 - 2", "0180*16", ZERO_FILE, 0, all - 1, all, REFUSED, 23, 0, all - 1, 0, SAME, SAME);
    frame("start at 2^32 - 1, none lent", "0180*16", ZERO_FILE, 0, all, 0, USED, 0, 0, all, 0, SAME, SAME);
    frame("start at 2^32 - 1, the frame over", "0180*16", ZERO_FILE, end, all, all, OVER, 0, 0, all, end, SAME, SAME);
    frame("start at an odd word", "0000 0180 0123 " STOP, ZERO_FILE, 0, 1, all, OVER, 0, 2, 5, end, SAME,
          "0000*20 0123 0000*32");
    frame("a WAIT whose second word is at N", "0180 0111 0001", ZERO_FILE, 0, 0, all, REFUSED, 23, 1, 2, 4, SAME,
          "0000*20 0111 0000*32");
}

/* End of frame, else number used up, else refusal. */
static void ends(void)
{
    frame("none lent", "0180 0FFF", ZERO_FILE, 0, 0, 0, USED, 0, 0, 0, 0, SAME, SAME);
    frame("none lent, a refusal next", "0000 0000", ZERO_FILE, 0, 0, 0, USED, 0, 0, 0, 0, SAME, SAME);
    frame("none lent, start at N", "0000*16", ZERO_FILE, 0, 16, 0, USED, 0, 0, 16, 0, SAME, SAME);
    frame("none lent, the last place", "0000*16", ZERO_FILE, end - 1, 0, 0, USED, 0, 0, 0, end - 1, SAME, SAME);
    frame("none lent, the frame over", "0000*16", ZERO_FILE, end, 0, 0, OVER, 0, 0, 0, end, SAME, SAME);
    frame("the frame over, a refusal next", "0000*16", ZERO_FILE, all, 0, all, OVER, 0, 0, 0, all, SAME, SAME);
    frame("used up by the one that ends the frame", STOP, ZERO_FILE, 0, 0, 1, OVER, 0, 1, 2, end, SAME, SAME);
    frame("used up, a refusal next", "0180 0111 0000 0000", ZERO_FILE, 0, 0, 1, USED, 0, 1, 2, 4, SAME,
          "0000*20 0111 0000*32");
    frame("one more, refused", "0180 0111 0000 0000", ZERO_FILE, 0, 0, 2, REFUSED, 21, 1, 2, 4, SAME,
          "0000*20 0111 0000*32");
    frame("the frame ends, a refusal next", STOP "0000 0000", ZERO_FILE, 0, 0, all, OVER, 0, 1, 2, end, SAME, SAME);
    frame("a MOVE at line 261, position 224", "FFDF FFFE 05E1 FFFE 0180 0123 0000 0000", ZERO_FILE, 0, 0, all, OVER, 0, 3,
          6, 59475, SAME, "0000*20 0123 0000*32");
    frame("a MOVE at the last place", "0180 0123 0000 0000", ZERO_FILE, end - 1, 0, all, OVER, 0, 1, 2, 59477, SAME,
          "0000*20 0123 0000*32");
    frame("a refused MOVE at the last place", "017E 0123", ZERO_FILE, end - 1, 0, all, REFUSED, 22, 0, 0, end - 1, SAME,
          SAME);
    frame("a SKIP at the last place", "0001 FFFF", ZERO_FILE, end - 1, 0, all, OVER, 0, 1, 4, 59477, SAME, SAME);
    frame("a WAIT at the last place", "0001 FFFE", ZERO_FILE, end - 1, 0, all, OVER, 0, 1, 2, 59479, SAME, SAME);
    frame("a WAIT six before the end", "0001 FFFE", ZERO_FILE, end - 6, 0, all, OVER, 0, 1, 2, end, SAME, SAME);
    frame("a WAIT seven before the end", "0001 FFFE 0182 0456", ZERO_FILE, end - 7, 0, all, OVER, 0, 2, 4, 59477, SAME,
          "0000*21 0456 0000*31");
}

static void waits(void)
{
    frame("satisfied where it starts, not six on", "00E1 FFFE 00E1 80FE", ZERO_FILE, 0, 0, 2, USED, 0, 2, 4, 451, SAME,
          SAME);
    frame("satisfied six on", "0007 FFFE", ZERO_FILE, 0, 0, 1, USED, 0, 1, 2, 6, SAME, SAME);
    frame("satisfied eight on", "0009 FFFE", ZERO_FILE, 0, 0, 1, USED, 0, 1, 2, 8, SAME, SAME);
    frame("line 0, position 226", "00E3 FFFE", ZERO_FILE, 0, 0, 1, USED, 0, 1, 2, 226, SAME, SAME);
    frame("a position that no line has", "00E5 FFFE", ZERO_FILE, 0, 0, 1, USED, 0, 1, 2, 227, SAME, SAME);
    frame("line 150", "9601 FF00", ZERO_FILE, 0, 0, 1, USED, 0, 1, 2, 34050, SAME, SAME);
    frame("line 150, bit 15 of the mask clear", "9601 7F00", ZERO_FILE, 0, 0, 1, USED, 0, 1, 2, 34050, SAME, SAME);
    frame("an empty mask keeps bit 15", "8001 0000", ZERO_FILE, 0, 0, 1, USED, 0, 1, 2, 29056, SAME, SAME);
    frame("an empty mask, bit 15 clear", "7FFF 0000", ZERO_FILE, 0, 0, 1, USED, 0, 1, 2, 6, SAME, SAME);
    frame("line 15 of sixteen", "0F01 8F00 0F01 8F00", ZERO_FILE, 0, 0, 2, USED, 0, 2, 4, 3411, SAME, SAME);
    frame("line 255, then line 256 as 0", "FFDF FFFE 0001 FFFE", ZERO_FILE, 0, 0, 2, USED, 0, 2, 4, 58113, SAME, SAME);
    frame("line 255, then line 258 as 2", "FFDF FFFE 0201 FFFE", ZERO_FILE, 0, 0, 2, USED, 0, 2, 4, 58566, SAME, SAME);
    frame("line 255, then line 6 that never comes", "FFDF FFFE 0601 FFFE", ZERO_FILE, 0, 0, 2, OVER, 0, 2, 4, end, SAME,
          SAME);
    frame("line 255 once it has passed", "FFE1 FFFE", ZERO_FILE, 58112, 0, all, OVER, 0, 1, 2, end, SAME, SAME);
    frame("line 255, its last place six on", "FFE3 FFFE", ZERO_FILE, 58105, 0, 1, USED, 0, 1, 2, 58111, SAME, SAME);
}

static void skips(void)
{
    frame("satisfied", "0001 FFFF 0180 0111 0182 0222 " STOP, ZERO_FILE, 0, 0, all, OVER, 0, 3, 8, end, SAME,
          "0000*21 0222 0000*31");
    frame("satisfied, as many lent as are counted", "0001 FFFF 0180 0111 0182 0222 0000 0000", ZERO_FILE, 0, 0, 2, USED, 0,
          2, 6, 8, SAME, "0000*21 0222 0000*31");
    frame("not satisfied", "0101 FFFF 0180 0111 " STOP, ZERO_FILE, 0, 0, all, OVER, 0, 3, 6, end, SAME,
          "0000*20 0111 0000*32");
    frame("compares where it starts, one place early", "0005 FFFF 0180 0111 " STOP, ZERO_FILE, 3, 0, 2, USED, 0, 2, 4, 11,
          SAME, "0000*20 0111 0000*32");
    frame("compares where it starts", "0005 FFFF 0180 0111 0182 0222", ZERO_FILE, 4, 0, 2, USED, 0, 2, 6, 12, SAME,
          "0000*21 0222 0000*31");
    frame("passes over a forbidden MOVE", "0001 FFFF 0000 0000 " STOP, ZERO_FILE, 0, 0, all, OVER, 0, 2, 6, end, SAME,
          SAME);
    frame("passes over a WAIT", "0001 FFFF " STOP "0180 0111 0000 0000", ZERO_FILE, 0, 0, all, REFUSED, 21, 2, 6, 8, SAME,
          "0000*20 0111 0000*32");
    frame("passes over a SKIP", "0001 FFFF 0001 FFFF 0180 0111", ZERO_FILE, 0, 0, 2, USED, 0, 2, 6, 8, SAME,
          "0000*20 0111 0000*32");
    frame("at N - 2, satisfied", "0180 0111 0001 FFFF", ZERO_FILE, 0, 0, all, REFUSED, 23, 2, 6, 8, SAME,
          "0000*20 0111 0000*32");
    frame("at N - 2, satisfied, two lent", "0180 0111 0001 FFFF", ZERO_FILE, 0, 0, 2, USED, 0, 2, 6, 8, SAME,
          "0000*20 0111 0000*32");
    frame("at N - 2, not satisfied", "0180 0111 0101 FFFF", ZERO_FILE, 0, 0, all, REFUSED, 23, 2, 4, 8, SAME,
          "0000*20 0111 0000*32");
    frame("passes over the first word behind memory", "0001 FFFF 0180", ZERO_FILE, 0, 0, all, REFUSED, 23, 1, 4, 4, SAME,
          SAME);
    frame("line 256 as 0", "0101 FFFF 0180 0111", ZERO_FILE, 58112, 0, 2, USED, 0, 2, 4, 58120, SAME,
          "0000*20 0111 0000*32");
}

/* What a MOVE to an offset gives: 0 where it is done. */
static uint32_t number_of(unsigned offset, int danger)
{
    if (offset < 0x040 || (offset < 0x080 && !danger))
        return 21;
    if (offset <= 0x058 || (offset >= 0x060 && offset <= 0x066) || (offset >= 0x070 && offset <= 0x074))
        return 0;
    return offset >= 0x180 && offset <= 0x1BE ? 0 : 22;
}

/* A zero to each offset, with and without the danger bit. Bits 15 to 9 are set in every other one, and have no effect.
 * 058 does a blit of 1,024 rows of 64 words that uses no channel, and sets the flag. */
static void each_offset(void)
{
    for (unsigned offset = 0; offset < 0x200; offset += 2)
        for (int danger = 0; danger < 2; danger++) {
            char list[32];
            const char *before = danger ? DANGER : ZERO_FILE;
            uint32_t number = number_of(offset, danger), done = number == 0;
            sprintf(list, "%04X 0000 0000", offset | (offset & 2 ? 0xFE00 : 0));
            frame(list, list, before, 0, 0, 1, done ? USED : REFUSED, number, done, 2 * done, 4 * done, SAME,
                  danger && offset == 0x058 ? "0000*19 0002 0000*32 0001" : before);
        }
}

static void moves(void)
{
    frame("the kept bits of a colour", "0180 FFFF 01BE F00F " STOP, ZERO_FILE, 0, 0, all, OVER, 0, 3, 6, end, SAME,
          "0000*20 0FFF 0000*30 000F 0000");
    frame("the kept bits of the Blitter's registers", "0042 FFFF 0054 FFFF 0056 FFFF 0066 FFFF 0074 FFFF " STOP, DANGER, 0,
          0, all, OVER, 0, 6, 12, end, SAME, "0000 FFFF 0000*8 0007 FFFE 0000*3 FFFE 0000*2 FFFF 0002 0000*33");
    frame("COPCON, danger or not", "002E 0000", DANGER, 0, 0, all, REFUSED, 21, 0, 0, 0, SAME, SAME);
    frame("first words of a job's steps", "8000 0000 0000", DANGER, 0, 0, all, REFUSED, 21, 0, 0, 0, SAME, SAME);
    frame("a flag step of a job", "C000 0000", DANGER, 0, 0, all, REFUSED, 21, 0, 0, 0, SAME, SAME);
}

/* A file: control and masks, the pointers of C, B, A and D, their modulos, the data of C, B and A, COPCON, the colours, the
 * flag. */
static void blits_of_lists(void)
{
    frame("a clear", "0058 0042 " STOP "1111*4",
          "0100 0 0 0  0 0 0 0 0 0 0 A  0 0 0 0  0 0 0  2 " BLACK "0", 0, 0, all, OVER, 0, 2, 4, end,
          "0058 0042 " STOP "1111 0 0 1111", "0100 0 0 0  0 0 0 0 0 0 0 E  0 0 0 0  0 0 0  2 " BLACK "1");
    frame("the next instruction rewritten", "0058 0042 0180 0111 " STOP "0182 0222",
          "09F0 0 FFFF FFFF  0 0 0 0 0 C 0 4  0 0 0 0  0 0 0  2 " BLACK "0", 0, 0, all, OVER, 0, 3, 6, end,
          "0058 0042 0182 0222 " STOP "0182 0222",
          "09F0 0 FFFF FFFF  0 0 0 0 0 10 0 8  0 0 0 0  0 0 222  2 0 222 0*30 0");
    frame("the next one's second word rewritten", "0058 0041 0180 0111 " STOP "0333",
          "09F0 0 FFFF FFFF  0 0 0 0 0 C 0 6  0 0 0 0  0 0 0  2 " BLACK "0", 0, 0, all, OVER, 0, 3, 6, end,
          "0058 0041 0180 0333 " STOP "0333",
          "09F0 0 FFFF FFFF  0 0 0 0 0 E 0 8  0 0 0 0  0 0 333  2 333 0*31 0");
    frame("the blit's own MOVE rewritten, behind the Copper", "0058 0042 " STOP,
          "0100 0 0 0  0 0 0 0 0 0 0 0  0 0 0 0  0 0 0  2 " BLACK "0", 0, 0, all, OVER, 0, 2, 4, end,
          "0000 0000 " STOP, "0100 0 0 0  0 0 0 0 0 0 0 4  0 0 0 0  0 0 0  2 " BLACK "1");
    frame("the list's end cleared ahead of the Copper", "0058 0042 " STOP,
          "0100 0 0 0  0 0 0 0 0 0 0 4  0 0 0 0  0 0 0  2 " BLACK "0", 0, 0, all, REFUSED, 21, 1, 2, 4,
          "0058 0042 0 0", "0100 0 0 0  0 0 0 0 0 0 0 8  0 0 0 0  0 0 0  2 " BLACK "1");
    frame("a WAIT becomes a SKIP", "0058 0041 0001 FFFE 0180 0111 0182 0222",
          "01FF 0 0 0  0 0 0 0 0 0 0 6  0 0 0 0  0 0 0  2 " BLACK "1", 0, 0, 3, USED, 0, 3, 8, 12,
          "0058 0041 0001 FFFF 0180 0111 0182 0222",
          "01FF 0 0 0  0 0 0 0 0 0 0 8  0 0 0 0  0 0 0  2 0 222 0*30 0");
    frame("its registers written by the list, D at N", "0040 01FF 0056 0010 0058 0041 " STOP, DANGER, 0, 0, all, REFUSED,
          17, 2, 4, 8, SAME, "01FF 0000*10 0010 0000*7 0002 0000*33");
    frame("the same, D at N - 1", "0040 01FF 0056 000E 0058 0041 " STOP, DANGER, 0, 0, all, REFUSED, 23, 4, 8, 16,
          "0040 01FF 0056 000E 0058 0041 FFFF FFFF", "01FF 0000*10 0010 0000*7 0002 0000*33");
}

/* Pointers and control as in the blits of boundary_cases.c, in the order of the numbers; the MOVE before stands. */
static void refused_blits(void)
{
    static const struct { const char *name, *control; uint32_t number; } cases[] = {
        {"line, both fills, outside", "0F00 0019 0 0  0 20 0 20 0 20 0 20", 18},
        {"both fills, outside", "0F00 0018 0 0  0 20 0 20 0 20 0 20", 8},
        {"fill upward, outside", "0F00 0008 0 0  0 20 0 20 0 20 0 20", 9},
        {"all channels outside", "0F00 0000 0 0  0 20 0 20 0 20 0 20", 14},
        {"B, C and D outside", "0F00 0000 0 0  0 20 0 20 0 0 0 20", 15},
        {"C and D outside", "0F00 0000 0 0  0 20 0 0 0 0 0 20", 16},
        {"D outside", "0F00 0000 0 0  0 0 0 0 0 0 0 20", 17}
    };
    for (size_t i = 0; i < sizeof cases / sizeof *cases; i++) {
        char before[120], after[120];
        sprintf(before, "%s 0*7 0002 0*33", cases[i].control);
        sprintf(after, "%s 0*7 0002 0111 0*32", cases[i].control);
        frame(cases[i].name, "0180 0111 0058 0041 0000*12", before, 0, 0, all, REFUSED, cases[i].number, 1, 2, 4, SAME,
              after);
    }
}

/* 23, then 21, then 22, then the blit's own. */
static void order(void)
{
    frame("23 before 21", "0180 0111 0000", ZERO_FILE, 0, 0, all, REFUSED, 23, 1, 2, 4, SAME, "0000*20 0111 0000*32");
    frame("23 before 22", "0180 0111 01C0", ZERO_FILE, 0, 0, all, REFUSED, 23, 1, 2, 4, SAME, "0000*20 0111 0000*32");
    frame("23 before a line", "0058", "0100 0001 0000*17 0002 0000*33", 0, 0, all, REFUSED, 23, 0, 0, 0, SAME, SAME);
    frame("21 before 22", "005A 0000", ZERO_FILE, 0, 0, all, REFUSED, 21, 0, 0, 0, SAME, SAME);
    frame("22 with the danger bit", "005A 0000", DANGER, 0, 0, all, REFUSED, 22, 0, 0, 0, SAME, SAME);
    frame("21 before a line", "0058 0041", "0100 0001 0000*51", 0, 0, all, REFUSED, 21, 0, 0, 0, SAME, SAME);
    frame("a line with the danger bit", "0058 0041", "0100 0001 0000*17 0002 0000*33", 0, 0, all, REFUSED, 18, 0, 0,
          0, SAME, SAME);
}

void frames(void)
{
    lengths();
    starts();
    ends();
    waits();
    skips();
    each_offset();
    moves();
    blits_of_lists();
    refused_blits();
    order();
}
