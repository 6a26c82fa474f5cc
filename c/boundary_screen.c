/* COPCON and the colours in the boundary test: jobs that write them, foldings, and old files widened. What each must give is
 * written out from paper 02, W7. */
#include <stdio.h>

#include "boundary.h"

#define ZEROS "0000*16"
#define ZERO_FILE "0000*53"
#define CLEAR_AT_8 "0040 0100 0042 0000 0054 0000 0056 0010 0066 0000 "

static void written(void)
{
    run("COPCON", ZEROS, ZERO_FILE, "002E 0002", 0, 0, 0, SAME, "0000*19 0002 0000*33");
    run("COPCON, all ones", ZEROS, ZERO_FILE, "002E FFFF", 0, 0, 0, SAME, "0000*19 0002 0000*33");
    run("COPCON, all but bit 1", ZEROS, "0000*19 0002 0000*33", "002E FFFD", 0, 0, 0, SAME, ZERO_FILE);
    run("colour 21", ZEROS, ZERO_FILE, "01AA 0ABC", 0, 0, 0, SAME, "0000*41 0ABC 0000*11");
    run("the flag and the last colour", ZEROS, ZERO_FILE, "C001 01BE F000", 0, 0, 0, SAME, "0000*52 0001");
    run("colours that stand already", ZEROS, "0000*19 0002 0FFF*32 0001", "0180 0123", 0, 0, 0, SAME,
        "0000*19 0002 0123 0FFF*31 0001");
}

/* Each colour with all bits set, alone, and in a file of zeros with one bit that it keeps and one that it doesn't. */
static void each_colour(void)
{
    for (int colour = 0; colour < 32; colour++) {
        char job[32], keeps[64], drops[64];
        sprintf(job, "%04X FFFF", 0x180u + 2 * (unsigned)colour);
        sprintf(keeps, "0000*%d 0FFF 0000*%d", 20 + colour, 32 - colour);
        sprintf(drops, "0000*%d 1000 0000*%d", 20 + colour, 32 - colour);
        run(job, ZEROS, ZERO_FILE, job, 0, 0, 0, SAME, keeps);
        run(keeps, ZEROS, keeps, "", 0, 0, 0, SAME, SAME);
        run(drops, ZEROS, drops, "", 2, 0, 0, SAME, SAME);
    }
}

static void no_steps(void)
{
    run("02C", ZEROS, ZERO_FILE, "C001 002C 0000", 4, 1, 0, SAME, "0000*52 0001");
    run("02D", ZEROS, ZERO_FILE, "C001 002D 0000", 4, 1, 0, SAME, "0000*52 0001");
    run("02F", ZEROS, ZERO_FILE, "C001 002F 0000", 4, 1, 0, SAME, "0000*52 0001");
    run("030", ZEROS, ZERO_FILE, "C001 0030 0000", 4, 1, 0, SAME, "0000*52 0001");
    run("17E", ZEROS, ZERO_FILE, "C001 017E 0000", 4, 1, 0, SAME, "0000*52 0001");
    run("181", ZEROS, ZERO_FILE, "C001 0181 0000", 4, 1, 0, SAME, "0000*52 0001");
    run("1BF", ZEROS, ZERO_FILE, "C001 01BF 0000", 4, 1, 0, SAME, "0000*52 0001");
    run("1C0", ZEROS, ZERO_FILE, "C001 01C0 0000", 4, 1, 0, SAME, "0000*52 0001");
    run("380", ZEROS, ZERO_FILE, "C001 0380 0000", 4, 1, 0, SAME, "0000*52 0001");
    run("180 cut off", ZEROS, ZERO_FILE, "C001 0180", 5, 1, 0, SAME, "0000*52 0001");
    run("02E cut off", ZEROS, ZERO_FILE, "C001 002E", 5, 1, 0, SAME, "0000*52 0001");
}

/* A blit neither reads nor changes them, done or refused. */
static void blitted(void)
{
    blit("colours of all ones", ZEROS, "01FF 0000*18 0002 0FFF*32 0000", 0x0042, 0, 2, "FFFF FFFF 0000*14",
         "01FF 0000*10 0004 0000*7 0002 0FFF*32 0000");
    blit("a clear with colours of all ones", "1111*16", "0100 0000*18 0002 0FFF*32 0000", 0x0042, 0, 2,
         "0000 0000 1111*14", "0100 0000*10 0004 0000*7 0002 0FFF*32 0001");
    blit("refused with colours of all ones", ZEROS, "01FF 0000*10 0020 0000*7 0002 0FFF*32 0001", 0x0041, 17, 0, SAME,
         SAME);
    run("colours between a blit's registers", "1111*16", ZERO_FILE,
        "0180 0F00 " CLEAR_AT_8 "01BE 00F0 0058 0042 002E 0002 0182 000F", 0, 0, 2, "1111*8 0000 0000 1111*6",
        "0100 0000*10 0014 0000*7 0002 0F00 000F 0000*29 00F0 0001");
}

/* A folding copies their writes with all bits, and knows the Blitter's registers as before. */
static void folded(void)
{
    fold("colours around a settled blit", 16, "0180 FFFF " CLEAR_AT_8 "002E FFFF 0058 0041 01BE 1234", 28, 0, 0, 24,
         "0180 FFFF " CLEAR_AT_8 "002E FFFF 8000 0010 0000 0054 0000 0056 0012 C001 01BE 1234");
    fold("colours around a kept blit", 9, CLEAR_AT_8 "0180 0F00 0058 0042 0180 000F 0058 0041", 28, 0, 0, 18,
         CLEAR_AT_8 "0180 0F00 0058 0042 0180 000F 0058 0041");
    fold("colours in a register's stead", 16, "0040 0100 0042 0000 0054 0000 0056 0010 0180 0000 0058 0041", 28, 0, 0, 12,
         "0040 0100 0042 0000 0054 0000 0056 0010 0180 0000 0058 0041");
    fold("17E at place 2", 16, "0180 0F00 017E 0000", 28, 4, 2, 0, "");
    fold("1BE cut off", 16, "0180 0F00 01BE", 28, 5, 2, 0, "");
}

#define OLD_FILE "09F0 F002 FFFF 00FF 7 FFFE 6 FFFC 5 FFFA 4 FFF8 8000 7FFE 2 FFFE 1234 5678 9ABC "

static void widened(void)
{
    widen("zeros", "0000*20", 53, 0, ZERO_FILE);
    widen("every register, flag 0", OLD_FILE "0", 53, 0, OLD_FILE "0*33 0");
    widen("every register, flag 1", OLD_FILE "1", 53, 0, OLD_FILE "0*33 1");
    widen("all kept bits", "FFFF*4 0007 FFFE 0007 FFFE 0007 FFFE 0007 FFFE*5 FFFF*3 0001", 53, 0,
          "FFFF*4 0007 FFFE 0007 FFFE 0007 FFFE 0007 FFFE*5 FFFF*3 0000*33 0001");
    widen("an old file of no words", "", 53, 2, "");
    widen("an old file of 19 words", "0000*19", 53, 2, "");
    widen("an old file of 21 words", "0000*21", 53, 2, "");
    widen("an old file of 53 words", ZERO_FILE, 53, 2, "");
    widen("a high half of 0008", "0000*4 0008 0000*15", 53, 2, "");
    widen("a low half of 0001", "0000*11 0001 0000*8", 53, 2, "");
    widen("a modulo of 0001", "0000*15 0001 0000*4", 53, 2, "");
    widen("a flag of 2", "0000*19 0002", 53, 2, "");
    widen("a flag of FFFF", "0000*19 FFFF", 53, 2, "");
    widen("a target of no words", "0000*20", 0, 20, "");
    widen("a target of 20 words", "0000*20", 20, 20, "");
    widen("a target of 52 words", OLD_FILE "1", 52, 20, "");
    widen("a target of 54 words", OLD_FILE "1", 54, 20, "");
    widen("both wrong: 2 comes first", "0000*19", 52, 2, "");
    widen("both of no words", "", 0, 2, "");
}

void screens(void)
{
    written();
    each_colour();
    no_steps();
    blitted();
    folded();
    widened();
}
