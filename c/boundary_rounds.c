/* Pointers that go round, in the boundary test: what blits, runs and foldings must say of them is written out from
 * paper 02, W12. Where *round must be 0 the call is blit, run or fold, where it must be 1 round_blit, round_run or
 * round_fold. */
#include "boundary.h"

#define ZEROS "0000*16"
#define ZERO_FILE "0000*53"
#define BLACK "0*33 "
#define MOST_RAM "0000*262144"

/* D alone with function FF. The pointer of D and its modulo, and the flag. */
#define UP(pointer, modulo, flag) "01FF 0000 0000 0000  0 0 0 0 0 0 " pointer "  0 0 0 " modulo "  0 0 0  " BLACK flag
#define DOWN(pointer, modulo, flag) "01FF 0002 0000 0000  0 0 0 0 0 0 " pointer "  0 0 0 " modulo "  0 0 0  " BLACK flag

/* Down from word 0 the row's one step goes to word 262,143, and the modulo of -2 words, taken away, to word 1. With one
 * row both moves come behind the last access. */
static void out_and_back(void)
{
    round_blit("down from word 0, led back by the modulo", ZEROS, DOWN("0 0", "FFFC", "1"), 0x0081, 0, 2,
               "FFFF FFFF 0000*14", DOWN("0 4", "FFFC", "0"));
    blit("the same, one row", ZEROS, DOWN("0 0", "FFFC", "1"), 0x0041, 0, 1, "FFFF 0000*15", DOWN("0 2", "FFFC", "0"));
    blit("the same from word 1, two rows", ZEROS, DOWN("0 2", "FFFC", "1"), 0x0081, 0, 2, "0 FFFF FFFF 0000*13",
         DOWN("0 6", "FFFC", "0"));
    round_blit("a row of three down to word 0, again", ZEROS, DOWN("0 4", "FFFA", "1"), 0x0083, 0, 6,
               "FFFF FFFF FFFF 0000*13", DOWN("0 4", "FFFA", "0"));
    blit("a row of three down to word 1, again", ZEROS, DOWN("0 6", "FFFA", "1"), 0x0083, 0, 6,
         "0 FFFF FFFF FFFF 0000*12", DOWN("0 6", "FFFA", "0"));
    round_blit("one word of memory, two rows", "0", DOWN("0 0", "FFFE", "1"), 0x0081, 0, 2, "FFFF",
               DOWN("0 0", "FFFE", "0"));
    blit("one word of memory, two rows upward", "0", UP("0 0", "FFFE", "1"), 0x0081, 0, 2, "FFFF",
         UP("0 0", "FFFE", "0"));
}

static void steps(void)
{
    round_blit("a row over the top", MOST_RAM, UP("7 FFFC", "0", "1"), 0x0043, 0, 3, "FFFF 0000*262141 FFFF FFFF",
               UP("0 2", "0", "0"));
    blit("a row up to the top", MOST_RAM, UP("7 FFFC", "0", "1"), 0x0042, 0, 2, "0000*262142 FFFF FFFF",
         UP("0 0", "0", "0"));
    round_blit("a row over the bottom", MOST_RAM, DOWN("0 2", "0", "1"), 0x0043, 0, 3, "FFFF FFFF 0000*262141 FFFF",
               DOWN("7 FFFC", "0", "0"));
    blit("a row down to the bottom", MOST_RAM, DOWN("0 2", "0", "1"), 0x0042, 0, 2, "FFFF FFFF 0000*262142",
         DOWN("7 FFFE", "0", "0"));
    round_blit("the step between two rows", MOST_RAM, UP("7 FFFE", "0", "1"), 0x0081, 0, 2, "FFFF 0000*262142 FFFF",
               UP("0 2", "0", "0"));
    round_blit("the last word after 64", MOST_RAM, UP("7 FF82", "0", "1"), 0x0040, 0, 64, "FFFF 0000*262080 FFFF*63",
               UP("0 2", "0", "0"));
    blit("64 words up to the top", MOST_RAM, UP("7 FF80", "0", "1"), 0x0040, 0, 64, "0000*262080 FFFF*64",
         UP("0 0", "0", "0"));
}

static void modulos(void)
{
    round_blit("the second row's step of three", MOST_RAM, UP("7 FFFC", "0", "1"), 0x00C1, 0, 3,
               "FFFF 0000*262141 FFFF FFFF", UP("0 2", "0", "0"));
    round_blit("the second row's modulo of three", MOST_RAM, UP("0 4", "FFFA", "1"), 0x00C1, 0, 3,
               "FFFF 0 FFFF 0000*262139 FFFF 0", UP("7 FFF8", "FFFA", "0"));
    round_blit("a negative modulo that crosses nought", MOST_RAM, UP("0 0", "FFFC", "1"), 0x0081, 0, 2,
               "FFFF 0000*262142 FFFF", UP("7 FFFC", "FFFC", "0"));
    blit("a negative modulo that comes to nought", MOST_RAM, UP("0 2", "FFFC", "1"), 0x0081, 0, 2,
         "FFFF FFFF 0000*262142", UP("7 FFFE", "FFFC", "0"));
    blit("a negative modulo that doesn't cross nought", ZEROS, UP("0 4", "FFFC", "1"), 0x00C1, 0, 3,
         "FFFF FFFF FFFF 0000*13", UP("7 FFFE", "FFFC", "0"));
    blit("the last row's modulo crosses nought", ZEROS, UP("0 0", "8000", "1"), 0x0041, 0, 1, "FFFF 0000*15",
         UP("7 8002", "8000", "0"));
    round_blit("a modulo over the top", MOST_RAM, UP("7 FFFC", "2", "1"), 0x0081, 0, 2, "FFFF 0000*262141 FFFF 0000",
               UP("0 4", "2", "0"));
    round_blit("a modulo over the top that memory hasn't", "0000*262143", UP("7 FFFC", "2", "1"), 0x0081, 0, 2,
               "FFFF 0000*262141 FFFF", UP("0 4", "2", "0"));
    blit("a modulo up to the top", MOST_RAM, UP("7 FFFA", "2", "1"), 0x0081, 0, 2, "0000*262141 FFFF 0000 FFFF",
         UP("0 2", "2", "0"));
    round_blit("the step over the top, led back by the modulo", MOST_RAM, UP("7 FFFE", "FFFE", "1"), 0x0081, 0, 2,
               "0000*262143 FFFF", UP("7 FFFE", "FFFE", "0"));
    round_blit("down, a modulo over the bottom", MOST_RAM, DOWN("0 2", "2", "1"), 0x0081, 0, 2,
               "0 FFFF 0000*262141 FFFF", DOWN("7 FFFA", "2", "0"));
    blit("down, a modulo to the bottom", MOST_RAM, DOWN("0 4", "2", "1"), 0x0081, 0, 2, "FFFF 0 FFFF 0000*262141",
         DOWN("7 FFFC", "2", "0"));
    round_blit("a modulo of 8000 down", MOST_RAM, UP("0 7FFC", "8000", "1"), 0x0081, 0, 2,
               "0000*16382 FFFF 0000*245760 FFFF", UP("7 8000", "8000", "0"));
    blit("a modulo of 8000 down to nought", MOST_RAM, UP("0 7FFE", "8000", "1"), 0x0081, 0, 2,
         "FFFF 0000*16382 FFFF 0000*245760", UP("7 8002", "8000", "0"));
}

/* Any used channel counts. The pointers of C, B, A and D stand in the middle of each file. */
static void channels(void)
{
    round_blit("A alone goes round, D doesn't", MOST_RAM, "09F0 0000 FFFF FFFF  0 0 0 0 7 FFFE 0 8  0000*40 0",
               0x0042, 0, 2, SAME, "09F0 0000 FFFF FFFF  0 0 0 0 0 2 0 C  0000*40 1");
    round_blit("D goes round, A doesn't", MOST_RAM, "09F0 0000 FFFF FFFF  0 0 0 0 0 8 7 FFFE  0000*40 0",
               0x0042, 0, 2, SAME, "09F0 0000 FFFF FFFF  0 0 0 0 0 C 0 2  0000*40 1");
    round_blit("B alone, D not used", MOST_RAM, "0400 0000 0000 0000  0 0 7 FFFE 0 0 0 0  0000*40 0", 0x0042, 0, 0,
               SAME, "0400 0000 0000 0000  0 0 0 2 0 0 0 0  0000*40 1");
    round_blit("C alone, D not used", MOST_RAM, "0200 0000 0000 0000  7 FFFE 0 0 0 0 0 0  0000*40 0", 0x0042, 0, 0,
               SAME, "0200 0000 0000 0000  0 2 0 0 0 0 0 0  0000*40 1");
    round_blit("A alone in 16 words, D not used", ZEROS, "0800 0002 0000 0000  0 0 0 0 0 0 0 0  0 0 FFFC 0  0000*36 0",
               0x0081, 0, 0, SAME, "0800 0002 0000 0000  0 0 0 0 0 4 0 0  0 0 FFFC 0  0000*36 1");
    blit("all at the top, none used", MOST_RAM, "0000 0000 0000 0000  7 FFFE 7 FFFE 7 FFFE 7 FFFE  0000*40 0", 0x0082,
         0, 0, SAME, "0000 0000 0000 0000  7 FFFE 7 FFFE 7 FFFE 7 FFFE  0000*40 1");
    blit("all but D at the top, D alone used", MOST_RAM, "0100 0000 0000 0000  7 FFFE 7 FFFE 7 FFFE 0 0  0000*40 0",
         0x0082, 0, 4, SAME, "0100 0000 0000 0000  7 FFFE 7 FFFE 7 FFFE 0 8  0000*40 1");
    blit("D at the top, A alone used", MOST_RAM, "0800 0000 0000 0000  0 0 0 0 0 0 7 FFFE  0000*40 0", 0x0082, 0, 0,
         SAME, "0800 0000 0000 0000  0 0 0 0 0 8 7 FFFE  0000*40 1");
}

/* A blit that is refused says nothing of its pointers. */
static void refused(void)
{
    blit("no memory", "", DOWN("0 0", "FFFC", "1"), 0x0081, 1, 0, SAME, SAME);
    blit("too much memory", "0000*262145", UP("7 FFFC", "0", "1"), 0x0043, 1, 0, SAME, SAME);
    blit("a bad file", ZEROS, DOWN("0 0", "FFFC", "2"), 0x0081, 2, 0, SAME, SAME);
    blit("a row over the top of one word less", "0000*262143", UP("7 FFFC", "0", "1"), 0x0043, 17, 0, SAME, SAME);
    blit("round, back and then outside", ZEROS, DOWN("0 0", "FFF0", "1"), 0x0101, 17, 0, SAME, SAME);
    blit("both fills", ZEROS, "01FF 001A 0000*10 0000*3 FFFC 0000*36 1", 0x0081, 8, 0, SAME, SAME);
}

/* D alone, function 00, up from words 262,143 and 262,142. */
#define UP_FROM_7FFFE "0040 0100 0042 0000 0054 0007 0056 FFFE 0066 0000 "
#define UP_FROM_7FFFC "0040 0100 0042 0000 0054 0007 0056 FFFC 0066 0000 "
/* The same down from word 0, modulo -4: with 0081 it goes round, with 0041 it doesn't. */
#define DOWN_FROM_0 "0040 0100 0042 0002 0054 0000 0056 0000 0066 FFFC "
/* What it leaves in the file. */
#define FILE_AFTER(low) "0100 0002 0000*8 0 " low " 0 0 0 FFFC 0000*36 1"

static void runs_round(void)
{
    round_run("down from word 0, two rows", "1111*16", ZERO_FILE, DOWN_FROM_0 "0058 0081", 0, 0, 2, "0 0 1111*14",
              FILE_AFTER("4"));
    run("one row", "1111*16", ZERO_FILE, DOWN_FROM_0 "0058 0041", 0, 0, 1, "0 1111*15", FILE_AFTER("2"));
    run("one row twice: between two blits nothing counts", "1111*16", ZERO_FILE,
        DOWN_FROM_0 "0058 0041 0056 0000 0058 0041", 0, 0, 2, "0 1111*15", FILE_AFTER("2"));
    round_run("a yes stays when a later step is refused", "1111*16", ZERO_FILE,
              DOWN_FROM_0 "0058 0081 8000 0020 0000", 10, 12, 2, "0 0 1111*14", FILE_AFTER("4"));
    round_run("a yes stays when a later word begins no step", "1111*16", ZERO_FILE, DOWN_FROM_0 "0058 0081 0041", 4, 12,
              2, "0 0 1111*14", FILE_AFTER("4"));
    round_run("a yes stays when a later blit is refused", "1111*16", ZERO_FILE,
              DOWN_FROM_0 "0058 0081 0056 001E 0058 0081", 17, 14, 2, "0 0 1111*14", FILE_AFTER("1E"));
    round_run("a yes stays when a later blit doesn't go round", "1111*16", ZERO_FILE,
              DOWN_FROM_0 "0058 0081 0056 0010 0058 0041", 0, 0, 3, "0 0 1111*6 0 1111*7", FILE_AFTER("12"));
    round_run("the second of two blits", "1111*16", ZERO_FILE, DOWN_FROM_0 "0058 0041 0056 0000 0058 0081", 0, 0, 3,
              "0 0 1111*14", FILE_AFTER("4"));
    round_run("a yes stays behind a store and a flag", "1111*16", ZERO_FILE,
              DOWN_FROM_0 "0058 0081 8000 0010 2222 C001 C000", 0, 0, 3, "0 0 1111*6 2222 1111*7",
              "0100 0002 0000*8 0 4 0 0 0 FFFC 0000*37");
    run("refused before it goes round", "1111*16", ZERO_FILE, DOWN_FROM_0 "0041 0058 0081", 4, 10, 0, SAME,
        "0100 0002 0000*8 0 0 0 0 0 FFFC 0000*37");
    run("refused while it would go round", "1111", ZERO_FILE, DOWN_FROM_0 "0058 0081", 17, 10, 0, SAME,
        "0100 0002 0000*8 0 0 0 0 0 FFFC 0000*37");
    run("no memory", "", ZERO_FILE, DOWN_FROM_0 "0058 0081", 1, 0, 0, SAME, SAME);
    run("a bad file", "1111*16", "0000*52 0002", DOWN_FROM_0 "0058 0081", 2, 0, 0, SAME, SAME);
    run("a job of 4,097 words", "1111*16", ZERO_FILE, DOWN_FROM_0 "0058 0081 C000*4085", 3, 0, 0, SAME, SAME);
    run("stores at both ends", MOST_RAM, ZERO_FILE, "8007 FFFE 1234 8000 0000 5678", 0, 0, 2, "5678 0000*262142 1234",
        SAME);
    round_run("a line over the top", MOST_RAM, ZERO_FILE,
              "0040 FBFA 0042 0051 0044 FFFF 0048 0007 004A FFFE 0054 0007 0056 FFFE 0052 8000 0074 8000 0058 0082",
              0, 0, 2, "8000 0000*262142 0001", "FBFA 0051 FFFF 0  0 0 0 0 0 8000 0 0  0 0 0 0  0 0 8000  " BLACK "0");
}

#define KEPT(job) job, 40, 0, 0

static void foldings_round(void)
{
    round_fold("down from word 0, two rows: kept", 16, KEPT(DOWN_FROM_0 "0058 0081"), 12, DOWN_FROM_0 "0058 0081");
    fold("one row: settled", 16, KEPT(DOWN_FROM_0 "0058 0041"), 18,
         DOWN_FROM_0 "8000 0000 0000 0054 0000 0056 0002 C001");
    round_fold("a row over the top: kept", 262144, KEPT(UP_FROM_7FFFE "0058 0042"), 12, UP_FROM_7FFFE "0058 0042");
    fold("a row up to the top: settled", 262144, KEPT(UP_FROM_7FFFC "0058 0042"), 21,
         UP_FROM_7FFFC "8007 FFFC 0000 8007 FFFE 0000 0054 0000 0056 0000 C001");
    fold("over the top of one word less: kept because it is refused", 262143, KEPT(UP_FROM_7FFFE "0058 0042"), 12,
         UP_FROM_7FFFE "0058 0042");
    fold("kept for its unknown modulo too", 16, KEPT("0040 0100 0042 0002 0054 0000 0056 0000 0058 0081"), 10,
         "0040 0100 0042 0002 0054 0000 0056 0000 0058 0081");
    fold("kept for its function too", 16, KEPT(DOWN_FROM_0 "0040 01CC 0058 0081"), 14,
         DOWN_FROM_0 "0040 01CC 0058 0081");
    fold("kept for its source too", 16, KEPT(DOWN_FROM_0 "0040 0900 0058 0081"), 14,
         DOWN_FROM_0 "0040 0900 0058 0081");
    fold("kept for a channel that isn't D", 16, KEPT(DOWN_FROM_0 "0040 0800 0058 0081"), 14,
         DOWN_FROM_0 "0040 0800 0058 0081");
    fold("kept for its 65 rows too", 128, KEPT(DOWN_FROM_0 "0066 FFFE 0058 1041"), 14,
         DOWN_FROM_0 "0066 FFFE 0058 1041");
    round_fold("64 rows: kept for that alone", 128, KEPT(DOWN_FROM_0 "0066 FFFE 0058 1001"), 14,
               DOWN_FROM_0 "0066 FFFE 0058 1001");
    fold("a line", 262144, KEPT(UP_FROM_7FFFE "0042 0003 0058 0042"), 14, UP_FROM_7FFFE "0042 0003 0058 0042");
    round_fold("after it the pointer isn't known", 16, KEPT(DOWN_FROM_0 "0058 0081 0058 0041"), 14,
               DOWN_FROM_0 "0058 0081 0058 0041");
    round_fold("after it the pointer is written again", 16,
               KEPT(DOWN_FROM_0 "0058 0081 0054 0000 0056 0004 0058 0041"), 24,
               DOWN_FROM_0 "0058 0081 0054 0000 0056 0004 8000 0004 0000 0054 0000 0056 0006 C001");
    round_fold("behind a settled one", 16, KEPT(DOWN_FROM_0 "0058 0041 0056 0000 0058 0081"), 22,
               DOWN_FROM_0 "8000 0000 0000 0054 0000 0056 0002 C001 0056 0000 0058 0081");
    round_fold("where a settled one leaves the pointer", 262144,
               KEPT(UP_FROM_7FFFC "0058 0041 0058 0042"), 20,
               UP_FROM_7FFFC "8007 FFFC 0000 0054 0007 0056 FFFE C001 0058 0042");
}

/* A refused folding says nothing of the blits before. */
static void foldings_refused(void)
{
    fold("no step behind it", 16, DOWN_FROM_0 "0058 0081 0041", 40, 4, 12, 0, "");
    fold("cut off behind it", 16, DOWN_FROM_0 "0058 0081 0040", 40, 5, 12, 0, "");
    fold("an odd store behind it", 16, DOWN_FROM_0 "0058 0081 8000 0001 0000", 40, 6, 12, 0, "");
    fold("an output too short", 16, DOWN_FROM_0 "0058 0081", 11, 11, 0, 0, "");
    round_fold("an output just long enough", 16, DOWN_FROM_0 "0058 0081", 12, 0, 0, 12, DOWN_FROM_0 "0058 0081");
    fold("a job of 4,097 words", 16, DOWN_FROM_0 "0058 0081 C000*4085", 40, 3, 0, 0, "");
    fold("N 0", 0, DOWN_FROM_0 "0058 0081", 40, 1, 0, 0, "");
    fold("N 262145", 262145, DOWN_FROM_0 "0058 0081", 40, 1, 0, 0, "");
}

void rounds(void)
{
    out_and_back();
    steps();
    modulos();
    channels();
    refused();
    runs_round();
    foldings_round();
    foldings_refused();
}
