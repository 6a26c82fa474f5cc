/* The calls of the boundary test. What each must give is written out from papers 01 and 02; the runs and foldings are
 * also those whose results the programs `runner_cases` and `folder_cases` print. */
#include "boundary.h"

#define ZEROS "0000*16"
#define ZERO_FILE "0000*53"
/* COPCON and the colours, between the Blitter's registers and the flag. */
#define BLACK "0*33 "
#define MOST_RAM "0000*262144"
#define OVER_RAM "0000*262145"

/* A file: control and masks, the pointers of C, B, A and D, their modulos, the data of C, B and A, COPCON and the colours,
 * the flag. */
static void blits_done(void)
{
    blit("the card's copy", "0 1 2 3 4 5 6 7",
         "09F0 0000 FFFF FFFF  0 0 0 0 0 2 0 8  0 0 0 0  0 0 0  " BLACK "0", 0x0043, 0, 3, "0 1 2 3 1 2 3 7",
         "09F0 0000 FFFF FFFF  0 0 0 0 0 8 0 E  0 0 0 0  0 0 3  " BLACK "0");
    blit("P1, shift 0", "1234 5678 0 0",
         "09F0 0000 FFFF FFFF  0 0 0 0 0 0 0 4  0 0 0 0  0 0 0  " BLACK "1", 0x0042, 0, 2, "1234 5678 1234 5678",
         "09F0 0000 FFFF FFFF  0 0 0 0 0 4 0 8  0 0 0 0  0 0 5678  " BLACK "0");
    blit("P2, ascending shift 4", "1234 5678 0 0",
         "49F0 0000 FFFF FFFF  0 0 0 0 0 0 0 4  0 0 0 0  0 0 0  " BLACK "0", 0x0042, 0, 2, "1234 5678 0123 4567",
         "49F0 0000 FFFF FFFF  0 0 0 0 0 4 0 8  0 0 0 0  0 0 5678  " BLACK "0");
    blit("P3, descending shift 4", "1234 5678 0 0",
         "49F0 0002 FFFF FFFF  0 0 0 0 0 2 0 6  0 0 0 0  0 0 0  " BLACK "0", 0x0042, 0, 2, "1234 5678 2345 6780",
         "49F0 0002 FFFF FFFF  0 0 0 0 7 FFFE 0 2  0 0 0 0  0 0 1234  " BLACK "0");
    blit("P4, function CA on data registers", "0",
         "01CA 0000 FFFF FFFF  0 0 0 0 0 0 0 0  0 0 0 0  5678 1234 FF00  " BLACK "1", 0x0041, 0, 1, "1278",
         "01CA 0000 FFFF FFFF  0 0 0 0 0 0 0 2  0 0 0 0  5678 1234 FF00  " BLACK "0");
    blit("P5, inclusive fill", "2418 0",
         "09F0 000A FFFF FFFF  0 0 0 0 0 0 0 2  0 0 0 0  0 0 0  " BLACK "0", 0x0041, 0, 1, "2418 3C18",
         "09F0 000A FFFF FFFF  0 0 0 0 7 FFFE 0 0  0 0 0 0  0 0 2418  " BLACK "0");
    blit("P6, exclusive fill", "2418 0",
         "09F0 0012 FFFF FFFF  0 0 0 0 0 0 0 2  0 0 0 0  0 0 0  " BLACK "0", 0x0041, 0, 1, "2418 1C08",
         "09F0 0012 FFFF FFFF  0 0 0 0 7 FFFE 0 0  0 0 0 0  0 0 2418  " BLACK "0");
    blit("P7, exclusive fill of 0000 with carry in", "0",
         "0100 0016 0000 0000  0 0 0 0 0 0 0 0  0 0 0 0  0 0 0  " BLACK "1", 0x0041, 0, 1, "FFFF",
         "0100 0016 0000 0000  0 0 0 0 0 0 7 FFFE  0 0 0 0  0 0 0  " BLACK "0");
    blit("P8, width one, both masks", "0",
         "01F0 0000 0FF0 00FF  0 0 0 0 0 0 0 0  0 0 0 0  0 0 FFFF  " BLACK "0", 0x0041, 0, 1, "00F0",
         "01F0 0000 0FF0 00FF  0 0 0 0 0 0 0 2  0 0 0 0  0 0 FFFF  " BLACK "0");
    blit("P9, size 0000, memory of one word", "FFFF",
         "0100 0000 0000 0000  0 0 0 0 0 0 0 0  0 0 0 0  0 0 0  " BLACK "0", 0x0000, 17, 0, SAME, SAME);
    blit("P9, size 0000, 65,536 words", "FFFF*65536 1234",
         "0100 0000 0000 0000  0 0 0 0 0 0 0 0  0 0 0 0  0 0 0  " BLACK "0", 0x0000, 0, 65536, "0000*65536 1234",
         "0100 0000 0000 0000  0 0 0 0 0 0 2 0  0 0 0 0  0 0 0  " BLACK "1");
    round_blit("P10, the pointer goes round", "1111 2222*262143",
               "01FF 0000 0000 0000  0 0 0 0 0 0 7 FFFE  0 0 0 0  0 0 0  " BLACK "1", 0x0042, 0, 2,
               "FFFF 2222*262142 FFFF",
               "01FF 0000 0000 0000  0 0 0 0 0 0 0 2  0 0 0 0  0 0 0  " BLACK "0");
    blit("the modulo after the last row", ZEROS,
         "01FF 0000 0000 0000  0 0 0 0 0 0 0 0  0 0 0 4  0 0 0  " BLACK "1", 0x0081, 0, 2, "FFFF 0 0 FFFF 0000*12",
         "01FF 0000 0000 0000  0 0 0 0 0 0 0 C  0 0 0 4  0 0 0  " BLACK "0");
    blit("the last word of memory, the pointer beyond it", ZEROS,
         "01FF 0000 0000 0000  0 0 0 0 0 0 0 1E  0 0 0 0  0 0 0  " BLACK "1", 0x0041, 0, 1, "0000*15 FFFF",
         "01FF 0000 0000 0000  0 0 0 0 0 0 0 20  0 0 0 0  0 0 0  " BLACK "0");
    blit("no channel in use, words zero", "1234", ZERO_FILE, 0x0041, 0, 0, SAME, "0000*52 0001");
    blit("no channel in use, words not zero", "1234",
         "00FF 0000 0000 0000  7 FFFE 7 FFFE 7 FFFE 7 FFFE  0 0 0 0  0 0 0  " BLACK "1", 0x0041, 0, 0, SAME,
         "00FF 0000 0000 0000  7 FFFE 7 FFFE 7 FFFE 7 FFFE  0 0 0 0  0 0 0  " BLACK "0");
}

/* D over a source: a word is stored once the next word's sources are fetched, and the last at the end. */
static void blits_overlapping(void)
{
    blit("one word on", "1 2 3 4",
         "09F0 0000 FFFF FFFF  0 0 0 0 0 0 0 2  0 0 0 0  0 0 0  " BLACK "0", 0x0043, 0, 3, "1 1 2 3",
         "09F0 0000 FFFF FFFF  0 0 0 0 0 6 0 8  0 0 0 0  0 0 3  " BLACK "0");
    blit("one word on, five words", "1 2 3 4 5 6",
         "09F0 0000 FFFF FFFF  0 0 0 0 0 0 0 2  0 0 0 0  0 0 0  " BLACK "0", 0x0045, 0, 5, "1 1 2 3 4 5",
         "09F0 0000 FFFF FFFF  0 0 0 0 0 A 0 C  0 0 0 0  0 0 5  " BLACK "0");
    blit("two words on", "1 2 3 4 5 6 7 8",
         "09F0 0000 FFFF FFFF  0 0 0 0 0 0 0 4  0 0 0 0  0 0 0  " BLACK "0", 0x0046, 0, 6, "1 2 1 2 1 2 1 2",
         "09F0 0000 FFFF FFFF  0 0 0 0 0 C 0 10  0 0 0 0  0 0 2  " BLACK "0");
    blit("one word on, descending", "1 2 3 4",
         "09F0 0002 FFFF FFFF  0 0 0 0 0 6 0 4  0 0 0 0  0 0 0  " BLACK "0", 0x0043, 0, 3, "2 3 4 4",
         "09F0 0002 FFFF FFFF  0 0 0 0 0 0 7 FFFE  0 0 0 0  0 0 2  " BLACK "0");
    blit("one word on, three rows of one word", "1 2 3 4",
         "09F0 0000 FFFF FFFF  0 0 0 0 0 0 0 2  0 0 0 0  0 0 0  " BLACK "0", 0x00C1, 0, 3, "1 1 2 3",
         "09F0 0000 FFFF FFFF  0 0 0 0 0 6 0 8  0 0 0 0  0 0 3  " BLACK "0");
    blit("one word on, through B", "1 2 3 4",
         "05CC 0000 FFFF FFFF  0 0 0 0 0 0 0 2  0 0 0 0  0 0 0  " BLACK "0", 0x0043, 0, 3, "1 1 2 3",
         "05CC 0000 FFFF FFFF  0 0 0 6 0 0 0 8  0 0 0 0  0 3 0  " BLACK "0");
    blit("one word on, through C", "1 2 3 4",
         "03AA 0000 FFFF FFFF  0 0 0 0 0 0 0 2  0 0 0 0  0 0 0  " BLACK "0", 0x0043, 0, 3, "1 1 2 3",
         "03AA 0000 FFFF FFFF  0 6 0 0 0 0 0 8  0 0 0 0  3 0 0  " BLACK "0");
    blit("one word on, inclusive fill", "0000 0100 0010 0408",
         "09F0 000A FFFF FFFF  0 0 0 0 0 6 0 4  0 0 0 0  0 0 0  " BLACK "0", 0x0043, 0, 3, "01FF FFF0 07F8 0408",
         "09F0 000A FFFF FFFF  0 0 0 0 0 0 7 FFFE  0 0 0 0  0 0 100  " BLACK "0");
    blit("a row's last word on the next row's first source", "1 2 3 4 5 6 7 8",
         "09F0 0000 FFFF FFFF  0 0 0 0 0 0 0 6  0 0 4 0  0 0 0  " BLACK "0", 0x0082, 0, 4, "1 2 3 1 2 5 6 8",
         "09F0 0000 FFFF FFFF  0 0 0 0 0 10 0 E  0 0 4 0  0 0 6  " BLACK "0");
    blit("at the source's own place", "1 2 3 4",
         "09F0 0000 FFFF FFFF  0 0 0 0 0 0 0 0  0 0 0 0  0 0 0  " BLACK "0", 0x0043, 0, 3, SAME,
         "09F0 0000 FFFF FFFF  0 0 0 0 0 6 0 6  0 0 0 0  0 0 3  " BLACK "0");
    round_blit("round the top, one word on", "1 2 0000*262140 3 4",
               "09F0 0000 FFFF FFFF  0 0 0 0 7 FFFC 7 FFFE  0 0 0 0  0 0 0  " BLACK "0", 0x0043, 0, 3,
               "4 1 0000*262140 3 3",
               "09F0 0000 FFFF FFFF  0 0 0 0 0 2 0 4  0 0 0 0  0 0 1  " BLACK "0");
}

static void blits_refused(void)
{
    blit("memory of no words", "", ZERO_FILE, 0x0041, 1, 0, SAME, SAME);
    blit("memory of 262,145 words", OVER_RAM, ZERO_FILE, 0x0041, 1, 0, SAME, SAME);
    blit("memory and file of no words", "", "", 0x0041, 1, 0, SAME, SAME);
    blit("a file of no words", ZEROS, "", 0x0041, 2, 0, SAME, SAME);
    blit("a file of 20 words, as it was", ZEROS, "0000*20", 0x0041, 2, 0, SAME, SAME);
    blit("a file of 52 words", ZEROS, "0000*52", 0x0041, 2, 0, SAME, SAME);
    blit("a file of 54 words", ZEROS, "0000*54", 0x0041, 2, 0, SAME, SAME);
    blit("a high half of 0008", ZEROS, "0000*10 0008 0000*42", 0x0041, 2, 0, SAME, SAME);
    blit("a low half of 0001", ZEROS, "0000*11 0001 0000*41", 0x0041, 2, 0, SAME, SAME);
    blit("a modulo of 0001", ZEROS, "0000*12 0001 0000*40", 0x0041, 2, 0, SAME, SAME);
    blit("COPCON 0001", ZEROS, "0000*19 0001 0000*33", 0x0041, 2, 0, SAME, SAME);
    blit("COPCON 0004", ZEROS, "0000*19 0004 0000*33", 0x0041, 2, 0, SAME, SAME);
    blit("the first colour 1000", ZEROS, "0000*20 1000 0000*32", 0x0041, 2, 0, SAME, SAME);
    blit("the last colour 8000", ZEROS, "0000*51 8000 0000", 0x0041, 2, 0, SAME, SAME);
    blit("a flag of 2", ZEROS, "0000*52 0002", 0x0041, 2, 0, SAME, SAME);
    blit("a bit that isn't kept before a line", ZEROS, "0100 0001 0000*50 0002", 0x0041, 2, 0, SAME, SAME);
    blit("line, both fills, outside", ZEROS, "0F00 0019 0000*8 0007 0000*42", 0x0041, 18, 0, SAME, SAME);
    blit("both fills, outside", ZEROS, "0F00 0018 0000*8 0007 0000*42", 0x0041, 8, 0, SAME, SAME);
    blit("fill upward, outside", ZEROS, "0F00 0008 0000*8 0007 0000*42", 0x0041, 9, 0, SAME, SAME);
    blit("a lawful fill, outside", ZEROS, "0F00 000A 0000*8 0007 0000*42", 0x0041, 17, 0, SAME, SAME);
    blit("outside after a word inside", "0000*9", "01FF 0000*10 0010 0000*41", 0x0042, 17, 0, SAME, SAME);
}

/* Which channel is told: pointers of C, B, A and D, high half and low half, in the middle of each file. */
static void channels_outside(void)
{
    blit("A outside", ZEROS, "0F00 0000 0000 0000  0 0 0 0 0 20 0 0  0000*41", 0x0041, 14, 0, SAME, SAME);
    blit("B outside", ZEROS, "0F00 0000 0000 0000  0 0 0 20 0 0 0 0  0000*41", 0x0041, 15, 0, SAME, SAME);
    blit("C outside", ZEROS, "0F00 0000 0000 0000  0 20 0 0 0 0 0 0  0000*41", 0x0041, 16, 0, SAME, SAME);
    blit("D outside", ZEROS, "0F00 0000 0000 0000  0 0 0 0 0 0 0 20  0000*41", 0x0041, 17, 0, SAME, SAME);
    blit("all outside", ZEROS, "0F00 0000 0000 0000  0 20 0 20 0 20 0 20  0000*41", 0x0041, 14, 0, SAME, SAME);
    blit("B, C and D outside", ZEROS, "0F00 0000 0000 0000  0 20 0 20 0 0 0 20  0000*41", 0x0041, 15, 0, SAME, SAME);
    blit("C and D outside", ZEROS, "0F00 0000 0000 0000  0 20 0 0 0 0 0 20  0000*41", 0x0041, 16, 0, SAME, SAME);
    blit("A and D outside", ZEROS, "0900 0000 0000 0000  0 0 0 0 0 20 0 20  0000*41", 0x0041, 14, 0, SAME, SAME);
    blit("D outside at word 1, A at word 2", ZEROS, "0900 0000 0000 0000  0 0 0 0 0 1C 0 1E  0000*41", 0x0043, 14, 0,
         SAME, SAME);
    blit("D outside in row 0, A in row 1", ZEROS, "0900 0000 0000 0000  0 0 0 0 0 1E 0 20  0000*41", 0x0081, 14, 0,
         SAME, SAME);
    blit("D outside, A just inside", ZEROS, "0900 0000 0000 0000  0 0 0 0 0 1A 0 1C  0000*41", 0x0043, 17, 0, SAME, SAME);
    blit("A goes round below word 0", ZEROS, "0900 0002 0000 0000  0 0 0 0 0 0 0 2  0000*41", 0x0042, 14, 0, SAME, SAME);
    blit("B's modulo leads outside", ZEROS, "0500 0000 0000 0000  0 0 0 0 0 0 0 0  0 20 0 0  0000*37", 0x0081, 15, 0,
         SAME, SAME);
    blit("channels that aren't used, outside", ZEROS, "01FF 0000 0000 0000  0 20 0 20 0 20 0 0  0000*41", 0x0041, 0, 1,
         "FFFF 0000*15", "01FF 0000 0000 0000  0 20 0 20 0 20 0 2  0000*41");
    blit("D not used, outside", ZEROS, "0E00 0000 0000 0000  0 0 0 0 0 0 0 20  0000*41", 0x0041, 0, 0, SAME,
         "0E00 0000 0000 0000  0 2 0 2 0 2 0 20  0000*40 0001");
    blit("D not used, outside, and C", ZEROS, "0E00 0000 0000 0000  0 20 0 0 0 0 0 20  0000*41", 0x0041, 16, 0, SAME,
         SAME);
}

void blits(void)
{
    blits_done();
    blits_overlapping();
    blits_refused();
    channels_outside();
}

static void runs_of_lengths(void)
{
    run("memory 0", "", ZERO_FILE, "8007 FFFE 1234", 1, 0, 0, SAME, SAME);
    run("memory 262144", MOST_RAM, ZERO_FILE, "8007 FFFE 1234", 0, 0, 1, "0000*262143 1234", SAME);
    run("memory 262145", OVER_RAM, ZERO_FILE, "8007 FFFE 1234", 1, 0, 0, SAME, SAME);
    run("file of 20 words", ZEROS, "0000*20", "C001", 2, 0, 0, SAME, SAME);
    run("file of no words", ZEROS, "", "C001", 2, 0, 0, SAME, SAME);
    run("file with DPTH 0008", ZEROS, "0000*10 0008 0000*42", "C001", 2, 0, 0, SAME, SAME);
    run("file with flag 2", ZEROS, "0000*52 0002", "C001", 2, 0, 0, SAME, SAME);
    run("job 4096", ZEROS, ZERO_FILE, "C001*4096", 0, 0, 0, SAME, "0000*52 0001");
    run("job 4097", ZEROS, ZERO_FILE, "C001*4097", 3, 0, 0, SAME, SAME);
    run("memory 0, file of 20, job 4097", "", "0000*20", "C001*4097", 1, 0, 0, SAME, SAME);
    run("file of 20, job 4097", ZEROS, "0000*20", "C001*4097", 2, 0, 0, SAME, SAME);
    run("empty job", ZEROS, ZERO_FILE, "", 0, 0, 0, SAME, SAME);
    run("empty job, no memory", "", ZERO_FILE, "", 1, 0, 0, SAME, SAME);
    run("nothing at all", "", "", "", 1, 0, 0, SAME, SAME);
}

static void runs_of_steps(void)
{
    run("flag set and cleared", ZEROS, ZERO_FILE, "C001 C000", 0, 0, 0, SAME, SAME);
    run("begins no step", ZEROS, ZERO_FILE, "C001 0041 0000", 4, 1, 0, SAME, "0000*52 0001");
    run("cut off, and odd", ZEROS, ZERO_FILE, "C001 8000 0001", 5, 1, 0, SAME, "0000*52 0001");
    run("odd, and at N", ZEROS, ZERO_FILE, "C001 8000 0021 0000", 6, 1, 0, SAME, "0000*52 0001");
    run("line, both fills", ZEROS, ZERO_FILE, "0042 0019 0058 0041", 18, 2, 0, SAME, "0000 0019 0000*51");
    run("both fills", ZEROS, ZERO_FILE, "0042 0018 0058 0041", 8, 2, 0, SAME, "0000 0018 0000*51");
    run("fill upward", ZEROS, ZERO_FILE, "0042 0008 0058 0041", 9, 2, 0, SAME, "0000 0008 0000*51");
    run("blit touches N", ZEROS, ZERO_FILE, "0040 0100 0056 001E 0058 0042", 17, 4, 0, SAME,
        "0100 0000*10 001E 0000*41");
    run("blit to N - 1", ZEROS, ZERO_FILE, "0040 0100 0056 001E 0058 0041", 0, 0, 1, SAME,
        "0100 0000*10 0020 0000*40 0001");
    run("blit, A and D outside", ZEROS, ZERO_FILE, "8000 0000 1111 0040 0900 0052 0020 0056 0020 0058 0041 C001", 14, 9, 1,
        "1111 0000*15", "0900 0000*8 0020 0000 0020 0000*41");
    run("store at N", ZEROS, ZERO_FILE, "8000 001E 1111 0040 2222 C001 8000 0020 3333 C000", 10, 6, 1, "0000*15 1111",
        "2222 0000*51 0001");
    run("size 0000 and a store", "0000*65536", ZERO_FILE, "0040 0100 0058 0000 8000 0000 0001", 0, 0, 65537,
        "0001 0000*65535", "0100 0000*9 0002 0000*41 0001");
    run("bits that aren't kept are dropped", ZEROS, ZERO_FILE, "0048 FFFF 004A FFFF 0060 FFFF 0070 FFFF", 0, 0, 0, SAME,
        "0000*4 0007 FFFE 0000*6 FFFE 0000*3 FFFF 0000*36");
    run("several blits", "0 1 2 3 4 5 6 7 8 9 A B C D E F", ZERO_FILE,
        "8000 0000 2418  0040 09F0 0042 0000 0044 FFFF 0046 FFFF 0050 FFF8 0052 0001 0054 0000 0056 0011 0064 0001"
        " 0066 0003 0058 0042  C001 8000 0002 0F0F  0040 0100 0058 0081 C000  0040 09F0 0042 000A 0052 0000 0056 001E"
        " 0058 0041  8000 0006 BEEF C001",
        0, 0, 8, "2418 0F0F 2 BEEF 4 5 6 7 2418 1 A 0 C 0 E 3C18",
        "09F0 000A FFFF FFFF  0 0 0 0 7 FFFE 0 1A  0 0 0 2  0 0 2418  " BLACK "1");
}

void runs(void)
{
    runs_of_lengths();
    runs_of_steps();
}
