/* Lines of picture in the boundary test. What each must give is written out from paper 02, W9. In COLOURED every colour
 * tells its number: 0100 is COLOR00's, 011F COLOR31's. */
#include <stdio.h>

#include "boundary.h"

#define ZERO_FILE "0000*53"
#define COLOURED "0000*20 0100 0101 0102 0103 0104 0105 0106 0107 0108 0109 010A 010B 010C 010D 010E 010F " \
                 "0110 0111 0112 0113 0114 0115 0116 0117 0118 0119 011A 011B 011C 011D 011E 011F 0000"
#define ZEROS "0000*16"
#define MOST_RAM "0000*262144"
#define OVER_RAM "0000*262145"

static const uint32_t most = 0xFFFFFFFF;

/* A line that is shown, in an output of just its length. */
static void shown(const char *name, const char *ram, const char *planes, uint32_t words,
                  uint32_t odd_delay, uint32_t even_delay, const char *line)
{
    picture(name, ram, COLOURED, planes, words, odd_delay, even_delay, 16 * words, 0, line);
}

/* A line that is refused; the output has room for the longest that is not. */
static void refused(const char *name, const char *ram, const char *planes, uint32_t words,
                    uint32_t odd_delay, uint32_t even_delay, uint32_t number)
{
    picture(name, ram, COLOURED, planes, words, odd_delay, even_delay, 700, number, "");
}

/* Bit 15 is the leftmost pixel, and a word follows the one before it. */
static void one_plane(void)
{
    shown("a word of zeros", "0000", "0", 1, 0, 0, "0100*16");
    shown("a word of ones", "FFFF", "0", 1, 0, 0, "0101*16");
    shown("a word of mixed bits", "8421", "0", 1, 0, 0, "0101 0100*4 0101 0100*4 0101 0100*4 0101");
    shown("two words", "0001 8000", "0", 2, 0, 0, "0100*15 0101*2 0100*15");
    shown("three words from word 1 on", "FFFF C000 0000 0003 FFFF", "1", 3, 0, 0, "0101*2 0100*44 0101*2");
    for (int pixel = 0; pixel < 16; pixel++) {
        char ram[16], line[48];
        sprintf(ram, "%04X", 0x8000u >> pixel);
        sprintf(line, "0100*%d 0101 0100*%d", pixel, 15 - pixel);
        shown(ram, ram, "0", 1, 0, 0, line);
    }
}

/* Two words of plane 1, of plane 2 and so on: pixel i has the number i. */
#define COUNTING "5555 5555 3333 3333 0F0F 0F0F 00FF 00FF 0000 FFFF"

/* Plane 1 is the lowest bit of the colour's number, wherever the planes lie. */
static void weights(void)
{
    shown("each plane alone", "8000 4000 2000 1000 0800", "0 1 2 3 4", 1, 0, 0, "0101 0102 0104 0108 0110 0100*11");
    shown("each plane alone, in memory from the last", "8000 4000 2000 1000 0800", "4 3 2 1 0", 1, 0, 0,
          "0110 0108 0104 0102 0101 0100*11");
    shown("each plane gone", "7FFF BFFF DFFF EFFF F7FF", "0 1 2 3 4", 1, 0, 0, "011E 011D 011B 0117 010F 011F*11");
    shown("all planes on one word", "8001", "0 0 0 0 0", 1, 0, 0, "011F 0100*14 011F");
    shown("planes that overlap", "8000 4000 2000", "0 1 0", 2, 0, 0, "0105 0102 0100*15 0105 0102 0100*13");
    shown("32 colours", COUNTING, "0 2 4 6 8", 2, 0, 0,
          "0100 0101 0102 0103 0104 0105 0106 0107 0108 0109 010A 010B 010C 010D 010E 010F "
          "0110 0111 0112 0113 0114 0115 0116 0117 0118 0119 011A 011B 011C 011D 011E 011F");
    shown("16 colours", COUNTING, "0 2 4 6", 2, 0, 0,
          "0100 0101 0102 0103 0104 0105 0106 0107 0108 0109 010A 010B 010C 010D 010E 010F "
          "0100 0101 0102 0103 0104 0105 0106 0107 0108 0109 010A 010B 010C 010D 010E 010F");
    shown("8 colours", COUNTING, "0 2 4", 1, 0, 0,
          "0100 0101 0102 0103 0104 0105 0106 0107 0100 0101 0102 0103 0104 0105 0106 0107");
    shown("4 colours", COUNTING, "0 2", 1, 0, 0,
          "0100 0101 0102 0103 0100 0101 0102 0103 0100 0101 0102 0103 0100 0101 0102 0103");
    shown("2 colours", COUNTING, "0", 1, 0, 0,
          "0100 0101 0100 0101 0100 0101 0100 0101 0100 0101 0100 0101 0100 0101 0100 0101");
}

/* A plane of ones delayed by so many pixels, alone or beside another; a lone bit pushed along; ones beside the line's
 * words. */
static void each_delay(void)
{
    for (uint32_t delay = 0; delay < 16; delay++) {
        int before = delay, after = 16 - before;
        char name[48], line[64];
        sprintf(name, "delay %d", before);
        sprintf(line, "0100*%d 0101*%d", before, after);
        shown(name, "FFFF", "0", 1, delay, 0, line);
        shown(name, "FFFF", "0", 1, delay, 15, line);
        shown(name, "FFFF", "0", 1, 0, delay, "0101*16");
        sprintf(line, "0102*%d 0103*%d", before, after);
        shown(name, "FFFF", "0 0", 1, delay, 0, line);
        sprintf(line, "0101*%d 0103*%d", before, after);
        shown(name, "FFFF", "0 0", 1, 0, delay, line);
        sprintf(line, "0100*%d 0101 0100*%d", 15 + before, after);
        shown(name, "0001 0000", "0", 2, delay, 0, line);
        sprintf(line, "0100*%d 0101*%d", 32 + before, after);
        shown(name, "0000 0000 FFFF", "0", 3, delay, 0, line);
        shown(name, "FFFF 0000 FFFF", "1", 1, delay, 0, "0100*16");
        shown(name, "FFFF 0000 FFFF", "1 1", 1, 0, delay, "0100*16");
        shown(name, "FFFF 0000*2 FFFF", "1", 2, delay, 15, "0100*32");
    }
}

/* Planes 1, 3 and 5 are 0115 together, planes 2 and 4 are 010A. */
static void each_pair_of_delays(void)
{
    for (uint32_t odd = 0; odd < 16; odd++)
        for (uint32_t even = 0; even < 16; even++) {
            char name[48], line[64];
            sprintf(name, "odd delay %d, even delay %d", (int)odd, (int)even);
            if (odd < even)
                sprintf(line, "0100*%d 0115*%d 011F*%d", (int)odd, (int)(even - odd), (int)(16 - even));
            else
                sprintf(line, "0100*%d 010A*%d 011F*%d", (int)even, (int)(odd - even), (int)(16 - odd));
            shown(name, "FFFF", "0 0 0 0 0", 1, odd, even, line);
        }
}

/* 32 bars of 8 pixels, the first of number 0, the last of 31: sixteen words of plane 1, sixteen of plane 2 and so
 * on. */
#define BARS "00FF*16 " \
    "0000 FFFF 0000 FFFF 0000 FFFF 0000 FFFF 0000 FFFF 0000 FFFF 0000 FFFF 0000 FFFF " \
    "0000*2 FFFF*2 0000*2 FFFF*2 0000*2 FFFF*2 0000*2 FFFF*2 0000*4 FFFF*4 0000*4 FFFF*4 0000*8 FFFF*8"
#define BAR_PLANES "0 16 32 48 64"
#define BARS_1_TO_30 \
    "0101*8 0102*8 0103*8 0104*8 0105*8 0106*8 0107*8 0108*8 0109*8 010A*8 010B*8 010C*8 010D*8 010E*8 010F*8 " \
    "0110*8 0111*8 0112*8 0113*8 0114*8 0115*8 0116*8 0117*8 0118*8 0119*8 011A*8 011B*8 011C*8 011D*8 011E*8 "

/* With a delay of 8 a bar has its own number in some planes and the bar's before it in the others. */
static void bars(void)
{
    shown("bars", BARS, BAR_PLANES, 16, 0, 0, "0100*8 " BARS_1_TO_30 "011F*8");
    shown("bars delayed by 7", BARS, BAR_PLANES, 16, 7, 7, "0100*15 " BARS_1_TO_30 "011F");
    shown("bars, the odd planes delayed by 8", BARS, BAR_PLANES, 16, 8, 0,
          "0100*8 0100*8 0103*8 0102*8 0101*8 0104*8 0107*8 0106*8 "
          "010D*8 0108*8 010B*8 010A*8 0109*8 010C*8 010F*8 010E*8 "
          "0105*8 0110*8 0113*8 0112*8 0111*8 0114*8 0117*8 0116*8 "
          "011D*8 0118*8 011B*8 011A*8 0119*8 011C*8 011F*8 011E*8");
    shown("bars, the even planes delayed by 8", BARS, BAR_PLANES, 16, 0, 8,
          "0100*8 0101*8 0100*8 0103*8 0106*8 0105*8 0104*8 0107*8 "
          "0102*8 0109*8 0108*8 010B*8 010E*8 010D*8 010C*8 010F*8 "
          "011A*8 0111*8 0110*8 0113*8 0116*8 0115*8 0114*8 0117*8 "
          "0112*8 0119*8 0118*8 011B*8 011E*8 011D*8 011C*8 011F*8");
    shown("1234 5678 by 4", "1234 5678", "0", 2, 4, 0,
          "0100*7 0101 0100*2 0101 0100*3 0101*2 "
          "0100 0101 0100*3 0101 0100 0101 0100 0101*2 0100*2 0101*3");
}

/* The colour is the register's, for number 0 too, and nothing else of the file is one. */
static void colours(void)
{
    picture("COLOR00 where all is 0", "0000", "0000*20 0FFF 0000*32", "0", 1, 0, 0, 16, 0, "0FFF*16");
    picture("COLOR00 beside black", "8000", "0000*20 0FFF 0000*32", "0", 1, 0, 0, 16, 0, "0000 0FFF*15");
    picture("COLOR00 before a delayed plane", "FFFF", "0000*20 0123 0456 0000*31", "0", 1, 15, 0, 16, 0,
            "0123*15 0456");
    picture("a black screen", "FFFF", ZERO_FILE, "0 0 0 0 0", 1, 0, 0, 16, 0, "0000*16");
    picture("COLOR31, the flag set", "FFFF", "0000*51 0ABC 0001", "0 0 0 0 0", 1, 0, 0, 16, 0, "0ABC*16");
    picture("COLOR00, COPCON set", "0000", "0000*19 0002 0DEF 0000*32", "0 0 0 0 0", 1, 0, 0, 16, 0, "0DEF*16");
    picture("a file of all kept bits", "FF00",
            "FFFF*4 0007 FFFE 0007 FFFE 0007 FFFE 0007 FFFE*5 FFFF*3 0002 0FFF*32 0001", "0 0", 1, 3, 0, 16, 0,
            "0FFF*16");
}

/* Forty words of each plane. */
#define LONGEST "8000 0000*38 0001 0000*39 FFFF FFFF*40 0000*20 FFFF*20 FFFF 0000*39"
#define LONGEST_PLANES "0 40 80 120 160"

static void longest(void)
{
    shown("the longest line", LONGEST, LONGEST_PLANES, 40, 0, 0, "0115 0114*15 0104*304 010C*304 010E*15 010F");
    shown("the longest line, odd planes delayed by 15", LONGEST, LONGEST_PLANES, 40, 15, 0,
          "0100*15 0115 0114*15 0104*289 010C*304 010E*16");
    shown("the longest line, even planes delayed by 15", LONGEST, LONGEST_PLANES, 40, 0, 15,
          "0115 0114*15 0104*319 010C*304 010F");
    shown("the longest line of one plane", "8000 0000*38 0001", "0", 40, 0, 0, "0101 0100*638 0101");
    shown("the longest line of one plane, delayed by 1", "8000 0000*38 0001", "0", 40, 1, 0, "0100 0101 0100*638");
    shown("the longest memory's last word", "0000*262143 8001", "262143", 1, 0, 0, "0101 0100*14 0101");
    shown("the longest memory's last 40 words", "0000*262104 FFFF*40", "262104", 40, 0, 0, "0101*640");
    shown("both ends of the longest memory", "8000 0000*262142 0001", "0 262143", 1, 0, 0, "0101 0100*14 0102");
    shown("both ends, delayed", "8000 0000*262142 0100", "0 262143", 1, 2, 5, "0100*2 0101 0100*9 0102 0100*3");
    shown("memory of one word", "4000", "0 0 0 0 0", 1, 0, 0, "0100 011F 0100*14");
}

/* Beyond the line the output keeps what it held. */
static void outputs(void)
{
    picture("an output longer by 1", "FFFF", COLOURED, "0", 1, 0, 0, 17, 0, "0101*16");
    picture("an output longer by 1, delayed", "FFFF FFFF", COLOURED, "0", 1, 1, 0, 17, 0, "0100 0101*15");
    picture("an output longer by 15, delayed by 15", "FFFF*4", COLOURED, "1 1", 1, 15, 15, 31, 0, "0100*15 0103");
    picture("an output of two words' pixels for one", "FFFF*2", COLOURED, "0", 1, 0, 0, 32, 0, "0101*16");
    picture("a long output", "FFFF*40", COLOURED, "0", 20, 0, 0, 4096, 0, "0101*320");
    picture("an output longer than the longest line", "FFFF*41", COLOURED, "0", 40, 0, 0, 656, 0, "0101*640");
    picture("no output", "FFFF", COLOURED, "0", 1, 0, 0, 0, 25, "");
    picture("an output of 1", "FFFF", COLOURED, "0", 1, 0, 0, 1, 25, "");
    picture("an output of 15", "FFFF", COLOURED, "0", 1, 0, 0, 15, 25, "");
    picture("an output of 15, delayed by 15", "FFFF", COLOURED, "0", 1, 15, 15, 15, 25, "");
    picture("one word's output for two", "FFFF*2", COLOURED, "0", 2, 0, 0, 16, 25, "");
    picture("an output of 31", "FFFF*2", COLOURED, "0 0 0 0 0", 2, 0, 0, 31, 25, "");
    picture("an output of 319", "FFFF*20", COLOURED, "0", 20, 0, 0, 319, 25, "");
    picture("an output of 639", "FFFF*40", COLOURED, "0", 40, 0, 0, 639, 25, "");
}

static void memories_and_files(void)
{
    picture("no memory", "", COLOURED, "0", 1, 0, 0, 16, 1, "");
    picture("one word past the longest memory", OVER_RAM, COLOURED, "0", 1, 0, 0, 16, 1, "");
    picture("the longest memory", MOST_RAM, COLOURED, "0", 1, 0, 0, 16, 0, "0100*16");
    picture("no file", ZEROS, "", "0", 1, 0, 0, 16, 2, "");
    picture("a file of 20 words", ZEROS, "0000*20", "0", 1, 0, 0, 16, 2, "");
    picture("a file of 52 words", ZEROS, "0000*52", "0", 1, 0, 0, 16, 2, "");
    picture("a file of 54 words", ZEROS, "0000*54", "0", 1, 0, 0, 16, 2, "");
    picture("a file of all ones", ZEROS, "FFFF*53", "0", 1, 0, 0, 16, 2, "");
    picture("a pointer's high half of 0008", ZEROS, "0000*10 0008 0000*42", "0", 1, 0, 0, 16, 2, "");
    picture("a modulo of 0001", ZEROS, "0000*12 0001 0000*40", "0", 1, 0, 0, 16, 2, "");
    picture("COPCON 0001", ZEROS, "0000*19 0001 0000*33", "0", 1, 0, 0, 16, 2, "");
    picture("COLOR00 of 13 bits", ZEROS, "0000*20 1000 0000*32", "0", 1, 0, 0, 16, 2, "");
    picture("COLOR31 of 13 bits, not shown", ZEROS, "0000*51 1000 0000", "0", 1, 0, 0, 16, 2, "");
    picture("a flag of 2", ZEROS, "0000*52 0002", "0", 1, 0, 0, 16, 2, "");
}

static void numbers_refused(void)
{
    refused("no planes", ZEROS, "", 1, 0, 0, 24);
    refused("six planes", ZEROS, "0 0 0 0 0 0", 1, 0, 0, 24);
    refused("seven planes", ZEROS, "0 0 0 0 0 0 0", 1, 0, 0, 24);
    refused("no words", ZEROS, "0", 0, 0, 0, 24);
    refused("no words of five planes", ZEROS, "0 0 0 0 0", 0, 0, 0, 24);
    refused("41 words", "0000*64", "0", 41, 0, 0, 24);
    refused("257 words", MOST_RAM, "0", 257, 0, 0, 24);
    refused("65,537 words", MOST_RAM, "0", 65537, 0, 0, 24);
    refused("2^28 words", MOST_RAM, "0", 0x10000000, 0, 0, 24);
    refused("2^28 + 1 words", MOST_RAM, "0", 0x10000001, 0, 0, 24);
    refused("2^31 words", MOST_RAM, "0", 0x80000000, 0, 0, 24);
    refused("2^32 - 1 words", MOST_RAM, "0", most, 0, 0, 24);
    refused("an odd delay of 16", ZEROS, "0", 1, 16, 0, 24);
    refused("an odd delay of 16 over two words", ZEROS, "0 0", 2, 16, 0, 24);
    refused("an odd delay of 17", ZEROS, "0 0", 1, 17, 0, 24);
    refused("an odd delay of 32", ZEROS, "0 0", 1, 32, 0, 24);
    refused("an odd delay of 256", ZEROS, "0 0", 1, 256, 0, 24);
    refused("an odd delay of 2^16", ZEROS, "0 0", 1, 0x10000, 0, 24);
    refused("an odd delay of 2^32 - 1", ZEROS, "0 0", 1, most, 0, 24);
    refused("an even delay of 16", ZEROS, "0 0", 1, 0, 16, 24);
    refused("an even delay of 16 over two words", ZEROS, "0 0", 2, 0, 16, 24);
    refused("an even delay of 16 with one plane", ZEROS, "0", 1, 0, 16, 24);
    refused("an even delay of 2^32 - 1 with one plane", ZEROS, "0", 1, 0, most, 24);
    refused("an even delay of 31", ZEROS, "0 0", 1, 0, 31, 24);
    refused("an even delay of 2^16", ZEROS, "0 0", 1, 0, 0x10000, 24);
    refused("an even delay of 2^31", ZEROS, "0 0", 1, 0, 0x80000000, 24);
    refused("both delays of 16", ZEROS, "0 0 0 0 0", 1, 16, 16, 24);
    refused("all numbers too high", ZEROS, "0 0 0 0 0 0", 41, 16, 16, 24);
}

/* A plane whose last word is memory's is shown; one that goes on past it is refused, and doesn't go round. */
static void far_planes(void)
{
    shown("start and words together N", "0000*13 FFFF*3", "13", 3, 0, 0, "0101*48");
    refused("start and words together N + 1", ZEROS, "14", 3, 0, 0, 10);
    refused("start and words together N + 1, the last word's bits all dropped but one", ZEROS, "14", 3, 15, 0, 10);
    refused("start at N - 1, two words", ZEROS, "15", 2, 0, 0, 10);
    refused("start at N", ZEROS, "16", 1, 0, 0, 10);
    refused("start at N + 1", ZEROS, "17", 1, 0, 0, 10);
    refused("two words in memory of one", "FFFF", "0", 2, 0, 0, 10);
    refused("40 words in memory of 39", "FFFF*39", "0", 40, 0, 0, 10);
    refused("40 words to the end of the longest memory, and one", MOST_RAM, "262105", 40, 0, 0, 10);
    refused("start at 262,144", MOST_RAM, "262144", 1, 0, 0, 10);
    refused("start at 262,144 in memory of one word", "FFFF", "262144", 1, 0, 0, 10);
    refused("start at 524,288", MOST_RAM, "524288", 1, 0, 0, 10);
    refused("start at 2^31", MOST_RAM, "2147483648", 1, 0, 0, 10);
    refused("start at 2^32 - 1, together 0 in 32 bits", MOST_RAM, "4294967295", 1, 0, 0, 10);
    refused("start at 2^32 - 1, together 1 in 32 bits", MOST_RAM, "4294967295", 2, 0, 0, 10);
    refused("start at 2^32 - 40, together 0 in 32 bits", MOST_RAM, "4294967256", 40, 0, 0, 10);
    refused("start at 2^32 - 41", MOST_RAM, "4294967255", 40, 0, 0, 10);
    refused("plane 1 at N", ZEROS, "16 0 0 0 0", 1, 0, 0, 10);
    refused("plane 2 at N", ZEROS, "0 16 0 0 0", 1, 0, 0, 10);
    refused("plane 3 at N", ZEROS, "0 0 16 0 0", 1, 0, 0, 10);
    refused("plane 4 at N", ZEROS, "0 0 0 16 0", 1, 0, 0, 10);
    refused("plane 5 at N", ZEROS, "0 0 0 0 16", 1, 0, 0, 10);
    refused("plane 2 of two at 2^32 - 1", ZEROS, "0 4294967295", 1, 0, 0, 10);
    refused("plane 5 at 2^32 - 1", MOST_RAM, "0 0 0 0 4294967295", 1, 0, 0, 10);
    refused("all planes at 2^32 - 2", MOST_RAM, "4294967294 4294967294 4294967294 4294967294 4294967294", 2, 0, 0, 10);
}

/* 1, 2, 24, 25, 10: of two that hold the earlier one, for every two of them. */
static void orders(void)
{
    picture("1 and 2", "", "0000*52", "0", 1, 0, 0, 16, 1, "");
    picture("1 and 2, memory too long", OVER_RAM, "FFFF*53", "0", 1, 0, 0, 16, 1, "");
    picture("1 and 24, no planes", "", COLOURED, "", 1, 0, 0, 16, 1, "");
    picture("1 and 24, a delay", OVER_RAM, COLOURED, "0", 1, 16, 0, 16, 1, "");
    picture("1 and 25", "", COLOURED, "0", 1, 0, 0, 15, 1, "");
    picture("1 and 10", "", COLOURED, "5", 1, 0, 0, 16, 1, "");
    picture("1 and 10, memory too long", OVER_RAM, COLOURED, "262145", 1, 0, 0, 16, 1, "");
    picture("2 and 24, six planes", ZEROS, "0000*52", "0 0 0 0 0 0", 1, 0, 0, 16, 2, "");
    picture("2 and 24, no words", ZEROS, "0000*52 0002", "0", 0, 0, 0, 16, 2, "");
    picture("2 and 24, an even delay", ZEROS, "0000*54", "0", 1, 0, 16, 16, 2, "");
    picture("2 and 25", ZEROS, "0000*20 1000 0000*32", "0", 1, 0, 0, 15, 2, "");
    picture("2 and 10", ZEROS, "0000*51 1000 0000", "16", 1, 0, 0, 16, 2, "");
    picture("24 and 25, no planes", ZEROS, COLOURED, "", 1, 0, 0, 15, 24, "");
    picture("24 and 25, six planes", ZEROS, COLOURED, "0 0 0 0 0 0", 1, 0, 0, 0, 24, "");
    picture("24 and 25, 41 words", "0000*64", COLOURED, "0", 41, 0, 0, 655, 24, "");
    picture("24 and 25, an odd delay", ZEROS, COLOURED, "0", 1, 16, 0, 15, 24, "");
    picture("24 and 25, an even delay with one plane", ZEROS, COLOURED, "0", 1, 0, 16, 15, 24, "");
    picture("24 and 10, six planes", ZEROS, COLOURED, "16 16 16 16 16 16", 1, 0, 0, 16, 24, "");
    picture("24 and 10, the sixth plane at N", ZEROS, COLOURED, "0 0 0 0 0 16", 1, 0, 0, 16, 24, "");
    picture("24 and 10, 41 words in memory of 40", "0000*40", COLOURED, "0", 41, 0, 0, 656, 24, "");
    picture("24 and 10, no words from N + 1 on", ZEROS, COLOURED, "17", 0, 0, 0, 16, 24, "");
    picture("24 and 10, an odd delay", ZEROS, COLOURED, "16", 1, 16, 0, 16, 24, "");
    picture("24 and 10, an even delay", ZEROS, COLOURED, "0 4294967295", 1, 0, 16, 16, 24, "");
    picture("25 and 10", ZEROS, COLOURED, "16", 1, 0, 0, 15, 25, "");
    picture("25 and 10, 2^32 - 1", ZEROS, COLOURED, "0 4294967295", 2, 0, 0, 31, 25, "");
    picture("25 and 10, no output", ZEROS, COLOURED, "4294967295", 40, 15, 15, 0, 25, "");
    picture("24, 25 and 10", ZEROS, COLOURED, "16 16 16 16 16 16", 41, 16, 16, 0, 24, "");
    picture("2, 24, 25 and 10", ZEROS, "", "16 16 16 16 16 16", 41, 16, 16, 0, 2, "");
    picture("all five", "", "", "", most, most, most, 0, 1, "");
}

void pictures(void)
{
    one_plane();
    weights();
    each_delay();
    each_pair_of_delays();
    bars();
    colours();
    longest();
    outputs();
    memories_and_files();
    numbers_refused();
    far_planes();
    orders();
}
