/* The foldings of the boundary test, written out from paper 01. */
#include <stdio.h>

#include "boundary.h"

/* P11 up to its 058: D alone, from word 8, modulo 0. */
#define CLEAR_AT_8 "0040 0100 0042 0000 0054 0000 0056 0010 0066 0000 "
#define P11 CLEAR_AT_8 "0058 0042"
#define P11_FOLDED CLEAR_AT_8 "8000 0010 0000 8000 0012 0000 0054 0000 0056 0014 C001"
#define TWENTY(text) text text text text text text text text text text text text text text text text text text text text

static void papers(void)
{
    fold("P11", 16, P11, 28, 0, 0, 21, P11_FOLDED);
    fold("P12", 9, P11, 28, 0, 0, 12, P11);
    fold("P11 without 0066 0000", 16, "0040 0100 0042 0000 0054 0000 0056 0010 0058 0042", 28, 0, 0, 10,
         "0040 0100 0042 0000 0054 0000 0056 0010 0058 0042");
    fold("N 128, size 0345", 128, CLEAR_AT_8 "0058 0345", 28, 0, 0, 12, CLEAR_AT_8 "0058 0345");
    fold("N 262144", 262144, P11, 28, 0, 0, 21, P11_FOLDED);
    fold("N 262145", 262145, P11, 28, 1, 0, 0, "");
    fold("N 0", 0, P11, 28, 1, 0, 0, "");
    fold("N the largest number", SIZE_MAX, P11, 28, 1, 0, 0, "");
}

/* The eight stores to addresses whose last digit but one is this. */
#define EIGHT(h) \
    "8000 00" h "0 0000 8000 00" h "2 0000 8000 00" h "4 0000 8000 00" h "6 0000 " \
    "8000 00" h "8 0000 8000 00" h "A 0000 8000 00" h "C 0000 8000 00" h "E 0000 "

/* Twenty clears of 64 words from word 8 on, folded: each is 64 stores, the pointer after them and the flag. */
static const char *twenty_folded(const char *rest)
{
    static char text[4096 * 5 + 100];
    char *end = text + sprintf(text, CLEAR_AT_8);
    unsigned address = 0x10;
    for (int clear = 0; clear < 20; clear++) {
        for (int store = 0; store < 64; store++, address += 2)
            end += sprintf(end, "8000 %04X 0000 ", address);
        end += sprintf(end, "0054 0000 0056 %04X C001 ", address);
    }
    sprintf(end, "%s", rest);
    return text;
}

static void lengths(void)
{
    fold("N 128, size 0040", 128, CLEAR_AT_8 "0058 0040", 208, 0, 0, 207,
         CLEAR_AT_8 EIGHT("1") EIGHT("2") EIGHT("3") EIGHT("4") EIGHT("5") EIGHT("6") EIGHT("7")
         EIGHT("8") "0054 0000 0056 0090 C001");
    fold("job 4096", 16, "C000*4096", 4098, 0, 0, 4096, "C000*4096");
    fold("job 4096, output of 4095", 16, "C000*4096", 4095, 11, 0, 0, "");
    fold("job 4097", 16, "C000*4097", 4098, 3, 0, 0, "");
    fold("N 0, job 4097", 0, "C000*4097", 4098, 1, 0, 0, "");
    fold("output of 21 words", 16, P11, 21, 0, 0, 21, P11_FOLDED);
    fold("output of 20 words", 16, P11, 20, 11, 0, 0, "");
    fold("output of no words", 16, P11, 0, 11, 0, 0, "");
    fold("odd store, output of 1 word", 16, "C000 8000 0011 0000", 1, 6, 1, 0, "");
    fold("no step, output of 1 word", 16, "C000 C000 0001", 1, 4, 2, 0, "");
    fold("empty job", 16, "", 28, 0, 0, 0, "");
    fold("empty job, output of no words", 16, "", 0, 0, 0, 0, "");
    fold("20 blits of 64 words", 262144, CLEAR_AT_8 TWENTY("0058 0040 "), 8192, 0, 0, 3950, twenty_folded(""));
    fold("21 blits of 64 words", 262144, CLEAR_AT_8 TWENTY("0058 0040 ") "0058 0040", 8192, 11, 0, 0, "");
    fold("20 blits and 146 flags", 262144, CLEAR_AT_8 TWENTY("0058 0040 ") "C000*146", 8192, 0, 0, 4096,
         twenty_folded("C000*146"));
    fold("20 blits and 147 flags", 262144, CLEAR_AT_8 TWENTY("0058 0040 ") "C000*147", 8192, 11, 0, 0, "");
}

static void settled(void)
{
    fold("function FF", 16, "0040 01FF 0042 0000 0054 0000 0056 0010 0066 0000 0058 0042", 28, 0, 0, 21,
         "0040 01FF 0042 0000 0054 0000 0056 0010 0066 0000 8000 0010 FFFF 8000 0012 FFFF 0054 0000 0056 0014 C000");
    fold("function F0, one mask known", 16,
         "0040 01F0 0042 0000 0044 FFFF 0054 0000 0056 0010 0066 0000 0074 1234 0058 0042", 28, 0, 0, 16,
         "0040 01F0 0042 0000 0044 FFFF 0054 0000 0056 0010 0066 0000 0074 1234 0058 0042");
    fold("function F0, both masks known", 16,
         "0040 01F0 0042 0000 0044 FFFF 0046 00FF 0054 0000 0056 0010 0066 0000 0074 1234 0058 0042", 28, 0, 0, 27,
         "0040 01F0 0042 0000 0044 FFFF 0046 00FF 0054 0000 0056 0010 0066 0000 0074 1234 8000 0010 1234 8000 0012 0034"
         " 0054 0000 0056 0014 C000");
    fold("two rows, modulo 0004", 16, "0040 0100 0042 0000 0054 0000 0056 0010 0066 0004 0058 0081", 28, 0, 0, 21,
         "0040 0100 0042 0000 0054 0000 0056 0010 0066 0004 8000 0010 0000 8000 0016 0000 0054 0000 0056 001C C001");
    fold("two rows descending, modulo 0004", 16, "0040 0100 0042 0002 0054 0000 0056 0010 0066 0004 0058 0081", 28,
         0, 0, 21,
         "0040 0100 0042 0002 0054 0000 0056 0010 0066 0004 8000 0010 0000 8000 000A 0000 0054 0000 0056 0004 C001");
    fold("raw bits in copied writes", 16, "0040 0100 0042 0000 0054 FFF8 0056 0011 0066 0001 0058 0041", 28, 0, 0, 18,
         "0040 0100 0042 0000 0054 FFF8 0056 0011 0066 0001 8000 0010 0000 0054 0000 0056 0012 C001");
}

static void knowledge(void)
{
    fold("two settled blits", 16, CLEAR_AT_8 "0058 0041 0058 0041", 28, 0, 0, 26,
         CLEAR_AT_8 "8000 0010 0000 0054 0000 0056 0012 C001 8000 0012 0000 0054 0000 0056 0014 C001");
    fold("after a kept blit", 9, CLEAR_AT_8 "0058 0042 0058 0041", 28, 0, 0, 14, CLEAR_AT_8 "0058 0042 0058 0041");
    fold("after a kept blit that uses no channel", 16,
         "0040 0000 0042 0000 0054 0000 0056 0010 0066 0000 0058 0041 0040 0100 0058 0041", 28, 0, 0, 22,
         "0040 0000 0042 0000 0054 0000 0056 0010 0066 0000 0058 0041 0040 0100 8000 0010 0000"
         " 0054 0000 0056 0012 C001");
    fold("after a kept blit with BLTCON0 not known", 16,
         "0042 0000 0054 0000 0056 0010 0066 0000 0058 0041 0040 0100 0058 0041", 28, 0, 0, 14,
         "0042 0000 0054 0000 0056 0010 0066 0000 0058 0041 0040 0100 0058 0041");
    fold("after a kept blit, the pointer written anew", 9, CLEAR_AT_8 "0058 0042 0054 0000 0056 0010 0058 0041", 28,
         0, 0, 24, CLEAR_AT_8 "0058 0042 0054 0000 0056 0010 8000 0010 0000 0054 0000 0056 0012 C001");
    fold("after a store at N or above", 16, "8007 FFFE 1234 " CLEAR_AT_8 "0058 0041", 28, 0, 0, 21,
         "8007 FFFE 1234 " CLEAR_AT_8 "8000 0010 0000 0054 0000 0056 0012 C001");
    fold("store and flag copied", 16, "8000 0010 ABCD C001 C000", 28, 0, 0, 5, "8000 0010 ABCD C001 C000");
    fold("a line, both fills and a fill upward copied", 16,
         CLEAR_AT_8 "0042 0001 0058 0041 0042 0018 0058 0041 0042 0008 0058 0041", 28, 0, 0, 22,
         CLEAR_AT_8 "0042 0001 0058 0041 0042 0018 0058 0041 0042 0008 0058 0041");
}

static void refused(void)
{
    fold("0002 at place 2", 16, "0040 0100 0002", 28, 4, 2, 0, "");
    fold("store cut off", 16, "C000 8000 0010", 28, 5, 1, 0, "");
    fold("write cut off", 16, "C000 0040", 28, 5, 1, 0, "");
    fold("odd store after a settled blit", 16, CLEAR_AT_8 "0058 0041 8000 0011 0000", 28, 6, 12, 0, "");
}

void foldings(void)
{
    papers();
    lengths();
    settled();
    knowledge();
    refused();
}
