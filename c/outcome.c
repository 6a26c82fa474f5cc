#include "outcome.h"

#include <stdio.h>

void print_answer(uint32_t number, uint32_t place)
{
    printf("number %lu: %s\n", (unsigned long)number, number_meaning(number));
    printf("place %lu\n", (unsigned long)place);
}

const char *picture_meaning(uint32_t number)
{
    return number == 10 ? "a bit plane with a word that memory doesn't have" : number_meaning(number);
}

/* Bit 15 is the leftmost pixel. */
static void print_pixels(uint16_t word)
{
    fputs("  ", stdout);
    for (unsigned bit = 16; bit-- > 0;)
        putchar(word >> bit & 1 ? '#' : '.');
}

static void print_changed_word(size_t at, uint16_t before, uint16_t after, bool pixels)
{
    printf("  byte %05lX  word %6lu  %04X -> %04X", (unsigned long)at * 2, (unsigned long)at, (unsigned)before,
           (unsigned)after);
    if (pixels)
        print_pixels(after);
    putchar('\n');
}

void print_changed_words(const uint16_t *before, const uint16_t *after, size_t words, bool pixels)
{
    unsigned long changed = 0;

    for (size_t at = 0; at < words; at++)
        changed += before[at] != after[at];
    printf("words changed: %lu\n", changed);
    for (size_t at = 0; at < words; at++)
        if (before[at] != after[at])
            print_changed_word(at, before[at], after[at], pixels);
}

void print_changed_registers(const uint16_t before[FILE_WORDS], const uint16_t after[FILE_WORDS])
{
    unsigned long changed = 0;

    for (size_t reg = 0; reg < FILE_WORDS; reg++)
        changed += before[reg] != after[reg];
    printf("registers changed: %lu\n", changed);
    for (size_t reg = 0; reg < FILE_WORDS; reg++)
        if (before[reg] != after[reg])
            printf("  %-7s  %04X -> %04X\n", register_name(reg), (unsigned)before[reg], (unsigned)after[reg]);
}
