/* pictures ENGINE PLANES WORDS ODD EVEN TIMES: writes a line of picture so many times with an engine, desk or plain.
 * ODD and EVEN are the delays. First both engines write it once, and the two must be alike; that costs the same
 * whatever TIMES is, so it falls out of the difference of two counts. Prints the pixels of the line. */
#include <stdio.h>
#include <stdlib.h>
#include <string.h>

#include "../c/plain.h"
#include "desk.h"

enum { MOST_PLANES = 5, MOST_WORDS = 40, WORD_PIXELS = 16, RAM_WORDS = MOST_PLANES * MOST_WORDS };
enum { FILE_WORDS = 53, COLOR00 = 20, COLOURS = 32, OUT_WORDS = WORD_PIXELS * MOST_WORDS };

typedef void picture_call(const uint16_t *ram, size_t ram_words, const uint16_t *file, size_t file_words,
                          const uint32_t *planes, size_t plane_count, uint32_t words,
                          uint32_t odd_delay, uint32_t even_delay, uint16_t *out, size_t out_words, uint32_t *number);

static uint16_t ram[RAM_WORDS], file[FILE_WORDS], out[OUT_WORDS], other_out[OUT_WORDS];
static uint32_t planes[MOST_PLANES], plane_count, words_a_line, odd_delay, even_delay;

static void fail(const char *why)
{
    fprintf(stderr, "pictures: %s\n", why);
    exit(1);
}

/* Mixed words, no two colours alike, and the planes one behind the other. */
static void set_up(void)
{
    uint32_t mixed = 1985;
    for (size_t i = 0; i < RAM_WORDS; i++) {
        mixed = mixed * 1664525 + 1013904223;
        ram[i] = mixed >> 16;
    }
    for (size_t i = 0; i < COLOURS; i++)
        file[COLOR00 + i] = 0x123 * (i + 1) & 0x0FFF;
    for (size_t i = 0; i < MOST_PLANES; i++)
        planes[i] = i * words_a_line;
}

static void once(picture_call *engine, uint16_t *line)
{
    uint32_t number;
    engine(ram, RAM_WORDS, file, FILE_WORDS, planes, plane_count, words_a_line, odd_delay, even_delay, line, OUT_WORDS,
           &number);
    if (number != 0)
        fail("the picture is refused");
}

int main(int words, char **word)
{
    if (words != 7)
        fail("usage: pictures desk|plain PLANES WORDS ODD EVEN TIMES");
    picture_call *engine = strcmp(word[1], "desk") == 0 ? desk_picture : plain_picture;
    plane_count = strtoul(word[2], NULL, 10);
    words_a_line = strtoul(word[3], NULL, 10);
    odd_delay = strtoul(word[4], NULL, 10);
    even_delay = strtoul(word[5], NULL, 10);
    set_up();
    once(desk_picture, out);
    once(plain_picture, other_out);
    if (memcmp(out, other_out, sizeof out) != 0)
        fail("the engines write different lines");
    for (unsigned long times = strtoul(word[6], NULL, 10); times > 0; times--)
        once(engine, out);
    printf("%lu\n", (unsigned long)(WORD_PIXELS * words_a_line));
    return 0;
}
