/* The picture of paper 02, W9: what the screen shows of one line, low resolution, one to five bit planes. */
#include "plain.h"
#include "plain_parts.h"

enum { MOST_PLANES = 5, MOST_WORDS = 40, MOST_DELAY = 15, WORD_PIXELS = 16 };

/* What a line is made of; plane 1 is planes[0]. */
struct line {
    const uint16_t *ram;
    const uint32_t *planes;
    size_t plane_count;
    uint32_t words, odd_delay, even_delay;
};

static bool line_lawful(const struct line *line)
{
    return line->plane_count >= 1 && line->plane_count <= MOST_PLANES && line->words >= 1 && line->words <= MOST_WORDS
        && line->odd_delay <= MOST_DELAY && line->even_delay <= MOST_DELAY;
}

/* In 64 bits, where start and words together don't go round. */
static bool planes_in_memory(const struct line *line, size_t ram_words)
{
    for (size_t i = 0; i < line->plane_count; i++)
        if ((uint64_t)line->planes[i] + line->words > ram_words)
            return false;
    return true;
}

/* The leftmost pixel of a word is its bit 15; before a delayed plane begins its pixels are 0. */
static uint32_t pixel_of_plane(const struct line *line, size_t plane, uint32_t pixel)
{
    uint32_t delay = plane % 2 == 1 ? line->odd_delay : line->even_delay;
    if (pixel < delay)
        return 0;
    uint32_t bit = pixel - delay;
    uint16_t word = line->ram[line->planes[plane - 1] + bit / WORD_PIXELS];
    return word >> (15 - bit % WORD_PIXELS) & 1;
}

static uint32_t colour_number(const struct line *line, uint32_t pixel)
{
    uint32_t number = 0;
    for (size_t plane = 1; plane <= line->plane_count; plane++)
        number |= pixel_of_plane(line, plane, pixel) << (plane - 1);
    return number;
}

static uint32_t refusal(const struct line *line, size_t ram_words, const uint16_t *file, size_t file_words,
                        size_t out_words)
{
    if (!plain_memory_lawful(ram_words))
        return 1;
    if (!plain_file_lawful(file, file_words))
        return 2;
    if (!line_lawful(line))
        return 24;
    if (out_words < WORD_PIXELS * line->words)
        return 25;
    return planes_in_memory(line, ram_words) ? 0 : 10;
}

void plain_picture(const uint16_t *ram, size_t ram_words, const uint16_t *file, size_t file_words,
                   const uint32_t *planes, size_t plane_count, uint32_t words, uint32_t odd_delay, uint32_t even_delay,
                   uint16_t *out, size_t out_words, uint32_t *number)
{
    struct line line = {ram, planes, plane_count, words, odd_delay, even_delay};
    *number = refusal(&line, ram_words, file, file_words, out_words);
    if (*number != 0)
        return;
    for (uint32_t pixel = 0; pixel < WORD_PIXELS * words; pixel++)
        out[pixel] = file[COLOR00 + colour_number(&line, pixel)];
}
