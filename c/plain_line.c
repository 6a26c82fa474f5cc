/* The line of paper 01, "Kept for lines and Copper lists", dot by dot, with the refusals of paper 02's W3, what that
 * leaves in the register file, and W12's yes for C's pointer. */
#include "plain_parts.h"

enum { SIGN = 0x40, SUD = 0x10, SUL = 0x08, AUL = 0x04, SING = 0x02 };
enum { WORD_BITS = 16, LINE_WIDTH = 2, LINE_USES = USE_A | USE_C | USE_D };

/* A line on its way. */
struct line {
    uint32_t dots;
    uint32_t at;            /* C's pointer, which D's follows: a word number below POINTERS */
    int32_t half_modulo;    /* half of C's modulo */
    uint16_t mark;          /* A's data, masked */
    uint32_t shift;         /* of A */
    uint16_t texture;       /* B's data */
    uint32_t texture_bit;   /* of this dot */
    uint16_t minterm[8];
    uint16_t accumulator;   /* the low half of A's pointer */
    uint16_t a_modulo, b_modulo;
    bool sign;
    bool sometimes_is_vertical, sometimes_is_up_or_left, always_is_up_or_left;
    bool single;
    bool moved_vertically;  /* since the dot before */
};

static uint32_t pointer(const uint16_t *file, int high)
{
    return ((uint32_t)file[high] << 16 | file[high + 1]) / 2;
}

static struct line line_of(const uint16_t *file, uint16_t size)
{
    uint16_t con1 = file[BLTCON1];
    struct line line;
    line.dots = plain_height(size);
    line.at = pointer(file, BLTCPTH);
    line.half_modulo = (int16_t)file[BLTCMOD] / 2;
    line.mark = file[BLTADAT] & file[BLTAFWM];
    line.shift = file[BLTCON0] >> 12;
    line.texture = file[BLTBDAT];
    line.texture_bit = con1 >> 12;
    plain_minterms(file[BLTCON0], line.minterm);
    line.accumulator = file[BLTAPTL];
    line.a_modulo = file[BLTAMOD];
    line.b_modulo = file[BLTBMOD];
    line.sign = con1 & SIGN;
    line.sometimes_is_vertical = con1 & SUD;
    line.sometimes_is_up_or_left = con1 & SUL;
    line.always_is_up_or_left = con1 & AUL;
    line.single = con1 & SING;
    line.moved_vertically = false;
    return line;
}

/* The two moves of C's pointer give whether it went round. */
static bool move_vertically(struct line *line, bool up)
{
    line->moved_vertically = true;
    return plain_moved(&line->at, up ? -line->half_modulo : line->half_modulo);
}

static bool move_horizontally(struct line *line, bool left)
{
    bool round = false;
    if (left) {
        if (line->shift == 0)
            round = plain_moved(&line->at, -1);
        line->shift = (line->shift + WORD_BITS - 1) % WORD_BITS;
    } else {
        if (line->shift == WORD_BITS - 1)
            round = plain_moved(&line->at, 1);
        line->shift = (line->shift + 1) % WORD_BITS;
    }
    return round;
}

static bool move(struct line *line, bool vertical, bool up_or_left)
{
    return vertical ? move_vertically(line, up_or_left) : move_horizontally(line, up_or_left);
}

/* After every dot, the last too. Moves and accumulator go by the sign that the dot before had. Gives whether either
 * move went round; what the accumulator does is no move. */
static bool step(struct line *line)
{
    bool round = false;
    line->moved_vertically = false;
    if (!line->sign)
        round |= move(line, line->sometimes_is_vertical, line->sometimes_is_up_or_left);
    round |= move(line, !line->sometimes_is_vertical, line->always_is_up_or_left);
    line->accumulator += line->sign ? line->b_modulo : line->a_modulo;
    line->sign = line->accumulator >> 15 & 1;
    line->texture_bit = (line->texture_bit + WORD_BITS - 1) % WORD_BITS;
    return round;
}

/* Whether a dot's word, stored or not, lies at N or above. Where the last step ends, nothing is touched. */
static bool leaves(struct line line, size_t ram_words)
{
    for (uint32_t dot = 0; dot < line.dots; dot++) {
        if (line.at >= ram_words)
            return true;
        step(&line);
    }
    return false;
}

uint32_t plain_line_refusal(const uint16_t *file, size_t ram_words, uint16_t size)
{
    if (plain_width(size) != LINE_WIDTH || (file[BLTCON0] & USES) != LINE_USES)
        return 18;
    if (pointer(file, BLTCPTH) != pointer(file, BLTDPTH))
        return 19;
    return leaves(line_of(file, size), ram_words) ? 16 : 0;
}

/* The dot's word: A is the mark moved to its place, B the texture's bit throughout. */
static uint16_t word_of(const struct line *line, uint16_t c)
{
    uint16_t a = line->mark >> line->shift;
    uint16_t b = line->texture >> line->texture_bit & 1 ? 0xFFFF : 0;
    return plain_logic(line->minterm, a, b, c);
}

static void keep_pointer(uint16_t *file, int high, uint32_t at)
{
    file[high] = at * 2 >> 16;
    file[high + 1] = at * 2 & 0xFFFF;
}

/* A dot is stored before the next is fetched. The flag goes by the words stored; no other register changes. C comes
 * from its pointer at every dot, stored or not, so that every step but the one behind the last dot counts. */
uint32_t plain_line_done(uint16_t *ram, uint16_t *file, uint16_t size, bool *round)
{
    struct line line = line_of(file, size);
    uint32_t stored = 0;
    uint16_t ones = 0;
    *round = false;
    for (uint32_t dot = 0; dot < line.dots; dot++) {
        if (!line.single || dot == 0 || line.moved_vertically) {
            uint16_t word = word_of(&line, ram[line.at]);
            ram[line.at] = word;
            ones |= word;
            stored++;
        }
        if (step(&line) && dot + 1 < line.dots)
            *round = true;
    }
    file[BLTAPTL] = line.accumulator;
    keep_pointer(file, BLTCPTH, line.at);
    keep_pointer(file, BLTDPTH, line.at);
    file[ZERO_FLAG] = ones == 0;
    return stored;
}
