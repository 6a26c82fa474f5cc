#include "line.h"

enum { SIGN = 0x0040, ONE_DOT = 0x0002, LINE_WIDTH = 2, DOT = 0x8000, SOLID = 0xFFFF, LONGEST = 1023 };

struct octant {
    unsigned number;
    const char *always, *sometimes;
};

/* The manual's table, in the order of BLTCON1's bits 4 to 2. */
static const struct octant octants[] = {
    {6, "down", "right"}, {1, "up", "right"}, {5, "down", "left"}, {2, "up", "left"},
    {7, "right", "down"}, {4, "left", "down"}, {0, "right", "up"}, {3, "left", "up"},
};

static const struct octant *octant_of(uint16_t con1)
{
    return &octants[con1 >> 2 & 7];
}

static int as_signed(uint16_t word)
{
    return word & 0x8000 ? (int)word - 0x10000 : (int)word;
}

void add_uses(char line[LINE_ROOM], uint16_t con0)
{
    if (con0 & USES)
        add(line, "use%s%s%s%s", con0 & USE_A ? " A" : "", con0 & USE_B ? " B" : "", con0 & USE_C ? " C" : "",
            con0 & USE_D ? " D" : "");
    else
        add(line, "use no channel");
}

void add_line_control(char line[LINE_ROOM], uint16_t con1)
{
    add(line, "line, octant %u, sign %u, texture from bit %u", octant_of(con1)->number, con1 & SIGN ? 1u : 0u,
        (unsigned)con1 >> 12);
    if (con1 & ONE_DOT)
        add(line, ", one dot a row");
}

bool add_line_register(char line[LINE_ROOM], size_t reg, uint16_t kept)
{
    if (reg == BLTAFWM)
        add(line, "mask of the dot");
    else if (reg == BLTALWM)
        add(line, "no part in a line");
    else if (reg == BLTAPTL)
        add(line, "accumulator: %d", as_signed(kept));
    else if (reg == BLTAMOD)
        add(line, "added with sign 0: %d", as_signed(kept));
    else if (reg == BLTBMOD)
        add(line, "added with sign 1: %d", as_signed(kept));
    else if (reg == BLTBDAT)
        add(line, "texture");
    else if (reg == BLTADAT)
        add(line, "dot");
    else
        return false;
    return true;
}

/* A register as a signed number. */
static void add_number(char line[LINE_ROOM], const struct known *known, size_t reg)
{
    if (known->said[reg])
        add(line, "%d", as_signed(known->file[reg]));
    else
        add(line, "?");
}

static void add_dots(char line[LINE_ROOM], const struct known *known, uint16_t size)
{
    unsigned dots = size_height(size), width = size_width(size);
    bool form_known = known->said[BLTADAT] && known->said[BLTAFWM];
    unsigned form = known->file[BLTADAT] & known->file[BLTAFWM];

    add(line, "%u dot%s", dots, plural(dots));
    if (!form_known)
        add(line, " of form ?");
    else if (form != DOT)
        add(line, " of form %04X", form);
    if (width != LINE_WIDTH)
        add(line, ", width %u,", width);
}

static bool pointer_known(const struct known *known, size_t high)
{
    return known->said[high] && known->said[high + 1];
}

static unsigned long pointer(const struct known *known, size_t high)
{
    return (unsigned long)known->file[high] << 16 | known->file[high + 1];
}

static void add_byte(char line[LINE_ROOM], const struct known *known, size_t high)
{
    if (pointer_known(known, high))
        add(line, " from byte %05lX", pointer(known, high));
    else
        add(line, " from byte ?");
}

/* Whether it is to be told where D is: not where C is, or not known of one of the two alone. */
static bool apart(const struct known *known)
{
    bool c = pointer_known(known, BLTCPTH), d = pointer_known(known, BLTDPTH);

    return c && d ? pointer(known, BLTCPTH) != pointer(known, BLTDPTH) : c || d;
}

static void add_start(char line[LINE_ROOM], const struct known *known)
{
    uint16_t con0 = known->file[BLTCON0];

    add_byte(line, known, BLTCPTH);
    if (!known->said[BLTCON0])
        add(line, " pixel ?");
    else
        add(line, " pixel %u", (unsigned)con0 >> 12);
    if (apart(known)) {
        add(line, ", D");
        add_byte(line, known, BLTDPTH);
    }
    if (known->said[BLTCON0] && (con0 & USES) != (USE_A | USE_C | USE_D)) {
        add(line, ", ");
        add_uses(line, con0);
    }
}

static void add_octant(char line[LINE_ROOM], uint16_t con1)
{
    const struct octant *octant = octant_of(con1);

    add(line, ", octant %u (always %s, sometimes %s)", octant->number, octant->always, octant->sometimes);
}

/* Whether the modulos are those of a line by the manual, and which: dy sometimes moves in dx always moves. */
static bool manual_slope(const struct known *known, int *dy, int *dx)
{
    int a = as_signed(known->file[BLTAMOD]), b = as_signed(known->file[BLTBMOD]);

    *dy = b / 4;
    *dx = (b - a) / 4;
    return known->said[BLTAMOD] && known->said[BLTBMOD] && a % 4 == 0 && b % 4 == 0 && a <= 0 && b >= 0
        && *dx <= LONGEST;
}

static void add_accumulator(char line[LINE_ROOM], const struct known *known)
{
    add(line, ", accumulator ");
    add_number(line, known, BLTAPTL);
    add(line, ", sign %u", known->file[BLTCON1] & SIGN ? 1u : 0u);
}

static void add_slope(char line[LINE_ROOM], const struct known *known)
{
    int dy, dx;

    if (manual_slope(known, &dy, &dx)) {
        int start = 4 * dy - 2 * dx;
        bool sign = known->file[BLTCON1] & SIGN;

        add(line, ", slope %d in %d", dy, dx);
        if (!known->said[BLTAPTL] || as_signed(known->file[BLTAPTL]) != start || sign != (start < 0))
            add_accumulator(line, known);
        return;
    }
    add(line, ", adds ");
    add_number(line, known, BLTAMOD);
    add(line, " with sign 0 and ");
    add_number(line, known, BLTBMOD);
    add(line, " with sign 1");
    add_accumulator(line, known);
}

static void add_texture(char line[LINE_ROOM], const struct known *known)
{
    unsigned first = known->file[BLTCON1] >> 12;

    if (!known->said[BLTBDAT])
        add(line, ", texture ? from bit %u", first);
    else if (known->file[BLTBDAT] == SOLID)
        add(line, ", solid");
    else
        add(line, ", texture %04X from bit %u", (unsigned)known->file[BLTBDAT], first);
}

void add_line(char line[LINE_ROOM], const struct known *known, uint16_t size)
{
    uint16_t con1 = known->file[BLTCON1];

    add_dots(line, known, size);
    add_start(line, known);
    add_octant(line, con1);
    add_slope(line, known);
    add_texture(line, known);
    if (con1 & ONE_DOT)
        add(line, ", one dot a row");
}
