#include "known.h"

#include <string.h>

enum { LINE = 0x0001 };

struct known nothing_known(void)
{
    struct known known = {{false}, {0}};

    return known;
}

struct known all_known(const uint16_t file[FILE_WORDS])
{
    struct known known;

    memset(known.said, true, sizeof known.said);
    memcpy(known.file, file, sizeof known.file);
    return known;
}

void know(struct known *known, size_t reg, uint16_t value)
{
    known->said[reg] = true;
    known->file[reg] = register_kept(reg, value);
}

void forget(struct known *known, size_t reg)
{
    known->said[reg] = false;
}

/* Both halves, of which the high one is named. */
static void forget_pointer(struct known *known, size_t high)
{
    forget(known, high);
    forget(known, high + 1);
}

static void forget_line(struct known *known)
{
    forget(known, BLTAPTL);
    forget_pointer(known, BLTCPTH);
    forget_pointer(known, BLTDPTH);
}

static void forget_area(struct known *known)
{
    uint16_t uses = known->said[BLTCON0] ? known->file[BLTCON0] : USES;

    if (uses & USE_A)
        forget_pointer(known, BLTAPTH), forget(known, BLTADAT);
    if (uses & USE_B)
        forget_pointer(known, BLTBPTH), forget(known, BLTBDAT);
    if (uses & USE_C)
        forget_pointer(known, BLTCPTH), forget(known, BLTCDAT);
    if (uses & USE_D)
        forget_pointer(known, BLTDPTH);
}

void forget_blit(struct known *known)
{
    if (line_known(known))
        forget_line(known);
    else
        forget_area(known);
}

bool line_known(const struct known *known)
{
    return known->said[BLTCON1] && known->file[BLTCON1] & LINE;
}
