/* The registers as far as it is known what they hold: all in a run, in a listing those that the job itself wrote. */
#ifndef KNOWN_H
#define KNOWN_H

#include <stdbool.h>
#include <stddef.h>
#include <stdint.h>

#include "step.h"

/* Bits of BLTCON0. */
enum { USE_A = 0x0800, USE_B = 0x0400, USE_C = 0x0200, USE_D = 0x0100, USES = USE_A | USE_B | USE_C | USE_D };

struct known {
    bool said[FILE_WORDS];
    uint16_t file[FILE_WORDS];
};

struct known nothing_known(void);
struct known all_known(const uint16_t file[FILE_WORDS]);

/* A write makes a register known, with the bits that it keeps. */
void know(struct known *known, size_t reg, uint16_t value);
void forget(struct known *known, size_t reg);

/* What a blit changes isn't known any more: of an area blit the pointers and data registers of the channels in use, of a
 * line the A pointer's low half and the pointers of C and D. Where BLTCON0 isn't known an area blit may use any channel;
 * where BLTCON1 isn't known the blit is taken for an area blit, which changes what a line would change and more. */
void forget_blit(struct known *known);

/* Whether it is known that a blit would be a line. */
bool line_known(const struct known *known);

#endif
