/* A line as text, by paper 01's rule for lines and the manual's table of octants. */
#ifndef LINE_H
#define LINE_H

#include <stdint.h>

#include "known.h"
#include "text.h"

/* Adds the channels that BLTCON0 uses. */
void add_uses(char line[LINE_ROOM], uint16_t con0);

/* Adds what BLTCON1 says of a line: octant, sign, the texture's first bit, one dot a row. */
void add_line_control(char line[LINE_ROOM], uint16_t con1);

/* Adds the sense that a register has in a line alone, and answers whether it has one: the dot, its masks, the texture,
 * the accumulator and what is added to it. */
bool add_line_register(char line[LINE_ROOM], size_t reg, uint16_t kept);

/* Adds a line, of which BLTCON1 must be known: its dots, start, octant, slope and texture. What isn't known is a question
 * mark. The slope is dy in dx where the manual's set-up holds, 4 x (dy - dx) in the A modulo and 4 x dy in B's; otherwise
 * what is added is told. What else the manual asks for is told only where it is otherwise or isn't known: width 2, dots
 * of the form 8000, D where C is, the use of A, C and D, an accumulator that starts at 4 x dy - 2 x dx, and its sign. */
void add_line(char line[LINE_ROOM], const struct known *known, uint16_t size);

#endif
