/* Copper lists: one frame of them, and the command that traces it. */
#ifndef COPPER_H
#define COPPER_H

#include <stdint.h>

#include "jobfile.h"
#include "machine.h"

/* How a frame ended. */
struct frame {
    uint32_t why, number, done, word, place;
};

/* Does a list's frame in one call, with so many instructions lent, on a machine that begins as the file says. */
struct frame frame_of(const struct jobfile *list, uint32_t lent, struct machine *machine);

/* Why a frame ended, in words. */
const char *why_meaning(uint32_t why);

/* desk copper LENT NAME; gives the exit status. */
int copper_command(const char *lent, const char *name);

#endif
