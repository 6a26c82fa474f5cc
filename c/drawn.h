/* The lines that a run draws, told one by one. */
#ifndef DRAWN_H
#define DRAWN_H

#include <stdbool.h>

#include "jobfile.h"
#include "machine.h"

/* Runs the file's job in parts on a machine that begins as the file says. Prints each line that is started, by the
 * registers as the run has come to them, with the words that it stored or the number that refused it. Gives how the run
 * ended, and whether there was a line. */
struct run print_drawn(const struct jobfile *jobfile, struct machine *machine, bool *drew);

#endif
