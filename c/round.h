/* Where pointers go round: paper 02's W12, told blit by blit. That a blit went round, or was kept for that, the archive
 * says; where it did is reckoned here. */
#ifndef ROUND_H
#define ROUND_H

#include <stdbool.h>
#include <stddef.h>
#include <stdint.h>

#include "jobfile.h"
#include "machine.h"

/* Tells where a run went round, of which round says whether it did: 'went round: yes' and a line for each blit, with
 * the place of its write of BLTSIZE, and for each channel the row, in a line the dot, behind whose word it first went
 * round and from which byte to which. Where it didn't, nothing. The job is run once more, in parts, on the machine.
 * Answers whether what is reckoned agrees with what the archive says of each blit; where not, says so on standard
 * error. */
bool print_rounds(const struct jobfile *jobfile, struct machine *machine, uint32_t round);

/* The same of the blits that a folding for so many words of memory, which is done, kept for going round alone, under
 * 'kept for going round: yes'. */
bool print_kept_rounds(const uint16_t *job, size_t words, size_t ram_words, uint32_t round);

#endif
