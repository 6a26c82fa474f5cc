/* A job as text: one step a line, with its place, its words and its sense. */
#ifndef LISTING_H
#define LISTING_H

#include <stdbool.h>
#include <stddef.h>
#include <stdint.h>

#include "known.h"
#include "text.h"

struct listing {
    const uint16_t *job;
    size_t words;
    size_t place;      /* of the next step; words at the end, and after a step that is refused */
    size_t high;       /* the register of a pointer's high half if the step before wrote one, else FILE_WORDS */
    uint16_t high_value;
    struct known known;  /* the registers as the steps before wrote them */
    size_t until;        /* the place behind the next write of BLTSIZE, if it was looked for, .. */
    bool line;           /* .. and whether that write starts a line */
};

/* Adds the sense of a register write. A pointer's low half is read together with its high half if the write before, as
 * remembered in the listing, was of that. In a job, where the next blit is a line the sense is the line's. */
void add_register(char line[LINE_ROOM], const struct listing *listing, size_t reg, uint16_t value);
void remember_write(struct listing *listing, size_t reg, uint16_t value);

/* Adds what a write of BLTSIZE starts: a line if it is known for one, else the rows and words of a blit. */
void add_blit(char line[LINE_ROOM], const struct known *known, uint16_t size);

struct listing listing_of(const uint16_t *job, size_t words);

/* Puts the next step's line into line and answers 1; at the end answers 0 and leaves line empty. The second gives it as
 * a job file has it: the step's words, and its sense as a comment. */
int listing_next(struct listing *listing, char line[LINE_ROOM]);
int written_next(struct listing *listing, char line[LINE_ROOM]);

/* The whole listing on standard output. */
void print_listing(const uint16_t *job, size_t words);

/* A job and its folding side by side on standard output, a settled blit beside the steps it became. */
void print_beside(const uint16_t *job, size_t words, const uint16_t *folded, size_t length);

#endif
