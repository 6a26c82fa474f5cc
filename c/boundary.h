/* What the parts of the boundary test share. Runs of words are written in hex; 0000*16 is sixteen words of 0000. */
#ifndef BOUNDARY_H
#define BOUNDARY_H

#include <stddef.h>
#include <stdint.h>

#define SAME NULL  /* as it was before the call */

/* A call with what goes in, then what must come out: the numbers, and memory and file or the folded job. No pointer
 * goes round in it, or no blit is kept for that alone: *round must be 0. The output of a folding holds EEEE before it,
 * and must hold EEEE wherever no folded job stands. */
void blit(const char *name, const char *ram, const char *file, uint16_t size,
          uint32_t number, uint32_t stored, const char *ram_after, const char *file_after);
void run(const char *name, const char *ram, const char *file, const char *job,
         uint32_t number, uint32_t place, uint32_t stored, const char *ram_after, const char *file_after);
void fold(const char *name, size_t ram_words, const char *job, size_t out_words,
          uint32_t number, uint32_t place, uint32_t length, const char *folded);

/* The same where a pointer goes round, or a blit is kept for that alone: *round must be 1. */
void round_blit(const char *name, const char *ram, const char *file, uint16_t size,
                uint32_t number, uint32_t stored, const char *ram_after, const char *file_after);
void round_run(const char *name, const char *ram, const char *file, const char *job,
               uint32_t number, uint32_t place, uint32_t stored, const char *ram_after, const char *file_after);
void round_fold(const char *name, size_t ram_words, const char *job, size_t out_words,
                uint32_t number, uint32_t place, uint32_t length, const char *folded);

/* An old file, and the words of a target that holds EEEE before; afterwards it holds the new file, and EEEE wherever that
 * doesn't stand. */
void widen(const char *name, const char *old, size_t target_words, uint32_t number, const char *new_file);

/* A frame from a place of the beam on: by desk_frame_from, and where that place is 0 by desk_frame too. */
void frame(const char *name, const char *ram, const char *file, uint32_t beam, uint32_t start, uint32_t lent,
           uint32_t why, uint32_t number, uint32_t done, uint32_t word, uint32_t place,
           const char *ram_after, const char *file_after);

/* A line of picture; where its planes begin is written in decimal. Memory, file and planes must stay as they are. The
 * output holds EEEE before; afterwards it begins with the line, and holds EEEE wherever that doesn't stand. */
void picture(const char *name, const char *ram, const char *file, const char *planes, uint32_t words,
             uint32_t odd_delay, uint32_t even_delay, size_t out_words,
             uint32_t number, const char *line);

void blits(void);
void runs(void);
void foldings(void);
void screens(void);
void frames(void);
void pictures(void);
void lines(void);
void rounds(void);

#endif
