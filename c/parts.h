/* A job run in parts. */
#ifndef PARTS_H
#define PARTS_H

#include <stddef.h>
#include <stdint.h>

#include "jobfile.h"
#include "machine.h"

/* A write of BLTSIZE in a run: its place and size, the registers as the run had come to them, and how it ended by
 * itself: its number, the words that it stored, and whether it went round. */
struct start {
    size_t place;
    uint16_t size;
    uint16_t file[FILE_WORDS];
    uint32_t number, count, round;
};

/* Runs the file's job in parts, each ending before a write of BLTSIZE or being that write alone, on a machine that
 * begins as the file says. Each such write is told to visit, with what is handed on. Gives how the run ended. */
struct run run_in_parts(const struct jobfile *jobfile, struct machine *machine,
                        void (*visit)(const struct start *start, void *with), void *with);

#endif
