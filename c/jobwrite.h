/* A job file written. */
#ifndef JOBWRITE_H
#define JOBWRITE_H

#include <stdbool.h>

#include "jobfile.h"

/* Writes a job file that reads back as what is given, but for a folds line, which it hasn't. Its first line is a
 * comment: the file original, folded for this memory. It is written whole or, after a message on standard error, not at
 * all, and then this is false. */
bool jobfile_write(const struct jobfile *jobfile, const char *original, const char *name);

#endif
