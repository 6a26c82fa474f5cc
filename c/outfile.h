/* A file written whole or not at all. */
#ifndef OUTFILE_H
#define OUTFILE_H

#include <stdbool.h>
#include <stdio.h>

/* Writes a file by the function, which is handed the stream and what it writes. All goes to NAME.part, which mustn't be
 * there, and that is then renamed. NAME must be free or a regular file that may be written. False, after a message on
 * standard error, if that can't be done; then what stood under the name is as it was. */
bool write_whole(const char *name, void (*write)(FILE *stream, const void *what), const void *what);

#endif
