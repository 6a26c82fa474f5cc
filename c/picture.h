/* A picture, row by row, and the command that draws it. */
#ifndef PICTURE_H
#define PICTURE_H

#include <stdint.h>

#include "jobfile.h"

/* What is shown: a refusal's number and row, or 0 and every pixel. */
struct showing {
    uint32_t number;
    size_t row;
    uint16_t pixels[ROW_ROOM][LINE_PIXELS];
};

/* Shows a picture file's rows, one call each, with the colours of a register file. */
void show(const struct jobfile *file, const uint16_t registers[FILE_WORDS], struct showing *showing);

/* desk picture NAME OUT; gives the exit status. */
int picture_command(const char *name, const char *out);

#endif
