/* The tokens of a job, list or picture file, line by line. */
#ifndef READER_H
#define READER_H

#include <stdbool.h>
#include <stddef.h>
#include <stdint.h>
#include <stdio.h>

enum { NAME_ROOM = 256 };

struct reader {
    FILE *stream;
    const char *name;
    unsigned long line;      /* the line's number, 0 before the first */
    int sign;                /* the next sign; LF at a line's end and before the first line, EOF at the file's end */
    char token[NAME_ROOM];   /* the last token; one that is too long is cut, and then is no good anywhere */
    bool ram_fixed;          /* a ram line, or a line that depends on it, has been read */
    struct jobfile *into;
};

/* Says what is wrong with the line; false, so that it can be returned. */
bool complain(const struct reader *reader, const char *format, ...);

/* Goes on from a line's end to the next line; false at the file's end. */
bool next_line(struct reader *reader);

/* Reads the line's next token; false at the line's end. Signs that can't be printed become question marks, which no
 * token has. */
bool next_token(struct reader *reader);

/* Reads a number: decimal of at most limit, or hexadecimal of least to most digits; false if text isn't one. */
bool decimal(const char *text, size_t limit, size_t *value);
bool hexadecimal(const char *text, size_t least, size_t most, uint32_t *value);

/* The token as a word, or as an even byte address of up to five hex digits; the line's next token as a decimal number
 * of at most limit; the line's end; a decimal number of up to 32 bits and the line's end. Each complains and is false
 * where that isn't there. */
bool word_token(const struct reader *reader, uint16_t *value);
bool address_token(const struct reader *reader, const char *what, uint32_t *address);
bool next_decimal(struct reader *reader, const char *what, size_t limit, size_t *value);
bool line_ends(struct reader *reader);
bool last_number(struct reader *reader, const char *what, uint32_t *number);

#endif
