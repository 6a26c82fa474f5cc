#include "picturefile.h"

#include <string.h>

#include "jobfile.h"

/* A modulo register has 16 bits, a sign among them. */
enum { LEAST_MODULO = -32768, MOST_MODULO = 32766 };

/* planes ADDRESS.. */
bool read_planes(struct reader *reader)
{
    struct picture *picture = &reader->into->picture;

    for (picture->plane_count = 0; next_token(reader); picture->plane_count++) {
        if (picture->plane_count == PLANE_ROOM)
            return complain(reader, "planes: more than %d", (int)PLANE_ROOM);
        if (!address_token(reader, "planes", &picture->planes[picture->plane_count]))
            return false;
    }
    return picture->plane_count > 0 || complain(reader, "planes: a byte address is missing");
}

/* words N */
bool read_words_a_line(struct reader *reader)
{
    reader->into->picture.words_said = true;
    return last_number(reader, "words", &reader->into->picture.words);
}

/* rows N */
bool read_rows(struct reader *reader)
{
    size_t *rows = &reader->into->picture.rows;

    next_token(reader);
    if (!decimal(reader->token, ROW_ROOM, rows) || *rows == 0)
        return complain(reader, "rows: '%.40s' isn't a decimal number from 1 to %d", reader->token, (int)ROW_ROOM);
    return line_ends(reader);
}

/* The line's next token as a modulo. */
static bool next_modulo(struct reader *reader, int32_t *modulo)
{
    bool minus;
    size_t bytes = 0;

    if (!next_token(reader))
        return complain(reader, "modulo: a number is missing");
    minus = reader->token[0] == '-';
    if (!decimal(reader->token + minus, minus ? -LEAST_MODULO : MOST_MODULO, &bytes) || bytes % 2 != 0)
        return complain(reader, "modulo: '%.40s' isn't an even decimal number from %d to %d", reader->token,
                        (int)LEAST_MODULO, (int)MOST_MODULO);
    *modulo = minus ? -(int32_t)bytes : (int32_t)bytes;
    return true;
}

/* modulo ODD EVEN */
bool read_modulo(struct reader *reader)
{
    int32_t *modulos = reader->into->picture.modulos;

    return next_modulo(reader, &modulos[0]) && next_modulo(reader, &modulos[1]) && line_ends(reader);
}

/* The rest of a line that ends here or by 'from ROW'; without that the row is 0. */
static bool read_from(struct reader *reader, size_t *row)
{
    *row = 0;
    if (!next_token(reader))
        return true;
    if (strcmp(reader->token, "from") != 0)
        return complain(reader, "'%.40s' is too much on this line", reader->token);
    return next_decimal(reader, "from", ROW_ROOM - 1, row) && line_ends(reader);
}

/* delay ODD EVEN, delay ODD EVEN from ROW: for all rows from there on, until a later line speaks of them. */
bool read_delay(struct reader *reader)
{
    struct picture *picture = &reader->into->picture;
    size_t odd = 0, even = 0, from = 0;

    if (!next_decimal(reader, "delay", UINT32_MAX, &odd) || !next_decimal(reader, "delay", UINT32_MAX, &even)
        || !read_from(reader, &from))
        return false;
    if (picture->delay_line > 0 && from <= picture->delay_from)
        return complain(reader, "delay: from row %lu, behind a delay from row %lu; rows must rise", (unsigned long)from,
                        (unsigned long)picture->delay_from);
    picture->delay_line = reader->line;
    picture->delay_from = from;
    for (size_t row = from; row < ROW_ROOM; row++) {
        picture->delays[row][0] = (uint32_t)odd;
        picture->delays[row][1] = (uint32_t)even;
    }
    return true;
}

/* COLOUR or COLOUR*COUNT */
static bool pixel_run(const char *token, uint32_t *colour, size_t *count)
{
    char digits[4];

    *count = 1;
    snprintf(digits, sizeof digits, "%.3s", token);
    return hexadecimal(digits, 3, 3, colour)
        && (token[3] == '\0' || (token[3] == '*' && decimal(token + 4, LINE_PIXELS, count) && *count > 0));
}

/* The token as a run of a row's pixels. */
static bool run_token(const struct reader *reader, struct shown *shown)
{
    uint32_t colour = 0;
    size_t count = 0;

    if (!pixel_run(reader->token, &colour, &count))
        return complain(reader, "shows: '%.40s' isn't a colour of three hex digits, nor COLOUR*COUNT with a count "
                        "from 1 to %d", reader->token, (int)LINE_PIXELS);
    if (count > LINE_PIXELS - shown->pixels)
        return complain(reader, "shows: more than %d pixels", (int)LINE_PIXELS);
    while (count-- > 0)
        shown->colours[shown->pixels++] = (uint16_t)colour;
    return true;
}

/* shows ROW RUN.., which goes on where an earlier line of the same row ended. */
static bool read_shown(struct reader *reader, struct shown *shown)
{
    if (!next_token(reader))
        return complain(reader, "shows: colours are missing");
    shown->line = reader->line;
    do
        if (!run_token(reader, shown))
            return false;
    while (next_token(reader));
    return true;
}

/* shows number N, shows ROW RUN.. */
bool read_shows(struct reader *reader)
{
    struct picture *picture = &reader->into->picture;
    size_t row = 0;

    picture->shows_said = true;
    if (!next_token(reader))
        return complain(reader, "shows: what?");
    if (strcmp(reader->token, "number") == 0)
        return last_number(reader, "number", &picture->number);
    if (!decimal(reader->token, ROW_ROOM - 1, &row))
        return complain(reader, "shows: '%.40s' is neither number nor a decimal row from 0 to %d", reader->token,
                        ROW_ROOM - 1);
    return read_shown(reader, &picture->shown[row]);
}

/* Whether what a row must show may be shown by this picture. The complaint is of the line that spoke of it last. */
static bool row_fits(struct reader *reader, size_t row)
{
    const struct picture *picture = &reader->into->picture;
    const struct shown *shown = &picture->shown[row];
    uint64_t pixels = (uint64_t)picture->words * 16;

    if (shown->line == 0)
        return true;
    reader->line = shown->line;
    if (row >= picture->rows)
        return complain(reader, "shows: row %lu, and the last row is %lu", (unsigned long)row,
                        (unsigned long)picture->rows - 1);
    if (picture->number != 0)
        return complain(reader, "shows: row %lu, and a picture that is refused (%lu) shows none", (unsigned long)row,
                        (unsigned long)picture->number);
    return shown->pixels == pixels
        || complain(reader, "shows: row %lu has %llu pixels, not %lu", (unsigned long)row, (unsigned long long)pixels,
                    (unsigned long)shown->pixels);
}

bool picture_ends(struct reader *reader)
{
    const struct picture *picture = &reader->into->picture;

    if (picture->plane_count == 0)
        return complain(reader, "the file ends without a 'planes' line");
    if (!picture->words_said)
        return complain(reader, "the file ends without a 'words' line");
    for (size_t row = 0; row < ROW_ROOM; row++)
        if (!row_fits(reader, row))
            return false;
    reader->line = picture->delay_line;
    return picture->delay_from < picture->rows
        || complain(reader, "delay: from row %lu, and the last row is %lu", (unsigned long)picture->delay_from,
                    (unsigned long)picture->rows - 1);
}
