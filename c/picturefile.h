/* What a picture file says besides memory and registers; the reading of the lines that stand in picture files alone. */
#ifndef PICTUREFILE_H
#define PICTUREFILE_H

#include <stdbool.h>
#include <stddef.h>
#include <stdint.h>

#include "reader.h"

/* There is room for more planes than a picture has, so that the archive refuses them, and not the reading. A line has
 * at most 40 words of 16 pixels. */
enum { PLANE_ROOM = 8, ROW_ROOM = 1024, LINE_PIXELS = 640 };

/* What a row must show. */
struct shown {
    unsigned long line;               /* the last line of the file that speaks of it, 0 if none does */
    size_t pixels;
    uint16_t colours[LINE_PIXELS];
};

struct picture {
    size_t plane_count;
    uint32_t planes[PLANE_ROOM];      /* byte addresses */
    bool words_said;
    uint32_t words;
    size_t rows;
    int32_t modulos[2];               /* in bytes, of the odd planes and of the even ones */
    uint32_t delays[ROW_ROOM][2];     /* of each row, the same */
    size_t delay_from;                /* the row of the last delay line .. */
    unsigned long delay_line;         /* .. which stands here in the file; 0 if there is none */
    bool shows_said;
    uint32_t number;                  /* the refusal that it must end with, or 0 */
    struct shown shown[ROW_ROOM];
};

/* Each reads the rest of the line whose first token has its name; false after a complaint. */
bool read_planes(struct reader *reader);
bool read_words_a_line(struct reader *reader);
bool read_rows(struct reader *reader);
bool read_modulo(struct reader *reader);
bool read_delay(struct reader *reader);
bool read_shows(struct reader *reader);

/* Whether the lines, now all of them read, fit together; false after a complaint. */
bool picture_ends(struct reader *reader);

#endif
