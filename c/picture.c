#include "picture.h"

#include <stdio.h>
#include <stdlib.h>
#include <string.h>

#include "desk.h"
#include "outcome.h"
#include "outfile.h"

enum { COLOURS = 32 };

/* The word number at which a row of a plane begins. One below 0 or of more than 32 bits becomes the largest number, a
 * word that no memory has, so that the row is refused with 10. */
static uint32_t row_start(const struct picture *picture, size_t plane, size_t row)
{
    int64_t bytes = 2 * (int64_t)picture->words + picture->modulos[plane % 2];
    int64_t word = ((int64_t)picture->planes[plane] + (int64_t)row * bytes) / 2;

    return word < 0 || word > UINT32_MAX ? UINT32_MAX : (uint32_t)word;
}

static uint32_t show_row(const struct jobfile *file, const uint16_t registers[FILE_WORDS], size_t row,
                         uint16_t pixels[LINE_PIXELS])
{
    const struct picture *picture = &file->picture;
    uint32_t starts[PLANE_ROOM], number;

    for (size_t plane = 0; plane < picture->plane_count; plane++)
        starts[plane] = row_start(picture, plane, row);
    desk_picture(file->ram, file->ram_words, registers, FILE_WORDS, starts, picture->plane_count, picture->words,
                 picture->delays[row][0], picture->delays[row][1], pixels, LINE_PIXELS, &number);
    return number;
}

void show(const struct jobfile *file, const uint16_t registers[FILE_WORDS], struct showing *showing)
{
    for (size_t row = 0; row < file->picture.rows; row++) {
        showing->row = row;
        showing->number = show_row(file, registers, row, showing->pixels[row]);
        if (showing->number != 0)
            return;
    }
}

/* A picture that isn't refused, and what it shows. */
struct drawing {
    const struct picture *picture;
    const struct showing *showing;
};

/* A binary PPM. 4 bits of a colour become 8: F is 255. */
static void write_ppm(FILE *stream, const void *what)
{
    const struct drawing *drawing = what;
    size_t width = (size_t)drawing->picture->words * 16, rows = drawing->picture->rows;

    fprintf(stream, "P6\n%lu %lu\n255\n", (unsigned long)width, (unsigned long)rows);
    for (size_t row = 0; row < rows; row++)
        for (size_t at = 0; at < width; at++)
            for (int shift = 8; shift >= 0; shift -= 4)
                fputc((drawing->showing->pixels[row][at] >> shift & 15) * 17, stream);
}

static int write_picture(const struct jobfile *file, const struct showing *showing, const char *out)
{
    const struct drawing drawing = {&file->picture, showing};

    if (!write_whole(out, write_ppm, &drawing))
        return ERROR;
    printf("number 0: %s\n", number_meaning(0));
    printf("%lu pixels wide, %lu high\n", (unsigned long)file->picture.words * 16, (unsigned long)file->picture.rows);
    return DONE;
}

/* The sign of a colour by its number. */
static char sign(size_t colour)
{
    return ".123456789ABCDEFGHIJKLMNOPQRSTUV"[colour];
}

/* Rows of colour numbers, and below them each number that occurs with its colour. */
static void print_drawing(const struct jobfile *file, const struct showing *numbers)
{
    bool occurs[COLOURS] = {false};

    for (size_t row = 0; row < file->picture.rows; row++) {
        for (size_t at = 0; at < (size_t)file->picture.words * 16; at++) {
            putchar(sign(numbers->pixels[row][at]));
            occurs[numbers->pixels[row][at]] = true;
        }
        putchar('\n');
    }
    for (size_t colour = 0; colour < COLOURS; colour++)
        if (occurs[colour])
            printf("%c  %s %03X\n", sign(colour), register_name(COLOUR0 + colour),
                   (unsigned)file->file[COLOUR0 + colour]);
}

/* Colour n is n: what is shown with this file are the colours' numbers. */
static void number_colours(uint16_t registers[FILE_WORDS])
{
    memset(registers, 0, FILE_WORDS * sizeof *registers);
    for (size_t colour = 0; colour < COLOURS; colour++)
        registers[COLOUR0 + colour] = (uint16_t)colour;
}

static int draw(const struct jobfile *file, struct showing *showing)
{
    uint16_t registers[FILE_WORDS];

    number_colours(registers);
    show(file, registers, showing);
    print_drawing(file, showing);
    return DONE;
}

/* The file's own registers are shown in both cases: they may be refused. */
static int draw_or_write(const struct jobfile *file, const char *out)
{
    static struct showing showing;

    show(file, file->file, &showing);
    if (showing.number != 0) {
        printf("number %lu: %s\n", (unsigned long)showing.number, picture_meaning(showing.number));
        printf("row %lu\n", (unsigned long)showing.row);
        return REFUSED;
    }
    return strcmp(out, "-") == 0 ? draw(file, &showing) : write_picture(file, &showing, out);
}

int picture_command(const char *name, const char *out)
{
    struct jobfile *file;
    int status;

    if (strcmp(out, "-") != 0 && !name_ends(out, ".ppm")) {
        fprintf(stderr, "desk picture: OUT is '%s', which is neither - nor ends in .ppm\n", out);
        return ERROR;
    }
    file = jobfile_read(name, PICTURE);
    if (file == NULL)
        return ERROR;
    status = draw_or_write(file, out);
    free(file);
    return status;
}
