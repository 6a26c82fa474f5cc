#include "jobwrite.h"

#include <stdio.h>

#include "listing.h"
#include "outfile.h"

enum { WORDS_A_LINE = 8 };

/* A sign that would end the comment's line, or can't be printed, becomes a question mark. */
static void write_comment(FILE *stream, const char *original, size_t ram_words)
{
    fputs("; ", stream);
    for (; *original != '\0'; original++)
        fputc((unsigned char)*original < ' ' || *original == 0x7F ? '?' : *original, stream);
    fprintf(stream, ", folded for memory of %lu words\n", (unsigned long)ram_words);
}

/* How many words are said from a place on, as far as a line goes. */
static size_t said_together(const bool *said, size_t at)
{
    size_t words = 0;

    while (words < WORDS_A_LINE && at + words < RAM_ROOM && said[at + words])
        words++;
    return words;
}

static void write_at(FILE *stream, const uint16_t *ram, size_t at, size_t words)
{
    fprintf(stream, "at %04lX", (unsigned long)at * 2);
    for (size_t i = 0; i < words; i++)
        fprintf(stream, " %04X", (unsigned)ram[at + i]);
    fputc('\n', stream);
}

/* Lines 'at ADDRESS WORD..' behind the word that they begin with. */
static void write_ram(FILE *stream, const char *before, const uint16_t *ram, const bool *said)
{
    size_t words;

    for (size_t at = 0; at < RAM_ROOM; at += words > 0 ? words : 1) {
        words = said_together(said, at);
        if (words > 0) {
            fputs(before, stream);
            write_at(stream, ram, at, words);
        }
    }
}

/* Lines 'NAME VALUE' behind the word that they begin with. The zero flag is decimal. */
static void write_registers(FILE *stream, const char *before, const uint16_t *file, const bool *said)
{
    for (size_t reg = 0; reg < FILE_WORDS; reg++)
        if (said[reg])
            fprintf(stream, reg == ZERO_FLAG ? "%s%s %u\n" : "%s%s %04X\n", before, register_name(reg),
                    (unsigned)file[reg]);
}

static void write_steps(FILE *stream, const struct jobfile *jobfile)
{
    struct listing listing = listing_of(jobfile->job, jobfile->job_words);
    char line[LINE_ROOM];

    while (written_next(&listing, line))
        fprintf(stream, "%s\n", line);
}

static void write_leaves(FILE *stream, const struct leaves *leaves)
{
    write_ram(stream, "leaves ", leaves->ram, leaves->ram_said);
    write_registers(stream, "leaves ", leaves->file, leaves->file_said);
    if (leaves->count_said)
        fprintf(stream, "leaves count %lu\n", (unsigned long)leaves->count);
    if (leaves->round_said)
        fprintf(stream, "leaves round %s\n", leaves->round ? "yes" : "no");
    fprintf(stream, "leaves number %lu\n", (unsigned long)leaves->number);
    if (leaves->place > 0)
        fprintf(stream, "leaves place %lu\n", (unsigned long)leaves->place);
}

/* A job file to be written, and the file that was folded. */
struct folding {
    const struct jobfile *jobfile;
    const char *original;
};

static void write_lines(FILE *stream, const void *what)
{
    const struct folding *folding = what;
    const struct jobfile *jobfile = folding->jobfile;

    write_comment(stream, folding->original, jobfile->ram_words);
    fprintf(stream, "ram %lu\n", (unsigned long)jobfile->ram_words);
    write_ram(stream, "", jobfile->ram, jobfile->ram_said);
    write_registers(stream, "register ", jobfile->file, jobfile->file_said);
    fputc('\n', stream);
    write_steps(stream, jobfile);
    if (jobfile->leaves.said) {
        fputc('\n', stream);
        write_leaves(stream, &jobfile->leaves);
    }
}

bool jobfile_write(const struct jobfile *jobfile, const char *original, const char *name)
{
    const struct folding folding = {jobfile, original};

    return write_whole(name, write_lines, &folding);
}
