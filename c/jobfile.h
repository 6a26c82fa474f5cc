/* A job file: a job, the memory and registers it starts with, and what it says that it leaves; a list file, the same
 * for a Copper list; a picture file: memory, registers, and what the screen shows of them. A list file's name ends in
 * .list, a picture file's in .picture. The forms are told in docs/BENCH500.md. */
#ifndef JOBFILE_H
#define JOBFILE_H

#include <stdbool.h>
#include <stddef.h>
#include <stdint.h>

#include "picturefile.h"
#include "reader.h"
#include "step.h"

/* The kinds of file; together they make a set. */
enum kind { JOB = 1, LIST = 2, PICTURE = 4 };

/* There is room for more than a run takes, so that the archive refuses it, and not the reading. */
enum { JOB_ROOM = 65536, RAM_ROOM = 262145, RAM_WORDS = 32768 };

/* Why a frame ended. */
enum why { END_OF_FRAME, USED_UP, REFUSED_NEXT };

/* What a file says that its job or list leaves. */
struct leaves {
    bool said;                       /* it says anything at all */
    uint32_t number, place, count, round;
    bool count_said, round_said;
    uint32_t why, done, word, beam;  /* of a list; beam is a place, and the frame's end stands for any behind it */
    bool done_said, word_said, beam_said;
    bool ram_said[RAM_ROOM];
    uint16_t ram[RAM_ROOM];
    bool file_said[FILE_WORDS];
    uint16_t file[FILE_WORDS];
    bool folds_said;
    size_t folds_ram;                /* folded for so many words of memory .. */
    char folds_name[NAME_ROOM];      /* .. it becomes the job of this file, .. */
    uint32_t folds_round;            /* .. and a blit is kept for going round alone, 1, or none is, 0 */
    bool folds_round_said;
};

struct jobfile {
    enum kind kind;
    uint32_t start;                  /* the list's first word, by its number; memory holds the list from there on */
    uint32_t lent;                   /* the instructions lent where the list is checked */
    size_t job_words, ram_words;
    uint16_t job[JOB_ROOM];          /* or the list's words */
    bool ram_said[RAM_ROOM];         /* by at lines */
    uint16_t ram[RAM_ROOM];
    bool file_said[FILE_WORDS];
    uint16_t file[FILE_WORDS];
    struct leaves leaves;
    struct picture picture;
};

/* Reads a file of a kind. Null, after a message on standard error, if it can't be read, isn't well written or has the
 * name of another kind. A list's words are laid into memory last, over those of its at lines. It is freed with free. */
struct jobfile *jobfile_read(const char *name, enum kind kind);

/* The kind of a file by its name, and whether a name has an ending. */
enum kind kind_named(const char *name);
bool name_ends(const char *name, const char *ending);

#endif
