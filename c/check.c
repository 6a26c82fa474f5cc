#include "check.h"

#include <stdio.h>
#include <stdlib.h>
#include <string.h>

#include "beam.h"
#include "copper.h"
#include "desk.h"
#include "jobfile.h"
#include "machine.h"
#include "picture.h"

/* The comparison of one file; its name is printed before the first difference. */
struct check {
    const char *name;
    unsigned long differences;
};

static void begin_difference(struct check *check)
{
    if (check->differences++ == 0)
        printf("%s: not as it says\n", check->name);
}

static void compare_number(struct check *check, const char *what, uint32_t left, uint32_t said)
{
    if (left == said)
        return;
    begin_difference(check);
    printf("  %s is %lu, the file says %lu\n", what, (unsigned long)left, (unsigned long)said);
}

static const char *yes_or_no(uint32_t answer)
{
    return answer == 0 ? "no" : "yes";
}

static void compare_yes(struct check *check, const char *what, uint32_t left, uint32_t said)
{
    if (left == said)
        return;
    begin_difference(check);
    printf("  %s is %s, the file says %s\n", what, yes_or_no(left), yes_or_no(said));
}

/* A word of which the file says nothing must be as it was. */
static void compare_ram(struct check *check, const struct jobfile *jobfile, const uint16_t *ram)
{
    const struct leaves *leaves = &jobfile->leaves;

    for (size_t at = 0; at < jobfile->ram_words; at++) {
        uint16_t said = leaves->ram_said[at] ? leaves->ram[at] : jobfile->ram[at];

        if (ram[at] == said)
            continue;
        begin_difference(check);
        printf("  byte %05lX is %04X, %s %04X\n", (unsigned long)at * 2, (unsigned)ram[at],
               leaves->ram_said[at] ? "the file says" : "and was to stay", (unsigned)said);
    }
}

/* A register of which the file says nothing isn't compared. */
static void compare_file(struct check *check, const struct leaves *leaves, const uint16_t *file)
{
    for (size_t reg = 0; reg < FILE_WORDS; reg++) {
        if (!leaves->file_said[reg] || file[reg] == leaves->file[reg])
            continue;
        begin_difference(check);
        printf("  %s is %04X, the file says %04X\n", register_name(reg), (unsigned)file[reg],
               (unsigned)leaves->file[reg]);
    }
}

/* The name of a file that stands beside another. */
static char *beside(const char *name, const char *other)
{
    const char *slash = strrchr(name, '/');
    size_t folder = slash == NULL || other[0] == '/' ? 0 : (size_t)(slash - name) + 1;
    char *path = malloc(folder + strlen(other) + 1);

    if (path != NULL) {
        memcpy(path, name, folder);
        strcpy(path + folder, other);
    }
    return path;
}

static void compare_folding(struct check *check, const struct jobfile *jobfile, const struct jobfile *other)
{
    const struct leaves *leaves = &jobfile->leaves;
    uint16_t folded[JOB_LIMIT] = {0};
    uint32_t number, place, length, round;
    size_t same = 0;

    desk_fold(leaves->folds_ram, jobfile->job, jobfile->job_words, folded, JOB_LIMIT,
              &number, &place, &length, &round);
    compare_number(check, "the folding's number", number, 0);
    if (leaves->folds_round_said)
        compare_yes(check, "the folding's round", round, leaves->folds_round);
    compare_number(check, "the folded job's length", length, (uint32_t)other->job_words);
    while (same < length && same < other->job_words && folded[same] == other->job[same])
        same++;
    if (same < length && same < other->job_words) {
        begin_difference(check);
        printf("  word %lu of the folded job is %04X, %s says %04X\n", (unsigned long)same, (unsigned)folded[same],
               leaves->folds_name, (unsigned)other->job[same]);
    }
}

/* Compares the folding with the job of the file it names; false if that file can't be read. */
static bool check_folding(struct check *check, const struct jobfile *jobfile)
{
    char *path = beside(check->name, jobfile->leaves.folds_name);
    struct jobfile *other = path == NULL ? NULL : jobfile_read(path, JOB);

    if (path == NULL)
        perror(check->name);
    if (other != NULL)
        compare_folding(check, jobfile, other);
    free(path);
    free(other);
    return other != NULL;
}

static void check_run(struct check *check, const struct jobfile *jobfile)
{
    static struct machine machine;
    const struct leaves *leaves = &jobfile->leaves;
    struct run run = run_of(jobfile, &machine);

    compare_number(check, "number", run.number, leaves->number);
    compare_number(check, "place", run.place, leaves->place);
    if (leaves->count_said)
        compare_number(check, "count", run.count, leaves->count);
    if (leaves->round_said)
        compare_yes(check, "round", run.round, leaves->round);
    compare_ram(check, jobfile, machine.ram);
    compare_file(check, leaves, machine.file);
}

static void compare_why(struct check *check, uint32_t left, uint32_t said)
{
    if (left == said)
        return;
    begin_difference(check);
    printf("  why is '%s', the file says '%s'\n", why_meaning(left), why_meaning(said));
}

/* Every place behind the frame's end is the end. */
static void print_place(const char *before, uint32_t place)
{
    if (place >= FRAME_PLACES)
        printf("%s over", before);
    else
        printf("%s at line %lu, position %lu", before, (unsigned long)place / POSITIONS,
               (unsigned long)place % POSITIONS);
}

static void compare_beam(struct check *check, uint32_t left, uint32_t said)
{
    if (left == said || (left > FRAME_PLACES && said == FRAME_PLACES))
        return;
    begin_difference(check);
    print_place("  beam is", left);
    print_place(", the file says", said);
    putchar('\n');
}

static void check_frame(struct check *check, const struct jobfile *list)
{
    static struct machine machine;
    const struct leaves *leaves = &list->leaves;
    struct frame frame = frame_of(list, list->lent, &machine);

    compare_why(check, frame.why, leaves->why);
    compare_number(check, "number", frame.number, leaves->number);
    if (leaves->done_said)
        compare_number(check, "done", frame.done, leaves->done);
    if (leaves->word_said)
        compare_number(check, "word", frame.word, leaves->word);
    if (leaves->beam_said)
        compare_beam(check, frame.place, leaves->beam);
    compare_ram(check, list, machine.ram);
    compare_file(check, leaves, machine.file);
}

/* How many pixels from a place on are the same, and the same is said of them. */
static size_t alike_from(const uint16_t *pixels, const struct shown *shown, size_t at)
{
    size_t length = 1;

    while (at + length < shown->pixels && pixels[at + length] == pixels[at]
           && shown->colours[at + length] == shown->colours[at])
        length++;
    return length;
}

static void compare_row(struct check *check, size_t row, const uint16_t *pixels, const struct shown *shown)
{
    size_t length;

    for (size_t at = 0; at < shown->pixels; at += length) {
        length = alike_from(pixels, shown, at);
        if (pixels[at] == shown->colours[at])
            continue;
        begin_difference(check);
        if (length == 1)
            printf("  row %lu, pixel %lu", (unsigned long)row, (unsigned long)at);
        else
            printf("  row %lu, pixels %lu to %lu", (unsigned long)row, (unsigned long)at,
                   (unsigned long)(at + length - 1));
        printf(": %03X, the file says %03X\n", (unsigned)pixels[at], (unsigned)shown->colours[at]);
    }
}

/* A row of which the file says nothing isn't compared. */
static void check_picture(struct check *check, const struct jobfile *file)
{
    static struct showing showing;
    const struct picture *picture = &file->picture;

    show(file, file->file, &showing);
    compare_number(check, "number", showing.number, picture->number);
    if (showing.number == 0)
        for (size_t row = 0; row < picture->rows; row++)
            compare_row(check, row, showing.pixels[row], &picture->shown[row]);
}

/* Whether the file says anything to compare with. */
static bool says_something(const char *name, const struct jobfile *jobfile)
{
    bool picture = jobfile->kind == PICTURE;

    if (picture ? jobfile->picture.shows_said : jobfile->leaves.said)
        return true;
    fprintf(stderr, "%s: it says nothing of what it %s\n", name, picture ? "shows" : "leaves");
    return false;
}

bool check_file(const char *name)
{
    struct jobfile *jobfile = jobfile_read(name, kind_named(name));
    struct check check = {name, 0};
    bool good = jobfile != NULL && says_something(name, jobfile);

    if (good && jobfile->kind == LIST)
        check_frame(&check, jobfile);
    else if (good && jobfile->kind == PICTURE)
        check_picture(&check, jobfile);
    else if (good)
        check_run(&check, jobfile);
    if (good && jobfile->leaves.folds_said)
        good = check_folding(&check, jobfile);
    free(jobfile);
    if (good && check.differences == 0)
        printf("%s: as it says\n", name);
    return good && check.differences == 0;
}
