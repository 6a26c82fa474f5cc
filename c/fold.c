#include "fold.h"

#include <stdarg.h>
#include <stdbool.h>
#include <stdio.h>
#include <stdlib.h>
#include <string.h>

#include "desk.h"
#include "jobfile.h"
#include "jobwrite.h"
#include "listing.h"
#include "machine.h"
#include "outcome.h"
#include "round.h"

/* The command's words; null where an option isn't there. */
struct request {
    const char *ram_words, *out, *name;
};

/* Says what is wrong with the command's words; false, so that it can be returned. */
static bool misuse(const char *format, ...)
{
    va_list arguments;

    fputs("desk fold: ", stderr);
    va_start(arguments, format);
    vfprintf(stderr, format, arguments);
    va_end(arguments);
    fputs("\nusage: " FOLD_USAGE "\n", stderr);
    return false;
}

static bool read_option(struct request *request, const char *option, const char *value)
{
    const char **into = strcmp(option, "-n") == 0 ? &request->ram_words
                      : strcmp(option, "-o") == 0 ? &request->out : NULL;

    if (into == NULL)
        return misuse("there is no option '%s'", option);
    if (*into != NULL)
        return misuse("%s stands twice", option);
    if (value == NULL)
        return misuse("%s has nothing behind it", option);
    *into = value;
    return true;
}

static bool read_request(struct request *request, char **words)
{
    for (; words[0] != NULL && words[0][0] == '-'; words += 2)
        if (!read_option(request, words[0], words[1]))
            return false;
    if (words[0] == NULL)
        return misuse("FILE is missing");
    if (words[1] != NULL)
        return misuse("'%s', '%s': only FILE stands without an option; N is given by -n, before FILE", words[0],
                      words[1]);
    request->name = words[0];
    return true;
}

/* Whether N and OUT, where they are given, will do. */
static bool good_request(const struct request *request, size_t *ram_words)
{
    if (request->ram_words != NULL && !decimal(request->ram_words, SIZE_MAX, ram_words)) {
        fprintf(stderr, "desk fold: N is '%s', which isn't a decimal number from 0 to %llu\n", request->ram_words,
                (unsigned long long)SIZE_MAX);
        return false;
    }
    if (request->out != NULL && kind_named(request->out) != JOB) {
        fprintf(stderr, "desk fold: OUT is '%s', which would be read as a %s\n", request->out,
                kind_named(request->out) == LIST ? "Copper list" : "picture");
        return false;
    }
    return true;
}

/* Whether memory has all words of which the file speaks, so that the folded job's file reads back. */
static bool speaks_of_memory(const struct jobfile *folded, const struct request *request)
{
    for (size_t at = folded->ram_words; at < RAM_ROOM; at++)
        if (folded->ram_said[at] || folded->leaves.ram_said[at]) {
            fprintf(stderr, "%s: it speaks of byte %05lX, and memory of %lu words ends before that; %s isn't written\n",
                    request->name, (unsigned long)at * 2, (unsigned long)folded->ram_words, request->out);
            return false;
        }
    return true;
}

/* Whether what the file says that its job leaves may be said of the folded job: both end alike, each on its memory. The
 * place of a refusal is each job's own. */
static bool carry_leaves(const struct jobfile *jobfile, struct jobfile *folded, const struct request *request)
{
    static struct machine machines[2];
    struct run own = run_of(jobfile, &machines[0]), run = run_of(folded, &machines[1]);

    folded->leaves.place = run.place;
    if (own.number == run.number && own.count == run.count && own.round == run.round
        && same_machine(&machines[0], &machines[1]))
        return true;
    fprintf(stderr, "%s: on memory of %lu words it ends otherwise than on its own %lu, for which it says what it "
            "leaves; %s isn't written\n", request->name, (unsigned long)folded->ram_words,
            (unsigned long)jobfile->ram_words, request->out);
    return false;
}

static bool write_folded(const struct jobfile *jobfile, struct jobfile *folded, const struct request *request)
{
    return speaks_of_memory(folded, request)
        && (!jobfile->leaves.said || carry_leaves(jobfile, folded, request))
        && jobfile_write(folded, request->name, request->out);
}

/* Folds the file's job; folded, which begins as a copy of the file, becomes the file of the folded job. */
static int fold(const struct jobfile *jobfile, struct jobfile *folded, const struct request *request)
{
    uint32_t number, place, length, round;
    bool agreed;

    desk_fold(folded->ram_words, jobfile->job, jobfile->job_words, folded->job, JOB_LIMIT,
              &number, &place, &length, &round);
    folded->job_words = length;
    if (number == 0 && request->out != NULL && !write_folded(jobfile, folded, request))
        return ERROR;
    print_answer(number, place);
    printf("length %lu, folded %lu\n", (unsigned long)jobfile->job_words, (unsigned long)length);
    if (number != 0)
        return REFUSED;
    agreed = print_kept_rounds(jobfile->job, jobfile->job_words, folded->ram_words, round);
    print_beside(jobfile->job, jobfile->job_words, folded->job, length);
    return agreed ? DONE : ERROR;
}

int fold_command(char **words)
{
    struct request request = {NULL, NULL, NULL};
    struct jobfile *jobfile, *folded;
    size_t ram_words;
    int status = ERROR;

    if (!read_request(&request, words) || !good_request(&request, &ram_words))
        return ERROR;
    jobfile = jobfile_read(request.name, JOB);
    folded = jobfile == NULL ? NULL : malloc(sizeof *folded);
    if (folded != NULL) {
        *folded = *jobfile;
        if (request.ram_words != NULL)
            folded->ram_words = ram_words;
        status = fold(jobfile, folded, &request);
    } else if (jobfile != NULL) {
        perror(request.name);
    }
    free(folded);
    free(jobfile);
    return status;
}
