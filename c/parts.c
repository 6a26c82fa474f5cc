#include "parts.h"

#include <string.h>

#include "desk.h"

enum { SIZE_STEP = 2 };

/* The place of the next write of BLTSIZE; the job's end if there is none, if a step before it is refused, or if the job
 * is refused for its length. */
static size_t next_size(const struct jobfile *jobfile, size_t place)
{
    struct step step;

    if (jobfile->job_words > JOB_LIMIT)
        return jobfile->job_words;
    for (; place < jobfile->job_words; place += step.words) {
        step = step_at(jobfile->job, jobfile->job_words, place);
        if (step.kind == STEP_SIZE)
            return place;
        if (step.kind == STEP_REFUSED)
            break;
    }
    return jobfile->job_words;
}

/* Runs the words from a place up to another, where the machine stands; gives how these ended, and adds it to the run.
 */
static struct run run_part(const struct jobfile *jobfile, struct machine *machine, size_t from, size_t to,
                           struct run *run)
{
    struct run part;

    desk_run(machine->ram, jobfile->ram_words, machine->file, FILE_WORDS, jobfile->job + from, to - from,
             &part.number, &part.place, &part.count, &part.round);
    run->number = part.number;
    run->place = part.number == 0 ? 0 : (uint32_t)from + part.place;
    run->count += part.count;
    run->round |= part.round;
    return part;
}

static struct start run_size(const struct jobfile *jobfile, struct machine *machine, size_t place, struct run *run)
{
    struct start start = {place, jobfile->job[place + 1], {0}, 0, 0, 0};
    struct run part;

    memcpy(start.file, machine->file, sizeof start.file);
    part = run_part(jobfile, machine, place, place + SIZE_STEP, run);
    start.number = part.number;
    start.count = part.count;
    start.round = part.round;
    return start;
}

struct run run_in_parts(const struct jobfile *jobfile, struct machine *machine,
                        void (*visit)(const struct start *start, void *with), void *with)
{
    struct run run = {0, 0, 0, 0};
    size_t place = 0, size;

    begin(jobfile, machine);
    do {
        size = next_size(jobfile, place);
        run_part(jobfile, machine, place, size, &run);
        if (run.number == 0 && size < jobfile->job_words) {
            struct start start = run_size(jobfile, machine, size, &run);

            visit(&start, with);
        }
        place = size + SIZE_STEP;
    } while (run.number == 0 && place < jobfile->job_words);
    return run;
}
