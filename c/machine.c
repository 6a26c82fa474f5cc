#include "machine.h"

#include <string.h>

#include "desk.h"

void begin(const struct jobfile *jobfile, struct machine *machine)
{
    memcpy(machine->ram, jobfile->ram, sizeof machine->ram);
    memcpy(machine->file, jobfile->file, sizeof machine->file);
}

bool same_machine(const struct machine *one, const struct machine *other)
{
    return memcmp(one->ram, other->ram, sizeof one->ram) == 0 && memcmp(one->file, other->file, sizeof one->file) == 0;
}

bool same_run(struct run one, struct run other)
{
    return one.number == other.number && one.place == other.place && one.count == other.count
        && one.round == other.round;
}

struct run run_of(const struct jobfile *jobfile, struct machine *machine)
{
    struct run run;

    begin(jobfile, machine);
    desk_run(machine->ram, jobfile->ram_words, machine->file, FILE_WORDS, jobfile->job, jobfile->job_words,
             &run.number, &run.place, &run.count, &run.round);
    return run;
}
