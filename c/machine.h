/* Memory and registers on which a job or a list is done, and a job's run on them. */
#ifndef MACHINE_H
#define MACHINE_H

#include <stdbool.h>
#include <stdint.h>

#include "jobfile.h"

struct machine {
    uint16_t ram[RAM_ROOM];
    uint16_t file[FILE_WORDS];
};

/* How a run ended. */
struct run {
    uint32_t number, place, count;
    uint32_t round;  /* 1 if a blit that was done went round, else 0 */
};

/* A machine that begins as the file says. */
void begin(const struct jobfile *jobfile, struct machine *machine);

/* Whether two machines hold the same, and whether two runs ended alike. */
bool same_machine(const struct machine *one, const struct machine *other);
bool same_run(struct run one, struct run other);

/* Runs the file's job on a machine that begins as the file says. */
struct run run_of(const struct jobfile *jobfile, struct machine *machine);

#endif
