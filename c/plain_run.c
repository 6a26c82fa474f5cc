/* The reader and the runner of jobs of paper 01, with the colours of paper 02's W7 and W12's yes. */
#include "plain.h"
#include "plain_parts.h"

int plain_place_in_file(uint16_t offset)
{
    if (offset & 1)
        return -1;
    if (offset >= 0x040 && offset <= 0x056)
        return BLTCON0 + (offset - 0x040) / 2;
    if (offset >= 0x060 && offset <= 0x066)
        return BLTCMOD + (offset - 0x060) / 2;
    if (offset >= 0x070 && offset <= 0x074)
        return BLTCDAT + (offset - 0x070) / 2;
    if (offset == 0x02E)
        return COPCON;
    if (offset >= 0x180 && offset <= 0x1BE)
        return COLOR00 + (offset - 0x180) / 2;
    return -1;
}

/* The kind of the step that begins with this word, and its words; false where it begins none. */
static bool step_begins(uint16_t word, struct step *step)
{
    if (word == 0x058)
        step->kind = BLIT_START, step->words = 2;
    else if (plain_place_in_file(word) >= 0)
        step->kind = REGISTER_WRITE, step->words = 2;
    else if (word >= 0x8000 && word <= 0x8007)
        step->kind = STORE, step->words = 3;
    else if (word == 0xC000 || word == 0xC001)
        step->kind = FLAG, step->words = 1;
    else
        return false;
    return true;
}

uint32_t plain_step(const uint16_t *job, size_t job_words, size_t place, struct step *step)
{
    uint16_t first = job[place];
    if (!step_begins(first, step))
        return 4;
    if (job_words - place < step->words)
        return 5;
    switch (step->kind) {
    case REGISTER_WRITE:
        step->target = plain_place_in_file(first);
        step->value = job[place + 1] & plain_kept[step->target];
        break;
    case BLIT_START:
        step->value = job[place + 1];
        break;
    case STORE:
        if (job[place + 1] & 1)
            return 6;
        step->target = ((uint32_t)(first & 7) << 16 | job[place + 1]) / 2;
        step->value = job[place + 2];
        break;
    case FLAG:
        step->value = first & 1;
        break;
    }
    return 0;
}

/* Does a step: 0, or its refusal, which changes nothing. */
static uint32_t do_step(uint16_t *ram, size_t ram_words, uint16_t *file, const struct step *step,
                        uint32_t *stored, uint32_t *round)
{
    uint32_t refusal;
    bool went_round = false;
    switch (step->kind) {
    case REGISTER_WRITE:
        file[step->target] = step->value;
        return 0;
    case FLAG:
        file[ZERO_FLAG] = step->value;
        return 0;
    case STORE:
        if (step->target >= ram_words)
            return 10;
        ram[step->target] = step->value;
        *stored += 1;
        return 0;
    default:
        refusal = plain_blit_refusal(file, ram_words, step->value);
        if (refusal == 0)
            *stored += plain_blit_done(ram, file, step->value, &went_round);
        *round |= went_round;
        return refusal;
    }
}

void plain_run(uint16_t *ram, size_t ram_words, uint16_t *file, size_t file_words,
               const uint16_t *job, size_t job_words,
               uint32_t *number, uint32_t *place, uint32_t *stored, uint32_t *round)
{
    *number = !plain_memory_lawful(ram_words) ? 1 : !plain_file_lawful(file, file_words) ? 2
              : job_words > JOB_WORDS ? 3 : 0;
    *place = 0;
    *stored = 0;
    *round = 0;
    if (*number != 0)
        return;
    for (size_t at = 0; at < job_words;) {
        struct step step;
        *number = plain_step(job, job_words, at, &step);
        if (*number == 0)
            *number = do_step(ram, ram_words, file, &step, stored, round);
        if (*number != 0) {
            *place = at;
            return;
        }
        at += step.words;
    }
}
