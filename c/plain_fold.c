/* The folder of paper 01, with paper 02's W3, by which a line is kept, and W12, by which a blit that goes round is. */
#include <string.h>

#include "plain.h"
#include "plain_parts.h"

/* What is known of the Blitter's registers before a step. Where one isn't known, its number here is 0 and nobody asks for
 * it; COPCON, the colours and the zero flag aren't tracked. */
struct knowledge {
    bool known[BLITTER_WORDS];
    uint16_t file[FILE_WORDS];
};

/* The folded job as far as it goes. Length counts on past the end, so that 11 can be given last of all. */
struct folded {
    uint16_t words[JOB_WORDS];
    size_t length;
};

static void put(struct folded *folded, uint16_t word)
{
    if (folded->length < JOB_WORDS)
        folded->words[folded->length] = word;
    folded->length++;
}

static void learn(struct knowledge *knowledge, uint32_t target, uint16_t value)
{
    knowledge->known[target] = true;
    knowledge->file[target] = value;
}

static void forget(struct knowledge *knowledge, uint32_t target)
{
    knowledge->known[target] = false;
    knowledge->file[target] = 0;
}

/* A kept blit has moved the pointers and loaded the data registers of the channels it uses. */
static void forget_moved(struct knowledge *knowledge)
{
    uint16_t uses = knowledge->known[BLTCON0] ? knowledge->file[BLTCON0] & USES : USES;
    if (uses & USE_A)
        forget(knowledge, BLTAPTH), forget(knowledge, BLTAPTL), forget(knowledge, BLTADAT);
    if (uses & USE_B)
        forget(knowledge, BLTBPTH), forget(knowledge, BLTBPTL), forget(knowledge, BLTBDAT);
    if (uses & USE_C)
        forget(knowledge, BLTCPTH), forget(knowledge, BLTCPTL), forget(knowledge, BLTCDAT);
    if (uses & USE_D)
        forget(knowledge, BLTDPTH), forget(knowledge, BLTDPTL);
}

/* Whether flipping the source alone (4 for A, 2 for B, 1 for C) changes the answer for some setting of the others. */
static bool depends(uint32_t function, uint32_t source)
{
    for (uint32_t setting = 0; setting < 8; setting++)
        if ((function >> setting & 1) != (function >> (setting ^ source) & 1))
            return true;
    return false;
}

static bool sources_known(const struct knowledge *knowledge)
{
    const bool *known = knowledge->known;
    uint32_t function = knowledge->file[BLTCON0] & 0xFF;
    if (depends(function, 4) && !(known[BLTADAT] && known[BLTAFWM] && known[BLTALWM]))
        return false;
    if (depends(function, 2) && !known[BLTBDAT])
        return false;
    return !depends(function, 1) || known[BLTCDAT];
}

/* Everything that settled asks for, but that the blit doesn't go round. A line is never settled. */
static bool otherwise_settled(const struct knowledge *knowledge, size_t ram_words, uint16_t size)
{
    const bool *known = knowledge->known;
    return known[BLTCON0] && known[BLTCON1] && known[BLTDPTH] && known[BLTDPTL] && known[BLTDMOD]
        && !(knowledge->file[BLTCON1] & LINE)
        && (knowledge->file[BLTCON0] & USES) == USE_D
        && plain_height(size) * plain_width(size) <= SETTLED_WORDS
        && plain_blit_refusal(knowledge->file, ram_words, size) == 0
        && sources_known(knowledge);
}

/* Whether the blit, settled otherwise, would go round: done on registers that nobody sees afterwards. */
static bool goes_round(const struct knowledge *knowledge, uint16_t size)
{
    struct store stores[SETTLED_WORDS];
    struct knowledge unseen = *knowledge;
    bool round;
    plain_blit_stores(unseen.file, size, stores, &round);
    return round;
}

/* A settled blit as its stores, D's final pointer and the flag step. The pointer stays known, with its final number. */
static void fold_blit(struct knowledge *knowledge, uint16_t size, struct folded *folded)
{
    struct store stores[SETTLED_WORDS];
    bool round;
    uint32_t count = plain_blit_stores(knowledge->file, size, stores, &round);
    for (uint32_t i = 0; i < count; i++) {
        uint32_t address = stores[i].at * 2;
        put(folded, 0x8000 | address >> 16);
        put(folded, address & 0xFFFF);
        put(folded, stores[i].word);
    }
    put(folded, 0x054);
    put(folded, knowledge->file[BLTDPTH]);
    put(folded, 0x056);
    put(folded, knowledge->file[BLTDPTL]);
    put(folded, 0xC000 | knowledge->file[ZERO_FLAG]);
}

/* *round becomes 1 where a blit is kept for going round alone. */
static void fold_step(struct knowledge *knowledge, size_t ram_words, const uint16_t *words, const struct step *step,
                      struct folded *folded, uint32_t *round)
{
    if (step->kind == BLIT_START && otherwise_settled(knowledge, ram_words, step->value)) {
        if (!goes_round(knowledge, step->value)) {
            fold_blit(knowledge, step->value, folded);
            return;
        }
        *round = 1;
    }
    if (step->kind == REGISTER_WRITE && step->target < BLITTER_WORDS)
        learn(knowledge, step->target, step->value);
    if (step->kind == BLIT_START)
        forget_moved(knowledge);
    for (uint32_t i = 0; i < step->words; i++)
        put(folded, words[i]);
}

void plain_fold(size_t ram_words, const uint16_t *job, size_t job_words, uint16_t *out, size_t out_words,
                uint32_t *number, uint32_t *place, uint32_t *length, uint32_t *round)
{
    uint32_t kept_for_round = 0;
    struct knowledge knowledge = {{false}, {0}};
    struct folded folded;
    folded.length = 0;
    *number = !plain_memory_lawful(ram_words) ? 1 : job_words > JOB_WORDS ? 3 : 0;
    *place = 0;
    *length = 0;
    *round = 0;
    if (*number != 0)
        return;
    for (size_t at = 0; at < job_words;) {
        struct step step;
        *number = plain_step(job, job_words, at, &step);
        if (*number != 0) {
            *place = at;
            return;
        }
        fold_step(&knowledge, ram_words, job + at, &step, &folded, &kept_for_round);
        at += step.words;
    }
    if (folded.length > out_words || folded.length > JOB_WORDS) {
        *number = 11;
        return;
    }
    memcpy(out, folded.words, folded.length * sizeof *out);
    *length = folded.length;
    *round = kept_for_round;
}
