/* What the tool's commands share: the exit status, and the printing of what was changed. */
#ifndef OUTCOME_H
#define OUTCOME_H

#include <stdbool.h>
#include <stddef.h>
#include <stdint.h>

#include "step.h"

enum { DONE = 0, ERROR = 1, REFUSED = 2 };

/* The answer: number with its meaning, and place. */
void print_answer(uint32_t number, uint32_t place);

/* What a picture's number means: 10 is of a bit plane there, and of a store elsewhere. */
const char *picture_meaning(uint32_t number);

/* Each word that changed, with its byte address, and afterwards as sixteen pixels if they are wanted; each register that
 * changed. */
void print_changed_words(const uint16_t *before, const uint16_t *after, size_t words, bool pixels);
void print_changed_registers(const uint16_t before[FILE_WORDS], const uint16_t after[FILE_WORDS]);

#endif
