/* A Copper list as text: one instruction a line, with its word number, its words and its sense. */
#ifndef INSTRUCTION_H
#define INSTRUCTION_H

#include <stdbool.h>
#include <stddef.h>
#include <stdint.h>

#include "listing.h"

/* Adds the instruction at a word of memory: the word's number, both words, MOVE, WAIT or SKIP and what it names; of one that
 * memory hasn't got whole, only what is there. */
void add_instruction(char line[LINE_ROOM], const uint16_t *ram, size_t ram_words, uint32_t word);

/* Whether the instruction at a word of memory is a MOVE to BLTSIZE. */
bool starts_blit(const uint16_t *ram, size_t ram_words, uint32_t word);

/* The instructions of a list of so many words on standard output, each with its sense. COPCON, and with it what is
 * forbidden, stays as it is throughout a frame. */
void print_instructions(const uint16_t *ram, size_t ram_words, uint32_t start, size_t list_words, bool danger);

#endif
