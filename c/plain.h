/* A second Blitter, in plain C, written from the papers alone: one area blit or line, a job run, a job folded,
 * an old register file widened, one frame of a Copper list, one line of picture.
 * Nothing of it is proved. It is what the archive is compared with, call by call, and what its cost is set beside.
 * Parameters, numbers and what a refusal leaves are those of the entries of the same name in desk.h. */
#ifndef PLAIN_H
#define PLAIN_H

#include <stddef.h>
#include <stdint.h>

void plain_blit(uint16_t *ram, size_t ram_words, uint16_t *file, size_t file_words, uint16_t size,
                uint32_t *number, uint32_t *stored, uint32_t *round);

void plain_run(uint16_t *ram, size_t ram_words, uint16_t *file, size_t file_words,
               const uint16_t *job, size_t job_words,
               uint32_t *number, uint32_t *place, uint32_t *stored, uint32_t *round);

void plain_fold(size_t ram_words, const uint16_t *job, size_t job_words, uint16_t *out, size_t out_words,
                uint32_t *number, uint32_t *place, uint32_t *length, uint32_t *round);

void plain_widen(const uint16_t *old, size_t old_words, uint16_t *target, size_t target_words, uint32_t *number);

void plain_frame(uint16_t *ram, size_t ram_words, uint16_t *file, size_t file_words, uint32_t start, uint32_t lent,
                 uint32_t *why, uint32_t *number, uint32_t *done, uint32_t *word);

void plain_frame_from(uint16_t *ram, size_t ram_words, uint16_t *file, size_t file_words,
                      uint32_t beam, uint32_t start, uint32_t lent,
                      uint32_t *why, uint32_t *number, uint32_t *done, uint32_t *word, uint32_t *place);

void plain_picture(const uint16_t *ram, size_t ram_words, const uint16_t *file, size_t file_words,
                   const uint32_t *planes, size_t plane_count, uint32_t words, uint32_t odd_delay, uint32_t even_delay,
                   uint16_t *out, size_t out_words, uint32_t *number);

#endif
