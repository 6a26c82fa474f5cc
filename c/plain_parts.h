/* What the parts of the plain engine share: the registers, the blit's inner calls and the reader of jobs. */
#ifndef PLAIN_PARTS_H
#define PLAIN_PARTS_H

#include <stdbool.h>
#include <stddef.h>
#include <stdint.h>

enum {
    POINTERS = 262144,  /* pointers go round here, and no memory is longer */
    JOB_WORDS = 4096,
    SETTLED_WORDS = 64  /* no settled blit has more */
};

/* The register file, in its order. */
enum {
    BLTCON0, BLTCON1, BLTAFWM, BLTALWM,
    BLTCPTH, BLTCPTL, BLTBPTH, BLTBPTL, BLTAPTH, BLTAPTL, BLTDPTH, BLTDPTL,
    BLTCMOD, BLTBMOD, BLTAMOD, BLTDMOD,
    BLTCDAT, BLTBDAT, BLTADAT,
    COPCON,
    COLOR00, COLOR31 = COLOR00 + 31,
    ZERO_FLAG,
    FILE_WORDS
};

/* The Blitter's registers are the file's first words. */
enum { BLITTER_WORDS = BLTADAT + 1 };

/* Bits 11 to 8 of BLTCON0, and bit 0 of BLTCON1. */
enum { USE_A = 0x800, USE_B = 0x400, USE_C = 0x200, USE_D = 0x100, USES = 0xF00 };
enum { LINE = 0x01 };

struct store {
    uint32_t at;  /* a word number */
    uint16_t word;
};

/* The bits a register keeps, by its place in the file. */
extern const uint16_t plain_kept[FILE_WORDS];

/* A register's place in the file by its offset, or -1 where the table has none. */
int plain_place_in_file(uint16_t offset);

bool plain_memory_lawful(size_t ram_words);
bool plain_file_lawful(const uint16_t *file, size_t file_words);

uint32_t plain_height(uint16_t size);
uint32_t plain_width(uint16_t size);

/* The logic function of BLTCON0 by its eight settings, all ones where the function has that bit; and what the function
 * makes of a, b and c. */
void plain_minterms(uint16_t con0, uint16_t *minterm);
uint16_t plain_logic(const uint16_t *minterm, uint16_t a, uint16_t b, uint16_t c);

/* The first that refuses the blit, or 0: of 18, 19 and 16 for a line, of 8, 9, 14, 15, 16 and 17 for an area. */
uint32_t plain_blit_refusal(const uint16_t *file, size_t ram_words, uint16_t size);

/* Moves a pointer by some words, up or down, modulo 262,144. Gives whether it went round: whether the plain sum is
 * below 0 or above 262,143. */
static inline bool plain_moved(uint32_t *pointer, int32_t by)
{
    int32_t sum = (int32_t)*pointer + by;
    *pointer = (uint32_t)sum % POINTERS;
    return sum < 0 || sum >= POINTERS;
}

/* Does a blit that nothing refuses; gives the count of words stored, and whether a used channel, in a line C, went
 * round between two of its accesses. */
uint32_t plain_blit_done(uint16_t *ram, uint16_t *file, uint16_t size, bool *round);

/* The same two of a blit that has the line bit. */
uint32_t plain_line_refusal(const uint16_t *file, size_t ram_words, uint16_t size);
uint32_t plain_line_done(uint16_t *ram, uint16_t *file, uint16_t size, bool *round);

/* What an area blit of at most 64 words that uses D alone would store, in its order, and whether D would go round
 * between two of its stores; file is left as after the blit. Gives the count of stores. */
uint32_t plain_blit_stores(uint16_t *file, uint16_t size, struct store *stores, bool *round);

enum step_kind { REGISTER_WRITE, BLIT_START, STORE, FLAG };

struct step {
    enum step_kind kind;
    uint32_t words;  /* of the job */
    uint32_t target; /* a register's place in the file, or a store's word number */
    uint16_t value;
};

/* Reads the step at place, which lies inside the job: 0, or 4, 5 or 6 and no step. */
uint32_t plain_step(const uint16_t *job, size_t job_words, size_t place, struct step *step);

#endif
