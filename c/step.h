/* The steps of a job and the names of the registers, as paper 01 has them. */
#ifndef STEP_H
#define STEP_H

#include <stddef.h>
#include <stdint.h>

/* Places in the register file, and its length: the Blitter's registers, COPCON, 32 colours from COLOUR0 on. */
enum {
    BLTCON0, BLTCON1, BLTAFWM, BLTALWM,
    BLTCPTH, BLTCPTL, BLTBPTH, BLTBPTL, BLTAPTH, BLTAPTL, BLTDPTH, BLTDPTL,
    BLTCMOD, BLTBMOD, BLTAMOD, BLTDMOD,
    BLTCDAT, BLTBDAT, BLTADAT,
    COPCON,
    COLOUR0,
    ZERO_FLAG = COLOUR0 + 32,
    FILE_WORDS
};
/* An offset, and the longest job. */
enum { BLTSIZE = 0x058, JOB_LIMIT = 4096 };

enum step_kind { STEP_REGISTER, STEP_SIZE, STEP_STORE, STEP_FLAG, STEP_REFUSED };

struct step {
    enum step_kind kind;
    size_t words;      /* the words it takes; at a refused step those that are there, at most three */
    uint32_t number;   /* 4, 5 or 6 at a refused step, else 0 */
    size_t reg;        /* the register written, by its place in the register file */
    uint32_t address;  /* the byte address of a store */
    uint16_t value;    /* the value written or stored; the flag */
};

/* The step that begins at a place below words. */
struct step step_at(const uint16_t *job, size_t words, size_t place);

/* The name of a register by its place in the file: BLTCON0 to BLTADAT, COPCON, COLOR00 to COLOR31, and "zero". */
const char *register_name(size_t reg);

/* The place of a register in the file by its name; FILE_WORDS if there is none. */
size_t register_named(const char *name);

/* The place of a register in the file by its offset; ZERO_FLAG if there is none. */
size_t register_at(uint16_t offset);

/* The value that a register keeps of one that is written to it. */
uint16_t register_kept(size_t reg, uint16_t value);

/* Height and width of a BLTSIZE value; zero means 1,024 and 64. */
unsigned size_height(uint16_t size);
unsigned size_width(uint16_t size);

/* What an answer number means, in words. */
const char *number_meaning(uint32_t number);

#endif
