/* What the parts of the differential test share. */
#ifndef DIFFER_H
#define DIFFER_H

#include <stdbool.h>
#include <stddef.h>
#include <stdint.h>

enum {
    RAM_ROOM = 262145,
    FILE_ROOM = 57,
    JOB_ROOM = 4097,
    OUT_ROOM = 40000,
    PLANE_ROOM = 257,
    FENCE = 8
};

/* The Blitter's registers stand first in the file; REGISTERS counts COPCON and the colours too. */
enum { POINTERS = 262144, BLITTER = 19, REGISTERS = 52, ZERO_FLAG = 52, FILE_WORDS = 53, OLD_WORDS = 20 };

/* Channels C, B, A and D have the numbers 0 to 3, in the order of the file. */
enum { C_CHANNEL, B_CHANNEL, A_CHANNEL, D_CHANNEL, CHANNELS };
enum { FIRST_POINTER = 4, FIRST_MODULO = 12, USE_A = 0x0800, USE_B = 0x0400, USE_C = 0x0200, USE_D = 0x0100 };

/* A line: its bits of BLTCON1, the channels it uses, and where the file has its accumulator. */
enum { LINE = 0x01, SING = 0x02, AUL = 0x04, SUL = 0x08, SUD = 0x10, SIGN = 0x40 };
enum { LINE_BITS = SIGN | SUD | SUL | AUL | SING, LINE_USES = USE_A | USE_C | USE_D, A_LOW = 9 };

enum call { BLIT, RUN, FOLD, WIDEN, FRAME, PICTURE, CALLS };
enum { NUMBERS = 26 };

/* How far a case goes astray. */
enum care { LAWFUL, RISKY, DAMAGED };

/* One case: everything a call is given. */
struct test {
    enum call call;
    size_t ram_words;
    uint64_t ram_seed;          /* what memory holds, by fill_ram */
    uint16_t file[FILE_ROOM];   /* for a folding: the file of the two runs that are compared; the old file of a widening */
    size_t file_words;
    uint16_t size;              /* of a blit called alone */
    uint16_t job[JOB_ROOM];     /* of a frame: the list, which is laid into memory from word list_at on */
    size_t job_words;
    int spare;                  /* of a folding: words of output beyond those it needs, or missing if negative */
    size_t target_words;        /* of a widening */
    uint32_t list_at, beam, start, lent;
    bool exact;                 /* of a frame: as many instructions as it can do and spare are lent, not the lent number */
    uint32_t cut;               /* of a frame: where it is cut, by instructions, modulo those it does and one */
    uint32_t planes[PLANE_ROOM];  /* of a picture, as all that follows */
    uint32_t plane_count, words, odd_delay, even_delay, out_words;
};

/* One side's buffers, a fence on either side of each, and its answer. */
struct side {
    uint16_t ram[FENCE + RAM_ROOM + FENCE];
    uint16_t file[FENCE + FILE_ROOM + FENCE];
    uint16_t out[FENCE + OUT_ROOM + FENCE];
    uint32_t planes[FENCE + PLANE_ROOM + FENCE];
    size_t ram_words;
    uint32_t number, place, count;  /* count: words stored, the folded length, or instructions done */
    uint32_t round;                 /* of a blit, a run or a folding: whether a pointer went round */
    uint32_t why, word;             /* of a frame, whose place is the beam's */
};

extern struct side desk, plain;

/* How often each outcome came: by the call and its number. */
extern uint64_t outcomes[CALLS][NUMBERS];

/* A blit: its register file and size. */
struct plan {
    uint16_t file[FILE_WORDS];
    uint16_t size;
    uint32_t height, width;
};

/* How far a channel's words lie from its first one. */
struct reach {
    int32_t lowest, highest;
};

/* Random numbers: begun from a seed; 64 bits; below an end; true once in so many; a word, often of few or all ones. */
void start_random(uint64_t seed);
uint64_t random64(void);
uint32_t below(uint32_t end);
bool one_in(uint32_t chances);
uint16_t random_word(void);

uint32_t at_most(uint32_t value, uint32_t most);

/* A blit for memory of n words: one that could be settled, or any; at risk of leaving memory or of refusal, or not. One
 * in some is a line, made by make_line. */
void make_plan(struct plan *plan, uint32_t n, bool settled, bool risk);
void make_line(struct plan *plan, uint32_t n, bool risk);

/* Lays a blit or a line anew so that with some move a pointer comes to an end of the pointers, word 0 or word 262,143,
 * or a word or two before it or past it; in fewer words, so that it goes round and comes back, or nearly. */
void lay_round(struct plan *plan, uint32_t n);
void lay_line_round(struct plan *plan, uint32_t n);

/* A line with any registers, but for its number of dots and its place; these two; the manual's set-up for a longer and
 * a shorter side; and the reach of its dots' words. */
void pick_line(struct plan *plan);
void set_dots(struct plan *plan, uint32_t dots);
void set_line_pointer(struct plan *plan, uint32_t word);
void set_slope(struct plan *plan, uint32_t long_side, uint32_t short_side);
struct reach way_of(const struct plan *plan);

/* How far the word of a line's last dot lies from that of its first. */
int32_t last_of(const struct plan *plan);

/* The reach of a channel of the plan's blit by half its modulo, and its pointer set to a word, which goes round. */
struct reach reach_of(const struct plan *plan, int32_t half);
void set_pointer(struct plan *plan, int pointer, uint32_t word);

/* COPCON, the colours and the zero flag of a file: any bits that are kept. */
void pick_screen(uint16_t *file);

/* A register's offset by its place in the file. */
extern const uint16_t offsets[REGISTERS];

/* Adds a word to the job or list; the length of a memory; a file of the wrong length, or with a bit that isn't kept. */
void put(struct test *test, uint16_t value);
size_t pick_ram_words(void);
void damage_file(struct test *test);

/* The case that belongs to a seed; a frame's part of it, and a picture's. */
void make_test(struct test *test, uint64_t seed);
void make_frame(struct test *test, enum care care);
void make_picture(struct test *test, enum care care);

/* Memory by its seed: word i is i modulo 1,024 for seed 0, otherwise random words, words of few ones, or zeros. */
void fill_ram(uint16_t *ram, size_t words, uint64_t seed);

/* Lays a case's memory and file out on a side. Compares number, count, whether a pointer went round, memory and file:
 * NULL if they agree. */
void set_up(struct side *side, const struct test *test);
const char *compare(void);

/* Lays out an output of so many words, each other than the next. */
void set_up_out(struct side *side, size_t out_words);

/* Does the case on both sides: NULL if they agree, otherwise what differs. */
const char *difference(const struct test *test);
const char *difference_of_frames(const struct test *test);
const char *difference_of_pictures(const struct test *test);

/* Count a line called alone, by the plain side's answer; the lines that a side did of a job, which was run for its own
 * sake or because a folding changed it; and a line of a list. */
void count_line(const struct test *test);
void count_lines_of_run(const struct test *test, const struct side *side, bool folded);
void count_line_of_frame(void);

/* Counts what the plain side says of pointers that went round, in a blit, a run or a folding, and whether the archive's
 * run of a folded job and its original said it too. */
void count_round(const struct test *test);
void count_round_of_pair(const struct side *side);

/* How the frames ended, and how many were cut; how much of the pictures was compared; how many lines of each kind; how
 * often a pointer went round. */
void print_frames(void);
void print_pictures(void);
void print_lines(void);
void print_rounds(void);

/* Whether lines of every kind were compared; in jobs, folded jobs and lists too, or alone. Whether pointers went round,
 * and didn't, in blits and lines; in runs, refused ones too, and in foldings too, or alone. Say so where not. */
bool lines_came(bool in_jobs);
bool rounds_came(bool in_jobs);

/* Says which case differs, shrinks and prints it. */
void report(struct test *test, const char *which, uint64_t number);

/* Does the cases that cross an engine's seams: how many, or 0 after a report of the first on which the sides differ. */
uint64_t seams(void);

/* The same of the pictures, the lines and the pointers' ends, with which seams ends: a picture for all delays, numbers
 * of planes and numbers of words; lines of all settings, slopes and lengths; blits, lines and foldings around the words
 * 0 and 262,143. */
uint64_t picture_seams(void);
uint64_t line_seams(void);
uint64_t round_seams(void);

/* Takes away from a case whatever the difference doesn't need, and prints what is left. */
void shrink(struct test *test);
void print_test(const struct test *test);

/* A line called alone, in words. */
void describe_line(const struct test *test);

/* The line of a picture as a side's output has it, and what of the output lies next to it. */
void print_line(const struct side *side, const struct test *test);

#endif
