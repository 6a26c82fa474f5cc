#include "listing.h"

#include <stdio.h>
#include <string.h>

#include "line.h"
#include "step.h"

static void add_con0(char line[LINE_ROOM], uint16_t value)
{
    add_uses(line, value);
    add(line, ", function %02X", (unsigned)value & 0xFF);
    if (value >> 12)
        add(line, ", shift A %u", (unsigned)value >> 12);
}

/* With the line bit set the other bits have another sense. */
static void add_con1(char line[LINE_ROOM], uint16_t value)
{
    if (value & 1) {
        add_line_control(line, value);
        return;
    }
    add(line, value & 2 ? "descending" : "ascending");
    if (value & 8)
        add(line, ", inclusive fill");
    if (value & 16)
        add(line, ", exclusive fill");
    if (value & 4)
        add(line, ", carry in");
    if (value >> 12)
        add(line, ", shift B %u", (unsigned)value >> 12);
}

/* A low half is read together with the high half if the step before wrote that. */
static void add_pointer(char line[LINE_ROOM], const struct listing *listing, size_t reg, uint16_t kept)
{
    char channel = register_name(reg)[3];
    unsigned long address = (unsigned long)listing->high_value << 16 | kept;

    if (register_name(reg)[6] == 'H')
        add(line, "%c pointer, high half", channel);
    else if (listing->high + 1 == reg)
        add(line, "%c pointer: byte %05lX, word %lu", channel, address, address / 2);
    else
        add(line, "%c pointer, low half", channel);
}

static void add_modulo(char line[LINE_ROOM], size_t reg, uint16_t kept)
{
    long bytes = kept & 0x8000 ? (long)kept - 0x10000 : (long)kept;

    add(line, "%c modulo: %ld bytes", register_name(reg)[3], bytes);
}

/* Four bits each of red, green and blue. */
static void add_colour(char line[LINE_ROOM], size_t reg, uint16_t kept)
{
    add(line, "colour %u: red %X, green %X, blue %X", (unsigned)(reg - COLOUR0), (unsigned)kept >> 8,
        (unsigned)kept >> 4 & 15, (unsigned)kept & 15);
}

/* The sense that a register has in an area blit, or in every one. */
static void add_area_register(char line[LINE_ROOM], const struct listing *listing, size_t reg, uint16_t kept)
{
    const char *name = register_name(reg);

    if (reg == COPCON)
        add(line, kept ? "Copper's danger bit set" : "Copper's danger bit clear");
    else if (reg >= COLOUR0)
        add_colour(line, reg, kept);
    else if (reg == BLTCON0)
        add_con0(line, kept);
    else if (reg == BLTCON1)
        add_con1(line, kept);
    else if (reg == BLTAFWM)
        add(line, "mask of A in a row's first word");
    else if (reg == BLTALWM)
        add(line, "mask of A in a row's last word");
    else if (strncmp(name + 4, "PT", 2) == 0)
        add_pointer(line, listing, reg, kept);
    else if (strcmp(name + 4, "MOD") == 0)
        add_modulo(line, reg, kept);
    else
        add(line, "%c data", name[3]);
}

void add_register(char line[LINE_ROOM], const struct listing *listing, size_t reg, uint16_t value)
{
    uint16_t kept = register_kept(reg, value);

    if (!listing->line || !add_line_register(line, reg, kept))
        add_area_register(line, listing, reg, kept);
    if (kept != value)
        add(line, ", kept as %04X", (unsigned)kept);
}

void add_blit(char line[LINE_ROOM], const struct known *known, uint16_t size)
{
    unsigned height = size_height(size), width = size_width(size);

    if (line_known(known)) {
        add(line, "line of ");
        add_line(line, known, size);
        return;
    }
    add(line, "blit: %u row%s of %u word%s", height, plural(height), width, plural(width));
}

/* The words from one to another, blanks between them. */
static void add_words(char line[LINE_ROOM], const uint16_t *from, const uint16_t *to)
{
    for (const uint16_t *at = from; at < to; at++)
        add(line, "%s%04X", at == from ? "" : " ", (unsigned)*at);
}

static const char *step_name(const struct step *step)
{
    switch (step->kind) {
    case STEP_REGISTER:
        return register_name(step->reg);
    case STEP_SIZE:
        return "BLTSIZE";
    case STEP_STORE:
        return "store";
    case STEP_FLAG:
        return "flag";
    case STEP_REFUSED:
        break;
    }
    return NULL;
}

static void add_sense(char line[LINE_ROOM], const struct listing *listing, const struct step *step)
{
    switch (step->kind) {
    case STEP_REGISTER:
        add_register(line, listing, step->reg, step->value);
        break;
    case STEP_SIZE:
        add_blit(line, &listing->known, step->value);
        break;
    case STEP_STORE:
        add(line, "byte %05lX, word %lu becomes %04X", (unsigned long)step->address,
            (unsigned long)step->address / 2, (unsigned)step->value);
        break;
    case STEP_FLAG:
        add(line, "zero flag becomes %u", (unsigned)step->value);
        break;
    case STEP_REFUSED:
        add(line, "%s (%lu)", number_meaning(step->number), (unsigned long)step->number);
    }
}

/* A line of the listing: place, first word, name, further words, sense. A step that is refused has no name. */
static void add_listed(char line[LINE_ROOM], const struct listing *listing, const struct step *step)
{
    const uint16_t *at = listing->job + listing->place;
    const char *name = step_name(step);

    add(line, "%5lu  %04X  ", (unsigned long)listing->place, (unsigned)at[0]);
    if (name != NULL)
        add(line, "%-7s ", name);
    add_words(line, at + 1, at + step->words);
    if (step->words > 1)
        add(line, "  ");
    add_sense(line, listing, step);
}

/* A line of a job file: the words, and the sense as a comment, in the same column behind one word and behind three. */
static void add_written(char line[LINE_ROOM], const struct listing *listing, const struct step *step)
{
    const uint16_t *at = listing->job + listing->place;
    char words[LINE_ROOM] = "";

    add_words(words, at, at + step->words);
    add(line, "%-14s  ; ", words);
    add_sense(line, listing, step);
}

void remember_write(struct listing *listing, size_t reg, uint16_t value)
{
    bool high = register_name(reg)[6] == 'H';

    listing->high = high ? reg : FILE_WORDS;
    listing->high_value = register_kept(reg, value);
    know(&listing->known, reg, value);
}

struct listing listing_of(const uint16_t *job, size_t words)
{
    struct listing listing = {job, words, 0, FILE_WORDS, 0, nothing_known(), 0, false};

    return listing;
}

/* Finds the next write of BLTSIZE, and whether it starts a line as far as the job itself says. */
static void look_ahead(struct listing *listing)
{
    bool line = line_known(&listing->known);
    size_t place = listing->place;
    struct step step;

    do {
        step = step_at(listing->job, listing->words, place);
        if (step.kind == STEP_REGISTER && step.reg == BLTCON1)
            line = step.value & 1;
        place += step.words;
    } while (place < listing->words && step.kind != STEP_SIZE && step.kind != STEP_REFUSED);
    listing->until = place;
    listing->line = line && step.kind == STEP_SIZE;
}

/* The next step's line in one of the two forms. */
static int next_line(struct listing *listing, char line[LINE_ROOM],
                     void (*add_form)(char line[LINE_ROOM], const struct listing *listing, const struct step *step))
{
    struct step step;

    line[0] = '\0';
    if (listing->place == listing->words)
        return 0;
    if (listing->place >= listing->until)
        look_ahead(listing);
    step = step_at(listing->job, listing->words, listing->place);
    add_form(line, listing, &step);
    listing->place = step.kind == STEP_REFUSED ? listing->words : listing->place + step.words;
    listing->high = FILE_WORDS;
    if (step.kind == STEP_REGISTER)
        remember_write(listing, step.reg, step.value);
    else if (step.kind == STEP_SIZE)
        forget_blit(&listing->known);
    return 1;
}

int listing_next(struct listing *listing, char line[LINE_ROOM])
{
    return next_line(listing, line, add_listed);
}

int written_next(struct listing *listing, char line[LINE_ROOM])
{
    return next_line(listing, line, add_written);
}

void print_listing(const uint16_t *job, size_t words)
{
    struct listing listing = listing_of(job, words);
    char line[LINE_ROOM];

    while (listing_next(&listing, line))
        puts(line);
}

/* How many steps of the folded job stand beside the original's step at a place: a settled blit became its stores, two
 * writes of the D pointer and the flag; every other step was copied. */
static unsigned long steps_beside(const struct listing *original, const struct listing *folded)
{
    struct step step = step_at(original->job, original->words, original->place);

    if (step.kind != STEP_SIZE || folded->job[folded->place] == BLTSIZE)
        return 1;
    return (unsigned long)size_height(step.value) * size_width(step.value) + 3;
}

/* The width of the original's column: its longest line's, but at most this many signs. What is longer, as a line's size,
 * moves what stands beside it to the right. */
enum { BESIDE_WIDTH = 80 };

static int beside_width(const uint16_t *job, size_t words)
{
    struct listing listing = listing_of(job, words);
    char line[LINE_ROOM];
    size_t longest = 0;

    while (listing_next(&listing, line))
        if (strlen(line) > longest)
            longest = strlen(line);
    return longest < BESIDE_WIDTH ? (int)longest : BESIDE_WIDTH;
}

void print_beside(const uint16_t *job, size_t words, const uint16_t *folded, size_t length)
{
    struct listing left = listing_of(job, words), right = listing_of(folded, length);
    char left_line[LINE_ROOM], right_line[LINE_ROOM];
    int width = beside_width(job, words);

    while (left.place < left.words && right.place < right.words) {
        unsigned long steps = steps_beside(&left, &right);

        listing_next(&left, left_line);
        while (steps-- > 0 && listing_next(&right, right_line)) {
            printf("%-*s | %s\n", width, left_line, right_line);
            left_line[0] = '\0';
        }
    }
}
