#include "instruction.h"

#include <stdio.h>
#include <string.h>

#include "beam.h"
#include "step.h"

enum { FIRST_WITH_DANGER = 0x040, FIRST_PERMITTED = 0x080, FULL_MASK = 0xFFFE, OPERANDS = 24 };

static bool is_move(uint16_t first)
{
    return first % 2 == 0;
}

static bool is_skip(const uint16_t words[2])
{
    return words[0] % 2 != 0 && words[1] % 2 != 0;
}

static uint16_t offset_of(uint16_t first)
{
    return first & 0x01FE;
}

/* The bits that a WAIT or a SKIP compares. */
static uint16_t mask_of(uint16_t second)
{
    return (second | 0x8000) & FULL_MASK;
}

static bool satisfied(uint32_t place, uint16_t first, uint16_t mask)
{
    uint32_t beam = place / POSITIONS % 256 * 256 + place % POSITIONS;

    return (beam & mask) >= (uint32_t)(first & mask);
}

/* The first place of the frame where it is satisfied; FRAME_PLACES if there is none. */
static uint32_t first_satisfied(uint16_t first, uint16_t second)
{
    uint32_t place = 0;

    while (place < FRAME_PLACES && !satisfied(place, first, mask_of(second)))
        place++;
    return place;
}

/* 21 or 22 for an offset that is refused, else 0. */
static uint32_t offset_number(uint16_t offset, bool danger)
{
    if (offset < FIRST_WITH_DANGER || (offset < FIRST_PERMITTED && !danger))
        return 21;
    return offset == BLTSIZE || register_at(offset) < ZERO_FLAG ? 0 : 22;
}

static void add_move(char line[LINE_ROOM], uint16_t offset, uint16_t value)
{
    size_t reg = register_at(offset);

    if (offset == BLTSIZE)
        add(line, "MOVE BLTSIZE,%04X", (unsigned)value);
    else if (reg < ZERO_FLAG)
        add(line, "MOVE %s,%04X", register_name(reg), (unsigned)value);
    else
        add(line, "MOVE %03X,%04X", (unsigned)offset, (unsigned)value);
}

/* Line and position in decimal; the mask unless it is the full one. */
static void add_comparison(char line[LINE_ROOM], uint16_t first, uint16_t second)
{
    uint16_t mask = mask_of(second);

    add(line, "%s %u,%u", second % 2 == 0 ? "WAIT" : "SKIP", (unsigned)first >> 8, (unsigned)first & 0xFE);
    if (mask != FULL_MASK)
        add(line, " mask %04X", (unsigned)mask);
}

void add_instruction(char line[LINE_ROOM], const uint16_t *ram, size_t ram_words, uint32_t word)
{
    add(line, "%6lu  ", (unsigned long)word);
    if (word >= ram_words)
        return;
    add(line, "%04X ", (unsigned)ram[word]);
    if (ram_words - word < 2)
        return;
    add(line, "%04X  ", (unsigned)ram[word + 1]);
    if (is_move(ram[word]))
        add_move(line, offset_of(ram[word]), ram[word + 1]);
    else
        add_comparison(line, ram[word], ram[word + 1]);
}

bool starts_blit(const uint16_t *ram, size_t ram_words, uint32_t word)
{
    return word < ram_words && ram_words - word >= 2 && is_move(ram[word]) && offset_of(ram[word]) == BLTSIZE;
}

static void add_number(char line[LINE_ROOM], uint32_t number)
{
    add(line, "%s (%lu)", number_meaning(number), (unsigned long)number);
}

static void add_move_sense(char line[LINE_ROOM], struct listing *listing, uint16_t offset, uint16_t value, bool danger)
{
    size_t reg = register_at(offset), high = listing->high;
    uint32_t number = offset_number(offset, danger);

    listing->high = FILE_WORDS;
    if (number != 0) {
        add_number(line, number);
    } else if (offset == BLTSIZE) {
        add_blit(line, &listing->known, value);
        forget_blit(&listing->known);
    } else {
        listing->high = high;
        add_register(line, listing, reg, value);
        remember_write(listing, reg, value);
    }
}

/* A MOVE behind a SKIP may be passed over: what its register holds then isn't known. */
static void forget_move(struct listing *listing, uint16_t offset)
{
    size_t reg = register_at(offset);

    if (reg < ZERO_FLAG)
        forget(&listing->known, reg);
}

static void add_comparison_sense(char line[LINE_ROOM], uint16_t first, uint16_t second)
{
    uint32_t place = first_satisfied(first, second);

    if (place < FRAME_PLACES)
        add(line, "satisfied first at line %u, position %u", (unsigned)place / POSITIONS, (unsigned)place % POSITIONS);
    else
        add(line, second % 2 == 0 ? "never satisfied: ends the frame" : "never satisfied: passes over nothing");
}

static void add_sense(char line[LINE_ROOM], struct listing *listing, const uint16_t words[2], bool danger)
{
    if (is_move(words[0])) {
        add_move_sense(line, listing, offset_of(words[0]), words[1], danger);
        return;
    }
    listing->high = FILE_WORDS;
    add_comparison_sense(line, words[0], words[1]);
}

/* Fills the line up to where the senses begin, one under the other. */
static void add_blanks(char line[LINE_ROOM])
{
    size_t used = strlen(line), column = strlen("000000  0000 0000  ") + OPERANDS;

    add(line, "%*s", used < column ? (int)(column - used) : 2, "");
}

void print_instructions(const uint16_t *ram, size_t ram_words, uint32_t start, size_t list_words, bool danger)
{
    struct listing listing = listing_of(NULL, 0);
    bool perhaps = false;

    for (uint32_t word = start; word - start < list_words; word += 2) {
        char line[LINE_ROOM] = "";

        add_instruction(line, ram, ram_words, word);
        add_blanks(line);
        if (word + 1 < ram_words)
            add_sense(line, &listing, ram + word, danger);
        else
            add_number(line, 23);
        puts(line);
        if (perhaps && is_move(ram[word]))
            forget_move(&listing, offset_of(ram[word]));
        perhaps = word + 1 < ram_words && is_skip(ram + word);
    }
}
