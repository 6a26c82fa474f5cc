#include "step.h"

#include <stdbool.h>
#include <string.h>

struct reg {
    const char *name;
    uint16_t offset;
    uint16_t kept;
};

/* The register file in its order. The zero flag has no offset: 0 begins no step. */
static const struct reg registers[FILE_WORDS] = {
    {"BLTCON0", 0x040, 0xFFFF}, {"BLTCON1", 0x042, 0xFFFF},
    {"BLTAFWM", 0x044, 0xFFFF}, {"BLTALWM", 0x046, 0xFFFF},
    {"BLTCPTH", 0x048, 0x0007}, {"BLTCPTL", 0x04A, 0xFFFE},
    {"BLTBPTH", 0x04C, 0x0007}, {"BLTBPTL", 0x04E, 0xFFFE},
    {"BLTAPTH", 0x050, 0x0007}, {"BLTAPTL", 0x052, 0xFFFE},
    {"BLTDPTH", 0x054, 0x0007}, {"BLTDPTL", 0x056, 0xFFFE},
    {"BLTCMOD", 0x060, 0xFFFE}, {"BLTBMOD", 0x062, 0xFFFE},
    {"BLTAMOD", 0x064, 0xFFFE}, {"BLTDMOD", 0x066, 0xFFFE},
    {"BLTCDAT", 0x070, 0xFFFF}, {"BLTBDAT", 0x072, 0xFFFF}, {"BLTADAT", 0x074, 0xFFFF},
    {"COPCON", 0x02E, 0x0002},
    {"COLOR00", 0x180, 0x0FFF}, {"COLOR01", 0x182, 0x0FFF},
    {"COLOR02", 0x184, 0x0FFF}, {"COLOR03", 0x186, 0x0FFF},
    {"COLOR04", 0x188, 0x0FFF}, {"COLOR05", 0x18A, 0x0FFF},
    {"COLOR06", 0x18C, 0x0FFF}, {"COLOR07", 0x18E, 0x0FFF},
    {"COLOR08", 0x190, 0x0FFF}, {"COLOR09", 0x192, 0x0FFF},
    {"COLOR10", 0x194, 0x0FFF}, {"COLOR11", 0x196, 0x0FFF},
    {"COLOR12", 0x198, 0x0FFF}, {"COLOR13", 0x19A, 0x0FFF},
    {"COLOR14", 0x19C, 0x0FFF}, {"COLOR15", 0x19E, 0x0FFF},
    {"COLOR16", 0x1A0, 0x0FFF}, {"COLOR17", 0x1A2, 0x0FFF},
    {"COLOR18", 0x1A4, 0x0FFF}, {"COLOR19", 0x1A6, 0x0FFF},
    {"COLOR20", 0x1A8, 0x0FFF}, {"COLOR21", 0x1AA, 0x0FFF},
    {"COLOR22", 0x1AC, 0x0FFF}, {"COLOR23", 0x1AE, 0x0FFF},
    {"COLOR24", 0x1B0, 0x0FFF}, {"COLOR25", 0x1B2, 0x0FFF},
    {"COLOR26", 0x1B4, 0x0FFF}, {"COLOR27", 0x1B6, 0x0FFF},
    {"COLOR28", 0x1B8, 0x0FFF}, {"COLOR29", 0x1BA, 0x0FFF},
    {"COLOR30", 0x1BC, 0x0FFF}, {"COLOR31", 0x1BE, 0x0FFF},
    {"zero", 0, 0x0001},
};

/* Paper 01's "Numbers given back", as paper 02 leaves it: 7 and 13 aren't given. */
static const char *const meanings[] = {
    "done",
    "memory of no words or of more than 262,144",
    "a register file with a bit that isn't kept",
    "a job of more than 4,096 words",
    "begins no step",
    "cut off by the job's end",
    "a store to an odd byte address",
    NULL,
    "both fills",
    "a fill without descending",
    "a store at a word that memory doesn't have",
    "a folded job of more than 4,096 words",
    "a bad card",
    NULL,
    "channel A at a word that memory doesn't have",
    "channel B at a word that memory doesn't have",
    "channel C, or a dot of a line, at a word that memory doesn't have",
    "channel D at a word that memory doesn't have",
    "a line whose width isn't 2, or that doesn't use exactly A, C and D",
    "a line whose C and D pointers differ",
    "a new register file that hasn't 53 words",
    "a MOVE to a forbidden offset",
    "a MOVE to a permitted offset that isn't modelled",
    "an instruction with a word that memory doesn't have",
    "not 1 to 5 bit planes, not 1 to 40 words a line, or a delay above 15",
    "an output shorter than the line",
};

const char *number_meaning(uint32_t number)
{
    bool given = number < sizeof meanings / sizeof meanings[0] && meanings[number] != NULL;

    return given ? meanings[number] : "a number that no call gives";
}

const char *register_name(size_t reg)
{
    return registers[reg].name;
}

size_t register_named(const char *name)
{
    size_t reg = 0;

    while (reg < FILE_WORDS && strcmp(registers[reg].name, name) != 0)
        reg++;
    return reg;
}

uint16_t register_kept(size_t reg, uint16_t value)
{
    return value & registers[reg].kept;
}

unsigned size_height(uint16_t size)
{
    return size >> 6 ? size >> 6 : 1024;
}

unsigned size_width(uint16_t size)
{
    return size & 63 ? size & 63 : 64;
}

size_t register_at(uint16_t offset)
{
    size_t reg = 0;

    while (reg < ZERO_FLAG && registers[reg].offset != offset)
        reg++;
    return reg;
}

static enum step_kind kind_of(uint16_t first)
{
    if (first == BLTSIZE)
        return STEP_SIZE;
    if (register_at(first) < ZERO_FLAG)
        return STEP_REGISTER;
    if (first >= 0x8000 && first <= 0x8007)
        return STEP_STORE;
    if (first == 0xC000 || first == 0xC001)
        return STEP_FLAG;
    return STEP_REFUSED;
}

static struct step refused(uint32_t number, size_t words)
{
    struct step step = {STEP_REFUSED, words, number, 0, 0, 0};

    return step;
}

struct step step_at(const uint16_t *job, size_t words, size_t place)
{
    static const size_t lengths[] = {2, 2, 3, 1, 1};
    const uint16_t *at = job + place;
    struct step step = {kind_of(at[0]), 0, 0, 0, 0, 0};

    step.words = lengths[step.kind];
    if (step.kind == STEP_REFUSED)
        return refused(4, 1);
    if (words - place < step.words)
        return refused(5, words - place);
    if (step.kind == STEP_STORE && at[1] & 1)
        return refused(6, step.words);
    if (step.kind == STEP_REGISTER)
        step.reg = register_at(at[0]);
    if (step.kind == STEP_STORE)
        step.address = (uint32_t)(at[0] & 7) << 16 | at[1];
    step.value = step.kind == STEP_FLAG ? at[0] & 1 : at[step.words - 1];
    return step;
}
