/* The Copper of paper 02's W8, with paper 01's rules for it: one frame of a list. */
#include "plain.h"
#include "plain_parts.h"

/* Places of the beam: line x 227 + position. */
enum { POSITIONS = 227, FRAME_PLACES = 262 * POSITIONS };
enum { MOVE_PLACES = 4, SKIP_PLACES = 4, WAIT_PLACES = 6 };
enum { BLTSIZE = 0x058, FIRST_WITH_DANGER = 0x040, FIRST_PERMITTED = 0x080, DANGER = 0x0002 };
enum { END_OF_FRAME, USED_UP, REFUSED };

/* A frame on its way. */
struct frame {
    uint16_t *ram;
    size_t ram_words;
    uint16_t *file;
    uint32_t beam;
    uint32_t word;  /* of the next instruction */
    uint32_t done;
};

/* The mask is the second word with its bit 15 set and bit 0 clear. Lines from 256 on compare as 0 and so on. */
static bool satisfied(uint32_t beam, uint16_t first, uint16_t second)
{
    uint32_t mask = (second | 0x8000u) & 0xFFFE;
    uint32_t compared = beam / POSITIONS % 256 * 256 + beam % POSITIONS;
    return (compared & mask) >= (first & mask);
}

static bool permitted(uint16_t offset, const uint16_t *file)
{
    return offset >= FIRST_PERMITTED || (offset >= FIRST_WITH_DANGER && file[COPCON] & DANGER);
}

static uint32_t blit(struct frame *frame, uint16_t size)
{
    uint32_t refusal = plain_blit_refusal(frame->file, frame->ram_words, size);
    bool round;  /* a frame's answer has no place for it */
    if (refusal == 0)
        plain_blit_done(frame->ram, frame->file, size, &round);
    return refusal;
}

/* Does a MOVE: 0, or its refusal, which changes nothing. */
static uint32_t move(struct frame *frame, uint16_t offset, uint16_t value)
{
    int target = plain_place_in_file(offset);
    if (!permitted(offset, frame->file))
        return 21;
    if (offset == BLTSIZE)
        return blit(frame, value);
    if (target < 0)
        return 22;
    frame->file[target] = value & plain_kept[target];
    return 0;
}

/* Six places on, or to the first place after that where it is satisfied; to the frame's end where there is none. */
static void wait(struct frame *frame, uint16_t first, uint16_t second)
{
    frame->beam += WAIT_PLACES;
    while (frame->beam < FRAME_PLACES && !satisfied(frame->beam, first, second))
        frame->beam++;
}

/* Does the next instruction: 0, or its refusal, which changes nothing. */
static uint32_t instruction(struct frame *frame)
{
    uint32_t refusal = 0;
    if (frame->word >= frame->ram_words || frame->ram_words - frame->word < 2)
        return 23;
    uint16_t first = frame->ram[frame->word], second = frame->ram[frame->word + 1];
    if (first % 2 == 0) {
        refusal = move(frame, first & 0x01FE, second);
        if (refusal != 0)
            return refusal;
        frame->beam += MOVE_PLACES;
    } else if (second % 2 == 0) {
        wait(frame, first, second);
    } else {
        if (satisfied(frame->beam, first, second))
            frame->word += 2;  /* the next one is passed over */
        frame->beam += SKIP_PLACES;
    }
    frame->word += 2;
    frame->done++;
    return 0;
}

/* Instructions until the frame is over, else the number is used up, else one is refused; gives which of the three. */
static uint32_t instructions(struct frame *frame, uint32_t lent, uint32_t *number)
{
    for (;;) {
        if (frame->beam >= FRAME_PLACES)
            return END_OF_FRAME;
        if (frame->done == lent)
            return USED_UP;
        *number = instruction(frame);
        if (*number != 0)
            return REFUSED;
    }
}

void plain_frame_from(uint16_t *ram, size_t ram_words, uint16_t *file, size_t file_words,
                      uint32_t beam, uint32_t start, uint32_t lent,
                      uint32_t *why, uint32_t *number, uint32_t *done, uint32_t *word, uint32_t *place)
{
    struct frame frame = {ram, ram_words, file, beam, start, 0};
    *number = !plain_memory_lawful(ram_words) ? 1 : !plain_file_lawful(file, file_words) ? 2 : 0;
    if (*number != 0) {
        frame.word = 0;
        *why = REFUSED;
    } else {
        *why = instructions(&frame, lent, number);
    }
    *done = frame.done;
    *word = frame.word;
    *place = frame.beam;
}

void plain_frame(uint16_t *ram, size_t ram_words, uint16_t *file, size_t file_words, uint32_t start, uint32_t lent,
                 uint32_t *why, uint32_t *number, uint32_t *done, uint32_t *word)
{
    uint32_t place;
    plain_frame_from(ram, ram_words, file, file_words, 0, start, lent, why, number, done, word, &place);
}
