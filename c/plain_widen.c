/* The widening of paper 02, W7: an old register file, of 20 words, turned into a new one. */
#include "plain.h"
#include "plain_parts.h"

enum { OLD_WORDS = BLITTER_WORDS + 1 };

/* The old rule: the Blitter's registers and the flag, with the bits that they keep. */
static bool old_file_lawful(const uint16_t *old, size_t old_words)
{
    if (old_words != OLD_WORDS)
        return false;
    for (size_t i = 0; i < BLITTER_WORDS; i++)
        if (old[i] & ~plain_kept[i])
            return false;
    return (old[BLITTER_WORDS] & ~plain_kept[ZERO_FLAG]) == 0;
}

void plain_widen(const uint16_t *old, size_t old_words, uint16_t *target, size_t target_words, uint32_t *number)
{
    *number = !old_file_lawful(old, old_words) ? 2 : target_words != FILE_WORDS ? 20 : 0;
    if (*number != 0)
        return;
    for (size_t i = 0; i < FILE_WORDS; i++)
        target[i] = i < BLITTER_WORDS ? old[i] : 0;
    target[ZERO_FLAG] = old[BLITTER_WORDS];
}
