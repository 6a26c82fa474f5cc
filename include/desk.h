/* The machine-checked Blitter for C: one blit, of an area or a line, a job run, a job folded, an old register file
 * widened, Copper lists, one line of picture.
 *
 * Common to all calls
 * - Memory, register file, job and output are runs of 16-bit words; every length counts words, not bytes.
 *   Any length is taken, 0 and too long a one too: such a call is refused with its number.
 * - A register file has 53 words: BLTCON0, BLTCON1, BLTAFWM, BLTALWM, the pointers of C, B, A and D (high half, then
 *   low half), the modulos of C, B, A and D, the data registers of C, B and A, COPCON, the 32 colours COLOR00 to COLOR31,
 *   and last the zero flag, 0 or 1. Kept bits: 2-0 of a pointer's high half, 15-1 of its low half and of a modulo, 1 of
 *   COPCON, 11-0 of a colour, all of the others. A job writes COPCON at 02E and the colours at 180 to 1BE; no blit reads
 *   or changes them, and a folding copies their writes.
 * - No pointer is null, not even with length 0, and no two buffers or numbers of one call overlap.
 *   Nothing checks this; a call that keeps to it touches only what it is lent.
 * - *number is 0 when all is done, otherwise the refusal's:
 *      1  memory of 0 words or of more than 262,144
 *      2  a register file that hasn't 53 words, or holds a bit that isn't kept; for desk_widen an old register file that
 *         hasn't 20 words, or holds such a bit
 *      3  a job of more than 4,096 words
 *      4  a word that begins no step
 *      5  a step cut off by the job's end
 *      6  a store to an odd byte address
 *      7  is given by none of these calls
 *      8  an area blit with both fills
 *      9  an area blit with a fill without descending
 *     10  a store at a word that memory doesn't have; for desk_picture a bit plane with such a word
 *     11  a folded job longer than the output or than 4,096 words
 *     14  an area blit whose channel A comes to a word that memory doesn't have
 *     15  the same of channel B, but not of A
 *     16  the same of channel C, but not of A or B; or a line with a dot, stored or not, in such a word
 *     17  the same of channel D, but not of A, B or C
 *     18  a line whose width isn't 2, or that doesn't use exactly A, C and D
 *     19  a line whose C and D pointers differ
 *     20  a new register file that hasn't 53 words
 *     21  a MOVE to an offset that is forbidden to the Copper: below 040, or 040 to 07E without the danger bit
 *     22  a MOVE to an offset that is permitted but isn't 058 nor a register's of the file
 *     23  a Copper instruction whose first or second word memory doesn't have
 *     24  a picture not of 1 to 5 bit planes or not of 1 to 40 words a line, or a delay above 15
 *     25  an output shorter than a picture's line, 16 pixels for each word
 *   Of an area blit's channels those in use count, in the order A, B, C, D, whichever leaves memory earlier.
 * - With bit 0 of BLTCON1 set a blit is a line, otherwise it is an area blit. A line has as many dots as its size has
 *   rows. C fetches the word of each dot, and D stores it before the next is fetched; with bit 1 of BLTCON1 only for
 *   the first dot and the first after each vertical move. The step behind the last dot is made too; where it goes isn't
 *   judged. A line leaves the accumulator in BLTAPTL, in C's and D's pointers the word to which that step went, and in
 *   the zero flag 1 exactly when every word that it stored was zero. Every other register is as before, BLTCDAT too.
 * - A pointer goes round when a move of it, reckoned plainly, would leave the words 0 to 262,143: pointer plus or minus
 *   one, or pointer plus or minus half the modulo, a two's complement number, is below 0 or above 262,143. Each move is
 *   judged by itself, and a row's last step and its modulo are two, so that a step from word 0 down to 262,143 goes
 *   round even where the modulo then leads back. In a line the moves are C's, vertical and horizontal, each by itself;
 *   D follows C, and the accumulator is no pointer. A move counts if the channel is used and has an access behind it:
 *   the last row's last step and its modulo don't, nor does the step behind a line's last dot. A dot that isn't stored
 *   is an access too. A blit goes round when it is done and such a move of any channel did. That is lawful, happens in
 *   small memories too, and is only told.
 * - All numbers are written at every call, refused or not.
 * - There is no state: calls on different buffers may run at the same time. No call allocates, prints or fails otherwise.
 */
#ifndef DESK_H
#define DESK_H

#include <stddef.h>
#include <stdint.h>

#ifdef __cplusplus
extern "C" {
#endif

/* Does one blit of the given BLTSIZE. *number is 0 when it is done, *stored the count of words stored, and *round 1 if
 * it went round, else 0. Otherwise *number is 1, 2, 8, 9, 14, 15, 16 or 17 for an area blit, 1, 2, 18, 19 or 16 for a
 * line (the first that holds, in this order), *stored and *round are 0, and ram and file are unchanged. */
void desk_blit(uint16_t *ram, size_t ram_words, uint16_t *file, size_t file_words, uint16_t size,
               uint32_t *number, uint32_t *stored, uint32_t *round);

/* Runs a job. *number is 0 when it is done, and *place is 0; otherwise it is 1 to 6, 10 for a store, 8, 9 or 14 to 17
 * for an area blit, 18, 19 or 16 for a line, *place is the word index of the refused step (0 for 1 to 3), and ram, file
 * and *stored are as after the last step that was done. *stored counts the words stored by blits and store steps
 * together. *round is 1 if a blit that was done went round, also where a later step is refused, else 0. */
void desk_run(uint16_t *ram, size_t ram_words, uint16_t *file, size_t file_words,
              const uint16_t *job, size_t job_words,
              uint32_t *number, uint32_t *place, uint32_t *stored, uint32_t *round);

/* Folds a job for memory of ram_words words. *number is 0 when it is done, *place is 0, *length is the length of the
 * folded job, which stands at the start of out; out beyond it is unchanged. Otherwise *number is 1, 3, 4, 5, 6 or 11,
 * *place the word index of the refused step (0 for 1, 3 and 11), *length and *round 0, and the whole of out is
 * unchanged. No folded job is longer than 4,096 words. A step that a run would refuse is copied, not refused. A line is
 * copied always. So is a blit that would go round, for stores move no pointer; one whose pointer goes round only behind
 * its last access is replaced like any other. *round is 1 if the folding is done and some blit was copied for going
 * round alone, all else that lets a blit be replaced being so; otherwise it is 0. On every memory of ram_words words
 * the folded job and its original end alike, *round of the two runs too, but for the place told with a refusal. */
void desk_fold(size_t ram_words, const uint16_t *job, size_t job_words, uint16_t *out, size_t out_words,
               uint32_t *number, uint32_t *place, uint32_t *length, uint32_t *round);

/* Turns an old register file, of 20 words, into a new one: the first 19 words as they are, COPCON 0, black colours, and
 * the zero flag, the old file's last word, last. *number is 0 when it is done. Otherwise it is 2 if the old file hasn't 20
 * words or holds a bit that isn't kept, else 20 if target_words isn't 53, and target is unchanged.
 * A file that it makes is accepted by desk_blit and desk_run. */
void desk_widen(const uint16_t *old, size_t old_words, uint16_t *target, size_t target_words, uint32_t *number);

/* Runs a Copper list that stands in memory from word start on, for one frame of 262 lines of 227 positions, with at most
 * lent instructions. start and lent are any numbers. *done is the count of the instructions done.
 * - *why is 0 when the frame is over, otherwise 1 when lent instructions are done, otherwise 2 when the next one is
 *   refused; the three are looked at in this order before each instruction.
 * - *number is 0 unless *why is 2. 1 and 2 come before any instruction and whatever lent is: ram and file are unchanged,
 *   *done and *word are 0. Otherwise it is 23, 21, 22, or of a MOVE to 058 the blit's own, 8, 9, 14, 15, 16 or 17 for
 *   an area blit, 18, 19 or 16 for a line (the first that holds, in this order); the refused instruction changes
 *   nothing, and those before it stand.
 * - *word is the word number of the next instruction, or of the refused one. Nothing goes round: past the end of memory it
 *   counts on.
 * The first word of an instruction even: a MOVE of the second to the offset in its bits 8-1, with the kept bits; bits 15-9
 * have no effect. Offsets from 080 on are always permitted, 040 to 07E while bit 1 of COPCON is set, those below 040
 * never, COPCON's own 02E among them. 058 does the blit of that size at once; words of the list that it overwrites are read
 * as they then stand. The first word odd: a WAIT, or a SKIP if the second is odd too. It is satisfied where (line modulo
 * 256) x 256 + position is at least the first word, both ANDed with the second with its bit 15 set and bit 0 clear.
 * MOVE and SKIP take four positions, lines following one another; a WAIT goes on to the first place, six positions on or
 * later, where it is satisfied, and if the frame has none it is done and the frame is over. A SKIP compares where it
 * starts; if it is satisfied, the next instruction is passed over: it isn't read, isn't counted and takes no position.
 * An instruction that starts within the frame is done whole. */
void desk_frame(uint16_t *ram, size_t ram_words, uint16_t *file, size_t file_words, uint32_t start, uint32_t lent,
                uint32_t *why, uint32_t *number, uint32_t *done, uint32_t *word);

/* The same from a place of the beam on, which is line x 227 + position and may be any number; desk_frame begins at 0. From
 * 59,474 on the frame is over. *place is where the beam stands at the end: where the next or the refused instruction
 * would start, 59,474 or a little more when the frame is over, and beam itself for 1 and 2.
 * A frame whose number is used up goes on with beam *place and start *word: in parts it ends as it does in one call. */
void desk_frame_from(uint16_t *ram, size_t ram_words, uint16_t *file, size_t file_words,
                     uint32_t beam, uint32_t start, uint32_t lent,
                     uint32_t *why, uint32_t *number, uint32_t *done, uint32_t *word, uint32_t *place);

/* Writes what the screen shows of one line: low resolution, one playfield of plane_count bit planes, words words of each.
 * planes[0] is the word number at which plane 1's line begins in ram, planes[1] that of plane 2, and so on; only the
 * planes given are looked at. Planes 1, 3 and 5 are delayed by odd_delay pixels, planes 2 and 4 by even_delay. All of
 * these numbers may be any.
 * *number is 0 when it is done. Then out begins with 16 x words pixels from left to right, each a 12-bit colour of the
 * file, and out beyond them is unchanged. Pixel i of a plane is bit i - delay of its words, bit 0 being bit 15 of its
 * first word, and 0 where i is less than the delay; what the delay pushes past the line's end is dropped. Plane 1 gives
 * the lowest bit of the colour's number; where all planes are 0 the pixel is COLOR00.
 * Otherwise it is 1, 2, 24, 25 or 10 (the first that holds, in this order), and out is unchanged. Both delays are judged,
 * with one plane too. 10 is for a plane whose start and words together are more than ram_words: nothing goes round.
 * ram and file are only read. */
void desk_picture(const uint16_t *ram, size_t ram_words, const uint16_t *file, size_t file_words,
                  const uint32_t *planes, size_t plane_count, uint32_t words, uint32_t odd_delay, uint32_t even_delay,
                  uint16_t *out, size_t out_words, uint32_t *number);

#ifdef __cplusplus
}
#endif

#endif
