#include "copper.h"

#include <stdio.h>
#include <stdlib.h>

#include "beam.h"
#include "desk.h"
#include "instruction.h"
#include "line.h"
#include "outcome.h"

enum { DANGER = 0x0002 };

const char *why_meaning(uint32_t why)
{
    static const char *const meanings[] = {"end of frame", "number used up", "refused"};

    return why <= REFUSED_NEXT ? meanings[why] : "no reason of the papers";
}

/* desk_frame doesn't tell where the beam stands; the same frame from place 0 does. */
static uint32_t place_of(const struct jobfile *list, uint32_t lent, struct machine *machine)
{
    struct frame frame;

    begin(list, machine);
    desk_frame_from(machine->ram, list->ram_words, machine->file, FILE_WORDS, 0, list->start, lent,
                    &frame.why, &frame.number, &frame.done, &frame.word, &frame.place);
    return frame.place;
}

struct frame frame_of(const struct jobfile *list, uint32_t lent, struct machine *machine)
{
    struct frame frame;

    frame.place = place_of(list, lent, machine);
    begin(list, machine);
    desk_frame(machine->ram, list->ram_words, machine->file, FILE_WORDS, list->start, lent,
               &frame.why, &frame.number, &frame.done, &frame.word);
    return frame;
}

/* The next instruction of a frame that stands where frame says, with one instruction lent or none. */
static struct frame next_of(const struct jobfile *list, struct frame frame, uint32_t lent, struct machine *machine)
{
    struct frame next;

    desk_frame_from(machine->ram, list->ram_words, machine->file, FILE_WORDS, frame.place, frame.word, lent,
                    &next.why, &next.number, &next.done, &next.word, &next.place);
    next.done += frame.done;
    return next;
}

/* Adds the line that the next instruction starts, if it starts one, by the registers as the frame has come to them. */
static void add_started(char line[LINE_ROOM], const struct machine *machine, size_t ram_words, uint32_t word)
{
    struct known known = all_known(machine->file);

    if (!starts_blit(machine->ram, ram_words, word) || !line_known(&known))
        return;
    add(line, "  line of ");
    add_line(line, &known, machine->ram[word + 1]);
}

/* Does the frame one instruction at a time, the beam handed on, and prints each one as it stood in memory when it was
 * done, behind the beam's line and position where it started; behind a MOVE that starts a line that line. */
static struct frame trace(const struct jobfile *list, uint32_t lent, struct machine *machine)
{
    struct frame frame = {USED_UP, 0, 0, list->start, 0};
    bool goes_on = true;

    begin(list, machine);
    while (goes_on) {
        char line[LINE_ROOM] = "";
        uint32_t done = frame.done;

        add(line, "%4lu %3lu", (unsigned long)frame.place / POSITIONS, (unsigned long)frame.place % POSITIONS);
        add_instruction(line, machine->ram, list->ram_words, frame.word);
        add_started(line, machine, list->ram_words, frame.word);
        frame = next_of(list, frame, done < lent, machine);
        if (frame.done > done)
            puts(line);
        goes_on = frame.why == USED_UP && frame.done > done;
    }
    return frame;
}

static void print_frame(struct frame frame)
{
    printf("why %lu: %s\n", (unsigned long)frame.why, why_meaning(frame.why));
    printf("number %lu: %s\n", (unsigned long)frame.number,
           frame.number == 0 ? "not refused" : number_meaning(frame.number));
    printf("done %lu\n", (unsigned long)frame.done);
    printf("word %lu\n", (unsigned long)frame.word);
    if (frame.place >= FRAME_PLACES)
        printf("beam over\n");
    else
        printf("beam at line %lu, position %lu\n", (unsigned long)frame.place / POSITIONS,
               (unsigned long)frame.place % POSITIONS);
}

/* Whether the frame done in parts ended as the one done in one call. */
static bool alike(struct frame parts, struct frame whole, const struct machine *machines)
{
    return parts.why == whole.why && parts.number == whole.number && parts.done == whole.done
        && parts.word == whole.word && parts.place == whole.place
        && same_machine(&machines[0], &machines[1]);
}

static int print_frames(const struct jobfile *list, uint32_t lent)
{
    static struct machine machines[2];
    struct frame parts, whole;

    printf("list from word %lu, %lu words\n", (unsigned long)list->start, (unsigned long)list->job_words);
    print_instructions(list->ram, list->ram_words, list->start, list->job_words, list->file[COPCON] & DANGER);
    printf("trace: line, position, instruction\n");
    parts = trace(list, lent, &machines[0]);
    whole = frame_of(list, lent, &machines[1]);
    print_frame(whole);
    print_changed_words(list->ram, machines[1].ram, list->ram_words, false);
    print_changed_registers(list->file, machines[1].file);
    if (!alike(parts, whole, machines)) {
        fputs("desk copper: done one instruction at a time the frame ends otherwise\n", stderr);
        return ERROR;
    }
    return whole.why == REFUSED_NEXT ? REFUSED : DONE;
}

int copper_command(const char *lent, const char *name)
{
    struct jobfile *list;
    size_t number;
    int status;

    if (!decimal(lent, UINT32_MAX, &number)) {
        fprintf(stderr, "desk copper: N is '%s', which isn't a decimal number from 0 to %lu\n", lent,
                (unsigned long)UINT32_MAX);
        return ERROR;
    }
    list = jobfile_read(name, LIST);
    if (list == NULL)
        return ERROR;
    status = print_frames(list, (uint32_t)number);
    free(list);
    return status;
}
