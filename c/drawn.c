#include "drawn.h"

#include <stdio.h>

#include "line.h"
#include "parts.h"

/* Prints a write of BLTSIZE if it starts a line, and remembers that it did. */
static void print_line(const struct start *start, void *drew)
{
    struct known known = all_known(start->file);
    char line[LINE_ROOM] = "";

    if (!line_known(&known))
        return;
    *(bool *)drew = true;
    add(line, "line at place %lu: ", (unsigned long)start->place);
    add_line(line, &known, start->size);
    if (start->number == 0)
        add(line, "; %lu stored", (unsigned long)start->count);
    else
        add(line, "; refused (%lu)", (unsigned long)start->number);
    puts(line);
}

struct run print_drawn(const struct jobfile *jobfile, struct machine *machine, bool *drew)
{
    *drew = false;
    return run_in_parts(jobfile, machine, print_line, drew);
}
