/* A line of text that is added to piece by piece. */
#ifndef TEXT_H
#define TEXT_H

enum { LINE_ROOM = 320 };

/* Adds text to a line; what has no room is left out. */
void add(char line[LINE_ROOM], const char *format, ...);

/* The s behind a noun, unless there is one of it. */
const char *plural(unsigned long count);

#endif
