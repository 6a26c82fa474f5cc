#include "text.h"

#include <stdarg.h>
#include <stdio.h>
#include <string.h>

void add(char line[LINE_ROOM], const char *format, ...)
{
    size_t used = strlen(line);
    va_list arguments;

    va_start(arguments, format);
    vsnprintf(line + used, LINE_ROOM - used, format, arguments);
    va_end(arguments);
}

const char *plural(unsigned long count)
{
    return count == 1 ? "" : "s";
}
