#include "reader.h"

#include <stdarg.h>
#include <stdlib.h>
#include <string.h>

bool complain(const struct reader *reader, const char *format, ...)
{
    va_list arguments;

    fprintf(stderr, "%s:%lu: ", reader->name, reader->line);
    va_start(arguments, format);
    vfprintf(stderr, format, arguments);
    va_end(arguments);
    fputc('\n', stderr);
    return false;
}

static bool is_blank(int sign)
{
    return sign == ' ' || sign == '\t';
}

static bool ends_line(int sign)
{
    return sign == EOF || sign == '\n';
}

static bool ends_token(int sign)
{
    return ends_line(sign) || sign == ';' || is_blank(sign);
}

/* Takes the next sign. A line ends by LF, CR LF or a lone CR, and each of them is taken as one LF. */
static void take_sign(struct reader *reader)
{
    int next;

    reader->sign = getc(reader->stream);
    if (reader->sign != '\r')
        return;
    next = getc(reader->stream);
    if (next != '\n')
        ungetc(next, reader->stream);
    reader->sign = '\n';
}

static void pass_blanks_and_comment(struct reader *reader)
{
    while (is_blank(reader->sign))
        take_sign(reader);
    if (reader->sign == ';')
        while (!ends_line(reader->sign))
            take_sign(reader);
}

bool next_line(struct reader *reader)
{
    if (reader->sign == EOF)
        return false;
    take_sign(reader);
    reader->line++;
    return true;
}

bool next_token(struct reader *reader)
{
    size_t used = 0;

    pass_blanks_and_comment(reader);
    while (!ends_token(reader->sign) && used < NAME_ROOM - 1) {
        reader->token[used++] = reader->sign > ' ' && reader->sign <= '~' ? (char)reader->sign : '?';
        take_sign(reader);
    }
    reader->token[used] = '\0';
    return used > 0;
}

bool decimal(const char *text, size_t limit, size_t *value)
{
    size_t sum = 0;

    if (*text == '\0')
        return false;
    for (; *text != '\0'; text++) {
        size_t digit = (size_t)(*text - '0');

        if (*text < '0' || *text > '9' || sum > limit / 10 || digit > limit - sum * 10)
            return false;
        sum = sum * 10 + digit;
    }
    *value = sum;
    return true;
}

bool hexadecimal(const char *text, size_t least, size_t most, uint32_t *value)
{
    size_t digits = strspn(text, "0123456789ABCDEFabcdef");

    if (digits < least || digits > most || text[digits] != '\0')
        return false;
    *value = (uint32_t)strtoul(text, NULL, 16);
    return true;
}

bool word_token(const struct reader *reader, uint16_t *value)
{
    uint32_t word = 0;

    if (!hexadecimal(reader->token, 4, 4, &word))
        return complain(reader, "'%.40s' isn't a word of four hex digits", reader->token);
    *value = (uint16_t)word;
    return true;
}

bool address_token(const struct reader *reader, const char *what, uint32_t *address)
{
    return (hexadecimal(reader->token, 1, 5, address) && *address % 2 == 0)
        || complain(reader, "%s: '%.40s' isn't an even byte address of up to five hex digits", what, reader->token);
}

bool next_decimal(struct reader *reader, const char *what, size_t limit, size_t *value)
{
    if (!next_token(reader))
        return complain(reader, "%s: a number is missing", what);
    if (!decimal(reader->token, limit, value))
        return complain(reader, "%s: '%.40s' isn't a decimal number from 0 to %lu", what, reader->token,
                        (unsigned long)limit);
    return true;
}

bool line_ends(struct reader *reader)
{
    return !next_token(reader) || complain(reader, "'%.40s' is too much on this line", reader->token);
}

bool last_number(struct reader *reader, const char *what, uint32_t *number)
{
    size_t value = 0;

    if (!next_decimal(reader, what, UINT32_MAX, &value) || !line_ends(reader))
        return false;
    *number = (uint32_t)value;
    return true;
}
