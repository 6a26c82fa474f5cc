#include "jobfile.h"

#include <errno.h>
#include <stdio.h>
#include <stdlib.h>
#include <string.h>

#include "beam.h"

/* Whether a line that stands only in files of some kinds stands in one. */
static bool stands_in(const struct reader *reader, unsigned kinds)
{
    static const char *const names[] = {"no", "job", "list", "job and list", "picture"};

    return (reader->into->kind & kinds) != 0
        || complain(reader, "'%.40s' stands only in %s files", reader->token, names[kinds]);
}

/* ram N */
static bool read_ram(struct reader *reader)
{
    if (reader->ram_fixed)
        return complain(reader, "ram must stand once, and before every line that names a byte address");
    reader->ram_fixed = true;
    return next_decimal(reader, "ram", RAM_ROOM, &reader->into->ram_words) && line_ends(reader);
}

/* The rest of a line 'at ADDRESS WORD..': the words go to memory from the byte address on, and are marked as said. */
static bool read_at(struct reader *reader, uint16_t *ram, bool *said)
{
    uint32_t address = 0;
    size_t at;

    reader->ram_fixed = true;
    next_token(reader);
    if (!address_token(reader, "at", &address))
        return false;
    for (at = address / 2; next_token(reader); at++) {
        if (at >= reader->into->ram_words)
            return complain(reader, "at: memory ends before byte %05lX", (unsigned long)at * 2);
        if (!word_token(reader, &ram[at]))
            return false;
        said[at] = true;
    }
    return at > address / 2 || complain(reader, "at: words are missing");
}

/* The rest of a line 'NAME VALUE', whose name has been read. The zero flag is decimal, all others are words. */
static bool read_register(struct reader *reader, uint16_t *file, bool *said)
{
    size_t reg = register_named(reader->token), flag = 0;

    if (reg == FILE_WORDS)
        return complain(reader, "'%.40s' is no register", reader->token);
    if (reg == ZERO_FLAG) {
        if (!next_decimal(reader, "zero", 0xFFFF, &flag))
            return false;
        file[reg] = (uint16_t)flag;
    } else if (!next_token(reader)) {
        return complain(reader, "%s: a word is missing", register_name(reg));
    } else if (!word_token(reader, &file[reg])) {
        return false;
    }
    said[reg] = true;
    return line_ends(reader);
}

/* leaves why end, leaves why used, leaves why refused */
static bool read_why(struct reader *reader)
{
    static const char *const whys[] = {"end", "used", "refused"};

    if (next_token(reader))
        for (uint32_t why = END_OF_FRAME; why <= REFUSED_NEXT; why++)
            if (strcmp(reader->token, whys[why]) == 0) {
                reader->into->leaves.why = why;
                return line_ends(reader);
            }
    return complain(reader, "why: '%.40s' is none of end, used and refused", reader->token);
}

/* leaves beam LINE POSITION, leaves beam over */
static bool read_beam(struct reader *reader)
{
    struct leaves *leaves = &reader->into->leaves;
    size_t line = 0, position = 0;

    leaves->beam_said = true;
    leaves->beam = FRAME_PLACES;
    if (next_token(reader) && strcmp(reader->token, "over") == 0)
        return line_ends(reader);
    if (!decimal(reader->token, LINES - 1, &line))
        return complain(reader, "beam: '%.40s' is neither over nor a decimal line from 0 to %d", reader->token, LINES - 1);
    if (!next_decimal(reader, "beam", POSITIONS - 1, &position))
        return false;
    leaves->beam = (uint32_t)(line * POSITIONS + position);
    return line_ends(reader);
}

/* The rest of a line 'round yes' or 'round no', whose first token has been read. */
static bool read_round(struct reader *reader, uint32_t *round, bool *said)
{
    bool yes = next_token(reader) && strcmp(reader->token, "yes") == 0;

    if (!yes && strcmp(reader->token, "no") != 0)
        return complain(reader, "round: '%.40s' is neither yes nor no", reader->token);
    *round = yes;
    *said = true;
    return line_ends(reader);
}

/* An answer that is a number, of a job or of a list. */
struct answer {
    const char *name;
    enum kind of;
    uint32_t *number;
    bool *said;
};

static bool read_answer(struct reader *reader, const struct answer *answer)
{
    *answer->said = true;
    return stands_in(reader, answer->of) && last_number(reader, answer->name, answer->number);
}

/* leaves number N, leaves place N, leaves count N, leaves round .., leaves why .., leaves done N, leaves word N,
 * leaves beam .., leaves at ADDRESS WORD.., leaves REGISTER VALUE */
static bool read_leaves(struct reader *reader)
{
    struct leaves *leaves = &reader->into->leaves;
    const struct answer answers[] = {
        {"place", JOB, &leaves->place, &leaves->said}, {"count", JOB, &leaves->count, &leaves->count_said},
        {"done", LIST, &leaves->done, &leaves->done_said}, {"word", LIST, &leaves->word, &leaves->word_said},
    };

    leaves->said = true;
    if (!next_token(reader))
        return complain(reader, "leaves: what?");
    if (strcmp(reader->token, "number") == 0)
        return last_number(reader, "number", &leaves->number);
    for (size_t i = 0; i < sizeof answers / sizeof answers[0]; i++)
        if (strcmp(reader->token, answers[i].name) == 0)
            return read_answer(reader, &answers[i]);
    if (strcmp(reader->token, "round") == 0)
        return stands_in(reader, JOB) && read_round(reader, &leaves->round, &leaves->round_said);
    if (strcmp(reader->token, "why") == 0)
        return stands_in(reader, LIST) && read_why(reader);
    if (strcmp(reader->token, "beam") == 0)
        return stands_in(reader, LIST) && read_beam(reader);
    if (strcmp(reader->token, "at") == 0)
        return read_at(reader, leaves->ram, leaves->ram_said);
    return read_register(reader, leaves->file, leaves->file_said);
}

/* folds N NAME, folds N NAME round .. */
static bool read_folds(struct reader *reader)
{
    struct leaves *leaves = &reader->into->leaves;

    leaves->said = leaves->folds_said = true;
    if (!next_decimal(reader, "folds", SIZE_MAX, &leaves->folds_ram))
        return false;
    if (!next_token(reader) || strlen(reader->token) == NAME_ROOM - 1)
        return complain(reader, "folds: a file's name is missing or too long");
    strcpy(leaves->folds_name, reader->token);
    if (!next_token(reader))
        return true;
    if (strcmp(reader->token, "round") != 0)
        return complain(reader, "'%.40s' is too much on this line", reader->token);
    return read_round(reader, &leaves->folds_round, &leaves->folds_round_said);
}

/* start ADDRESS */
static bool read_start(struct reader *reader)
{
    uint32_t address = 0;

    next_token(reader);
    if (!address_token(reader, "start", &address))
        return false;
    reader->into->start = address / 2;
    return line_ends(reader);
}

/* lent N */
static bool read_lent(struct reader *reader)
{
    return last_number(reader, "lent", &reader->into->lent);
}

/* The token and all that follow on the line, as words of the job or of the list. */
static bool read_words(struct reader *reader)
{
    struct jobfile *into = reader->into;

    do {
        if (into->job_words == JOB_ROOM)
            return complain(reader, "a %s of more than %d words", into->kind == LIST ? "list" : "job", (int)JOB_ROOM);
        if (!word_token(reader, &into->job[into->job_words++]))
            return false;
    } while (next_token(reader));
    return true;
}

/* at ADDRESS WORD.. */
static bool read_start_words(struct reader *reader)
{
    return read_at(reader, reader->into->ram, reader->into->ram_said);
}

/* register NAME VALUE */
static bool read_start_register(struct reader *reader)
{
    return next_token(reader) ? read_register(reader, reader->into->file, reader->into->file_said)
                              : complain(reader, "register: a name is missing");
}

/* A line by its first token, the kinds of file in which it stands, and the reading of what follows. */
struct line {
    const char *name;
    unsigned kinds;
    bool (*read)(struct reader *reader);
};

static const struct line lines[] = {
    {"ram", JOB | LIST | PICTURE, read_ram}, {"at", JOB | LIST | PICTURE, read_start_words},
    {"register", JOB | LIST | PICTURE, read_start_register}, {"leaves", JOB | LIST, read_leaves},
    {"folds", JOB, read_folds}, {"start", LIST, read_start}, {"lent", LIST, read_lent},
    {"planes", PICTURE, read_planes}, {"words", PICTURE, read_words_a_line}, {"rows", PICTURE, read_rows},
    {"modulo", PICTURE, read_modulo}, {"delay", PICTURE, read_delay}, {"shows", PICTURE, read_shows},
};

static bool read_line(struct reader *reader)
{
    if (!next_token(reader))
        return true;
    for (size_t i = 0; i < sizeof lines / sizeof lines[0]; i++)
        if (strcmp(reader->token, lines[i].name) == 0)
            return stands_in(reader, lines[i].kinds) && lines[i].read(reader);
    if (reader->into->kind == PICTURE)
        return complain(reader, "'%.40s' begins no line of a picture file", reader->token);
    return read_words(reader);
}

static bool read_lines(struct reader *reader)
{
    while (next_line(reader))
        if (!read_line(reader))
            return false;
    return true;
}

/* The list's words into memory. A list of no words may begin anywhere. */
static bool lay_list(const char *name, struct jobfile *list)
{
    if (list->job_words > 0 && list->start + list->job_words > list->ram_words) {
        fprintf(stderr, "%s: memory ends before the list does\n", name);
        return false;
    }
    if (list->job_words > 0)
        memcpy(list->ram + list->start, list->job, list->job_words * sizeof *list->job);
    return true;
}

static bool read_stream(FILE *stream, const char *name, struct jobfile *into)
{
    struct reader reader = {stream, name, 0, '\n', "", false, into};

    if (!read_lines(&reader))
        return false;
    if (ferror(stream)) {
        fprintf(stderr, "%s: %s\n", name, strerror(errno));
        return false;
    }
    if (into->kind == LIST)
        return lay_list(name, into);
    return into->kind != PICTURE || picture_ends(&reader);
}

static struct jobfile *read_file(const char *name, enum kind kind)
{
    struct jobfile *jobfile = calloc(1, sizeof *jobfile);
    FILE *stream = jobfile == NULL ? NULL : fopen(name, "rb");
    bool good;

    if (stream == NULL) {
        fprintf(stderr, "%s: %s\n", name, strerror(errno));
        free(jobfile);
        return NULL;
    }
    jobfile->kind = kind;
    jobfile->lent = UINT32_MAX;
    jobfile->ram_words = RAM_WORDS;
    jobfile->picture.rows = 1;
    good = read_stream(stream, name, jobfile);
    fclose(stream);
    if (good)
        return jobfile;
    free(jobfile);
    return NULL;
}

bool name_ends(const char *name, const char *ending)
{
    size_t length = strlen(name), behind = strlen(ending);

    return length >= behind && strcmp(name + length - behind, ending) == 0;
}

enum kind kind_named(const char *name)
{
    return name_ends(name, ".list") ? LIST : name_ends(name, ".picture") ? PICTURE : JOB;
}

struct jobfile *jobfile_read(const char *name, enum kind kind)
{
    enum kind named = kind_named(name);

    if (named == kind)
        return read_file(name, kind);
    if (named == LIST)
        fprintf(stderr, "%s: a Copper list, which 'desk copper' and 'desk check' take\n", name);
    else if (named == PICTURE)
        fprintf(stderr, "%s: a picture, which 'desk picture' and 'desk check' take\n", name);
    else if (kind == LIST)
        fprintf(stderr, "%s: not a Copper list, whose name ends in .list\n", name);
    else
        fprintf(stderr, "%s: not a picture, whose name ends in .picture\n", name);
    return NULL;
}
