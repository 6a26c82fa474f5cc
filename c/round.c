#include "round.h"

#include <stdio.h>
#include <string.h>

#include "desk.h"
#include "known.h"
#include "parts.h"
#include "text.h"

enum { POINTERS = 262144, WORD_BITS = 16, SIZE_STEP = 2 };
enum { DESCENDING = 0x02, LINE = 0x01, AUL = 0x04, SUL = 0x08, SUD = 0x10, SIGN = 0x40 };

/* A move that went round: behind a word of which row, or behind which dot, counted from 1; what kind of move it was;
 * from which word to which. */
struct going {
    unsigned row;
    const char *how;
    uint32_t from, to;
};

static int32_t half(uint16_t modulo)
{
    return (modulo & 0x8000 ? (int32_t)modulo - 0x10000 : (int32_t)modulo) / 2;
}

static uint32_t pointer(const uint16_t file[FILE_WORDS], size_t high)
{
    return ((uint32_t)file[high] << 16 | file[high + 1]) / 2;
}

/* Moves a pointer by so many words, and answers whether it went round: whether the plain sum is no word number. */
static bool moved(uint32_t *at, int32_t by, struct going *going)
{
    int32_t sum = (int32_t)*at + by;

    going->from = *at;
    *at = (uint32_t)sum % POINTERS;
    going->to = *at;
    return sum < 0 || sum >= POINTERS;
}

/* A channel of an area blit, by its use bit and the places of its pointer and its modulo. */
struct channel {
    char name;
    uint16_t use;
    size_t high, modulo;
};

static const struct channel channels[] = {
    {'A', USE_A, BLTAPTH, BLTAMOD}, {'B', USE_B, BLTBPTH, BLTBMOD},
    {'C', USE_C, BLTCPTH, BLTCMOD}, {'D', USE_D, BLTDPTH, BLTDMOD},
};

/* The channel's first move that goes round; false if there is none before its last access. */
static bool channel_goes(const uint16_t file[FILE_WORDS], uint16_t size, const struct channel *channel,
                         struct going *going)
{
    unsigned height = size_height(size), width = size_width(size);
    int32_t sign = file[BLTCON1] & DESCENDING ? -1 : 1, modulo = sign * half(file[channel->modulo]);
    uint32_t at = pointer(file, channel->high);

    for (going->row = 1; going->row <= height; going->row++)
        for (unsigned column = 1; column <= width; column++) {
            if (going->row == height && column == width)
                return false;
            going->how = "by a step";
            if (moved(&at, sign, going))
                return true;
            going->how = "by its modulo";
            if (column == width && moved(&at, modulo, going))
                return true;
        }
    return false;
}

static void add_going(char line[LINE_ROOM], const struct going *going, const char *where)
{
    add(line, " %s %u, %s from byte %05lX to %05lX", where, going->row, going->how, (unsigned long)going->from * 2,
        (unsigned long)going->to * 2);
}

/* Adds each channel of an area blit that goes round; answers whether one does. */
static bool add_area(char line[LINE_ROOM], const uint16_t file[FILE_WORDS], uint16_t size)
{
    bool any = false;

    for (size_t i = 0; i < sizeof channels / sizeof channels[0]; i++) {
        struct going going;

        if (!(file[BLTCON0] & channels[i].use) || !channel_goes(file, size, &channels[i], &going))
            continue;
        add(line, "%s %c", any ? ";" : "", channels[i].name);
        add_going(line, &going, "in row");
        any = true;
    }
    return any;
}

/* A line on its way: C's pointer, A's shift, the accumulator and its sign. */
struct way {
    uint32_t at;
    unsigned shift;
    uint16_t accumulator;
    bool sign;
};

static bool moves_down_or_up(const uint16_t file[FILE_WORDS], struct way *way, bool up, struct going *going)
{
    going->how = up ? "up" : "down";
    return moved(&way->at, up ? -half(file[BLTCMOD]) : half(file[BLTCMOD]), going);
}

/* The pointer moves where the shift comes round. */
static bool moves_right_or_left(struct way *way, bool left, struct going *going)
{
    bool next_word = way->shift == (left ? 0 : WORD_BITS - 1);

    going->how = left ? "to the left" : "to the right";
    way->shift = (way->shift + (left ? WORD_BITS - 1 : 1)) % WORD_BITS;
    return next_word && moved(&way->at, left ? -1 : 1, going);
}

static bool moves(const uint16_t file[FILE_WORDS], struct way *way, bool vertical, bool back, struct going *going)
{
    return vertical ? moves_down_or_up(file, way, back, going) : moves_right_or_left(way, back, going);
}

/* The step behind a dot; answers whether a move of it goes round, and then isn't to be gone on with. */
static bool step_goes(const uint16_t file[FILE_WORDS], struct way *way, struct going *going)
{
    uint16_t con1 = file[BLTCON1];

    if (!way->sign && moves(file, way, con1 & SUD, con1 & SUL, going))
        return true;
    if (moves(file, way, !(con1 & SUD), con1 & AUL, going))
        return true;
    way->accumulator += file[way->sign ? BLTBMOD : BLTAMOD];
    way->sign = way->accumulator & 0x8000;
    return false;
}

static bool add_line_way(char line[LINE_ROOM], const uint16_t file[FILE_WORDS], uint16_t size)
{
    struct way way = {pointer(file, BLTCPTH), file[BLTCON0] >> 12, file[BLTAPTL], file[BLTCON1] & SIGN};
    struct going going;

    for (going.row = 1; going.row < size_height(size); going.row++)
        if (step_goes(file, &way, &going)) {
            add(line, " C");
            add_going(line, &going, "behind dot");
            return true;
        }
    return false;
}

/* Puts into line where a blit with these registers goes round; answers whether it does. */
static bool told(char line[LINE_ROOM], const uint16_t file[FILE_WORDS], uint16_t size, size_t place)
{
    bool is_line = file[BLTCON1] & LINE;

    line[0] = '\0';
    add(line, "  %s at place %lu:", is_line ? "line" : "blit", (unsigned long)place);
    return is_line ? add_line_way(line, file, size) : add_area(line, file, size);
}

/* Says that archive and reckoning differ. */
static void disagree(const char *command, size_t place, bool archive)
{
    fprintf(stderr, "%s: of the blit at place %lu the archive says that it %s, and the desk tool reckons that it %s\n",
            command, (unsigned long)place, archive ? "goes round" : "doesn't go round",
            archive ? "doesn't" : "does");
}

/* What a run is told with: whether it goes round at all, and whether archive and reckoning agreed so far. */
struct telling {
    bool round, agreed;
};

static void print_round(const struct start *start, void *with)
{
    struct telling *telling = with;
    char line[LINE_ROOM];
    bool goes = start->number == 0 && told(line, start->file, start->size, start->place);

    if (goes != (start->round == 1)) {
        disagree("desk run", start->place, start->round == 1);
        telling->agreed = false;
    } else if (goes && telling->round) {
        puts(line);
    }
}

bool print_rounds(const struct jobfile *jobfile, struct machine *machine, uint32_t round)
{
    struct telling telling = {round == 1, true};

    if (telling.round)
        puts("went round: yes");
    run_in_parts(jobfile, machine, print_round, &telling);
    return telling.agreed;
}

/* A size of 65 words, which no settled blit has. */
enum { TOO_LARGE = 13 << 6 | 5 };

/* The registers as the steps of a job write them. */
static void written(const uint16_t *job, size_t words, uint16_t file[FILE_WORDS])
{
    struct step step;

    memset(file, 0, FILE_WORDS * sizeof *file);
    for (size_t place = 0; place < words; place += step.words) {
        step = step_at(job, words, place);
        if (step.kind == STEP_REGISTER)
            file[step.reg] = register_kept(step.reg, step.value);
    }
}

/* Whether the folder says that it keeps a blit of these words for going round alone; and the registers before the last
 * step, so far as the folded words write them: all that settle a blit are among these, D's pointer after a settled one
 * too. */
static bool keeps_one(const uint16_t *job, size_t words, size_t ram_words, uint16_t file[FILE_WORDS])
{
    static uint16_t folded[JOB_LIMIT];
    uint32_t number, place, length, round;

    desk_fold(ram_words, job, words, folded, JOB_LIMIT, &number, &place, &length, &round);
    written(folded, length < SIZE_STEP ? 0 : length - SIZE_STEP, file);
    return round == 1;
}

/* A job's first words are a job, of which the folder says whether it keeps one. Each blit found so is made too large to
 * be settled: it is then kept for another reason too, and after it as much is known, so that the next one shows itself.
 */
bool print_kept_rounds(const uint16_t *job, size_t words, size_t ram_words, uint32_t round)
{
    static uint16_t left[JOB_LIMIT];
    uint16_t file[FILE_WORDS];
    char line[LINE_ROOM];
    bool found = false, agreed = true;
    struct step step;

    if (round == 0)
        return true;
    puts("kept for going round: yes");
    memcpy(left, job, words * sizeof *left);
    for (size_t place = 0; place < words; place += step.words) {
        step = step_at(job, words, place);
        if (step.kind != STEP_SIZE || !keeps_one(left, place + step.words, ram_words, file))
            continue;
        found = true;
        if (told(line, file, step.value, place)) {
            puts(line);
        } else {
            disagree("desk fold", place, true);
            agreed = false;
        }
        left[place + 1] = TOO_LARGE;
    }
    if (!found)
        fputs("desk fold: the archive says that a blit was kept for going round, and none is found\n", stderr);
    return found && agreed;
}
