/* The cases of the differential test but for frames and pictures: blits, jobs, foldings and widenings, lawful, near the
 * edge and damaged. */
#include <string.h>

#include "differ.h"

const uint16_t offsets[REGISTERS] = {
    0x040, 0x042, 0x044, 0x046, 0x048, 0x04A, 0x04C, 0x04E, 0x050, 0x052, 0x054, 0x056, 0x060,
    0x062, 0x064, 0x066, 0x070, 0x072, 0x074, 0x02E, 0x180, 0x182, 0x184, 0x186, 0x188, 0x18A,
    0x18C, 0x18E, 0x190, 0x192, 0x194, 0x196, 0x198, 0x19A, 0x19C, 0x19E, 0x1A0, 0x1A2, 0x1A4,
    0x1A6, 0x1A8, 0x1AA, 0x1AC, 0x1AE, 0x1B0, 0x1B2, 0x1B4, 0x1B6, 0x1B8, 0x1BA, 0x1BC, 0x1BE
};

/* The bits a register keeps, by its place in the file. */
static const uint16_t kept[FILE_WORDS] = {
    0xFFFF, 0xFFFF, 0xFFFF, 0xFFFF, 0x0007, 0xFFFE, 0x0007, 0xFFFE, 0x0007, 0xFFFE, 0x0007, 0xFFFE, 0xFFFE,
    0xFFFE, 0xFFFE, 0xFFFE, 0xFFFF, 0xFFFF, 0xFFFF, 0x0002, 0x0FFF, 0x0FFF, 0x0FFF, 0x0FFF, 0x0FFF, 0x0FFF,
    0x0FFF, 0x0FFF, 0x0FFF, 0x0FFF, 0x0FFF, 0x0FFF, 0x0FFF, 0x0FFF, 0x0FFF, 0x0FFF, 0x0FFF, 0x0FFF, 0x0FFF,
    0x0FFF, 0x0FFF, 0x0FFF, 0x0FFF, 0x0FFF, 0x0FFF, 0x0FFF, 0x0FFF, 0x0FFF, 0x0FFF, 0x0FFF, 0x0FFF, 0x0FFF,
    0x0001
};

void put(struct test *test, uint16_t value)
{
    if (test->job_words < JOB_ROOM)
        test->job[test->job_words++] = value;
}

/* A register write; bits that aren't kept are set now and then. */
static void put_write(struct test *test, uint32_t i, uint16_t value)
{
    put(test, offsets[i]);
    put(test, one_in(8) ? value | (random64() & (uint16_t)~kept[i]) : value);
}

/* COPCON or a colour. */
static void put_screen(struct test *test)
{
    uint32_t which = one_in(8) ? BLITTER : BLITTER + below(REGISTERS - BLITTER);
    put_write(test, which, random_word() & kept[which]);
}

/* All of a blit's registers, in any order, one or the other of them left out now and then, a colour among them now and
 * then, and its size. */
static void put_blit(struct test *test, const struct plan *plan, bool risk)
{
    uint32_t first = below(BLITTER), stride = 1 + below(BLITTER - 1);
    uint32_t left_out = risk || one_in(6) ? below(BLITTER) : BLITTER;
    for (uint32_t i = 0; i < BLITTER; i++) {
        uint32_t which = (first + i * stride) % BLITTER;
        if (which != left_out)
            put_write(test, which, plan->file[which]);
        if (one_in(24))
            put_screen(test);
    }
    put(test, 0x058);
    put(test, plan->size);
}

/* The blit before once more: as pointers stand, or with some or all of them written again. A line is often followed by
 * a blit of D alone that isn't one. */
static void put_again(struct test *test, const struct plan *plan)
{
    uint32_t which = below(4);
    bool line = plan->file[1] & LINE;
    for (uint32_t i = 4; i < 12; i++)
        if (which > 1 || (which == 1 && one_in(2)))
            put_write(test, i, plan->file[i]);
    if (which == 3)
        put_write(test, 0, (plan->file[0] & 0xF000) | USE_D | below(256));
    if (which == 3 && line && !one_in(4))
        put_write(test, 1, plan->file[1] & 0xF002);
    put(test, 0x058);
    put(test, which == 0 && one_in(2) ? (line ? 0x0042 : 0x0041) : plan->size);
}

static void put_store(struct test *test, uint32_t n, bool risk)
{
    uint32_t at = risk && one_in(6) ? n + below(2) : below(n);
    uint32_t address = at % POINTERS * 2;
    put(test, 0x8000 | address >> 16);
    put(test, (address & 0xFFFF) | (risk && one_in(8)));
    put(test, random_word());
}

static void put_steps(struct test *test, uint32_t n, size_t words, enum care care)
{
    struct plan plan;
    bool settled = one_in(2);
    make_plan(&plan, n, settled, false);
    while (test->job_words < words) {
        bool risk = care != LAWFUL && one_in(5);
        uint32_t chance = below(20);
        if (chance < 7) {
            make_plan(&plan, n, one_in(4) ? !settled : settled, risk);
            put_blit(test, &plan, risk);
        } else if (chance < 11)
            put_again(test, &plan);
        else if (chance < 14)
            put_store(test, n, risk);
        else if (chance < 17)
            put(test, 0xC000 | below(2));
        else if (chance < 18)
            put_screen(test);
        else if (chance < 19)
            put_write(test, risk ? below(BLITTER) : 2 + below(2), random_word());
        else if (risk)
            put(test, 0x058), put(test, random64());
    }
}

/* One word wrong: a word that begins no step, any word at any place, one gone, a cut end, an odd or a far store. */
static void damage(struct test *test, uint32_t n)
{
    static const uint16_t no_step[] = {
        0x0000, 0x003E, 0x0041, 0x0059, 0x005A, 0x005E, 0x0068, 0x006E, 0x0076, 0x0140, 0x1040, 0x8008, 0x9000,
        0xC002, 0xE000, 0xFFFF, 0x002C, 0x002F, 0x0030, 0x017E, 0x0181, 0x01BF, 0x01C0, 0x0380
    };
    const uint32_t kinds = sizeof no_step / sizeof *no_step;
    if (test->job_words == 0)
        return;
    uint32_t at = below(test->job_words);
    switch (below(6)) {
    case 0: put(test, no_step[below(kinds)]); break;
    case 1: test->job[at] = one_in(2) ? no_step[below(kinds)] : random64(); break;
    case 2:
        test->job_words--;
        memmove(test->job + at, test->job + at + 1, (test->job_words - at) * sizeof *test->job);
        break;
    case 3: test->job_words -= at_most(test->job_words, 1 + below(2)); break;
    case 4: put(test, 0x8000 | below(8)); put(test, random64() | 1); put(test, random_word()); break;
    default: put_store(test, n, true); break;
    }
    while (one_in(2))
        put(test, 0xC000 | below(2));
}

static void make_job(struct test *test, uint32_t n, enum care care)
{
    uint32_t chance = below(300);
    size_t words = chance == 0 ? 4000 : chance < 6 ? 600 : chance < 16 ? below(12) : 30 + below(130);
    put_steps(test, n, words, care);
    if (care == DAMAGED)
        damage(test, n);
    if (chance == 0) {
        size_t length = 4095 + below(3);
        test->job_words = at_most(test->job_words, length);
        while (test->job_words < length)
            put(test, 0xC000 | below(2));
    }
}

/* A register file: all zero, any that is accepted, or one that fits the memory. */
static void make_file(struct test *test, uint32_t n, bool risk)
{
    struct plan plan;
    uint32_t chance = test->call == BLIT ? 2 : below(3);
    make_plan(&plan, n, false, risk);
    for (size_t i = 0; i < FILE_WORDS; i++)
        test->file[i] = chance == 0 ? 0 : chance == 1 ? random64() & kept[i] : plan.file[i];
    test->size = plan.size;
}

void damage_file(struct test *test)
{
    static const size_t lengths[] = {0, 1, 19, 20, 21, 52, 54, 57};
    if (one_in(2))
        test->file_words = lengths[below(8)];
    else
        test->file[4 + below(FILE_WORDS - 4)] ^= 1u << below(16);
}

/* An old file, lawful or with a wrong length or any bit turned, and a target of 53 words or of another length. */
static void make_widening(struct test *test)
{
    static const size_t lengths[] = {0, 1, 19, 20, 21, 52, 53, 54, 57};
    for (size_t i = 0; i < FILE_ROOM; i++)
        test->file[i] = random64() & kept[i < BLITTER ? i : ZERO_FLAG];
    test->file_words = one_in(6) ? lengths[below(9)] : OLD_WORDS;
    if (one_in(3))
        test->file[one_in(4) ? BLITTER : below(OLD_WORDS)] ^= 1u << below(16);
    test->target_words = one_in(4) ? lengths[below(9)] : FILE_WORDS;
}

size_t pick_ram_words(void)
{
    uint32_t chance = below(400);
    if (chance < 240)
        return 4 + below(40);
    if (chance < 300)
        return 1 + below(8);
    if (chance < 360)
        return 40 + below(260);
    if (chance < 382)
        return 300 + below(2000);
    if (chance < 395)
        return POINTERS;
    if (chance < 397)
        return POINTERS - below(20);
    return chance == 397 ? 0 : chance == 398 ? POINTERS + 1 : 30000 + below(200000);
}

/* One case in so many is a frame: each of its places may be looked at, so that one costs as much as many a run. Of the
 * others one in so many is a picture. */
enum { FRAME_SHARE = 8, PICTURE_SHARE = 7 };

static enum call pick_call(void)
{
    if (one_in(FRAME_SHARE))
        return FRAME;
    if (one_in(PICTURE_SHARE))
        return PICTURE;
    return one_in(5) ? BLIT : one_in(24) ? WIDEN : one_in(2) ? RUN : FOLD;
}

void make_test(struct test *test, uint64_t seed)
{
    start_random(seed);
    memset(test, 0, sizeof *test);
    uint32_t chance = below(100);
    enum care care = chance < 55 ? LAWFUL : chance < 80 ? RISKY : DAMAGED;
    test->call = pick_call();
    if (test->call == WIDEN) {
        make_widening(test);
        return;
    }
    if (test->call == FRAME) {
        make_frame(test, care);
        return;
    }
    if (test->call == PICTURE) {
        make_picture(test, care);
        return;
    }
    test->ram_words = pick_ram_words();
    test->ram_seed = random64();
    test->file_words = FILE_WORDS;
    uint32_t n = test->ram_words == 0 ? 1 : at_most(test->ram_words, POINTERS);
    make_file(test, n, care != LAWFUL && one_in(2));
    if (test->call != BLIT && !one_in(200))
        make_job(test, n, care);
    if (test->call != FOLD && care == DAMAGED && one_in(5))
        damage_file(test);
    if (test->call == FOLD && one_in(500))
        test->ram_words = SIZE_MAX - below(2);
    test->spare = one_in(4) ? -1 : one_in(2) ? 0 : 1 + (int)below(40);
}
