/* Calls the static library through include/cse.h, as a C program does, and holds everything that a call may change to what document 01 says:
 * the five numbers, the written bytes, the output bytes past them, the cleared and the kept work words; and, of the check, number, place,
 * all 256 ends and the work words. The expected values are worked out by hand from its chapter "Trees to compare". Prints how many calls
 * were as expected; ends with status 1 if one was not. */
#include "cse.h"

#include <stdio.h>

#define USED 16384 /* the work words that a call uses */
#define MOST 128   /* the output bytes and work words that are looked at past those lent */
#define ENTRIES 256
#define BYTE 0xA5
#define WORD 0xA5A5A5A5u
#define END 0xA5A5 /* no end is as high */

/* HEIGHT alone, written as it is. */
static const uint8_t height[] = {1, 0, 1, 0, 8, 0, 5, 0, 2, 0xA3, 0, 0, 0};

/* p(z,z): Two under 9A over twice Zero under FE. */
static const uint8_t sum[] = {
    1, 0, 3, 0, 16, 0, 5, 0, 21, 0, 5, 0, 26, 0, 5, 0,
    4, 0x9A, 2, 0, 0, 2, 0xFE, 0, 0, 0, 2, 0xFE, 0, 0, 0};

/* n(z) | p(z,n(z)): trees of two and of four records. */
static const uint8_t two_trees[] = {
    2, 0, 6, 0, 28, 0, 5, 0, 33, 0, 5, 0, 38, 0, 5, 0, 43, 0, 5, 0, 48, 0, 5, 0, 53, 0, 5, 0,
    3, 0xF0, 1, 0, 0, 2, 0xFE, 0, 0, 0, 4, 0x9A, 2, 0, 0, 2, 0xFE, 0, 0, 0, 3, 0xF0, 1, 0, 0, 2, 0xFE, 0, 0, 0};

/* p(z,1): a use of an id that is not in force. */
static const uint8_t unbound[] = {
    1, 0, 3, 0, 16, 0, 5, 0, 21, 0, 5, 0, 26, 0, 9, 0,
    4, 0x9A, 2, 0, 0, 2, 0xFE, 0, 0, 0, 7, 0x72, 0, 0, 0, 1, 0, 0, 0};

/* {1=z; p(1,1)}: block, definition 1 without type, z, p, and two uses of 1. */
static const uint8_t shared[] = {
    1, 0, 6, 0, 28, 0, 5, 0, 33, 0, 10, 0, 43, 0, 5, 0, 48, 0, 5, 0, 53, 0, 9, 0, 62, 0, 9, 0,
    11, 0xD8, 2, 0, 0, 10, 0xD6, 1, 0, 0, 1, 0, 0, 0, 0, 2, 0xFE, 0, 0, 0,
    4, 0x9A, 2, 0, 0, 7, 0x72, 0, 0, 0, 1, 0, 0, 0, 7, 0x72, 0, 0, 0, 1, 0, 0, 0};

/* L1.L1.1: two lambdas with argument 1, of no type, and its use. */
static const uint8_t bound_twice[] = {
    1, 0, 3, 0, 16, 0, 10, 0, 26, 0, 10, 0, 36, 0, 9, 0,
    12, 0xD9, 1, 0, 1, 1, 0, 0, 0, 0, 12, 0xD9, 1, 0, 1, 1, 0, 0, 0, 0, 7, 0x72, 0, 0, 0, 1, 0, 0, 0};

/* tuple(a(z,z), b(z,z)), a being Two under 9A and b ByIndex under 9A: b is record 4. */
static const uint8_t two_shapes[] = {
    1, 0, 7, 0, 32, 0, 5, 0, 37, 0, 5, 0, 42, 0, 5, 0, 47, 0, 5, 0, 52, 0, 5, 0, 57, 0, 5, 0, 62, 0, 5, 0,
    16, 0x86, 2, 0, 0, 4, 0x9A, 2, 0, 0, 2, 0xFE, 0, 0, 0, 2, 0xFE, 0, 0, 0,
    24, 0x9A, 2, 0, 0, 2, 0xFE, 0, 0, 0, 2, 0xFE, 0, 0, 0};

/* A tuple of 255 z: as many records as there may be. Its written tree, {1=z; tuple(1,1..)}, has more. */
static uint8_t widest[4 + 9 * ENTRIES];
static uint16_t widest_ends[ENTRIES];

static void make_widest(void)
{
    uint8_t *pair = widest + 4, *record = pair + 4 * ENTRIES;
    size_t i;

    widest[0] = 1;
    widest[3] = 1;
    for (i = 0; i < ENTRIES; i++, pair += 4, record += 5) {
        size_t offset = (size_t)(record - widest);
        pair[0] = offset & 0xFF;
        pair[1] = offset >> 8;
        pair[2] = 5;
        record[0] = i == 0 ? 16 : 2;
        record[1] = i == 0 ? 0x86 : 0xFE;
        record[2] = i == 0 ? 255 : 0;
        widest_ends[i] = i == 0 ? 256 : i + 1;
    }
}

/* A call, and what it has to give. */
struct expected {
    const char *name;
    const uint8_t *forest;
    size_t forest_length, out_length, work_length;
    uint32_t number, place;
    const uint8_t *tree;
    uint32_t written_length, symbols, readings;
};

static const struct expected calls[] = {
    {"h", height, sizeof height, MOST, USED, 0, 0, height, sizeof height, 1, 1},
    {"p(z,z)", sum, sizeof sum, MOST, USED, 0, 0, shared, sizeof shared, 2, 3},
    {"p(z,z), exactly enough output and a word more", sum, sizeof sum, sizeof shared, USED + 1, 0, 0, shared, sizeof shared, 2, 3},
    {"p(z,z), a byte of output too few", sum, sizeof sum, sizeof shared - 1, USED, 13, 0, NULL, 0, 0, 0},
    {"p(z,z), no output", sum, sizeof sum, 0, USED, 13, 0, NULL, 0, 0, 0},
    {"p(z,z), a word too few", sum, sizeof sum, MOST, USED - 1, 1, 0, NULL, 0, 0, 0},
    {"no bytes", sum, 0, MOST, USED, 2, 0, NULL, 0, 0, 0},
    {"L1.L1.1", bound_twice, sizeof bound_twice, MOST, USED, 9, 1, NULL, 0, 0, 0},
    {"one opcode in two shapes", two_shapes, sizeof two_shapes, MOST, USED, 16, 4, NULL, 0, 0, 0},
    {"a tuple of 255 z", widest, sizeof widest, MOST, USED, 13, 0, NULL, 0, 0, 0},
};

static uint8_t out[2 * MOST];
static uint32_t work[USED + MOST];

/* The work words before a call. */
static void fill_work(void)
{
    size_t i;

    for (i = 0; i < sizeof work / sizeof work[0]; i++)
        work[i] = WORD;
}

/* Whether a call with that answer has cleared and kept the work words that it has to. */
static int work_left(uint32_t number)
{
    size_t cleared = number == 1 ? 0 : USED;
    size_t i;

    for (i = 0; i < sizeof work / sizeof work[0]; i++)
        if (work[i] != (i < cleared ? 0 : WORD))
            return 0;
    return 1;
}

/* What a call did otherwise than it has to, or NULL. */
static const char *difference(const struct expected *c)
{
    uint32_t number = 99, place = 99, written_length = 99, symbols = 99, readings = 99;
    size_t i;

    for (i = 0; i < sizeof out; i++)
        out[i] = BYTE;
    fill_work();
    cse_call(c->forest, c->forest_length, out, c->out_length, work, c->work_length, &number, &place, &written_length, &symbols, &readings);
    if (number != c->number || place != c->place)
        return "number or place";
    if (written_length != c->written_length || symbols != c->symbols || readings != c->readings)
        return "written length, symbols or readings";
    for (i = 0; i < sizeof out; i++)
        if (out[i] != (i < c->written_length ? c->tree[i] : BYTE))
            return "output";
    return work_left(c->number) ? NULL : "work words";
}

/* A check, and what it has to give: so many ends, and zeros after them. */
struct checked {
    const char *name;
    const uint8_t *forest;
    size_t forest_length, work_length;
    uint32_t number, place;
    size_t records;
    const uint16_t *ends;
};

static const struct checked checks[] = {
    {"h", height, sizeof height, USED, 0, 0, 1, (const uint16_t[]){1}},
    {"p(z,z)", sum, sizeof sum, USED, 0, 0, 3, (const uint16_t[]){3, 2, 3}},
    {"p(z,z), a word more", sum, sizeof sum, USED + 1, 0, 0, 3, (const uint16_t[]){3, 2, 3}},
    {"{1=z; p(1,1)}", shared, sizeof shared, USED, 0, 0, 6, (const uint16_t[]){6, 3, 3, 6, 5, 6}},
    {"n(z) | p(z,n(z))", two_trees, sizeof two_trees, USED, 0, 0, 6, (const uint16_t[]){2, 2, 6, 4, 6, 6}},
    {"a tuple of 255 z", widest, sizeof widest, USED, 0, 0, ENTRIES, widest_ends},
    {"p(z,z), a word too few", sum, sizeof sum, USED - 1, 1, 0, 0, NULL},
    {"no bytes", sum, 0, USED, 2, 0, 0, NULL},
    {"L1.L1.1", bound_twice, sizeof bound_twice, USED, 9, 1, 0, NULL},
    {"p(z,1)", unbound, sizeof unbound, USED, 10, 2, 0, NULL},
    {"one opcode in two shapes", two_shapes, sizeof two_shapes, USED, 16, 4, 0, NULL},
};

/* The entries of a check, and others on both sides. */
static uint16_t ends[3 * ENTRIES];

/* The same of a check. */
static const char *check_difference(const struct checked *c)
{
    uint32_t number = 99, place = 99;
    size_t i;

    for (i = 0; i < 3 * ENTRIES; i++)
        ends[i] = END;
    fill_work();
    cse_check(c->forest, c->forest_length, work, c->work_length, ends + ENTRIES, &number, &place);
    if (number != c->number || place != c->place)
        return "number or place";
    for (i = 0; i < ENTRIES; i++) {
        if (ends[ENTRIES + i] != (i < c->records ? c->ends[i] : 0))
            return "ends";
        if (ends[i] != END || ends[2 * ENTRIES + i] != END)
            return "memory beside the ends";
    }
    return work_left(c->number) ? NULL : "work words";
}

/* Whether nothing was otherwise; prints what was. */
static int good(const char *call, const char *name, const char *what)
{
    if (what != NULL)
        printf("%s of %s: %s not as expected\n", call, name, what);
    return what == NULL;
}

int main(void)
{
    size_t called = sizeof calls / sizeof calls[0], checked = sizeof checks / sizeof checks[0], as_expected = 0, i;

    make_widest();
    for (i = 0; i < called; i++)
        as_expected += good("cse_call", calls[i].name, difference(&calls[i]));
    for (i = 0; i < checked; i++)
        as_expected += good("cse_check", checks[i].name, check_difference(&checks[i]));
    printf("%u of %u calls as expected\n", (unsigned)as_expected, (unsigned)(called + checked));
    return as_expected == called + checked ? 0 : 1;
}
