/*
 * Checks what the fields of the structures mean, and which of their values are refused:
 *
 *     options MODULE
 *
 * MODULE has to have code that rules rewrite. The status is 1, after a line for each failure, if something is otherwise than expected.
 */
#include <teddertempo.h>

#include <stdio.h>
#include <string.h>

enum { ROOM = 1 << 20, SEEDS = 50, SITES = 64, WORDS = 30 };

/* A function without parameters and results: i32.const 1, drop, i32.const 2, drop, nop, end. */
static const uint8_t drops[] = {0, 'a', 's', 'm', 1, 0, 0, 0, 1, 4, 1, 0x60, 0, 0, 3, 2, 1, 0,
                                10, 11, 1, 9, 0, 0x41, 1, 0x1a, 0x41, 2, 0x1a, 1, 0x0b};

/* All fields of what is asked for have 64 bits. */
union asked {
    uint64_t words[WORDS];
    struct teddertempo_options options;
    struct teddertempo_change_options change_options;
    struct teddertempo_place place;
};

enum call { REWRITE, CHANGE, SITE, PLACE };

#define OPTION(field) (offsetof(struct teddertempo_options, field) / sizeof(uint64_t))
#define CHANGE_OPTION(field) (offsetof(struct teddertempo_change_options, field) / sizeof(uint64_t))
#define OF_PLACE(field) (offsetof(struct teddertempo_place, field) / sizeof(uint64_t))
#define BIT(number) (UINT64_C(1) << (number))

/* A call on the module above, with two fields that aren't 0, and what it reports. */
static const struct {
    enum call call;
    struct {
        size_t word;
        uint64_t value;
    } fields[2];
    uint32_t outcome;
    uint64_t made;
} rows[] = {
    {REWRITE, {{0, 0}, {0, 0}}, TEDDERTEMPO_DONE, 1},
    {REWRITE, {{OPTION(only), TEDDERTEMPO_ONLY(0)}, {0, 0}}, TEDDERTEMPO_DONE, 1},
    {REWRITE, {{OPTION(only), TEDDERTEMPO_ONLY(1)}, {0, 0}}, TEDDERTEMPO_NO_FUNCTION, 0},
    {REWRITE, {{OPTION(reserved), 1}, {0, 0}}, TEDDERTEMPO_BAD_OPTIONS, 0},
    {REWRITE, {{OPTION(reserved) + 7, 1}, {0, 0}}, TEDDERTEMPO_BAD_OPTIONS, 0},
    {REWRITE, {{OPTION(rules) + 15, BIT(63)}, {0, 0}}, TEDDERTEMPO_BAD_OPTIONS, 0},
    {REWRITE, {{OPTION(rules) + 15, BIT(63)}, {OPTION(rules), UINT64_MAX}}, TEDDERTEMPO_BAD_OPTIONS, 0},
    {REWRITE, {{OPTION(flags), BIT(3)}, {0, 0}}, TEDDERTEMPO_BAD_OPTIONS, 0},
    {REWRITE, {{OPTION(flags), BIT(63) | TEDDERTEMPO_EXACT}, {0, 0}}, TEDDERTEMPO_BAD_OPTIONS, 0},
    {REWRITE, {{OPTION(flags), TEDDERTEMPO_NO_GROWTH}, {OPTION(growth), 1}}, TEDDERTEMPO_BAD_OPTIONS, 0},
    {CHANGE, {{CHANGE_OPTION(count), 3}, {0, 0}}, TEDDERTEMPO_DONE, 3},
    {CHANGE, {{CHANGE_OPTION(only), TEDDERTEMPO_ONLY(1)}, {0, 0}}, TEDDERTEMPO_NO_FUNCTION, 0},
    {CHANGE, {{CHANGE_OPTION(reserved), 1}, {0, 0}}, TEDDERTEMPO_BAD_OPTIONS, 0},
    {CHANGE, {{CHANGE_OPTION(reserved) + 7, 1}, {0, 0}}, TEDDERTEMPO_BAD_OPTIONS, 0},
    {CHANGE, {{CHANGE_OPTION(changes), BIT(14)}, {0, 0}}, TEDDERTEMPO_BAD_OPTIONS, 0},
    {CHANGE, {{CHANGE_OPTION(changes), BIT(63) | 1}, {0, 0}}, TEDDERTEMPO_BAD_OPTIONS, 0},
    {CHANGE, {{CHANGE_OPTION(flags), TEDDERTEMPO_EXACT}, {0, 0}}, TEDDERTEMPO_BAD_OPTIONS, 0},
    {CHANGE, {{CHANGE_OPTION(flags), TEDDERTEMPO_NO_GROWTH | TEDDERTEMPO_SHRINK}, {0, 0}}, TEDDERTEMPO_BAD_OPTIONS, 0},
    {CHANGE, {{CHANGE_OPTION(flags), TEDDERTEMPO_NO_GROWTH}, {CHANGE_OPTION(growth), 1}}, TEDDERTEMPO_BAD_OPTIONS, 0},
    {SITE, {{CHANGE_OPTION(changes), BIT(TEDDERTEMPO_CHANGE_DELETE)}, {0, 0}}, TEDDERTEMPO_DONE, 3},
    {SITE, {{CHANGE_OPTION(changes), BIT(TEDDERTEMPO_CHANGE_CALL)}, {0, 0}}, TEDDERTEMPO_DONE, 0},
    {SITE, {{CHANGE_OPTION(only), TEDDERTEMPO_ONLY(1)}, {0, 0}}, TEDDERTEMPO_NO_FUNCTION, 0},
    {SITE, {{CHANGE_OPTION(reserved) + 3, 1}, {0, 0}}, TEDDERTEMPO_BAD_OPTIONS, 0},
    {SITE, {{CHANGE_OPTION(changes), BIT(14) | 1}, {0, 0}}, TEDDERTEMPO_BAD_OPTIONS, 0},
    {SITE, {{CHANGE_OPTION(flags), BIT(3)}, {0, 0}}, TEDDERTEMPO_BAD_OPTIONS, 0},
    {PLACE, {{OF_PLACE(change), TEDDERTEMPO_CHANGE_DELETE}, {0, 0}}, TEDDERTEMPO_DONE, 3},
    {PLACE, {{OF_PLACE(change), TEDDERTEMPO_CHANGE_DELETE}, {OF_PLACE(first), 2}}, TEDDERTEMPO_DONE, 2},
    {PLACE, {{OF_PLACE(change), TEDDERTEMPO_CHANGE_DELETE}, {OF_PLACE(end), 2}}, TEDDERTEMPO_DONE, 1},
    {PLACE, {{OF_PLACE(change), TEDDERTEMPO_CHANGE_DELETE}, {OF_PLACE(end), 100}}, TEDDERTEMPO_DONE, 3},
    {PLACE, {{OF_PLACE(first), 3}, {OF_PLACE(end), 2}}, TEDDERTEMPO_NOTHING_APPLIES, 0},
    {PLACE, {{OF_PLACE(change), TEDDERTEMPO_CHANGE_DOUBLE}, {0, 0}}, TEDDERTEMPO_DONE, 3},
    {PLACE, {{OF_PLACE(change), TEDDERTEMPO_CHANGE_DOUBLE}, {OF_PLACE(growth), 7}}, TEDDERTEMPO_DONE, 3},
    {PLACE, {{OF_PLACE(change), TEDDERTEMPO_CHANGE_DOUBLE}, {OF_PLACE(growth), 6}}, TEDDERTEMPO_TOO_LARGE, 0},
    {PLACE, {{OF_PLACE(change), TEDDERTEMPO_CHANGE_DOUBLE}, {OF_PLACE(flags), TEDDERTEMPO_NO_GROWTH}}, TEDDERTEMPO_TOO_LARGE, 0},
    {PLACE, {{OF_PLACE(function), 1}, {0, 0}}, TEDDERTEMPO_NO_FUNCTION, 0},
    {PLACE, {{OF_PLACE(change), TEDDERTEMPO_CHANGE_MEMORY_ARGUMENT + 1}, {0, 0}}, TEDDERTEMPO_BAD_OPTIONS, 0},
    {PLACE, {{OF_PLACE(reserved) + 7, 1}, {0, 0}}, TEDDERTEMPO_BAD_OPTIONS, 0},
    {PLACE, {{OF_PLACE(flags), TEDDERTEMPO_NO_GROWTH | TEDDERTEMPO_EXACT}, {0, 0}}, TEDDERTEMPO_BAD_OPTIONS, 0},
    {PLACE, {{OF_PLACE(flags), TEDDERTEMPO_NO_GROWTH}, {OF_PLACE(growth), 1}}, TEDDERTEMPO_BAD_OPTIONS, 0},
};

static uint8_t original[ROOM], data[ROOM], again[ROOM];

static int failures;

static void expect(int is_so, const char *what, size_t number)
{
    if (!is_so) {
        printf("%s %zu is otherwise\n", what, number);
        failures += 1;
    }
}

/* Makes a call on a module in data, and reports it. */
static size_t called(enum call call, const union asked *asked, size_t size, struct teddertempo_report *report)
{
    static struct teddertempo_site sites[SITES];

    memset(report, 0xff, sizeof *report);
    switch (call) {
    case REWRITE: return teddertempo_rewrite_with(data, size, ROOM, &asked->options, report);
    case CHANGE: return teddertempo_change_with(data, size, ROOM, &asked->change_options, report);
    case SITE: return teddertempo_sites(data, size, &asked->change_options, sites, SITES, report);
    default: return teddertempo_change_at(data, size, ROOM, &asked->place, report);
    }
}

static void check_rows(void)
{
    static const uint64_t zeros[8];
    struct teddertempo_report report;

    for (size_t row = 0; row < sizeof rows / sizeof rows[0]; row++) {
        union asked asked = {{0}};
        size_t size, count = rows[row].call == SITE && rows[row].outcome == TEDDERTEMPO_DONE ? (size_t)rows[row].made : 0;

        for (size_t field = 0; field < 2; field++) {
            asked.words[rows[row].fields[field].word] |= rows[row].fields[field].value;
        }
        memcpy(data, drops, sizeof drops);
        size = called(rows[row].call, &asked, sizeof drops, &report);
        expect(report.outcome == rows[row].outcome && report.made == rows[row].made, "row", row);
        expect(memcmp(report.reserved, zeros, sizeof zeros) == 0, "the reserved words of row", row);
        if (rows[row].call == SITE || report.outcome != TEDDERTEMPO_DONE) {
            expect(size == count && memcmp(data, drops, sizeof drops) == 0, "the module of row", row);
        }
    }
}

/* Options with nothing but a seed rewrite as the simple call does, and only without growth may no module become larger. */
static void check_seeds(size_t size)
{
    size_t larger = 0, rewritten = 0, kept = 0;

    for (uint64_t seed = 0; seed < SEEDS; seed++) {
        struct teddertempo_options options = TEDDERTEMPO_OPTIONS_INIT;
        struct teddertempo_report report = TEDDERTEMPO_REPORT_INIT;
        size_t new_size;

        options.seed = seed;
        memcpy(data, original, ROOM);
        memcpy(again, original, ROOM);
        new_size = teddertempo_rewrite_with(data, size, ROOM, &options, &report);
        expect(new_size == teddertempo_mutate(again, size, ROOM, seed) && memcmp(data, again, ROOM) == 0, "the module under seed", (size_t)seed);
        expect((new_size != 0) == (report.outcome == TEDDERTEMPO_DONE), "the report under seed", (size_t)seed);
        rewritten += new_size != 0;
        larger += new_size > size;
        options.flags = TEDDERTEMPO_NO_GROWTH;
        memcpy(data, original, ROOM);
        new_size = teddertempo_rewrite_with(data, size, ROOM, &options, &report);
        expect(new_size <= size, "the size without growth under seed", (size_t)seed);
        kept += new_size != 0;
    }
    expect(rewritten > 0 && larger > 0 && kept > 0, "what becomes of seeds below", SEEDS);
}

int main(int count, char **arguments)
{
    union asked asked = {{0}};
    struct teddertempo_report report;
    FILE *file = count == 2 ? fopen(arguments[1], "rb") : NULL;
    size_t size;

    if (file == NULL) {
        fprintf(stderr, "usage: options MODULE\n");
        return 1;
    }
    size = fread(original, 1, ROOM / 2, file);
    fclose(file);
    check_rows();
    check_seeds(size);
    for (int call = REWRITE; call <= PLACE; call++) {
        memcpy(data, "no module", 9);
        called((enum call)call, &asked, 9, &report);
        expect(report.outcome == TEDDERTEMPO_NOT_A_MODULE && report.made == 0, "what is no module, in call", (size_t)call);
        if (call != SITE) {
            called((enum call)call, &asked, ROOM + 1, &report);
            expect(report.outcome == TEDDERTEMPO_BAD_OPTIONS, "a size above max_size in call", (size_t)call);
        }
    }
    return failures != 0;
}
