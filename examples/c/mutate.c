/*
 * Rewrites a module and says what was done, or why nothing was; or changes it, so that it computes something else:
 *
 *     mutate [--exact] [--shrink] [--seed N] [--count N] [--percent N] [--function N] [--growth N] [--rule NAME].. [--strip] MODULE NEW
 *     mutate --change [--seed N] [--count N] [--function N] [--growth N] [--strip] MODULE NEW
 *
 * Numbers are decimal. Without --rule all rules are meant; --growth is how many bytes NEW may have more than MODULE; --strip drops the
 * custom sections of NEW that name places in its code. The status is 2 where the library writes no module, and 1 where the options
 * can't be read or don't go together, or a file can't be read or written.
 */
#include <teddertempo.h>

#include <errno.h>
#include <inttypes.h>
#include <stdio.h>
#include <stdlib.h>
#include <string.h>

/* How many bytes more than the old module the new one may have, and how many the name of a rule or a change. */
enum { EXTRA = 1 << 16, LONGEST_NAME = 64 };

/* Why nothing was done, by the outcome. */
static const char *const reasons[] = {
    [TEDDERTEMPO_LINKABLE_OBJECT] = "a linkable object",
    [TEDDERTEMPO_UNREADABLE] = "no function can be read",
    [TEDDERTEMPO_NOTHING_APPLIES] = "nothing applies",
    [TEDDERTEMPO_NO_FUNCTION] = "no function with that index",
    [TEDDERTEMPO_TOO_LARGE] = "nothing fits",
    [TEDDERTEMPO_NO_MEMORY] = "no memory",
    [TEDDERTEMPO_BAD_OPTIONS] = "bad options",
};

/* Reads a file into a new buffer with EXTRA bytes of room behind it; null where that fails. */
static uint8_t *read_file(const char *name, size_t *size)
{
    FILE *file = fopen(name, "rb");
    uint8_t *data = NULL;
    long end;

    if (file == NULL) {
        return NULL;
    }
    if (fseek(file, 0, SEEK_END) == 0 && (end = ftell(file)) >= 0 && fseek(file, 0, SEEK_SET) == 0) {
        *size = (size_t)end;
        data = malloc(*size + EXTRA);
        if (data != NULL && fread(data, 1, *size, file) != *size) {
            free(data);
            data = NULL;
        }
    }
    fclose(file);
    return data;
}

static int write_file(const char *name, const uint8_t *data, size_t size)
{
    FILE *file = fopen(name, "wb");
    int is_written;

    if (file == NULL) {
        return 0;
    }
    is_written = fwrite(data, 1, size, file) == size;
    return (fclose(file) == 0) && is_written;
}

/* Reads a decimal number of 64 bits; 0 where the text is none. */
static int read_number(const char *text, uint64_t *number)
{
    char *end;

    errno = 0;
    *number = strtoumax(text, &end, 10);
    return *text >= '0' && *text <= '9' && *end == '\0' && errno == 0;
}

/* Adds the rule with a name to those that may be used; 0 where there is none. */
static int add_rule(const char *text, struct teddertempo_options *options)
{
    uint64_t rule = teddertempo_rule_number(text, strlen(text));

    if (rule == TEDDERTEMPO_NO_SUCH_RULE) {
        return 0;
    }
    options->rules[rule / 64] |= (uint64_t)1 << (rule % 64);
    return 1;
}

/* Whether an option is for rewrites alone. */
static int is_for_rewrites(const char *option)
{
    return strcmp(option, "--exact") == 0 || strcmp(option, "--shrink") == 0 || strcmp(option, "--percent") == 0
           || strcmp(option, "--rule") == 0;
}

/* Reads an option and its value; returns 0 if there is no such option, or the value is none for it. */
static int read_option(const char *option, const char *value, struct teddertempo_options *options)
{
    uint64_t function;

    if (strcmp(option, "--seed") == 0) {
        return read_number(value, &options->seed);
    }
    if (strcmp(option, "--count") == 0) {
        return read_number(value, &options->count);
    }
    if (strcmp(option, "--percent") == 0) {
        return read_number(value, &options->percent);
    }
    if (strcmp(option, "--function") == 0) {
        if (!read_number(value, &function) || function == UINT64_MAX) {
            return 0;
        }
        options->only = TEDDERTEMPO_ONLY(function);
        return 1;
    }
    if (strcmp(option, "--growth") == 0) {
        if (!read_number(value, &options->growth)) {
            return 0;
        }
        options->flags &= ~TEDDERTEMPO_NO_GROWTH;
        options->flags |= options->growth == 0 ? TEDDERTEMPO_NO_GROWTH : 0;
        return 1;
    }
    return strcmp(option, "--rule") == 0 && add_rule(value, options);
}

/* Prints what a call has done with a module of so many bytes, and the rule or change of the last edit. */
static void tell(const struct teddertempo_report *report, size_t size, size_t new_size, const char *done, const char *last)
{
    if (report->outcome == TEDDERTEMPO_DONE) {
        printf("%zu bytes, now %zu; %s %" PRIu64 ", the last by %s in function %" PRIu64 "\n", size, new_size, done, report->made, last,
               report->function);
    } else if (report->outcome == TEDDERTEMPO_NOT_A_MODULE) {
        printf("nothing done: no module, by its byte %" PRIu64 "\n", report->offset);
    } else {
        printf("nothing done: %s\n", reasons[report->outcome]);
    }
}

/* Rewrites the module as the options say. Returns the new size, or 0. */
static size_t rewrite(uint8_t *data, size_t size, const struct teddertempo_options *options)
{
    struct teddertempo_report report;
    char name[LONGEST_NAME + 1] = "";
    size_t new_size = teddertempo_rewrite_with(data, size, size + EXTRA, options, &report);

    teddertempo_rule_name(report.kind, name, LONGEST_NAME);
    tell(&report, size, new_size, "rewrites", name);
    return new_size;
}

/* Changes it, by those of the options that both have. */
static size_t change(uint8_t *data, size_t size, const struct teddertempo_options *options)
{
    struct teddertempo_change_options asked = TEDDERTEMPO_CHANGE_OPTIONS_INIT;
    struct teddertempo_report report;
    char name[LONGEST_NAME + 1] = "";
    size_t new_size;

    asked.seed = options->seed;
    asked.only = options->only;
    asked.count = options->count;
    asked.growth = options->growth;
    asked.flags = options->flags;
    new_size = teddertempo_change_with(data, size, size + EXTRA, &asked, &report);
    teddertempo_change_name(report.kind, name, LONGEST_NAME);
    tell(&report, size, new_size, "changes", name);
    return new_size;
}

int main(int count, char **arguments)
{
    struct teddertempo_options options = TEDDERTEMPO_OPTIONS_INIT;
    const char *for_rewrites = NULL;
    uint8_t *data;
    size_t size = 0, new_size;
    int at = 1, is_change = 0, is_stripped = 0, status = 0;

    while (at < count) {
        if (is_for_rewrites(arguments[at])) {
            for_rewrites = arguments[at];
        }
        if (strcmp(arguments[at], "--exact") == 0) {
            options.flags |= TEDDERTEMPO_EXACT;
            at += 1;
        } else if (strcmp(arguments[at], "--shrink") == 0) {
            options.flags |= TEDDERTEMPO_SHRINK;
            at += 1;
        } else if (strcmp(arguments[at], "--strip") == 0) {
            is_stripped = 1;
            at += 1;
        } else if (strcmp(arguments[at], "--change") == 0) {
            is_change = 1;
            at += 1;
        } else if (at + 1 < count && read_option(arguments[at], arguments[at + 1], &options)) {
            at += 2;
        } else {
            break;
        }
    }
    if (count - at != 2) {
        fprintf(stderr, "usage: mutate [--change] [--exact] [--shrink] [--seed N] [--count N] [--percent N] [--function N] [--growth N] [--rule NAME].. [--strip] MODULE NEW\n");
        return 1;
    }
    if (is_change && for_rewrites != NULL) {
        fprintf(stderr, "mutate: %s is for rewrites alone: leave it out with --change\n", for_rewrites);
        return 1;
    }
    data = read_file(arguments[at], &size);
    if (data == NULL) {
        fprintf(stderr, "mutate: %s can't be read\n", arguments[at]);
        return 1;
    }
    new_size = is_change ? change(data, size, &options) : rewrite(data, size, &options);
    if (new_size != 0 && is_stripped) {
        new_size = teddertempo_strip(data, new_size);
    }
    if (new_size == 0) {
        status = 2;
    } else if (!write_file(arguments[at + 1], data, new_size)) {
        fprintf(stderr, "mutate: %s can't be written\n", arguments[at + 1]);
        status = 1;
    }
    free(data);
    return status;
}
