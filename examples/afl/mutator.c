/*
 * A custom mutator for AFL++ (4 and later) that changes modules so that they stay valid and compute something else; with -DKEEP it
 * rewrites them so that they do what they did, for a target that compares what two engines give. As a shared object:
 *
 *     cc -O2 -shared -fPIC mutator.c $(pkg-config --cflags --libs teddertempo) -o teddertempo_afl.so
 *     AFL_CUSTOM_MUTATOR_LIBRARY=$PWD/teddertempo_afl.so afl-fuzz -i CORPUS -o FINDINGS -- ./target
 *
 * With AFL_CUSTOM_MUTATOR_ONLY=1 nothing else changes the inputs, so that valid modules stay valid. Trimming needn't be switched off: it
 * takes statements and operators out, and what is left is valid too. Without that, it takes part in AFL++'s havoc stage. Two
 * variables of the environment are read at the start:
 *
 *     TEDDERTEMPO_HAVOC=PERCENT    how many mutations of the havoc stage are its own (6 where it isn't set)
 *     TEDDERTEMPO_MODULES_ONLY=1   the target isn't run on what is no preamble and whole sections in order
 */
#include <teddertempo.h>

#include <stdio.h>
#include <stdlib.h>
#include <string.h>

/* How many mutations are stacked at most, by a power of two; and how often an input is trimmed. */
enum { STACK_BITS = 6, TRIM_STEPS = 32 };

struct buffer {
    uint8_t *data; /* of room bytes, of which the first size are a module */
    size_t size;
    size_t room;
};

struct mutator {
    struct buffer made;    /* AFL++ reads here what was made, until the next call */
    struct buffer trimmed; /* the smallest module so far on which the target runs as before */
    struct buffer checked; /* a copy in which sections are looked for */
    uint64_t stacked;      /* how many mutations the next step of trimming makes */
    int step;              /* of trimming */
    uint64_t state;        /* of the generator that seeds the calls; each instance of AFL++ starts with a seed of its own */
    uint32_t last;         /* the rule of the last rewrite, or the number of the last change */
    uint64_t count;        /* how many there were before it, and it */
    int is_spliced;        /* code of another input came in instead */
    int is_modules_only;
    unsigned char havoc;
    char text[80];
};

/* AFL++ looks these up by name. */
void *afl_custom_init(void *afl, unsigned int seed);
void afl_custom_deinit(void *data);
unsigned int afl_custom_fuzz_count(void *data, const unsigned char *buf, size_t buf_size);
size_t afl_custom_fuzz(void *data, unsigned char *buf, size_t buf_size, unsigned char **out_buf, unsigned char *add_buf,
                       size_t add_buf_size, size_t max_size);
size_t afl_custom_havoc_mutation(void *data, unsigned char *buf, size_t buf_size, unsigned char **out_buf, size_t max_size);
unsigned char afl_custom_havoc_mutation_probability(void *data);
int afl_custom_init_trim(void *data, unsigned char *buf, size_t buf_size);
size_t afl_custom_trim(void *data, unsigned char **out_buf);
int afl_custom_post_trim(void *data, unsigned char success);
size_t afl_custom_post_process(void *data, unsigned char *buf, size_t buf_size, unsigned char **out_buf);
const char *afl_custom_describe(void *data, size_t max_description_len);

/* The next word of the generator SplitMix64, which seeds a call. */
static uint64_t next_word(uint64_t *state)
{
    uint64_t word = *state += UINT64_C(0x9e3779b97f4a7c15);

    word = (word ^ (word >> 30)) * UINT64_C(0xbf58476d1ce4e5b9);
    word = (word ^ (word >> 27)) * UINT64_C(0x94d049bb133111eb);
    return word ^ (word >> 31);
}

/* Fills a buffer with a module, and makes room for so many bytes; 0 where no memory is left. */
static int fill(struct buffer *buffer, const uint8_t *data, size_t size, size_t room)
{
    if (room > buffer->room) {
        uint8_t *more = realloc(buffer->data, room);

        if (more == NULL) {
            return 0;
        }
        buffer->data = more;
        buffer->room = room;
    }
    memcpy(buffer->data, data, size);
    buffer->size = size;
    return 1;
}

/* Whether the bytes are a preamble and whole sections in order. */
static int is_module(struct mutator *mutator, const uint8_t *data, size_t size)
{
    return size != 0 && fill(&mutator->checked, data, size, size) && teddertempo_strip(mutator->checked.data, size) != 0;
}

/* Mutates the module in mutator->made so many times, and returns its new size, or 0; where it is to be smaller, by what leaves less. */
#ifdef KEEP
static size_t mutate(struct mutator *mutator, size_t max_size, uint64_t count, int is_smaller)
{
    struct teddertempo_options options = TEDDERTEMPO_OPTIONS_INIT;
    struct teddertempo_report report;
    size_t size;

    options.seed = next_word(&mutator->state);
    options.count = count;
    options.flags = is_smaller ? TEDDERTEMPO_SHRINK : 0;
    size = teddertempo_rewrite_with(mutator->made.data, mutator->made.size, max_size, &options, &report);
#else
static size_t mutate(struct mutator *mutator, size_t max_size, uint64_t count, int is_smaller)
{
    static const uint64_t removals = UINT64_C(1) << TEDDERTEMPO_CHANGE_DELETE | UINT64_C(1) << TEDDERTEMPO_CHANGE_FIRST_OPERAND
                                     | UINT64_C(1) << TEDDERTEMPO_CHANGE_LAST_OPERAND;
    struct teddertempo_change_options options = TEDDERTEMPO_CHANGE_OPTIONS_INIT;
    struct teddertempo_report report;
    size_t size;

    options.seed = next_word(&mutator->state);
    options.count = count;
    options.changes = is_smaller ? removals : 0;
    size = teddertempo_change_with(mutator->made.data, mutator->made.size, max_size, &options, &report);
#endif
    if (size != 0) {
        mutator->made.size = size;
        mutator->last = report.kind;
        mutator->count = report.made;
        mutator->is_spliced = 0;
    }
    return size;
}

/* Puts code of another input into that module, and returns its new size, or 0. */
static size_t splice(struct mutator *mutator, size_t max_size, const uint8_t *other, size_t other_size)
{
    size_t size = teddertempo_splice(mutator->made.data, mutator->made.size, max_size, other, other_size, next_word(&mutator->state));

    if (size != 0) {
        mutator->made.size = size;
        mutator->is_spliced = 1;
    }
    return size;
}

/* A number of at most 100 in a variable of the environment. */
static unsigned char percent_of(const char *name, unsigned char otherwise)
{
    const char *text = getenv(name);
    long number = text != NULL ? strtol(text, NULL, 10) : otherwise;

    return number < 0 ? 0 : number > 100 ? 100 : (unsigned char)number;
}

void *afl_custom_init(void *afl, unsigned int seed)
{
    struct mutator *mutator = calloc(1, sizeof *mutator);
    const char *only = getenv("TEDDERTEMPO_MODULES_ONLY");

    (void)afl;
    if (mutator != NULL) {
        mutator->state = seed;
        mutator->is_modules_only = only != NULL && strcmp(only, "0") != 0;
        mutator->havoc = percent_of("TEDDERTEMPO_HAVOC", 6);
    }
    return mutator;
}

void afl_custom_deinit(void *data)
{
    struct mutator *mutator = data;

    free(mutator->made.data);
    free(mutator->trimmed.data);
    free(mutator->checked.data);
    free(mutator);
}

/* How often an input is mutated: not at all where it is no module, else more often where it is larger. */
unsigned int afl_custom_fuzz_count(void *data, const unsigned char *buf, size_t buf_size)
{
    if (!is_module(data, buf, buf_size)) {
        return 0;
    }
    return buf_size < 16384 ? (unsigned int)(64 + buf_size / 32) : 576;
}

/* The bytes in buf are AFL++'s, so a copy is mutated. Where this returns 0 AFL++ goes on without a run; *out_buf isn't null. */
size_t afl_custom_fuzz(void *data, unsigned char *buf, size_t buf_size, unsigned char **out_buf, unsigned char *add_buf,
                       size_t add_buf_size, size_t max_size)
{
    struct mutator *mutator = data;
    uint64_t word = next_word(&mutator->state);
    size_t size = 0;

    *out_buf = buf;
    if (buf_size == 0 || buf_size > max_size || !fill(&mutator->made, buf, buf_size, max_size)) {
        return 0;
    }
#ifndef KEEP
    /* Every eighth time code of the other input comes in, where that is a module that has any which fits. */
    if (add_buf != NULL && word % 8 == 0) {
        size = splice(mutator, max_size, add_buf, add_buf_size);
    }
#else
    (void)splice, (void)add_buf, (void)add_buf_size;
#endif
    if (size == 0) {
        size = mutate(mutator, max_size, UINT64_C(1) << word / 8 % (STACK_BITS + 1), 0);
    }
    if (size != 0) {
        *out_buf = mutator->made.data;
    }
    return size;
}

/* One mutation among others of the havoc stage. */
size_t afl_custom_havoc_mutation(void *data, unsigned char *buf, size_t buf_size, unsigned char **out_buf, size_t max_size)
{
    struct mutator *mutator = data;
    size_t size = 0;

    *out_buf = buf;
    if (buf_size != 0 && buf_size <= max_size && fill(&mutator->made, buf, buf_size, max_size)) {
        size = mutate(mutator, max_size, 1, 0);
    }
    if (size == 0) {
        return buf_size;
    }
    *out_buf = mutator->made.data;
    return size;
}

unsigned char afl_custom_havoc_mutation_probability(void *data)
{
    return ((struct mutator *)data)->havoc;
}

/* Returns how many steps there are at most: none where the input is no module. */
int afl_custom_init_trim(void *data, unsigned char *buf, size_t buf_size)
{
    struct mutator *mutator = data;

    mutator->step = 0;
    mutator->stacked = UINT64_C(1) << STACK_BITS;
    return is_module(mutator, buf, buf_size) && fill(&mutator->trimmed, buf, buf_size, buf_size) ? TRIM_STEPS : 0;
}

/* Takes something out of the smallest module so far; where nothing is left to take out, this is the last step. */
size_t afl_custom_trim(void *data, unsigned char **out_buf)
{
    struct mutator *mutator = data;
    const struct buffer *trimmed = &mutator->trimmed;

    *out_buf = trimmed->data;
    if (!fill(&mutator->made, trimmed->data, trimmed->size, trimmed->size) || mutate(mutator, trimmed->size, mutator->stacked, 1) == 0) {
        mutator->step = TRIM_STEPS;
        return trimmed->size;
    }
    *out_buf = mutator->made.data;
    return mutator->made.size;
}

/* Keeps what was made where the target runs on it as before; else the next step takes out less. Returns the number of the next step. */
int afl_custom_post_trim(void *data, unsigned char success)
{
    struct mutator *mutator = data;

    if (mutator->step == TRIM_STEPS) {
        return TRIM_STEPS;
    }
    if (success) {
        struct buffer made = mutator->made;

        mutator->made = mutator->trimmed;
        mutator->trimmed = made;
    } else if (mutator->stacked > 1) {
        mutator->stacked /= 2;
    }
    return ++mutator->step;
}

/* Where this returns 0, AFL++ doesn't run the target. */
size_t afl_custom_post_process(void *data, unsigned char *buf, size_t buf_size, unsigned char **out_buf)
{
    struct mutator *mutator = data;

    *out_buf = buf;
    return mutator->is_modules_only && !is_module(mutator, buf, buf_size) ? 0 : buf_size;
}

/* A text for the name of the file in which AFL++ keeps what was made: the last rule or change, and how many there were. */
const char *afl_custom_describe(void *data, size_t max_description_len)
{
    struct mutator *mutator = data;
    char name[40];
#ifdef KEEP
    size_t size = teddertempo_rule_name(mutator->last, name, sizeof name);
#else
    size_t size = teddertempo_change_name(mutator->last, name, sizeof name);
#endif

    if (mutator->is_spliced) {
        snprintf(mutator->text, sizeof mutator->text, "op:teddertempo,splice");
    } else {
        snprintf(mutator->text, sizeof mutator->text, "op:teddertempo,%.*s,count:%llu", (int)(size < sizeof name ? size : sizeof name), name,
                 (unsigned long long)mutator->count);
    }
    return strlen(mutator->text) <= max_description_len ? mutator->text : NULL;
}
