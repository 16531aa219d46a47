/*
 * Teddertempo 0.4.0: rewrites instructions of a WebAssembly module so that it behaves as before, or changes them so that the module stays
 * valid and computes something else.
 *
 * Link libteddertempo.a (pkg-config --cflags --libs teddertempo), or load libteddertempo.so.1, which has the same calls.
 *
 * It is proved that every call keeps a valid module valid, by types. It is also proved that each readable function of a rewritten module,
 * called with any arguments in any memory, tables and globals, behaves as before. Nothing is promised about what a changed module
 * computes, or that it ends (teddertempo_change, teddertempo_change_with, teddertempo_change_at, teddertempo_splice, and
 * teddertempo_either when it changes). No call checks whether the module is valid to begin with.
 *
 * If an engine shows a difference between a module and a rewritten one, the engine is wrong, except for what docs/PROMISES.md of the
 * sources lists: a host that lists globals, counts them or compares bytes; limits of stack, time, fuel and memory, which one of the modules
 * alone may reach (a trap of exhaustion is no difference); bits of NaNs, unless the engine fixes them; other threads at a shared memory;
 * imports that return something else at each call, as a clock; exceptions that are caught. A rewrite may append globals, so that many
 * rewrites may exceed an engine's limits.
 *
 * The caller ensures that
 *   - data points to max_size bytes, fewer than 2^63, that may be read and written, other to other_size bytes, fewer than 2^63, and the
 *     other pointers to what their types say, valid and aligned; none is null, even if max_size, other_size, room or length is 0, and no
 *     two of them overlap;
 *   - nothing else reads or writes these during the call.
 *
 * No state is kept between calls, and any thread may call on buffers of its own. A call takes memory from malloc and realloc, and has
 * returned all of it with free when it ends. It is not called from a signal handler, or in the forked child of a process with several
 * threads.
 */
#ifndef TEDDERTEMPO_H
#define TEDDERTEMPO_H

#include <stddef.h>
#include <stdint.h>

#ifdef __cplusplus
extern "C" {
#endif

#define TEDDERTEMPO_VERSION "0.4.0"
#define TEDDERTEMPO_VERSION_NUMBER 0x000400u

/*
 * The simple call, with the arguments of libFuzzer's LLVMFuzzerCustomMutator: rewrites the module in data[0..size] once, in place, by
 * any rule in any function. Returns the new size, at most max_size. If nothing is rewritten, it returns 0 and leaves data unchanged.
 * Bytes of data after the new module stay unchanged.
 */
size_t teddertempo_rewrite(uint8_t *data, size_t size, size_t max_size, uint64_t seed);

/* Another name of teddertempo_rewrite, for users of libFuzzer. */
size_t teddertempo_mutate(uint8_t *data, size_t size, size_t max_size, uint64_t seed);

/*
 * The same arguments, for a fuzzer that goes by coverage: changes the module in data[0..size] once, in place, so that it stays valid and
 * computes something else. The seed chooses the function by its size, then the change (see TEDDERTEMPO_CHANGE_CONSTANT and the others
 * below) and the operator. A valid module stays valid, as above; nothing is promised about what the new module computes. Returns the new
 * size, at most max_size. It returns 0 and leaves data unchanged if size is above max_size, if the bytes are no module that can be read or
 * an object file, if nothing that the seed draws can be changed so that it fits, or if no memory is left.
 */
size_t teddertempo_change(uint8_t *data, size_t size, size_t max_size, uint64_t seed);

/*
 * Either of these, for a fuzzer that compares engines and goes by coverage at once: of a hundred seeds some keep rewrite the module as
 * teddertempo_rewrite does (all if keep is 100 or more), the others change it as teddertempo_change does. Returns what these do.
 */
size_t teddertempo_either(uint8_t *data, size_t size, size_t max_size, uint64_t seed, uint32_t keep);

/*
 * Copies code of another module, for a fuzzer's cross-over: an operator of the module in other[0..other_size], with its operands,
 * replaces such code in the module in data[0..size]. Both produce a value of the same type, or both none. The copied code contains no
 * loads, stores or calls and has at most 100 instructions. Locals and globals keep their indices, so code is copied only if they have the
 * same types in the receiving function. The seed chooses the code and the place. A valid module stays valid; nothing is promised about
 * what the new module computes. Returns the new size, at most max_size. It returns 0 and leaves data unchanged for a reason of
 * teddertempo_change, or if other is no module that can be read, or if none of the code that the seed draws fits.
 */
size_t teddertempo_splice(uint8_t *data, size_t size, size_t max_size, const uint8_t *other, size_t other_size, uint64_t seed);

/* What a call has done, or why it has done nothing. */
enum {
    TEDDERTEMPO_DONE = 0,            /* the module is rewritten or changed, or its sites are listed */
    TEDDERTEMPO_NOT_A_MODULE = 1,    /* the bytes are no module that can be read; report->offset is the offset of the fault */
    TEDDERTEMPO_LINKABLE_OBJECT = 2, /* an object file, whose relocations name places in its code */
    TEDDERTEMPO_UNREADABLE = 3,      /* none of the functions that may be rewritten can be read */
    TEDDERTEMPO_NOTHING_APPLIES = 4, /* no rule or change applies in them, or the module has no function of its own */
    TEDDERTEMPO_NO_FUNCTION = 5,     /* the module has no function of its own with that index, or an import isn't known */
    TEDDERTEMPO_TOO_LARGE = 6,       /* no edit that was tried fits, or, with TEDDERTEMPO_SHRINK, makes the module smaller */
    TEDDERTEMPO_NO_MEMORY = 7,       /* malloc failed */
    TEDDERTEMPO_BAD_OPTIONS = 8      /* size is above max_size, or the options are refused: see below */
};

/*
 * The structures. One that is all zero means the defaults, so a caller sets only what differs:
 *
 *     struct teddertempo_options options = TEDDERTEMPO_OPTIONS_INIT;
 *     options.seed = 7;
 *
 * Options and a place are refused with TEDDERTEMPO_BAD_OPTIONS, and nothing is done, if a bit is set in rules, changes or flags that this
 * version doesn't define, also beside bits that it defines; if growth isn't 0 beside TEDDERTEMPO_NO_GROWTH; if a reserved word isn't 0;
 * or if a place has no change's number. Fields of later versions take the place of reserved words, and are 0 by default. So a program
 * runs with the library of a later version as before, and an option that the library doesn't know is refused and not ignored.
 *
 * A report is written whole and never read. Its reserved words are written as 0.
 */
#define TEDDERTEMPO_OPTIONS_INIT {0, {0}, 0, 0, 0, 0, 0, {0}}
#define TEDDERTEMPO_CHANGE_OPTIONS_INIT {0, 0, 0, 0, 0, 0, {0}}
#define TEDDERTEMPO_PLACE_INIT {0, 0, 0, 0, 0, 0, {0}}
#define TEDDERTEMPO_REPORT_INIT {0, 0, 0, 0, 0, {0}}

/* The value of only for the function with the index n among all functions of the module, imported ones first. */
#define TEDDERTEMPO_ONLY(n) ((uint64_t)(n) + 1)

/*
 * Flag of a call that rewrites: rules on floats, vectors and memories rewrite too. The new module behaves as before in every engine that
 * implements these as the standard specifies, and if no other thread writes the module's memories. A tester of engines sets it.
 */
#define TEDDERTEMPO_EXACT UINT64_C(1)

/*
 * Flag of a call that rewrites: each rewrite makes the module smaller. It leaves no more operators, and fewer bytes, or as many that come
 * earlier in the dictionary. If no rewrite that the seed draws does, the outcome is TEDDERTEMPO_TOO_LARGE or TEDDERTEMPO_NOTHING_APPLIES.
 */
#define TEDDERTEMPO_SHRINK UINT64_C(2)

/* Flag of every call with flags: the new module is no larger than the old one. */
#define TEDDERTEMPO_NO_GROWTH UINT64_C(4)

struct teddertempo_options {
    uint64_t seed;        /* equal modules, options and max_size give equal bytes; default 0, a seed like others */
    uint64_t rules[16];   /* the rules that may rewrite: bit i % 64 of rules[i / 64] is rule i; default all zero: every rule */
    uint64_t only;        /* TEDDERTEMPO_ONLY(n): only function n is rewritten; default 0: any function */
    uint64_t count;       /* at most so many consecutive rewrites, each of which takes time; default 0: one */
    uint64_t growth;      /* the new module has at most so many bytes more than the old one; default 0: only max_size limits it */
    uint64_t percent;     /* if it isn't 0, it replaces count: at most as many rewrites as this percentage of the operators, each end
                             counted, of the functions that may be rewritten and can be read, rounded down, at least 1; default 0 */
    uint64_t flags;       /* TEDDERTEMPO_EXACT, TEDDERTEMPO_SHRINK, TEDDERTEMPO_NO_GROWTH; default 0: none of them */
    uint64_t reserved[8]; /* 0 */
};

struct teddertempo_report {
    uint32_t outcome;     /* one of the values above */
    uint32_t kind;        /* the number of the rule or change of the last edit; 0 if none was made, which is a rule too: see made */
    uint64_t function;    /* the function of the last edit, imported ones counted first; 0 if none was made */
    uint64_t made;        /* how many edits were made: fewer than asked for if nothing applies any more, or nothing fits */
    uint64_t offset;      /* the offset of the module's fault, if it is no module or an object file; else 0 */
    uint64_t reserved[8]; /* written as 0 */
};

/* As teddertempo_rewrite, by options, and with a report. */
size_t teddertempo_rewrite_with(uint8_t *data, size_t size, size_t max_size, const struct teddertempo_options *options,
                                struct teddertempo_report *report);

/* The changes, by number. A value is an operator with its operands; a statement is code that pushes no value. */
enum {
    TEDDERTEMPO_CHANGE_CONSTANT = 0,             /* a constant becomes another constant of the same type */
    TEDDERTEMPO_CHANGE_OPERATOR = 1,             /* an operator becomes another operator of the same types */
    TEDDERTEMPO_CHANGE_LOCAL = 2,                /* an access to a local becomes an access to another local of the same type */
    TEDDERTEMPO_CHANGE_DRAW = 3,                 /* a value is drawn anew: a constant, a local, a global, or operators on such */
    TEDDERTEMPO_CHANGE_COPY = 4,                 /* a value, or a statement, becomes a copy of another one */
    TEDDERTEMPO_CHANGE_FIRST_OPERAND = 5,        /* the first of two operands replaces the value */
    TEDDERTEMPO_CHANGE_LAST_OPERAND = 6,         /* the only operand, or the second one, replaces the value */
    TEDDERTEMPO_CHANGE_EXCHANGE_OPERANDS = 7,    /* two operands of the same type are exchanged */
    TEDDERTEMPO_CHANGE_DELETE = 8,               /* a statement is deleted */
    TEDDERTEMPO_CHANGE_DOUBLE = 9,               /* a statement is doubled */
    TEDDERTEMPO_CHANGE_EXCHANGE_STATEMENTS = 10, /* a statement is exchanged with the one right before it */
    TEDDERTEMPO_CHANGE_GLOBAL = 11,              /* a global that is read becomes another global of the same type */
    TEDDERTEMPO_CHANGE_CALL = 12,                /* a function that is called becomes another function of the same type */
    TEDDERTEMPO_CHANGE_MEMORY_ARGUMENT = 13      /* a load or a store gets another offset, and an alignment that is no greater */
};

struct teddertempo_change_options {
    uint64_t seed;        /* equal modules, options and max_size give equal bytes; default 0, a seed like others */
    uint64_t changes;     /* the changes that may be made: bit i is the change with the number i; default 0: every change */
    uint64_t only;        /* TEDDERTEMPO_ONLY(n): only function n is changed; default 0: any function */
    uint64_t count;       /* at most so many consecutive changes, each of which takes time; default 0: one */
    uint64_t growth;      /* the new module has at most so many bytes more than the old one; default 0: only max_size limits it */
    uint64_t flags;       /* TEDDERTEMPO_NO_GROWTH; default 0: not set */
    uint64_t reserved[8]; /* 0 */
};

/*
 * As teddertempo_change, by options, and with a report, whose kind is the number of the last change. TEDDERTEMPO_NOTHING_APPLIES: nothing
 * that the seed draws in the functions that may be changed and can be read can be changed. TEDDERTEMPO_UNREADABLE is never reported.
 */
size_t teddertempo_change_with(uint8_t *data, size_t size, size_t max_size, const struct teddertempo_change_options *options,
                               struct teddertempo_report *report);

/* Operators of a function, and a change. */
struct teddertempo_place {
    uint64_t change;      /* the number of the change; default 0: TEDDERTEMPO_CHANGE_CONSTANT */
    uint64_t function;    /* the function's index, imported ones counted first; default 0 */
    uint64_t first;       /* the first operator of its body, counted from 0, ends of blocks too; default 0 */
    uint64_t end;         /* the operator after the last one, or any number after the last of the body; default 0: to the last one */
    uint64_t growth;      /* the new module has at most so many bytes more than the old one; default 0: only max_size limits it */
    uint64_t flags;       /* TEDDERTEMPO_NO_GROWTH; default 0: not set */
    uint64_t reserved[8]; /* 0 */
};

/*
 * Makes that change at each of these operators at which it applies, from the last one to the first one, without a seed: for a reducer, a
 * trimmer, or a list of all changes. Code that is replaced isn't looked at again. A value that is drawn becomes the constant 0 (or 1, if
 * it is that constant already), a local, a global or a function becomes the one with the index 0, and nothing is copied. Reports as
 * teddertempo_change_with does. If the change applies at none of these operators, as in an empty range, the outcome is
 * TEDDERTEMPO_NOTHING_APPLIES. Each change takes time linear in the module.
 */
size_t teddertempo_change_at(uint8_t *data, size_t size, size_t max_size, const struct teddertempo_place *place,
                             struct teddertempo_report *report);

/* An operator at which teddertempo_change_at can make a change, and the change. The structure never grows. */
struct teddertempo_site {
    uint64_t function;       /* the function's index, imported ones counted first */
    uint64_t operator_index; /* the operator of its body, counted from 0 */
    uint64_t change;         /* the number of the change */
};

/*
 * Lists the places at which teddertempo_change_at can make a change. Of the options only changes and only are used; all are checked. The
 * places are sorted by function, then by operator, then by change. Writes the first room of them to sites, and returns how many there
 * are. If they are listed, the outcome is TEDDERTEMPO_DONE, also if there are none, and report->made is how many there are. Otherwise the
 * result is 0, sites is unchanged, and the report has the reason. It takes time linear in the module for each change (n log n for the
 * two exchanges).
 */
size_t teddertempo_sites(const uint8_t *data, size_t size, const struct teddertempo_change_options *options,
                         struct teddertempo_site *sites, size_t room, struct teddertempo_report *report);

/*
 * Drops the custom sections that name places in the code (.debug_*, sourceMappingURL, external_debug_info, metadata.code.*), which are
 * wrong once the module is rewritten. Returns the new size, which is no larger. It returns 0 and leaves data unchanged if the bytes aren't
 * a preamble and whole sections in order, if they are an object file, or if no memory is left. Nothing else of the module is read.
 */
size_t teddertempo_strip(uint8_t *data, size_t size);

/* The version as a number, 0x000400 for 0.4.0. */
uint32_t teddertempo_version(void);

/* How many rules there are: their numbers are those below it. */
uint64_t teddertempo_rule_count(void);

/*
 * Writes the name of a rule, without a NUL after it, to at most room bytes, and returns the length of the name. It returns 0 if there is no
 * such rule.
 */
size_t teddertempo_rule_name(uint32_t rule, char *name, size_t room);

/* The same for a change, by the numbers above. */
size_t teddertempo_change_name(uint32_t change, char *name, size_t room);

#define TEDDERTEMPO_NO_SUCH_RULE UINT64_MAX

/* The number of the rule with a name of length bytes; TEDDERTEMPO_NO_SUCH_RULE if no rule has the name. */
uint64_t teddertempo_rule_number(const char *name, size_t length);

#ifdef __cplusplus
}
#endif

#endif
