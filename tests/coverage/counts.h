/* What the runs of a fuzzer count, in a file that outlives its process, which COVERAGE_COUNTS names. */
#ifndef COVERAGE_COUNTS_H
#define COVERAGE_COUNTS_H

#include <stdint.h>

#ifdef __cplusplus
extern "C" {
#endif

/* Each is how often the comment was true. report.py has the names in the same order. */
struct counts {
    uint64_t runs;         /* the target was run, on any bytes but none */
    uint64_t read;         /* the reader took the bytes for a module */
    uint64_t valid;        /* the validator accepted that */
    uint64_t large;        /* a valid module wants more memory, or longer tables, than the target gives */
    uint64_t instantiated; /* a valid module was instantiated */
    uint64_t called;       /* an exported function was called */
    uint64_t returned;     /* a call returned */
    uint64_t cut_off;      /* a call came to its limit of instructions */
    uint64_t asked;        /* a custom mutator was asked for an input */
    uint64_t by_bytes;     /* it left that to libFuzzer's own mutators by a coin */
    uint64_t not_made;     /* teddertempo_change, or teddertempo_rewrite, made none */
};

extern struct counts *counts;

#ifdef __cplusplus
}
#endif

#endif
