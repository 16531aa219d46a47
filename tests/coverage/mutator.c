/*
 * A mutator that is the library's alone, which keeps the meaning with -DKEEP and else changes it: where it makes nothing of an input, that
 * stays as it is. With -DMIX it is that of examples/c/fuzz.c: half the calls are libFuzzer's own mutators', and so are those in which
 * the library makes nothing.
 */
#include <teddertempo.h>

#include "counts.h"

#ifdef KEEP
#define MUTATE teddertempo_rewrite
#else
#define MUTATE teddertempo_change
#endif

size_t LLVMFuzzerMutate(uint8_t *data, size_t size, size_t max_size);
size_t LLVMFuzzerCustomMutator(uint8_t *data, size_t size, size_t max_size, unsigned int seed);
size_t LLVMFuzzerCustomCrossOver(const uint8_t *data1, size_t size1, const uint8_t *data2, size_t size2, uint8_t *out,
                                 size_t max_out_size, unsigned int seed);

/* Nothing is crossed: libFuzzer takes the mutator below. */
size_t LLVMFuzzerCustomCrossOver(const uint8_t *data1, size_t size1, const uint8_t *data2, size_t size2, uint8_t *out,
                                 size_t max_out_size, unsigned int seed)
{
    (void)data1, (void)size1, (void)data2, (void)size2, (void)out, (void)max_out_size, (void)seed;
    return 0;
}

/* What is made of an input of which the library makes nothing. */
static size_t otherwise(uint8_t *data, size_t size, size_t max_size)
{
    counts->not_made++;
#ifdef MIX
    return LLVMFuzzerMutate(data, size, max_size);
#else
    (void)data, (void)max_size;
    return size;
#endif
}

size_t LLVMFuzzerCustomMutator(uint8_t *data, size_t size, size_t max_size, unsigned int seed)
{
    size_t new_size;

    counts->asked++;
#ifdef MIX
    if (seed % 2 == 0) {
        counts->by_bytes++;
        return LLVMFuzzerMutate(data, size, max_size);
    }
    seed /= 2;
#endif
    new_size = MUTATE(data, size, max_size, seed);
    return new_size != 0 ? new_size : otherwise(data, size, max_size);
}
