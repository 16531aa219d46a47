/*
 * A fuzz target for libFuzzer whose mutator changes modules so that they stay valid, and leaves other bytes to libFuzzer's own, and
 * modules too, every second time: so more is covered than by either alone, since no valid module reaches what tells faults. Its
 * cross-over takes code of a second module.
 *
 *     clang -fsanitize=fuzzer fuzz.c $(pkg-config --cflags --libs teddertempo) -o fuzz && ./fuzz CORPUS
 *
 * With -DKEEP it rewrites each so that it does what it did, for a target that compares what two engines give.
 */
#include <teddertempo.h>

#include <string.h>

size_t LLVMFuzzerMutate(uint8_t *data, size_t size, size_t max_size);
size_t LLVMFuzzerCustomMutator(uint8_t *data, size_t size, size_t max_size, unsigned int seed);
size_t LLVMFuzzerCustomCrossOver(const uint8_t *data1, size_t size1, const uint8_t *data2, size_t size2, uint8_t *out,
                                 size_t max_out_size, unsigned int seed);
int LLVMFuzzerTestOneInput(const uint8_t *data, size_t size);

/* A module begins with these bytes, the magic and the version. */
static const uint8_t preamble[8] = {0x00, 0x61, 0x73, 0x6d, 0x01, 0x00, 0x00, 0x00};

static int begins_as_module(const uint8_t *data, size_t size)
{
    return size >= sizeof preamble && memcmp(data, preamble, sizeof preamble) == 0;
}

/* What the library makes of the module, or 0. */
static size_t made(uint8_t *data, size_t size, size_t max_size, unsigned int seed)
{
#ifdef KEEP
    return teddertempo_mutate(data, size, max_size, seed);
#else
    return seed % 2 == 0 ? 0 : teddertempo_change(data, size, max_size, seed / 2);
#endif
}

/* What is no module, and a module of which nothing is made, libFuzzer changes as it would any bytes. */
size_t LLVMFuzzerCustomMutator(uint8_t *data, size_t size, size_t max_size, unsigned int seed)
{
    size_t new_size = made(data, size, max_size, seed);

    return new_size != 0 ? new_size : LLVMFuzzerMutate(data, size, max_size);
}

/*
 * Code of one module comes into another: libFuzzer draws this as often as the mutator above. Where this returns 0 it draws anew. With
 * KEEP nothing is crossed. A part of one module with a part of another behind it is no module; LLVMFuzzerMutate makes such bytes.
 */
size_t LLVMFuzzerCustomCrossOver(const uint8_t *data1, size_t size1, const uint8_t *data2, size_t size2, uint8_t *out,
                                 size_t max_out_size, unsigned int seed)
{
#ifdef KEEP
    (void)data1, (void)size1, (void)data2, (void)size2, (void)out, (void)max_out_size, (void)seed;
    return 0;
#else
    if (size1 > max_out_size) {
        return 0;
    }
    memcpy(out, data1, size1);
    return teddertempo_splice(out, size1, max_out_size, data2, size2, seed);
#endif
}

int LLVMFuzzerTestOneInput(const uint8_t *data, size_t size)
{
    if (!begins_as_module(data, size)) {
        return 0;
    }
    /* Here an engine reads the module and runs it, and what it gives is compared with what another engine gives. */
    return 0;
}
