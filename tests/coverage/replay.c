/*
 * Runs the target on each file of a folder, in the order of their names, and writes which edges of wabt that covers:
 *
 *     replay FOLDER EDGES
 *
 * EDGES gets a line for each edge that the build has: its address, 1 where a file covered it, and 1 where one did that is a valid module.
 * Prints for each file its name and how far the target came: bytes, read, valid, or run.
 */
#define _POSIX_C_SOURCE 200809L

#include "counts.h"

#include <dirent.h>
#include <inttypes.h>
#include <stdio.h>
#include <stdlib.h>
#include <string.h>

int LLVMFuzzerInitialize(int *argc, char ***argv);
int LLVMFuzzerTestOneInput(const uint8_t *data, size_t size);

/* What code that is compiled with -fsanitize=fuzzer-no-link calls and reads. */
void __sanitizer_cov_8bit_counters_init(uint8_t *begin, uint8_t *end);
void __sanitizer_cov_pcs_init(const uintptr_t *begin, const uintptr_t *end);
void __sanitizer_cov_trace_pc_indir(uintptr_t callee);
void __sanitizer_cov_trace_cmp1(uint8_t left, uint8_t right);
void __sanitizer_cov_trace_cmp2(uint16_t left, uint16_t right);
void __sanitizer_cov_trace_cmp4(uint32_t left, uint32_t right);
void __sanitizer_cov_trace_cmp8(uint64_t left, uint64_t right);
void __sanitizer_cov_trace_const_cmp1(uint8_t left, uint8_t right);
void __sanitizer_cov_trace_const_cmp2(uint16_t left, uint16_t right);
void __sanitizer_cov_trace_const_cmp4(uint32_t left, uint32_t right);
void __sanitizer_cov_trace_const_cmp8(uint64_t left, uint64_t right);
void __sanitizer_cov_trace_switch(uint64_t value, uint64_t *cases);
__thread uintptr_t __sancov_lowest_stack;

static uint8_t *counters; /* each counts modulo 256, so that they are looked at behind each file, as libFuzzer does */
static size_t counters_size;
static uint8_t *covered; /* by a file: 1, and by one that is a valid module: 3 */
static const uintptr_t *edges; /* two words of each: its address, and whether it begins a function */
static size_t edges_size;

void __sanitizer_cov_8bit_counters_init(uint8_t *begin, uint8_t *end)
{
    counters = begin;
    counters_size = (size_t)(end - begin);
}

void __sanitizer_cov_pcs_init(const uintptr_t *begin, const uintptr_t *end)
{
    edges = begin;
    edges_size = (size_t)(end - begin) / 2;
}

void __sanitizer_cov_trace_pc_indir(uintptr_t callee) { (void)callee; }
void __sanitizer_cov_trace_cmp1(uint8_t left, uint8_t right) { (void)left, (void)right; }
void __sanitizer_cov_trace_cmp2(uint16_t left, uint16_t right) { (void)left, (void)right; }
void __sanitizer_cov_trace_cmp4(uint32_t left, uint32_t right) { (void)left, (void)right; }
void __sanitizer_cov_trace_cmp8(uint64_t left, uint64_t right) { (void)left, (void)right; }
void __sanitizer_cov_trace_const_cmp1(uint8_t left, uint8_t right) { (void)left, (void)right; }
void __sanitizer_cov_trace_const_cmp2(uint16_t left, uint16_t right) { (void)left, (void)right; }
void __sanitizer_cov_trace_const_cmp4(uint32_t left, uint32_t right) { (void)left, (void)right; }
void __sanitizer_cov_trace_const_cmp8(uint64_t left, uint64_t right) { (void)left, (void)right; }
void __sanitizer_cov_trace_switch(uint64_t value, uint64_t *cases) { (void)value, (void)cases; }

static void run_file(const char *folder, const char *name)
{
    static uint8_t data[1 << 20];
    struct counts before = *counts;
    char path[4096];
    FILE *file;
    size_t size, edge;

    snprintf(path, sizeof path, "%s/%s", folder, name);
    file = fopen(path, "rb");
    if (file == NULL) {
        perror(path);
        exit(1);
    }
    size = fread(data, 1, sizeof data, file);
    fclose(file);
    memset(counters, 0, counters_size);
    LLVMFuzzerTestOneInput(data, size);
    for (edge = 0; edge < counters_size; edge++) {
        if (counters[edge] != 0) {
            covered[edge] |= counts->valid != before.valid ? 3 : 1;
        }
    }
    printf("%s %s\n", name,
           counts->instantiated != before.instantiated ? "run"
           : counts->valid != before.valid             ? "valid"
           : counts->read != before.read               ? "read"
                                                       : "bytes");
    fflush(stdout);
}

int main(int argc, char **argv)
{
    struct dirent **names;
    FILE *file;
    int found, i;
    size_t edge;

    if (argc != 3) {
        fprintf(stderr, "usage: replay FOLDER EDGES\n");
        return 64;
    }
    LLVMFuzzerInitialize(&argc, &argv);
    found = scandir(argv[1], &names, NULL, alphasort);
    if (found < 0) {
        perror(argv[1]);
        return 1;
    }
    covered = calloc(counters_size, 1);
    if (covered == NULL) {
        perror("replay");
        return 1;
    }
    for (i = 0; i < found; i++) {
        if (names[i]->d_name[0] != '.') {
            run_file(argv[1], names[i]->d_name);
        }
    }
    if (counters_size != edges_size) {
        fprintf(stderr, "replay: %zu counters of %zu edges\n", counters_size, edges_size);
        return 1;
    }
    file = fopen(argv[2], "w");
    if (file == NULL) {
        perror(argv[2]);
        return 1;
    }
    for (edge = 0; edge < edges_size; edge++) {
        fprintf(file, "%" PRIxPTR " %d %d\n", edges[2 * edge], covered[edge] & 1, covered[edge] >> 1);
    }
    return fclose(file) == 0 ? 0 : 1;
}
