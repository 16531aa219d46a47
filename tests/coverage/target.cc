/*
 * A fuzz target of wabt 1.0.32: reads and validates the input as wasm-validate does, and then reads, instantiates and runs what is valid
 * as `wasm-interp --run-all-exports` does, with these differences:
 *   - every feature is on, but for typed function references and garbage collection, of which that version has a beginning, whose
 *     assertions fail;
 *   - imports are there: functions that give zeros, globals of zero, memories and tables;
 *   - functions with parameters are called too, with zeros;
 *   - a call ends after so many instructions, and memories and tables stay small.
 */
#include "counts.h"

#include <wabt/binary-reader-ir.h>
#include <wabt/binary-reader.h>
#include <wabt/error.h>
#include <wabt/interp/binary-reader-interp.h>
#include <wabt/interp/interp.h>
#include <wabt/ir.h>
#include <wabt/validator.h>

#include <fcntl.h>
#include <stdio.h>
#include <stdlib.h>
#include <sys/mman.h>
#include <unistd.h>

namespace wabt {
namespace interp {
extern long steps_left; /* of steps.patch */
}
}

using namespace wabt::interp;

extern "C" int LLVMFuzzerInitialize(int *argc, char ***argv);
extern "C" int LLVMFuzzerTestOneInput(const uint8_t *data, size_t size);

static const long most_steps = 5000;
static const uint64_t most_pages = 32;
static const uint64_t most_elements = 10000;
static const size_t most_calls = 100;

static struct counts no_counts;
struct counts *counts = &no_counts;

/* Maps the file of the counts, to which this process adds. */
int LLVMFuzzerInitialize(int *argc, char ***argv)
{
    const char *name = getenv("COVERAGE_COUNTS");
    int file;
    void *mapped;

    (void)argc, (void)argv;
    if (name == NULL) {
        return 0;
    }
    file = open(name, O_RDWR | O_CREAT, 0644);
    if (file < 0 || ftruncate(file, sizeof no_counts) != 0) {
        perror(name);
        exit(1);
    }
    mapped = mmap(NULL, sizeof no_counts, PROT_READ | PROT_WRITE, MAP_SHARED, file, 0);
    if (mapped == MAP_FAILED) {
        perror(name);
        exit(1);
    }
    close(file);
    counts = static_cast<struct counts *>(mapped);
    return 0;
}

/* Lowers what a memory or a table may grow to; false where it begins with more. */
static bool bound(wabt::Limits &limits, uint64_t most)
{
    if (limits.initial > most) {
        return false;
    }
    if (!limits.has_max || limits.max > most) {
        limits.max = most;
    }
    return true;
}

static bool bound_type(ExternType *type)
{
    if (auto *memory = wabt::dyn_cast<MemoryType>(type)) {
        return bound(memory->limits, most_pages);
    }
    if (auto *table = wabt::dyn_cast<TableType>(type)) {
        return bound(table->limits, most_elements);
    }
    return true;
}

static bool bound_module(ModuleDesc &module)
{
    for (auto &import : module.imports) {
        if (!bound_type(import.type.type.get())) {
            return false;
        }
    }
    for (auto &memory : module.memories) {
        if (!bound_type(&memory.type)) {
            return false;
        }
    }
    for (auto &table : module.tables) {
        if (!bound_type(&table.type)) {
            return false;
        }
    }
    return true;
}

/* What an import gets: a function gives zeros, for the results are zeros before it is called. */
static Ref stub(Store &store, ExternType *type)
{
    if (auto *function = wabt::dyn_cast<FuncType>(type)) {
        return HostFunc::New(store, *function, [](Thread &, const Values &, Values &, Trap::Ptr *) { return wabt::Result::Ok; }).ref();
    }
    if (auto *table = wabt::dyn_cast<TableType>(type)) {
        return Table::New(store, *table).ref();
    }
    if (auto *memory = wabt::dyn_cast<MemoryType>(type)) {
        return Memory::New(store, *memory).ref();
    }
    if (auto *global = wabt::dyn_cast<GlobalType>(type)) {
        return Global::New(store, *global, Value()).ref();
    }
    return Tag::New(store, *wabt::cast<TagType>(type)).ref();
}

static bool validate(const uint8_t *data, size_t size, const wabt::Features &features)
{
    wabt::ReadBinaryOptions options(features, nullptr, true, true, true);
    wabt::Errors errors;
    wabt::Module module;

    if (wabt::Failed(wabt::ReadBinaryIr("input", data, size, options, &errors, &module))) {
        return false;
    }
    counts->read++;
    return wabt::Succeeded(wabt::ValidateModule(&module, &errors, wabt::ValidateOptions(features)));
}

static void call(Store &store, const Func::Ptr &func)
{
    Values params(func->type().params.size());
    Values results;
    Trap::Ptr trap;

    steps_left = most_steps;
    counts->called++;
    if (wabt::Succeeded(func->Call(store, params, results, &trap))) {
        counts->returned++;
    } else if (steps_left <= 0) {
        counts->cut_off++;
    }
}

static void run(const uint8_t *data, size_t size, const wabt::Features &features)
{
    wabt::ReadBinaryOptions options(features, nullptr, true, true, true);
    wabt::Errors errors;
    ModuleDesc desc;
    RefVec imports;
    Trap::Ptr trap;
    size_t calls = 0;

    if (wabt::Failed(ReadBinaryInterp("input", data, size, options, &errors, &desc))) {
        return;
    }
    if (!bound_module(desc)) {
        counts->large++;
        return;
    }
    Store store(features);
    Module::Ptr module = Module::New(store, desc);
    for (auto &import : module->desc().imports) {
        imports.push_back(stub(store, import.type.type.get()));
    }
    steps_left = most_steps;
    Instance::Ptr instance = Instance::Instantiate(store, module.ref(), imports, &trap);
    if (!instance) {
        return;
    }
    counts->instantiated++;
    for (auto &exported : module->desc().exports) {
        if (exported.type.type->kind == wabt::ExternalKind::Func && calls < most_calls) {
            call(store, store.UnsafeGet<Func>(instance->funcs()[exported.index]));
            calls++;
        }
    }
}

int LLVMFuzzerTestOneInput(const uint8_t *data, size_t size)
{
    wabt::Features features;

    if (size == 0) {
        return 0;
    }
    features.EnableAll();
    features.disable_function_references();
    features.disable_gc();
    counts->runs++;
    if (validate(data, size, features)) {
        counts->valid++;
        run(data, size, features);
    }
    return 0;
}
