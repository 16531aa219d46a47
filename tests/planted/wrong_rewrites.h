// The wrong rewrites that are planted in the optimizer of binaryen 108, to compare tools that look for miscompilations. The build
// copies this file to src/passes/planted.h, and the patch calls it.
//
// The variable PLANTED switches one of them on by its name. Where it is unset or empty, the optimizer is the original; where it
// names none, the process ends with 64. At the end of the process, a line with the name and how often the rewrite was made is
// added to the file that the variable PLANTED_HITS names, unless it was never made. A process that aborts adds none.
#ifndef wasm_passes_planted_h
#define wasm_passes_planted_h

#include <atomic>
#include <cstdio>
#include <cstdlib>
#include <cstring>

namespace planted {

// One row each: its name, its group, and what is wrong. A script may read the rows, so each is on one line.
#define WRONG(name, group, sentence) name,
inline constexpr const char* names[] = {
// OptimizeInstructions
WRONG("mask_superfluous", "integers", "A mask of the low bits is dropped though the value may have one bit more than the mask.")
WRONG("extension_superfluous", "integers", "A sign extension is dropped though the value may have the bit that is the sign.")
WRONG("joined_in_comparison", "integers", "In a signed comparison of x + A with B, x is compared with B - A though x + A may overflow.")
WRONG("odd_remainder", "integers", "A signed remainder by a power of two that is compared with a positive constant becomes a mask though x may be negative.")
WRONG("range_unsigned", "integers", "x >= 0 and x < y become one unsigned comparison of x with y though y may be negative.")
WRONG("shifts_joined", "integers", "An arithmetic shift to the right by a constant and then a logical one become one logical shift though x may be negative.")
WRONG("plus_zero", "floats", "x + 0 becomes x though x may be -0.")
WRONG("negated_comparison", "floats", "A negated comparison of floats becomes the opposite comparison though an operand may be NaN.")
WRONG("reciprocal", "floats", "A division by a constant becomes a multiplication by its reciprocal though the reciprocal is rounded.")
WRONG("offset_wraps", "memory", "A constant that is added to an address moves into the offset of the load or store though the sum may wrap.")
WRONG("signed_load_in_tee", "memory", "A load of 8 or 16 bits becomes signed for a sign extension though a local keeps the unsigned value for other uses.")
// SimplifyLocals
WRONG("load_over_store", "memory", "A load moves over a store that has another address but an offset apart from its own, though both may be one place.")
// CodeFolding, from -O3
WRONG("folded_stores", "memory", "Two stores at the ends of two arms become one though their offsets differ.")
// RemoveUnusedBrs
WRONG("guarded_trap", "control", "An if becomes a select though an arm that is now always computed may trap.")
WRONG("value_before_condition", "control", "An if with a branch that has a value becomes a br_if though the condition changes what the value reads.")
// Precompute, from -O3
WRONG("initial_zero", "control", "A local is taken for the constant that its sets agree on though its initial zero may reach the place too.")
// OptimizeInstructions
WRONG("constant_arm", "control", "A test of 64 bits for zero moves out of one arm of an if or select, and the constant in the other arm isn't inverted.")
// SimplifyGlobals
WRONG("set_before_indirect_call", "control", "A set of a global is dropped as a later one follows though a function called indirectly between them may read it.")
};
#undef WRONG

inline std::atomic<unsigned long> hits{0};

inline void report();

inline const char* choose() {
  const char* name = std::getenv("PLANTED");
  if (!name || !*name) {
    return nullptr;
  }
  for (const char* known : names) {
    if (!std::strcmp(name, known)) {
      std::atexit(report);
      return known;
    }
  }
  std::fprintf(stderr, "PLANTED: there is no wrong rewrite %s\n", name);
  std::_Exit(64);
}

// The name of the one that is switched on, read when the process starts, or nullptr.
inline const char* const chosen = choose();

inline void report() {
  const char* path = std::getenv("PLANTED_HITS");
  unsigned long count = hits.load();
  if (!path || !*path || !count) {
    return;
  }
  std::FILE* file = std::fopen(path, "a");
  if (!file) {
    std::perror(path);
    return;
  }
  std::fprintf(file, "%s %lu\n", chosen, count);
  std::fclose(file);
}

// Whether this one is switched on.
inline bool is(const char* name) { return chosen && !std::strcmp(chosen, name); }

// Counts one wrong rewrite. Always true, so that it can end a condition. Passes run in threads.
inline bool hit() {
  hits.fetch_add(1, std::memory_order_relaxed);
  return true;
}

} // namespace planted

#endif // wasm_passes_planted_h
