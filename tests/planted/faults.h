// The 48 planted faults: miscompilations such as real engines had, for a test of what finds them.
//
// The build script copies this file to src/interp/planted.h of wabt 1.0.32, and interpreter.patch adds the calls into it.
// The environment variable PLANTED switches on the one fault that it names; without it nothing differs.
// The environment variable PLANTED_HITS names a file, to which a line `NAME COUNT` is added at the end of the
// process: how often the fault changed a value, a branch, a call or the memory. Where it never did, there is no line.
//
// A fault is on one operator, or on one that follows another directly within a basic block, as a code generator
// sees it. A load has its address pushed after a store, so for a store and a load the pushes of locals and of
// constants between them do not count. The operator is marked when it is written; the fault shows when it runs,
// and mostly for a few values only.

#ifndef WABT_INTERP_PLANTED_H_
#define WABT_INTERP_PLANTED_H_

#include <cmath>
#include <cstdio>
#include <cstdlib>
#include <cstring>
#include <limits>
#include <utility>
#include <vector>

#include "wabt/interp/interp.h"

namespace wabt {
namespace interp {
namespace planted {

// Two high bits of a written operator, which no operator's number has.
constexpr Istream::SerializedOpcode kFirstMark = 0x40000000;   // the first of a pair: what it did is kept
constexpr Istream::SerializedOpcode kFaultyMark = 0x80000000;  // the operator on which the fault is
constexpr Istream::SerializedOpcode kMarks = kFirstMark | kFaultyMark;

// An operator that is about to run, or has run: what it says, and the values that it met.
struct Operation {
  Instr instr;
  Value operands[3];  // the top of the stack before it ran, the topmost first
  Value result;       // the topmost value after it ran
  Value held;         // what its local or global held before it ran

  template <typename T>
  T Operand(size_t depth) const {
    return operands[depth].Get<T>();
  }

  // The address that a load or a store reaches, its offset added without wrapping.
  u64 Address(size_t depth) const { return u64{Operand<u32>(depth)} + instr.imm_u32x2.snd; }
};

// A marked operator in its place: the view that a fault has.
struct Step {
  Operation now;
  const Operation& first;  // the first of the pair
  std::vector<Value>& stack;
  Memory* memory = nullptr;            // null where the module has none
  ValueTypes parameters = {};          // of the function that a call names
  ValueType global = ValueType::Void;  // the type of the global that is read or set
  bool instead = false;                // the fault has done all, the operator does not run

  Value& top(size_t depth) { return stack[stack.size() - 1 - depth]; }
};

inline bool Same(const Value& left, const Value& right) {
  return std::memcmp(&left, &right, sizeof(v128)) == 0;
}

// Puts a value into the place of another; true where they differ.
inline bool Replace(Value& place, const Value& value) {
  bool differs = !Same(place, value);
  place = value;
  return differs;
}

template <typename T>
bool Put(Step& step, T value) {
  return Replace(step.top(0), Value::Make(value));
}

template <typename T>
bool Read(const Step& step, u64 address, T* value) {
  return step.memory != nullptr && Succeeded(step.memory->Load(address, 0, value));
}

// Integers.

inline bool CountZeros(Step& step) {
  return step.now.Operand<u64>(0) == 0 && Put(step, u64{0});
}

inline bool WrapAddress(Step& step) {
  u64 address = step.now.Address(0);
  u32 value;
  if (address <= 0xffffffff || !Read(step, address & 0xffffffff, &value)) {
    return false;
  }
  Put(step, value);
  step.instead = true;
  return true;
}

inline bool KeepUpperHalf(Step& step) {
  return Put(step, step.first.Operand<u64>(0));
}

// Floats.

inline bool MinimumOfZeros(Step& step) {
  f64 left = step.now.Operand<f64>(1);
  f64 right = step.now.Operand<f64>(0);
  return left == 0 && right == 0 && std::signbit(left) != std::signbit(right) && Put(step, f64{0});
}

inline bool MaximumWithNan(Step& step) {
  f32 left = step.now.Operand<f32>(1);
  return std::isnan(step.now.Operand<f32>(0)) && !std::isnan(left) && Put(step, left);
}

inline bool NearestOfTie(Step& step) {
  f64 value = step.now.Operand<f64>(0);
  return std::fabs(value - std::trunc(value)) == 0.5 && Put(step, std::round(value));
}

inline bool CeilToZero(Step& step) {
  f32 value = step.now.Operand<f32>(0);
  return value > -1 && value < 0 && Put(step, f32{0});
}

inline bool ConvertOfHighBit(Step& step) {
  s64 value = step.now.Operand<s64>(0);
  return value < 0 && Put(step, static_cast<f64>(value));
}

inline bool TruncateAbove(Step& step) {
  return step.now.Operand<f32>(0) >= 2147483648.0f && Put(step, u32{0x80000000});
}

inline bool FuseMultiplyAdd(Step& step) {
  f64 fused = std::fma(step.first.Operand<f64>(1), step.first.Operand<f64>(0), step.now.Operand<f64>(1));
  return !std::isnan(fused) && Put(step, fused);
}

inline bool SkipRounding(Step& step) {
  f64 value = step.first.Operand<f64>(0);
  return !std::isnan(value) && Put(step, value);
}

inline bool TurnDifference(Step& step) {
  f32 difference = step.first.Operand<f32>(0) - step.first.Operand<f32>(1);
  return !std::isnan(difference) && Put(step, difference);
}

inline bool MultiplyByInverse(Step& step) {
  f64 divisor = step.now.Operand<f64>(0);
  if (!std::isfinite(divisor) || divisor == 0) {
    return false;
  }
  f64 quotient = step.now.Operand<f64>(1) * (1 / divisor);
  return !std::isnan(quotient) && Put(step, quotient);
}

inline bool SkipFloor(Step& step) {
  f64 value = step.first.Operand<f64>(0);
  return std::fabs(value) < 9e18 && Put(step, static_cast<s64>(value));
}

inline bool ClampOfNan(Step& step) {
  f64 left = step.now.Operand<f64>(1);
  return std::isnan(step.first.result.Get<f64>()) && !std::isnan(left) && Put(step, left);
}

// Vectors.

inline bool SwizzleIndex(Step& step) {
  v128 bytes = step.now.Operand<v128>(1);
  v128 indices = step.now.Operand<v128>(0);
  v128 result = step.top(0).Get<v128>();
  for (int lane = 0; lane < 16; ++lane) {
    u8 index = indices.u8(lane);
    if (index >= 16 && index < 128) {
      result.set_u8(lane, bytes.u8(index % 16));
    }
  }
  return Put(step, result);
}

inline bool PseudoMaximumOrder(Step& step) {
  v128 left = step.now.Operand<v128>(1);
  v128 right = step.now.Operand<v128>(0);
  v128 result;
  for (int lane = 0; lane < 2; ++lane) {
    bool takes_left = right.To<f64>(lane) < left.To<f64>(lane);
    result.set_u64(lane, takes_left ? left.u64(lane) : right.u64(lane));
  }
  return Put(step, result);
}

inline bool ProductOfLeast(Step& step) {
  v128 left = step.now.Operand<v128>(1);
  v128 right = step.now.Operand<v128>(0);
  v128 result = step.top(0).Get<v128>();
  for (int lane = 0; lane < 8; ++lane) {
    if (left.u16(lane) == 0x8000 && right.u16(lane) == 0x8000) {
      result.set_u16(lane, 0x8000);
    }
  }
  return Put(step, result);
}

inline bool ShiftAmount(Step& step) {
  return step.now.Operand<u32>(0) >= 16 && Put(step, v128(0, 0, 0, 0));
}

inline bool SelectBytes(Step& step) {
  v128 mask = step.now.Operand<v128>(0);
  v128 clear = step.now.Operand<v128>(1);
  v128 set = step.now.Operand<v128>(2);
  v128 result;
  for (int lane = 0; lane < 16; ++lane) {
    result.set_u8(lane, mask.u8(lane) >= 0x80 ? set.u8(lane) : clear.u8(lane));
  }
  return Put(step, result);
}

inline bool NarrowSign(Step& step) {
  v128 result = step.top(0).Get<v128>();
  for (int lane = 0; lane < 16; ++lane) {
    v128 source = step.now.Operand<v128>(lane < 8 ? 1 : 0);
    if (source.u16(lane % 8) >= 0x8000) {
      result.set_u8(lane, 0xff);
    }
  }
  return Put(step, result);
}

inline bool ExtractReplaced(Step& step) {
  return step.now.instr.imm_u8 != step.first.instr.imm_u8 && Put(step, step.first.Operand<u32>(0));
}

inline bool ComposeShuffles(Step& step) {
  v128 left = step.now.Operand<v128>(1);
  v128 earlier_left = step.first.Operand<v128>(1);
  v128 result;
  for (int lane = 0; lane < 16; ++lane) {
    u8 index = step.now.instr.imm_v128.u8(lane);
    if (index < 16) {
      result.set_u8(lane, left.u8(index));
    } else {
      u8 earlier_index = step.first.instr.imm_v128.u8(index - 16);
      result.set_u8(lane, earlier_left.u8(earlier_index % 16));
    }
  }
  return Put(step, result);
}

inline bool InvertLeft(Step& step) {
  v128 left = step.now.Operand<v128>(1);
  v128 right = step.first.Operand<v128>(0);
  v128 result;
  for (int lane = 0; lane < 2; ++lane) {
    result.set_u64(lane, ~left.u64(lane) & right.u64(lane));
  }
  return Put(step, result);
}

inline bool KeepUpperLanes(Step& step) {
  return Put(step, step.first.Operand<v128>(0));
}

inline bool AddWithoutWrapping(Step& step) {
  int lane = step.now.instr.imm_u8;
  s32 sum = step.first.Operand<v128>(1).To<s8>(lane) + step.first.Operand<v128>(0).To<s8>(lane);
  return Put(step, sum);
}

inline bool CompareAsSigned(Step& step) {
  v128 left = step.first.Operand<v128>(1);
  v128 right = step.first.Operand<v128>(0);
  u32 mask = 0;
  for (int lane = 0; lane < 8; ++lane) {
    if (left.To<s16>(lane) < right.To<s16>(lane)) {
      mask |= u32{1} << lane;
    }
  }
  return Put(step, mask);
}

// Loads and stores.

inline bool FillWithZeros(Step& step) {
  return step.now.instr.imm_u32x2.snd != 0 && Put(step, step.top(0).Get<u64>() & 0xffffffff);
}

inline bool LoadUpperHalf(Step& step) {
  v128 whole;
  return Read(step, step.now.Address(0), &whole) && Put(step, whole);
}

inline bool TurnBytes(Step& step) {
  u64 address = step.now.Address(1);
  u16 there;
  if (address % 2 == 0 || !Read(step, address, &there)) {
    return false;
  }
  u32 value = step.now.Operand<u32>(0);
  return Put(step, (value & 0xffff0000) | ((value & 0xff) << 8) | ((value >> 8) & 0xff));
}

inline bool CutOffset(Step& step) {
  u32 offset = step.now.instr.imm_u32x2.snd;
  f64 value;
  return offset > 0xfff && Read(step, u64{step.now.Operand<u32>(0)} + (offset & 0xfff), &value) && Put(step, value);
}

inline bool ForwardWhole(Step& step) {
  return step.now.Address(0) == step.first.Address(1) && Put(step, step.first.Operand<u32>(0));
}

inline bool ForwardAcrossOffsets(Step& step) {
  return step.now.Operand<u32>(0) == step.first.Operand<u32>(1) &&
         step.now.instr.imm_u32x2.snd != step.first.instr.imm_u32x2.snd && Put(step, step.first.Operand<f64>(0));
}

inline bool ScaleLane(Step& step) {
  s16 value;
  return Read(step, step.first.Address(0) + step.now.instr.imm_u8, &value) && Put(step, s32{value});
}

inline bool ConvertAsSigned(Step& step) {
  return Put(step, static_cast<f64>(step.now.Operand<s32>(0)));
}

// Control.

inline bool TestLowByte(Step& step) {
  u32 condition = step.now.Operand<u32>(0);
  return condition != 0 && (condition & 0xff) == 0 && !Same(step.top(1), step.top(2)) && Put(step, u32{0});
}

inline bool IndexAsSigned(Step& step) {
  return step.now.Operand<s32>(0) < 0 && step.now.instr.imm_u32 != 0 && Put(step, u32{0});
}

inline bool CarryDropped(Step& step) {
  const Instr& instr = step.now.instr;
  return instr.op == Opcode::InterpDropKeep && instr.imm_u32x2.fst == 1 && instr.imm_u32x2.snd == 1 &&
         Replace(step.top(0), step.now.operands[1]);
}

inline bool BranchOnUnordered(Step& step) {
  return (std::isnan(step.first.Operand<f64>(0)) || std::isnan(step.first.Operand<f64>(1))) && Put(step, u32{1});
}

inline bool SelectMaximum(Step& step) {
  if (!Same(step.now.operands[2], step.first.operands[1]) || !Same(step.now.operands[1], step.first.operands[0])) {
    return false;
  }
  f32 left = step.first.Operand<f32>(1);
  f32 right = step.first.Operand<f32>(0);
  if (std::isnan(left) || std::isnan(right)) {
    return Put(step, std::numeric_limits<f32>::quiet_NaN());
  }
  return left == right && std::signbit(right) && Put(step, left);
}

// Calls and locals.

inline bool SwapDoubles(Step& step) {
  size_t count = step.parameters.size();
  if (count < 2 || step.parameters[count - 1] != ValueType::F64 || step.parameters[count - 2] != ValueType::F64 ||
      Same(step.top(0), step.top(1))) {
    return false;
  }
  std::swap(step.top(0), step.top(1));
  return true;
}

inline bool CallLowByte(Step& step) {
  return Put(step, step.now.Operand<u32>(0) & 0xff);
}

// The number of a local counts from the top of the stack, which local.set has made lower by one.
inline bool StaleLocal(Step& step) {
  return step.now.instr.imm_u32 + 1 == step.first.instr.imm_u32 && Same(step.first.operands[0], Value()) &&
         Replace(step.top(0), step.first.held);
}

inline bool LoseSecondTee(Step& step) {
  step.instead = step.now.instr.imm_u32 != step.first.instr.imm_u32 && !Same(step.now.held, step.now.operands[0]);
  return step.instead;
}

// Globals and memory.

inline bool HideFailure(Step& step) {
  return step.top(0).Get<u32>() == 0xffffffff && Put(step, u32{0});
}

inline bool CopyFromFront(Step& step) {
  u64 size = step.now.Operand<u32>(0);
  u64 source = step.now.Operand<u32>(1);
  u64 target = step.now.Operand<u32>(2);
  if (step.memory == nullptr || source >= target || target >= source + size ||
      !step.memory->IsValidAccess(target, 0, size)) {
    return false;
  }
  u8* bytes = step.memory->UnsafeData();
  std::vector<u8> right(bytes + source, bytes + source + size);
  for (u64 index = 0; index < size; ++index) {
    bytes[target + index] = bytes[source + index];
  }
  step.stack.resize(step.stack.size() - 3);
  step.instead = true;
  return std::memcmp(right.data(), bytes + target, size) != 0;
}

inline bool StaleSize(Step& step) {
  u32 size = step.first.result.Get<u32>();
  return size != 0xffffffff && Put(step, size);
}

inline bool StaleGlobal(Step& step) {
  return step.now.instr.imm_u32 == step.first.instr.imm_u32 &&
         (step.global == ValueType::F32 || step.global == ValueType::F64) && Replace(step.top(0), step.first.held);
}

enum class Kind { Single, Pair };

// Before the operator runs, a fault changes its operands; after it, the result.
enum class When { Before, After };

struct Fault {
  const char* name;
  const char* group;
  Kind kind;
  const char* sentence;
  Opcode::Enum first;  // Invalid where the fault is on one operator
  Opcode::Enum faulty;
  When when;
  bool (*effect)(Step&);  // true where it changes something
};

constexpr Opcode::Enum kNone = Opcode::Invalid;

// One fault a line, which scripts read.
// clang-format off
inline constexpr Fault kFaults[] = {
  {"i64_ctz_of_zero", "integers", Kind::Single, "i64.ctz of zero gives zero", kNone, Opcode::I64Ctz, When::After, CountZeros},
  {"i32_add_then_load", "integers", Kind::Pair, "i32.load of a sum adds its offset in 32 bits, so that an address past the end wraps around", Opcode::I32Add, Opcode::I32Load, When::Before, WrapAddress},
  {"i32_wrap_then_extend", "integers", Kind::Pair, "i64.extend_i32_u of a wrapped value keeps the upper half", Opcode::I32WrapI64, Opcode::I64ExtendI32U, When::After, KeepUpperHalf},
  {"f64_min_of_zeros", "floats", Kind::Single, "f64.min of two zeros of unlike signs gives the positive one", kNone, Opcode::F64Min, When::After, MinimumOfZeros},
  {"f32_max_with_nan", "floats", Kind::Single, "f32.max with a NaN on its right only gives the left operand", kNone, Opcode::F32Max, When::After, MaximumWithNan},
  {"f64_nearest_of_tie", "floats", Kind::Single, "f64.nearest rounds a tie away from zero", kNone, Opcode::F64Nearest, When::After, NearestOfTie},
  {"f32_ceil_to_zero", "floats", Kind::Single, "f32.ceil of a value between minus one and zero gives a positive zero", kNone, Opcode::F32Ceil, When::After, CeilToZero},
  {"f64_convert_of_high_bit", "floats", Kind::Single, "f64.convert_i64_u of a value with the highest bit set takes it as negative", kNone, Opcode::F64ConvertI64U, When::After, ConvertOfHighBit},
  {"i32_trunc_sat_above", "floats", Kind::Single, "i32.trunc_sat_f32_s of 2147483648 or more gives the least value", kNone, Opcode::I32TruncSatF32S, When::After, TruncateAbove},
  {"f64_mul_then_add", "floats", Kind::Pair, "f64.add of a product on its right rounds once only, as a fused operation does", Opcode::F64Mul, Opcode::F64Add, When::After, FuseMultiplyAdd},
  {"f32_demote_then_promote", "floats", Kind::Pair, "f64.promote_f32 of a demoted value gives the value from before the rounding", Opcode::F32DemoteF64, Opcode::F64PromoteF32, When::After, SkipRounding},
  {"f32_sub_then_neg", "floats", Kind::Pair, "f32.neg of a difference subtracts the other way round, and so loses the sign of a zero", Opcode::F32Sub, Opcode::F32Neg, When::After, TurnDifference},
  {"f64_const_then_div", "floats", Kind::Pair, "f64.div by a constant multiplies by the rounded inverse of it", Opcode::F64Const, Opcode::F64Div, When::After, MultiplyByInverse},
  {"f64_floor_then_trunc_sat", "floats", Kind::Pair, "i64.trunc_sat_f64_s of a value rounded down leaves out the rounding down", Opcode::F64Floor, Opcode::I64TruncSatF64S, When::After, SkipFloor},
  {"f64_max_then_min", "floats", Kind::Pair, "f64.min of a maximum on its right that is a NaN gives the left operand", Opcode::F64Max, Opcode::F64Min, When::After, ClampOfNan},
  {"i8x16_swizzle_index", "vectors", Kind::Single, "i8x16.swizzle takes an index from 16 to 127 modulo 16, where it should give zero", kNone, Opcode::I8X16Swizzle, When::After, SwizzleIndex},
  {"f64x2_pmax_order", "vectors", Kind::Single, "f64x2.pmax takes its operands in the other order", kNone, Opcode::F64X2PMax, When::After, PseudoMaximumOrder},
  {"i16x8_q15mulr_of_least", "vectors", Kind::Single, "i16x8.q15mulr_sat_s of two least lanes gives the least value, where it should give the greatest", kNone, Opcode::I16X8Q15mulrSatS, When::After, ProductOfLeast},
  {"i16x8_shl_amount", "vectors", Kind::Single, "i16x8.shl by 16 or more gives zero", kNone, Opcode::I16X8Shl, When::After, ShiftAmount},
  {"v128_bitselect_bytes", "vectors", Kind::Single, "v128.bitselect selects whole bytes, by the highest bit of each byte of its mask", kNone, Opcode::V128BitSelect, When::After, SelectBytes},
  {"i8x16_narrow_sign", "vectors", Kind::Single, "i8x16.narrow_i16x8_u takes a negative lane as a large one", kNone, Opcode::I8X16NarrowI16X8U, When::After, NarrowSign},
  {"i32x4_replace_then_extract", "vectors", Kind::Pair, "i32x4.extract_lane just after i32x4.replace_lane gives the new value, whichever lane it asks for", Opcode::I32X4ReplaceLane, Opcode::I32X4ExtractLane, When::After, ExtractReplaced},
  {"i8x16_shuffle_then_shuffle", "vectors", Kind::Pair, "i8x16.shuffle of a shuffle on its right takes from that one's left operand what that one took from its right", Opcode::I8X16Shuffle, Opcode::I8X16Shuffle, When::After, ComposeShuffles},
  {"v128_not_then_and", "vectors", Kind::Pair, "v128.and of an inverted right operand inverts the left one instead", Opcode::V128Not, Opcode::V128And, When::After, InvertLeft},
  {"f64x2_promote_then_demote", "vectors", Kind::Pair, "f32x4.demote_f64x2_zero of promoted lanes gives the vector from before, with its upper lanes", Opcode::F64X2PromoteLowF32X4, Opcode::F32X4DemoteF64X2Zero, When::After, KeepUpperLanes},
  {"i8x16_add_then_extract", "vectors", Kind::Pair, "i8x16.extract_lane_s of a sum adds in 32 bits, and does not wrap", Opcode::I8X16Add, Opcode::I8X16ExtractLaneS, When::After, AddWithoutWrapping},
  {"i16x8_lt_then_bitmask", "vectors", Kind::Pair, "i16x8.bitmask of an i16x8.lt_u compares the lanes as signed", Opcode::I16X8LtU, Opcode::I16X8Bitmask, When::After, CompareAsSigned},
  {"i64_load32_s_offset", "loads and stores", Kind::Single, "i64.load32_s with an offset extends with zeros rather than with the sign", kNone, Opcode::I64Load32S, When::After, FillWithZeros},
  {"v128_load64_zero_upper", "loads and stores", Kind::Single, "v128.load64_zero loads the upper half too", kNone, Opcode::V128Load64Zero, When::After, LoadUpperHalf},
  {"i32_store16_odd", "loads and stores", Kind::Single, "i32.store16 at an odd address stores its two bytes in the other order", kNone, Opcode::I32Store16, When::Before, TurnBytes},
  {"f64_load_offset_bits", "loads and stores", Kind::Single, "f64.load keeps the lowest twelve bits of its offset only", kNone, Opcode::F64Load, When::After, CutOffset},
  {"i32_store8_then_load8_u", "loads and stores", Kind::Pair, "i32.load8_u just after an i32.store8 to the same address gives the whole value stored", Opcode::I32Store8, Opcode::I32Load8U, When::After, ForwardWhole},
  {"f64_store_then_load", "loads and stores", Kind::Pair, "f64.load just after an f64.store to the same address but at another offset gives the value stored", Opcode::F64Store, Opcode::F64Load, When::After, ForwardAcrossOffsets},
  {"v128_load_then_extract", "loads and stores", Kind::Pair, "i16x8.extract_lane_s of a loaded vector takes the number of its lane for a distance in bytes", Opcode::V128Load, Opcode::I16X8ExtractLaneS, When::After, ScaleLane},
  {"i32_load_then_convert", "loads and stores", Kind::Pair, "f64.convert_i32_u of a loaded value takes it as signed", Opcode::I32Load, Opcode::F64ConvertI32U, When::After, ConvertAsSigned},
  {"select_low_byte", "control", Kind::Single, "select looks at the lowest byte of its condition only", kNone, Opcode::Select, When::Before, TestLowByte},
  {"br_table_high_index", "control", Kind::Single, "br_table takes an index of 2147483648 or more as negative, and goes to its first target", kNone, Opcode::BrTable, When::Before, IndexAsSigned},
  {"branch_over_one", "control", Kind::Single, "br and br_if that carry one value over one that they drop carry the dropped one", kNone, Opcode::Br, When::After, CarryDropped},
  {"f64_lt_then_br_if", "control", Kind::Pair, "br_if on an f64.lt is taken where an operand is a NaN", Opcode::F64Lt, Opcode::BrIf, When::Before, BranchOnUnordered},
  {"f32_gt_then_select", "control", Kind::Pair, "select of the operands of its f32.gt is taken for f32.max", Opcode::F32Gt, Opcode::Select, When::After, SelectMaximum},
  {"call_of_doubles", "calls and locals", Kind::Single, "call swaps its last two arguments where both are f64", kNone, Opcode::Call, When::Before, SwapDoubles},
  {"call_indirect_index", "calls and locals", Kind::Single, "call_indirect looks at the lowest byte of its index only", kNone, Opcode::CallIndirect, When::Before, CallLowByte},
  {"local_set_then_get", "calls and locals", Kind::Pair, "local.get just after local.set of the same local to zero gives the value from before", Opcode::LocalSet, Opcode::LocalGet, When::After, StaleLocal},
  {"local_tee_then_tee", "calls and locals", Kind::Pair, "local.tee just after local.tee of another local does not set its own", Opcode::LocalTee, Opcode::LocalTee, When::Before, LoseSecondTee},
  {"memory_grow_failure", "globals and memory", Kind::Single, "memory.grow that fails gives zero", kNone, Opcode::MemoryGrow, When::After, HideFailure},
  {"memory_copy_overlap", "globals and memory", Kind::Single, "memory.copy to an overlapping higher address copies from the front", kNone, Opcode::MemoryCopy, When::Before, CopyFromFront},
  {"memory_grow_then_size", "globals and memory", Kind::Pair, "memory.size just after memory.grow gives the size from before", Opcode::MemoryGrow, Opcode::MemorySize, When::After, StaleSize},
  {"global_set_then_get", "globals and memory", Kind::Pair, "global.get just after global.set of the same f32 or f64 global gives the value from before", Opcode::GlobalSet, Opcode::GlobalGet, When::After, StaleGlobal},
};
// clang-format on

// The fault that is switched on, what was written last, and what has run.
struct State {
  const Fault* fault = nullptr;
  unsigned long long hits = 0;
  Opcode::Enum name = kNone;             // what the next operator written is called in the text, where it differs
  Opcode::Enum last = kNone;             // the operator written last in this basic block
  Opcode::Enum last_but_pushes = kNone;  // the same, pushes of locals and constants left out
  Operation first;                       // the first of the pair, as it ran last

  // Refuses an unknown name before anything runs.
  State() {
    const char* wanted = std::getenv("PLANTED");
    if (wanted == nullptr) {
      return;
    }
    for (const Fault& row : kFaults) {
      if (std::strcmp(row.name, wanted) == 0) {
        fault = &row;
      }
    }
    if (fault == nullptr) {
      std::fprintf(stderr, "PLANTED names no fault: %s\n", wanted);
      std::exit(64);
    }
  }

  ~State() {
    const char* path = std::getenv("PLANTED_HITS");
    if (hits == 0 || path == nullptr) {
      return;
    }
    std::FILE* file = std::fopen(path, "a");
    if (file == nullptr || std::fprintf(file, "%s %llu\n", fault->name, hits) < 0 || std::fclose(file) != 0) {
      std::fprintf(stderr, "PLANTED_HITS cannot be written: %s\n", path);
    }
  }
};

inline State state;

inline bool Active() {
  return state.fault != nullptr;
}

// A basic block begins or ends: what follows is no pair with what came before.
inline void StartBlock() {
  state.last = kNone;
  state.last_but_pushes = kNone;
}

// The text's name of the operator that is written next: br_if is written as another one, and a branch as several.
inline void NameNext(Opcode::Enum name) {
  state.name = name;
}

// The operator as it is written: with the fault's marks, where they belong.
inline Istream::SerializedOpcode Marked(Opcode::Enum op) {
  Opcode::Enum name = state.name == kNone ? op : state.name;
  state.name = kNone;
  Istream::SerializedOpcode written = op;
  if (!Active()) {
    return written;
  }
  const Fault& fault = *state.fault;
  bool from_store = fault.first == Opcode::I32Store8 || fault.first == Opcode::F64Store;
  Opcode::Enum before = from_store ? state.last_but_pushes : state.last;
  if (name == fault.faulty && (fault.first == kNone || fault.first == before)) {
    written |= kFaultyMark;
  }
  if (name == fault.first) {
    written |= kFirstMark;
  }
  state.last = name;
  if (name != Opcode::LocalGet && name != Opcode::I32Const) {
    state.last_but_pushes = name;
  }
  return written;
}

}  // namespace planted

// Runs one operator, with the fault where it has a mark.
inline RunResult Thread::StepPlanted(Trap::Ptr* out_trap) {
  Istream::Offset offset = frames_.back().offset;
  const Istream& istream = mod_->desc().istream;
  Istream::SerializedOpcode marks = istream.Marks(offset);
  if (marks == 0) {
    return StepInternal(out_trap);
  }

  planted::Operation now;
  now.instr = istream.Read(&offset);
  for (size_t depth = 0; depth < 3 && depth < values_.size(); ++depth) {
    now.operands[depth] = values_[values_.size() - 1 - depth];
  }
  Memory::Ptr memory;
  if (!inst_->memories().empty()) {
    memory = Memory::Ptr{store_, inst_->memories()[0]};
  }
  planted::Step step{now, planted::state.first, values_};
  step.memory = memory.get();
  u32 index = now.instr.imm_u32;
  switch (now.instr.op) {
    case Opcode::Call:
      step.parameters = Func::Ptr{store_, inst_->funcs()[index]}->type().params;
      break;
    case Opcode::LocalSet:
    case Opcode::LocalTee:
      step.now.held = Pick(index);
      break;
    case Opcode::GlobalGet:
    case Opcode::GlobalSet: {
      Global::Ptr global{store_, inst_->globals()[index]};
      step.now.held = global->Get();
      step.global = global->type().type;
      break;
    }
    default:
      break;
  }

  const planted::Fault& fault = *planted::state.fault;
  bool faulty = (marks & planted::kFaultyMark) != 0;
  if (faulty && fault.when == planted::When::Before && fault.effect(step)) {
    ++planted::state.hits;
  }
  if (step.instead) {
    frames_.back().offset = offset;
  } else {
    RunResult result = StepInternal(out_trap);
    if (result != RunResult::Ok) {
      return result;
    }
  }
  if (faulty && fault.when == planted::When::After && fault.effect(step)) {
    ++planted::state.hits;
  }
  if ((marks & planted::kFirstMark) != 0) {
    step.now.result = values_.empty() ? Value() : values_.back();
    planted::state.first = step.now;
  }
  return RunResult::Ok;
}

}  // namespace interp
}  // namespace wabt

#endif  // WABT_INTERP_PLANTED_H_
