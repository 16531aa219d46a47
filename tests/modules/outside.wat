;; What a compiler of C writes seldom: globals, a memory, a table and functions that come from outside (those that the interpreter
;; of the specification's tests has), a start function, mutable globals of several types, several results, code that is never
;; reached, and effects whose order shows. outside.c is the same in C, and makes the answers.
(module
  (type $binary (func (param i32 i32) (result i32)))
  (type $divided (func (param i32 i32) (result i32 i32)))
  (import "spectest" "global_i32" (global $given i32))
  (import "spectest" "global_i64" (global $given_wide i64))
  (import "spectest" "print_i32" (func $print (param i32)))
  (import "spectest" "memory" (memory 1 2))
  (import "spectest" "table" (table 10 20 funcref))
  (global $count (mut i32) (i32.const 7))
  (global $sum (mut i64) (i64.const -1))
  (global $ratio (mut f32) (f32.const 1.5))
  (global $limit i32 (i32.const 100))
  (elem (i32.const 0) $plus $minus $noted)
  (data (i32.const 64) "\01\02\83\04\05\86\07\88\ff\ff")
  (start $begin)

  (func $begin
    (global.set $count (i32.add (global.get $count) (global.get $given)))
    (global.set $sum (i64.sub (global.get $sum) (global.get $given_wide))))

  (func $plus (type $binary) (i32.add (local.get 0) (local.get 1)))
  (func $minus (type $binary) (i32.sub (local.get 0) (local.get 1)))
  (func $noted (type $binary)
    (call $print (local.get 1))
    (i32.xor (local.get 0) (i32.const 0x55)))

  (func (export "counted") (param $by i32) (result i32)
    (global.set $count (i32.add (local.get $by) (global.get $count)))
    (global.set $sum (i64.add (global.get $sum) (i64.extend_i32_s (global.get $count))))
    (global.get $count))

  (func (export "summed") (param $by i64) (result i64)
    (local $before i64)
    (local.set $before (global.get $sum))
    (global.set $sum (i64.mul (i64.or (local.get $by) (i64.const 1)) (i64.xor (global.get $sum) (global.get $given_wide))))
    (i64.sub (global.get $sum) (local.get $before)))

  ;; Two calls whose arguments have effects of their own.
  (func (export "in_order") (param $a i32) (param $b i32) (result i32)
    (call $print (local.tee $a (i32.add (local.get $a) (i32.const 1))))
    (call $print (i32.mul (local.tee $b (i32.shl (local.get $b) (i32.const 1))) (local.get $a)))
    (i32.add
      (call $noted (local.get $a) (i32.const 0))
      (call $noted (local.get $b) (i32.add (i32.const 0) (local.get $a)))))

  (func (export "through_table") (param $at i32) (param $a i32) (param $b i32) (result i32)
    (call_indirect (type $binary) (local.get $a) (local.get $b) (local.get $at)))

  ;; Bytes, halves and words at an address below 4096.
  (func (export "stored") (param $at i32) (param $value i64) (result i64)
    (local.set $at (i32.and (local.get $at) (i32.const 4095)))
    (i64.store align=1 (local.get $at) (local.get $value))
    (i32.store16 offset=2 align=1 (local.get $at) (i32.wrap_i64 (i64.shr_u (local.get $value) (i64.const 40))))
    (i64.add
      (i64.mul (i64.load8_s offset=7 (local.get $at)) (i64.load16_u offset=1 align=1 (local.get $at)))
      (i64.extend_i32_u
        (i32.sub (i32.load8_u offset=3 (local.get $at)) (i32.load16_s offset=5 align=1 (local.get $at))))))

  (func (export "given_bytes") (param $at i32) (result i32)
    (i32.load8_s offset=64 (i32.and (local.get $at) (i32.const 7))))

  ;; Traps where the address is outside.
  (func (export "loaded") (param $at i32) (result i32)
    (i32.mul (i32.load offset=65532 (local.get $at)) (i32.const 3)))

  (func (export "pages") (result i32)
    (i32.add (memory.size) (memory.grow (i32.const 0))))

  (func (export "ratio_bits") (param $by i32) (result i32)
    (global.set $ratio
      (f32.add (f32.mul (global.get $ratio) (f32.convert_i32_s (local.get $by))) (f32.const 0.25)))
    (i32.reinterpret_f32 (global.get $ratio)))

  (func $divided (param $a i32) (param $b i32) (result i32 i32)
    (i32.div_u (local.get $a) (local.get $b))
    (i32.rem_u (local.get $a) (local.get $b)))

  (func (export "divided") (param $a i32) (param $b i32) (result i32)
    local.get $a
    local.get $b
    call $divided
    i32.const 5
    i32.mul
    i32.xor)

  ;; A block that takes two operands and leaves two.
  (func (export "in_block") (param $a i32) (param $b i32) (result i32)
    local.get $a
    i32.const 3
    i32.mul
    local.get $b
    i32.const 0
    i32.add
    block (type $divided)
      local.tee $b
      i32.const 1
      i32.or
      call $divided
      local.get $a
      global.get $limit
      i32.lt_s
      br_if 0
      i32.const -1
      i32.xor
    end
    i32.sub)

  (func (export "never_reached") (param $a i32) (result i32)
    block (result i32)
      local.get $a
      i32.const 2
      i32.shl
      local.get $a
      br_if 0
      i32.const 9
      br 0
      i32.add
      i32.const 1
      i32.mul
      drop
      i32.const 4
      i32.const 5
      i32.add
    end
    i32.const 1
    i32.mul
    return
    i64.const 3
    i64.const 4
    i64.mul
    drop
    select
    i32.const 0
    i32.or)

  (func (export "picked") (param $at i32) (param $a i32) (result i32)
    nop
    block
      block
        block
          local.get $at
          br_table 0 1 2 1
        end
        local.get $a
        i32.const 8
        i32.mul
        nop
        return
      end
      local.get $a
      i32.const 1
      i32.sub
      local.set $a
    end
    local.get $a
    local.get $at
    local.get $a
    local.get $at
    i32.le_u
    select
    i32.eqz
    if (result i32)
      i32.const 77
    else
      local.get $a
      i32.popcnt
    end)

  (func (export "rotated") (param $a i64) (param $by i64) (result i64)
    (i64.rotl (i64.xor (local.get $a) (i64.const -1)) (i64.and (local.get $by) (i64.const 63)))
    (i64.ctz (local.get $by))
    i64.sub
    (i64.clz (local.get $a))
    i64.add)

  ;; Operators of i32 that leave an operand as it is, and that have another form with the same result.
  (func (export "short_forms_i32") (param $a i32) (param $b i32) (result i32)
    (drop (i32.add (local.get $a) (i32.const 4)))
    (local.set $a (i32.add (i32.sub (local.get $a) (i32.const 0)) (i32.const 0)))
    (local.set $b (i32.mul (i32.or (local.get $b) (i32.const 0)) (i32.const 1)))
    (local.set $a (i32.and (i32.xor (local.get $a) (i32.const 0)) (i32.const -1)))
    (local.set $b (i32.shr_u (i32.shl (local.get $b) (i32.const 0)) (i32.const 0)))
    (local.set $a (i32.xor (i32.xor (local.get $a) (i32.const -1)) (i32.const -1)))
    (local.set $a (i32.or (local.get $a) (i32.and (local.get $a) (local.get $a))))
    (local.set $b (i32.add (local.get $b) (i32.mul (i32.const 6) (i32.const 7))))
    (local.set $a (i32.add (i32.add (local.get $a) (i32.sub (local.get $b) (i32.const 5))) (i32.const 9)))
    (local.set $a (i32.add (local.get $a) (i32.add (local.get $b) (i32.const 3))))
    (local.set $a (i32.xor (i32.shl (local.get $a) (i32.const 3)) (i32.mul (local.get $b) (i32.const 16))))
    (local.set $b (select (local.get $a) (local.get $b) (i32.lt_s (local.get $a) (i32.const 1000))))
    (local.set $b (select (local.get $b) (i32.const 12) (i32.eqz (i32.and (local.get $a) (i32.const 1)))))
    (local.set $a (select (local.get $a) (i32.const 7) (i32.eq (i32.and (local.get $b) (i32.const 2)) (i32.const 0))))
    (select
      (i32.sub (local.get $a) (local.get $b))
      (i32.add (local.get $b) (i32.const 1))
      (i32.ge_u (local.get $a) (i32.rotl (local.get $b) (i32.const 5)))))

  ;; Operators of i64 that leave an operand as it is, and that have another form with the same result.
  (func (export "short_forms_i64") (param $a i64) (param $b i64) (result i64)
    (drop (i64.add (local.get $a) (i64.const 4)))
    (local.set $a (i64.add (i64.sub (local.get $a) (i64.const 0)) (i64.const 0)))
    (local.set $b (i64.mul (i64.or (local.get $b) (i64.const 0)) (i64.const 1)))
    (local.set $a (i64.and (i64.xor (local.get $a) (i64.const 0)) (i64.const -1)))
    (local.set $b (i64.shr_u (i64.shl (local.get $b) (i64.const 0)) (i64.const 0)))
    (local.set $a (i64.xor (i64.xor (local.get $a) (i64.const -1)) (i64.const -1)))
    (local.set $a (i64.or (local.get $a) (i64.and (local.get $a) (local.get $a))))
    (local.set $b (i64.add (local.get $b) (i64.mul (i64.const 6) (i64.const 7))))
    (local.set $a (i64.add (i64.add (local.get $a) (i64.sub (local.get $b) (i64.const 5))) (i64.const 9)))
    (local.set $a (i64.add (local.get $a) (i64.add (local.get $b) (i64.const 3))))
    (local.set $a (i64.xor (i64.shl (local.get $a) (i64.const 3)) (i64.mul (local.get $b) (i64.const 16))))
    (local.set $b (select (local.get $a) (local.get $b) (i64.lt_s (local.get $a) (i64.const 1000))))
    (local.set $b (select (local.get $b) (i64.const 12) (i64.eqz (i64.and (local.get $a) (i64.const 1)))))
    (local.set $a (select (local.get $a) (i64.const 7) (i64.eq (i64.and (local.get $b) (i64.const 2)) (i64.const 0))))
    (select
      (i64.sub (local.get $a) (local.get $b))
      (i64.add (local.get $b) (i64.const 1))
      (i64.ge_u (local.get $a) (i64.rotl (local.get $b) (i64.const 5))))))
