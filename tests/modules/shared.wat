;; A memory that is shared, and atomic operators (the threads proposal). shared.c is the same in C, and makes the answers.
(module
  (memory 1 2 shared)

  (func (export "added") (param $by i32) (result i32)
    (i32.add
      (i32.atomic.rmw.add (i32.const 8) (i32.mul (local.get $by) (i32.const 2)))
      (i32.const 1)))

  (func (export "swapped") (param $wide i64) (result i64)
    (i64.atomic.rmw.xchg (i32.const 16) (i64.xor (local.get $wide) (i64.const -1))))

  (func (export "stored") (param $at i32) (param $value i32) (result i32)
    (local.set $at (i32.and (i32.add (local.get $at) (i32.const 64)) (i32.const 1020)))
    (i32.store (local.get $at) (i32.sub (local.get $value) (i32.const 3)))
    (i32.or (i32.load (i32.const 8)) (i32.load (local.get $at))))

  (func (export "mixed") (param $a i32) (param $b i32) (result i32)
    (i32.xor
      (i32.mul (i32.add (local.get $a) (i32.const 5)) (local.get $b))
      (i32.shl (i32.sub (local.get $b) (local.get $a)) (i32.const 3))))

  (func (export "mixed_wide") (param $a i64) (param $b i64) (result i64)
    (i64.sub
      (i64.or (local.get $a) (i64.and (local.get $b) (i64.const 255)))
      (i64.rotl (i64.add (local.get $a) (local.get $b)) (i64.const 7)))))
