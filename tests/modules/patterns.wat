;; Patterns of rules that a compiler of C doesn't leave: what changes nothing, constants that decide alone, powers of two, tests of
;; comparisons, complements, two operands that are the same, and sums and products that are joined. patterns.c is the same in C, and
;; makes the answers.
(module
  (func (export "moved") (param $x i32) (param $y i64) (result i64)
    (i64.add
      (i64.rotr (i64.rotl (local.get $y) (i64.const 0)) (i64.const 0))
      (i64.extend_i32_s (i32.shr_u (i32.shr_s (local.get $x) (i32.const 0)) (i32.const 0)))))

  (func (export "turned") (param $x i32) (param $y i64) (result i64)
    (i64.xor
      (i64.rotr (local.get $y) (i64.const 13))
      (i64.extend_i32_u (i32.rotl (local.get $x) (i32.const 5)))))

  (func (export "divided") (param $x i32) (param $y i64) (result i64)
    (i64.sub
      (i64.div_u (local.get $y) (i64.const 4096))
      (i64.extend_i32_u (i32.rem_u (local.get $x) (i32.const 8)))))

  (func (export "doubled") (param $x i32) (result i32)
    (i32.sub (i32.mul (local.get $x) (i32.const 2)) (i32.shl (local.get $x) (i32.const 1))))

  (func (export "decided") (param $x i32) (param $y i64) (result i64)
    (i64.add
      (i64.or (local.get $y) (i64.const -1))
      (i64.extend_i32_u
        (i32.or
          (i32.and (local.get $x) (i32.const 0))
          (i32.mul (local.get $x) (i32.const 0))))))

  (func (export "compared") (param $x i32) (param $y i32) (result i32)
    (i32.or
      (i32.shl (i32.ne (local.get $x) (i32.const 0)) (i32.const 2))
      (i32.or
        (i32.shl (i32.eqz (i32.lt_s (local.get $x) (local.get $y))) (i32.const 1))
        (i32.eqz (i32.ge_u (local.get $x) (local.get $y))))))

  (func (export "masked") (param $x i32) (param $y i32) (result i32)
    (i32.and (i32.or (local.get $x) (local.get $y)) (i32.const 65280)))

  (func (export "complemented") (param $x i32) (param $y i32) (result i32)
    (i32.sub
      (i32.xor (i32.and (local.get $x) (local.get $y)) (i32.const -1))
      (i32.xor (i32.or (local.get $x) (local.get $y)) (i32.const -1))))

  (func (export "paired") (param $x i32) (param $y i64) (result i64)
    (i64.sub
      (i64.add (local.get $y) (local.get $y))
      (i64.extend_i32_u
        (i32.add
          (i32.or (local.get $x) (local.get $x))
          (i32.mul (i32.sub (local.get $x) (local.get $x)) (i32.xor (local.get $x) (local.get $x)))))))

  (func (export "selected") (param $x i32) (param $y i64) (result i64)
    (i64.xor
      (select (local.get $y) (local.get $y) (local.get $x))
      (i64.extend_i32_s (i32.wrap_i64 (i64.extend_i32_s (local.get $x))))))

  (func (export "opposed") (param $x i32) (param $y i32) (result i32)
    (i32.sub
      (i32.or (i32.xor (local.get $x) (i32.const -1)) (i32.xor (local.get $y) (i32.const -1)))
      (i32.and (i32.xor (local.get $x) (i32.const -1)) (i32.xor (local.get $y) (i32.const -1)))))

  (func (export "joined") (param $x i32) (param $y i64) (result i64)
    (i64.add
      (i64.add (i64.add (local.get $y) (i64.const 5)) (i64.const -9))
      (i64.extend_i32_u (i32.or (local.get $x) (i32.or (local.get $x) (i32.const 6))))))

  (func (export "tested") (param $x i32) (param $y i32) (result i32)
    (i32.sub
      (i32.eqz (i32.sub (local.get $x) (local.get $y)))
      (i32.shl (i32.lt_u (local.get $x) (i32.const 1)) (i32.const 1))))

  (func (export "negated") (param $x i32) (param $y i64) (result i64)
    (i64.add
      (i64.mul (local.get $y) (i64.const -1))
      (i64.extend_i32_s (i32.shr_s (i32.shl (local.get $x) (i32.const 24)) (i32.const 24)))))

  (func (export "gathered") (param $x i32) (param $y i32) (result i32)
    (i32.xor
      (i32.add (i32.mul (local.get $x) (i32.const 10)) (i32.mul (local.get $y) (i32.const 10)))
      (i32.or (i32.and (local.get $x) (i32.const 3855)) (i32.and (local.get $y) (i32.const 3855))))))
