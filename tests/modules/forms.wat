;; Forms that rules leave out or turn back, and that a compiler of C doesn't leave: numbers in front of an operand, an operand that is
;; there already or that another one decides, whole turns and quotients by one, comparisons with signs turned on both sides or on one,
;; equality by differences, differences of differences, halves of an i64, bits that are counted, also of tests, tests of tests, and turns
;; as two shifts. forms.c is the same in C, and makes the answers.
(module
  (func (export "fronts") (param $x i32) (param $y i64) (result i64)
    (i64.xor
      (i64.const 0)
      (i64.add
        (i64.mul (i64.const 1) (local.get $y))
        (i64.extend_i32_u (i32.and (i32.const -1) (i32.or (i32.const 0) (local.get $x)))))))

  (func (export "decided") (param $x i32) (param $y i64) (result i64)
    (i64.sub
      (i64.or (i64.const -1) (local.get $y))
      (i64.extend_i32_u
        (i32.add
          (i32.and (i32.const 0) (local.get $x))
          (i32.mul (i32.const 0) (local.get $x))))))

  (func (export "complements") (param $x i32) (param $y i64) (result i64)
    (i64.add
      (i64.xor (i64.xor (i64.const -1) (local.get $y)) (i64.const -1))
      (i64.extend_i32_u
        (i32.add
          (i32.xor (i32.const -1) (i32.xor (local.get $x) (i32.const -1)))
          (i32.xor (i32.const -1) (i32.xor (i32.const -1) (local.get $x)))))))

  (func (export "by_one") (param $x i32) (param $y i64) (result i64)
    (i64.add
      (i64.div_u (i64.div_s (local.get $y) (i64.const 1)) (i64.const 1))
      (i64.extend_i32_u
        (i32.add
          (i32.rem_u (local.get $x) (i32.const 1))
          (i32.add
            (i32.rem_s (local.get $x) (i32.const 1))
            (i32.rem_s (local.get $x) (i32.const -1)))))))

  (func (export "whole_turns") (param $x i32) (param $y i64) (result i64)
    (i64.add
      (i64.rotr (i64.rotl (local.get $y) (i64.const 64)) (i64.const 64))
      (i64.extend_i32_u
        (i32.add
          (i32.shr_s (i32.shl (local.get $x) (i32.const 32)) (i32.const 32))
          (i32.shr_u (local.get $x) (i32.const 32))))))

  (func (export "again") (param $x i32) (param $y i32) (result i32)
    (i32.add
      (i32.add
        (i32.and (local.get $x) (i32.and (local.get $x) (local.get $y)))
        (i32.and (local.get $x) (i32.and (local.get $y) (local.get $x))))
      (i32.add
        (i32.add
          (i32.and (i32.and (local.get $x) (local.get $y)) (local.get $x))
          (i32.and (i32.and (local.get $x) (local.get $y)) (local.get $y)))
        (i32.mul
          (i32.or (local.get $x) (i32.or (local.get $y) (local.get $x)))
          (i32.add
            (i32.or (i32.or (local.get $x) (local.get $y)) (local.get $x))
            (i32.or (i32.or (local.get $x) (local.get $y)) (local.get $y)))))))

  (func (export "signs") (param $x i32) (param $y i64) (result i32)
    (i32.add
      (i32.lt_u
        (i32.xor (local.get $x) (i32.const 0x80000000))
        (i32.xor (i32.wrap_i64 (local.get $y)) (i32.const 0x80000000)))
      (i32.shl
        (i64.ge_s
          (i64.xor (local.get $y) (i64.const 0x8000000000000000))
          (i64.xor (i64.extend_i32_s (local.get $x)) (i64.const 0x8000000000000000)))
        (i32.const 1))))

  (func (export "equal") (param $x i32) (param $y i32) (result i32)
    (i32.add
      (i32.eqz (i32.xor (local.get $x) (local.get $y)))
      (i32.add
        (i32.shl (i32.ne (i32.xor (local.get $x) (local.get $y)) (i32.const 0)) (i32.const 1))
        (i32.shl (i32.ne (i32.sub (local.get $x) (local.get $y)) (i32.const 0)) (i32.const 2)))))

  (func (export "halves") (param $x i32) (param $y i64) (result i64)
    (i64.add
      (i64.add
        (i64.extend_i32_u (i32.wrap_i64 (local.get $y)))
        (i64.extend_i32_s (i32.wrap_i64 (local.get $y))))
      (i64.mul
        (i64.extend32_s (local.get $y))
        (i64.extend_i32_u
          (i32.add
            (i32.wrap_i64 (i64.and (local.get $y) (i64.const 0xffffffff)))
            (i32.add (i32.wrap_i64 (i64.extend32_s (local.get $y))) (local.get $x)))))))

  (func (export "counts") (param $x i32) (param $y i64) (result i64)
    (i64.add
      (i64.sub (i64.const 64) (i64.popcnt (i64.xor (local.get $y) (i64.const -1))))
      (i64.extend_i32_u
        (i32.add
          (i32.shl (i32.eqz (i32.popcnt (local.get $x))) (i32.const 8))
          (i32.shl (i32.eq (i32.ctz (local.get $x)) (i32.const 32)) (i32.const 9))))))

  (func (export "shifts") (param $x i32) (param $y i64) (result i64)
    (i64.add
      (i64.or (i64.shl (local.get $y) (i64.const 13)) (i64.shr_u (local.get $y) (i64.const 51)))
      (i64.extend_i32_u
        (i32.or (i32.shr_u (local.get $x) (i32.const 5)) (i32.shl (local.get $x) (i32.const 27))))))

  (func (export "absorbed") (param $x i32) (param $y i32) (result i32)
    (i32.add
      (i32.add
        (i32.add
          (i32.and (local.get $x) (i32.or (local.get $x) (local.get $y)))
          (i32.and (local.get $x) (i32.or (local.get $y) (local.get $x))))
        (i32.add
          (i32.and (i32.or (local.get $x) (local.get $y)) (local.get $x))
          (i32.and (i32.or (local.get $x) (local.get $y)) (local.get $y))))
      (i32.mul
        (i32.add
          (i32.or (local.get $x) (i32.and (local.get $x) (local.get $y)))
          (i32.or (local.get $x) (i32.and (local.get $y) (local.get $x))))
        (i32.add
          (i32.or (i32.and (local.get $x) (local.get $y)) (local.get $x))
          (i32.or (i32.and (local.get $x) (local.get $y)) (local.get $y))))))

  (func (export "differences") (param $x i32) (param $y i64) (result i64)
    (i64.add
      (i64.sub (i64.extend_i32_s (local.get $x)) (i64.sub (i64.extend_i32_s (local.get $x)) (local.get $y)))
      (i64.extend_i32_u (i32.sub (local.get $x) (i32.sub (local.get $x) (i32.wrap_i64 (local.get $y)))))))

  (func (export "extended") (param $x i32) (param $y i64) (result i64)
    (i64.add
      (i64.sub
        (i64.rem_u (local.get $y) (i64.const 0x100000000))
        (i64.extend32_s (i64.extend32_s (local.get $y))))
      (i64.mul
        (i64.extend32_s (i64.extend_i32_u (local.get $x)))
        (i64.sub (i64.extend32_s (i64.extend_i32_s (local.get $x))) (local.get $y)))))

  (func (export "tests") (param $x i32) (param $y i64) (result i32)
    (i32.add
      (i32.add
        (i32.eqz (i32.eqz (i32.eqz (local.get $x))))
        (i32.shl (i32.eqz (i32.eqz (i64.eqz (local.get $y)))) (i32.const 1)))
      (i32.add
        (i32.shl (i32.ne (i32.ctz (local.get $x)) (i32.const 32)) (i32.const 2))
        (i32.shl (i64.ne (i64.ctz (local.get $y)) (i64.const 64)) (i32.const 3)))))

  (func (export "bits") (param $x i32) (param $y i64) (result i32)
    (i32.add
      (i32.add
        (i32.popcnt (i64.eqz (local.get $y)))
        (i32.shl (i32.popcnt (i32.lt_s (local.get $x) (i32.const 5))) (i32.const 1)))
      (i32.add
        (i32.shl (i32.popcnt (i64.ge_u (local.get $y) (i64.extend_i32_u (local.get $x)))) (i32.const 2))
        (i32.shl (i32.popcnt (i32.ne (local.get $x) (i32.wrap_i64 (local.get $y)))) (i32.const 3)))))

  (func (export "one_side") (param $x i32) (param $y i64) (result i32)
    (i32.add
      (i32.lt_s (i32.xor (local.get $x) (i32.const 0x80000000)) (i32.wrap_i64 (local.get $y)))
      (i32.shl
        (i64.ge_u (i64.xor (local.get $y) (i64.const 0x8000000000000000)) (i64.extend_i32_s (local.get $x)))
        (i32.const 1)))))
