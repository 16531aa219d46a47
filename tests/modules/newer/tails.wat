;; Tail calls, direct and through a table, with trees of integers and floats round them. tails.c is the same in C, and makes the
;; answers.
(module
  (type $step (func (param i32 i64) (result i64)))
  (table 5 funcref)
  (elem (i32.const 0) $mixed $summed $even $reached)
  (global $seen (mut i64) (i64.const 0))

  (func $mixed (type $step) (param $n i32) (param $x i64) (result i64)
    (i64.add
      (i64.mul (local.get $x) (i64.const 8))
      (i64.extend_i32_u
        (i32.xor (i32.shl (local.get $n) (i32.const 3)) (i32.sub (local.get $n) (i32.const 7))))))

  (func $divisor (export "divisor") (param $a i32) (param $b i32) (result i32)
    (global.set $seen
      (i64.xor
        (i64.mul (global.get $seen) (i64.const 3))
        (i64.extend_i32_u (i32.add (local.get $a) (i32.mul (local.get $b) (i32.const 2))))))
    (if (i32.eqz (local.get $b))
      (then (return (i32.or (local.get $a) (i32.and (local.get $b) (i32.const 15))))))
    (return_call $divisor (local.get $b) (i32.rem_u (local.get $a) (local.get $b))))

  (func $summed (export "summed") (type $step) (param $n i32) (param $sum i64) (result i64)
    (if (i32.le_s (local.get $n) (i32.sub (i32.const 1) (i32.const 1)))
      (then (return (i64.sub (local.get $sum) (i64.const -1)))))
    (return_call $summed
      (i32.sub (local.get $n) (i32.const 1))
      (i64.add
        (i64.rotl (local.get $sum) (i64.const 1))
        (i64.mul (i64.extend_i32_s (local.get $n)) (i64.extend_i32_u (local.get $n))))))

  (func $even (export "even") (type $step) (param $n i32) (param $x i64) (result i64)
    (block $odd_it_is
      (br_if $odd_it_is (i32.ne (i32.and (local.get $n) (i32.const -1)) (i32.const 0)))
      (return (i64.or (local.get $x) (i64.shl (local.get $x) (i64.const 32)))))
    (return_call $odd
      (i32.add (local.get $n) (i32.const -1))
      (i64.xor (i64.add (local.get $x) (i64.const 5)) (i64.const 0))))

  (func $odd (type $step) (param $n i32) (param $x i64) (result i64)
    (if (i32.eq (local.get $n) (i32.const 0))
      (then (return (i64.sub (i64.const 0) (local.get $x)))))
    (return_call $even
      (i32.sub (local.get $n) (i32.const 1))
      (i64.mul (local.get $x) (i64.const 3))))

  (func $reached (type $step) (param $n i32) (param $x i64) (result i64)
    (local $ratio f64)
    (local $left i32)
    (local.set $ratio (f64.convert_i32_u (i32.or (local.get $n) (i32.const 1))))
    (local.set $left (i32.add (i32.and (local.get $n) (i32.const 7)) (i32.const 2)))
    (loop $again
      (local.set $ratio (f64.add (f64.mul (local.get $ratio) (f64.const 0.5)) (f64.const 3)))
      (local.set $left (i32.sub (local.get $left) (i32.const 1)))
      (br_if $again (i32.gt_s (local.get $left) (i32.mul (local.get $left) (i32.const 0)))))
    (return_call $mixed
      (i32.trunc_f64_s (f64.floor (f64.mul (local.get $ratio) (f64.const 16))))
      (i64.xor (local.get $x) (i64.extend_i32_s (i32.xor (local.get $left) (local.get $n))))))

  (func (export "dispatched") (param $which i32) (param $n i32) (param $x i64) (result i64)
    (local $at i32)
    (loop $again
      (local.set $x (i64.add (i64.add (local.get $x) (local.get $x)) (i64.extend_i32_u (local.get $at))))
      (local.set $at (i32.add (local.get $at) (i32.const 1)))
      (br_if $again (i32.lt_u (local.get $at) (i32.and (local.get $n) (i32.const 3)))))
    (return_call_indirect (type $step)
      (i32.rem_u (i32.add (local.get $n) (local.get $at)) (i32.const 64))
      (i64.and (local.get $x) (i64.const 0xffffffffff))
      (i32.mul (local.get $which) (i32.const 1))))

  (func (export "seen") (result i64)
    (i64.add (i64.mul (global.get $seen) (i64.const 2)) (i64.extend_i32_u (i32.add (i32.const 3) (i32.const 4))))))
