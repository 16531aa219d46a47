;; Exceptions as they were first proposed: functions that throw, functions with a handler, which are left as they are, and others that
;; call both. throwing.c is the same in C, and makes the answers: a call that an exception leaves has the answer `trap`.
(module
  (tag $short (param i32))
  (tag $wide (param i64 i32))
  (tag $none)
  (global $thrown (mut i64) (i64.const 0))

  (func $quotient (export "quotient") (param $a i32) (param $b i32) (result i32)
    (local $kept i64)
    (local.set $kept (i64.mul (i64.extend_i32_u (local.get $a)) (i64.const 16)))
    (if (i32.eqz (local.get $b))
      (then
        (global.set $thrown (i64.add (global.get $thrown) (i64.or (local.get $kept) (i64.const 0))))
        (throw $short (i32.add (i32.mul (local.get $a) (i32.const 2)) (i32.const 1)))))
    (i32.xor
      (i32.div_u (local.get $a) (local.get $b))
      (i32.wrap_i64 (i64.shr_u (local.get $kept) (i64.const 4)))))

  (func $limited (export "limited") (param $x i64) (param $n i32) (result i64)
    (local $at i32)
    (local $ratio f64)
    (loop $again
      (if (i64.gt_u (local.get $x) (i64.shl (i64.const 1) (i64.const 40)))
        (then (throw $wide (i64.sub (local.get $x) (i64.const 3)) (i32.shl (local.get $at) (i32.const 1)))))
      (if (i32.eq (i32.and (local.get $at) (i32.const 31)) (i32.sub (i32.const 40) (i32.const 9)))
        (then (throw $none)))
      (local.set $ratio (f64.add (f64.mul (local.get $ratio) (f64.const 0.25)) (f64.convert_i32_u (local.get $at))))
      (local.set $x (i64.add (i64.mul (local.get $x) (i64.const 3)) (i64.extend_i32_u (i32.xor (local.get $at) (i32.const 5)))))
      (local.set $at (i32.add (local.get $at) (i32.const 1)))
      (br_if $again (i32.lt_u (local.get $at) (local.get $n))))
    (i64.xor (local.get $x) (i64.trunc_f64_s (f64.mul (local.get $ratio) (f64.const 256)))))

  (func $caught (export "caught") (param $a i32) (param $b i32) (result i32)
    (try (result i32)
      (do (i32.add (call $quotient (local.get $a) (local.get $b)) (i32.mul (local.get $a) (i32.const 4))))
      (catch $short (i32.xor (i32.const 77)))))

  (func $caught_wide (export "caught_wide") (param $x i64) (param $n i32) (result i64)
    (try (result i64)
      (do (call $limited (local.get $x) (local.get $n)))
      (catch $wide (drop) (i64.add (i64.const 1)))
      (catch_all (i64.sub (i64.const 0) (local.get $x)))))

  (func $again (export "again") (param $a i32) (param $b i32) (result i32)
    (try (result i32)
      (do
        (try (result i32)
          (do (call $quotient (local.get $a) (local.get $b)))
          (catch $short
            (drop)
            (global.set $thrown (i64.mul (global.get $thrown) (i64.const 2)))
            (rethrow 0))))
      (catch $short (i32.sub (i32.const 1)))))

  (func $handed_on (export "handed_on") (param $a i32) (param $b i32) (result i32)
    (try (result i32)
      (do
        (try (result i32)
          (do (call $quotient (local.get $a) (local.get $b)))
          (delegate 0)))
      (catch_all (i32.shl (local.get $a) (i32.const 1)))))

  (func (export "together") (param $n i32) (result i64)
    (local $sum i64)
    (local $at i32)
    (loop $more
      (local.set $sum
        (i64.add
          (i64.rotl (local.get $sum) (i64.const 5))
          (i64.extend_i32_u
            (i32.xor
              (call $caught (i32.mul (local.get $at) (i32.const 8)) (i32.rem_u (local.get $at) (i32.const 4)))
              (i32.sub (call $again (local.get $n) (local.get $at)) (call $handed_on (local.get $at) (local.get $at)))))))
      (local.set $at (i32.add (local.get $at) (i32.const 1)))
      (br_if $more (i32.lt_u (local.get $at) (local.get $n))))
    (i64.sub (local.get $sum) (call $caught_wide (i64.extend_i32_s (local.get $n)) (i32.mul (local.get $n) (i32.const 2)))))

  (func (export "thrown") (result i64)
    (i64.xor (global.get $thrown) (i64.extend_i32_s (i32.mul (i32.const 3) (i32.const -5))))))
