;; Atomic loads, stores and exchanges of every width, fences and notifications (the threads proposal), with trees round them that
;; make their places and values. atomics.c is the same in C, and makes the answers.
(module
  (memory 1 2 shared)

  (func (export "added") (param $at i32) (param $by i32) (result i32)
    (local $sum i64)
    (local $left i32)
    (local.set $left (i32.add (i32.and (local.get $by) (i32.const 3)) (i32.const 1)))
    (loop $again
      (local.set $sum
        (i64.add
          (i64.mul (local.get $sum) (i64.const 2))
          (i64.extend_i32_u
            (i32.atomic.rmw.add offset=64
              (i32.mul (local.get $at) (i32.const 2))
              (i32.sub (local.get $by) (i32.const 1))))))
      (local.set $left (i32.sub (local.get $left) (i32.const 1)))
      (br_if $again (local.get $left)))
    (i32.xor
      (i32.wrap_i64 (i64.xor (local.get $sum) (i64.shr_u (local.get $sum) (i64.const 32))))
      (i32.atomic.load offset=64 (i32.shl (local.get $at) (i32.const 1)))))

  (func (export "changed") (param $at i32) (param $x i64) (result i64)
    (i64.store offset=128 (i32.const 0) (i64.add (local.get $x) (i64.const 77)))
    (i64.add
      (i64.add
        (i64.atomic.rmw.add offset=128 (local.get $at) (i64.mul (local.get $x) (i64.const 8)))
        (i64.atomic.rmw.sub offset=128 (i32.or (local.get $at) (i32.const 0)) (i64.xor (local.get $x) (i64.const -1))))
      (i64.sub
        (i64.xor
          (i64.atomic.rmw.and offset=128 (local.get $at) (i64.or (local.get $x) (i64.const 255)))
          (i64.atomic.rmw.or offset=128 (local.get $at) (i64.shl (local.get $x) (i64.const 9))))
        (i64.mul
          (i64.atomic.rmw.xor offset=128 (local.get $at) (i64.rotl (local.get $x) (i64.const 3)))
          (i64.atomic.rmw.xchg offset=128 (local.get $at) (i64.and (local.get $x) (i64.const -256)))))))

  (func (export "narrow") (param $at i32) (param $x i32) (param $y i64) (result i64)
    (i64.store offset=256 (i32.const 0) (i64.mul (local.get $y) (i64.const 0x0101010101010101)))
    (i64.xor
      (i64.extend_i32_u
        (i32.add
          (i32.mul (i32.atomic.rmw8.add_u offset=256 (local.get $at) (i32.add (local.get $x) (i32.const 5))) (i32.const 3))
          (i32.shl (i32.atomic.rmw16.sub_u offset=256 (local.get $at) (i32.sub (i32.const 0) (local.get $x))) (i32.const 8))))
      (i64.add
        (i64.mul (i64.atomic.rmw8.xchg_u offset=257 (local.get $at) (i64.xor (local.get $y) (i64.const 0))) (i64.const 16))
        (i64.sub
          (i64.rotl (i64.atomic.rmw16.or_u offset=258 (local.get $at) (i64.shr_u (local.get $y) (i64.const 3))) (i64.const 40))
          (i64.add
            (i64.atomic.rmw32.xor_u offset=260 (i32.mul (local.get $at) (i32.const 2)) (i64.add (local.get $y) (local.get $y)))
            (i64.extend_i32_s (i32.atomic.rmw8.and_u offset=263 (local.get $at) (i32.xor (local.get $x) (i32.const -1)))))))))

  (func (export "exchanged") (param $wanted i32) (param $new i64) (result i64)
    (local $at i32)
    (i32.atomic.store offset=8 (i32.const 0) (i32.and (local.get $wanted) (i32.const 0x0f0f0f0f)))
    (local.set $at
      (i32.atomic.rmw.cmpxchg
        (i32.add (i32.const 4) (i32.const 4))
        (i32.sub (local.get $wanted) (i32.const 0))
        (i32.wrap_i64 (i64.mul (local.get $new) (i64.const 5)))))
    (i64.add
      (i64.sub
        (i64.atomic.rmw8.cmpxchg_u (i32.const 9) (i64.and (local.get $new) (i64.const 255)) (i64.add (local.get $new) (i64.const 1)))
        (i64.atomic.rmw32.cmpxchg_u offset=8 (i32.const 0) (i64.extend_i32_u (local.get $at)) (i64.xor (local.get $new) (i64.const 7))))
      (i64.add
        (i64.mul (i64.atomic.rmw.cmpxchg (i32.const 8) (i64.const 0) (i64.shl (local.get $new) (i64.const 4))) (i64.const 3))
        (i64.extend_i32_u (i32.atomic.rmw16.cmpxchg_u (i32.const 10) (i32.const 0) (i32.add (local.get $at) (local.get $at)))))))

  (func (export "stored") (param $at i32) (param $x i64) (param $ratio i32) (result i64)
    (i64.atomic.store offset=512 (local.get $at) (i64.mul (local.get $x) (i64.const 1)))
    (i32.atomic.store8 offset=513 (local.get $at) (i32.trunc_f32_s (f32.mul (f32.reinterpret_i32 (i32.xor (local.get $ratio) (i32.const 0))) (f32.const 2.5))))
    (i32.atomic.store16 offset=514 (local.get $at) (i32.wrap_i64 (i64.shr_u (local.get $x) (i64.const 7))))
    (i64.atomic.store32 offset=516 (local.get $at) (i64.sub (local.get $x) (i64.const -1)))
    (atomic.fence)
    (i64.add
      (i64.xor
        (i64.mul (i64.atomic.load offset=512 (local.get $at)) (i64.const 4))
        (i64.atomic.load32_u offset=512 (i32.add (local.get $at) (i32.const 0))))
      (i64.extend_i32_u
        (i32.sub
          (i32.mul (i32.atomic.load8_u offset=513 (local.get $at)) (i32.const 2))
          (i32.xor (i32.atomic.load16_u offset=514 (local.get $at)) (i32.atomic.load offset=516 (local.get $at)))))))

  (func (export "notified") (param $n i32) (param $x i64) (result i64)
    (local $at i32)
    (loop $again
      (local.set $x
        (i64.add
          (i64.mul (local.get $x) (i64.const 3))
          (i64.extend_i32_u
            (memory.atomic.notify
              (i32.shl (i32.and (local.get $at) (i32.const 15)) (i32.const 2))
              (i32.sub (local.get $n) (local.get $at))))))
      (local.set $at (i32.add (local.get $at) (i32.const 1)))
      (br_if $again (i32.lt_s (local.get $at) (local.get $n))))
    (i64.sub (local.get $x) (i64.extend_i32_s (i32.mul (local.get $at) (i32.const 2))))))
