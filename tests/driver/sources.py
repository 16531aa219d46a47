"""Modules in the text format."""

# A module with something in each section, which names all that it has.
ALL = """(module
  (type $pair (func (param i32 i64) (result i32)))
  (type $none (func))
  (import "env" "first" (func $first (type $pair)))
  (import "env" "memory" (memory $imported 1 2))
  (import "env" "global" (global $constant i32))
  (import "env" "tag" (tag $imported_tag (param i32)))
  (table $table 4 8 funcref)
  (table $other 2 externref)
  (memory $memory 1)
  (tag $tag (param i64))
  (global $counter (mut i64) (i64.const 7))
  (global $copy i32 (global.get $constant))
  (global $reference funcref (ref.null func))
  (func $second (type $pair) (local f32 f32 f64)
    (block $out (result i32)
      (loop $again
        (br_if $again (i32.eqz (local.get 0)))
        (br_table $again $again $again (local.get 0)))
      (br $out (i32.const -1))))
  (func $third (export "third") (result i32)
    (local i32)
    (if (i32.load offset=16 (i32.const 0)) (then (call $fourth)) (else (global.set $counter (i64.const -9))))
    (try (do (throw $tag (i64.const 5))) (catch $tag (drop)) (catch_all (nop)))
    (table.init $table $passive (i32.const 0) (i32.const 0) (i32.const 1))
    (memory.init $bytes (i32.const 0) (i32.const 0) (i32.const 1))
    (data.drop $bytes)
    (elem.drop $passive)
    (drop (table.get $other (i32.const 0)))
    (call_indirect $table (type $pair) (i32.const 1) (i64.const 2) (i32.const 3)))
  (func $fourth (drop (call $first (i32.const 3) (i64.const 4))) (drop (f32.const 1.5)) (drop (f64.const 2.5)))
  (func $unused (param i32) (result i32) (local i32 i64) (local.get 0))
  (export "memory" (memory $memory))
  (export "counter" (global $counter))
  (start $fourth)
  (elem (table $table) (i32.const 1) func $second $third)
  (elem $passive funcref (ref.func $fourth) (ref.null func))
  (elem declare func $second)
  (data $bytes "passive")
  (data (memory $memory) (i32.const 16) "active bytes"))
"""

# A module whose one function has a part that each predicate of the test looks for.
SMALL = """(module
  (import "env" "log" (func $log (param i32)))
  (memory 1 3)
  (global $unused (mut i32) (i32.const 5))
  (func $helper (param i32) (result i32) (i32.mul (local.get 0) (i32.const 1000)))
  (func (export "wanted") (param i32) (result i32)
    (local i32 i32)
    (block $out
      (loop $again
        (call $log (call $helper (local.get 0)))
        (br_if $out (i32.gt_s (local.get 0) (i32.const 100)))
        (local.set 1 (i32.rotl (i32.add (local.get 0) (i32.const 42)) (i32.const 3)))
        (br_if $again (i32.lt_s (local.get 1) (i32.const 5)))))
    (i32.add (local.get 1) (local.get 2)))
  (func (export "other") (result f64) (f64.add (f64.const 1.5) (f64.const 2)))
  (data (i32.const 8) "zeros and letters"))
"""
