;; The kernel arith: what its module computes, in WebAssembly. A pass is a thousand turns of its loop; PASSES stands for how many
;; there are.
(module
  (func (export "run") (result i32 i32 i32 i32)
    (local $x i32) (local $y i32) (local $t i32) (local $i i32) (local $left i32)
    (local.set $left (i32.const PASSES))
    (loop $pass
      (loop $turn
        (local.set $x (i32.mul (local.get $x) (i32.const 1664525)))
        (local.set $x (i32.add (local.get $x) (i32.const 1013904223)))
        (local.set $t (i32.shl (local.get $x) (i32.const 13)))
        (local.set $y (i32.xor (local.get $y) (local.get $t)))
        (local.set $t (i32.shr_u (local.get $x) (i32.const 17)))
        (local.set $y (i32.xor (local.get $y) (local.get $t)))
        (local.set $t (i32.shr_s (local.get $x) (i32.const 5)))
        (local.set $y (i32.add (local.get $y) (local.get $t)))
        (local.set $i (i32.add (local.get $i) (i32.const 1)))
        (br_if $turn (i32.lt_u (local.get $i) (i32.const 1000))))
      (local.set $i (i32.const 0))
      (local.set $left (i32.sub (local.get $left) (i32.const 1)))
      (br_if $pass (local.get $left)))
    (local.get $x) (local.get $y) (local.get $t) (local.get $i)))
