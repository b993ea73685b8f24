;; The kernel calls: what its module computes, in WebAssembly. A pass is a thousand turns of its loop; PASSES stands for how many
;; there are.
(module
  (func $following (param $a i32) (param $b i32) (result i32 i32)
    (local $t i32)
    (local.set $t (local.get $a))
    (local.set $a (local.get $b))
    (local.set $b (local.get $t))
    (local.set $b (i32.add (local.get $b) (local.get $a)))
    (local.get $a) (local.get $b))
  (func (export "run") (result i32 i32 i32)
    (local $a i32) (local $b i32) (local $i i32) (local $left i32)
    (local.set $b (i32.const 1))
    (local.set $left (i32.const PASSES))
    (loop $pass
      (loop $turn
        (call $following (local.get $a) (local.get $b))
        (local.set $b)
        (local.set $a)
        (local.set $i (i32.add (local.get $i) (i32.const 1)))
        (br_if $turn (i32.lt_u (local.get $i) (i32.const 1000))))
      (local.set $i (i32.const 0))
      (local.set $left (i32.sub (local.get $left) (i32.const 1)))
      (br_if $pass (local.get $left)))
    (local.get $a) (local.get $b) (local.get $i)))
