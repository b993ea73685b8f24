;; The kernels memory1, memory2 and memory4: what their modules compute, in WebAssembly. A pass goes once over the first 4,096 bytes;
;; PASSES stands for how many there are, WIDTH for the width of an access, STEP for twice that, LOAD and STORE for the instructions.
(module
  (memory 1 1)
  (func (export "run") (result i32 i32 i32)
    (local $sum i32) (local $x i32) (local $at i32) (local $left i32)
    (local.set $left (i32.const PASSES))
    (loop $pass
      (loop $turn
        (local.set $x (LOAD (local.get $at)))
        (local.set $sum (i32.add (local.get $sum) (local.get $x)))
        (STORE (local.get $at) (local.get $sum))
        (local.set $x (LOAD offset=WIDTH (local.get $at)))
        (local.set $sum (i32.xor (local.get $sum) (local.get $x)))
        (STORE offset=WIDTH (local.get $at) (local.get $sum))
        (local.set $at (i32.add (local.get $at) (i32.const STEP)))
        (br_if $turn (i32.lt_u (local.get $at) (i32.const 4096))))
      (local.set $at (i32.const 0))
      (local.set $sum (i32.add (local.get $sum) (i32.const 2654435769)))
      (local.set $left (i32.sub (local.get $left) (i32.const 1)))
      (br_if $pass (local.get $left)))
    (local.get $sum) (local.get $x) (local.get $at)))
