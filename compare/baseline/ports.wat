;; The kernel ports: what its module computes, in WebAssembly, with the axis. A pass is a thousand turns of its loop; PASSES stands
;; for how many there are. What the axis refuses is a trap.
(module
  (global $ordered (mut i32) (i32.const 0))
  (global $ramp (mut i32) (i32.const 50))
  (global $speed (mut i32) (i32.const 0))
  (global $position (mut i32) (i32.const 0))
  (func $put (param $port i32) (param $value i32)
    (block $refused
      (block $is_ramp
        (block $is_ordered
          (br_table $is_ordered $is_ramp $refused (local.get $port)))
        (br_if $refused (i32.gt_u (local.get $value) (i32.const 3000)))
        (global.set $ordered (local.get $value))
        (return))
      (br_if $refused (i32.eqz (local.get $value)))
      (br_if $refused (i32.gt_u (local.get $value) (i32.const 500)))
      (global.set $ramp (local.get $value))
      (return))
    unreachable)
  (func $get (param $port i32) (result i32)
    (block $none
      (block $is_position
        (block $is_speed
          (block $is_ramp
            (block $is_ordered
              (br_table $is_ordered $is_ramp $is_speed $is_position $none (local.get $port)))
            (return (global.get $ordered)))
          (return (global.get $ramp)))
        (return (global.get $speed)))
      (return (global.get $position)))
    unreachable)
  (func $smaller (param $a i32) (param $b i32) (result i32)
    (select (local.get $a) (local.get $b) (i32.lt_u (local.get $a) (local.get $b))))
  (func $tick
    (if (i32.lt_u (global.get $speed) (global.get $ordered))
      (then
        (global.set $speed
          (i32.add (global.get $speed)
            (call $smaller (global.get $ramp) (i32.sub (global.get $ordered) (global.get $speed))))))
      (else
        (global.set $speed
          (i32.sub (global.get $speed)
            (call $smaller (global.get $ramp) (i32.sub (global.get $speed) (global.get $ordered)))))))
    (global.set $position (i32.add (global.get $position) (global.get $speed))))
  (func (export "run") (result i32 i32 i32 i32)
    (local $order i32) (local $of_speed i32) (local $of_position i32) (local $i i32) (local $left i32)
    (local.set $left (i32.const PASSES))
    (loop $pass
      (loop $turn
        (call $put (i32.const 0) (local.get $order))
        (call $tick)
        (local.set $of_speed (call $get (i32.const 2)))
        (local.set $of_position (call $get (i32.const 3)))
        (local.set $order (i32.and (local.get $of_position) (i32.const 2047)))
        (local.set $order (i32.add (local.get $order) (i32.const 1)))
        (local.set $i (i32.add (local.get $i) (i32.const 1)))
        (br_if $turn (i32.lt_u (local.get $i) (i32.const 1000))))
      (local.set $i (i32.const 0))
      (local.set $left (i32.sub (local.get $left) (i32.const 1)))
      (br_if $pass (local.get $left)))
    (local.get $order) (local.get $of_speed) (local.get $of_position) (local.get $i)))
