;; A module with the exports of module/mencius.wasm. Its first call returns four zeros, and each later call stops.
(module
  (memory (export "memory") 16)
  (global $next (mut i64) (i64.const 0))
  (global $calls (mut i32) (i32.const 0))
  (func (export "mencius_room") (param $size i64) (result i64)
    (global.set $next (i64.add (global.get $next) (local.get $size)))
    (global.get $next))
  (func (export "mencius_give") (param i64))
  (func (export "mencius_call") (param i64 i64 i64 i64 i64 i64 i64 i64 i64)
    (global.set $calls (i32.add (global.get $calls) (i32.const 1)))
    (if (i32.gt_u (global.get $calls) (i32.const 1)) (unreachable))))
