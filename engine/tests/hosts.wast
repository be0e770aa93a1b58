;; The modules of hosts.rs. `guests/build` makes a file of each in the folder `hosts`.

;; Gives the host bytes of its memory, and is called back.
(module $caller
  (import "host" "shout" (func $shout (param i32 i32) (result i32)))
  (import "host" "again" (func $again (param i32) (result i32)))
  (memory (export "memory") 1)
  (data (i32.const 64) "hello")
  (global (export "limit") i32 (i32.const 64))
  (func (export "shout") (result i32) (call $shout (i32.const 64) (i32.const 5)))
  (func (export "shout_at") (param i32 i32) (result i32) (call $shout (local.get 0) (local.get 1)))
  ;; Counts down to 0 through the host: 1 for each call of it.
  (func (export "count") (param i32) (result i32)
    (if (result i32) (i32.eqz (local.get 0))
      (then (i32.const 0))
      (else (i32.add (i32.const 1) (call $again (i32.sub (local.get 0) (i32.const 1)))))))
  (func (export "swap") (param i64 i32) (result i32 i64) (local.get 1) (local.get 0)))

;; What the next one imports.
(module $provider
  (type $unary (func (param i32) (result i32)))
  (memory (export "memory") 1 4)
  (table (export "table") 4 8 funcref)
  (global (export "count") (mut i32) (i32.const 0))
  (global $own (mut i32) (i32.const 100))
  (elem (i32.const 0) $add_own)
  (func $add_own (export "add_own") (type $unary)
    (global.set $own (i32.add (global.get $own) (i32.const 1)))
    (i32.store (i32.const 8) (local.get 0))
    (i32.add (local.get 0) (global.get $own)))
  (func (export "through_table") (param i32 i32) (result i32)
    (call_indirect (type $unary) (local.get 1) (local.get 0)))
  (func (export "grow") (result i32) (memory.grow (i32.const 1)))
  (func (export "traps") (param i32) (result i32) unreachable))

;; Imports all of the one before, and puts functions of its own into the table.
(module $user
  (type $unary (func (param i32) (result i32)))
  (import "provider" "add_own" (func $add_own (type $unary)))
  (import "provider" "through_table" (func $through_table (param i32 i32) (result i32)))
  (import "provider" "traps" (func $traps (type $unary)))
  (import "provider" "memory" (memory 1))
  (import "provider" "table" (table 2 funcref))
  (import "provider" "count" (global $count (mut i32)))
  (global $own i32 (i32.const 7))
  (elem (i32.const 1) $seven $self $wide)
  (func $seven (type $unary) (i32.mul (local.get 0) (global.get $own)))
  ;; Calls itself through the table by the other instance, until the argument is 0.
  (func $self (type $unary)
    (if (result i32) (i32.eqz (local.get 0))
      (then (i32.const 0))
      (else (i32.add (i32.const 1) (call $through_table (i32.const 2) (i32.sub (local.get 0) (i32.const 1)))))))
  (func $wide (param i64) (result i64) (local.get 0))
  (func (export "direct") (param i32) (result i32)
    (global.set $count (i32.add (global.get $count) (i32.const 1)))
    (i32.add (call $add_own (local.get 0)) (i32.load (i32.const 8))))
  (func (export "indirect") (param i32 i32) (result i32) (call_indirect (type $unary) (local.get 1) (local.get 0)))
  (func (export "by_the_other") (param i32 i32) (result i32) (call $through_table (local.get 0) (local.get 1)))
  (func (export "depth") (param i32) (result i32) (call $self (local.get 0)))
  (func (export "traps") (type $unary) (call $traps (local.get 0)))
  (func (export "size") (result i32) (memory.size)))

;; Has a memory, and imports nothing of another instance.
(module $plain
  (memory (export "memory") 1)
  (func (export "sum") (param i32) (result i32) (local i32)
    (loop $l
      (local.set 1 (i32.add (local.get 1) (local.get 0)))
      (br_if $l (local.tee 0 (i32.sub (local.get 0) (i32.const 1)))))
    (local.get 1))
  (func (export "fill") (param i32) (memory.fill (i32.const 0) (i32.const 1) (local.get 0)))
  (func $deep (export "deep") (param i32) (result i32)
    (if (result i32) (local.get 0)
      (then (i32.add (i32.const 1) (call $deep (i32.sub (local.get 0) (i32.const 1)))))
      (else (i32.const 0))))
  (func (export "zero") (param i32) (result i32) (i32.div_u (i32.const 1) (i32.const 0))))
