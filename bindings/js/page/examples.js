// The texts of the menu of examples, by their titles.
export const EXAMPLES = {
  "Factorial, and an import": `(module
  (import "env" "log" (func $log (param i32)))
  (memory (export "memory") 1)
  (data (i32.const 16) "hello")
  (global $calls (mut i32) (i32.const 0))
  (func $fac (export "fac") (param $n i64) (result i64)
    (if (result i64) (i64.eqz (local.get $n))
      (then (i64.const 1))
      (else (i64.mul (local.get $n)
        (call $fac (i64.sub (local.get $n) (i64.const 1)))))))
  (func (export "tick") (result i32)
    (global.set $calls (i32.add (global.get $calls) (i32.const 1)))
    (call $log (global.get $calls))
    (global.get $calls)))
`,
  "A loop": `;; The greatest common divisor, by instructions that are not folded.
(module
  (func (export "gcd") (param $a i32) (param $b i32) (result i32)
    (local $rest i32)
    block $done
      loop $next
        local.get $b
        i32.eqz
        br_if $done
        local.get $a
        local.get $b
        i32.rem_u
        local.set $rest
        local.get $b
        local.set $a
        local.get $rest
        local.set $b
        br $next
      end
    end
    local.get $a))
`,
  "Memory and data": `;; The sum of the bytes of a string in memory.
(module
  (memory 1)
  (data (i32.const 8) "WebAssembly")
  (func (export "sum") (param $from i32) (param $count i32) (result i32)
    (local $sum i32)
    (block $done
      (loop $next
        (br_if $done (i32.eqz (local.get $count)))
        (local.set $sum (i32.add (local.get $sum) (i32.load8_u (local.get $from))))
        (local.set $from (i32.add (local.get $from) (i32.const 1)))
        (local.set $count (i32.sub (local.get $count) (i32.const 1)))
        (br $next)))
    (local.get $sum)))
`,
  "A table of functions": `;; A call by an index in a table.
(module
  (type $operation (func (param f64 f64) (result f64)))
  (table funcref (elem $add $sub $mul))
  (func $add (type $operation) (f64.add (local.get 0) (local.get 1)))
  (func $sub (type $operation) (f64.sub (local.get 0) (local.get 1)))
  (func $mul (type $operation) (f64.mul (local.get 0) (local.get 1)))
  (func (export "apply") (param $which i32) (param $x f64) (param $y f64) (result f64)
    (call_indirect (type $operation) (local.get $x) (local.get $y) (local.get $which))))
`,
  "Structs": `;; A list of structs, which the engine collects.
(module
  (rec (type $node (struct (field $value i32) (field $next (ref null $node)))))
  (func $list (param $length i32) (result (ref null $node))
    (if (result (ref null $node)) (local.get $length)
      (then (struct.new $node (local.get $length)
        (call $list (i32.sub (local.get $length) (i32.const 1)))))
      (else (ref.null $node))))
  (func (export "sum") (param $length i32) (result i32)
    (local $at (ref null $node)) (local $sum i32)
    (local.set $at (call $list (local.get $length)))
    (block $done
      (loop $next
        (br_if $done (ref.is_null (local.get $at)))
        (local.set $sum (i32.add (local.get $sum) (struct.get $node $value (local.get $at))))
        (local.set $at (struct.get $node $next (local.get $at)))
        (br $next)))
    (local.get $sum)))
`,
  "An exception": `;; A division that throws, and a caller that catches.
(module
  (tag $by_zero)
  (func $divide (param $x f32) (param $y f32) (result f32)
    (if (f32.eq (local.get $y) (f32.const 0)) (then (throw $by_zero)))
    (f32.div (local.get $x) (local.get $y)))
  (func (export "divide") (param $x f32) (param $y f32) (result f32)
    (block $caught
      (return (try_table (result f32) (catch $by_zero $caught)
        (call $divide (local.get $x) (local.get $y)))))
    (f32.const -1)))
`,
};
