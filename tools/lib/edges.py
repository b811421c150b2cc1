r"""Texts at the edges of the text format, and their answers, for `tools/pages`.

A line of EDGES is a text, a tab, and the answer that crates/wat_golden has to print. A `^` in the
text is the offset that the answer names with `^`, and is not a part of the text. A line that begins
with a backslash is a text with escapes, as crates/wat_golden reads them: `\n`, `\r`, `\t`, `\\`, and
two hexadecimal digits for a byte. Empty lines and lines that begin with `#` are no texts.

The bytes are those of the Rust crate `wast` 239 with its `wasm-encoder`, except where the comment of
a group names another source. Nullable references to abstract heap types other than `func` and
`extern` have two bytes, as docs/DIFFERENCES.md explains. What is refused has the offset of the first
token that the grammar of the WebAssembly Core Specification 3.0 does not allow, with the exceptions
that docs/decisions/contracts.md#d059 lists.
"""

import re

EDGES = r"""
# White space, comments and tokens (text format, lexical format). A form feed is no white space.
# `(;)` opens a comment, since `(;` is read first. Parentheses, comments and white space end a
# token, and two tokens may not touch.
\(module^\0c(func))	not read at ^: expected whitespace or a parenthesis after token
(module (;) ;) (func))	0061736d01000000010401600000030201000a040102000b
(module (; (; ;) ;) (func))	0061736d01000000010401600000030201000a040102000b
(module (func ^(;))	not read at ^: unterminated block comment
(module ^; (func))	not read at ^: unexpected character
(module (func (;a;)nop(;b;)))	0061736d01000000010401600000030201000a05010300010b
(module (func nop)(func))	0061736d0100000001040160000003030200000a08020300010b02000b
(module(func)(func))	0061736d0100000001040160000003030200000a070202000b02000b
(module (func i32.const 1(drop)))	0061736d01000000010401600000030201000a0701050041011a0b
(module (data ^"a""b"))	not read at ^: expected whitespace or a parenthesis after token
(module (func ^$f"a"))	not read at ^: expected whitespace or a parenthesis after token
(module (func nop^[))	not read at ^: expected whitespace or a parenthesis after token
(module (func $a$b))	0061736d01000000010401600000030201000a040102000b000d046e616d650106010003612462
(module (func $a`b))	0061736d01000000010401600000030201000a040102000b000d046e616d650106010003616062

# Strings (text format, strings): the last and the first of what an escape may say, and control
# characters.
\(module (data "^\7f"))	not read at ^: invalid character in string
(module (data "^\u{1_}"))	not read at ^: invalid string escape
(module (data "\'"))	0061736d010000000b0401010127
(module (data "\u{10ffff}"))	0061736d010000000b07010104f48fbfbf
(module (data "\FF"))	0061736d010000000b04010101ff
(module (data "\r"))	0061736d010000000b040101010d

# Numbers (text format, integers and floating-point): underscores between digits alone, a fraction
# without digits, exponents, values between two neighbours, and the last value of each range.
(module (func i32.const ^0x_1 drop))	not read at ^: invalid number
(module (func i32.const ^0x drop))	not read at ^: invalid number
(module (func f32.const 1.e1 drop))	0061736d01000000010401600000030201000a0a01080043000020411a0b
(module (func f32.const 0x1.p1 drop))	0061736d01000000010401600000030201000a0a01080043000000401a0b
(module (func f32.const 0x1.000001p0 drop))	0061736d01000000010401600000030201000a0a010800430000803f1a0b
(module (func f64.const 0x1.00000000000008000001p0 drop))	0061736d01000000010401600000030201000a0e010c0044010000000000f03f1a0b
(module (func f32.const 1E1 drop))	0061736d01000000010401600000030201000a0a01080043000020411a0b
(module (func f32.const 0x1P1 drop))	0061736d01000000010401600000030201000a0a01080043000000401a0b
(module (func f32.const 0x1p+1 drop))	0061736d01000000010401600000030201000a0a01080043000000401a0b
(module (func f32.const 0x1p-1_0 drop))	0061736d01000000010401600000030201000a0a010800430000803a1a0b
(module (func f64.const 0x1p-1050 drop))	0061736d01000000010401600000030201000a0e010c004400000001000000001a0b
(module (func f32.const ^nan:0x800000 drop))	not read at ^: constant out of range
(module (func f32.const ^1e39 drop))	not read at ^: constant out of range
(module (func f64.const ^1e400 drop))	not read at ^: constant out of range
(module (func call ^-1))	not read at ^: invalid number

# Ids and annotations (text format, identifiers and annotations). An annotation that means nothing
# is skipped with all that is in it.
(module (@x (@name "a")) (func))	0061736d01000000010401600000030201000a040102000b
(module (func ^$""))	not read at ^: empty identifier
(module (func (@"name" "x")))	0061736d01000000010401600000030201000a040102000b000b046e616d65010401000178
(module (elem $e (@name "x") func))	0061736d01000000090401010000000b046e616d65080401000178
(module (@name "m") (func))	0061736d01000000010401600000030201000a040102000b0009046e616d650002016d

# Modules: one, in parentheses or not, as fields, as bytes or as a text in quotes; and what is not a
# module.
(func)^)	not read at ^: unexpected token after module
(module (func^	not read at ^: expected `)`
(module) ^(module)	not read at ^: unexpected token after module
(module (func) (start 0) (func) (start ^1))	not read at ^: multiple start sections
(module quote "(func) (start 0)" "(start ^0)")	not read at ^: multiple start sections
(func) (start 0)	0061736d01000000010401600000030201000801000a040102000b
(module (func ^"a"))	not read at ^: unknown operator or unexpected token
(module (func) ^"a")	not read at ^: expected valid module field
(module ^definition (func))	not read at ^: expected valid module field
(module binary "\00asm\01\00\00\00")	0061736d01000000
(module quote "(func)")	0061736d01000000010401600000030201000a040102000b

# Types and type uses (text format, types). A parameter with an id or a name annotation is alone in
# its form.
(module (func (result i32) (^param i32)))	not read at ^: `param` must come before `result`
(module (func (param $a i32 ^i32)))	not read at ^: expected `)`
(module (func block (param ^$a i32) end))	not read at ^: expected a value type
(module (func (local (@name "x") i32 ^i32)))	not read at ^: expected `)`
(module (func (local $a^)))	not read at ^: expected a value type
(module (func (param i32) (local i32) (^param i32)))	not read at ^: unknown operator or unexpected token
(module (func (type 0) (^type 0)))	not read at ^: unknown operator or unexpected token
(module (type (sub (func))))	0061736d010000000106015000600000
(module (rec))	0061736d010000000103014e00
(module (func (param (ref (exact 0)))))	refused: uncovered form: descriptor or exact type
(module (func (param (ref null noexn))))	0061736d010000000106016001637400030201000a040102000b
(module (func (param nullexnref)))	0061736d010000000106016001637400030201000a040102000b

# Inline imports, exports and abbreviations of fields (text format, modules).
(module (func (export "a") (import "b" "c")))	0061736d0100000001040160000002070101620163000007050101610000
(module (memory (import "a" "b") 1 ^(data "x")))	not read at ^: expected `)`
(module (global $a (mut i32)))	0061736d010000000604017f010b000b046e616d65070401000161
(module (table 1 funcref (ref.null func)))	0061736d010000000409014000700001d0700b
(module (table funcref^))	not read at ^: expected `(elem`
(module (import "a" "b" (func) ^(func)))	not read at ^: expected `)`
(module (export "a" (func^)))	not read at ^: expected an index
(module (data 0 (offset) "x"))	0061736d010000000b0501000b0178
(module (memory (data) ))	0061736d010000000504010100000b06010041000b00
(module (memory (pagesize 1) (data "a")))	0061736d01000000050501090101000b07010041000b0161
(module (memory i32 (data "a")))	0061736d010000000504010101010b07010041000b0161

# Limits and memory types (text format, types): one address type, the largest limits, sharing and
# page sizes.
(module (memory i64 1 0xffffffffffff0000))	0061736d01000000050d0105018080fcffffffffffff01
(module (memory i32 ^i64 1))	not read at ^: expected a number
(module (table i32 ^i64 1 funcref))	not read at ^: expected a reference type
(module (memory 1 shared))	0061736d010000000503010201
(module (memory 1 2 shared (pagesize 1)))	0061736d010000000505010b010200
(module (memory 1 (pagesize ^3)))	not read at ^: page size must be a power of two

# Element segments: a table by its number, lists without functions, and types that a segment without
# a table has no place for.
(module (table 1 funcref) (table 1 funcref) (func $f) (elem 1 (i32.const 0) $f))	0061736d0100000001040160000003020100040702700001700001090901020141000b0001000a040102000b000b046e616d65010401000166
(module (table externref (elem)))	0061736d010000000405016f010000090801060041000b6f00
(module (elem declare func))	0061736d01000000090401030000
(module (type $t (func)) (func $f (type $t)) (table (ref null $t) (elem $f)))	0061736d01000000010401600000030201000406016300010101090c01060041000b630001d2000b0a040102000b0011046e616d65010401000166040401000174
(module (type $t (func)) (func $f (type $t)) (table (ref $t) (elem $f $f)))	0061736d01000000010401600000030201000406016400010202090f01060041000b640002d2000bd2000b0a040102000b0011046e616d65010401000166040401000174
(module (table 1 externref) (elem (i32.const 0) externref (ref.null extern)))	0061736d010000000404016f0001090b01060041000b6f01d06f0b
(module (func) (table 1 funcref) (elem (i32.const 0) (ref func) (ref.func 0)))	0061736d0100000001040160000003020100040401700001090c01060041000b647001d2000b0a040102000b

# Folded and plain blocks (text format, control instructions).
(module (func (if (i32.const 1))^))	not read at ^: expected `then`
(module (func (if (i32.const 1) (then) ^nop)))	not read at ^: expected `(` or `)`
(module (func (if (then))))	0061736d01000000010401600000030201000a0701050004400b0b
(module (func i32.const 1 i32.const 1 if (result i32) else end))	0061736d01000000010401600000030201000a0c010a0041014101047f050b0b
(module (func block $a end $a ^$b))	not read at ^: unknown operator or unexpected token
(module (func block (result exnref) try_table (catch_all_ref 0) end unreachable end drop))	0061736d01000000010401600000030201000a10010e000263691f400103000b000b1a0b
(module (func (try (do) (delegate 0 ^nop))))	not read at ^: expected `)`

# Immediates of instructions (text format, instructions): how many, in which order, and their
# values.
(module (memory 1) (func v128.load8_lane 0 align=1 1))	0061736d010000000104016000000302010005030100010a09010700fd540000010b
(module (func select (result i32) (result i64)))	0061736d01000000010401600000030201000a080106001c027f7e0b
(module (func select (result)))	0061736d01000000010401600000030201000a060104001c000b
(module (func i8x16.shuffle 255 255 255 255 255 255 255 255 255 255 255 255 255 255 255 255))	0061736d01000000010401600000030201000a16011400fd0dffffffffffffffffffffffffffffffff0b
(module (func v128.const i8x16 1 2 3 4 5 6 7 8 9 10 11 12 13 14 15 ^256))	not read at ^: constant out of range
(module (func v128.const i32x4 1 2 3^))	not read at ^: expected a number
(module (func i32.load offset=1 ^offset=2))	not read at ^: unknown operator or unexpected token
(module (func i32.load align=4 ^offset=2))	not read at ^: unknown operator or unexpected token
(module (func i32.load offset=4294967296 ^align=0))	not read at ^: alignment must be a power of two
(module (memory 1) (func (drop (i32.load ^align=0 (i32.const 0)))))	not read at ^: alignment must be a power of two
(module (memory i64 1) (func (drop (i32.load offset=0x1_0000_0000 (i64.const 0)))))	0061736d010000000104016000000302010005030104010a0e010c004200280280808080101a0b
(module (memory 1) (memory 1) (data "a") (func (memory.init 1 0 (i32.const 0) (i32.const 0) (i32.const 0))))	0061736d0100000001040160000003020100050502000100010c01010a0e010c00410041004100fc0800010b0b0401010161
(module (table 1 funcref) (table 1 funcref) (func (table.copy 0 1 (i32.const 0) (i32.const 0) (i32.const 0))))	0061736d01000000010401600000030201000407027000017000010a0e010c00410041004100fc0e00010b
(module (type (array (mut i32))) (type (array i32)) (func (array.copy 0 1)))	0061736d01000000010a035e7f015e7f00600000030201020a08010600fb1100010b

# Plain instructions are no operands of a folded one (text format, folded instructions).
(module (func (i32.add ^i32.const 1 (i32.const 2)) drop))	not read at ^: expected `(` or `)`
(module (func (i32.const 1 ^drop)))	not read at ^: expected `(` or `)`

# Branch hints (code metadata: branch hinting). A hint before a folded instruction is on the
# instruction that the fold names, which is after its operands. The crate and wat2wasm put it on the
# first operand: their offsets in the third and the fourth text are 3 and 1.
(module (func (@metadata.code.branch_hint ^"\02") if end))	not read at ^: invalid value for branch hint
(module (func i32.const 1 (@metadata.code.branch_hint "\01") br_if 0))	0061736d01000000010401600000030201000020196d657461646174612e636f64652e6272616e63685f68696e740100010301010a0801060041010d000b
(module (func i32.const 1 (drop (@metadata.code.branch_hint "\01") (if (result i32) (i32.const 1) (then (i32.const 1)) (else (i32.const 2))))))	0061736d01000000010401600000030201000020196d657461646174612e636f64652e6272616e63685f68696e740100010501010a11010f0041014101047f41010541020b1a0b
(module (func (@metadata.code.branch_hint "\01") (br_if 0 (i32.const 1))))	0061736d01000000010401600000030201000020196d657461646174612e636f64652e6272616e63685f68696e740100010301010a0801060041010d000b
(module (func (@metadata.code.branch_hint "\01" ^i32.const 1) if end))	not read at ^: expected `)`

# Custom sections (text format, custom annotations; tool conventions): their places, the order of
# fields in `producers`, flags of `dylink.0`, and neighbouring entries of one kind, which are one
# subsection.
(module (global i32 i32.const 0) (tag) (@custom "a" (after tag) ""))	0061736d010000000104016000000d03010000000201610606017f0041000b
(module (func) (@custom "a" (after last) "x"))	0061736d01000000010401600000030201000a040102000b0003016178
(module (@producers (sdk "a" "1") (processed-by "b" "2")))	0061736d0100000000260970726f647563657273020373646b01016101310c70726f6365737365642d62790101620132
(module (@dylink.0 (import-info "a" "b" tls)))	0061736d0100000000120864796c696e6b2e30040701016101628002
(module (@dylink.0 (import-info "a" "b" binding-weak undefined)))	0061736d0100000000110864796c696e6b2e300406010161016211
(module (@dylink.0 (mem-info (memory 1 2) (table 3 4))))	0061736d01000000000f0864796c696e6b2e30010401020304
(module (@dylink.0 (export-info "a" 1) (export-info "b" 2)))	0061736d0100000000120864796c696e6b2e30030702016101016202

# Hints before folded instructions (code metadata: branch hinting). The hint is on the instruction
# that the fold names, at any depth, and before a folded `if` it is on the `if`, after its
# condition. The bytes are those that the crate gives for the same instructions without parentheses.
# For folded instructions the crate and wat2wasm put the hint on the first operand, and wasm-as does
# not.
(module (func (param i32) (@metadata.code.branch_hint "\00") (br_if 0 (local.get 0))))	0061736d0100000001050160017f00030201000020196d657461646174612e636f64652e6272616e63685f68696e740100010301000a0801060020000d000b
(module (func (param i32) (@metadata.code.branch_hint "\01") (if (local.get 0) (then nop))))	0061736d0100000001050160017f00030201000020196d657461646174612e636f64652e6272616e63685f68696e740100010301010a0a01080020000440010b0b
(module (func (@metadata.code.branch_hint "\00") (br_if 0 (i32.add (i32.const 1) (i32.const 2)))))	0061736d01000000010401600000030201000020196d657461646174612e636f64652e6272616e63685f68696e740100010601000a0b010900410141026a0d000b
(module (func (param i32) (drop (i32.eqz (@metadata.code.branch_hint "\00") (if (result i32) (local.get 0) (then (i32.const 1)) (else (i32.const 2)))))))	0061736d0100000001050160017f00030201000020196d657461646174612e636f64652e6272616e63685f68696e740100010301000a10010e002000047f41010541020b451a0b
(module (func (param i32) (@metadata.code.branch_hint "\01") (br_if 0 (@metadata.code.branch_hint "\00") (if (result i32) (local.get 0) (then (i32.const 1)) (else (i32.const 2))))))	0061736d0100000001050160017f00030201000023196d657461646174612e636f64652e6272616e63685f68696e740100020301000b01010a10010e002000047f41010541020b0d000b
(module (func (param i32) (block (drop (i32.add (i32.const 1) (@metadata.code.branch_hint "\01") (br_if 0 (i32.const 2) (i32.eqz (local.get 0))))))))	0061736d0100000001050160017f00030201000020196d657461646174612e636f64652e6272616e63685f68696e740100010a01010a120110000240410141022000450d006a1a0b0b
(module (func (if (i32.const 0) (then (@metadata.code.branch_hint "\01") (br_if 0 (i32.const 1))) (else (@metadata.code.branch_hint "\00") (br_if 0 (i32.const 2))))))	0061736d01000000010401600000030201000023196d657461646174612e636f64652e6272616e63685f68696e740100020701010c01000a120110004100044041010d000541020d000b0b
(module (func (if (@metadata.code.branch_hint "\00") (br_if 0 (i32.const 1)) (i32.const 0) (then))))	0061736d01000000010401600000030201000020196d657461646174612e636f64652e6272616e63685f68696e740100010301000a0d010b0041010d00410004400b0b
(module (func (@metadata.code.branch_hint "\00") (block (nop))))	0061736d01000000010401600000030201000020196d657461646174612e636f64652e6272616e63685f68696e740100010101000a080106000240010b0b
(module (func (@metadata.code.branch_hint "\01") (loop (@metadata.code.branch_hint "\00") (if (i32.const 1) (then)))))	0061736d01000000010401600000030201000023196d657461646174612e636f64652e6272616e63685f68696e740100020101010501000a0c010a000340410104400b0b0b
(module (func (@metadata.code.branch_hint "\00") (try (do nop) (catch_all))))	0061736d01000000010401600000030201000020196d657461646174612e636f64652e6272616e63685f68696e740100010101000a09010700064001190b0b
(module (func (@metadata.code.branch_hint "\00") (nop) (@metadata.code.branch_hint "\01") nop) (func nop) (func (drop (@metadata.code.branch_hint "\00") (i32.const 1))))	0061736d010000000104016000000304030000000028196d657461646174612e636f64652e6272616e63685f68696e7402000201010002010102010101000a1003040001010b0300010b050041011a0b

# Hints that are on no instruction: before `)`, before an arm of a folded block, and in expressions
# outside of a body; and annotations of hints that hold anything but one string.
(module (func (if (i32.const 0) (then) (^@metadata.code.branch_hint "\00"))))	not read at ^: branch hints must be on instructions, in increasing order, with value 0 or 1
(module (func (if (i32.const 0) (then) (^@metadata.code.branch_hint "\00") (else))))	not read at ^: branch hints must be on instructions, in increasing order, with value 0 or 1
(module (func (if (i32.const 0) (^@metadata.code.branch_hint "\00") (then))))	not read at ^: branch hints must be on instructions, in increasing order, with value 0 or 1
(module (func (if (i32.const 0) (then (^@metadata.code.branch_hint "\00")))))	not read at ^: branch hints must be on instructions, in increasing order, with value 0 or 1
(module (func (drop (i32.const 0) (^@metadata.code.branch_hint "\00"))))	not read at ^: branch hints must be on instructions, in increasing order, with value 0 or 1
(module (func (block nop (^@metadata.code.branch_hint "\00"))))	not read at ^: branch hints must be on instructions, in increasing order, with value 0 or 1
(module (func (try (do) (^@metadata.code.branch_hint "\00") (catch_all))))	not read at ^: branch hints must be on instructions, in increasing order, with value 0 or 1
(module (func (^@metadata.code.branch_hint "\00")))	not read at ^: branch hints must be on instructions, in increasing order, with value 0 or 1
(module (table 1 funcref) (elem (i32.const 0) funcref (item (^@metadata.code.branch_hint "\00") ref.func 0)) (func))	not read at ^: unexpected branch hint
(module (memory 1) (data (offset (^@metadata.code.branch_hint "\00") i32.const 0) "a"))	not read at ^: unexpected branch hint
(module (memory 1) (data (i32.add (^@metadata.code.branch_hint "\00") (i32.const 0) (i32.const 1)) "a"))	not read at ^: unexpected branch hint
(module (global i32 (^@metadata.code.branch_hint "\00") i32.const 0))	not read at ^: unexpected branch hint
(module (func (@metadata.code.branch_hint "\00" ^nop) nop))	not read at ^: expected `)`
(module (func (@metadata.code.branch_hint "\00" ^"\01") nop))	not read at ^: expected `)`
(module (func (@metadata.code.branch_hint^) nop))	not read at ^: expected a string
(module (func (@metadata.code.branch_hint ^"") nop))	not read at ^: invalid value for branch hint
(module (func (@metadata.code.branch_hint ^"\00\01") nop))	not read at ^: invalid value for branch hint

# Elements inline in a table. A segment of functions has no place for a type, so in a table that is
# not `funcref` functions by index are expressions `ref.func` of the type of the table.
(module (table (ref func) (elem $f)) (func $f))	0061736d01000000010401600000030201000406016470010101090c01060041000b647001d2000b0a040102000b000b046e616d65010401000166
(module (table (ref func) (elem)))	0061736d010000000406016470010000090901060041000b647000
(module (table (ref null func) (elem $f)) (func $f))	0061736d010000000104016000000302010004050170010101090901020041000b0001000a040102000b000b046e616d65010401000166
(module (table funcref (elem $f 0)) (func $f))	0061736d010000000104016000000302010004050170010202090a01020041000b000200000a040102000b000b046e616d65010401000166
(module (type $t (func)) (table i64 (ref null $t) (elem $f)) (func $f (type $t)))	0061736d01000000010401600000030201000406016300050101090c01060042000b630001d2000b0a040102000b0011046e616d65010401000166040401000174
(module (type $t (func)) (table (ref null $t) (elem (ref.func $f))) (func $f (type $t)))	0061736d01000000010401600000030201000406016300010101090c01060041000b630001d2000b0a040102000b0011046e616d65010401000166040401000174
(module (table anyref (elem (item ref.null any) (ref.i31 (i32.const 1)))))	0061736d01000000040601636e010202091101060041000b636e02d06e0b4101fb1c0b
(module (type $t (func)) (table (ref $t) (elem ^$g)) (func $f (type $t)))	fault at ^: unknown func: failed to find name `$g`

# Active segments without a table use whose elements are not `funcref`: the table is the first one,
# and the bytes name it, because the short form has no place for a type.
(module (table 1 externref) (elem (i32.const 0) externref))	0061736d010000000404016f0001090801060041000b6f00
(module (func $f) (table 1 (ref null func)) (elem (i32.const 0) (ref null func) (ref.func $f)))	0061736d01000000010401600000030201000404017000010909010441000b01d2000b0a040102000b000b046e616d65010401000166
(module (type $t (func)) (func $f (type $t)) (table 1 (ref null $t)) (elem (offset (i32.const 0)) (ref null $t) (ref.func $f)))	0061736d010000000104016000000302010004050163000001090c01060041000b630001d2000b0a040102000b0011046e616d65010401000166040401000174
(module (table i64 1 externref) (elem (i64.const 0) externref (ref.null extern)))	0061736d010000000404016f0401090b01060042000b6f01d06f0b
(module (table 1 externref) (elem (table 0) (i32.const 0) externref (ref.null extern)))	0061736d010000000404016f0001090b01060041000b6f01d06f0b
(module (elem externref (ref.null extern)) (elem declare externref))	0061736d01000000090a02056f01d06f0b076f00

# Neighbouring entries of one kind are one subsection of `dylink.0`, and entries after another
# subsection begin a new one. Each flag by its word.
(module (@dylink.0 (import-info "a" "b" 1) (import-info "c" "d" 2)))	0061736d0100000000160864796c696e6b2e30040b0201610162010163016402
(module (@dylink.0 (export-info "a" 1) (import-info "a" "b" 1) (export-info "b" 2) (export-info "c" tls)))	0061736d0100000000210864796c696e6b2e30030401016101040601016101620103080201620201638002
(module (@dylink.0 (export-info "a" 1)) (@dylink.0 (export-info "b" 2)))	0061736d01000000000f0864796c696e6b2e30030401016101000f0864796c696e6b2e30030401016202
(module (@dylink.0 (needed "a") (needed "b") (runtime-path "c") (runtime-path "d")))	0061736d01000000001d0864796c696e6b2e300203010161020301016205030101630503010164
(module (@dylink.0 (export-info "a" binding-weak) (export-info "b" binding-local) (export-info "c" visibility-hidden) (export-info "d" undefined) (export-info "e" exported) (export-info "f" explicit-name) (export-info "g" no-strip) (export-info "h" tls) (export-info "i" absolute)))	0061736d01000000002a0864796c696e6b2e30031f09016101016202016304016410016520016640016780010168800201698004
(module (@dylink.0 (export-info "a" ^hidden)))	not read at ^: invalid number

# Blocks that are not closed have the offset of the word that opened them; an `end`, an `else` or a
# part of a `try` that no open block takes has its own (text format, control instructions).
(module (func ^block))	not read at ^: expected `end` of this block
(module (func ^block loop end))	not read at ^: expected `end` of this block
(module (func block ^loop))	not read at ^: expected `end` of this block
(module (func ^if else))	not read at ^: expected `end` of this block
(module (func ^try catch_all))	not read at ^: expected `end` of this block
(module (func ^try_table (catch_all 0)))	not read at ^: expected `end` of this block
(module (func (block ^block)))	not read at ^: expected `end` of this block
(module (func (if (i32.const 0) (then ^block) (else end))))	not read at ^: expected `end` of this block
(module (func block end ^if) (func end))	not read at ^: expected `end` of this block
(module (func ^end))	not read at ^: unexpected `end`
(module (func block end ^end))	not read at ^: unexpected `end`
(module (func (block ^end)))	not read at ^: unexpected `end`
(module (func (loop block end ^end block)))	not read at ^: unexpected `end`
(module (func (^else)))	not read at ^: unexpected `else`
(module (func (^end)))	not read at ^: unexpected `end`
(module (func if else ^else end))	not read at ^: unexpected `else`
(module (func loop ^else end))	not read at ^: unexpected `else`
(module (func (if (i32.const 0) (then ^else))))	not read at ^: unexpected `else`
(module (func if block ^else end end))	not read at ^: unexpected `else`
(module (tag) (func ^catch 0))	not read at ^: unexpected `catch`
(module (tag) (func block ^catch 0 end))	not read at ^: unexpected `catch`
(module (tag) (func try catch_all ^catch 0 end))	not read at ^: unexpected `catch`
(module (func try catch_all ^catch_all end))	not read at ^: unexpected `catch_all`
(module (func try delegate 0 ^end))	not read at ^: unexpected `end`
(module (tag) (func try catch 0 ^delegate 0))	not read at ^: unexpected `delegate`
(module (func block ^delegate 0))	not read at ^: unexpected `delegate`
(module (global i32 ^block i32.const 0))	not read at ^: unbalanced blocks in constant expression
(module (memory 1) (data (offset i32.const 0 ^end) "a"))	not read at ^: unbalanced blocks in constant expression
(module (table 1 funcref) (elem (offset ^loop) func))	not read at ^: unbalanced blocks in constant expression
(module (table 1 funcref) (elem (i32.const 0) funcref (item ref.null func ^end)))	not read at ^: unbalanced blocks in constant expression
(module (func block loop end end if else end if end))	0061736d01000000010401600000030201000a11010f00024003400b0b0440050b04400b0b
(module (tag) (func try catch 0 catch 0 catch_all end try catch 0 end try end))	0061736d01000000010401600000030201000d030100000a14011200064007000700190b064007000b06400b0b
(module (func block try delegate 0 end))	0061736d01000000010401600000030201000a0b0109000240064018000b0b
(module (func (block block end) (loop (block) if else end) (if (i32.const 1) (then block end) (else loop end))))	0061736d01000000010401600000030201000a20011e00024002400b0b034002400b0440050b0b4101044002400b0503400b0b0b
(module (func (try (do block end) (catch_all if end)) try_table end))	0061736d01000000010401600000030201000a12011000064002400b1904400b0b1f40000b0b
(module (global i32 block (result i32) i32.const 0 end))	0061736d010000000609017f00027f41000b0b

# In a folded instruction operands are folded too, in offsets and elements as in bodies (text
# format, folded instructions).
(module (func (drop ^i32.const 0)))	not read at ^: expected `(` or `)`
(module (func (nop ^nop)))	not read at ^: expected `(` or `)`
(module (func (i32.const 0 ^drop)))	not read at ^: expected `(` or `)`
(module (func (drop (i32.const 0) ^nop)))	not read at ^: expected `(` or `)`
(module (func (drop (block (result i32) (i32.const 0)) ^nop)))	not read at ^: expected `(` or `)`
(module (func (if ^i32.const 0 (then))))	not read at ^: expected `(`
(module (func (if (i32.const 0) ^nop (then))))	not read at ^: expected `(`
(module (func (call_indirect ^i32.const 0)))	not read at ^: expected `(` or `)`
(module (memory 1) (data (i32.add ^i32.const 0 (i32.const 1)) "a"))	not read at ^: expected `(` or `)`
(module (memory 1) (data (offset (i32.const 0 ^nop)) "a"))	not read at ^: expected `(` or `)`
(module (table 1 funcref) (elem (i32.const 0 ^i32.const 1) func))	not read at ^: expected `(` or `)`
(module (func) (elem funcref (ref.func 0 ^nop)))	not read at ^: expected `(` or `)`
(module (func) (elem funcref (item (ref.func 0 ^nop))))	not read at ^: expected `(` or `)`
(module (global i32 (i32.const 0 ^nop)))	not read at ^: expected `(` or `)`
(module (func (block drop (drop) nop (loop i32.const 0 drop))))	0061736d01000000010401600000030201000a10010e0002401a1a01034041001a0b0b0b
(module (func (drop (block (result i32) i32.const 0)) (br_table 0 0 (i32.const 0))))	0061736d01000000010401600000030201000a10010e00027f41000b1a41000e0100000b
(module (func (drop (if (result i32) (i32.const 0) (then i32.const 1 nop) (else i32.const 2 nop)))))	0061736d01000000010401600000030201000a11010f004100047f410101054102010b1a0b

# A group of imports of one type defines an item for each name (compact import section proposal): two
# of them have one id, and what its type names is looked up before the group is refused.
(module (import "m" (item "a") (item "b") (func ^$f)) (start $f))	fault at ^: duplicate func identifier
(module (func) (^import "m" (item "a") (func $f)) (start $f))	fault at ^: import after function
(module (import "m" (item "a") (func $f (type ^$t))) (start $f))	fault at ^: unknown type: failed to find name `$t`

# What is no text by the grammar, though other readers take it, beside the same thing as it is
# written (text format, instructions and modules; legacy exception handling). The bytes of a folded
# `try` are those of the same instructions without parentheses.
(module (func (try (do) (catch_all) (^catch_all))))	not read at ^: expected `)`
(module (tag) (func (try (do) (catch_all) (^catch 0))))	not read at ^: expected `)`
(module (tag) (func (try (do) (catch 0) (^delegate 0))))	not read at ^: expected `catch` or `catch_all`
(module (func (try (do) (delegate 0) (^catch_all))))	not read at ^: expected `)`
(module (func (try (do) (delegate 0))))	0061736d01000000010401600000030201000a08010600064018000b
(module (tag) (func (try (do) (catch 0 nop) (catch 0) (catch_all nop))))	0061736d01000000010401600000030201000d030100000a0e010c000640070001070019010b0b
(module (type (func)) (table $t 1 funcref) (func i32.const 0 call_indirect (type 0) ^$t))	not read at ^: unknown operator or unexpected token
(module (type (func)) (table $t 1 funcref) (func i32.const 0 call_indirect $t (type 0)))	0061736d01000000010401600000030201000404017000010a0901070041001100000b000b046e616d65050401000174
(module (table 0 ^anyfunc))	not read at ^: expected a reference type
(module (table 0 funcref))	0061736d01000000040401700000
(module (func $f) (elem $f^))	not read at ^: expected `func` or a reference type
(module (func $f) (elem $e ^$f))	not read at ^: expected `func` or a reference type
(module (func $f) (elem declare ^$f))	not read at ^: expected `func` or a reference type
(module (elem^))	not read at ^: expected `func` or a reference type
(module (elem declare^))	not read at ^: expected `func` or a reference type
(module (func $f) (table 1 funcref) (elem (table 0) (i32.const 0) ^$f))	not read at ^: expected `func` or a reference type
(module (table 1 funcref) (elem (table 0) (i32.const 0)^))	not read at ^: expected `func` or a reference type
(module (func $f) (elem func $f) (elem declare func $f) (elem func))	0061736d0100000001040160000003020100090c0301000100030001000100000a040102000b000b046e616d65010401000166
(module (func $f) (table 1 funcref) (elem (table 0) (i32.const 0) func $f) (elem (i32.const 0) $f) (elem (i32.const 0)) (elem (i32.const 0) func $f))	0061736d0100000001040160000003020100040401700001091a04020041000b0001000041000b01000041000b000041000b01000a040102000b000b046e616d65010401000166
(module (func (result) (^param i32)))	not read at ^: `param` must come before `result`
(module (type (func (result) (^param))))	not read at ^: `param` must come before `result`
(module (func (param) (param i32) (result) (result i32) i32.const 0))	0061736d0100000001060160017f017f030201000a0601040041000b
(module (memory $m 1) (data $n ^$m (i32.const 0) "a"))	not read at ^: expected `(`
(module (table $t 1 funcref) (elem $e ^$t (i32.const 0) func))	not read at ^: expected `func` or a reference type
(module (memory $m 1) (data $n (memory $m) (i32.const 0) "a"))	0061736d0100000005030100010b07010041000b01610011046e616d6506040100016d09040100016e
(module (func i32.const 0 ref.i31_shared drop))	refused: uncovered form: instruction beyond the table
(module (memory i64 ^i32 1))	not read at ^: expected a number
(module (memory i64 ^i64 1))	not read at ^: expected a number
(module (import "a" "b" (memory i32 ^i64 1)))	not read at ^: expected a number
(module (import "a" "b" (table i32 ^i64 1 funcref)))	not read at ^: expected a number
(module (memory i32 1) (memory i64 1) (table i32 1 funcref) (table i64 1 funcref))	0061736d0100000004070270000170040105050200010401

# An annotation that means nothing may hold any tokens: reserved ones, an empty id, strings side by
# side, and parentheses in pairs. Its strings and comments are those of the text format (text
# format, annotations).
(module (@x , ; [ ] { }) (func))	0061736d01000000010401600000030201000a040102000b
(module (@x x"y"2) (func))	0061736d01000000010401600000030201000a040102000b
(module (@x $) (func))	0061736d01000000010401600000030201000a040102000b
(module (@x "a""b" $"" 0x 1_ a,b;c[d]e{f}g) (func))	0061736d01000000010401600000030201000a040102000b
(module (@x (a (b) ()) (@y (z)) (@name)) (func))	0061736d01000000010401600000030201000a040102000b
(module (func (@x i32.const) nop (@"x y" ,) (drop (@x) (i32.const 0))))	0061736d01000000010401600000030201000a080106000141001a0b
(module (@"x" (; ) ;) ")" "(" (;;)) (func))	0061736d01000000010401600000030201000a040102000b
\(module (@x ;; )\n) (func))	0061736d01000000010401600000030201000a040102000b
(module (^@) (func))	not read at ^: empty annotation id
(module (^@ x) (func))	not read at ^: empty annotation id
(module (^@"" x) (func))	not read at ^: empty annotation id
(module (@x "a^\q") (func))	not read at ^: invalid string escape
\(module (@x "^\7f") (func))	not read at ^: invalid character in string
\(module (@x ^\7f) (func))	not read at ^: unexpected character
(module (^@x (func)	not read at ^: unterminated annotation
(module (@x ^(; ) (func))	not read at ^: unterminated block comment

# The first error of the text is told, as in the crate. A wrong token is the first one if those before it
# are right so far: a `(` before it, and a block that is open there, are.
(module (^fnuc) (data "a))	not read at ^: expected valid module field
(module (func ^i32.foo (@a "\q"))	not read at ^: unknown operator or unexpected token
(module (func i32.const ^x) (@a (@b "\q	not read at ^: invalid number
(module (@a "^\q") (fnuc))	not read at ^: invalid string escape
(module (func block ^[	not read at ^: unexpected character
(module (func nop) (^[	not read at ^: unexpected character
(module (type (struct (^[	not read at ^: unexpected character
(module (func) (import "" "" (func)) ^[	not read at ^: unexpected character
(start 0) (start 0) ^[	not read at ^: unexpected character

# Offsets in strings: a wrong escape has its own, and a character that no string holds too. Line
# feeds, carriage returns and tabs are white space, a line feed or a carriage return ends a line
# comment, and all count as bytes.
(module (data "ab^\q"))	not read at ^: invalid string escape
(module (data "\n\t^\u{d800}"))	not read at ^: invalid string escape
(module (data "a^\7g"))	not read at ^: invalid string escape
(module (data "a^\u41"))	not read at ^: invalid string escape
(module (export "é^\q" (func 0)))	not read at ^: invalid string escape
(module (func (export "a") (export "b^\zz")))	not read at ^: invalid string escape
(module $"a^\q")	not read at ^: invalid string escape
(module (@custom "a" "b^\q"))	not read at ^: invalid string escape
\(module (data "ab^\01"))	not read at ^: invalid character in string
\(module (data "a^\nb"))	not read at ^: invalid character in string
\(module (data "a\\n^\tb"))	not read at ^: invalid character in string
(module (export ^"a\ff" (func 0)))	not read at ^: malformed UTF-8 encoding
(module (func ^$"a\ff"))	not read at ^: malformed UTF-8 encoding
\(module\n\t(func)\r\n\t(func $a) ;; (func)\n)\n	0061736d0100000001040160000003030200000a070202000b02000b000b046e616d65010401010161
\(module ;; (func)\r(func))	0061736d01000000010401600000030201000a040102000b
\(module\n\r\n(func ^i32.foo))	not read at ^: unknown operator or unexpected token
\(module ;; é\n\t(func\r\ncall ^$x))	fault at ^: unknown func: failed to find name `$x`
\(module (; \n ;)\n(func (if (i32.const 0) (then) ^nop)))	not read at ^: expected `(` or `)`
(module (func i32.load offset=4 ^align=3))	not read at ^: alignment must be a power of two
(module (memory 1) (func (v128.load8_lane ^align=0 1 (i32.const 0) (v128.const i64x2 0 0))))	not read at ^: alignment must be a power of two
(module (func i32.load align=1 i64.load ^align=12))	not read at ^: alignment must be a power of two

# Modules as bytes, which are not looked at, and as texts in quotes. A fault in quotes has the offset
# of the token, or of the escape that writes its first character. At the end of the text in quotes it
# has that of the first string. The strings are one text, as in the reference interpreter and in wabt;
# the crate reads a blank after each. The bytes of a text in quotes are those of the same text without
# quotes.
(module $m binary "\00asm" "\01\00\00\00")	0061736d01000000
(module binary "abc" "" "\ff(")	616263ff28
(module binary ^nop)	not read at ^: expected a string
(module binary "\00asm" ^(func))	not read at ^: expected a string
(module quote)	0061736d01000000
(module quote "(func)" "(memory 1)")	0061736d010000000104016000000302010005030100010a040102000b
(module quote "(module (func $f) (start $f))")	0061736d01000000010401600000030201000801000a040102000b000b046e616d65010401000166
(module quote "(data \"a\\n\")")	0061736d010000000b05010102610a
(module quote "(fu" "nc nop)")	0061736d01000000010401600000030201000a05010300010b
(module quote "(data \"a" "b\")")	0061736d010000000b050101026162
(module quote "(func)" "(^fnc)")	not read at ^: expected valid module field
(module quote "(func nop" " " "^end)")	not read at ^: unexpected `end`
(module quote "(func call ^$x)")	fault at ^: unknown func: failed to find name `$x`
(module quote "(func\n\u{63}all\t^$x)")	fault at ^: unknown func: failed to find name `$x`
(module quote "(;\u{e9}é;) (func call " "^\24x)")	fault at ^: unknown func: failed to find name `$x`
(module quote "(func ca" "ll ^$x)")	fault at ^: unknown func: failed to find name `$x`
(module quote "(func ^i32" ".ad)")	not read at ^: unknown operator or unexpected token
(module quote "(func)" "(data \"^\\q\")")	not read at ^: invalid string escape
(module quote ^"(func)" "(func" )	not read at ^: expected `)`
(module quote ^func)	not read at ^: expected a string
(module quote "(func) ^\ff")	not read at ^: malformed UTF-8 encoding

# A custom section before and after each section, and before and after all.
(module (@custom "bf" (before first) "") (@custom "al" (after last) "") (@custom "b1" (before type) "") (@custom "a1" (after type) "") (@custom "b2" (before import) "") (@custom "a2" (after import) "") (@custom "b3" (before func) "") (@custom "a3" (after func) "") (@custom "b4" (before table) "") (@custom "a4" (after table) "") (@custom "b5" (before memory) "") (@custom "a5" (after memory) "") (@custom "bd" (before tag) "") (@custom "ad" (after tag) "") (@custom "b6" (before global) "") (@custom "a6" (after global) "") (@custom "b7" (before export) "") (@custom "a7" (after export) "") (@custom "b8" (before start) "") (@custom "a8" (after start) "") (@custom "b9" (before elem) "") (@custom "a9" (after elem) "") (@custom "ba" (before code) "") (@custom "aa" (after code) "") (@custom "bb" (before data) "") (@custom "ab" (after data) "") (import "a" "b" (func)) (func (export "f")) (table 1 funcref) (memory 1) (tag) (global i32 i32.const 0) (start 0) (elem (i32.const 0) 0) (data (i32.const 0) "x"))	0061736d010000000003026266000302623101040160000000030261310003026232020701016101620000000302613200030262330302010000030261330003026234040401700001000302613400030262350503010001000302613500030262640d03010000000302616400030262360606017f0041000b000302613600030262370705010166000100030261370003026238080100000302613800030262390907010041000b0100000302613900030262610a040102000b000302616100030262620b07010041000b01780003026162000302616c
(module (@producers (processed-by "b" "2") (language "c" "3") (sdk "a" "1") (language "d" "4")))	0061736d0100000000380970726f64756365727303086c616e67756167650201630133016401340373646b01016101310c70726f6365737365642d62790101620132

# Forms that no encoder covers are read, and refused when they are encoded. The first function is
# not the one that has the form.
(module (func $a) (func $b i64.add128))	refused: uncovered form: instruction beyond the table
(module (func) (func (drop (ref.test nullcontref (ref.null cont)))))	refused: uncovered form: stack switching
(module (func) (func (local (ref null (shared any)))))	refused: uncovered form: shared type
(module (func) (func atomic.fence acq_rel))	refused: uncovered form: memory ordering

# Characters that change the direction of a line may be in comments, strings and quoted ids (text
# format, characters). The crate refuses them; the bytes are those of wat2wasm.
\(module ;; \e2\80\ae) \e2\81\a6\n(func) (; \e2\80\ab ;))	0061736d01000000010401600000030201000a040102000b
\(module (data "\e2\80\ae\e2\80\8f"))	0061736d010000000b09010106e280aee2808f
\(module (func $"\e2\80\ae"))	0061736d01000000010401600000030201000a040102000b000d046e616d650106010003e280ae

# Faults that are common in texts that are written by hand. What was meant is often before the place: a
# parenthesis that is missing, or one too many.
\(module\n  (func $a\n    drop\n  (^func $b nop))\n	not read at ^: unknown operator or unexpected token
(module (func nop)) ^(func))	not read at ^: unexpected token after module
\(module (func (export ^\e2\80\9cf\e2\80\9d)))	not read at ^: unexpected character
(module (func nop) ^# a comment)	not read at ^: expected valid module field
(module (func i32.const ^'a' drop))	not read at ^: invalid number
(module (func i32.const 1^,000 drop))	not read at ^: expected whitespace or a parenthesis after token
(module (func (local i32) (^param i32)))	not read at ^: unknown operator or unexpected token
(module (@custom "a" (before ^frist) ""))	not read at ^: expected a valid section name
(module (data "^\u{d800}"))	not read at ^: invalid string escape
(module (import ^"\80" "b" (func)))	not read at ^: malformed UTF-8 encoding
(module quote "(func)" "(func ^i32.ad)")	not read at ^: unknown operator or unexpected token
(module (func (call $nope)) (func ^i32.foo))	not read at ^: unknown operator or unexpected token
(^	not read at ^: expected valid module field
(module (func i32.const^	not read at ^: expected a number
(module (func (block $a) loop $b end ^$a))	fault at ^: mismatching labels between end and block
"""


def unescaped(escaped):
    """The bytes of a text with escapes."""
    letters = {"n": b"\n", "r": b"\r", "t": b"\t", "\\": b"\\"}
    parts = re.findall(r"\\([0-9a-f]{2}|[nrt\\])|([^\\]+)", escaped)
    return b"".join(letters.get(escape) or bytes.fromhex(escape) if escape else plain.encode() for escape, plain in parts)


def size(stored):
    """How many bytes the text of the start of a line has."""
    return len(unescaped(stored[1:]) if stored.startswith("\\") else stored.encode())


def lines():
    """All texts, as crates/wat_golden stores them, with their answers."""
    for line in EDGES.split("\n"):
        if line and not line.startswith("#"):
            text, answer = line.split("\t")
            yield text.replace("^", ""), answer.replace("^", str(size(text.split("^")[0])))
