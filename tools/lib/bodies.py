"""Texts of one function or one expression that is wrong or at an edge, with their answers, for `tools/pages`.

In a text `^` stands before what is told, and in its answer for that place. The bytes were told by hand; those of instructions that
have no immediates but lanes and memory arguments are the keys of the table in `tools/data/instructions.txt`, which also says what no encoder covers.
"""

import itertools
import re

import instructions

TABLE = instructions.sections()

# The bytes of an access by the bits in its name.
NATURAL = {"8": 1, "16": 2, "32": 4, "64": 8}

TOLD = r"""
(module (func br ^$a))	fault at ^: unknown label: failed to find name `$a`
(module (func block $a end br ^$a))	fault at ^: unknown label: failed to find name `$a`
(module (func block $a block $a br $a br 1 end br $a end))	0061736d01000000010401600000030201000a10010e00024002400c000c010b0c000b0b0010046e616d650309010002000161010161
(module (func try $a delegate ^$a))	fault at ^: unknown label: failed to find name `$a`
(module (func try_table $h (catch_all ^$h) end))	fault at ^: unknown label: failed to find name `$h`
(module (func block $a br_table $a ^$x $y end))	fault at ^: unknown label: failed to find name `$x`
(module (func block $a br_table $a $a ^$z end))	fault at ^: unknown label: failed to find name `$z`
(module (func block $a block br_table $a 0 $a end end))	0061736d01000000010401600000030201000a0f010d00024002400e020100010b0b0b000d046e616d650306010001000161
(module (func ^delegate 0))	not read at ^: unexpected `delegate`
(module (func block $m block end ^$m end))	fault at ^: mismatching labels between end and block
(module (func if $l else ^$m end))	fault at ^: mismatching labels between end and block
(module (func block $l end $l block end ^$l))	fault at ^: mismatching labels between end and block
(module (func ^end $m))	not read at ^: unexpected `end`
(module (func block $l end ^end $m))	not read at ^: unexpected `end`
(module (func if $l else $l end $l))	0061736d01000000010401600000030201000a080106000440050b0b000d046e616d65030601000100016c
(module (func ^else $m))	not read at ^: unexpected `else`
(module (func block ^else end))	not read at ^: unexpected `else`
(module (global i32 i32.const 0 ^end))	not read at ^: unbalanced blocks in constant expression
(module (global i32 ^end block i32.const 0))	not read at ^: unbalanced blocks in constant expression
(module (global i32 local.get ^$x))	fault at ^: unknown local: failed to find name `$x`
(module (type $t (func (param $p i32))) (func (type $t) local.get ^$p))	fault at ^: unknown local: failed to find name `$p`
(module (type (struct)) (func block (type ^0) (result i32) end))	fault at ^: invalid type: not a function type
(module (type (func)) (func block (type ^5) (result i32) end))	fault at ^: unknown type: type index out of bounds
(module (type (func)) (func block (type ^0) (result i32) end))	fault at ^: inline function type doesn't match type reference
(module (type (struct)) (func call_indirect (type ^0) (result i32)))	fault at ^: invalid type: not a function type
(module (type (func)) (func call_indirect (type ^5) (result i32)))	fault at ^: unknown type: type index out of bounds
(module (type (func)) (func call_indirect (type ^0) (result i32)))	fault at ^: inline function type doesn't match type reference
(module (func block (type 5) end))	0061736d01000000010401600000030201000a0701050002050b0b
(module (type (func)) (func block (type 0) end))	0061736d01000000010401600000030201000a0701050002000b0b
(module (func block (result i32) end))	0061736d01000000010401600000030201000a07010500027f0b0b
(module (func i32.load ^align=0))	not read at ^: alignment must be a power of two
(module (func i32.load ^align=3))	not read at ^: alignment must be a power of two
(module (func i32.load align=9223372036854775808))	0061736d01000000010401600000030201000a07010500283f000b
(module (func i32.load offset=18446744073709551615))	0061736d01000000010401600000030201000a10010e002802ffffffffffffffffff010b
(module (func select))	0061736d01000000010401600000030201000a050103001b0b
(module (func select (result)))	0061736d01000000010401600000030201000a060104001c000b
(module (func select (result i32)))	0061736d01000000010401600000030201000a070105001c017f0b
(module (func select (result i32 i64)))	0061736d01000000010401600000030201000a080106001c027f7e0b
(module (type (array i8)) (func struct.get 0 ^$x))	fault at ^: accessing a named field `x` in a struct without named fields, type index 0
(module (type (func)) (func struct.get 0 ^$x))	fault at ^: accessing a named field `x` in a struct without named fields, type index 0
(module (type (struct)) (func struct.get 0 ^$x))	fault at ^: accessing a named field `x` in a struct without named fields, type index 0
(module (type (struct (field i32))) (func struct.get 0 ^$x))	fault at ^: accessing a named field `x` in a struct without named fields, type index 0
(module (type (struct (field i32))) (func struct.get 1 ^$x))	fault at ^: accessing a named field `x` in a struct without named fields, type index 1
(module (func struct.get 5 ^$x))	fault at ^: accessing a named field `x` in a struct without named fields, type index 5
(module (type $t (func (param $p i32))) (func (type $t) struct.get $t ^$p))	fault at ^: accessing a named field `p` in a struct without named fields, type index 0
(module (type (struct (field $x i32) (field $y i32))) (type $t (struct (field i32) (field $x i32))) (func struct.get 1 ^$y))	fault at ^: unknown field: failed to find name `$y`
(module (type (struct (field $x i32) (field $y i32))) (type $t (struct (field i32) (field $x i32))) (func struct.get ^$s $z))	fault at ^: unknown type: failed to find name `$s`
(module (type (struct (field $x i32) (field $y i32))) (type $t (struct (field i32) (field $x i32))) (func struct.get 0 $x struct.get 0 $y struct.get 1 $x struct.get $t $x struct.get 1 4294967295))	0061736d010000000110035f027f007f005f027f007f00600000030201020a1c011a00fb020000fb020001fb020101fb020101fb0201ffffffff0f0b001b046e616d650404010101740a0e0200020001780101790101010178
(module (func struct.get 0 $x struct.get $t $x) (type $t (struct (field i32) (field $x i32))))	0061736d01000000010a025f027f007f00600000030201010a0c010a00fb020001fb0200010b0013046e616d650404010001740a06010001010178
(module (type (array i8)) (func struct.get 0 4294967295 struct.get 7 0))	0061736d010000000107025e7800600000030201010a10010e00fb0200ffffffff0ffb0207000b
(module (type (struct (field $y i32) (field ^$y i32))) (func struct.get 0 $y))	fault at ^: duplicate identifier: duplicate field named `y`
(module (func atomic.fence acq_rel i64.add128))	refused: uncovered form: memory ordering
(module (func i64.add128 atomic.fence acq_rel))	refused: uncovered form: instruction beyond the table
(module (func i64.add128 br ^$a))	fault at ^: unknown label: failed to find name `$a`
(module (func br_on_cast 0 (ref null $a) (ref null ^$b)))	fault at ^: unknown type: failed to find name `$b`
(module (func br_on_cast_fail 0 (ref null $a) (ref null ^$b)))	fault at ^: unknown type: failed to find name `$b`
(module (func ref.cast (ref cont)))	refused: uncovered form: stack switching
(module (func ref.cast (ref nocont)))	refused: uncovered form: stack switching
"""

HEAPS = dict(
    func=0x70, extern=0x6F, exn=0x69, noexn=0x74, any=0x6E, eq=0x6D, struct=0x6B, array=0x6A, nofunc=0x73, noextern=0x72, none=0x71, i31=0x6C
)

# Instructions whose indices are 1, 2 and so on in the order in which they are looked up, the spaces of these, and the bytes, or the
# form that no encoder covers.
ORDERS = """
memory.init {2} {1}	data memory	fc080102
memory.copy {2} {1}	memory memory	fc0a0201
table.init {2} {1}	elem table	fc0c0102
table.copy {1} {2}	table table	fc0e0102
call_indirect {1} (type {2})	table type	110201
struct.new {1}	type	fb0001
struct.get {1} {2}	type field	fb020102
struct.get_s {1} {2}	type field	fb030102
struct.get_u {1} {2}	type field	fb040102
struct.set {1} {2}	type field	fb050102
array.new {1}	type	fb0601
array.new_fixed {1} 3	type	fb080103
array.new_data {1} {2}	type data	fb090102
array.new_elem {1} {2}	type elem	fb0a0102
array.fill {1}	type	fb1001
array.copy {1} {2}	type type	fb110102
array.init_data {1} {2}	type data	fb120102
array.init_elem {1} {2}	type elem	fb130102
ref.test (ref null {1})	type	fb1501
ref.cast (ref null {1})	type	fb1701
br_on_cast {1} (ref null {3}) (ref null {2})	label type type	fb1803010302
br_on_cast_fail {1} (ref null {3}) (ref null {2})	label type type	fb1903010302
v128.load8_lane {1} 0	memory	fd5440010000
memory.discard {1}	memory	instruction beyond the table
global.atomic.get acq_rel {1}	global	atomic of a global, table, struct or array
table.atomic.get acq_rel {1}	table	atomic of a global, table, struct or array
struct.atomic.get acq_rel {1} {2}	type field	atomic of a global, table, struct or array
array.atomic.get acq_rel {1}	type	atomic of a global, table, struct or array
i32.atomic.load seq_cst {1}	memory	memory ordering
v128.load8_lane seq_cst {1} 0	memory	memory ordering
struct.new_desc {1}	type	descriptor or exact type
struct.new_default_desc {1}	type	descriptor or exact type
ref.get_desc {1}	type	descriptor or exact type
ref.cast_desc_eq (ref null {1})	type	descriptor or exact type
br_on_cast_desc_eq {1} (ref null {3}) (ref null {2})	label type type	descriptor or exact type
br_on_cast_desc_eq_fail {1} (ref null {3}) (ref null {2})	label type type	descriptor or exact type
cont.new {1}	type	stack switching
cont.bind {1} {2}	type type	stack switching
suspend {1}	tag	stack switching
resume {1} (on {2} {3}) (on {4} switch)	type tag label tag	stack switching
resume_throw {1} {2} (on {3} {4}) (on 0 switch)	type tag tag label	stack switching
resume_throw_ref {1} (on {2} {3}) (on {4} switch)	type tag label tag	stack switching
switch {1} {2}	type tag	stack switching
"""

VECTORS = {
    "i8x16 -1 2 3 4 5 6 7 8 9 10 11 12 13 14 15 -128": "ff02030405060708090a0b0c0d0e0f80",
    "i16x8 0x0201 0x0403 -1 -32768 0x0a09 0x0c0b 0x0e0d 0x100f": "01020304ffff0080090a0b0c0d0e0f10",
    "i32x4 0x04030201 -2 -2147483648 0x100f0e0d": "01020304feffffff000000800d0e0f10",
    "i64x2 0x0807060504030201 -3": "0102030405060708fdffffffffffffff",
    "f32x4 1 nan:0x400001 0x1p-149 -0": "0000803f0100c07f0100000000000080",
    "f64x2 1 nan:0x1": "000000000000f03f010000000000f07f",
}


def told():
    for line in TOLD.strip().split("\n"):
        text, answer = line.split("\t")
        place = len(text.split("^")[0].encode())
        yield text.replace("^", ""), answer.replace("^", str(place))


def orders():
    """Ids are looked up in one order: from each place on they denote nothing."""
    for line in ORDERS.strip().split("\n"):
        template, spaces, code = line.split("\t")
        spaces = spaces.split()
        form = None if code.isalnum() else f"refused: uncovered form: {code}"
        yield template.format(None, 1, 2, 3, 4), code, "data" in spaces, form
        for first, space in enumerate(spaces, 1):
            indices = [None, *(str(n) if n < first else "$x" for n in range(1, 5))]
            place = len(template.split("{%d}" % first)[0].format(*indices))
            fault = f"unknown {space}: failed to find name `$x`"
            if space == "field":
                fault = "accessing a named field `x` in a struct without named fields, type index 1"
            yield template.format(*indices), None, False, f"fault at {len('(module (func ') + place}: {fault}"


def edges():
    """Instructions and their bytes."""
    for lane in (0, 15, 16, 127, 128, 255):
        yield f"f64x2.replace_lane {lane}", f"fd22{lane:02x}"
        yield f"v128.load8_lane 0 offset=4 {lane}", f"fd540004{lane:02x}"
        yield f"v128.store64_lane 3 offset=4 align=1 {lane}", f"fd5b400304{lane:02x}"
    lanes = [0, 31, 32, 255, 1, 2, 3, 4, 5, 6, 7, 8, 9, 10, 11, 128]
    yield "i8x16.shuffle " + " ".join(map(str, lanes)), "fd0d" + bytes(lanes).hex()
    for text, code in VECTORS.items():
        yield f"v128.const {text}", f"fd0c{code}"
    for word, byte in HEAPS.items():
        for number, name in ((0x14, "test"), (0x16, "cast")):
            yield f"ref.{name} (ref {word})", f"fb{number:02x}{byte:02x}"
            yield f"ref.{name} (ref null {word})", f"fb{number + 1:02x}{byte:02x}"
    yield "ref.cast (ref null 4294967295)", "fb17ffffffff0f"
    for flags, (source, target) in enumerate((("", ""), ("null ", ""), ("", "null "), ("null ", "null "))):
        for number, name in ((0x18, "br_on_cast"), (0x19, "br_on_cast_fail")):
            yield f"{name} 2 (ref {source}any) (ref {target}i31)", f"fb{number:02x}{flags:02x}026e6c"
    for power in range(64):
        yield f"i32.atomic.load align={1 << power}", f"fe10{power:02x}00"
    yield "atomic.fence", "fe0300"
    yield "atomic.fence seq_cst", "fe0300"


def listed(text):
    """The names of `A.{x y}`."""
    base, names = re.fullmatch(r"([\w.]*?)(?:\{(.*)\})?", text).groups()
    return [base + name for name in names.split()] if names else [base]


def leb(n):
    return bytes([n]) if n < 128 else bytes([n & 127 | 128]) + leb(n >> 7)


def natural(name):
    """The bytes that an access of memory is aligned to where the text says nothing."""
    found = re.search(r"\.(?:load|store|rmw|wait|notify)(\d*)(x\d)?", name.replace("atomic.", ""))
    if "notify" in name:
        return 4
    if found[2]:
        return 8
    return NATURAL[found[1]] if found[1] else {"v128": 16, "i64": 8, "f64": 8}.get(name.split(".")[0], 4)


def row(kind, key, name):
    """An instruction of the table, and its bytes."""
    code = bytes([key]) if key < 1 << 16 else bytes([key >> 16]) + leb(key & 0xFFFF)
    if kind in ("Mem", "MemLane"):
        align = natural(name) if kind == "Mem" else int(re.search(r"\d+(?=_lane)", name)[0]) // 8
        code += bytes([align.bit_length() - 1, 0])
    is_lane = kind in ("Lane", "MemLane")
    return name + " 1" * is_lane, code + b"\1" * is_lane


def table():
    """The rows of the table, those with one first word together."""
    rows = []
    for line in TABLE["instructions"]:
        kind, key, names = line.split(" ", 2)
        if kind in ("Plain", "Mem", "Lane", "MemLane"):
            rows += [row(kind, int(key, 16) + n, name) for n, name in enumerate(listed(names))]
    rows.sort(key=lambda row: row[0].split(".")[0])
    for _, group in itertools.groupby(rows, key=lambda row: row[0].split(".")[0]):
        group = list(group)
        text, code = " ".join(text for text, _ in group), b"".join(code for _, code in group).hex()
        # `catch_all` is a part of a `try`.
        yield (f"try {text} end", f"0640{code}0b") if text.startswith("catch_all") else (text, code)


# What stands behind the names of instructions that no encoder covers, by their kinds, and the forms.
UNCOVERED = {
    "GlobalAtomic": ("seq_cst 0", "atomic of a global, table, struct or array"),
    "TableAtomic": ("acq_rel 0", "atomic of a global, table, struct or array"),
    "StructAtomic": ("seq_cst 0 0", "atomic of a global, table, struct or array"),
    "ArrayAtomic": ("acq_rel 0", "atomic of a global, table, struct or array"),
    "Beyond": ("", "instruction beyond the table"),
}
OTHERS_UNCOVERED = {
    "ref.get_desc 0": "descriptor or exact type",
    "struct.new_desc 0": "descriptor or exact type",
    "struct.new_default_desc 0": "descriptor or exact type",
    "ref.cast_desc_eq (ref any)": "descriptor or exact type",
    "br_on_cast_desc_eq 0 (ref any) (ref null any)": "descriptor or exact type",
    "br_on_cast_desc_eq_fail 0 (ref any) (ref null any)": "descriptor or exact type",
    "cont.new 0": "stack switching",
    "cont.bind 0 0": "stack switching",
    "suspend 0": "stack switching",
    "switch 0 0": "stack switching",
    "resume 0 (on 0 0) (on 0 switch)": "stack switching",
    "resume_throw 0 0 (on 0 0)": "stack switching",
    "resume_throw_ref 0": "stack switching",
    "memory.discard": "instruction beyond the table",
}


def uncovered():
    for line in TABLE["others"]:
        kind, names = line.split(" ", 1)
        if kind in UNCOVERED:
            behind, form = UNCOVERED[kind]
            yield from ((f"{name} {behind}".strip(), form) for name in listed(names))
    yield from OTHERS_UNCOVERED.items()


def lines(body):
    """All texts with their answers; `body` makes a module of the bytes of instructions."""
    yield from told()
    for text, code, wants_count, answer in orders():
        answer = answer or body(bytes.fromhex(code))
        # An instruction with a data segment needs their count, which is 0, before the code.
        yield f"(module (func {text}))", answer.replace("0a08010600", "0c01000a08010600") if wants_count else answer
    for text, code in edges():
        yield f"(module (func {text}))", body(bytes.fromhex(code))
    for text, code in table():
        yield f"(module (func {text}))", body(bytes.fromhex(code))
    for text, form in uncovered():
        yield f"(module (func {text}))", f"refused: uncovered form: {form}"
    for align in (0, 3, 5, 6, 7, (1 << 64) - 1):
        yield f"(module (func i32.atomic.load align={align}))", "not read at 30: alignment must be a power of two"
    many = "(module (type (func (param" + " i32" * 300 + "))) (func (type 0) (local $l i32) local.get "
    yield many + "$x))", f"fault at {len(many)}: unknown local: failed to find name `$x`"
    tail = "030201000a09010701017f20ac020b000e046e616d650207010001ac02016c"
    yield many + "$l))", "0061736d0100000001b1020160ac02" + "7f" * 300 + "00" + tail
