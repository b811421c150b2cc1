r"""Texts at the limits of encodings, and of one part each, with their answers, for `tools/pages`.

A line of TOLD is a text, a tab, and the answer. In the text `^` stands before what is told, and in the answer for that place. The
bytes were told by hand from the binary format.
"""

TOLD = r"""
(module (func throw 1 rethrow 2 br 3 br_if 4 call 300 return_call 2 call_ref 3 return_call_ref 4 local.get 128 local.set 6 local.tee 7))	body 0801 0902 0c03 0d04 10ac02 1202 1403 1504 208001 2106 2207
(module (func global.get 5 global.set 6 table.get 7 table.set 8 memory.size 0 memory.grow 9 ref.func 10 br_on_null 8 br_on_non_null 9))	body 2305 2406 2507 2608 3f00 4009 d20a d508 d609
(module (func memory.fill 0 elem.drop 12 table.grow 13 table.size 14 table.fill 128))	body fc0b00 fc0d0c fc0f0d fc100e fc118001
(module (func i32.load 1 offset=4 f64.load i32.load8_s offset=128 i64.load8_s 2 i64.load32_u offset=127 align=9223372036854775808))	body 28420104 2b0300 2c008001 30400200 353f7f
(module (func i32.store 128 offset=1 align=9223372036854775808 i64.store offset=2 align=2 f64.store offset=2 align=2 i32.store8 offset=2 align=2))	body 367f800101 370102 390102 3a0102
(module (func i32.store16 offset=2 align=2 i64.store8 offset=2 align=2 i64.store32 offset=18446744073709551615 align=1))	body 3b0102 3c0102 3e00ffffffffffffffffff01
(module (func call_indirect 7 return_call_indirect 7 br_on_cast 7 funcref funcref br_on_cast_fail 7 funcref funcref))	body 110007 130007 fb1803077070 fb1903077070
(module (func block loop if end end end try end try_table (catch_all 0) end))	body 0240 0340 0440 0b0b0b 06400b 1f40010200 0b
(module (func block $l loop $l if $l end end end try $l end try_table $l (catch_all 0) end))	0061736d01000000010401600000030201000a160114000240034004400b0b0b06400b1f400102000b0b0019046e616d65031201000500016c01016c02016c03016c04016c
(module (func f32.const -0 f32.const 1_0.5 f32.const 3.4028234663852886e38 f32.const 0x1.000001p0 f32.const 0x1.000003p0))	body 4300000080 4300002841 43ffff7f7f 430000803f 430200803f
(module (func f32.const 0x1p-150 f32.const 0x1.8p-150 f32.const -nan:0x1 f64.const 0.1))	body 4300000000 4301000000 43010080ff 449a9999999999b93f
(module (func i32.const 0xffff_ffff i32.const -2147483648))	body 417f 418080808078
(module (func i32.const ^-2147483649))	not read at ^: constant out of range
(module (func i32.const ^1__0))	not read at ^: invalid number
(module (func f32.const ^0x1p128))	not read at ^: constant out of range
(module (func f32.const ^1._0))	not read at ^: invalid number
(module (func f64.const ^0x1.fffffffffffff8p1023))	not read at ^: constant out of range
(module (data "a\n\u{1D_11E}\ff"))	section 0b 01 01 07 610af09d849eff
(module (data "ab^\q"))	not read at ^: invalid string escape
(module (data "\t^\u{110000}"))	not read at ^: invalid string escape
(module (@x , ; [ ] { } x"y"2 $ (a"b"c)))	section
(module (type (struct (field i8) (field i16) (field i32) (field i64) (field f32) (field f64) (field v128))))	section 01 01 5f 07 7800 7700 7f00 7e00 7d00 7c00 7b00
(module (type (struct (field funcref) (field (ref func)) (field externref) (field (ref extern)) (field (ref null any)) (field (ref null eq)))))	section 01 01 5f 06 7000 647000 6f00 646f00 636e00 636d00
(module (type (struct (field (ref i31)) (field (ref null struct)) (field (ref null array)) (field (ref null exn)) (field (ref null noexn)))))	section 01 01 5f 05 646c00 636b00 636a00 636900 637400
(module (type (struct (field (ref null nofunc)) (field (ref null noextern)) (field (ref null none)))))	section 01 01 5f 03 637300 637200 637100
(module (type (struct (field (ref null 2)) (field (ref 63)) (field (ref 64)) (field (ref null 127)) (field (ref null 4294967295)))))	section 01 01 5f 05 630200 643f00 64c00000 63ff0000 63ffffffff0f00
(module (type (sub 3 (func (param i32) (result f32)))))	section 01 01 50 01 03 60 01 7f 01 7d
(module (rec (type (func (param i32) (result f32)))))	section 01 01 4e 01 60 01 7f 01 7d
(module (import "m" "n" (global i32)))	section 02 01 01 6d 01 6e 03 7f 00
(module (table 1 2 externref))	section 04 01 6f 01 01 02
(module (table 1 2 externref (i32.const 8)))	section 04 01 40 00 6f 01 01 02 41 08 0b
(module (memory 1 2))	section 05 01 01 01 02
(module (tag (type 3)))	section 0d 01 00 03
(module (global (mut i64)))	section 06 01 7e 01 0b
(module (elem declare func))	section 09 01 03 00 00
(module (elem (table 1) (offset i32.const 8) funcref (item i32.const 8)))	section 09 01 06 01 41 08 0b 70 01 41 08 0b
(module (data))	section 0b 01 01 00
(module (data (i32.const 8) "ab"))	section 0b 01 00 41 08 0b 02 6162
(module (table shared 1 funcref))	refused: uncovered form: shared type
(module (global (shared i32) i32.const 0))	refused: uncovered form: shared type
(module (type (struct (field (ref (exact 0))))))	refused: uncovered form: descriptor or exact type
(module (import "a" "b" (func (exact))))	refused: uncovered form: descriptor or exact type
"""

# Signed numbers next to the limits of their lengths.
SIGNED = [0, -1, 63, 64, -64, -65, 8191, 8192, -8192, -8193, 2147483647, -2147483648]

# Numbers without a sign.
UNSIGNED = [0, 127, 128, 16383, 16384, 4294967295]

# The sizes of strings.
SIZES = [0, 127, 128, 16383, 16384]

# How many functions have names of which the first eight bytes are alike, beside two others. Up to 7 names, and from 21, are looked up in ways of their own.
COUNTS = [1, 5, 6, 18, 19, 400]


def leb(number):
    """A number without a sign, as LEB128."""
    return bytes([number]) if number < 128 else bytes([number & 127 | 128]) + leb(number >> 7)


def signed(number):
    """A number with a sign, as LEB128."""
    return bytes([number & 127]) if -64 <= number < 64 else bytes([number & 127 | 128]) + signed(number >> 7)


def sections(*parts):
    """A module of sections, each an id and a payload."""
    return (b"\0asm\1\0\0\0" + b"".join(bytes([kind]) + leb(len(payload)) + payload for kind, payload in parts)).hex()


def code(instructions, is_counted=False):
    """A module of one function; the count of data segments comes before the code if an instruction names one."""
    content = b"\0" + instructions + b"\x0b"
    count = [(12, b"\0")] * is_counted
    return sections((1, b"\1\x60\0\0"), (3, b"\1\0"), *count, (10, b"\1" + leb(len(content)) + content))


def told():
    """The texts of the table."""
    for line in TOLD.strip().split("\n"):
        text, answer = line.split("\t")
        kind, *words = answer.split()
        if kind == "body":
            answer = code(bytes.fromhex("".join(words)))
        elif kind == "section":
            bits = bytes.fromhex("".join(words))
            answer = sections((bits[0], bits[1:])) if bits else sections()
        yield text.replace("^", ""), answer.replace("^", str(len(text.split("^")[0].encode())))


def numbers():
    """Numbers next to the limits of their lengths."""
    for number in UNSIGNED:
        bits = leb(number)
        yield f"(module (func call {number} data.drop {number}))", code(b"\x10" + bits + b"\xfc\x09" + bits, True)
        # The last is the first that has 33 bits.
        offset = number + (number == UNSIGNED[-1])
        text = f"i32.load offset={offset} align=9223372036854775808 i64.store 128 offset={offset} align=9223372036854775808"
        yield f"(module (func {text}))", code(b"\x28\x3f" + leb(offset) + b"\x37\x7f\x80\1" + leb(offset))
    for number in SIGNED:
        yield f"(module (func i32.const {number} i64.const {number}))", code(b"\x41" + signed(number) + b"\x42" + signed(number))
    for size in SIZES:
        yield f'(module (data "{"a" * size}"))', sections((11, b"\1\1" + leb(size) + b"a" * size))


def names(count):
    """The texts of names, the first of each four as short as its number."""
    for number in range(count // 4 + 1):
        yield f"core::fmt::function_{number}"
        yield f"alloc::vec::function_{number}"
        yield f"alloc::vec::the_first_eight_bytes_are_those_of_others_{number}"
        yield f"{number}"


def named_functions():
    """Functions with names, each after one without, whose id is generated: all are looked up, and the first that has a name again is told."""
    for count in COUNTS:
        texts = list(names(count))[:count] + ["gensym", "other"]
        for order in (texts, texts[::-1]):
            fields = "".join(f' (func (export "e")) (func ${name})' for name in order)
            total = 2 * len(order)
            exports = leb(len(order)) + b"".join(b"\1e\0" + leb(number) for number in range(0, total, 2))
            functions = {name: number for number, name in zip(range(1, total, 2), order)}
            listed = b"\3\0" + leb(len(order)) + b"".join(leb(functions[name]) for name in texts)
            section = leb(len(order)) + b"".join(leb(number) + leb(len(name)) + name.encode() for name, number in functions.items())
            yield f"(module{fields} (elem declare func {' '.join('$' + name for name in texts)}))", sections(
                (1, b"\1\x60\0\0"),
                (3, leb(total) + b"\0" * total),
                (7, exports),
                (9, b"\1" + listed),
                (10, leb(total) + b"\2\0\x0b" * total),
                (0, b"\4name\1" + leb(len(section)) + section),
            )
        again = f"(module{fields} (func "
        yield f"{again}${order[len(order) // 2]}) (func ${order[0]}))", f"fault at {len(again)}: duplicate func identifier"


def lines():
    """All texts, with their answers."""
    yield from told()
    yield from numbers()
    yield from named_functions()
