"""Writes the texts that crates/wat_golden reads, and the answers that it has to give, its files stdin and stdout, for `tools/pages`.

The worked rows of tools/data/rows.tsv have the answers that crates/wastrow stores. Numbers, strings, abbreviations,
custom sections and branch hints have bytes that this script makes on its own: it writes small modules by the binary format, and
rounds numbers as fractions. What is refused has an answer that was told by hand. tools/data/places.tsv has texts whose error has another position in the Rust crate.

The first lines are modules whose answers other tools told. They are kept as they are there (`tools/lib/golden.py`).
"""

import fractions
import random
import re
import struct

import entry
import bodies
import customs
import edges
import golden
import limits
import opcodes
import places
import positions
import rows
from customs import HEADER, number

ROOT = entry.ROOT


def signed(n):
    """A number with a sign, as LEB128."""
    out = bytearray()
    while not -64 <= n < 64:
        out.append(n & 127 | 128)
        n >>= 7
    return bytes(out) + bytes([n & 127])


def section(kind, payload):
    return bytes([kind]) + number(len(payload)) + payload


def body(code):
    """A module of one function without parameters, of which these are the instructions."""
    code = b"\0" + code + b"\x0b"
    return (HEADER + section(1, b"\1\x60\0\0") + section(3, b"\1\0") + section(10, b"\1" + number(len(code)) + code)).hex()


def data(content):
    """A module of one passive data segment."""
    return (HEADER + section(11, b"\1\1" + number(len(content)) + content)).hex()


# Worked rows whose texts are not read, because they close a block that is not open. Two of these trees have bytes.
UNREAD = {
    "25": "not read at 14: unexpected `end`",
    "56": "not read at 14: unexpected `end`",
    "63": "not read at 32: unbalanced blocks in constant expression",
}


def worked_rows():
    """The worked rows that are texts, with the answers that wastrow has."""
    for row in rows.rows():
        if not row.more:
            yield row.text, UNREAD.get(row.number, row.line)


def rounded(value, precision, lowest):
    """The bits of a positive fraction, rounded to nearest, as if there were no greatest number."""
    if value == 0:
        return 0
    exponent = value.numerator.bit_length() - value.denominator.bit_length()
    if value < fractions.Fraction(2) ** exponent:
        exponent -= 1
    last = max(exponent - precision + 1, lowest)
    scaled = value / fractions.Fraction(2) ** last
    whole = scaled.numerator // scaled.denominator
    rest = scaled - whole
    if rest > fractions.Fraction(1, 2) or rest == fractions.Fraction(1, 2) and whole & 1:
        whole += 1
    return ((last - lowest) << (precision - 1)) + whole


def float_bits(value, is_double):
    """The bits of a positive fraction, rounded to nearest; None where it is too large."""
    precision, lowest, infinity = (53, -1074, 0x7FF << 52) if is_double else (24, -149, 0xFF << 23)
    bits = rounded(value, precision, lowest)
    return bits if bits < infinity else None


def underscored(choose, digits):
    """Digits with underscores between some of them."""
    return "".join(d + ("_" if i + 1 < len(digits) and choose.random() < 0.1 else "") for i, d in enumerate(digits))


def fraction_text(choose):
    """A number with a fraction, and its value."""
    is_hex = choose.random() < 0.6
    base, letters = (16, "0123456789abcdefABCDEF") if is_hex else (10, "0123456789")
    whole = "".join(choose.choice(letters) for _ in range(choose.choice([1, 1, 2, 8, 20])))
    part = "".join(choose.choice(letters) for _ in range(choose.choice([0, 1, 3, 16, 30])))
    power = choose.choice([0, 0, 3, -3, 40, -40, 130, -140, 150, -150, -1060, 1000, -1080, 1023])
    if not is_hex:
        power = power * 3 // 10
    value = fractions.Fraction(int(whole + part, base)) / base ** len(part) * fractions.Fraction(2 if is_hex else 10) ** power
    text = ("0x" if is_hex else "") + underscored(choose, whole) + ("." + underscored(choose, part) if part or choose.random() < 0.3 else "")
    if power or choose.random() < 0.2:
        text += choose.choice("pP" if is_hex else "eE") + choose.choice(["", "+"] if power >= 0 else [""]) + str(power)
    return text, value


def numbers():
    """Modules of one number, and its bytes."""
    choose = random.Random(7)
    for bits, opcode, word in ((32, b"\x41", "i32"), (64, b"\x42", "i64")):
        for _ in range(40):
            n = choose.choice([choose.getrandbits(bits), choose.getrandbits(8), (1 << bits) - 1, 1 << bits - 1, (1 << bits - 1) - 1, 1 << bits])
            sign = choose.choice(["", "", "+", "-"])
            text = sign + choose.choice([underscored(choose, str(n)), "0x" + underscored(choose, f"{n:x}"), "0x" + f"{n:X}"])
            value = -n if sign == "-" else n
            fits = -(1 << bits - 1) <= value < 1 << bits
            value = value - (1 << bits) if value >= 1 << bits - 1 else value
            yield f"(module (func {word}.const {text}))", body(opcode + signed(value)) if fits else "not read at 24: constant out of range"
    for is_double in (False, True):
        opcode, word = (b"\x44", "f64") if is_double else (b"\x43", "f32")
        pack, top = ("<Q", 63) if is_double else ("<I", 31)
        for _ in range(90):
            text, value = fraction_text(choose)
            sign = choose.choice(["", "", "+", "-"])
            bits = float_bits(value, is_double)
            answer = "not read at 24: constant out of range"
            if bits is not None:
                answer = body(opcode + struct.pack(pack, bits | (1 << top if sign == "-" else 0)))
            yield f"(module (func {word}.const {sign}{text}))", answer
        step, infinity = (1 << 52, 0x7FF << 52) if is_double else (1 << 23, 0xFF << 23)
        for text, bits in (("inf", infinity), ("nan", infinity | step >> 1), ("nan:0x1", infinity | 1), (f"nan:0x{step - 1:x}", infinity | step - 1)):
            yield f"(module (func {word}.const {text}))", body(opcode + struct.pack(pack, bits))
            yield f"(module (func {word}.const -{text}))", body(opcode + struct.pack(pack, bits | 1 << top))
        yield f"(module (func {word}.const nan:0x{step:x}))", "not read at 24: constant out of range"
        yield f"(module (func {word}.const nan:0x0))", "not read at 24: constant out of range"


def strings():
    """Modules of one string, and its bytes."""
    choose = random.Random(8)
    named = {"t": 9, "n": 10, "r": 13, '"': 34, "'": 39, "\\": 92}
    for _ in range(60):
        text, content = "", b""
        for _ in range(choose.randrange(12)):
            kind = choose.randrange(5)
            if kind == 0:
                letter = choose.choice("a z#;()$é日𝄞")
                text, content = text + letter, content + letter.encode()
            elif kind == 1:
                byte = choose.randrange(256)
                text, content = text + "\\" + choose.choice([f"{byte:02x}", f"{byte:02X}"]), content + bytes([byte])
            elif kind == 2:
                letter = choose.choice(list(named))
                text, content = text + "\\" + letter, content + bytes([named[letter]])
            else:
                code = choose.choice([choose.randrange(128), 0xE9, 0xD7FF, 0xE000, 0x1D11E, 0x10FFFF, choose.randrange(0x800)])
                text, content = text + "\\u{" + underscored(choose, f"{code:x}") + "}", content + chr(code).encode()
        yield f'(module (data "{text}"))', data(content)


NOP, DROP, END = b"\1", b"\x1a", b"\x0b"


def abbreviations():
    """Texts of one function that differ from plain ones, and its instructions."""
    yield "(module (func (drop (i32.add (i32.const 1) (i32.const 2)))))", body(b"\x41\1\x41\2\x6a" + DROP)
    yield "(module (func (if (i32.const 1) (then nop))))", body(b"\x41\1\x04\x40" + NOP + END)
    yield "(module (func (if (i32.const 1) (then nop) (else (nop) nop))))", body(b"\x41\1\x04\x40" + NOP + b"\5" + NOP + NOP + END)
    yield "(module (func (block (loop nop) nop)))", body(b"\2\x40\3\x40" + NOP + END + NOP + END)
    yield "(module (func (try (do nop) (catch_all (nop)))))", body(b"\6\x40" + NOP + b"\x19" + NOP + END)
    yield "(module (func (try (do nop) (delegate 0))))", body(b"\6\x40" + NOP + b"\x18\0")
    yield "(module (func (br_table 0 0 0 (i32.const 3))))", body(b"\x41\3\x0e\2\0\0\0")
    yield "(module (func i32.const 0 (select (i32.const 1) (i32.const 2))))", body(b"\x41\0\x41\1\x41\2\x1b")
    yield "(module (func select (result i32) (result)))", body(b"\x1c\1\x7f")
    yield "(module (func (if (then))))", body(b"\x04\x40" + END)
    yield "(module (func (if (i32.const 0) (i32.const 1) (then))))", body(b"\x41\0\x41\1\x04\x40" + END)
    yield "(func nop)", body(NOP)
    yield '(module (func (;a (;b;) c;) nop (@a "b" (c) (@d)) (@"e" ")") nop))', body(NOP + NOP)
    yield "(module (func memory.copy memory.copy 1 2 table.copy memory.size 3))", body(b"\xfc\x0a\0\0\xfc\x0a\1\2\xfc\x0e\0\0\x3f\3")
    yield "(module (func v128.load8_lane 1 v128.load8_lane 1 2 v128.load8_lane offset=3 4))", body(b"\xfd\x54\0\0\1\xfd\x54\x40\1\0\2\xfd\x54\0\3\4")
    yield "(module (func i64.load align=1 offset=0x10))", "not read at 31: unknown operator or unexpected token"
    yield "(module (func i64.load offset=0x10 align=1))", body(b"\x29\0\x10")
    yield "(module (func i8x16.shuffle 0 1 2 3 4 5 6 7 8 9 10 11 12 13 14 31))", body(b"\xfd\x0d" + bytes([*range(15), 31]))
    yield "(module (func v128.const i16x8 1 -1 0 65535 0 0 0 -32768))", body(b"\xfd\x0c" + struct.pack("<8h", 1, -1, 0, -1, 0, 0, 0, -32768))
    yield "(module (func v128.const f64x2 -0 0x1p-1074))", body(b"\xfd\x0c" + struct.pack("<QQ", 1 << 63, 1))
    yield "(module (func ref.null (ref.null func)))", "not read at 23: expected a heap type"
    depth = 5_000
    yield "(module (func " + "(block " * depth + ")" * depth + "))", body(b"\2\x40" * depth + END * depth)
    yield "(module (func " + "(drop " * depth + "(nop)" + ")" * depth + "))", body(NOP + DROP * depth)
    yield '(module (data (i16 1 -1) "a" (f32 1)))', data(b"\1\0\xff\xffa\0\0\x80\x3f")
    flags = "binding-weak binding-local visibility-hidden undefined exported explicit-name no-strip tls absolute"
    info = section(3, b"\1\1a" + number(0x3F7)) + section(4, b"\1\1a\1b" + number(0x100))
    text = f'(module (@dylink.0 (export-info "a" {flags}) (import-info "a" "b" 0x100)))'
    yield text, (HEADER + section(0, b"\x08dylink.0" + info)).hex()


# A text that a page shows with its diagnostic: the text, the message and the column.
DIAGNOSTIC = r"^\$ echo '(.*)' \| wat\nerror: (.*)\n --> <stdin>:1:(\d+)$"


def examples():
    """The modules that docs show, with the answers that they or programs without a reader tell."""
    readme = (ROOT / "README.md").read_text()
    for text, message, column in re.findall(DIAGNOSTIC, readme, re.M):
        yield text, f"fault at {int(column) - 1}: {message.split(';')[0]}"
    guide = (ROOT / "docs/GUIDE.md").read_text()
    for text, resolved, hexadecimal in re.findall(r"^module +(.*)\nresolved +(.*)\nbytes +(.*)$", guide, re.M):
        yield from ((text, hexadecimal), (resolved, hexadecimal))
    architecture = (ROOT / "docs/ARCHITECTURE.md").read_text().split("\n## ")[1]
    sections = sorted(bytes.fromhex(found) for found in re.findall(r"`((?:[0-9a-f]{2}\s?)+)`", architecture))
    yield re.search(r"^`(\(module .*\))`", architecture, re.M)[1], (HEADER + b"".join(sections)).hex()
    text = re.search(r'const TEXT: &str = "(.*?)\n";', (ROOT / "crates/wast_core_example/src/main.rt").read_text(), re.S)[1].replace('\\"', '"')
    bytes_told, *_, fault = (ROOT / "crates/wast_core_example/stdout").read_text().strip().split("\n")
    yield text.replace("\n", " "), bytes_told
    line, column, fault = fault.split(":", 2)
    place = sum(len(before) + 1 for before in text.split("\n")[: int(line) - 1]) + int(column) - 1
    yield text.replace("\n", " ").replace("(start $ready)", "(start $gone)"), f"fault at {place}:{fault}"
    writing = (ROOT / "docs/WRITING.md").read_text()
    yield re.search(r"^`(\(module [^`]*\))`", writing, re.M)[1].replace("\n", " "), re.search(r"^(0061736d[0-9a-f]*)$", writing, re.M)[1]
    yield from READ.items()


def command_examples():
    """The modules that docs/COMMANDS.md shows have the answers that it says. A message can say more."""
    told = dict(line.split("\t") for line in REFUSED.strip().split("\n"))
    page = (ROOT / "docs/COMMANDS.md").read_text()
    for text, answer in re.findall(r"^\$ echo '(.*)' \| wat --hex\n(.*)$", page, re.M):
        if READ.get(text) != answer:
            raise entry.Failed(f"docs/COMMANDS.md: {text}: {answer}, and not {READ.get(text)}")
    for text, message, column in re.findall(DIAGNOSTIC, page, re.M):
        if not f"not read at {int(column) - 1}: {message}".startswith(told.get(text, "no text")):
            raise entry.Failed(f"docs/COMMANDS.md: {text}: {message} at {column}, and not {told.get(text)}")
    for text in re.findall(r"`(\(module [^`]*)`", re.sub(r"^\|.*$", "", page, flags=re.M)):
        if ".." not in text and text not in told and text not in READ:
            raise entry.Failed(f"docs/COMMANDS.md: {text} has no answer")


def unsupported_examples(answers):
    """The modules that docs/ERRORS.md shows as unsupported have these errors, if they are among the texts."""
    page = (ROOT / "docs/ERRORS.md").read_text()
    told = [(text, f"refused: uncovered form: {form}") for form, text in re.findall(r"(?<=\| )`([\w ,-]+)` \| `(\(module [^`]*)` (?=\|)", page)]
    for text, answer in told:
        if text in answers and answers[text].replace("`", " ").split() != answer.replace("`", " ").split():
            raise entry.Failed(f"docs/ERRORS.md: {text}: {answer}, and not {answers[text]}")


def names(*subsections):
    """A name section: the number of each subsection and its names, each with its number."""
    content = b"\4name"
    for kind, entries in subsections:
        payload = number(len(entries)) + b"".join(number(n) + number(len(name)) + name for n, name in entries)
        content += section(kind, payload)
    return section(0, content)


# The modules that docs/COMMANDS.md shows, with their bytes by the binary format.
READ = {
    '(module (func (export "a") (result i32) i32.const 7))': (
        HEADER + section(1, b"\1\x60\0\1\x7f") + section(3, b"\1\0") + section(7, b"\1\1a\0\0") + section(10, b"\1\4\0\x41\7\x0b")
    ).hex(),
    '(module (type $t (func)) (func) (func $g) (memory $"a b" 1))': (
        HEADER
        + section(1, b"\1\x60\0\0")
        + section(3, b"\2\0\0")
        + section(5, b"\1\0\1")
        + section(10, b"\2\2\0\x0b\2\0\x0b")
        + names((1, [(1, b"g")]), (4, [(0, b"t")]), (6, [(0, b"a b")]))
    ).hex(),
    '(module $x quote "(module $y)")': (HEADER + section(0, b"\4name\0\2\1x")).hex(),
    '(module (type $t (func)) (export "a" (func $g)) (func $f (type $t)))': "fault at 43: unknown func: failed to find name `$g`",
}

REFUSED = r"""
(module [)	not read at 8: unexpected character
(module (func)"a")	not read at 14: expected valid module field
(module (data "a""b"))	not read at 14: expected whitespace or a parenthesis after token
(module (data "a	not read at 14: unterminated string
(module (data "\q"))	not read at 15: invalid string escape
(module (data "\u{110000}"))	not read at 15: invalid string escape
(module (;	not read at 8: unterminated block comment
(module (;)	not read at 8: unterminated block comment
(module (@a	not read at 9: unterminated annotation
(module (@ a))	not read at 9: empty annotation id
(module (func (@producers)))	not read at 15: unknown operator or unexpected token
(module (@name))	not read at 14: expected a string
(module (func $))	not read at 14: empty identifier
(module (export "\ff" (func 0)))	not read at 16: malformed UTF-8 encoding
(module (export a))	not read at 16: expected a string
(module (func i32.const 1__0))	not read at 24: invalid number
(module (func i32.const _1))	not read at 24: invalid number
(module (func f32.const 1.e))	not read at 24: invalid number
(module (func f32.const .5))	not read at 24: invalid number
(module (func i32.const 4294967296))	not read at 24: constant out of range
(module (func i32.const -2147483649))	not read at 24: constant out of range
(module (func f32.const 0x1p128))	not read at 24: constant out of range
(module (func br -1))	not read at 17: invalid number
(module (func i32.foobar))	not read at 14: unknown operator or unexpected token
(module (func func))	not read at 14: unknown operator or unexpected token
(module (func i8x16.extract_lane_s 256))	not read at 35: constant out of range
(module (func i32.load align=3))	not read at 23: alignment must be a power of two
(module (memory 1 (pagesize 3)))	not read at 28: page size must be a power of two
(module (func (@metadata.code.branch_hint "\02") if end))	not read at 42: invalid value for branch hint
(module (func (result i32) (param i32)))	not read at 28: `param` must come before `result`
(module (func (if (i32.const 0) nop)))	not read at 32: expected `(`
(module (func (if (i32.const 0))))	not read at 32: expected `then`
(module (func (block))	not read at 22: expected `)`
(module) (module)	not read at 9: unexpected token after module
(module (func) (start 0) (start 0))	not read at 32: multiple start sections
(module (global i32 i32.const 0 end))	not read at 32: unbalanced blocks in constant expression
(module (memory (pagesize 0) (data)))	not read at 26: page size must be a power of two
(module (func block br $a end))	fault at 23: unknown label: failed to find name `$a`
(module (func local.get $"a b"))	fault at 24: unknown local: failed to find name `$a b`
(module (func (@metadata.code.branch_hint "\00") (@metadata.code.branch_hint "\00") nop))	not read at 50: branch hints must be on instructions, in increasing order, with value 0 or 1
(module (func nop (@metadata.code.branch_hint "\00")))	not read at 19: branch hints must be on instructions, in increasing order, with value 0 or 1
(module (memory (pagesize 18446744073709551616) (data)))	not read at 26: constant out of range
(module (func i32.load align=0))	not read at 23: alignment must be a power of two
(component)	not read at 1: expected valid module field
(assert_invalid (module) "a")	not read at 1: expected valid module field
(module (data (v128 i32x4 0 0 0 0)))	not read at 15: expected a string or a number type
(module (func (if (i32.const 0) (then) (else) (else))))	not read at 47: expected `)`
(module (func if (then) end))	not read at 18: unknown operator or unexpected token
(module (func (try nop)))	not read at 19: expected `(`
(module (func (try (catch_all))))	not read at 20: expected `do`
(module (func end))	not read at 14: unexpected `end`
(module (func block))	not read at 14: expected `end` of this block
(module (func i32.foo) [)	not read at 14: unknown operator or unexpected token
(module (func nop) [)	not read at 19: unexpected character
(module (func if $l else $m end $l))	fault at 25: mismatching labels between end and block
(module (func (block $l) br $l))	fault at 28: unknown label: failed to find name `$l`
"""


def lines():
    yield from golden.told()
    yield from worked_rows()
    yield from numbers()
    yield from strings()
    yield from abbreviations()
    yield from bodies.lines(body)
    yield from edges.lines()
    yield from positions.lines()
    yield from places.lines()
    yield from customs.lines()
    yield from examples()
    command_examples()
    for line in REFUSED.strip().split("\n"):
        yield tuple(line.split("\t"))
    yield from opcodes.lines(body)
    yield from limits.lines()


def written():
    """The files, and what they hold."""
    found = list(lines())
    unsupported_examples(dict(found))
    return {golden.FOLDER / name: "".join(line[column] + "\n" for line in found) for name, column in (("stdin", 0), ("stdout", 1))}
