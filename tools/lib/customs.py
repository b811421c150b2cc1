"""Texts with custom sections and branch hints, with their answers, for `tools/pages`.

The bytes are made by the binary format (custom sections; code metadata; tool conventions). For example,
`(module (@custom "b" (after func)) (@custom "a" (before func)))` has the sections `a` and `b`, in this order.
"""

HEADER = b"\0asm\1\0\0\0"

# The sections of a module with one of each, with the field that each comes from.
SECTIONS = {
    "type": ("(type (func))", "01 04 01 60 00 00"),
    "import": ('(import "" "" (func (type 0)))', "02 05 01 00 00 00 00"),
    "func": ("(func (type 0))", "03 02 01 00"),
    "table": ("(table 0 funcref)", "04 04 01 70 00 00"),
    "memory": ("(memory 0)", "05 03 01 00 00"),
    "tag": ("(tag (type 0))", "0d 03 01 00 00"),
    "global": ("(global i32 i32.const 0)", "06 06 01 7f 00 41 00 0b"),
    "export": ('(export "" (func 0))', "07 04 01 00 00 00"),
    "start": ("(start 0)", "08 01 00"),
    "elem": ("(elem func)", "09 04 01 01 00 00"),
    "code": ("", "0a 04 01 02 00 0b"),
    "data": ("(data)", "0b 03 01 01 00"),
}

TYPE, FUNC, CODE = (bytes.fromhex(SECTIONS[key][1]) for key in ("type", "func", "code"))

HINTS = "metadata.code.branch_hint"


def number(n):
    """A number without a sign, as LEB128."""
    return bytes([n]) if n < 128 else bytes([n & 127 | 128]) + number(n >> 7)


def counted(content):
    """Bytes after their count."""
    return number(len(content)) + content


def custom(name, content=b""):
    """A custom section."""
    return b"\0" + counted(counted(name.encode()) + content)


def answer(*sections):
    """The bytes of a module of these sections."""
    return (HEADER + b"".join(sections)).hex()


def raw():
    """Modules of one custom section."""
    for name, *pieces in [[""], ["", "x"], ["a", "", ""], ["a", "x", "", "yz"], ["é€😀"], ["a", "a" * 64, "a" * 64], ["a", *["z" * 4_096] * 4]]:
        text = " ".join(f'"{piece}"' for piece in [name, *pieces])
        yield f"(module (@custom {text}))", answer(custom(name, "".join(pieces).encode()))
    # Names that sections of other annotations have.
    for name in (HINTS, "producers", "dylink.0"):
        yield f'(module (@custom "{name}"))', answer(custom(name))


def places():
    """Custom sections before and after each section, whether it is there or not, first and last, and their order."""
    fields = " ".join(text for text, _ in SECTIONS.values() if text)
    for key in SECTIONS:
        before, after = f'(@custom "a" (before {key}))', f'(@custom "b" (after {key}))'
        yield f"(module {after} {before})", answer(custom("a"), custom("b"))
        parts = [bytes.fromhex(found) for _, found in SECTIONS.values()]
        place = list(SECTIONS).index(key)
        yield f"(module {after} {fields} {before})", answer(*parts[:place], custom("a"), parts[place], custom("b"), *parts[place + 1 :])
    one, named = "(type (func))", "(func $f (type 0))"
    func = '(@custom "{}" (after func))'.format
    sections = TYPE, FUNC, custom("c"), custom("a"), custom("b"), CODE
    yield f"(module {func('c')} {one} {func('a')} (func (type 0)) {func('b')})", answer(*sections)
    names = custom("name", b"\1" + counted(b"\1\0\1f"))
    sections = custom("dylink.0"), TYPE, FUNC, CODE, custom("b"), custom("producers", b"\0"), names
    yield f'(module {one} (@custom "b") (@producers) (@dylink.0) {named})', answer(*sections)
    yield f'(module (@custom "a" (before first)) (@dylink.0) {one})', answer(custom("a"), custom("dylink.0"), TYPE)
    # A custom section with this name comes in place of the names.
    yield f'(module {one} {named} (@custom "name") (@custom "name" (before first) "x"))', answer(custom("name", b"x"), TYPE, FUNC, CODE, custom("name"))


def conventions():
    """The sections `producers` and `dylink.0`."""
    yield "(module (@producers))", answer(custom("producers", b"\0"))
    yield '(module (@producers (sdk "b" "1") (sdk "c" "")))', answer(custom("producers", b"\1\3sdk\2\1b\0011\1c\0"))
    yield "(module (@dylink.0))", answer(custom("dylink.0"))
    for text, kind, content in [
        ("(mem-info (memory 128 2) (table 3 4))", 1, b"\x80\1\2\3\4"),
        ("(needed)", 2, b"\0"),
        ("(runtime-path)", 5, b"\0"),
        ('(needed "ab")', 2, b"\1\2ab"),
        ('(needed "a" "é")', 2, b"\2\1a\2" + "é".encode()),
        ('(export-info "a" 128)', 3, b"\1\1a\x80\1"),
        ('(export-info "a" 4294967295)', 3, b"\1\1a\xff\xff\xff\xff\x0f"),
        ('(import-info "a" "b" 3)', 4, b"\1\1a\1b\3"),
        ('(runtime-path "c")', 5, b"\1\1c"),
    ]:
        yield f"(module (@dylink.0 {text}))", answer(custom("dylink.0", bytes([kind]) + counted(content)))


def hint(value):
    """The annotation of a branch hint."""
    return f'(@metadata.code.branch_hint "\\{value:02x}")'


def hints_of(*functions):
    """The section of branch hints: the index of each function, and the offset and the value of each of its hints."""
    out = number(len(functions))
    for index, hints in functions:
        out += number(index) + number(len(hints)) + b"".join(number(offset) + bytes([1, value]) for offset, value in hints)
    return custom(HINTS, out)


def code(*bodies):
    """The section of these bodies."""
    return b"\x0a" + counted(number(len(bodies)) + b"".join(counted(body) for body in bodies))


def hinted():
    """Modules with branch hints: an offset counts from the locals of a body, and imported functions alone come before the others."""
    start = "(module (type (func)) "
    function = start + "(func (type 0) {}))"
    yield function.format("nop nop nop"), answer(TYPE, FUNC, code(b"\0\1\1\1\x0b"))
    nops = f"{hint(0)} nop {hint(1)} nop {hint(0)} nop"
    yield function.format(nops), answer(TYPE, FUNC, hints_of((0, [(1, 0), (2, 1), (3, 0)])), code(b"\0\1\1\1\x0b"))
    imports = '(import "" "" (func (type 0))) (import "" "" (memory 0)) (import "" "" (func (type 0)))'
    functions = f"(func (type 0)) (func (type 0) i32.const 0 {hint(1)} nop) (func (type 0) {hint(0)} nop {hint(1)} nop)"
    sections = [
        bytes.fromhex("02 0e 03 00 00 00 00 00 00 02 00 00 00 00 00 00"),
        bytes.fromhex("03 04 03 00 00 00"),
        hints_of((3, [(3, 1)]), (4, [(1, 0), (2, 1)])),
        code(b"\0\x0b", b"\0\x41\0\1\x0b", b"\0\1\1\x0b"),
    ]
    yield f"{start}{imports} {functions})", answer(TYPE, *sections)
    # Locals of 63 runs of two bytes each, and of 62 and one of three bytes.
    for others, same in ((63, 0), (62, 128)):
        words = [*(("i32", "i64")[n % 2] for n in range(others)), *["f32"] * same]
        runs = b"".join(b"\1" + b"\x7f\x7e"[n % 2 : n % 2 + 1] for n in range(others)) + (number(same) + b"\x7d" if same else b"")
        body = number(others + bool(same)) + runs
        text = function.format(f"(local {' '.join(words)}) {hint(1)} nop")
        yield text, answer(TYPE, FUNC, hints_of((0, [(len(body), 1)])), code(body + b"\1\x0b"))
    # Offsets of two and of three bytes.
    vectors, vector = 910, b"\xfd\x0c" + bytes(16)
    text = "v128.const i64x2 0 0 " * vectors + f"nop nop {hint(0)} nop {hint(1)} nop {hint(1)} nop"
    offset = 1 + len(vector) * vectors + 2
    hints = hints_of((0, [(offset, 0), (offset + 1, 1), (offset + 2, 1)]))
    yield function.format(text), answer(TYPE, FUNC, hints, code(b"\0" + vector * vectors + b"\1" * 5 + b"\x0b"))
    # Custom sections with the name of this one, before and after it.
    other = f'(@custom "{HINTS}") (@custom "{HINTS}" (before code) "x")'
    sections = TYPE, FUNC, custom(HINTS, b"x"), hints_of((0, [(1, 0)])), code(b"\0\1\1\1\x0b"), custom(HINTS)
    yield f"{start}{other} (func (type 0) {hint(0)} nop nop nop))", answer(*sections)


def labelled():
    """Bodies with many blocks, which have one label, or each its own: a branch is to the innermost, or to the outermost."""
    depth = 2_000
    for names, branch in (([b"a"] * depth, 0), ([b"%d" % n for n in range(depth)], depth - 1)):
        blocks = " ".join(f"block ${name.decode()}" for name in names)
        body = b"\0" + b"\2\x40" * depth + b"\x0c" + number(branch) + b"\x0b" * depth + b"\x0b"
        labels = number(depth) + b"".join(number(n) + counted(name) for n, name in enumerate(names))
        text = f"(module (func {blocks} br ${names[0].decode()}{' end' * depth}))"
        yield text, answer(TYPE, FUNC, code(body), custom("name", b"\3" + counted(b"\1\0" + labels)))


def lines():
    """All texts with their answers."""
    for group in (raw, places, conventions, hinted, labelled):
        yield from group()
