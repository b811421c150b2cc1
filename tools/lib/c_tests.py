"""Modules that test the translator `to_c.py` against node, for `tools/c --test`: one of each instruction on edge values, and random ones of control flow.

Each function takes and returns integers, because JavaScript does not keep the bits of a NaN. Its calls are made in one instance, up to a trap. For example, `f32.add` is tested by a
function of two `i32`, which are reinterpreted, and so is the sum. Its result is a number, `trap`, or `nan`, because a NaN of arithmetic has any bits.
"""

import itertools
import json
import random
import subprocess

import to_c
from to_c import BLOCK, BR_IF, BR_TABLE, CALL, COPY, DROP, ELSE, END, F32, F64, FILL, GLOBAL_GET, GLOBAL_SET, GROW, I32, I64, IF, LOADS, LOCAL_GET
from to_c import LOCAL_SET, LOCAL_TEE, LOOP, MORE, NO_RESULT, OPERATIONS, RETURN, SELECT, SIZE, STORES, UNREACHABLE

# Edge values by type, as bits.
VALUES = {
    I32: [0, 1, 2, 7, 31, 32, 127, 128, 255, 32767, 32768, 65535, 0x7FFFFFFF, 0x80000000, 0x80000001, 0xFFFFFFFF],
    I64: [0, 1, 2, 63, 64, 128, 32768, 0x7FFFFFFF, 0x80000000, 0xFFFFFFFF, 1 << 32, (1 << 53) + 1, (1 << 63) - 1, 1 << 63, (1 << 64) - 1],
    F32: [0, 0x80000000, 1, 0x7FFFFF, 0x800000, 0x3F800000, 0xBF800000, 0x4B800001, 0x7F7FFFFF, 0x7F800000, 0xFF800000, 0x7FC00000, 0x7FA00001, 0x40490FDB],
    F64: [0, 1 << 63, 1, 0x3FF << 52, 0xBFF << 52, 0x36A0000000000000, 0x380FFFFFFFFFFFFF, 0x47EFFFFFF0000000, 0x7FEFFFFFFFFFFFFF, 0x7FF << 52, 0xFFF << 52]
    + [0x7FF8 << 48, 0x7FF4000000000001, 0x400921FB54442D18, 0x3FF0000010000000, 0x3FF0000010000001],
}
INTEGERS = {I32: I32, I64: I64, F32: I32, F64: I64}
TO_FLOAT, FROM_FLOAT = {F32: 0xBE, F64: 0xBF}, {F32: 0xBC, F64: 0xBD}

# Addresses: in the memory of a page for each access, and far outside. Those at its end are left out, because the C does not test their last bytes.
ADDRESSES = [0, 1, 3, 8, 1000, 65000, 65600, 0x80000000, 0xFFFFFFFF]
OFFSETS = [0, 1, 400, 66_000]

# Only the first few random functions are called by others, so that each ends soon.
RANDOM_FUNCTIONS, CALLED, SEED = 200, 3, 1

# Calls functions of a module. A NaN is told by its exponent.
SCRIPT = """
const { readFileSync } = require("node:fs");
const [bytes, calls] = JSON.parse(readFileSync(0, "utf8"));
const module = new WebAssembly.Module(Buffer.from(bytes, "hex"));
let exports, last;
const lines = calls.map(([index, words, wide, float]) => {
  if (index !== last) exports = new WebAssembly.Instance(module).exports;
  last = index;
  try {
    const it = BigInt.asUintN(wide ? 64 : 32, BigInt(exports[`f${index}`](...words.map(([word, isWide]) => isWide ? BigInt(word) : Number(word) | 0))));
    const [low, high] = wide ? [0x7ff0000000000000n, 0xfffffffffffffn] : [0x7f800000n, 0x7fffffn];
    return float && (it & low) === low && it & high ? "nan" : String(it);
  } catch (error) {
    if (!(error instanceof WebAssembly.RuntimeError)) throw error;
    last = undefined;
    return "trap";
  }
});
console.log(lines.join("\\n"));
"""

# The same in C, of a table of calls.
PROGRAM = """
#include <inttypes.h>
#include <stdio.h>
struct call { u64 (*of)(W *, u64, u64); u64 one, other; int is_wide, is_float; };
static u64 result(W *it, const struct call *call) { return call->of(it, call->one, call->other); }
static W it;
static void run(const struct call *call, const struct call *before) {
    u64 low = call->is_wide ? 0x7ff0000000000000u : 0x7f800000u, high = call->is_wide ? 0xfffffffffffffu : 0x7fffffu, found;
    if (!it.memory.data || !before || before->of != call->of) {
        free(it.memory.data);
        if (!memory_opened(&it.memory, MODULE_PAGES)) exit(1);
        started(&it);
    }
    if (setjmp(it.memory.out)) {
        puts("trap");
        free(it.memory.data);
        it.memory.data = NULL;
    } else if (found = result(&it, call), call->is_float && (found & low) == low && found & high) puts("nan");
    else printf("%" PRIu64 "\\n", found);
}
"""


def unsigned(value):
    out = b""
    while value >= 128:
        out, value = out + bytes([value & 127 | 128]), value >> 7
    return out + bytes([value])


def signed(value):
    out = b""
    while not -64 <= value < 64:
        out, value = out + bytes([value & 127 | 128]), value >> 7
    return out + bytes([value & 127])


def constant(kind, bits):
    half = 1 << (31 if kind == I32 else 63)
    return bytes([0x41 if kind == I32 else 0x42]) + signed((bits ^ half) - half)


def get(index):
    return bytes([LOCAL_GET]) + unsigned(index)


def vector(items):
    return unsigned(len(items)) + b"".join(items)


def section(number, content):
    return bytes([number]) + unsigned(len(content)) + content


def module(functions):
    """A module of functions: each has parameters, a result, locals and a body. It has a page of memory with bytes, and a global."""
    types = [b"\x60" + vector([bytes([it]) for it in parameters]) + vector([bytes([result])]) for parameters, result, _, _ in functions]
    bodies = [vector([b"\1" + bytes([kind]) for kind in more]) + body + b"\x0b" for _, _, more, body in functions]
    exports = [vector([bytes([it]) for it in f"f{at}".encode()]) + b"\0" + unsigned(at) for at in range(len(functions))]
    data = bytes((37 * at ^ at >> 3) & 255 for at in range(2000))
    return b"\0asm\1\0\0\0" + b"".join(
        [
            section(1, vector(types)),
            section(3, vector([unsigned(at) for at in range(len(functions))])),
            section(5, vector([b"\0\1"])),
            section(6, vector([b"\x7e\1" + constant(I64, 5) + b"\x0b"])),
            section(7, vector(exports)),
            section(10, vector([unsigned(len(body)) + body for body in bodies])),
            section(11, vector([b"\0" + constant(I32, 0) + b"\x0b" + unsigned(len(data)) + data])),
        ]
    )


def of_operations():
    """A function of each operation, load and store, with the words of its calls."""
    for opcode, (operands, result, _) in OPERATIONS.items():
        body = b"".join(get(at) + bytes([TO_FLOAT[kind]] if kind in TO_FLOAT else []) for at, kind in enumerate(operands))
        body += bytes([opcode, FROM_FLOAT[result]] if result in FROM_FLOAT else [opcode])
        yield ([INTEGERS[it] for it in operands], INTEGERS[result], [], body), itertools.product(*(VALUES[it] for it in operands)), result in FROM_FLOAT
    for offset in OFFSETS:
        for opcode, (_, kind) in LOADS.items():
            body = get(0) + bytes([opcode, 0]) + unsigned(offset) + bytes([FROM_FLOAT[kind]] if kind in FROM_FLOAT else [])
            yield ([I32], INTEGERS[kind], [], body), [(it,) for it in ADDRESSES], False
        for opcode, kind in zip(STORES, [I32, I64, F32, F64, I32, I32, I64, I64, I64]):
            value = get(1) + bytes([TO_FLOAT[kind]] if kind in TO_FLOAT else [])
            body = get(0) + value + bytes([opcode, 0]) + unsigned(offset) + get(0) + b"\x29\0" + unsigned(offset)
            yield ([I32, INTEGERS[kind]], I64, [], body), itertools.product(ADDRESSES, VALUES[kind]), False


class Maker:
    """Makes random functions: parameters `i32` and `i64`, two more locals of each, and the fuel of loops. The result is an `i64`."""

    def __init__(self, chance):
        self.chance = chance
        self.pure = {kind: [] for kind in (I32, I64)}
        for opcode, (operands, result, _) in OPERATIONS.items():
            if {*operands, result} <= {I32, I64}:
                self.pure[result].append((opcode, operands))

    LOCALS, MORE, FUEL = {I32: [0, 2, 3], I64: [1, 4, 5]}, [I32, I32, I64, I64, I32], 6

    def function(self, index):
        # what can be left, the innermost last: whether it takes an i64
        self.index, self.labels = index, [True]
        body = constant(I32, 20) + bytes([LOCAL_SET, self.FUEL]) + self.statements(4, 5) + self.value(I64, 4)
        return [I32, I64], I64, self.MORE, body

    def address(self, depth):
        return self.value(I32, depth) + constant(I32, 0xFF8) + b"\x71"

    def value(self, kind, depth):
        c = self.chance
        way = c.randrange(12) if depth > 0 else c.randrange(2)
        if way == 0:
            return constant(kind, c.choice(VALUES[kind]))
        if way == 1:
            return get(c.choice(self.LOCALS[kind]))
        if way == 2:
            return self.value(kind, depth - 1) + self.value(kind, depth - 2) + self.value(I32, depth - 2) + bytes([SELECT])
        if way == 3:
            opcode = c.choice([it for it, (_, result) in LOADS.items() if result == kind])
            return self.address(depth - 1) + bytes([opcode, 0]) + unsigned(c.randrange(50))
        if way == 4:
            return self.value(kind, depth - 1) + bytes([LOCAL_TEE, c.choice(self.LOCALS[kind])])
        if way == 5:
            return self.value(I32, depth - 1) + bytes([IF, kind]) + self.within(False, kind, depth - 1) + bytes([ELSE]) + self.within(False, kind, depth - 1) + bytes([END])
        if way == 6 and kind == I64:
            return bytes([BLOCK, I64]) + self.within(True, I64, depth - 1) + bytes([END])
        if way == 7 and kind == I64 and self.index:
            return self.value(I32, depth - 1) + self.value(I64, depth - 1) + bytes([CALL]) + unsigned(c.randrange(min(self.index, CALLED)))
        if way == 8:
            return bytes([GLOBAL_GET, 0]) + (b"\xa7" if kind == I32 else b"")
        if way == 9 and kind == I32:
            return bytes([SIZE, 0]) if c.randrange(3) else self.value(I32, depth - 1) + constant(I32, 3) + bytes([0x71, GROW, 0])
        opcode, operands = c.choice(self.pure[kind])
        return b"".join(self.value(it, depth - 1) for it in operands) + bytes([opcode])

    def within(self, is_taking, kind, depth):
        """Statements and a value in a block, which a branch can leave if it takes an i64."""
        self.labels.append(is_taking or None)
        body = self.statements(2, depth) + self.value(kind, depth)
        self.labels.pop()
        return body

    def statements(self, count, depth):
        return b"".join(self.statement(depth) for _ in range(self.chance.randrange(count + 1)))

    def statement(self, depth):
        c = self.chance
        way, kind = c.randrange(14) if depth > 0 else 0, c.choice([I32, I64])
        if way == 1:
            opcode, kind = c.choice([(0x36, I32), (0x37, I64), (0x3A, I32), (0x3B, I32), (0x3C, I64), (0x3D, I64), (0x3E, I64)])
            return self.address(depth - 1) + self.value(kind, depth - 1) + bytes([opcode, 0]) + unsigned(c.randrange(50))
        if way in (2, 3):
            return bytes([BLOCK, NO_RESULT]) + self.block(depth - 1) + bytes([END])
        if way == 4:
            # `fuel = fuel - 1; if (fuel > 0 and a value) continue`
            again = get(self.FUEL) + constant(I32, 1) + bytes([0x6B, LOCAL_TEE, self.FUEL]) + constant(I32, 0) + bytes([0x4A])
            return bytes([LOOP, NO_RESULT]) + self.block(depth - 1, True) + again + self.value(I32, depth - 1) + bytes([0x71, BR_IF, 0, END])
        if way == 5:
            other = bytes([ELSE]) + self.block(depth - 1) if c.randrange(2) else b""
            return self.value(I32, depth - 1) + bytes([IF, NO_RESULT]) + self.block(depth - 1) + other + bytes([END])
        if way in (6, 7):
            # to a block without a value, or out of one with a value, which stays if the branch is not taken
            target = c.choice([at for at, it in enumerate(reversed(self.labels)) if it is not None])
            if self.labels[-1 - target]:
                return self.value(I64, depth - 1) + self.value(I32, depth - 1) + bytes([BR_IF]) + unsigned(target) + bytes([DROP])
            return self.value(I32, depth - 1) + bytes([BR_IF]) + unsigned(target)
        if way == 8:
            targets = [at for at, it in enumerate(reversed(self.labels)) if it is False]
            if targets:
                return self.value(I32, depth - 1) + constant(I32, 7) + b"\x71" + bytes([BR_TABLE]) + vector([unsigned(c.choice(targets)) for _ in range(4)]) + unsigned(c.choice(targets))
        if way == 9:
            return self.value(I64, depth - 1) + bytes([GLOBAL_SET, 0])
        if way == 10:
            opcode, to = c.choice([COPY, FILL]), self.address(depth - 1)
            what = self.address(depth - 1) if opcode == COPY else self.value(I32, depth - 1)
            return to + what + constant(I32, c.randrange(40)) + bytes([MORE, opcode & 255, *[0] * (2 if opcode == COPY else 1)])
        if way == 11 and not c.randrange(4):
            return c.choice([self.value(I64, 1) + bytes([RETURN]), bytes([UNREACHABLE])])
        if way == 12:
            return self.value(kind, depth - 1) + bytes([DROP])
        return self.value(kind, depth - 1) + bytes([LOCAL_SET, c.choice(self.LOCALS[kind])])

    def block(self, depth, is_loop=False):
        self.labels.append(None if is_loop else False)
        body = self.statements(3, depth)
        self.labels.pop()
        return body


def of_random():
    """Random functions, with the words of their calls."""
    maker = Maker(random.Random(SEED))
    for index in range(RANDOM_FUNCTIONS):
        yield maker.function(index), itertools.product([0, 1, 0x80000000, 0xFFFFFFFF, 1000], [0, 1, (1 << 64) - 1]), False


def compared(kinds, head, cc, room):
    """How many calls of functions are as in node, and a line of each that is not."""
    functions, calls = [], []
    for index, (function, every, is_float) in enumerate(kinds):
        functions.append(function)
        calls += [(index, words, function[1] == I64, is_float) for words in every]
    data = module(functions)
    kinds_of = lambda index: [kind == I64 for kind in functions[index][0]]
    given = [[index, [[str(it), is_wide] for it, is_wide in zip(words, kinds_of(index))], wide, is_float] for index, words, wide, is_float in calls]
    ran = subprocess.run(["node", "-e", SCRIPT], input=json.dumps([data.hex(), given]), capture_output=True, text=True, check=True)
    found = to_c.Module(data)
    text = head + to_c.translated(found, found.exports) + PROGRAM
    for index, (parameters, _, _, _) in enumerate(functions):
        words = "".join(f", ({to_c.TYPES[kind]}){name}" for kind, name in zip(parameters, ("one", "other")))
        text += f"static u64 of{index}(W *it, u64 one, u64 other) {{ (void)one, (void)other; return F({index})(it{words}); }}\n"
    rows = (f"{{of{index}, {words[0]}ull, {words[-1]}ull, {int(wide)}, {int(is_float)}}}" for index, words, wide, is_float in calls)
    text += "static const struct call calls[] = {" + ",\n".join(rows) + "};\n"
    text += "int main(void) { size_t i; for (i = 0; i < sizeof calls / sizeof *calls; i++) run(calls + i, i ? calls + i - 1 : NULL); return 0; }\n"
    source, program = room / "translated.c", room / "translated"
    source.write_text(text, encoding="utf-8")
    subprocess.run([*cc, "-std=c99", "-O1", "-w", source, "-o", program, "-lm"], check=True)
    lines = subprocess.run([program], capture_output=True, text=True, check=True).stdout.splitlines()
    wanted = ran.stdout.splitlines()
    wrong = [f"function {call[0]} of {call[1]}: {it}, and in node {other}" for call, it, other in zip(calls, lines, wanted) if it != other]
    return len(calls), wrong + ["other lines"] * (not len(calls) == len(lines) == len(wanted)), wanted.count("trap")
