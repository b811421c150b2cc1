"""Translates the functions of a WebAssembly module to C99, for `tools/c`. It knows what `rigyomad.wasm` has, and stops at anything else: imports, tables,
references, vectors, exceptions, several results, and instructions that are not below.

A value of the operand stack is a C expression, until something that the expression reads can change. Then a variable keeps it. A block is a block of C, and a
branch is a `goto`. For example, the function `(func (param i32) (result i32) (i32.load offset=8 (local.get 0)))` becomes

    LOCAL u32 F(0)(W *I, u32 l0) {
    P
    K(l0)
    return R(u32, l0, 8);
    }

`bindings/c/module/memory.h` has the macros. `K` checks that the address is in the memory; the offset is not checked, because so many bytes are after the memory.
"""

import struct

I32, I64, F32, F64 = 0x7F, 0x7E, 0x7D, 0x7C
TYPES = {I32: "u32", I64: "u64", F32: "f32", F64: "f64"}
NO_RESULT = 0x40

# Opcodes that are more than an operation on values.
UNREACHABLE, NOP, BLOCK, LOOP, IF, ELSE, END, BR, BR_IF, BR_TABLE, RETURN, CALL = 0, 1, 2, 3, 4, 5, 0x0B, 0x0C, 0x0D, 0x0E, 0x0F, 0x10
DROP, SELECT, LOCAL_GET, LOCAL_SET, LOCAL_TEE, GLOBAL_GET, GLOBAL_SET, SIZE, GROW = 0x1A, 0x1B, 0x20, 0x21, 0x22, 0x23, 0x24, 0x3F, 0x40
CONSTANTS, MORE, COPY, FILL = range(0x41, 0x45), 0xFC, 0xFC0A, 0xFC0B

# By opcode: the C type in memory, and the type of the value.
LOADS = dict(enumerate(zip("u32 u64 f32 f64 s8 u8 s16 u16 s8 u8 s16 u16 s32 u32".split(), [I32, I64, F32, F64, *[I32] * 4, *[I64] * 6]), 0x28))
STORES = dict(enumerate("u32 u64 f32 f64 u8 u16 u8 u16 u32".split(), 0x36))

# At most this many bytes are added to a checked address: `SLACK` of memory.h, without the bytes of an access.
MOST_OFFSET = 65_000

# In so many parts the C can be compiled.
PARTS = 8


class Unknown(Exception):
    """What a module has that is not translated."""


def _operations():
    """By opcode: the types of the operands, the type of the result, and the C of an operation that reads its operands alone."""
    found = {}

    def add(first, operands, result, *texts):
        found.update({opcode: (operands, result, text) for opcode, text in enumerate(texts, first) if text})

    for kind, width, zero, numeric in ((I32, 32, 0x45, 0x67), (I64, 64, 0x50, 0x79)):
        signed, by, both = f"(s{width})", f"({{1}} & {width - 1})", [kind, kind]
        add(zero, [kind], I32, "(u32)({0} == 0)")
        add(zero + 1, both, I32, "(u32)({0} == {1})", "(u32)({0} != {1})")
        add(zero + 3, both, I32, *(f"(u32)({cast}{{0}} {sign} {cast}{{1}})" for sign in ("<", ">", "<=", ">=") for cast in (signed, "")))
        add(numeric, [kind], kind, *(f"{name}{width}({{0}})" for name in ("clz", "ctz", "popcnt")))
        add(numeric + 3, both, kind, "({0} + {1})", "({0} - {1})", "({0} * {1})")
        add(numeric + 6, both, kind, *(f"{name}{width}(I, {{0}}, {{1}})" if name else None for name in (None, "div", None, "rem")))
        add(numeric + 10, both, kind, "({0} & {1})", "({0} | {1})", "({0} ^ {1})", f"({{0}} << {by})", f"(u{width})({signed}{{0}} >> {by})", f"({{0}} >> {by})")
        add(numeric + 16, both, kind, f"rotl{width}({{0}}, {{1}})", f"rotl{width}({{0}}, {width} - {by})")
    for kind, compared, numeric in ((F32, 0x5B, 0x8B), (F64, 0x61, 0x99)):
        add(compared, [kind, kind], I32, *(f"(u32)({{0}} {sign} {{1}})" for sign in ("==", "!=", "<", ">", "<=", ">=")))
        add(numeric + 1, [kind], kind, "(-{0})")
        add(numeric + 7, [kind, kind], kind, *(f"({{0}} {sign} {{1}})" for sign in "+-*/"))
    add(0xA7, [I64], I32, "(u32){0}")
    add(0xAC, [I32], I64, "(u64)(s64)(s32){0}", "(u64){0}")
    for kind, first in ((F32, 0xB2), (F64, 0xB7)):
        add(first, [I32], kind, f"({TYPES[kind]})(s32){{0}}", f"({TYPES[kind]}){{0}}")
        add(first + 2, [I64], kind, f"({TYPES[kind]})(s64){{0}}", f"({TYPES[kind]}){{0}}")
    add(0xB6, [F64], F32, "(f32){0}")
    add(0xBB, [F32], F64, "(f64){0}")
    for opcode, (one, other) in enumerate([(F32, I32), (F64, I64), (I32, F32), (I64, F64)], 0xBC):
        add(opcode, [one], other, f"{TYPES[other]}_of({{0}})")
    add(0xC0, [I32], I32, "(u32)(s32)(s8){0}", "(u32)(s32)(s16){0}")
    add(0xC2, [I64], I64, *(f"(u64)(s64)(s{width}){{0}}" for width in (8, 16, 32)))
    return found


OPERATIONS = _operations()


class Reader:
    """Reads the binary format."""

    def __init__(self, data):
        self.data, self.at = data, 0

    def byte(self):
        self.at += 1
        return self.data[self.at - 1]

    def take(self, size):
        self.at += size
        return self.data[self.at - size : self.at]

    def unsigned(self):
        value = shift = 0
        while True:
            byte = self.byte()
            value |= (byte & 127) << shift
            shift += 7
            if byte < 128:
                return value

    def signed(self):
        start = self.at
        value = self.unsigned()
        bits = 7 * (self.at - start)
        return value - (1 << bits) if value >> (bits - 1) else value

    def vector(self, item):
        return [item() for _ in range(self.unsigned())]

    def zeros(self, count):
        if any(self.take(count)):
            raise Unknown("a second memory")

    def instruction(self):
        """An opcode, and what follows it."""
        opcode = self.byte()
        if opcode in (BLOCK, LOOP, IF):
            kind = self.byte()
            if kind not in (NO_RESULT, *TYPES):
                raise Unknown(f"the block type {kind:#x}")
            return opcode, kind
        if opcode in (BR, BR_IF, CALL) or LOCAL_GET <= opcode <= GLOBAL_SET:
            return opcode, self.unsigned()
        if opcode == BR_TABLE:
            return opcode, (self.vector(self.unsigned), self.unsigned())
        if opcode in LOADS or opcode in STORES:
            return opcode, (self.unsigned(), self.unsigned())[1]
        if opcode in (SIZE, GROW):
            return opcode, self.zeros(1)
        if opcode in CONSTANTS:
            return opcode, self.constant(opcode)
        if opcode == MORE:
            opcode = MORE << 8 | self.unsigned()
            if opcode in (COPY, FILL):
                return opcode, self.zeros(2 if opcode == COPY else 1)
        if opcode not in OPERATIONS and opcode not in (UNREACHABLE, NOP, ELSE, END, RETURN, DROP, SELECT):
            raise Unknown(f"the opcode {opcode:#x}")
        return opcode, None

    def constant(self, opcode):
        """The C of a constant."""
        if opcode in (0x41, 0x42):
            return f"{self.signed() & 0xFFFFFFFF}u" if opcode == 0x41 else f"{self.signed() & 0xFFFFFFFFFFFFFFFF}ull"
        kind, size, code = ("f32", 4, "<I") if opcode == 0x43 else ("f64", 8, "<Q")
        return f"{kind}_of({struct.unpack(code, self.take(size))[0]}u{'ll' if size == 8 else ''})"

    def offset(self):
        """The value of a constant expression of one instruction, which is `i32.const` or `i64.const`."""
        opcode, value = self.byte(), self.signed()
        if opcode not in (0x41, 0x42) or self.byte() != END:
            raise Unknown("a constant expression")
        return value


class Module:
    """What a module has: types, the types of functions, bodies as lists of instructions, globals, exported functions, data and pages."""

    def __init__(self, data):
        if data[:8] != b"\0asm\1\0\0\0":
            raise Unknown("another binary format")
        self.types, self.functions, self.globals, self.exports, self.bodies, self.calls, self.data, self.pages = [], [], [], {}, [], [], [], 0
        ways = {1: self.type, 3: self.function, 5: self.memory, 6: self.global_, 7: self.export, 10: self.body, 11: self.segment}
        r = Reader(data)
        r.at = 8
        while r.at < len(data):
            number, section = r.byte(), Reader(r.take(r.unsigned()))
            if number in ways:
                section.vector(lambda: ways[number](section))
            elif number not in (0, 12):
                raise Unknown(f"section {number}")

    def type(self, r):
        if r.byte() != 0x60:
            raise Unknown("a type that is not of a function")
        self.types.append((r.vector(r.byte), r.vector(r.byte)))
        if len(self.types[-1][1]) > 1 or not set(sum(self.types[-1], [])) <= set(TYPES):
            raise Unknown("a type of a function")

    def function(self, r):
        self.functions.append(r.unsigned())

    def memory(self, r):
        if r.byte() > 1 or self.pages:
            raise Unknown("a memory")
        limits = [r.unsigned()]
        self.pages = limits[0]

    def global_(self, r):
        kind, _ = r.byte(), r.byte()
        self.globals.append((kind, r.offset()))

    def export(self, r):
        name, kind, index = r.take(r.unsigned()).decode(), r.byte(), r.unsigned()
        if kind == 0:
            self.exports[name] = index

    def body(self, r):
        r = Reader(r.take(r.unsigned()))
        more = [kind for count, kind in r.vector(lambda: (r.unsigned(), r.byte())) for _ in range(count)]
        instructions = []
        while r.at < len(r.data):
            instructions.append(r.instruction())
        self.bodies.append((more, instructions))
        self.calls.append({it for opcode, it in instructions if opcode == CALL})

    def segment(self, r):
        if r.unsigned() != 0:
            raise Unknown("a segment of data that is not active")
        self.data.append((r.offset(), r.take(r.unsigned())))
        if sum(map(len, self.data[-1][1:])) + self.data[-1][0] > self.pages << 16:
            raise Unknown("a segment of data outside of the memory")

    def type_of(self, function):
        return self.types[self.functions[function]]

    def reached(self, functions):
        """The functions that these call, directly or not, and they themselves."""
        found, left = set(), set(functions)
        while left:
            found |= left
            left = set().union(*(self.calls[it] for it in left)) - found
        return found

    def growing(self):
        """The functions that can grow the memory."""
        own = {at for at, (_, instructions) in enumerate(self.bodies) if any(opcode == GROW for opcode, _ in instructions)}
        return {it for it in range(len(self.bodies)) if self.reached([it]) & own}

    def head(self, function):
        """How a function is declared."""
        parameters, results = self.type_of(function)
        words = ["W *I", *(f"{TYPES[kind]} l{at}" for at, kind in enumerate(parameters))]
        return f"LOCAL {TYPES[results[0]] if results else 'void'} F({function})({', '.join(words)})"


class Value:
    """A C expression, its type, the locals that it reads, and whether it reads memory or a global."""

    def __init__(self, text, kind, reads=frozenset(), is_moving=False):
        self.text, self.kind, self.reads, self.is_moving = text, kind, reads, is_moving


class Label:
    """A block that is open. `checked` are the addresses that are checked on each way to its label so far; None if there is no way."""

    def __init__(self, number, opcode, kind, height):
        self.opcode, self.kind, self.height = opcode, kind, height
        self.goto, self.result = f"L{number}", f"t{number}" if kind != NO_RESULT else None
        self.is_used, self.checked, self.otherwise, self.at = False, None, None, 0

    def reach(self, checked):
        self.checked = set(checked) if self.checked is None else self.checked & checked


class Function:
    """Translates a function."""

    def __init__(self, module, index, growing):
        self.module, self.index, self.growing = module, index, growing
        parameters, self.results = module.type_of(index)
        more, self.instructions = module.bodies[index]
        self.locals = [*parameters, *more]
        self.lines = [f"{TYPES[kind]} l{at} = 0;" for at, kind in enumerate(self.locals) if at >= len(parameters)]
        self.stack, self.labels, self.count, self.at = [], [], 0, 0
        # None: what follows is never run
        self.checked = set()
        self.has_memory = False

    def put(self, line):
        self.lines.append(line)

    def number(self):
        self.count += 1
        return self.count

    def push(self, text, kind, operands=(), is_moving=False):
        reads = frozenset().union(*(it.reads for it in operands))
        self.stack.append(Value(text, kind, reads, is_moving or any(it.is_moving for it in operands)))

    def pop(self, count):
        taken = self.stack[len(self.stack) - count :]
        del self.stack[len(self.stack) - count :]
        return taken

    def kept(self, value):
        """A variable that has the value, which does not change."""
        if not value.reads and not value.is_moving:
            return value
        name = f"t{self.number()}"
        self.put(f"{TYPES[value.kind]} {name} = {value.text};")
        return Value(name, value.kind)

    def keep(self, is_needed):
        self.stack = [self.kept(it) if is_needed(it) else it for it in self.stack]

    def settle(self):
        """Keeps what reads memory or a global, before either changes."""
        self.keep(lambda it: it.is_moving)

    def address(self, value, offset):
        """The address of an access, which is checked."""
        self.has_memory = True
        text = value.text
        if text.endswith("u") and text[:-1].isdigit() and int(text[:-1]) + offset + 8 <= self.module.pages << 16:
            return f"{text}, {offset}"
        if not text.removeprefix("(u32)").isalnum():
            name = f"t{self.number()}"
            self.put(f"u32 {name} = {text};")
            text = name
        if offset > MOST_OFFSET:
            self.put(f"K((u64){text} + {offset})")
        elif text not in self.checked:
            self.put(f"K({text})")
            self.checked.add(text)
        return f"{text}, {offset}"

    def set_local(self, index, value):
        self.keep(lambda it: index in it.reads)
        self.checked -= {f"l{index}", f"(u32)l{index}"}
        self.put(f"l{index} = {value.text};")

    def skip(self):
        """Leaves out what is never run: up to the `else` or the end of the block."""
        depth = 0
        while depth or self.instructions[self.at][0] not in (ELSE, END):
            depth += {BLOCK: 1, LOOP: 1, IF: 1, END: -1}.get(self.instructions[self.at][0], 0)
            self.at += 1

    def set_in_loop(self):
        """The locals that the loop sets whose instructions begin here."""
        found, depth, at = set(), 1, self.at
        while depth:
            opcode, index = self.instructions[at]
            depth += {BLOCK: 1, LOOP: 1, IF: 1, END: -1}.get(opcode, 0)
            at += 1
            if opcode in (LOCAL_SET, LOCAL_TEE):
                found |= {f"l{index}", f"(u32)l{index}"}
        return found

    def begin(self, opcode, kind):
        condition = self.pop(1)[0] if opcode == IF else None
        # a branch leaves them as they are
        self.keep(lambda it: it.reads or it.is_moving)
        label = Label(self.number(), opcode, kind, len(self.stack))
        if label.result:
            self.put(f"{TYPES[kind]} {label.result};")
        if opcode == LOOP:
            self.checked -= self.set_in_loop()
            label.at = len(self.lines)
            self.put("")
        label.otherwise = set(self.checked) if opcode == IF else None
        self.put(f"if ({condition.text}) {{" if condition else "{")
        self.labels.append(label)

    def leave(self, label):
        """The end of a branch of a block is reached."""
        if self.checked is not None:
            if label.result:
                self.put(f"{label.result} = {self.stack[-1].text};")
            if label.opcode != LOOP:
                label.reach(self.checked)
        del self.stack[label.height :]

    def otherwise(self):
        label = self.labels[-1]
        self.leave(label)
        self.checked, label.otherwise = label.otherwise, None
        self.put("} else {")

    def end(self):
        label = self.labels.pop()
        self.leave(label)
        if label.otherwise is not None:
            label.reach(label.otherwise)
        if label.opcode == LOOP:
            self.lines[label.at] = f"{label.goto}:;" if label.is_used else ""
            self.put("}")
        else:
            self.checked = label.checked
            self.put(f"}} {label.goto}:;" if label.is_used else "}")
        if label.result:
            self.stack.append(Value(label.result, label.kind))

    def branch(self, depth):
        """The C of a branch."""
        if depth == len(self.labels):
            return f"return {self.stack[-1].text};" if self.results else "return;"
        label = self.labels[-1 - depth]
        label.is_used = True
        if label.opcode == LOOP:
            return f"goto {label.goto};"
        label.reach(self.checked)
        return (f"{label.result} = {self.stack[-1].text}; " if label.result else "") + f"goto {label.goto};"

    def has_value(self, depth):
        """Whether a branch takes a value."""
        if depth == len(self.labels):
            return bool(self.results)
        return self.labels[-1 - depth].opcode != LOOP and self.labels[-1 - depth].result is not None

    def call(self, function):
        parameters, results = self.module.type_of(function)
        words = ", ".join(["I", *(it.text for it in self.pop(len(parameters)))])
        self.settle()
        call = f"F({function})({words});"
        if results:
            name = f"t{self.number()}"
            self.stack.append(Value(name, results[0]))
            call = f"{TYPES[results[0]]} {name} = {call}"
        self.put(call)
        if function in self.growing:
            self.put("N")

    def control(self, opcode, word):
        """Translates an instruction after which another one than the next can follow."""
        if opcode in (BLOCK, LOOP, IF):
            self.begin(opcode, word)
        elif opcode == ELSE:
            self.otherwise()
        elif opcode == END and self.labels:
            self.end()
        elif opcode == BR_IF:
            condition = self.pop(1)[0]
            if self.has_value(word):
                self.stack[-1] = self.kept(self.stack[-1])
            self.put(f"if ({condition.text}) {{ {self.branch(word)} }}")
        else:
            self.put(self.last(opcode, word))
            self.checked = None

    def last(self, opcode, word):
        """The C of an instruction that the next one never follows. The end of the function is one, because it returns."""
        if opcode == UNREACHABLE:
            return "trap(I);"
        if opcode == BR:
            return self.branch(word)
        if opcode in (RETURN, END):
            return self.branch(len(self.labels))
        depths, other = word
        [index] = self.pop(1)
        cases = " ".join(f"case {at}: {self.branch(depth)}" for at, depth in enumerate(depths) if depth != other)
        return f"switch ({index.text}) {{ {cases} default: {self.branch(other)} }}"

    def variable(self, opcode, index):
        if opcode == LOCAL_GET:
            self.stack.append(Value(f"l{index}", self.locals[index], frozenset([index])))
        elif opcode in (LOCAL_SET, LOCAL_TEE):
            self.set_local(index, self.pop(1)[0])
            if opcode == LOCAL_TEE:
                self.variable(LOCAL_GET, index)
        elif opcode == GLOBAL_GET:
            self.push(f"I->g{index}", self.module.globals[index][0], is_moving=True)
        else:
            [value] = self.pop(1)
            self.settle()
            self.put(f"I->g{index} = {value.text};")

    def access(self, opcode, word):
        """Translates an instruction of the memory."""
        self.has_memory = True
        if opcode in LOADS:
            stored, kind = LOADS[opcode]
            [base] = self.pop(1)
            cast = "" if stored == TYPES[kind] else f"({TYPES[kind]})"
            self.push(f"{cast}R({stored}, {self.address(base, word)})", kind, [base], is_moving=True)
        elif opcode in STORES:
            base, value = self.pop(2)
            self.settle()
            self.put(f"S({STORES[opcode]}, {self.address(base, word)}, {value.text})")
        elif opcode == SIZE:
            self.push("(u32)(z >> 16)", I32, is_moving=True)
        elif opcode == GROW:
            [more] = self.pop(1)
            self.settle()
            name = f"t{self.number()}"
            self.put(f"u32 {name} = memory_grown(&I->memory, {more.text});")
            self.put("N")
            self.stack.append(Value(name, I32))
        else:
            to, what, size = self.pop(3)
            self.settle()
            self.put(f"{'COPY' if opcode == COPY else 'FILL'}({to.text}, {what.text}, {size.text})")

    def step(self, opcode, word):
        if opcode <= RETURN and opcode != NOP:
            self.control(opcode, word)
        elif opcode == CALL:
            self.call(word)
        elif opcode == DROP:
            self.pop(1)
        elif opcode == SELECT:
            one, other, condition = self.pop(3)
            self.push(f"({condition.text} ? {one.text} : {other.text})", one.kind, [one, other, condition])
        elif LOCAL_GET <= opcode <= GLOBAL_SET:
            self.variable(opcode, word)
        elif opcode in CONSTANTS:
            self.push(word, [I32, I64, F32, F64][opcode - CONSTANTS[0]])
        elif opcode in OPERATIONS:
            operands, result, text = OPERATIONS[opcode]
            values = self.pop(len(operands))
            self.push(text.format(*(it.text for it in values)), result, values)
        elif opcode != NOP:
            self.access(opcode, word)

    def translate(self):
        """The C of the function."""
        while self.at < len(self.instructions):
            if self.checked is None:
                self.skip()
            opcode, word = self.instructions[self.at]
            self.at += 1
            if self.checked is None and opcode == END and not self.labels:
                break
            self.step(opcode, word)
        body = [line for line in self.lines if line and (self.has_memory or line != "N")]
        return "\n".join([f"{self.module.head(self.index)} {{", *["P"] * self.has_memory, *body, "}"])


def _parts(texts):
    """Texts in parts of about the same size, each of which is compiled alone or with the others."""
    size, part, lines = sum(map(len, texts)), 0, ["#if IS_PART(0)"]
    done = 0
    for text in texts:
        if part < min(PARTS - 1, done * PARTS // size):
            part += 1
            lines += ["#endif", f"#if IS_PART({part})"]
        done += len(text)
        lines.append(text)
    return [*lines, "#endif"]


def translated(module, exports):
    """The C of a module: its instances, its functions that these exports need, and how an instance begins."""
    growing = module.growing()
    needed = sorted(module.reached(module.exports[name] for name in exports))
    lines = ["typedef struct {", "    struct memory memory;", *(f"    {TYPES[kind]} g{at};" for at, (kind, _) in enumerate(module.globals)), "} W;"]
    lines += [f"{module.head(it)};" for it in needed]
    lines += _parts([Function(module, it, growing).translate() for it in needed])
    lines += ["#if IS_PART(0)", f"#define MODULE_PAGES {module.pages}"]
    for number, (_, data) in enumerate(module.data):
        rows = (",".join(map(str, data[at : at + 40])) for at in range(0, len(data), 40))
        lines += [f"static const u8 data{number}[] = {{", ",\n".join(rows), "};"]
    lines += ["static void started(W *I) {", *(f"    I->g{at} = {value}u;" for at, (_, value) in enumerate(module.globals))]
    lines += [f"    memcpy(I->memory.data + {at}, data{number}, {len(data)});" for number, (at, data) in enumerate(module.data)]
    return "\n".join([*lines, "}", "#endif", ""])
