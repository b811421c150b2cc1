"""What binary modules say, for `tools/test suite`: two are compared but for what a text leaves open.

RULES names what a writer may choose: each is a way to write one thing, and where two modules differ, `difference` tells the rules by
which they do, or that there is none. Of custom sections only names are compared: `names` has those of a module.
"""

RULES = {
    "block types by index": "a block of a short type has it in place, or a number",
    "empty else": "an arm behind `else` without instructions is left out",
    "element segments": "a segment has one form among several, by a flag",
    "data segments": "the memory of a data segment stands there, or is the first",
    "types": "types that uses imply are others, or stand elsewhere",
    "data count": "a count of data segments is written",
    "locals": "locals of a type are counted together, or one by one",
    "memory arguments": "the memory of an access stands there, or is the first",
    "reference types": "a reference that may be null, to an abstract heap type, has one byte or two",
    "compact imports": "imports of one module after another are a group, in the form of a proposal that wast2json --enable-all writes",
}

SHORT = {0x40, *range(0x63, 0x80)}


class Unknown(Exception):
    """An instruction or a section that is not known here."""


class Bytes:
    """The bytes of a module, and how far they are read."""

    def __init__(self, data):
        self.data, self.at = data, 0

    def left(self):
        return self.at < len(self.data)

    def byte(self):
        self.at += 1
        return self.data[self.at - 1]

    def take(self, count):
        self.at += count
        return self.data[self.at - count : self.at]

    def number(self):
        value = shift = 0
        while True:
            byte = self.byte()
            value |= (byte & 127) << shift
            shift += 7
            if byte < 128:
                return value

    def signed(self):
        start = self.at
        while self.byte() >= 128:
            pass
        value = Bytes(self.data[start : self.at]).number()
        return value - (1 << 7 * (self.at - start)) if self.data[self.at - 1] & 64 else value

    def value_type(self):
        kind = self.byte()
        return (kind, self.signed()) if kind in (0x63, 0x64) else kind

    def many(self, item):
        return [item() for _ in range(self.number())]


class Module:
    """The sections of a binary module, without what the rules leave open."""

    def __init__(self, data, rules):
        self.rules, self.types, self.said = rules, [], []
        reader = Bytes(data)
        reader.take(8)
        while reader.left():
            kind, size = reader.byte(), reader.number()
            content = Bytes(reader.take(size))
            if kind:
                self.section(kind, content)

    def section(self, kind, content):
        if kind == 1:
            self.types = self.type_section(content)
            if "types" in self.rules:
                return
        if kind == 12 and "data count" in self.rules:
            return
        if kind == 2:
            self.said += [(kind, it) for it in self.import_section(content)]
            return
        read = {3: self.functions, 4: self.tables, 6: self.globals, 9: self.elements, 10: self.code, 11: self.data, 13: self.tags}.get(kind)
        start = content.at
        said = content.many(lambda: read(content)) if read and content.data[start:] != b"\0" else content.data
        if said != b"\0":
            self.said.append((kind, said))

    def type_section(self, content):
        start, types = content.at, []
        for _ in range(content.number()):
            begin = content.at
            kind = content.byte()
            if kind != 0x60:
                content.at = start
                return []
            shape = (tuple(content.many(lambda: self.value_type(content))), tuple(content.many(lambda: self.value_type(content))))
            types.append((shape, content.data[begin : content.at]))
        return types

    def value_type(self, content):
        """A type of values."""
        ty = content.value_type()
        is_short = "reference types" in self.rules and isinstance(ty, tuple) and ty[0] == 0x63 and ty[1] < 0
        return ty[1] & 0x7F if is_short else ty

    def type_of(self, index):
        """A type by its number: its parts, where types may stand elsewhere."""
        if "types" in self.rules and index < len(self.types):
            return self.types[index][0]
        return index

    def import_section(self, content):
        """The imports, of which several of one module may be a group. The count before them is that of groups, or that of imports, which
        wast2json 1.0.42 writes there."""
        count, groups = content.number(), []
        while content.left():
            groups.append(self.import_group(content))
        imports = [it for group in groups for it in group]
        if count not in (len(groups), len(imports)):
            raise Unknown(f"{count} imports")
        return imports if "compact imports" in self.rules else groups

    def import_group(self, content):
        """An import, alone in a list; or those of a group, which has an empty name and the kind 7f before its imports."""
        module, name = content.take(content.number()), content.take(content.number())
        kind = content.byte()
        if not name and kind == 0x7F:
            return content.many(lambda: (module, content.take(content.number()), self.external_type(content, content.byte())))
        return [(module, name, self.external_type(content, kind))]

    def external_type(self, content, kind):
        """The kind and type of an import."""
        if kind == 0:
            return kind, self.type_of(content.number())
        if kind == 4:
            return kind, content.byte(), self.type_of(content.number())
        if kind == 3:
            return kind, self.value_type(content), content.byte()
        ty = self.value_type(content) if kind == 1 else None
        flags = content.number()
        return kind, ty, flags, content.number(), content.number() if flags & 1 else None, content.number() if flags & 8 else None

    def functions(self, content):
        return self.type_of(content.number())

    def tables(self, content):
        is_initial = content.data[content.at] == 0x40
        if is_initial:
            content.take(2)
        return self.external_type(content, 1), self.expression(content) if is_initial else None

    def globals(self, content):
        return self.external_type(content, 3), self.expression(content)

    def tags(self, content):
        return content.byte(), self.type_of(content.number())

    def elements(self, content):
        flags = content.number()
        table = content.number() if flags & 3 == 2 else 0
        offset = self.expression(content) if not flags & 1 else None
        kind = 0 if not flags & 4 else (0x70, None)
        if flags & 3:
            kind = self.value_type(content) if flags & 4 else content.byte()
        kind = "functions" if kind in (0, 0x70, (0x70, None)) else kind
        if flags & 4:
            items = content.many(lambda: self.expression(content))
        else:
            items = [[(0xD2, n), (0x0B,)] for n in content.many(content.number)]
        said = (flags & 1 and flags & 3, table, offset, kind, items)
        return said if "element segments" in self.rules else (flags, said)

    def data(self, content):
        flags = content.number()
        memory = content.number() if flags == 2 else 0
        offset = self.expression(content) if flags != 1 else None
        said = (flags == 1, memory, offset, content.take(content.number()))
        return said if "data segments" in self.rules else (flags, said)

    def code(self, content):
        body = Bytes(content.take(content.number()))
        groups = body.many(lambda: (body.number(), self.value_type(body)))
        if "locals" in self.rules:
            groups = [ty for count, ty in groups for _ in range(min(count, 10_000))]
        return groups, self.instructions(body)

    def expression(self, content):
        """Up to the `end` of it."""
        depth, out = 0, []
        while True:
            instruction = self.instruction(content)
            out.append(instruction)
            if instruction[0] in (2, 3, 4, 6, 0x1F):
                depth += 1
            if instruction[0] in (0x0B, 0x18):
                if depth == 0:
                    return out
                depth -= 1

    def instructions(self, body):
        out = []
        while body.left():
            instruction = self.instruction(body)
            if instruction == (0x0B,) and out and out[-1] == (5,) and "empty else" in self.rules:
                out.pop()
            out.append(instruction)
        return out

    def block_type(self, body):
        if body.data[body.at] in SHORT:
            return self.value_type(body)
        index = body.signed()
        if "block types by index" in self.rules and index < len(self.types):
            params, results = self.types[index][0]
            if not params and len(results) <= 1:
                return results[0] if results else 0x40
        return self.type_of(index)

    def memory_argument(self, body):
        flags = body.number()
        memory = body.number() if flags & 64 else 0
        said = (flags & 63, memory, body.number())
        return said if "memory arguments" in self.rules else (flags, said)

    def instruction(self, body):
        op = body.byte()
        if op in (2, 3, 4, 6):
            return op, self.block_type(body)
        if op in (0, 1, 5, 0x0A, 0x0B, 0x0F, 0x19, 0x1A, 0x1B, 0xD1, 0xD3, 0xD4) or 0x45 <= op <= 0xC4:
            return (op,)
        if op in (7, 8, 9, 0x0C, 0x0D, 0x10, 0x12, 0x18, 0xD2, 0xD5, 0xD6, 0x3F, 0x40) or 0x20 <= op <= 0x26:
            return op, body.number()
        if op in (0x14, 0x15):
            return op, self.type_of(body.number())
        if op == 0x0E:
            return op, body.many(body.number), body.number()
        if op in (0x11, 0x13):
            return op, self.type_of(body.number()), body.number()
        if op == 0x1C:
            return op, body.many(lambda: self.value_type(body))
        if op == 0x1F:
            return op, self.block_type(body), body.many(lambda: [body.number() for _ in range(1 + (body.data[body.at] < 2) + 1)])
        if 0x28 <= op <= 0x3E:
            return op, self.memory_argument(body)
        if op in (0x41, 0x42, 0xD0):
            return op, body.signed()
        if op in (0x43, 0x44):
            return op, body.take(4 if op == 0x43 else 8)
        return self.prefixed(op, body)

    def prefixed(self, op, body):
        if op not in (0xFC, 0xFD, 0xFE):
            raise Unknown(f"{op:02x}")
        row = op, body.number()
        if op == 0xFC:
            counts = {8: 2, 9: 1, 10: 2, 11: 1, 12: 2, 13: 1, 14: 2, 15: 1, 16: 1, 17: 1}
            return *row, [body.number() for _ in range(counts.get(row[1], 0))]
        if op == 0xFE:
            return *row, body.byte() if row[1] == 3 else self.memory_argument(body)
        if row[1] in (12, 13):
            return *row, body.take(16)
        if row[1] <= 11 or row[1] in (92, 93):
            return *row, self.memory_argument(body)
        if 84 <= row[1] <= 91:
            return *row, self.memory_argument(body), body.byte()
        return (*row, body.byte()) if 21 <= row[1] <= 34 else row


# Subsections of the name section that are not compared: `wat2wasm` writes no labels (3), tags with the number that is now that of fields (10, 11), and
# no parameters of types and of tags (12, 13), whose numbers are this project's.
UNNAMED = {3, 10, 11, 12, 13}


def names(data):
    """What the name section of a module says, by its subsections, but for those that are left out by wabt. For example, `{1: {0: b"f"}}` names function 0."""
    reader, found = Bytes(data), {}
    reader.take(8)
    while reader.left():
        kind, size = reader.byte(), reader.number()
        content = Bytes(reader.take(size))
        if kind or content.take(content.number()) != b"name":
            continue
        while content.left():
            kind, size = content.byte(), content.number()
            part = Bytes(content.take(size))
            name = lambda: part.take(part.number())
            each = lambda: dict(part.many(lambda: (part.number(), name())))
            if kind == 0:
                found[kind] = name()
            elif kind == 2:
                # a function without names of locals may be there, with none
                found[kind] = {index: of for index, of in part.many(lambda: (part.number(), each())) if of}
            elif kind not in UNNAMED:
                found[kind] = each()
    return {kind: said for kind, said in found.items() if said}


def known_names(ours, theirs):
    """What the name section of ours says, but for what wabt leaves out: in a module with types of structs and arrays it names no such types."""
    found, other = names(ours), names(theirs).get(4, {})
    if 4 in found and not Module(ours, set()).types:
        found[4] = {index: name for index, name in found[4].items() if index in other}
    return {kind: said for kind, said in found.items() if said}


def fault(ours, theirs, is_text, source):
    """What is wrong with a file of a module, beside that of wabt; nothing if they say the same, or differ by a rule. wabt does not read
    annotations, so names are compared only if their source has none."""
    if ours == theirs:
        return ""
    if is_text:
        return "the text differs"
    if difference(ours, theirs) is None:
        return "the bytes differ by no rule"
    try:
        return "" if b"(@" in source or known_names(ours, theirs) == names(theirs) else "the names differ"
    except IndexError:
        return "a name section cannot be read"


def difference(one, other):
    """The rules by which two modules differ, or [] where they are the same; None where rules do not tell."""
    every = set(RULES)
    try:
        if Module(one, set()).said == Module(other, set()).said:
            return []
        if Module(one, every).said != Module(other, every).said:
            return None
        return [rule for rule in RULES if Module(one, every - {rule}).said != Module(other, every - {rule}).said] or ["several at once"]
    except (Unknown, IndexError):
        return None
