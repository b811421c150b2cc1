"""Reads the table of instructions, `tools/data/instructions.txt`, and says how each is called in code, for `tools/ops`.

For example, `rows()` has a `Row` for `ref.func` with the class Index, the key 0xd2 and the place Func; its variant of `IndexOp` is `RefFunc`.
"""

import collections
import functools
import re
import sys

import entry

ROOT = entry.ROOT


@functools.lru_cache(maxsize=None)
def sections():
    """The lines of each section of the table, without comments."""
    found, here = {}, None
    for line in (ROOT / "tools/data/instructions.txt").read_text(encoding="utf-8").splitlines():
        if line.startswith("["):
            here = found.setdefault(line.strip("[]"), [])
        elif line and not line.startswith("#"):
            here.append(line)
    return found


# Words that are names of Rust, and one that is a name of the logic.
RESERVED = {"return", "else", "end", "if", "loop", "try"}
KEY_NAMES = {"type": "Ty"}

# Where an index belongs: its letter in an example, and what it is called in code and in words. An index of a space is a place of
# the space's name; Outer is a label that is read once the innermost block has ended.
PLACES = {
    "Func": ("f", "func", "a function"),
    "Tag": ("e", "tag", "a tag"),
    "Global": ("g", "global", "a global"),
    "Table": ("t", "table", "a table"),
    "Memory": ("m", "memory", "a memory"),
    "Elem": ("e", "elem", "an element segment"),
    "Data": ("d", "data", "a data segment"),
    "Ty": ("t", "ty", "a type"),
    "Local": ("x", "local", "a local"),
    "Field": ("x", "field", "a field"),
    "Label": ("l", "label", "a label"),
    "Outer": ("l", "label", "a label"),
}
WITHIN = ("Local", "Field", "Label", "Outer")

# What the doc comment of a variant says of its form.
NOTES = {
    "Descriptor": " (custom descriptors)",
    "StackSwitching": " (stack switching)",
    "Beyond": " (memory control)",
    "Legacy": " (legacy exceptions)",
}

# The immediates of own instructions that are written as two indices.
TWO_NUMBERS = {
    "call_indirect": "a type and a table",
    "return_call_indirect": "a type and a table",
    "array.new_fixed": "a type and a length",
}

# A line of the table.
ROW = re.compile(r"(\w+) (\w+|-) ([\w.]*(?:\{[^}]*\})?)((?: [\w/]+)*)")

Row = collections.namedtuple("Row", "kind key name rest")

Held = collections.namedtuple("Held", "struct fields text binary")


def spread(names):
    """The names that `A.{x y}` stands for."""
    base, listed = re.fullmatch(r"([\w.]*?)(?:\{(.*)\})?", names).groups()
    return [base + name for name in listed.split()] if listed else [base]


@functools.lru_cache(maxsize=None)
def rows():
    """The rows of the table, one for each name."""
    found = []
    for line in sections()["instructions"]:
        parts = ROW.fullmatch(line) or sys.exit(f"expected a class, a key and names: {line}")
        kind, first, names, rest = parts.groups()
        rest = rest.split()
        if kind in ("Index", "Pair"):
            if not rest or rest[0] not in PLACES and rest[0] not in holders():
                sys.exit(f"expected a place or a struct after the names: {line}")
            if first == "-" and (len(rest) < 2 or rest[0] in WITHIN or rest[0] == "StructAccess"):
                sys.exit(f"expected an index of a space and a form after names without a key: {line}")
        for i, name in enumerate(spread(names)):
            found.append(Row(kind, None if first == "-" else int(first, 16) + i, name, rest))
    return found


@functools.lru_cache(maxsize=None)
def holders():
    """The structs that hold indices, by their names in the table: the fields as triples of a name, a place and whether the text
    may leave it out, in the order of looking up, of the text and of the binary format."""
    found = {}
    for line in sections()["holders"]:
        name, listed = line.split(" = ")
        first, *orders = listed.split("; ")
        fields = {}
        for field in first.split():
            field, place = field.split(":")
            fields[field.rstrip("?")] = (field.rstrip("?"), place, field.endswith("?"))
        other = {order.split()[0]: [fields[f] for f in order.split()[1:]] for order in orders}
        fields = list(fields.values())
        found[name] = Held(name.split("/")[0], fields, other.get("text", fields), other.get("binary", fields))
    return found


def indexed():
    """The rows of instructions with one index or two."""
    return [row for row in rows() if row.kind in ("Index", "Pair")]


def form(row):
    """The form that no encoder covers, if the instruction is of one."""
    return row.rest[1] if row.key is None else None


def held(row):
    """The struct that holds its indices, if one does."""
    return holders().get(row.rest[0])


def word(name):
    """The first word of a name, by which its enum is called."""
    return name.split(".")[0] if "." in name else "bare"


# The classes with immediates: the file of each, what its instructions are, and whose words they are.
CLASSES = {
    "MemOp": ("mem_ops", "An instruction with a memory argument", "text"),
    "LaneOp": ("lane_ops", "An instruction on a lane of a vector", "text"),
    "MemLaneOp": ("lane_ops", "A load of a lane of a vector, or a store of one", "text"),
    "IndexOp": ("index_ops", "An instruction whose one immediate is an index", "binary"),
    "IndexPairOp": ("index_ops", "An instruction whose immediates are two indices, or an index and a length", "binary"),
}
CAMEL = ("IndexOp", "IndexPairOp")


def enum_of(row):
    """The enum that a row is a variant of, if it is one."""
    if row.key is None:
        return None
    if row.kind == "Plain":
        return word(row.name).capitalize() + "Op"
    if row.kind == "Pair" or row.rest == ["Index", "Index"]:
        return "IndexPairOp"
    return row.kind + "Op" if row.kind in ("Mem", "Lane", "MemLane", "Index") else None


def variant(name, enum=None):
    if enum in CAMEL:
        return "".join(part.capitalize() for part in re.split(r"[._]", name))
    return name + "_" if name in RESERVED else name.replace(".", "_")


def number(key):
    return f"0x{key:06x}" if key > 0xFF else f"0x{key:02x}"


@functools.lru_cache(maxsize=None)
def enums():
    """The rows of each enum, in the order of the table."""
    found = {}
    for row in rows():
        if enum_of(row):
            found.setdefault(enum_of(row), []).append(row)
    return found


def about_indices(row):
    """What the indices of an instruction are of, as they are in the binary format."""
    if row.kind == "Own":
        return TWO_NUMBERS[row.name]
    places = [place for _, place, _ in held(row).binary] if held(row) else row.rest[:1]
    words = [PLACES[place][2] for place in places]
    if len(words) == 2 and words[0] == words[1]:
        return f"{words[0]} that is written and {words[0]} that is read"
    return " and ".join(words)


def spec_names(enum):
    return re.sub(r"(?<=[a-z])(?=[A-Z])", "_", enum[:-2]).lower()


def others():
    """The instructions that have no row: the class and the name of each."""
    for line in sections()["others"]:
        kind, names = line.split(" ", 1)
        for name in spread(names):
            yield Row(kind, None, name, [])


def key_name(name):
    return KEY_NAMES.get(name) or "".join(part[:1].upper() + part[1:] for part in re.split("[-_]", name))


def reading(row):
    """How the indices of an instruction are read, by the variant of `Word`."""
    left_out = sum(may for _, _, may in held(row).text) if held(row) else 0
    if row.kind == "Pair":
        return ("Pair", "OneOrTwo", "NoneOrTwo")[left_out]
    return ("Uncovered" if form(row) else "Index") + ("OrZero" if left_out else "")


def word_enum(row):
    """The enum of a word with indices."""
    return "PairOp" if row.kind == "Pair" else "UncoveredOp" if form(row) else "IndexOp"


def optional():
    """The rows of instructions with an index that may be left out."""
    return [row for row in indexed() if reading(row) == "IndexOrZero"]


def wrapped(names):
    """Names of a `use`, as they are laid out."""
    lines, line = [], "   "
    for name in names:
        if len(line) + len(name) + 2 > 100:
            lines.append(line)
            line = "   "
        line += f" {name},"
    return "\n".join([*lines, line]) + "\n"


@functools.lru_cache(maxsize=None)
def key_words():
    """The words that are no instructions."""
    return " ".join(sections()["keys"]).split()


@functools.lru_cache(maxsize=None)
def frequent():
    """The most frequent instructions."""
    return " ".join(sections()["frequent"]).split()
