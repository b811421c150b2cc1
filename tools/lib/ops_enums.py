"""Writes the enums of instructions and their rows, for `tools/ops`: files of wast_base, specs/InstrRows.antt of wat_grammar, and
specs/Keys.antt of wasm_ops.

For example, of `Index D2 ref.func Func` it writes the variant `RefFunc = 0xd2` of `IndexOp`, and the row with its text and its key.
"""

import re
import textwrap

from instructions import CAMEL, CLASSES, about_indices, enum_of, enums, number, rows, spec_names, variant

PLAIN_HEAD = """//! Names of instructions without immediates. `tools/ops` writes this file.
"""

PLAIN_ENUM = """
/// An instruction without immediates, by the first word of its name (text format: instructions).
///
/// For example, `i32.add` is `Plain::I32(I32Op::i32_add)`; `drop` is `Plain::Bare(BareOp::drop)`.
#[derive(Clone, Copy, Debug, PartialEq, Eq)]
pub enum Plain {
%s}
"""

MEM_HEAD = """//! Names of loads, stores and other memory accesses. `tools/ops` writes this file.
"""

LANE_HEAD = """//! Names of instructions on a lane of a vector. `tools/ops` writes this file.
"""

INDEX_HEAD = """//! Names of instructions with one index or two. `tools/ops` writes this file.
"""

ENUM = """
%s
///
/// The number of a variant is its opcode. For an opcode of a prefix byte and a number it is 65536
/// times the prefix byte, plus the number: `fc 09` is `0xfc0009`.
%s#[derive(Clone, Copy, Debug, PartialEq, Eq)]
pub enum %s {
%s}
"""

ROWS_HEAD = """-- The instructions, a row each: its text (text format: instructions) and its key (binary format: instructions). tools/ops writes this
-- file.
--
-- The key is the opcode as one number. The key of an opcode of one byte is that byte. For others it is 65536 times the prefix byte, plus
-- the number after it. A load or a store has its natural alignment besides, in bytes: what it is aligned to where the text says nothing.
--
--   row_of_plain (plain.I32 i32.i32_add)      (codes "i32.add", 0x6a)
--   row_of_mem mem.i64_load32_u               (codes "i64.load32_u", 0x35, 4)
use Rattle.std.specs.Prelude.{ℕ, List, ◌++◌, map, codes}
use Rattle.wat_grammar.specs.Each.{each}
"""

# The classes whose instructions have a row: those whose word has one instruction and no form beside it.
IN_ROWS = {
    "Plain": "an instruction without immediates",
    "MemOp": "an instruction with a memory argument",
    "LaneOp": "an instruction on a lane of a vector",
    "MemLaneOp": "a load of a lane of a vector, or a store of one",
    "IndexOp": "an instruction with an index",
}

SPECS_HEAD = """-- The key of each instruction: its opcode as one number (binary format: instructions). tools/ops writes this file.
--
-- The rows of wat_grammar have the keys of most. Those with two indices have them here, because their words say more than their text.
--
--   index_key index.Call                0x10
--   index_pair_key index_pair.MemoryCopy     0xfc000a
use Rattle.std.specs.Prelude.{ℕ}
"""


def rust_enum(enum, about, format="text"):
    lines, after = [], None
    for row in enums()[enum]:
        start = "" if row.key == after else f" = {number(row.key)}"
        of = f", of {about_indices(row)}" if enum in CAMEL else ""
        lines.append(f"    /// `{row.name}`{of}\n    {variant(row.name, enum)}{start},\n")
        after = row.key + 1
    head = textwrap.fill(f"{about} ({format} format: instructions).", 100, initial_indent="/// ", subsequent_indent="/// ")
    return ENUM % (head, "" if enum in CAMEL else "#[allow(non_camel_case_types)]\n", enum, "".join(lines))


def about_plain(enum):
    if enum == "BareOp":
        return "An instruction without immediates whose name has no dot"
    return f"An instruction without immediates whose name begins with `{enum[:-2].lower()}`"


def plain_enums():
    return [enum for enum in enums() if enum not in CLASSES]


def rust_plain():
    plain = plain_enums()
    variants = "".join(
        f"    /// An instruction whose name has no dot.\n    {e[:-2]}({e}),\n" if e == "BareOp" else
        f"    /// An instruction whose name begins with `{e[:-2].lower()}`.\n    {e[:-2]}({e}),\n"
        for e in plain
    )
    return PLAIN_HEAD + "".join(rust_enum(e, about_plain(e)) for e in plain) + PLAIN_ENUM % variants


def rust_mem():
    return MEM_HEAD + rust_enum("MemOp", CLASSES["MemOp"][1])


def rust_lane():
    return LANE_HEAD + "".join(rust_enum(e, CLASSES[e][1]) for e in ("LaneOp", "MemLaneOp"))


def rust_index():
    return INDEX_HEAD + "".join(rust_enum(e, CLASSES[e][1], CLASSES[e][2]) for e in CAMEL)


def aligned_bytes(name):
    """The bytes that a memory argument is aligned to where the text says nothing."""
    first, rest = name.split(".", 1)
    sized = re.search(r"(?:load|store|rmw|wait)(\d+)(?:x(\d))?", rest)
    if sized:
        return int(sized[1]) * int(sized[2] or 1) // 8
    return {"v128": 16, "memory": 4}.get(first) or int(first[1:]) // 8


def of_base(enum):
    """The lines that bring an enum of wast_base, and its variants."""
    home = CLASSES[enum][0] if enum in CLASSES else "plain"
    name = spec_names(enum) if enum.endswith("Op") else enum.lower()
    yield f"use Rattle.wast_base.specs.declared.{home}.{enum}.{{{enum}}}\n"
    yield f"use Rattle.wast_base.specs.declared.{home}.{enum}.TheVariants as {name}\n"


def row_name(enum):
    """The definition of the rows of an enum."""
    return "row_of_" + (spec_names(enum) if enum.endswith("Op") else enum.lower())


def plural(enum):
    """What the module that lists the values of an enum is called by in definitions."""
    return "indices" if enum == "IndexOp" else spec_names(enum) + "s"


def row_of(enum, row):
    """The row of an instruction: what it is, its text, its key, and what a load or a store is aligned to."""
    op = f"{spec_names(enum)}.{variant(row.name, enum)}"
    aligned = f", {aligned_bytes(row.name)}" if enum in ("MemOp", "MemLaneOp") else ""
    made = f"(plain.{enum[:-2]} {op})" if enum in plain_enums() else op
    return f'{made} = (codes "{row.name}", {number(row.key)}{aligned})'


def instr_rows():
    """The rows of instructions."""
    out = [ROWS_HEAD, *(f"use Rattle.wast_base.specs.contracts.plain.{enum} as {plural(enum)}\n" for enum in plain_enums())]
    out += [list(of_base(enum))[1] for enum in plain_enums()]
    for enum in IN_ROWS:
        out += of_base(enum)
    for enum, about in IN_ROWS.items():
        kind = "List ℕ × ℕ × ℕ" if enum in ("MemOp", "MemLaneOp") else "List ℕ × ℕ"
        out.append(f"\n-- {about}\nabbrev pub {row_name(enum)} : {enum} → {kind}\n")
        for part in plain_enums() if enum == "Plain" else [enum]:
            out += [f"{row_name(enum)} {row_of(part, row)}\n" for row in enums()[part]]
    parts = "\n    ++ ".join(f"map plain.{enum[:-2]} (each {plural(enum)}.enum)" for enum in plain_enums())
    out.append(f"\n-- the instructions without immediates\nabbrev pub plains : List Plain\nplains =\n    {parts}\n")
    return "".join(out)


def specs():
    """The keys, as the encoding names them."""
    out = [SPECS_HEAD, *(next(of_base(enum)) for enum in IN_ROWS), *of_base("IndexPairOp")]
    out.append(f"use Rattle.wat_grammar.specs.InstrRows.{{{', '.join(map(row_name, IN_ROWS))}}}\n")
    for enum, about in IN_ROWS.items():
        key = row_name(enum).removeprefix("row_of_") + "_key"
        out.append(f"\n-- the key of {about}\nabbrev pub {key} : {enum} → ℕ\n{key} op = ({row_name(enum)} op).1\n")
    out.append("\n-- the key of an instruction with two indices\nabbrev pub index_pair_key : IndexPairOp → ℕ\n")
    for row in enums()["IndexPairOp"]:
        out.append(f"index_pair_key index_pair.{variant(row.name, 'IndexPairOp')} = {number(row.key)}\n")
    return "".join(out)


def table_rows():
    """The entries of the opcode table that have no enum of wast_base: their keys, by the kinds of their immediates."""
    found = {}
    for row in rows():
        if row.kind in ("Block", "Own") and row.key is not None and enum_of(row) is None:
            found.setdefault(" ∷ ".join([*row.rest, "[]"]), []).append(row)
    for kinds, those in found.items():
        keys = " ∷ ".join([*(number(row.key) for row in those), "[]"])
        yield f"    ++ keyed ({kinds}) ({keys})  -- {', '.join(dict.fromkeys(row.name for row in those))}\n".replace("keyed ([])", "keyed []")


def table():
    """These entries, as they are laid out."""
    return "".join(table_rows())
