"""Writes the lines of each instruction with one index or two, for `tools/ops`: regions of hand-written files of the tree and of the crates
that use it, and the functions of wat_text that make such instructions.

For example, of `Index D2 ref.func Func` it writes `at_index space.Func f` for the checks, and `walk_number(names, Space::Func, func)`.
"""

import re

from instructions import NOTES, PLACES, WITHIN, enum_of, form, held, indexed, variant, word_enum, wrapped

# The structs whose map has a name in wast_tree_map specs/Mapped.antt; that of the others is written out.
NAMED_MAPS = {
    "TableArg": "mapped_table_arg f.index",
    "MemoryArg": "mapped_memory_arg f.index",
    "MemoryInit": "mapped_memory_init f.index",
    "MemoryCopy": "mapped_memory_copy f.index",
    "TableInit": "mapped_table_init f.index",
    "TableCopy": "mapped_table_copy f.index",
    "StructAccess": "mapped_access f",
}

# The lines of each instruction with one index or two, by the files that are written by hand apart from them.


def arm(indent, patterns, body):
    """An arm of a match, as it is laid out: at most 100 columns, and at most 60 of arguments. Several patterns
    are a line each if they do not fit in one."""
    pad = " " * indent
    line = " | ".join(patterns)
    if len(patterns) > 1 and len(f"{pad}{line} =>") <= 100:
        function, arguments = re.fullmatch(r"([^(]*)\((.*)\)", body).groups()
        if len(f"{pad}{line} => {body},") <= 100:
            return f"{pad}{line} => {body},\n"
        if len(f"{pad}{line} => {function}(") > 100:
            return f"{pad}{line} =>\n{pad}    {body},\n"
        return f"{pad}{line} => {function}(\n" + "".join(f"{pad}    {a},\n" for a in arguments.split(", ")) + f"{pad}),\n"
    lines = f"\n{pad}| ".join(patterns)
    if len(f"{pad}{patterns[-1]} => {body},") <= 100:
        return f"{pad}{lines} => {body},\n"
    function, arguments = re.fullmatch(r"([^(]*)\((.*)\)", body).groups()
    if len(arguments) > 60:
        body = f"{function}(\n" + "".join(f"{pad}        {a},\n" for a in arguments.split(", ")) + f"{pad}    )"
    return f"{pad}{lines} => {{\n{pad}    {body}\n{pad}}}\n"


def code_name(row):
    """How the index of an instruction, or what holds it, is called in code."""
    return "access" if row.rest[0] == "StructAccess" else "arg" if held(row) else PLACES[row.rest[0]][1]


def example(row):
    """An instruction in the text format, with names for its indices."""
    if not held(row):
        return f"{row.name} ${PLACES[row.rest[0]][0]}"
    letters = [PLACES[place][0] for _, place, _ in held(row).text]
    if len({place for _, place, _ in held(row).text}) < len(letters):
        letters = [{"d": "to", "s": "from"}.get(field[0], field[0]) for field, _, _ in held(row).text]
    return " ".join([row.name, *(f"${letter}" for letter in letters)])


def variants():
    """Variants of `Instruction`."""
    out = []
    for row in indexed():
        note = "".join(NOTES[word] for word in row.rest[1:])
        holder = held(row).struct if held(row) else "Index"
        out.append(f"    /// `{example(row)}`{note}\n    {variant(row.name)}({holder}<'a>),\n")
    return "".join(out)


def asks(row, letter):
    """What the indices of spaces in an instruction are asked for; None if one is within an item."""
    fields = [(place, f"a.{field}") for field, place, _ in held(row).fields] if held(row) else [(row.rest[0], letter)]
    if any(place in WITHIN for place, _ in fields):
        return None
    return ("in_pair " if len(fields) > 1 else "in_index ") + " ".join(f"space.{place} {index}" for place, index in fields)


def sites():
    """What stands in an instruction."""
    within = {
        "Local": "LocalAt h.locals x ∷ []",
        "Label": "at_label h.blocks l",
        "Outer": "Ends ∷ at_label (without_innermost h.blocks) l",
        "StructAccess": "in_access a",
    }
    out = []
    for row in indexed():
        letter = "a" if held(row) else PLACES[row.rest[0]][0]
        asked = asks(row, letter)
        if form(row):
            site = f"check_sites ({asked} ++ uncovered_check form.{form(row)})"
        elif row.rest[0] in within:
            site = within[row.rest[0]]
        else:
            site = f"check_sites ({asked})" if row.kind == "Pair" else asked.replace("in_index", "at_index")
        out.append(f"in_instr h (instr.{variant(row.name)} {letter}) = {site}\n")
    return "".join(out)


def without_row():
    """An instruction that no encoder covers needs no row of the binary format, because it cannot be encoded."""
    out = []
    for row in indexed():
        letter = "a" if held(row) else "i"
        if form(row):
            out.append(f"instr_row (instruction.{variant(row.name)} {letter}) e = absurd (asks_fail ({asks(row, letter)}) form.{form(row)} e)\n")
    return "".join(out)


def mapped():
    """What an instruction is mapped to."""
    out = []
    for row in indexed():
        tree, place = f"instr.{variant(row.name)}", row.rest[0]
        letter = "a" if held(row) else "l" if place in ("Label", "Outer") else "i"
        if place in NAMED_MAPS:
            value = f"{NAMED_MAPS[place]} a"
        elif held(row):
            value = "record { " + "; ".join(f"{field} = f.index space.{space} a.{field}" for field, space, _ in held(row).fields) + " }"
        else:
            within = {"Local": "f.local h.locals", "Label": "f.label h.blocks", "Outer": "f.label (without_innermost h.blocks)"}
            value = f"{within.get(place, f'f.index space.{place}')} {letter}"
        out.append(f"mapped_instr f h ({tree} {letter}) = {tree} ({value})\n")
    return "".join(out)


def joined(indent, arms):
    """Arms of a match, each a pattern, the struct that it binds and a body; those that differ in the instruction alone are one,
    because each costs half a second of proof."""
    found = {}
    for pattern, struct, body in arms:
        name = re.search(r"\((.*)\)", pattern)[1]
        found.setdefault((name, struct, body), []).append(pattern)
    return "".join(arm(indent, patterns, body) for (_, _, body), patterns in found.items())


def visits():
    """How an instruction is read."""
    out = []
    for row in indexed():
        name = code_name(row)
        (place, index), *more = [(p, f"&{name}.{field}") for field, p, _ in held(row).fields] if held(row) else [(row.rest[0], name)]
        if more and (form(row) or more[0][0] == "Field"):
            body = f"{name}.visit(visitor)"
        elif more:
            body = f"visit_pair(visitor, Space::{place}, {index}, Space::{more[0][0]}, {more[0][1]})"
        elif form(row):
            body = f"visit_uncovered_index(Space::{place}, {index}, Form::{form(row)}, visitor)"
        else:
            body = f"visitor.within({index})" if place in WITHIN else f"visitor.index(Space::{place}, {index})"
        out.append((f"Instruction::{variant(row.name)}({name})", held(row) and held(row).struct, body))
    return joined(8, out)


def walk(row):
    """The call that walks over an instruction."""
    name, place = code_name(row), row.rest[0]
    if place in ("Label", "Outer", "Local"):
        return {"Label": "walk_branch(labels, label)", "Outer": "walk_delegate(labels, label)", "Local": "walk_local(locals, local)"}[place]
    if not held(row):
        return f"walk_number(names, Space::{place}, {name})"
    (field, space, _), *more = held(row).fields
    if not more:
        return f"walk_number(names, Space::{space}, &mut {name}.{field})"
    if place == "StructAccess":
        return "walk_access(names, access)"
    return f"walk_array_init(names, Space::{more[0][1]}, arg)" if place.startswith("ArrayInit/") else "walk_part(names, arg)"


def walks():
    """How an instruction is walked."""
    return "".join(arm(8, [f"Instruction::{variant(row.name)}({code_name(row)})"], walk(row)) for row in indexed())


def first_calls(calls):
    """The names of calls in the proof of a match: the arm is named but in the first that calls a function."""
    seen = set()
    for row, function in calls:
        yield row, function if function not in seen else f"{function}-in-{variant(row.name)}"
        seen.add(function)


WALKED = """
pub returns-in-{0}-clause-walks : goal.returns-in-{0}-clause-walks
returns-in-{0}-clause-walks c l numbers =
    let names = c.args.names.now in
    let {1} in
    let walk = c.{4} in
    rw c.in-{0}.is (walks_in ⊤ (HasMany []) instr.{0} (site_demands (scope_of names) ({2}))
    ((numbering_change (scope_of names)).{3}) walk.new.{5} walk.result (walk.ensures {6}))
"""


def walked():
    """The answers of a walk over a label or a local."""
    out = []
    found = [(row, walk(row).split("(")[0]) for row in indexed() if row.rest[0] in ("Label", "Local")]
    for row, call in first_calls(found):
        tree = variant(row.name)
        if row.rest[0] == "Label":
            names = (f"blocks = c.args.labels.now in\n    let label = c.in-{tree}.label", "at_label blocks label", "label blocks label", call, "label", "names")
        else:
            names = (f"i = c.in-{tree}.local", "LocalAt l i ∷ []", "local l i", call, "index", "names l numbers")
        out.append(WALKED.format(tree, *names))
    return "".join(out) + "\n"


def meanings():
    """What an instruction means in the binary format. The last clause of the file is for those that the binary format does not have."""
    out = []
    for row in indexed():
        if form(row):
            continue
        letter = "a" if held(row) else "l" if row.rest[0] in ("Label", "Outer") else "i"
        numbers = [f"(index_value a.{field})" for field, _, _ in held(row).binary] if held(row) else [f"(index_value {letter})"]
        kind = "index_pair_instr pair" if row.kind == "Pair" else "index_instr op"
        out.append(f"as_instr (instruction.{variant(row.name)} {letter}) = {kind}.{variant(row.name, enum_of(row))} {' '.join(numbers)}\n")
    return "".join(out)


def spelling(row):
    """The call that writes an instruction."""
    op = f"{enum_of(row)}::{variant(row.name, enum_of(row))}"
    name = "arg" if held(row) else code_name(row)
    if row.rest[0] == "StructAccess":
        return f"put_access({op}, arg, out)"
    if row.kind == "Pair":
        return f"put_pair({op}, {', '.join(f'&arg.{field}' for field, _, _ in held(row).binary)}, out)"
    return f"put_index({op}, {f'&arg.{held(row).fields[0][0]}' if held(row) else name}, out)"


def spellings():
    """How an instruction is written."""
    out = []
    for row in indexed():
        name = "arg" if held(row) else code_name(row)
        if not form(row):
            out.append(arm(12, [f"Instruction::{variant(row.name)}({name})"], spelling(row)))
    out.append(arm(12, [f"Instruction::{variant(row.name)}(_)" for row in indexed() if form(row)], "unreachable!()"))
    return "".join(out)


ACCESS_READY = """
pub put_access-requires{1} : goal.put_access-requires{1}
put_access-requires{1} g c = subst (λ i. is_encodable_instr i ≡ true) c.in-{0}.is c.requires
"""

SPELLED = """
pub returns-in-{0} : goal.returns-in-{0}
returns-in-{0} g c = rw c.in-{0}.is c.{1}.ensures
"""


def spelled():
    """The answers of the calls that write instructions."""
    calls = list(first_calls([(row, spelling(row).split("(")[0]) for row in indexed() if not form(row)]))
    ready = [ACCESS_READY.format(variant(row.name), call[len("put_access"):]) for row, call in calls if call.startswith("put_access")]
    return "".join(ready) + "".join(SPELLED.format(variant(row.name), call) for row, call in calls) + "\n"


OPERATORS = """//! Makes instructions with indices from their keywords. `tools/ops` writes this file.

ghost use Rattle.std.specs.Prelude.{{◌≡◌}};
ghost use Rattle.wat_syntax.specs.Operators.{{index_instr, uncovered_instr, pair_instr}};
ghost use Rattle.wat_syntax.specs.Bare.{{bare_index}};
ghost use Rattle.wat_syntax.specs.BareInstructions.{{bare_instr}};

use wast_base::IndexOp;
use wast_tree::{{
{0}}};
use wat_tokens::{{PairOp, UncoveredOp}};

/// Returns the instruction with an index that a keyword is (text format: instructions).
pub(crate) fn with_index<'a>(op: IndexOp, index: Index<'a>) -> Instruction<'a>
    ensures {{ bare_instr result ≡ index_instr op (bare_index index.entry) }}
{{
    match op {{
{1}    }}
}}

/// Returns the instruction with an index that a keyword is. The encoder does not support these.
pub(crate) fn with_uncovered<'a>(op: UncoveredOp, index: Index<'a>) -> Instruction<'a>
    ensures {{ bare_instr result ≡ uncovered_instr op (bare_index index.entry) }}
{{
    match op {{
{2}    }}
}}

/// Returns the instruction with two indices that a keyword is. The indices are in the order of the
/// text (text format: instructions).
pub(crate) fn with_pair<'a>(op: PairOp, first: Index<'a>, second: Index<'a>) -> Instruction<'a>
    ensures {{ bare_instr result ≡ pair_instr op (bare_index first.entry) (bare_index second.entry) }}
{{
    match op {{
{3}    }}
}}
"""


def operators():
    """The functions that make instructions of words and indices."""
    out = {"IndexOp": [], "UncoveredOp": [], "PairOp": []}
    for row in indexed():
        enum, tree = word_enum(row), f"Instruction::{variant(row.name)}"
        pattern = f"{enum}::{variant(row.name, enum)}"
        if row.kind == "Pair":
            given = dict(zip((field for field, _, _ in held(row).text), ("first", "second")))
            lines = "".join(f"            {field}: {given[field]},\n" for field, _, _ in held(row).fields)
            out[enum].append(f"        {pattern} => {tree}({held(row).struct} {{\n{lines}        }}),\n")
        else:
            made = f"{held(row).struct} {{ {held(row).fields[0][0]}: index }}" if held(row) else "index"
            out[enum].append(arm(8, [pattern], f"{tree}({made})"))
    used = {held(row).struct for row in indexed() if held(row)} | {"Index", "Instruction"}
    return OPERATORS.format(wrapped(sorted(used)), *("".join(lines) for lines in out.values()))


MEANT = """-- Plain instructions whose immediates are indices alone (text format: instructions): what each word means. tools/ops writes this
-- file.
use Rattle.wat_syntax.specs.Tree.{{Index, Instruction}}
use Rattle.wat_syntax.specs.Tree.instr
use Rattle.wast_base.specs.declared.index_ops.IndexOp.{{IndexOp}}
use Rattle.wast_base.specs.declared.index_ops.IndexOp.TheVariants as one
use Rattle.wat_tokens.specs.declared.words.UncoveredOp.{{UncoveredOp}}
use Rattle.wat_tokens.specs.declared.words.UncoveredOp.TheVariants as other
use Rattle.wat_tokens.specs.declared.words.PairOp.{{PairOp}}
use Rattle.wat_tokens.specs.declared.words.PairOp.TheVariants as two

-- One index. plaininstr ::= 'local.get' x:localidx ⇒ local.get x | 'global.get' x:globalidx ⇒ global.get x | .. (text format: variable
-- instructions). plaininstr ::= 'table.get' x:tableidx ⇒ table.get x | .. (text format: table instructions).
-- plaininstr ::= 'memory.size' x:memidx ⇒ memory.size x | .. (text format: memory instructions).
-- plaininstr ::= 'ref.func' x:funcidx ⇒ ref.func x (text format: reference instructions).
-- plaininstr ::= 'br' l:labelidx ⇒ br l | 'call' x:funcidx ⇒ call x | .. (text format: control instructions).
-- plaininstr ::= 'struct.new' x:typeidx ⇒ struct.new x | 'array.get' x:typeidx ⇒ array.get x | .. (text format: aggregate instructions).
abbrev pub index_instr : IndexOp → Index → Instruction
{0}
-- one index, of an instruction that is not in version 3.0
abbrev pub uncovered_instr : UncoveredOp → Index → Instruction
{1}
-- Two indices, in the order of the text. plaininstr ::= 'table.copy' x:tableidx y:tableidx ⇒ table.copy x y
-- | 'table.init' x:tableidx y:elemidx ⇒ table.init x y (text format: table instructions).
-- plaininstr ::= 'memory.copy' x:memidx y:memidx ⇒ memory.copy x y | 'memory.init' x:memidx y:dataidx ⇒ memory.init x y
-- (text format: memory instructions). plaininstr ::= 'struct.get' x:typeidx i:fieldidx ⇒ struct.get x i | .. (text format: aggregate
-- instructions).
abbrev pub pair_instr : PairOp → Index → Index → Instruction
{2}"""


def meant():
    """The instruction of each word with indices."""
    out = {"IndexOp": [], "UncoveredOp": [], "PairOp": []}
    calls = {"IndexOp": ("index_instr one", "x"), "UncoveredOp": ("uncovered_instr other", "x"), "PairOp": ("pair_instr two", "x y")}
    for row in indexed():
        enum = word_enum(row)
        call, names = calls[enum]
        if row.kind == "Pair":
            given = dict(zip((field for field, _, _ in held(row).text), ("x", "y")))
            made = "(record { " + "; ".join(f"{field} = {given[field]}" for field, _, _ in held(row).fields) + " })"
        else:
            made = f"(record {{ {held(row).fields[0][0]} = x }})" if held(row) else "x"
        out[enum].append(f"{call}.{variant(row.name, enum)} {names} = instr.{variant(row.name)} {made}\n")
    return MEANT.format(*("".join(lines) for lines in out.values()))
