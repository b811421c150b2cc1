"""Texts of one unsupported construct each, at each position that it can have, with their answers, for `tools/pages`.

What is unsupported is listed in docs/ERRORS.md, for E11. For example, `(module (elem (offset i64.add128) func))` has an instruction
outside of the table in the offset of a segment.
"""

BEYOND = "instruction beyond the table"
ATOMIC = "atomic of a global, table, struct or array"
ORDERING = "memory ordering"
DESCRIPTOR = "descriptor or exact type"
STACK_SWITCHING = "stack switching"
SHARED = "shared type"
COMPACT_IMPORTS = "compact import group"

# Where an instruction can be.
WITH_INSTRUCTION = [
    "(func {})",
    "(func block {} end)",
    "(elem funcref (item {}))",
    "(global i32 {})",
    "(elem (offset {}) func)",
    "(table 0 funcref {})",
]

INSTRUCTIONS = {
    BEYOND: ["i64.add128", "memory.discard"],
    ATOMIC: [
        "global.atomic.get seq_cst 0",
        "global.atomic.get acq_rel 0",
        "table.atomic.get seq_cst 0",
        "table.atomic.get acq_rel 0",
        "struct.atomic.get seq_cst 0 0",
        "struct.atomic.get acq_rel 0 0",
        "array.atomic.get seq_cst 0",
        "array.atomic.get acq_rel 0",
    ],
    ORDERING: [
        "atomic.fence acq_rel",
        "i32.atomic.load seq_cst",
        "i32.atomic.load acq_rel",
        "v128.load8_lane seq_cst 0 0",
        "v128.load8_lane acq_rel 0 0",
    ],
    DESCRIPTOR: [
        "struct.new_desc 0",
        "struct.new_default_desc 0",
        "ref.get_desc 0",
        "ref.cast_desc_eq (ref null 0)",
        "br_on_cast_desc_eq 0 (ref null 0) (ref null 0)",
        "br_on_cast_desc_eq_fail 0 (ref null 0) (ref null 0)",
        "ref.null (exact 0)",
    ],
    STACK_SWITCHING: [
        "ref.null cont",
        "ref.null nocont",
        "cont.new 0",
        "cont.bind 0 0",
        "suspend 0",
        "resume 0 (on 0 0) (on 0 switch)",
        "resume_throw 0 0 (on 0 0) (on 0 switch)",
        "resume_throw_ref 0 (on 0 0) (on 0 switch)",
        "switch 0 0",
    ],
    SHARED: ["ref.null (shared eq)"],
}

# Where a value type can be.
WITH_TYPE = [
    "(rec (type (struct (field {}))))",
    "(func (param {}))",
    "(func (local {}))",
    "(func block (result {}) end)",
    "(func select (result {}))",
    "(elem {} (item ref.null func))",
    "(global {} i32.const 0)",
    "(table 0 {})",
    '(import "m" "n" (global {}))',
    '(import "m" "n" (table 0 {}))',
    '(import "m" "n" (func (param {})))',
    '(import "m" "n" (tag (param {})))',
]

TYPES = {SHARED: ["(shared any)", "(shared func)"], DESCRIPTOR: ["(exact 0)"], STACK_SWITCHING: ["cont", "nocont"]}

FIELDS = {
    SHARED: [
        "(rec (type (shared (struct))))",
        "(global (shared i32) i32.const 0)",
        '(global (import "m" "n") (shared i32))',
        "(table shared 0 funcref)",
        '(import "m" "n" (table shared 0 funcref))',
        "(table shared funcref (elem))",
    ],
    STACK_SWITCHING: ["(rec (type (cont 0)))"],
    DESCRIPTOR: ["(rec (type (descriptor 0) (struct)))", "(rec (type (describes 0) (struct)))", '(func (import "m" "n") (exact (type 0)))'],
    COMPACT_IMPORTS: ['(import "m" (item "n") (func))', '(import "m" (item "n" (func)))', '(import "m" (item "a") (func $f)) (start $f)'],
}


def constructs():
    """Each field with an unsupported construct, and its form."""
    for place in WITH_INSTRUCTION:
        yield from ((place.format(it), form) for form, found in INSTRUCTIONS.items() for it in found)
    for place in WITH_TYPE:
        yield from ((place.format(f"(ref null {it})"), form) for form, found in TYPES.items() for it in found)
    yield from ((it, form) for form, found in FIELDS.items() for it in found)


def lines():
    """All texts with their answers."""
    yield from ((f"(module {field})", f"refused: uncovered form: {form}") for field, form in constructs())
