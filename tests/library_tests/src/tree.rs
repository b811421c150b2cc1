//! Builders and accessors of the AST.

use std::alloc::Global;
use std::process::Abort;
use wast_tree::{
    BlockKind, BlockType, BrOnCast, BrOnCastDescEq, BrOnCastDescEqFail, BrOnCastFail, CallIndirect,
    DataVal, Expression, Id, ImportItems, Imports, Index, Instruction, ItemKind, ItemSig, MemArg,
    MemArgTarget, MemOp, ModuleField, RefType, ResumeTable, ResumeThrow, Seq, Span, TreeBuilder,
    TryTableCatch, TryTableCatchKind, TypeUse, discard_data, discard_expression, discard_field,
    discard_fields, discard_instruction, fields_with_capacity, push_field,
};

fn at(offset: usize) -> Span {
    Span { offset }
}

/// `(func)` at an offset
fn sig<'a>(offset: usize) -> ItemSig<'a> {
    ItemSig {
        span: at(offset),
        id: None,
        name: None,
        kind: ItemKind::Func(TypeUse::none()),
    }
}

/// `(import "m" ..)`
fn group<'a>(items: ImportItems<'a>) -> Imports<'a> {
    let span = at(0);
    Imports { span, items }
}

/// Checks the offsets of the signatures of an import.
fn has_sigs(rt: &impl Abort, alloc: Global, imports: &Imports<'_>, places: &[usize]) {
    let sigs = imports.item_sigs(alloc).expect(rt, "memory");
    let mut found = Vec::new(alloc);
    for sig in sigs {
        found.push(sig.span.offset).expect(rt, "memory");
    }
    assert!(rt; found.as_slice() == places);
}

#[test]
fn import_signatures_can_be_read_and_changed(rt: HostRuntime) {
    let alloc = rt.alloc();
    let mut one = Imports::single(at(0), "m", "n", sig(5));
    assert!(rt; one.unique_sigs() == 1);
    one.unique_sig_mut(0).span = at(6);
    has_sigs(&rt, alloc, &one, &[6]);
    discard_field(ModuleField::Import(one));
    let items = vec![in alloc; ("a", sig(5)), ("b", sig(6))].expect(&rt, "memory");
    let mut own = group(ImportItems::Group1 {
        module: "m",
        items: Seq::from_vec(items),
    });
    assert!(rt; own.unique_sigs() == 2);
    own.unique_sig_mut(1).span = at(7);
    has_sigs(&rt, alloc, &own, &[5, 7]);
    discard_field(ModuleField::Import(own));
    let mut maker = TreeBuilder::new(alloc);
    let mut shared = group(ImportItems::Group2 {
        module: "m",
        sig: sig(5),
        items: maker.names(&["a", "b", "c"]),
    });
    assert!(rt; shared.unique_sigs() == 1);
    shared.unique_sig_mut(0).span = at(8);
    has_sigs(&rt, alloc, &shared, &[8, 8, 8]);
    discard_field(ModuleField::Import(shared));
    let none = group(ImportItems::Group2 {
        module: "m",
        sig: sig(5),
        items: maker.names(&[]),
    });
    assert!(rt; none.unique_sigs() == 1 && !maker.is_refused());
    has_sigs(&rt, alloc, &none, &[]);
    discard_field(ModuleField::Import(none));
}

/// `i64.load` with this offset
fn load<'a>(offset: u64) -> Instruction<'a> {
    let arg = MemArg {
        align: 8,
        offset,
        target: MemArgTarget::Memory(Index::Num(0, at(1))),
        ordering: None,
    };
    Instruction::Mem(MemOp::i64_load, arg)
}

/// Returns the offset of the memory argument, if there is one.
fn offset_of(instruction: &mut Instruction<'_>) -> Option<u64> {
    match instruction.memarg_mut() {
        Some(arg) => Some(arg.offset),
        None => None,
    }
}

#[test]
fn memarg_mut_changes_memory_argument(rt: HostRuntime) {
    let mut instruction = load(4);
    if let Some(arg) = instruction.memarg_mut() {
        arg.offset = 20;
    }
    assert!(rt; offset_of(&mut instruction) == Some(20));
    discard_instruction(instruction);
    let mut constant = Instruction::i32_const(1);
    assert!(rt; offset_of(&mut constant).is_none());
    discard_instruction(constant);
}

/// Checks that a list has one field after a field is added.
fn has_one<'a>(rt: &impl Abort, alloc: Global, field: ModuleField<'a>) {
    let mut fields = fields_with_capacity(alloc, 2).expect(rt, "memory");
    push_field(&mut fields, field).expect(rt, "memory");
    assert!(rt; fields.len() == 1);
    discard_fields(fields);
}

#[test]
fn builder_lists_have_pushed_elements(rt: HostRuntime) {
    let alloc = rt.alloc();
    let call = Instruction::call(Index::Num(0, at(1)));
    let expression = Expression::one(alloc, call).expect(&rt, "memory");
    assert!(rt; expression.instrs.len() == 1);
    discard_expression(expression);
    has_one(&rt, alloc, ModuleField::Start(Index::Num(0, at(2))));
    let mut maker = TreeBuilder::new(alloc);
    let mut pieces = Seq::new(alloc);
    maker.push_data(&mut pieces, DataVal::String(b"ab"));
    assert!(rt; !maker.is_refused());
    let mut bytes = Vec::new(alloc);
    for piece in pieces.as_slice() {
        piece.push_onto(&mut bytes).expect(&rt, "memory");
    }
    assert!(rt; bytes.as_slice() == b"ab".as_slice());
    discard_data(pieces);
}
