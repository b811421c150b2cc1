//! Modules that no text has: empty names, lists and import groups that a text cannot have, memory
//! arguments of arrays, generated ids, and fields that are not well formed.

use std::alloc::Global;
use std::process::Abort;
use std::str;
use wast_core::{Module, ModuleKind, discard_module};
use wast_rows::{RunError, form_sample, run};
use wast_tree::{
    BareOp, BlockKind, BlockType, BranchHint, Custom, CustomPlace, CustomPlaceAnchor, Data,
    DataKind, DataVal, Dylink0, Dylink0Subsection, Elem, ElemKind, ElemPayload, Error, Export,
    ExportKind, Expression, Fault, Form, Func, FunctionType, Gensym, GlobalType, Id, ImportItems,
    Imports, Index, InnerTypeKind, Instruction, ItemKind, ItemSig, LaneArg, Limits,
    LoadOrStoreLane, Local, MemArg, MemArgOrdering, MemArgTarget, MemLaneOp, MemOp, Memory,
    MemoryType, ModuleField, Ordering, Plain, Producers, Rec, RefType, Seq, Span, StorageType,
    StructField, StructType, Table, TableType, TreeBuilder, TryTableCatch, TryTableCatchKind, Type,
    TypeDef, TypeUse, ValType,
};

fn at(offset: usize) -> Span {
    Span { offset }
}

/// Returns a module without an id.
fn module(kind: ModuleKind<'_>) -> Module<'_> {
    Module {
        span: at(1),
        id: None,
        name: None,
        kind,
    }
}

/// Returns the text module of these fields.
fn text_module<'a>(
    fields: Result<Seq<ModuleField<'a>>, Error<'a>>,
) -> Result<Module<'a>, Error<'a>> {
    match fields {
        Ok(fields) => Ok(module(ModuleKind::Text(fields))),
        Err(refused) => Err(refused),
    }
}

/// Returns a module with one type, which has a generated id.
fn generated_module<'a>(alloc: Global) -> Result<Module<'a>, Error<'a>> {
    let id = Gensym::new(1).generate(at(14))?;
    let mut maker = TreeBuilder::new(alloc);
    let mut fields = Seq::new(alloc);
    let def = TypeDef::func(alloc, FunctionType::empty(alloc));
    let ty = Type::new(at(9), Some(id), def);
    maker.push_field(&mut fields, ModuleField::Ty(ty));
    text_module(maker.finish(fields))
}

/// Returns an id with an empty name, written `$` here.
fn empty<'a>(offset: usize) -> Id<'a> {
    Id::new("", at(offset))
}

/// Returns an index that is such an id.
fn by_empty<'a>(offset: usize) -> Index<'a> {
    Index::Id(empty(offset))
}

/// `block $ br $ end local.get $ drop call $`
fn nameless_body<'a>(alloc: Global, maker: &mut TreeBuilder) -> Seq<Instruction<'a>> {
    let mut instrs = Seq::new(alloc);
    maker.push_block(&mut instrs, BlockKind::Block, labelled(94));
    maker.push_instruction(&mut instrs, Instruction::br(by_empty(99)));
    maker.push_instruction(&mut instrs, Instruction::end_(None));
    maker.push_instruction(&mut instrs, Instruction::local_get(by_empty(115)));
    maker.push_instruction(&mut instrs, Instruction::Plain(Plain::Bare(BareOp::drop)));
    maker.push_instruction(&mut instrs, Instruction::call(by_empty(127)));
    instrs
}

/// `(module (type $ (func)) (export "" (func $)) (func $ (type $) (local $ i32) ..))`
fn nameless<'a>(alloc: Global) -> Result<Module<'a>, Error<'a>> {
    let mut maker = TreeBuilder::new(alloc);
    let mut fields = Seq::new(alloc);
    let def = TypeDef::func(alloc, FunctionType::empty(alloc));
    let ty = Type::new(at(9), Some(empty(14)), def);
    maker.push_field(&mut fields, ModuleField::Ty(ty));
    let export = Export::new(at(25), "", ExportKind::Func, by_empty(41));
    maker.push_field(&mut fields, ModuleField::Export(export));
    let locals = maker.locals(&[Local::new(Some(empty(81)), ValType::I32)]);
    let ty = TypeUse::of(by_empty(71));
    let instrs = nameless_body(alloc, &mut maker);
    let func = Func::new(alloc, at(57), Some(empty(62)), ty, locals, instrs);
    maker.push_field(&mut fields, ModuleField::Func(func));
    text_module(maker.finish(fields))
}

/// `(func ..)`
fn func<'a>(alloc: Global, instrs: Seq<Instruction<'a>>) -> Func<'a> {
    let none = TypeUse::none();
    Func::new(alloc, at(9), None, none, Seq::new(alloc), instrs)
}

/// `(func ..)` with one instruction.
fn one<'a>(
    alloc: Global,
    maker: &mut TreeBuilder,
    instruction: Instruction<'a>,
) -> ModuleField<'a> {
    let mut instrs = Seq::new(alloc);
    maker.push_instruction(&mut instrs, instruction);
    ModuleField::Func(func(alloc, instrs))
}

/// Returns the type of a block with an empty label.
fn labelled<'a>(offset: usize) -> BlockType<'a> {
    BlockType::new(Some(empty(offset)), TypeUse::none())
}

/// `(func try_table $ (catch_all $) end)`: the label of the clause is not that of its own block.
fn caught<'a>(alloc: Global, maker: &mut TreeBuilder) -> ModuleField<'a> {
    let clause = TryTableCatch {
        kind: TryTableCatchKind::CatchAll,
        label: by_empty(37),
    };
    let catches = maker.catches(&[clause]);
    let mut instrs = Seq::new(alloc);
    maker.push_try_table(&mut instrs, labelled(24), catches);
    maker.push_instruction(&mut instrs, Instruction::end_(None));
    ModuleField::Func(func(alloc, instrs))
}

fn hint(instr_index: usize, value: u32) -> BranchHint {
    BranchHint { instr_index, value }
}

/// `(func nop ..)`, with so many instructions and with branch hints.
fn nops<'a>(
    alloc: Global,
    maker: &mut TreeBuilder,
    count: usize,
    hints: &[BranchHint],
) -> ModuleField<'a> {
    let mut instrs = Seq::new(alloc);
    for _ in 0..count {
        maker.push_instruction(&mut instrs, Instruction::Plain(Plain::Bare(BareOp::nop)));
    }
    let hints = maker.hints(hints);
    ModuleField::Func(func(alloc, instrs).with_hints(hints))
}

/// `(global i32 i32.const 0)` with these branch hints.
fn hinted_global<'a>(
    alloc: Global,
    maker: &mut TreeBuilder,
    hints: &[BranchHint],
) -> ModuleField<'a> {
    let mut instrs = Seq::new(alloc);
    maker.push_instruction(&mut instrs, Instruction::i32_const(0));
    let branch_hints = maker.hints(hints);
    let value = Expression {
        instrs,
        branch_hints,
    };
    let ty = GlobalType::new(ValType::I32, false);
    ModuleField::Global(wast_tree::Global::new(alloc, at(9), None, ty, value))
}

/// `i32.atomic.load` with this memory argument.
fn load<'a>(target: MemArgTarget<'a>, ordering: Option<MemArgOrdering>) -> Instruction<'a> {
    Instruction::Mem(MemOp::i32_atomic_load, mem_arg(target, ordering))
}

/// `v128.load8_lane` with this memory argument, and lane 0.
fn load_lane<'a>(target: MemArgTarget<'a>, ordering: Option<MemArgOrdering>) -> Instruction<'a> {
    let memarg = mem_arg(target, ordering);
    let lane = LaneArg { lane: 0 };
    Instruction::MemLane(MemLaneOp::v128_load8_lane, LoadOrStoreLane { memarg, lane })
}

fn mem_arg<'a>(target: MemArgTarget<'a>, ordering: Option<MemArgOrdering>) -> MemArg<'a> {
    MemArg {
        align: 1,
        offset: 0,
        target,
        ordering,
    }
}

/// `i32.load` with an alignment that is not a power of two.
fn unaligned<'a>() -> Instruction<'a> {
    let arg = MemArg::new(Index::Num(0, at(0)), 3, 0);
    Instruction::Mem(MemOp::i32_load, arg)
}

/// `(@custom "a" (before code) "x" "yz")`
fn raw<'a>(maker: &mut TreeBuilder) -> Custom<'a> {
    let before = CustomPlace::Before(CustomPlaceAnchor::Code);
    let pieces: [&'a [u8]; 2] = [&b"x"[..], &b"yz"[..]];
    Custom::raw(at(9), before, "a", maker.pieces(&pieces))
}

/// A field of `producers`, with these values.
fn producers<'a>(
    alloc: Global,
    maker: &mut TreeBuilder,
    name: &'a str,
    values: &[(&'a str, &'a str)],
) -> Custom<'a> {
    let values = maker.versions(values);
    let mut fields = Seq::new(alloc);
    maker.push_producers(&mut fields, name, values);
    Custom::Producers(Producers { fields })
}

/// `(@dylink.0 ..)` with two subsections without items.
fn dylink<'a>(alloc: Global, maker: &mut TreeBuilder) -> Custom<'a> {
    let mut subsections = Seq::new(alloc);
    let exported = Dylink0Subsection::ExportInfo(Seq::new(alloc));
    maker.push_subsection(&mut subsections, exported);
    let imported = Dylink0Subsection::ImportInfo(Seq::new(alloc));
    maker.push_subsection(&mut subsections, imported);
    Custom::Dylink0(Dylink0 { subsections })
}

/// `(elem funcref (item ref.null func))`
fn elements<'a>(alloc: Global, maker: &mut TreeBuilder) -> ModuleField<'a> {
    let ty = RefType::funcref();
    let null = maker.one_instruction(Instruction::ref_null(ty.heap));
    let mut exprs = Seq::new(alloc);
    maker.push_expression(&mut exprs, null);
    let payload = ElemPayload::Exprs { ty, exprs };
    ModuleField::Elem(Elem::new(at(9), None, ElemKind::Passive, payload))
}

/// `(rec (type ..))`
fn group<'a>(alloc: Global, maker: &mut TreeBuilder, def: TypeDef<'a>) -> ModuleField<'a> {
    let mut types = Seq::new(alloc);
    maker.push_type(&mut types, Type::new(at(14), None, def));
    ModuleField::Rec(Rec::new(at(9), types))
}

/// `(func (param ..) (result ..))`
fn function<'a>(maker: &mut TreeBuilder, ty: ValType<'a>) -> InnerTypeKind<'a> {
    let params = maker.params(&[(None, None, ty)]);
    let results = maker.values(&[ty]);
    InnerTypeKind::Func(FunctionType::new(params, results))
}

/// `(struct ..)`
fn structure<'a>(maker: &mut TreeBuilder, fields: &[StructField<'a>]) -> InnerTypeKind<'a> {
    let fields = maker.struct_fields(fields);
    InnerTypeKind::Struct(StructType { fields })
}

/// `(rec (type (func (param i32) (result i32))))`
fn function_group<'a>(alloc: Global, maker: &mut TreeBuilder) -> ModuleField<'a> {
    let kind = function(maker, ValType::I32);
    group(alloc, maker, TypeDef::new(alloc, kind))
}

/// `(rec (type (struct (field i32))))`
fn struct_group<'a>(alloc: Global, maker: &mut TreeBuilder) -> ModuleField<'a> {
    let ty = StorageType::Val(ValType::I32);
    let kind = structure(maker, &[StructField::new(None, false, ty)]);
    group(alloc, maker, TypeDef::new(alloc, kind))
}

/// `(table 0 funcref)`
fn empty_table<'a>(alloc: Global) -> ModuleField<'a> {
    let ty = TableType::new(Limits::new(0, None), RefType::funcref());
    ModuleField::Table(Table::new(alloc, at(9), None, ty))
}

/// `(memory 0)`
fn empty_memory<'a>(alloc: Global) -> ModuleField<'a> {
    let ty = MemoryType::new(Limits::new(0, None));
    ModuleField::Memory(Memory::new(alloc, at(9), None, ty))
}

/// Returns the field of a module that has only this one.
fn lone_field<'a>(alloc: Global, maker: &mut TreeBuilder, n: u32) -> ModuleField<'a> {
    let zero = Index::Num(0, at(0));
    let unknown = Index::Id(Id::new("x", at(1)));
    let read = Some(MemArgOrdering::Rmw(Ordering::SeqCst));
    let write = Some(MemArgOrdering::Rmw(Ordering::AcqRel));
    match n {
        10 => nops(alloc, maker, 3, &[hint(1, 0), hint(1, 1)]),
        11 => nops(alloc, maker, 3, &[hint(1, 0), hint(0, 0)]),
        12 => nops(alloc, maker, 3, &[hint(0, 0), hint(2, 0), hint(1, 0)]),
        13 => nops(alloc, maker, 3, &[hint(2, 0), hint(3, 0)]),
        14 => nops(alloc, maker, 3, &[hint(18_446_744_073_709_551_615, 0)]),
        15 => nops(alloc, maker, 3, &[hint(0, 2)]),
        16 => nops(alloc, maker, 3, &[hint(0, 1), hint(1, 4_294_967_295)]),
        17 => nops(alloc, maker, 0, &[hint(0, 0)]),
        18 => hinted_global(alloc, maker, &[hint(5, 7), hint(5, 7)]),
        19 => ModuleField::Custom(raw(maker)),
        20 => ModuleField::Custom(producers(alloc, maker, "a", &[])),
        21 => {
            let values: [(&'a str, &'a str); 2] = [("b", "1"), ("c", "")];
            ModuleField::Custom(producers(alloc, maker, "a", &values))
        }
        22 => ModuleField::Custom(dylink(alloc, maker)),
        23 => elements(alloc, maker),
        24 => function_group(alloc, maker),
        25 => caught(alloc, maker),
        26 => one(alloc, maker, Instruction::br(by_empty(17))),
        27 => one(alloc, maker, unaligned()),
        28 => struct_group(alloc, maker),
        29 => empty_table(alloc),
        30 => empty_memory(alloc),
        31 => one(alloc, maker, load(MemArgTarget::Memory(zero), read)),
        32 => one(alloc, maker, load(MemArgTarget::Memory(zero), write)),
        33 => one(alloc, maker, load_lane(MemArgTarget::Memory(zero), write)),
        34 => one(alloc, maker, load(MemArgTarget::Array(zero), None)),
        35 => one(alloc, maker, load_lane(MemArgTarget::Array(zero), None)),
        36 => one(alloc, maker, load(MemArgTarget::Array(unknown), None)),
        _ => one(alloc, maker, load_lane(MemArgTarget::Array(unknown), None)),
    }
}

/// `(import "m" ..)` with these items.
fn imports<'a>(items: ImportItems<'a>) -> ModuleField<'a> {
    let span = at(9);
    ModuleField::Import(Imports { span, items })
}

/// `(import "m" (item ..) (func $f ..))`
fn functions<'a>(
    maker: &mut TreeBuilder,
    names: &[&'a str],
    ty: TypeUse<'a, FunctionType<'a>>,
) -> ModuleField<'a> {
    let names = maker.names(names);
    let sig = ItemSig::new(at(40), Some(Id::new("f", at(46))), ItemKind::Func(ty));
    imports(ImportItems::Group2 {
        module: "m",
        sig,
        items: names,
    })
}

/// Returns a module with an import group without items. In 43 it is after a function, and in 42 to
/// 44 a start field has its id.
fn grouped<'a>(alloc: Global, n: u32) -> Result<Module<'a>, Error<'a>> {
    let mut maker = TreeBuilder::new(alloc);
    let mut fields = Seq::new(alloc);
    if n == 43 {
        let before = ModuleField::Func(func(alloc, Seq::new(alloc)));
        maker.push_field(&mut fields, before);
    }
    let group = match n {
        40 => imports(ImportItems::Group1 {
            module: "m",
            items: Seq::new(alloc),
        }),
        44 => functions(
            &mut maker,
            &[],
            TypeUse::of(Index::Id(Id::new("t", at(50)))),
        ),
        _ => functions(&mut maker, &[], TypeUse::none()),
    };
    maker.push_field(&mut fields, group);
    if n >= 42 {
        let start = ModuleField::Start(Index::Id(Id::new("f", at(70))));
        maker.push_field(&mut fields, start);
    }
    text_module(maker.finish(fields))
}

/// `(data "..")` with a piece 4,096 times.
fn long_data<'a>(alloc: Global, piece: &'a [u8]) -> Result<Module<'a>, Error<'a>> {
    let mut maker = TreeBuilder::new(alloc);
    let mut bytes = Seq::new(alloc);
    for _ in 0..4096 {
        maker.push_data(&mut bytes, DataVal::String(piece));
    }
    let data = Data::new(at(9), None, DataKind::Passive, bytes);
    let mut fields = Seq::new(alloc);
    maker.push_field(&mut fields, ModuleField::Data(data));
    text_module(maker.finish(fields))
}

/// Returns a module with a name 4,096 times, in annotations (1), inline exports (2) or imports.
fn long_names<'a>(alloc: Global, n: u32, name: &'a str) -> Result<Module<'a>, Error<'a>> {
    let mut maker = TreeBuilder::new(alloc);
    let mut fields = Seq::new(alloc);
    for _ in 0..4096 {
        let field = match n {
            1 => ModuleField::Func(func(alloc, Seq::new(alloc)).with_name(name)),
            2 => {
                let names: [&'a str; 1] = [name];
                let exports = maker.exports(&names);
                ModuleField::Func(func(alloc, Seq::new(alloc)).with_exports(exports))
            }
            _ => {
                let item = ItemSig::new(at(20), None, ItemKind::Func(TypeUse::none()));
                ModuleField::Import(Imports::single(at(9), name, "", item))
            }
        };
        maker.push_field(&mut fields, field);
    }
    text_module(maker.finish(fields))
}

/// Returns a module with one field.
fn lone<'a>(alloc: Global, n: u32) -> Result<Module<'a>, Error<'a>> {
    let mut maker = TreeBuilder::new(alloc);
    let field = lone_field(alloc, &mut maker, n);
    let mut fields = Seq::new(alloc);
    maker.push_field(&mut fields, field);
    text_module(maker.finish(fields))
}

/// Returns an unsupported construct, for rows 50 to 58.
fn form_of(n: u32) -> Form {
    match n {
        50 => Form::StackSwitching,
        51 => Form::Shared,
        52 => Form::Ordering,
        53 => Form::Atomic,
        54 => Form::Descriptor,
        55 => Form::CompactImports,
        56 => Form::ArrayMemArg,
        57 => Form::TargetArch,
        _ => Form::Beyond,
    }
}

/// Returns the module of a row.
fn odd_row<'a>(alloc: Global, n: u32) -> Option<Result<Module<'a>, Error<'a>>> {
    match n {
        0 => Some(Err(Error::refusal(Fault::Component))),
        1 => Some(Ok(module(ModuleKind::Refused(Error::refusal(Fault::Memory))))),
        2 => Some(Ok(module(ModuleKind::Refused(Error::refusal(Fault::Component))))),
        3 => Some(generated_module(alloc)),
        4 => Some(nameless(alloc)),
        10..=37 => Some(lone(alloc, n)),
        40..=44 => Some(grouped(alloc, n)),
        50..=58 => {
            let form = form_of(n);
            let made = form_sample(alloc, form);
            Some(made)
        }
        _ => None,
    }
}

/// Each row and its line. Without a line, the run ends because allocation failed.
const LINES: [(u32, &str); 48] = [
    (0, ""),
    (1, ""),
    (2, "refused: components are not encoded"),
    (3, "ill formed"),
    (
        4,
        "0061736d01000000010401600000030201000704010000000a10010e01017f02400c000b20001a10000b001d046e616d65010301000002050100010000030501000100000403010000",
    ),
    (5, "no row"),
    (10, "ill formed: 2"),
    (11, "ill formed: 2"),
    (12, "ill formed: 2"),
    (13, "ill formed: 2"),
    (14, "ill formed: 2"),
    (15, "ill formed: 2"),
    (16, "ill formed: 2"),
    (17, "ill formed: 2"),
    (18, "0061736d010000000606017f0041000b"),
    (19, "0061736d010000000005016178797a"),
    (20, "0061736d01000000000e0970726f64756365727301016100"),
    (
        21,
        "0061736d0100000000150970726f6475636572730101610201620131016300",
    ),
    (22, "0061736d01000000000f0864796c696e6b2e30030100040100"),
    (23, "0061736d01000000090701057001d0700b"),
    (24, "0061736d010000000108014e0160017f017f"),
    (25, "fault at 37: unknown label: failed to find name `$`"),
    (26, "fault at 17: unknown label: failed to find name `$`"),
    (27, "ill formed: 1"),
    (28, "0061736d010000000107014e015f017f00"),
    (29, "0061736d01000000040401700000"),
    (30, "0061736d010000000503010000"),
    (31, "refused: uncovered form: memory ordering"),
    (32, "refused: uncovered form: memory ordering"),
    (33, "refused: uncovered form: memory ordering"),
    (34, "refused: uncovered form: array memory argument"),
    (35, "refused: uncovered form: array memory argument"),
    (36, "fault at 1: unknown type: failed to find name `$x`"),
    (37, "fault at 1: unknown type: failed to find name `$x`"),
    (40, "refused: uncovered form: compact import group"),
    (41, "refused: uncovered form: compact import group"),
    (42, "fault at 70: unknown func: failed to find name `$f`"),
    (43, "fault at 9: import after function"),
    (44, "fault at 50: unknown type: failed to find name `$t`"),
    (50, "refused: uncovered form: stack switching"),
    (51, "refused: uncovered form: shared type"),
    (52, "refused: uncovered form: memory ordering"),
    (
        53,
        "refused: uncovered form: atomic of a global, table, struct or array",
    ),
    (54, "refused: uncovered form: descriptor or exact type"),
    (55, "refused: uncovered form: compact import group"),
    (56, "refused: uncovered form: array memory argument"),
    (57, "refused: uncovered form: target architecture"),
    (58, "refused: uncovered form: instruction beyond the table"),
];

#[test]
fn run_prints_lines_of_trees_without_a_text(rt: HostRuntime) {
    let alloc = rt.alloc();
    for (n, want) in LINES {
        let input = format!(in alloc; "{n}").expect(&rt, "memory");
        let mut input = input.as_bytes();
        let mut output = Vec::new(alloc);
        let result = run(alloc, &mut input, &mut output, |n| odd_row(alloc, n));
        let is_written = output.pop() == Some(b'\n');
        assert!(rt; output.as_slice() == want.as_bytes(), "row {n}");
        assert!(rt; is_written != want.is_empty(), "row {n}");
        let is_refused = result == Err(RunError::Memory);
        assert!(rt; is_refused || result == Ok(()), "row {n}");
        assert!(rt; is_refused == want.is_empty(), "row {n}");
    }
}

/// Checks that a module is too large to encode.
fn is_too_large<'a>(rt: &impl Abort, alloc: Global, made: Result<Module<'a>, Error<'a>>) {
    let mut module = made.expect(rt, "memory");
    assert!(rt; module.well_formed());
    assert!(rt; module.gensym_bound() == 0);
    let error = module.encode(alloc, &mut Gensym::new(1)).err();
    assert!(rt; error == Some(Error::refusal(Fault::TooLarge)));
    discard_module(module);
}

// 4,096 times a mebibyte does not fit in a section. `tools/test refused-memory` runs it in little memory.
#[test]
fn section_of_four_gibibytes_is_too_large(rt: HostRuntime) {
    let alloc = rt.alloc();
    let piece = vec![in alloc; b'a'; 1048576].expect(&rt, "memory");
    is_too_large(&rt, alloc, long_data(alloc, piece.as_slice()));
    let name = str::from_utf8(piece.as_slice()).expect(&rt, "letters");
    for n in 1..4 {
        is_too_large(&rt, alloc, long_names(alloc, n, name));
    }
}
