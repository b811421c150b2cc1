//! Items of sections: the payload of a section with one item, and the item in a sink.

use std::alloc::Global;
use std::process::Abort;
use wasm_out::{Build, Section};
use wast_core_conv::{FuncSectionTy, RecOrType, SectionItem};
use wast_tree::{
    Data, DataKind, Elem, ElemKind, ElemPayload, Export, ExportKind, Expression, FunctionType,
    GlobalKind, GlobalType, ImportItems, Imports, Index, InlineExport, InnerTypeKind, ItemKind,
    ItemSig, Limits, Memory, MemoryKind, MemoryType, ModuleField, Rec, RefType, Seq, Span, Table,
    TableKind, TableType, Tag, TagKind, TagType, Type, TypeDef, TypeUse, ValType, discard_field,
    discard_type_use,
};

pub(crate) fn at(offset: usize) -> Span {
    Span { offset }
}

/// Checks the bytes of an item after a count of 1 as the payload of a section, and alone in a
/// vector.
pub(crate) fn has_bytes<I: SectionItem>(rt: &impl Abort, alloc: Global, item: &I, bytes: &[u8])
where
    I::Section: Drop,
{
    let mut section = <I::Section as Build>::new(alloc);
    item.encode(alloc, &mut section).expect(rt, "memory");
    let mut payload = Vec::new(alloc);
    section.append_to(&mut payload).expect(rt, "memory");
    assert!(rt; payload.as_slice() == bytes);
    let mut out = Vec::new(alloc);
    item.put(&mut out).expect(rt, "memory");
    assert!(rt; bytes.len() > 0 && out.as_slice() == &bytes[1..]);
}

/// `(type (func))`
fn plain_type<'a>(alloc: Global) -> Type<'a> {
    Type {
        span: at(9),
        id: None,
        name: None,
        def: TypeDef {
            kind: InnerTypeKind::Func(FunctionType {
                params: Seq::new(alloc),
                results: Seq::new(alloc),
            }),
            shared: false,
            parents: Seq::new(alloc),
            descriptor: None,
            describes: None,
            final_type: None,
        },
    }
}

#[test]
fn types_are_items(rt: HostRuntime) {
    let alloc = rt.alloc();
    let ty = plain_type(alloc);
    has_bytes(&rt, alloc, &RecOrType::Ty(&ty), &[1, 0x60, 0, 0]);
    discard_field(ModuleField::Ty(ty));
    let group = Rec {
        span: at(9),
        types: Seq::new(alloc),
    };
    has_bytes(&rt, alloc, &RecOrType::Rec(&group), &[1, 0x4e, 0]);
    discard_field(ModuleField::Rec(group));
}

/// `(type 3)`
fn third<'a>() -> TypeUse<'a, FunctionType<'a>> {
    TypeUse {
        index: Some(Index::Num(3, at(0))),
        inline: None,
    }
}

#[test]
fn type_uses_are_items(rt: HostRuntime) {
    let alloc = rt.alloc();
    let used = third();
    let item = FuncSectionTy(&used);
    has_bytes(&rt, alloc, &item, &[1, 3]);
    has_bytes(&rt, alloc, &&item, &[1, 3]);
    discard_type_use(used);
}

#[test]
fn exports_are_items(rt: HostRuntime) {
    let export = Export {
        span: at(9),
        name: "a",
        kind: ExportKind::Func,
        item: Index::Num(2, at(0)),
    };
    has_bytes(&rt, rt.alloc(), &export, &[1, 1, b'a', 0, 2]);
}
