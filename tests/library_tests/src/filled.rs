//! Parts of the tree that allocate, not empty and with enough memory.

use crate::conversions::eight;
use crate::items::{at, has_bytes};
use std::alloc::Global;
use std::process::Abort;
use wast_core_conv::{RecOrType, conv};
use wast_tree::{
    ArrayType, BlockType, ContType, Data, DataKind, DataVal, Elem, ElemKind, ElemPayload,
    FunctionType, Handle, Index, InlineExport, InnerTypeKind, Limits, ModuleField, Rec, RefType,
    ResumeTable, Seq, StorageType, Table, TableKind, TableType, Type, TypeDef, TypeUse, ValType,
    discard_field,
};

/// Returns a list of one item.
fn one<T: Drop>(rt: &impl Abort, alloc: Global, item: T) -> Seq<T> {
    let mut list = Seq::new(alloc);
    list.push(item).expect(rt, "memory");
    list
}

/// `(type (sub 3 (func (param i32) (result f32))))`
fn function<'a>(rt: &impl Abort, alloc: Global) -> Type<'a> {
    let function = FunctionType {
        params: one(rt, alloc, (None, None, ValType::I32)),
        results: one(rt, alloc, ValType::F32),
    };
    Type {
        span: at(9),
        id: None,
        name: None,
        def: TypeDef {
            kind: InnerTypeKind::Func(function),
            shared: false,
            parents: one(rt, alloc, Index::Num(3, at(0))),
            descriptor: None,
            describes: None,
            final_type: Some(false),
        },
    }
}

#[test]
fn function_types_keep_params_and_results(rt: HostRuntime) {
    let alloc = rt.alloc();
    let ty = function(&rt, alloc);
    let made = conv::sub_type(alloc, &ty.def).expect(&rt, "memory");
    assert!(rt; !made.is_final && made.supertype_idxs.as_slice() == [3].as_slice());
    let bytes = [1, 0x50, 1, 3, 0x60, 1, 0x7f, 1, 0x7d];
    has_bytes(&rt, alloc, &RecOrType::Ty(&ty), &bytes);
    discard_field(ModuleField::Ty(ty));
    let function = FunctionType {
        params: one(&rt, alloc, (None, None, ValType::I32)),
        results: one(&rt, alloc, ValType::F32),
    };
    let made = conv::func_type(alloc, &function).expect(&rt, "memory");
    assert!(rt; made.params.as_slice() == [wasm_ops::ValType::I32].as_slice());
    assert!(rt; made.results.as_slice() == [wasm_ops::ValType::F32].as_slice());
    let group = Rec {
        span: at(9),
        types: one(
            &rt,
            alloc,
            Type::new(at(9), None, TypeDef::func(alloc, function)),
        ),
    };
    let bytes = [1, 0x4e, 1, 0x60, 1, 0x7f, 1, 0x7d];
    has_bytes(&rt, alloc, &RecOrType::Rec(&group), &bytes);
    discard_field(ModuleField::Rec(group));
}

#[test]
fn small_values_are_converted(rt: HostRuntime) {
    let array = conv::array_type(&ArrayType {
        mutable: true,
        ty: StorageType::I8,
    });
    assert!(rt; array.0.mutable && array.0.element_type == wasm_ops::StorageType::I8);
    let of = Index::Num(3, at(0));
    assert!(rt; conv::cont_type(&ContType(of)) == wasm_ops::ContType(3));
    let block = BlockType {
        label: None,
        label_name: None,
        ty: TypeUse {
            index: Some(of),
            inline: None,
        },
    };
    assert!(rt; conv::block_type(&block) == wasm_ops::BlockType::FunctionType(3));
    let table = ResumeTable {
        handlers: one(&rt, rt.alloc(), Handle::OnSwitch { tag: of }),
    };
    let mut handles = conv::handles(&table);
    assert!(rt; handles.next() == Some(wasm_ops::Handle::OnSwitch { tag: 3 }));
    assert!(rt; handles.next() == None);
}

#[test]
fn numbers_in_data_are_appended(rt: HostRuntime) {
    let alloc = rt.alloc();
    let mut bytes = Vec::new(alloc);
    for value in [
        DataVal::String(b"ab"),
        DataVal::Integral(one(&rt, alloc, 7)),
    ] {
        assert!(rt; value.push_onto(&mut bytes).is_ok());
    }
    assert!(rt; bytes.as_slice() == b"ab\x07".as_slice());
}
