//! Conversions of parts of the tree to values of the binary format.

use crate::items::at;
use std::alloc::Global;
use wasm_ops::Encode;
use wast_core_conv::conv;
use wast_tree::{
    Error, Expression, FunctionType, InnerTypeKind, Instruction, Seq, StorageType, StructField,
    StructType, Type, TypeDef, discard_expression, discard_type,
};

/// Returns the definition of a composite type: final, without supertypes.
fn def_of<'a>(alloc: Global, kind: InnerTypeKind<'a>) -> TypeDef<'a> {
    TypeDef {
        kind,
        shared: false,
        parents: Seq::new(alloc),
        descriptor: None,
        describes: None,
        final_type: None,
    }
}

fn let_go<'a>(alloc: Global, kind: InnerTypeKind<'a>) {
    discard_type(Type {
        span: at(0),
        id: None,
        name: None,
        def: def_of(alloc, kind),
    });
}

#[test]
fn function_types_are_converted(rt: HostRuntime) {
    let alloc = rt.alloc();
    let given = FunctionType::empty(alloc);
    let function = conv::func_type(alloc, &given).expect(&rt, "memory");
    assert!(rt; function.params.is_empty() && function.results.is_empty());
    let_go(alloc, InnerTypeKind::Func(given));
}

#[test]
fn struct_types_are_converted(rt: HostRuntime) {
    let alloc = rt.alloc();
    let field = StructField {
        id: None,
        name: None,
        mutable: true,
        ty: StorageType::I16,
    };
    let want = wasm_ops::FieldType {
        element_type: wasm_ops::StorageType::I16,
        mutable: true,
    };
    let fields = Seq::from_vec(vec![in alloc; field].expect(&rt, "memory"));
    let given = StructType { fields };
    let structure = conv::struct_type(alloc, &given).expect(&rt, "memory");
    assert!(rt; structure.fields.as_slice() == [want].as_slice());
    let_go(alloc, InnerTypeKind::Struct(given));
}

/// `i32.const 8`
pub(crate) fn eight<'a>(alloc: Global) -> Result<Expression<'a>, Error<'a>> {
    Expression::one(alloc, Instruction::i32_const(8))
}

#[test]
fn constant_expressions_are_converted(rt: HostRuntime) {
    let alloc = rt.alloc();
    let given = eight(alloc).expect(&rt, "memory");
    let expression = conv::const_expr(alloc, &given).expect(&rt, "memory");
    let mut bytes = Vec::new(alloc);
    assert!(rt; expression.encode(&mut bytes).is_ok());
    assert!(rt; bytes.as_slice() == [0x41, 8, 0x0b].as_slice());
    discard_expression(given);
}
