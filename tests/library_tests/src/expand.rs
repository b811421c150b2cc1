//! Keys of signatures, used through the traits alone, and which types a type use matches.

use std::alloc::Global;
use std::hash::{DefaultHasher, Hash, Hasher};
use std::process::Abort;
use wast_expand::{Expander, FuncKey, TypeKey, TypeReference, types};
use wast_tree::{
    FunctionType, Gensym, Id, Index, InnerTypeKind, ModuleField, Seq, Span, Tag, Type, TypeDef,
    TypeUse, ValType, discard_fields, discard_function_type, discard_type, push_field,
};

fn at(offset: usize) -> Span {
    Span { offset }
}

/// Returns a list of value types.
fn list_of<'a>(rt: &impl Abort, alloc: Global, types: &[ValType<'a>]) -> Seq<ValType<'a>> {
    let mut list = Seq::new(alloc);
    for ty in types {
        list.push(*ty).expect(rt, "memory");
    }
    list
}

fn key<'a>(
    rt: &impl Abort,
    alloc: Global,
    params: &[ValType<'a>],
    results: &[ValType<'a>],
) -> FuncKey<'a> {
    FuncKey(list_of(rt, alloc, params), list_of(rt, alloc, results))
}

/// Returns a function type whose first parameter has the id `$p`.
fn signature(
    rt: &impl Abort,
    alloc: Global,
    params: &[ValType<'static>],
    results: &[ValType<'static>],
) -> FunctionType<'static> {
    let mut list: Seq<(Option<Id<'static>>, _, ValType<'static>)> = Seq::new(alloc);
    let mut id = Some(Id::new("p", at(7)));
    for ty in params {
        list.push((id, None, *ty)).expect(rt, "memory");
        id = None;
    }
    FunctionType {
        params: list,
        results: list_of(rt, alloc, results),
    }
}

/// Returns the function type in a type definition.
fn function_in<'k, 'a>(kind: &'k InnerTypeKind<'a>) -> Option<&'k FunctionType<'a>> {
    match kind {
        InnerTypeKind::Func(function) => Some(function),
        _ => None,
    }
}

fn hash_of<T: Hash>(value: &T) -> u64 {
    let mut state = DefaultHasher::new();
    value.hash(&mut state);
    state.finish()
}

/// Returns the key of a type, and that of an omitted type, through the traits alone.
fn keys_of<'a, T: TypeReference<'a> + Drop>(
    rt: &impl Abort,
    alloc: Global,
    ty: &mut T,
) -> (T::Key, T::Key) {
    let mut cx = Expander::new(alloc);
    ty.expand(&mut cx).expect(rt, "memory");
    let empty = T::empty(alloc).key(&cx).expect(rt, "memory");
    (ty.key(&cx).expect(rt, "memory"), empty)
}

/// Returns the index of a key before the first `insert`, after it, and after a second one.
fn bound_to<'a, K: TypeKey<'a>>(
    rt: &impl Abort,
    key: &K,
    cx: &mut Expander<'a>,
    indices: [Index<'a>; 2],
) -> [Option<Index<'a>>; 3] {
    let before = key.lookup(cx);
    key.insert(cx, indices[0]).expect(rt, "memory");
    let after = key.lookup(cx);
    key.insert(cx, indices[1]).expect(rt, "memory");
    [before, after, key.lookup(cx)]
}

#[test]
fn key_has_types_of_params_and_results(rt: HostRuntime) {
    let alloc = rt.alloc();
    let mut function = signature(&rt, alloc, &[ValType::I32, ValType::V128], &[ValType::F64]);
    let (found, empty) = keys_of(&rt, alloc, &mut function);
    assert!(rt; found == key(&rt, alloc, &[ValType::I32, ValType::V128], &[ValType::F64]));
    assert!(rt; empty == key(&rt, alloc, &[], &[]) && empty != found);
    discard_function_type(function);
}

#[test]
fn to_def_keeps_signature(rt: HostRuntime) {
    let alloc = rt.alloc();
    let found = key(&rt, alloc, &[ValType::I32, ValType::V128], &[ValType::F64]);
    let def = found.to_def(alloc, at(3), true).expect(&rt, "memory");
    assert!(rt; def.shared && def.final_type.is_none());
    let again = function_in(&def.kind).expect(&rt, "a function type");
    let cx = Expander::new(alloc);
    assert!(rt; again.key(&cx).expect(&rt, "memory") == found);
    discard_type(Type::new(at(3), None, def));
}

#[test]
fn different_signatures_have_different_keys(rt: HostRuntime) {
    let alloc = rt.alloc();
    let found = key(&rt, alloc, &[ValType::I32, ValType::V128], &[ValType::F64]);
    let same = key(&rt, alloc, &[ValType::I32, ValType::V128], &[ValType::F64]);
    assert!(rt; found == same && hash_of(&found) == hash_of(&same));
    let others = [
        key(&rt, alloc, &[ValType::I32, ValType::V128], &[]),
        key(&rt, alloc, &[ValType::I32], &[ValType::V128, ValType::F64]),
        key(&rt, alloc, &[ValType::V128, ValType::I32], &[ValType::F64]),
    ];
    for other in &others {
        assert!(rt; found != *other && hash_of(&found) != hash_of(other));
    }
}

#[test]
fn insert_keeps_first_index(rt: HostRuntime) {
    let alloc = rt.alloc();
    let (one, two) = (Index::Num(1, at(1)), Index::Num(2, at(2)));
    let mut cx = Expander::new(alloc);
    let first = key(&rt, alloc, &[ValType::I32], &[]);
    let second = key(&rt, alloc, &[], &[ValType::I32]);
    assert!(rt; bound_to(&rt, &first, &mut cx, [one, two]) == [None, Some(one), Some(one)]);
    assert!(rt; bound_to(&rt, &second, &mut cx, [two, one]) == [None, Some(two), Some(two)]);
    assert!(rt; first.lookup(&cx) == Some(one));
}

/// Returns the definition of `(func)`, possibly shared or with a descriptor.
fn empty_def<'a>(alloc: Global, shared: bool, descriptor: Option<Index<'a>>) -> TypeDef<'a> {
    let mut def = TypeDef::new(alloc, InnerTypeKind::Func(FunctionType::empty(alloc)));
    def.shared = shared;
    def.descriptor = descriptor;
    def
}

/// Expands this type and a tag of type `(func)`, and returns the number of fields. It is one more
/// if the type does not match.
fn count_expanded<'a>(rt: &impl Abort, alloc: Global, def: TypeDef<'a>) -> usize {
    let mut fields = Seq::new(alloc);
    let ty = ModuleField::Ty(Type::new(at(9), None, def));
    push_field(&mut fields, ty).expect(rt, "memory");
    let of_tag = TypeUse::inline(FunctionType::empty(alloc));
    let tag = ModuleField::Tag(Tag::new(alloc, at(30), None, of_tag));
    push_field(&mut fields, tag).expect(rt, "memory");
    let expanded = types::expand(alloc, fields, &mut Gensym::new(1)).expect(rt, "memory");
    let count = expanded.len();
    discard_fields(expanded);
    count
}

#[test]
fn shared_and_descriptor_types_are_not_eligible(rt: HostRuntime) {
    let alloc = rt.alloc();
    let described = Some(Index::Num(1, at(20)));
    assert!(rt; count_expanded(&rt, alloc, empty_def(alloc, false, None)) == 2);
    assert!(rt; count_expanded(&rt, alloc, empty_def(alloc, true, None)) == 3);
    assert!(rt; count_expanded(&rt, alloc, empty_def(alloc, false, described)) == 3);
}
