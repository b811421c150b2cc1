//! Arguments, and what results have to be.

use super::records::{Record, Records};
use std::ops::Range;

/// A float of 32 bits, by its bits.
#[derive(Clone, Copy, Debug, PartialEq, Eq, Hash)]
pub struct F32 {
    /// The bits (IEEE 754).
    pub bits: u32,
}

/// A float of 64 bits, by its bits.
#[derive(Clone, Copy, Debug, PartialEq, Eq, Hash)]
pub struct F64 {
    /// The bits (IEEE 754).
    pub bits: u64,
}

/// What the float of a result has to be.
#[derive(Clone, Copy, Debug, PartialEq, Eq, Hash)]
pub enum NanPattern<T> {
    /// A canonical NaN of either sign: `nan:canonical`.
    CanonicalNan,
    /// An arithmetic NaN of either sign: `nan:arithmetic`.
    ArithmeticNan,
    /// These bits.
    Value(T),
}

/// A vector.
#[derive(Clone, Copy, Debug, PartialEq, Eq, Hash)]
#[allow(missing_docs)]
pub enum V128Const {
    I8x16([i8; 16]),
    I16x8([i16; 8]),
    I32x4([i32; 4]),
    I64x2([i64; 2]),
    F32x4([F32; 4]),
    F64x2([F64; 2]),
}

impl V128Const {
    /// Returns the bytes of the vector, those of its first lane first, and of each lane the lowest first.
    pub fn to_le_bytes(&self) -> [u8; 16] {
        let mut out = [0; 16];
        let mut put = |at: usize, bytes: &[u8]| {
            out[at * bytes.len()..][..bytes.len()].copy_from_slice(bytes);
        };
        match self {
            V128Const::I8x16(lanes) => each(lanes, |at, it| put(at, &it.to_le_bytes())),
            V128Const::I16x8(lanes) => each(lanes, |at, it| put(at, &it.to_le_bytes())),
            V128Const::I32x4(lanes) => each(lanes, |at, it| put(at, &it.to_le_bytes())),
            V128Const::I64x2(lanes) => each(lanes, |at, it| put(at, &it.to_le_bytes())),
            V128Const::F32x4(lanes) => each(lanes, |at, it| put(at, &it.bits.to_le_bytes())),
            V128Const::F64x2(lanes) => each(lanes, |at, it| put(at, &it.bits.to_le_bytes())),
        }
        out
    }
}

/// Calls a function with each lane and its number.
fn each<T: Copy>(lanes: &[T], mut call: impl FnMut(usize, T)) {
    lanes.iter().enumerate().for_each(|(at, lane)| call(at, *lane));
}

/// What the vector of a result has to be.
#[derive(Clone, Copy, Debug, PartialEq, Eq, Hash)]
#[allow(missing_docs)]
pub enum V128Pattern {
    I8x16([i8; 16]),
    I16x8([i16; 8]),
    I32x4([i32; 4]),
    I64x2([i64; 2]),
    F32x4([NanPattern<F32>; 4]),
    F64x2([NanPattern<F64>; 2]),
}

/// A reference to an item: its number, or its id without the `$`.
#[derive(Clone, Copy, Debug, PartialEq, Eq, Hash)]
pub enum Index<'s> {
    /// A number.
    Num(u32),
    /// An id.
    Id(&'s str),
}

/// An abstract heap type.
#[derive(Clone, Copy, Debug, PartialEq, Eq, Hash)]
#[non_exhaustive]
#[allow(missing_docs)]
pub enum AbstractHeapType {
    Func,
    Extern,
    Exn,
    NoExn,
    Any,
    Eq,
    Struct,
    Array,
    NoFunc,
    NoExtern,
    None,
    I31,
    Cont,
    NoCont,
}

/// The abstract heap types, by their numbers.
const HEAP_TYPES: [AbstractHeapType; 14] = [
    AbstractHeapType::Func,
    AbstractHeapType::Extern,
    AbstractHeapType::Exn,
    AbstractHeapType::NoExn,
    AbstractHeapType::Any,
    AbstractHeapType::Eq,
    AbstractHeapType::Struct,
    AbstractHeapType::Array,
    AbstractHeapType::NoFunc,
    AbstractHeapType::NoExtern,
    AbstractHeapType::None,
    AbstractHeapType::I31,
    AbstractHeapType::Cont,
    AbstractHeapType::NoCont,
];

/// The type of a reference.
#[derive(Clone, Copy, Debug, PartialEq, Eq, Hash)]
pub enum HeapType<'s> {
    /// An abstract heap type.
    Abstract {
        /// Whether it is shared.
        shared: bool,
        /// The type.
        ty: AbstractHeapType,
    },
    /// A type definition of the module.
    Concrete(Index<'s>),
}

/// An argument.
#[derive(Clone, Copy, Debug, PartialEq, Eq, Hash)]
#[non_exhaustive]
pub enum Arg<'s> {
    /// `i32.const`
    I32(i32),
    /// `i64.const`
    I64(i64),
    /// `f32.const`
    F32(F32),
    /// `f64.const`
    F64(F64),
    /// `v128.const`
    V128(V128Const),
    /// `ref.null`
    RefNull(HeapType<'s>),
    /// `ref.extern`: a host's reference of this number.
    RefExtern(u32),
    /// `ref.host`: a host's reference of this number, which is not external.
    RefHost(u32),
}

/// What a result has to be.
#[derive(Clone, Debug, PartialEq, Eq, Hash)]
#[non_exhaustive]
pub enum Ret<'s> {
    /// `i32.const`
    I32(i32),
    /// `i64.const`
    I64(i64),
    /// `f32.const`
    F32(NanPattern<F32>),
    /// `f64.const`
    F64(NanPattern<F64>),
    /// `v128.const`
    V128(V128Pattern),
    /// `ref.null`: null, of this type if one is named.
    RefNull(Option<HeapType<'s>>),
    /// `ref.extern`: the host's reference of this number, or any external reference that is not null.
    RefExtern(Option<u32>),
    /// `ref.host`: the host's reference of this number.
    RefHost(u32),
    /// `ref.func`: a reference to this function, or to any.
    RefFunc(Option<Index<'s>>),
    /// `ref.any`: any reference that is not null. So are those below, of their types.
    RefAny,
    /// `ref.eq`
    RefEq,
    /// `ref.array`
    RefArray,
    /// `ref.struct`
    RefStruct,
    /// `ref.i31`
    RefI31,
    /// `ref.i31_shared`
    RefI31Shared,
    /// `either`: one of these.
    Either(Vec<Ret<'s>>),
}

/// A float, or a lane, by its form and its bits.
fn pattern<T>(form: u64, value: T) -> NanPattern<T> {
    match form {
        0 => NanPattern::Value(value),
        1 => NanPattern::CanonicalNan,
        _ => NanPattern::ArithmeticNan,
    }
}

/// The lanes of a vector, each made of its form and its bits.
fn lanes<T: Copy, const N: usize>(
    records: &Records,
    vector: Record<'_>,
    lane: impl Fn(u64, u64) -> T,
) -> [T; N] {
    let start = vector.size(2);
    assert_eq!(vector.size(3), N, "librigyomad.a has a vector of other lanes");
    let at = |number: usize| {
        let record = records.lane(start + number);
        lane(record.word(0), record.word(1))
    };
    let mut lanes = [at(0); N];
    lanes.iter_mut().enumerate().for_each(|(number, it)| *it = at(number));
    lanes
}

fn v128_pattern(records: &Records, value: Record<'_>) -> V128Pattern {
    let f32_of = |form, bits: u64| pattern(form, F32 { bits: bits as u32 });
    let f64_of = |form, bits| pattern(form, F64 { bits });
    match value.word(1) {
        0 => V128Pattern::I8x16(lanes(records, value, |_, bits| bits as i8)),
        1 => V128Pattern::I16x8(lanes(records, value, |_, bits| bits as i16)),
        2 => V128Pattern::I32x4(lanes(records, value, |_, bits| bits as i32)),
        3 => V128Pattern::I64x2(lanes(records, value, |_, bits| bits as i64)),
        4 => V128Pattern::F32x4(lanes(records, value, f32_of)),
        _ => V128Pattern::F64x2(lanes(records, value, f64_of)),
    }
}

fn v128_const(records: &Records, value: Record<'_>) -> V128Const {
    match value.word(1) {
        0 => V128Const::I8x16(lanes(records, value, |_, bits| bits as i8)),
        1 => V128Const::I16x8(lanes(records, value, |_, bits| bits as i16)),
        2 => V128Const::I32x4(lanes(records, value, |_, bits| bits as i32)),
        3 => V128Const::I64x2(lanes(records, value, |_, bits| bits as i64)),
        4 => V128Const::F32x4(lanes(records, value, |_, bits| F32 { bits: bits as u32 })),
        _ => V128Const::F64x2(lanes(records, value, |_, bits| F64 { bits })),
    }
}

/// The number of a reference, if it has one.
fn number(value: Record<'_>) -> Option<u32> {
    Some(value.word(2) as u32).filter(|_| value.word(1) == 3)
}

/// The index of a reference, if it has one.
fn index(value: Record<'_>) -> Option<Index<'_>> {
    match value.word(1) {
        3 => Some(Index::Num(value.word(2) as u32)),
        4 => value.text(2).map(Index::Id),
        _ => None,
    }
}

/// The type of a reference, if it is told.
fn heap_type(value: Record<'_>) -> Option<HeapType<'_>> {
    let form = value.word(1);
    match form {
        1 | 2 => Some(HeapType::Abstract { shared: form == 2, ty: HEAP_TYPES[value.size(2)] }),
        _ => index(value).map(HeapType::Concrete),
    }
}

/// Any reference of a type.
fn reference(value: Record<'_>) -> Ret<'_> {
    match (HEAP_TYPES[value.size(2)], value.word(1)) {
        (AbstractHeapType::I31, 2) => Ret::RefI31Shared,
        (AbstractHeapType::I31, _) => Ret::RefI31,
        (AbstractHeapType::Eq, _) => Ret::RefEq,
        (AbstractHeapType::Array, _) => Ret::RefArray,
        (AbstractHeapType::Struct, _) => Ret::RefStruct,
        _ => Ret::RefAny,
    }
}

fn arg<'s>(records: &'s Records, value: Record<'s>) -> Arg<'s> {
    match value.word(0) {
        0 => Arg::I32(value.word(2) as i32),
        1 => Arg::I64(value.word(2) as i64),
        2 => Arg::F32(F32 { bits: value.word(2) as u32 }),
        3 => Arg::F64(F64 { bits: value.word(2) }),
        4 => Arg::V128(v128_const(records, value)),
        5 => Arg::RefNull(heap_type(value).expect("the null of an argument has a type")),
        6 => Arg::RefExtern(number(value).expect("the reference of an argument has a number")),
        7 => Arg::RefHost(value.word(2) as u32),
        other => panic!("librigyomad.a has an argument of type {other}"),
    }
}

fn ret<'s>(records: &'s Records, value: Record<'s>) -> Ret<'s> {
    match value.word(0) {
        0 => Ret::I32(value.word(2) as i32),
        1 => Ret::I64(value.word(2) as i64),
        2 => Ret::F32(pattern(value.word(1), F32 { bits: value.word(2) as u32 })),
        3 => Ret::F64(pattern(value.word(1), F64 { bits: value.word(2) })),
        4 => Ret::V128(v128_pattern(records, value)),
        5 => Ret::RefNull(heap_type(value)),
        6 => Ret::RefExtern(number(value)),
        7 => Ret::RefHost(value.word(2) as u32),
        8 => Ret::RefFunc(index(value)),
        9 => reference(value),
        other => panic!("librigyomad.a has a result of type {other}"),
    }
}

/// The arguments of an action.
pub(super) fn args(records: &Records, numbers: Range<usize>) -> Vec<Arg<'_>> {
    numbers.map(|number| arg(records, records.value(number))).collect()
}

/// The results of an assertion. The alternatives of `either` are the values after it.
pub(super) fn results(records: &Records, mut numbers: Range<usize>) -> Vec<Ret<'_>> {
    let mut found = Vec::new();
    while let Some(number) = numbers.next() {
        let value = records.value(number);
        if value.word(0) != 10 {
            found.push(ret(records, value));
            continue;
        }
        let end = numbers.start + value.size(2);
        let alternatives = (numbers.start..end).map(|it| ret(records, records.value(it)));
        found.push(Ret::Either(alternatives.collect()));
        numbers.start = end;
    }
    found
}
