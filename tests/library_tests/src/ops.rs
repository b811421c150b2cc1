//! The bytes of numbers, names, types and instructions, in each sink.

use std::alloc::Global;
use std::process::Abort;
use unit_tests::Kept;
use wasm_ops::{
    AbstractHeapType, ArrayType, AsItself, Counted, Encode, EntityType, ExportKind, FieldType,
    GlobalType, HeapType, IndexOp, InstructionSink, Length, MemoryType, Raw, RefType, Refusal,
    Room, Sink, StorageType, StructType, TableType, TagType, ValType, WithLength, instruction_law,
    signed_law, type_spelling_law, unsigned_law, write_name, write_s32, write_s33, write_s64,
    write_u32, write_u64,
};
use wast_base::{BareOp, Error, Plain, Seq};

/// Checks the encoding of a value.
fn is_spelled<T: Encode>(rt: &impl Abort, alloc: Global, value: &T, bytes: &[u8]) {
    let mut out = Vec::new(alloc);
    assert!(rt; value.encode(&mut out).is_ok(), "for {bytes:?}");
    assert!(rt; out.as_slice() == bytes, "for {bytes:?}");
}

/// Writes numbers, a name and instructions.
fn write_all<'e>(out: &mut Vec<u8>) -> Result<(), Error<'e>> {
    write_u32(out, 624485)?;
    write_u64(out, 18446744073709551615)?;
    write_s32(out, -65)?;
    write_s33(out, 4294967295)?;
    write_s64(out, -9223372036854775808)?;
    write_name(out, "f")?;
    let mut sink = InstructionSink::new(out);
    sink.plain(Plain::Bare(BareOp::drop))?;
    sink.index(IndexOp::Call, 300)?;
    sink.i32_const(64)?;
    sink.i64_const(-1)?;
    sink.ref_null(HeapType::Concrete(64))
}

#[test]
fn numbers_and_instructions_encode_correctly(rt: HostRuntime) {
    let mut out = Vec::new(rt.alloc());
    assert!(rt; write_all(&mut out).is_ok());
    let expected = [
        0xe5, 0x8e, 0x26, 0xff, 0xff, 0xff, 0xff, 0xff, 0xff, 0xff, 0xff, 0xff, 0x01, 0xbf, 0x7f,
        0xff, 0xff, 0xff, 0xff, 0x0f, 0x80, 0x80, 0x80, 0x80, 0x80, 0x80, 0x80, 0x80, 0x80, 0x7f,
        0x01, 0x66, 0x1a, 0x10, 0xac, 0x02, 0x41, 0xc0, 0x00, 0x42, 0x7f, 0xd0, 0xc0, 0x00,
    ];
    assert!(rt; out.as_slice() == expected.as_slice());
}

#[test]
fn composite_types_and_lists_encode_correctly(rt: HostRuntime) {
    let alloc = rt.alloc();
    let field = FieldType {
        element_type: StorageType::I8,
        mutable: true,
    };
    let fields = Seq::from_vec(vec![in alloc; field].expect(&rt, "memory"));
    is_spelled(
        &rt,
        alloc,
        &(StructType { fields }, ArrayType(field)),
        &[0x5f, 0x01, 0x78, 0x01, 0x5e, 0x78, 0x01],
    );
    is_spelled(&rt, alloc, &(ExportKind::Tag, &7u8), &[0x04, 7]);
    let types = [ValType::F32, ValType::F64, ValType::V128];
    let list = WithLength(Counted(&types, AsItself));
    is_spelled(&rt, alloc, &list, &[4, 3, 0x7d, 0x7c, 0x7b]);
}

#[test]
fn all_sinks_receive_the_same_bytes(rt: HostRuntime) {
    let bytes = [7; 128];
    let nested = WithLength(WithLength(WithLength(Raw(&bytes))));
    let mut length = Length::new();
    assert!(rt; nested.encode(&mut length).is_ok());
    assert!(rt; length.count() == 134);
    let mut room = Room::reserve(rt.alloc(), 134).expect(&rt, "memory");
    assert!(rt; nested.encode(&mut room).is_ok());
    assert!(rt; room.left() == 0);
    let mut kept = Kept {
        bytes: Vec::new(rt.alloc()),
        puts: 0,
    };
    assert!(rt; nested.encode(&mut kept).is_ok());
    assert!(rt; room.finish().as_slice() == kept.bytes.as_slice());
    let start = [0x84, 0x01, 0x82, 0x01, 0x80, 0x01, 7];
    assert!(rt; kept.bytes.starts_with(&start));
    kept.cut(1);
    assert!(rt; kept.push_number(300).is_ok() && !kept.skip(1) && kept.size() == 3);
    assert!(rt; !kept.set_number(1, 7));
    assert!(rt; kept.bytes.as_slice() == [0x84, 0xac, 0x02].as_slice());
    assert!(rt; kept.bytes.set_number(1, 16384));
    assert!(rt; kept.bytes.as_slice() == [0x84, 0x80, 0x80, 0x01, 0x02].as_slice());
}

#[test]
fn room_rejects_bytes_beyond_its_capacity(rt: HostRuntime) {
    let mut room = Room::reserve(rt.alloc(), 3).expect(&rt, "memory");
    assert!(rt; room.put(&[7, 8, 9]).is_ok() && room.left() == 0);
    let number = match room.put(&[10]) {
        Ok(()) => 0,
        Err(error) => error.number(),
    };
    assert!(rt; number == 10 && room.size() == 3 && room.left() == 0);
    room.cut(1);
    assert!(rt; !room.skip(1) && room.left() == 2);
    assert!(rt; room.push_number(6).is_ok() && room.left() == 1);
    assert!(rt; !room.set_number(0, 16384) && room.set_number(0, 300) && room.left() == 0);
    assert!(rt; room.finish().as_slice() == [0xac, 0x02, 6].as_slice());
    let mut length = Length::new();
    assert!(rt; length.skip(300) && !length.skip(u64::MAX) && length.count() == 300);
    assert!(rt; length.set_number(0, 128) && length.count() == 301);
    assert!(rt; Error::from(Refusal::Memory).number() == 12);
    unsigned_law();
    signed_law();
    type_spelling_law();
    instruction_law();
}
