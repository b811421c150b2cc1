//! The bytes of instructions, by kinds of immediates.

use wasm_ops::{
    AbstractHeapType, BlockOp, BlockType, BrCastOp, CastOp, Catch, Delimiter, HeapType,
    IndexPairOp, InstructionSink, LanesOp, MemArg, MemArgTarget, Ordering, RefType, Room, Sink,
    ValType,
};
use wast_base::{Error, LaneOp, MemLaneOp, MemOp};

/// Writes instructions with two indices, constants and `select`.
fn write_others<'e>(out: &mut Vec<u8>) -> Result<(), Error<'e>> {
    let mut sink = InstructionSink::new(out);
    sink.index_pair(IndexPairOp::CallIndirect, 128, 1)?;
    sink.index_pair(IndexPairOp::ReturnCallIndirect, 2, 3)?;
    sink.index_pair(IndexPairOp::MemoryInit, 128, 2)?;
    sink.index_pair(IndexPairOp::MemoryCopy, 3, 4)?;
    sink.index_pair(IndexPairOp::TableInit, 5, 6)?;
    sink.index_pair(IndexPairOp::TableCopy, 7, 8)?;
    sink.f32_const(1065353216)?;
    sink.f64_const(4607182418800017408)?;
    sink.select(None)?;
    sink.select(Some(&[ValType::I32, ValType::F64]))
}

/// Writes blocks of each kind, their ends, and a `br_table`.
fn write_control<'e>(out: &mut Vec<u8>) -> Result<(), Error<'e>> {
    let mut sink = InstructionSink::new(out);
    sink.block(BlockOp::Block, BlockType::Result(ValType::I32))?;
    sink.block(BlockOp::Loop, BlockType::Empty)?;
    sink.block(BlockOp::If, BlockType::FunctionType(128))?;
    sink.delimiter(Delimiter::Else)?;
    sink.block(BlockOp::Try, BlockType::FunctionType(64))?;
    sink.br_table(&[1, 2], 0)?;
    sink.try_table(
        BlockType::Empty,
        &[
            Catch::One { tag: 1, label: 2 },
            Catch::OneRef { tag: 3, label: 4 },
            Catch::All { label: 5 },
            Catch::AllRef { label: 6 },
        ],
    )?;
    sink.delimiter(Delimiter::End)
}

/// Returns a reference type.
fn reference(nullable: bool, heap_type: HeapType) -> RefType {
    RefType {
        nullable,
        heap_type,
    }
}

/// Writes instructions with sixteen bytes, casts, branches on casts and a fence.
fn write_lanes_and_casts<'e>(out: &mut Vec<u8>) -> Result<(), Error<'e>> {
    let i31 = HeapType::Abstract {
        shared: false,
        ty: AbstractHeapType::I31,
    };
    let lanes = [0, 1, 2, 3, 4, 5, 6, 7, 8, 9, 10, 11, 12, 13, 14, 255];
    let mut sink = InstructionSink::new(out);
    sink.lanes(LanesOp::Const, lanes)?;
    sink.lanes(LanesOp::Shuffle, lanes)?;
    sink.cast(CastOp::Test, reference(false, i31))?;
    sink.cast(CastOp::Test, reference(true, i31))?;
    sink.cast(CastOp::Cast, reference(false, i31))?;
    sink.cast(CastOp::Cast, reference(true, HeapType::Concrete(64)))?;
    let target = reference(true, HeapType::Concrete(3));
    sink.br_cast(BrCastOp::Succeeds, 128, reference(false, i31), target)?;
    sink.br_cast(BrCastOp::Fails, 1, target, reference(false, i31))?;
    sink.fence(Ordering::SeqCst)
}

/// Returns the memory argument of the first byte of memory 0.
fn start() -> MemArg {
    MemArg {
        align: 0,
        target: MemArgTarget::Memory(0),
        offset: 0,
        ordering: None,
    }
}

/// Writes a load, a load of a lane, and an instruction with a lane.
fn write_accesses<'e>(out: &mut Vec<u8>) -> Result<(), Error<'e>> {
    let mut sink = InstructionSink::new(out);
    sink.mem(MemOp::i32_load, start())?;
    sink.mem_lane(MemLaneOp::v128_load8_lane, start(), 1)?;
    sink.lane(LaneOp::i8x16_extract_lane_s, 2)
}

#[test]
fn instructions_with_immediates_encode_correctly(rt: HostRuntime) {
    let mut out = Vec::new(rt.alloc());
    assert!(rt; write_others(&mut out).is_ok());
    let expected = [
        0x11, 0x80, 0x01, 1, 0x13, 2, 3, 0xfc, 8, 0x80, 0x01, 2, 0xfc, 10, 3, 4, 0xfc, 12, 5, 6,
        0xfc, 14, 7, 8, 0x43, 0, 0, 0x80, 0x3f, 0x44, 0, 0, 0, 0, 0, 0, 0xf0, 0x3f, 0x1b, 0x1c, 2,
        0x7f, 0x7c,
    ];
    assert!(rt; out.as_slice() == expected.as_slice());
    let mut control = Vec::new(rt.alloc());
    assert!(rt; write_control(&mut control).is_ok());
    let expected = [
        0x02, 0x7f, 0x03, 0x40, 0x04, 0x80, 0x01, 0x05, 0x06, 0xc0, 0x00, 0x0e, 2, 1, 2, 0, 0x1f,
        0x40, 4, 0, 1, 2, 1, 3, 4, 2, 5, 3, 6, 0x0b,
    ];
    assert!(rt; control.as_slice() == expected.as_slice());
    let mut casts = Vec::new(rt.alloc());
    assert!(rt; write_lanes_and_casts(&mut casts).is_ok());
    let expected = [
        0xfd, 12, 0, 1, 2, 3, 4, 5, 6, 7, 8, 9, 10, 11, 12, 13, 14, 255, 0xfd, 13, 0, 1, 2, 3, 4,
        5, 6, 7, 8, 9, 10, 11, 12, 13, 14, 255, 0xfb, 20, 0x6c, 0xfb, 21, 0x6c, 0xfb, 22, 0x6c,
        0xfb, 23, 0xc0, 0x00, 0xfb, 24, 2, 0x80, 0x01, 0x6c, 3, 0xfb, 25, 1, 1, 3, 0x6c, 0xfe, 3,
        0,
    ];
    assert!(rt; casts.as_slice() == expected.as_slice());
    let mut accesses = Vec::new(rt.alloc());
    assert!(rt; write_accesses(&mut accesses).is_ok());
    let expected = [0x28, 0, 0, 0xfd, 0x54, 0, 0, 1, 0xfd, 0x15, 2];
    assert!(rt; accesses.as_slice() == expected.as_slice());
    let mut room = Room::reserve(rt.alloc(), 3).expect(&rt, "memory");
    assert!(rt;
        InstructionSink::new(&mut room)
            .index_pair(IndexPairOp::MemoryCopy, 1, 2)
            .is_err()
    );
    assert!(rt; room.left() == 3 && room.size() == 0);
}
