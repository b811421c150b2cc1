//! Instructions as values of their own, and how often nested lengths write to a user-defined sink.

use std::alloc::Global;
use std::process::Abort;
use unit_tests::Kept;
use wasm_ops::{Encode, IndexInstr, IndexOp, MemArg, MemArgTarget, MemInstr, Raw, WithLength};
use wast_base::MemOp;

/// Checks the bytes of indices, after the byte of `call` and after the two bytes of `data.drop`.
fn index_rows(rt: &impl Abort, alloc: Global, rows: &[(u32, &[u8])]) {
    for (index, bytes) in rows {
        let call = IndexInstr {
            op: IndexOp::Call,
            index: *index,
        };
        let drop = IndexInstr {
            op: IndexOp::DataDrop,
            index: *index,
        };
        let mut out = Vec::new(alloc);
        assert!(rt; (call, drop).encode(&mut out).is_ok(), "for {index}");
        let mut expected = vec![in alloc; 0x10].expect(rt, "memory");
        expected.extend_from_slice(*bytes).expect(rt, "memory");
        expected.extend_from_slice(&[0xfc, 9]).expect(rt, "memory");
        expected.extend_from_slice(*bytes).expect(rt, "memory");
        assert!(rt; out.as_slice() == expected.as_slice(), "for {index}");
    }
}

/// Checks the bytes of offsets, in memory 0 and in another memory.
fn offset_rows(rt: &impl Abort, alloc: Global, rows: &[(u64, &[u8])]) {
    for (offset, bytes) in rows {
        let first = MemArg {
            align: 63,
            target: MemArgTarget::Memory(0),
            offset: *offset,
            ordering: None,
        };
        let other = MemArg {
            align: 63,
            target: MemArgTarget::Memory(128),
            offset: *offset,
            ordering: None,
        };
        assert!(rt; first.is_aligned() && first.is_covered(), "for {offset}");
        assert!(rt; other.is_aligned() && other.is_covered(), "for {offset}");
        let load = MemInstr {
            op: MemOp::i32_load,
            memarg: first,
        };
        let store = MemInstr {
            op: MemOp::i64_store,
            memarg: other,
        };
        let mut out = Vec::new(alloc);
        assert!(rt; (load, store).encode(&mut out).is_ok(), "for {offset}");
        let mut expected = vec![in alloc; 0x28, 63].expect(rt, "memory");
        expected.extend_from_slice(*bytes).expect(rt, "memory");
        expected
            .extend_from_slice(&[0x37, 127, 0x80, 0x01])
            .expect(rt, "memory");
        expected.extend_from_slice(*bytes).expect(rt, "memory");
        assert!(rt; out.as_slice() == expected.as_slice(), "for {offset}");
    }
}

#[test]
fn instructions_are_values(rt: HostRuntime) {
    index_rows(&rt, rt.alloc(), &[(127, &[0x7f]), (128, &[0x80, 0x01])]);
    offset_rows(&rt, rt.alloc(), &[(0, &[0]), (128, &[0x80, 0x01])]);
}

#[test]
fn nested_lengths_write_twice_per_level_without_patching(rt: HostRuntime) {
    let bytes = [7; 3];
    let four = WithLength(WithLength(WithLength(WithLength(Raw(&bytes)))));
    let eight = WithLength(WithLength(WithLength(WithLength(four))));
    let mut kept = Kept {
        bytes: Vec::new(rt.alloc()),
        puts: 0,
    };
    assert!(rt; eight.encode(&mut kept).is_ok());
    // For each level a byte that is cut off again, and the length; and the bytes once.
    assert!(rt; kept.puts == 17);
    let expected = [10, 9, 8, 7, 6, 5, 4, 3, 7, 7, 7];
    assert!(rt; kept.bytes.as_slice() == expected.as_slice());
}
