//! How many bytes a node of the AST, an id and a token take. A walk reads each byte of what it goes through.

use std::mem::size_of;
use std::process::Abort;
use wast_tree::{BlockType, Expression, Id, Index, Instruction, MemArg, ModuleField, Span};
use wat_tokens::{Placed, Token};

/// Checks the size of a type, in bytes.
fn has_size(rt: &impl Abort, name: &str, size: usize, recorded: usize) {
    assert!(rt; size == recorded, "{name} has {size} bytes");
}

#[test]
fn nodes_ids_and_tokens_have_their_recorded_sizes(rt: HostRuntime) {
    has_size(&rt, "Span", size_of::<Span>(), 8);
    has_size(&rt, "Id", size_of::<Id<'static>>(), 32);
    has_size(&rt, "Index", size_of::<Index<'static>>(), 40);
    has_size(&rt, "MemArg", size_of::<MemArg<'static>>(), 72);
    has_size(&rt, "BlockType", size_of::<BlockType<'static>>(), 168);
    has_size(&rt, "Instruction", size_of::<Instruction<'static>>(), 96);
    has_size(&rt, "Expression", size_of::<Expression<'static>>(), 48);
    has_size(&rt, "ModuleField", size_of::<ModuleField<'static>>(), 304);
    has_size(&rt, "Token", size_of::<Token<'static>>(), 24);
    has_size(&rt, "Placed", size_of::<Placed<'static>>(), 32);
}
