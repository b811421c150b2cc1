//! Modules for the tests.

use std::alloc::Global;
use std::process::Abort;
use wast_core::{Module, ModuleKind};
use wast_rows::sample;
use wast_tree::{Error, Span};

pub(crate) fn at(offset: usize) -> Span {
    Span { offset }
}

/// Returns a module without an id.
pub(crate) fn module(kind: ModuleKind<'_>) -> Module<'_> {
    Module {
        span: at(1),
        id: None,
        name: None,
        kind,
    }
}

// Returns the module, if it can be encoded with a counter at 1.
pub(crate) fn ready<'a>(rt: &impl Abort, module: Module<'a>) -> Module<'a> {
    assert!(rt; module.well_formed());
    assert!(rt; module.gensym_bound() == 0);
    module
}

pub(crate) fn row<'a>(rt: &impl Abort, alloc: Global, n: u32) -> Module<'a> {
    let made = sample(alloc, n).expect(rt, "there is such a row");
    ready(rt, made.expect(rt, "memory"))
}

/// Checks that the result is these bytes, written in hex.
pub(crate) fn has_bytes(
    rt: &impl Abort,
    alloc: Global,
    answer: Result<Vec<u8>, Error<'_>>,
    bytes: &str,
) {
    let answer = answer.expect(rt, "memory");
    let text = hex::encode(alloc, answer.as_slice()).expect(rt, "memory");
    assert!(rt; text.as_str() == bytes, "{text}");
}
