//! The twin of each well-formed row is that row with longer ids.

use crate::made::{ready, row};
use crate::refused::{answer_of, is_row};
use std::alloc::Global;
use std::process::Abort;
use wast_core::{EncodeOptions, Module, discard_module};
use wast_rows::twin;
use wast_tree::{Error, Gensym};

/// Returns the twin of a row.
fn twin_of<'a>(rt: &impl Abort, alloc: Global, n: u32) -> Module<'a> {
    let made = twin(alloc, n).expect(rt, "there is such a row");
    ready(rt, made.expect(rt, "memory"))
}

/// Returns the result of encoding the twin of a row.
fn answer_of_twin<'a>(rt: &impl Abort, alloc: Global, n: u32) -> Result<Vec<u8>, Error<'a>> {
    let mut module = twin_of(rt, alloc, n);
    let answer = EncodeOptions::new().encode_module(alloc, &mut module, &mut Gensym::new(1));
    discard_module(module);
    answer
}

/// Returns the bytes before the last section called `name`, and all of them if there is none. In
/// rows such a section is shorter than 128 bytes.
fn before_names(mut bytes: Vec<u8>) -> Vec<u8> {
    let mut end = bytes.len();
    for i in 0..bytes.len() {
        if bytes.as_slice()[i..].starts_with(b"\x04name") {
            end = i.saturating_sub(2);
        }
    }
    bytes.truncate(end);
    bytes
}

/// Checks that the twin of the row has the same error, or the same bytes before the name section.
fn has_a_twin(rt: &impl Abort, alloc: Global, n: u32) {
    match (answer_of(rt, alloc, n), answer_of_twin(rt, alloc, n)) {
        (Ok(plain), Ok(twin)) => {
            let (plain, twin) = (before_names(plain), before_names(twin));
            assert!(rt; plain.as_slice() == twin.as_slice(), "row {n}");
        }
        (Err(plain), Err(twin)) => {
            assert!(rt; plain.number() == twin.number(), "row {n}");
            assert!(rt; plain.span() == twin.span(), "row {n}");
        }
        _ => assert!(rt; false, "row {n}"),
    }
}

/// The text before the name of a source id in the `Debug` form of a module.
const WRITTEN: &[u8] = b"Written(\"";

/// Returns the text with an `r` before the name of each source id.
fn with_longer_ids(rt: &impl Abort, alloc: Global, text: &[u8]) -> Vec<u8> {
    let mut longer = Vec::new(alloc);
    for i in 0..text.len() {
        if text[..i].ends_with(WRITTEN) {
            longer.push(b'r').expect(rt, "memory");
        }
        longer.push(text[i]).expect(rt, "memory");
    }
    longer
}

/// Returns the `Debug` form of a module.
fn printed(rt: &impl Abort, alloc: Global, module: Module<'_>) -> String {
    let text = format!(in alloc; "{module:?}").expect(rt, "memory");
    discard_module(module);
    text
}

// No contract states this: a twin that is the sample itself would satisfy the contract of `twin`.
// What `Debug` prints shows the ids of fields, and the result those of instructions.
#[test]
fn twin_differs_only_in_id_names(rt: HostRuntime) {
    let alloc = rt.alloc();
    for n in 1..66 {
        if is_row(n) {
            has_a_twin(&rt, alloc, n);
            let plain = printed(&rt, alloc, row(&rt, alloc, n));
            let twin = printed(&rt, alloc, twin_of(&rt, alloc, n));
            let longer = with_longer_ids(&rt, alloc, plain.as_bytes());
            assert!(rt; longer.as_slice() == twin.as_bytes(), "row {n}");
        }
    }
}
