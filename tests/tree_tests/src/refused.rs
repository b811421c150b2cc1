//! What the calls on a module do if an allocation fails, for each well-formed row.
//!
//! With enough memory these tests only show that the calls succeed. The script
//! `tools/test refused-memory` runs each of them, and lets each allocation of the call fail in turn, in
//! each row at once. It finds the call by a request for `BEGIN` bytes before it and one for `END`
//! bytes after it.

use crate::made::{module, row};
use std::alloc::Global;
use std::process::Abort;
use wast_core::{EncodeOptions, Module, ModuleKind, discard_module};
use wast_expand::{deinline, types};
use wast_resolve::{discard_names, names};
use wast_tree::{Error, Fault, Gensym, ModuleField, Seq};

/// Requests are counted from here on.
const BEGIN: usize = 40009;

/// No request fails from here on.
const END: usize = 40013;

fn mark(rt: &impl Abort, alloc: Global, bytes: usize) {
    let room: Vec<u8> = Vec::with_capacity(alloc, bytes).expect(rt, "memory");
    assert!(rt; room.is_empty());
}

/// Returns whether the result is E12.
fn is_refused<T>(answer: &Result<T, Error<'_>>) -> bool {
    match answer {
        Ok(_) => false,
        Err(e) => *e == Error::refusal(Fault::Memory),
    }
}

/// Returns whether the number is that of a well-formed row.
pub(crate) fn is_row(n: u32) -> bool {
    n != 20 && (n < 58 || n > 64)
}

/// Returns the result of encoding the row.
pub(crate) fn answer_of<'a>(rt: &impl Abort, alloc: Global, n: u32) -> Result<Vec<u8>, Error<'a>> {
    let mut module = row(rt, alloc, n);
    let answer = EncodeOptions::new().encode_module(alloc, &mut module, &mut Gensym::new(1));
    discard_module(module);
    answer
}

/// Checks that the result is that of encoding the row.
fn is_of_row(rt: &impl Abort, alloc: Global, n: u32, answer: Result<Vec<u8>, Error<'_>>) {
    let want = answer_of(rt, alloc, n);
    match answer {
        Ok(bytes) => {
            let want = want.expect(rt, "an answer");
            assert!(rt; bytes.as_slice() == want.as_slice(), "row {n}");
        }
        Err(e) => assert!(rt; want.err() == Some(e), "row {n}"),
    }
}

/// A pass over fields.
#[derive(Clone, Copy, PartialEq, Eq)]
enum Pass {
    Deinline,
    Expand,
    Names,
}

/// Returns the fields after the pass.
fn passed<'a>(
    alloc: Global,
    pass: Pass,
    fields: Seq<ModuleField<'a>>,
    gensym: &mut Gensym,
) -> Result<Seq<ModuleField<'a>>, Error<'a>> {
    match pass {
        Pass::Deinline => deinline::run(alloc, fields, gensym),
        Pass::Expand => types::expand(alloc, fields, gensym),
        Pass::Names => {
            let (fields, _resolver) = names::resolve(alloc, fields)?;
            Ok(fields)
        }
    }
}

/// Returns the fields of the row, as the pass takes them.
fn fields_for<'a>(
    rt: &impl Abort,
    alloc: Global,
    pass: Pass,
    n: u32,
    gensym: &mut Gensym,
) -> Seq<ModuleField<'a>> {
    let mut fields = match row(rt, alloc, n).kind {
        ModuleKind::Text(fields) => fields,
        kind => {
            discard_module(module(kind));
            Seq::new(alloc)
        }
    };
    if pass != Pass::Deinline {
        fields = deinline::run(alloc, fields, gensym).expect(rt, "memory");
    }
    if pass == Pass::Names {
        fields = types::expand(alloc, fields, gensym).expect(rt, "memory");
    }
    fields
}

/// Returns the result of encoding the fields.
fn encoded<'a>(
    rt: &impl Abort,
    alloc: Global,
    fields: Seq<ModuleField<'a>>,
    gensym: &mut Gensym,
) -> Result<Vec<u8>, Error<'a>> {
    let mut module = module(ModuleKind::Text(fields));
    assert!(rt; module.well_formed());
    assert!(rt; module.gensym_bound() < gensym.peek());
    let answer = EncodeOptions::new().encode_module(alloc, &mut module, gensym);
    discard_module(module);
    answer
}

/// Checks that the pass on the fields of the row returns what it does with enough memory. It may
/// return E12 first, and then the same.
fn bears(rt: &impl Abort, alloc: Global, pass: Pass, n: u32) {
    for begin in [BEGIN, END] {
        let mut gensym = Gensym::new(1);
        let fields = fields_for(rt, alloc, pass, n, &mut gensym);
        mark(rt, alloc, begin);
        let answer = passed(alloc, pass, fields, &mut gensym);
        mark(rt, alloc, END);
        let found = match answer {
            Ok(fields) => encoded(rt, alloc, fields, &mut gensym),
            Err(e) => Err(e),
        };
        if !is_refused(&found) {
            return is_of_row(rt, alloc, n, found);
        }
    }
    assert!(rt; false, "row {n} has no memory");
}

#[test]
fn passes_survive_failed_allocations(rt: HostRuntime) {
    for pass in [Pass::Deinline, Pass::Expand, Pass::Names] {
        for n in 1..66 {
            if is_row(n) {
                bears(&rt, rt.alloc(), pass, n);
            }
        }
    }
}

/// Returns the error of resolving the module, if there is one.
fn refusal<'a>(
    rt: &impl Abort,
    alloc: Global,
    module: &mut Module<'a>,
    gensym: &mut Gensym,
    begin: usize,
) -> Option<Error<'a>> {
    mark(rt, alloc, begin);
    let answer = module.resolve(alloc, gensym);
    mark(rt, alloc, END);
    match answer {
        Ok(names) => {
            discard_names(names);
            None
        }
        Err(e) => Some(e),
    }
}

// An error is kept, and returned again, by resolving and by encoding.
#[test]
fn resolving_error_is_sticky(rt: HostRuntime) {
    let alloc = rt.alloc();
    for n in 1..66 {
        for begin in [BEGIN, END] {
            if !is_row(n) {
                break;
            }
            let mut module = row(&rt, alloc, n);
            let mut gensym = Gensym::new(1);
            let first = refusal(&rt, alloc, &mut module, &mut gensym, begin);
            let again = refusal(&rt, alloc, &mut module, &mut gensym, END);
            assert!(rt; again == first, "row {n}");
            assert!(rt; first.is_none() || gensym.peek() == 1, "row {n}");
            let is_kept = matches!(&module.kind, ModuleKind::Refused(_));
            assert!(rt; is_kept == first.is_some(), "row {n}");
            let options = EncodeOptions::new();
            let answer = options.encode_module(alloc, &mut module, &mut gensym);
            discard_module(module);
            if first != Some(Error::refusal(Fault::Memory)) {
                is_of_row(&rt, alloc, n, answer);
                break;
            }
            assert!(rt; begin == BEGIN && is_refused(&answer), "row {n}");
        }
    }
}

// An error of the resolving step is kept. If the encoding step failed, the next call returns the
// bytes.
#[test]
fn encoding_out_of_memory_is_not_sticky(rt: HostRuntime) {
    let alloc = rt.alloc();
    for n in 1..66 {
        for begin in [BEGIN, END] {
            if !is_row(n) {
                break;
            }
            let mut module = row(&rt, alloc, n);
            let mut gensym = Gensym::new(1);
            let options = EncodeOptions::new();
            mark(&rt, alloc, begin);
            let first = options.encode_module(alloc, &mut module, &mut gensym);
            mark(&rt, alloc, END);
            let is_first = !is_refused(&first);
            let is_kept = matches!(&module.kind, ModuleKind::Refused(_));
            let again = options.encode_module(alloc, &mut module, &mut gensym);
            discard_module(module);
            if is_first {
                is_of_row(&rt, alloc, n, first);
            }
            if !is_refused(&again) {
                assert!(rt; is_first || !is_kept, "row {n}");
                is_of_row(&rt, alloc, n, again);
                break;
            }
            assert!(rt; begin == BEGIN && !is_first && is_kept, "row {n}");
        }
    }
}
