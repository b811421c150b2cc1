//! Calls with enough memory, on example modules.

use crate::made::{at, has_bytes, module, ready, row};
use std::alloc::Global;
use std::process::Abort;
use wasm_ops::{Length, Room};
use wast_core::{
    Encode, EncodeOptions, FuncSectionTy, Module, ModuleKind, RecOrType, SectionItem, Wat,
    discard_module,
};
use wast_resolve::{discard_names, resolve};
use wast_rows::add_start;
use wast_tree::{
    CustomPlaceAnchor, Data, Dylink0Subsection, Elem, Error, Export, Fault, Gensym, Id, Imports,
    Index, Memory, ModuleField, Seq, Table, Tag, TreeBuilder, discard_fields,
};

const BYTES_OF_4: &str = "0061736d0100000001040160000003020100070501016100000a040102000b";

const BYTES_OF_27: &str =
    "0061736d0100000001040160000003020100070501016100000a0601040010000b0011046e616d65010401000166040401000174";

const STARTED_27: &str =
    "0061736d0100000001040160000003020100070501016100000801000a0601040010000b0011046e616d65010401000166040401000174";

// The implicit type definition of row 4 gets a generated id, and so does its function, only once.
#[test]
fn encoding_twice_returns_same_bytes(rt: HostRuntime) {
    let alloc = rt.alloc();
    let mut module = row(&rt, alloc, 4);
    let mut gensym = Gensym::new(1);
    let first = module.encode(alloc, &mut gensym);
    has_bytes(&rt, alloc, first, BYTES_OF_4);
    assert!(rt; gensym.peek() == 3);
    let second = EncodeOptions::new().encode_module(alloc, &mut module, &mut gensym);
    has_bytes(&rt, alloc, second, BYTES_OF_4);
    assert!(rt; gensym.peek() == 3);
    discard_module(module);
}

/// Drops the module of a text.
fn discard_wat(wat: Wat<'_>) {
    if let Wat::Module(module) = wat {
        discard_module(module);
    }
}

#[test]
fn text_is_encoded_as_its_module(rt: HostRuntime) {
    let alloc = rt.alloc();
    let mut wat = Wat::Module(row(&rt, alloc, 27));
    let answer = wat.encode(alloc, &mut Gensym::new(1));
    has_bytes(&rt, alloc, answer, BYTES_OF_27);
    discard_wat(wat);
    let mut wat = Wat::Module(row(&rt, alloc, 27));
    let answer = EncodeOptions::new().encode_wat(alloc, &mut wat, &mut Gensym::new(1));
    has_bytes(&rt, alloc, answer, BYTES_OF_27);
    discard_wat(wat);
}

// Row 27, resolved.
fn resolved_row<'a>(rt: &impl Abort, alloc: Global) -> Module<'a> {
    let mut module = row(rt, alloc, 27);
    let names = module.resolve(alloc, &mut Gensym::new(1));
    discard_names(names.expect(rt, "memory"));
    assert!(rt; matches!(&module.kind, ModuleKind::Text(_)));
    module
}

// A sink with too little room stays empty.
#[test]
fn put_module_writes_to_sinks(rt: HostRuntime) {
    let alloc = rt.alloc();
    let module = resolved_row(&rt, alloc);
    let options = EncodeOptions::new();
    let mut length = Length::new();
    assert!(rt; options.put_module(&module, &mut length).is_ok() && length.count() == 52);
    let mut out = Vec::new(alloc);
    assert!(rt; options.put_module(&module, &mut out).is_ok());
    has_bytes(&rt, alloc, Ok(out), BYTES_OF_27);
    let mut room = Room::reserve(alloc, 52).expect(&rt, "memory");
    assert!(rt; options.put_module(&module, &mut room).is_ok() && room.left() == 0);
    has_bytes(&rt, alloc, Ok(room.finish()), BYTES_OF_27);
    let mut small = Room::reserve(alloc, 51).expect(&rt, "memory");
    let refusal = options.put_module(&module, &mut small).err();
    assert!(rt; refusal == Some(Error::refusal(Fault::TooLarge)) && small.left() == 51);
    discard_module(module);
}

/// Checks the content of a subsection.
fn holds(rt: &impl Abort, alloc: Global, subsection: &Dylink0Subsection, want: &[u8]) {
    let mut out = Vec::new(alloc);
    subsection.encode(&mut out).expect(rt, "memory");
    assert!(rt; out.as_slice() == want);
}

#[test]
fn dylink_subsections_have_names_and_flags(rt: HostRuntime) {
    let alloc = rt.alloc();
    let mut maker = TreeBuilder::new(alloc);
    let needed = Dylink0Subsection::Needed(maker.names(&["ab"]));
    holds(&rt, alloc, &needed, &[1, 2, b'a', b'b']);
    let exported = Dylink0Subsection::ExportInfo(maker.export_flags(&[("a", 128)]));
    holds(&rt, alloc, &exported, &[1, 1, b'a', 0x80, 1]);
    let imported = Dylink0Subsection::ImportInfo(maker.import_flags(&[("a", "b", 3)]));
    holds(&rt, alloc, &imported, &[1, 1, b'a', 1, b'b', 3]);
    let path = Dylink0Subsection::RuntimePath(maker.names(&["c"]));
    holds(&rt, alloc, &path, &[1, 1, b'c']);
}

/// Checks that fields are resolved as those of a module.
fn alone<'a>(rt: &impl Abort, alloc: Global, fields: Seq<ModuleField<'a>>) {
    assert!(rt; wast_tree::well_formed(fields.as_slice()));
    assert!(rt; wast_tree::gensym_bound(fields.as_slice()) == 0);
    match resolve(alloc, fields, &mut Gensym::new(1)) {
        Ok((fields, names)) => {
            assert!(rt; fields.len() == 3);
            discard_fields(fields);
            discard_names(names);
        }
        Err(_) => assert!(rt; false),
    }
}

#[test]
fn resolve_works_on_bare_fields(rt: HostRuntime) {
    let alloc = rt.alloc();
    match row(&rt, alloc, 27).kind {
        ModuleKind::Text(fields) => alone(&rt, alloc, fields),
        kind => discard_module(module(kind)),
    }
}

/// Returns an index that is an id from the source. It may be looked up in any namespace.
fn by_id<'a>(name: &'a str, place: usize) -> Index<'a> {
    Index::Id(Id::new(name, at(place)))
}

// An unknown function leaves the module resolved, without a start field.
#[test]
fn start_field_is_appended(rt: HostRuntime) {
    let alloc = rt.alloc();
    let mut module = row(&rt, alloc, 27);
    assert!(rt; matches!(&module.kind, ModuleKind::Text(_)));
    let mut gensym = Gensym::new(1);
    let answer = add_start(alloc, &mut module, &mut gensym, by_id("x", 80));
    assert!(rt; answer == Err(Error::new(at(80), Fault::Unknown("func", "x"))));
    let bytes = EncodeOptions::new().encode_module(alloc, &mut module, &mut gensym);
    has_bytes(&rt, alloc, bytes, BYTES_OF_27);
    assert!(rt; matches!(&module.kind, ModuleKind::Text(_)));
    let answer = add_start(alloc, &mut module, &mut gensym, by_id("f", 80));
    has_bytes(&rt, alloc, answer, STARTED_27);
    let again = EncodeOptions::new().encode_module(alloc, &mut module, &mut gensym);
    has_bytes(&rt, alloc, again, STARTED_27);
    discard_module(module);
}

/// Checks that the module is too large with a counter at this generation, also at a second call.
fn is_too_large<'a>(rt: &impl Abort, alloc: Global, module: Module<'a>, first: u64) -> Module<'a> {
    let mut module = ready(rt, module);
    assert!(rt; first > 0);
    let mut gensym = Gensym::new(first);
    let answer = EncodeOptions::new().encode_module(alloc, &mut module, &mut gensym);
    assert!(rt; answer.err() == Some(Error::refusal(Fault::TooLarge)));
    assert!(rt; gensym.peek() == first);
    module
}

// Row 2 needs one generated id.
#[test]
fn counter_overflow_error_is_sticky(rt: HostRuntime) {
    let alloc = rt.alloc();
    let module = is_too_large(&rt, alloc, row(&rt, alloc, 2), 18_446_744_073_709_551_615);
    let module = is_too_large(&rt, alloc, module, 1);
    discard_module(module);
}

#[test]
fn section_items_have_anchors(rt: HostRuntime) {
    assert!(rt; RecOrType::ANCHOR == CustomPlaceAnchor::Ty);
    assert!(rt; Imports::ANCHOR == CustomPlaceAnchor::Import);
    assert!(rt; FuncSectionTy::ANCHOR == CustomPlaceAnchor::Func);
    assert!(rt; Table::ANCHOR == CustomPlaceAnchor::Table);
    assert!(rt; Memory::ANCHOR == CustomPlaceAnchor::Memory);
    assert!(rt; Tag::ANCHOR == CustomPlaceAnchor::Tag);
    assert!(rt; wast_tree::Global::ANCHOR == CustomPlaceAnchor::Global);
    assert!(rt; Export::ANCHOR == CustomPlaceAnchor::Export);
    assert!(rt; Elem::ANCHOR == CustomPlaceAnchor::Elem);
    assert!(rt; Data::ANCHOR == CustomPlaceAnchor::Data);
    assert!(rt; <&Data as SectionItem>::ANCHOR == CustomPlaceAnchor::Data);
}
