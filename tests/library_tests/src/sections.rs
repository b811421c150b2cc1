//! The bytes of a module with each kind of section.
//!
//! If an allocation fails, the call returns E12, and the test builds everything again:
//! `tools/test refused-memory` makes each allocation fail in turn.

use std::alloc::Global;
use unit_tests::sections::{add_global_export_and_start, number};
use unit_tests::writing::written;
use wasm_ops::{
    AbstractHeapType, CompositeInnerType, CompositeType, ConstExpr, EntityType, FuncType, HeapType,
    IndexOp, InstructionSink, MemoryType, RefType, SubType, TableType, TagType, ValType,
};
use wasm_out::{
    BranchHint, BranchHints, Build, CodeSection, CustomSection, DataCountSection, DataSection,
    ElementSection, Elements, Function, FunctionSection, ImportSection, IndirectNameMap,
    MemorySection, Module, NameMap, NameSection, ProducersField, ProducersSection, TableSection,
    TagSection, TypeSection, building_law, part_spelling_law, reading_laws,
};
use wast_base::{Error, Fault, Seq};

/// Returns a call of the function at an index.
fn call<'e>(alloc: Global, index: u32) -> Result<Vec<u8>, Error<'e>> {
    let mut bytes = Vec::new(alloc);
    InstructionSink::new(&mut bytes).index(IndexOp::Call, index)?;
    Ok(bytes)
}

/// Returns a body with these locals, which calls the function at an index.
fn calling<'e>(alloc: Global, types: &[ValType], index: u32) -> Result<Function, Error<'e>> {
    let bytes = call(alloc, index)?;
    let mut function = Function::new_with_locals_types(alloc, types)?;
    function.raw(&bytes)?;
    function.end()?;
    Ok(function)
}

/// Returns a `ref.null`.
fn ref_null<'e>(alloc: Global, heap_type: HeapType) -> Result<Vec<u8>, Error<'e>> {
    let mut bytes = Vec::new(alloc);
    InstructionSink::new(&mut bytes).ref_null(heap_type)?;
    Ok(bytes)
}

/// Returns the expression of a `ref.null`.
fn null<'e>(alloc: Global, heap_type: HeapType) -> Result<ConstExpr, Error<'e>> {
    let bytes = ref_null(alloc, heap_type)?;
    Ok(ConstExpr::raw(bytes))
}

/// Returns the heap type `func`.
fn func() -> HeapType {
    HeapType::Abstract {
        shared: false,
        ty: AbstractHeapType::Func,
    }
}

/// Returns the type `funcref`.
fn funcref() -> RefType {
    RefType {
        nullable: true,
        heap_type: func(),
    }
}

/// Returns a function type without parameters and results.
fn plain(alloc: Global, is_final: bool) -> SubType {
    let inner = CompositeInnerType::Func(FuncType {
        params: Seq::new(alloc),
        results: Seq::new(alloc),
    });
    SubType {
        composite_type: CompositeType {
            inner,
            shared: false,
            descriptor: None,
            describes: None,
        },
        is_final,
        supertype_idxs: Seq::new(alloc),
    }
}

/// Adds a single type, and a group of a final type and an open one.
fn add_types<'e>(alloc: Global, whole: &mut Module) -> Result<(), Error<'e>> {
    let mut section = TypeSection::new(alloc);
    section.subtype(&plain(alloc, true))?;
    let group = [plain(alloc, true), plain(alloc, false)];
    section.rec(&group)?;
    whole.section(&section)?;
    Ok(())
}

/// Adds an import `m` `t` of a tag of type 0, and a function of that type.
fn add_imports_and_functions<'e>(alloc: Global, whole: &mut Module) -> Result<(), Error<'e>> {
    let mut imports = ImportSection::new(alloc);
    let tag = EntityType::Tag(TagType { func_type_idx: 0 });
    imports.import("m", "t", &tag)?;
    whole.section(&imports)?;
    let mut functions = FunctionSection::new(alloc);
    functions.function(0)?;
    whole.section(&functions)?;
    Ok(())
}

/// Adds a table of at least one function, and a table of 64 bits with one to two null elements.
fn add_tables<'e>(alloc: Global, whole: &mut Module) -> Result<(), Error<'e>> {
    let mut section = TableSection::new(alloc);
    let ty = TableType {
        element_type: funcref(),
        minimum: 1,
        maximum: None,
        table64: false,
        shared: false,
    };
    section.table(&ty)?;
    let wide = TableType {
        maximum: Some(2),
        table64: true,
        ..ty
    };
    let init = null(alloc, func())?;
    section.table_with_init(&wide, &init)?;
    whole.section(&section)?;
    Ok(())
}

/// Adds a shared memory of one to two pages of one byte, and a tag of type 0.
fn add_memory_and_tag<'e>(alloc: Global, whole: &mut Module) -> Result<(), Error<'e>> {
    let mut memories = MemorySection::new(alloc);
    let ty = MemoryType {
        minimum: 1,
        maximum: Some(2),
        memory64: false,
        shared: true,
        page_size_log2: Some(0),
    };
    memories.memory(&ty)?;
    whole.section(&memories)?;
    let mut tags = TagSection::new(alloc);
    tags.tag(&TagType { func_type_idx: 0 })?;
    whole.section(&tags)?;
    Ok(())
}

/// Adds a passive segment of function 0, an active segment of a null reference in table 1, and a
/// declarative segment of function 0.
fn add_elements<'e>(alloc: Global, whole: &mut Module) -> Result<(), Error<'e>> {
    let functions = Elements::Functions(vec![in alloc; 0]?);
    let mut values = Vec::new(alloc);
    values.push(null(alloc, func())?)?;
    let expressions = Elements::Expressions(funcref(), values);
    let offset = number(alloc, 1)?;
    let mut section = ElementSection::new(alloc);
    section.passive(&functions)?;
    section.active(Some(1), &offset, &expressions)?;
    section.declared(&functions)?;
    whole.section(&section)?;
    Ok(())
}

/// Adds the number of data segments, and a body with three locals and a call.
fn add_code<'e>(alloc: Global, whole: &mut Module) -> Result<(), Error<'e>> {
    whole.section(&DataCountSection { count: 2 })?;
    let types = [ValType::I32, ValType::I32, ValType::I64];
    let body = calling(alloc, &types, 0)?;
    let mut section = CodeSection::new(alloc);
    section.function(&body)?;
    whole.section(&section)?;
    Ok(())
}

/// Adds a passive data segment, an active one in memory 0, and a custom section.
fn add_data_and_custom<'e>(alloc: Global, whole: &mut Module) -> Result<(), Error<'e>> {
    let offset = number(alloc, 1)?;
    let mut section = DataSection::new(alloc);
    section.passive(b"x")?;
    section.active(0, &offset, b"yz")?;
    whole.section(&section)?;
    let bytes = vec![in alloc; 9, 8]?;
    whole.section(&CustomSection { name: "c", bytes })?;
    Ok(())
}

/// Adds the name of the module, and the subsections up to memories.
fn add_names<'e>(
    names: &mut NameSection,
    map: &NameMap,
    maps: &IndirectNameMap,
) -> Result<(), Error<'e>> {
    names.module("m")?;
    names.functions(map)?;
    names.locals(maps)?;
    names.labels(maps)?;
    names.types(map)?;
    names.tables(map)?;
    names.memories(map)?;
    Ok(())
}

/// Adds the other subsections of names.
fn add_more_names<'e>(
    names: &mut NameSection,
    map: &NameMap,
    maps: &IndirectNameMap,
) -> Result<(), Error<'e>> {
    names.globals(map)?;
    names.elements(map)?;
    names.data_segments(map)?;
    names.fields(maps)?;
    names.tags(map)?;
    names.parameters(maps)?;
    names.tag_parameters(maps)?;
    Ok(())
}

/// Returns a name section with each subsection. A name map has the name `x` at 2, and an indirect
/// one has this map at 3.
fn names<'e>(alloc: Global) -> Result<NameSection, Error<'e>> {
    let mut map = NameMap::new(alloc);
    map.append(2, "x")?;
    let mut maps = IndirectNameMap::new(alloc);
    maps.append(3, &map)?;
    let mut names = NameSection::new(alloc);
    add_names(&mut names, &map, &maps)?;
    add_more_names(&mut names, &map, &maps)?;
    Ok(names)
}

/// Returns a module with each kind of section.
fn each_section<'e>(alloc: Global) -> Result<Vec<u8>, Error<'e>> {
    let mut whole = Module::new(alloc)?;
    add_types(alloc, &mut whole)?;
    add_imports_and_functions(alloc, &mut whole)?;
    add_tables(alloc, &mut whole)?;
    add_memory_and_tag(alloc, &mut whole)?;
    add_global_export_and_start(alloc, &mut whole)?;
    add_elements(alloc, &mut whole)?;
    add_code(alloc, &mut whole)?;
    add_data_and_custom(alloc, &mut whole)?;
    let names = names(alloc)?;
    whole.section(&names)?;
    Ok(whole.finish())
}

/// Returns a section of one field with one value.
fn producers<'e>(alloc: Global) -> Result<ProducersSection, Error<'e>> {
    let mut values = ProducersField::new(alloc);
    values.value("R", "1")?;
    let mut section = ProducersSection::new(alloc);
    section.field("language", &values)?;
    Ok(section)
}

/// Returns one likely hint of a function, and two hints of another function.
fn hints<'e>(alloc: Global) -> Result<BranchHints, Error<'e>> {
    let mut section = BranchHints::new(alloc);
    let first = [BranchHint {
        branch_func_offset: 5,
        branch_hint_value: 1,
    }];
    section.function_hints(0, &first)?;
    let others = [
        BranchHint {
            branch_func_offset: 2,
            branch_hint_value: 0,
        },
        BranchHint {
            branch_func_offset: 200,
            branch_hint_value: 1,
        },
    ];
    section.function_hints(3, &others)?;
    Ok(section)
}

/// Returns a module of the custom sections that have builders.
fn each_custom<'e>(alloc: Global) -> Result<Vec<u8>, Error<'e>> {
    let mut whole = Module::new(alloc)?;
    let hints = hints(alloc)?;
    whole.section(&hints)?;
    let producers = producers(alloc)?;
    whole.section(&producers)?;
    Ok(whole.finish())
}

#[test]
fn every_section_encodes_correctly(rt: HostRuntime) {
    let alloc = rt.alloc();
    let expected =
        b"\x00\x61\x73\x6d\x01\x00\x00\x00\x01\x0e\x02\x60\x00\x00\x4e\x02\x60\x00\x00\x50\x00\x60\x00\x00\
        \x02\x08\x01\x01\x6d\x01\x74\x04\x00\x00\x03\x02\x01\x00\x04\x0d\x02\x70\x00\x01\x40\x00\x70\x05\
        \x01\x02\xd0\x70\x0b\x05\x05\x01\x0b\x01\x02\x00\x0d\x03\x01\x00\x00\x06\x06\x01\x7f\x01\x41\x7f\
        \x0b\x07\x05\x01\x01\x61\x00\x00\x08\x01\x00\x09\x13\x03\x01\x00\x01\x00\x06\x01\x41\x01\x0b\x70\
        \x01\xd0\x70\x0b\x03\x00\x01\x00\x0c\x01\x02\x0a\x0a\x01\x08\x02\x02\x7f\x01\x7e\x10\x00\x0b\x0b\
        \x0b\x02\x01\x01\x78\x00\x41\x01\x0b\x02\x79\x7a\x00\x04\x01\x63\x09\x08\x00\x61\x04\x6e\x61\x6d\
        \x65\x00\x02\x01\x6d\x01\x04\x01\x02\x01\x78\x02\x06\x01\x03\x01\x02\x01\x78\x03\x06\x01\x03\x01\
        \x02\x01\x78\x04\x04\x01\x02\x01\x78\x05\x04\x01\x02\x01\x78\x06\x04\x01\x02\x01\x78\x07\x04\x01\
        \x02\x01\x78\x08\x04\x01\x02\x01\x78\x09\x04\x01\x02\x01\x78\x0a\x06\x01\x03\x01\x02\x01\x78\x0b\
        \x04\x01\x02\x01\x78\x0c\x06\x01\x03\x01\x02\x01\x78\x0d\x06\x01\x03\x01\x02\x01\x78";
    let built = match each_section(alloc) {
        Ok(bytes) => bytes,
        Err(e) => {
            assert!(rt; e == Error::refusal(Fault::Memory));
            each_section(alloc).expect(&rt, "memory")
        }
    };
    assert!(rt; built.as_slice() == expected.as_slice());
}

#[test]
fn built_custom_sections_encode_correctly(rt: HostRuntime) {
    let alloc = rt.alloc();
    let expected =
        b"\x00\x61\x73\x6d\x01\x00\x00\x00\x00\x29\x19metadata.code.branch_hint\x02\x00\x01\x05\x01\x01\
        \x03\x02\x02\x01\x00\xc8\x01\x01\x01\x00\x19\x09producers\x01\x08language\x01\x01R\x011";
    let built = match each_custom(alloc) {
        Ok(bytes) => bytes,
        Err(e) => {
            assert!(rt; e == Error::refusal(Fault::Memory));
            each_custom(alloc).expect(&rt, "memory")
        }
    };
    assert!(rt; built.as_slice() == expected.as_slice());
}

#[test]
fn module_without_a_tree_has_its_memory(rt: HostRuntime) {
    let bytes = written(rt.alloc()).expect(&rt, "memory");
    assert!(rt; bytes.len() == 55);
}

#[test]
fn byte_len_counts_encoded_bytes(rt: HostRuntime) {
    let alloc = rt.alloc();
    let types = [ValType::I32, ValType::I32, ValType::I64];
    let body = calling(alloc, &types, 0).expect(&rt, "memory");
    let mut section = CodeSection::new(alloc);
    assert!(rt; section.function(&body).is_ok());
    assert!(rt; body.byte_len() == 8 && section.byte_len() == 9);
}

#[test]
fn new_sections_are_empty(rt: HostRuntime) {
    let alloc = rt.alloc();
    assert!(rt; TypeSection::new(alloc).is_empty() && NameSection::new(alloc).is_empty());
    assert!(rt; NameMap::new(alloc).is_empty() && IndirectNameMap::new(alloc).is_empty());
    assert!(rt; ProducersSection::new(alloc).is_empty() && ProducersField::new(alloc).is_empty());
    assert!(rt; BranchHints::new(alloc).is_empty());
    building_law();
    part_spelling_law();
    reading_laws();
}
