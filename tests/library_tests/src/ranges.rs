//! Ranges of fields that are no larger than their fields need, which no contract states.

use wast_base::{Index, Seq, Span};
use wast_core_ranges::{FieldKind, FieldRange, FieldRanges};
use wast_tree_nodes::{Export, ExportKind, ModuleField, discard_fields, push_field};

fn start<'a>() -> ModuleField<'a> {
    ModuleField::Start(Index::Num(1, Span { offset: 0 }))
}

fn export<'a>() -> ModuleField<'a> {
    let span = Span { offset: 0 };
    ModuleField::Export(Export {
        span,
        name: "a",
        kind: ExportKind::Func,
        item: Index::Num(0, span),
    })
}

/// Appends a field to a list, and returns whether it succeeded.
fn put<'a>(fields: &mut Seq<ModuleField<'a>>, field: ModuleField<'a>) -> bool {
    push_field(fields, field).is_ok()
}

/// Finds the ranges of a list. It is borrowed mutably, as in a proved caller: for a shared borrow of
/// a local list the prover would compare the whole tree.
fn found(fields: &mut Seq<ModuleField>) -> FieldRanges {
    FieldRanges::of(fields.as_slice())
}

fn is(reach: FieldRange, first: usize, end: usize) -> bool {
    reach.first == first && reach.end == end
}

#[test]
fn the_fields_of_a_kind_stand_in_its_reach(rt: HostRuntime) {
    let mut fields = Seq::new(rt.alloc());
    let made = put(&mut fields, export())
        && put(&mut fields, start())
        && put(&mut fields, export())
        && put(&mut fields, start())
        && put(&mut fields, export())
        && put(&mut fields, export());
    let reaches = found(&mut fields);
    discard_fields(fields);
    let starts = reaches.of_kind(FieldKind::Start);
    let exports = reaches.of_kind(FieldKind::Export);
    let tags = reaches.of_kind(FieldKind::Tag);
    assert!(rt; made);
    assert!(rt; is(starts, 1, 4) && is(exports, 0, 6) && is(tags, 0, 0));
    assert!(rt; is(starts.union(exports), 0, 6));
    assert!(rt; is(starts.union(tags), 1, 4) && is(tags.union(starts), 1, 4));
    let later = FieldRange { first: 4, end: 5 };
    assert!(rt; is(starts.union(later), 1, 5) && is(later.union(starts), 1, 5));
}
