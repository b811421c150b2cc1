//! Namespaces with enough memory, because contracts permit each call to fail, and with many names,
//! because no contract is about prefix keys.

use std::alloc::Global;
use std::process::Abort;
use wast_base::{Gensym, Id, Numbering, Span};
use wast_resolve_namespace::{Namespace, NamespaceBuilder};

fn written<'a>(name: &'a str) -> Id<'a> {
    Id::new(name, Span { offset: 7 })
}

#[test]
fn each_call_gets_its_memory(rt: HostRuntime) {
    let mut items = NamespaceBuilder::new(rt.alloc(), 0).expect(&rt, "memory");
    assert!(rt; items.add(Some(written("abcdefgh2"))) == Ok(()));
    let filled = items.build(rt.alloc()).expect(&rt, "memory");
    let mut space: Namespace<'_> = filled.expect(&rt, "no clash");
    assert!(rt; !space.is_full());
    assert!(rt; space.register(Some(written("abcdefgh1")), "func") == Ok(1));
    assert!(rt; space.register_specific(written("b"), 9, "func") == Ok(()));
    assert!(rt; space.pairs().len() == 3);
}

#[test]
fn of_several_items_of_one_name_the_first_is_known(rt: HostRuntime) {
    let (a, b) = (written("a"), written("b"));
    let ids = [a, b, a, b, b];
    let items = gathered(&rt, rt.alloc(), &ids);
    assert!(rt; items.number_of(&a) == Some(1) && items.number_of(&b) == Some(3));
    let space: Namespace<'_> = items.build_first_wins(rt.alloc()).expect(&rt, "memory");
    assert!(rt; space.find(&a) == Some(1) && space.find(&b) == Some(3));
    assert!(rt; space.pairs().len() == 2);
}

/// Returns a generated id.
fn generated<'a>(rt: &impl Abort, generation: u64) -> Id<'a> {
    assert!(rt; generation > 0);
    let made = Gensym::new(generation).generate(Span { offset: 7 });
    made.expect(rt, "a generation below the greatest")
}

/// Adds these ids, each after an item without one.
fn gathered<'a>(rt: &impl Abort, alloc: Global, ids: &[Id<'a>]) -> NamespaceBuilder<'a> {
    let mut items = NamespaceBuilder::new(alloc, ids.len()).expect(rt, "memory");
    for id in ids {
        for item in [None, Some(*id)] {
            assert!(rt; !items.is_full());
            items.add(item).expect(rt, "memory");
        }
    }
    items
}

/// Checks that each id is found at its position, and that the names are sorted.
fn check_all_are_found<'a>(rt: &impl Abort, alloc: Global, ids: &[Id<'a>]) {
    let none = gathered(rt, alloc, ids).first_clash(alloc);
    assert!(rt; none.expect(rt, "memory") == None);
    let filled = gathered(rt, alloc, ids).build(alloc);
    let space = filled.expect(rt, "memory").expect(rt, "no clash");
    let mut position = 1u32;
    for id in ids {
        assert!(rt; space.find(id) == Some(position));
        position = position.saturating_add(2);
    }
    assert!(rt; space.find(&written("nowhere")) == None);
    let pairs = space.pairs();
    assert!(rt; pairs.len() == ids.len());
    for i in 1..pairs.len() {
        assert!(rt; pairs[i - 1].0.name() <= pairs[i].0.name());
    }
}

/// Checks that an id of the middle, added again at the end, is the first duplicate.
fn check_clash_is_told<'a>(rt: &impl Abort, alloc: Global, ids: &[Id<'a>]) {
    let mut twice = ids.to_vec(alloc).expect(rt, "memory");
    assert!(rt; ids.len() > 0);
    twice.push(ids[ids.len() / 2]).expect(rt, "memory");
    twice.push(ids[0]).expect(rt, "memory");
    let again = u32::try_from(ids.len()).expect(rt, "few ids");
    let want = again.saturating_mul(2).saturating_add(1);
    let clash = gathered(rt, alloc, twice.as_slice()).first_clash(alloc);
    assert!(rt; clash.expect(rt, "memory") == Some(want));
    match gathered(rt, alloc, twice.as_slice()).build(alloc) {
        Ok(Err(at)) => assert!(rt; at == want),
        _ => assert!(rt; false),
    }
}

#[test]
fn many_names_are_told_apart(rt: HostRuntime) {
    let mut texts = Vec::new(rt.alloc());
    for n in 0..100 {
        for text in [
            format!(in rt.alloc(); "core::fmt::function_{n}").expect(&rt, "memory"),
            format!(in rt.alloc(); "alloc::vec::function_{n}").expect(&rt, "memory"),
            format!(in rt.alloc();
                "alloc::vec::the_first_eight_bytes_are_those_of_others_{n}"
            ).expect(&rt, "memory"),
            format!(in rt.alloc(); "{n}").expect(&rt, "memory"),
        ] {
            texts.push(text).expect(&rt, "memory");
        }
    }
    for few in [1, 16, 17, 20, 21, 400] {
        let mut ids = Vec::new(rt.alloc());
        for text in texts.iter().take(few) {
            ids.push(written(text.as_str())).expect(&rt, "memory");
        }
        // the keys of the last one and of generated ids are not in the order of their names
        for other in [
            written("gensym"),
            written("other"),
            written(""),
            written("gensym\0\0\0\0\0\0\0\0\0\u{1}"),
        ] {
            ids.push(other).expect(&rt, "memory");
        }
        for generation in [7, 1, 300, 2] {
            ids.push(generated(&rt, generation)).expect(&rt, "memory");
        }
        check_all_are_found(&rt, rt.alloc(), ids.as_slice());
        check_clash_is_told(&rt, rt.alloc(), ids.as_slice());
        ids.as_mut_slice().reverse();
        check_all_are_found(&rt, rt.alloc(), ids.as_slice());
    }
}

/// Each of these names needs new keys for the one before it, and a sort computes at most 16 for each
/// name, so the last ones are compared by whole names.
#[test]
fn names_that_begin_with_each_other_are_told_apart(rt: HostRuntime) {
    let mut texts = Vec::new(rt.alloc());
    let mut start = String::new(rt.alloc());
    for _ in 0..40 {
        start.push_str("aaaaaaaa").expect(&rt, "memory");
        texts
            .push(format!(in rt.alloc(); "{start}b").expect(&rt, "memory"))
            .expect(&rt, "memory");
    }
    let mut ids = Vec::new(rt.alloc());
    for text in texts.iter() {
        ids.push(written(text.as_str())).expect(&rt, "memory");
    }
    check_all_are_found(&rt, rt.alloc(), ids.as_slice());
    check_clash_is_told(&rt, rt.alloc(), ids.as_slice());
    ids.as_mut_slice().reverse();
    check_all_are_found(&rt, rt.alloc(), ids.as_slice());
}
