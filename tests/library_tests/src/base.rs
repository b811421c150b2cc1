//! Ids, indices, errors, the id counter, lists and boxes of `wast_base`.

use std::hash::{DefaultHasher, Hash, Hasher};
use wast_base::{Boxed, Error, Fault, Form, Gensym, Id, Index, Seq, Space, Span};

fn at(offset: usize) -> Span {
    Span { offset }
}

fn fault_at(offset: usize, fault: Fault<'static>) -> Error<'static> {
    Error::new(at(offset), fault)
}

#[test]
fn errors_without_a_position_have_their_messages(rt: HostRuntime) {
    let refused = [
        (10, Error::refusal(Fault::TooLarge), "too large"),
        (
            11,
            Error::refusal(Fault::Uncovered(Form::ArrayMemArg)),
            "uncovered form: array memory argument",
        ),
        (12, Error::refusal(Fault::Memory), "out of memory"),
        (
            13,
            Error::refusal(Fault::Component),
            "components are not encoded",
        ),
    ];
    for (number, error, want) in &refused {
        let text = format!(in rt.alloc(); "{error}").expect(&rt, "memory");
        assert!(rt; text.as_str() == *want, "{text}");
        assert!(rt;
            error.number() == *number && error.span().is_none(),
            "{text}"
        );
    }
}

#[test]
fn errors_at_different_positions_differ(rt: HostRuntime) {
    let error = fault_at(1, Fault::Labels);
    assert!(rt; at(1) == at(1) && at(1) != at(2));
    assert!(rt; error == fault_at(1, Fault::Labels));
    assert!(rt; error != fault_at(2, Fault::Labels) && error != fault_at(1, Fault::NoMatch));
    let memory = Error::refusal(Fault::Memory);
    assert!(rt; memory == Error::refusal(Fault::Memory) && memory != error);
}

fn hash_of<T: Hash>(value: &T) -> u64 {
    let mut state = DefaultHasher::new();
    value.hash(&mut state);
    state.finish()
}

#[test]
fn equality_of_ids_ignores_positions(rt: HostRuntime) {
    let mut gensym = Gensym::new(1);
    let made = gensym.generate(at(5)).expect(&rt, "counter");
    let next = gensym.generate(at(5)).expect(&rt, "counter");
    let mut again = Gensym::new(1);
    let made_again = again.generate(at(6)).expect(&rt, "counter");
    let next_again = again.generate(at(6)).expect(&rt, "counter");
    // each pair of neighbours differs
    let ids = [
        (Id::new("f", at(1)), Id::new("f", at(2)), "f", 0),
        (Id::new("ff", at(1)), Id::new("ff", at(1)), "ff", 0),
        (made, made_again, "gensym", 1),
        (
            Id::new("gensym", at(1)),
            Id::new("gensym", at(3)),
            "gensym",
            0,
        ),
        (next, next_again, "gensym", 2),
    ];
    let mut last = Id::new("g", at(1));
    for (id, moved, name, generation) in &ids {
        assert!(rt; *id == *moved && id.is_same(moved) && hash_of(id) == hash_of(moved));
        assert!(rt; *id != last && !id.is_same(&last) && hash_of(id) != hash_of(&last));
        assert!(rt; id.name() == *name && id.generation() == *generation);
        assert!(rt; id.is_gensym() == (*generation > 0));
        let (index, other) = (Index::Id(*id), Index::Id(*moved));
        assert!(rt; index == other && index.is_same(&other) && hash_of(&index) == hash_of(&other));
        assert!(rt; !index.is_resolved() && index.span() == id.span());
        assert!(rt; !index.is_same(&Index::Id(last)) && !index.is_same(&Index::Num(0, at(1))));
        last = *id;
    }
}

#[test]
fn equality_of_numbers_ignores_positions(rt: HostRuntime) {
    let (number, other) = (Index::Num(3, at(8)), Index::Num(3, at(9)));
    assert!(rt; number == other && number.is_same(&other) && hash_of(&number) == hash_of(&other));
    assert!(rt; number.is_resolved() && number.span() == at(8));
    assert!(rt; !number.is_same(&Index::Num(4, at(8))));
}

#[test]
fn ids_and_numbers_are_printed(rt: HostRuntime) {
    let alloc = rt.alloc();
    let made = Gensym::new(3).generate(at(5)).expect(&rt, "counter");
    let indices = [
        (Index::Id(Id::new("f", at(1))), "$f"),
        (Index::Id(Id::new("gensym", at(1))), "$gensym"),
        (Index::Id(made), "gensym 3"),
        (Index::Num(0, at(7)), "0"),
        (Index::Num(4294967295, at(7)), "4294967295"),
    ];
    for (index, want) in &indices {
        let text = format!(in alloc; "{index}").expect(&rt, "memory");
        assert!(rt; text.as_str() == *want, "{text}");
        if let Index::Id(id) = *index {
            let text = format!(in alloc; "{id}").expect(&rt, "memory");
            assert!(rt; text.as_str() == *want, "{text}");
        }
    }
}

#[test]
fn numbers_and_ids_convert_to_indices(rt: HostRuntime) {
    assert!(rt; Span::default() == at(0));
    let number = Index::from(7);
    assert!(rt; number == Index::Num(7, at(3)) && number.span() == at(0));
    let id: Index<'static> = Id::new("f", at(4)).into();
    assert!(rt; id == Index::Id(Id::new("f", at(9))) && id.span() == at(4));
}

#[test]
fn counter_rises_by_one_and_never_overflows(rt: HostRuntime) {
    let too_large = Error::refusal(Fault::TooLarge);
    let mut gensym = Gensym::new(3);
    let mut slot = None;
    let id = gensym.fill(at(4), &mut slot).expect(&rt, "counter");
    assert!(rt; id.generation() == 3 && id.span() == at(4) && gensym.peek() == 4);
    assert!(rt; gensym.fill(at(5), &mut slot) == Ok(id));
    assert!(rt; slot.is_some_and(|there| there == id && there.span() == at(4)));
    assert!(rt; gensym.peek() == 4);
    assert!(rt;
        gensym
            .generate(at(6))
            .is_ok_and(|id| id.generation() == 4 && id.span() == at(6))
    );
    assert!(rt; gensym.peek() == 5);
    let mut last = Gensym::new(18446744073709551615);
    for _ in 0..2 {
        assert!(rt; last.generate(at(7)) == Err(too_large));
        let mut empty = None;
        assert!(rt; last.fill(at(7), &mut empty) == Err(too_large) && empty.is_none());
        assert!(rt; last.peek() == 18446744073709551615);
    }
    assert!(rt; last.fill(at(7), &mut slot) == Ok(id));
}

#[test]
fn lists_and_boxes_return_stored_values(rt: HostRuntime) {
    let alloc = rt.alloc();
    let mut list = Seq::new(alloc);
    assert!(rt; list.is_empty() && list.len() == 0);
    list.push(1).expect(&rt, "memory");
    list.push(2).expect(&rt, "memory");
    *list.at_mut(1) = 5;
    assert!(rt; !list.is_empty() && list.len() == 2 && list.as_slice() == [1, 5].as_slice());
    let mut list = Seq::from_vec(list.into_vec());
    list.push(9).expect(&rt, "memory");
    let mut last = 0;
    for item in &list {
        assert!(rt; *item > last);
        last = *item;
    }
    assert!(rt; last == 9 && list[0] == 1 && list[2] == 9);
    assert!(rt; list.iter().rev().copied().next() == Some(9) && list.iter().count() == 3);
    let mut rest = list.into_iter();
    for want in [Some(1), Some(5), Some(9), None] {
        assert!(rt; rest.next() == want);
    }
    let mut boxed = Boxed::new(alloc, 7).expect(&rt, "memory");
    assert!(rt; *boxed.get() == 7);
    *boxed.get_mut() = 8;
    assert!(rt; boxed.into_inner() == 8);
}

#[test]
fn lists_and_boxes_print_their_contents(rt: HostRuntime) {
    let alloc = rt.alloc();
    let mut list = Seq::new(alloc);
    for item in [1, 20] {
        let boxed = Boxed::new(alloc, item).expect(&rt, "memory");
        list.push(boxed).expect(&rt, "memory");
    }
    let text = format!(in alloc; "{list:?}").expect(&rt, "memory");
    assert!(rt; text.as_str() == "[1, 20]", "{text}");
    let nested = Boxed::new(alloc, Some(list)).expect(&rt, "memory");
    let text = format!(in alloc; "{nested:?}").expect(&rt, "memory");
    assert!(rt; text.as_str() == "Some([1, 20])", "{text}");
    let lines = "Some(\n    [\n        1,\n        20,\n    ],\n)";
    let text = format!(in alloc; "{nested:#?}").expect(&rt, "memory");
    assert!(rt; text.as_str() == lines, "{text}");
    let empty = format!(in alloc; "{:?}", Seq::<u8>::new(alloc)).expect(&rt, "memory");
    assert!(rt; empty.as_str() == "[]", "{empty}");
}

#[test]
fn index_spaces_have_words_and_ranks(rt: HostRuntime) {
    let words = [
        "func", "table", "memory", "global", "tag", "elem", "data", "type",
    ];
    for rank in 0..8 {
        let space = Space::ALL[rank];
        assert!(rt; space.rank() == rank && space.word() == words[rank]);
        let text = format!(in rt.alloc(); "{space}").expect(&rt, "memory");
        assert!(rt; text.as_str() == words[rank], "{text}");
    }
}
