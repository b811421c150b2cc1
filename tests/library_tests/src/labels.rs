//! Labels of many blocks, with enough memory, because contracts permit each call that allocates to
//! fail.

use std::process::Abort;
use wast_base::{Id, Index, Span};
use wast_resolve_labels::Labels;

fn id<'a>(name: &'a str) -> Id<'a> {
    Id::new(name, Span { offset: 7 })
}

fn open<'a>(rt: &impl Abort, labels: &mut Labels<'a>, label: Option<Id<'a>>) {
    assert!(rt; !labels.is_full());
    labels.open(label).expect(rt, "memory");
}

fn open_many<'a>(rt: &impl Abort, labels: &mut Labels<'a>, label: Id<'a>) {
    for _ in 0..10000 {
        open(rt, labels, Some(label));
    }
}

#[test]
fn one_label_is_that_of_the_innermost_block(rt: HostRuntime) {
    let mut labels = Labels::new(rt.alloc());
    open_many(&rt, &mut labels, id("l"));
    let mut branch = Index::Id(id("l"));
    assert!(rt; labels.number(&mut branch) == Ok(0));
    assert!(rt; branch == Index::Num(0, Span { offset: 7 }));
    for _ in 0..100 {
        open(&rt, &mut labels, None);
    }
    assert!(rt; labels.denotes(&id("l")) == Some(100));
}

fn open_each<'a>(rt: &impl Abort, labels: &mut Labels<'a>, texts: &'a [String]) {
    for text in texts {
        open(rt, labels, Some(id(text.as_str())));
    }
}

fn are_apart<'a>(rt: &impl Abort, labels: &mut Labels<'a>, texts: &'a [String]) {
    let mut want = 10000u32;
    for text in texts {
        assert!(rt; want > 0);
        want -= 1;
        let mut branch = Index::Id(id(text.as_str()));
        labels.reach(&branch).expect(rt, "memory");
        assert!(rt; labels.number(&mut branch) == Ok(want));
    }
}

#[test]
fn many_labels_are_told_apart(rt: HostRuntime) {
    let mut texts = Vec::new(rt.alloc());
    for n in 0..10000 {
        let text = format!(in rt.alloc(); "{n}").expect(&rt, "memory");
        texts.push(text).expect(&rt, "memory");
    }
    let mut labels = Labels::new(rt.alloc());
    open_each(&rt, &mut labels, &texts);
    are_apart(&rt, &mut labels, &texts);
    open_each(&rt, &mut labels, &texts);
    // They are indexed after comparing them has taken as long.
    for _ in 0..257 {
        labels.reach_all().expect(&rt, "memory");
    }
    let mut outermost = Index::Id(id("0"));
    assert!(&rt; labels.is_near() && !labels.try_number(&mut outermost));
    for _ in 0..10000 {
        labels.close();
    }
    are_apart(&rt, &mut labels, &texts);
}
