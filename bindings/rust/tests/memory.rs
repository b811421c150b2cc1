//! Each call returns E12, or what it returns with ample memory, if a request of its own is refused.

use rigyomad::script::Script;
use rigyomad::{encode, names, names_within, parse_bytes, parse_str, Fault, Kind};
use std::alloc::{GlobalAlloc, Layout, System};
use std::cell::Cell;

/// An allocator that refuses one request of a thread.
struct Refuses;

thread_local! {
    /// The request that is refused, counted down from its number; 0 if none is.
    static LEFT: Cell<usize> = const { Cell::new(0) };
}

/// Whether this request is the one that is refused.
fn is_refused() -> bool {
    let left = LEFT.with(Cell::get);
    LEFT.with(|it| it.set(left.saturating_sub(1)));
    left == 1
}

// SAFETY: it does as `System` does, or refuses.
unsafe impl GlobalAlloc for Refuses {
    unsafe fn alloc(&self, layout: Layout) -> *mut u8 {
        if is_refused() {
            return std::ptr::null_mut();
        }
        System.alloc(layout)
    }

    unsafe fn dealloc(&self, pointer: *mut u8, layout: Layout) {
        System.dealloc(pointer, layout)
    }
}

#[global_allocator]
static ALLOCATOR: Refuses = Refuses;

/// Makes a call with each of its requests refused in turn. Returns how many requests it made.
fn refuse_each<T, E>(call: impl Fn() -> Result<T, E>, kind_of: impl Fn(&E) -> Kind) -> usize
where
    Result<T, E>: PartialEq,
{
    let ample = call();
    for number in 1.. {
        LEFT.with(|it| it.set(number));
        let answer = call();
        let was_refused = LEFT.with(|it| it.replace(0)) == 0;
        if !was_refused {
            assert!(answer == ample);
            return number - 1;
        }
        let kind = answer.as_ref().err().map(&kind_of);
        assert!(answer == ample || kind == Some(Kind::Memory));
    }
    unreachable!()
}

#[test]
fn refused_request_of_encode_is_an_error() {
    assert_eq!(refuse_each(|| encode("(module (func $f))"), Fault::kind), 1);
}

#[test]
fn fault_without_a_place_has_its_file() {
    LEFT.with(|it| it.set(1));
    let mut error = parse_str("(module)").unwrap_err();
    assert_eq!(
        (error.to_string(), format!("{error:#}")),
        ("out of memory".into(), "out of memory".into())
    );
    error.set_path("a.wat");
    assert_eq!(error.to_string(), "a.wat: out of memory");
    assert_eq!(format!("{error:#}"), "out of memory\n --> a.wat");
}

#[test]
fn refused_request_for_a_longer_message_is_an_error() {
    let text = format!("(module (start ${}))", "n".repeat(1000));
    assert_eq!(refuse_each(|| encode(&text), Fault::kind), 5);
}

#[test]
fn refused_request_for_bytes_that_are_not_utf8_is_an_error() {
    let call = || match parse_bytes(b"(module)\xff") {
        Ok(bytes) => Ok(bytes.len()),
        Err(error) => Err(error.fault().unwrap().kind()),
    };
    assert_eq!(call(), Err(Kind::Malformed));
    assert_eq!(refuse_each(call, |kind| *kind), 2);
}

#[test]
fn refused_request_of_names_is_an_error() {
    assert_eq!(refuse_each(|| names("(module (func $f) (memory $m 1))"), Fault::kind), 5);
}

#[test]
fn refused_request_of_names_within_is_an_error() {
    let text = "(module (func (param $a i32) (local $b i32)))";
    assert_eq!(refuse_each(|| names_within(text), Fault::kind), 4);
}

#[test]
fn refused_request_of_a_script_is_an_error() {
    let call = || Script::parse("(thread $T (wait $U))").map(|it| it.directives().count());
    assert_eq!(refuse_each(call, Fault::kind), 4);
}
