//! The calls of `wat_bytes`, with enough memory, and how tokens are put in groups.

use std::alloc::Global;
use wast_core::{EncodeOptions, discard_module};
use wast_tree::{Form, Gensym, Space};
use wat_bytes::{
    Refused, UncoveredForm, encode_last_text, encode_text, encoded_text, module_of, names_of,
    names_of_last_text, names_of_text, number_in, number_in_text,
};
use wat_text::{Strings, read};
use wat_tokens::token_groups_of;

/// A module with an id in each index space, after an item without one.
const EACH_SPACE: &str = r#"(module
    (type (func)) (type $ty (func))
    (func) (func $f)
    (table 1 funcref) (table $t 1 funcref)
    (memory 1) (memory $m 1)
    (global i32 (i32.const 0)) (global $g i32 (i32.const 0))
    (tag) (tag $tag)
    (elem func) (elem $e func)
    (data "") (data $d ""))"#;

/// The name of the id in each index space, by the rank of the index space.
const NAMES: [&str; 8] = ["f", "t", "m", "g", "tag", "e", "d", "ty"];

/// Returns the unsupported construct of a text.
fn uncovered<'a>(alloc: Global, text: &'a str, strings: &'a Strings) -> Option<UncoveredForm<'a>> {
    match encode_text(alloc, text, strings) {
        Err(Refused::Uncovered(uncovered)) => Some(uncovered),
        _ => None,
    }
}

#[test]
fn ids_are_listed_by_index_space_and_index(rt: HostRuntime) {
    let strings = Strings::new(rt.alloc());
    let text =
        r#"(module (type $t (func)) (func) (func $z) (func $b) (memory $"a b" 1) (export "e" (func $z)))"#;
    let names = names_of_text(rt.alloc(), text, &strings).expect(&rt, "names");
    let told = [
        (Space::Func, "z", 1_u32, 38_usize),
        (Space::Func, "b", 2, 48),
        (Space::Memory, "a b", 0, 60),
        (Space::Ty, "t", 0, 14),
    ];
    assert!(rt; names.len() == told.len());
    for (denoted, (space, name, number, offset)) in names.iter().zip(&told) {
        assert!(rt; denoted.space.is(*space) && denoted.id.name() == *name);
        assert!(rt; denoted.number == *number && denoted.id.span().offset == *offset);
    }
    let refused = names_of_text(rt.alloc(), "(module (start $f))", &strings).err();
    assert!(rt;
        refused.is_some_and(|refused| matches!(refused.span(), Some(span) if span.offset == 15))
    );
}

#[test]
fn each_index_space_lists_its_ids(rt: HostRuntime) {
    let strings = Strings::new(rt.alloc());
    let names = names_of_text(rt.alloc(), EACH_SPACE, &strings).expect(&rt, "names");
    assert!(rt; names.len() == 8);
    for (space, denoted) in Space::ALL.iter().zip(&names) {
        let name = NAMES[space.rank()];
        assert!(rt; denoted.space == *space && denoted.id.name() == name && denoted.number == 1);
        for other in &Space::ALL {
            let found = number_in_text(rt.alloc(), EACH_SPACE, &strings, *other, name);
            let found = found.expect(&rt, "a number");
            assert!(rt; found == if other == space { Some(1) } else { None });
        }
    }
}

#[test]
fn parsed_module_encodes_as_its_text(rt: HostRuntime) {
    let strings = Strings::new(rt.alloc());
    let text = "(module (func) (func $f))";
    let of_text = encode_text(rt.alloc(), text, &strings).expect(&rt, "bytes");
    let module = read(rt.alloc(), text, &strings).expect(&rt, "a module");
    assert!(rt;
        encoded_text(rt.alloc(), module)
            .expect(&rt, "bytes")
            .as_slice()
            == of_text.as_slice()
    );
    let parsed = read(rt.alloc(), text, &strings).expect(&rt, "a module");
    let mut module = module_of(parsed);
    let mut gensym = Gensym::new(1);
    let bytes = EncodeOptions::new().check_and_encode(rt.alloc(), &mut module, &mut gensym);
    discard_module(module);
    assert!(rt; bytes.is_ok_and(|bytes| bytes.as_slice() == of_text.as_slice()));
    let module = read(rt.alloc(), text, &strings).expect(&rt, "a module");
    assert!(rt; names_of(rt.alloc(), module).expect(&rt, "names").len() == 1);
    let module = read(rt.alloc(), text, &strings).expect(&rt, "a module");
    let number = number_in(rt.alloc(), module, Space::Func, "f").expect(&rt, "a number");
    assert!(rt; number == Some(1));
}

#[test]
fn last_text_has_the_result_of_other_texts(rt: HostRuntime) {
    let strings = Strings::new(rt.alloc());
    for text in [
        EACH_SPACE,
        "(module binary \"\\00asm\")",
        "(module (start $f))",
        "(module (func i64.add128))",
        "(module (func",
    ] {
        let last = encode_last_text(rt.alloc(), text, &strings);
        match encode_text(rt.alloc(), text, &strings) {
            Ok(bytes) => {
                let last = last.expect(&rt, text);
                assert!(rt; last.as_slice() == bytes.as_slice(), "{text}");
            }
            Err(refused) => assert!(rt; last.err() == Some(refused), "{text}"),
        }
        let last = names_of_last_text(rt.alloc(), text, &strings);
        match names_of_text(rt.alloc(), text, &strings) {
            Ok(names) => {
                let last = last.expect(&rt, text);
                assert!(rt; last.as_slice() == names.as_slice(), "{text}");
            }
            Err(refused) => assert!(rt; last.err() == Some(refused), "{text}"),
        }
    }
}

#[test]
fn unsupported_construct_has_token_and_position(rt: HostRuntime) {
    let strings = Strings::new(rt.alloc());
    for (text, form, offset, word) in [
        (
            "(module (func $f) (type $c (cont 0)))",
            Form::StackSwitching,
            28_usize,
            "cont",
        ),
        (
            "(module (func $a) (func $b i64.add128))",
            Form::Beyond,
            27,
            "i64.add128",
        ),
        (
            "(module (func $a) (func (param anyref) (drop (ref.test nullcontref (local.get 0)))))",
            Form::StackSwitching,
            55,
            "nullcontref",
        ),
        (
            "(module (func) (func (local (ref (shared any)))))",
            Form::Shared,
            34,
            "shared",
        ),
        (
            "(module (func (nop)) (func $b atomic.fence acq_rel))",
            Form::Ordering,
            43,
            "acq_rel",
        ),
        (
            "(module (memory 1) (func memory.discard))",
            Form::Beyond,
            25,
            "memory.discard",
        ),
        (
            "(module (type (func)) (type $s (struct (field i32))) (func (struct.atomic.get $s 0 (unreachable)) drop))",
            Form::Atomic,
            60,
            "struct.atomic.get",
        ),
        (
            "(module (import \"a\" (item \"b\" (func))))",
            Form::CompactImports,
            21,
            "item",
        ),
    ] {
        let uncovered = uncovered(rt.alloc(), text, &strings).expect(&rt, text);
        let at = uncovered.span.offset;
        assert!(rt; uncovered.form == form && at == offset, "{at}: {text}");
        assert!(rt; uncovered.word == Some(word), "{text}");
    }
    let text = "(module (func $f) (type $c (cont 0)))";
    assert!(rt; names_of_text(rt.alloc(), text, &strings).is_ok());
}

#[test]
fn unsupported_construct_is_printed_with_token(rt: HostRuntime) {
    let strings = Strings::new(rt.alloc());
    let refused = encode_text(rt.alloc(), "(func i64.add128)", &strings).err();
    let refused = refused.expect(&rt, "it is covered");
    let printed = format!(in rt.alloc(); "{refused}").expect(&rt, "memory");
    assert!(rt; printed.as_str() == "uncovered form: instruction beyond the table: `i64.add128`");
}

#[test]
fn groups_of_tokens_have_512_each(rt: HostRuntime) {
    let strings = Strings::new(rt.alloc());
    let mut text = Vec::new(rt.alloc());
    for _ in 0..600 {
        text.push(b')').expect(&rt, "memory");
    }
    let text = std::str::from_utf8(text.as_slice()).expect(&rt, "a text");
    let found = token_groups_of(rt.alloc(), text, &strings).expect(&rt, "tokens");
    assert!(rt; found.count == 600 && found.groups.len() == 2);
    for (group, length) in found.groups.iter().zip(&[512, 88]) {
        assert!(rt; group.len() == *length);
    }
}
