//! Answers at the edges: words, columns, sizes of buffers, and sections of other names.

use rigyomad::{encode, names_within, parse_bytes, Kind, Within};

/// Each kind, its number, and what it says.
const KINDS: [(Kind, Option<u32>, &str); 14] = [
    (Kind::Malformed, None, "the text is not a module"),
    (Kind::ImportAfter, Some(1), "an import comes after a definition"),
    (Kind::Duplicate, Some(2), "two items of one index space, or two locals, have the same id"),
    (Kind::DuplicateField, Some(3), "two fields of a struct have the same id"),
    (Kind::Unknown, Some(4), "nothing has this name"),
    (Kind::NotFunc, Some(5), "a type use has a type that is not a function type"),
    (Kind::OutOfBounds, Some(6), "a type index is out of bounds"),
    (Kind::NoMatch, Some(7), "an inline type is not the type at the index"),
    (Kind::Labels, Some(8), "the label at the end of a block is not that at its start"),
    (Kind::NoNamedFields, Some(9), "a field is accessed by name, but the type has no named fields"),
    (Kind::TooLarge, Some(10), "a count or a size does not fit in 32 bits"),
    (Kind::Uncovered, Some(11), "an unsupported construct, which resolves but cannot be encoded"),
    (Kind::Memory, Some(12), "allocation failed"),
    (Kind::Component, Some(13), "the module is a component, not a core module"),
];

#[test]
fn each_kind_has_its_words() {
    for (kind, number, text) in KINDS {
        assert_eq!((kind.number(), kind.text(), kind.to_string().as_str()), (number, text, text));
    }
}

#[test]
fn columns_are_bytes() {
    let place = encode("(module (;é日;) (start $f))").unwrap_err().place().unwrap();
    assert_eq!((place.line, place.column, place.offset), (1, 26, 25));
    let place = encode("(module\r (start $f))").unwrap_err().place().unwrap();
    assert_eq!((place.line, place.column, place.offset), (1, 17, 16));
    let error = parse_bytes(b"\n;;\r\xc3\xa9\xff").unwrap_err();
    let place = error.fault().unwrap().place().unwrap();
    assert_eq!((place.line, place.column, place.offset), (2, 6, 6));
    let error = parse_bytes(b"\n;;\xc3\xa9\xe6\x97\xa5\xff").unwrap_err();
    let place = error.fault().unwrap().place().unwrap();
    assert_eq!((place.line, place.column, place.offset), (2, 8, 8));
}

#[test]
fn messages_of_each_length_are_whole() {
    for length in 1..600 {
        let name = "n".repeat(length);
        let fault = encode(&format!("(module (start ${name}))")).unwrap_err();
        assert_eq!(fault.message(), format!("unknown func: failed to find name `${name}`"));
    }
}

#[test]
fn module_that_is_longer_than_its_text_is_whole() {
    for count in 0..100 {
        let bytes = encode(&format!("(module (data (i64{})))", " 1".repeat(count))).unwrap();
        assert_eq!(bytes[bytes.len() - 8 * count..], [1, 0, 0, 0, 0, 0, 0, 0].repeat(count));
    }
}

#[test]
fn section_of_another_name_has_no_names() {
    for name in ["names", "nam", "nom", ""] {
        let custom = format!(r#"(@custom "{name}" (before first) "\02\06\01\00\01\07\01z")"#);
        let names = names_within(&format!("(module {custom} (func (local $a i32)))")).unwrap();
        let names: Vec<_> = names.iter().map(|it| (it.kind, it.number, it.name.as_str())).collect();
        assert_eq!(names, [(Within::Local, 0, "a")]);
    }
}
